//! The folders that a program is run in.

use std::fs;
use std::path::{Path, PathBuf};

use reference::table::FILES;

use super::handed_over;

/// The proved program, if it is handed over.
pub fn program() -> Option<PathBuf> {
    handed_over("KC_PROGRAM")
}

/// One file of a folder.
#[derive(Clone, Debug)]
pub enum File {
    Text(Vec<u8>),
    Missing,
    /// A folder of that name: it opens, but cannot be read.
    Folder,
}

pub use File::{Folder, Missing, Text};

pub fn text(bytes: impl AsRef<[u8]>) -> File {
    Text(bytes.as_ref().to_vec())
}

/// Puts the files in place of those of the last turn.
pub fn lay(folder: &Path, files: &[File; 3]) {
    fs::create_dir_all(folder).expect("a folder");
    for (name, file) in FILES.iter().zip(files) {
        let path = folder.join(name);
        let _ = fs::remove_file(&path);
        let _ = fs::remove_dir(&path);
        match file {
            Text(bytes) => fs::write(&path, bytes).expect("a file"),
            Missing => {}
            Folder => fs::create_dir(&path).expect("a folder"),
        }
    }
}

/// A folder of a test's own.
pub fn folder(name: &str) -> PathBuf {
    Path::new(env!("CARGO_TARGET_TMPDIR")).join(name)
}
