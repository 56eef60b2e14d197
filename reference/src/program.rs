//! The program over the current folder.

use std::fs::File;
use std::io::{Read, Write};

use crate::counts::Counts;
use crate::lists::Refusal;
use crate::model::{Network, Sets, Thresholds};
use crate::table::{run_by, FILES};
use crate::text::MAX_TEXT;

/// A file that cannot be opened, or of which a read fails, counts as empty. One
/// byte above the limit is enough to see that a text is too long.
fn contents(name: &str) -> Vec<u8> {
    let mut text = Vec::new();
    if let Ok(file) = File::open(name) {
        if file.take(MAX_TEXT as u64 + 1).read_to_end(&mut text).is_err() {
            text.clear();
        }
    }
    text
}

/// Reads the three texts in the current folder and prints the table, counted in
/// some way, or the refusal.
pub fn print_folder(count: impl FnOnce(&Network, &Sets, &Thresholds) -> Result<Counts, Refusal>) {
    let [network, reports, thresholds] = FILES.map(contents);
    let out = run_by(count, &network, &reports, &thresholds);
    if let Err(error) = std::io::stdout().write_all(out.as_bytes()) {
        eprintln!("the output was not written in full: {error}");
    }
}
