//! The program itself, in a folder of its own.

mod common;

use std::fs;
use std::path::PathBuf;
use std::process::Command;

use common::*;

fn folder(name: &str) -> PathBuf {
    let path = PathBuf::from(env!("CARGO_TARGET_TMPDIR")).join(name);
    let _ = fs::remove_dir_all(&path);
    fs::create_dir_all(&path).expect("a folder");
    path
}

fn printed(folder: &PathBuf) -> String {
    let out = Command::new(env!("CARGO_BIN_EXE_kcount_reference")).current_dir(folder).output().expect("it runs");
    assert!(out.status.success());
    assert!(out.stderr.is_empty());
    String::from_utf8(out.stdout).expect("text")
}

#[test]
fn reads_and_prints() {
    let path = folder("reads_and_prints");
    assert_eq!(printed(&path), "refused,network.gr,5,1\r\n");
    fs::write(path.join("network.gr"), FULL_NETWORK).unwrap();
    assert_eq!(printed(&path), "refused,reports.csv,4,1\r\n");
    fs::write(path.join("reports.csv"), FULL_REPORTS).unwrap();
    assert_eq!(printed(&path), "refused,thresholds.csv,4,1\r\n");
    fs::write(path.join("thresholds.csv"), FULL_THRESHOLDS).unwrap();
    assert_eq!(printed(&path), FULL_OUTPUT);
    fs::write(path.join("thresholds.csv"), vec![b'0'; 70_000]).unwrap();
    assert_eq!(printed(&path), "refused,thresholds.csv,1,0\r\n");
    fs::remove_file(path.join("reports.csv")).unwrap();
    fs::create_dir(path.join("reports.csv")).unwrap();
    assert_eq!(printed(&path), "refused,reports.csv,4,1\r\n");
}
