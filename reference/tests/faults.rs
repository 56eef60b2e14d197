//! The proved program where calls of the system fail, are interrupted or move
//! few bytes, and where its files and its output are of other kinds.
//!
//! A library that is preloaded (faults/faults.c, compiled here by gcc) makes the
//! calls fail. It counts them, so that a test can say that they did. KC_PROGRAM
//! is the path of the proved program; without it these tests say so and do
//! nothing, and fail where CI is set.

mod common;

use std::fs::{self, File, OpenOptions};
use std::io::Write;
use std::os::unix::fs::OpenOptionsExt;
use std::os::unix::process::ExitStatusExt;
use std::path::{Path, PathBuf};
use std::process::{Command, Output, Stdio};
use std::sync::OnceLock;
use std::thread;
use std::time::Duration;

use common::program::*;
use common::*;
use reference::random;
use reference::table::FILES;
use reference::text::MAX_TEXT;

/// What is printed where a file is empty: an empty one is never accepted.
const IF_EMPTY: [&str; 3] = ["refused,network.gr,5,1\r\n", "refused,reports.csv,4,1\r\n", "refused,thresholds.csv,4,1\r\n"];

const FULL: [&[u8]; 3] = [FULL_NETWORK, FULL_REPORTS, FULL_THRESHOLDS];

/// The start of the line on standard error where the output is not written.
const NOT_WRITTEN: &str = "kcount: the output was not written in full: ";

/// Error numbers of Linux.
const EIO: i64 = 5;
const EAGAIN: i64 = 11;
const EISDIR: i64 = 21;
const ENOSPC: i64 = 28;

/// The library that makes calls fail.
fn faulty_calls() -> &'static Path {
    static LIBRARY: OnceLock<PathBuf> = OnceLock::new();
    LIBRARY.get_or_init(|| {
        let source = Path::new(env!("CARGO_MANIFEST_DIR")).join("tests/faults/faults.c");
        let library = Path::new(env!("CARGO_TARGET_TMPDIR")).join("libfaults.so");
        let mut gcc = Command::new("gcc");
        gcc.args(["-std=gnu11", "-Wall", "-Wextra", "-Werror", "-O1", "-shared", "-fPIC"]);
        let compiled = gcc.arg(source).arg("-o").arg(&library).output().expect("gcc");
        assert!(compiled.status.success(), "{}", String::from_utf8_lossy(&compiled.stderr));
        library
    })
}

/// What faults.c counted.
#[derive(Debug)]
struct Calls {
    opens: u64,
    reads: u64,
    writes: u64,
    interrupted: u64,
    failed: u64,
    bytes_read: u64,
    bytes_written: u64,
}

/// What came out of a run.
#[derive(Debug)]
struct Told {
    out: String,
    errors: String,
    calls: Calls,
}

/// A fault by the name that faults.c has for it.
type Fault = (&'static str, i64);

/// Runs the program with the faults, those of opening and reading at one file.
fn run(program: &Path, folder: &Path, file: usize, faults: &[Fault]) -> Told {
    let log = folder.join("calls.log");
    let _ = fs::remove_file(&log);
    let mut command = Command::new(program);
    command.current_dir(folder).env("LD_PRELOAD", faulty_calls());
    command.env("FAULT_FILE", FILES[file]).env("FAULT_LOG", &log);
    for (name, value) in faults {
        command.env(format!("FAULT_{name}"), value.to_string());
    }
    let out = command.output().expect("it runs");
    assert!(out.status.success(), "{:?}", out.status);
    let log = fs::read_to_string(&log).expect("the calls: the library was preloaded");
    let counts: Vec<u64> = log.split(' ').map(|count| count.parse().expect("a number")).collect();
    let [opens, reads, writes, interrupted, failed, bytes_read, bytes_written] = counts[..] else { panic!("{log}") };
    let calls = Calls { opens, reads, writes, interrupted, failed, bytes_read, bytes_written };
    Told { out: text_of(out.stdout), errors: text_of(out.stderr), calls }
}

fn text_of(bytes: Vec<u8>) -> String {
    String::from_utf8(bytes).expect("text")
}

/// A folder of the full run, and what its files are made of.
fn full_folder(name: &str) -> PathBuf {
    let path = folder(name);
    lay(&path, &FULL.map(text));
    path
}

/// The full run's folder with one file replaced.
fn lay_with(folder: &Path, at: usize, bytes: &[u8]) {
    let mut files = FULL.map(text);
    files[at] = text(bytes);
    lay(folder, &files);
}

#[test]
fn few_bytes_at_a_time() {
    let Some(program) = program() else { return };
    let folder = full_folder("few_bytes_at_a_time");
    for (at, bytes) in FULL.iter().enumerate() {
        for most in [1, 2, 7, 64] {
            let told = run(&program, &folder, at, &[("READ_MOST", most), ("WRITE_MOST", most)]);
            assert_eq!((told.out.as_str(), told.errors.as_str()), (FULL_OUTPUT, ""), "{most} bytes of {}", FILES[at]);
            assert!(told.calls.reads >= (bytes.len() as u64).div_ceil(most as u64) + 1, "{told:?}");
            assert_eq!(told.calls.writes, (FULL_OUTPUT.len() as u64).div_ceil(most as u64), "{told:?}");
            assert_eq!(told.calls.bytes_read, FULL.iter().map(|text| text.len() as u64).sum::<u64>());
        }
    }
}

#[test]
fn the_longest_texts_byte_by_byte() {
    let Some(program) = program() else { return };
    let folder = full_folder("the_longest_texts_byte_by_byte");
    for (size, expected) in [(MAX_TEXT, FULL_OUTPUT), (MAX_TEXT + 1, "refused,network.gr,1,0\r\n")] {
        lay_with(&folder, 0, &random::stretch_gr(FULL_NETWORK, size));
        for faults in [&[("READ_MOST", 1)][..], &[("READ_MOST", 1), ("READ_INTERRUPTED", 2)]] {
            let told = run(&program, &folder, 0, faults);
            assert_eq!((told.out.as_str(), told.errors.as_str()), (expected, ""), "{size} bytes");
            assert!(told.calls.reads >= size as u64, "{told:?}");
        }
    }
}

#[test]
fn interrupted_calls() {
    let Some(program) = program() else { return };
    let folder = full_folder("interrupted_calls");
    for at in 0..3 {
        for (fault, calls) in [("OPEN_INTERRUPTED", 1), ("READ_INTERRUPTED", 2), ("WRITE_INTERRUPTED", 1)] {
            for times in [1, 5, 1_000, 300_000] {
                let told = run(&program, &folder, at, &[(fault, times)]);
                assert_eq!((told.out.as_str(), told.errors.as_str()), (FULL_OUTPUT, ""), "{fault} {times}");
                assert_eq!(told.calls.interrupted, calls * times as u64, "{told:?}");
            }
        }
        let all = [("OPEN_INTERRUPTED", 2), ("READ_INTERRUPTED", 3), ("WRITE_INTERRUPTED", 4), ("READ_MOST", 5), ("WRITE_MOST", 3)];
        let told = run(&program, &folder, at, &all);
        assert_eq!((told.out.as_str(), told.errors.as_str()), (FULL_OUTPUT, ""));
        assert!(told.calls.interrupted > 100, "{told:?}");
    }
}

/// The program ends, and what is read counts as empty. Opening a file is no case
/// here: the toolchain's library makes that call again, up to 2^64 times.
#[test]
fn interrupted_without_end() {
    let Some(program) = program() else { return };
    let folder = full_folder("interrupted_without_end");
    for at in 0..3 {
        let told = run(&program, &folder, at, &[("READ_INTERRUPTED", -1)]);
        assert_eq!((told.out.as_str(), told.errors.as_str()), (IF_EMPTY[at], ""));
        assert!(told.calls.interrupted > 1_000_000, "{told:?}");
    }
    let told = run(&program, &folder, 0, &[("WRITE_INTERRUPTED", -1)]);
    assert_eq!(told.out, "");
    assert_eq!(told.errors, format!("{NOT_WRITTEN}Interrupted system call\n"));
    assert!(told.calls.interrupted > 1_000_000, "{told:?}");
}

/// Reading fails after every number of bytes, that of the whole text included:
/// never a table, but what is printed where the file is empty.
#[test]
fn a_read_that_fails() {
    let Some(program) = program() else { return };
    let folder = full_folder("a_read_that_fails");
    for (at, bytes) in FULL.iter().enumerate() {
        for after in 0..=bytes.len() as i64 {
            for faults in [&[("ERROR", EIO)][..], &[("ERROR", EAGAIN), ("READ_MOST", 3)], &[("ERROR", EISDIR), ("READ_INTERRUPTED", 1)]] {
                let told = run(&program, &folder, at, &[faults, &[("READ_FAIL", after)]].concat());
                assert_eq!((told.out.as_str(), told.errors.as_str()), (IF_EMPTY[at], ""), "{} after {after} bytes", FILES[at]);
                assert_eq!(told.calls.failed, 1, "{told:?}");
            }
        }
        let told = run(&program, &folder, at, &[("READ_FAIL", bytes.len() as i64 + 1)]);
        assert_eq!((told.out.as_str(), told.calls.failed), (FULL_OUTPUT, 0));
    }
}

/// Texts whose first part would be accepted: a cut row has another offset, a cut
/// list fewer thresholds, a cut remark none of the rest.
#[test]
fn a_part_that_would_be_accepted() {
    let Some(program) = program() else { return };
    let folder = full_folder("a_part_that_would_be_accepted");
    let network = b"p sp 2 2\na 1 2 100\na 2 1 100\nc that is all\n";
    let reports = b"set,leg,offset\r\n0,1,1\r\n0,1,60\r\n";
    let thresholds = b"threshold\r\n2\r\n50\r\n5000";
    lay(&folder, &[text(network), text(reports), text(thresholds)]);
    let whole = run(&program, &folder, 0, &[]);
    assert_eq!(whole.out, "threshold,observed,least,greatest\r\n2,0,,\r\n50,0,,\r\n5000,2,,\r\n");
    let parts = [(0, network.len() - 9), (1, reports.len() - 3), (2, thresholds.len() - 1)];
    for (at, length) in parts {
        // The part by itself is accepted.
        let mut files = [&network[..], reports, thresholds].map(text);
        let Text(bytes) = &mut files[at] else { unreachable!() };
        bytes.truncate(length);
        lay(&folder, &files);
        let part = run(&program, &folder, at, &[]);
        assert!(part.out.starts_with("threshold,"), "{part:?}");
        lay(&folder, &[text(network), text(reports), text(thresholds)]);
        let told = run(&program, &folder, at, &[("READ_FAIL", length as i64)]);
        assert_eq!((told.out.as_str(), told.calls.failed), (IF_EMPTY[at], 1));
    }
}

/// At the limit and past it. Behind the byte that makes a text too long nothing
/// is read, so nothing fails there.
#[test]
fn a_read_that_fails_near_the_limit() {
    let Some(program) = program() else { return };
    let folder = full_folder("a_read_that_fails_near_the_limit");
    lay_with(&folder, 0, &random::stretch_gr(FULL_NETWORK, MAX_TEXT + 5));
    for after in [1, 4_095, 4_096, 4_097, MAX_TEXT - 1, MAX_TEXT] {
        for most in [1, 4_096, 100_000] {
            let told = run(&program, &folder, 0, &[("READ_FAIL", after as i64), ("READ_MOST", most)]);
            assert_eq!((told.out.as_str(), told.calls.failed), (IF_EMPTY[0], 1), "after {after} bytes");
        }
    }
    let told = run(&program, &folder, 0, &[("READ_FAIL", MAX_TEXT as i64 + 1)]);
    assert_eq!((told.out.as_str(), told.calls.failed), ("refused,network.gr,1,0\r\n", 0));
}

/// Writing fails after every number of bytes: those before it are written, and
/// one line says that the rest is not.
#[test]
fn a_write_that_fails() {
    let Some(program) = program() else { return };
    let folder = full_folder("a_write_that_fails");
    for after in 0..FULL_OUTPUT.len() {
        for most in [1_000, 4] {
            let told = run(&program, &folder, 0, &[("WRITE_FAIL", after as i64), ("WRITE_MOST", most), ("ERROR", ENOSPC)]);
            assert_eq!(told.out, FULL_OUTPUT[..after]);
            assert_eq!(told.errors, format!("{NOT_WRITTEN}No space left on device\n"), "after {after} bytes");
            assert_eq!(told.calls.bytes_written, after as u64);
        }
    }
    let told = run(&program, &folder, 0, &[("WRITE_FAIL", FULL_OUTPUT.len() as i64)]);
    assert_eq!((told.out.as_str(), told.errors.as_str()), (FULL_OUTPUT, ""));
    // What is lost only when the output is closed is not told: the toolchain's library has no call that closes it.
    let told = run(&program, &folder, 0, &[("CLOSE", 1)]);
    assert_eq!((told.out.as_str(), told.errors.as_str()), (FULL_OUTPUT, ""));
}

/// A refusal that is not written is told as well.
#[test]
fn a_full_device() {
    let Some(program) = program() else { return };
    let folder = full_folder("a_full_device");
    for files in [FULL.map(text), FULL.map(|_| Missing)] {
        lay(&folder, &files);
        let full = OpenOptions::new().write(true).open("/dev/full").expect("/dev/full");
        let out = Command::new(&program).current_dir(&folder).stdout(full).output().expect("it runs");
        assert!(out.status.success(), "{:?}", out.status);
        assert_eq!(text_of(out.stderr), format!("{NOT_WRITTEN}No space left on device\n"));
    }
}

/// The program started by a shell, with what the shell does before.
fn by_shell(program: &Path, folder: &Path, before: &str, redirected: &str) -> Output {
    let mut shell = Command::new("sh");
    shell.arg("-c").arg(format!("{before} exec \"$0\" {redirected}")).arg(program).current_dir(folder);
    shell.output().expect("a shell")
}

/// Also where the numbers of closed descriptors go to the files that are opened.
#[test]
fn a_closed_output() {
    let Some(program) = program() else { return };
    let folder = full_folder("a_closed_output");
    for redirected in [">&-", "<&- >&-"] {
        let out = by_shell(&program, &folder, "", redirected);
        assert!(out.status.success(), "{:?}", out.status);
        assert_eq!((out.stdout, text_of(out.stderr)), (Vec::new(), format!("{NOT_WRITTEN}Bad file descriptor\n")));
    }
    for redirected in ["<&-", "2>&-", "<&- 2>&-"] {
        let out = by_shell(&program, &folder, "", redirected);
        assert!(out.status.success(), "{:?}", out.status);
        assert_eq!((text_of(out.stdout), text_of(out.stderr)), (FULL_OUTPUT.to_string(), String::new()));
    }
    // Nobody is left to tell.
    assert!(by_shell(&program, &folder, "", "<&- >&- 2>&-").status.success());
    for (name, bytes) in FILES.iter().zip(FULL) {
        assert_eq!(fs::read(folder.join(name)).expect("a file"), bytes);
    }
}

/// Nobody reads the output: the program says that it failed, whether or not
/// whoever started it has the signal ignored (the toolchain's start of a program
/// ignores it).
#[test]
fn a_closed_pipe() {
    let Some(program) = program() else { return };
    let folder = full_folder("a_closed_pipe");
    for before in ["", "trap '' PIPE;"] {
        let (reader, writer) = std::io::pipe().expect("a pipe");
        drop(reader);
        let mut shell = Command::new("sh");
        shell.arg("-c").arg(format!("{before} exec \"$0\"")).arg(&program).current_dir(&folder);
        let out = shell.stdout(writer).output().expect("a shell");
        assert_eq!((out.status.signal(), text_of(out.stderr)), (None, format!("{NOT_WRITTEN}Broken pipe\n")));
    }
}

#[test]
fn a_folder_in_a_files_place() {
    let Some(program) = program() else { return };
    let folder = full_folder("a_folder_in_a_files_place");
    for at in 0..3 {
        let mut files = FULL.map(text);
        files[at] = Folder;
        lay(&folder, &files);
        let told = run(&program, &folder, at, &[]);
        assert_eq!((told.out.as_str(), told.errors.as_str(), told.calls.opens), (IF_EMPTY[at], "", 3));
    }
}

/// However long a file is, no more is read of it than shows that it is too long.
#[test]
fn long_files() {
    let Some(program) = program() else { return };
    let folder = full_folder("long_files");
    for at in 0..3 {
        let too_long = format!("refused,{},1,0\r\n", FILES[at]);
        for size in [MAX_TEXT, MAX_TEXT + 1, MAX_TEXT + 2, 65_536, 5_000_000] {
            lay_with(&folder, at, &vec![b'c'; size]);
            let told = run(&program, &folder, at, &[]);
            assert_eq!(told.out == too_long, size > MAX_TEXT, "{size} bytes: {told:?}");
            assert!(told.calls.bytes_read <= MAX_TEXT as u64 + 1 + 300, "{told:?}");
        }
        // One that has no end.
        fs::remove_file(folder.join(FILES[at])).expect("a file");
        std::os::unix::fs::symlink("/dev/zero", folder.join(FILES[at])).expect("a link");
        assert_eq!(run(&program, &folder, at, &[]).out, too_long);
    }
    lay_with(&folder, 0, &random::stretch_gr(FULL_NETWORK, MAX_TEXT));
    assert_eq!(run(&program, &folder, 0, &[]).out, FULL_OUTPUT);
}

/// The end of a named pipe that is written to, as soon as the program has opened
/// the other one. A program that never does so fails here and does not hang.
fn writing_end(path: &Path) -> File {
    const O_NONBLOCK: i32 = 0o4000;
    for _ in 0..10_000 {
        if let Ok(pipe) = OpenOptions::new().write(true).custom_flags(O_NONBLOCK).open(path) {
            return pipe;
        }
        thread::sleep(Duration::from_millis(1));
    }
    panic!("{} is not opened", path.display());
}

/// A named pipe, written to in pieces with rests between them, is read to its end.
#[test]
fn a_named_pipe_in_a_files_place() {
    let Some(program) = program() else { return };
    let folder = full_folder("a_named_pipe_in_a_files_place");
    for at in 0..3 {
        for (bytes, piece, expected) in [(FULL[at], 5, FULL_OUTPUT), (FULL[at], 1_000, FULL_OUTPUT), (b"", 1, IF_EMPTY[at])] {
            lay(&folder, &FULL.map(text));
            let path = folder.join(FILES[at]);
            fs::remove_file(&path).expect("a file");
            assert!(Command::new("mkfifo").arg(&path).status().expect("mkfifo").success());
            let child = Command::new(&program).current_dir(&folder).stdout(Stdio::piped()).stderr(Stdio::piped()).spawn();
            let child = child.expect("it runs");
            let mut pipe = writing_end(&path);
            for part in bytes.chunks(piece) {
                pipe.write_all(part).expect("a part");
                thread::sleep(Duration::from_millis(1));
            }
            drop(pipe);
            let out = child.wait_with_output().expect("it ends");
            assert!(out.status.success(), "{:?}", out.status);
            assert_eq!((text_of(out.stdout).as_str(), text_of(out.stderr).as_str()), (expected, ""));
        }
    }
}
