//! For the benchmarks: a folder with the three texts, and a run of a program in
//! it.

use std::fs::{self, File};
use std::io;
use std::os::unix::process::CommandExt;
use std::path::Path;
use std::process::Command;

use reference::counts::Method;
use reference::random::{self, NetworkInput, ReportInput, Rng};
use reference::table::FILES;
use reference::text::MAX_TEXT;

/// Writes the texts of good lists, which must be within the limits.
pub fn fill(folder: &Path, rng: &mut Rng, network: &NetworkInput, reports: &ReportInput, thresholds: &[u32]) -> io::Result<()> {
    fs::create_dir_all(folder)?;
    let texts = [
        random::network_text(rng, network),
        random::reports_text(rng, reports),
        random::thresholds_text(rng, thresholds),
    ];
    for (name, text) in FILES.iter().zip(texts) {
        assert!(text.len() <= MAX_TEXT, "{}: {name} has {} bytes", folder.display(), text.len());
        fs::write(folder.join(name), text)?;
    }
    Ok(())
}

/// As the C library has it on 64-bit Linux: two times, then the peak in KB and
/// thirteen numbers more.
#[repr(C)]
#[derive(Default)]
struct Usage {
    user: [i64; 2],
    system: [i64; 2],
    peak: i64,
    rest: [i64; 13],
}

extern "C" {
    fn wait4(pid: i32, status: *mut i32, options: i32, usage: *mut Usage) -> i32;
}

/// Milliseconds on the processor and peak KB of one run.
#[derive(Clone, Copy)]
pub struct Run {
    pub time: f64,
    pub peak: i64,
}

/// Runs a program in a folder, with the word of a method if one is given; what
/// it prints goes into a file.
pub fn run(program: &Path, method: Option<Method>, folder: &Path, out: &Path) -> io::Result<Run> {
    let mut command = Command::new(program);
    command.args(method.map(Method::name)).current_dir(folder).stdout(File::create(out)?);
    // SAFETY: it does nothing. With it the program is forked off: started the
    // quick way, this program's own peak would count as the other's.
    unsafe { command.pre_exec(|| Ok(())) };
    let child = command.spawn()?;
    let (mut status, mut usage) = (0, Usage::default());
    // SAFETY: the C library fills in what is lent.
    let ended = unsafe { wait4(child.id() as i32, &mut status, 0, &mut usage) };
    assert!(ended == child.id() as i32 && status == 0, "{} ended with {status}", program.display());
    let millis = |time: [i64; 2]| time[0] as f64 * 1e3 + time[1] as f64 / 1e3;
    Ok(Run { time: millis(usage.user) + millis(usage.system), peak: usage.peak })
}
