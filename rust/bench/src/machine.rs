//! Where and of what the figures are.

use std::fs;
use std::io;
use std::path::Path;
use std::process::Command;

/// The page's title, the machine, the compilers and the commit.
pub fn head(root: &Path) -> io::Result<String> {
    let cpu = field(&fs::read_to_string("/proc/cpuinfo")?, "model name");
    let memory = gibibytes(&field(&fs::read_to_string("/proc/meminfo")?, "MemTotal"));
    let cores = std::thread::available_parallelism()?;
    let kernel = fs::read_to_string("/proc/sys/kernel/osrelease")?;
    let rustc = said("rustc", &["--version"], root)?;
    let kit = said("rt", &["version"], root)?;
    let commit = said("git", &["log", "-1", "--format=%h of %cs"], root)?;
    Ok(format!(
        "# Benchmarks\n\n\
         Written by `rust/bench/run`, as are the plots; every figure is of one run of it.\n\n\
         - Machine: {cpu}, {cores} cores, {memory}, Linux {}\n\
         - Compilers: {kit}, which compiles at -O2; {rustc}, at opt-level 3\n\
         - Commit: {commit}\n\n\
         A time is the least of {} samples of {} ms; of a call that takes longer, of fewer samples of one call, {} at least. What is set side by\n\
         side ran in one process, the samples in turn, but for the SAT solvers. A virtual machine's pace changes: for seconds on end a loop on\n\
         registers alone can take half as long again, and so does all else. So such a loop is timed around each sample, and sampling goes on,\n\
         for up to twice as long, until so many were taken at full pace.\n\n\
         Each table was measured twice, one time after the other, and a figure is the lesser of two times that agree within a tenth. Where they\n\
         did not, it was measured a third time; where no two of the three agree, the table has the least and the most. What stands in more than\n\
         one table was measured once for all of them. Where the linker puts a function counts too: of one source, ours or plain, two builds\n\
         have differed by up to a quarter in single rows, which sampling does not even out.\n",
        kernel.trim(),
        crate::timing::SAMPLES,
        crate::timing::SAMPLE.as_millis(),
        crate::timing::FEWEST_SAMPLES,
    ))
}

/// A number of kB, as the system has it, in GiB.
fn gibibytes(memory: &str) -> String {
    match memory.trim_end_matches(" kB").parse::<f64>() {
        Ok(kib) => format!("{:.0} GiB", kib / 1024.0 / 1024.0),
        Err(_) => memory.to_string(),
    }
}

/// What follows `name :` on its line.
fn field(text: &str, name: &str) -> String {
    text.lines()
        .find_map(|line| line.strip_prefix(name)?.trim_start().strip_prefix(':'))
        .map_or("unknown", str::trim)
        .to_string()
}

/// What a command printed.
fn said(command: &str, words: &[&str], folder: &Path) -> io::Result<String> {
    let output = Command::new(command)
        .args(words)
        .current_dir(folder)
        .output()?;
    Ok(String::from_utf8_lossy(&output.stdout).trim().to_string())
}
