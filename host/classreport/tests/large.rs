//! A corpus of 100 MB: `show -f csv` streams, within a bound of memory and of time.
use std::fs;
use std::io::Read;
use std::path::Path;
use std::process::{Command, Stdio};

use corpus::generate::generate;

const PROGRAM: &str = env!("CARGO_BIN_EXE_classreport");

/// A number of kilobytes in a process's status.
fn kilobytes(process: u32, field: &str) -> Option<u64> {
    let status = fs::read_to_string(format!("/proc/{process}/status")).ok()?;
    let line = status.lines().find_map(|line| line.strip_prefix(field))?;
    line.trim_start_matches(':')
        .split_whitespace()
        .next()?
        .parse()
        .ok()
}

/// The processor time of a process so far, in seconds.
fn seconds(process: u32) -> Option<f64> {
    let stat = fs::read_to_string(format!("/proc/{process}/stat")).ok()?;
    // Behind the name in brackets; the 12th and 13th field from there are hundredths in the program and in the system.
    let fields: Vec<&str> = stat.rsplit(')').next()?.split_whitespace().collect();
    let ticks: f64 = fields.get(11)?.parse::<f64>().ok()? + fields.get(12)?.parse::<f64>().ok()?;
    Some(ticks / 100.0)
}

/// Runs a command and reads what it writes; how many bytes, its most memory in MB and its processor time.
fn watched(words: &[&str], file: &Path) -> (u64, f64, f64) {
    let mut child = Command::new(PROGRAM)
        .args(words)
        .arg(file)
        .stdout(Stdio::piped())
        .spawn()
        .expect("the program");
    let mut out = child.stdout.take().expect("its output");
    let (mut length, mut memory, mut time) = (0, 0, 0.0);
    let mut part = vec![0; 1 << 16];
    loop {
        memory = kilobytes(child.id(), "VmHWM").unwrap_or(memory);
        time = seconds(child.id()).unwrap_or(time);
        match out.read(&mut part).expect("its output") {
            0 => break,
            count => length += count as u64,
        }
    }
    // An ended process still tells its time until it is waited for.
    time = seconds(child.id()).unwrap_or(time);
    assert!(child.wait().expect("its end").success());
    (length, memory as f64 / 1e3, time)
}

#[test]
fn csv_of_a_hundred_megabytes() {
    let file = Path::new(env!("CARGO_TARGET_TMPDIR")).join("large.corpus");
    let corpus = generate(9, 100_000_000);
    fs::write(&file, &corpus).expect("a file of 100 MB");
    let (_, _, call) = watched(&["report", "-o", "/dev/null"], &file);
    let report = classreport::report(&corpus)
        .expect("accepted")
        .bytes()
        .len();
    let (length, memory, time) = watched(&["show", "-f", "csv"], &file);
    fs::remove_file(&file).expect("the file is there");
    let (corpus, report) = (corpus.len() as f64 / 1e6, report as f64 / 1e6);
    println!(
        "corpus {corpus:.0} MB, report {report:.0} MB: {call:.2} s to read and call; csv of {} MB: {time:.2} s, \
         {memory:.0} MB of memory",
        length / 1_000_000
    );
    // The work buffer is twice the corpus.
    assert!(
        memory < corpus + report + 2.0 * corpus + 64.0,
        "{memory} MB of memory"
    );
    assert!(time < 2.0 * call + 0.2, "{time} s");
}
