//! What the tests share: the built program, folders that vanish, and drawn jobs.

#![allow(dead_code)] // each test uses a part

use layerplan::{Entry, Lengths};
use second::gen::{Damage, Kind};
use std::fs;
use std::io::Write;
use std::path::{Path, PathBuf};
use std::process::{Command, Output, Stdio};
use std::sync::atomic::{AtomicU32, Ordering};

pub const EXAMPLE: &str = concat!(env!("CARGO_MANIFEST_DIR"), "/../../examples/three-tiles.job");
pub const EXAMPLE_PLAN: &str = concat!(env!("CARGO_MANIFEST_DIR"), "/../../examples/three-tiles.plan");

pub const DIRECTED: &str = concat!(env!("CARGO_MANIFEST_DIR"), "/../../examples/directed.job");
pub const DIRECTED_PLAN: &str = concat!(env!("CARGO_MANIFEST_DIR"), "/../../examples/directed.plan");

pub const TIMING: &str = concat!(env!("CARGO_MANIFEST_DIR"), "/../../examples/timing.job");
pub const TIMING_PLAN: &str = concat!(env!("CARGO_MANIFEST_DIR"), "/../../examples/timing.plan");

pub const RINGS: &str = concat!(env!("CARGO_MANIFEST_DIR"), "/../../examples/rings.job");
pub const RINGS_PLAN: &str = concat!(env!("CARGO_MANIFEST_DIR"), "/../../examples/rings.plan");

/// The program.
pub fn jerkytarn() -> Command {
    let mut command = Command::new(env!("CARGO_BIN_EXE_jerkytarn"));
    command.env("LC_ALL", "C").stdin(Stdio::null());
    command
}

/// What it does with these arguments. A panic fails the test.
pub fn run<S: AsRef<std::ffi::OsStr>>(arguments: impl IntoIterator<Item = S>) -> Output {
    checked(jerkytarn().args(arguments).output().unwrap())
}

/// The same with a text on standard input.
pub fn run_with(arguments: &[&str], input: &[u8]) -> Output {
    let mut child = jerkytarn()
        .args(arguments)
        .stdin(Stdio::piped())
        .stdout(Stdio::piped())
        .stderr(Stdio::piped())
        .spawn()
        .unwrap();
    // the program may stop reading before the end; that is its right
    let _ = child.stdin.take().unwrap().write_all(input);
    checked(child.wait_with_output().unwrap())
}

pub fn checked(output: Output) -> Output {
    let told = text(&output.stderr);
    assert!(!told.contains("panicked"), "{told}");
    assert!(output.status.code().is_some(), "ended by a signal: {:?}", output.status);
    output
}

pub fn status(output: &Output) -> i32 {
    output.status.code().unwrap()
}

pub fn text(bytes: &[u8]) -> String {
    String::from_utf8_lossy(bytes).into_owned()
}

/// A folder of its own for a test; it is removed when the test passes.
pub struct Folder(pub PathBuf);

impl Folder {
    pub fn new() -> Folder {
        static COUNT: AtomicU32 = AtomicU32::new(0);
        let count = COUNT.fetch_add(1, Ordering::Relaxed);
        let folder = std::env::temp_dir().join(format!("jerkytarn-test-{}-{count}", std::process::id()));
        fs::create_dir_all(&folder).unwrap();
        Folder(folder)
    }

    pub fn path(&self, name: &str) -> PathBuf {
        self.0.join(name)
    }

    pub fn file(&self, name: &str, bytes: &[u8]) -> PathBuf {
        let path = self.path(name);
        fs::write(&path, bytes).unwrap();
        path
    }

    /// The names of all files in it, hidden ones too.
    pub fn names(&self, part: &str) -> Vec<String> {
        names(&self.path(part))
    }
}

impl Drop for Folder {
    fn drop(&mut self) {
        if !std::thread::panicking() {
            let _ = fs::remove_dir_all(&self.0);
        }
    }
}

pub fn names(folder: &Path) -> Vec<String> {
    let Ok(entries) = fs::read_dir(folder) else { return Vec::new() };
    let mut names: Vec<String> = entries.map(|entry| text(entry.unwrap().file_name().as_encoded_bytes())).collect();
    names.sort();
    names
}

/// What the library itself writes for a text: the printed plan, or the line of its refusal.
pub fn library(job: &[u8]) -> Result<Vec<u8>, String> {
    // at its full limits, whatever the length of the text: a cut text may announce more nets than it has
    let lent = Lengths::enough(layerplan::TEXT_MOST);
    let mut order = vec![Entry::default(); lent.order];
    let mut print = vec![0; lent.print];
    let returned = layerplan::print(job, &mut vec![0; lent.work], &mut order, &mut vec![0; lent.answer], &mut print);
    match returned {
        Ok(printed) => {
            print.truncate(printed.length);
            Ok(print)
        }
        Err(refusal) => Err(format!("refused={},{}\n", refusal.number, refusal.line)),
    }
}

/// A text with a line, counted from 1, put in the place of another.
pub fn with_line(text: &str, number: usize, line: &str) -> String {
    let lines = text.split_inclusive('\n').enumerate();
    lines.map(|(place, old)| if place + 1 == number { line } else { old }).collect()
}

/// A drawn job text.
pub fn drawn(seed: u64, kind: Option<Kind>, damage: Option<Damage>) -> Vec<u8> {
    second::gen::draw(seed, kind, damage).text
}

/// A job text with a `low` line put in behind every second `net` line that has none, its layers in turn.
pub fn with_lows(job: &[u8]) -> Vec<u8> {
    let lines: Vec<&[u8]> = job.split_inclusive(|byte| *byte == b'\n').collect();
    let layers = lines.iter().find_map(|line| line.strip_prefix(b"layers=")).and_then(|value| value.first());
    let layers = layers.map_or(1, |digit| usize::from(digit.saturating_sub(b'0')).max(1));
    let mut out = Vec::new();
    let mut nets = 0;
    for (place, line) in lines.iter().enumerate() {
        out.extend_from_slice(line);
        if line.starts_with(b"net=") && lines.get(place + 1).is_some_and(|next| next.starts_with(b"pins=")) {
            nets += 1;
            if nets % 2 == 1 {
                out.extend_from_slice(format!("low={}\n", (nets / 2) % layers + 1).as_bytes());
            }
        }
    }
    out
}

/// The number on the last line `ldof` of a printed plan.
pub fn ldof(plan: &[u8]) -> Option<usize> {
    text(plan).lines().last()?.strip_prefix("ldof=")?.parse().ok()
}

/// That the program answered as the library does: status and standard output.
pub fn expect_library(output: &Output, job: &[u8], what: &str) {
    match library(job) {
        Ok(plan) => {
            assert_eq!(status(output), 0, "{what}: {}", text(&output.stderr));
            assert!(output.stdout == plan, "{what}: another plan than the library's");
        }
        Err(line) => {
            assert_eq!((status(output), text(&output.stdout)), (1, line), "{what}");
            assert!(text(&output.stderr).contains("refused "), "{what}: no explanation");
        }
    }
}
