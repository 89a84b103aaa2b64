//! Files that cannot be read or written: a clear message, status 2, and nothing half written.

mod common;
use common::*;
use std::ffi::OsStr;
use std::fs::{self, File};
use std::io::{Read, Write};
use std::os::unix::ffi::OsStrExt;
use std::process::Stdio;
use std::sync::atomic::{AtomicBool, Ordering};

fn expect_fault(output: &std::process::Output, words: &str) {
    let told = text(&output.stderr);
    assert_eq!(status(output), 2, "{told}");
    assert!(told.starts_with("jerkytarn: ") && told.contains(words) && told.lines().count() == 1, "{told}");
}

#[test]
fn what_cannot_be_read() {
    let folder = Folder::new();
    let here = folder.path("").to_str().unwrap().to_string();
    for command in ["plan", "check", "report"] {
        expect_fault(&run([command, &here]), "is a folder, not a file");
        expect_fault(&run([command, &format!("{here}/none.job")]), "none.job: there is no such file or folder");
        expect_fault(&run([command, &format!("{EXAMPLE}/x")]), "three-tiles.job/x: ");
    }
    let output = checked(jerkytarn().args(["plan", "-"]).stdin(File::open(&folder.0).unwrap()).output().unwrap());
    expect_fault(&output, "standard input: is a folder, not a file");
    expect_fault(&run([OsStr::new("plan"), OsStr::from_bytes(b"\xff\x1b.job")]), "\\xff\\x1b.job: there is no such");
}

#[test]
fn what_cannot_be_written() {
    let folder = Folder::new();
    let here = folder.path("").to_str().unwrap().to_string();
    expect_fault(&run(["plan", EXAMPLE, "-o", &here]), "is a folder");
    expect_fault(&run(["plan", EXAMPLE, "-o", &format!("{here}/none/a")]), "there is no such file or folder");
    expect_fault(&run(["plan", EXAMPLE, "-o", "/dev/full"]), "/dev/full: no space left on the disk");
    let job = folder.file("a.job", &fs::read(EXAMPLE).unwrap());
    let job = job.to_str().unwrap();
    expect_fault(&run(["plan", job, "-o", job]), "is the job itself");
    let svg = folder.file("b.svg", &fs::read(EXAMPLE).unwrap());
    let svg = svg.to_str().unwrap();
    expect_fault(&run(["draw", svg, "-o", svg]), "is the job itself");
    assert_eq!(fs::read(job).unwrap(), fs::read(EXAMPLE).unwrap());
    assert_eq!(folder.names(""), ["a.job", "b.svg"]);
}

#[test]
fn standard_output_on_a_full_disk() {
    for arguments in [
        vec!["plan", EXAMPLE],
        vec!["check", EXAMPLE],
        vec!["report", EXAMPLE],
        vec!["explain", "3"],
        vec!["batch", EXAMPLE],
    ] {
        let full = File::options().write(true).open("/dev/full").unwrap();
        let output = checked(jerkytarn().args(&arguments).stdout(full).output().unwrap());
        expect_fault(&output, "standard output: no space left on the disk");
    }
    let full = File::options().write(true).open("/dev/full").unwrap();
    assert_eq!(status(&checked(jerkytarn().arg("--help").stdout(full).output().unwrap())), 2);
    // nowhere to tell it either
    let full = || File::options().write(true).open("/dev/full").unwrap();
    assert_eq!(
        status(&checked(jerkytarn().args(["plan", EXAMPLE]).stdout(full()).stderr(full()).output().unwrap())),
        2
    );
}

#[test]
fn a_full_disk_leaves_no_part_of_a_file() {
    // a limit on the size of files stands in for a full disk: what is beyond it is not written
    let folder = Folder::new();
    let job = folder.file("big.job", &drawn(5, Some(second::gen::Kind::Largest), Some(second::gen::Damage::None)));
    let out = folder.path("big.html");
    let program = env!("CARGO_BIN_EXE_jerkytarn");
    let script = "trap '' XFSZ; ulimit -f 64; exec \"$0\" draw \"$1\" -o \"$2\"";
    let output = std::process::Command::new("sh").args(["-c", script, program]).args([&job, &out]).output().unwrap();
    assert_eq!(status(&checked(output)), 2);
    assert_eq!(folder.names(""), ["big.job"]);
}

#[test]
fn a_closed_pipe() {
    let folder = Folder::new();
    let big = folder.file("big.job", &drawn(3, Some(second::gen::Kind::Full), Some(second::gen::Damage::None)));
    let many: Vec<String> = (0..4000).map(|_| EXAMPLE.to_string()).collect();
    let mut batch = vec!["batch".to_string()];
    batch.extend(many);
    for arguments in [vec!["plan".to_string(), big.to_str().unwrap().into()], batch] {
        let mut child = jerkytarn().args(&arguments).stdout(Stdio::piped()).stderr(Stdio::piped()).spawn().unwrap();
        let mut out = child.stdout.take().unwrap();
        out.read_exact(&mut [0; 100]).unwrap();
        drop(out);
        expect_fault(&checked(child.wait_with_output().unwrap()), "standard output: closed by its reader");
    }
}

/// Ends the thread that writes, also where the test fails.
struct Ending<'a>(&'a AtomicBool);

impl Drop for Ending<'_> {
    fn drop(&mut self) {
        self.0.store(true, Ordering::SeqCst);
    }
}

#[test]
fn a_file_that_grows_while_it_is_read() {
    let folder = Folder::new();
    let job = folder.file("a.job", &fs::read(EXAMPLE).unwrap());
    let done = AtomicBool::new(false);
    std::thread::scope(|scope| {
        let _ending = Ending(&done);
        scope.spawn(|| {
            let mut file = File::options().append(true).open(&job).unwrap();
            while !done.load(Ordering::SeqCst) {
                file.write_all(&[b'x'; 4096]).unwrap();
                if file.metadata().unwrap().len() > 2_000_000 {
                    file.set_len(300).unwrap();
                }
            }
        });
        let mut refused = 0;
        for _ in 0..30 {
            // before the first bytes are added the job is still whole
            let output = run([OsStr::new("plan"), job.as_os_str()]);
            assert!([0, 1].contains(&status(&output)), "{}", text(&output.stderr));
            refused += usize::from(output.stdout.starts_with(b"refused="));
        }
        assert!(refused > 0);
    });
}

#[test]
fn devices_and_links_stay_what_they_are() {
    let folder = Folder::new();
    assert_eq!(status(&run(["plan", EXAMPLE, "-o", "/dev/null"])), 0);
    assert!(!fs::metadata("/dev/null").unwrap().is_file());
    let link = folder.path("link");
    std::os::unix::fs::symlink(folder.file("target", b"old"), &link).unwrap();
    assert_eq!(status(&run(["plan", EXAMPLE, "-o", link.to_str().unwrap()])), 0);
    assert!(fs::symlink_metadata(&link).unwrap().is_symlink());
    assert_eq!(fs::read(folder.path("target")).unwrap(), fs::read(EXAMPLE_PLAN).unwrap());
}
