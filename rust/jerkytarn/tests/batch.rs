//! Many blocks: results, summaries, killed half way and resumed.

mod common;
use common::*;
use second::gen::{Damage, Kind};
use std::fs::{self, File};
use std::io::Write;
use std::os::unix::fs::OpenOptionsExt;
use std::path::{Path, PathBuf};
use std::process::{Child, Command, Stdio};
use std::time::{Duration, Instant};

/// 200 jobs, every fifth refused, the last twenty large.
fn jobs(folder: &Folder) -> Vec<(PathBuf, Vec<u8>)> {
    let job = |place: u64| match place {
        180.. => drawn(place, Some(Kind::Short), Some(Damage::None)),
        _ if place % 5 == 0 => drawn(place, Some(Kind::Congested), Some(Damage::PinTwice)),
        _ => drawn(place, Some(Kind::Congested), Some(Damage::None)),
    };
    let put = |place: u64| {
        let text = job(place);
        (folder.file(&format!("b{place:03}.job"), &text), text)
    };
    (0..200).map(put).collect()
}

fn batch(jobs: &[(PathBuf, Vec<u8>)], more: &[&str]) -> Command {
    let mut command = jerkytarn();
    command.arg("batch").args(jobs.iter().map(|(path, _)| path)).args(more);
    command
}

/// That the folder has just the whole result of every job, as the library gives it.
fn expect_results(folder: &Folder, jobs: &[(PathBuf, Vec<u8>)]) -> (usize, usize) {
    let (mut accepted, mut refused) = (0, 0);
    let mut expected = Vec::new();
    for (place, (_, job)) in jobs.iter().enumerate() {
        let read = |ending: &str| fs::read(folder.path(&format!("out/b{place:03}.{ending}"))).unwrap();
        match library(job) {
            Ok(plan) => {
                assert!(read("plan") == plan, "block {place}");
                expected.push(format!("b{place:03}.plan"));
                accepted += 1;
            }
            Err(line) => {
                assert!(text(&read("refused")).starts_with(&line), "block {place}");
                expected.push(format!("b{place:03}.refused"));
                refused += 1;
            }
        }
    }
    assert_eq!(folder.names("out"), expected);
    (accepted, refused)
}

/// That the batch is still running, and not for too long; where not, nothing of it is left behind.
fn expect_running(child: &mut Child, start: Instant, what: &str) {
    let ended = child.try_wait().unwrap();
    if ended.is_some() || start.elapsed() > Duration::from_secs(60) {
        let _ = child.kill();
        panic!("{what}: {}", ended.map_or("not in a minute".into(), |status| format!("it ended before, {status}")));
    }
}

/// Waits until so many results are there.
fn wait_for(folder: &Folder, child: &mut Child, count: usize) {
    let start = Instant::now();
    while folder.names("out").iter().filter(|name| !name.starts_with('.')).count() < count {
        expect_running(child, start, &format!("{count} results"));
        std::thread::sleep(Duration::from_millis(1));
    }
}

/// Puts a pipe in the place of a job: a batch waits there for the text, for as long as the test wants.
fn put_pipe(path: &Path) {
    let _ = fs::remove_file(path);
    assert!(Command::new("mkfifo").arg(path).status().unwrap().success());
}

/// The pipe, once the batch has come to it and waits.
fn reached(pipe: &Path, child: &mut Child) -> File {
    const O_NONBLOCK: i32 = 0o4000; // there is an error, not a wait, while nobody reads
    let start = Instant::now();
    loop {
        match File::options().write(true).custom_flags(O_NONBLOCK).open(pipe) {
            Ok(pipe) => return pipe,
            Err(_) => std::thread::sleep(Duration::from_millis(2)),
        }
        expect_running(child, start, "coming to the pipe");
    }
}

/// That each result that is there is whole; unfinished files are hidden and named as such.
fn expect_whole(folder: &Folder, jobs: &[(PathBuf, Vec<u8>)]) -> usize {
    let mut whole = 0;
    for name in folder.names("out") {
        if name.starts_with('.') {
            assert!(name.ends_with(".part"), "{name}");
            continue;
        }
        let place: usize = name[1..4].parse().unwrap();
        let bytes = fs::read(folder.path(&format!("out/{name}"))).unwrap();
        match library(&jobs[place].1) {
            Ok(plan) => assert!(bytes == plan, "{name}"),
            Err(line) => assert!(text(&bytes).starts_with(&line) && bytes.ends_with(b"\n"), "{name}"),
        }
        whole += 1;
    }
    whole
}

#[test]
fn two_hundred_blocks() {
    let folder = Folder::new();
    let jobs = jobs(&folder);
    let out = folder.path("out");
    let output = checked(batch(&jobs, &["-o", out.to_str().unwrap(), "-j", "2"]).output().unwrap());
    assert_eq!(status(&output), 1, "{}", text(&output.stderr));
    let (accepted, refused) = expect_results(&folder, &jobs);
    assert!(accepted > 150 && refused > 30);
    let told = text(&output.stdout);
    let lines: Vec<&str> = told.lines().collect();
    assert_eq!(lines.len(), 201);
    for (place, line) in lines[..200].iter().enumerate() {
        assert!(line.contains(&format!("/b{place:03}.job: ")), "{line}");
    }
    assert!(
        lines[200].starts_with(&format!("200 blocks: {accepted} accepted, {refused} refused; vias ")),
        "{}",
        lines[200]
    );
    assert!(output.stderr.is_empty(), "no bar in a pipe: {}", text(&output.stderr));

    // without a folder the same lines, and nothing is written
    let again = checked(batch(&jobs, &[]).output().unwrap());
    assert_eq!(again.stdout, output.stdout);
}

#[test]
fn killed_half_way_and_resumed() {
    let folder = Folder::new();
    let jobs = jobs(&folder);
    let out = folder.path("out");
    let arguments = ["-o", out.to_str().unwrap(), "-j", "1"];
    let (stuck, text_of_stuck) = &jobs[150]; // so that it cannot come to its end before it is killed
    put_pipe(stuck);
    let mut child = batch(&jobs, &arguments).stdout(Stdio::null()).spawn().unwrap();
    wait_for(&folder, &mut child, 60);
    child.kill().unwrap();
    child.wait().unwrap();
    fs::remove_file(stuck).unwrap();
    fs::write(stuck, text_of_stuck).unwrap();
    let done = expect_whole(&folder, &jobs);
    assert!((60..=150).contains(&done), "{done}");
    // a part that a killed run may leave, and one that is nobody's here
    folder.file("out/.b190.plan.12-3.part", b"order=");
    folder.file("out/.other.plan.12-3.part", b"order=");

    let before: Vec<_> = (0..60).map(|place| changed(&folder, place)).collect();
    let output = checked(batch(&jobs, &arguments).arg("--resume").output().unwrap());
    assert_eq!(status(&output), 1);
    fs::remove_file(folder.path("out/.other.plan.12-3.part")).unwrap();
    let (accepted, refused) = expect_results(&folder, &jobs);
    let last = format!("200 blocks: {accepted} accepted, {refused} refused, {done} kept from before; vias ");
    assert!(text(&output.stdout).lines().last().unwrap().starts_with(&last), "{}", text(&output.stdout));
    assert!((0..60).all(|place| changed(&folder, place) == before[place]), "what was there is left as it is");

    // the same figures as in one go
    let whole = checked(batch(&jobs, &[]).output().unwrap());
    let figures = |output: &[u8]| text(output).lines().last().unwrap().split_once(';').unwrap().1.to_string();
    assert_eq!(figures(&output.stdout), figures(&whole.stdout));
}

/// When the result of a block was written.
fn changed(folder: &Folder, place: usize) -> std::time::SystemTime {
    let of = |ending: &str| fs::metadata(folder.path(&format!("out/b{place:03}.{ending}")));
    of("plan").or_else(|_| of("refused")).unwrap().modified().unwrap()
}

#[test]
fn interrupted_it_finishes_what_it_has_begun() {
    let folder = Folder::new();
    let mut jobs = jobs(&folder);
    let out = folder.path("out");
    jobs[100].1 = fs::read(EXAMPLE).unwrap();
    for signal in ["-INT", "-TERM"] {
        let _ = fs::remove_dir_all(&out);
        put_pipe(&jobs[100].0);
        let mut command = batch(&jobs, &["-o", out.to_str().unwrap(), "-j", "1"]);
        let mut child = command.stdout(Stdio::piped()).stderr(Stdio::piped()).spawn().unwrap();
        let mut pipe = reached(&jobs[100].0, &mut child);
        assert!(Command::new("kill").args([signal, &child.id().to_string()]).status().unwrap().success());
        std::thread::sleep(Duration::from_millis(300));
        pipe.write_all(&jobs[100].1).unwrap();
        drop(pipe);
        let output = checked(child.wait_with_output().unwrap());
        assert_eq!(status(&output), 130);
        let told = text(&output.stderr);
        assert!(told.contains("interrupted after 101 of 200 blocks; the same command with --resume goes on"), "{told}");
        assert!(text(&output.stdout).lines().last().unwrap().contains(", 99 not begun"));
        assert_eq!(expect_whole(&folder, &jobs), 101, "the block at hand was finished");
        assert_eq!(folder.names("out").len(), 101, "nothing unfinished is left");
    }
}

#[test]
fn a_changed_job_is_planned_again() {
    let folder = Folder::new();
    let job = folder.file("a.job", &fs::read(EXAMPLE).unwrap());
    let out = folder.path("out");
    let arguments = ["batch", job.to_str().unwrap(), "-o", out.to_str().unwrap(), "--resume"];
    assert_eq!(status(&run(arguments)), 0);
    assert!(text(&run(arguments).stdout).contains("(kept)"));
    std::thread::sleep(Duration::from_millis(20));
    fs::write(&job, b"width=3\n").unwrap();
    assert!(text(&run(arguments).stdout).contains("a.job: refused=2,2, a line is not of its form\n"));
    assert_eq!(folder.names("out"), ["a.refused"], "the plan of the old text is gone");
    // a result that is not whole is none
    std::thread::sleep(Duration::from_millis(20));
    fs::remove_file(folder.path("out/a.refused")).unwrap();
    folder.file("out/a.plan", b"order=1\nnet=1\n");
    assert!(!text(&run(arguments).stdout).contains("(kept)"));
}

#[test]
fn what_cannot_be_read_does_not_stop_the_others() {
    let folder = Folder::new();
    let none = folder.path("none.job");
    let here = folder.path("");
    let refused = folder.file("r.job", b"");
    let paths = [none.to_str().unwrap(), refused.to_str().unwrap(), here.to_str().unwrap(), EXAMPLE];
    let output = run(["batch"].iter().chain(&paths));
    assert_eq!(status(&output), 2);
    let told = text(&output.stdout);
    assert!(
        told.contains("none.job: failed\n") && told.contains("r.job: refused=2,1") && told.contains("job: accepted")
    );
    assert!(told.ends_with("4 blocks: 1 accepted, 1 refused, 2 failed; vias 2, overflow 0, maximum 0\n"), "{told}");
    assert!(
        text(&output.stderr).contains("none.job: there is no such file")
            && text(&output.stderr).contains("is a folder")
    );
}

#[test]
fn results_that_would_clash_are_wrong_usage() {
    let folder = Folder::new();
    let job = folder.file("a.job", &fs::read(EXAMPLE).unwrap());
    let plan = folder.file("a.plan", &fs::read(EXAMPLE).unwrap());
    let here = folder.path("");
    let (job, plan, here) = (job.to_str().unwrap(), plan.to_str().unwrap(), here.to_str().unwrap());
    let twice = run(["batch", job, job, "-o", here]);
    assert!(status(&twice) == 2 && text(&twice.stderr).contains("would both write a.plan"));
    let over = run(["batch", job, plan, "-o", here]);
    assert!(
        status(&over) == 2 && text(&over.stderr).contains("a result would replace this job"),
        "{}",
        text(&over.stderr)
    );
    assert_eq!(fs::read(plan).unwrap(), fs::read(EXAMPLE).unwrap());
    assert_eq!(status(&run(["batch", job, "-o", job])), 2);
}
