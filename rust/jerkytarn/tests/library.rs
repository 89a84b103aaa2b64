//! `plan` byte for byte against the library, and damaged texts through every command.

mod common;
use common::*;
use second::gen::{draw, Damage, Kind, DAMAGES, KINDS};
use second::job::{Lengths, Refusal};

/// More than any job needs: the command lends what its job asks for.
const ENOUGH: Lengths = Lengths { work: 1 << 24, order: 1 << 12, answer: 1 << 24, print: Some(1 << 26) };

#[test]
fn plan_is_the_librarys_on_500_drawn_jobs() {
    // every shape up to the limits, the largest among them, and then as they come
    let mut jobs: Vec<(u64, Option<Kind>)> = Vec::new();
    for (place, (_, kind)) in KINDS.iter().enumerate() {
        let count = if matches!(kind, Kind::Full | Kind::Largest) { 3 } else { 12 };
        jobs.extend((0..count).map(|seed| (1000 * place as u64 + seed, Some(*kind))));
    }
    jobs.extend((0..).map(|seed| (seed, None)).take(500 - jobs.len()));
    let folder = Folder::new();
    let (mut accepted, mut longest) = (0, 0);
    for (seed, kind) in jobs {
        let whole = kind.map(|_| Damage::None); // named shapes are whole, the others as they come
        let drawn = draw(seed, kind, whole);
        let outcome = drawn.outcome(ENOUGH);
        let job = drawn.text;
        let output = run([std::ffi::OsStr::new("plan"), folder.file("a.job", &job).as_os_str()]);
        expect_library(&output, &job, &format!("seed {seed}, {kind:?}"));
        // and as who drew the text knows it to be
        match outcome {
            Some(None) => assert_eq!(status(&output), 0, "seed {seed}"),
            Some(Some(Refusal { number, line })) => assert_eq!(text(&output.stdout), format!("refused={number},{line}\n")),
            None => {}
        }
        if status(&output) == 0 {
            accepted += 1;
            longest = longest.max(job.len());
        }
    }
    assert!(accepted > 250, "only {accepted} accepted");
    assert_eq!(longest, layerplan::TEXT_MOST);
}

/// Every command on one text: nothing but 0 or 1 as the library says, and never a panic.
fn every_command(folder: &Folder, job: &[u8], what: &str) {
    let file = folder.file("a.job", job);
    let file = file.to_str().unwrap();
    let out = |name: &str| folder.path(name).to_str().unwrap().to_string();
    let expected = i32::from(library(job).is_err());
    let plan = run(["plan", file]);
    expect_library(&plan, job, what);
    for arguments in [
        vec!["check".to_string()],
        vec!["report".into()],
        vec!["report".into(), "--json".into()],
        vec!["draw".into(), "-o".into(), out("a.html")],
        vec!["draw".into(), "-o".into(), out("a.svg")],
        vec!["batch".into(), "-o".into(), out("results")],
    ] {
        let output = run(arguments.iter().map(String::as_str).chain([file]));
        assert_eq!(status(&output), expected, "{what}, {arguments:?}: {}", text(&output.stderr));
    }
}

#[test]
fn damaged_texts_through_every_command() {
    let folder = Folder::new();
    for (place, (name, damage)) in DAMAGES.iter().enumerate() {
        for seed in 0..6 {
            let job = drawn(7000 + 100 * place as u64 + seed, None, Some(*damage));
            every_command(&folder, &job, &format!("{name}, seed {seed}"));
            if seed < 2 {
                every_command(&folder, &with_lows(&job), &format!("{name} with wanted layers, seed {seed}"));
            }
        }
    }
}

#[test]
fn wanted_layers_in_drawn_jobs_through_every_command() {
    let folder = Folder::new();
    let (mut accepted, mut excess) = (0, 0);
    for (place, (_, kind)) in KINDS.iter().enumerate() {
        if matches!(kind, Kind::Full | Kind::Largest) {
            continue; // no room in the text for more lines
        }
        for seed in 0..3 {
            let plain = drawn(4000 + 10 * place as u64 + seed, Some(*kind), Some(Damage::None));
            let job = with_lows(&plain);
            every_command(&folder, &job, &format!("{kind:?}, seed {seed}"));
            let (Ok(plan), Ok(before)) = (library(&job), library(&plain)) else { continue };
            accepted += 1;
            excess += usize::from(ldof(&plan).is_some_and(|number| number > 0));
            // the lines change nothing but the last line
            if job.len() > plain.len() && ldof(&before).is_none() {
                assert!(plan.starts_with(&before) && plan[before.len()..].starts_with(b"ldof="), "seed {seed}");
            }
        }
    }
    assert!(accepted > 20 && excess > 5, "only {accepted} accepted, {excess} with excess");
}

/// What may stand in the place of a `low` line, and what is then found there.
const DAMAGED_LOWS: [(&str, &str); 11] = [
    ("low=", "a number is missing"),
    ("low=0", "`low` is 0"),
    ("low=9", "`low` is 9"),
    ("low=01", "a zero before other digits"),
    ("low=x", "`x` is not a number"),
    ("low= 1", "spaces around the number"),
    ("low=100000", "more than five digits"),
    ("Low=1", "the key `Low`"),
    ("lows=1", "the key `lows`"),
    ("low", "the key `low`"),
    ("low=1\nlow=1", "the key `low`"),
];

/// The line of a refused text, and what is found there.
fn told_of(job: &str) -> (usize, String) {
    let mut planner = jerkytarn::planner::Planner::new();
    let refusal = planner.print(job.as_bytes()).unwrap_err();
    let told = jerkytarn::explain::message("a.job", job.as_bytes(), refusal, planner.lent());
    let found = told.lines().find(|line| line.starts_with("  found ")).unwrap_or_else(|| panic!("{told}"));
    (refusal.line as usize, found.to_string())
}

#[test]
fn damaged_lines_of_wanted_layers_are_told() {
    for (seed, (new, words)) in DAMAGED_LOWS.iter().enumerate() {
        let job = text(&with_lows(&drawn(300 + seed as u64, Some(Kind::Congested), Some(Damage::None))));
        let start = job.find("\nlow=").unwrap() + 1;
        let end = start + job[start..].find('\n').unwrap();
        let line = job[..start].lines().count() + new.lines().count();
        let (at, found) = told_of(&format!("{}{new}{}", &job[..start], &job[end..]));
        assert!(at == line && found.contains(words), "{new:?}: {at}, {found}");
        let (at, found) = told_of(&format!("{}{new}", &job[..start]));
        assert!(at == line && found.contains("not ended by a line feed"), "{new:?}, cut: {at}, {found}");
    }
}

#[test]
fn every_refusal_of_a_damaged_text_says_what_was_found() {
    let words = |damage: Damage| match damage {
        Damage::Cut => "line feed|the text ends|the text is empty",
        Damage::Drop | Damage::Double | Damage::Swap => {
            "the key|the text ends|text after|a net more|line feed|net number|part|not|entry"
        }
        Damage::Turn => "net number",
        Damage::PinTwice | Damage::EdgeTwice => "again as entry",
        Damage::Ring | Damage::Off => "is not reached from the first pin's tile",
        Damage::Closed => "entry",
        Damage::NoLayer => "no layer is",
        Damage::Zero => "has a zero before other digits|entry|`0`|number|letter",
        Damage::Limit => " is |leaves the grid",
        _ => "",
    };
    let mut refused = 0;
    for (name, damage) in DAMAGES {
        for seed in 0..60 {
            let job = drawn(90_000 + seed, None, Some(damage));
            let mut planner = jerkytarn::planner::Planner::new();
            let Err(refusal) = planner.print(&job) else { continue };
            let told = jerkytarn::explain::message("a.job", &job, refusal, planner.lent());
            let what = format!("{name}, seed {seed}:\n{told}");
            let found = told.lines().find(|line| line.starts_with("  found ")).unwrap_or_else(|| panic!("{what}"));
            assert!(words(damage).split('|').any(|word| found.contains(word)), "{what}");
            assert!(told.is_ascii() && told.lines().all(|line| line.len() <= 120), "{what}");
            refused += 1;
        }
    }
    assert!(refused > 700, "only {refused} refused");
}

#[test]
fn texts_that_are_no_jobs_through_every_command() {
    let folder = Folder::new();
    let texts: [&[u8]; 12] = [
        b"",
        b"\n",
        b"\0",
        b"\xff\xfe\0\n",
        b"width=\xc3\xa9\n",
        b"\xef\xbb\xbfwidth=3\nheight=1\n",
        b"\x1b]0;title\x07\x1b[2J\n",
        b"width=3\r\nheight=1\r\n",
        b"width=99999999999999999999999999\n",
        b"width=1\nheight=1\nlayers=2\nalpha=0\nbeta=0\ngamma=0\neast=\nnorth=\neast=\nnorth=\nnets=0\n",
        b"width=2\nheight=2\nlayers=2\nalpha=0\nbeta=0\ngamma=0\neast=,,,,,,,,\n",
        &[b';'; 70_000],
    ];
    for job in texts {
        every_command(&folder, job, &format!("{:?}", text(&job[..job.len().min(20)])));
    }
}

#[test]
fn nothing_of_a_text_reaches_the_terminal_as_a_command() {
    let output = run_with(&["plan", "-"], b"width=\x1b[2J\x9b3\x07\n");
    assert!(
        output.stderr.iter().all(|byte| *byte == b'\n' || (b' '..=b'~').contains(byte)),
        "{}",
        text(&output.stderr)
    );
    assert!(text(&output.stderr).contains("width=\\x1b[2J\\x9b3\\x07"));
}
