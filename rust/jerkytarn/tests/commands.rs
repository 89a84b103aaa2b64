//! Each command on the example job, each refusal's explanation, and the statuses.

mod common;
use common::*;
use std::fs;

const REFUSED: [(u32, u32, &str, &[&str]); 11] = [
    // number, line, what is lent less of, words of the explanation
    (2, 13, "", &["2.job:13: refused 2", "pins=0,0,1; 2,0,1", "pin 2: x: ` 2` has spaces around the number", "^^^^^^"]),
    (3, 16, "", &["3.job:16: refused 3", "in pin 2 the layer is 3", "a layer from 1 to 2"]),
    (4, 15, "", &["4.job:15: refused 4", "net number 3", "this is the 2nd net"]),
    (5, 13, "", &["5.job:13: refused 5", "pin 0,0,1 as entry 1 and again as entry 3"]),
    (6, 14, "", &["6.job:14: refused 6", "edge 0,0,e as entry 1 and again as entry 3"]),
    (8, 14, "", &["8.job:14: refused 8", "pin 2 of line 13, 2,0,1, is not reached"]),
    (9, 3, "work=100", &["whole.job:3: refused 9", "100 working numbers lent", "108 or more"]),
    (10, 11, "order=1", &["whole.job:11: refused 10", "1 order entries lent", "2 or more"]),
    (11, 17, "print=389", &["whole.job:17: refused 11", "389 bytes of print buffer lent", "390 or more"]),
    (12, 10, "", &["12.job:10: refused 12", "east=0,1", "entry 2 is 1", "layer 2 is `v` and carries no east edges"]),
    (13, 15, "", &["13.job:15: refused 13", "edge 2, 1,0,n, goes north, and no layer is `v`", "`dirs=h,h`"]),
];

fn example_of(number: u32) -> String {
    let name = if (9..=11).contains(&number) { "whole".to_string() } else { number.to_string() };
    format!("{}/src/explain/examples/{name}.job", env!("CARGO_MANIFEST_DIR"))
}

#[test]
fn each_refusal_is_explained_on_a_job_that_a_person_could_have_written() {
    for (number, line, lend, words) in REFUSED {
        let example = example_of(number);
        let mut arguments = vec!["plan", &example];
        if !lend.is_empty() {
            arguments.extend(["--lend", lend]);
        }
        let output = run(arguments);
        assert_eq!((status(&output), text(&output.stdout)), (1, format!("refused={number},{line}\n")));
        let told = text(&output.stderr);
        assert!(told.starts_with("jerkytarn: "), "{told}");
        let shared = ["found", "expected", "to do", &format!("jerkytarn explain {number}")];
        for word in words.iter().chain(shared.iter()) {
            assert!(told.contains(word), "no {word:?} in\n{told}");
        }
    }
}

#[test]
fn a_text_too_long_is_explained_without_reading_it_all() {
    let output = checked(jerkytarn().args(["plan", "/dev/zero"]).output().unwrap());
    assert_eq!((status(&output), text(&output.stdout)), (1, "refused=1,0\n".to_string()));
    assert!(text(&output.stderr).starts_with("jerkytarn: /dev/zero: refused 1: the text is too long\n"));
}

#[test]
fn a_cut_text_is_told_as_cut_and_not_as_lent_too_little() {
    // it announces 4,096 nets and has none: enough is lent all the same
    let head = "width=1\nheight=1\nlayers=2\nalpha=0\nbeta=0\ngamma=0\neast=\nnorth=\neast=\nnorth=\nnets=4096\n";
    for command in ["plan", "check", "report"] {
        assert_eq!(text(&run_with(&[command, "-"], head.as_bytes()).stdout), "refused=2,12\n");
    }
}

#[test]
fn plan_writes_to_standard_output_or_to_a_file() {
    let plan = fs::read(EXAMPLE_PLAN).unwrap();
    let output = run(["plan", EXAMPLE]);
    assert_eq!((status(&output), &output.stdout), (0, &plan));
    assert!(output.stderr.is_empty());
    assert_eq!(run_with(&["plan", "-"], &fs::read(EXAMPLE).unwrap()).stdout, plan);

    let folder = Folder::new();
    let file = folder.path("a.plan");
    let output = run(["plan", EXAMPLE, "-o", file.to_str().unwrap()]);
    assert!(status(&output) == 0 && output.stdout.is_empty());
    assert_eq!(fs::read(&file).unwrap(), plan);

    // a refused job leaves the file as it is
    let output = run(["plan", &example_of(6), "-o", file.to_str().unwrap()]);
    assert_eq!((status(&output), text(&output.stdout)), (1, "refused=6,14\n".to_string()));
    assert_eq!(fs::read(&file).unwrap(), plan);
    assert_eq!(folder.names(""), ["a.plan"]);
}

#[test]
fn check_tells_the_figures() {
    let output = run(["check", EXAMPLE]);
    assert_eq!(status(&output), 0);
    let told = text(&output.stdout);
    for line in [
        "three-tiles.job: accepted\n",
        "  tiles             3 (3 x 1)\n",
        "  layers            2\n",
        "  nets              2\n",
        "  edge entries      3\n",
        "  flat overflow     total 0, maximum 0\n",
        "  layered overflow  total 0, maximum 0\n",
        "  vias              2\n",
        "  storage to lend   work 108, order 2, answer 3, print 390\n",
    ] {
        assert!(told.contains(line), "no {line:?} in\n{told}");
    }
    let output = run(["check", &example_of(8)]);
    assert_eq!((status(&output), text(&output.stdout)), (1, "refused=8,14\n".to_string()));
    let output = run(["check", EXAMPLE, "--lend", "print=389"]);
    assert_eq!(text(&output.stdout), "refused=11,17\n");
}

#[test]
fn explain_says_each_number() {
    for number in (1..=13).filter(|number| *number != 7) {
        let output = run(["explain", &number.to_string()]);
        assert_eq!(status(&output), 0);
        let told = text(&output.stdout);
        assert!(told.starts_with(&format!("Refusal {number}: ")), "{told}");
        for word in ["meaning", "line", "order", "to do", "example"] {
            assert!(told.contains(&format!("  {word} ")), "no {word} in\n{told}");
        }
    }
    assert_eq!(text(&run(["explain"]).stdout).lines().filter(|line| line.starts_with("  ")).count(), 13);
    for wrong in ["0", "14", "x", "-1"] {
        assert_eq!(status(&run(["explain", wrong])), 2);
    }
}

#[test]
fn report_as_table_and_as_json() {
    let table = text(&run(["report", EXAMPLE]).stdout);
    assert!(
        table.is_ascii() && table.contains("most crowded edges") && table.contains("nets with most vias"),
        "{table}"
    );
    let wide = jerkytarn().env("LC_ALL", "C.UTF-8").args(["report", EXAMPLE]).output().unwrap();
    assert!(text(&wide.stdout).contains('█'));

    let json: serde_json::Value = serde_json::from_slice(&run(["report", "--json", EXAMPLE]).stdout).unwrap();
    assert_eq!((&json["vias"], &json["nets"], &json["tiles"]), (&2.into(), &2.into(), &3.into()));
    assert_eq!(json["by_layer"][0]["full"], 2);
    let output = run(["report", "--json", &example_of(5)]);
    assert_eq!(status(&output), 1);
    let json: serde_json::Value = serde_json::from_slice(&output.stdout).unwrap();
    assert_eq!((&json["refused"]["number"], &json["refused"]["line"]), (&5.into(), &13.into()));
    assert_eq!(text(&run(["report", &example_of(5)]).stdout), "refused=5,13\n");
}

/// A job of the largest grid with so many tracks on each edge of two layers, and a net along one edge.
fn with_tracks(tracks: &str) -> String {
    let list = vec![tracks; 63 * 64].join(",");
    let layer = format!("east={list}\nnorth={list}\n");
    let head = "width=64\nheight=64\nlayers=2\nalpha=1\nbeta=1\ngamma=255\n";
    format!("{head}{layer}{layer}nets=1\nnet=1\npins=62,63,1\nedges=62,63,e\n")
}

#[test]
fn capacities_up_to_65_535() {
    let told = |command: &str, tracks: &str| text(&run_with(&[command, "-"], with_tracks(tracks).as_bytes()).stdout);
    let plan = "order=1\nnet=1\nvias=0\nlayers=1\ntotal_vias=0\ntotal_overflow=0\nmax_overflow=0\n";
    assert_eq!([told("plan", "255"), told("plan", "256"), told("plan", "65535")], [plan; 3]);
    assert_eq!([told("plan", "65536"), told("plan", "99999")], ["refused=3,7\n"; 2]);
    assert_eq!(told("plan", "100000"), "refused=2,7\n");
    let table = told("report", "65535");
    assert!(table.contains("\n      1 528,474,240          1  "), "{table}");
    assert!(table.contains("      1    65,535         0\n"), "{table}");
    let json = run_with(&["report", "--json", "-"], with_tracks("65535").as_bytes()).stdout;
    let json: serde_json::Value = serde_json::from_slice(&json).unwrap();
    assert_eq!(
        (&json["by_layer"][1]["tracks"], &json["most_crowded"][0]["capacity"]),
        (&528_474_240.into(), &65_535.into())
    );
}

#[test]
fn directions_are_planned() {
    assert_eq!(run(["plan", DIRECTED]).stdout, fs::read(DIRECTED_PLAN).unwrap());
    // tracks on no layer: the edge goes to the one layer that runs its way, though the pins are on the other
    let head = "width=2\nheight=1\nlayers=2\ndirs=h,v\nalpha=1\nbeta=1\ngamma=0\neast=0\nnorth=\neast=0\nnorth=\n";
    let net = |number: usize| format!("net={number}\npins=0,0,2;1,0,2\nedges=0,0,e\n");
    let one = run_with(&["plan", "-"], format!("{head}nets=1\n{}", net(1)).as_bytes());
    assert_eq!(text(&one.stdout), "order=1\nnet=1\nvias=2\nlayers=1\ntotal_vias=2\ntotal_overflow=1\nmax_overflow=1\n");
    let two = run_with(&["plan", "-"], format!("{head}nets=2\n{}{}", net(1), net(2)).as_bytes());
    assert_eq!(
        text(&two.stdout),
        "order=1,2\nnet=1\nvias=2\nlayers=1\nnet=2\nvias=2\nlayers=1\n\
         total_vias=4\ntotal_overflow=2\nmax_overflow=2\n"
    );
}

#[test]
fn directions_are_told() {
    let told = text(&run(["check", DIRECTED]).stdout);
    for line in [
        "  layers            3 (h,v,h)\n",
        "  edges of a layer  h 4, v 3\n",
        "  flat overflow     total 2, maximum 2\n",
        "  limit of a layer  east 1, north 0\n",
        "  layered overflow  total 2, maximum 1\n",
        "  vias              4\n",
        "  storage to lend   work 248, order 4, answer 6, print 524\n",
    ] {
        assert!(told.contains(line), "no {line:?} in\n{told}");
    }
    let table = text(&run(["report", DIRECTED]).stdout);
    assert!(table.contains("\n  layer  runs      tracks") && table.contains("\n      2     v           3"), "{table}");
    let json: serde_json::Value = serde_json::from_slice(&run(["report", "--json", DIRECTED]).stdout).unwrap();
    assert_eq!(json["dirs"], serde_json::json!(["h", "v", "h"]));
    assert_eq!(json["limits"], serde_json::json!({ "east": 1, "north": 0 }));
    assert_eq!(json["by_layer"][2]["runs"], "h");
    let folder = Folder::new();
    let picture = folder.path("a.svg");
    assert_eq!(status(&run(["draw", DIRECTED, "-o", picture.to_str().unwrap()])), 0);
    let drawn = fs::read_to_string(picture).unwrap();
    assert!(drawn.contains("Layer 2 (v)") && drawn.contains("(h): a layer for east edges only"));
}

/// That the example with directions, with a line put in the place of another, is refused so and told in these words.
fn expect_directed(number: u32, line: u32, new: &str, lend: &str, words: &[&str]) {
    let job = with_line(&fs::read_to_string(DIRECTED).unwrap(), line as usize, new);
    let output = run_with(&["plan", "-", "--lend", lend], job.as_bytes());
    assert_eq!(text(&output.stdout), format!("refused={number},{line}\n"), "{new:?}, lent {lend}");
    let told = text(&output.stderr);
    for word in words {
        assert!(told.contains(word), "no {word:?} in\n{told}");
    }
}

#[test]
fn refusals_of_jobs_with_directions() {
    let enough = "work=248";
    // the line itself: its form comes before the working numbers, which it then tells of
    expect_directed(2, 4, "dirs=h,V,h\n", "work=0", &["letter 2: `V` is not `h` or `v`", "write the letters small"]);
    expect_directed(2, 4, "dirs=h,v\n", enough, &["2 letters", "`dirs=` with 3 letters"]);
    expect_directed(2, 4, "dirs=hv,h\n", enough, &["put a comma between two letters"]);
    expect_directed(2, 4, "dirs=\n", enough, &["0 letters"]);
    expect_directed(2, 4, "dirs =h,v,h\n", enough, &["begin the line with `dirs=`"]);
    expect_directed(2, 5, "dirs=h,v,h\n", enough, &["there is one such line"]);
    expect_directed(9, 4, "dirs=h,v,h\n", "work=247", &["247 working numbers lent", "248 or more"]);
    assert_eq!(text(&run_with(&["plan", "-"], b"width=3\nheight=2\nlayers=3\ndirs=h,v,h").stdout), "refused=2,4\n");
    // a capacity line: 2, 3, 12
    expect_directed(2, 10, "east=1,0,0\n", enough, &["3 entries"]);
    expect_directed(3, 10, "east=1,0,0,65536\n", enough, &["entry 4 is 65536", "a capacity from 0 to 65535"]);
    expect_directed(12, 10, "east=0,0,0,65535\n", enough, &["entry 4 is 65535"]);
    expect_directed(12, 10, "east=0,0,7,1\n", enough, &["entry 3 is 7", "layer 2 is `v`", "`h` for layer 2 on line 4"]);
    expect_directed(12, 13, "north=0,0,1\n", enough, &["entry 3 is 1", "layer 3 is `h` and carries no north edges"]);
    // 10 and 11 on lines that have moved
    expect_directed(10, 14, "nets=4\n", "order=3", &["3 order entries lent", "4 or more"]);
    expect_directed(11, 26, "edges=1,0,e\n", "answer=5", &["5 bytes of answer list lent", "6 or more"]);
}

#[test]
fn an_edge_without_a_layer_comes_after_8_and_before_11() {
    let job = fs::read_to_string(DIRECTED).unwrap();
    let flat = with_line(&with_line(&job, 4, "dirs=h,h,h\n"), 11, "north=0,0,0\n");
    let refused = |edges: &str, lend: &str| {
        let job = with_line(&flat, 17, edges);
        text(&run_with(&["plan", "-", "--lend", lend], job.as_bytes()).stdout)
    };
    assert_eq!(refused("edges=0,0,e;2,0,n\n", "answer=0"), "refused=8,17\n");
    assert_eq!(refused("edges=0,0,e;1,0,e;2,0,n\n", "answer=0"), "refused=13,17\n");
    assert_eq!(refused("edges=0,0,e;1,0,e;2,0,n;2,0,n\n", "answer=0"), "refused=6,17\n");
    // no net goes north: a direction without a layer is no fault by itself
    let job = with_line(&with_line(&flat, 17, "edges=0,0,e;1,0,e\n"), 16, "pins=0,0,1;2,0,1\n");
    assert_eq!(status(&run_with(&["plan", "-"], job.as_bytes())), 0);
}

#[test]
fn wanted_layers_are_planned() {
    let plan = fs::read(TIMING_PLAN).unwrap();
    assert_eq!(run(["plan", TIMING]).stdout, plan);
    // without the lines the plan is the same but for its last line
    let job = fs::read_to_string(TIMING).unwrap();
    let without: String = job.split_inclusive('\n').filter(|line| !line.starts_with("low=")).collect();
    assert_eq!(text(&run_with(&["plan", "-"], without.as_bytes()).stdout) + "ldof=3\n", text(&plan));
    // one line is enough for the last line, also `low=1`
    let one = without.replace("net=6\n", "net=6\nlow=1\n");
    assert!(text(&run_with(&["plan", "-"], one.as_bytes()).stdout).ends_with("\nmax_overflow=0\nldof=0\n"));
}

#[test]
fn wanted_layers_are_told() {
    let told = text(&run(["check", TIMING]).stdout);
    for line in [
        "  vias              5\n  directives        4 nets want a layer above 1, ldof 3\n",
        "  storage to lend   work 336, order 6, answer 11, print 662\n",
    ] {
        assert!(told.contains(line), "no {line:?} in\n{told}");
    }
    let table = text(&run(["report", TIMING]).stdout);
    for line in ["\n  layer directives: ldof 3\n", "\n      3        2          6          5          2 !\n"] {
        assert!(table.contains(line), "no {line:?} in\n{table}");
    }
    let rows = |top: &str| {
        let table = text(&run(["report", TIMING, "--top", top]).stdout);
        let list = table.split("edges with most directive excess\n").nth(1).unwrap();
        list.lines().skip(1).take_while(|line| !line.is_empty()).count()
    };
    assert_eq!([rows("1"), rows("9")], [1, 2]);
    let json: serde_json::Value = serde_json::from_slice(&run(["report", "--json", TIMING]).stdout).unwrap();
    assert_eq!((&json["directives"]["ldof"], &json["directives"]["nets"]), (&3.into(), &4.into()));
    assert_eq!(json["directives"]["by_layer"][2]["below"], 5);
    let excess = serde_json::json!({ "from": [1, 0], "to": [2, 0], "nets": 4, "below": 2, "excess": 2 });
    assert_eq!(json["directives"]["most_excess"][0], excess);
    let folder = Folder::new();
    let picture = folder.path("a.svg");
    assert_eq!(status(&run(["draw", TIMING, "-o", picture.to_str().unwrap()])), 0);
    let drawn = fs::read_to_string(picture).unwrap();
    assert!(drawn.contains("; ldof 3<") && drawn.contains(">too few tracks here and above for the nets"));
    // nothing of it where no net has the line
    for arguments in [&["check", EXAMPLE][..], &["report", EXAMPLE], &["report", "--json", EXAMPLE]] {
        let told = text(&run(arguments).stdout);
        assert!(!told.contains("directive") && !told.contains("ldof"), "{told}");
    }
}

#[test]
fn rings_are_told_by_every_command() {
    assert_eq!(text(&run(["plan", RINGS]).stdout), fs::read_to_string(RINGS_PLAN).unwrap());
    let told = text(&run(["check", RINGS]).stdout);
    assert!(
        told.contains("  edge entries      13\n  rings             2 nets cut, 8 edges dropped, 5 kept\n"),
        "{told}"
    );
    let rows = |top: &str| {
        let table = text(&run(["report", RINGS, "--top", top]).stdout);
        let list = table.split("nets that lost most edges to rings\n").nth(1).unwrap();
        list.lines().skip(1).take_while(|line| !line.is_empty()).count()
    };
    assert_eq!([rows("1"), rows("9")], [1, 2]);
    let json: serde_json::Value = serde_json::from_slice(&run(["report", "--json", RINGS]).stdout).unwrap();
    assert_eq!(
        (&json["rings"]["nets"], &json["rings"]["dropped"], &json["rings"]["kept"]),
        (&2.into(), &8.into(), &5.into())
    );
    assert_eq!(
        json["rings"]["most_dropped"][1],
        serde_json::json!({ "net": 3, "entries": 4, "dropped": 4, "kept": 0 })
    );
    let folder = Folder::new();
    let picture = folder.path("a.svg");
    assert_eq!(status(&run(["draw", RINGS, "-o", picture.to_str().unwrap()])), 0);
    let drawn = fs::read_to_string(picture).unwrap();
    assert!(
        drawn.contains("; 8 edges dropped<")
            && drawn.contains(">an edge that some net dropped, since it closes a ring")
    );
    // nothing of it where no net has a ring
    for arguments in [&["check", EXAMPLE][..], &["report", EXAMPLE], &["report", "--json", EXAMPLE]] {
        let told = text(&run(arguments).stdout);
        assert!(!told.contains("rings") && !told.contains("dropped"), "{told}");
    }
    let told = text(&run(["explain", "7"]).stdout);
    assert!(told.starts_with("Refusal 7: rings: it no longer occurs\n"), "{told}");
}

#[test]
fn a_batch_tells_ldof_of_jobs_that_have_it() {
    let folder = Folder::new();
    let out = folder.path("out");
    let arguments = ["batch", EXAMPLE, TIMING, "-o", out.to_str().unwrap()];
    let told = text(&run(arguments).stdout);
    assert!(told.contains("three-tiles.job: accepted, vias 2, overflow 0, maximum 0\n"), "{told}");
    assert!(told.contains("timing.job: accepted, vias 5, overflow 0, maximum 0, ldof 3\n"), "{told}");
    assert!(told.ends_with("vias 7, overflow 0, maximum 0, ldof 3\n"), "{told}");
    let told = text(&run(arguments.into_iter().chain(["--resume"])).stdout);
    assert!(told.contains("timing.job: accepted, vias 5, overflow 0, maximum 0, ldof 3 (kept)\n"), "{told}");
    assert!(told.ends_with("2 kept from before; vias 7, overflow 0, maximum 0, ldof 3\n"), "{told}");
}

/// That the example with wanted layers, with a line put in the place of another, is refused so and told in these words.
fn expect_timing(number: u32, line: u32, new: &str, words: &[&str]) {
    let job = with_line(&fs::read_to_string(TIMING).unwrap(), line as usize, new);
    let output = run_with(&["check", "-"], job.as_bytes());
    assert_eq!(text(&output.stdout), format!("refused={number},{line}\n"), "{new:?}");
    let told = text(&output.stderr);
    for word in words {
        assert!(told.contains(word), "no {word:?} in\n{told}");
    }
}

#[test]
fn refusals_of_jobs_with_wanted_layers() {
    expect_timing(2, 15, "low=three\n", &["`three` is not a number", "`low=` of net 1 and a number from 1 to 3"]);
    expect_timing(3, 15, "low=0\n", &["`low` is 0", "a number from 1 to 3"]);
    expect_timing(3, 15, "low=4\n", &["`low` is 4", "take the line out if net 1 may be on any layer"]);
    expect_timing(2, 16, "low=3\n", &["a net has one such line"]);
    expect_timing(2, 28, "low=3\n", &["put it before the `pins` line"]);
    expect_timing(2, 15, "Low=3\n", &["begin the line with `low=`"]);
    // lines behind it have moved: 10 is before it, 11 behind all
    let job = fs::read(TIMING).unwrap();
    let refused = |lend: &str| text(&run_with(&["plan", "-", "--lend", lend], &job).stdout);
    assert_eq!([refused("order=5"), refused("answer=10")], ["refused=10,13\n", "refused=11,36\n"]);
    assert_eq!([refused("print=661"), refused("work=335")], ["refused=11,36\n", "refused=9,3\n"]);
}

#[test]
fn draw_writes_a_page_or_a_picture() {
    let folder = Folder::new();
    for (name, start) in [("a.html", "<!DOCTYPE html>"), ("a.svg", "<svg ")] {
        let file = folder.path(name);
        let output = run(["draw", EXAMPLE, "-o", file.to_str().unwrap()]);
        assert!(status(&output) == 0 && output.stdout.is_empty(), "{}", text(&output.stderr));
        assert!(fs::read_to_string(file).unwrap().starts_with(start));
    }
    let file = folder.path("b.html");
    assert_eq!(text(&run(["draw", &example_of(8), "-o", file.to_str().unwrap()]).stdout), "refused=8,14\n");
    let output = run(["draw", EXAMPLE, "-o", folder.path("b.png").to_str().unwrap()]);
    assert!(status(&output) == 2 && text(&output.stderr).contains(".html or .svg"));
    assert_eq!(folder.names(""), ["a.html", "a.svg"]);
}

#[test]
fn wrong_usage_and_help() {
    for arguments in [&[][..], &["fly"], &["plan"], &["plan", EXAMPLE, "--up"], &["draw", EXAMPLE], &["batch"]] {
        let output = run(arguments);
        assert!(status(&output) == 2 && output.stdout.is_empty() && !output.stderr.is_empty(), "{arguments:?}");
    }
    assert_eq!(status(&run(["batch", EXAMPLE, "--resume"])), 2);
    assert_eq!(status(&run(["plan", EXAMPLE, "--lend", "tape=3"])), 2);
    for command in ["plan", "check", "explain", "report", "draw", "batch"] {
        let output = run([command, "--help"]);
        assert!(status(&output) == 0 && text(&output.stdout).contains("Usage: jerkytarn"), "{command}");
    }
    assert!(status(&run(["--help"])) == 0 && status(&run(["--version"])) == 0);
}
