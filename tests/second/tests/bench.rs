//! The worked cases of document 01, and what its table and its terms, and the requests of document 02, say of single lines.

use second::ask::answer_all;
use second::brute;
use second::calls::{answer, held, Buffers, Planner, Returned, Second};
use second::check;
use second::cut::cut;
use second::job::{read, Grid, Lengths, Net, Refusal, TEXT_LIMIT};
use second::plan::{excess, flat, plan, print, walk, Entry, Plan};
use second::run::{BRUTE_MOST_ENTRIES, BRUTE_MOST_HAND_OUTS};

const AMPLE: Lengths = Lengths { work: 1 << 19, order: 4096, answer: 1 << 18, print: Some(1 << 20) };

/// A job text: width, height, layers; alpha, beta, gamma; `east` and `north` of each layer; `pins` and `edges` of each net.
fn text(size: [usize; 3], weights: [usize; 3], capacities: &[(&str, &str)], nets: &[(&str, &str)]) -> String {
    let ([w, h, k], [a, b, c]) = (size, weights);
    let mut text = format!("width={w}\nheight={h}\nlayers={k}\nalpha={a}\nbeta={b}\ngamma={c}\n");
    for (east, north) in capacities {
        text += &format!("east={east}\nnorth={north}\n");
    }
    text += &format!("nets={}\n", nets.len());
    for (place, (pins, edges)) in nets.iter().enumerate() {
        text += &format!("net={}\npins={pins}\nedges={edges}\n", place + 1);
    }
    text
}

/// The text with a `dirs` line.
fn directed(letters: &str, text: String) -> String {
    text.replacen("\nalpha=", &format!("\ndirs={letters}\nalpha="), 1)
}

/// The text with a `low` line for each net in turn, where its layer is not 0.
fn marked(lows: &[usize], text: String) -> String {
    let with = |text: String, (place, layer): (usize, &usize)| match layer {
        0 => text,
        _ => text.replacen(&format!("\nnet={place}\n"), &format!("\nnet={place}\nlow={layer}\n"), 1),
    };
    (1..).zip(lows).fold(text, with)
}

/// The plan of an accepted job, after all checks.
fn planned(text: &str) -> Plan {
    let job = read(text.as_bytes(), AMPLE).expect("accepted");
    let exact = held(&Second, text.as_bytes(), job.need(), &Ok(plan(&job)), 7).unwrap();
    held(&Second, text.as_bytes(), AMPLE, &Ok(plan(&job)), 8).unwrap();
    let plan = answer(text.as_bytes(), AMPLE).unwrap();
    check::check(&job, &plan).unwrap();
    let cut = cut(&job);
    if (cut == job || job.entries() <= BRUTE_MOST_ENTRIES) && brute::layerings(&cut, 100_000).is_some() {
        brute::check(&job, &plan.order, &plan.layers.concat(), &exact).unwrap();
    }
    brute::directives(&cut, &excess(&cut), plan.ldof, BRUTE_MOST_HAND_OUTS).unwrap();
    plan
}

/// The refusal of a text, 0 and 0 where it is accepted. A refused call writes nothing but zeros in the working numbers.
fn refusal(text: &str, lent: Lengths) -> (u32, u32) {
    let expected = answer(text.as_bytes(), lent);
    held(&Second, text.as_bytes(), lent, &expected, 9).unwrap();
    expected.err().map_or((0, 0), |Refusal { number, line }| (number, line))
}

fn refused(text: &str) -> (u32, u32) {
    refusal(text, AMPLE)
}

const C1: &str = "width=3\nheight=1\nlayers=2\nalpha=1\nbeta=1\ngamma=0\neast=1,1\nnorth=\neast=1,1\nnorth=\nnets=2\n\
    net=1\npins=0,0,1;2,0,1\nedges=0,0,e;1,0,e\nnet=2\npins=0,0,1;1,0,1\nedges=0,0,e\n";

#[test]
fn c1() {
    let plan = planned(C1);
    let printed = "order=2,1\nnet=1\nvias=2\nlayers=2,1\nnet=2\nvias=0\nlayers=1\n\
        total_vias=2\ntotal_overflow=0\nmax_overflow=0\n";
    assert_eq!(print(&plan), printed);
    assert_eq!(plan.order, [Entry { net: 2, low: 1, score: 3000 }, Entry { net: 1, low: 1, score: 2500 }]);
}

#[test]
fn c2() {
    assert_eq!(refused(""), (2, 1));
}

#[test]
fn c3() {
    let plan = planned(&text([1, 1, 2], [1, 1, 1], &[("", ""); 2], &[]));
    assert_eq!(print(&plan), "order=\ntotal_vias=0\ntotal_overflow=0\nmax_overflow=0\n");
}

#[test]
fn c4() {
    let plan = planned(&text([1, 1, 4], [0, 0, 0], &[("", ""); 4], &[("0,0,1;0,0,4", "")]));
    let printed = "order=1\nnet=1\nvias=3\nlayers=\ntotal_vias=3\ntotal_overflow=0\nmax_overflow=0\n";
    assert_eq!(print(&plan), printed);
}

#[test]
fn c5_c6_c7() {
    let case = |capacities: [&str; 2], nets: usize, layer: u8| {
        let pins = format!("0,0,{layer};1,0,{layer}");
        let capacities = capacities.map(|tracks| (tracks, ""));
        planned(&text([2, 1, 2], [1, 1, 1], &capacities, &vec![(pins.as_str(), "0,0,e"); nets]))
    };
    let c5 = case(["1", "0"], 1, 2);
    assert_eq!((c5.layers, c5.vias), (vec![vec![1]], vec![2]));
    let c6 = case(["1", "0"], 2, 2);
    assert_eq!((c6.layers, c6.vias), (vec![vec![2], vec![1]], vec![0, 2]));
    assert_eq!((c6.total_overflow, c6.max_overflow), (1, 1));
    let c7 = case(["0", "0"], 3, 1);
    assert_eq!(c7.layers, [[1], [1], [2]]);
    assert_eq!((c7.total_overflow, c7.max_overflow), (3, 2));
}

#[test]
fn c8_c9() {
    let three = [("0,0,1", "0,0,e;1,0,e;2,0,e")];
    assert_eq!(planned(&text([4, 1, 2], [1, 0, 0], &[("0,0,0", ""); 2], &three)).order[0].score, 333);
    let one = ("0,0,1", "0,0,e");
    let third = |capacities: [&str; 2], nets| {
        let capacities = capacities.map(|tracks| (tracks, ""));
        planned(&text([2, 1, 2], [0, 0, 1], &capacities, &vec![one; nets])).order[0].score
    };
    assert_eq!(third(["1", "2"], 2), 666);
    assert_eq!(third(["0", "0"], 3), 3000);
}

#[test]
fn stacked_pins_count_once() {
    // S-1: P is the number of different tiles on the `pins` line
    let nets = [("0,0,1;0,0,2;0,0,3", ""), ("0,0,1;1,0,1", "0,0,e"), ("1,0,1;0,0,3;1,0,3;0,0,1", "0,0,e")];
    let plan = planned(&text([2, 1, 3], [0, 1, 0], &[("1", ""); 3], &nets));
    let order: Vec<(u32, u64)> = plan.order.iter().map(|entry| (entry.net, entry.score)).collect();
    assert_eq!(order, [(2, 2000), (3, 2000), (1, 1000)]);
    let c4 = planned(&text([1, 1, 4], [1, 1, 0], &[("", ""); 4], &[("0,0,1;0,0,4", "")]));
    assert_eq!((c4.order[0].score, c4.total_vias), (2000, 3));
}

/// S-3: two tiles in a row with so many tracks on two layers, and three nets, each with a pin on layer 1.
fn with_tracks(tracks: [&str; 2]) -> Plan {
    planned(&text([2, 1, 2], [0, 0, 255], &tracks.map(|tracks| (tracks, "")), &[("0,0,1", "0,0,e"); 3]))
}

#[test]
fn track_counts_above_255() {
    // where a number keeps only a byte, or two, or its sign, there are no tracks; D is 3
    for (tracks, layer, score) in [
        (["255", "0"], 1, 3000),
        (["0", "256"], 2, 2988),
        (["256", "256"], 1, 1494),
        (["0", "32768"], 2, 23),
        (["32768", "32768"], 1, 11),
        (["0", "65535"], 2, 11),
        (["1", "65535"], 2, 11),
        (["65535", "65535"], 1, 5),
    ] {
        let plan = with_tracks(tracks);
        assert_eq!(plan.order.iter().map(|entry| entry.score).collect::<Vec<_>>(), [score; 3], "{tracks:?}");
        assert_eq!(plan.layers[2], [layer], "{tracks:?}");
        assert_eq!((plan.total_overflow, plan.max_overflow), (0, 0), "{tracks:?}");
    }
    // overflow where the last net finds no track left
    let full = |tracks: &str, nets: usize| {
        let plan = planned(&text([2, 1, 2], [0; 3], &[(tracks, ""), ("0", "")], &vec![("0,0,1", "0,0,e"); nets]));
        (plan.layers.concat().iter().filter(|layer| **layer == 1).count(), plan.total_overflow, plan.max_overflow)
    };
    assert_eq!([full("256", 256), full("256", 257), full("300", 303)], [(256, 0, 0), (257, 1, 1), (302, 3, 2)]);
}

/// The entries of a net over all tiles of a square: the first column, and all rows.
fn over_all_tiles(side: usize) -> String {
    let column = (1..side).map(|y| format!("0,{},n", y - 1));
    let rows = (0..side).flat_map(|y| (1..side).map(move |x| format!("{},{y},e", x - 1)));
    column.chain(rows).collect::<Vec<_>>().join(";")
}

#[test]
fn sums_at_their_bounds() {
    // S-3: "No sum, score or overflow may lose a digit". The most tracks, and 21 nets, as many as a text holds
    let (tracks, edges) = (vec!["65535"; 63 * 64].join(","), over_all_tiles(64));
    let job = text([64, 64, 8], [255; 3], &[(tracks.as_str(), tracks.as_str()); 8], &[("0,0,1", edges.as_str()); 21]);
    assert!(job.len() <= TEXT_LIMIT && job.len() + edges.len() > TEXT_LIMIT);
    let read_job = read(job.as_bytes(), AMPLE).unwrap();
    let capacity = flat(&read_job).capacity;
    assert!(capacity.iter().all(|tracks| *tracks == 524_280));
    assert_eq!(read_job.nets[0].edges.iter().map(|edge| capacity[*edge]).sum::<u64>(), 2_146_926_600);
    let plan = planned(&job);
    // 255,000 / 4,095 and 255,000 for the pin, and 255,000 × 21 × 4,095 / 2,146,926,600
    assert!(plan.order.iter().all(|entry| entry.score == 62 + 255_000 + 10));
    assert_eq!((plan.total_vias, plan.total_overflow), (0, 0));

    // the most entries in a text, all of them over the same 99 edges, without tracks and with one on each layer
    let edges = over_all_tiles(10);
    for (tracks, score, overflow) in [("0", 42_689_295_000, 1691u64), ("1", 215_602_500, 1689)] {
        let lists = vec![tracks; 90].join(",");
        let lists = [(lists.as_str(), lists.as_str()); 2];
        let job = text([10, 10, 2], [0, 0, 255], &lists, &vec![("0,0,1", edges.as_str()); 1691]);
        assert!(job.len() <= TEXT_LIMIT && job.len() + edges.len() > TEXT_LIMIT);
        let plan = planned(&job);
        assert!(plan.order.iter().all(|entry| entry.score == score), "{:?}", plan.order[0]);
        assert_eq!((plan.total_overflow, plan.max_overflow), (99 * overflow, overflow.div_ceil(2)));
    }

    // the most nets on one edge
    let edge = |tracks: &str| {
        let plan = planned(&text([2, 1, 8], [0, 0, 255], &[(tracks, ""); 8], &vec![("0,0,1", "0,0,e"); 4096]));
        (plan.order[0].score, plan.total_overflow, plan.max_overflow)
    };
    assert_eq!(edge("0"), (1_044_480_000, 4096, 512));
    assert_eq!(edge("511"), (255_499, 8, 1));
    assert_eq!(edge("512"), (255_000, 0, 0));
    assert_eq!(edge("65535"), (1992, 0, 0));
}

/// S-2: two tiles in a row with no tracks on two layers, and so many nets, each with a pin on layer 2 in both tiles.
fn two_tiles(letters: &str, nets: usize) -> String {
    directed(letters, text([2, 1, 2], [1, 1, 1], &[("0", ""); 2], &vec![("0,0,2;1,0,2", "0,0,e"); nets]))
}

#[test]
fn edges_use_the_layers_of_their_direction() {
    let one = planned(&two_tiles("h,v", 1));
    assert_eq!((one.layers, one.vias, one.total_overflow, one.max_overflow), (vec![vec![1]], vec![2], 1, 1));
    let two = planned(&two_tiles("h,v", 2));
    assert_eq!((two.layers, two.vias, two.total_overflow, two.max_overflow), (vec![vec![1]; 2], vec![2, 2], 2, 2));
    // no track closes no layer: only the letter does
    assert_eq!(planned(&two_tiles("v,h", 2)).layers, [[2], [2]]);
    assert_eq!(planned(&two_tiles("h,h", 2)).layers, [[2], [1]]);

    // two layers for edges to the east, one for those to the north, and a track less than nets
    let capacities = [("0,0", "0,0"), ("1,1", "0,0"), ("0,0", "1,1")];
    let nets = [("0,0,1;1,1,1", "0,0,e;1,0,n"); 2];
    let plan = planned(&directed("h,h,v", text([2, 2, 3], [1, 1, 1], &capacities, &nets)));
    assert_eq!(plan.layers, [[1, 3], [2, 3]]);
    assert_eq!((plan.vias, plan.total_overflow, plan.max_overflow), (vec![4, 4], 2, 1));
}

#[test]
fn each_direction_has_its_limit() {
    // eight nets to the north, two to the east: limits 4 and 1, where without directions it is 2 for all
    let mut nets = vec![("0,0,1;1,0,1", "0,0,e"); 2];
    nets.extend([("0,0,1", "0,0,n"); 8]);
    let both = text([2, 2, 4], [0, 0, 0], &[("0,0", "0,0"); 4], &nets);
    let plan = planned(&directed("h,h,v,v", both.clone()));
    let layers: Vec<u8> = plan.layers.concat();
    assert_eq!(layers, [1, 2, 3, 3, 3, 3, 4, 4, 4, 4]);
    assert_eq!((plan.total_overflow, plan.max_overflow), (10, 4));
    let plan = planned(&both);
    assert_eq!(plan.layers.concat(), [1, 1, 1, 1, 2, 2, 3, 3, 4, 4]);
    assert_eq!((plan.total_overflow, plan.max_overflow), (10, 2));

    // three layers to the east and one to the north, the larger maximum to the east
    let mut nets = vec![("0,0,1", "0,0,e"); 7];
    nets.push(("0,0,1", "0,0,n"));
    let plan = planned(&directed("h,v,h,h", text([2, 2, 4], [0, 0, 0], &[("0,0", "0,0"); 4], &nets)));
    assert_eq!((plan.layers.concat(), plan.max_overflow), (vec![1, 1, 1, 3, 3, 3, 4, 2], 3));
}

#[test]
fn all_layers_may_run_one_way() {
    // C7, and the same in a column: only edges that have a layer count
    let row = |letters: &str| directed(letters, text([2, 1, 2], [1, 1, 1], &[("0", ""); 2], &[("0,0,1", "0,0,e"); 3]));
    let column =
        |letters: &str| directed(letters, text([1, 2, 2], [1, 1, 1], &[("", "0"); 2], &[("0,0,1", "0,0,n"); 3]));
    for job in [row("h,h"), column("v,v")] {
        let plan = planned(&job);
        assert_eq!((plan.layers.concat(), plan.total_overflow, plan.max_overflow), (vec![1, 1, 2], 3, 2));
    }
    assert_eq!([refused(&row("v,v")), refused(&column("h,h"))], [(13, 15); 2]);

    // 13 is of edges in use: a direction without a layer alone is no fault
    let square = |edges: &str| directed("h,h", text([2, 2, 2], [1, 1, 1], &[("1,1", "0,0"); 2], &[("0,0,1", edges)]));
    assert_eq!([square("0,0,e"), square(""), square("0,0,n")].map(|job| refused(&job)), [(0, 0), (0, 0), (13, 15)]);
    let plan = planned(&directed("v,v", text([1, 1, 2], [1, 1, 1], &[("", ""); 2], &[("0,0,1;0,0,2", "")])));
    assert_eq!((plan.total_vias, plan.max_overflow), (1, 0));
}

#[test]
fn the_dirs_line() {
    let with = |line: &str| refused(&C1.replace("alpha=1", &format!("{line}\nalpha=1")));
    assert_eq!(with("dirs=h,h"), (0, 0));
    for line in [
        "dirs=",
        "dirs=h",
        "dirs=h,h,h",
        "dirs=h,h,",
        "dirs=,h,h",
        "dirs=h,,h",
        "dirs=hh",
        "dirs=h;h",
        "dirs=H,H",
        "dirs=h,H",
        "dirs=h,e",
        "dirs=1,1",
        "dirs= h,h",
        "dirs=h,h ",
        "dirs=h, h",
        "dirs=h,h\r",
        "dirsh,h",
        "dirs",
        "dir=h,h",
        "Dirs=h,h",
        " dirs=h,h",
        "",
    ] {
        assert_eq!(with(line), (2, 4), "{line}");
    }
    // once only, and only right after `layers`; the lines after it count one more
    assert_eq!(with("dirs=h,h\ndirs=h,h"), (2, 5));
    assert_eq!(refused(&C1.replace("beta=1", "dirs=h,h\nbeta=1")), (2, 5));
    assert_eq!(refused(&C1.replace("layers=2", "dirs=h,h\nlayers=2")), (2, 3));
    let later = |old: &str, new: &str| refused(&directed("h,h", C1.to_string()).replacen(old, new, 1));
    assert_eq!(later("alpha=1", "alpha=256"), (3, 5));
    assert_eq!(later("north=", "north=1"), (2, 9));
    assert_eq!(later("nets=2", "nets=4097"), (3, 12));
    assert_eq!(later("net=2", "net=3"), (4, 16));
    assert_eq!(refused(&directed("h,h", format!("{C1}\n"))), (2, 19));
}

#[test]
fn tracks_across_a_layer() {
    // east and north of layer 1, then of layer 2, from line 8 on
    let with = |capacities: [(&str, &str); 2]| refused(&directed("h,v", text([3, 2, 2], [1; 3], &capacities, &[])));
    let fine = [("1,1,1,1", "0,0,0"), ("0,0,0,0", "1,1,1")];
    assert_eq!(with(fine), (0, 0));
    assert_eq!(with([fine[0], ("0,0,0,1", "1,1,1")]), (12, 10));
    assert_eq!(with([("1,1,1,1", "1,0,0"), fine[1]]), (12, 9));
    assert_eq!(with([("1,1,1,1", "0,255,0"), ("1,1,1,1", "1,1,1")]), (12, 9));
    assert_eq!(with([("1,1,1,1", "0,256,0"), fine[1]]), (12, 9));
    assert_eq!(with([("1,1,1,1", "0,0,65535"), fine[1]]), (12, 9));
    // form, length and range come first, also behind the tracks
    assert_eq!(with([("1,1,1,1", "1,0,65536"), fine[1]]), (3, 9));
    assert_eq!(with([("1,1,1,1", "1,0"), fine[1]]), (2, 9));
    assert_eq!(with([("1,1,1,1", "1,0,00"), fine[1]]), (2, 9));
    assert_eq!(with([("65536,1,1,1", "1,0,0"), fine[1]]), (3, 8));
}

#[test]
fn edges_without_a_layer() {
    let job = |edges: &str| {
        let capacities = [("1,1,1,1,1,1", "0,0,0,0,0,0"); 2];
        directed("h,h", text([3, 3, 2], [1; 3], &capacities, &[("0,0,1", "0,0,e"), ("0,0,1", edges)]))
    };
    assert_eq!(refused(&job("0,0,e;1,0,e")), (0, 0));
    assert_eq!(refused(&job("0,0,e;1,0,n")), (13, 18));
    // 2, 3, 6 and 8 come first; a ring is no reason, and 13 is judged before the cut
    assert_eq!(refused(&job("0,0,n;0,0,x")), (2, 18));
    assert_eq!(refused(&job("0,0,n;2,0,e")), (3, 18));
    assert_eq!(refused(&job("0,0,n;0,0,n")), (6, 18));
    assert_eq!(refused(&job("0,0,n;0,1,e;1,0,n;0,0,e")), (13, 18));
    assert_eq!(refused(&job("0,0,n;1,1,e")), (8, 18));
    // and 11 after it, as a later line does
    let short = Lengths { answer: 0, print: Some(0), ..AMPLE };
    assert_eq!(refusal(&job("0,0,n"), short), (13, 18));
    assert_eq!(refusal(&job("0,0,e"), short), (11, 18));
    assert_eq!(refused(&format!("{}x", job("0,0,n"))), (13, 18));
}

/// S-5: 18 lines, one of them `low`, for the first net.
const MARKED: [&str; 18] = [
    "width=3",
    "height=2",
    "layers=2",
    "alpha=1",
    "beta=1",
    "gamma=0",
    "east=1,1,1,1",
    "north=1,1,1",
    "east=1,1,1,1",
    "north=1,1,1",
    "nets=2",
    "net=1",
    "low=2",
    "pins=0,0,1;2,1,2",
    "edges=0,0,e;1,0,e;2,0,n",
    "net=2",
    "pins=0,0,1;0,1,1",
    "edges=0,0,n",
];

/// MARKED with other lines in the place of some of them, counted from 1.
fn marked_with(others: &[(usize, &str)]) -> String {
    let mut lines = MARKED;
    others.iter().for_each(|(line, other)| lines[line - 1] = other);
    lines.join("\n") + "\n"
}

#[test]
fn the_low_line() {
    let low = |line: &str| refused(&marked_with(&[(13, line)]));
    assert_eq!(["low=1", "low=2"].map(low), [(0, 0); 2]);
    assert_eq!(["low=0", "low=3", "low=9", "low=255", "low=256", "low=65537", "low=99999"].map(low), [(3, 13); 7]);
    for line in [
        "low=",
        "low=02",
        "low=00",
        "low=2,2",
        "low=2,",
        "low= 2",
        "low=2 ",
        "low=2\r",
        "low=x",
        "low=+1",
        "low=-1",
        "low=100000",
        "low=4294967297",
        "low=18446744073709551617",
        "low==2",
        "low",
        "low2",
        "low 2",
        "Low=2",
        "LOW=2",
        "lows=2",
        " low=2",
        "low=2\0",
        "",
    ] {
        assert_eq!(low(line), (2, 13), "{line}");
    }
    assert_eq!(low("low=2\nlow=2"), (2, 14));
    assert_eq!(low("low=1\nlow=3"), (2, 14));
    assert_eq!(low("low=3\nlow=1"), (3, 13));
    // no byte 10 ends it
    let whole = marked_with(&[]);
    let end = whole.find("low=2").unwrap();
    for length in 0..=5 {
        assert_eq!(refused(&whole[..end + length]), (2, 13));
    }
    assert_eq!(refused(&whole[..end + 6]), (2, 14));
    // it comes after 4, and before what stands on `pins`
    assert_eq!(refused(&marked_with(&[(12, "net=2"), (13, "low=0")])), (4, 12));
    assert_eq!(refused(&marked_with(&[(13, "low=0"), (14, "pins=")])), (3, 13));
    assert_eq!(refused(&marked_with(&[(13, "low="), (14, "pins=")])), (2, 13));
    // behind `pins`, behind `edges`, before `net`, before the first net
    assert_eq!(refused(&marked_with(&[(13, MARKED[13]), (14, "low=2")])), (2, 14));
    assert_eq!(refused(&marked_with(&[(13, MARKED[13]), (14, MARKED[14]), (15, "low=2")])), (2, 15));
    assert_eq!(refused(&marked_with(&[(12, "low=2"), (13, "net=1")])), (2, 12));
    assert_eq!(refused(&format!("{whole}low=2\n")), (2, 19));
    // K = 8
    let eight = |layer: usize| refused(&marked(&[layer], text([1, 1, 8], [1; 3], &[("", ""); 8], &[("0,0,1", "")])));
    assert_eq!([1, 8, 9].map(eight), [(0, 0), (0, 0), (3, 25)]);
}

#[test]
fn later_lines_count_one_more() {
    let need = Lengths { work: 234, order: 2, answer: 4, print: Some(392) };
    let whole = marked_with(&[]);
    assert_eq!(read(whole.as_bytes(), need).unwrap().need(), need);
    for line in 1..=MARKED.len() {
        let missing = MARKED[..line - 1].iter().map(|line| format!("{line}\n")).collect::<String>();
        assert_eq!(refused(&missing), (2, line as u32), "without line {line}");
        let doubled = format!("{}\n{0}", MARKED[line - 1]);
        assert_eq!(refused(&marked_with(&[(line, &doubled)])), (2, line as u32 + 1), "line {line} twice");
    }
    assert_eq!(refused(&format!("{whole}x")), (2, 19));
    assert_eq!(refused(&marked_with(&[(14, "pins=0,0,1;0,0,1")])), (5, 14));
    assert_eq!(refused(&marked_with(&[(15, "edges=0,0,e;0,0,e")])), (6, 15));
    assert_eq!(refused(&marked_with(&[(16, "net=1")])), (4, 16));
    assert_eq!(refused(&marked_with(&[(18, "edges=0,0,e")])), (8, 18));
    assert_eq!(refusal(&whole, need), (0, 0));
    assert_eq!(refusal(&whole, Lengths { order: 1, ..need }), (10, 11));
    assert_eq!(refusal(&whole, Lengths { answer: 3, ..need }), (11, 18));
    assert_eq!(refusal(&whole, Lengths { print: Some(391), ..need }), (11, 18));
    assert_eq!(refusal(&whole, Lengths { print: None, ..need }), (0, 0));
    // also for the last net, and with directions
    let last = |layer: &str| marked_with(&[(16, &format!("net=2\n{layer}"))]);
    assert_eq!([refusal(&last("low=1"), need), refusal(&last("low=3"), need)], [(0, 0), (3, 17)]);
    assert_eq!(refusal(&last("low=1"), Lengths { answer: 3, print: None, ..need }), (11, 19));
    let along = marked(&[2, 3], directed("h,h", C1.to_string()));
    assert_eq!([refused(&along), refused(&along.replace("low=3", "low=2"))], [(3, 18), (0, 0)]);
}

/// Two tiles with these tracks on the layers of the edge between; so many nets there, layer by layer, want this layer and
/// up. All have a `low` line.
fn one_edge(tracks: &[&str], nets: &[usize]) -> String {
    let lows: Vec<usize> = (1..).zip(nets).flat_map(|(layer, count)| vec![layer; *count]).collect();
    let capacities: Vec<(&str, &str)> = tracks.iter().map(|tracks| (*tracks, "")).collect();
    marked(&lows, text([2, 1, tracks.len()], [1, 1, 0], &capacities, &vec![("0,0,1;1,0,1", "0,0,e"); lows.len()]))
}

#[test]
fn ldof_of_one_edge() {
    let ldof = |tracks: &[&str], nets: &[usize]| planned(&one_edge(tracks, nets)).ldof;
    // source document 001, figures 3, 4 and 5: three layers with 10 tracks each
    assert_eq!(ldof(&["10"; 3], &[0, 11, 8]), Some(0));
    assert_eq!(ldof(&["10"; 3], &[0, 11, 12]), Some(3));
    assert_eq!(ldof(&["10"; 3], &[0, 14, 8]), Some(2));
    // the same with fewer tracks, so that all ways to hand them out are looked at
    assert_eq!(ldof(&["2"; 3], &[0, 2, 1]), Some(0));
    assert_eq!(ldof(&["2"; 3], &[0, 3, 4]), Some(3));
    assert_eq!(ldof(&["2"; 3], &[0, 4, 1]), Some(1));
    // no tracks on the highest layer
    assert_eq!(ldof(&["9", "9", "0"], &[0, 0, 4]), Some(4));
    assert_eq!(ldof(&["9", "9", "0"], &[0, 4, 0]), Some(0));
    assert_eq!(ldof(&["9", "9", "0"], &[0, 9, 1]), Some(1));
    // all nets want the highest
    assert_eq!(ldof(&["9", "9", "3"], &[0, 0, 4]), Some(1));
    assert_eq!(ldof(&["9", "9", "4"], &[0, 0, 4]), Some(0));
    assert_eq!(ldof(&["0"; 8], &[0, 0, 0, 0, 0, 0, 0, 5]), Some(5));
    // what is short higher up takes nothing from the layers below
    assert_eq!(ldof(&["0", "1", "1", "1"], &[0, 1, 1, 3]), Some(2));
    assert_eq!(ldof(&["0", "0", "1", "1"], &[0, 1, 0, 3]), Some(2));
    // nets that want layer 1 do not count, and its tracks are wanted by nobody else
    assert_eq!(ldof(&["0", "1"], &[7, 1]), Some(0));
    assert_eq!(ldof(&["0", "1"], &[7, 3]), Some(2));
    assert_eq!(ldof(&["65535", "0"], &[0, 3]), Some(3));
    assert_eq!(ldof(&["0", "65535"], &[0, 3]), Some(0));
    // the most nets, and the most tracks
    assert_eq!(ldof(&["0"; 8], &[0, 0, 0, 0, 0, 0, 0, 4096]), Some(4096));
    assert_eq!(ldof(&["511"; 8], &[0, 4096]), Some(4096 - 7 * 511));
    assert_eq!(ldof(&["65535"; 8], &[0, 96, 0, 1000, 1000, 1000, 0, 1000]), Some(0));
}

#[test]
fn ldof_of_a_job() {
    // `low` 3, 3, 2, 1 and none on the edge; 2 in a net without edges
    let mut nets = vec![("0,0,1", "0,0,e"); 5];
    nets.push(("0,0,1", ""));
    let five = |tracks: [&str; 3]| {
        marked(&[3, 3, 2, 1, 0, 2], text([2, 1, 3], [1, 1, 0], &tracks.map(|tracks| (tracks, "")), &nets))
    };
    let plan = planned(&five(["2", "1", "1"]));
    assert_eq!(plan.ldof, Some(1));
    let lows: Vec<(u32, u32)> = plan.order.iter().map(|entry| (entry.net, entry.low)).collect();
    assert_eq!(lows, [(1, 3), (2, 3), (3, 2), (4, 1), (5, 1), (6, 2)]);
    // with directions, t still runs over all layers
    assert_eq!(planned(&directed("h,v,h", five(["2", "0", "1"]))).ldof, Some(2));
    assert_eq!(planned(&directed("h,h,v", five(["2", "1", "0"]))).ldof, Some(2));
    assert_eq!(planned(&directed("h,h,h", five(["2", "1", "1"]))).ldof, Some(1));

    // over all edges, to the east and to the north
    let nets = [("0,0,1", "0,0,e;0,0,n"), ("0,0,1", "0,0,n;0,0,e"), ("1,1,1", "1,0,n;0,1,e"), ("0,0,1", "0,0,e")];
    let square =
        |lows: &[usize]| planned(&marked(lows, text([2, 2, 2], [1; 3], &[("9,9", "9,9"), ("1,0", "0,1")], &nets))).ldof;
    assert_eq!(square(&[2, 2, 2, 2]), Some(2 + 1 + 2));
    assert_eq!(square(&[0, 2, 2, 0]), Some(1 + 1));
    assert_eq!(square(&[1, 2, 0, 1]), Some(1));
    assert_eq!(square(&[0, 0, 0, 1]), Some(0));
    assert_eq!(square(&[]), None);
}

#[test]
fn c1_with_low_lines() {
    let lines = "order=2,1\nnet=1\nvias=2\nlayers=2,1\nnet=2\nvias=0\nlayers=1\n\
        total_vias=2\ntotal_overflow=0\nmax_overflow=0\n";
    for (lows, one, two, last) in [
        ([2, 0], 2, 1, "ldof=0\n"),
        ([0, 2], 1, 2, "ldof=0\n"),
        ([1, 1], 1, 1, "ldof=0\n"),
        ([1, 0], 1, 1, "ldof=0\n"),
        ([2, 2], 2, 2, "ldof=1\n"),
        ([0, 0], 1, 1, ""),
    ] {
        let plan = planned(&marked(&lows, C1.to_string()));
        assert_eq!(print(&plan), format!("{lines}{last}"), "{lows:?}");
        let order = [Entry { net: 2, low: two, score: 3000 }, Entry { net: 1, low: one, score: 2500 }];
        assert_eq!(plan.order, order, "{lows:?}");
    }
    assert_eq!(refused(&marked(&[3, 0], C1.to_string())), (3, 13));
    assert_eq!(refused(&marked(&[2, 3], C1.to_string())), (3, 17));

    // no track above layer 1, where the net is put all the same
    let plan = planned(&one_edge(&["2", "0"], &[0, 1]));
    assert_eq!((plan.layers.concat(), plan.total_vias, plan.total_overflow), (vec![1], 0, 0));
    let printed = "order=1\nnet=1\nvias=0\nlayers=1\ntotal_vias=0\ntotal_overflow=0\nmax_overflow=0\nldof=1\n";
    assert_eq!(print(&plan), printed);
    // without nets there is no such line
    let none = planned(&one_edge(&["2", "0"], &[]));
    assert_eq!(print(&none), "order=\ntotal_vias=0\ntotal_overflow=0\nmax_overflow=0\n");
    // a net without edges
    let plan = planned(&marked(&[4], text([1, 1, 4], [0; 3], &[("", ""); 4], &[("0,0,1;0,0,4", "")])));
    assert_eq!((plan.total_vias, plan.ldof), (3, Some(0)));
}

#[test]
fn c10() {
    let square = ["0,0,e", "0,1,e", "0,0,n", "1,0,n"];
    let job = |edges: &[&str]| text([2, 2, 2], [1, 1, 1], &[("1,1", "1,1"); 2], &[("0,0,1;1,1,2", &edges.join(";"))]);
    for left_out in 0..4 {
        let mut edges = square.to_vec();
        edges.remove(left_out);
        planned(&job(&edges));
    }
    // S-6: the square itself is accepted; the last edge closes it, and with pins in all tiles no other is dropped
    assert_eq!(planned(&job(&square)).layers, [[0, 1, 1, 0]]);
    let all = job(&square).replace("pins=0,0,1;1,1,2", "pins=0,0,1;1,0,1;0,1,1;1,1,1");
    assert_eq!(planned(&all).layers, [[1, 1, 1, 0]]);
}

/// S-6: nets on three by three tiles, with one track on each layer of each edge.
fn nine_tiles(nets: &[(&str, &str)]) -> String {
    text([3, 3, 2], [1, 1, 1], &[("1,1,1,1,1,1", "1,1,1,1,1,1"); 2], nets)
}

/// The edges of the lower left square of these tiles, and a tail of two edges from it: (1, 0) to (2, 0) to (2, 1).
const SQUARE: &str = "0,0,e;1,0,n;0,1,e;0,0,n";
const TAIL: &str = "1,0,e;2,0,n";

/// The layers of a net with these pins and edges: which of the edges are kept.
fn kept(pins: &str, edges: &str) -> Vec<bool> {
    planned(&nine_tiles(&[(pins, edges)])).layers[0].iter().map(|layer| *layer > 0).collect()
}

#[test]
fn what_a_ring_loses() {
    let (yes, no) = (true, false);
    let all = "0,0,1;1,0,1;0,1,1;1,1,1";
    // the last edge along the line that closes the ring, whichever it is
    assert_eq!(kept(all, SQUARE), [yes, yes, yes, no]);
    assert_eq!(kept(all, "0,0,n;0,1,e;1,0,n;0,0,e"), [yes, yes, yes, no]);
    assert_eq!(kept("0,0,1;1,0,1;0,1,1;1,1,1;2,0,1", &format!("1,0,e;{SQUARE}")), [yes, yes, yes, yes, no]);
    assert_eq!(kept("0,0,1;1,0,1;0,1,1;1,1,1;2,0,1", &format!("{SQUARE};1,0,e")), [yes, yes, yes, no, yes]);
    // what is then loose, as far as the pins; the root of the walk may go
    assert_eq!(kept("0,0,1;1,1,1", SQUARE), [yes, yes, no, no]);
    assert_eq!(kept("1,0,1;1,1,1", SQUARE), [no, yes, no, no]);
    assert_eq!(kept("1,0,1;0,1,1", "0,0,n;0,0,e;1,0,n;0,1,e"), [yes, yes, no, no]);
    // a net with pins in one tile loses all, and keeps the vias of its pins
    let one = planned(&nine_tiles(&[("1,1,1;1,1,2", SQUARE)]));
    assert_eq!((&one.layers[0][..], one.total_vias, one.order[0].score), (&[0; 4][..], 1, 2000));
    assert_eq!(print(&one).lines().nth(3), Some("layers=0,0,0,0"));
    // two rings that share an edge
    let two = "0,0,e;0,0,n;0,1,e;1,0,n;1,0,e;2,0,n;1,1,e";
    assert_eq!(kept("0,0,1;1,0,1;2,0,1;0,1,1;1,1,1;2,1,1", two), [yes, yes, yes, no, yes, yes, no]);
    assert_eq!(kept("0,1,1;2,0,1", two), [yes, yes, no, no, yes, no, no]);
}

#[test]
fn tails_of_rings() {
    let (yes, no) = (true, false);
    let with_tail = format!("{SQUARE};{TAIL}");
    assert_eq!(kept("0,0,1;1,1,1", &with_tail), [yes, yes, no, no, no, no]);
    assert_eq!(kept("0,0,1;1,1,1;2,0,1", &with_tail), [yes, yes, no, no, yes, no]); // a pin in its middle
    assert_eq!(kept("0,0,1;1,1,1;2,1,1", &with_tail), [yes, yes, no, no, yes, yes]); // at its end
    assert_eq!(kept("0,0,1;1,1,1", &format!("{TAIL};{SQUARE}")), [no, no, yes, yes, no, no]);
    // beside it a net without a ring keeps the same tail
    let beside = planned(&nine_tiles(&[("0,0,1", &format!("0,0,e;{TAIL}")), ("0,0,1;1,1,1", &with_tail)]));
    assert_eq!(beside.layers.concat(), [2, 2, 2, 1, 1, 0, 0, 0, 0]);
    assert_eq!(kept("0,0,1", &format!("0,0,e;{TAIL}")), [yes, yes, yes]);
}

#[test]
fn what_is_taken_after_the_cut() {
    // L, D and C over the kept edges: one of four
    let score = |edges: &str| {
        let job = text([3, 3, 2], [3, 0, 6], &[("1,1,1,1,1,1", "1,1,1,1,1,1"); 2], &[("0,0,1;1,0,1", edges); 3]);
        planned(&job).order[0].score
    };
    assert_eq!(score(SQUARE), 3000 + 6000 * 3 / 2);
    assert_eq!(score("1,0,n;0,1,e;0,0,n;0,0,e"), 1000 + 6000 * 9 / 6);
    // demand and overflow: three nets in one square, each on the edge between its pins
    let pairs = ["0,0,1;1,0,1", "1,0,1;1,1,1", "0,1,1;1,1,1"].map(|pins| (pins, SQUARE));
    let tracks = [("1,0,1,0,0,0", "0,1,0,0,0,0"), ("0,0,0,0,0,0", "0,0,0,0,0,0")];
    let plan = planned(&text([3, 3, 2], [1; 3], &tracks, &pairs));
    assert_eq!((plan.total_overflow, plan.max_overflow), (0, 0));
    assert_eq!(plan.layers, [[1, 0, 0, 0], [0, 1, 0, 0], [0, 0, 1, 0]]);
    // directives: the nets want layer 2, where there are no tracks
    let low = planned(&marked(&[2, 2, 2], text([3, 3, 2], [1; 3], &tracks, &pairs)));
    assert_eq!(low.ldof, Some(3));
}

#[test]
fn refusals_beside_rings() {
    let one = |pins: &str, edges: &str| refused(&nine_tiles(&[(pins, edges)]));
    // 6 where the second would close a ring, or is the one that closes it
    assert_eq!(one("0,0,1", &format!("{SQUARE};0,0,n")), (6, 14));
    assert_eq!(one("0,0,1", &format!("{SQUARE};0,0,e")), (6, 14));
    // 8 over all entries, before the cut
    assert_eq!(one("0,0,1;2,2,1", SQUARE), (8, 14));
    assert_eq!(one("2,2,1", SQUARE), (8, 14));
    assert_eq!(one("0,0,1", &format!("{SQUARE};2,1,n")), (8, 14));
    assert_eq!(one("0,0,1", &format!("0,0,e;{}", "1,1,e;1,1,n;2,1,n;1,2,e")), (8, 14));
    // 13 too, although the only edge without a layer would go
    let along = |edges: &str| {
        let text = text([2, 2, 2], [1; 3], &[("1,1", "0,0"); 2], &[("0,0,1;1,0,1", edges)]);
        refused(&directed("h,h", text))
    };
    assert_eq!(along(SQUARE), (13, 15));
    assert_eq!(along("0,0,e"), (0, 0));
    // 11: A counts the entries, dropped or not
    let job = nine_tiles(&[("1,1,1", SQUARE)]);
    let need = Lengths { work: 48 + 24 + 288, order: 1, answer: 4, print: Some(256 + 64 + 8) };
    assert_eq!(read(job.as_bytes(), need).unwrap().need(), need);
    assert_eq!(refusal(&job, need), (0, 0));
    assert_eq!(refusal(&job, Lengths { answer: 3, ..need }), (11, 14));
    assert_eq!(refusal(&job, Lengths { print: Some(327), ..need }), (11, 14));
}

#[test]
fn all_edges_of_the_largest_grid() {
    let east = (0..64).flat_map(|y| (0..63).map(move |x| format!("{x},{y},e")));
    let north = (0..63).flat_map(|y| (0..64).map(move |x| format!("{x},{y},n")));
    let edges: Vec<String> = east.chain(north).collect();
    assert_eq!(edges.len(), 8064);
    let tracks = vec!["1"; 63 * 64].join(",");
    let kept_of = |pins: &str, edges: &str| {
        let plan = planned(&text([64, 64, 2], [1; 3], &[(tracks.as_str(), tracks.as_str()); 2], &[(pins, edges)]));
        assert_eq!((plan.layers[0].len(), plan.total_vias), (8064, 0));
        (0..8064).filter(|place| plan.layers[0][*place] > 0).collect::<Vec<usize>>()
    };
    // all rows come first, then the first column: from corner to corner along both
    let corners = kept_of("0,0,1;63,63,1", &edges.join(";"));
    let wanted: Vec<usize> = (63 * 63..64 * 63).chain((0..63).map(|y| 64 * 63 + 64 * y)).collect();
    assert_eq!(corners, wanted);
    assert_eq!(kept_of("7,7,1", &edges.join(";")), []);
    // backwards, the columns come first, and then the last row
    let backwards: Vec<String> = edges.into_iter().rev().collect();
    assert_eq!(kept_of("0,0,1;63,63,1", &backwards.join(";")).len(), 126);
}

#[test]
fn wrong_cuts_are_noticed() {
    let job = nine_tiles(&[("0,0,1;1,1,1", &format!("{SQUARE};{TAIL}"))]);
    let job = read(job.as_bytes(), AMPLE).unwrap();
    let right = plan(&job);
    assert_eq!(right.layers, [[1, 1, 0, 0, 0, 0]]);
    let noticed = |layers: [u8; 6]| {
        let wrong = Plan { layers: vec![layers.to_vec()], ..right.clone() };
        let by_brute = brute::check(&job, &wrong.order, &layers, &Returned::default()).is_err();
        (check::check(&job, &wrong).is_err(), by_brute)
    };
    assert_eq!(noticed([1, 1, 0, 0, 0, 0]), (false, false));
    assert_eq!(noticed([0, 0, 1, 1, 0, 0]), (true, true)); // the other half of the ring
    assert_eq!(noticed([1, 1, 1, 0, 0, 0]), (true, true)); // a loose edge
    assert_eq!(noticed([1, 1, 0, 0, 1, 0]), (true, true)); // a part of the tail
    assert_eq!(noticed([1, 1, 1, 1, 0, 0]), (true, true)); // the ring
    assert_eq!(noticed([1, 0, 0, 0, 0, 0]), (true, true)); // too few
}

#[test]
fn limits() {
    let zeros = |count: usize| vec!["0"; count].join(",");
    let row = |width: usize| text([width, 1, 2], [1, 1, 1], &[(zeros(width - 1).as_str(), ""); 2], &[]);
    assert_eq!((refused(&row(64)), refused(&row(65))), ((0, 0), (3, 1)));
    let column = |height: usize| text([1, height, 2], [1, 1, 1], &[("", zeros(height - 1).as_str()); 2], &[]);
    assert_eq!((refused(&column(64)), refused(&column(65))), ((0, 0), (3, 2)));
    let stack = |layers: usize| refused(&text([1, 1, layers], [1, 1, 1], &vec![("", ""); layers], &[]));
    assert_eq!([1, 2, 8, 9].map(stack), [(3, 3), (0, 0), (0, 0), (3, 3)]);
    let tracks = |tracks: &str| refused(&text([2, 1, 2], [1, 1, 1], &[("0", ""), (tracks, "")], &[]));
    assert_eq!(["255", "256", "65534", "65535"].map(tracks), [(0, 0); 4]);
    assert_eq!(["65536", "65537", "99999", "100000"].map(tracks), [(3, 9), (3, 9), (3, 9), (2, 9)]);
    let weight = |weight: usize| refused(&text([1, 1, 2], [weight, 255, 255], &[("", ""); 2], &[]));
    assert_eq!([255, 256].map(weight), [(0, 0), (3, 4)]);
    assert_eq!(refused(&text([2, 1, 2], [1, 1, 1], &[("1", ""); 2], &[("0,0,1;1,0,1", "")])), (8, 14));
    assert_eq!(refused(&text([3, 1, 2], [1, 1, 1], &[("1,1", ""); 2], &[("0,0,1", "1,0,e")])), (8, 14));
    let nets = |count: usize| refused(&text([1, 1, 2], [1, 1, 1], &[("", ""); 2], &vec![("0,0,1", ""); count]));
    assert_eq!([4096, 4097].map(nets), [(0, 0), (3, 11)]);
    let long = |length: usize| refused(&format!("{C1}{}", "\n".repeat(length - C1.len())));
    assert_eq!([TEXT_LIMIT, TEXT_LIMIT + 1].map(long), [(2, 18), (1, 0)]);
}

#[test]
fn numbers() {
    let with = |value: &str| refused(&C1.replace("alpha=1", &format!("alpha={value}")));
    let no_numbers = ["", "00", "01", "+1", "-1", " 1", "1 ", "1\r", "0x1", "1.0", "100000", "000000", "1,1", "1e1"];
    assert!(no_numbers.into_iter().all(|value| with(value) == (2, 4)));
    assert!(["256", "99999"].into_iter().all(|value| with(value) == (3, 4)));
    assert!(["0", "9", "10", "255"].into_iter().all(|value| with(value) == (0, 0)));
    let net = |value: &str| refused(&C1.replace("net=2", &format!("net={value}")));
    assert!(["0", "1", "3", "4097", "99999"].into_iter().all(|value| net(value) == (4, 15)));
    assert!(["", "02", "100000", "2,"].into_iter().all(|value| net(value) == (2, 15)));
}

#[test]
fn on_one_line_the_lower_number_wins() {
    let pins = |value: &str| refused(&C1.replace("pins=0,0,1;2,0,1", &format!("pins={value}")));
    for value in ["", ";", "0,0", "0,0,1;", ";0,0,1", "0,0,1,1", "3,0,1;0,0,e", "0,0,1;0,0,1;0,0,01", "0,0,1;;2,0,1"] {
        assert_eq!(pins(value), (2, 13), "{value}");
    }
    for value in ["3,0,1", "0,1,1", "0,0,0", "0,0,3", "0,0,1;0,0,1;3,0,1", "99999,0,1"] {
        assert_eq!(pins(value), (3, 13), "{value}");
    }
    assert_eq!(pins("0,0,1;0,0,2;0,0,1"), (5, 13));
    assert_eq!(pins("0,0,1;0,0,2"), (0, 0));

    let edges = |value: &str| refused(&C1.replace("edges=0,0,e;1,0,e", &format!("edges={value}")));
    for value in [";", "0,0", "0,0,e;", "0,0,1", "0,0,E", "0,0,e,", "2,0,e;0,0", "0,0,e;0,0,e;0,00,e", "0,0,w"] {
        assert_eq!(edges(value), (2, 14), "{value}");
    }
    for value in ["2,0,e", "0,0,n", "3,0,e", "0,1,e", "0,0,e;0,0,e;2,0,e"] {
        assert_eq!(edges(value), (3, 14), "{value}");
    }
    assert_eq!(edges("0,0,e;0,0,e"), (6, 14)); // and the pin in (2, 0) is not reached
    assert_eq!(edges("1,0,e"), (8, 14));
    assert_eq!(edges(""), (8, 14));

    // a ring makes no difference to what is not reached; an edge twice is no ring
    let four =
        |edges: &str| refused(&text([3, 3, 2], [1; 3], &[("0,0,0,0,0,0", "0,0,0,0,0,0"); 2], &[("0,0,1", edges)]));
    assert_eq!(four("1,1,e;1,1,n;2,1,n;1,2,e"), (8, 14));
    assert_eq!(four("1,1,e;1,1,n;2,1,n;1,2,e;1,1,e"), (6, 14));
    assert_eq!(four("0,0,n;0,1,e;1,1,e;1,1,n;2,1,n;1,2,e"), (0, 0));
    assert_eq!(four("1,1,e;1,1,n;2,1,n"), (8, 14));
    assert_eq!(four("0,0,n;0,1,e;1,1,e;1,1,n;2,1,n"), (0, 0));

    let east = |value: &str| refused(&C1.replacen("east=1,1", &format!("east={value}"), 1));
    for value in ["", "1", "1,1,1", "65536,1,1", "65536", "65536,", "65536,x", "65536,100000", "1,,1", "1;1"] {
        assert_eq!(east(value), (2, 7), "{value}");
    }
    assert_eq!(east("65536,1"), (3, 7));
    assert_eq!(refused(&C1.replacen("north=", "north=0", 1)), (2, 8));
}

#[test]
fn lines() {
    assert_eq!(refused(C1.strip_suffix('\n').unwrap()), (2, 17));
    assert_eq!(refused(&format!("{C1}\n")), (2, 18));
    assert_eq!(refused(&format!("{C1}x")), (2, 18));
    assert_eq!(refused("width=3"), (2, 1));
    assert_eq!(refused("width=65"), (2, 1));
    assert_eq!(refused("width=65\n"), (3, 1));
    assert_eq!(refused("width=64\n"), (2, 2));
    assert_eq!(refused("Width=3\n"), (2, 1));
    assert_eq!(refused("width3\n"), (2, 1));
    assert_eq!(refused("\n"), (2, 1));
    assert_eq!(refused(&C1.replace("nets=2", "nets=3")), (2, 18));
    assert_eq!(refused(&C1.replace("nets=2", "nets=1")), (2, 15));
    assert_eq!(refused(&C1.replace('\n', "\r\n")), (2, 1));
}

#[test]
fn lent_lengths() {
    // E = 2, T = 3, K = 2, N = 2, A = 3
    let need = Lengths { work: 8 + 4 + 96, order: 2, answer: 3, print: Some(256 + 128 + 6) };
    assert_eq!(read(C1.as_bytes(), need).unwrap().need(), need);
    let short = |change: &dyn Fn(&mut Lengths)| {
        let mut lent = need;
        change(&mut lent);
        (refusal(C1, lent), refusal(C1, Lengths { print: None, ..lent }))
    };
    assert_eq!(short(&|_| ()), ((0, 0), (0, 0)));
    assert_eq!(short(&|lent| lent.work -= 1), ((9, 3), (9, 3)));
    assert_eq!(short(&|lent| lent.order -= 1), ((10, 11), (10, 11)));
    assert_eq!(short(&|lent| lent.answer -= 1), ((11, 17), (11, 17)));
    assert_eq!(short(&|lent| lent.print = Some(389)), ((11, 17), (0, 0)));

    // 9 comes right after line 3, 10 right after the `nets` line, 11 after the whole text
    let nothing = Lengths { work: 0, order: 0, answer: 0, print: Some(0) };
    assert_eq!(refusal(C1, nothing), (9, 3));
    assert_eq!(refusal("width=3\nheight=1\nlayers=2\n", nothing), (9, 3));
    assert_eq!(refusal("width=3\nheight=1\nlayers=1\n", nothing), (3, 3));
    assert_eq!(refusal("width=3\nheight=1\nlayers=2", nothing), (2, 3));
    let lists = Lengths { work: 108, ..nothing };
    assert_eq!(refusal(&C1.replace("alpha=1", "alpha=256"), lists), (3, 4));
    assert_eq!(refusal(C1, lists), (10, 11));
    assert_eq!(refusal(&C1.replace("nets=2", "nets=4097"), lists), (3, 11));
    assert_eq!(refusal(&format!("{C1}x"), Lengths { order: 2, ..lists }), (2, 18));
    assert_eq!(refusal(C1, Lengths { order: 2, ..lists }), (11, 17));
    assert_eq!(refusal(&"\n".repeat(TEXT_LIMIT + 1), nothing), (1, 0));
}

#[test]
fn lent_lengths_with_directions() {
    // as many as without, and 9 comes right after line 4
    let job = directed("h,h", C1.to_string());
    let need = Lengths { work: 8 + 4 + 96, order: 2, answer: 3, print: Some(256 + 128 + 6) };
    assert_eq!(read(job.as_bytes(), need).unwrap().need(), need);
    assert_eq!(refusal(&job, need), (0, 0));
    let short = Lengths { work: 107, ..need };
    assert_eq!(refusal(&job, short), (9, 4));
    assert_eq!(refusal(&job.replace("alpha=1", "alpha=256"), short), (9, 4));
    assert_eq!(refusal(&job, Lengths { order: 1, ..need }), (10, 12));
    assert_eq!(refusal(&job, Lengths { answer: 2, ..need }), (11, 18));

    // a malformed line comes before it, if it begins `dirs=`; any other line comes after it
    for line in ["dirs=", "dirs=h", "dirs=h,h,v", "dirs=H,H", "dirs=h;h", "dirs==h,h"] {
        assert_eq!(refusal(&job.replace("dirs=h,h", line), short), (2, 4), "{line}");
    }
    for line in ["dirs", "dirsh,h", "dir=h,h", "DIRS=h,h", " dirs=h,h", ""] {
        assert_eq!(refusal(&job.replace("dirs=h,h", line), short), (9, 3), "{line}");
    }
    let start = |end: &str| refusal(&format!("width=3\nheight=1\nlayers=2{end}"), short);
    assert_eq!(["", "\n", "\ndirs", "\ndirs="].map(start), [(2, 3), (9, 3), (9, 3), (2, 4)]);
    assert_eq!(["\ndirs=h,h", "\ndirs=h,h\n", "\ndirs=h,\n"].map(start), [(2, 4), (9, 4), (2, 4)]);
}

#[test]
fn questions_and_answers() {
    let asked = |questions: &str| {
        let mut answers = Vec::new();
        answer_all(questions.as_bytes(), &mut answers).map(|()| String::from_utf8(answers).unwrap())
    };
    let c1 = format!("{}\n{C1}", C1.len());
    let told = asked(&format!("108 2 3 - {c1}108 2 3 389 {c1}0 0 0 0 0\n")).unwrap();
    let lines: Vec<&str> = told.lines().collect();
    let accepted = concat!(
        r#"{"order": [[2, 1, 3000], [1, 1, 2500]], "plan": [[2, 1], [1]], "walks": [[0, 1], [0]], "vias": 2, "total": 0, "#,
        r#""maximum": 0, "text": "order=2,1\nnet=1\nvias=2\nlayers=2,1\nnet=2\nvias=0\nlayers=1\n"#,
        r#"total_vias=2\ntotal_overflow=0\nmax_overflow=0\n", "brute": true}"#
    );
    assert_eq!(lines, [accepted, r#"{"number": 11, "line": 17}"#, r#"{"number": 2, "line": 1}"#]);
    let low = marked(&[2, 2], C1.to_string());
    let told = asked(&format!("108 2 3 390 {}\n{low}", low.len())).unwrap();
    assert!(told.starts_with(r#"{"order": [[2, 2, 3000], [1, 2, 2500]], "plan": [[2, 1], [1]], "#), "{told}");
    assert!(told.ends_with("max_overflow=0\\nldof=1\\n\", \"brute\": true}\n"), "{told}");

    // 2 to the 16th layerings are not looked at one by one
    let edges: Vec<String> = (0..16).map(|x| format!("{x},0,e")).collect();
    let tracks = ["1"; 16].join(",");
    let row = text([17, 1, 2], [1; 3], &[(tracks.as_str(), ""); 2], &[("0,0,1", &edges.join(";"))]);
    assert!(asked(&format!("999 1 16 - {}\n{row}", row.len())).unwrap().ends_with("\"brute\": false}\n"));

    assert_eq!(asked("").unwrap(), "");
    for wrong in ["\n", "1 2 3 4\n", "1 2 3 x 0\n", "- 2 3 4 0\n", "1 2 3 4 5 6\n", "1 2 3 4 5\nfour"] {
        assert!(asked(wrong).is_err(), "{wrong}");
    }
}

#[test]
fn roads_that_look_short() {
    // C5 with another edge that lifts MO: the layer's own overflow would be within the limit, the edge's sum is not
    let lifted =
        text([3, 1, 2], [1, 1, 1], &[("1,0", ""), ("0,0", "")], &[("0,0,2;1,0,2", "0,0,e"), ("1,0,1", "1,0,e")]);
    let plan = planned(&lifted);
    assert_eq!((&plan.layers[0][..], plan.vias[0], plan.max_overflow), (&[1][..], 2, 1));

    // nets on all of the metal of one edge, and d(e) of the whole flat plan in the score of the net placed first
    let nets = [("0,0,1", "0,0,e"), ("1,0,1", "1,0,e"), ("1,0,1", "1,0,e")];
    let order = planned(&text([3, 1, 2], [0, 0, 1], &[("1,1", ""); 2], &nets)).order;
    assert_eq!(
        order.iter().map(|entry| (entry.net, entry.score)).collect::<Vec<_>>(),
        [(2, 1000), (3, 1000), (1, 500)]
    );
}

#[test]
fn walk_of_a_cross() {
    // tiles 0 to 8 in rows of three; a cross round tile 4, and tile 5 goes on to tile 8
    let grid = Grid { width: 3, height: 3 };
    let edge = |tile: usize, way: usize| grid.way(tile, way).unwrap().1;
    let edges = vec![edge(3, 0), edge(4, 0), edge(5, 1), edge(1, 1), edge(4, 1)];
    let steps = walk(grid, &Net { edges: edges.clone(), ..Net::default() });
    let tiles: Vec<usize> = steps.iter().map(|step| step.tile).collect();
    assert_eq!(tiles, [1, 4, 5, 7, 3, 8]);
    let above: Vec<Option<usize>> = steps.iter().map(|step| step.edge).collect();
    assert_eq!(above, [None, Some(edges[3]), Some(edges[1]), Some(edges[4]), Some(edges[0]), Some(edges[2])]);
    let branches: Vec<&[usize]> = steps.iter().map(|step| &step.branches[..]).collect();
    assert_eq!(branches, [&[1][..], &[2, 3, 4], &[5], &[], &[], &[]]);
}

#[test]
fn wrong_plans_are_noticed() {
    let job = read(C1.as_bytes(), AMPLE).unwrap();
    let right = plan(&job);
    let noticed = |change: &dyn Fn(&mut Plan)| {
        let mut wrong = right.clone();
        change(&mut wrong);
        wrong.total_vias = wrong.vias.iter().sum();
        let (vias, total, maximum) = (wrong.total_vias, wrong.total_overflow, wrong.max_overflow);
        let returned = Returned { vias, total, maximum, ..Returned::default() };
        let by_brute = brute::check(&job, &wrong.order, &wrong.layers.concat(), &returned).is_err();
        (check::check(&job, &wrong).is_err(), by_brute)
    };
    assert_eq!(noticed(&|_| ()), (false, false));
    assert_eq!(noticed(&|plan| plan.layers[0] = vec![2, 2]), (true, true)); // as few vias, but later in walk order
    assert_eq!(noticed(&|plan| plan.layers[0] = vec![1, 1]), (true, true)); // no track left
    assert_eq!(noticed(&|plan| plan.layers = vec![vec![1, 1], vec![1]]), (true, true));
    assert_eq!(noticed(&|plan| plan.layers[0][1] = 0), (true, true));
    assert_eq!(noticed(&|plan| plan.layers[0][1] = 3), (true, true));
    assert_eq!(noticed(&|plan| plan.order.swap(0, 1)), (true, true));
    assert_eq!(noticed(&|plan| plan.order[0].score += 1), (true, true));
    assert_eq!(noticed(&|plan| plan.vias[0] += 1), (true, true));
    assert_eq!(noticed(&|plan| plan.total_overflow += 1), (true, true));
    assert_eq!(noticed(&|plan| plan.max_overflow += 1), (true, true));
    assert_eq!(noticed(&|plan| plan.order[1].low = 2), (true, true));
    assert_eq!(noticed(&|plan| plan.order[1].low = 0), (true, true));
    let other_net_first = |plan: &mut Plan| {
        plan.layers = vec![vec![1, 1], vec![2]];
        plan.vias = vec![0, 2];
    };
    assert_eq!(noticed(&other_net_first), (true, true));
}

#[test]
fn wrong_plans_of_a_job_with_directions_are_noticed() {
    // limits 1 to the east and 2 to the north
    let nets = [("0,0,1", "0,0,e"), ("0,0,1", "0,0,e"), ("0,0,1", "0,0,n"), ("0,0,1", "0,0,n")];
    let text = directed("h,h,v", text([2, 2, 3], [0; 3], &[("0,0", "0,0"); 3], &nets));
    let job = read(text.as_bytes(), AMPLE).unwrap();
    let right = plan(&job);
    assert_eq!(right.layers.concat(), [1, 2, 3, 3]);
    let noticed = |layers: [u8; 4]| {
        let mut wrong = right.clone();
        for (place, layer) in layers.into_iter().enumerate() {
            wrong.layers[place] = vec![layer];
            wrong.vias[place] = u64::from(layer - 1);
        }
        wrong.total_vias = wrong.vias.iter().sum();
        let (vias, total, maximum) = (wrong.total_vias, wrong.total_overflow, wrong.max_overflow);
        let returned = Returned { vias, total, maximum, ..Returned::default() };
        let by_brute = brute::check(&job, &wrong.order, &layers, &returned).is_err();
        (check::check(&job, &wrong).is_err(), by_brute)
    };
    assert_eq!(noticed([1, 2, 3, 3]), (false, false));
    assert_eq!(noticed([1, 1, 3, 3]), (true, true)); // above the limit to the east, not above that to the north
    assert_eq!(noticed([2, 1, 3, 3]), (true, true)); // later in walk order
    assert_eq!(noticed([1, 3, 3, 3]), (true, true)); // a layer that runs the other way
    assert_eq!(noticed([1, 2, 1, 3]), (true, true));
}

#[test]
fn wrong_sums_of_the_directives_are_noticed() {
    let noticed = |job: &str, by_edge: [u64; 2], ldof: Option<u64>| {
        let job = read(job.as_bytes(), AMPLE).unwrap();
        let wrong = Plan { ldof, ..plan(&job) };
        let by_brute = brute::directives(&job, &by_edge, ldof, BRUTE_MOST_HAND_OUTS).is_err();
        (check::check(&job, &wrong).is_err(), by_brute)
    };
    let both = marked(&[2, 2], C1.to_string());
    assert_eq!(noticed(&both, [1, 0], Some(1)), (false, false));
    assert_eq!(noticed(&both, [0, 0], Some(0)), (true, true));
    assert_eq!(noticed(&both, [2, 0], Some(2)), (true, true));
    assert_eq!(noticed(&both, [0, 1], Some(1)), (false, true)); // the sum alone is right
    assert_eq!(noticed(&both, [1, 0], None), (true, true));
    assert_eq!(noticed(&marked(&[1, 0], C1.to_string()), [0, 0], Some(0)), (false, false));
    assert_eq!(noticed(&marked(&[1, 0], C1.to_string()), [0, 0], None), (true, true));
    assert_eq!(noticed(C1, [0, 0], None), (false, false));
    assert_eq!(noticed(C1, [0, 0], Some(0)), (true, true));
}

/// A planner that does one more thing after the call.
struct Careless(After);

type After = fn(&mut [u32], &mut [Entry], &mut [u8], &mut [u8], &mut Returned);

impl Planner for Careless {
    fn plan(&self, text: &[u8], work: &mut [u32], order: &mut [Entry], answer: &mut [u8]) -> Returned {
        let mut returned = Second.plan(text, work, order, answer);
        self.0(work, order, answer, &mut [], &mut returned);
        returned
    }

    fn print(
        &self,
        text: &[u8],
        work: &mut [u32],
        order: &mut [Entry],
        answer: &mut [u8],
        print: &mut [u8],
    ) -> Returned {
        let mut returned = Second.print(text, work, order, answer, print);
        self.0(work, order, answer, print, &mut returned);
        returned
    }
}

#[test]
fn wrong_effects_are_noticed() {
    let faults = [
        Careless(|work, _, _, _, _| work[0] = 1),
        Careless(|work, _, _, _, _| *work.last_mut().unwrap() = 1),
        Careless(|_, order, _, _, _| order[0].score ^= 1),
        Careless(|_, order, _, _, _| order.last_mut().unwrap().net ^= 1),
        Careless(|_, order, _, _, _| order[0].low ^= 1),
        Careless(|_, order, _, _, _| order.last_mut().unwrap().low ^= 1),
        Careless(|_, _, answer, _, _| answer[0] ^= 1),
        Careless(|_, _, answer, _, _| *answer.last_mut().unwrap() ^= 1),
        Careless(|_, _, _, print, _| print[0] ^= 1),
        Careless(|_, _, _, print, _| *print.last_mut().unwrap() ^= 1),
        Careless(|_, _, _, _, returned| returned.line += 1),
        Careless(|_, _, _, _, returned| returned.vias += 1),
        Careless(|_, _, _, _, returned| returned.length += 1),
    ];
    for text in [C1, "width=0\n"] {
        let lent = Lengths { work: 200, order: 5, answer: 5, print: Some(500) };
        let expected = answer(text.as_bytes(), lent);
        held(&Second, text.as_bytes(), lent, &expected, 3).unwrap();
        for fault in &faults {
            assert!(held(fault, text.as_bytes(), lent, &expected, 3).is_err());
        }
    }
}

#[test]
fn what_the_buffers_held_before_is_of_no_account() {
    let lent = Lengths { work: 108, order: 2, answer: 3, print: Some(390) };
    let after = |seed| {
        let mut lent = Buffers::filled(lent, seed);
        let length =
            Second.print(C1.as_bytes(), &mut lent.work, &mut lent.order, &mut lent.answer, &mut lent.print).length;
        lent.print.truncate(length as usize);
        lent
    };
    assert_eq!(after(1), after(2));
}
