//! Both calls on the example job and on refused ones.

use layerplan::{plan, print, Entry, Lengths, Printed, Refusal, Totals, DROPPED, NETS_MOST, TEXT_MOST};

const JOB: &[u8] = include_bytes!("../../../examples/three-tiles.job");
const PLAN: &[u8] = include_bytes!("../../../examples/three-tiles.plan");
const TOTALS: Totals = Totals { vias: 2, overflow: 0, maximum: 0 };

const FILLED: Entry = Entry { net: 77, low: 66, score: 88 };

/// Slices to lend, all filled with something.
struct Lent {
    work: Vec<u32>,
    order: Vec<Entry>,
    answer: Vec<u8>,
    out: Vec<u8>,
}

impl Lent {
    fn new(lengths: Lengths) -> Lent {
        Lent {
            work: vec![0xa5a5_a5a5; lengths.work],
            order: vec![FILLED; lengths.order],
            answer: vec![99; lengths.answer],
            out: vec![b'.'; lengths.print],
        }
    }

    fn plan(&mut self, text: &[u8]) -> Result<Totals, Refusal> {
        plan(text, &mut self.work, &mut self.order, &mut self.answer)
    }

    fn print(&mut self, text: &[u8]) -> Result<Printed, Refusal> {
        print(text, &mut self.work, &mut self.order, &mut self.answer, &mut self.out)
    }

    /// That nothing was written but the working numbers, which are 0.
    fn untouched(&self) -> bool {
        let lists = self.order.iter().all(|entry| *entry == FILLED);
        let bytes = self.answer.iter().all(|layer| *layer == 99) && self.out.iter().all(|byte| *byte == b'.');
        self.work.iter().all(|number| *number == 0) && lists && bytes
    }
}

#[test]
fn the_example() {
    let need = Lengths::needed(3, 1, 2, 2, 3);
    assert_eq!(need, Lengths { work: 108, order: 2, answer: 3, print: 390 });
    for more in [0, 4] {
        let lengths = Lengths {
            work: need.work + more,
            order: need.order + more,
            answer: need.answer + more,
            print: need.print + more,
        };
        let mut planned = Lent::new(lengths);
        assert_eq!(planned.plan(JOB), Ok(TOTALS));
        assert!(planned.out.iter().all(|byte| *byte == b'.'));

        let mut lent = Lent::new(lengths);
        assert_eq!(lent.print(JOB), Ok(Printed { totals: TOTALS, length: PLAN.len() }));
        assert_eq!(lent.work, vec![0; lengths.work]);
        let order = [Entry { net: 2, low: 1, score: 3000 }, Entry { net: 1, low: 1, score: 2500 }];
        assert_eq!(lent.order, [&order[..], &vec![FILLED; more]].concat());
        assert_eq!(lent.answer, [&[2, 1, 1][..], &vec![99; more]].concat());
        assert_eq!(lent.out[..PLAN.len()], *PLAN);
        assert!(lent.out[PLAN.len()..].iter().all(|byte| *byte == b'.'));

        assert_eq!((planned.work, planned.order, planned.answer), (lent.work, lent.order, lent.answer));
    }
}

#[test]
fn too_short() {
    let need = Lengths::needed(3, 1, 2, 2, 3);
    let refusal = |lengths: Lengths| {
        let mut lent = Lent::new(lengths);
        let refusal = lent.print(JOB).unwrap_err();
        assert!(lent.untouched());
        (refusal.number, refusal.line)
    };
    assert_eq!(refusal(Lengths { work: 107, ..need }), (9, 3));
    assert_eq!(refusal(Lengths { order: 1, ..need }), (10, 11));
    assert_eq!(refusal(Lengths { answer: 2, ..need }), (11, 17));
    assert_eq!(refusal(Lengths { print: 389, ..need }), (11, 17));
    assert_eq!(Lent::new(Lengths { print: 0, ..need }).plan(JOB), Ok(TOTALS)); // Plan borrows no print buffer
}

#[test]
fn empty_slices() {
    let empty = || Lent::new(Lengths { work: 0, order: 0, answer: 0, print: 0 });
    assert_eq!(empty().plan(b""), Err(Refusal { number: 2, line: 1 }));
    assert_eq!(empty().print(b""), Err(Refusal { number: 2, line: 1 }));
    assert_eq!(plan(&[], &mut [], &mut [], &mut []), Err(Refusal { number: 2, line: 1 }));
    assert_eq!(empty().plan(JOB), Err(Refusal { number: 9, line: 3 }));

    // one tile and no nets: order list and answer list may be empty
    let job = b"width=1\nheight=1\nlayers=2\nalpha=0\nbeta=0\ngamma=0\neast=\nnorth=\neast=\nnorth=\nnets=0\n";
    let mut lent = Lent::new(Lengths::needed(1, 1, 2, 0, 0));
    let totals = Totals { vias: 0, overflow: 0, maximum: 0 };
    assert_eq!(lent.plan(job), Ok(totals));
    let printed = lent.print(job).unwrap();
    let text = b"order=\ntotal_vias=0\ntotal_overflow=0\nmax_overflow=0\n";
    assert_eq!((printed.totals, &lent.out[..printed.length]), (totals, &text[..]));
}

#[test]
fn refusals() {
    let refused = |text: &[u8]| {
        let mut lent = Lent::new(Lengths::enough(text.len()));
        let refusal = lent.plan(text).unwrap_err();
        assert!(lent.untouched());
        refusal
    };
    let with = |from: &str, to: &str| {
        let refusal = refused(std::str::from_utf8(JOB).unwrap().replacen(from, to, 1).as_bytes());
        (refusal.number, refusal.line)
    };
    assert_eq!(refused(&vec![10; TEXT_MOST + 1]), Refusal { number: 1, line: 0 });
    assert_eq!(with("alpha=1", "alpha=01"), (2, 4));
    assert_eq!(with("layers=2", "layers=9"), (3, 3));
    assert_eq!(with("net=2", "net=3"), (4, 15));
    assert_eq!(with("2,0,1", "0,0,1"), (5, 13));
    assert_eq!(with("1,0,e", "0,0,e"), (6, 14));
    assert_eq!(with("edges=0,0,e;1,0,e", "edges=1,0,e"), (8, 14));
    assert_eq!(with("alpha=1", "dirs=h;h\nalpha=1"), (2, 4));
    assert_eq!(with("alpha=1", "dirs=h,v\nalpha=1"), (12, 10));
    let across = "width=2\nheight=1\nlayers=2\ndirs=v,v\nalpha=1\nbeta=1\ngamma=0\neast=0\nnorth=\neast=0\nnorth=\n\
        nets=1\nnet=1\npins=0,0,1\nedges=0,0,e\n";
    assert_eq!(refused(across.as_bytes()), Refusal { number: 13, line: 15 });
    assert_eq!(with("net=2", "net=2\nlow=01"), (2, 16));
    assert_eq!(with("net=2", "net=2\nlow=0"), (3, 16));
    assert_eq!(with("net=2", "net=2\nlow=3"), (3, 16));
    assert_eq!(with("net=1", "net=1\nlow=2\nlow=2"), (2, 14));
    let words = |number: u32| Refusal { number, line: 3 }.to_string();
    assert_eq!(words(9), "refused=9,3: fewer working numbers than needed");
    assert_eq!(words(11), "refused=11,3: answer list or print buffer too short");
    assert_eq!(words(12), "refused=12,3: a nonzero capacity on a layer that runs the other way");
    assert_eq!(words(13), "refused=13,3: an edge whose direction has no layer");
    assert_eq!(words(7), "refused=7,3: no refusal has this number");
}

#[test]
fn rings_are_cut() {
    let job = include_bytes!("../../../examples/rings.job");
    let plan = include_bytes!("../../../examples/rings.plan");
    // A counts the entries, dropped or not
    let mut lent = Lent::new(Lengths::needed(3, 2, 2, 3, 13));
    let totals = Totals { vias: 2, overflow: 0, maximum: 0 };
    assert_eq!(lent.print(job), Ok(Printed { totals, length: plan.len() }));
    assert_eq!(lent.out[..plan.len()], *plan);
    let [net_1, net_2, net_3] = [&[1, 1, 0, 0, 0, 0][..], &[2, 2, 2], &[DROPPED; 4]];
    assert_eq!(lent.answer, [net_1, net_2, net_3].concat());
    let mut short = Lent::new(Lengths { answer: 12, ..Lengths::needed(3, 2, 2, 3, 13) });
    assert_eq!(short.print(job), Err(Refusal { number: 11, line: 20 }));
    assert!(short.untouched());

    // 6 where the second would close a ring, and 8 beside one
    let with = |from: &str, to: &str| {
        let text = std::str::from_utf8(job).unwrap().replacen(from, to, 1);
        let mut lent = Lent::new(Lengths::enough(text.len()));
        let refusal = lent.plan(text.as_bytes()).unwrap_err();
        (refusal.number, refusal.line)
    };
    assert_eq!(with(";0,0,n;", ";0,0,n;0,0,n;"), (6, 14));
    assert_eq!(with("2,0,1;2,0,2", "2,0,1;0,0,2"), (8, 20));
}

/// The example with these lines `low` of its two nets: its order list and its printed text.
fn with_lows(lows: [&str; 2]) -> (Vec<Entry>, String) {
    let text = std::str::from_utf8(JOB).unwrap();
    let text = text.replacen("net=1\n", &format!("net=1\n{}", lows[0]), 1);
    let text = text.replacen("net=2\n", &format!("net=2\n{}", lows[1]), 1);
    let mut lent = Lent::new(Lengths::needed(3, 1, 2, 2, 3));
    assert_eq!(lent.plan(text.as_bytes()), Ok(TOTALS));
    let (order, answer) = (lent.order.clone(), lent.answer.clone());
    let printed = lent.print(text.as_bytes()).unwrap();
    assert_eq!((&lent.order, &lent.answer, printed.totals), (&order, &answer, TOTALS));
    assert_eq!(answer, [2, 1, 1]);
    (order, String::from_utf8(lent.out[..printed.length].to_vec()).unwrap())
}

#[test]
fn lowest_wanted_layers() {
    // the edge that both nets use has one track on layer 2: two nets that want it are one too many
    let plain = std::str::from_utf8(PLAN).unwrap();
    for (lines, lows, ldof) in [
        (["", ""], [1, 1], None),
        (["low=1\n", ""], [1, 1], Some(0)),
        (["low=2\n", ""], [2, 1], Some(0)),
        (["", "low=2\n"], [1, 2], Some(0)),
        (["low=2\n", "low=2\n"], [2, 2], Some(1)),
    ] {
        let (order, printed) = with_lows(lines);
        assert_eq!(order, [Entry { net: 2, low: lows[1], score: 3000 }, Entry { net: 1, low: lows[0], score: 2500 }]);
        assert_eq!(printed, ldof.map_or(plain.to_string(), |ldof| format!("{plain}ldof={ldof}\n")));
    }
}

#[test]
fn an_entry_has_no_bytes_between_its_fields() {
    use std::mem::{offset_of, size_of};
    let offsets = [offset_of!(Entry, net), offset_of!(Entry, low), offset_of!(Entry, score)];
    assert_eq!((offsets, size_of::<Entry>()), ([0, 4, 8], 16));
}

#[test]
fn capacities() {
    let told = |tracks: &str| {
        let text = std::str::from_utf8(JOB).unwrap().replacen("east=1,1", &format!("east=1,{tracks}"), 1);
        Lent::new(Lengths::enough(text.len())).plan(text.as_bytes())
    };
    assert_eq!(["255", "256", "65535"].map(told), [Ok(TOTALS); 3]);
    assert_eq!(["65536", "99999"].map(told), [Err(Refusal { number: 3, line: 7 }); 2]);
    assert_eq!(told("100000"), Err(Refusal { number: 2, line: 7 }));
}

#[test]
fn lengths() {
    assert_eq!(Lengths::needed(64, 64, 8, 0, 0).work, 276_224);
    assert_eq!(Lengths::enough(usize::MAX), Lengths::enough(TEXT_MOST));
    let most = Lengths { work: 276_224, order: NETS_MOST, answer: TEXT_MOST / 6, print: 611_924 };
    assert_eq!(Lengths::enough(TEXT_MOST), most);

    // the shortest nets with an edge
    let head = "width=2\nheight=1\nlayers=2\nalpha=0\nbeta=0\ngamma=0\neast=0\nnorth=\neast=0\nnorth=\nnets=9\n";
    let nets: String = (1..=9).map(|net| format!("net={net}\npins=0,0,1\nedges=0,0,e\n")).collect();
    let text = format!("{head}{nets}");
    assert!(Lent::new(Lengths::enough(text.len())).print(text.as_bytes()).is_ok());
}

/// A job of the largest grid in a thread with a small stack: a call takes about 150 KB of it.
#[test]
fn little_stack() {
    let list = |count: usize| vec!["1"; count].join(",");
    let layer = format!("east={}\nnorth={}\n", list(63 * 64), list(64 * 63));
    let edges: Vec<String> = (0..63).map(|x| format!("{x},0,e")).collect();
    let net = format!("net=1\npins=0,0,1;63,0,8\nedges={}\n", edges.join(";"));
    let head = "width=64\nheight=64\nlayers=8\nalpha=1\nbeta=1\ngamma=1\n";
    let text = format!("{head}{}nets=1\n{net}", layer.repeat(8));
    let run = move || {
        let mut lent = Lent::new(Lengths::needed(64, 64, 8, 1, 63));
        lent.print(text.as_bytes()).map(|printed| printed.totals)
    };
    let thread = std::thread::Builder::new().stack_size(160 * 1024).spawn(run).unwrap();
    assert_eq!(thread.join().unwrap(), Ok(Totals { vias: 7, overflow: 0, maximum: 0 }));
}
