//! The figures of a planned block: as a table for a person at a terminal, or as JSON for scripts.

mod table;

pub use table::{grouped, put_block, table, Style};

use crate::explain::need;
use crate::figures::{kept, Block, Cut, Limits, Overflow, Place, Wanted};
use crate::job::{Tile, Way};
use layerplan::Refusal;
use serde::Serialize;
use std::cmp::Reverse;

/// All that is reported of a block. The table and the JSON text are both made from it.
#[derive(Serialize, Debug)]
pub struct Report {
    pub job: String,
    pub width: usize,
    pub height: usize,
    pub tiles: usize,
    pub edges: usize,
    pub layers: usize,
    /// The letters of the `dirs` line, from the bottom layer; here and below, nothing stands where the job has none.
    #[serde(skip_serializing_if = "Option::is_none")]
    pub dirs: Option<Vec<char>>,
    pub nets: usize,
    pub pins: usize,
    /// The different tiles of each net's pins, of all nets together.
    pub pin_tiles: usize,
    /// Entries on all `edges` lines, those of dropped edges included.
    pub entries: usize,
    /// What was dropped of nets with rings; nothing stands where no net has one.
    #[serde(skip_serializing_if = "Option::is_none")]
    pub rings: Option<Rings>,
    pub flat_overflow: Totals,
    /// The most that one layer of an edge may overflow, by the edge's direction.
    #[serde(skip_serializing_if = "Option::is_none")]
    pub limits: Option<Limits>,
    pub layered_overflow: Totals,
    pub vias: u64,
    /// What the `low` lines ask for; nothing stands where the job has none.
    #[serde(skip_serializing_if = "Option::is_none")]
    pub directives: Option<Directives>,
    /// What the library must be lent for the job.
    pub lengths: Lengths,
    pub by_layer: Vec<Layer>,
    pub most_crowded: Vec<Crowded>,
    pub vias_by_level: Vec<Level>,
    pub vias_of_nets: Vec<Bucket>,
    pub most_vias: Vec<Net>,
}

#[derive(Serialize, Clone, Copy, PartialEq, Eq, Debug)]
pub struct Totals {
    pub total: usize,
    pub maximum: usize,
}

#[derive(Serialize, Clone, Copy, PartialEq, Eq, Debug)]
pub struct Lengths {
    pub work: usize,
    pub order: usize,
    pub answer: usize,
    pub print: usize,
}

/// A layer: its tracks, how many of them are used, and its edges that are full or overflowed.
#[derive(Serialize, Clone, PartialEq, Debug)]
pub struct Layer {
    pub layer: usize,
    /// Its letter on the `dirs` line.
    #[serde(skip_serializing_if = "Option::is_none")]
    pub runs: Option<char>,
    pub tracks: usize,
    /// Nets on all its edges, those without a track included.
    pub used: usize,
    /// The part of the tracks that is used, 0 to 1.
    pub share: f64,
    /// Edges whose every track is used and that have one or more.
    pub full: usize,
    pub overflowed: usize,
    pub overflow: usize,
}

/// An edge of a layer.
#[derive(Serialize, Clone, PartialEq, Eq, Debug)]
pub struct Crowded {
    pub layer: usize,
    pub from: [usize; 2],
    pub to: [usize; 2],
    pub capacity: usize,
    pub used: usize,
    pub overflow: usize,
}

/// The edges that were dropped, because they close rings or then hang loose. They use no track.
#[derive(Serialize, Clone, PartialEq, Eq, Debug)]
pub struct Rings {
    /// Nets that lost edges.
    pub nets: usize,
    /// The edges that they lost.
    pub dropped: usize,
    /// The edges of all nets that are kept.
    pub kept: usize,
    pub most_dropped: Vec<Cut>,
}

/// The layers that the nets' timing wants, and where they have too few tracks.
#[derive(Serialize, Clone, PartialEq, Eq, Debug)]
pub struct Directives {
    /// The last line of the printed plan: the excess of all edges.
    pub ldof: usize,
    /// Nets that want a layer above 1.
    pub nets: usize,
    /// By lowest wanted layer; a net without a `low` line wants layer 1.
    pub by_layer: Vec<Wanted>,
    pub most_excess: Vec<Excess>,
}

/// An edge with more nets that want some layers than tracks on these.
#[derive(Serialize, Clone, PartialEq, Eq, Debug)]
pub struct Excess {
    pub from: [usize; 2],
    pub to: [usize; 2],
    /// Nets on it that want a layer above 1.
    pub nets: usize,
    /// Those of them that the plan puts below their lowest wanted layer here.
    pub below: usize,
    /// The fewest of them that must go without a track on a layer that they want, whatever the plan.
    pub excess: usize,
}

/// The vias between a layer and the one above it.
#[derive(Serialize, Clone, PartialEq, Eq, Debug)]
pub struct Level {
    pub lower: usize,
    pub upper: usize,
    pub vias: usize,
}

/// The nets with so many vias.
#[derive(Serialize, Clone, PartialEq, Eq, Debug)]
pub struct Bucket {
    pub least: usize,
    pub most: usize,
    pub nets: usize,
}

#[derive(Serialize, Clone, PartialEq, Eq, Debug)]
pub struct Net {
    pub net: usize,
    pub vias: usize,
    /// The kept ones.
    pub edges: usize,
    pub pins: usize,
    /// In how many different tiles these are: what the score counts.
    pub pin_tiles: usize,
    pub score: u64,
    /// Its place in the placing order, from 1.
    pub turn: usize,
}

impl Report {
    /// The report of a block, with at most `top` entries in its lists of the most crowded edges, of those with most
    /// excess, of the largest nets and of those that lost most edges.
    pub fn new(name: &str, block: &Block, top: usize) -> Report {
        let job = &block.job;
        Report {
            job: name.to_string(),
            width: job.grid.width,
            height: job.grid.height,
            tiles: job.grid.tiles(),
            edges: job.grid.edges(),
            layers: job.layers,
            dirs: job.letters(),
            nets: job.nets.len(),
            pins: job.nets.iter().map(|net| net.pins.len()).sum(),
            pin_tiles: job.nets.iter().map(|net| net.pin_tiles()).sum(),
            entries: job.entries(),
            rings: rings(block, top),
            flat_overflow: totals(block.flat_overflow()),
            limits: block.limits(),
            layered_overflow: totals(block.layered_overflow()),
            vias: block.totals.vias,
            directives: directives(block, top),
            lengths: lengths(block),
            by_layer: (1..=job.layers).map(|layer| layer_row(block, layer)).collect(),
            most_crowded: block.most_crowded(top).into_iter().map(|at| crowded_row(block, at)).collect(),
            vias_by_level: levels(block),
            vias_of_nets: histogram(&block.net_vias),
            most_vias: most_vias(block, top),
        }
    }

    /// The report as one JSON object.
    pub fn json(&self) -> String {
        as_json(self)
    }
}

/// A refusal as one JSON object.
pub fn refusal_json(name: &str, refusal: Refusal, title: &str) -> String {
    as_json(&serde_json::json!({
        "job": name,
        "refused": { "number": refusal.number, "line": refusal.line, "title": title },
    }))
}

fn as_json(value: &impl Serialize) -> String {
    // plain structs of numbers and texts: there is nothing that JSON could not hold
    serde_json::to_string_pretty(value).unwrap_or_default() + "\n"
}

fn totals(overflow: Overflow) -> Totals {
    Totals { total: overflow.total, maximum: overflow.maximum }
}

fn lengths(block: &Block) -> Lengths {
    let job = &block.job;
    let need = need(job.grid, job.layers, job.nets.len(), job.entries());
    let of = |length: fn(layerplan::Lengths) -> usize| need.map_or(0, length);
    Lengths { work: of(|l| l.work), order: of(|l| l.order), answer: of(|l| l.answer), print: of(|l| l.print) }
}

fn layer_row(block: &Block, layer: usize) -> Layer {
    let runs = block.job.runs(layer).map(Way::dir);
    let mut row = Layer { layer, runs, tracks: 0, used: 0, share: 0.0, full: 0, overflowed: 0, overflow: 0 };
    for edge in 0..block.job.grid.edges() {
        let at = Place { layer, edge };
        let (capacity, used, overflow) = (block.capacity(at), block.used(at), block.overflow(at));
        row.tracks += capacity;
        row.used += used;
        row.overflow += overflow;
        row.full += usize::from(used == capacity && capacity > 0);
        row.overflowed += usize::from(overflow > 0);
    }
    row.share = part(row.used - row.overflow, row.tracks);
    row
}

/// The part that one number is of another, in thousandths; 0 of nothing.
fn part(some: usize, all: usize) -> f64 {
    if all == 0 {
        0.0
    } else {
        (1000.0 * some as f64 / all as f64).round() / 1000.0
    }
}

/// The columns and rows of the two tiles that an edge joins.
fn ends(block: &Block, edge: usize) -> [[usize; 2]; 2] {
    block.job.grid.ends(edge).map(|Tile { x, y }| [x, y])
}

fn rings(block: &Block, top: usize) -> Option<Rings> {
    let rings = block.rings.as_ref()?;
    let dropped = rings.dropped();
    let kept = block.job.entries() - dropped;
    Some(Rings { nets: rings.nets.len(), dropped, kept, most_dropped: rings.most_dropped(top) })
}

fn directives(block: &Block, top: usize) -> Option<Directives> {
    let directives = block.directives.as_ref()?;
    let row = |edge: usize| {
        let ([from, to], at) = (ends(block, edge), &directives.edges[edge]);
        Excess { from, to, nets: at.nets, below: at.below, excess: at.total() }
    };
    Some(Directives {
        ldof: directives.ldof(),
        nets: directives.nets(),
        by_layer: directives.by_layer.clone(),
        most_excess: directives.most_excess(top).into_iter().map(row).collect(),
    })
}

fn crowded_row(block: &Block, at: Place) -> Crowded {
    let [from, to] = ends(block, at.edge);
    let (capacity, used, overflow) = (block.capacity(at), block.used(at), block.overflow(at));
    Crowded { layer: at.layer, from, to, capacity, used, overflow }
}

fn levels(block: &Block) -> Vec<Level> {
    let level =
        |(place, tiles): (usize, &Vec<usize>)| Level { lower: place + 1, upper: place + 2, vias: tiles.iter().sum() };
    block.tile_vias.iter().enumerate().map(level).collect()
}

/// Buckets 0, 1, 2, 3 to 4, 5 to 8 and so on, up to the last that has a net.
fn histogram(vias: &[usize]) -> Vec<Bucket> {
    let Some(largest) = vias.iter().max() else { return Vec::new() };
    let mut buckets = vec![Bucket { least: 0, most: 0, nets: 0 }];
    while buckets.last().is_some_and(|last| last.most < *largest) {
        let most = buckets.last().map_or(0, |last| last.most);
        buckets.push(Bucket { least: most + 1, most: (2 * most).max(1), nets: 0 });
    }
    for vias in vias {
        if let Some(bucket) = buckets.iter_mut().find(|bucket| *vias <= bucket.most) {
            bucket.nets += 1;
        }
    }
    buckets
}

fn most_vias(block: &Block, top: usize) -> Vec<Net> {
    let turns = block.turns();
    let mut places: Vec<usize> = (0..block.job.nets.len()).filter(|place| block.net_vias[*place] > 0).collect();
    places.sort_by_key(|place| (Reverse(block.net_vias[*place]), *place));
    places.truncate(top);
    let row = |place: usize| Net {
        net: place + 1,
        vias: block.net_vias[place],
        edges: kept(&block.job.nets[place], &block.layers[place]).count(),
        pins: block.job.nets[place].pins.len(),
        pin_tiles: block.job.nets[place].pin_tiles(),
        score: block.order.get(turns[place].wrapping_sub(1)).map_or(0, |entry| entry.score),
        turn: turns[place],
    };
    places.into_iter().map(row).collect()
}

#[cfg(test)]
mod tests {
    use super::*;
    use crate::job::MOST_CAPACITY;
    use crate::planner::Planner;

    fn example() -> Report {
        let text = include_bytes!("../../../examples/three-tiles.job");
        let block = crate::figures::plan(&mut Planner::new(), text).unwrap().unwrap();
        Report::new("three-tiles.job", &block, 10)
    }

    #[test]
    fn the_example_in_figures() {
        let report = example();
        assert_eq!((report.tiles, report.edges, report.nets, report.entries, report.vias), (3, 2, 2, 3, 2));
        assert_eq!(report.lengths, Lengths { work: 108, order: 2, answer: 3, print: 390 });
        let layer = |layer, used, share, full| Layer {
            layer,
            runs: None,
            tracks: 2,
            used,
            share,
            full,
            overflowed: 0,
            overflow: 0,
        };
        assert_eq!(report.by_layer, [layer(1, 2, 1.0, 2), layer(2, 1, 0.5, 1)]);
        assert_eq!(report.vias_by_level, [Level { lower: 1, upper: 2, vias: 2 }]);
        assert_eq!(report.most_vias, [Net { net: 1, vias: 2, edges: 2, pins: 2, pin_tiles: 2, score: 2500, turn: 2 }]);
        assert_eq!(report.most_crowded.len(), 3);
    }

    #[test]
    fn json_has_the_same_figures() {
        let value: serde_json::Value = serde_json::from_str(&example().json()).unwrap();
        assert_eq!(value["by_layer"][1]["share"], 0.5);
        assert_eq!(value["most_vias"][0]["score"], 2500);
        let refused = refusal_json("a", Refusal { number: 2, line: 7 }, "x");
        let value: serde_json::Value = serde_json::from_str(&refused).unwrap();
        assert_eq!(value["refused"]["line"], 7);
    }

    #[test]
    fn directions_in_the_report() {
        let report = Report::new("directed.job", &crate::figures::directed_example(), 10);
        let value: serde_json::Value = serde_json::from_str(&report.json()).unwrap();
        assert_eq!(value["dirs"], serde_json::json!(["h", "v", "h"]));
        assert_eq!(value["limits"], serde_json::json!({ "east": 1, "north": 0 }));
        let layer =
            |place: usize| ["runs", "tracks", "used", "overflow"].map(|name| value["by_layer"][place][name].clone());
        assert_eq!(layer(0), [serde_json::json!("h"), 4.into(), 3.into(), 1.into()]);
        assert_eq!(layer(1), [serde_json::json!("v"), 3.into(), 1.into(), 0.into()]);
        let told = table(&report, Style { unicode: false });
        for words in [
            "  layers            3 (h,v,h)\n",
            "  edges of a layer  h 4, v 3\n",
            "  flat overflow     total 2, maximum 2\n  limit of a layer  east 1, north 0\n",
            "\n  layer  runs      tracks       used  tracks used",
            "\n      2     v           3          1  ########................  33.3%",
        ] {
            assert!(told.contains(words), "no {words:?} in\n{told}");
        }
    }

    #[test]
    fn rings_in_the_report() {
        let report = Report::new("rings.job", &crate::figures::rings_example(), 1);
        let value: serde_json::Value = serde_json::from_str(&report.json()).unwrap();
        let expected = serde_json::json!({
            "nets": 2,
            "dropped": 8,
            "kept": 5,
            "most_dropped": [{ "net": 1, "entries": 6, "dropped": 4, "kept": 2 }],
        });
        assert_eq!((&value["rings"], &value["entries"]), (&expected, &13.into()));
        assert_eq!(value["lengths"]["answer"], 13);
        assert_eq!(value["most_vias"][0]["edges"], 3);
        let told = table(&report, Style { unicode: false });
        for words in [
            "  edge entries      13\n  rings             2 nets cut, 8 edges dropped, 5 kept\n",
            "\n  nets that lost most edges to rings\n      net  entries  dropped     kept\n        1        6        4        2\n",
        ] {
            assert!(told.contains(words), "no {words:?} in\n{told}");
        }
        let without = Report::new("timing.job", &crate::figures::timing_example(), 1);
        assert!(!without.json().contains("rings") && !table(&without, Style { unicode: false }).contains("rings"));
    }

    #[test]
    fn wanted_layers_in_the_report() {
        let report = Report::new("timing.job", &crate::figures::timing_example(), 1);
        let value: serde_json::Value = serde_json::from_str(&report.json()).unwrap();
        let expected = serde_json::json!({
            "ldof": 3,
            "nets": 4,
            "by_layer": [
                { "low": 1, "nets": 2, "edges": 2, "below": 0, "excess": 0 },
                { "low": 2, "nets": 2, "edges": 3, "below": 1, "excess": 1 },
                { "low": 3, "nets": 2, "edges": 6, "below": 5, "excess": 2 },
            ],
            "most_excess": [{ "from": [1, 0], "to": [2, 0], "nets": 4, "below": 2, "excess": 2 }],
        });
        assert_eq!(value["directives"], expected);
        let told = table(&report, Style { unicode: false });
        for words in [
            "  vias              5\n  directives        4 nets want a layer above 1, ldof 3\n",
            "\n  layer directives: ldof 3\n    below: edges that the plan puts below",
            "\n    low     nets      edges      below     excess\n",
            "\n      3        2          6          5          2 !\n",
            "\n  edges with most directive excess\n    from tile    to tile    nets  below  excess\n",
            "\n    1,0       -> 2,0           4      2       2 !\n",
        ] {
            assert!(told.contains(words), "no {words:?} in\n{told}");
        }
    }

    #[test]
    fn wanted_layers_that_all_have_tracks() {
        let text = include_str!("../../../examples/three-tiles.job").replace("net=1\n", "net=1\nlow=2\n");
        let block = crate::figures::plan(&mut Planner::new(), text.as_bytes()).unwrap().unwrap();
        let told = table(&Report::new("a", &block, 10), Style { unicode: false });
        assert!(told.contains("  directives        1 net wants a layer above 1, ldof 0\n"), "{told}");
        assert!(
            told.contains("most directive excess\n    none: each net can have a track on a layer that it wants"),
            "{told}"
        );
    }

    /// The directives of the largest numbers that a block can have.
    fn largest_directives() -> Directives {
        let (nets, entries) = (layerplan::NETS_MOST, layerplan::TEXT_MOST / 6);
        let row = |low| Wanted { low, nets, edges: entries, below: entries, excess: entries };
        let edge = Excess { from: [62, 63], to: [63, 63], nets, below: nets, excess: nets };
        Directives { ldof: entries, nets, by_layer: (1..=8).map(row).collect(), most_excess: vec![edge] }
    }

    /// The report of the example with directions, with numbers as large as those of a block can be.
    fn largest() -> Report {
        let mut report = Report::new("directed.job", &crate::figures::directed_example(), 10);
        let (edges, nets, entries) = (2 * 63 * 64, layerplan::NETS_MOST, layerplan::TEXT_MOST / 6);
        report.directives = Some(largest_directives());
        for row in &mut report.by_layer {
            (row.tracks, row.used, row.overflow) = (edges * MOST_CAPACITY, entries, entries);
            (row.full, row.overflowed) = (edges, edges);
        }
        for row in &mut report.most_crowded {
            (row.from, row.to) = ([62, 63], [63, 63]);
            (row.capacity, row.used, row.overflow) = (MOST_CAPACITY, nets, nets);
        }
        for row in &mut report.vias_by_level {
            row.vias = 2 * entries;
        }
        report
    }

    /// Where the words of a line end.
    fn ends(line: &str) -> Vec<usize> {
        line.split_whitespace().map(|word| word.as_ptr() as usize - line.as_ptr() as usize + word.len()).collect()
    }

    #[test]
    fn columns_are_wide_enough_for_the_largest_numbers() {
        let told = table(&largest(), Style { unicode: false });
        let rows = |head: &str| {
            let mut rows = told.lines().skip_while(|line| !line.starts_with(head)).take_while(|line| !line.is_empty());
            (ends(rows.next().unwrap()), rows.map(ends).collect::<Vec<_>>())
        };
        // words of the head and of a row that stand above each other
        let layers = [(0, 0), (1, 1), (2, 2), (3, 3), (6, 5), (7, 6), (8, 7), (9, 8)];
        let crowded = [(0, 0), (5, 4), (6, 5), (7, 6)];
        let wanted = [(0, 0), (1, 1), (2, 2), (3, 3), (4, 4)];
        let excess = [(4, 3), (5, 4), (6, 5)];
        for (head, pairs) in [
            ("  layer  runs", &layers[..]),
            ("    layer  from", &crowded),
            ("    low ", &wanted),
            ("    from tile", &excess),
            ("  level", &[(1, 3)]),
        ] {
            let (head, rows) = rows(head);
            assert!(!rows.is_empty());
            for row in rows {
                assert!(pairs.iter().all(|(word, number)| head[*word] == row[*number]), "{head:?}, {row:?} in\n{told}");
            }
        }
        assert!(told.contains(" 528,474,240 ") && told.contains(" 65,535 "), "{told}");
    }

    #[test]
    fn nothing_of_optional_lines_without_them() {
        let (told, json) = (table(&example(), Style { unicode: false }), example().json());
        for words in ["runs", "limit of a layer", "directive", "ldof", "excess"] {
            assert!(!told.contains(words), "{told}");
        }
        let names = ["dirs", "limits", "runs", "directives"];
        assert!(!names.iter().any(|name| json.contains(&format!("\"{name}\""))), "{json}");
    }

    #[test]
    fn buckets_double() {
        let bounds = |vias: &[usize]| histogram(vias).iter().map(|b| (b.least, b.most, b.nets)).collect::<Vec<_>>();
        assert_eq!(bounds(&[]), []);
        assert_eq!(bounds(&[0, 0]), [(0, 0, 2)]);
        assert_eq!(bounds(&[0, 1, 2, 3, 4, 5, 9]), [(0, 0, 1), (1, 1, 1), (2, 2, 1), (3, 4, 2), (5, 8, 1), (9, 16, 1)]);
    }

    #[test]
    fn the_table_has_every_part() {
        for style in [Style { unicode: true }, Style { unicode: false }] {
            let text = table(&example(), style);
            for words in ["three-tiles.job", "layer", "most crowded", "level", "vias of a net", "nets with most vias"] {
                assert!(text.contains(words), "no {words} in\n{text}");
            }
            assert_eq!(text.is_ascii(), !style.unicode);
            assert!(text.lines().all(|line| line == line.trim_end()), "{text}");
        }
    }
}
