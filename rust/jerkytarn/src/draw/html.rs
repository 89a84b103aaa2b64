//! The page: a fixed frame with the block's numbers in it. It loads nothing from anywhere, and tells the browser to see to
//! that (its content security policy).

use super::{colour, escaped};
use crate::figures::{kept, Block, DROPPED};
use std::fmt::Write;

const FRAME: &str = include_str!("page.html");
const STYLE: &str = include_str!("page.css");
const SCRIPT: &str = include_str!("page.js");

/// The page of a block.
pub fn page(name: &str, block: &Block) -> String {
    let mut out = String::with_capacity(64 * 1024 + 16 * block.job.entries());
    let mut rest = FRAME;
    // {{part}} in the frame is replaced; nothing that is put in is looked through again
    while let Some((before, after)) = rest.split_once("{{") {
        out.push_str(before);
        let (part, after) = after.split_once("}}").unwrap_or((after, ""));
        match part {
            "name" => out.push_str(&escaped(name)),
            "style" => out.extend([&colour::style(), &colour::dropped_style(), STYLE]),
            "script" => out.push_str(SCRIPT),
            "block" => put_block(&mut out, name, block),
            _ => {}
        }
        rest = after;
    }
    out.push_str(rest);
    out
}

/// The numbers, as JSON. `<` does not occur in it, so that no name can end the element that it stands in.
fn put_block(out: &mut String, name: &str, block: &Block) {
    let job = &block.job;
    let name = serde_json::Value::from(name).to_string().replace('<', "\\u003c");
    let (flat, layered) = (block.flat_overflow(), block.layered_overflow());
    let _ = write!(
        out,
        "{{\"name\":{name},\"width\":{},\"height\":{},\"layers\":{},\"vias\":{},",
        job.grid.width, job.grid.height, job.layers, block.totals.vias
    );
    put_directions(out, block);
    put_directives(out, block);
    put_dropped(out, block);
    let _ =
        write!(out, "\"flat\":[{},{}],\"overflow\":[{},{}],", flat.total, flat.maximum, layered.total, layered.maximum);
    out.push_str("\n\"capacity\":");
    put_list(out, &job.capacity, |out, layer| put_numbers(out, layer));
    out.push_str(",\n\"tileVias\":");
    put_list(out, &block.tile_vias, |out, level| put_numbers(out, level));
    out.push_str(",\n\"nets\":");
    let turns = block.turns();
    put_list(out, 0..job.nets.len(), |out, place| put_net(out, block, place, turns[place]));
    out.push('}');
}

/// The letters of the layers, and the limits of both directions; nothing where the job has no `dirs` line.
fn put_directions(out: &mut String, block: &Block) {
    let (Some(letters), Some(limits)) = (block.job.letters(), block.limits()) else { return };
    out.push_str("\"dirs\":");
    put_list(out, letters, |out, letter| {
        let _ = write!(out, "\"{letter}\"");
    });
    let _ = write!(out, ",\"limits\":[{},{}],", limits.east, limits.north);
}

/// `ldof`, each net's lowest wanted layer, and each edge with excess: its number, then its excess by layer from the bottom.
/// Nothing where the job has no `low` line.
fn put_directives(out: &mut String, block: &Block) {
    let Some(directives) = &block.directives else { return };
    let lows: Vec<usize> = block.job.nets.iter().map(|net| net.wants()).collect();
    let _ = write!(out, "\"directives\":{{\"ldof\":{},\"low\":", directives.ldof());
    put_numbers(out, &lows);
    out.push_str(",\"excess\":");
    put_list(out, directives.most_excess(usize::MAX), |out, edge| {
        put_numbers(out, &[&[edge], &directives.edges[edge].excess[..]].concat());
    });
    out.push_str("},");
}

/// Each net that lost edges: its number, then these edges by their numbers. Nothing where no net has a ring.
fn put_dropped(out: &mut String, block: &Block) {
    let Some(rings) = &block.rings else { return };
    out.push_str("\"dropped\":");
    put_list(out, &rings.nets, |out, cut| {
        let (net, layers) = (&block.job.nets[cut.net - 1], &block.layers[cut.net - 1]);
        let dropped = net.edges.iter().zip(layers).filter(|(_, layer)| **layer == DROPPED).map(|(edge, _)| *edge);
        put_numbers(out, &[cut.net].into_iter().chain(dropped).collect::<Vec<usize>>());
    });
    out.push(',');
}

/// A net: its vias, turn and score, its pins as 8 × tile + layer - 1, and its kept edges as 8 × edge + layer - 1.
fn put_net(out: &mut String, block: &Block, place: usize, turn: usize) {
    let net = &block.job.nets[place];
    let score = block.order.get(turn.wrapping_sub(1)).map_or(0, |entry| entry.score);
    let _ = write!(out, "[{},{turn},{score},", block.net_vias[place]);
    let pins: Vec<usize> = net.pins.iter().map(|pin| 8 * block.job.grid.number(pin.tile) + pin.layer - 1).collect();
    put_numbers(out, &pins);
    out.push(',');
    let edges: Vec<usize> = kept(net, &block.layers[place]).map(|(edge, layer)| 8 * edge + layer - 1).collect();
    put_numbers(out, &edges);
    out.push(']');
}

fn put_numbers(out: &mut String, numbers: &[usize]) {
    put_list(out, numbers, |out, number| {
        let _ = write!(out, "{number}");
    });
}

fn put_list<T>(out: &mut String, list: impl IntoIterator<Item = T>, put: impl Fn(&mut String, T)) {
    out.push('[');
    for (place, entry) in list.into_iter().enumerate() {
        if place > 0 {
            out.push(',');
        }
        put(out, entry);
    }
    out.push(']');
}

#[cfg(test)]
mod tests {
    use super::*;
    use crate::planner::Planner;

    #[test]
    fn the_numbers_are_json() {
        let text = include_bytes!("../../../../examples/three-tiles.job");
        let block = crate::figures::plan(&mut Planner::new(), text).unwrap().unwrap();
        let mut out = String::new();
        put_block(&mut out, "a<\"b", &block);
        let value: serde_json::Value = serde_json::from_str(&out).unwrap();
        assert_eq!(value["name"], "a<\"b");
        assert_eq!(value["capacity"][1][0], 1);
        // net 1: two vias, second in turn, pins in tiles 0 and 2 on layer 1, edge 0 on layer 2 and edge 1 on layer 1
        assert_eq!(value["nets"][0], serde_json::json!([2, 2, 2500, [0, 16], [1, 8]]));
        assert!(!out.contains('<') && value.get("dirs").is_none() && value.get("limits").is_none());
        assert!(value.get("directives").is_none() && value.get("dropped").is_none());
    }

    #[test]
    fn dropped_edges_are_among_the_numbers() {
        let mut out = String::new();
        put_block(&mut out, "rings.job", &crate::figures::rings_example());
        let value: serde_json::Value = serde_json::from_str(&out).unwrap();
        assert_eq!(value["dropped"], serde_json::json!([[1, 2, 4, 1, 6], [3, 1, 6, 3, 5]]));
        // net 1 keeps edges 0 and 5, both on layer 1, and net 3 none
        assert_eq!([&value["nets"][0][4], &value["nets"][2][4]], [&serde_json::json!([0, 40]), &serde_json::json!([])]);
    }

    #[test]
    fn wanted_layers_are_among_the_numbers() {
        let mut out = String::new();
        put_block(&mut out, "timing.job", &crate::figures::timing_example());
        let value: serde_json::Value = serde_json::from_str(&out).unwrap();
        let expected =
            serde_json::json!({ "ldof": 3, "low": [3, 3, 2, 1, 2, 1], "excess": [[1, 0, 1, 1], [0, 0, 0, 1]] });
        assert_eq!(value["directives"], expected);
    }

    #[test]
    fn directions_are_among_the_numbers() {
        let mut out = String::new();
        put_block(&mut out, "directed.job", &crate::figures::directed_example());
        let value: serde_json::Value = serde_json::from_str(&out).unwrap();
        assert_eq!(value["dirs"], serde_json::json!(["h", "v", "h"]));
        assert_eq!(value["limits"], serde_json::json!([1, 0]));
    }
}
