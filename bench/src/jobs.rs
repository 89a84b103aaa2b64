//! The jobs: nine families at four sizes, those that show the growth, and heads alone. Each is made from a fixed seed.
//!
//! From one size to the next the grid's tiles, the bytes of the text and, where it is given, the number of nets grow
//! fourfold, up to the limits of document 01: 64 × 64 tiles, 8 layers, 4,096 nets, 1,048,576 bytes.

use crate::MOST_CAPACITY;
use second::gen::Rng;

pub const FAMILIES: [&str; 9] =
    ["congested", "plenty", "branches", "giant", "short", "directions", "wide", "directives", "rings"];

/// The family whose grids, nets and tracks the jobs of `directions` have: the two differ by the `dirs` line alone, and by
/// the layers that the tracks are on.
pub const PARTNER: &str = "congested";

pub const SIZES: [usize; 4] = [1, 2, 3, 4];

/// The heads alone, by the least and the most digits of their capacities.
pub const DIGITS: [(u32, u32); 3] = [(1, 1), (2, 2), (3, 5)];

const LAYERS: usize = 8;
const MOST_BYTES: usize = 1_048_576;

type Tile = (usize, usize);

/// An edge: its tile, and whether it goes east, else north.
type Edge = (usize, usize, bool);

fn shuffle<T>(rng: &mut Rng, list: &mut [T]) {
    for place in (1..list.len()).rev() {
        list.swap(place, rng.below(place + 1));
    }
}

/// The edge between two neighbours.
fn between(a: Tile, b: Tile) -> Edge {
    let low = a.min(b);
    (low.0, low.1, a.1 == b.1)
}

fn neighbours(side: usize, (x, y): Tile) -> Vec<Tile> {
    let all = [(x + 1, y), (x, y + 1), (x.wrapping_sub(1), y), (x, y.wrapping_sub(1))];
    all.into_iter().filter(|(x, y)| *x < side && *y < side).collect()
}

/// A tree of up to so many edges that grows from any of its tiles, or, where `deep`, on from the tile reached last.
fn grown(rng: &mut Rng, side: usize, most: usize, deep: bool) -> Vec<Edge> {
    let start = (rng.below(side), rng.below(side));
    let mut inside = vec![false; side * side];
    inside[start.1 * side + start.0] = true;
    let (mut open, mut edges) = (vec![start], Vec::new());
    while edges.len() < most && !open.is_empty() {
        let place = if deep { open.len() - 1 } else { rng.below(open.len()) };
        let mut free = neighbours(side, open[place]);
        free.retain(|(x, y)| !inside[y * side + x]);
        if free.is_empty() {
            open.swap_remove(place);
            continue;
        }
        let tile = rng.pick(&free);
        inside[tile.1 * side + tile.0] = true;
        edges.push(between(open[place], tile));
        open.push(tile);
    }
    edges
}

/// A row or column of so many tiles with a tooth on both sides of each: all but two of its tiles have three branches.
fn comb(rng: &mut Rng, side: usize, length: usize) -> Vec<Edge> {
    let start = rng.below(side - length + 1);
    let across = rng.range(1, side - 2);
    let turned = rng.chance(1, 2);
    let tile = |along: usize, across: usize| if turned { (across, along) } else { (along, across) };
    let mut edges = Vec::new();
    for along in start..start + length {
        if along > start {
            edges.push(between(tile(along - 1, across), tile(along, across)));
        }
        edges.push(between(tile(along, across), tile(along, across - 1)));
        edges.push(between(tile(along, across), tile(along, across + 1)));
    }
    edges
}

/// All tiles: a column, rows from it on both sides, and teeth from every third row to the rows beside it.
fn fishbone(rng: &mut Rng, side: usize) -> Vec<Edge> {
    let trunk = rng.below(side);
    let mut edges = Vec::new();
    for y in 0..side {
        for x in 0..side {
            if x + 1 < side && y % 3 == 1 {
                edges.push((x, y, true));
            }
            if y + 1 < side && (x == trunk || y % 3 != 2) {
                edges.push((x, y, false));
            }
        }
    }
    edges
}

/// All tiles in one line, row by row to and fro.
fn snake(side: usize) -> Vec<Edge> {
    let row = |y: usize| (0..side).map(move |x| if y % 2 == 0 { (x, y) } else { (side - 1 - x, y) });
    let tiles: Vec<Tile> = (0..side).flat_map(row).collect();
    tiles.windows(2).map(|pair| between(pair[0], pair[1])).collect()
}

fn tiles_of(side: usize, edges: &[Edge]) -> Vec<Tile> {
    let mut inside = vec![false; side * side];
    let mut tiles = Vec::new();
    for (x, y, east) in edges {
        for (x, y) in [(*x, *y), if *east { (x + 1, *y) } else { (*x, y + 1) }] {
            if !std::mem::replace(&mut inside[y * side + x], true) {
                tiles.push((x, y));
            }
        }
    }
    tiles
}

/// What a router leaves beside a tree: up to so many edges between its tiles, each of which closes a ring, and a tail.
fn leftovers(rng: &mut Rng, side: usize, tree: &[Edge], rings: usize) -> Vec<Edge> {
    let tiles = tiles_of(side, tree);
    let mut inside = vec![false; side * side];
    tiles.iter().for_each(|(x, y)| inside[y * side + x] = true);
    let mut closing: Vec<Edge> = Vec::new();
    for (x, y) in &tiles {
        for (to, edge) in [((x + 1, *y), (*x, *y, true)), ((*x, y + 1), (*x, *y, false))] {
            if to.0 < side && to.1 < side && inside[to.1 * side + to.0] && !tree.contains(&edge) {
                closing.push(edge);
            }
        }
    }
    shuffle(rng, &mut closing);
    closing.truncate(rings);
    let mut tile = rng.pick(&tiles);
    for _ in 0..rng.range(1, 8) {
        let mut free = neighbours(side, tile);
        free.retain(|(x, y)| !inside[y * side + x]);
        if free.is_empty() {
            break;
        }
        let next = rng.pick(&free);
        inside[next.1 * side + next.0] = true;
        closing.push(between(tile, next));
        tile = next;
    }
    closing
}

/// The lines of a net: its edges in any order, and so many pins in its tiles; and `more` edges without pins of their own.
fn net(rng: &mut Rng, side: usize, number: usize, mut edges: Vec<Edge>, pins: usize, more: Vec<Edge>) -> String {
    let mut tiles = tiles_of(side, &edges);
    edges.extend(more);
    shuffle(rng, &mut edges);
    shuffle(rng, &mut tiles);
    let pin = |(x, y): &Tile| format!("{x},{y},{}", rng.range(1, LAYERS));
    let pins: Vec<String> = tiles[..pins.min(tiles.len())].iter().map(pin).collect();
    let edge = |(x, y, east): &Edge| format!("{x},{y},{}", if *east { "e" } else { "n" });
    let edges: Vec<String> = edges.iter().map(edge).collect();
    format!("net={number}\npins={}\nedges={}\n", pins.join(";"), edges.join(";"))
}

/// The capacities of every layer, to the east and to the north.
type Tracks = Vec<[Vec<usize>; 2]>;

fn tracks(rng: &mut Rng, side: usize, draw: impl Fn(&mut Rng) -> usize) -> Tracks {
    let mut list = || (0..side * (side - 1)).map(|_| draw(rng)).collect();
    (0..LAYERS).map(|_| [list(), list()]).collect()
}

/// A capacity of `least` to `most` digits, each number of digits as often as the others.
fn of_digits(rng: &mut Rng, least: u32, most: u32) -> usize {
    let digits = least + rng.below((most - least + 1) as usize) as u32;
    let low = if digits == 1 { 0 } else { 10usize.pow(digits - 1) };
    rng.range(low, (10usize.pow(digits) - 1).min(MOST_CAPACITY))
}

/// The same tracks where layers run by turns to the east and to the north. Of each pair of layers, the first has all tracks
/// of the pair to the east and the second all of them to the north; the other lists of the two hold 0, as they must. So an
/// edge has as many tracks as before, on half of the layers: its overflow on the flat plan, the scores and the order of the
/// nets stay what they were.
fn by_turns(tracks: &Tracks) -> Tracks {
    let sum = |a: &[usize], b: &[usize]| a.iter().zip(b).map(|(a, b)| a + b).collect();
    let none = |list: &[usize]| vec![0; list.len()];
    let mut turned = Vec::new();
    for pair in tracks.chunks(2) {
        let [[east, north], [other_east, other_north]] = [&pair[0], &pair[1]];
        turned.push([sum(east, other_east), none(north)]);
        turned.push([none(east), sum(north, other_north)]);
    }
    turned
}

/// The lines before `nets`.
fn head(side: usize, dirs: &str, tracks: &Tracks) -> String {
    let mut text = format!("width={side}\nheight={side}\nlayers={LAYERS}\n{dirs}alpha=3\nbeta=2\ngamma=5\n");
    for layer in tracks {
        for (key, list) in ["east", "north"].iter().zip(layer) {
            let list: Vec<String> = list.iter().map(usize::to_string).collect();
            text += &format!("{key}={}\n", list.join(","));
        }
    }
    text
}

/// The same nets, with a `low` line for every third of them: any layer above the first.
fn with_lows(rng: &mut Rng, nets: &str) -> String {
    let mut text = String::new();
    for line in nets.lines() {
        text += line;
        text += "\n";
        if line.starts_with("net=") && rng.chance(1, 3) {
            text += &format!("low={}\n", rng.range(2, LAYERS));
        }
    }
    text
}

/// A job of `directives` without its `low` lines.
pub fn unmarked(size: usize) -> String {
    let (tracks, nets) = parts("directives", size);
    head(4 << size, "", &tracks) + &nets
}

/// The job of a family at a size.
pub fn job(family: &str, size: usize) -> String {
    match family {
        "directions" => {
            let (tracks, nets) = parts(PARTNER, size);
            head(4 << size, "dirs=h,v,h,v,h,v,h,v\n", &by_turns(&tracks)) + &nets
        }
        "directives" => {
            let (tracks, nets) = parts(family, size);
            head(4 << size, "", &tracks) + &with_lows(&mut Rng::new(size as u64), &nets)
        }
        _ => {
            let (tracks, nets) = parts(family, size);
            head(4 << size, "", &tracks) + &nets
        }
    }
}

/// The capacities of a job without directions, and its lines from `nets` on.
fn parts(family: &str, size: usize) -> (Tracks, String) {
    let place = FAMILIES.iter().position(|name| *name == family).expect("a family");
    let rng = &mut Rng::new(1000 * place as u64 + size as u64);
    let side = 4 << size;
    let bytes = MOST_BYTES >> (2 * (4 - size));
    let tracks = tracks(rng, side, |rng| match family {
        "congested" | "directives" | "rings" => rng.range(0, 2),
        "plenty" => rng.range(30, 99),
        "wide" => of_digits(rng, 3, 5),
        _ => rng.range(0, 9),
    });
    let head = head(side, "", &tracks);
    let count = match family {
        "congested" | "plenty" | "short" | "wide" | "directives" | "rings" => 64 << (2 * (size - 1)),
        _ => 4096,
    };
    // what `nets` takes at most, and the `low` lines
    let lows = if family == "directives" { count * "low=8\n".len() } else { 0 };
    let mut left = bytes - head.len() - "nets=4096\n".len() - lows;
    let mut nets = Vec::new();
    while nets.len() < count {
        let edges = match family {
            "congested" | "plenty" | "wide" | "directives" | "rings" => {
                // an entry has about 7.2 bytes at the largest size, and what else a net has about 50
                let share = left.saturating_sub(300) / (count - nets.len());
                let entry = if size < 3 { 6.2 } else { 7.3 };
                let most = (share.saturating_sub(50) as f64 / entry * 2.0) as usize;
                let length = rng.range(1, most.max(1));
                grown(rng, side, length, false)
            }
            "branches" => {
                let length = rng.range(3, side - 2);
                comb(rng, side, length)
            }
            "giant" => match nets.len() % 4 {
                0 => grown(rng, side, usize::MAX, false),
                1 => fishbone(rng, side),
                2 => grown(rng, side, usize::MAX, true),
                _ => snake(side),
            },
            _ => {
                let length = rng.range(1, 6);
                grown(rng, side, length, false)
            }
        };
        let pins = match family {
            "branches" => edges.len() / 3,
            "giant" => edges.len() / 16,
            _ => rng.range(2, 5),
        };
        let more = if family == "rings" && rng.chance(1, 10) {
            let rings = rng.range(1, 5);
            leftovers(rng, side, &edges, rings)
        } else {
            Vec::new()
        };
        let net = net(rng, side, nets.len() + 1, edges, pins, more);
        if net.len() > left {
            break;
        }
        left -= net.len();
        nets.push(net);
    }
    (tracks, format!("nets={}\n{}", nets.len(), nets.concat()))
}

/// A job on the largest grid with so many nets of so many edges each.
pub fn growth(nets: usize, edges: usize) -> String {
    let rng = &mut Rng::new(77);
    let mut text = head(64, "", &tracks(rng, 64, |rng| rng.range(0, 9))) + &format!("nets={nets}\n");
    for number in 1..=nets {
        let tree = grown(rng, 64, edges, false);
        text += &net(rng, 64, number, tree, 3, Vec::new());
    }
    assert!(text.len() <= MOST_BYTES, "{} bytes", text.len());
    text
}

/// A job on the largest grid without nets, whose capacities have `least` to `most` digits.
pub fn capacities(least: u32, most: u32) -> String {
    let rng = &mut Rng::new(78);
    head(64, "", &tracks(rng, 64, |rng| of_digits(rng, least, most))) + "nets=0\n"
}
