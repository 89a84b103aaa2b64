//! Jobs, damaged texts and lent lengths, each drawn from a seed alone.

use crate::job::{Direction, Grid, Job, Lengths, Net, Pin, Refusal};
use crate::job::{EAST, MOST_CAPACITY, NORTH, SOUTH, TEXT_LIMIT, WEST};
use std::collections::BTreeSet;

/// The generator of random numbers (splitmix64).
pub struct Rng(u64);

impl Rng {
    pub fn new(seed: u64) -> Rng {
        Rng(seed)
    }

    pub fn word(&mut self) -> u64 {
        self.0 = self.0.wrapping_add(0x9e37_79b9_7f4a_7c15);
        let mut z = self.0;
        z = (z ^ (z >> 30)).wrapping_mul(0xbf58_476d_1ce4_e5b9);
        z = (z ^ (z >> 27)).wrapping_mul(0x94d0_49bb_1331_11eb);
        z ^ (z >> 31)
    }

    /// From 0 to `count` - 1.
    pub fn below(&mut self, count: usize) -> usize {
        (self.word() % count as u64) as usize
    }

    /// From `low` to `high`, both included.
    pub fn range(&mut self, low: usize, high: usize) -> usize {
        low + self.below(high - low + 1)
    }

    /// True in `part` of `whole` cases.
    pub fn chance(&mut self, part: usize, whole: usize) -> bool {
        self.below(whole) < part
    }

    pub fn pick<T: Copy>(&mut self, list: &[T]) -> T {
        list[self.below(list.len())]
    }

    fn shuffle<T>(&mut self, list: &mut [T]) {
        for place in (1..list.len()).rev() {
            list.swap(place, self.below(place + 1));
        }
    }
}

/// The shapes of jobs.
#[derive(Clone, Copy, PartialEq, Eq, Debug)]
pub enum Kind {
    /// Few enough layerings to look at all of them.
    Tiny,
    /// More nets than tracks.
    Congested,
    /// More tracks than nets.
    Plenty,
    /// Nets with many three-branch tiles.
    Branchy,
    /// One row or column, one tile, no nets, nets without edges.
    Thin,
    /// Few nets that cover much of a large grid.
    Giant,
    /// Thousands of short nets.
    Short,
    /// A text of exactly as many bytes as are read.
    Full,
    /// Sums at their bounds: nets over all tiles, as many as a text holds, with the most tracks, or with none.
    Bounds,
    /// A full text with the largest grid, the most layers and the most nets. It is drawn only where it is asked for.
    Largest,
}

pub const KINDS: [(&str, Kind); 10] = [
    ("tiny", Kind::Tiny),
    ("congested", Kind::Congested),
    ("plenty", Kind::Plenty),
    ("branchy", Kind::Branchy),
    ("thin", Kind::Thin),
    ("giant", Kind::Giant),
    ("short", Kind::Short),
    ("full", Kind::Full),
    ("bounds", Kind::Bounds),
    ("largest", Kind::Largest),
];

/// How a tree of edges grows.
#[derive(Clone, Copy)]
enum Growth {
    /// On from the tile reached last.
    Snake,
    /// All ways out of the earliest tile first.
    Bush,
    /// From any tile.
    Any,
    /// A snake, then teeth on both its sides.
    Comb,
    /// A trunk, rows on both its sides and teeth on them, over the whole grid.
    Fishbone,
}

/// A tree with at most this many edges, on a random place in the grid, along these ways out of a tile.
fn tree(rng: &mut Rng, grid: Grid, ways: &[usize], most: usize, growth: Growth) -> Vec<usize> {
    if let (Growth::Fishbone, 4) = (growth, ways.len()) {
        return fishbone(rng, grid);
    }
    let mut start = rng.below(grid.tiles());
    if let (Growth::Bush, 3.., 3..) = (growth, grid.width, grid.height) {
        // a tile with four ways out
        start = rng.range(1, grid.height - 2) * grid.width + rng.range(1, grid.width - 2);
    }
    let mut inside = BTreeSet::from([start]);
    let mut open = vec![start];
    let mut edges = Vec::new();
    let spine = if let Growth::Comb = growth { most.div_ceil(3) } else { most };
    while edges.len() < most && !open.is_empty() {
        let on_spine = edges.len() < spine;
        let place = match growth {
            Growth::Snake => open.len() - 1,
            Growth::Bush => 0,
            Growth::Comb if on_spine => open.len() - 1,
            _ => rng.below(open.len()),
        };
        let around = ways.iter().filter_map(|way| grid.way(open[place], *way));
        let free: Vec<(usize, usize)> = around.filter(|(tile, _)| !inside.contains(tile)).collect();
        if free.is_empty() {
            open.remove(place);
            continue;
        }
        let (tile, edge) = rng.pick(&free);
        inside.insert(tile);
        edges.push(edge);
        if on_spine {
            open.push(tile);
        }
    }
    edges
}

/// All tiles: a column as trunk, every third row, and from these rows teeth to the rows beside them.
fn fishbone(rng: &mut Rng, grid: Grid) -> Vec<usize> {
    let trunk = rng.below(grid.width);
    let mut edges = Vec::new();
    for edge in 0..grid.edges() {
        let (tile, east) = grid.named(edge);
        let (x, y) = (tile % grid.width, tile / grid.width);
        let wanted = match east {
            true => y % 3 == 1,
            false => x == trunk || y % 3 != 2,
        };
        if wanted {
            edges.push(edge);
        }
    }
    edges
}

/// The edges round a rectangle of tiles, and a tail from it: a ring, and besides what closes it at most so many edges. None
/// where there is no room for it.
fn frame(rng: &mut Rng, grid: Grid, most: usize) -> Option<Vec<usize>> {
    let sides = most.div_ceil(2); // width and height together, counted in edges
    if grid.width < 2 || grid.height < 2 || sides < 2 {
        return None;
    }
    let width = rng.range(1, (sides - 1).min(grid.width - 1));
    let height = rng.range(1, (sides - width).min(grid.height - 1));
    let (left, low) = (rng.below(grid.width - width), rng.below(grid.height - height));
    let edge = |x: usize, y: usize, way: usize| grid.way(y * grid.width + x, way).unwrap().1;
    let rows = (left..left + width).flat_map(|x| [edge(x, low, EAST), edge(x, low + height, EAST)]);
    let columns = (low..low + height).flat_map(|y| [edge(left, y, NORTH), edge(left + width, y, NORTH)]);
    let mut edges: Vec<usize> = rows.chain(columns).collect();
    let mut inside: BTreeSet<usize> = edges.iter().flat_map(|edge| grid.ends(*edge)).collect();
    let mut tile = rng.pick(&inside.iter().copied().collect::<Vec<_>>());
    for _ in 0..rng.range(0, most + 1 - edges.len()) {
        let free: Vec<(usize, usize)> = (0..4).filter_map(|way| grid.way(tile, way)).collect();
        let free: Vec<(usize, usize)> = free.into_iter().filter(|(tile, _)| !inside.contains(tile)).collect();
        if free.is_empty() {
            break;
        }
        let (next, edge) = rng.pick(&free);
        inside.insert(next);
        edges.push(edge);
        tile = next;
    }
    Some(edges)
}

/// More edges between the tiles of these, each of which closes a ring: the least number, a few, half of those that there are,
/// or all.
fn close_rings(rng: &mut Rng, grid: Grid, edges: &mut Vec<usize>, least: usize) {
    let there: BTreeSet<usize> = edges.iter().copied().collect();
    let tiles: BTreeSet<usize> = edges.iter().flat_map(|edge| grid.ends(*edge)).collect();
    let closes = |edge: &usize| !there.contains(edge) && grid.ends(*edge).iter().all(|tile| tiles.contains(tile));
    let mut more: Vec<usize> = (0..grid.edges()).filter(closes).collect();
    rng.shuffle(&mut more);
    let count = match rng.below(5) {
        0 | 1 => least,
        2 => rng.range(1, 5),
        3 => more.len() / 2,
        _ => more.len(),
    };
    more.truncate(count);
    edges.append(&mut more);
}

/// Up to `most` pins in these tiles, no two alike.
fn pins(rng: &mut Rng, tiles: &[usize], layers: usize, most: usize) -> Vec<Pin> {
    let style = rng.below(4);
    let one = rng.range(1, layers);
    let mut pins = Vec::new();
    for _ in 0..rng.range(1, most) {
        let layer = match style {
            0 => 1,
            1 => one,
            2 => rng.pick(&[1, layers]),
            _ => rng.range(1, layers),
        };
        let pin = Pin { tile: rng.pick(tiles), layer: layer as u8 };
        if !pins.contains(&pin) {
            pins.push(pin);
        }
    }
    pins
}

/// One to three pins more, each on another layer of a tile that has one.
fn stack(rng: &mut Rng, pins: &mut Vec<Pin>, layers: usize) {
    for _ in 0..rng.range(1, 3) {
        let Pin { tile, layer } = rng.pick(pins);
        let other = (usize::from(layer) - 1 + rng.range(1, layers - 1)) % layers + 1;
        let pin = Pin { tile, layer: other as u8 };
        if !pins.contains(&pin) {
            let place = rng.below(pins.len() + 1);
            pins.insert(place, pin);
        }
    }
}

/// The `low` lines of a job: so many of ten nets have one, with a layer from the least to the most.
struct Lows {
    part: usize,
    least: usize,
    most: usize,
}

impl Lows {
    /// Few nets, half of them or all; layers that are all 1, all K, all the same, near K, or any. In some jobs no net.
    fn draw(rng: &mut Rng, layers: usize) -> Lows {
        let part = if rng.chance(1, 4) { 0 } else { rng.pick(&[1, 5, 10]) };
        let one = rng.range(2, layers);
        let (least, most) = rng.pick(&[
            (1, 1),
            (layers, layers),
            (one, one),
            (layers - 1, layers),
            (1, layers),
            (2, layers),
            (2, layers),
        ]);
        Lows { part, least, most }
    }

    /// The `low` line of a net, if it has one.
    fn line(&self, rng: &mut Rng) -> Option<u8> {
        let layer = rng.range(self.least, self.most) as u8;
        rng.chance(self.part, 10).then_some(layer)
    }
}

/// A net of the job with at most this many edges, besides those that close `rings`, where it has them; no edge goes a way
/// that no layer runs.
fn net(rng: &mut Rng, job: &Job, most: usize, growth: Growth, rings: bool) -> Net {
    let Job { grid, layers, .. } = *job;
    let direction = |way: usize| if [EAST, WEST].contains(&way) { Direction::East } else { Direction::North };
    let ways: Vec<usize> = (0..4).filter(|way| job.has_layer(direction(*way))).collect();
    let framed = if rings && ways.len() == 4 && rng.chance(2, 3) { frame(rng, grid, most) } else { None };
    let least = usize::from(framed.is_none());
    let mut edges = framed.unwrap_or_else(|| tree(rng, grid, &ways, most, growth));
    if rings && ways.len() == 4 {
        close_rings(rng, grid, &mut edges, least);
    }
    rng.shuffle(&mut edges);
    let mut net = Net { low: None, pins: Vec::new(), edges };
    let tiles: Vec<usize> = net.tiles(grid).into_iter().collect();
    let tiles = if tiles.is_empty() { vec![rng.below(grid.tiles())] } else { tiles };
    let most = if rng.chance(1, 3) { tiles.len() + 3 } else { 4.min(tiles.len() + 2) };
    net.pins = pins(rng, &tiles, layers, most);
    // with those that the draw above stacks, about a third of all nets
    if rng.chance(1, 6) {
        stack(rng, &mut net.pins, layers);
    }
    net
}

/// The letters of a `dirs` line: mostly both, by turns or in any order. Unless `both` is asked for, now and then just one.
fn directions(rng: &mut Rng, layers: usize, both: bool) -> Vec<Direction> {
    let one = rng.pick(&[Direction::East, Direction::North]);
    let other = other(one);
    if !both && rng.chance(1, 6) {
        return vec![one; layers];
    }
    if rng.chance(1, 3) {
        return (0..layers).map(|layer| if layer % 2 == 0 { one } else { other }).collect();
    }
    let mut dirs = vec![one; rng.range(1, layers - 1)];
    dirs.resize(layers, other);
    rng.shuffle(&mut dirs);
    dirs
}

fn other(direction: Direction) -> Direction {
    match direction {
        Direction::East => Direction::North,
        Direction::North => Direction::East,
    }
}

/// No tracks where a layer runs the other way.
fn close(job: &mut Job) {
    for (layer, edge) in closed(job) {
        job.capacity[layer - 1][edge] = 0;
    }
}

/// The layers and edges that do not go together.
fn closed(job: &Job) -> Vec<(usize, usize)> {
    let all = (1..=job.layers).flat_map(|layer| (0..job.grid.edges()).map(move |edge| (layer, edge)));
    all.filter(|(layer, edge)| !job.may_use(*edge, *layer as u8)).collect()
}

/// A track count of three to five digits, often one at a limit: what a byte and what two bytes hold.
fn many_tracks(rng: &mut Rng) -> u64 {
    match rng.below(4) {
        0 => rng.pick(&[255, 256, MOST_CAPACITY - 1, MOST_CAPACITY]),
        1 => rng.range(100, 999) as u64,
        2 => rng.range(1000, 9999) as u64,
        _ => rng.range(10_000, MOST_CAPACITY as usize) as u64,
    }
}

/// Gives a part of the edges many tracks on about half of their layers. The other edges keep theirs, so that there is
/// still overflow.
fn widen(rng: &mut Rng, capacity: &mut [Vec<u64>]) {
    let part = rng.pick(&[2, 5, 8]);
    for edge in 0..capacity[0].len() {
        if !rng.chance(part, 10) {
            continue;
        }
        for layer in capacity.iter_mut() {
            if rng.chance(1, 2) {
                layer[edge] = many_tracks(rng);
            }
        }
    }
}

/// The edges of the first column and of all rows: a tree over all tiles.
fn all_tiles(grid: Grid) -> Vec<usize> {
    let wanted = |edge: &usize| {
        let (tile, east) = grid.named(*edge);
        east || tile % grid.width == 0
    };
    (0..grid.edges()).filter(wanted).collect()
}

/// A job whose sums are at their bounds: one track count on all layers of all edges, and nets over all tiles, as many as
/// the text holds, at most 4,096. With `low` lines, their excess is at its bound too. Or nets of all edges of the largest
/// grid, which lose the most.
fn bounds(rng: &mut Rng) -> Job {
    let rings = rng.chance(1, 4);
    let (width, height, layers, tracks) = match rng.below(3) {
        _ if rings => (64, 64, rng.range(2, 8), rng.pick(&[0, 1, 9])),
        // c(e), and C of a net
        0 => (64, 64, 8, MOST_CAPACITY),
        // D of a net, its score and TO: where no number has two digits, a text has the most entries
        1 => (10, 10, 2, 0),
        // d(e) and o(e): no tracks, as many as there are nets, or on each layer one less
        _ => (2, 1, 8, rng.pick(&[0, 511, 512])),
    };
    let grid = Grid { width, height };
    let capacity = vec![vec![tracks; grid.edges()]; layers];
    let (alpha, beta, gamma) = (rng.pick(&[0, 255]), rng.pick(&[0, 255]), 255);
    let mut job = Job { grid, layers, dirs: None, alpha, beta, gamma, capacity, nets: Vec::new() };
    let lows = Lows::draw(rng, layers);
    let mut length = write(&job).len() + "4096".len();
    let tiles: Vec<usize> = (0..grid.tiles()).collect();
    while job.nets.len() < 4096 {
        let mut edges = if rings { (0..grid.edges()).collect() } else { all_tiles(grid) };
        rng.shuffle(&mut edges);
        let pins = if rings { pins(rng, &tiles, layers, 60) } else { pins(rng, &[0], layers, 1) };
        let net = Net { low: lows.line(rng), pins, edges };
        let mut lines = Vec::new();
        write_net(&mut lines, grid, job.nets.len() + 1, &net);
        length += lines.len();
        if length > TEXT_LIMIT {
            break;
        }
        job.nets.push(net);
    }
    job
}

/// A valid job of this kind; about half of them have a `dirs` line, but for those at the bounds, about half `low` lines, and
/// about a third nets with rings.
pub fn job(rng: &mut Rng, kind: Kind) -> Job {
    if kind == Kind::Bounds {
        return bounds(rng);
    }
    let side = |rng: &mut Rng, low: usize, high: usize| match rng.below(8) {
        0 => low,
        1 => high,
        _ => rng.range(low, high),
    };
    // of ten nets so many have rings: up to twice as many edges as tiles
    let ringed = if rng.chance(1, 2) { rng.pick(&[2, 5, 10, 10]) } else { 0 };
    let twice = if ringed > 0 { 2 } else { 1 };
    let crosses = kind == Kind::Tiny && rng.chance(1, 4); // tiny nets with three-branch tiles
    let crowded = kind == Kind::Tiny && !crosses && ringed == 0 && rng.chance(1, 2); // several tiny nets on one edge
    let (low, high) = match kind {
        Kind::Tiny if crosses => (3, 4),
        Kind::Tiny if ringed > 0 => (2, 4),
        Kind::Tiny => (1, 4),
        Kind::Congested | Kind::Plenty => (2, 16),
        Kind::Branchy => (3, 24),
        Kind::Thin => (1, 64),
        Kind::Giant => (16, 64),
        Kind::Short => (2, 64),
        Kind::Full => (40, 64),
        _ => (64, 64),
    };
    let (mut width, mut height) = (side(rng, low, high), side(rng, low, high));
    if kind == Kind::Thin {
        match rng.below(4) {
            0 => (width, height) = (1, 1),
            1 => width = 1,
            2 => height = 1,
            _ => (width, height) = (side(rng, 1, 3), side(rng, 1, 3)),
        }
    }
    if crowded {
        (width, height) = rng.pick(&[(2, 1), (1, 2), (3, 1)]);
    }
    let grid = Grid { width, height };
    let layers = if kind == Kind::Largest { 8 } else { side(rng, 2, 8) };
    let full = [Kind::Full, Kind::Largest].contains(&kind);
    // along one direction alone, the nets would not fill a text
    let dirs = if rng.chance(1, 2) { Some(directions(rng, layers, full)) } else { None };
    let weight = |rng: &mut Rng| match rng.below(6) {
        0 | 1 => 0,
        2 => 1,
        3 => 255,
        _ => rng.below(256) as u64,
    };
    let (alpha, beta, gamma) = (weight(rng), weight(rng), weight(rng));

    // the track counts: up to `tracks`, a part of them 0
    let tracks = match kind {
        Kind::Plenty => rng.pick(&[20, 100, 255]),
        Kind::Short => rng.pick(&[1, 3, 30, 255]),
        Kind::Full | Kind::Largest => 9,
        _ => rng.pick(&[0, 1, 1, 2, 3]),
    };
    let zeros = rng.pick(&[0, 1, 4, 7]);
    let least = if kind == Kind::Plenty { tracks / 2 } else { 0 };
    let mut capacity: Vec<Vec<u64>> = Vec::new();
    for _ in 0..layers {
        let empty = kind != Kind::Plenty && rng.chance(1, 8); // a layer without tracks
        let mut draw = || if empty || rng.chance(zeros, 10) { 0 } else { rng.range(least, tracks) as u64 };
        capacity.push((0..grid.edges()).map(|_| draw()).collect());
    }
    if rng.chance(1, 3) {
        widen(rng, &mut capacity);
    }

    let mut job = Job { grid, layers, dirs, alpha, beta, gamma, capacity, nets: Vec::new() };
    close(&mut job);
    let choices = (0..grid.edges()).map(|edge| job.layers_of(edge).len()).max().unwrap_or(0).max(2); // for one edge
    let nets = match kind {
        Kind::Tiny if crowded => rng.range(3, 9),
        Kind::Tiny => rng.range(0, 6),
        Kind::Congested => rng.range(1, 300),
        Kind::Plenty => rng.range(1, 100),
        Kind::Branchy => rng.range(1, 60),
        Kind::Thin => rng.pick(&[0, 0, 1, 2, 50, 4096]),
        Kind::Giant => rng.range(1, 8),
        Kind::Short => rng.pick(&[500, 1000, 3000, 4095, 4096]),
        _ => 4096,
    };
    let mut left = TEXT_LIMIT - write(&job).len() - 3;
    let mut spent = 0; // edges of a tiny job, without those that close rings
    let short = kind == Kind::Full && rng.chance(1, 2); // many short nets fill the text, else fewer long ones
    let lows = Lows::draw(rng, layers);
    for _ in 0..nets {
        // 16 bytes for each edge and its pin, and as many for the net itself, are enough
        let room = left / 20 / twice;
        if room < 5 {
            break;
        }
        let most = match kind {
            Kind::Tiny => {
                // the layerings of the job stay few
                let left = (15.0 / (choices as f64).log2()) as usize - spent;
                let most = left.min(6);
                if crosses || crowded || ringed > 0 || rng.chance(1, 3) {
                    most
                } else {
                    rng.range(0, most)
                }
            }
            Kind::Congested | Kind::Plenty => rng.range(0, 20),
            Kind::Branchy => rng.range(3, 90),
            Kind::Thin => rng.pick(&[0, 1, 2, 63]),
            Kind::Giant => rng.range(grid.tiles() / 4, grid.tiles()),
            Kind::Short => rng.range(0, 6),
            Kind::Full if short => rng.range(20, 60).min(room - 4),
            Kind::Full => rng.range(1, grid.tiles()).min(room - 4),
            // an edge and its part of the pins take about ten bytes, and each net has its share of what is left
            _ => rng.range(0, left / (nets - job.nets.len()) / 6 / twice).min(room - 4),
        };
        let growth = match kind {
            Kind::Tiny if crosses => Growth::Bush,
            Kind::Branchy => rng.pick(&[Growth::Comb, Growth::Comb, Growth::Bush]),
            Kind::Giant => rng.pick(&[Growth::Snake, Growth::Bush, Growth::Any, Growth::Comb, Growth::Fishbone]),
            Kind::Full if !short && grid.tiles() < room => rng.pick(&[Growth::Any, Growth::Comb, Growth::Fishbone]),
            _ => rng.pick(&[Growth::Snake, Growth::Bush, Growth::Any, Growth::Comb]),
        };
        let rings = rng.chance(ringed, 10) && left > 40 * grid.tiles();
        let mut net = net(rng, &job, most, growth, rings);
        spent += net.tiles(grid).len() - 1;
        net.low = lows.line(rng);
        let mut lines = Vec::new();
        write_net(&mut lines, grid, job.nets.len() + 1, &net);
        left -= lines.len();
        job.nets.push(net);
    }
    if full {
        fill(&mut job);
    }
    job
}

/// Lengthens the text to exactly the limit, where the track counts can: each of one digit takes up to four more.
fn fill(job: &mut Job) {
    let mut missing = TEXT_LIMIT - write(job).len();
    for layer in 1..=job.layers {
        for edge in 0..job.grid.edges() {
            if job.may_use(edge, layer as u8) && job.capacity[layer - 1][edge] <= 9 {
                let more = missing.min(4);
                job.capacity[layer - 1][edge] += [0, 10, 100, 1000, 10_000][more];
                missing -= more;
            }
        }
    }
}

fn write_list(text: &mut Vec<u8>, key: &str, entries: &[String], separator: &str) {
    text.extend(format!("{key}={}\n", entries.join(separator)).bytes());
}

fn write_net(text: &mut Vec<u8>, grid: Grid, number: usize, net: &Net) {
    text.extend(format!("net={number}\n").bytes());
    if let Some(layer) = net.low {
        text.extend(format!("low={layer}\n").bytes());
    }
    let pin = |pin: &Pin| format!("{},{},{}", pin.tile % grid.width, pin.tile / grid.width, pin.layer);
    write_list(text, "pins", &net.pins.iter().map(pin).collect::<Vec<_>>(), ";");
    let edge = |edge: &usize| {
        let (tile, east) = grid.named(*edge);
        format!("{},{},{}", tile % grid.width, tile / grid.width, if east { "e" } else { "n" })
    };
    write_list(text, "edges", &net.edges.iter().map(edge).collect::<Vec<_>>(), ";");
}

/// The letters of a `dirs` line.
fn letters(dirs: &[Direction]) -> Vec<String> {
    let letter = |direction: &Direction| match direction {
        Direction::East => "h".to_string(),
        Direction::North => "v".to_string(),
    };
    dirs.iter().map(letter).collect()
}

/// The text of a job.
pub fn write(job: &Job) -> Vec<u8> {
    let mut text = Vec::new();
    let Job { grid, layers, alpha, beta, gamma, .. } = job;
    text.extend(format!("width={}\nheight={}\nlayers={layers}\n", grid.width, grid.height).bytes());
    if let Some(dirs) = &job.dirs {
        write_list(&mut text, "dirs", &letters(dirs), ",");
    }
    text.extend(format!("alpha={alpha}\nbeta={beta}\ngamma={gamma}\n").bytes());
    for tracks in &job.capacity {
        let list: Vec<String> = tracks.iter().map(u64::to_string).collect();
        let (east, north) = list.split_at(grid.east_edges());
        write_list(&mut text, "east", east, ",");
        write_list(&mut text, "north", north, ",");
    }
    text.extend(format!("nets={}\n", job.nets.len()).bytes());
    for (place, net) in job.nets.iter().enumerate() {
        write_net(&mut text, *grid, place + 1, net);
    }
    text
}

/// The ways to damage a text.
#[derive(Clone, Copy, PartialEq, Eq, Debug)]
pub enum Damage {
    None,
    /// The end cut off.
    Cut,
    /// One bit of one byte, or one whole byte, changed.
    Flip,
    /// One byte put in.
    Insert,
    /// One byte taken out.
    Delete,
    /// One line twice.
    Double,
    /// One line left out.
    Drop,
    /// Two neighbouring lines changed over.
    Swap,
    /// A zero before the first number of a line.
    Zero,
    /// A number beyond its limit, mostly by one.
    Limit,
    /// A number of six digits.
    Digits,
    /// A net number out of turn.
    Turn,
    /// The number of nets one too high or too low.
    Count,
    /// A pin twice.
    PinTwice,
    /// An edge twice.
    EdgeTwice,
    /// An edge that closes a ring of a net, or a ring apart from it.
    Ring,
    /// A pin or an edge off the net.
    Off,
    /// The `dirs` line of another form, twice, left out, or in another place.
    Dirs,
    /// A `low` line of another form, out of range, twice, left out, or in another place.
    Low,
    /// A track on a layer that runs the other way.
    Closed,
    /// All layers run one way, and some edge the other.
    NoLayer,
    /// More bytes than are read, or lines up to just as many.
    Long,
    /// Only random bytes.
    Random,
}

pub const DAMAGES: [(&str, Damage); 23] = [
    ("none", Damage::None),
    ("cut", Damage::Cut),
    ("flip", Damage::Flip),
    ("insert", Damage::Insert),
    ("delete", Damage::Delete),
    ("double", Damage::Double),
    ("drop", Damage::Drop),
    ("swap", Damage::Swap),
    ("zero", Damage::Zero),
    ("limit", Damage::Limit),
    ("digits", Damage::Digits),
    ("turn", Damage::Turn),
    ("count", Damage::Count),
    ("pin-twice", Damage::PinTwice),
    ("edge-twice", Damage::EdgeTwice),
    ("ring", Damage::Ring),
    ("off", Damage::Off),
    ("dirs", Damage::Dirs),
    ("low", Damage::Low),
    ("closed", Damage::Closed),
    ("no-layer", Damage::NoLayer),
    ("long", Damage::Long),
    ("random", Damage::Random),
];

/// What is known of a text before it is read.
#[derive(Clone, Copy, PartialEq, Eq, Debug)]
pub enum Known {
    /// With long enough buffers it is accepted: it is the text of the job, or of the job with another `low` line, or one
    /// more or less.
    Accepted,
    /// The same with one entry more on an `edges` line.
    Longer,
    /// With long enough buffers it gets this refusal.
    Refused(u32, u32),
    /// Nothing.
    Open,
}

/// A damaged text of the job, and what is known of it. Where the job has no place for the damage, the text is whole.
fn damaged(rng: &mut Rng, job: &Job, damage: Damage) -> (Vec<u8>, Known) {
    let mut text = write(job);
    let mut lines: Vec<Vec<u8>> = text.split_inclusive(|byte| *byte == 10).map(<[u8]>::to_vec).collect();
    let line = rng.below(lines.len()); // from 0
    let at = rng.below(text.len());
    let last = job.last_line();
    let grid = job.grid;
    let dirs_line = line == 3 && job.dirs.is_some();
    let low_line = lines[line].starts_with(b"low=");

    match damage {
        Damage::None => return (text, Known::Accepted),
        Damage::Cut => {
            text.truncate(at);
            let whole = text.iter().filter(|byte| **byte == 10).count();
            return (text, Known::Refused(2, whole as u32 + 1));
        }
        Damage::Flip => {
            text[at] = match rng.below(3) {
                0 => text[at] ^ (1 << rng.below(8)),
                1 => rng.pick(b"0123456789,;=enhvlow\n"),
                _ => rng.word() as u8,
            };
            return (text, Known::Open);
        }
        Damage::Insert => {
            let byte = if rng.chance(1, 2) { rng.pick(b"0123456789,;=enhvlow\n") } else { rng.word() as u8 };
            text.insert(at, byte);
            return (text, Known::Open);
        }
        Damage::Delete => {
            text.remove(at);
            return (text, Known::Open);
        }
        Damage::Long => {
            let (length, known) = rng.pick(&[
                (TEXT_LIMIT, Known::Refused(2, last + 1)),
                (TEXT_LIMIT + 1, Known::Refused(1, 0)),
                (TEXT_LIMIT + 5000, Known::Refused(1, 0)),
            ]);
            if length > text.len() {
                text.resize(length, 10);
                return (text, known);
            }
        }
        Damage::Random => {
            let some = rng.chance(1, 2);
            let draw = |_| if some { rng.pick(b"0123456789,;=enwidthlayrspgv\n") } else { rng.word() as u8 };
            return ((0..at % 3000).map(draw).collect(), Known::Open);
        }
        Damage::Double => {
            // no line has the key of the one before it
            lines.insert(line, lines[line].clone());
            return (lines.concat(), Known::Refused(2, line as u32 + 2));
        }
        Damage::Drop => {
            lines.remove(line);
            let known = match (dirs_line, low_line) {
                (true, _) => Known::Open,
                (_, true) => Known::Accepted,
                _ => Known::Refused(2, line as u32 + 1),
            };
            return (lines.concat(), known);
        }
        Damage::Swap => {
            if line + 1 < lines.len() {
                lines.swap(line, line + 1);
                // `alpha` may stand where `dirs` stood, but not `dirs` behind it; so with `pins` and `low`
                let wrong = line as u32 + 1 + u32::from(dirs_line || low_line);
                return (lines.concat(), Known::Refused(2, wrong));
            }
        }
        Damage::Zero => {
            // in an empty list it is an entry too many or of the wrong form, on the `dirs` line no letter
            let value = lines[line].iter().position(|byte| *byte == b'=').unwrap() + 1;
            lines[line].insert(value, b'0');
            return (lines.concat(), Known::Refused(2, line as u32 + 1));
        }
        Damage::Count => {
            let nets = if rng.chance(1, 2) { job.nets.len() + 1 } else { job.nets.len().saturating_sub(1) };
            let nets_line = job.nets_line();
            if nets != job.nets.len() {
                lines[nets_line as usize - 1] = format!("nets={nets}\n").into_bytes();
                let after = if nets < job.nets.len() { job.net_line(nets) } else { last + 1 };
                let known = if nets > 4096 { Known::Refused(3, nets_line) } else { Known::Refused(2, after) };
                return (lines.concat(), known);
            }
        }
        Damage::Limit => {
            let beyond = beyond_limit(rng, job);
            if let Some((line, value)) = beyond {
                lines[line as usize - 1] = value.into_bytes();
                return (lines.concat(), Known::Refused(3, line));
            }
        }
        Damage::Digits => {
            let numbers = numbers(&lines[line]);
            if !numbers.is_empty() {
                let (from, to) = rng.pick(&numbers);
                lines[line].splice(from..to, rng.pick(&["100000", "165535", "999999"]).bytes());
                return (lines.concat(), Known::Refused(2, line as u32 + 1));
            }
        }
        Damage::Dirs => return damaged_dirs(rng, job, lines),
        Damage::Low => return damaged_low(rng, job, lines),
        Damage::Closed => {
            let closed = closed(job);
            if !closed.is_empty() {
                let (layer, edge) = rng.pick(&closed);
                let mut job = job.clone();
                job.capacity[layer - 1][edge] = rng.pick(&[1, 2, 9, 255, 256, MOST_CAPACITY]);
                return (write(&job), Known::Refused(12, job.capacity_line(layer, grid.direction(edge))));
            }
        }
        Damage::NoLayer => {
            let edges: Vec<usize> = job.nets.iter().flat_map(|net| net.edges.iter().copied()).collect();
            if job.dirs.is_some() && !edges.is_empty() {
                let direction = grid.direction(rng.pick(&edges));
                let mut job = job.clone();
                job.dirs = Some(vec![other(direction); job.layers]);
                close(&mut job);
                let first = job.nets.iter().position(|net| net.edges.iter().any(|e| grid.direction(*e) == direction));
                return (write(&job), Known::Refused(13, job.edges_line(first.unwrap())));
            }
        }
        _ => {
            // the damages of one net
            if job.nets.is_empty() {
                return (text, Known::Accepted);
            }
            let place = rng.below(job.nets.len());
            let mut net = job.nets[place].clone();
            let tiles = net.tiles(grid);
            let outside: Vec<usize> = (0..grid.tiles()).filter(|tile| !tiles.contains(tile)).collect();
            let edges_with = |inside: usize| -> Vec<usize> {
                let ends_inside = |edge: &usize| grid.ends(*edge).iter().filter(|tile| tiles.contains(tile)).count();
                (0..grid.edges()).filter(|edge| ends_inside(edge) == inside && !net.edges.contains(edge)).collect()
            };
            let mut number = place + 1;
            let first_line = job.net_line(place);
            let (pins_line, edges_line) = (job.pins_line(place), job.edges_line(place));
            let known = match damage {
                Damage::Turn => {
                    number = rng.pick(&[place, place + 2, 0, 99999]);
                    Known::Refused(4, first_line)
                }
                Damage::PinTwice => {
                    let pin = rng.pick(&net.pins);
                    let at = rng.below(net.pins.len() + 1);
                    net.pins.insert(at, pin);
                    Known::Refused(5, pins_line)
                }
                Damage::EdgeTwice if !net.edges.is_empty() => {
                    let edge = rng.pick(&net.edges);
                    let at = rng.below(net.edges.len() + 1);
                    net.edges.insert(at, edge);
                    Known::Refused(6, edges_line)
                }
                Damage::Ring if !edges_with(2).is_empty() && rng.chance(1, 2) => {
                    let edge = rng.pick(&edges_with(2));
                    let at = rng.below(net.edges.len() + 1);
                    net.edges.insert(at, edge);
                    Known::Longer
                }
                Damage::Ring if !edges_with(0).is_empty() => {
                    let edge = rng.pick(&edges_with(0));
                    let apart = square_at(rng, grid, edge);
                    let apart = apart.into_iter().filter(|edge| edges_with(0).contains(edge));
                    for edge in apart.collect::<Vec<_>>() {
                        net.edges.insert(rng.below(net.edges.len() + 1), edge);
                    }
                    Known::Refused(8, edges_line)
                }
                Damage::Off if !edges_with(0).is_empty() && rng.chance(1, 2) => {
                    let edge = rng.pick(&edges_with(0));
                    let at = rng.below(net.edges.len() + 1);
                    net.edges.insert(at, edge);
                    Known::Refused(8, edges_line)
                }
                Damage::Off if !outside.is_empty() => {
                    let pin = Pin { tile: rng.pick(&outside), layer: 1 };
                    let at = rng.below(net.pins.len() + 1);
                    net.pins.insert(at, pin);
                    Known::Refused(8, edges_line)
                }
                _ => return (text, Known::Accepted),
            };
            let mut changed = Vec::new();
            write_net(&mut changed, grid, number, &net);
            let at = first_line as usize - 1;
            lines.splice(at..at + net.lines(), [changed]);
            return (lines.concat(), known);
        }
    }
    (text, Known::Accepted)
}

/// The four edges round a square of tiles with this edge, or the edge alone where the grid has one row or one column.
fn square_at(rng: &mut Rng, grid: Grid, edge: usize) -> Vec<usize> {
    let (tile, east) = grid.named(edge);
    let sides = if east { [NORTH, SOUTH] } else { [EAST, WEST] };
    let sides: Vec<usize> = sides.into_iter().filter(|way| grid.way(tile, *way).is_some()).collect();
    if sides.is_empty() {
        return vec![edge];
    }
    let far = grid.ends(edge)[1];
    let side = rng.pick(&sides);
    let ((there, first), (_, second)) = (grid.way(tile, side).unwrap(), grid.way(far, side).unwrap());
    let (_, opposite) = grid.way(there, if east { EAST } else { NORTH }).unwrap();
    vec![edge, first, second, opposite]
}

/// The lines of the job with another `dirs` line, or with one in the wrong place; and what is known of the text.
fn damaged_dirs(rng: &mut Rng, job: &Job, mut lines: Vec<Vec<u8>>) -> (Vec<u8>, Known) {
    let Some(dirs) = &job.dirs else {
        let line = rng.below(lines.len() + 1);
        let letters = letters(&directions(rng, job.layers, false)).join(",");
        lines.insert(line, format!("dirs={letters}\n").into_bytes());
        // right after `layers` it is a line of the job
        let known = if line == 3 { Known::Open } else { Known::Refused(2, line as u32 + 1) };
        return (lines.concat(), known);
    };
    let mut list = letters(dirs);
    let text = list.join(",");
    let place = rng.below(list.len());
    let mut with = |entry: &str| {
        list[place] = entry.to_string();
        format!("dirs={}\n", list.join(","))
    };
    let changed = match rng.below(16) {
        0 => String::new(),
        1 => format!("dirs={text}\ndirs={text}\n"),
        2 => format!("dirs={text},{}\n", rng.pick(&["h", "v"])),
        3 => format!("dirs={}\n", &text[2..]),
        4 => with(rng.pick(&["e", "n", "d", "0", "1", "hh", "hv", "", " h", "v "])),
        5 => with(rng.pick(&["H", "V"])),
        6 => format!("dirs={}\n", text.to_uppercase()),
        7 => format!("dirs={}\n", text.replace(',', ";")),
        8 => format!("dirs={}\n", text.replace(',', "")),
        9 => format!("dirs{text}\n"),
        10 => format!("dirs {text}\n"),
        11 => format!("{}={text}\n", rng.pick(&["Dirs", "DIRS", "dir", "dirss", " dirs"])),
        12 => "dirs=\n".to_string(),
        13 => format!("dirs={text},\n"),
        14 => format!("dirs=,{text}\n"),
        _ => format!("dirs={text}\r\n"),
    };
    let known = match changed.lines().count() {
        0 => Known::Open,
        1 => Known::Refused(2, 4),
        _ => Known::Refused(2, 5),
    };
    lines[3] = changed.into_bytes();
    (lines.concat(), known)
}

/// The places of the nets with a `low` line.
fn with_low_line(job: &Job) -> Vec<usize> {
    (0..job.nets.len()).filter(|place| job.nets[*place].low.is_some()).collect()
}

/// Lines of the wrong form in the place of a `low` line; V stands for its value. Among them numbers with leading zeros, and
/// with more digits than a number has: 1 above what 16, 32 and 64 bits hold, and others.
#[rustfmt::skip]
const WRONG_LOWS: [&str; 40] = [
    "low=", "low=x", "low=h", "low=one", "low=-1", "low=+1", "low=1.0", "low=0x1", "low==V", "low=00", "low=01", "low=0V",
    "low=0000V", "low=00000000001", "low=065537", "low=100000", "low=4294967297", "low=18446744073709551617", "low=V,V",
    "low=V;", "low=V,", "low=,V", "low= V", "low=V ", "low=V\r", "low=V\0", "lowV", "low V", "low:V", "low", "", "Low=V",
    "LOW=V", "lo=V", "lows=V", "llow=V", " low=V", "low =V", "pins=V", "net=V",
];

/// Another line in the place of a `low` line with this value, and the refusal on it, 0 where there is none.
fn other_low(rng: &mut Rng, layers: usize, value: u8) -> (String, u32) {
    match rng.below(12) {
        0 => (String::new(), 0),
        1 => (format!("low={}\n", rng.range(1, layers)), 0),
        2 | 3 => ("low=0\n".to_string(), 3),
        4..=6 => (format!("low={}\n", layers + 1), 3),
        7 => (format!("low={}\n", rng.pick(&[9, 10, 255, 256, 257, 65_535, 65_536, 65_537, 99_999])), 3),
        _ => (rng.pick(&WRONG_LOWS).replace('V', &value.to_string()) + "\n", 2),
    }
}

/// The lines of the job with one `low` line of another form, out of range, left out, twice or in another place; or with one
/// more somewhere. And what is known of the text.
fn damaged_low(rng: &mut Rng, job: &Job, mut lines: Vec<Vec<u8>>) -> (Vec<u8>, Known) {
    let with = with_low_line(job);
    if with.is_empty() {
        return one_more_low(rng, job, lines);
    }
    let place = rng.pick(&with);
    let low_line = job.net_line(place) + 1;
    match rng.below(10) {
        0 => one_more_low(rng, job, lines),
        1 => moved_low(rng, low_line, lines),
        2 => cut_low(rng, low_line, lines),
        _ => {
            let (other, number) = other_low(rng, job.layers, job.nets[place].lowest());
            lines[low_line as usize - 1] = other.into_bytes();
            let known = if number == 0 { Known::Accepted } else { Known::Refused(number, low_line) };
            (lines.concat(), known)
        }
    }
}

/// The `low` line of this number moved: before `net`, behind `pins`, behind `edges`; or twice.
fn moved_low(rng: &mut Rng, low_line: u32, mut lines: Vec<Vec<u8>>) -> (Vec<u8>, Known) {
    let at = low_line as usize - 1;
    let line = lines.remove(at);
    let (to, wrong) =
        rng.pick(&[(at - 1, low_line - 1), (at + 1, low_line + 1), (at + 2, low_line + 2), (at, low_line + 1)]);
    lines.insert(to, line.clone());
    if to == at {
        lines.insert(at, line);
    }
    (lines.concat(), Known::Refused(2, wrong))
}

/// The `low` line of this number without its byte 10: the text ends there, or goes on at once.
fn cut_low(rng: &mut Rng, low_line: u32, mut lines: Vec<Vec<u8>>) -> (Vec<u8>, Known) {
    let at = low_line as usize - 1;
    lines[at].pop();
    if rng.chance(2, 3) {
        lines.truncate(at + 1);
        let bytes = rng.below(lines[at].len() + 1);
        if rng.chance(1, 2) {
            lines[at].truncate(bytes);
        }
    }
    (lines.concat(), Known::Refused(2, low_line))
}

/// The lines of the job with one `low` line more, somewhere.
fn one_more_low(rng: &mut Rng, job: &Job, mut lines: Vec<Vec<u8>>) -> (Vec<u8>, Known) {
    let any = rng.below(lines.len() + 1);
    let behind_net = if job.nets.is_empty() { any } else { job.net_line(rng.below(job.nets.len())) as usize };
    let line = if rng.chance(1, 2) { any } else { behind_net };
    let right = line > 0 && lines[line - 1].starts_with(b"net=");
    let twice = right && lines[line].starts_with(b"low=");
    lines.insert(line, format!("low={}\n", rng.range(1, job.layers)).into_bytes());
    let known = match (right, twice) {
        (true, false) => Known::Accepted,
        (true, true) => Known::Refused(2, line as u32 + 2),
        _ => Known::Refused(2, line as u32 + 1),
    };
    (lines.concat(), known)
}

/// Where the numbers of a line begin and end.
fn numbers(line: &[u8]) -> Vec<(usize, usize)> {
    let digit = |place: usize| line.get(place).is_some_and(u8::is_ascii_digit);
    let starts = (0..line.len()).filter(|place| digit(*place) && (*place == 0 || !digit(place - 1)));
    starts.map(|start| (start, (start..).find(|place| !digit(*place)).unwrap())).collect()
}

/// A line of the job with one number beyond its limit: the line's number and the line.
fn beyond_limit(rng: &mut Rng, job: &Job) -> Option<(u32, String)> {
    let Grid { width, height } = job.grid;
    let layers = job.layers;
    match rng.below(11) {
        0 => Some((1, format!("width={}\n", rng.pick(&[0, 65, 99999])))),
        1 => Some((2, format!("height={}\n", rng.pick(&[0, 65])))),
        2 => Some((3, format!("layers={}\n", rng.pick(&[0, 1, 9])))),
        3 => {
            let place = rng.below(3);
            Some((job.alpha_line() + place as u32, format!("{}=256\n", ["alpha", "beta", "gamma"][place])))
        }
        4 => Some((job.nets_line(), "nets=4097\n".to_string())),
        5 | 6 => {
            let layer = rng.range(1, layers);
            let (east, north) = job.capacity[layer - 1].split_at(job.grid.east_edges());
            let (key, list, direction) =
                rng.pick(&[("east", east, Direction::East), ("north", north, Direction::North)]);
            if list.is_empty() {
                return None;
            }
            let mut list: Vec<String> = list.iter().map(u64::to_string).collect();
            let place = rng.below(list.len());
            list[place] = rng.pick(&[MOST_CAPACITY + 1, 99_999]).to_string();
            Some((job.capacity_line(layer, direction), format!("{key}={}\n", list.join(","))))
        }
        7 => {
            let with = with_low_line(job);
            if with.is_empty() {
                return None;
            }
            Some((job.net_line(rng.pick(&with)) + 1, format!("low={}\n", rng.pick(&[0, layers + 1]))))
        }
        _ if job.nets.is_empty() => None,
        choice => {
            let place = rng.below(job.nets.len());
            let mut lines = Vec::new();
            write_net(&mut lines, job.grid, place + 1, &job.nets[place]);
            let lines = String::from_utf8(lines).unwrap();
            let (key, line) = match choice {
                8 => ("pins=", job.pins_line(place)),
                _ => ("edges=", job.edges_line(place)),
            };
            let value = lines.lines().find(|line| line.starts_with(key)).unwrap();
            let mut entries: Vec<&str> = value.split(['=', ';']).collect();
            let (x, y) = (rng.below(width), rng.below(height));
            let entry = match (choice, rng.below(4)) {
                (8, 0) => format!("{width},{y},1"),
                (8, 1) => format!("{x},{height},1"),
                (8, 2) => format!("{x},{y},0"),
                (8, _) => format!("{x},{y},{}", layers + 1),
                (_, 0) => format!("{},{y},e", width - 1),
                (_, 1) => format!("{x},{},n", height - 1),
                (_, 2) => format!("{width},{y},n"),
                (_, _) => format!("{x},{height},e"),
            };
            entries.retain(|entry| !entry.is_empty());
            entries.insert(rng.range(1, entries.len()), &entry);
            let value = entries[1..].join(";");
            Some((line, format!("{}={value}\n", entries[0])))
        }
    }
}

/// Lent lengths around what is needed: exactly that, one less, or more. Often all are long enough.
fn lengths(rng: &mut Rng, need: Lengths) -> Lengths {
    let enough = rng.chance(1, 2);
    let mut near = |need: usize| match rng.below(6) {
        0 if !enough => need.saturating_sub(1),
        1 if !enough => rng.below(need + 1),
        2 => need + 1,
        3 => need + rng.below(100),
        _ => need,
    };
    Lengths {
        work: near(need.work),
        order: near(need.order),
        answer: near(need.answer),
        print: Some(near(need.print.unwrap())),
    }
}

/// A drawn job: the job, its text (damaged or not), what is known of the text, and lent lengths.
pub struct Drawn {
    pub kind: Kind,
    pub damage: Damage,
    pub job: Job,
    pub text: Vec<u8>,
    pub known: Known,
    pub lent: Lengths,
}

/// Draws from a seed. Without a kind, tiny jobs are the most frequent, full texts and sums at their bounds the rarest;
/// without a damage, half of the texts are whole.
pub fn draw(seed: u64, kind: Option<Kind>, damage: Option<Damage>) -> Drawn {
    let mut rng = Rng::new(seed);
    let any = match rng.below(500) {
        0 => Kind::Full,
        1 => Kind::Bounds,
        2..=5 => Kind::Short,
        6..=10 => Kind::Giant,
        11..=39 => Kind::Thin,
        40..=89 => Kind::Branchy,
        90..=119 => Kind::Congested,
        120..=149 => Kind::Plenty,
        _ => Kind::Tiny,
    };
    let kind = kind.unwrap_or(any);
    let job = job(&mut rng, kind);
    let any = if rng.chance(1, 2) { Damage::None } else { DAMAGES[rng.range(1, DAMAGES.len() - 1)].1 };
    let damage = damage.unwrap_or(any);
    let (text, known) = damaged(&mut rng, &job, damage);
    let lent = lengths(&mut rng, job.need());
    Drawn { kind, damage, job, text, known, lent }
}

impl Drawn {
    /// The refusal that the text must get with these lent lengths, or none where it must be accepted; nothing is said
    /// where nothing is known. 9 is found after line 3, or after line 4 where that begins `dirs=`, 10 after the `nets`
    /// line, 11 after the whole text.
    pub fn outcome(&self, lent: Lengths) -> Option<Option<Refusal>> {
        let (number, line) = match self.known {
            Known::Open => return None,
            Known::Accepted | Known::Longer => (0, u32::MAX),
            Known::Refused(number, line) => (number, line),
        };
        if self.text.len() > TEXT_LIMIT {
            return Some(Some(Refusal { number: 1, line: 0 }));
        }
        let need = self.job.need();
        let fourth = self.text.split(|byte| *byte == 10).nth(3);
        let work_line = if fourth.is_some_and(|line| line.starts_with(b"dirs=")) { 4 } else { 3 };
        let nets_line = self.job.nets_line();
        let nets = self.text.split(|byte| *byte == 10).nth(nets_line as usize - 1);
        let nets = nets.and_then(|line| std::str::from_utf8(line).ok()?.strip_prefix("nets=")?.parse().ok());
        let refused = |number: u32, line: u32| Some(Some(Refusal { number, line }));
        if line > work_line && lent.work < need.work {
            return refused(9, work_line);
        }
        if line > nets_line && lent.order < nets.unwrap_or(0) {
            return refused(10, nets_line);
        }
        if number > 0 {
            return refused(number, line);
        }
        let more = usize::from(self.known == Known::Longer);
        let print_short = lent.print.is_some_and(|length| length < need.print.unwrap() + 2 * more);
        if lent.answer < need.answer + more || print_short {
            let last_line = self.text.iter().filter(|byte| **byte == 10).count();
            return refused(11, last_line as u32);
        }
        Some(None)
    }
}
