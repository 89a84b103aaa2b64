//! A job: the grid of tiles, the track counts of every layer, the nets. And the reading of a job text.

use std::collections::{BTreeMap, BTreeSet};
use std::ops::RangeInclusive;

/// The longest text that is read, in bytes.
pub const TEXT_LIMIT: usize = 1_048_576;

/// The highest track count of an edge on one layer.
pub const MOST_CAPACITY: u64 = 65_535;

/// The highest number in the table of refusals, and the one that S-6 ended.
pub const LAST_REFUSAL: usize = 13;
pub const NO_LONGER: usize = 7;

/// A refusal: its number in the table of documents 01 and 02, and the line.
#[derive(Clone, Copy, PartialEq, Eq, Debug)]
pub struct Refusal {
    pub number: u32,
    pub line: u32,
}

/// The lengths of the lent buffers. `print` is `None` for the call Plan, which borrows no print buffer.
#[derive(Clone, Copy, PartialEq, Eq, Debug)]
pub struct Lengths {
    pub work: usize,
    pub order: usize,
    pub answer: usize,
    pub print: Option<usize>,
}

/// The ways out of a tile, numbered in the order of the walk.
pub const EAST: usize = 0;
pub const NORTH: usize = 1;
pub const WEST: usize = 2;
pub const SOUTH: usize = 3;

/// The direction of an edge, and of a layer in a job with a `dirs` line, where it is written `h` or `v`.
#[derive(Clone, Copy, PartialEq, Eq, Debug)]
pub enum Direction {
    East,
    North,
}

/// The grid: tile (x, y) has the number y × width + x.
/// Edges are numbered in the order of the capacity lines: first all east ones, then all north ones.
#[derive(Clone, Copy, PartialEq, Eq, Debug)]
pub struct Grid {
    pub width: usize,
    pub height: usize,
}

impl Grid {
    pub fn tiles(self) -> usize {
        self.width * self.height
    }

    pub fn east_edges(self) -> usize {
        (self.width - 1) * self.height
    }

    pub fn north_edges(self) -> usize {
        self.width * (self.height - 1)
    }

    pub fn edges(self) -> usize {
        self.east_edges() + self.north_edges()
    }

    /// From a tile one way out: the tile there and the edge crossed; nothing where the grid ends.
    pub fn way(self, tile: usize, way: usize) -> Option<(usize, usize)> {
        let (x, y) = (tile % self.width, tile / self.width);
        let east_of = |x: usize, y: usize| y * (self.width - 1) + x;
        let north_of = |x: usize, y: usize| self.east_edges() + y * self.width + x;
        match way {
            EAST if x + 1 < self.width => Some((tile + 1, east_of(x, y))),
            NORTH if y + 1 < self.height => Some((tile + self.width, north_of(x, y))),
            WEST if x > 0 => Some((tile - 1, east_of(x - 1, y))),
            SOUTH if y > 0 => Some((tile - self.width, north_of(x, y - 1))),
            _ => None,
        }
    }

    /// The tile that an edge is named after, and whether it goes east (else north) from there.
    pub fn named(self, edge: usize) -> (usize, bool) {
        if edge < self.east_edges() {
            let (x, y) = (edge % (self.width - 1), edge / (self.width - 1));
            (y * self.width + x, true)
        } else {
            (edge - self.east_edges(), false)
        }
    }

    pub fn direction(self, edge: usize) -> Direction {
        if edge < self.east_edges() {
            Direction::East
        } else {
            Direction::North
        }
    }

    /// The two tiles that an edge joins.
    pub fn ends(self, edge: usize) -> [usize; 2] {
        let (tile, east) = self.named(edge);
        [tile, if east { tile + 1 } else { tile + self.width }]
    }
}

/// A pin: its tile and its layer, 1 (the bottom) to K.
#[derive(Clone, Copy, PartialEq, Eq, PartialOrd, Ord, Debug)]
pub struct Pin {
    pub tile: usize,
    pub layer: u8,
}

/// A net: the layer of its `low` line, where it has one; its pins and its edges, both in the order of their lines. As read,
/// the edges are all entries of the line; in a cut job (`cut`), those that are kept.
#[derive(Clone, PartialEq, Eq, Debug, Default)]
pub struct Net {
    pub low: Option<u8>,
    pub pins: Vec<Pin>,
    pub edges: Vec<usize>,
}

impl Net {
    /// The net's lowest wanted layer: 1 without a `low` line.
    pub fn lowest(&self) -> u8 {
        self.low.unwrap_or(1)
    }

    /// How many lines the net has.
    pub fn lines(&self) -> usize {
        3 + usize::from(self.low.is_some())
    }

    /// The net's tiles: those that its edges join; without edges, the tile of its pins.
    pub fn tiles(&self, grid: Grid) -> BTreeSet<usize> {
        let ends = self.edges.iter().flat_map(|edge| grid.ends(*edge));
        ends.chain(self.pins.iter().map(|pin| pin.tile)).collect()
    }
}

/// A job. `dirs[l - 1]` is the direction of layer l, in a job with that line. `capacity[l - 1][e]` is the track count of
/// edge e on layer l. Net 1 is `nets[0]`.
#[derive(Clone, PartialEq, Eq, Debug)]
pub struct Job {
    pub grid: Grid,
    pub layers: usize,
    pub dirs: Option<Vec<Direction>>,
    pub alpha: u64,
    pub beta: u64,
    pub gamma: u64,
    pub capacity: Vec<Vec<u64>>,
    pub nets: Vec<Net>,
}

impl Job {
    /// A: the entries on all `edges` lines.
    pub fn entries(&self) -> usize {
        self.nets.iter().map(|net| net.edges.len()).sum()
    }

    /// Whether some layer runs this way: without a `dirs` line, all run both ways.
    pub fn has_layer(&self, direction: Direction) -> bool {
        self.dirs.as_ref().is_none_or(|dirs| dirs.contains(&direction))
    }

    /// Whether an edge may use a layer.
    pub fn may_use(&self, edge: usize, layer: u8) -> bool {
        self.dirs.as_ref().is_none_or(|dirs| dirs[usize::from(layer) - 1] == self.grid.direction(edge))
    }

    /// The layers, in rising order, that an edge may use.
    pub fn layers_of(&self, edge: usize) -> Vec<u8> {
        (1..=self.layers as u8).filter(|layer| self.may_use(edge, *layer)).collect()
    }

    /// The number of the `alpha` line, of the two capacity lines of a layer, of the `nets` line, and of the last line.
    pub fn alpha_line(&self) -> u32 {
        4 + u32::from(self.dirs.is_some())
    }

    pub fn capacity_line(&self, layer: usize, direction: Direction) -> u32 {
        let east = self.alpha_line() + 3 + 2 * (layer as u32 - 1);
        east + u32::from(direction == Direction::North)
    }

    pub fn nets_line(&self) -> u32 {
        self.alpha_line() + 3 + 2 * self.layers as u32
    }

    pub fn last_line(&self) -> u32 {
        self.net_line(self.nets.len()) - 1
    }

    /// The number of the `net` line of the net at this place, from 0; behind the last net, of the line after the last.
    pub fn net_line(&self, place: usize) -> u32 {
        let before: usize = self.nets[..place].iter().map(Net::lines).sum();
        self.nets_line() + 1 + before as u32
    }

    /// The numbers of the `pins` and of the `edges` line of the net at this place.
    pub fn pins_line(&self, place: usize) -> u32 {
        self.edges_line(place) - 1
    }

    pub fn edges_line(&self, place: usize) -> u32 {
        self.net_line(place + 1) - 1
    }

    /// Whether some net has a `low` line.
    pub fn has_low_line(&self) -> bool {
        self.nets.iter().any(|net| net.low.is_some())
    }

    /// The lengths that Print needs.
    pub fn need(&self) -> Lengths {
        Lengths {
            work: work_need(self.grid, self.layers),
            order: self.nets.len(),
            answer: self.entries(),
            print: Some(print_need(self.nets.len(), self.entries())),
        }
    }
}

/// 2 × K × E + 2 × E + 32 × T.
fn work_need(grid: Grid, layers: usize) -> usize {
    2 * layers * grid.edges() + 2 * grid.edges() + 32 * grid.tiles()
}

/// 256 + 64 × N + 2 × A.
fn print_need(nets: usize, entries: usize) -> usize {
    256 + 64 * nets + 2 * entries
}

/// Reads a job text with these lent lengths: the job, or its refusal.
pub fn read(text: &[u8], lent: Lengths) -> Result<Job, Refusal> {
    if text.len() > TEXT_LIMIT {
        return Err(Refusal { number: 1, line: 0 });
    }
    let mut reader = Reader { rest: text, line: 0 };

    let width = reader.number("width", 1..=64)?;
    let height = reader.number("height", 1..=64)?;
    let grid = Grid { width, height };
    let layers = reader.number("layers", 2..=8)?;
    let dirs = reader.dirs(layers)?;
    if lent.work < work_need(grid, layers) {
        return Err(reader.refusal(9));
    }
    let alpha = reader.number("alpha", 0..=255)? as u64;
    let beta = reader.number("beta", 0..=255)? as u64;
    let gamma = reader.number("gamma", 0..=255)? as u64;
    let mut capacity = Vec::new();
    for layer in 0..layers {
        let closed = |direction: Direction| dirs.as_ref().is_some_and(|dirs| dirs[layer] != direction);
        let mut tracks = reader.capacities("east", grid.east_edges(), closed(Direction::East))?;
        tracks.extend(reader.capacities("north", grid.north_edges(), closed(Direction::North))?);
        capacity.push(tracks);
    }
    let count = reader.number("nets", 0..=4096)?;
    if lent.order < count {
        return Err(reader.refusal(10));
    }
    let mut nets = Vec::new();
    for turn in 1..=count {
        let value = reader.value("net")?;
        if reader.well_formed(number(value))? != turn {
            return Err(reader.refusal(4));
        }
        let low = reader.low(layers)?;
        let pins = reader.pins(grid, layers)?;
        let edges = reader.edges(grid, dirs.as_deref(), &pins)?;
        nets.push(Net { low, pins, edges });
    }
    if !reader.rest.is_empty() {
        reader.line += 1;
        return Err(reader.refusal(2));
    }
    let job = Job { grid, layers, dirs, alpha, beta, gamma, capacity, nets };
    let print_short = lent.print.is_some_and(|length| length < print_need(count, job.entries()));
    if lent.answer < job.entries() || print_short {
        return Err(reader.refusal(11));
    }
    Ok(job)
}

/// A number: one to five digits in base ten, with no leading zero except 0 itself.
fn number(bytes: &[u8]) -> Option<usize> {
    let digits = (1..=5).contains(&bytes.len()) && bytes.iter().all(u8::is_ascii_digit);
    let leading_zero = bytes.len() > 1 && bytes[0] == b'0';
    if !digits || leading_zero {
        return None;
    }
    Some(bytes.iter().fold(0, |value, digit| 10 * value + usize::from(digit - b'0')))
}

/// A letter of the `dirs` line.
fn letter(entry: &[u8]) -> Option<Direction> {
    match entry {
        b"h" => Some(Direction::East),
        b"v" => Some(Direction::North),
        _ => None,
    }
}

/// The entries of a list; an empty value is an empty list.
fn entries(value: &[u8], separator: u8) -> Vec<&[u8]> {
    if value.is_empty() {
        return Vec::new();
    }
    value.split(|byte| *byte == separator).collect()
}

/// The three fields of an entry of `pins` or `edges`.
fn fields(entry: &[u8]) -> Option<[&[u8]; 3]> {
    let fields: Vec<&[u8]> = entry.split(|byte| *byte == b',').collect();
    fields.try_into().ok()
}

fn pin_entry(entry: &[u8]) -> Option<[usize; 3]> {
    let [x, y, layer] = fields(entry)?;
    Some([number(x)?, number(y)?, number(layer)?])
}

/// x, y and the way: east or north.
fn edge_entry(entry: &[u8]) -> Option<[usize; 3]> {
    let [x, y, way] = fields(entry)?;
    let way = match way {
        b"e" => EAST,
        b"n" => NORTH,
        _ => return None,
    };
    Some([number(x)?, number(y)?, way])
}

/// The text that is still to be read, and the number of the line read last.
struct Reader<'a> {
    rest: &'a [u8],
    line: u32,
}

impl<'a> Reader<'a> {
    /// A refusal on the line read last.
    fn refusal(&self, number: u32) -> Refusal {
        Refusal { number, line: self.line }
    }

    /// Refusal 2 where the form was wrong.
    fn well_formed<T>(&self, read: Option<T>) -> Result<T, Refusal> {
        read.ok_or(self.refusal(2))
    }

    /// Moves on by one line; its value, if it is a line (ended by byte 10) and has this key.
    fn value(&mut self, key: &str) -> Result<&'a [u8], Refusal> {
        self.line += 1;
        let end = self.well_formed(self.rest.iter().position(|byte| *byte == 10))?;
        let line = &self.rest[..end];
        self.rest = &self.rest[end + 1..];
        let after_key = line.strip_prefix(key.as_bytes());
        self.well_formed(after_key.and_then(|value| value.strip_prefix(b"=")))
    }

    fn number(&mut self, key: &str, range: RangeInclusive<usize>) -> Result<usize, Refusal> {
        let value = self.value(key)?;
        let number = self.well_formed(number(value))?;
        if !range.contains(&number) {
            return Err(self.refusal(3));
        }
        Ok(number)
    }

    /// The `dirs` line, which is there where the text goes on with its key: K letters.
    fn dirs(&mut self, layers: usize) -> Result<Option<Vec<Direction>>, Refusal> {
        if !self.rest.starts_with(b"dirs=") {
            return Ok(None);
        }
        let value = self.value("dirs")?;
        let list: Option<Vec<Direction>> = entries(value, b',').into_iter().map(letter).collect();
        self.well_formed(list.filter(|list| list.len() == layers)).map(Some)
    }

    /// An `east` or `north` line: form and length of the whole line first, then the range, then 12. It is `closed` if
    /// its layer runs the other way.
    fn capacities(&mut self, key: &str, length: usize, closed: bool) -> Result<Vec<u64>, Refusal> {
        let value = self.value(key)?;
        let tracks = |entry: &[u8]| number(entry).map(|tracks| tracks as u64);
        let list: Option<Vec<u64>> = entries(value, b',').into_iter().map(tracks).collect();
        let list = self.well_formed(list.filter(|list| list.len() == length))?;
        if list.iter().any(|tracks| *tracks > MOST_CAPACITY) {
            return Err(self.refusal(3));
        }
        if closed && list.iter().any(|tracks| *tracks > 0) {
            return Err(self.refusal(12));
        }
        Ok(list)
    }

    /// The `low` line of a net, which is there where the text goes on with its key: a layer.
    fn low(&mut self, layers: usize) -> Result<Option<u8>, Refusal> {
        if !self.rest.starts_with(b"low=") {
            return Ok(None);
        }
        self.number("low", 1..=layers).map(|layer| Some(layer as u8))
    }

    /// A `pins` line: 2, then 3, then 5.
    fn pins(&mut self, grid: Grid, layers: usize) -> Result<Vec<Pin>, Refusal> {
        let value = self.value("pins")?;
        let list: Option<Vec<[usize; 3]>> = entries(value, b';').into_iter().map(pin_entry).collect();
        let list = self.well_formed(list.filter(|list| !list.is_empty()))?;
        let inside = |[x, y, layer]: [usize; 3]| x < grid.width && y < grid.height && (1..=layers).contains(&layer);
        if !list.iter().all(|entry| inside(*entry)) {
            return Err(self.refusal(3));
        }
        let pin = |[x, y, layer]: [usize; 3]| Pin { tile: y * grid.width + x, layer: layer as u8 };
        let pins: Vec<Pin> = list.into_iter().map(pin).collect();
        if pins.iter().collect::<BTreeSet<_>>().len() < pins.len() {
            return Err(self.refusal(5));
        }
        Ok(pins)
    }

    /// An `edges` line: 2, then 3, 6, 8 and 13, all of them over all entries: rings are cut later (`cut`), and never refused.
    fn edges(&mut self, grid: Grid, dirs: Option<&[Direction]>, pins: &[Pin]) -> Result<Vec<usize>, Refusal> {
        let value = self.value("edges")?;
        let list: Option<Vec<[usize; 3]>> = entries(value, b';').into_iter().map(edge_entry).collect();
        let mut edges = Vec::new();
        for [x, y, way] in self.well_formed(list)? {
            let crossed = if x < grid.width && y < grid.height { grid.way(y * grid.width + x, way) } else { None };
            let (_, edge) = crossed.ok_or(self.refusal(3))?;
            edges.push(edge);
        }
        if edges.iter().collect::<BTreeSet<_>>().len() < edges.len() {
            return Err(self.refusal(6));
        }
        let neighbours = neighbours(grid, &edges);
        let reached = reached(&neighbours, pins[0].tile);
        let pins_reached = pins.iter().all(|pin| reached.contains(&pin.tile));
        let edges_reached = neighbours.keys().all(|tile| reached.contains(tile));
        if !pins_reached || !edges_reached {
            return Err(self.refusal(8));
        }
        let no_layer = |edge: &usize| dirs.is_some_and(|dirs| !dirs.contains(&grid.direction(*edge)));
        if edges.iter().any(no_layer) {
            return Err(self.refusal(13));
        }
        Ok(edges)
    }
}

/// For each tile that some of the edges meets, the tiles at their other ends.
fn neighbours(grid: Grid, edges: &[usize]) -> BTreeMap<usize, Vec<usize>> {
    let mut neighbours: BTreeMap<usize, Vec<usize>> = BTreeMap::new();
    for edge in edges {
        let [a, b] = grid.ends(*edge);
        neighbours.entry(a).or_default().push(b);
        neighbours.entry(b).or_default().push(a);
    }
    neighbours
}

/// The tiles that are reached from this one along the edges, itself included.
fn reached(neighbours: &BTreeMap<usize, Vec<usize>>, from: usize) -> BTreeSet<usize> {
    let mut reached = BTreeSet::from([from]);
    let mut open = vec![from];
    while let Some(tile) = open.pop() {
        for next in neighbours.get(&tile).into_iter().flatten() {
            if reached.insert(*next) {
                open.push(*next);
            }
        }
    }
    reached
}
