//! A planner written for speed, with the ideas of the proved one, over the lent buffers alone and with nothing allocated:
//! one tight reader, marks and union-find with stamps instead of clearing, packed sort keys, least costs over intervals of
//! layers, and all layers of an edge or a row as eight lanes, so that the compiler can take them at once.
//!
//! An edge has the number 2 × tile, or 2 × tile + 1 for north, which leaves a few numbers unused and takes no division.
//! Places are not tested where the reading has shown that they are inside; a build with debug assertions tests them all.

use crate::{refused, Lent, Returned, MOST_CAPACITY};
use second::plan::Entry;

struct Refusal(u64, u64);

/// The tracks left on each of eight layers, of no more than there can be nets: those beyond are never used. Where there are
/// fewer layers, the others are never legal; neither is a layer that runs the other way.
type Tracks = [i16; 8];

/// The most nets of a job.
const MOST_NETS: usize = 4096;

/// The tracks of a layer that is never legal.
const CLOSED: i16 = i16::MIN;

/// A cost for each of eight layers.
type Row = [u32; 8];

/// The cost of an illegal layer, above that of any net.
const ILLEGAL: u32 = 1 << 29;

/// Marks: the stamp in the upper bits, then the ways east, north, west and south, then the pins on layers 1 to 8.
const STAMP: u32 = 12;
const EAST: u32 = 1 << 8;

/// The vias of each set of layers.
static SPAN: [u8; 256] = {
    let mut span = [0; 256];
    let mut mask = 1usize;
    while mask < 256 {
        span[mask] = (usize::BITS - 1 - mask.leading_zeros() - mask.trailing_zeros()) as u8;
        mask += 1;
    }
    span
};

/// The costs of a tile without branches, by its pins.
static LEAF: [Row; 256] = {
    let mut leaf = [[0; 8]; 256];
    let mut mask = 0;
    while mask < 256 {
        let mut layer = 0;
        while layer < 8 {
            leaf[mask][layer] = SPAN[mask | 1 << layer] as u32;
            layer += 1;
        }
        mask += 1;
    }
    leaf
};

#[inline(always)]
fn at<T: Copy>(list: &[T], place: usize) -> T {
    debug_assert!(place < list.len());
    // SAFETY: the reading has shown that the place is inside.
    unsafe { *list.get_unchecked(place) }
}

#[inline(always)]
fn of<T>(list: &mut [T], place: usize) -> &mut T {
    debug_assert!(place < list.len());
    // SAFETY: as above.
    unsafe { list.get_unchecked_mut(place) }
}

// ---- the working numbers

struct Work<'a> {
    /// By edge and layer: the tracks left, below 0 where the layer has overflow.
    tracks: &'a mut [Tracks],
    /// By edge: d(e), and while nets are placed the overflow left; c(e).
    flat: &'a mut [[u32; 2]],
    marks: &'a mut [u32],
    links: &'a mut [u32],
    /// The edges of the net at hand, in the order of its line.
    list: &'a mut [u32],
    /// By walk place: the tile, above bit 12 the way back, above bit 16 the edge above.
    stops: &'a mut [u32],
    /// By walk place: the end of its branches, above bit 16 its pins.
    ends: &'a mut [u32],
    rows: &'a mut [Row],
    /// By edge: the layer chosen, from 0.
    chosen: &'a mut [u8],
}

/// How many working numbers these are for each tile: fewer than the 32 that are always lent.
const WORDS: usize = 26;

fn split(work: &mut [u32], tiles: usize) -> Work<'_> {
    let mut rest = &mut work[..WORDS * tiles];
    let mut part = |words: usize| rest.split_off_mut(..words * tiles).unwrap();
    let (tracks, flat, rows, chosen) = (part(8), part(4), part(8), part(1));
    // SAFETY: the new elements have at most the alignment of the old ones, and their parts the same lengths in bytes.
    unsafe {
        Work {
            tracks: std::slice::from_raw_parts_mut(tracks.as_mut_ptr().cast(), 2 * tiles),
            flat: std::slice::from_raw_parts_mut(flat.as_mut_ptr().cast(), 2 * tiles),
            rows: std::slice::from_raw_parts_mut(rows.as_mut_ptr().cast(), tiles),
            chosen: std::slice::from_raw_parts_mut(chosen.as_mut_ptr().cast(), 4 * tiles),
            marks: part(1),
            links: part(1),
            list: part(1),
            stops: part(1),
            ends: part(1),
        }
    }
}

#[derive(Clone, Copy)]
struct Shape {
    width: usize,
    height: usize,
    layers: usize,
    /// The sets of layers that edges to the east, and those to the north, may not use. Without a `dirs` line both are empty.
    closed: [u8; 2],
    /// How many layers each of them may use.
    open: [u32; 2],
}

/// What is kept of a net: where its entries stand, the place of its first layer, in how many tiles its pins are, with its
/// lowest wanted layer above bit `LOW`, and later its vias.
#[derive(Clone, Copy, Default)]
struct Kept {
    pins: u32,
    edges: u32,
    first: u32,
    number: u32,
}

/// The lowest wanted layer of a net stands above its pins' tiles, 0 where it has no `low` line; above it, whether the net has
/// a ring.
const LOW: u32 = 16;
const RINGED: u32 = 1 << 20;

impl Kept {
    #[inline(always)]
    fn low(self) -> u32 {
        self.number >> LOW & 15
    }

    #[inline(always)]
    fn ringed(self) -> bool {
        self.number & RINGED != 0
    }
}

// ---- reading: the text ends with byte 10, so that no number runs over its end

struct Reader<'a> {
    text: &'a [u8],
    at: usize,
    line: u64,
}

/// The number at a place and the place after it.
#[inline(always)]
fn number(text: &[u8], from: usize) -> Option<(usize, usize)> {
    let mut value = usize::from(at(text, from).wrapping_sub(48));
    if value > 9 {
        return None;
    }
    let mut place = from + 1;
    loop {
        let digit = usize::from(at(text, place).wrapping_sub(48));
        if digit > 9 {
            return Some((value, place));
        }
        // no digit after a 0, and none after the fifth
        if value.wrapping_sub(1) >= 9999 {
            return None;
        }
        value = 10 * value + digit;
        place += 1;
    }
}

/// A number with a comma behind it.
#[inline(always)]
fn with_comma(text: &[u8], from: usize) -> Option<(usize, usize)> {
    let (value, place) = number(text, from)?;
    if at(text, place) != b',' {
        return None;
    }
    Some((value, place + 1))
}

/// A number of one or two digits that is known to be well-formed, and the place after the comma behind it.
#[inline(always)]
fn known(text: &[u8], from: usize) -> (usize, usize) {
    let first = usize::from(at(text, from)) - 48;
    let next = usize::from(at(text, from + 1));
    if next == usize::from(b',') {
        (first, from + 2)
    } else {
        (10 * first + next - 48, from + 3)
    }
}

impl Reader<'_> {
    fn refusal<T>(&self, number: u64) -> Result<T, Refusal> {
        Err(Refusal(number, self.line))
    }

    /// The next line begins with this key. An optional line other than `dirs` has another, and is not for this planner:
    /// `refused`.
    #[inline(always)]
    fn key(&mut self, key: &[u8]) -> Result<(), Refusal> {
        self.line += 1;
        // a line has one byte more than its key at least
        if self.text.len() - self.at <= key.len() || &self.text[self.at..self.at + key.len()] != key {
            return self.refusal(2);
        }
        self.at += key.len();
        Ok(())
    }

    #[inline(always)]
    fn number(&mut self, key: &[u8]) -> Result<usize, Refusal> {
        self.key(key)?;
        match number(self.text, self.at) {
            Some((value, place)) if at(self.text, place) == b'\n' => {
                self.at = place + 1;
                Ok(value)
            }
            _ => self.refusal(2),
        }
    }

    fn ranged(&mut self, key: &[u8], low: usize, high: usize) -> Result<usize, Refusal> {
        let value = self.number(key)?;
        if value < low || high < value {
            return self.refusal(3);
        }
        Ok(value)
    }

    /// The `dirs` line: the layers that are closed to the east, and to the north.
    fn dirs(&mut self, layers: usize) -> Result<[u8; 2], Refusal> {
        self.key(b"dirs=")?;
        let mut closed = [0; 2];
        for layer in 0..layers {
            match at(self.text, self.at) {
                b'h' => closed[1] |= 1 << layer,
                b'v' => closed[0] |= 1 << layer,
                _ => return self.refusal(2),
            }
            // a letter is not the byte that ends the text
            if at(self.text, self.at + 1) != if layer + 1 == layers { b'\n' } else { b',' } {
                return self.refusal(2);
            }
            self.at += 2;
        }
        Ok(closed)
    }

    /// The `low` line of a net, where the text goes on with its key: the layer, and 0 without the line. The line is there where its
    /// key is, also without an end.
    #[inline(always)]
    fn low(&mut self, whole: &[u8], layers: usize) -> Result<u32, Refusal> {
        if !whole[self.at..].starts_with(b"low=") {
            return Ok(0);
        }
        Ok(self.ranged(b"low=", 1, layers)? as u32)
    }

    /// The capacities of one layer, those to the east (0) or to the north (1).
    fn capacities(&mut self, key: &[u8], w: &mut Work, g: Shape, way: usize, layer: usize) -> Result<(), Refusal> {
        if g.closed[way] >> layer & 1 == 0 {
            return self.list(key, g, way, |edge, value| {
                of(w.tracks, edge)[layer] = value.min(MOST_NETS) as i16;
                of(w.flat, edge)[1] += value as u32;
            });
        }
        let mut none = true;
        self.list(key, g, way, |_, value| none &= value == 0)?;
        if !none {
            return self.refusal(12);
        }
        Ok(())
    }

    /// A list of capacities: `across` in each of `rows` rows, from each tile to the east or north.
    #[inline(always)]
    fn list(&mut self, key: &[u8], g: Shape, way: usize, mut each: impl FnMut(usize, usize)) -> Result<(), Refusal> {
        let (across, rows) = if way == 1 { (g.width, g.height - 1) } else { (g.width - 1, g.height) };
        self.key(key)?;
        let mut inside = true;
        let mut left = across * rows;
        if left == 0 {
            if at(self.text, self.at) != b'\n' {
                return self.refusal(2);
            }
            self.at += 1;
        }
        for y in 0..rows {
            for x in 0..across {
                let Some((value, place)) = number(self.text, self.at) else { return self.refusal(2) };
                left -= 1;
                if at(self.text, place) != if left == 0 { b'\n' } else { b',' } {
                    return self.refusal(2);
                }
                self.at = place + 1;
                inside &= value <= MOST_CAPACITY;
                each(2 * (y * g.width + x) + way, value);
            }
        }
        if !inside {
            return self.refusal(3);
        }
        Ok(())
    }

    /// The `pins` line: in how many tiles its pins are.
    #[inline(never)]
    fn pins(&mut self, w: &mut Work, g: Shape, base: u32) -> Result<u32, Refusal> {
        let (mut worst, mut tiles) = (u64::MAX, 0);
        loop {
            let Some((x, place)) = with_comma(self.text, self.at) else { return self.refusal(2) };
            let Some((y, place)) = with_comma(self.text, place) else { return self.refusal(2) };
            let Some((layer, place)) = number(self.text, place) else { return self.refusal(2) };
            let end = at(self.text, place);
            if end != b';' && end != b'\n' {
                return self.refusal(2);
            }
            self.at = place + 1;
            if x < g.width && y < g.height && layer.wrapping_sub(1) < g.layers {
                let mark = of(w.marks, y * g.width + x);
                let old = (*mark).max(base);
                let bit = 1 << (layer - 1);
                if old & bit != 0 {
                    worst = worst.min(5);
                }
                tiles += u32::from(old == base);
                *mark = old | bit;
            } else {
                worst = 3;
            }
            if end == b'\n' {
                break;
            }
        }
        if worst < u64::MAX {
            return self.refusal(worst);
        }
        Ok(tiles)
    }

    /// The `edges` line of a net whose pins lie in so many tiles: how many edges there are, with `RINGED` where some close a
    /// ring.
    #[inline(never)]
    fn edges(&mut self, w: &mut Work, g: Shape, base: u32, tiles: u32) -> Result<u32, Refusal> {
        let (mut worst, mut edges, mut tiles, mut joins) = (u64::MAX, 0, tiles, 0);
        if at(self.text, self.at) == b'\n' {
            self.at += 1;
        } else {
            loop {
                let Some((x, place)) = with_comma(self.text, self.at) else { return self.refusal(2) };
                let Some((y, place)) = with_comma(self.text, place) else { return self.refusal(2) };
                let way = at(self.text, place);
                if way != b'e' && way != b'n' {
                    return self.refusal(2);
                }
                let end = at(self.text, place + 1);
                if end != b';' && end != b'\n' {
                    return self.refusal(2);
                }
                self.at = place + 2;
                edges += 1;
                let north = usize::from(way == b'n');
                if x + 1 - north < g.width && y + north < g.height {
                    let here = y * g.width + x;
                    let there = if north == 1 { here + g.width } else { here + 1 };
                    let old = at(w.marks, here).max(base);
                    if old & (EAST << north) != 0 {
                        worst = worst.min(6);
                    } else {
                        tiles += u32::from(old == base);
                        *of(w.marks, here) = old | EAST << north;
                        let old = at(w.marks, there).max(base);
                        tiles += u32::from(old == base);
                        *of(w.marks, there) = old | EAST << (north + 2);
                        of(w.flat, 2 * here + north)[0] += 1;
                        let (a, b) = (root(w.links, base, here), root(w.links, base, there));
                        if a != b {
                            *of(w.links, a.min(b)) = base + a.max(b) as u32;
                            joins += 1;
                        }
                    }
                } else {
                    worst = 3;
                }
                if end == b'\n' {
                    break;
                }
            }
        }
        if worst < u64::MAX {
            return self.refusal(worst);
        }
        if tiles != joins + 1 {
            return self.refusal(8);
        }
        // an edge that joins no two parts closes a ring
        Ok(if edges > joins { edges | RINGED } else { edges })
    }
}

/// Whether each edge of the known ones from a place on goes a way that some layer runs.
#[cold]
fn have_layers(text: &[u8], from: usize, g: Shape) -> bool {
    let mut all = true;
    known_edges(text, from, g.width, |_, north| all &= g.open[north] > 0);
    all
}

/// The root of a tile. A tile's parent is not below it, so a link of an earlier stamp is below the tile itself.
#[inline(always)]
fn root(links: &mut [u32], base: u32, tile: usize) -> usize {
    let parent = |links: &[u32], tile: usize| (at(links, tile).max(base + tile as u32) - base) as usize;
    let mut tile = tile;
    loop {
        let above = parent(links, tile);
        if above == tile {
            return tile;
        }
        let next = parent(links, above);
        *of(links, tile) = base + next as u32;
        tile = next;
    }
}

// ---- layer directives

/// Over all edges and all layers above the first, the nets that want a layer and find no track there; nothing where no net has
/// a `low` line. The nets are counted by edge and layer in the place of the rows, which are not in use before the first turn.
/// A layer has no more tracks here than there can be nets, so the sum is that over all of them.
#[inline(never)]
fn ldof(text: &[u8], table: &[Kept], w: &mut Work, g: Shape, answer: &[u8]) -> Option<u64> {
    if table.iter().all(|kept| kept.low() == 0) {
        return None;
    }
    let edges = w.tracks.len();
    // SAFETY: eight numbers of 16 bits for each edge take as many bytes as the rows of half as many tiles, and need less alignment.
    let wanted: &mut [[u16; 8]] = unsafe { std::slice::from_raw_parts_mut(w.rows.as_mut_ptr().cast(), edges) };
    for kept in table {
        let low = kept.low() as usize;
        if low > 1 {
            let mut add = |tile: usize, north: usize| of(wanted, 2 * tile + north)[low - 1] += 1;
            if kept.ringed() {
                kept_edges(text, *kept, g.width, answer, add);
            } else {
                known_edges(text, kept.edges as usize, g.width, &mut add);
            }
        }
    }
    let mut sum = 0;
    for (tracks, wanted) in w.tracks.iter().zip(wanted) {
        if *wanted != [0; 8] {
            sum += excess(tracks, wanted, g.layers);
        }
    }
    Some(sum)
}

/// The same of one edge, from the top layer down.
fn excess(tracks: &Tracks, wanted: &[u16; 8], layers: usize) -> u64 {
    let (mut room, mut served, mut sum) = (0, 0, 0);
    for layer in (1..layers).rev() {
        room += i32::from(tracks[layer].max(0));
        let demand = i32::from(wanted[layer]) + served;
        sum += (demand - room).max(0) as u64;
        served = demand.min(room);
    }
    sum
}

// ---- a net in its turn

/// The entries of the known edges from a place on: each edge's tile and whether it goes north.
#[inline(always)]
fn known_edges(text: &[u8], from: usize, width: usize, mut each: impl FnMut(usize, usize)) {
    if at(text, from) == b'\n' {
        return;
    }
    let mut place = from;
    loop {
        let (x, next) = known(text, place);
        let (y, next) = known(text, next);
        each(y * width + x, usize::from(at(text, next) == b'n'));
        place = next + 2;
        if at(text, next + 1) == b'\n' {
            return;
        }
    }
}

/// The same of the kept edges of a net with a ring: in its stretch of the answer list stands 1 for each of them, and 0 for the
/// others.
#[cold]
fn kept_edges(text: &[u8], kept: Kept, width: usize, answer: &[u8], mut each: impl FnMut(usize, usize)) {
    let mut place = kept.first as usize;
    known_edges(text, kept.edges as usize, width, |tile, north| {
        if answer[place] > 0 {
            each(tile, north);
        }
        place += 1;
    });
}

/// The tile at the far end of an edge.
fn far(here: usize, north: usize, width: usize) -> usize {
    if north == 1 {
        here + width
    } else {
        here + 1
    }
}

/// Marks an edge.
fn mark_edge(w: &mut Work, width: usize, base: u32, here: usize, north: usize) {
    for (tile, way) in [(here, north), (far(here, north, width), north + 2)] {
        w.marks[tile] = w.marks[tile].max(base) | EAST << way;
    }
}

/// Marks the pins of a net. The lowest of their tiles.
#[inline(always)]
fn mark_pins(text: &[u8], kept: Kept, w: &mut Work, g: Shape, base: u32) -> usize {
    let mut low = usize::MAX;
    let mut place = kept.pins as usize;
    loop {
        let (x, next) = known(text, place);
        let (y, next) = known(text, next);
        let tile = y * g.width + x;
        let mark = of(w.marks, tile);
        *mark = (*mark).max(base) | 1 << (at(text, next) - b'1');
        low = low.min(tile);
        place = next + 2;
        if at(text, next + 1) == b'\n' {
            return low;
        }
    }
}

/// Cuts a net with a ring: takes what is dropped from the demand, and puts for each entry into `answer` whether it is kept.
#[cold]
fn cut(text: &[u8], kept: Kept, w: &mut Work, g: Shape, base: u32, answer: &mut [u8]) {
    mark_pins(text, kept, w, g, base);
    let edges = kept.edges as usize;
    known_edges(text, edges, g.width, |here, north| {
        let (a, b) = (root(w.links, base, here), root(w.links, base, far(here, north, g.width)));
        if a != b {
            w.links[a.min(b)] = base + a.max(b) as u32;
            mark_edge(w, g.width, base, here, north);
        }
    });
    known_edges(text, edges, g.width, |here, north| {
        lose(w, g.width, here);
        lose(w, g.width, far(here, north, g.width));
    });
    let mut place = 0;
    known_edges(text, edges, g.width, |here, north| {
        answer[place] = u8::from(w.marks[here] & EAST << north != 0);
        w.flat[2 * here + north][0] -= u32::from(answer[place] == 0);
        place += 1;
    });
}

/// From a tile with one way and no pin on, along the edges that are lost.
fn lose(w: &mut Work, width: usize, from: usize) {
    let mut tile = from;
    loop {
        let (ways, pins) = (w.marks[tile] >> 8 & 15, w.marks[tile] & 255);
        if ways.count_ones() != 1 || pins != 0 {
            return;
        }
        let way = ways.trailing_zeros();
        w.marks[tile] &= !(EAST << way);
        tile = match way {
            0 => tile + 1,
            1 => tile + width,
            2 => tile - 1,
            _ => tile - width,
        };
        w.marks[tile] &= !(EAST << ((way + 2) & 3));
    }
}

/// Marks a net with a ring by what `cut` left in the answer list. The lowest tile of what is kept.
#[cold]
fn mark_kept(text: &[u8], kept: Kept, w: &mut Work, g: Shape, base: u32, answer: &[u8]) -> usize {
    let mut low = mark_pins(text, kept, w, g, base);
    kept_edges(text, kept, g.width, answer, |here, north| {
        mark_edge(w, g.width, base, here, north);
        low = low.min(here);
    });
    low
}

/// Writes the layers of a net with a ring over what `cut` left in the answer list.
#[cold]
fn write_kept(text: &[u8], kept: Kept, w: &Work, g: Shape, answer: &mut [u8]) {
    let mut place = kept.first as usize;
    known_edges(text, kept.edges as usize, g.width, |tile, north| {
        if answer[place] > 0 {
            answer[place] = w.chosen[2 * tile + north] + 1;
        }
        place += 1;
    });
}

/// Marks the net's pins and edges, and lists its edges. Its lowest tile.
#[inline(never)]
fn mark(text: &[u8], kept: Kept, w: &mut Work, g: Shape, base: u32) -> usize {
    let mut low = mark_pins(text, kept, w, g, base);
    let mut count = 0;
    known_edges(text, kept.edges as usize, g.width, |here, north| {
        let there = if north == 1 { here + g.width } else { here + 1 };
        let mark = of(w.marks, here);
        *mark = (*mark).max(base) | EAST << north;
        let mark = of(w.marks, there);
        *mark = (*mark).max(base) | EAST << (north + 2);
        *of(w.list, count) = (2 * here + north) as u32;
        count += 1;
        low = low.min(here);
    });
    low
}

/// Numbers the net's tiles in walk order from its lowest on. How many there are.
#[inline(never)]
fn walk(w: &mut Work, width: usize, root: usize) -> usize {
    *of(w.stops, 0) = root as u32;
    let (mut place, mut count) = (0, 1);
    while place < count {
        let stop = at(w.stops, place);
        let tile = stop as usize & 4095;
        let mark = at(w.marks, tile);
        let ways = mark >> 8 & !(stop >> 12);
        if ways & 1 != 0 {
            *of(w.stops, count) = (tile + 1 | 4 << 12 | (2 * tile) << 16) as u32;
            count += 1;
        }
        if ways & 2 != 0 {
            *of(w.stops, count) = (tile + width | 8 << 12 | (2 * tile + 1) << 16) as u32;
            count += 1;
        }
        if ways & 4 != 0 {
            *of(w.stops, count) = (tile - 1 | 1 << 12 | (2 * tile - 2) << 16) as u32;
            count += 1;
        }
        if ways & 8 != 0 {
            *of(w.stops, count) = (tile - width | 2 << 12 | (2 * (tile - width) + 1) << 16) as u32;
            count += 1;
        }
        *of(w.ends, place) = count as u32 | (mark & 255) << 16;
        place += 1;
    }
    count
}

/// A tile with one branch and no pin: two sweeps.
#[inline(always)]
fn sweep(row: &Row) -> Row {
    let mut costs = [0; 8];
    let mut least = ILLEGAL;
    for layer in 0..8 {
        least = (least + 1).min(row[layer]);
        costs[layer] = least;
    }
    for layer in (0..7).rev() {
        least = (least + 1).min(costs[layer]);
        costs[layer] = least;
    }
    costs
}

/// A tile with one branch and pins from `low` to `high`. Outside of these the branch's layer is on this side of the layer above, or
/// beyond it, or on the other side of the pins.
#[inline(always)]
fn pinned(row: &Row, low: usize, high: usize) -> Row {
    let (mut below, mut above) = ([0; 8], [0; 8]);
    let mut least = ILLEGAL;
    for layer in 0..8 {
        least = (least + 1).min(row[layer]);
        below[layer] = least;
    }
    least = ILLEGAL;
    for layer in (0..8).rev() {
        least = (least + 1).min(row[layer]);
        above[layer] = least;
    }
    let mut inside = ILLEGAL;
    for layer in low + 1..high {
        inside = inside.min(row[layer]);
    }
    let mut costs = [0; 8];
    least = inside.min(below[low]);
    for layer in high..8 {
        least = least.min(row[layer]);
        costs[layer] = (layer - low) as u32 + least.min(above[layer]);
    }
    for layer in low + 1..high {
        costs[layer] = costs[high];
    }
    least = inside.min(above[high]);
    for layer in (0..=low).rev() {
        least = least.min(row[layer]);
        costs[layer] = (high - layer) as u32 + least.min(below[layer]);
    }
    costs
}

/// The least costs over the intervals of layers that hold all from `low` to `high`: the vias from one end to the other, and
/// for each branch its least cost within, which is a running minimum. Without pins `low` is 7 and `high` 0.
#[inline(always)]
fn intervals<const BRANCHES: usize>(rows: [&Row; BRANCHES], low: usize, high: usize) -> Row {
    let mut costs = [ILLEGAL; 8];
    for start in 0..=low {
        let mut within = [ILLEGAL; BRANCHES];
        let mut ended = [0; 8];
        for end in start..8 {
            let mut cost = (end - start) as u32;
            for branch in 0..BRANCHES {
                within[branch] = within[branch].min(rows[branch][end]);
                cost += within[branch];
            }
            ended[end] = cost;
        }
        let mut least = ILLEGAL;
        for end in (high.max(start)..8).rev() {
            least = least.min(ended[end]);
            costs[end] = costs[end].min(least);
        }
        for end in start..high {
            costs[end] = costs[end].min(least);
        }
    }
    costs
}

/// The costs of a tile for each layer above it.
#[inline(always)]
fn costs(rows: &[Row], first: usize, branches: usize, pins: usize) -> Row {
    if branches == 0 {
        return LEAF[pins & 255];
    }
    let row = |branch: usize| {
        debug_assert!(first + branch < rows.len());
        // SAFETY: a walk place.
        unsafe { rows.get_unchecked(first + branch) }
    };
    let (low, high) = match pins & 255 {
        0 if branches == 1 => return sweep(row(0)),
        0 => (7, 0),
        pins => (pins.trailing_zeros() as usize, 7 - (pins as u8).leading_zeros() as usize),
    };
    match branches {
        1 => pinned(row(0), low & 7, high & 7),
        2 => intervals([row(0), row(1)], low & 7, high & 7),
        _ => intervals([row(0), row(1), row(2)], low & 7, high & 7),
    }
}

/// The rows of the tiles from the last to the one after the root. There is a limit to the east and one to the north.
#[inline(never)]
fn fill_rows(w: &mut Work, count: usize, limits: [i16; 2]) {
    for place in (1..count).rev() {
        let end = at(w.ends, place);
        let first = at(w.ends, place - 1) as usize & 0xffff;
        let costs = costs(w.rows, first, (end as usize & 0xffff) - first, (end >> 16) as usize);
        let edge = (at(w.stops, place) >> 16) as usize;
        let tracks = at(w.tracks, edge);
        let room = if at(w.flat, edge)[0] > 0 { limits[edge & 1] } else { 0 };
        let row = of(w.rows, place);
        for layer in 0..8 {
            row[layer] = if tracks[layer] > -room { costs[layer] } else { ILLEGAL };
        }
    }
}

/// One more net on a layer of the edge above a walk place.
#[inline(always)]
fn take(w: &mut Work, place: usize, layer: usize) {
    let edge = (at(w.stops, place) >> 16) as usize;
    let tracks = &mut of(w.tracks, edge)[layer & 7];
    of(w.flat, edge)[0] -= u32::from(*tracks <= 0);
    *tracks -= 1;
    *of(w.chosen, edge) = layer as u8;
}

/// Takes the first layers of the branches of a tile that, with the set `base` of its other layers, cost just `goal`.
#[inline(always)]
fn take_branches(w: &mut Work, first: usize, branches: usize, base: usize, goal: u32, layers: usize) {
    let span = |mask: usize| u32::from(SPAN[mask & 255]);
    match branches {
        0 => {}
        1 => {
            let row = at(w.rows, first);
            let layer = (0..layers).find(|a| row[*a] <= goal && span(base | 1 << a) == goal - row[*a]).unwrap_or(0);
            take(w, first, layer);
        }
        2 => {
            let (one, two) = (at(w.rows, first), at(w.rows, first + 1));
            for a in 0..layers {
                if one[a] > goal {
                    continue;
                }
                let left = goal - one[a];
                let base = base | 1 << a;
                if let Some(b) = (0..layers).find(|b| two[*b] <= left && span(base | 1 << b) == left - two[*b]) {
                    take(w, first, a);
                    take(w, first + 1, b);
                    return;
                }
            }
        }
        _ => {
            let (one, two, three) = (at(w.rows, first), at(w.rows, first + 1), at(w.rows, first + 2));
            for a in 0..layers {
                if one[a] > goal {
                    continue;
                }
                let left = goal - one[a];
                let base = base | 1 << a;
                for b in 0..layers {
                    let base = base | 1 << b;
                    if two[b] + span(base) > left {
                        continue;
                    }
                    let left = left - two[b];
                    let reaches = |c: &usize| three[*c] <= left && span(base | 1 << c) == left - three[*c];
                    if let Some(c) = (0..layers).find(reaches) {
                        take(w, first, a);
                        take(w, first + 1, b);
                        take(w, first + 2, c);
                        return;
                    }
                }
            }
        }
    }
}

/// The most overflow of one layer to the east and to the north, from the largest overflows of the flat plan there. A
/// direction without a layer has no overflow.
fn limits(g: Shape, most: [u32; 2]) -> [u32; 2] {
    if g.closed == [0; 2] {
        return [most[0].max(most[1]).div_ceil(g.layers as u32); 2];
    }
    [0, 1].map(|way| most[way].div_ceil(g.open[way].max(1)))
}

/// Chooses the layers of the net that is walked. Its vias.
#[inline(never)]
fn choose(w: &mut Work, count: usize, layers: usize) -> u32 {
    let end = at(w.ends, 0);
    let (branches, pins) = ((end as usize & 0xffff) - 1, (end >> 16) as usize);
    if branches == 0 {
        return u32::from(SPAN[pins]);
    }
    let least = costs(w.rows, 1, branches, pins).into_iter().min().unwrap_or(0);
    take_branches(w, 1, branches, pins, least, layers);
    let mut first = branches + 1;
    for place in 1..count {
        let end = at(w.ends, place);
        let branches = (end as usize & 0xffff) - first;
        if branches > 0 {
            let layer = usize::from(at(w.chosen, (at(w.stops, place) >> 16) as usize)) & 7;
            let goal = at(w.rows, place)[layer];
            take_branches(w, first, branches, (end >> 16) as usize | 1 << layer, goal, layers);
            first += branches;
        }
    }
    least
}

// ---- printing

/// Writes into a buffer that is known to be long enough.
struct Writer<'a> {
    out: &'a mut [u8],
    at: usize,
}

impl Writer<'_> {
    #[inline(always)]
    fn text(&mut self, text: &[u8]) {
        self.out[self.at..self.at + text.len()].copy_from_slice(text);
        self.at += text.len();
    }

    #[inline(always)]
    fn number(&mut self, number: u64, end: u8) {
        let mut digits = [0; 21];
        let mut place = 20;
        let mut left = number;
        digits[20] = end;
        loop {
            place -= 1;
            digits[place] = b'0' + (left % 10) as u8;
            left /= 10;
            if left == 0 {
                break;
            }
        }
        for digit in &digits[place..] {
            *of(self.out, self.at) = *digit;
            self.at += 1;
        }
    }

    fn layers(&mut self, layers: &[u8]) {
        self.text(b"layers=");
        if layers.is_empty() {
            return self.text(b"\n");
        }
        let list = &mut self.out[self.at..self.at + 2 * layers.len()];
        for (two, layer) in list.chunks_exact_mut(2).zip(layers) {
            two[0] = b'0' + layer;
            two[1] = b',';
        }
        self.at += 2 * layers.len();
        self.out[self.at - 1] = b'\n';
    }
}

// ---- the call

fn run(text: &[u8], lent: Lent) -> Result<Returned, Refusal> {
    let Lent { work, order, answer, print } = lent;
    if text.len() > 1_048_576 {
        return Err(Refusal(1, 0));
    }
    let ended = text.iter().rposition(|byte| *byte == b'\n').map_or(0, |place| place + 1);
    let mut reader = Reader { text: &text[..ended], at: 0, line: 0 };
    let width = reader.ranged(b"width=", 1, 64)?;
    let height = reader.ranged(b"height=", 1, 64)?;
    let layers = reader.ranged(b"layers=", 2, 8)?;
    // the line is there where its key is, also without an end
    let closed = if text[reader.at..].starts_with(b"dirs=") { reader.dirs(layers)? } else { [0; 2] };
    let open = closed.map(|set: u8| layers as u32 - set.count_ones());
    let g = Shape { width, height, layers, closed, open };
    let tiles = width * height;
    let edges = (width - 1) * height + width * (height - 1);
    if work.len() < 2 * layers * edges + 2 * edges + 32 * tiles {
        return reader.refusal(9);
    }
    work[..WORDS * tiles].fill(0);
    let w = &mut split(work, tiles);
    if layers < 8 || closed != [0; 2] {
        w.tracks.fill([CLOSED; 8]);
    }
    let alpha = reader.ranged(b"alpha=", 0, 255)? as u64;
    let beta = reader.ranged(b"beta=", 0, 255)? as u64;
    let gamma = reader.ranged(b"gamma=", 0, 255)? as u64;
    for layer in 0..layers {
        reader.capacities(b"east=", w, g, 0, layer)?;
        reader.capacities(b"north=", w, g, 1, layer)?;
    }
    let count = reader.ranged(b"nets=", 0, MOST_NETS)?;
    if order.len() < count {
        return reader.refusal(10);
    }
    let mut table = [Kept::default(); MOST_NETS + 1];
    let (mut entries, mut rings) = (0, 0);
    for net in 0..count {
        if reader.number(b"net=")? != net + 1 {
            return reader.refusal(4);
        }
        let base = (net as u32 + 1) << STAMP;
        let kept = of(&mut table, net);
        let low = reader.low(text, layers)?;
        reader.key(b"pins=")?;
        kept.pins = reader.at as u32;
        let tiles = reader.pins(w, g, base)?;
        kept.number = tiles | low << LOW;
        reader.key(b"edges=")?;
        kept.edges = reader.at as u32;
        kept.first = entries;
        let line = reader.edges(w, g, base, tiles)?;
        kept.number |= line & RINGED;
        rings |= line;
        entries += line & (RINGED - 1);
        // where all layers run one way, the line is gone over once more
        if open.contains(&0) && !have_layers(text, kept.edges as usize, g) {
            return reader.refusal(13);
        }
    }
    table[count].first = entries;
    if reader.at < text.len() {
        reader.line += 1;
        return reader.refusal(2);
    }
    let entries = entries as usize;
    if answer.len() < entries || print.as_ref().is_some_and(|print| print.len() < 256 + 64 * count + 2 * entries) {
        return reader.refusal(11);
    }

    let order = &mut order[..count];
    let weights = [alpha, beta, gamma];
    if rings & RINGED == 0 {
        return Ok(planned::<false>(text, &mut table, w, g, weights, order, answer, print));
    }
    // until a net's turn the answer list has which of its edges are kept
    for net in (0..count).filter(|net| table[*net].ringed()) {
        let (kept, end) = (table[net], table[net + 1].first as usize);
        cut(text, kept, w, g, ((count + 1 + net) as u32) << STAMP, &mut answer[kept.first as usize..end]);
    }
    Ok(planned::<true>(text, &mut table, w, g, weights, order, answer, print))
}

/// The plan of an accepted job. Nets with rings are cut already, where there are `RINGS`.
#[allow(clippy::too_many_arguments)]
#[inline(always)]
fn planned<const RINGS: bool>(
    text: &[u8],
    table: &mut [Kept],
    w: &mut Work,
    g: Shape,
    [alpha, beta, gamma]: [u64; 3],
    order: &mut [Entry],
    answer: &mut [u8],
    print: Option<&mut [u8]>,
) -> Returned {
    let (count, width, layers) = (order.len(), g.width, g.layers);
    // the order: the highest score first, of equal ones the lowest number
    for net in 0..count {
        let kept = at(table, net);
        let mut length = u64::from(at(table, net + 1).first - kept.first);
        let (mut d, mut c) = (0, 0);
        let mut add = |tile: usize, north: usize| {
            let [demand, capacity] = at(w.flat, 2 * tile + north);
            d += u64::from(demand);
            c += u64::from(capacity);
        };
        if RINGS && kept.ringed() {
            length = 0;
            kept_edges(text, kept, width, answer, |tile, north| {
                length += 1;
                add(tile, north);
            });
        } else if gamma > 0 {
            known_edges(text, kept.edges as usize, width, add);
        }
        let score =
            1000 * alpha / length.max(1) + 1000 * beta * u64::from(kept.number & 0xffff) + 1000 * gamma * d / c.max(1);
        order[net].low = kept.low().max(1);
        order[net].score = score << 12 | (4095 - net as u64);
    }
    order.sort_unstable_by(|a, b| b.score.cmp(&a.score));
    for entry in order.iter_mut() {
        entry.net = 4096 - (entry.score & 4095) as u32;
        entry.score >>= 12;
    }

    let last = if print.is_some() { ldof(text, &table[..count], w, g, answer) } else { None };

    let (mut total, mut most) = (0, [0; 2]);
    for pair in w.flat.chunks_exact_mut(2) {
        for (way, [demand, capacity]) in pair.iter_mut().enumerate() {
            *demand = demand.saturating_sub(*capacity);
            total += u64::from(*demand);
            most[way] = most[way].max(*demand);
        }
    }
    let limits = limits(g, most);
    let maximum = limits[0].max(limits[1]);

    let mut vias = 0;
    for (turn, entry) in order.iter().enumerate() {
        let net = entry.net as usize - 1;
        let kept = at(table, net);
        let base = ((2 * count + 1 + turn) as u32) << STAMP;
        let ringed = RINGS && kept.ringed();
        let low = match ringed {
            false => mark(text, kept, w, g, base),
            true => mark_kept(text, kept, w, g, base, answer),
        };
        let tiles = walk(w, width, low);
        fill_rows(w, tiles, limits.map(|limit| limit as i16));
        let cost = choose(w, tiles, layers);
        of(table, net).number = cost;
        vias += u64::from(cost);
        if ringed {
            write_kept(text, kept, w, g, answer);
            continue;
        }
        let (from, to) = (kept.first as usize, at(table, net + 1).first as usize);
        for (layer, edge) in answer[from..to].iter_mut().zip(w.list.iter()) {
            *layer = at(w.chosen, *edge as usize) + 1;
        }
    }

    let mut length = 0;
    if let Some(out) = print {
        let mut writer = Writer { out, at: 0 };
        writer.text(b"order=");
        for (place, entry) in order.iter().enumerate() {
            writer.number(u64::from(entry.net), if place + 1 < count { b',' } else { b'\n' });
        }
        if count == 0 {
            writer.text(b"\n");
        }
        for net in 0..count {
            writer.text(b"net=");
            writer.number(net as u64 + 1, b'\n');
            writer.text(b"vias=");
            writer.number(u64::from(table[net].number), b'\n');
            writer.layers(&answer[table[net].first as usize..table[net + 1].first as usize]);
        }
        writer.text(b"total_vias=");
        writer.number(vias, b'\n');
        writer.text(b"total_overflow=");
        writer.number(total, b'\n');
        writer.text(b"max_overflow=");
        writer.number(u64::from(maximum), b'\n');
        if let Some(sum) = last {
            writer.text(b"ldof=");
            writer.number(sum, b'\n');
        }
        length = writer.at as u64;
    }
    Returned { number: 0, line: 0, vias, total, maximum: u64::from(maximum), length }
}

/// Plan, or Print where a print buffer is lent.
#[inline(never)]
#[no_mangle]
pub fn optimised_call(text: &[u8], lent: Lent) -> Returned {
    let Lent { work, order, answer, print } = lent;
    let returned = match run(text, Lent { work, order, answer, print }) {
        Ok(returned) => returned,
        Err(Refusal(number, line)) => refused(text, number, line),
    };
    work.fill(0);
    returned
}
