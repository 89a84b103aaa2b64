//! The paper's algorithm written plainly: the job is read into lists, scores are sorted, and each net in its turn is
//! walked and gets, from the last tile to the first, for each layer above a tile the cheapest of all combinations of its
//! branches' layers (up to K × K × K of them for each of K layers).

use crate::{refused, Lent, Returned, MOST_CAPACITY};
use second::plan::Entry;

struct Refusal(u64, u64);

struct Net {
    /// The lowest wanted layer, where a `low` line stands.
    low: Option<usize>,
    /// Tile and layer.
    pins: Vec<(usize, usize)>,
    /// The kept edges, in the order of the line.
    edges: Vec<usize>,
    /// All edges of the line, where some of them are dropped.
    entries: Option<Vec<usize>>,
}

impl Net {
    /// The edges of the line, dropped or not.
    fn entries(&self) -> &[usize] {
        self.entries.as_ref().unwrap_or(&self.edges)
    }
}

/// Edges are numbered in the order of the capacity lines: first all east ones, then all north ones.
#[derive(Clone, Copy)]
struct Grid {
    width: usize,
    height: usize,
}

impl Grid {
    fn tiles(self) -> usize {
        self.width * self.height
    }

    fn east(self) -> usize {
        (self.width - 1) * self.height
    }

    fn edges(self) -> usize {
        self.east() + self.width * (self.height - 1)
    }

    /// The edge from a tile to the east, or to the north.
    fn edge(self, x: usize, y: usize, north: bool) -> usize {
        if north {
            self.east() + y * self.width + x
        } else {
            y * (self.width - 1) + x
        }
    }

    /// The two tiles that an edge joins.
    fn ends(self, edge: usize) -> (usize, usize) {
        if edge < self.east() {
            let tile = edge / (self.width - 1) * self.width + edge % (self.width - 1);
            (tile, tile + 1)
        } else {
            let tile = edge - self.east();
            (tile, tile + self.width)
        }
    }

    /// From a tile one way out (east, north, west, south): the tile there and the edge crossed.
    fn way(self, tile: usize, way: usize) -> Option<(usize, usize)> {
        let (x, y) = (tile % self.width, tile / self.width);
        match way {
            0 if x + 1 < self.width => Some((tile + 1, self.edge(x, y, false))),
            1 if y + 1 < self.height => Some((tile + self.width, self.edge(x, y, true))),
            2 if x > 0 => Some((tile - 1, self.edge(x - 1, y, false))),
            3 if y > 0 => Some((tile - self.width, self.edge(x, y - 1, true))),
            _ => None,
        }
    }
}

/// By layer from 0: whether it runs north, else east.
type Dirs = Vec<bool>;

struct Job {
    grid: Grid,
    layers: usize,
    dirs: Option<Dirs>,
    alpha: u64,
    beta: u64,
    gamma: u64,
    /// By layer from 0, then edge.
    capacity: Vec<Vec<u32>>,
    nets: Vec<Net>,
}

impl Job {
    /// Whether an edge may use a layer, from 0.
    fn open(&self, layer: usize, edge: usize) -> bool {
        self.dirs.as_ref().is_none_or(|dirs| dirs[layer] == (edge >= self.grid.east()))
    }
}

// ---- reading

struct Reader<'a> {
    text: &'a [u8],
    at: usize,
    line: u64,
}

fn number(bytes: &[u8]) -> Option<usize> {
    if bytes.is_empty() || bytes.len() > 5 || (bytes.len() > 1 && bytes[0] == b'0') {
        return None;
    }
    let mut value = 0;
    for byte in bytes {
        if !byte.is_ascii_digit() {
            return None;
        }
        value = 10 * value + usize::from(byte - b'0');
    }
    Some(value)
}

/// The entries of a list; an empty value is an empty list.
fn entries(value: &[u8], separator: u8) -> impl Iterator<Item = &[u8]> {
    value.split(move |byte| *byte == separator).filter(move |_| !value.is_empty())
}

/// The three parts of an entry.
fn parts(entry: &[u8]) -> Option<[&[u8]; 3]> {
    let mut parts = entry.split(|byte| *byte == b',');
    let three = [parts.next()?, parts.next()?, parts.next()?];
    parts.next().is_none().then_some(three)
}

impl<'a> Reader<'a> {
    /// The value of the next line, if it has this key. An optional line other than `dirs` and `low` has another, and is not
    /// for this planner: `refused`.
    fn value(&mut self, key: &[u8]) -> Result<&'a [u8], Refusal> {
        self.line += 1;
        let rest = &self.text[self.at..];
        let end = rest.iter().position(|byte| *byte == b'\n').ok_or(self.refusal(2))?;
        self.at += end + 1;
        rest[..end].strip_prefix(key).ok_or(self.refusal(2))
    }

    fn refusal(&self, number: u64) -> Refusal {
        Refusal(number, self.line)
    }

    fn number(&mut self, key: &[u8], low: usize, high: usize) -> Result<usize, Refusal> {
        let value = number(self.value(key)?).ok_or(self.refusal(2))?;
        if value < low || high < value {
            return Err(self.refusal(3));
        }
        Ok(value)
    }

    /// The `dirs` line, where the text goes on with its key.
    fn dirs(&mut self, layers: usize) -> Result<Option<Dirs>, Refusal> {
        if !self.text[self.at..].starts_with(b"dirs=") {
            return Ok(None);
        }
        let value = self.value(b"dirs=")?;
        let mut dirs = Vec::new();
        for entry in entries(value, b',') {
            match entry {
                b"h" => dirs.push(false),
                b"v" => dirs.push(true),
                _ => return Err(self.refusal(2)),
            }
        }
        if dirs.len() != layers {
            return Err(self.refusal(2));
        }
        Ok(Some(dirs))
    }

    /// The capacities of a layer one way. It is `closed` if it runs the other way.
    fn capacities(&mut self, key: &[u8], count: usize, closed: bool, into: &mut Vec<u32>) -> Result<(), Refusal> {
        let value = self.value(key)?;
        let before = into.len();
        let mut inside = true;
        for entry in entries(value, b',') {
            let capacity = number(entry).ok_or(self.refusal(2))?;
            inside &= capacity <= MOST_CAPACITY;
            into.push(capacity as u32);
        }
        if into.len() != before + count {
            return Err(self.refusal(2));
        }
        if !inside {
            return Err(self.refusal(3));
        }
        if closed && into[before..].iter().any(|capacity| *capacity > 0) {
            return Err(self.refusal(12));
        }
        Ok(())
    }

    /// The `low` line of a net, where the text goes on with its key.
    fn low(&mut self, layers: usize) -> Result<Option<usize>, Refusal> {
        if !self.text[self.at..].starts_with(b"low=") {
            return Ok(None);
        }
        self.number(b"low=", 1, layers).map(Some)
    }

    fn pins(&mut self, grid: Grid, layers: usize) -> Result<Vec<(usize, usize)>, Refusal> {
        let value = self.value(b"pins=")?;
        let mut list = Vec::new();
        for entry in entries(value, b';') {
            let [x, y, layer] = parts(entry).ok_or(self.refusal(2))?.map(number);
            let (Some(x), Some(y), Some(layer)) = (x, y, layer) else { return Err(self.refusal(2)) };
            list.push((x, y, layer));
        }
        if list.is_empty() {
            return Err(self.refusal(2));
        }
        let mut pins = Vec::new();
        for (x, y, layer) in list {
            if x >= grid.width || y >= grid.height || layer < 1 || layer > layers {
                return Err(self.refusal(3));
            }
            pins.push((y * grid.width + x, layer));
        }
        let mut sorted = pins.clone();
        sorted.sort_unstable();
        if sorted.windows(2).any(|pair| pair[0] == pair[1]) {
            return Err(self.refusal(5));
        }
        Ok(pins)
    }

    /// The kept edges, and all of them where some are dropped.
    fn edges(&mut self, grid: Grid, dirs: Option<&Dirs>, pins: &[(usize, usize)]) -> Result<Edges, Refusal> {
        let value = self.value(b"edges=")?;
        let mut list = Vec::new();
        for entry in entries(value, b';') {
            let [x, y, way] = parts(entry).ok_or(self.refusal(2))?;
            let (Some(x), Some(y)) = (number(x), number(y)) else { return Err(self.refusal(2)) };
            match way {
                b"e" => list.push((x, y, false)),
                b"n" => list.push((x, y, true)),
                _ => return Err(self.refusal(2)),
            }
        }
        let mut edges = Vec::new();
        for (x, y, north) in list {
            if x + usize::from(!north) >= grid.width || y + usize::from(north) >= grid.height {
                return Err(self.refusal(3));
            }
            edges.push(grid.edge(x, y, north));
        }
        let mut sorted = edges.clone();
        sorted.sort_unstable();
        if sorted.windows(2).any(|pair| pair[0] == pair[1]) {
            return Err(self.refusal(6));
        }
        // tiles that are joined get the same root
        let mut parent: Vec<usize> = (0..grid.tiles()).collect();
        fn root(parent: &mut [usize], tile: usize) -> usize {
            let mut tile = tile;
            while parent[tile] != tile {
                parent[tile] = parent[parent[tile]];
                tile = parent[tile];
            }
            tile
        }
        let mut closing = Vec::new();
        for (place, edge) in edges.iter().enumerate() {
            let (a, b) = grid.ends(*edge);
            let (a, b) = (root(&mut parent, a), root(&mut parent, b));
            if a == b {
                closing.push(place);
            }
            parent[a] = b;
        }
        let first = root(&mut parent, pins[0].0);
        let joined = pins.iter().map(|pin| pin.0).chain(edges.iter().map(|edge| grid.ends(*edge).0));
        for tile in joined {
            if root(&mut parent, tile) != first {
                return Err(self.refusal(8));
            }
        }
        let no_layer = |edge: &usize| dirs.is_some_and(|dirs| !dirs.contains(&(*edge >= grid.east())));
        if edges.iter().any(no_layer) {
            return Err(self.refusal(13));
        }
        if closing.is_empty() {
            return Ok((edges, None));
        }
        Ok((cut(grid, pins, &edges, &closing), Some(edges)))
    }
}

type Edges = (Vec<usize>, Option<Vec<usize>>);

/// The edges that are kept where those at the places `closing` are dropped: not what then hangs loose.
fn cut(grid: Grid, pins: &[(usize, usize)], edges: &[usize], closing: &[usize]) -> Vec<usize> {
    let mut there = vec![false; grid.edges()];
    for edge in edges {
        there[*edge] = true;
    }
    for place in closing {
        there[edges[*place]] = false;
    }
    let mut pinned = vec![false; grid.tiles()];
    for (tile, _) in pins {
        pinned[*tile] = true;
    }
    for edge in edges {
        let (a, b) = grid.ends(*edge);
        for mut tile in [a, b] {
            // from a loose end on along the edges that are lost
            while !pinned[tile] {
                let around = (0..4).filter_map(|way| grid.way(tile, way)).filter(|(_, edge)| there[*edge]);
                let [(next, edge)] = around.collect::<Vec<_>>()[..] else { break };
                there[edge] = false;
                tile = next;
            }
        }
    }
    edges.iter().copied().filter(|edge| there[*edge]).collect()
}

fn read(text: &[u8], work: usize, order: usize, answer: usize, print: Option<usize>) -> Result<Job, Refusal> {
    if text.len() > 1_048_576 {
        return Err(Refusal(1, 0));
    }
    let mut reader = Reader { text, at: 0, line: 0 };
    let width = reader.number(b"width=", 1, 64)?;
    let height = reader.number(b"height=", 1, 64)?;
    let layers = reader.number(b"layers=", 2, 8)?;
    let grid = Grid { width, height };
    let dirs = reader.dirs(layers)?;
    if work < 2 * layers * grid.edges() + 2 * grid.edges() + 32 * grid.tiles() {
        return Err(reader.refusal(9));
    }
    let alpha = reader.number(b"alpha=", 0, 255)? as u64;
    let beta = reader.number(b"beta=", 0, 255)? as u64;
    let gamma = reader.number(b"gamma=", 0, 255)? as u64;
    let mut capacity = Vec::new();
    for place in 0..layers {
        let closed = |north: bool| dirs.as_ref().is_some_and(|dirs| dirs[place] != north);
        let mut layer = Vec::new();
        reader.capacities(b"east=", grid.east(), closed(false), &mut layer)?;
        reader.capacities(b"north=", grid.edges() - grid.east(), closed(true), &mut layer)?;
        capacity.push(layer);
    }
    let count = reader.number(b"nets=", 0, 4096)?;
    if order < count {
        return Err(reader.refusal(10));
    }
    let mut nets = Vec::new();
    let mut total = 0;
    for turn in 1..=count {
        let net = number(reader.value(b"net=")?).ok_or(reader.refusal(2))?;
        if net != turn {
            return Err(reader.refusal(4));
        }
        let low = reader.low(layers)?;
        let pins = reader.pins(grid, layers)?;
        let (edges, entries) = reader.edges(grid, dirs.as_ref(), &pins)?;
        let net = Net { low, pins, edges, entries };
        total += net.entries().len();
        nets.push(net);
    }
    if reader.at < text.len() {
        reader.line += 1;
        return Err(reader.refusal(2));
    }
    if answer < total || print.is_some_and(|length| length < 256 + 64 * count + 2 * total) {
        return Err(reader.refusal(11));
    }
    Ok(Job { grid, layers, dirs, alpha, beta, gamma, capacity, nets })
}

// ---- the plan

/// One tile of a walk: the edge above it, its branches by place, the lowest and the highest layer of its pins.
struct Step {
    tile: usize,
    edge: usize,
    branches: Vec<usize>,
    low: usize,
    high: usize,
}

const NO_EDGE: usize = usize::MAX;
const ILLEGAL: u32 = 1 << 29;

fn walk(grid: Grid, net: &Net) -> Vec<Step> {
    let mut used = vec![false; grid.edges()];
    let mut low = vec![usize::MAX; grid.tiles()];
    let mut high = vec![0; grid.tiles()];
    let mut first = usize::MAX;
    for edge in &net.edges {
        used[*edge] = true;
        first = first.min(grid.ends(*edge).0);
    }
    for (tile, layer) in &net.pins {
        low[*tile] = low[*tile].min(*layer);
        high[*tile] = high[*tile].max(*layer);
        first = first.min(*tile);
    }
    let step = |tile: usize, edge| Step { tile, edge, branches: Vec::new(), low: low[tile], high: high[tile] };
    let mut steps = vec![step(first, NO_EDGE)];
    let mut place = 0;
    while place < steps.len() {
        for way in 0..4 {
            let Some((tile, edge)) = grid.way(steps[place].tile, way) else { continue };
            if used[edge] && edge != steps[place].edge {
                let branch = steps.len();
                steps.push(step(tile, edge));
                steps[place].branches.push(branch);
            }
        }
        place += 1;
    }
    steps
}

/// The cheapest way for a tile and what hangs below it, for one layer above it.
#[derive(Clone, Copy)]
struct Best {
    vias: u32,
    layers: [u8; 3],
}

/// Over all combinations of the branches' layers, in rising order, the first of the cheapest ones. A layer above of 0 is none.
fn best(table: &[[Best; 9]], step: &Step, above: usize, layers: usize) -> Best {
    let (mut low, mut high) = (step.low, step.high);
    if above > 0 {
        (low, high) = (low.min(above), high.max(above));
    }
    let tried = |branch: usize| if branch < step.branches.len() { layers } else { 1 };
    let mut best = Best { vias: ILLEGAL, layers: [0; 3] };
    for a in 1..=tried(0) {
        for b in 1..=tried(1) {
            for c in 1..=tried(2) {
                let chosen = [a, b, c];
                let (mut low, mut high, mut vias) = (low, high, 0);
                for (branch, layer) in step.branches.iter().zip(chosen) {
                    (low, high) = (low.min(layer), high.max(layer));
                    vias += table[*branch][layer].vias;
                }
                vias += (high - low) as u32;
                if vias < best.vias {
                    best = Best { vias, layers: chosen.map(|layer| layer as u8) };
                }
            }
        }
    }
    best
}

/// The most overflow of one layer of an edge to the east, and of one to the north: the largest overflow of the flat plan by
/// the number of layers; with a `dirs` line, of each direction by itself. A direction without a layer has no overflow.
fn limits(job: &Job, overflow: &[u32]) -> [u32; 2] {
    let limit =
        |overflow: &[u32], layers: usize| overflow.iter().copied().max().unwrap_or(0).div_ceil(layers.max(1) as u32);
    let Some(dirs) = &job.dirs else { return [limit(overflow, job.layers); 2] };
    let north_layers = dirs.iter().filter(|north| **north).count();
    let (east, north) = overflow.split_at(job.grid.east());
    [limit(east, job.layers - north_layers), limit(north, north_layers)]
}

fn plan(job: &Job, lent: Lent) -> Returned {
    let Lent { order, answer, print, .. } = lent;
    let (grid, layers) = (job.grid, job.layers);
    let mut demand = vec![0u32; grid.edges()];
    for net in &job.nets {
        for edge in &net.edges {
            demand[*edge] += 1;
        }
    }
    let capacity: Vec<u32> = (0..grid.edges()).map(|edge| job.capacity.iter().map(|layer| layer[edge]).sum()).collect();
    let overflow: Vec<u32> = (0..grid.edges()).map(|edge| demand[edge].saturating_sub(capacity[edge])).collect();
    let total: u64 = overflow.iter().map(|overflow| u64::from(*overflow)).sum();
    let limits = limits(job, &overflow);
    let maximum = limits[0].max(limits[1]);

    let mut list: Vec<(u64, usize)> = Vec::new();
    for (place, net) in job.nets.iter().enumerate() {
        let d: u64 = net.edges.iter().map(|edge| u64::from(demand[*edge])).sum();
        let c: u64 = net.edges.iter().map(|edge| u64::from(capacity[*edge])).sum();
        let mut pin_tiles: Vec<usize> = net.pins.iter().map(|pin| pin.0).collect();
        pin_tiles.sort_unstable();
        pin_tiles.dedup();
        let score = 1000 * job.alpha / (net.edges.len().max(1) as u64)
            + 1000 * job.beta * pin_tiles.len() as u64
            + 1000 * job.gamma * d / c.max(1);
        list.push((score, place));
    }
    list.sort_by(|a, b| b.0.cmp(&a.0).then(a.1.cmp(&b.1)));

    let mut load = vec![vec![0u32; grid.edges()]; layers];
    let mut chosen: Vec<Vec<u8>> = vec![Vec::new(); job.nets.len()];
    let mut vias = vec![0u32; job.nets.len()];
    let mut by_edge = vec![0u8; grid.edges()];
    for (_, place) in &list {
        let net = &job.nets[*place];
        for edge in net.entries.iter().flatten() {
            by_edge[*edge] = 0;
        }
        let steps = walk(grid, net);
        let mut table = vec![[Best { vias: ILLEGAL, layers: [0; 3] }; 9]; steps.len()];
        for at in (1..steps.len()).rev() {
            let edge = steps[at].edge;
            let over = |layer: usize| load[layer][edge].saturating_sub(job.capacity[layer][edge]);
            let sum: u32 = (0..layers).map(over).sum();
            let limit = limits[usize::from(edge >= grid.east())];
            for layer in (1..=layers).filter(|layer| job.open(layer - 1, edge)) {
                let after = (load[layer - 1][edge] + 1).saturating_sub(job.capacity[layer - 1][edge]);
                if after <= limit && sum - over(layer - 1) + after <= overflow[edge] {
                    table[at][layer] = best(&table, &steps[at], layer, layers);
                }
            }
        }
        table[0][0] = best(&table, &steps[0], 0, layers);
        vias[*place] = table[0][0].vias;
        let mut above = vec![0; steps.len()];
        for (at, step) in steps.iter().enumerate() {
            let best = table[at][above[at]];
            for (branch, layer) in step.branches.iter().zip(best.layers) {
                above[*branch] = usize::from(layer);
                load[usize::from(layer) - 1][steps[*branch].edge] += 1;
                by_edge[steps[*branch].edge] = layer;
            }
        }
        chosen[*place] = net.entries().iter().map(|edge| by_edge[*edge]).collect();
    }

    for (place, (score, net)) in list.iter().enumerate() {
        let low = job.nets[*net].low.unwrap_or(1) as u32;
        order[place] = Entry { net: *net as u32 + 1, low, score: *score };
    }
    let mut at = 0;
    for layers in &chosen {
        answer[at..at + layers.len()].copy_from_slice(layers);
        at += layers.len();
    }
    let total_vias: u64 = vias.iter().map(|vias| u64::from(*vias)).sum();
    let mut length = 0;
    if let Some(out) = print {
        let mut text = printed(&order[..list.len()], &chosen, &vias, total_vias, total, maximum);
        if job.nets.iter().any(|net| net.low.is_some()) {
            text += &format!("ldof={}\n", ldof(job));
        }
        out[..text.len()].copy_from_slice(text.as_bytes());
        length = text.len() as u64;
    }
    Returned { number: 0, line: 0, vias: total_vias, total, maximum: u64::from(maximum), length }
}

/// Over all edges and all layers above the first, the nets that want a layer and find no track there.
fn ldof(job: &Job) -> u64 {
    let mut wanted = vec![[0u32; 9]; job.grid.edges()];
    for net in &job.nets {
        for edge in &net.edges {
            wanted[*edge][net.low.unwrap_or(1)] += 1;
        }
    }
    let mut sum = 0;
    for (edge, wanted) in wanted.iter().enumerate() {
        let (mut room, mut served) = (0, 0);
        for layer in (2..=job.layers).rev() {
            room += job.capacity[layer - 1][edge];
            let demand = wanted[layer] + served;
            sum += u64::from(demand.saturating_sub(room));
            served = demand.min(room);
        }
    }
    sum
}

fn listed<T: ToString>(numbers: &[T]) -> String {
    numbers.iter().map(|number| number.to_string()).collect::<Vec<_>>().join(",")
}

fn printed(order: &[Entry], chosen: &[Vec<u8>], vias: &[u32], total_vias: u64, total: u64, maximum: u32) -> String {
    let mut text = format!("order={}\n", listed(&order.iter().map(|entry| entry.net).collect::<Vec<_>>()));
    for (place, layers) in chosen.iter().enumerate() {
        text += &format!("net={}\nvias={}\nlayers={}\n", place + 1, vias[place], listed(layers));
    }
    text + &format!("total_vias={total_vias}\ntotal_overflow={total}\nmax_overflow={maximum}\n")
}

/// Plan, or Print where a print buffer is lent.
#[inline(never)]
#[no_mangle]
pub fn plain_call(text: &[u8], lent: Lent) -> Returned {
    lent.work.fill(0);
    match read(text, lent.work.len(), lent.order.len(), lent.answer.len(), lent.print.as_ref().map(|print| print.len()))
    {
        Ok(job) => plan(&job, lent),
        Err(Refusal(number, line)) => refused(text, number, line),
    }
}
