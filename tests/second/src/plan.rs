//! The plan: overflow on the flat plan, scores and order, each net's walk, its layers, what the layer directives lack, and
//! the print. All but `plan` itself is for a job without rings, as the cut leaves it.

use crate::cut::{cut, kept};
use crate::job::{Direction, Grid, Job, Net};
use std::cmp::Reverse;
use std::collections::{BTreeMap, BTreeSet, VecDeque};

/// An entry of the order list: a net number, the net's lowest wanted layer, and its score.
#[repr(C)]
#[derive(Clone, Copy, PartialEq, Eq, Debug, Default)]
pub struct Entry {
    pub net: u32,
    pub low: u32,
    pub score: u64,
}

/// The flat plan's numbers: for each edge d(e), c(e) and o(e).
#[derive(Clone, PartialEq, Eq, Debug)]
pub struct Flat {
    pub demand: Vec<u64>,
    pub capacity: Vec<u64>,
    pub overflow: Vec<u64>,
    pub limits: Limits,
}

/// The limits on the overflow of one layer of an edge, for edges to the east and to the north.
#[derive(Clone, Copy, PartialEq, Eq, Debug)]
pub struct Limits {
    pub east: u64,
    pub north: u64,
}

impl Limits {
    /// Without a `dirs` line, MO / K rounded up for both. With it, the same for each direction by itself: the largest of
    /// its edges' overflows by the number of its layers, and 0 where it has no edge or no layer.
    fn of(job: &Job, overflow: &[u64]) -> Limits {
        let limit = |overflow: &[u64], layers: usize| match layers {
            0 => 0,
            _ => overflow.iter().copied().max().unwrap_or(0).div_ceil(layers as u64),
        };
        let Some(dirs) = &job.dirs else {
            let both = limit(overflow, job.layers);
            return Limits { east: both, north: both };
        };
        let layers = |direction: Direction| dirs.iter().filter(|other| **other == direction).count();
        let (east, north) = overflow.split_at(job.grid.east_edges());
        Limits { east: limit(east, layers(Direction::East)), north: limit(north, layers(Direction::North)) }
    }

    fn on(self, direction: Direction) -> u64 {
        match direction {
            Direction::East => self.east,
            Direction::North => self.north,
        }
    }
}

pub fn flat(job: &Job) -> Flat {
    let edges = job.grid.edges();
    let mut demand = vec![0u64; edges];
    for edge in job.nets.iter().flat_map(|net| &net.edges) {
        demand[*edge] += 1;
    }
    let capacity: Vec<u64> = (0..edges).map(|e| job.capacity.iter().map(|layer| layer[e]).sum()).collect();
    let overflow: Vec<u64> = (0..edges).map(|e| demand[e].saturating_sub(capacity[e])).collect();
    let limits = Limits::of(job, &overflow);
    Flat { demand, capacity, overflow, limits }
}

/// floor(1000 × alpha / L) + 1000 × beta × P + floor(1000 × gamma × D / C); a zero divisor counts as 1. P is the number of
/// different tiles on the `pins` line.
pub fn score(job: &Job, flat: &Flat, net: &Net) -> u64 {
    let length = net.edges.len() as u64;
    let pins = net.pins.iter().map(|pin| pin.tile).collect::<BTreeSet<_>>().len() as u64;
    let demand: u64 = net.edges.iter().map(|e| flat.demand[*e]).sum();
    let capacity: u64 = net.edges.iter().map(|e| flat.capacity[*e]).sum();
    1000 * job.alpha / length.max(1) + 1000 * job.beta * pins + 1000 * job.gamma * demand / capacity.max(1)
}

/// The order list: higher scores first; of equal scores, the lower net number first.
pub fn order(job: &Job, flat: &Flat) -> Vec<Entry> {
    let entry = |(place, net): (usize, &Net)| Entry {
        net: place as u32 + 1,
        low: net.lowest().into(),
        score: score(job, flat, net),
    };
    let mut order: Vec<Entry> = job.nets.iter().enumerate().map(entry).collect();
    order.sort_by_key(|entry| (Reverse(entry.score), entry.net));
    order
}

/// One tile of a net's walk.
#[derive(Clone, PartialEq, Eq, Debug)]
pub struct Step {
    pub tile: usize,
    /// The edge above the tile, by its number in the grid; none at the walk's first tile.
    pub edge: Option<usize>,
    /// The places in the walk of the tiles that the branches lead to, in walk order.
    pub branches: Vec<usize>,
}

/// The walk of a net: breadth first from its lowest-numbered tile; the ways out of a tile in the order east, north,
/// west, south, leaving out the way back. All tiles but the first have an edge above; these edges in the order of
/// their tiles are the walk order of the net's edges.
pub fn walk(grid: Grid, net: &Net) -> Vec<Step> {
    let edges: BTreeSet<usize> = net.edges.iter().copied().collect();
    let first = *net.tiles(grid).first().expect("a net has a pin");
    let mut steps = vec![Step { tile: first, edge: None, branches: Vec::new() }];
    let mut queue = VecDeque::from([0]);
    while let Some(place) = queue.pop_front() {
        assert!(place < grid.tiles(), "a net without rings");
        for way in 0..4 {
            let Some((tile, edge)) = grid.way(steps[place].tile, way) else { continue };
            if edges.contains(&edge) && steps[place].edge != Some(edge) {
                let branch = steps.len();
                steps.push(Step { tile, edge: Some(edge), branches: Vec::new() });
                steps[place].branches.push(branch);
                queue.push_back(branch);
            }
        }
    }
    steps
}

/// The nets that stand on each layer of each edge: `load[l - 1][e]`.
pub type Load = Vec<Vec<u64>>;

/// The layers, in rising order, that are legal for an edge: of those that it may use, the ones where, with this net put
/// there, that layer's overflow is at most the limit, and the sum of the overflows of all layers of the edge is at most
/// o(e).
pub fn legal_layers(job: &Job, flat: &Flat, load: &Load, edge: usize) -> Vec<u8> {
    let limit = flat.limits.on(job.grid.direction(edge));
    let legal = |layer: &u8| {
        let layer = usize::from(*layer);
        let after = |l: usize| load[l - 1][edge] + u64::from(l == layer);
        let overflow = |l: usize| after(l).saturating_sub(job.capacity[l - 1][edge]);
        overflow(layer) <= limit && (1..=job.layers).map(overflow).sum::<u64>() <= flat.overflow[edge]
    };
    job.layers_of(edge).into_iter().filter(legal).collect()
}

/// The vias of a net from its layers (in the order of its `edges` line): at each of its tiles, the highest minus the
/// lowest layer of the pins in it and of the edges that meet there.
pub fn vias(grid: Grid, net: &Net, layers: &[u8]) -> u64 {
    let mut sets: BTreeMap<usize, BTreeSet<u8>> = BTreeMap::new();
    for pin in &net.pins {
        sets.entry(pin.tile).or_default().insert(pin.layer);
    }
    for (edge, layer) in net.edges.iter().zip(layers) {
        for tile in grid.ends(*edge) {
            sets.entry(tile).or_default().insert(*layer);
        }
    }
    sets.values().map(|set| u64::from(set.last().unwrap() - set.first().unwrap())).sum()
}

/// The cheapest layers for the branches of one tile, given the layer of the edge above it.
#[derive(Clone, Default)]
struct Best {
    /// The vias in this tile and in all tiles below it.
    vias: u64,
    branches: Vec<u8>,
}

/// The choice of layers of one net.
struct Chooser<'a> {
    walk: &'a [Step],
    /// By place in the walk: the legal layers of the edge above, in rising order. At the first tile the one entry 0,
    /// which stands for "no edge above" and is no layer.
    above: Vec<Vec<u8>>,
    /// By place in the walk: the lowest and the highest pin's layer; 255 and 0 where there is no pin.
    pins: Vec<(u8, u8)>,
    /// By place in the walk and layer of the edge above.
    best: Vec<[Best; 9]>,
}

impl Chooser<'_> {
    /// Tries all combinations of legal layers for these branches, in rising dictionary order, and keeps in `best` the
    /// first of those with the fewest vias. `low` and `high` are of the tile's layers so far, `below` is the sum of the
    /// vias below the branches chosen so far.
    fn try_all(
        &self,
        branches: &[usize],
        low: u8,
        high: u8,
        below: u64,
        chosen: &mut Vec<u8>,
        best: &mut Option<Best>,
    ) {
        let Some((branch, rest)) = branches.split_first() else {
            let vias = below + u64::from(high - low);
            if best.as_ref().is_none_or(|best| vias < best.vias) {
                *best = Some(Best { vias, branches: chosen.clone() });
            }
            return;
        };
        for layer in &self.above[*branch] {
            chosen.push(*layer);
            let below = below + self.best[*branch][usize::from(*layer)].vias;
            self.try_all(rest, low.min(*layer), high.max(*layer), below, chosen, best);
            chosen.pop();
        }
    }

    /// From the walk's last tile to its first: the best of each tile for each layer of the edge above. The branches
    /// of a tile stand behind it in the walk, so theirs are there already.
    fn fill(&mut self) {
        for place in (0..self.walk.len()).rev() {
            for layer in self.above[place].clone() {
                let (low, high) = self.pins[place];
                let (low, high) = if layer == 0 { (low, high) } else { (low.min(layer), high.max(layer)) };
                let mut best = None;
                self.try_all(&self.walk[place].branches, low, high, 0, &mut Vec::new(), &mut best);
                self.best[place][usize::from(layer)] = best.expect("every edge has a legal layer");
            }
        }
    }

    /// From the walk's first tile to its last: the layer of the edge above each, 0 at the first.
    fn take(&self) -> Vec<u8> {
        let mut layers = vec![0; self.walk.len()];
        for (place, step) in self.walk.iter().enumerate() {
            let best = &self.best[place][usize::from(layers[place])];
            for (branch, layer) in step.branches.iter().zip(&best.branches) {
                layers[*branch] = *layer;
            }
        }
        layers
    }
}

/// Among all legal layerings of this net with the fewest vias, the one whose layers, read in walk order, come first in
/// dictionary order; given by place in the walk (0 at the first tile). And its vias.
///
/// Why this is the first in dictionary order: walk order goes tile by tile; all branches of a tile follow each other,
/// and stand behind the edge above the tile. When the walk comes to a tile, the layer of the edge above it is fixed, and
/// so are the layers of all edges that stand before its branches. What is still open splits into parts that share no
/// tile: this tile with all below it, and each tile that waits in the queue with all below it. The vias of one part
/// depend on its own edges and on the layer above it alone. So a beginning of the walk can be continued to the fewest
/// vias exactly if each part can still have its own fewest, given the layer above it. For the branches of this tile
/// these are the combinations that reach its least cost, and the first of these in rising order is what the first
/// layering in dictionary order has here. By induction along the walk it has everywhere what `take` takes.
pub fn choose(job: &Job, flat: &Flat, load: &Load, net: &Net, walk: &[Step]) -> (Vec<u8>, u64) {
    let above = |step: &Step| step.edge.map_or(vec![0], |edge| legal_layers(job, flat, load, edge));
    let mut pins: BTreeMap<usize, (u8, u8)> = BTreeMap::new();
    for pin in &net.pins {
        let (low, high) = pins.entry(pin.tile).or_insert((255, 0));
        (*low, *high) = (pin.layer.min(*low), pin.layer.max(*high));
    }
    let mut chooser = Chooser {
        walk,
        above: walk.iter().map(above).collect(),
        pins: walk.iter().map(|step| pins.get(&step.tile).copied().unwrap_or((255, 0))).collect(),
        best: vec![Default::default(); walk.len()],
    };
    chooser.fill();
    (chooser.take(), chooser.best[0][0].vias)
}

/// The plan of an accepted job.
#[derive(Clone, PartialEq, Eq, Debug)]
pub struct Plan {
    pub order: Vec<Entry>,
    /// By net in job order: its layers in the order of its `edges` line, 0 for an edge that is dropped.
    pub layers: Vec<Vec<u8>>,
    /// By net in job order.
    pub vias: Vec<u64>,
    pub total_vias: u64,
    pub total_overflow: u64,
    pub max_overflow: u64,
    /// In a job with a `low` line, the excess of all edges together.
    pub ldof: Option<u64>,
}

/// By edge: the excess of virtual demand over virtual capacity, summed over all layers t above 1. The virtual capacity
/// at t is that of the layers t and up; the virtual demand at t is the number of nets that use the edge with `low` equal
/// to t, and the smaller of virtual demand and virtual capacity at t + 1; both are 0 above K.
pub fn excess(job: &Job) -> Vec<u64> {
    let mut nets = vec![vec![0u64; job.grid.edges()]; job.layers];
    for net in &job.nets {
        for edge in &net.edges {
            nets[usize::from(net.lowest()) - 1][*edge] += 1;
        }
    }
    let of_edge = |edge: usize| {
        let (mut capacity, mut demand, mut sum) = (0, 0, 0);
        for layer in (2..=job.layers).rev() {
            demand = nets[layer - 1][edge] + u64::min(demand, capacity);
            capacity += job.capacity[layer - 1][edge];
            sum += demand.saturating_sub(capacity);
        }
        sum
    };
    (0..job.grid.edges()).map(of_edge).collect()
}

/// The plan of a job: that of the cut job, with 0 for each edge that is dropped.
pub fn plan(job: &Job) -> Plan {
    let mut plan = plan_without_rings(&cut(job));
    for (layers, net) in plan.layers.iter_mut().zip(&job.nets) {
        let mut given = std::mem::take(layers).into_iter();
        let layer = |kept: bool| if kept { given.next().expect("a layer for each kept edge") } else { 0 };
        *layers = kept(job.grid, net).into_iter().map(layer).collect();
    }
    plan
}

fn plan_without_rings(job: &Job) -> Plan {
    let flat = flat(job);
    let order = order(job, &flat);
    let mut load: Load = vec![vec![0; job.grid.edges()]; job.layers];
    let mut layers = vec![Vec::new(); job.nets.len()];
    let mut net_vias = vec![0; job.nets.len()];
    for entry in &order {
        let place = entry.net as usize - 1;
        let net = &job.nets[place];
        let walk = walk(job.grid, net);
        let (by_walk, fewest) = choose(job, &flat, &load, net, &walk);
        let mut by_edge = BTreeMap::new();
        for (step, layer) in walk.iter().zip(by_walk) {
            if let Some(edge) = step.edge {
                load[usize::from(layer) - 1][edge] += 1;
                by_edge.insert(edge, layer);
            }
        }
        layers[place] = net.edges.iter().map(|edge| by_edge[edge]).collect();
        net_vias[place] = vias(job.grid, net, &layers[place]);
        assert_eq!(net_vias[place], fewest, "the vias counted from the layers are those that the choice found");
    }
    let overflow = |l: usize, e: usize| load[l][e].saturating_sub(job.capacity[l][e]);
    let all = || (0..job.layers).flat_map(|l| (0..job.grid.edges()).map(move |e| (l, e)));
    Plan {
        total_vias: net_vias.iter().sum(),
        total_overflow: all().map(|(l, e)| overflow(l, e)).sum(),
        max_overflow: all().map(|(l, e)| overflow(l, e)).max().unwrap_or(0),
        ldof: job.has_low_line().then(|| excess(job).iter().sum()),
        order,
        layers,
        vias: net_vias,
    }
}

/// Numbers with a comma between.
fn listed<T: ToString>(numbers: impl Iterator<Item = T>) -> String {
    numbers.map(|number| number.to_string()).collect::<Vec<_>>().join(",")
}

/// The printed text of a plan.
pub fn print(plan: &Plan) -> String {
    let mut text = format!("order={}\n", listed(plan.order.iter().map(|entry| entry.net)));
    for (place, layers) in plan.layers.iter().enumerate() {
        text += &format!("net={}\nvias={}\nlayers={}\n", place + 1, plan.vias[place], listed(layers.iter()));
    }
    text += &format!("total_vias={}\ntotal_overflow={}\n", plan.total_vias, plan.total_overflow);
    text += &format!("max_overflow={}\n", plan.max_overflow);
    text + &plan.ldof.map_or(String::new(), |ldof| format!("ldof={ldof}\n"))
}
