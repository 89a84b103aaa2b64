//! What can be counted of a planned block: who uses which edge on which layer, where the vias stand, and, in
//! `directives`, which layers the nets want, in `rings`, which edges were dropped. It is counted from the job and the
//! library's answer list, and held to the figures that the library returned.

mod directives;
mod rings;

pub use directives::{AtEdge, Directives, Wanted};
pub use rings::{Cut, Rings, DROPPED};

use crate::fault::Fault;
use crate::job::{self, Grid, Job, Net, Way};
use crate::planner::{Planned, Planner};
use layerplan::{Entry, Refusal, Totals};
use serde::Serialize;
use std::cmp::Reverse;

/// A planned block with its counts.
pub struct Block {
    pub job: Job,
    pub totals: Totals,
    /// The nets with their lowest wanted layers and scores, in placing order.
    pub order: Vec<Entry>,
    /// The layers of each net's edges, in the order of its `edges` line; `DROPPED` for one that is not kept.
    pub layers: Vec<Vec<u8>>,
    /// The nets on each edge of each layer: by layer from the bottom, then by edge.
    pub used: Vec<Vec<usize>>,
    /// The nets on each edge of the flat plan, without those that dropped it.
    pub demand: Vec<usize>,
    /// The vias of each net.
    pub net_vias: Vec<usize>,
    /// The vias of all nets at each tile: by level between layers from the bottom, then by tile.
    pub tile_vias: Vec<Vec<usize>>,
    /// What the `low` lines ask for; none where the job has no such line.
    pub directives: Option<Directives>,
    /// What was dropped; none where no net has a ring.
    pub rings: Option<Rings>,
}

/// A layer's edge: the layer from 1, and the edge's number.
#[derive(Clone, Copy, PartialEq, Eq, Debug)]
pub struct Place {
    pub layer: usize,
    pub edge: usize,
}

/// Total and largest overflow.
#[derive(Clone, Copy, PartialEq, Eq, Debug, Default)]
pub struct Overflow {
    pub total: usize,
    pub maximum: usize,
}

impl Overflow {
    fn of(pairs: impl Iterator<Item = (usize, usize)>) -> Overflow {
        pairs.fold(Overflow::default(), |sum, (used, capacity)| {
            let over = used.saturating_sub(capacity);
            Overflow { total: sum.total + over, maximum: sum.maximum.max(over) }
        })
    }
}

/// The most that one layer of an edge may overflow, by the way of the edge.
#[derive(Serialize, Clone, Copy, PartialEq, Eq, Debug)]
pub struct Limits {
    pub east: usize,
    pub north: usize,
}

/// Plans a text and counts its figures: the block, or the library's refusal.
pub fn plan(planner: &mut Planner, text: &[u8]) -> Result<Result<Block, Refusal>, Fault> {
    // Print is asked, not Plan: it alone gives `ldof`
    match planner.print(text) {
        Ok((_, planned)) => of(planned, text).map(Ok),
        Err(refusal) => Ok(Err(refusal)),
    }
}

/// Counts the figures of a text that the library planned so.
pub fn of(planned: Planned, text: &[u8]) -> Result<Block, Fault> {
    let unlike = |what: &str| Fault::new(format!("a fault of this program, please report it: {what}"));
    let job = job::read(text).ok_or_else(|| unlike("a text that the library accepts was not understood here"))?;
    let ldof = planned.ldof;
    let block = count(job, planned).ok_or_else(|| unlike("the library's answer does not fit the job as read here"))?;
    match block.agrees(ldof) {
        true => Ok(block),
        false => Err(unlike("the figures counted here are not those that the library returned")),
    }
}

/// Counts; nothing where the answer does not fit the job.
fn count(job: Job, planned: Planned) -> Option<Block> {
    let (edges, layers) = (job.grid.edges(), job.layers);
    let mut block = Block {
        totals: planned.totals,
        order: planned.order.get(..job.nets.len())?.to_vec(),
        layers: stretches(&job, planned.answer)?,
        used: vec![vec![0; edges]; layers],
        demand: vec![0; edges],
        net_vias: Vec::with_capacity(job.nets.len()),
        tile_vias: vec![vec![0; job.grid.tiles()]; layers.saturating_sub(1)],
        directives: None,
        rings: None,
        job,
    };
    let mut masks = Masks::new(block.job.grid);
    for (net, layers) in block.job.nets.iter().zip(&block.layers) {
        for (edge, layer) in kept(net, layers) {
            block.demand[edge] += 1;
            *block.used.get_mut(layer - 1)?.get_mut(edge)? += 1;
            if !block.job.carries(layer, block.job.grid.named(edge).1) {
                return None;
            }
        }
        block.net_vias.push(masks.count(net, layers, &mut block.tile_vias)?);
    }
    block.directives = Directives::of(&block.job, &block.layers);
    block.rings = Rings::of(&block.job, &block.layers);
    Some(block)
}

/// The edges of a net that are kept, with their layers.
pub fn kept<'a>(net: &'a Net, layers: &'a [u8]) -> impl Iterator<Item = (usize, usize)> + 'a {
    let all = net.edges.iter().zip(layers).filter(|(_, layer)| **layer != DROPPED);
    all.map(|(edge, layer)| (*edge, usize::from(*layer)))
}

/// The answer list, cut into each net's own stretch.
fn stretches(job: &Job, answer: &[u8]) -> Option<Vec<Vec<u8>>> {
    let mut rest = answer;
    let mut layers = Vec::with_capacity(job.nets.len());
    for net in &job.nets {
        let (own, after) = rest.split_at_checked(net.edges.len())?;
        layers.push(own.to_vec());
        rest = after;
    }
    Some(layers)
}

/// The layer set of each tile of the net at hand, a bit for each layer; empty between nets.
struct Masks {
    grid: Grid,
    masks: Vec<u32>,
    touched: Vec<usize>,
}

impl Masks {
    fn new(grid: Grid) -> Masks {
        Masks { grid, masks: vec![0; grid.tiles()], touched: Vec::new() }
    }

    fn add(&mut self, tile: usize, layer: usize) {
        if self.masks[tile] == 0 {
            self.touched.push(tile);
        }
        self.masks[tile] |= 1 << layer;
    }

    /// The vias of a net: at each of its tiles one for every level between its lowest and its highest layer there. Nothing
    /// where it has not one tile more than kept edges: then these are no tree over its pins.
    fn count(&mut self, net: &Net, layers: &[u8], tile_vias: &mut [Vec<usize>]) -> Option<usize> {
        for pin in &net.pins {
            self.add(self.grid.number(pin.tile), pin.layer);
        }
        for (edge, layer) in kept(net, layers) {
            for end in self.grid.ends(edge) {
                self.add(self.grid.number(end), layer);
            }
        }
        if self.touched.len() != kept(net, layers).count() + 1 {
            return None;
        }
        let mut vias = 0;
        for tile in self.touched.drain(..) {
            let mask = std::mem::take(&mut self.masks[tile]);
            let (low, high) = (mask.trailing_zeros() as usize, 31 - mask.leading_zeros() as usize);
            tile_vias[low - 1..high - 1].iter_mut().for_each(|level| level[tile] += 1);
            vias += high - low;
        }
        Some(vias)
    }
}

impl Block {
    pub fn capacity(&self, at: Place) -> usize {
        self.job.capacity[at.layer - 1][at.edge]
    }

    pub fn used(&self, at: Place) -> usize {
        self.used[at.layer - 1][at.edge]
    }

    pub fn overflow(&self, at: Place) -> usize {
        self.used(at).saturating_sub(self.capacity(at))
    }

    /// All edges of all layers.
    pub fn places(&self) -> impl Iterator<Item = Place> + '_ {
        let edges = self.job.grid.edges();
        (1..=self.job.layers).flat_map(move |layer| (0..edges).map(move |edge| Place { layer, edge }))
    }

    /// The nets on an edge of the flat plan, and its tracks on all layers.
    fn flat(&self, edge: usize) -> (usize, usize) {
        (self.demand[edge], self.job.capacity.iter().map(|layer| layer[edge]).sum())
    }

    /// TO and MO of the flat plan.
    pub fn flat_overflow(&self) -> Overflow {
        Overflow::of((0..self.job.grid.edges()).map(|edge| self.flat(edge)))
    }

    /// The same over all layers, as counted here.
    pub fn layered_overflow(&self) -> Overflow {
        Overflow::of(self.places().map(|at| (self.used(at), self.capacity(at))))
    }

    /// The limits that the job's directions set; none where it has no `dirs` line.
    pub fn limits(&self) -> Option<Limits> {
        self.job.dirs.as_ref().map(|_| Limits { east: self.limit(Way::East), north: self.limit(Way::North) })
    }

    /// The largest flat overflow among edges of this way divided by the number of their layers, rounded up. Where they
    /// have no layer, no net uses them and none overflows.
    fn limit(&self, way: Way) -> usize {
        let of_way = (0..self.job.grid.edges()).filter(|edge| self.job.grid.named(*edge).1 == way);
        Overflow::of(of_way.map(|edge| self.flat(edge))).maximum.div_ceil(self.job.layers_for(way).max(1))
    }

    /// The place of each net in the placing order, from 1.
    pub fn turns(&self) -> Vec<usize> {
        let mut turns = vec![0; self.job.nets.len()];
        for (turn, entry) in self.order.iter().enumerate() {
            if let Some(place) = turns.get_mut((entry.net as usize).wrapping_sub(1)) {
                *place = turn + 1;
            }
        }
        turns
    }

    /// The fullest edges of all layers first: by overflow, then by the share used, then by the nets on them; none that
    /// no net uses.
    pub fn most_crowded(&self, count: usize) -> Vec<Place> {
        let mut places: Vec<Place> = self.places().filter(|at| self.used(*at) > 0).collect();
        // two shares that differ do so by one part in 65,535 times 65,535 or more, which this does not round away
        let share =
            |at: &Place| (self.used(*at) as u64 * (1 << 40)).checked_div(self.capacity(*at) as u64).unwrap_or(u64::MAX);
        places.sort_by_key(|at| (Reverse((self.overflow(*at), share(at), self.used(*at))), at.layer, at.edge));
        places.truncate(count);
        places
    }

    /// That the counts are the library's own figures, `ldof` among them.
    fn agrees(&self, ldof: Option<u64>) -> bool {
        let vias: usize = self.net_vias.iter().sum();
        let levels: usize = self.tile_vias.iter().flatten().sum();
        let Overflow { total, maximum } = self.layered_overflow();
        let counted = Totals { vias: vias as u64, overflow: total as u64, maximum: maximum as u64 };
        let counted_ldof = self.directives.as_ref().map(|directives| directives.ldof() as u64);
        counted == self.totals
            && levels == vias
            && counted_ldof == ldof
            && self.order.iter().all(|entry| self.knows(entry))
    }

    /// That an entry of the order list has the lowest wanted layer of its net.
    fn knows(&self, entry: &Entry) -> bool {
        let net = self.job.nets.get((entry.net as usize).wrapping_sub(1));
        net.is_some_and(|net| net.wants() == entry.low as usize)
    }
}

/// The example with directions, planned by hand.
#[cfg(test)]
pub fn directed_example() -> Block {
    let order = [(2, 3000), (3, 3000), (4, 3000), (1, 2333)].map(|(net, score)| Entry { net, low: 1, score });
    let totals = Totals { vias: 4, overflow: 2, maximum: 1 };
    let planned = Planned { totals, ldof: None, order: &order, answer: &[3, 3, 2, 1, 1, 1] };
    of(planned, include_bytes!("../../../examples/directed.job")).unwrap()
}

/// The order list of the example with wanted layers.
#[cfg(test)]
const TIMING_ORDER: [Entry; 6] = [
    Entry { net: 3, low: 2, score: 3000 },
    Entry { net: 4, low: 1, score: 3000 },
    Entry { net: 6, low: 1, score: 3000 },
    Entry { net: 2, low: 3, score: 2500 },
    Entry { net: 5, low: 2, score: 2500 },
    Entry { net: 1, low: 3, score: 2250 },
];

/// What the library gives for the example with wanted layers, by hand.
#[cfg(test)]
fn timing_plan() -> Planned<'static> {
    let totals = Totals { vias: 5, overflow: 0, maximum: 0 };
    Planned { totals, ldof: Some(3), order: &TIMING_ORDER, answer: &[1, 3, 1, 1, 1, 1, 1, 1, 2, 2, 1] }
}

/// The example with wanted layers, planned by hand.
#[cfg(test)]
pub fn timing_example() -> Block {
    of(timing_plan(), include_bytes!("../../../examples/timing.job")).unwrap()
}

/// What the library gives for the example with rings, by hand.
#[cfg(test)]
fn rings_plan(answer: &[u8]) -> Planned<'_> {
    const ORDER: [Entry; 3] = [
        Entry { net: 1, low: 1, score: 2500 },
        Entry { net: 3, low: 1, score: 2000 },
        Entry { net: 2, low: 1, score: 1333 },
    ];
    Planned { totals: Totals { vias: 2, overflow: 0, maximum: 0 }, ldof: None, order: &ORDER, answer }
}

/// The example with rings, planned by hand.
#[cfg(test)]
pub fn rings_example() -> Block {
    let answer = [1, 1, 0, 0, 0, 0, 2, 2, 2, 0, 0, 0, 0];
    of(rings_plan(&answer), include_bytes!("../../../examples/rings.job")).unwrap()
}

#[cfg(test)]
mod tests {
    use super::*;

    const EXAMPLE: &[u8] = include_bytes!("../../../examples/three-tiles.job");

    #[test]
    fn limits_by_direction() {
        let block = directed_example();
        assert_eq!(block.flat_overflow(), Overflow { total: 2, maximum: 2 });
        assert_eq!(block.limits(), Some(Limits { east: 1, north: 0 }));
        assert_eq!(block.used, [[1, 2, 0, 0, 0, 0, 0], [0, 0, 0, 0, 0, 0, 1], [1, 1, 0, 0, 0, 0, 0]]);
        assert_eq!(plan(&mut Planner::new(), EXAMPLE).unwrap().unwrap().limits(), None);
    }

    #[test]
    fn limits_where_a_direction_has_no_edge_or_no_layer() {
        let layer_of_one_row = "east=0\nnorth=\n";
        let layer_of_two_rows = "east=0,0\nnorth=0,0\n";
        for (height, dirs, layer) in [(1, "h,v", layer_of_one_row), (2, "h,h", layer_of_two_rows)] {
            let text = format!(
                "width=2\nheight={height}\nlayers=2\ndirs={dirs}\nalpha=1\nbeta=1\ngamma=0\n{layer}{layer}\
                 nets=1\nnet=1\npins=0,0,1\nedges=0,0,e\n"
            );
            let totals = Totals { vias: 0, overflow: 1, maximum: 1 };
            let order = [Entry { net: 1, low: 1, score: 2000 }];
            let planned = Planned { totals, ldof: None, order: &order, answer: &[1] };
            let block = of(planned, text.as_bytes()).unwrap();
            assert_eq!(block.limits(), Some(Limits { east: 1, north: 0 }), "{dirs}");
        }
    }

    #[test]
    fn an_edge_on_a_layer_that_runs_the_other_way_does_not_fit() {
        let block = directed_example();
        let answer = |layers: &[u8]| {
            let planned = Planned { totals: block.totals, ldof: None, order: &block.order, answer: layers };
            count(block.job.clone(), planned).is_some()
        };
        assert!(answer(&[3, 3, 2, 1, 1, 1]) && answer(&[1, 1, 2, 1, 1, 1]));
        assert!(!answer(&[2, 3, 2, 1, 1, 1]) && !answer(&[3, 3, 1, 1, 1, 1]) && !answer(&[3, 3, 4, 1, 1, 1]));
    }

    #[test]
    fn the_example_is_counted() {
        let block = plan(&mut Planner::new(), EXAMPLE).unwrap().unwrap();
        assert_eq!(block.layers, [vec![2, 1], vec![1]]);
        assert_eq!(block.used, [[1, 1], [1, 0]]);
        assert_eq!(block.demand, [2, 1]);
        assert_eq!(block.net_vias, [2, 0]);
        assert_eq!(block.tile_vias, [[1, 1, 0]]);
        assert_eq!(block.turns(), [2, 1]);
        assert_eq!(block.flat_overflow(), Overflow::default());
        assert_eq!(block.most_crowded(9).len(), 3);
    }

    #[test]
    fn wanted_layers_are_held_to_the_librarys() {
        let text = include_bytes!("../../../examples/timing.job");
        let block = plan(&mut Planner::new(), text).unwrap().unwrap();
        assert_eq!((&block.order[..], &block.directives), (&TIMING_ORDER[..], &timing_example().directives));
        assert_eq!(plan(&mut Planner::new(), EXAMPLE).unwrap().unwrap().directives, None);
        for ldof in [None, Some(2), Some(4)] {
            assert!(of(Planned { ldof, ..timing_plan() }, text).is_err());
        }
        let mut order = TIMING_ORDER;
        order[0].low = 1;
        assert!(of(Planned { order: &order, ..timing_plan() }, text).is_err());
    }

    #[test]
    fn figures_are_those_of_the_kept_edges() {
        let text = include_bytes!("../../../examples/rings.job");
        let block = plan(&mut Planner::new(), text).unwrap().unwrap();
        assert_eq!((&block.layers, &block.rings), (&rings_example().layers, &rings_example().rings));
        assert_eq!(block.order, rings_example().order);
        assert_eq!(block.demand, [2, 1, 0, 0, 0, 1, 1]);
        assert_eq!(block.used, [[1, 0, 0, 0, 0, 1, 0], [1, 1, 0, 0, 0, 0, 1]]);
        assert_eq!(block.net_vias, [0, 1, 1]);
        assert_eq!(plan(&mut Planner::new(), EXAMPLE).unwrap().unwrap().rings, None);
    }

    #[test]
    fn a_net_that_is_not_cut_to_a_tree_does_not_fit() {
        let text = include_bytes!("../../../examples/rings.job");
        let fits = |net_1: [u8; 6], net_2: [u8; 3], net_3: [u8; 4]| {
            let answer = [&net_1[..], &net_2, &net_3].concat();
            count(job::read(text).unwrap(), rings_plan(&answer)).is_some()
        };
        assert!(fits([1, 1, 0, 0, 0, 0], [2, 2, 2], [0; 4]));
        assert!(!fits([1, 1, 1, 1, 0, 0], [2, 2, 2], [0; 4]));
        assert!(!fits([1, 0, 0, 0, 0, 0], [2, 2, 2], [0; 4]));
        assert!(!fits([1, 1, 0, 0, 0, 0], [2, 2, 2], [1; 4]));
        assert!(!fits([0; 6], [2, 2, 2], [0; 4]));
    }

    #[test]
    fn a_low_line_of_1_is_counted_as_one() {
        let text = std::str::from_utf8(EXAMPLE).unwrap().replace("net=2\n", "net=2\nlow=1\n");
        let directives = plan(&mut Planner::new(), text.as_bytes()).unwrap().unwrap().directives.unwrap();
        assert_eq!((directives.ldof(), directives.nets(), directives.most_excess(9)), (0, 0, vec![]));
    }

    #[test]
    fn the_fuller_of_two_wide_edges_comes_first() {
        let text =
            b"width=3\nheight=1\nlayers=2\nalpha=1\nbeta=0\ngamma=0\neast=65535,65534\nnorth=\neast=0,0\nnorth=\n\
            nets=1\nnet=1\npins=0,0,1\nedges=0,0,e;1,0,e\n";
        let totals = Totals { vias: 0, overflow: 0, maximum: 0 };
        let order = [Entry { net: 1, low: 1, score: 500 }];
        let block = of(Planned { totals, ldof: None, order: &order, answer: &[1, 1] }, text).unwrap();
        let edges: Vec<usize> = block.most_crowded(9).iter().map(|at| at.edge).collect();
        assert_eq!(edges, [1, 0]);
    }

    #[test]
    fn the_flat_overflow_of_a_full_edge() {
        let text = b"width=2\nheight=1\nlayers=2\nalpha=1\nbeta=1\ngamma=0\neast=0\nnorth=\neast=0\nnorth=\nnets=3\n\
            net=1\npins=0,0,1\nedges=0,0,e\nnet=2\npins=0,0,1\nedges=0,0,e\nnet=3\npins=0,0,1\nedges=0,0,e\n";
        let block = plan(&mut Planner::new(), text).unwrap().unwrap();
        assert_eq!(block.flat_overflow(), Overflow { total: 3, maximum: 3 });
        assert_eq!(block.layered_overflow(), Overflow { total: 3, maximum: 2 });
        let fullest = block.most_crowded(1);
        assert_eq!(fullest, [Place { layer: 1, edge: 0 }]);
    }
}
