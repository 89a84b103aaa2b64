//! Layer directives: which layers the nets' timing wants, what the plan gives them, and where the wanted layers have too
//! few tracks.

use super::kept;
use crate::job::Job;
use serde::Serialize;
use std::cmp::Reverse;

/// What the `low` lines of a job ask for, and what is there for it.
#[derive(Clone, PartialEq, Eq, Debug)]
pub struct Directives {
    /// By lowest wanted layer, from the bottom.
    pub by_layer: Vec<Wanted>,
    /// By edge.
    pub edges: Vec<AtEdge>,
}

/// The nets with one lowest wanted layer.
#[derive(Serialize, Clone, Copy, PartialEq, Eq, Debug, Default)]
pub struct Wanted {
    pub low: usize,
    pub nets: usize,
    /// The kept edges of these nets.
    pub edges: usize,
    /// Those of them that the plan puts below that layer.
    pub below: usize,
    /// The excess of all edges at that layer.
    pub excess: usize,
}

/// An edge and the nets on it that want a layer above 1.
#[derive(Clone, PartialEq, Eq, Debug)]
pub struct AtEdge {
    pub nets: usize,
    /// Those of them that the plan puts below their lowest wanted layer here.
    pub below: usize,
    /// By lowest wanted layer, from the bottom: how many of the nets with it must go without, where those that want higher
    /// layers come first; nothing at layer 1.
    pub excess: Vec<usize>,
}

impl AtEdge {
    /// The fewest of its nets that must go without a track on a layer that they want, whatever the plan.
    pub fn total(&self) -> usize {
        self.excess.iter().sum()
    }
}

impl Directives {
    /// What a job asks for, where its nets' edges are on these layers; nothing where it has no `low` line.
    pub fn of(job: &Job, layers: &[Vec<u8>]) -> Option<Directives> {
        job.has_directives().then(|| Directives::count(job, layers))
    }

    fn count(job: &Job, layers: &[Vec<u8>]) -> Directives {
        let mut by_layer: Vec<Wanted> = (1..=job.layers).map(|low| Wanted { low, ..Wanted::default() }).collect();
        let mut wanting = vec![vec![0; job.layers]; job.grid.edges()];
        let mut below = vec![0; job.grid.edges()];
        for (net, layers) in job.nets.iter().zip(layers) {
            let low = net.wants();
            let row = &mut by_layer[low - 1];
            row.nets += 1;
            for (edge, layer) in kept(net, layers) {
                row.edges += 1;
                wanting[edge][low - 1] += 1;
                let missed = usize::from(layer < low);
                row.below += missed;
                below[edge] += missed;
            }
        }
        let at_edge = |(edge, below)| at_edge(job, edge, &wanting[edge], below);
        let edges: Vec<AtEdge> = below.into_iter().enumerate().map(at_edge).collect();
        for (place, row) in by_layer.iter_mut().enumerate() {
            row.excess = edges.iter().map(|at| at.excess[place]).sum();
        }
        Directives { by_layer, edges }
    }

    /// The last line of the printed plan: the excess of all edges.
    pub fn ldof(&self) -> usize {
        self.edges.iter().map(AtEdge::total).sum()
    }

    /// The nets that want a layer above 1.
    pub fn nets(&self) -> usize {
        self.by_layer.iter().filter(|row| row.low > 1).map(|row| row.nets).sum()
    }

    /// The edges with excess, those with most of it first.
    pub fn most_excess(&self, count: usize) -> Vec<usize> {
        let mut edges: Vec<usize> = (0..self.edges.len()).filter(|edge| self.edges[*edge].total() > 0).collect();
        edges.sort_by_key(|edge| (Reverse(self.edges[*edge].total()), *edge));
        edges.truncate(count);
        edges
    }
}

/// An edge, with the nets on it by their lowest wanted layer.
fn at_edge(job: &Job, edge: usize, wanting: &[usize], below: usize) -> AtEdge {
    let capacity: Vec<usize> = job.capacity.iter().map(|layer| layer[edge]).collect();
    AtEdge { nets: wanting[1..].iter().sum(), below, excess: excess(&capacity, wanting) }
}

/// The excess of an edge at each layer from the bottom, nothing at layer 1; `capacity` and `wanting` are by layer. From
/// the top down, the tracks of a layer and of those above it are there for the nets that want it and for those from above
/// that have a track.
fn excess(capacity: &[usize], wanting: &[usize]) -> Vec<usize> {
    let mut excess = vec![0; capacity.len()];
    let (mut tracks, mut from_above) = (0, 0);
    for place in (1..capacity.len()).rev() {
        tracks += capacity[place];
        let demand = wanting[place] + from_above;
        excess[place] = demand.saturating_sub(tracks);
        from_above = demand.min(tracks);
    }
    excess
}

#[cfg(test)]
mod tests {
    use super::*;
    use crate::figures::timing_example;

    /// The fewest nets without a track on a wanted layer, found by trying all ways to hand tracks out: `lows` are the
    /// wanted layers of the nets, `free` the free tracks by layer.
    fn fewest(lows: &[usize], free: &mut [usize]) -> usize {
        let Some((low, rest)) = lows.split_first() else { return 0 };
        let mut least = 1 + fewest(rest, free);
        for place in low - 1..free.len() {
            if free[place] > 0 {
                free[place] -= 1;
                least = least.min(fewest(rest, free));
                free[place] += 1;
            }
        }
        least
    }

    /// The digits of a number, as many as there are layers.
    fn digits(mut number: usize, base: usize, count: usize) -> Vec<usize> {
        let mut next = || {
            let digit = number % base;
            number /= base;
            digit
        };
        (0..count).map(|_| next()).collect()
    }

    #[test]
    fn the_excess_is_the_fewest_nets_that_go_without() {
        for layers in 2..=4 {
            for number in 0..9_usize.pow(layers as u32) {
                let both = digits(number, 3, 2 * layers);
                let (capacity, wanting) = both.split_at(layers);
                let found = excess(capacity, wanting);
                assert_eq!(found[0], 0);
                for least in 2..=layers {
                    let lows: Vec<usize> = (least..=layers).flat_map(|low| vec![low; wanting[low - 1]]).collect();
                    let sum: usize = found[least - 1..].iter().sum();
                    assert_eq!(sum, fewest(&lows, &mut capacity.to_vec()), "{capacity:?} {wanting:?} {least}");
                }
            }
        }
    }

    #[test]
    fn the_figure_of_the_paper() {
        // 10 tracks on each of three layers, 14 nets that want layer 2 and 8 that want layer 3
        assert_eq!(excess(&[10, 10, 10], &[7, 14, 8]), [0, 2, 0]);
        assert_eq!(excess(&[10, 10, 10], &[0, 14, 12]), [0, 4, 2]);
    }

    #[test]
    fn the_example_is_counted() {
        let directives = timing_example().directives.unwrap();
        let row = |low, nets, edges, below, excess| Wanted { low, nets, edges, below, excess };
        assert_eq!(directives.by_layer, [row(1, 2, 2, 0, 0), row(2, 2, 3, 1, 1), row(3, 2, 6, 5, 2)]);
        assert_eq!((directives.ldof(), directives.nets()), (3, 4));
        assert_eq!(directives.most_excess(9), [1, 0]);
        assert_eq!(directives.most_excess(1), [1]);
        assert_eq!(directives.edges[1], AtEdge { nets: 4, below: 2, excess: vec![0, 1, 1] });
        assert_eq!(directives.edges[0], AtEdge { nets: 2, below: 2, excess: vec![0, 0, 1] });
    }
}
