//! Rings: which edges the library dropped, of which nets.

use crate::job::Job;
use serde::Serialize;
use std::cmp::Reverse;

/// The layer of a dropped edge in the answer list.
pub use layerplan::DROPPED;

/// What was dropped of the nets with rings.
#[derive(Clone, PartialEq, Eq, Debug)]
pub struct Rings {
    /// The nets that lost edges, in job order.
    pub nets: Vec<Cut>,
    /// By edge: how many nets dropped it.
    pub edges: Vec<usize>,
}

/// A net that lost edges.
#[derive(Serialize, Clone, Copy, PartialEq, Eq, Debug)]
pub struct Cut {
    pub net: usize,
    /// Entries on its `edges` line.
    pub entries: usize,
    pub dropped: usize,
    pub kept: usize,
}

impl Rings {
    /// What was dropped of a job, where its nets' edges are on these layers; nothing where no net lost an edge.
    pub fn of(job: &Job, layers: &[Vec<u8>]) -> Option<Rings> {
        let mut rings = Rings { nets: Vec::new(), edges: vec![0; job.grid.edges()] };
        for (place, (net, layers)) in job.nets.iter().zip(layers).enumerate() {
            let dropped = net.edges.iter().zip(layers).filter(|(_, layer)| **layer == DROPPED);
            let before = rings.dropped();
            dropped.for_each(|(edge, _)| rings.edges[*edge] += 1);
            let (entries, dropped) = (net.edges.len(), rings.dropped() - before);
            if dropped > 0 {
                rings.nets.push(Cut { net: place + 1, entries, dropped, kept: entries - dropped });
            }
        }
        (!rings.nets.is_empty()).then_some(rings)
    }

    /// The dropped edges of all nets together.
    pub fn dropped(&self) -> usize {
        self.edges.iter().sum()
    }

    /// The nets that lost edges, those that lost most of them first.
    pub fn most_dropped(&self, count: usize) -> Vec<Cut> {
        let mut nets = self.nets.clone();
        nets.sort_by_key(|cut| (Reverse(cut.dropped), cut.net));
        nets.truncate(count);
        nets
    }
}

#[cfg(test)]
mod tests {
    use super::*;
    use crate::figures::rings_example;

    #[test]
    fn the_example_is_counted() {
        let rings = rings_example().rings.unwrap();
        let cut = |net, entries, dropped| Cut { net, entries, dropped, kept: entries - dropped };
        assert_eq!(rings.nets, [cut(1, 6, 4), cut(3, 4, 4)]);
        // the east edges below are 0 and 1, those above 2 and 3, the north edges 4, 5 and 6
        assert_eq!((&rings.edges[..], rings.dropped()), (&[0, 2, 1, 1, 1, 1, 2][..], 8));
        assert_eq!(rings.most_dropped(1), [cut(1, 6, 4)]);
    }

    #[test]
    fn a_job_without_rings_has_none() {
        assert_eq!(crate::figures::timing_example().rings, None);
    }
}
