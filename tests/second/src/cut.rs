//! The cut of a net with rings: which entries of its `edges` line are kept. Each entry is looked at by a search of its own,
//! and what hangs loose is lost in rounds.
//!
//! Entries and kept edges are two things: the lists that a call writes, and the length that they need, go over the entries;
//! demand, overflow, score, directives, walk and vias over the kept edges.

use crate::job::{Grid, Job, Net};
use std::collections::BTreeSet;

/// Which entries of the net's `edges` line are kept. In a net without a ring, all.
pub fn kept(grid: Grid, net: &Net) -> Vec<bool> {
    let mut kept = without_rings(grid, &net.edges);
    if kept.contains(&false) {
        lose_loose_ends(grid, net, &mut kept);
    }
    kept
}

/// The job with the kept edges alone: all that holds for a plan holds for this job.
pub fn cut(job: &Job) -> Job {
    let cut_net = |net: &Net| Net { edges: of_kept(&net.edges, &kept(job.grid, net)), ..net.clone() };
    Job { nets: job.nets.iter().map(cut_net).collect(), ..job.clone() }
}

/// Those of the entries, or of what goes with them, that are kept.
pub fn of_kept<T: Copy>(entries: &[T], kept: &[bool]) -> Vec<T> {
    entries.iter().zip(kept).filter(|(_, kept)| **kept).map(|(entry, _)| *entry).collect()
}

/// Along the line: an edge closes a ring if kept earlier ones join its two ends already. It is dropped.
fn without_rings(grid: Grid, edges: &[usize]) -> Vec<bool> {
    let mut next_to: Vec<Vec<usize>> = vec![Vec::new(); grid.tiles()];
    let mut keep = |edge: &usize| {
        let [a, b] = grid.ends(*edge);
        let closes_a_ring = joined(&next_to, a, b);
        if !closes_a_ring {
            next_to[a].push(b);
            next_to[b].push(a);
        }
        !closes_a_ring
    };
    edges.iter().map(&mut keep).collect()
}

/// Whether two tiles are joined; `next_to` has for each tile those that an edge joins to it. The search goes on from both by
/// turns, until it finds the other tile or one of the two has no more tiles to look at.
fn joined(next_to: &[Vec<usize>], a: usize, b: usize) -> bool {
    // there is no ring yet, so a tile is never found again, but from the tile behind it
    let mut searches = [(vec![(a, a)], b), (vec![(b, b)], a)];
    loop {
        for (open, wanted) in &mut searches {
            let Some((tile, before)) = open.pop() else { return false };
            if tile == *wanted {
                return true;
            }
            open.extend(next_to[tile].iter().filter(|next| **next != before).map(|next| (*next, tile)));
        }
    }
}

/// Round by round: of each tile with one kept edge and no pin, that edge is lost; until a round loses none.
fn lose_loose_ends(grid: Grid, net: &Net, kept: &mut [bool]) {
    let pins: BTreeSet<usize> = net.pins.iter().map(|pin| pin.tile).collect();
    loop {
        let mut edges_at = vec![0; grid.tiles()];
        for edge in of_kept(&net.edges, kept) {
            grid.ends(edge).into_iter().for_each(|tile| edges_at[tile] += 1);
        }
        let loose = |tile: usize| edges_at[tile] == 1 && !pins.contains(&tile);
        let lost = |place: &usize| kept[*place] && grid.ends(net.edges[*place]).into_iter().any(loose);
        let lost: Vec<usize> = (0..kept.len()).filter(lost).collect();
        if lost.is_empty() {
            return;
        }
        lost.into_iter().for_each(|place| kept[place] = false);
    }
}
