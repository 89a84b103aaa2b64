//! What can be checked of a plan of any size, in other words and with another method than the planner's: the overflow
//! numbers, the order, that each layer was legal at its net's turn, and for each tile of each net, by spans of layers
//! instead of combinations, that no choice has fewer vias and that none with as few comes before it in walk order.
//! The walks are compared as such: plans alone would not show a wrong walk (see `brute`). What the layer directives leave
//! without a track is found by a hand-out from the lowest layer up, and by a bound that no hand-out goes below. Which edges
//! are kept is found by a tree that grows by the earliest entry next to it, and by the pins on both sides of each edge.

use crate::cut::of_kept;
use crate::job::{Direction, Grid, Job, Net};
use crate::plan::{vias, walk, Plan};
use std::collections::BTreeSet;
use std::ops::Range;

fn claim(holds: bool, what: impl Fn() -> String) -> Result<(), String> {
    if holds {
        Ok(())
    } else {
        Err(what())
    }
}

/// The nets put so far, and what they leave.
struct Metal<'a> {
    job: &'a Job,
    /// o(e) of the flat plan.
    flat: Vec<u64>,
    /// By edge: the most overflow of one layer.
    limit: Vec<u64>,
    /// By edge, then layer from 0.
    load: Vec<Vec<u64>>,
}

impl Metal<'_> {
    fn overflow(&self, edge: usize, layer: usize) -> u64 {
        self.load[edge][layer].saturating_sub(self.job.capacity[layer][edge])
    }

    fn sum(&self, edge: usize) -> u64 {
        (0..self.job.layers).map(|layer| self.overflow(edge, layer)).sum()
    }

    /// Whether one more net may use this layer (from 1) of the edge: the layer runs along the edge or any way, and there
    /// is a track, or one more overflow is allowed.
    fn allows(&self, edge: usize, layer: u8) -> bool {
        let l = usize::from(layer) - 1;
        let runs_across = match (&self.job.dirs, self.job.grid.named(edge)) {
            (None, _) => false,
            (Some(dirs), (_, east)) => (dirs[l] == Direction::East) != east,
        };
        let track = self.load[edge][l] < self.job.capacity[l][edge];
        !runs_across && (track || (self.overflow(edge, l) < self.limit[edge] && self.sum(edge) < self.flat[edge]))
    }
}

/// A tile of a net with the edge above it.
struct Place {
    tile: usize,
    edge: Option<usize>,
    /// The layers of the pins in the tile.
    fixed: Vec<u8>,
    /// The layer that the plan gives to the edge above.
    layer: u8,
    branches: Vec<usize>,
    /// By layer of the edge above: the fewest vias here and below, where that layer is allowed.
    fewest: [Option<u64>; 9],
}

/// The net's tiles, distance by distance from the lowest-numbered one.
fn places(job: &Job, net: &Net, layers: &[u8]) -> Vec<Place> {
    let grid = job.grid;
    let mut given = vec![0; grid.edges()];
    for (edge, layer) in net.edges.iter().zip(layers) {
        given[*edge] = *layer;
    }
    let mut pins: Vec<Vec<u8>> = vec![Vec::new(); grid.tiles()];
    for pin in &net.pins {
        pins[pin.tile].push(pin.layer);
    }
    let tiles = net.tiles(grid);
    let mut places: Vec<Place> = Vec::new();
    let mut level = vec![(*tiles.first().unwrap(), None, 0)];
    while !level.is_empty() {
        let mut next = Vec::new();
        for (tile, edge, above) in level {
            let place = places.len();
            let fixed = std::mem::take(&mut pins[tile]);
            let layer = edge.map_or(0, |edge: usize| std::mem::take(&mut given[edge]));
            places.push(Place { tile, edge, fixed, layer, branches: Vec::new(), fewest: [None; 9] });
            if place > 0 {
                places[above].branches.push(place);
            }
            // the edge above is no longer marked in `given`: the way back is left out
            for (far, edge) in (0..4).filter_map(|way| grid.way(tile, way)) {
                if given[edge] > 0 {
                    next.push((far, Some(edge), place));
                }
            }
        }
        level = next;
    }
    places
}

/// The fewest vias of a tile and all below these branches, if its other layers are `fixed`: over all spans from a lowest
/// to a highest layer that hold the fixed ones, each branch takes its cheapest layer inside the span. A span that is
/// wider than its layers need only costs more, so this is the minimum over all combinations.
fn fewest(places: &[Place], fixed: &[u8], branches: &[usize], layers: u8) -> Option<u64> {
    let mut fewest: Option<u64> = None;
    for low in 1..=layers {
        for high in low..=layers {
            if fixed.iter().any(|layer| *layer < low || *layer > high) {
                continue;
            }
            let cheapest = |branch: &usize| (low..=high).filter_map(|l| places[*branch].fewest[usize::from(l)]).min();
            let Some(below) = branches.iter().map(cheapest).sum::<Option<u64>>() else { continue };
            let vias = u64::from(high - low) + below;
            fewest = Some(fewest.map_or(vias, |least| least.min(vias)));
        }
    }
    fewest
}

/// One net at its turn: the layers are legal, no legal choice has fewer vias, and none with as few comes first.
fn check_net(metal: &Metal, net: &Net, layers: &[u8]) -> Result<(), String> {
    let stack = metal.job.layers as u8;
    for (edge, layer) in net.edges.iter().zip(layers) {
        claim((1..=stack).contains(layer), || format!("edge {edge}: no layer {layer}"))?;
        claim(metal.allows(*edge, *layer), || format!("edge {edge}: layer {layer} is not legal"))?;
    }
    let mut places = places(metal.job, net, layers);
    claim(places.len() == net.edges.len() + 1, || "the walk misses an edge".to_string())?;
    let steps = walk(metal.job.grid, net);
    let same =
        places.iter().map(|p| (p.tile, p.edge, &p.branches)).eq(steps.iter().map(|s| (s.tile, s.edge, &s.branches)));
    claim(same, || "the walk".to_string())?;
    for place in (1..places.len()).rev() {
        let edge = places[place].edge.unwrap();
        for layer in (1..=stack).filter(|layer| metal.allows(edge, *layer)) {
            let mut fixed = places[place].fixed.clone();
            fixed.push(layer);
            places[place].fewest[usize::from(layer)] = fewest(&places, &fixed, &places[place].branches, stack);
        }
    }
    let least = fewest(&places, &places[0].fixed, &places[0].branches, stack);
    let counted = vias(metal.job.grid, net, layers);
    claim(least == Some(counted), || format!("{counted} vias where {least:?} are the fewest"))?;

    for (at, place) in places.iter().enumerate() {
        let mut fixed = place.fixed.clone();
        if at > 0 {
            fixed.push(place.layer);
        }
        let least = fewest(&places, &fixed, &place.branches, stack).expect("it was found before");
        let mut below = 0;
        for (number, branch) in place.branches.iter().enumerate() {
            let (layer, later) = (places[*branch].layer, &place.branches[number + 1..]);
            let with = |layer: u8| {
                let here = places[*branch].fewest[usize::from(layer)]?;
                let mut fixed = fixed.clone();
                fixed.push(layer);
                Some(below + here + fewest(&places, &fixed, later, stack)?)
            };
            let first = (1..=stack).find(|layer| with(*layer) == Some(least));
            let edge = places[*branch].edge.unwrap();
            claim(first == Some(layer), || format!("edge {edge}: layer {layer} where {first:?} comes first"))?;
            below += places[*branch].fewest[usize::from(layer)].unwrap();
            fixed.push(layer);
        }
    }
    Ok(())
}

/// The edges that have one limit in common, each time with the number of layers that they share: all edges, or with a
/// `dirs` line those to the east and those to the north.
fn sharing(job: &Job) -> Vec<(Range<usize>, u64)> {
    let (edges, east) = (job.grid.edges(), job.grid.east_edges());
    match &job.dirs {
        None => vec![(0..edges, job.layers as u64)],
        Some(dirs) => {
            let horizontal = dirs.iter().filter(|direction| **direction == Direction::East).count() as u64;
            vec![(0..east, horizontal), (east..edges, job.layers as u64 - horizontal)]
        }
    }
}

/// The largest of some numbers, 0 where there are none.
fn largest(numbers: impl Iterator<Item = u64>) -> u64 {
    numbers.max().unwrap_or(0)
}

/// How many nets a hand-out leaves without a track: layer by layer upwards, the tracks of a layer go to nets that want it
/// or wanted a lower one and have none yet, as many as there are. `nets[l - 1]` want layer l and up.
fn handed_out(tracks: &[u64], nets: &[u64]) -> u64 {
    nets.iter().zip(tracks).fold(0, |waiting: u64, (more, tracks)| (waiting + more).saturating_sub(*tracks))
}

/// How many nets any hand-out leaves without a track, at the least: for each layer, those that want it or a higher one
/// find no track below it.
fn without_at_least(tracks: &[u64], nets: &[u64]) -> u64 {
    let missing = |from: usize| {
        let (nets, tracks) = (nets[from..].iter().sum::<u64>(), tracks[from..].iter().sum());
        nets.saturating_sub(tracks)
    };
    largest((0..tracks.len()).map(missing))
}

/// The nets with `low` above 1 that must go without a track on a layer that they want, summed over all edges: on each
/// edge some hand-out leaves so many, and none leaves fewer.
fn must_go_without(job: &Job) -> Result<u64, String> {
    // by edge, then layer
    let mut nets = vec![vec![0; job.layers]; job.grid.edges()];
    for net in job.nets.iter().filter(|net| net.low.is_some_and(|layer| layer > 1)) {
        net.edges.iter().for_each(|edge| nets[*edge][usize::from(net.low.unwrap()) - 1] += 1u64);
    }
    let mut sum = 0;
    for (edge, nets) in nets.iter().enumerate() {
        let tracks: Vec<u64> = job.capacity.iter().map(|layer| layer[edge]).collect();
        let (some, least) = (handed_out(&tracks, nets), without_at_least(&tracks, nets));
        claim(some == least, || format!("edge {edge}: {some} nets go without, where {least} have to"))?;
        sum += least;
    }
    Ok(sum)
}

/// A tile that the growing tree took up: the place of the entry that it took it up by, none at the first; and the tile
/// before it.
struct Grown {
    tile: usize,
    entry: Option<usize>,
    before: usize,
}

/// Grows a tree from the first pin's tile: again and again it takes up one more tile by the earliest entry that leads out of
/// it. An entry is left out exactly if it closes a ring with earlier ones: then these lead from one of its ends to the other,
/// and the tree went along them first.
fn grow(grid: Grid, net: &Net) -> Vec<Grown> {
    let mut entries_at: Vec<Vec<usize>> = vec![Vec::new(); grid.tiles()];
    for (entry, edge) in net.edges.iter().enumerate() {
        grid.ends(*edge).into_iter().for_each(|tile| entries_at[tile].push(entry));
    }
    let mut inside = vec![false; grid.tiles()];
    let mut out: BTreeSet<(usize, usize)> = BTreeSet::new(); // entries with the tile inside
    let mut grown = vec![Grown { tile: net.pins[0].tile, entry: None, before: net.pins[0].tile }];
    loop {
        let tile = grown.last().unwrap().tile;
        inside[tile] = true;
        out.extend(entries_at[tile].iter().map(|entry| (*entry, tile)));
        let next = loop {
            let Some((entry, before)) = out.pop_first() else { return grown };
            let far = grid.ends(net.edges[entry]).into_iter().find(|tile| !inside[*tile]);
            if let Some(tile) = far {
                break Grown { tile, entry: Some(entry), before };
            }
        };
        grown.push(next);
    }
}

/// Which entries of a net's `edges` line are kept: without a ring all; else the tree's edges with a pin on both sides.
fn kept(grid: Grid, net: &Net) -> Vec<bool> {
    let grown = grow(grid, net);
    if grown.len() > net.edges.len() {
        return vec![true; net.edges.len()];
    }
    // by tile: the pins in it and in all tiles that the tree took up behind it
    let mut pins = vec![0; grid.tiles()];
    net.pins.iter().for_each(|pin| pins[pin.tile] += 1);
    let mut kept = vec![false; net.edges.len()];
    for Grown { tile, entry, before } in grown.iter().rev() {
        if let Some(entry) = entry {
            kept[*entry] = (1..net.pins.len()).contains(&pins[*tile]);
            pins[*before] += pins[*tile];
        }
    }
    kept
}

/// The job and its plan over the kept edges alone. The dropped ones, and only they, have layer 0 in the plan.
fn over_kept(job: &Job, plan: &Plan) -> Result<(Job, Plan), String> {
    claim(plan.layers.len() == job.nets.len(), || "lengths".to_string())?;
    let (mut job, mut plan) = (job.clone(), plan.clone());
    for (place, net) in job.nets.iter_mut().enumerate() {
        let (kept, layers) = (kept(job.grid, net), &mut plan.layers[place]);
        claim(layers.len() == kept.len(), || format!("net {}: {} layers", place + 1, layers.len()))?;
        let as_kept = kept.iter().zip(&*layers).all(|(kept, layer)| *kept == (*layer > 0));
        claim(as_kept, || format!("net {}: {layers:?} where {kept:?} are kept", place + 1))?;
        *layers = of_kept(layers, &kept);
        net.edges = of_kept(&net.edges, &kept);
    }
    Ok((job, plan))
}

/// All that is checked of a plan of any size.
pub fn check(job: &Job, plan: &Plan) -> Result<(), String> {
    let (job, plan) = &over_kept(job, plan)?;
    let edges = job.grid.edges();
    let mut demand = vec![0; edges];
    job.nets.iter().flat_map(|net| &net.edges).for_each(|edge| demand[*edge] += 1u64);
    let tracks: Vec<u64> = (0..edges).map(|e| job.capacity.iter().map(|layer| layer[e]).sum()).collect();
    let flat: Vec<u64> = (0..edges).map(|e| demand[e].max(tracks[e]) - tracks[e]).collect();
    let mut limit = vec![0; edges];
    for (part, layers) in sharing(job) {
        let most = largest(flat[part.clone()].iter().copied());
        // an accepted job has no net, so no overflow, on edges without a layer
        let least = (0..=most).find(|limit| limit * layers >= most);
        limit[part].fill(least.expect("edges with overflow have a layer"));
    }
    let mut metal = Metal { job, flat, limit, load: vec![vec![0; job.layers]; edges] };

    claim(plan.order.len() == job.nets.len(), || "lengths".to_string())?;
    let mut placed = vec![false; job.nets.len()];
    for (turn, entry) in plan.order.iter().enumerate() {
        let index = entry.net as usize - 1;
        let net = &job.nets[index];
        claim(!std::mem::replace(&mut placed[index], true), || format!("net {} is twice in the order", index + 1))?;
        let over = |a: u64, b: u64| a.checked_div(b).unwrap_or(a);
        let sum = |of: &[u64]| net.edges.iter().map(|e| of[*e]).sum::<u64>();
        let mut pin_tiles: Vec<usize> = net.pins.iter().map(|pin| pin.tile).collect();
        pin_tiles.sort_unstable();
        pin_tiles.dedup();
        let score = over(1000 * job.alpha, net.edges.len() as u64)
            + 1000 * job.beta * pin_tiles.len() as u64
            + over(1000 * job.gamma * sum(&demand), sum(&tracks));
        claim(entry.score == score, || format!("net {} scores {score}, not {}", entry.net, entry.score))?;
        let low = net.low.map_or(1, u32::from);
        claim(entry.low == low, || format!("net {} wants layer {low}, not {}", entry.net, entry.low))?;
        if let Some(before) = turn.checked_sub(1).map(|turn| plan.order[turn]) {
            let in_order = before.score > score || (before.score == score && before.net < entry.net);
            claim(in_order, || format!("net {} before net {}", before.net, entry.net))?;
        }
        let layers = &plan.layers[index];
        check_net(&metal, net, layers).map_err(|fault| format!("net {}: {fault}", entry.net))?;
        let counted = vias(job.grid, net, layers);
        claim(plan.vias[index] == counted, || format!("net {}: {counted} vias", entry.net))?;
        for (edge, layer) in net.edges.iter().zip(layers) {
            metal.load[*edge][usize::from(*layer) - 1] += 1;
        }
    }

    // each edge has just its flat overflow, and each maximum is just the limit
    for edge in 0..edges {
        let sum = metal.sum(edge);
        claim(sum == metal.flat[edge], || format!("edge {edge}: overflow {sum}, flat {}", metal.flat[edge]))?;
    }
    for (part, _) in sharing(job) {
        let limit = largest(part.clone().map(|edge| metal.limit[edge]));
        let highest =
            largest(part.flat_map(|e| (0..job.layers).map(move |l| (e, l))).map(|(e, l)| metal.overflow(e, l)));
        claim(highest == limit, || format!("maximum {highest}, limit {limit}"))?;
    }
    claim(plan.total_overflow == metal.flat.iter().sum::<u64>(), || "total overflow".to_string())?;
    claim(plan.max_overflow == largest(metal.limit.iter().copied()), || "maximum overflow".to_string())?;
    claim(plan.total_vias == plan.vias.iter().sum::<u64>(), || "total vias".to_string())?;

    let without = must_go_without(job)?;
    let ldof = if job.nets.iter().any(|net| net.low.is_some()) { Some(without) } else { None };
    claim(plan.ldof == ldof, || format!("ldof {:?} where {ldof:?} go without", plan.ldof))
}
