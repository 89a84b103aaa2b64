//! Demand 3 and the tie rule in their own words, for tiny jobs: all layerings of all nets are looked at one by one.
//! Nothing here uses the planner; what it takes is the job, the order list, the answer list and the returned numbers.
//! For the layer directives, all ways to hand out the tracks of an edge are looked at one by one. For the cut, all orders in
//! which loose edges are lost.
//!
//! Of all legal choices with the fewest vias, the first in walk order is in fact the lowest on each single edge: take of
//! two such choices the lower layer on each edge, and in another choice the higher one. Both are legal, and as highest
//! and lowest of a tile go, the two together have no more vias than the first two. So both have the fewest too. It
//! follows that any order of the edges gives the same plan, and that a wrong walk does not show in a plan.

use crate::calls::Returned;
use crate::cut::of_kept;
use crate::job::{Direction, Job, Net};
use crate::plan::Entry;
use std::collections::BTreeSet;

/// The layers that an edge may use: 1 to K, without those that run the other way.
fn allowed(job: &Job, edge: usize) -> Vec<u8> {
    let mut layers: Vec<u8> = (1..=job.layers as u8).collect();
    if let Some(dirs) = &job.dirs {
        let (_, east) = job.grid.named(edge);
        layers.retain(|layer| dirs[usize::from(*layer) - 1] == if east { Direction::East } else { Direction::North });
    }
    layers
}

fn claim(holds: bool, what: &str) -> Result<(), String> {
    if holds {
        Ok(())
    } else {
        Err(what.to_string())
    }
}

/// So many sets of kept edges are looked at in one net, at most.
const MOST_SETS: usize = 5_000;

/// Whether a way leads from one tile to another along these edges, which have no ring, and not back along the last.
fn leads(job: &Job, edges: &[usize], from: usize, to: usize, last: Option<usize>) -> bool {
    let on = |edge: &&usize| Some(**edge) != last && job.grid.ends(**edge).contains(&from);
    let far = |edge: usize| job.grid.ends(edge).into_iter().find(|tile| *tile != from).unwrap();
    from == to || edges.iter().filter(on).any(|edge| leads(job, edges, far(*edge), to, Some(*edge)))
}

/// The edges of the net without those that close a ring with kept earlier ones.
fn opened(job: &Job, net: &Net) -> Vec<usize> {
    let mut opened = Vec::new();
    for edge in &net.edges {
        let [a, b] = job.grid.ends(*edge);
        if !leads(job, &opened, a, b, None) {
            opened.push(*edge);
        }
    }
    opened
}

/// All that may be left of these edges, once no tile with one edge and no pin is left: by every order in which such tiles
/// lose their edges. Where there are too many sets on the way, just one order is gone along.
fn leftovers(job: &Job, net: &Net, edges: Vec<usize>) -> BTreeSet<Vec<usize>> {
    let (mut seen, mut open, mut left) = (BTreeSet::new(), vec![edges], BTreeSet::new());
    while let Some(edges) = open.pop() {
        let edges_at = |tile: usize| edges.iter().filter(|edge| job.grid.ends(**edge).contains(&tile)).count();
        let loose = |tile: usize| edges_at(tile) == 1 && net.pins.iter().all(|pin| pin.tile != tile);
        let places = (0..edges.len()).filter(|place| job.grid.ends(edges[*place]).into_iter().any(loose));
        let without = |place: usize| [&edges[..place], &edges[place + 1..]].concat();
        let mut next: Vec<Vec<usize>> = places.map(without).collect();
        if next.is_empty() {
            left.insert(edges);
            continue;
        }
        next.truncate(if seen.len() < MOST_SETS { next.len() } else { 1 });
        open.extend(next.into_iter().filter(|edges| seen.insert(edges.clone())));
    }
    left
}

/// The net's kept edges: no ring is left, and every pin stays joined to every other; whatever the order in which loose edges
/// are lost.
fn kept(job: &Job, net: &Net) -> Result<Vec<usize>, String> {
    let opened = opened(job, net);
    if opened.len() == net.edges.len() {
        return Ok(opened);
    }
    let mut leftovers = leftovers(job, net, opened);
    claim(leftovers.len() == 1, "the order in which loose edges are lost is of no account")?;
    let kept = leftovers.pop_first().unwrap();
    let joined = net.pins.iter().all(|pin| leads(job, &kept, net.pins[0].tile, pin.tile, None));
    claim(joined, "every pin stays joined")?;
    let tiles: BTreeSet<usize> = kept.iter().flat_map(|edge| job.grid.ends(*edge)).collect();
    claim(kept.is_empty() || tiles.len() == kept.len() + 1, "no ring is left, and the net stays in one part")?;
    Ok(kept)
}

/// d(e) and o(e) of every edge.
fn flat(job: &Job) -> (Vec<u64>, Vec<u64>) {
    let users = |edge: &usize| job.nets.iter().filter(|net| net.edges.contains(edge)).count() as u64;
    let tracks = |edge: &usize| job.capacity.iter().map(|layer| layer[*edge]).sum::<u64>();
    let edges = 0..job.grid.edges();
    (edges.clone().map(|e| users(&e)).collect(), edges.map(|e| users(&e).saturating_sub(tracks(&e))).collect())
}

/// The cut job, and the kept part of its answer list: the other entries have layer 0. No edge has more nets than before, and
/// neither TO nor a maximum of the flat plan rises.
fn cut(job: &Job, answer: &[u8]) -> Result<(Job, Vec<u8>), String> {
    claim(answer.len() == job.entries(), "the answer list has one byte for each entry")?;
    let (mut cut, mut layers, mut answer) = (job.clone(), Vec::new(), answer);
    for net in &mut cut.nets {
        let (of_net, rest) = answer.split_at(net.edges.len());
        let kept_edges = kept(job, net)?;
        let kept: Vec<bool> = net.edges.iter().map(|edge| kept_edges.contains(edge)).collect();
        let dropped = of_net.iter().zip(&kept).all(|(layer, kept)| *kept || *layer == 0);
        claim(dropped, "a dropped edge has layer 0")?;
        layers.extend(of_kept(of_net, &kept));
        (net.edges, answer) = (kept_edges, rest);
    }
    let (before, after) = (flat(job), flat(&cut));
    claim(after.0.iter().zip(&before.0).all(|(after, before)| after <= before), "no demand rises")?;
    claim(after.1.iter().sum::<u64>() <= before.1.iter().sum(), "TO does not rise")?;
    let (most, most_before) = (maxima(job, &after.1, 1), maxima(job, &before.1, 1));
    claim(most.iter().zip(&most_before).all(|(after, before)| after <= before), "MO does not rise")?;
    Ok((cut, layers))
}

/// The number of layerings of a job without rings, if it is at most `most`.
pub fn layerings(job: &Job, most: u64) -> Option<u64> {
    let edges = job.nets.iter().flat_map(|net| &net.edges);
    let count = edges.map(|edge| allowed(job, *edge).len() as u64).try_fold(1, u64::checked_mul)?;
    Some(count).filter(|count| *count <= most)
}

/// All lists with a layer for each of these edges, along the allowed layers only, in dictionary order.
fn choices<'a>(job: &Job, edges: impl Iterator<Item = &'a usize>) -> impl Iterator<Item = Vec<u8>> {
    let allowed: Vec<Vec<u8>> = edges.map(|edge| allowed(job, *edge)).collect();
    let count: u64 = allowed.iter().map(|layers| layers.len() as u64).product();
    (0..count).map(move |mut number| {
        let mut list = vec![0; allowed.len()];
        for (entry, layers) in list.iter_mut().zip(&allowed).rev() {
            *entry = layers[(number % layers.len() as u64) as usize];
            number /= layers.len() as u64;
        }
        list
    })
}

/// The maximum that an edge counts for: the only one, or with a `dirs` line that of its direction, east or north.
fn group(job: &Job, edge: usize) -> usize {
    let (_, east) = job.grid.named(edge);
    usize::from(job.dirs.is_some() && !east)
}

/// The number of layers behind each maximum.
fn layers_by_group(job: &Job) -> Vec<u64> {
    let Some(dirs) = &job.dirs else { return vec![job.layers as u64] };
    let layers = |direction| dirs.iter().filter(|other| **other == direction).count() as u64;
    vec![layers(Direction::East), layers(Direction::North)]
}

/// Each maximum of these overflows, of which every edge has `each`; 0 where there are no edges.
fn maxima(job: &Job, overflows: &[u64], each: usize) -> Vec<u64> {
    let mut maxima = vec![0; layers_by_group(job).len()];
    for (edge, overflows) in overflows.chunks(each).enumerate() {
        let maximum = &mut maxima[group(job, edge)];
        *maximum = overflows.iter().copied().fold(*maximum, u64::max);
    }
    maxima
}

/// The overflow of every layer of every edge, if each entry of the job's `edges` lines, in job order, is on the layer
/// named here; 0 names none. K numbers for each edge.
fn overflows(job: &Job, layering: &[u8]) -> Vec<u64> {
    let mut nets_there = vec![0u64; job.layers * job.grid.edges()];
    for (edge, layer) in job.nets.iter().flat_map(|net| &net.edges).zip(layering) {
        if *layer > 0 {
            nets_there[edge * job.layers + usize::from(*layer) - 1] += 1;
        }
    }
    for edge in 0..job.grid.edges() {
        for layer in 0..job.layers {
            let there = &mut nets_there[edge * job.layers + layer];
            *there = there.saturating_sub(job.capacity[layer][edge]);
        }
    }
    nets_there
}

/// The vias of one net under a choice: tile by tile, highest minus lowest.
fn vias(job: &Job, net: &Net, choice: &[u8]) -> u64 {
    let mut sum = 0;
    for tile in 0..job.grid.tiles() {
        let pins = net.pins.iter().filter(|pin| pin.tile == tile).map(|pin| pin.layer);
        let meets = |edge: &usize| job.grid.ends(*edge).contains(&tile);
        let edges = net.edges.iter().zip(choice).filter(|(edge, _)| meets(edge)).map(|(_, layer)| *layer);
        let set: Vec<u8> = pins.chain(edges).collect();
        if let (Some(highest), Some(lowest)) = (set.iter().max(), set.iter().min()) {
            sum += u64::from(highest - lowest);
        }
    }
    sum
}

/// The places on the `edges` line in walk order. Breadth first means: by the number of steps from the lowest-numbered
/// tile, and of equally far tiles the one whose way there comes first, east before north before west before south.
pub fn walk_order(job: &Job, net: &Net) -> Vec<usize> {
    fn go(
        job: &Job,
        net: &Net,
        tile: usize,
        way_there: &[usize],
        back: Option<usize>,
        found: &mut Vec<(Vec<usize>, usize)>,
    ) {
        for way in 0..4 {
            let Some((far, edge)) = job.grid.way(tile, way) else { continue };
            let Some(place) = net.edges.iter().position(|other| *other == edge) else { continue };
            if back != Some(edge) {
                let there = [way_there, &[way]].concat();
                found.push((there.clone(), place));
                go(job, net, far, &there, Some(edge), found);
            }
        }
    }
    let mut found = Vec::new();
    let first = net.edges.iter().flat_map(|edge| job.grid.ends(*edge)).min();
    if let Some(tile) = first {
        go(job, net, tile, &[], None, &mut found);
    }
    found.sort_by_key(|(way_there, _)| (way_there.len(), way_there.clone()));
    found.into_iter().map(|(_, place)| place).collect()
}

/// Checks the cut, and the plan of an accepted job against demand 3, and against the tie rule. Returns how many layerings
/// there were.
pub fn check(job: &Job, order: &[Entry], answer: &[u8], returned: &Returned) -> Result<u64, String> {
    let (job, answer) = &cut(job, answer)?;
    let nets = job.nets.len();
    let all_edges = || job.nets.iter().flat_map(|net| &net.edges);

    // the plan is a layering: one layer that the edge may use for each edge of each net
    let is_layering = all_edges().zip(answer).all(|(edge, layer)| allowed(job, *edge).contains(layer));
    claim(is_layering, "the answer list holds layers that the edges may use")?;
    let start = |net: usize| job.nets[..net].iter().map(|net| net.edges.len()).sum::<usize>();
    let part = |net: usize| start(net)..start(net) + job.nets[net].edges.len();

    // the order list: each net once, with its score; a net goes before another with a higher score, or an equal one
    // and a lower number
    claim(order.len() == nets, "the order list has one entry for each net")?;
    let users = |edge: &usize| job.nets.iter().filter(|net| net.edges.contains(edge)).count() as u64;
    let tracks = |edge: &usize| job.capacity.iter().map(|layer| layer[*edge]).sum::<u64>();
    let score = |net: &Net| {
        let d: u64 = net.edges.iter().map(users).sum();
        let c: u64 = net.edges.iter().map(tracks).sum();
        let first_in_tile = |at: &usize| net.pins[..*at].iter().all(|before| before.tile != net.pins[*at].tile);
        let p = (0..net.pins.len()).filter(first_in_tile).count() as u64;
        let l = net.edges.len() as u64;
        let c = if c == 0 { 1 } else { c };
        let l = if l == 0 { 1 } else { l };
        1000 * job.alpha / l + 1000 * job.beta * p + 1000 * job.gamma * d / c
    };
    let scores: Vec<u64> = job.nets.iter().map(score).collect();
    for net in 0..nets {
        let goes_before =
            |other: &usize| scores[*other] > scores[net] || (scores[*other] == scores[net] && *other < net);
        let turn = (0..nets).filter(goes_before).count();
        let low = job.nets[net].low.map_or(1, u32::from);
        let entry = Entry { net: net as u32 + 1, low, score: scores[net] };
        claim(order[turn] == entry, "the order is that of the scores, each net with its lowest wanted layer")?;
    }
    let by_turn: Vec<usize> = order.iter().map(|entry| entry.net as usize - 1).collect();

    // the flat plan
    let flat: Vec<u64> = (0..job.grid.edges()).map(|edge| users(&edge).saturating_sub(tracks(&edge))).collect();
    let total: u64 = flat.iter().sum();
    let rounded_up = |(most, layers): (u64, u64)| match layers {
        0 => 0,
        _ => most / layers + u64::from(most % layers > 0),
    };
    let limits: Vec<u64> = maxima(job, &flat, 1).into_iter().zip(layers_by_group(job)).map(rounded_up).collect();

    // the plan has just that total and just the rounded-up maximum, with a `dirs` line that of each direction; the total,
    // the largest overflow of all and the vias are returned
    let of_plan = overflows(job, answer);
    claim(of_plan.iter().sum::<u64>() == total, "the plan's total is that of the flat plan")?;
    let as_limited = maxima(job, &of_plan, job.layers) == limits;
    claim(as_limited, "the plan's maximum is that of the flat plan by the number of layers, rounded up")?;
    let maximum = of_plan.iter().copied().max().unwrap_or(0);
    let all_vias: u64 = (0..nets).map(|net| vias(job, &job.nets[net], &answer[part(net)])).sum();
    claim(returned.vias == all_vias, "the returned vias are the plan's")?;
    claim((returned.total, returned.maximum) == (total, maximum), "the returned overflow is the plan's")?;

    // no layering is below; and the choices that are to be considered at each turn
    let mut considered: Vec<BTreeSet<Vec<u8>>> = vec![BTreeSet::new(); nets];
    let mut count = 0;
    for layering in choices(job, all_edges()) {
        count += 1;
        let overflows = overflows(job, &layering);
        let (sum, highest) = (overflows.iter().sum::<u64>(), maxima(job, &overflows, job.layers));
        let each = |holds: fn(&u64, &u64) -> bool| highest.iter().zip(&limits).all(|(one, limit)| holds(one, limit));
        claim(sum >= total, "no layering has a lower total")?;
        claim(each(u64::ge), "no layering has a lower maximum")?;
        if sum == total && each(u64::le) {
            for (turn, net) in by_turn.iter().enumerate() {
                considered[turn].insert(layering[part(*net)].to_vec());
                if layering[part(*net)] != answer[part(*net)] {
                    break; // for the nets after this one, an earlier net is not as in the plan
                }
            }
        }
    }

    // each net at its turn
    for (turn, net) in by_turn.iter().enumerate() {
        let (edges, chosen) = (&job.nets[*net].edges, &answer[part(*net)]);
        let cost = |choice: &[u8]| vias(job, &job.nets[*net], choice);
        claim(considered[turn].contains(chosen), "the plan's choice is to be considered")?;
        let none_cheaper = considered[turn].iter().all(|choice| cost(choice) >= cost(chosen));
        claim(none_cheaper, "no choice that is to be considered has fewer vias")?;

        // the legal choices: earlier nets as in the plan, this one put on top, later ones not there yet
        let mut earlier = vec![0; answer.len()];
        for net in &by_turn[..turn] {
            earlier[part(*net)].copy_from_slice(&answer[part(*net)]);
        }
        let mut legal: Vec<Vec<u8>> = Vec::new();
        for choice in choices(job, edges.iter()) {
            let mut with = earlier.clone();
            with[part(*net)].copy_from_slice(&choice);
            let overflows = overflows(job, &with);
            let layer_fits = |(edge, layer): (&usize, &u8)| {
                let of_edge = &overflows[edge * job.layers..(edge + 1) * job.layers];
                of_edge[usize::from(*layer) - 1] <= limits[group(job, *edge)]
                    && of_edge.iter().sum::<u64>() <= flat[*edge]
            };
            if edges.iter().zip(&choice).all(layer_fits) {
                legal.push(choice);
            }
        }
        let as_legal = legal.iter().cloned().collect::<BTreeSet<_>>() == considered[turn];
        claim(as_legal, "the legal choices are those to be considered")?;

        // of the legal choices with the fewest vias, the first in walk order
        let walk = walk_order(job, &job.nets[*net]);
        claim(walk.len() == edges.len(), "the walk goes along every edge")?;
        let fewest = legal.iter().map(|choice| cost(choice)).min();
        let ties = legal.iter().filter(|choice| Some(cost(choice)) == fewest);
        let first = ties.min_by_key(|choice| walk.iter().map(|place| choice[*place]).collect::<Vec<u8>>());
        claim(first.map(Vec::as_slice) == Some(chosen), "of the cheapest choices, the first in walk order")?;
        let mut ties = legal.iter().filter(|choice| Some(cost(choice)) == fewest);
        let lowest = ties.all(|choice| choice.iter().zip(chosen).all(|(other, layer)| layer <= other));
        claim(lowest, "of the cheapest choices, the lowest on each edge")?;
    }
    Ok(count)
}

/// All ways to hand out the tracks of an edge.
struct HandOut<'a> {
    /// By layer from 0: the tracks that are not yet handed out.
    left: Vec<u64>,
    /// The lowest wanted layers of the nets with `low` above 1 on the edge.
    wanted: &'a [u8],
    /// The fewest nets that went without so far, and how many ways were looked at.
    fewest: usize,
    ways: u64,
}

impl HandOut<'_> {
    /// All ways to hand out what is left to the nets from this one on: each gets nothing, or a track on its lowest wanted
    /// layer or a higher one. `without` nets before it got nothing.
    fn go(&mut self, net: usize, without: usize) {
        let Some(low) = self.wanted.get(net) else {
            self.fewest = self.fewest.min(without);
            self.ways += 1;
            return;
        };
        self.go(net + 1, without + 1);
        for layer in usize::from(*low) - 1..self.left.len() {
            if self.left[layer] > 0 {
                self.left[layer] -= 1;
                self.go(net + 1, without);
                self.left[layer] += 1;
            }
        }
    }
}

/// Checks the layer directives of a job without rings: on each edge the excess is the fewest nets with `low` above 1 that go without a
/// track on a layer that they want, over all ways to hand out tracks; and `ldof`, in a job with a `low` line, is their
/// sum. Edges with more than `most` ways are passed over. Returns how many ways were looked at, on edges with such nets.
pub fn directives(job: &Job, excess: &[u64], ldof: Option<u64>, most: u64) -> Result<u64, String> {
    let mut ways = 0;
    let high: Vec<&Net> = job.nets.iter().filter(|net| net.low > Some(1)).collect();
    for (edge, excess) in excess.iter().enumerate() {
        let wanted: Vec<u8> = high.iter().filter(|net| net.edges.contains(&edge)).filter_map(|net| net.low).collect();
        let choices = wanted.iter().map(|low| (job.layers as u64 + 2) - u64::from(*low));
        if choices.fold(1, u64::saturating_mul) > most {
            continue;
        }
        let left = job.capacity.iter().map(|layer| layer[edge]).collect();
        let mut all = HandOut { left, wanted: &wanted, fewest: wanted.len(), ways: 0 };
        all.go(0, 0);
        ways += if wanted.is_empty() { 0 } else { all.ways };
        if all.fewest as u64 != *excess {
            return Err(format!("edge {edge}: excess {excess}, but {} nets must go without", all.fewest));
        }
    }
    let lines = job.nets.iter().filter(|net| net.low.is_some()).count();
    let sum = if lines > 0 { Some(excess.iter().sum()) } else { None };
    if ldof != sum {
        return Err(format!("ldof {ldof:?} where the edges have {sum:?}"));
    }
    Ok(ways)
}
