//! Many drawn jobs, each checked: the reading against what is known of the text, both calls with their effect on every
//! lent buffer, the plan by `check`, and on tiny jobs by `brute`.

use crate::calls::{answer, held, Planner, Returned};
use crate::cut::{cut, kept, of_kept};
use crate::gen::{draw, Drawn};
use crate::job::{read, Job, Lengths, Net, LAST_REFUSAL, NO_LONGER};
use crate::plan::{excess, plan, print, walk, Plan};
use crate::{brute, check};
use std::fmt;

/// A job is tiny if it has at most so many layerings, nets and entries on `edges` lines: then all its layerings are looked
/// at one by one.
pub const BRUTE_MOST: u64 = 40_000;
pub const BRUTE_MOST_NETS: usize = 20;
pub const BRUTE_MOST_ENTRIES: usize = 40;

/// And on each edge of a tiny job, if there are at most so many, all ways to hand out its tracks.
pub const BRUTE_MOST_HAND_OUTS: u64 = 300_000;

fn tiny(job: &Job, cut: &Job) -> bool {
    let few = job.nets.len() <= BRUTE_MOST_NETS && job.entries() <= BRUTE_MOST_ENTRIES;
    few && brute::layerings(cut, BRUTE_MOST).is_some()
}

/// What `brute` looked at in a tiny job.
pub struct Looked {
    pub layerings: u64,
    pub hand_outs: u64,
}

/// Without its `low` lines, the job has the same plan and prints the same lines but for `ldof`; each entry of the order
/// list then has layer 1.
fn placing_is_untouched(job: &Job, with: &Plan) -> Result<(), String> {
    let mut other = job.clone();
    other.nets.iter_mut().for_each(|net| net.low = None);
    let without = plan(&other);
    let mut same = Plan { ldof: None, ..with.clone() };
    same.order.iter_mut().for_each(|entry| entry.low = 1);
    let last = with.ldof.map_or(String::new(), |ldof| format!("ldof={ldof}\n"));
    if without != same || print(with) != print(&without) + &last {
        return Err(format!("without its `low` lines the job has the plan {without:?}"));
    }
    Ok(())
}

/// The job that the cut leaves has the same plan but for the dropped edges, and nothing more is cut from it.
fn cut_holds(job: &Job, cut_job: &Job, with: &Plan) -> Result<(), String> {
    let without = plan(cut_job);
    let layers = job.nets.iter().zip(&with.layers).map(|(net, layers)| of_kept(layers, &kept(job.grid, net)));
    let same = Plan { layers: layers.collect(), ..with.clone() };
    if without != same || cut(cut_job) != *cut_job {
        return Err(format!("the cut job has the plan {without:?}"));
    }
    Ok(())
}

/// All checks of the plan of an accepted job: `check`, the length of its print, and on a tiny job `brute`, the cut job, and
/// the same job without its `low` lines. Returns what `brute` looked at, where the job is tiny.
pub fn checked(job: &Job, plan: &Plan) -> Result<Option<Looked>, String> {
    check::check(job, plan)?;
    let printed = print(plan).len();
    if job.need().print.is_some_and(|need| printed > need) {
        return Err(format!("the print has {printed} bytes, more than the print buffer that is asked for"));
    }
    let cut = &cut(job);
    if !tiny(job, cut) {
        return Ok(None);
    }
    let layerings = brute::check(job, &plan.order, &plan.layers.concat(), &Returned::of(plan, printed))?;
    for net in &cut.nets {
        let edges = brute::walk_order(job, net).into_iter().map(|place| net.edges[place]);
        if !edges.eq(walk(job.grid, net).iter().filter_map(|step| step.edge)) {
            return Err("the walk is not in the order of the ways to its tiles".to_string());
        }
    }
    let hand_outs = brute::directives(cut, &excess(cut), plan.ldof, BRUTE_MOST_HAND_OUTS)?;
    cut_holds(job, cut, plan)?;
    placing_is_untouched(job, plan)?;
    Ok(Some(Looked { layerings, hand_outs }))
}

/// Whether several pins of the net are in one tile.
fn stacked(net: &Net) -> bool {
    (1..net.pins.len()).any(|at| net.pins[..at].iter().any(|before| before.tile == net.pins[at].tile))
}

/// The figures of a run.
#[derive(Default)]
pub struct Summary {
    pub jobs: u64,
    pub calls: u64,
    pub accepted: u64,
    /// By refusal number: jobs on which Print gave it.
    pub refused: [u64; LAST_REFUSAL + 1],
    pub damaged: u64,
    pub full: u64,
    pub largest_text: usize,
    pub most_nets: usize,
    /// Nets of accepted jobs, and those of them with several pins in one tile.
    pub nets: usize,
    pub stacked: usize,
    pub most_edges: usize,
    pub most_vias: u64,
    pub with_overflow: u64,
    /// Accepted jobs with a `dirs` line.
    pub with_directions: u64,
    /// Accepted jobs with a track count that no byte holds.
    pub with_many_tracks: u64,
    /// Accepted jobs with a `low` line, and those of them with nets that must go without.
    pub with_low_lines: u64,
    pub with_ldof: u64,
    /// Accepted jobs with dropped edges; the nets that lost some, those of them that lost all, and those that lost a tail
    /// without a pin besides what closes rings; and these edges.
    pub with_rings: u64,
    pub cut_nets: usize,
    pub emptied: usize,
    pub with_tails: usize,
    pub dropped: usize,
    pub brute: u64,
    pub brute_with_rings: u64,
    pub layerings: u64,
    pub hand_outs: u64,
}

impl fmt::Display for Summary {
    fn fmt(&self, out: &mut fmt::Formatter) -> fmt::Result {
        writeln!(out, "jobs={} damaged={} calls={}", self.jobs, self.damaged, self.calls)?;
        write!(out, "accepted={} of_these_with_overflow={}", self.accepted, self.with_overflow)?;
        write!(out, " with_directions={}", self.with_directions)?;
        writeln!(out, " with_a_capacity_above_255={}", self.with_many_tracks)?;
        writeln!(out, "accepted_with_low_lines={} of_these_with_ldof_above_0={}", self.with_low_lines, self.with_ldof)?;
        writeln!(out, "nets={} of_these_with_stacked_pins={}", self.nets, self.stacked)?;
        write!(out, "accepted_with_rings={} nets_cut={} dropped={}", self.with_rings, self.cut_nets, self.dropped)?;
        writeln!(out, " nets_that_lost_loose_edges={} all_edges={}", self.with_tails, self.emptied)?;
        let refused: Vec<String> =
            (1..=LAST_REFUSAL).filter(|n| *n != NO_LONGER).map(|n| format!("{n}:{}", self.refused[n])).collect();
        writeln!(out, "refused {}", refused.join(" "))?;
        write!(out, "largest accepted: text={} nets={}", self.largest_text, self.most_nets)?;
        writeln!(out, " edges={} vias={}; texts of the full length: {}", self.most_edges, self.most_vias, self.full)?;
        write!(out, "by_brute_force={} of_these_with_rings={}", self.brute, self.brute_with_rings)?;
        writeln!(out, " layerings={} hand_outs={}", self.layerings, self.hand_outs)
    }
}

impl Summary {
    /// Draws the job of this seed and holds the planner to it.
    pub fn add(&mut self, planner: &dyn Planner, seed: u64) -> Result<(), String> {
        let drawn = draw(seed, None, None);
        self.add_drawn(planner, &drawn, seed).map_err(|fault| {
            let Drawn { kind, damage, lent, .. } = &drawn;
            format!("seed {seed} ({kind:?}, {damage:?}, {lent:?}): {fault}")
        })
    }

    /// Counts what the cut of an accepted job dropped. Whether it dropped some edge.
    fn add_cut(&mut self, job: &Job, plan: &Plan) -> bool {
        let before = self.dropped;
        for (net, layers) in job.nets.iter().zip(&plan.layers) {
            let dropped = layers.iter().filter(|layer| **layer == 0).count();
            if dropped > 0 {
                // the edges of a spanning tree stay, where nothing hangs loose
                let closing = net.edges.len() + 1 - net.tiles(job.grid).len();
                self.cut_nets += 1;
                self.emptied += usize::from(dropped == layers.len());
                self.with_tails += usize::from(dropped > closing);
                self.dropped += dropped;
            }
        }
        let rings = self.dropped > before;
        self.with_rings += u64::from(rings);
        rings
    }

    /// Holds the planner to a job that is drawn already. The seed is that of what the buffers hold before each call.
    pub fn add_drawn(&mut self, planner: &dyn Planner, drawn: &Drawn, seed: u64) -> Result<(), String> {
        let Drawn { job, text, lent, .. } = drawn;
        self.jobs += 1;
        self.damaged += u64::from(*text != crate::gen::write(job));

        // the undamaged text with exactly the needed lengths is read as the job
        if read(&crate::gen::write(job), job.need()).as_ref() != Ok(job) {
            return Err("the job's own text is not read as the job".to_string());
        }
        for print in [None, lent.print] {
            let lent = Lengths { print, ..*lent };
            let expected = answer(text, lent);
            if let Some(outcome) = drawn.outcome(lent) {
                if expected.as_ref().err() != outcome.as_ref() {
                    return Err(format!("{:?} where {outcome:?} was expected", expected.err()));
                }
            }
            let returned = held(planner, text, lent, &expected, seed)?;
            self.calls += 1;
            if print.is_none() {
                continue;
            }
            self.refused[returned.number as usize] += 1;
            let Ok(plan) = expected else { continue };

            let job = &read(text, lent).map_err(|refusal| format!("{refusal:?} after an accepted call"))?;
            let rings = self.add_cut(job, &plan);
            if let Some(looked) = checked(job, &plan)? {
                self.brute += 1;
                self.brute_with_rings += u64::from(rings);
                self.layerings += looked.layerings;
                self.hand_outs += looked.hand_outs;
            }
            self.accepted += 1;
            self.with_overflow += u64::from(plan.total_overflow > 0);
            self.with_directions += u64::from(job.dirs.is_some());
            self.with_many_tracks += u64::from(job.capacity.iter().flatten().any(|tracks| *tracks > 255));
            self.with_low_lines += u64::from(plan.ldof.is_some());
            self.with_ldof += u64::from(plan.ldof.is_some_and(|ldof| ldof > 0));
            self.full += u64::from(text.len() == crate::job::TEXT_LIMIT);
            self.largest_text = self.largest_text.max(text.len());
            self.most_nets = self.most_nets.max(job.nets.len());
            self.nets += job.nets.len();
            self.stacked += job.nets.iter().filter(|net| stacked(net)).count();
            self.most_edges = self.most_edges.max(job.entries());
            self.most_vias = self.most_vias.max(plan.total_vias);
        }
        Ok(())
    }
}
