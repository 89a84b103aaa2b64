//! The library's calls with storage to lend. Everything that is decided about a job or a plan is decided there.

use layerplan::{Entry, Lengths, Refusal, Totals, TEXT_MOST};

/// Storage that is lent to the library, call after call.
pub struct Planner {
    lent: Lengths,
    work: Vec<u32>,
    order: Vec<Entry>,
    answer: Vec<u8>,
    print: Vec<u8>,
}

/// What the library found for an accepted job.
#[derive(Debug)]
pub struct Planned<'a> {
    pub totals: Totals,
    /// The last line of the printed plan; none where the job has no `low` line.
    pub ldof: Option<u64>,
    /// The nets with their lowest wanted layers and scores, in placing order; beyond the job's nets, what stood there
    /// before.
    pub order: &'a [Entry],
    /// The layers, 0 for a dropped edge, nets in job order.
    pub answer: &'a [u8],
}

impl Planner {
    /// Storage that is enough for every text, so that none is refused for want of it (9 to 11). A text that is cut off
    /// may announce more nets than it has room for, so its length says nothing of what it takes.
    pub fn new() -> Planner {
        Planner::lending(Lengths::enough(TEXT_MOST))
    }

    /// Storage of just these lengths.
    pub fn lending(lent: Lengths) -> Planner {
        Planner {
            lent,
            work: vec![0; lent.work],
            order: vec![Entry::default(); lent.order],
            answer: vec![0; lent.answer],
            print: vec![0; lent.print],
        }
    }

    pub fn lent(&self) -> Lengths {
        self.lent
    }

    /// The printed plan, with all that the call gives beside it.
    pub fn print(&mut self, text: &[u8]) -> Result<(&[u8], Planned<'_>), Refusal> {
        let Planner { work, order, answer, print, .. } = self;
        let layerplan::Printed { totals, length } = layerplan::print(text, work, order, answer, print)?;
        let printed = &print[..length];
        Ok((printed, Planned { totals, ldof: ldof(printed), order, answer }))
    }
}

/// The number on the line `ldof` of a printed plan, which is its last; none where the plan has no such line.
pub fn ldof(printed: &[u8]) -> Option<u64> {
    let line = printed.strip_suffix(b"\n")?.rsplit(|byte| *byte == b'\n').next()?;
    std::str::from_utf8(line.strip_prefix(b"ldof=")?).ok()?.parse().ok()
}

impl Default for Planner {
    fn default() -> Planner {
        Planner::new()
    }
}

#[cfg(test)]
mod tests {
    use super::*;

    #[test]
    fn the_last_line_of_a_plan() {
        assert_eq!(ldof(include_bytes!("../../../examples/timing.plan")), Some(3));
        assert_eq!(ldof(include_bytes!("../../../examples/three-tiles.plan")), None);
        for plan in ["", "\n", "ldof=3", "ldof=\n", "ldof=3\nmax_overflow=0\n", "ldof=x\n"] {
            assert_eq!(ldof(plan.as_bytes()), None, "{plan:?}");
        }
    }
}
