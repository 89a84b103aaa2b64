//! How a block ended, and how an earlier run's end is read from its result.

use crate::fault::Fault;
use crate::planner::ldof;
use layerplan::{Refusal, Totals};
use std::fs;
use std::path::Path;

/// How a block ended.
#[derive(Clone, PartialEq, Eq, Debug)]
pub enum End {
    Accepted {
        totals: Totals,
        /// The last line of the plan; none where the job has no `low` line.
        ldof: Option<u64>,
    },
    Refused(Refusal),
    /// Its job could not be read, or its result not be written.
    Failed(Fault),
}

/// The end of a block, and whether it is an earlier run's.
pub struct Outcome {
    pub end: End,
    pub kept: bool,
}

/// The end that an earlier run wrote, where its result is not older than the job.
pub fn earlier(job: &Path, plan: &Path, refused: &Path) -> Option<End> {
    let changed = |path: &Path| fs::metadata(path).and_then(|file| file.modified()).ok();
    let job = changed(job)?;
    let fresh = |path: &Path| changed(path).filter(|written| *written >= job).and_then(|_| fs::read(path).ok());
    let accepted = || {
        let printed = fresh(plan)?;
        Some(End::Accepted { totals: totals(&printed)?, ldof: ldof(&printed) })
    };
    accepted().or_else(|| refusal(&fresh(refused)?).map(End::Refused))
}

/// The figures at the end of a printed plan.
fn totals(plan: &[u8]) -> Option<Totals> {
    let text = std::str::from_utf8(plan).ok()?;
    let value = |key: &str| text.lines().rev().take(8).find_map(|line| line.strip_prefix(key)?.parse().ok());
    let whole = text.starts_with("order=") && text.ends_with('\n');
    let [vias, overflow, maximum] = ["total_vias=", "total_overflow=", "max_overflow="].map(value);
    whole.then_some(Totals { vias: vias?, overflow: overflow?, maximum: maximum? })
}

/// The refusal on the first line of its file.
fn refusal(text: &[u8]) -> Option<Refusal> {
    let line = std::str::from_utf8(text.split(|byte| *byte == b'\n').next()?).ok()?;
    let (number, line) = line.strip_prefix("refused=")?.split_once(',')?;
    Some(Refusal { number: number.parse().ok()?, line: line.parse().ok()? })
}

#[cfg(test)]
mod tests {
    use super::*;

    #[test]
    fn results_read_back() {
        let plan = include_bytes!("../../../../examples/three-tiles.plan");
        assert_eq!(totals(plan), Some(Totals { vias: 2, overflow: 0, maximum: 0 }));
        assert_eq!(totals(&plan[..plan.len() - 1]), None);
        let plan = include_bytes!("../../../../examples/timing.plan");
        assert_eq!((totals(plan), ldof(plan)), (Some(Totals { vias: 5, overflow: 0, maximum: 0 }), Some(3)));
        assert_eq!(totals(b""), None);
        assert_eq!(totals(b"\xff"), None);
        assert_eq!(refusal(b"refused=6,14\nwords\n"), Some(Refusal { number: 6, line: 14 }));
        assert_eq!(refusal(b"refused=6\n"), None);
    }
}
