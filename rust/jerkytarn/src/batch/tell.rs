//! Tells of a batch while it runs: a line for each block in the order of the arguments, a bar on a terminal, and a line
//! for all in the end.

use super::result::{End, Outcome};
use super::STOP;
use crate::explain;
use crate::fault::Fault;
use crate::output::{say, write_standard};
use crate::report::grouped;
use crate::run::Verdict;
use crate::visible::visible_path;
use indicatif::{ProgressBar, ProgressStyle};
use std::collections::BTreeMap;
use std::io::IsTerminal;
use std::path::Path;
use std::sync::atomic::Ordering;

/// Counts of a batch.
#[derive(Default)]
struct Counts {
    accepted: usize,
    refused: usize,
    failed: usize,
    kept: usize,
    vias: u64,
    overflow: u64,
    /// The largest overflow of a layer of an edge.
    maximum: u64,
    /// `ldof` of all blocks that have it; none where no block does.
    ldof: Option<u64>,
}

pub struct Teller {
    blocks: usize,
    /// Lines that wait for those of earlier blocks.
    waiting: BTreeMap<usize, String>,
    /// The block whose line is next.
    next: usize,
    counts: Counts,
    bar: ProgressBar,
    /// Why standard output can no longer be written.
    fault: Option<Fault>,
}

impl Teller {
    pub fn new(blocks: usize) -> Teller {
        let (waiting, counts) = (BTreeMap::new(), Counts::default());
        Teller { blocks, waiting, next: 0, counts, bar: bar(blocks), fault: None }
    }

    /// Takes in how a block ended, and writes the lines whose turn it is.
    pub fn tell(&mut self, place: usize, job: &Path, outcome: Outcome) -> Result<(), Fault> {
        self.counts.add(&outcome);
        if let End::Failed(fault) = &outcome.end {
            self.bar.suspend(|| say(&format!("jerkytarn: {fault}\n")));
        }
        self.waiting.insert(place, line(job, &outcome));
        let mut ready = String::new();
        while let Some(line) = self.waiting.remove(&self.next) {
            ready.push_str(&line);
            self.next += 1;
        }
        self.bar.inc(1);
        self.write(&ready)
    }

    fn write(&mut self, text: &str) -> Result<(), Fault> {
        if self.fault.is_none() && !text.is_empty() {
            self.fault = self.bar.suspend(|| write_standard(text.as_bytes())).err();
        }
        self.fault.clone().map_or(Ok(()), Err)
    }

    /// Writes the lines that still wait, where blocks before them were not begun, and the one for all.
    pub fn finish(mut self, to_folder: bool) -> Result<Verdict, Fault> {
        self.bar.finish_and_clear();
        let rest: String = std::mem::take(&mut self.waiting).into_values().collect();
        let interrupted = STOP.load(Ordering::SeqCst) && self.counts.done() < self.blocks;
        let summary = self.counts.summary(self.blocks);
        self.write(&(rest + &summary))?;
        if interrupted {
            let how = if to_folder { "; the same command with --resume goes on" } else { "" };
            say(&format!("jerkytarn: interrupted after {} of {} blocks{how}\n", self.counts.done(), self.blocks));
            return Ok(Verdict::Interrupted);
        }
        Ok(self.counts.verdict())
    }
}

/// A bar on standard error; none where that is no terminal.
fn bar(blocks: usize) -> ProgressBar {
    if !std::io::stderr().is_terminal() {
        return ProgressBar::hidden();
    }
    let bar = ProgressBar::new(blocks as u64);
    match ProgressStyle::with_template("{wide_bar} {pos} of {len} blocks, {elapsed}, {eta} to go") {
        Ok(style) => bar.with_style(style),
        Err(_) => bar,
    }
}

/// The line of a block.
fn line(job: &Path, outcome: &Outcome) -> String {
    let kept = if outcome.kept { " (kept)" } else { "" };
    let name = visible_path(job);
    match &outcome.end {
        End::Accepted { totals, ldof } => {
            let (vias, overflow, maximum) = (totals.vias, totals.overflow, totals.maximum);
            let ldof = ldof.map_or(String::new(), |ldof| format!(", ldof {ldof}"));
            format!("{name}: accepted, vias {vias}, overflow {overflow}, maximum {maximum}{ldof}{kept}\n")
        }
        End::Refused(refusal) => {
            let title = explain::rule(refusal.number).map_or("", |rule| rule.title);
            format!("{name}: refused={},{}, {title}{kept}\n", refusal.number, refusal.line)
        }
        End::Failed(_) => format!("{name}: failed\n"),
    }
}

impl Counts {
    fn add(&mut self, outcome: &Outcome) {
        self.kept += usize::from(outcome.kept);
        match &outcome.end {
            End::Accepted { totals, ldof } => {
                self.accepted += 1;
                self.vias += totals.vias;
                self.overflow += totals.overflow;
                self.maximum = self.maximum.max(totals.maximum);
                self.ldof = ldof.map(|ldof| self.ldof.unwrap_or(0) + ldof).or(self.ldof);
            }
            End::Refused(_) => self.refused += 1,
            End::Failed(_) => self.failed += 1,
        }
    }

    fn done(&self) -> usize {
        self.accepted + self.refused + self.failed
    }

    /// The line for all blocks.
    fn summary(&self, blocks: usize) -> String {
        let g = |number: usize| grouped(number as u64);
        let mut out = format!("{} blocks: {} accepted, {} refused", g(blocks), g(self.accepted), g(self.refused));
        for (count, what) in
            [(self.failed, "failed"), (blocks - self.done(), "not begun"), (self.kept, "kept from before")]
        {
            if count > 0 {
                out += &format!(", {} {what}", g(count));
            }
        }
        let (vias, overflow, maximum) = (grouped(self.vias), grouped(self.overflow), grouped(self.maximum));
        let ldof = self.ldof.map_or(String::new(), |ldof| format!(", ldof {}", grouped(ldof)));
        out + &format!("; vias {vias}, overflow {overflow}, maximum {maximum}{ldof}\n")
    }

    fn verdict(&self) -> Verdict {
        match (self.failed, self.refused) {
            (0, 0) => Verdict::Accepted,
            (0, _) => Verdict::Refused,
            _ => Verdict::Failed,
        }
    }
}

#[cfg(test)]
mod tests {
    use super::*;
    use layerplan::{Refusal, Totals};

    #[test]
    fn counts_and_lines() {
        let totals = Totals { vias: 1200, overflow: 3, maximum: 2 };
        let accepted = Outcome { end: End::Accepted { totals, ldof: None }, kept: true };
        let refused = Outcome { end: End::Refused(Refusal { number: 6, line: 14 }), kept: false };
        assert_eq!(line(Path::new("a.job"), &accepted), "a.job: accepted, vias 1200, overflow 3, maximum 2 (kept)\n");
        assert_eq!(line(Path::new("b\n"), &refused), "b\\n: refused=6,14, the same edge twice\n");
        let mut counts = Counts::default();
        counts.add(&accepted);
        assert_eq!(counts.verdict(), Verdict::Accepted);
        counts.add(&refused);
        assert_eq!(counts.verdict(), Verdict::Refused);
        let summary =
            "3 blocks: 1 accepted, 1 refused, 1 not begun, 1 kept from before; vias 1,200, overflow 3, maximum 2\n";
        assert_eq!(counts.summary(3), summary);
        counts.add(&Outcome { end: End::Failed(Fault::new("x")), kept: false });
        assert_eq!(counts.verdict(), Verdict::Failed);
    }

    #[test]
    fn ldof_where_some_block_has_it() {
        let totals = Totals { vias: 4, overflow: 3, maximum: 2 };
        let outcome = |ldof| Outcome { end: End::Accepted { totals, ldof }, kept: true };
        let told = "a.job: accepted, vias 4, overflow 3, maximum 2, ldof 1700 (kept)\n";
        assert_eq!(line(Path::new("a.job"), &outcome(Some(1700))), told);
        let summary = |ldofs: &[Option<u64>]| {
            let mut counts = Counts::default();
            ldofs.iter().for_each(|ldof| counts.add(&Outcome { kept: false, ..outcome(*ldof) }));
            counts.summary(ldofs.len())
        };
        assert!(summary(&[None, None]).ends_with("; vias 8, overflow 6, maximum 2\n"));
        assert!(summary(&[None, Some(0)]).ends_with(", maximum 2, ldof 0\n"));
        assert!(summary(&[Some(1), Some(1700), None]).ends_with(", maximum 2, ldof 1,701\n"));
    }
}
