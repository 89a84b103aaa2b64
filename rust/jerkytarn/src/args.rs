//! The arguments of the command.

use clap::{Parser, Subcommand};
use layerplan::{Lengths, TEXT_MOST};
use std::ffi::OsString;
use std::path::PathBuf;

const STATUS: &str = "\
Exit status: 0 where the job is accepted, 1 where it is refused, 2 for wrong usage or a file that cannot be read or \
written. A refused job writes `refused=number,line` on standard output and what it means on standard error.";

/// Plans the metal layers of wiring blocks.
///
/// A job is a flat wiring plan as a text: a grid of tiles with track counts for each layer, and nets that are trees over
/// it. Planning finds the layer of every edge of every net, with as few vias as each net can have at its turn and exactly
/// the overflow that cannot be avoided. The library that does it is proved; this command around it is tested.
#[derive(Parser, Debug)]
#[command(name = "jerkytarn", version, after_help = STATUS)]
pub struct Args {
    #[command(subcommand)]
    pub command: Command,
}

#[derive(Subcommand, Debug)]
pub enum Command {
    /// Write the printed plan of a job
    #[command(after_help = STATUS)]
    Plan {
        /// The job text: a file, or `-` for standard input
        job: OsString,
        /// Write the plan to this file instead of standard output
        #[arg(short, long, value_name = "FILE")]
        output: Option<PathBuf>,
        #[command(flatten)]
        lend: LendArgs,
    },
    /// Tell whether a job is accepted, and the figures of its block
    #[command(after_help = STATUS)]
    Check {
        /// The job text: a file, or `-` for standard input
        job: OsString,
        #[command(flatten)]
        lend: LendArgs,
    },
    /// Say a refusal in words, with its place in the order of faults and an example
    Explain {
        /// The number of the refusal; without it, all are listed
        #[arg(value_parser = clap::value_parser!(u32).range(1..=i64::from(crate::explain::LAST)))]
        number: Option<u32>,
    },
    /// Show where tracks are full and where the vias stand, as a table
    #[command(after_help = STATUS)]
    Report {
        /// The job text: a file, or `-` for standard input
        job: OsString,
        /// Write the same figures as JSON
        #[arg(long)]
        json: bool,
        /// How many of the most crowded edges, of those with most directive excess, and of the nets with most vias, are
        /// listed
        #[arg(long, value_name = "N", default_value_t = 10, value_parser = clap::value_parser!(u32).range(1..))]
        top: u32,
    },
    /// Draw the planned block: a page to look through (.html), or a picture for a document (.svg)
    #[command(after_help = STATUS)]
    Draw {
        /// The job text: a file, or `-` for standard input
        job: OsString,
        /// The file to write; its ending, .html or .svg, tells what it will be
        #[arg(short, long, value_name = "FILE")]
        output: PathBuf,
    },
    /// Plan many blocks side by side
    ///
    /// Writes a line for each block, in the order of the arguments, and one for all. A refused block, or one that cannot
    /// be read, does not stop the others.
    #[command(after_help = BATCH_STATUS)]
    Batch {
        /// The job texts: files
        #[arg(required = true, value_name = "JOB")]
        jobs: Vec<PathBuf>,
        /// Write NAME.plan, or NAME.refused, for each block into this folder; it is made where it is missing
        #[arg(short, long, value_name = "FOLDER")]
        output: Option<PathBuf>,
        /// How many blocks are planned at the same time; as many as there are processors unless given
        #[arg(short = 'j', long = "jobs", value_name = "N", value_parser = clap::value_parser!(u16).range(1..=1024))]
        threads: Option<u16>,
        /// Leave out blocks whose result is in the folder already and is not older than the job
        #[arg(long, requires = "output")]
        resume: bool,
    },
}

const BATCH_STATUS: &str = "\
Exit status: 0 where all jobs are accepted, 1 where any is refused, 2 for wrong usage or where any file cannot be read or \
written, 130 where it was interrupted. Interrupted, it finishes the blocks at hand and stops; `--resume` goes on.";

#[derive(clap::Args, Debug)]
pub struct LendArgs {
    /// Lend the library no more than this, to see what a caller with such buffers gets: work=N, order=N, answer=N,
    /// print=N, comma between; enough of what is not named
    #[arg(long, value_name = "LENGTHS", value_parser = lend)]
    pub lend: Option<Lend>,
}

/// Lent lengths; enough where none is given.
#[derive(Clone, Copy, PartialEq, Eq, Debug, Default)]
pub struct Lend {
    work: Option<usize>,
    order: Option<usize>,
    answer: Option<usize>,
    print: Option<usize>,
}

impl Lend {
    /// What is lent. More than is enough for every text makes no difference, so it is not lent.
    pub fn lengths(self) -> Lengths {
        let most = Lengths::enough(TEXT_MOST);
        let at_most = |length: Option<usize>, most: usize| length.map_or(most, |length| length.min(most));
        Lengths {
            work: at_most(self.work, most.work),
            order: at_most(self.order, most.order),
            answer: at_most(self.answer, most.answer),
            print: at_most(self.print, most.print),
        }
    }
}

/// Reads `work=N,order=N,answer=N,print=N`, any of them.
fn lend(text: &str) -> Result<Lend, String> {
    let mut lend = Lend::default();
    for part in text.split(',') {
        let (name, length) = part.split_once('=').ok_or(format!("`{part}` is not a name, `=` and a number"))?;
        let place = match name {
            "work" => &mut lend.work,
            "order" => &mut lend.order,
            "answer" => &mut lend.answer,
            "print" => &mut lend.print,
            _ => return Err(format!("`{name}` is none of work, order, answer, print")),
        };
        *place = Some(length.parse().map_err(|_| format!("`{length}` is not a number"))?);
    }
    Ok(lend)
}

#[cfg(test)]
mod tests {
    use super::*;
    use clap::CommandFactory;

    #[test]
    fn the_arguments_are_well_made() {
        Args::command().debug_assert();
    }

    #[test]
    fn lent_lengths() {
        let most = Lengths::enough(TEXT_MOST);
        assert_eq!(Lend::default().lengths(), most);
        let lent = lend("work=100,answer=99999999999").unwrap().lengths();
        assert_eq!(lent, Lengths { work: 100, ..most });
        for wrong in ["", "work", "work=", "work=-1", "tape=1", "work=1;order=2"] {
            assert!(lend(wrong).is_err(), "{wrong}");
        }
    }
}
