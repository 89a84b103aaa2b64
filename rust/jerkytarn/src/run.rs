//! The commands, one function each.

use crate::args::{Args, Command, Lend};
use crate::batch;
use crate::draw;
use crate::explain;
use crate::fault::Fault;
use crate::figures::{self, Block};
use crate::input::Source;
use crate::output::{same_file, say, write_file, write_standard};
use crate::planner::Planner;
use crate::report::{self, Report, Style};
use crate::visible::visible_path;
use layerplan::{Lengths, Refusal};
use std::path::Path;

/// How a command ends where nothing went wrong outside the job.
#[derive(Clone, Copy, PartialEq, Eq, Debug)]
pub enum Verdict {
    Accepted,
    Refused,
    /// A batch in which some file could not be read or written; each was told.
    Failed,
    /// A batch that was stopped.
    Interrupted,
}

impl Verdict {
    pub fn status(self) -> u8 {
        match self {
            Verdict::Accepted => 0,
            Verdict::Refused => 1,
            Verdict::Failed => 2,
            Verdict::Interrupted => 130, // as a shell tells of a program that was interrupted
        }
    }
}

/// Runs a command.
pub fn run(args: Args) -> Result<Verdict, Fault> {
    match args.command {
        Command::Plan { job, output, lend } => {
            plan(&Source::new(&job), output.as_deref(), lend.lend.unwrap_or_default())
        }
        Command::Check { job, lend } => check(&Source::new(&job), lend.lend.unwrap_or_default()),
        Command::Explain { number } => explain(number),
        Command::Report { job, json, top } => report(&Source::new(&job), json, top as usize),
        Command::Draw { job, output } => draw(&Source::new(&job), &output),
        Command::Batch { jobs, output, threads, resume } => {
            batch::run(&batch::Batch { jobs, folder: output, threads: threads.map(usize::from), resume })
        }
    }
}

/// The line that a refused job writes, as the filter does.
pub fn refusal_line(refusal: Refusal) -> String {
    format!("refused={},{}\n", refusal.number, refusal.line)
}

/// Tells of a refusal: the line on standard output, the words on standard error.
fn refused(source: &Source, text: &[u8], refusal: Refusal, lent: Lengths) -> Result<Verdict, Fault> {
    write_standard(refusal_line(refusal).as_bytes())?;
    say_refusal(source, text, refusal, lent);
    Ok(Verdict::Refused)
}

fn say_refusal(source: &Source, text: &[u8], refusal: Refusal, lent: Lengths) {
    say(&format!("jerkytarn: {}", explain::message(&source.name(), text, refusal, lent)));
}

/// That the file to write is not the one that is read.
fn not_itself(source: &Source, output: &Path) -> Result<(), Fault> {
    match source.path().is_some_and(|path| same_file(path, output)) {
        true => Err(Fault::new(format!("{}: is the job itself; write to another file", visible_path(output)))),
        false => Ok(()),
    }
}

fn plan(source: &Source, output: Option<&Path>, lend: Lend) -> Result<Verdict, Fault> {
    output.map_or(Ok(()), |output| not_itself(source, output))?;
    let text = source.read()?;
    let mut planner = Planner::lending(lend.lengths());
    match planner.print(&text) {
        Ok((printed, _)) => {
            output.map_or_else(|| write_standard(printed), |output| write_file(output, printed))?;
            Ok(Verdict::Accepted)
        }
        Err(refusal) => refused(source, &text, refusal, planner.lent()),
    }
}

/// Plans a source and counts its figures; a refusal comes with the text.
fn planned(source: &Source) -> Result<Result<Block, Refused>, Fault> {
    let text = source.read()?;
    let mut planner = Planner::new();
    let lent = planner.lent();
    Ok(figures::plan(&mut planner, &text)?.map_err(|refusal| Refused { text, refusal, lent }))
}

/// A refused text, with all that is needed to explain it.
struct Refused {
    text: Vec<u8>,
    refusal: Refusal,
    lent: Lengths,
}

fn check(source: &Source, lend: Lend) -> Result<Verdict, Fault> {
    let text = source.read()?;
    let mut planner = Planner::lending(lend.lengths());
    let lent = planner.lent();
    // Print is asked, not Plan: it alone knows of the print buffer
    match planner.print(&text) {
        Ok((_, planned)) => {
            let block = figures::of(planned, &text)?;
            let mut out = String::new();
            report::put_block(&mut out, &Report::new(&source.name(), &block, 0), Style::of_environment());
            write_standard(out.as_bytes())?;
            Ok(Verdict::Accepted)
        }
        Err(refusal) => refused(source, &text, refusal, lent),
    }
}

fn explain(number: Option<u32>) -> Result<Verdict, Fault> {
    let text = match number {
        None => explain::overview(),
        Some(number) => {
            explain::number_in_words(number).ok_or_else(|| Fault::new(format!("there is no refusal {number}")))?
        }
    };
    write_standard(text.as_bytes()).map(|()| Verdict::Accepted)
}

fn report(source: &Source, json: bool, top: usize) -> Result<Verdict, Fault> {
    match planned(source)? {
        Ok(block) => {
            let report = Report::new(&source.name(), &block, top);
            let text = if json { report.json() } else { report::table(&report, Style::of_environment()) };
            write_standard(text.as_bytes())?;
            Ok(Verdict::Accepted)
        }
        Err(Refused { text, refusal, lent }) if json => {
            let title = explain::rule(refusal.number).map_or("", |rule| rule.title);
            write_standard(report::refusal_json(&source.name(), refusal, title).as_bytes())?;
            say_refusal(source, &text, refusal, lent);
            Ok(Verdict::Refused)
        }
        Err(Refused { text, refusal, lent }) => refused(source, &text, refusal, lent),
    }
}

fn draw(source: &Source, output: &Path) -> Result<Verdict, Fault> {
    let format = draw::Format::of(output)?;
    not_itself(source, output)?;
    match planned(source)? {
        Ok(block) => {
            let name =
                source.path().and_then(Path::file_name).map_or(source.name(), |name| visible_path(Path::new(name)));
            write_file(output, draw::draw(format, &name, &block).as_bytes())?;
            Ok(Verdict::Accepted)
        }
        Err(Refused { text, refusal, lent }) => refused(source, &text, refusal, lent),
    }
}
