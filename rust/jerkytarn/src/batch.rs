//! Many blocks side by side: one library call to a thread, a line for each block in the order of the arguments, and
//! whole files only.

mod result;
mod tell;

use crate::explain;
use crate::fault::Fault;
use crate::input::Source;
use crate::output::{remove_unfinished, same_file, write_file};
use crate::planner::Planner;
use crate::run::{refusal_line, Verdict};
use crate::visible::visible_path;
use result::{earlier, End, Outcome};
use std::collections::HashMap;
use std::ffi::{OsStr, OsString};
use std::fs;
use std::path::{Path, PathBuf};
use std::sync::atomic::{AtomicBool, AtomicUsize, Ordering};
use std::sync::Mutex;
use tell::Teller;

/// What a batch is asked for.
pub struct Batch {
    pub jobs: Vec<PathBuf>,
    pub folder: Option<PathBuf>,
    pub threads: Option<usize>,
    pub resume: bool,
}

/// Set by an interrupt: no further block is begun.
static STOP: AtomicBool = AtomicBool::new(false);

/// A block: its job, and its results in the folder, where there is one.
struct Block {
    job: PathBuf,
    results: Option<Results>,
}

/// Where the results of a block go; one of the two is there in the end.
struct Results {
    plan: PathBuf,
    refused: PathBuf,
}

/// Plans all blocks.
pub fn run(batch: &Batch) -> Result<Verdict, Fault> {
    let blocks = blocks(batch)?;
    prepare_folder(batch, &blocks)?;
    let threads = batch.threads.unwrap_or_else(|| std::thread::available_parallelism().map_or(1, usize::from));
    let pool = rayon::ThreadPoolBuilder::new().num_threads(threads.min(blocks.len())).build();
    let pool = pool.map_err(|fault| Fault::new(format!("no threads: {fault}")))?;
    let _ = ctrlc::set_handler(stop);
    let next = AtomicUsize::new(0);
    let teller = Mutex::new(Teller::new(blocks.len()));
    pool.scope(|scope| {
        for _ in 0..pool.current_num_threads() {
            scope.spawn(|_| work(&blocks, &next, batch.resume, &teller));
        }
    });
    let teller = teller.into_inner().unwrap_or_else(|poisoned| poisoned.into_inner());
    teller.finish(batch.folder.is_some())
}

/// The first interrupt lets the blocks at hand be finished, the second does not wait for them.
fn stop() {
    if STOP.swap(true, Ordering::SeqCst) {
        std::process::exit(i32::from(Verdict::Interrupted.status()));
    }
}

/// What one thread does: takes the next block until none is left.
fn work(blocks: &[Block], next: &AtomicUsize, resume: bool, teller: &Mutex<Teller>) {
    let mut planner = Planner::new();
    while !STOP.load(Ordering::SeqCst) {
        let place = next.fetch_add(1, Ordering::SeqCst);
        let Some(block) = blocks.get(place) else { return };
        let outcome = kept(block, resume).unwrap_or_else(|| Outcome { end: plan(block, &mut planner), kept: false });
        let mut teller = teller.lock().unwrap_or_else(|poisoned| poisoned.into_inner());
        if teller.tell(place, &block.job, outcome).is_err() {
            STOP.store(true, Ordering::SeqCst); // nobody reads the lines any more
        }
    }
}

/// The result of an earlier run, where it is wanted and there.
fn kept(block: &Block, resume: bool) -> Option<Outcome> {
    let results = block.results.as_ref().filter(|_| resume)?;
    let end = earlier(&block.job, &results.plan, &results.refused)?;
    Some(Outcome { end, kept: true })
}

/// Plans one block and writes its result.
fn plan(block: &Block, planner: &mut Planner) -> End {
    plan_and_write(block, planner).unwrap_or_else(End::Failed)
}

fn plan_and_write(block: &Block, planner: &mut Planner) -> Result<End, Fault> {
    let source = Source::File(block.job.clone());
    let text = source.read()?;
    let lent = planner.lent();
    match planner.print(&text) {
        Ok((printed, planned)) => {
            if let Some(results) = &block.results {
                write_result(&results.plan, printed, &results.refused)?;
            }
            Ok(End::Accepted { totals: planned.totals, ldof: planned.ldof })
        }
        Err(refusal) => {
            if let Some(results) = &block.results {
                let words = explain::message(&source.name(), &text, refusal, lent);
                write_result(&results.refused, (refusal_line(refusal) + &words).as_bytes(), &results.plan)?;
            }
            Ok(End::Refused(refusal))
        }
    }
}

/// Writes a result and takes away the other one that an earlier run may have left.
fn write_result(path: &Path, bytes: &[u8], other: &Path) -> Result<(), Fault> {
    write_file(path, bytes)?;
    match fs::remove_file(other) {
        Err(fault) if fault.kind() != std::io::ErrorKind::NotFound => Err(Fault::of(&visible_path(other), &fault)),
        _ => Ok(()),
    }
}

/// The name of a block's results without their endings: the job's, without `.job`.
fn result_name(job: &Path) -> Option<&OsStr> {
    match job.extension() {
        Some(ending) if ending == "job" => job.file_stem(),
        _ => job.file_name(),
    }
}

fn with_ending(name: &OsStr, ending: &str) -> OsString {
    let mut whole = name.to_os_string();
    whole.push(ending);
    whole
}

/// The blocks with their results. Two jobs that would write the same file are wrong usage.
fn blocks(batch: &Batch) -> Result<Vec<Block>, Fault> {
    let mut names: HashMap<&OsStr, &Path> = HashMap::new();
    let mut blocks = Vec::with_capacity(batch.jobs.len());
    for job in &batch.jobs {
        if job.as_os_str() == "-" {
            return Err(Fault::new("a batch takes files; `jerkytarn plan -` plans standard input"));
        }
        let mut block = Block { job: job.clone(), results: None };
        if let Some(folder) = &batch.folder {
            let name = result_name(job).ok_or_else(|| Fault::new(format!("{}: has no name", visible_path(job))))?;
            if let Some(other) = names.insert(name, job) {
                let [one, two] = [other, job].map(visible_path);
                return Err(Fault::new(format!(
                    "{one} and {two} would both write {}.plan",
                    visible_path(Path::new(name))
                )));
            }
            let of = |ending| folder.join(with_ending(name, ending));
            block.results = Some(Results { plan: of(".plan"), refused: of(".refused") });
        }
        blocks.push(block);
    }
    Ok(blocks)
}

/// Makes the folder, sees that no result would replace a job, and takes away what a killed run left unfinished.
fn prepare_folder(batch: &Batch, blocks: &[Block]) -> Result<(), Fault> {
    let Some(folder) = &batch.folder else { return Ok(()) };
    fs::create_dir_all(folder).map_err(|fault| Fault::of(&visible_path(folder), &fault))?;
    let results = || blocks.iter().filter_map(|block| block.results.as_ref()).flat_map(|r| [&r.plan, &r.refused]);
    let names: HashMap<&OsStr, &PathBuf> = results().filter_map(|path| Some((path.file_name()?, path))).collect();
    for job in &batch.jobs {
        let result = job.file_name().and_then(|name| names.get(name));
        if result.is_some_and(|result| same_file(job, result)) {
            return Err(Fault::new(format!(
                "{}: a result would replace this job; write to another folder",
                visible_path(job)
            )));
        }
    }
    match batch.resume {
        true => remove_unfinished(folder, |name| names.contains_key(name)),
        false => Ok(()),
    }
}

#[cfg(test)]
mod tests {
    use super::*;

    fn batch(jobs: &[&str]) -> Batch {
        Batch {
            jobs: jobs.iter().map(PathBuf::from).collect(),
            folder: Some("out".into()),
            threads: None,
            resume: false,
        }
    }

    #[test]
    fn results_are_named_after_the_jobs() {
        let blocks = blocks(&batch(&["a/x.job", "b/y.txt", "z.job.job"])).unwrap();
        let plans: Vec<_> = blocks.iter().map(|block| block.results.as_ref().unwrap().plan.clone()).collect();
        assert_eq!(plans, ["out/x.plan", "out/y.txt.plan", "out/z.job.plan"].map(PathBuf::from));
    }

    #[test]
    fn two_jobs_with_one_result_are_wrong_usage() {
        let fault = blocks(&batch(&["a/x.job", "b/x.job"])).err().unwrap();
        assert_eq!(fault.to_string(), "a/x.job and b/x.job would both write x.plan");
        assert!(blocks(&batch(&[".."])).is_err());
        assert!(blocks(&batch(&["-"])).is_err());
        let none = Batch { folder: None, ..batch(&["a/x.job", "b/x.job"]) };
        assert!(super::blocks(&none).is_ok());
    }
}
