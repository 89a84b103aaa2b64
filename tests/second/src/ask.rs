//! Answers for programs in other languages, many in one run: questions come in on one stream, answers go out on another.
//!
//! A question is the line `WORK ORDER ANSWER PRINT BYTES`, which has the lent lengths (PRINT is `-` for the call Plan)
//! and the length of a text, and then that text. Its answer is one line of JSON. Of a refused job it has `number` and
//! `line`. Of an accepted one it has
//! - `order`: the order list, each entry as a list of its numbers: net, lowest wanted layer, score;
//! - `plan`: each net's layers in the order of its `edges` line, 0 for a dropped edge, nets in job order;
//! - `vias`, `total`, `maximum`: what a call returns;
//! - `text`: the print, which Plan does not write;
//! - `walks`: each net's kept edges in walk order, by their numbers;
//! - `brute`: whether the plan was held to demand 3 over all layerings of the job.
//!
//! A plan that does not pass the checks of this crate is not told: the run ends.

use crate::cut::cut;
use crate::job::{read, Job, Lengths, Refusal};
use crate::plan::{plan, print, walk, Plan};
use crate::run::checked;
use std::io::{self, BufRead, Write};

/// Answers one question after another, until there are no more.
pub fn answer_all(mut questions: impl BufRead, mut answers: impl Write) -> io::Result<()> {
    while let Some((lent, text)) = question(&mut questions)? {
        let answer = match read(&text, lent) {
            Ok(job) => accepted(&job).map_err(io::Error::other)?,
            Err(Refusal { number, line }) => format!(r#"{{"number": {number}, "line": {line}}}"#),
        };
        writeln!(answers, "{answer}")?;
        answers.flush()?;
    }
    Ok(())
}

/// The next question: the lent lengths and the text.
fn question(questions: &mut impl BufRead) -> io::Result<Option<(Lengths, Vec<u8>)>> {
    let mut line = String::new();
    if questions.read_line(&mut line)? == 0 {
        return Ok(None);
    }
    let (lent, bytes) = lengths(&line).ok_or_else(|| io::Error::other(format!("{line:?} is no question")))?;
    let mut text = vec![0; bytes];
    questions.read_exact(&mut text)?;
    Ok(Some((lent, text)))
}

/// The line of a question.
fn lengths(line: &str) -> Option<(Lengths, usize)> {
    let words: Vec<&str> = line.split_whitespace().collect();
    let [work, order, answer, print, bytes] = words[..] else { return None };
    let number = |word: &str| word.parse::<usize>().ok();
    let print = if print == "-" { None } else { Some(number(print)?) };
    Some((Lengths { work: number(work)?, order: number(order)?, answer: number(answer)?, print }, number(bytes)?))
}

/// The answer to an accepted job. Rust's debug form of numbers, of lists of them and of the plain text of a print is
/// their JSON.
fn accepted(job: &Job) -> Result<String, String> {
    let plan = plan(job);
    let brute = checked(job, &plan)?.is_some();
    let entries = plan.order.iter().map(|entry| [entry.net.into(), entry.low.into(), entry.score]);
    let order: Vec<[u64; 3]> = entries.collect();
    let cut = cut(job);
    let steps = cut.nets.iter().map(|net| walk(job.grid, net));
    let walks: Vec<Vec<usize>> = steps.map(|steps| steps.iter().filter_map(|step| step.edge).collect()).collect();
    let text = print(&plan);
    let Plan { layers, total_vias, total_overflow, max_overflow, .. } = &plan;
    let lists = format!(r#""order": {order:?}, "plan": {layers:?}, "walks": {walks:?}"#);
    let numbers = format!(r#""vias": {total_vias}, "total": {total_overflow}, "maximum": {max_overflow}"#);
    Ok(format!(r#"{{{lists}, {numbers}, "text": {text:?}, "brute": {brute}}}"#))
}
