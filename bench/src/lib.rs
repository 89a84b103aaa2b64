//! The proved planner held against two planners in Rust, on jobs made by fixed seeds.
//!
//! - `jobs`: the jobs, in nine families at four sizes, those that show the growth, and heads alone.
//! - `proved`: the proved planner, from its static library.
//! - `plain`: the paper's algorithm written plainly.
//! - `optimised`: a planner written for speed.
//!
//! The last two cut rings, know `dirs` and `low` of the optional lines, and end with a message where they meet another
//! (`no_optional_lines`). What follows every change is the second implementation, `tests/second`.

pub mod jobs;
pub mod optimised;
pub mod plain;
pub mod proved;

use second::calls::Planner;
use second::plan::Entry;

/// What a call returns: number and line of a refusal, or the totals of the plan and the length of its print.
#[repr(C)]
#[derive(Clone, Copy, PartialEq, Eq, Debug, Default)]
pub struct Returned {
    pub number: u64,
    pub line: u64,
    pub vias: u64,
    pub total: u64,
    pub maximum: u64,
    pub length: u64,
}

/// What a call borrows. There is no print buffer in the call Plan.
pub struct Lent<'a> {
    pub work: &'a mut [u32],
    pub order: &'a mut [Entry],
    pub answer: &'a mut [u8],
    pub print: Option<&'a mut [u8]>,
}

/// The highest capacity of an edge on one layer.
const MOST_CAPACITY: usize = 65_535;

/// The keys of lines that a job may have or not (document 02), but for `dirs` and `low`.
const OPTIONAL: [&str; 1] = ["viacost="];

/// The plain and the optimised planner do not know these lines. Where they, or what lends to them, would have to do with
/// one, this says so and ends: their answer would be that of another job.
fn no_optional_lines(text: &[u8]) {
    for line in text.split(|byte| *byte == 10) {
        if let Some(key) = OPTIONAL.iter().find(|key| line.starts_with(key.as_bytes())) {
            panic!("the planners of the bench do not know a line that this job has: {key}");
        }
    }
}

/// What the plain and the optimised planner return for a text that they refuse. They read none of the lines above, so a
/// text with one always comes here.
#[cold]
fn refused(text: &[u8], number: u64, line: u64) -> Returned {
    no_optional_lines(text);
    Returned { number, line, ..Returned::default() }
}

/// A planner.
#[derive(Clone, Copy, PartialEq, Eq, Debug)]
pub enum Which {
    Proved,
    Optimised,
    Plain,
}

pub const PLANNERS: [(&str, Which); 3] =
    [("proved", Which::Proved), ("optimised", Which::Optimised), ("plain", Which::Plain)];

/// Calls a planner: Print where a print buffer is lent, else Plan.
pub fn call(which: Which, text: &[u8], lent: Lent) -> Returned {
    match which {
        Which::Proved => proved::call(text, lent),
        Which::Optimised => optimised::optimised_call(text, lent),
        Which::Plain => plain::plain_call(text, lent),
    }
}

/// A set of buffers, long enough for every job that is accepted.
pub struct Buffers {
    pub work: Vec<u32>,
    pub order: Vec<Entry>,
    pub answer: Vec<u8>,
    pub print: Vec<u8>,
}

impl Buffers {
    /// Buffers with just the lengths that Print needs for an accepted job.
    pub fn needed(text: &[u8]) -> Buffers {
        no_optional_lines(text);
        let value = |line: &[u8]| {
            std::str::from_utf8(&line[line.iter().position(|b| *b == b'=').unwrap() + 1..])
                .unwrap()
                .parse::<usize>()
                .unwrap()
        };
        let lines: Vec<&[u8]> = text.split(|byte| *byte == 10).collect();
        let [w, h, k] = [value(lines[0]), value(lines[1]), value(lines[2])];
        let directions = usize::from(lines[3].starts_with(b"dirs="));
        let nets = value(lines[6 + directions + 2 * k]);
        let edges = (w - 1) * h + w * (h - 1);
        let lists = lines.iter().filter_map(|line| line.strip_prefix(b"edges="));
        let entries: usize =
            lists.filter(|list| !list.is_empty()).map(|list| 1 + list.iter().filter(|b| **b == b';').count()).sum();
        Buffers {
            work: vec![7; 2 * k * edges + 2 * edges + 32 * w * h],
            order: vec![Entry { net: 7, low: 7, score: 7 }; nets],
            answer: vec![7; entries],
            print: vec![7; 256 + 64 * nets + 2 * entries],
        }
    }

    pub fn lend(&mut self, print: bool) -> Lent<'_> {
        let Buffers { work, order, answer, print: out } = self;
        Lent { work, order, answer, print: if print { Some(out) } else { None } }
    }
}

/// A planner as the second planner's tests call it.
impl Planner for Which {
    fn plan(&self, text: &[u8], work: &mut [u32], order: &mut [Entry], answer: &mut [u8]) -> second::calls::Returned {
        told(call(*self, text, Lent { work, order, answer, print: None }))
    }

    fn print(
        &self,
        text: &[u8],
        work: &mut [u32],
        order: &mut [Entry],
        answer: &mut [u8],
        print: &mut [u8],
    ) -> second::calls::Returned {
        told(call(*self, text, Lent { work, order, answer, print: Some(print) }))
    }
}

fn told(returned: Returned) -> second::calls::Returned {
    second::calls::Returned {
        number: returned.number as u32,
        line: returned.line as u32,
        vias: returned.vias,
        total: returned.total,
        maximum: returned.maximum,
        length: returned.length,
    }
}
