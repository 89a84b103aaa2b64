//! The two calls, Plan and Print, over lent buffers. Any other planner that is to be held against this one implements
//! `Planner`; a library with a C interface needs a thin implementation that passes pointers and lengths on (and, where
//! its order list is two lists, copies them to and from the entries). `held` compares one call of it, and
//! `run::Summary::add` compares both calls on a drawn job.

use crate::gen::Rng;
use crate::job::{self, Lengths, Refusal};
use crate::plan::{self, Entry, Plan};

/// What a call returns. `length` is that of the printed text, and 0 from Plan.
#[derive(Clone, Copy, PartialEq, Eq, Debug, Default)]
pub struct Returned {
    pub number: u32,
    pub line: u32,
    pub vias: u64,
    pub total: u64,
    pub maximum: u64,
    pub length: u64,
}

impl Returned {
    /// What a call returns for an accepted job with this plan; the printed text has this length.
    pub fn of(plan: &Plan, length: usize) -> Returned {
        Returned {
            number: 0,
            line: 0,
            vias: plan.total_vias,
            total: plan.total_overflow,
            maximum: plan.max_overflow,
            length: length as u64,
        }
    }
}

/// A planner: the two calls over borrowed buffers.
pub trait Planner {
    fn plan(&self, text: &[u8], work: &mut [u32], order: &mut [Entry], answer: &mut [u8]) -> Returned;

    fn print(
        &self,
        text: &[u8],
        work: &mut [u32],
        order: &mut [Entry],
        answer: &mut [u8],
        print: &mut [u8],
    ) -> Returned;
}

/// The answer to a text with these lent lengths: the plan or the refusal.
pub fn answer(text: &[u8], lent: Lengths) -> Result<Plan, Refusal> {
    job::read(text, lent).map(|job| plan::plan(&job))
}

/// This implementation.
pub struct Second;

impl Planner for Second {
    fn plan(&self, text: &[u8], work: &mut [u32], order: &mut [Entry], answer: &mut [u8]) -> Returned {
        call(text, work, order, answer, None)
    }

    fn print(
        &self,
        text: &[u8],
        work: &mut [u32],
        order: &mut [Entry],
        answer: &mut [u8],
        print: &mut [u8],
    ) -> Returned {
        call(text, work, order, answer, Some(print))
    }
}

fn call(
    text: &[u8],
    work: &mut [u32],
    order: &mut [Entry],
    answer_list: &mut [u8],
    print: Option<&mut [u8]>,
) -> Returned {
    work.fill(0);
    let print_length = print.as_ref().map(|print| print.len());
    let lent = Lengths { work: work.len(), order: order.len(), answer: answer_list.len(), print: print_length };
    let plan = match answer(text, lent) {
        Ok(plan) => plan,
        Err(Refusal { number, line }) => return Returned { number, line, ..Returned::default() },
    };
    order[..plan.order.len()].copy_from_slice(&plan.order);
    let mut at = 0;
    for layers in &plan.layers {
        answer_list[at..at + layers.len()].copy_from_slice(layers);
        at += layers.len();
    }
    let mut length = 0;
    if let Some(print) = print {
        let printed = plan::print(&plan);
        print[..printed.len()].copy_from_slice(printed.as_bytes());
        length = printed.len();
    }
    Returned::of(&plan, length)
}

/// One set of lent buffers.
#[derive(Clone, PartialEq, Eq, Debug)]
pub struct Buffers {
    pub work: Vec<u32>,
    pub order: Vec<Entry>,
    pub answer: Vec<u8>,
    pub print: Vec<u8>,
}

impl Buffers {
    /// Buffers of these lengths that hold something or other.
    pub fn filled(lent: Lengths, seed: u64) -> Buffers {
        let mut rng = Rng::new(seed);
        let entry = |rng: &mut Rng| Entry { net: rng.word() as u32, low: rng.word() as u32, score: rng.word() };
        Buffers {
            work: (0..lent.work).map(|_| rng.word() as u32).collect(),
            order: (0..lent.order).map(|_| entry(&mut rng)).collect(),
            answer: (0..lent.answer).map(|_| rng.word() as u8).collect(),
            print: (0..lent.print.unwrap_or(0)).map(|_| rng.word() as u8).collect(),
        }
    }
}

/// Calls a planner once (Print where `lent.print` is given, else Plan) with buffers that held something before, and
/// compares what it returns, and all that the buffers then hold, with this implementation's answer.
pub fn held(
    planner: &dyn Planner,
    text: &[u8],
    lent: Lengths,
    expected: &Result<Plan, Refusal>,
    seed: u64,
) -> Result<Returned, String> {
    let mut after = Buffers::filled(lent, seed);
    let mut wanted = after.clone();
    let Buffers { work, order, answer, print } = &mut after;
    let returned = match lent.print {
        None => planner.plan(text, work, order, answer),
        Some(_) => planner.print(text, work, order, answer, print),
    };

    wanted.work = vec![0; lent.work];
    let mut wanted_return = Returned::default();
    match expected {
        Err(Refusal { number, line }) => (wanted_return.number, wanted_return.line) = (*number, *line),
        Ok(plan) => {
            wanted_return = Returned::of(plan, 0);
            wanted.order.splice(..plan.order.len(), plan.order.iter().copied());
            let layers = plan.layers.concat();
            wanted.answer.splice(..layers.len(), layers);
            if lent.print.is_some() {
                let printed = plan::print(plan).into_bytes();
                wanted_return.length = printed.len() as u64;
                wanted.print.splice(..printed.len(), printed);
            }
        }
    }
    if returned != wanted_return {
        return Err(format!("returned {returned:?} where {wanted_return:?} was expected"));
    }
    let Buffers { work, order, answer, print } = &wanted;
    same("working numbers", &after.work, work)?;
    same("order list", &after.order, order)?;
    same("answer list", &after.answer, answer)?;
    same("print buffer", &after.print, print)?;
    Ok(returned)
}

/// Names the first place where two buffers differ.
fn same<T: PartialEq + std::fmt::Debug>(name: &str, found: &[T], wanted: &[T]) -> Result<(), String> {
    match (0..wanted.len()).find(|place| found[*place] != wanted[*place]) {
        None => Ok(()),
        Some(place) => Err(format!("{name}, place {place}: {:?} where {:?} was expected", found[place], wanted[place])),
    }
}
