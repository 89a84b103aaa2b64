//! The proved library as a `Planner`.

use layerplan::sys::{layerplan_plan, layerplan_print, LayerplanResult};
use second::calls::{Planner, Returned};
use second::plan::Entry;

/// The static library, called as C calls it.
pub struct Library;

/// What a call returned, as the second planner has it.
pub fn returned(r: LayerplanResult) -> Returned {
    let small = |number: u64| u32::try_from(number).unwrap_or(u32::MAX);
    let LayerplanResult { number, line, vias, total, maximum, length } = r;
    Returned { number: small(number), line: small(line), vias, total, maximum, length }
}

/// Lends the second planner's entries as the library's.
fn with_entries<T>(order: &mut [Entry], call: impl FnOnce(&mut [layerplan::Entry]) -> T) -> T {
    let lent = |&Entry { net, low, score }: &Entry| layerplan::Entry { net, low, score };
    let mut entries: Vec<layerplan::Entry> = order.iter().map(lent).collect();
    let r = call(&mut entries);
    for (entry, layerplan::Entry { net, low, score }) in order.iter_mut().zip(entries) {
        *entry = Entry { net, low, score };
    }
    r
}

impl Planner for Library {
    fn plan(&self, text: &[u8], work: &mut [u32], order: &mut [Entry], answer: &mut [u8]) -> Returned {
        // SAFETY: pointers and lengths are those of slices that overlap nowhere
        returned(with_entries(order, |order| unsafe {
            layerplan_plan(
                text.as_ptr(),
                text.len(),
                work.as_mut_ptr(),
                work.len(),
                order.as_mut_ptr(),
                order.len(),
                answer.as_mut_ptr(),
                answer.len(),
            )
        }))
    }

    fn print(
        &self,
        text: &[u8],
        work: &mut [u32],
        order: &mut [Entry],
        answer: &mut [u8],
        print: &mut [u8],
    ) -> Returned {
        // SAFETY: as in `plan`
        returned(with_entries(order, |order| unsafe {
            layerplan_print(
                text.as_ptr(),
                text.len(),
                work.as_mut_ptr(),
                work.len(),
                order.as_mut_ptr(),
                order.len(),
                answer.as_mut_ptr(),
                answer.len(),
                print.as_mut_ptr(),
                print.len(),
            )
        }))
    }
}

/// The same library through the safe wrapper, which tells of a refusal its number and line alone.
pub struct Wrapped;

fn refused(refusal: layerplan::Refusal) -> Returned {
    Returned { number: refusal.number, line: refusal.line, ..Returned::default() }
}

fn told(totals: layerplan::Totals, length: usize) -> Returned {
    let layerplan::Totals { vias, overflow, maximum } = totals;
    Returned { number: 0, line: 0, vias, total: overflow, maximum, length: length as u64 }
}

impl Planner for Wrapped {
    fn plan(&self, text: &[u8], work: &mut [u32], order: &mut [Entry], answer: &mut [u8]) -> Returned {
        let r = with_entries(order, |order| layerplan::plan(text, work, order, answer));
        r.map_or_else(refused, |totals| told(totals, 0))
    }

    fn print(
        &self,
        text: &[u8],
        work: &mut [u32],
        order: &mut [Entry],
        answer: &mut [u8],
        print: &mut [u8],
    ) -> Returned {
        let r = with_entries(order, |order| layerplan::print(text, work, order, answer, print));
        r.map_or_else(refused, |printed| told(printed.totals, printed.length))
    }
}
