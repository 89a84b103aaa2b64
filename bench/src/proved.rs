//! The proved planner: the static library that `tests/export/library` writes. A slice goes as pointer and length.

use crate::{Lent, Returned};
use second::plan::Entry;

#[link(name = "layerplan_c", kind = "static")]
extern "C" {
    fn layerplan_plan(
        text: *const u8,
        text_length: usize,
        work: *mut u32,
        work_length: usize,
        order: *mut Entry,
        order_length: usize,
        answer: *mut u8,
        answer_length: usize,
    ) -> Returned;

    fn layerplan_print(
        text: *const u8,
        text_length: usize,
        work: *mut u32,
        work_length: usize,
        order: *mut Entry,
        order_length: usize,
        answer: *mut u8,
        answer_length: usize,
        out: *mut u8,
        out_length: usize,
    ) -> Returned;
}

pub fn call(text: &[u8], lent: Lent) -> Returned {
    let Lent { work, order, answer, print } = lent;
    // SAFETY: each pair is a slice that lives through the call, and no two overlap.
    unsafe {
        match print {
            None => layerplan_plan(
                text.as_ptr(),
                text.len(),
                work.as_mut_ptr(),
                work.len(),
                order.as_mut_ptr(),
                order.len(),
                answer.as_mut_ptr(),
                answer.len(),
            ),
            Some(out) => layerplan_print(
                text.as_ptr(),
                text.len(),
                work.as_mut_ptr(),
                work.len(),
                order.as_mut_ptr(),
                order.len(),
                answer.as_mut_ptr(),
                answer.len(),
                out.as_mut_ptr(),
                out.len(),
            ),
        }
    }
}
