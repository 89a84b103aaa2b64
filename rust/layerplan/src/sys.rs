//! The two calls as C has them. `include/layerplan.h` says what each parameter is; the functions of the crate's root
//! are the same calls for safe Rust.

/// What a call returns: of an accepted job the numbers of the plan, of a refused one its number and line, and zeros.
#[repr(C)]
#[derive(Clone, Copy, PartialEq, Eq, Debug)]
pub struct LayerplanResult {
    pub number: u64,
    pub line: u64,
    pub vias: u64,
    pub total: u64,
    pub maximum: u64,
    pub length: u64,
}

/// An entry of the order list.
#[repr(C)]
#[derive(Clone, Copy, PartialEq, Eq, Debug, Default)]
pub struct Entry {
    /// The number of a net, from 1.
    pub net: u32,
    /// The lowest layer that the net's timing wants, from 1: the number on its `low` line, and 1 without the line. Layers,
    /// scores and order do not depend on it.
    pub low: u32,
    /// The net's score, by which the nets are placed.
    pub score: u64,
}

extern "C" {
    /// Plan, over pointers and lengths.
    ///
    /// # Safety
    ///
    /// Each pointer is not null, aligned, and points to as many elements as the length after it says. The buffers that
    /// are written overlap neither each other nor the text, and nobody else uses them before the call returns.
    pub fn layerplan_plan(
        text: *const u8,
        text_length: usize,
        work: *mut u32,
        work_length: usize,
        order: *mut Entry,
        order_length: usize,
        answer: *mut u8,
        answer_length: usize,
    ) -> LayerplanResult;

    /// Print, over pointers and lengths.
    ///
    /// # Safety
    ///
    /// As for `layerplan_plan`.
    pub fn layerplan_print(
        text: *const u8,
        text_length: usize,
        work: *mut u32,
        work_length: usize,
        order: *mut Entry,
        order_length: usize,
        answer: *mut u8,
        answer_length: usize,
        print: *mut u8,
        print_length: usize,
    ) -> LayerplanResult;
}
