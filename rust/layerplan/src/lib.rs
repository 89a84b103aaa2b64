//! A verified layer assignment for flat wiring plans.
//!
//! In: a flat wiring plan as a text, every net a set of edges that join its pins over a grid of tiles, with track counts
//! for each layer, from 0 to 65,535, and, if the layers have one, the direction in which each runs; a net may name the
//! lowest layer that its timing wants. Rings are cut: what closes one is dropped, and what then hangs loose. Out: the layer
//! of every kept edge of every net, with as few vias as each net can have at its turn and exactly the overflow that cannot
//! be avoided; or one numbered [`Refusal`] with its line.
//!
//! The work is done by a static library whose functions are proved to do what the definitions say, for every text and
//! all lengths of the lent slices. This crate only lends it safe slices. There is no heap behind it: the caller lends
//! all storage, and [`Lengths`] tells how much. Lending too little is no error but a refusal.
//!
//! `tests/export/library` writes the library to `target/staticlib` of the repository, where the build looks for
//! it; the environment variable `LAYERPLAN_LIB_DIR` names another folder. It is there for x86-64 Linux.
//!
//! ```
//! let text = b"width=2\nheight=1\nlayers=2\nalpha=1\nbeta=1\ngamma=0\neast=1\nnorth=\neast=0\nnorth=\n\
//!     nets=1\nnet=1\npins=0,0,2;1,0,2\nedges=0,0,e\n";
//! let need = layerplan::Lengths::needed(2, 1, 2, 1, 1);
//! let mut work = vec![0; need.work];
//! let mut order = vec![layerplan::Entry::default(); need.order];
//! let mut answer = vec![0; need.answer];
//! let totals = layerplan::plan(text, &mut work, &mut order, &mut answer)?;
//! assert_eq!(answer, [1]); // the one track is on layer 1, so each pin on layer 2 takes a via
//! assert_eq!(totals, layerplan::Totals { vias: 2, overflow: 0, maximum: 0 });
//! assert_eq!(order, [layerplan::Entry { net: 1, low: 1, score: 3000 }]);
//! # Ok::<(), layerplan::Refusal>(())
//! ```

use std::fmt;

pub mod sys;

pub use sys::Entry;

/// The longest text that is read, in bytes.
pub const TEXT_MOST: usize = 1_048_576;

/// The most nets of a job.
pub const NETS_MOST: usize = 4_096;

/// The layer of an edge that is dropped, because it closes a ring or hangs loose once rings are cut.
pub const DROPPED: u8 = 0;

/// The figures of a plan.
#[derive(Clone, Copy, PartialEq, Eq, Debug)]
pub struct Totals {
    /// The vias of all nets together.
    pub vias: u64,
    /// The overflow of all layers of all edges, summed.
    pub overflow: u64,
    /// The largest overflow of a layer of an edge.
    pub maximum: u64,
}

/// What [`print()`] returns: the figures of the plan, and the length of its text in the print buffer.
#[derive(Clone, Copy, PartialEq, Eq, Debug)]
pub struct Printed {
    pub totals: Totals,
    pub length: usize,
}

/// Why a job is not accepted. [`Display`](fmt::Display) says it in words.
#[derive(Clone, Copy, PartialEq, Eq, Debug)]
pub struct Refusal {
    /// 1 to 13, but 7, which no longer occurs: rings are cut, and not refused.
    pub number: u32,
    /// The line of the text, counted from 1; 0 for refusal 1. A missing line has the number that it would have had.
    pub line: u32,
}

impl fmt::Display for Refusal {
    fn fmt(&self, out: &mut fmt::Formatter) -> fmt::Result {
        let why = match self.number {
            1 => "text above 1,048,576 bytes",
            2 => "wrong key, form or list length, missing line, or text after the last line",
            3 => "a number outside its range, or an edge leaving the grid",
            4 => "net number out of turn",
            5 => "same tile and layer twice on `pins`",
            6 => "same edge twice on `edges`",
            8 => "a pin or edge not reached from the first pin's tile along the edges",
            9 => "fewer working numbers than needed",
            10 => "fewer order entries than nets",
            11 => "answer list or print buffer too short",
            12 => "a nonzero capacity on a layer that runs the other way",
            13 => "an edge whose direction has no layer",
            _ => "no refusal has this number",
        };
        write!(out, "refused={},{}: {why}", self.number, self.line)
    }
}

impl std::error::Error for Refusal {}

/// Lengths of the slices that a call borrows. Longer ones are fine.
#[derive(Clone, Copy, PartialEq, Eq, Debug)]
pub struct Lengths {
    /// Working numbers.
    pub work: usize,
    /// Entries of the order list.
    pub order: usize,
    /// Bytes of the answer list.
    pub answer: usize,
    /// Bytes of the print buffer, even where the printed text is shorter. [`plan`] borrows none.
    pub print: usize,
}

impl Lengths {
    /// What a job needs: `width` and `height` from 1 to 64, `layers` from 2 to 8, `nets` up to [`NETS_MOST`], and
    /// `entries` on all its `edges` lines together, those of dropped edges included.
    ///
    /// # Panics
    ///
    /// Where a number is outside its range: no job has it.
    pub fn needed(width: usize, height: usize, layers: usize, nets: usize, entries: usize) -> Lengths {
        assert!((1..=64).contains(&width) && (1..=64).contains(&height) && (2..=8).contains(&layers), "no such grid");
        assert!(nets <= NETS_MOST && entries <= TEXT_MOST / 6, "no such nets");
        let edges = (width - 1) * height + width * (height - 1);
        Lengths {
            work: 2 * layers * edges + 2 * edges + 32 * width * height,
            order: nets,
            answer: entries,
            print: 256 + 64 * nets + 2 * entries,
        }
    }

    /// What is enough for every job with a text of this length: an entry of an `edges` line takes six bytes of text
    /// or more, and a net 24.
    pub fn enough(text_length: usize) -> Lengths {
        let read = text_length.min(TEXT_MOST);
        Lengths::needed(64, 64, 8, NETS_MOST.min(read / 24), read / 6)
    }
}

fn told(r: sys::LayerplanResult) -> Result<Totals, Refusal> {
    match r.number {
        0 => Ok(Totals { vias: r.vias, overflow: r.total, maximum: r.maximum }),
        // a text of at most 1,048,576 bytes has no more lines than that, and its missing line is one more
        _ => Err(Refusal { number: r.number as u32, line: r.line as u32 }),
    }
}

/// Plan: reads the job text and finds the layer of every edge of every net.
///
/// - `work`: working numbers. What they held is of no account; after every call, refused or not, all are 0.
/// - `order`: the order list, the nets with their lowest wanted layers and their scores, in placing order.
/// - `answer`: the layers, [`DROPPED`] for a dropped edge; nets in job order, each net's layers in the order of its `edges`
///   line.
///
/// Going along an `edges` line, an edge that closes a ring with kept earlier ones is dropped. In a net that lost an edge so,
/// a tile with one kept edge and no pin then loses that edge, until none is left to lose. Every pin stays joined.
///
/// What lies beyond the needed part of `order` and `answer` stays as it was. A refused job leaves both as they were.
pub fn plan(text: &[u8], work: &mut [u32], order: &mut [Entry], answer: &mut [u8]) -> Result<Totals, Refusal> {
    // SAFETY: a slice's pointer is never null, also of an empty one, it is aligned, and it points to as many elements as
    // the slice's length says. The slices that are written are borrowed mutably, so they overlap nothing and nobody
    // else uses them. The library asks no more: its calls are proved for every text and all lengths.
    told(unsafe {
        sys::layerplan_plan(
            text.as_ptr(),
            text.len(),
            work.as_mut_ptr(),
            work.len(),
            order.as_mut_ptr(),
            order.len(),
            answer.as_mut_ptr(),
            answer.len(),
        )
    })
}

/// Print: does the same as [`plan`], and writes the plan as a text to the start of `out`, [`Printed::length`] bytes of
/// ASCII. What lies beyond stays as it was; a refused job leaves all of `out` as it was.
///
/// In a job that has a `low` line the text ends with the line `ldof=N`: summed over all edges, the fewest nets with `low`
/// above 1 that must go without a track on a layer that they want, over all ways to hand out the tracks of the edge.
pub fn print(
    text: &[u8],
    work: &mut [u32],
    order: &mut [Entry],
    answer: &mut [u8],
    out: &mut [u8],
) -> Result<Printed, Refusal> {
    // SAFETY: as in `plan`.
    let r = unsafe {
        sys::layerplan_print(
            text.as_ptr(),
            text.len(),
            work.as_mut_ptr(),
            work.len(),
            order.as_mut_ptr(),
            order.len(),
            answer.as_mut_ptr(),
            answer.len(),
            out.as_mut_ptr(),
            out.len(),
        )
    };
    // the text stands in `out`, so its length is one of a slice
    told(r).map(|totals| Printed { totals, length: r.length as usize })
}
