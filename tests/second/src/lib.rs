//! A second, independent implementation of the layer planner, written from the specification alone, to be held
//! against the first one call by call. It aims at being right by inspection, not at speed or at little storage.
//!
//! - `job`: a job, and the reading of a job text: the job or its one refusal.
//! - `cut`: which edges of a net with rings are kept.
//! - `plan`: overflow on the flat plan, scores, order, each net's walk, its layers, what the layer directives lack, the
//!   plan and its print.
//! - `calls`: Plan and Print over lent buffers, the trait `Planner`, and the test that holds any planner to this one.
//! - `check`: what can be checked of a plan of any size, with another method than the planner's.
//! - `brute`: demand 3 over all layerings of all nets, the layer directives over all hand-outs, and the cut in any order, for
//!   tiny jobs.
//! - `gen`: jobs, damaged texts and lent lengths by seed.
//! - `run`: all checks of a plan; many drawn jobs, each checked.
//! - `ask`: the answers to many texts, for programs in other languages.

pub mod ask;
pub mod brute;
pub mod calls;
pub mod check;
pub mod cut;
pub mod gen;
pub mod job;
pub mod plan;
pub mod run;
