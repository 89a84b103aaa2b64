//! The program `jerkytarn`: plans the metal layers of wiring blocks over the proved library, explains its refusals, and
//! shows its plans. Nothing about a job or a plan is decided here.
//!
//! - `args`: the arguments; `run`: the commands, one function each.
//! - `input`, `output`: texts in; results out, each whole or not at all. `fault`: what goes wrong there.
//! - `planner`: the library's calls with storage to lend.
//! - `job`: a view of a job text, for all that is told of it. `figures`: what can be counted of a planned block.
//! - `explain`: refusals in words. `report`: tables and JSON. `draw`: page and picture. `batch`: many blocks.

#![forbid(unsafe_code)]

pub mod args;
pub mod batch;
pub mod draw;
pub mod explain;
pub mod fault;
pub mod figures;
pub mod input;
pub mod job;
pub mod output;
pub mod planner;
pub mod report;
pub mod run;
pub mod visible;
