//! The program `jerkytarn`: see `jerkytarn --help`.

#![forbid(unsafe_code)]

use clap::Parser;
use jerkytarn::args::Args;
use jerkytarn::output::say;
use jerkytarn::run::run;
use std::process::ExitCode;

fn main() -> ExitCode {
    let args = match Args::try_parse() {
        Ok(args) => args,
        Err(told) => return usage(&told),
    };
    match run(args) {
        Ok(verdict) => verdict.status().into(),
        Err(fault) => {
            say(&format!("jerkytarn: {fault}\n"));
            2.into()
        }
    }
}

/// Help that was asked for, or wrong usage.
fn usage(told: &clap::Error) -> ExitCode {
    match told.print() {
        Ok(()) if !told.use_stderr() => 0.into(),
        _ => 2.into(),
    }
}
