//! `slp`: makes the library's calls from a file, audits and draws pools, and lists their slips.
//!
//! Exit status 0: done, refused calls of a file too; 1: `slp audit` found the pool torn; 2: bad
//! input, with a line on standard error that says where and what.

#[cfg(fulcrumnest_lib)]
mod command;
#[cfg(fulcrumnest_lib)]
mod save;
#[cfg(fulcrumnest_lib)]
mod script;
#[cfg(fulcrumnest_lib)]
mod trial;

use std::process::ExitCode;

#[cfg(fulcrumnest_lib)]
fn main() -> ExitCode {
    command::run(std::env::args_os().skip(1).collect())
}

/// Without the archive there is no library to call.
#[cfg(not(fulcrumnest_lib))]
fn main() -> ExitCode {
    eprintln!("slp: built without libslp.a, so there is nothing to call");
    ExitCode::from(2)
}
