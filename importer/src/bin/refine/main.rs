//! `refine`: reads a job and prints the numbers of a cheapest legal placement and the placement, or
//! `refused,number,line`.
//!
//! A word behind it names another command, or the job's file: [`commands`] has the commands, with the
//! usage text.
//!
//! Exit status: 0 an answer, 1 a refusal or a check that is not passed, 2 a usage or input error.

mod commands;
mod figures;
mod input;
mod memory;
mod mistake;
mod progress;
mod report;
mod streams;
mod words;

use std::env;
use std::ffi::OsString;
use std::process::ExitCode;

fn main() -> ExitCode {
    let arguments: Vec<OsString> = env::args_os().skip(1).collect();
    commands::run(&arguments).write()
}
