//! The program `built`: holds the static library, and the block program, to the original.

mod alike;
mod bench;
mod compare;
mod files;

use oracle::arguments::{fail, Arguments};
use oracle::original;
use std::process::ExitCode;

const USAGE: &str = "usage:
  built compare --seed S --count N
  built program --seed S --count N [PROGRAM]
  built alike --seed S --count N [--fault F]
  built bench [--rounds R] [PROGRAM]";

fn run(command: &str, arguments: &Arguments) -> Result<String, String> {
    match command {
        "compare" => compare::library(arguments.seed(), arguments.count()),
        "program" => compare::program(arguments.seed(), arguments.count(), &files::program(arguments)),
        "alike" => alike::alike(arguments.seed(), arguments.count(), arguments.option("fault")),
        "bench" => bench::bench(arguments.number("rounds", 15), &files::program(arguments)),
        _ => fail(USAGE),
    }
}

fn main() -> ExitCode {
    if !quargnil::LINKED {
        eprintln!("the static library is for Linux on x86-64: there is nothing to hold to the original here");
        return ExitCode::FAILURE;
    }
    original::silence_panics();
    let mut words = std::env::args().skip(1);
    let Some(command) = words.next() else { fail(USAGE) };
    let Some(arguments) = Arguments::new(words) else { fail(USAGE) };
    match run(&command, &arguments) {
        Ok(report) => {
            print!("{report}");
            ExitCode::SUCCESS
        }
        Err(report) => {
            eprint!("{report}");
            ExitCode::FAILURE
        }
    }
}
