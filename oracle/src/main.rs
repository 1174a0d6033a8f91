//! The program `oracle`: one subcommand for each thing that the README lists.

use oracle::agree;
use oracle::alike;
use oracle::answers::{self, Pass};
use oracle::arguments::{fail, Arguments};
use oracle::gen::{self, damaged};
use oracle::record;
use oracle::rng::Rng;
use oracle::run::start::Start;
use oracle::{original, replay, sections, text};
use std::io::{self, BufWriter, Write};
use std::process::ExitCode;

const USAGE: &str = "usage:
  oracle first|second|both|block [FILE]
  oracle gen --seed S --count N --kind good|damaged|run
  oracle run BLOCK [START [ANSWERS]]
  oracle record|record-text|record-eval|record-run --seed S
  oracle answer [FILE]
  oracle agree --seed S --count N [--fault F]
  oracle agree-small --length L [--fault F]
  oracle agree-eval --seed S --count N
  oracle replay FILE [--fault F]
  oracle alike --seed S --count N [--fault F]";

fn generate(arguments: &Arguments, out: &mut impl Write) -> io::Result<()> {
    let seed = arguments.seed();
    for case in 0..arguments.number("count", 10) {
        let mut rng = Rng::for_case(seed, case);
        let bytes = match arguments.option("kind") {
            Some("good") | None => text::print_block(&gen::good(&mut rng)).into_bytes(),
            Some("run") => text::print_block(&gen::running(&mut rng)).into_bytes(),
            Some("damaged") => damaged::any(&mut rng),
            Some(_) => fail(USAGE),
        };
        sections::write(out, "input", bytes)?;
    }
    Ok(())
}

/// Answers every `input` section of a file, as `gen` prints them.
fn answer(arguments: &Arguments, out: &mut impl Write) -> io::Result<()> {
    let sections = sections::read(&arguments.file(0)?).ok_or_else(|| io::Error::other("not a list of sections"))?;
    let mut inputs = sections.iter().filter(|(name, _)| name == "input");
    inputs.try_for_each(|(_, input)| record::blocks::answer(input, out))
}

/// Tells what holding the model against the original came to; failing is finding a difference.
fn compare(tally: agree::Tally, out: &mut impl Write) -> io::Result<()> {
    write!(out, "{}", tally.report())?;
    if tally.agreed() {
        Ok(())
    } else {
        Err(io::Error::other("original and model differ"))
    }
}

/// The same for single operations.
fn compare_evaluations(arguments: &Arguments, out: &mut impl Write) -> io::Result<()> {
    let (count, refused, difference) = record::evals::agree(arguments.seed(), arguments.count());
    match difference {
        None => writeln!(out, "evaluations {count}, refused 8: {refused}, unequal 0"),
        Some(line) => Err(io::Error::other(format!("original and model differ:\n{line}"))),
    }
}

/// Holds the model against a recorded file of blocks.
fn replay_file(arguments: &Arguments, out: &mut impl Write) -> io::Result<()> {
    let replayed = replay::replay(&arguments.file(0)?, arguments.fault());
    let replayed = replayed.ok_or_else(|| io::Error::other("not a recorded file of blocks"))?;
    writeln!(out, "answers {}, unequal {}", replayed.answers, replayed.unequal)?;
    match replayed.first_unequal {
        None => Ok(()),
        Some(first) => Err(io::Error::other(first)),
    }
}

/// Runs blocks and treated blocks side by side; failing is finding a run that differs.
fn run_alike(arguments: &Arguments, out: &mut impl Write) -> io::Result<()> {
    let fault = arguments.fault();
    let tally = alike::alike(arguments.seed(), arguments.count(), |block, _| alike::by_original(block, fault));
    write!(out, "{}", tally.report())?;
    if tally.held() {
        Ok(())
    } else {
        Err(io::Error::other("a treated block runs otherwise"))
    }
}

/// Runs one block, from zeros if no start is given.
fn run_block(arguments: &Arguments, out: &mut impl Write) -> io::Result<()> {
    let [block, rows, answers] = [0, 1, 2].map(|n| arguments.file(n));
    let [rows, answers] = [rows?, answers?].map(|text| String::from_utf8_lossy(&text).into_owned());
    let start = Start::read(&rows, &answers).ok_or_else(|| io::Error::other("a bad start or answer"))?;
    let printed = record::runs::events(&block?, &start).unwrap_or_else(|refusal| refusal.line());
    write!(out, "{printed}")
}

fn run(command: &str, arguments: &Arguments, out: &mut impl Write) -> io::Result<()> {
    match command {
        "first" => write!(out, "{}", answers::plain(&arguments.file(0)?, Pass::First)),
        "second" => write!(out, "{}", answers::plain(&arguments.file(0)?, Pass::Second)),
        "both" => write!(out, "{}", answers::plain(&arguments.file(0)?, Pass::Both)),
        "block" => write!(out, "{}", answers::block_program(&arguments.file(0)?)),
        "gen" => generate(arguments, out),
        "answer" => answer(arguments, out),
        "agree" => compare(agree::agree(arguments.seed(), arguments.count(), arguments.fault()), out),
        "agree-small" => compare(agree::agree_small(arguments.number("length", 2) as usize, arguments.fault()), out),
        "alike" => run_alike(arguments, out),
        "replay" => replay_file(arguments, out),
        "agree-eval" => compare_evaluations(arguments, out),
        "record-eval" => record::evals::record(arguments.seed(), out),
        "record-run" => record::runs::record(arguments.seed(), out),
        "run" => run_block(arguments, out),
        "record" => record::blocks::record(arguments.seed(), out),
        "record-text" => record::texts::record(arguments.seed(), out),
        _ => fail(USAGE),
    }
}

fn main() -> ExitCode {
    original::silence_panics();
    let mut words = std::env::args().skip(1);
    let Some(command) = words.next() else { fail(USAGE) };
    let Some(arguments) = Arguments::new(words) else { fail(USAGE) };
    let mut out = BufWriter::new(io::stdout().lock());
    match run(&command, &arguments, &mut out).and_then(|()| out.flush()) {
        Ok(()) => ExitCode::SUCCESS,
        Err(e) => {
            eprintln!("{e}");
            ExitCode::FAILURE
        }
    }
}
