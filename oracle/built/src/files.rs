//! Generated files, where the built program stands, and the library's answers as lines of text.

use oracle::answers::{self, Pass};
use oracle::arguments::Arguments;
use oracle::gen::{self, damaged};
use oracle::original::{self, Outcome};
use oracle::rng::Rng;
use oracle::text;
use std::path::PathBuf;

/// The kinds of generated files: of seven, four are good, two are first-pass results, one is damaged.
pub const KINDS: [&str; 3] = ["good", "first-pass results", "damaged"];

/// A file, and the place of its kind in the list.
pub fn generated(seed: u64, case: u64) -> (usize, Vec<u8>) {
    let mut rng = Rng::for_case(seed, case);
    match case % 7 {
        6 => (2, damaged::any(&mut rng)),
        turn => {
            let block = gen::good(&mut rng);
            let good = || text::print_block(&block).into_bytes();
            if turn < 4 {
                return (0, good());
            }
            match oracle::checks::check(&block, answers::Pass::First.limits()).map(|()| original::first(&block)) {
                Ok(Outcome::Treated(stmts)) => (1, text::print_block(&block.with(stmts)).into_bytes()),
                _ => (0, good()),
            }
        }
    }
}

/// The block program: the file named, or where `rt run` puts it.
pub fn program(arguments: &Arguments) -> PathBuf {
    match arguments.files.first() {
        Some(path) => PathBuf::from(path),
        None => PathBuf::from(env!("CARGO_MANIFEST_DIR")).join("../../crates/block/out/block"),
    }
}

pub fn pass(pass: Pass) -> quargnil::Pass {
    match pass {
        Pass::First => quargnil::Pass::First,
        Pass::Second => quargnil::Pass::Second,
        Pass::Both => quargnil::Pass::Both,
    }
}

/// What the library answers, as the block program would print it.
pub fn answer(its: Pass, file: &[u8]) -> String {
    match quargnil::treat(pass(its), file) {
        Ok(text) => String::from_utf8(text).expect("the text form is ASCII"),
        Err(refusal) => format!("refused\t{}\t{}\n", refusal.number, refusal.place),
    }
}
