//! Demand 3 by running: blocks and what the library makes of them, side by side; and with a fault planted in its result.

use crate::files;
use oracle::alike::{self, Treated};
use oracle::answers::Pass;
use oracle::block::{Block, Limits, Operand, Stmt};
use oracle::rng::Rng;
use oracle::text;

/// A change to a treated block.
type Change = fn(&mut Rng, &mut Vec<Stmt>);

/// Faults to plant, one at a time, in the block that the library hands back.
const FAULTS: [(&str, Change); 4] = [
    ("a-statement-lost", |rng, stmts| {
        if !stmts.is_empty() {
            stmts.remove(rng.below(stmts.len()));
        }
    }),
    ("a-constant-bit", |rng, stmts| {
        let at = rng.below(stmts.len().max(1));
        if let Some(Stmt { a: Operand::Const(value, _), .. }) = stmts.get_mut(at) {
            *value ^= 1;
        }
    }),
    ("operands-swapped", |rng, stmts| {
        let at = rng.below(stmts.len().max(1));
        if let Some(stmt) = stmts.get_mut(at) {
            if !stmt.b.is_none() {
                std::mem::swap(&mut stmt.a, &mut stmt.b);
            }
        }
    }),
    ("one-place-later", |rng, stmts| {
        if stmts.len() > 1 {
            let at = rng.below(stmts.len() - 1);
            stmts.swap(at, at + 1);
        }
    }),
];

/// As the library treats it, held against the original.
fn by_library(block: &Block) -> Treated {
    let file = text::print_block(block).into_bytes();
    let Ok(printed) = quargnil::treat(files::pass(Pass::Both), &file) else { return Treated::default() };
    let read = text::read(&printed, Limits::SECOND).expect("a treated block is in text form");
    let known = oracle::answers::recorded(&file, Pass::Both);
    let unequal = known.is_some_and(|answer| answer.as_bytes() != printed);
    Treated { stmts: Some(read.stmts), unequal }
}

pub fn alike(seed: u64, count: u64, fault: Option<&str>) -> Result<String, String> {
    let change = match fault {
        None => None,
        Some(name) => Some(FAULTS.iter().find(|(n, _)| *n == name).ok_or_else(|| no_such(name))?.1),
    };
    let tally = alike::alike(seed, count, |block, rng| {
        let mut treated = by_library(block);
        if let (Some(change), Some(stmts)) = (change, &mut treated.stmts) {
            change(rng, stmts);
            // A fault that leaves a branch without its label can't be run.
            let made = block.with(stmts.clone());
            if oracle::checks::check(&made, Limits::SECOND).is_err() || oracle::run::check(&made).is_err() {
                treated.stmts = None;
            }
        }
        treated
    });
    if tally.held() {
        Ok(tally.report())
    } else {
        Err(tally.report())
    }
}

fn no_such(name: &str) -> String {
    let names: Vec<&str> = FAULTS.iter().map(|(name, _)| *name).collect();
    format!("no fault {name}; there are {}\n", names.join(", "))
}
