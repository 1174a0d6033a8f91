//! Markers, labels and branches put between generated statements.

use super::pool::Pool;
use crate::block::{Operand, Stmt};
use crate::ops::Op;
use crate::rng::Rng;

const LABELS: &[u16] = &[0, 1, 2, 3, 4, 7, 256, 65535];

/// Puts in up to `room` markers, labels and branches.
pub fn add(rng: &mut Rng, pool: &mut Pool, stmts: &mut Vec<Stmt>, room: usize, in_instructions: bool) {
    let most = stmts.len() + room;
    for _ in 0..rng.weighted(&[(5, 0), (3, 1), (2, 2), (1, 4)]) {
        if stmts.len() < most {
            let at = rng.between(0, stmts.len());
            let marker = marker(rng, pool);
            stmts.insert(at, marker);
        }
    }
    let mut numbers = LABELS.to_vec();
    for _ in 0..rng.weighted(&[(3, 0), (4, 1), (3, 2), (2, 3), (1, 5)]) {
        let number = numbers.remove(rng.below(numbers.len()));
        let branches = rng.weighted(&[(1, 0), (5, 1), (3, 2), (1, 3)]);
        if stmts.len() + 1 + branches > most {
            return;
        }
        match in_instructions && rng.chance(39, 40) {
            true => add_forward(rng, pool, stmts, number, branches),
            false => add_anywhere(rng, pool, stmts, number, branches),
        }
    }
}

fn marker(rng: &mut Rng, pool: &mut Pool) -> Stmt {
    let (a, b) = match rng.below(8) {
        0 => (Operand::None, Operand::None),
        1 => (pool.operand(rng, 8), pool.operand(rng, 4)),
        _ => (Operand::Const(4096 + rng.below(64) as u64, 8), Operand::Const(4, 8)),
    };
    Stmt::new(Op::InstructionMarker, 0, None, a, b)
}

fn label(rng: &mut Rng, pool: &mut Pool, number: u16) -> Stmt {
    let (a, b) = match rng.chance(1, 12) {
        true => (pool.operand(rng, 4), pool.operand(rng, 9)),
        false => (Operand::None, Operand::None),
    };
    Stmt::new(Op::PcodeLabel, number, None, a, b)
}

fn branch(rng: &mut Rng, pool: &mut Pool, number: u16) -> Stmt {
    let size = pool.size(rng);
    let second = if rng.chance(1, 10) { pool.operand(rng, size) } else { Operand::None };
    Stmt::new(Op::PcodeBranch, number, None, pool.condition(rng), second)
}

fn add_anywhere(rng: &mut Rng, pool: &mut Pool, stmts: &mut Vec<Stmt>, number: u16, branches: usize) {
    let at = rng.between(0, stmts.len());
    let label = label(rng, pool, number);
    stmts.insert(at, label);
    for _ in 0..branches {
        let at = rng.between(0, stmts.len());
        let branch = branch(rng, pool, number);
        stmts.insert(at, branch);
    }
}

/// A label with its branches above it and no marker between, as demand 3 wants it.
fn add_forward(rng: &mut Rng, pool: &mut Pool, stmts: &mut Vec<Stmt>, number: u16, branches: usize) {
    let mut at = rng.between(0, stmts.len());
    let label = label(rng, pool, number);
    stmts.insert(at, label);
    for _ in 0..branches {
        let above = &stmts[..at];
        let begin = above.iter().rposition(|s| s.op == Op::InstructionMarker).map_or(0, |m| m + 1);
        let branch = branch(rng, pool, number);
        stmts.insert(rng.between(begin, at), branch);
        at += 1;
    }
}
