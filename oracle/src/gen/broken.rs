//! Blocks of good text form that one of the checks 2 to 7 refuses.

use crate::block::{Block, Operand, Stmt, Var};
use crate::ops::Op;
use crate::rng::Rng;

/// Breaks one rule of the checks somewhere in a block, or leaves it if the place doesn't allow it.
pub fn breaking(rng: &mut Rng, block: &mut Block) {
    if block.stmts.is_empty() {
        return;
    }
    let at = rng.below(block.stmts.len());
    match rng.below(8) {
        0..=2 => bad_slot(rng, &mut block.stmts[at]),
        3 => bad_operands(rng, &mut block.stmts[at]),
        4 => bad_size(rng, &mut block.stmts[at]),
        5 => bad_label(rng, &mut block.stmts),
        6 => many_variables(rng, &mut block.stmts),
        _ => many_statements(rng, &mut block.stmts),
    }
}

/// Refusal 3: an id 0, a size 0 or too large, or a slot that reaches past its variable.
fn bad_slot(rng: &mut Rng, stmt: &mut Stmt) {
    let bad = rng.pick(&[
        Var::new(0, 0, 1),
        Var::new(1, 0, 0),
        Var::new(1, 0, 17),
        Var::new(1, 16, 1),
        Var::new(2, 9, 8),
        Var::new(-1, 255, 1),
        Var::new(-1, 1, 255),
        Var::new(3, 255, 255),
    ]);
    match rng.below(4) {
        0 => stmt.output = Some(bad),
        1 => stmt.a = Operand::Var(bad),
        2 => stmt.b = Operand::Var(bad),
        _ => stmt.a = Operand::Const(0, rng.pick(&[0, 17, 255])),
    }
}

/// Mostly refusal 4: an operand or output too many or too few.
fn bad_operands(rng: &mut Rng, stmt: &mut Stmt) {
    match rng.below(3) {
        0 if stmt.output.is_some() => stmt.output = None,
        0 => stmt.output = Some(Var::new(1, 0, 1)),
        1 => stmt.a = Operand::None,
        _ if stmt.b.is_none() => stmt.b = Operand::Const(1, 1),
        _ => stmt.b = Operand::None,
    }
}

/// Mostly refusal 5: another size.
fn bad_size(rng: &mut Rng, stmt: &mut Stmt) {
    let size = rng.between(1, 16) as u8;
    match rng.below(3) {
        0 => stmt.output = stmt.output.map(|var| Var::new(var.id, 0, size)),
        1 => stmt.a = Operand::Const(0, size),
        _ if stmt.op == Op::Subpiece => stmt.number = 17,
        _ if !stmt.b.is_none() => stmt.b = Operand::Const(0, size),
        _ => {}
    }
}

/// Refusal 6: a label twice, or a branch to none.
fn bad_label(rng: &mut Rng, stmts: &mut Vec<Stmt>) {
    let at = rng.below(stmts.len());
    let label = Stmt::new(Op::PcodeLabel, 5, None, Operand::None, Operand::None);
    let branch = Stmt::new(Op::PcodeBranch, 6, None, Operand::Const(1, 1), Operand::None);
    if rng.chance(1, 2) {
        stmts[at] = branch;
    } else {
        stmts[at] = label;
        stmts.push(label);
    }
}

/// About as many variables as a block may name.
fn many_variables(rng: &mut Rng, stmts: &mut Vec<Stmt>) {
    let variables = rng.between(47, 50) as i16;
    for id in 0..variables {
        if stmts.len() < 63 {
            let output = Var::new(100 + id, 0, 1);
            stmts.push(Stmt::plain(Op::Copy, output, Operand::Const(0, 1), Operand::None));
        }
    }
}

/// About as many statements as a block may have.
fn many_statements(rng: &mut Rng, stmts: &mut Vec<Stmt>) {
    let most = rng.between(63, 66);
    while stmts.len() < most {
        let output = Var::new(1, rng.below(16) as u8, 1);
        stmts.push(Stmt::plain(Op::Copy, output, Operand::Const(stmts.len() as u64, 1), Operand::None));
    }
}
