//! Document 01's checks on a block that was read: refusals 3 to 7.

use crate::block::{Block, Limits, Operand, Refusal, Stmt, Var, MAX_BYTES};
use crate::ops::{Op, Operands, Outputs, Sizes};

/// 3, 4, 5 for each statement in order, then 7 over the block, then 6.
pub fn check(block: &Block, limits: Limits) -> Result<(), Refusal> {
    for (place, stmt) in block.stmts.iter().enumerate() {
        if let Some(number) = statement(stmt) {
            return Err(Refusal::new(number, place));
        }
    }
    variables(block, limits.variables)?;
    labels(block)
}

/// Reads a block and checks it.
pub fn read(bytes: &[u8], limits: Limits) -> Result<Block, Refusal> {
    let block = crate::text::read(bytes, limits)?;
    check(&block, limits)?;
    Ok(block)
}

fn statement(stmt: &Stmt) -> Option<u8> {
    let output = stmt.output.map_or(Operand::None, Operand::Var);
    if ![output, stmt.a, stmt.b].into_iter().all(fits) {
        return Some(3);
    }
    if !operands_allowed(stmt) {
        return Some(4);
    }
    (!sizes_allowed(stmt)).then_some(5)
}

fn fits(operand: Operand) -> bool {
    match operand {
        Operand::None => true,
        Operand::Const(_, size) => size != 0 && size <= MAX_BYTES,
        Operand::Var(Var { id, offset, size }) => {
            id != 0 && size != 0 && size <= MAX_BYTES && offset as u32 + size as u32 <= MAX_BYTES as u32
        }
    }
}

fn operands_allowed(stmt: &Stmt) -> bool {
    let rules = stmt.op.rules();
    let output = match rules.outputs {
        Outputs::Never => stmt.output.is_none(),
        Outputs::Optional => true,
        Outputs::Needed => stmt.output.is_some(),
    };
    let operands = match rules.operands {
        Operands::One => !stmt.a.is_none() && stmt.b.is_none(),
        Operands::Two => !stmt.a.is_none() && !stmt.b.is_none(),
        Operands::First => !stmt.a.is_none(),
        Operands::Free => true,
    };
    output && operands
}

/// Asked only where the operands that a rule speaks of are there.
fn sizes_allowed(stmt: &Stmt) -> bool {
    let output = stmt.output.map(|var| var.size);
    let (a, b) = (stmt.a.size(), stmt.b.size());
    match stmt.op.rules().sizes {
        Sizes::Any => true,
        Sizes::Same => a == output,
        Sizes::Piece => a.is_some_and(|a| stmt.number <= a as u16),
        Sizes::Extend => a <= output,
        Sizes::All => a == b && a == output,
        Sizes::Pair => a == b,
    }
}

/// 7: one distinct variable too many, at the statement naming it.
fn variables(block: &Block, most: usize) -> Result<(), Refusal> {
    let mut ids: Vec<i16> = Vec::new();
    for (place, stmt) in block.stmts.iter().enumerate() {
        for var in stmt.vars() {
            if !ids.contains(&var.id) {
                ids.push(var.id);
            }
        }
        if ids.len() > most {
            return Err(Refusal::new(7, place));
        }
    }
    Ok(())
}

/// 6: a label that stands a second time, or a branch to one that isn't there.
fn labels(block: &Block) -> Result<(), Refusal> {
    for (place, stmt) in block.stmts.iter().enumerate() {
        let stands = block.label(stmt.number);
        let bad = match stmt.op {
            Op::PcodeLabel => stands != Some(place),
            Op::PcodeBranch => stands.is_none(),
            _ => false,
        };
        if bad {
            return Err(Refusal::new(6, place));
        }
    }
    Ok(())
}
