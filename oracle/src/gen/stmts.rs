//! Single generated statements, in size and operands as document 01 allows.

use super::pool::Pool;
use crate::block::{Operand, Stmt};
use crate::ops::{Op, Operands, Outputs, Sizes};
use crate::rng::Rng;

/// Numbers at the ends of what a field, a u8 and an i16 hold.
pub const NUMBERS: &[u16] = &[0, 0, 1, 1, 2, 3, 7, 255, 256, 32767, 32768, 65535];

/// Any operation but those that decide where the block goes on, which are placed with care elsewhere.
pub fn any(rng: &mut Rng, pool: &mut Pool, runs_only: bool) -> Stmt {
    let op = operation(rng, runs_only);
    of(rng, pool, op)
}

fn operation(rng: &mut Rng, runs_only: bool) -> Op {
    let common = [
        (22, Op::Copy),
        (7, Op::Load),
        (5, Op::Store),
        (3, Op::Branch),
        (4, Op::ZeroExtend),
        (3, Op::SignExtend),
        (4, Op::Subpiece),
        (4, Op::IntAnd),
        (4, Op::IntXor),
        (4, Op::IntAdd),
    ];
    if rng.chance(1, 2) {
        return rng.weighted(&common);
    }
    loop {
        let op = rng.pick(Op::ALL);
        let placed = matches!(op, Op::PcodeBranch | Op::PcodeLabel | Op::InstructionMarker);
        // A hook forgets everything: too many would leave nothing to know.
        let rare = op.is_hook() && rng.chance(3, 4);
        if !placed && !rare && (op.rules().runs || !runs_only) {
            return op;
        }
    }
}

/// A statement of this operation.
pub fn of(rng: &mut Rng, pool: &mut Pool, op: Op) -> Stmt {
    let rules = op.rules();
    let (out, a, b) = sizes(rng, pool, op);
    let first = match rules.operands {
        Operands::Free => rng.chance(3, 4),
        _ => true,
    };
    let second = match rules.operands {
        Operands::One => false,
        Operands::Two => true,
        Operands::First => rng.chance(1, 8),
        Operands::Free => rng.chance(1, 2),
    };
    let a_operand = match (first, op) {
        (false, _) => Operand::None,
        (true, Op::Branch) => pool.condition(rng),
        (true, _) => pool.operand(rng, a),
    };
    let b_operand = match (second, rules.sizes) {
        (false, _) => Operand::None,
        (true, Sizes::Same) => {
            let above = !op.is_rotate() || rng.chance(1, 12);
            pool.amount(rng, a, above)
        }
        (true, _) => pool.operand(rng, b),
    };
    let output = match rules.outputs {
        Outputs::Never => false,
        Outputs::Optional => rng.chance(4, 5),
        Outputs::Needed => true,
    };
    let output = output.then(|| pool.var(rng, out));
    Stmt::new(op, number(rng, op, a), output, a_operand, b_operand)
}

/// Sizes of output, first and second that meet the operation's size rule.
fn sizes(rng: &mut Rng, pool: &Pool, op: Op) -> (u8, u8, u8) {
    let size = pool.size(rng);
    let other = pool.size(rng);
    match op.rules().sizes {
        Sizes::Any => (other, size, pool.size(rng)),
        Sizes::Same => (size, size, other),
        Sizes::Piece => (other, size, 0),
        Sizes::Extend => (size.max(other), size.min(other), 0),
        Sizes::All => (size, size, size),
        Sizes::Pair => {
            let out = if rng.chance(4, 5) { 1 } else { other };
            (out, size, size)
        }
    }
}

fn number(rng: &mut Rng, op: Op, a: u8) -> u16 {
    match op {
        Op::Subpiece => rng.between(0, a as usize) as u16,
        // The original holds three hints; others can't be compared.
        Op::Branch if rng.chance(199, 200) => rng.below(3) as u16,
        Op::Select if rng.chance(19, 20) => rng.pick(&[0, 1, 255, 32767]),
        op if op.rules().numbered => rng.pick(NUMBERS),
        _ => 0,
    }
}
