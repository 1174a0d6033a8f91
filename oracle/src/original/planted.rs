//! The original's evaluation of one operation on bits planted in its variables.
//!
//! Its `eval` is private; `ConstEval::eval` calls it on variables whose bits can be set from outside.

use super::{caught, convert};
use crate::block::{Operand, Stmt, Var};
use crate::model::bits::Bit;
use crate::ops::Op;
use icicle::exec::const_eval::{self, ConstEval, Value};

/// The first operand's, second operand's and output's variables; each stands at the index of `ConstEval::values` below it.
const IDS: [i16; 3] = [1, 2, 3];

/// The id that the original gives the unknown bits of its output, behind those of the three variables.
/// Planted expressions have other ids.
pub const NEW_ID: u32 = IDS.len() as u32;

fn plant(bit: Bit) -> const_eval::Bit {
    match bit {
        Bit::Zero => const_eval::Bit::Zero,
        Bit::One => const_eval::Bit::One,
        Bit::Unknown => const_eval::Bit::Unknown,
        Bit::Expr { id, offset, invert } => const_eval::Bit::Expr(const_eval::Expr { id, offset, invert }),
    }
}

/// A bit of the answer; those named by this very evaluation were unknown.
fn lift(bit: &const_eval::Bit) -> Bit {
    match *bit {
        const_eval::Bit::Zero => Bit::Zero,
        const_eval::Bit::One => Bit::One,
        const_eval::Bit::Expr(expr) if expr.id != NEW_ID => {
            Bit::Expr { id: expr.id, offset: expr.offset, invert: expr.invert }
        }
        _ => Bit::Unknown,
    }
}

/// The output's bits after the operation; none where the original panics. An empty list is no operand or output.
pub fn eval(op: Op, number: u16, a: &[Bit], b: &[Bit], old: &[Bit]) -> Option<Vec<Bit>> {
    let mut state = ConstEval::new();
    for (id, bits) in IDS.into_iter().zip([a, b, old]) {
        let mut value = Value::zero();
        value.iter_mut().zip(bits).for_each(|(to, from)| *to = plant(*from));
        state.inputs.insert(id, state.values.len());
        state.values.push((pcode::VarNode::new(id, 16), value));
    }
    let size = |bits: &[Bit]| (bits.len() / 8) as u8;
    let [a, b, output] = [(IDS[0], a), (IDS[1], b), (IDS[2], old)].map(|(id, bits)| match size(bits) {
        0 => Operand::None,
        size => Operand::Var(Var::new(id, 0, size)),
    });
    let stmt = Stmt::new(op, number, output.var(), a, b);
    let instruction = convert::to_instruction(&stmt).expect("a number that the original's Op can hold");
    caught(|| state.eval(instruction))?;
    let answer = &state.values[NEW_ID as usize].1;
    Some(answer.iter().map(lift).collect())
}
