//! The recorder of single operations on symbolic bits, one a line.

use crate::gen::operands::{self, Evaluation, SIZES};
use crate::model::bits::{Bit, Slice};
use crate::model::eval::{self as model, Evaluated};
use crate::model::fault::Fault;
use crate::ops::Op;
use crate::original::planted;
use crate::rng::Rng;
use std::io::{self, Write};

/// Rounds through the sizes of the first operand, and lines for each size in all.
const ROUNDS: usize = 6;
const SHAPED: usize = 8;
/// Lines for an operation whose answer doesn't depend on its operands, at random sizes.
const PLAIN: usize = 5;

/// A bit's number: 0, 1, 2 for zero, one and unknown, else 4 + 512*id + 2*offset + invert.
fn code(bit: &Bit) -> u32 {
    match *bit {
        Bit::Zero => 0,
        Bit::One => 1,
        Bit::Unknown => 2,
        Bit::Expr { id, offset, invert } => 4 + 512 * id + 2 * offset as u32 + invert as u32,
    }
}

fn list(bits: &[Bit]) -> String {
    if bits.is_empty() {
        return "-".to_string();
    }
    bits.iter().map(|bit| code(bit).to_string()).collect::<Vec<_>>().join(",")
}

/// Operations that leave an output alone.
fn leaves_output(op: Op) -> bool {
    op.rules().outputs == crate::ops::Outputs::Never
}

fn depends_on_operands(op: Op) -> bool {
    let rules = op.rules();
    let divides = matches!(op, Op::IntDiv | Op::IntSignedDiv | Op::IntRem | Op::IntSignedRem);
    !divides && rules.operands != crate::ops::Operands::Free && !op.has_side_effects()
}

fn line(case: &Evaluation) -> String {
    let Evaluation { op, number, a, b, old } = case;
    let answer = match planted::eval(*op, *number, a, b, old) {
        Some(bits) => list(&bits),
        None => "refused 8".to_string(),
    };
    let number = if op.rules().numbered { number.to_string() } else { "-".to_string() };
    let fields = format!("{}\t{number}\t{}\t{}\t{}\t{answer}", op.name(), old.len() / 8, list(a), list(b));
    match leaves_output(*op) {
        true => format!("{fields}\t{}\n", list(old)),
        false => fields + "\n",
    }
}

pub fn record(seed: u64, out: &mut impl Write) -> io::Result<()> {
    let mut rng = Rng::new(seed);
    for &op in Op::ALL {
        let shaped = depends_on_operands(op);
        let lines = if shaped { SHAPED * SIZES.len() } else { PLAIN };
        for at in 0..lines {
            // Wide operands are costly to write down: most of the lines beyond the first few are narrow.
            let size = match shaped {
                true if at >= ROUNDS * SIZES.len() => rng.pick(&[1, 1, 2]),
                true => SIZES[at % SIZES.len()],
                false => rng.pick(&[1, 2, 3]),
            };
            write!(out, "{}", line(&operands::evaluation(&mut rng, op, size)))?;
        }
        if op.rules().outputs == crate::ops::Outputs::Optional {
            let case = operands::evaluation(&mut rng, op, 1);
            write!(out, "{}", line(&Evaluation { old: Vec::new(), ..case }))?;
        }
    }
    Ok(())
}

/// Holds the original's evaluation against the model's: evaluations, refusals among them, and the first difference.
pub fn agree(seed: u64, count: u64) -> (u64, u64, Option<String>) {
    let mut refused = 0;
    for case in 0..count {
        let mut rng = Rng::for_case(seed, case);
        let (op, size) = (rng.pick(Op::ALL), rng.between(1, 16));
        let case = operands::evaluation(&mut rng, op, size);
        let original = planted::eval(op, case.number, &case.a, &case.b, &case.old);
        let [a, b] = [&case.a, &case.b].map(|bits| Slice::new(bits.clone()));
        let modelled = match model::eval(op, case.number, &a, &b, case.old.len(), Fault::None) {
            Evaluated::Bits(bits) => Some(bits),
            Evaluated::Unchanged => Some(case.old.clone()),
            Evaluated::Refused => None,
        };
        refused += original.is_none() as u64;
        if original != modelled {
            return (count, refused, Some(line(&case)));
        }
    }
    (count, refused, None)
}
