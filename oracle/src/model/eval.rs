//! One operation on symbolic bits, from document 01's symbolic rules.

use super::bits::{known_constant, least_amount, Bit, Slice};
use super::fault::Fault;
use crate::ops::Op;

/// What an operation does to an output.
#[derive(Clone, Debug, PartialEq, Eq)]
pub enum Evaluated {
    Bits(Vec<Bit>),
    /// The output keeps its bits.
    Unchanged,
    /// A rotate by a known amount above the width: refusal 8.
    Refused,
}

/// The output's bits, `width` of them, with unknown bits not yet named.
pub fn eval(op: Op, number: u16, a: &Slice, b: &Slice, width: usize, fault: Fault) -> Evaluated {
    use Op::*;
    if width == 0 {
        return Evaluated::Unchanged;
    }
    let (x, y) = (&a.bits, &b.bits);
    let bits = match op {
        Copy => x.clone(),
        Subpiece => fit(x[8 * number as usize..].to_vec(), width, Bit::Zero),
        ZeroExtend => fit(x.clone(), width, Bit::Zero),
        SignExtend => fit(x.clone(), width, a.sign),
        IntAdd => add(x, y).0,
        IntSub => sub(x, y).0,
        IntNegate => sub(&vec![Bit::Zero; width], x).0,
        IntNot => x.iter().map(|bit| bit.not()).collect(),
        IntAnd => each(x, y, Bit::and),
        IntOr => each(x, y, Bit::or),
        IntXor => each(x, y, Bit::xor),
        IntMul => multiply(x, y),
        IntCountOnes => number_or_unknown(count_ones(x), width),
        IntCountLeadingZeroes => number_or_unknown(leading_zeros(x), width),
        IntLeft | IntRight | IntSignedRight => shift(op, a, y, fault),
        IntRotateLeft | IntRotateRight => return rotate(op, x, y),
        IntEqual | IntNotEqual | IntLess | IntLessEqual | IntSignedLess | IntSignedLessEqual | IntCarry
        | IntSignedCarry | IntSignedBorrow => truth(compare(op, a, b), width),
        BoolAnd => truth(x[0].and(y[0]), width),
        BoolOr => truth(x[0].or(y[0]), width),
        BoolXor => truth(x[0].xor(y[0]), width),
        BoolNot => truth(x[0].not(), width),
        Store | TracerStore | Branch | PcodeBranch | PcodeLabel | Arg | Exception | InstructionMarker | Invalid => {
            return Evaluated::Unchanged
        }
        // Divisions, floats, Select, loads, PcodeOp, hooks, MultiEqual and Indirect.
        _ => vec![Bit::Unknown; width],
    };
    Evaluated::Bits(bits)
}

/// Cut or filled up to a width.
fn fit(mut bits: Vec<Bit>, width: usize, fill: Bit) -> Vec<Bit> {
    bits.resize(width, fill);
    bits
}

/// "Comparisons, carries, the borrow and boolean operations set bit 0, the rest zero."
fn truth(bit: Bit, width: usize) -> Vec<Bit> {
    fit(vec![bit], width, Bit::Zero)
}

fn each(x: &[Bit], y: &[Bit], f: fn(Bit, Bit) -> Bit) -> Vec<Bit> {
    x.iter().zip(y).map(|(a, b)| f(*a, *b)).collect()
}

fn number_or_unknown(number: Option<u64>, width: usize) -> Vec<Bit> {
    match number {
        Some(number) => (0..width).map(|i| Bit::of(i < 64 && number >> i & 1 == 1)).collect(),
        None => vec![Bit::Unknown; width],
    }
}

/// The sum and its carry.
fn add(x: &[Bit], y: &[Bit]) -> (Vec<Bit>, Bit) {
    let mut carry = Bit::Zero;
    let mut sum = Vec::with_capacity(x.len());
    for (a, b) in x.iter().zip(y) {
        let half = a.xor(*b);
        sum.push(half.xor(carry));
        carry = a.and(*b).or(half.and(carry));
    }
    (sum, carry)
}

/// The difference and its borrow.
fn sub(x: &[Bit], y: &[Bit]) -> (Vec<Bit>, Bit) {
    let mut borrow = Bit::Zero;
    let mut difference = Vec::with_capacity(x.len());
    for (a, b) in x.iter().zip(y) {
        let half = a.xor(*b);
        difference.push(half.xor(borrow));
        borrow = a.not().and(*b).or(half.not().and(borrow));
    }
    (difference, borrow)
}

/// Slice equality: one position decided unequal decides, one undecided is the answer, two or more are unknown.
fn equal(x: &[Bit], y: &[Bit]) -> Bit {
    let equalities: Vec<Bit> = each(x, y, |a, b| a.xor(b).not());
    if equalities.contains(&Bit::Zero) {
        return Bit::Zero;
    }
    let undecided: Vec<Bit> = equalities.into_iter().filter(|bit| *bit != Bit::One).collect();
    match undecided[..] {
        [] => Bit::One,
        [bit] => bit,
        _ => Bit::Unknown,
    }
}

fn compare(op: Op, a: &Slice, b: &Slice) -> Bit {
    let (x, y) = (&a.bits, &b.bits);
    match op {
        Op::IntEqual => equal(x, y),
        Op::IntNotEqual => equal(x, y).not(),
        Op::IntLess => sub(x, y).1,
        Op::IntLessEqual => sub(x, y).1.or(equal(x, y)),
        Op::IntSignedLess => signed_less(a, b),
        Op::IntSignedLessEqual => signed_less(a, b).or(equal(x, y)),
        Op::IntCarry => add(x, y).1,
        Op::IntSignedCarry => {
            let sum = add(x, y).0[x.len() - 1];
            let (a, b) = (a.sign, b.sign);
            a.or(b).not().and(sum).or(a.and(b).and(sum.not()))
        }
        _ => signed_borrow(a, b),
    }
}

fn signed_borrow(a: &Slice, b: &Slice) -> Bit {
    let difference = sub(&a.bits, &b.bits).0[a.bits.len() - 1];
    a.sign.xor(b.sign).and(difference.xor(a.sign))
}

/// The difference's sign, exclusive or its overflow.
fn signed_less(a: &Slice, b: &Slice) -> Bit {
    let difference = sub(&a.bits, &b.bits).0[a.bits.len() - 1];
    difference.xor(signed_borrow(a, b))
}

/// "Both known, product; one known zero, zero; one known power of two, left shift; else unknown."
fn multiply(x: &[Bit], y: &[Bit]) -> Vec<Bit> {
    let width = x.len();
    let (known, other) = match (known_constant(x), known_constant(y)) {
        (Some(a), Some(b)) => return number_or_unknown(Some(a.wrapping_mul(b)), width),
        (Some(a), None) => (a, y),
        (None, Some(b)) => (b, x),
        (None, None) => return vec![Bit::Unknown; width],
    };
    match known {
        0 => vec![Bit::Zero; width],
        known if known.is_power_of_two() => left(other, known.ilog2() as usize),
        _ => vec![Bit::Unknown; width],
    }
}

fn left(bits: &[Bit], by: usize) -> Vec<Bit> {
    let low = vec![Bit::Zero; by];
    low.into_iter().chain(bits.iter().copied()).take(bits.len()).collect()
}

fn right(bits: &[Bit], by: usize, fill: Bit) -> Vec<Bit> {
    fit(bits[by..].to_vec(), bits.len(), fill)
}

fn shift(op: Op, a: &Slice, amount: &[Bit], fault: Fault) -> Vec<Bit> {
    let width = a.bits.len();
    let fill = if op == Op::IntSignedRight { a.sign } else { Bit::Zero };
    let least = least_amount(amount);
    if least >= width as u64 {
        return vec![fill; width];
    }
    let known = known_constant(amount).is_some();
    let bits = if known { a.bits.clone() } else { vec![Bit::Unknown; width] };
    let more = !known && fault == Fault::LeastAmountPlusOne;
    let by = least as usize + more as usize;
    match op {
        Op::IntLeft => left(&bits, by),
        _ => right(&bits, by, fill),
    }
}

/// Left by a known s puts input bit (i+s) modulo the width at i; right the reverse.
fn rotate(op: Op, bits: &[Bit], amount: &[Bit]) -> Evaluated {
    let width = bits.len();
    let Some(by) = known_constant(amount) else { return Evaluated::Bits(vec![Bit::Unknown; width]) };
    if by > width as u64 {
        return Evaluated::Refused;
    }
    let by = match op {
        Op::IntRotateLeft => by as usize,
        _ => width - by as usize,
    };
    Evaluated::Bits((0..width).map(|i| bits[(i + by) % width]).collect())
}

/// "Counting ones needs every bit known."
fn count_ones(bits: &[Bit]) -> Option<u64> {
    let mut ones = 0;
    for bit in bits {
        ones += bit.known()? as u64;
    }
    Some(ones)
}

/// "Leading zeros needs the bits down to the highest one, or all."
fn leading_zeros(bits: &[Bit]) -> Option<u64> {
    let zeros = bits.iter().rev().take_while(|bit| **bit == Bit::Zero).count();
    match bits.iter().rev().nth(zeros) {
        None | Some(Bit::One) => Some(zeros as u64),
        _ => None,
    }
}
