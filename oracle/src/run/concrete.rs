//! What an operation means on numbers, from document 01's "Meaning of an operation".

use crate::ops::Op;

/// An operand's value and its size in bytes.
#[derive(Clone, Copy, Debug, PartialEq, Eq)]
pub struct Number {
    pub value: u128,
    pub size: u8,
}

impl Number {
    pub fn new(value: u128, size: u8) -> Self {
        Self { value: value & ones(size), size }
    }

    fn bits(self) -> u32 {
        8 * self.size as u32
    }

    fn sign(self) -> bool {
        self.value >> (self.bits() - 1) & 1 == 1
    }

    /// The value with its sign in every bit above.
    fn signed(self) -> i128 {
        let up = 128 - self.bits();
        (self.value << up) as i128 >> up
    }

    /// Its bytes in hexadecimal, byte 0 first.
    pub fn hex(self) -> String {
        hex(&self.value.to_le_bytes()[..self.size as usize])
    }
}

pub fn hex(bytes: &[u8]) -> String {
    bytes.iter().map(|byte| format!("{byte:02x}")).collect()
}

/// The largest number of a size.
fn ones(size: u8) -> u128 {
    if size >= 16 {
        u128::MAX
    } else {
        (1 << (8 * size)) - 1
    }
}

/// The answer of an operation that has one and is neither a load nor outside the run class, cut to the output's size.
pub fn compute(op: Op, number: u16, a: Number, b: Number, out: u8) -> u128 {
    use Op::*;
    let (x, y) = (a.value, b.value);
    let answer = match op {
        Copy | ZeroExtend => x,
        SignExtend => a.signed() as u128,
        Subpiece => x.checked_shr(8 * number as u32).unwrap_or(0),
        IntAdd => x.wrapping_add(y),
        IntSub => x.wrapping_sub(y),
        IntMul => x.wrapping_mul(y),
        IntAnd => x & y,
        IntOr => x | y,
        IntXor => x ^ y,
        IntNot => !x,
        IntNegate => x.wrapping_neg(),
        IntCountOnes => x.count_ones() as u128,
        IntCountLeadingZeroes => (x.leading_zeros() - (128 - a.bits())) as u128,
        IntLeft | IntRight | IntSignedRight => shifted(op, a, y),
        BoolNot => !x & 1,
        BoolAnd => x & y & 1,
        BoolOr => (x | y) & 1,
        BoolXor => (x ^ y) & 1,
        _ => compared(op, a, b) as u128,
    };
    answer & ones(out)
}

/// "Shifts by the width or more give zero; signed right gives the sign in every bit."
fn shifted(op: Op, a: Number, by: u128) -> u128 {
    if by >= a.bits() as u128 {
        let all = op == Op::IntSignedRight && a.sign();
        return if all { u128::MAX } else { 0 };
    }
    match op {
        Op::IntLeft => a.value << by,
        Op::IntRight => a.value >> by,
        _ => (a.signed() >> by) as u128,
    }
}

fn compared(op: Op, a: Number, b: Number) -> bool {
    let (x, y) = (a.value, b.value);
    match op {
        Op::IntEqual => x == y,
        Op::IntNotEqual => x != y,
        Op::IntLess => x < y,
        Op::IntLessEqual => x <= y,
        Op::IntSignedLess => a.signed() < b.signed(),
        Op::IntSignedLessEqual => a.signed() <= b.signed(),
        Op::IntCarry => x.checked_add(y).is_none_or(|sum| sum > ones(a.size)),
        Op::IntSignedCarry => overflows(a.signed().checked_add(b.signed()), a.size),
        Op::IntSignedBorrow => overflows(a.signed().checked_sub(b.signed()), a.size),
        _ => unreachable!("{} has no answer of its own in a run", op.name()),
    }
}

/// Whether a signed number doesn't fit a size.
fn overflows(exact: Option<i128>, size: u8) -> bool {
    exact.is_none_or(|exact| Number::new(exact as u128, size).signed() != exact)
}
