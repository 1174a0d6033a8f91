//! Generated symbolic operands of one operation.

use crate::model::bits::Bit;
use crate::ops::{Op, Operands, Sizes};
use crate::original::planted::NEW_ID;
use crate::rng::Rng;

/// One evaluation: the operation, and bits for its operands and the output's old value.
pub struct Evaluation {
    pub op: Op,
    pub number: u16,
    pub a: Vec<Bit>,
    pub b: Vec<Bit>,
    pub old: Vec<Bit>,
}

/// Sizes in bytes, around the powers of two and the ends.
pub const SIZES: &[usize] = &[1, 2, 3, 4, 7, 8, 9, 15, 16];

/// How an operand's bits are chosen.
#[derive(Clone, Copy)]
enum Shape {
    Known,
    Expressions,
    LowByte,
    OneUndecided,
    Mixed,
    Unknowns,
}

fn expression(rng: &mut Rng, offset: usize) -> Bit {
    let id = rng.weighted(&[(20, 0), (6, 1), (2, 2), (1, 7), (1, 65535)]);
    assert_ne!(id, NEW_ID);
    Bit::Expr { id, offset: offset as u8, invert: rng.chance(1, 5) }
}

fn constant(rng: &mut Rng, width: usize) -> Vec<Bit> {
    let (power, sign) = (1 << rng.below(width), 1 << (width - 1));
    let edge = rng.pick(&[0, 0, 1, 2, power, sign, sign - 1, u128::MAX]);
    let any = (rng.word() as u128) << 64 | rng.word() as u128;
    let value = if rng.chance(2, 3) { edge } else { any };
    (0..width).map(|i| Bit::of(value >> i & 1 == 1)).collect()
}

fn operand(rng: &mut Rng, width: usize, shape: Shape) -> Vec<Bit> {
    let mut bits = constant(rng, width);
    match shape {
        Shape::Known => {}
        Shape::Expressions => {
            let from = rng.below(129 - width);
            let id = rng.pick(&[0, 0, 0, 1]);
            let invert = rng.chance(1, 4);
            bits = (0..width).map(|i| Bit::Expr { id, offset: (from + i) as u8, invert }).collect();
        }
        Shape::LowByte => {
            bits.fill(Bit::Zero);
            (0..8).for_each(|i| bits[i] = expression(rng, i));
        }
        Shape::OneUndecided => {
            let at = rng.below(width);
            bits[at] = if rng.chance(1, 8) { Bit::Unknown } else { expression(rng, at) };
        }
        Shape::Mixed => {
            for (i, bit) in bits.iter_mut().enumerate() {
                let any = expression(rng, i);
                *bit = rng.weighted(&[(4, Bit::Zero), (3, Bit::One), (1, Bit::Unknown), (4, any)]);
            }
        }
        Shape::Unknowns => bits.fill(Bit::Unknown),
    }
    bits
}

fn any_operand(rng: &mut Rng, width: usize) -> Vec<Bit> {
    use Shape::*;
    let shape =
        rng.weighted(&[(5, Known), (3, Expressions), (2, LowByte), (3, OneUndecided), (4, Mixed), (1, Unknowns)]);
    operand(rng, width, shape)
}

/// A second operand of the same width that has something to do with the first.
fn related(rng: &mut Rng, a: &[Bit]) -> Vec<Bit> {
    let mut b = match rng.below(5) {
        0 => a.to_vec(),
        1 => a.iter().map(|bit| bit.not()).collect(),
        2 => a.iter().map(|bit| if rng.chance(1, 3) { bit.not() } else { *bit }).collect(),
        _ => return any_operand(rng, a.len()),
    };
    if rng.chance(1, 2) {
        let at = rng.below(b.len());
        b[at] = rng.pick(&[Bit::Zero, Bit::One, Bit::Unknown]);
    }
    b
}

/// A shift or rotate amount below, at and above the width, known or with undecided bits beside a least amount.
fn amount(rng: &mut Rng, width: usize) -> Vec<Bit> {
    let size = rng.pick(&[1, 1, 1, 2, 4, 8, 9, 16]);
    let below = rng.below(width) as u128;
    let at = width as u128;
    let high = rng.pick(&[255, 256, 1 << 32, 1 << 63, 1 << 64, (1 << 64) + 1]);
    let value = rng.weighted(&[(4, below), (1, 0), (1, at - 1), (2, at), (2, at + 1), (1, high)]);
    let mut bits: Vec<Bit> = (0..8 * size).map(|i| Bit::of(value >> i & 1 == 1)).collect();
    if rng.chance(2, 5) {
        for _ in 0..rng.between(1, 3) {
            let i = rng.below(bits.len());
            bits[i] = if rng.chance(1, 6) { Bit::Unknown } else { expression(rng, i) };
        }
    }
    bits
}

/// One evaluation with a first operand of `size` bytes, as 01's checks allow it.
pub fn evaluation(rng: &mut Rng, op: Op, size: usize) -> Evaluation {
    let rules = op.rules();
    let width = 8 * size;
    let free = rules.operands == Operands::Free;
    let a = if free && rng.chance(1, 4) { Vec::new() } else { any_operand(rng, width) };
    let other = 8 * rng.pick(SIZES);
    let b = match (rules.operands, rules.sizes) {
        (Operands::One, _) => Vec::new(),
        (Operands::First | Operands::Free, _) if rng.chance(1, 2) => Vec::new(),
        (_, Sizes::Same) => amount(rng, width),
        (_, Sizes::All | Sizes::Pair) => related(rng, &a),
        _ => any_operand(rng, other),
    };
    let out = match rules.sizes {
        Sizes::Same | Sizes::All => size,
        Sizes::Extend => rng.pick(&SIZES.iter().copied().filter(|out| *out >= size).collect::<Vec<_>>()),
        Sizes::Pair if rng.chance(3, 4) => 1,
        _ => rng.pick(&[1, 1, 2, 3, 4, 8, 9, 16]),
    };
    let number = match op {
        Op::Subpiece => rng.between(0, size) as u16,
        op if rules.numbered && op != Op::Branch => rng.pick(&[0, 1, 255]),
        _ => 0,
    };
    Evaluation { op, number, a, b, old: any_operand(rng, 8 * out) }
}
