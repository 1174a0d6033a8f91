//! Generated runs of statements that make one rule of the passes fire.

use super::pool::Pool;
use super::stmts;
use crate::block::{Operand, Stmt, Var};
use crate::ops::Op;
use crate::rng::Rng;

fn copy(output: Var, a: Operand) -> Stmt {
    Stmt::plain(Op::Copy, output, a, Operand::None)
}

fn op1(op: Op, output: Var, a: Var) -> Stmt {
    Stmt::plain(op, output, Operand::Var(a), Operand::None)
}

fn op2(op: Op, output: Var, a: Operand, b: Operand) -> Stmt {
    Stmt::plain(op, output, a, b)
}

/// One of the patterns; only operations that can run if `runs_only`.
pub fn any(rng: &mut Rng, pool: &mut Pool, runs_only: bool) -> Vec<Stmt> {
    match rng.below(if runs_only { 10 } else { 12 }) {
        0 | 1 => widening(rng, pool, runs_only),
        8 => signed_byte(rng, pool),
        9 => around_marker(rng, pool),
        2 => restored(rng, pool),
        3 => repeated(rng, pool, runs_only),
        4 => inverted(rng, pool),
        5 => decided(rng, pool),
        6 => partly_known_amount(rng, pool),
        7 => pieces(rng, pool),
        10 => rotate(rng, pool),
        _ => hooked(rng, pool),
    }
}

/// Known zero bytes, then narrower writes below them.
fn widening(rng: &mut Rng, pool: &mut Pool, runs_only: bool) -> Vec<Stmt> {
    let id = pool.id(rng);
    let size = rng.pick(&[2, 4, 8, 8, 8, 16, 16, 9]);
    let mut stmts = vec![copy(Var::new(id, 0, size), Operand::Const(0, size))];
    for _ in 0..rng.between(1, 3) {
        let narrow = rng.between(1, size as usize - 1) as u8;
        let narrow = if rng.chance(2, 3) { 1 << narrow.ilog2() } else { narrow };
        let output = Var::new(id, 0, narrow);
        let mut stmt = match rng.below(4) {
            0 => stmts::of(rng, pool, Op::Load),
            1 => copy(output, pool.operand(rng, narrow)),
            2 => op2(Op::IntXor, output, pool.operand(rng, narrow), pool.operand(rng, narrow)),
            _ if runs_only => op2(Op::IntEqual, output, pool.operand(rng, 4), pool.operand(rng, 4)),
            _ => {
                let op = rng.pick(&[Op::PcodeOp, Op::IntDiv, Op::TracerLoad, Op::FloatAdd]);
                let (a, b) = (pool.operand(rng, narrow), pool.operand(rng, narrow));
                Stmt::new(op, 0, Some(output), a, b)
            }
        };
        stmt.output = Some(output);
        stmts.push(stmt);
    }
    stmts
}

/// A value kept aside, overwritten in part, and put back whole or in two parts.
fn restored(rng: &mut Rng, pool: &mut Pool) -> Vec<Stmt> {
    let size = rng.between(2, 8) as u8;
    let held = pool.var(rng, size);
    let aside = Var::new(pool.other_id(rng, held.id), rng.between(0, 8) as u8, size);
    let hurt = Var::new(held.id, held.offset + rng.below(size as usize) as u8, 1);
    let mut stmts = vec![copy(aside, Operand::Var(held)), copy(hurt, pool.operand(rng, 1))];
    if rng.chance(1, 2) {
        let cut = rng.between(1, size as usize - 1) as u8;
        let part = |var: Var, from: u8, size: u8| Var::new(var.id, var.offset + from, size);
        stmts.push(copy(part(held, 0, cut), Operand::Var(part(aside, 0, cut))));
        stmts.push(copy(part(held, cut, size - cut), Operand::Var(part(aside, cut, size - cut))));
    } else if rng.chance(2, 3) {
        stmts.push(copy(held, Operand::Var(aside)));
    }
    let last = pool.var(rng, size);
    stmts.push(copy(last, Operand::Var(if rng.chance(1, 2) { held } else { aside })));
    stmts
}

/// The same expression twice, so that the second may come out as the first one's variable.
fn repeated(rng: &mut Rng, pool: &mut Pool, runs_only: bool) -> Vec<Stmt> {
    let first = stmts::any(rng, pool, runs_only);
    let mut again = first;
    if let Some(output) = first.output {
        again.output = Some(pool.var(rng, output.size));
    }
    let between = stmts::any(rng, pool, runs_only);
    if rng.chance(1, 2) {
        vec![first, again]
    } else {
        vec![first, between, again]
    }
}

/// Not twice is nothing; a value against itself and its opposite.
fn inverted(rng: &mut Rng, pool: &mut Pool) -> Vec<Stmt> {
    let size = pool.size(rng);
    let [x, not, back, out] = [(); 4].map(|_| pool.var(rng, size));
    let op = rng.pick(&[Op::IntAnd, Op::IntOr, Op::IntXor, Op::IntSub, Op::IntAdd, Op::IntEqual, Op::IntLess]);
    let a = Operand::Var(x);
    let b = Operand::Var(if rng.chance(2, 3) { not } else { back });
    vec![op1(Op::IntNot, not, x), op1(Op::IntNot, back, not), op2(op, out, a, b)]
}

/// A truth value, combined, then branched on.
fn decided(rng: &mut Rng, pool: &mut Pool) -> Vec<Stmt> {
    let size = pool.size(rng);
    let [x, y] = [(); 2].map(|_| pool.var(rng, 1));
    let op = rng.pick(&[
        Op::IntEqual,
        Op::IntNotEqual,
        Op::IntLess,
        Op::IntSignedLess,
        Op::IntLessEqual,
        Op::IntSignedLessEqual,
        Op::IntCarry,
        Op::IntSignedCarry,
        Op::IntSignedBorrow,
    ]);
    let a = pool.operand(rng, size);
    let b = if rng.chance(1, 4) { a } else { pool.operand(rng, size) };
    let both = rng.pick(&[Op::BoolAnd, Op::BoolOr, Op::BoolXor]);
    let exit = Stmt::new(Op::Branch, rng.below(3) as u16, None, Operand::Var(y), pool.operand(rng, 8));
    let mut stmts = vec![op2(op, x, a, b)];
    match rng.chance(1, 2) {
        true => stmts.push(op1(Op::BoolNot, y, x)),
        false => stmts.push(op2(both, y, Operand::Var(x), pool.operand(rng, 1))),
    }
    stmts.push(exit);
    stmts
}

/// A shift whose amount is known in some bits only.
fn partly_known_amount(rng: &mut Rng, pool: &mut Pool) -> Vec<Stmt> {
    let size = rng.pick(&[1, 1, 2, 4, 9, 16]);
    let [x, amount] = [(); 2].map(|_| pool.var(rng, size));
    let mask = Operand::constant(rng.pick(&[1, 2, 3, 4, 7, 8, 16, 24, 32, 64, 128]), size);
    let by = rng.pick(&[Op::IntAnd, Op::IntOr]);
    let width = pool.size(rng);
    let op = rng.pick(&[Op::IntLeft, Op::IntRight, Op::IntSignedRight]);
    let (a, out) = (pool.operand(rng, width), pool.var(rng, width));
    vec![op2(by, amount, Operand::Var(x), mask), op2(op, out, a, Operand::Var(amount))]
}

/// Extended, then cut again.
fn pieces(rng: &mut Rng, pool: &mut Pool) -> Vec<Stmt> {
    let narrow = rng.between(1, 8) as u8;
    let wide = rng.between(narrow as usize, 16) as u8;
    let [x, cut] = [(); 2].map(|_| pool.var(rng, narrow));
    let whole = pool.var(rng, wide);
    let extend = rng.pick(&[Op::ZeroExtend, Op::SignExtend]);
    let from = if rng.chance(1, 2) { 0 } else { rng.between(0, wide as usize) as u16 };
    let piece = Stmt::new(Op::Subpiece, from, Some(cut), Operand::Var(whole), Operand::None);
    vec![op1(extend, whole, x), piece]
}

/// An undecided byte below a known one, as an operand whose sign counts.
fn signed_byte(rng: &mut Rng, pool: &mut Pool) -> Vec<Stmt> {
    let both = pool.var(rng, 2);
    let [byte, above] = [0, 1].map(|up| Var::new(both.id, both.offset + up, 1));
    let op =
        rng.pick(&[Op::SignExtend, Op::IntSignedRight, Op::IntSignedLess, Op::IntSignedCarry, Op::IntSignedBorrow]);
    let (wide, out) = (pool.var(rng, 4), pool.var(rng, 1));
    let mut stmts = vec![copy(above, pool.constant(rng, 1))];
    match op {
        Op::SignExtend => {
            let from = rng.between(1, 3) as u16;
            stmts.push(op1(op, wide, byte));
            stmts.push(Stmt::new(Op::Subpiece, from, Some(out), Operand::Var(wide), Operand::None));
        }
        Op::IntSignedRight => stmts.push(op2(op, out, Operand::Var(byte), Operand::Const(rng.between(7, 9) as u64, 1))),
        _ => stmts.push(op2(op, out, Operand::Var(byte), pool.operand(rng, 1))),
    }
    stmts
}

/// One value computed on both sides of a marker, first into a variable that the marker may forget.
fn around_marker(rng: &mut Rng, pool: &mut Pool) -> Vec<Stmt> {
    let size = pool.size(rng);
    let [x, first, again] = [(); 3].map(|_| pool.var(rng, size));
    let marker = Stmt::new(Op::InstructionMarker, 0, None, Operand::Const(4096, 8), Operand::Const(4, 8));
    let store = Stmt::new(Op::Store, 0, None, Operand::Const(64, 8), Operand::Var(again));
    vec![op1(Op::IntNot, first, x), marker, op1(Op::IntNot, again, x), store]
}

/// A rotate of something partly known, by an amount up to the width and rarely one above.
fn rotate(rng: &mut Rng, pool: &mut Pool) -> Vec<Stmt> {
    let size = pool.size(rng);
    let out = pool.var(rng, size);
    let op = rng.pick(&[Op::IntRotateLeft, Op::IntRotateRight]);
    let most = size as usize * 8 + rng.chance(1, 20) as usize;
    let amount = Operand::constant(rng.between(0, most) as u64, rng.pick(&[1, 2, 8, 9]));
    let a = pool.operand(rng, size);
    vec![op2(op, out, a, amount)]
}

/// A hook with an output, which counts as used right behind it, and copies out of that variable.
fn hooked(rng: &mut Rng, pool: &mut Pool) -> Vec<Stmt> {
    let op = rng.pick(&[Op::Hook, Op::HookIf]);
    let hook = stmts::of(rng, pool, op);
    let Some(output) = hook.output else { return vec![hook] };
    let size = rng.between(1, 16) as u8;
    let part = Operand::Var(Var::new(output.id, rng.between(0, 16 - size as usize) as u8, size));
    let [x, y] = [(); 2].map(|_| pool.var(rng, size));
    vec![hook, copy(x, part), copy(y, part)]
}
