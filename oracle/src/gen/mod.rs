//! Seeded blocks and files that make document 01's rules fire.

pub mod broken;
pub mod damaged;
mod flow;
pub mod operands;
mod patterns;
mod pool;
pub mod small;
mod stmts;

use crate::block::{Block, Limits, Operand, Stmt};
use crate::ops::Op;
use crate::rng::Rng;
use pool::Pool;

/// What a generated block is for.
#[derive(Clone, Copy, Debug)]
pub struct Shape {
    pub statements: usize,
    pub variables: usize,
    /// Only operations that can run, with branches forward and inside their instruction.
    pub runs: bool,
}

impl Shape {
    /// Mostly small blocks, up to the first pass's limits.
    pub fn any(rng: &mut Rng, runs: bool) -> Self {
        let most = Limits::FIRST.statements;
        let (low, high) = rng.weighted(&[(8, (1, 6)), (8, (7, 20)), (3, (21, 48)), (1, (49, most))]);
        let statements = rng.between(low, high);
        let variables = rng.weighted(&[(4, 2), (6, 3), (6, 5), (4, 8), (1, 24), (1, 40)]);
        Self { statements, variables, runs }
    }
}

/// A block that passes the checks.
pub fn block(rng: &mut Rng, shape: Shape) -> Block {
    let mut pool = Pool::new(rng, shape.variables);
    let flow = if shape.statements > 3 { rng.below(shape.statements / 2) } else { 0 };
    let plain = shape.statements - flow;
    let mut stmts = Vec::new();
    while stmts.len() < plain {
        match rng.chance(1, 5) {
            true => stmts.extend(patterns::any(rng, &mut pool, shape.runs)),
            false => stmts.push(stmts::any(rng, &mut pool, shape.runs)),
        }
    }
    stmts.truncate(plain);
    flow::add(rng, &mut pool, &mut stmts, flow, shape.runs);
    let mut marks = Vec::new();
    if rng.chance(1, 4) {
        for _ in 0..rng.pick(&[1, 1, 2, 3, 16]) {
            marks.push(mark(rng, &pool));
        }
    }
    Block { stmts, marks }
}

fn mark(rng: &mut Rng, pool: &Pool) -> i16 {
    let id = pool.id(rng);
    if id > 0 {
        id
    } else {
        rng.pick(&[1, 2, 3, 99, 32767])
    }
}

/// A block of text form, with one in twenty broken in a check.
pub fn good(rng: &mut Rng) -> Block {
    let shape = Shape::any(rng, false);
    let mut made = block(rng, shape);
    if rng.chance(1, 20) {
        broken::breaking(rng, &mut made);
    }
    made
}

/// A block for a run, now and then outside the run class.
pub fn running(rng: &mut Rng) -> Block {
    let runs = rng.chance(59, 60);
    let shape = Shape { runs, ..Shape::any(rng, true) };
    block(rng, shape)
}

/// A statement of this operation.
pub fn one(rng: &mut Rng, op: Op) -> Stmt {
    let mut pool = Pool::new(rng, 3);
    stmts::of(rng, &mut pool, op)
}

/// A small block with this operation in it.
pub fn with_operation(rng: &mut Rng, op: Op) -> Block {
    around(rng, op, false)
}

/// The same for a run.
pub fn with_run_operation(rng: &mut Rng, op: Op) -> Block {
    around(rng, op, true)
}

fn around(rng: &mut Rng, op: Op, runs: bool) -> Block {
    let mut pool = Pool::new(rng, 3);
    let mut stmts = Vec::new();
    for _ in 0..rng.between(1, 3) {
        stmts.push(stmts::any(rng, &mut pool, runs));
        stmts.push(stmts::of(rng, &mut pool, op));
    }
    stmts.push(stmts::any(rng, &mut pool, runs));
    settle_labels(&mut stmts);
    Block { stmts, marks: Vec::new() }
}

/// Numbers labels apart, and gives every branch a label.
fn settle_labels(stmts: &mut Vec<Stmt>) {
    let label = |number| Stmt::new(Op::PcodeLabel, number, None, Operand::None, Operand::None);
    for at in 0..stmts.len() {
        match stmts[at].op {
            Op::PcodeLabel => stmts[at].number = at as u16,
            Op::PcodeBranch => {
                let number = 100 + at as u16;
                stmts[at].number = number;
                stmts.push(label(number));
            }
            _ => {}
        }
    }
}
