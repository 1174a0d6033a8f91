//! The original Rust passes on a block of document 01, with 01's names for added temporaries and its refusals 8 and 9.

pub mod convert;
pub mod planted;

use crate::block::{Block, Refusal, Stmt};
use crate::ops::Op;
use icicle::Optimizer;
use std::cell::Cell;
use std::panic::{catch_unwind, AssertUnwindSafe};

/// What came of running the original.
#[derive(Clone, Debug, PartialEq, Eq)]
pub enum Outcome {
    Treated(Vec<Stmt>),
    Refused(Refusal),
    /// The original's `Op` can't hold the number of this statement.
    NotComparable(usize),
    /// The original panicked, and the statement wasn't asked for.
    Panic,
}

/// The first pass's result before names are settled.
struct Raw {
    stmts: Vec<Stmt>,
    /// The result's statements that write an added temporary; the next one is its `ZeroExtend`.
    added: Vec<usize>,
}

thread_local! {
    /// Whether a panic is the original's, which is caught and answered.
    static CAUGHT: Cell<bool> = const { Cell::new(false) };
}

/// Keeps the original's panics off standard error.
pub fn silence_panics() {
    let usual = std::panic::take_hook();
    std::panic::set_hook(Box::new(move |info| {
        if !CAUGHT.get() {
            usual(info);
        }
    }));
}

/// Runs a piece of the original; none if it panicked.
pub fn caught<T>(original: impl FnOnce() -> T) -> Option<T> {
    CAUGHT.set(true);
    let answer = catch_unwind(AssertUnwindSafe(original)).ok();
    CAUGHT.set(false);
    answer
}

fn optimizer(marks: &[i16]) -> Optimizer {
    let mut optimizer = Optimizer::new();
    marks.iter().for_each(|id| optimizer.mark_as_temporary(*id));
    optimizer
}

/// The statements in the original's form, or the first that it can't hold.
fn to_original(stmts: &[Stmt]) -> Result<pcode::Block, usize> {
    let mut block = pcode::Block::new();
    for (place, stmt) in stmts.iter().enumerate() {
        block.push(convert::to_instruction(stmt).ok_or(place)?);
    }
    Ok(block)
}

fn from_original(block: &pcode::Block) -> Vec<Stmt> {
    block.instructions.iter().map(convert::from_instruction).collect()
}

/// The original's `const_prop`; none where it panics.
///
/// Its listing of values names every pushed statement but kept labels, added branches and those that write an added
/// temporary. Of these three only the last have an output.
fn const_prop(stmts: &[Stmt], marks: &[i16]) -> Result<Option<Raw>, usize> {
    let mut block = to_original(stmts)?;
    let mut optimizer = optimizer(marks);
    if caught(|| optimizer.const_prop(&mut block)).is_none() {
        return Ok(None);
    }
    let stmts = from_original(&block);
    let mut listed = vec![false; stmts.len()];
    optimizer.const_prop_values().for_each(|(place, ..)| listed[*place] = true);
    let added = (0..stmts.len()).filter(|&i| !listed[i] && stmts[i].output.is_some()).collect();
    Ok(Some(Raw { stmts, added }))
}

/// The least of 0 and all ids of a block.
fn least_id(stmts: &[Stmt]) -> i32 {
    stmts.iter().flat_map(Stmt::vars).map(|var| var.id as i32).min().unwrap_or(0).min(0)
}

/// How many temporaries can still be added to a block.
fn names_left(stmts: &[Stmt]) -> usize {
    (least_id(stmts) - i16::MIN as i32) as usize
}

/// Gives the added temporaries 01's names; true if the original's own were others.
///
/// The pass never refers to an added temporary but in the `ZeroExtend` behind it.
fn rename(given: &[Stmt], raw: &mut Raw) -> bool {
    let mut least = least_id(given);
    let mut differed = false;
    for &at in &raw.added {
        least -= 1;
        let output = raw.stmts[at].output.as_mut().expect("an added temporary is an output");
        differed |= output.id as i32 != least;
        output.id = least as i16;
        raw.stmts[at + 1].a = crate::block::Operand::Var(*output);
    }
    differed
}

/// The first pass alone, with a panic as it is; the flag tells that the original's names were others than 01's.
pub fn first_noting_names(block: &Block) -> (Outcome, bool) {
    let mut raw = match const_prop(&block.stmts, &block.marks) {
        Err(place) => return (Outcome::NotComparable(place), false),
        Ok(None) => return (Outcome::Panic, false),
        Ok(Some(raw)) => raw,
    };
    if raw.added.len() > names_left(&block.stmts) {
        return (Outcome::Refused(refusal(block)), false);
    }
    let differed = rename(&block.stmts, &mut raw);
    (Outcome::Treated(raw.stmts), differed)
}

/// The first pass alone; a panic is refusal 8 at its statement.
pub fn first(block: &Block) -> Outcome {
    match first_noting_names(block).0 {
        Outcome::Panic => Outcome::Refused(refusal(block)),
        other => other,
    }
}

/// The statement at which a block that can't be treated meets refusal 8 or 9.
///
/// The original is run on growing beginnings. Of the rest only labels and their branches are left, so that every label
/// has the same branches above and below it; none of these can panic or add a temporary.
fn refusal(block: &Block) -> Refusal {
    let left = names_left(&block.stmts);
    for place in 0..block.stmts.len() {
        let (begun, rest) = block.stmts.split_at(place + 1);
        let jumps = rest.iter().filter(|s| matches!(s.op, Op::PcodeLabel | Op::PcodeBranch));
        let stmts: Vec<Stmt> = begun.iter().chain(jumps).copied().collect();
        match const_prop(&stmts, &block.marks).expect("the whole block was comparable") {
            None => return Refusal::new(8, place),
            Some(raw) if raw.added.len() > left => return Refusal::new(9, place),
            Some(_) => {}
        }
    }
    unreachable!("the whole block was refused");
}

/// The second pass alone.
pub fn second(block: &Block) -> Outcome {
    let mut treated = match to_original(&block.stmts) {
        Err(place) => return Outcome::NotComparable(place),
        Ok(treated) => treated,
    };
    let mut optimizer = optimizer(&block.marks);
    match caught(|| optimizer.dead_store_elimination(&mut treated)) {
        None => Outcome::Panic,
        Some(()) => Outcome::Treated(from_original(&treated)),
    }
}

/// The second pass on what the first one left.
pub fn both(block: &Block) -> Outcome {
    match first(block) {
        Outcome::Treated(stmts) => second(&block.with(stmts)),
        other => other,
    }
}
