//! What the passes answer to the bytes of a block file: text form, a refusal line, or that the original can't tell.

use crate::block::{Block, Limits, Refusal, Stmt};
use crate::model::fault::Fault;
use crate::original::{self, Outcome};
use crate::{checks, model, text};

#[derive(Clone, Copy, Debug, PartialEq, Eq)]
pub enum Pass {
    First,
    Second,
    Both,
}

impl Pass {
    pub const ALL: [(Pass, &'static str); 3] = [(Pass::First, "first"), (Pass::Second, "second"), (Pass::Both, "both")];

    pub fn limits(self) -> Limits {
        match self {
            Pass::Second => Limits::SECOND,
            _ => Limits::FIRST,
        }
    }

    /// The model's answer, with a fault planted in it or none.
    pub fn model(self, block: &Block, fault: Fault) -> Result<Vec<Stmt>, Refusal> {
        match self {
            Pass::First => model::first_with(block, fault),
            Pass::Second => Ok(model::second_with(block, fault)),
            Pass::Both => model::both_with(block, fault),
        }
    }

    /// The original's answer.
    pub fn original(self, block: &Block) -> Outcome {
        match self {
            Pass::First => original::first(block),
            Pass::Second => original::second(block),
            Pass::Both => original::both(block),
        }
    }
}

/// What the original prints, with a panic as it is.
pub fn plain(bytes: &[u8], pass: Pass) -> String {
    let block = match checks::read(bytes, pass.limits()) {
        Err(refusal) => return refusal.line(),
        Ok(block) => block,
    };
    let panics = pass != Pass::Second && original::first_noting_names(&block).0 == Outcome::Panic;
    let outcome = if panics { Outcome::Panic } else { pass.original(&block) };
    match outcome {
        Outcome::Treated(stmts) => text::print(&stmts),
        Outcome::Refused(refusal) => refusal.line(),
        Outcome::NotComparable(place) => format!("not comparable\t{place}\n"),
        Outcome::Panic => "panic\n".to_string(),
    }
}

/// What document 01 has a program answer; none where the original's `Op` can't hold a number of the block.
pub fn recorded(bytes: &[u8], pass: Pass) -> Option<String> {
    let block = match checks::read(bytes, pass.limits()) {
        Err(refusal) => return Some(refusal.line()),
        Ok(block) => block,
    };
    match pass.original(&block) {
        Outcome::Treated(stmts) => Some(text::print(&stmts)),
        Outcome::Refused(refusal) => Some(refusal.line()),
        Outcome::NotComparable(_) => None,
        Outcome::Panic => panic!("the second pass never panics on a checked block"),
    }
}

/// What the block program must print for any bytes; the model answers where the original can't.
pub fn block_program(bytes: &[u8]) -> String {
    if let Some(answer) = recorded(bytes, Pass::Both) {
        return answer;
    }
    let block = checks::read(bytes, Limits::FIRST).expect("only a checked block is not comparable");
    text::print_answer(&model::both(&block))
}

/// A block printed back as it was read and checked, marks aside, or its refusal.
pub fn read_back(bytes: &[u8], limits: Limits) -> String {
    text::print_answer(&checks::read(bytes, limits).map(|block| block.stmts))
}
