//! Both passes written from document 01's sentences, to hold the original against them.
//!
//! Nothing here was taken from the original but what 01 leaves to it: the form of the comparisons and the ripple of sums.

pub mod bits;
pub mod eval;
pub mod fault;
mod first;
mod known;
mod second;

use crate::block::{Block, Refusal, Stmt};
use fault::Fault;

pub use first::first as first_with;
pub use second::second as second_with;

/// The first pass on a checked block: its result, or refusal 8 or 9.
pub fn first(block: &Block) -> Result<Vec<Stmt>, Refusal> {
    first_with(block, Fault::None)
}

/// The second pass on a checked block.
pub fn second(block: &Block) -> Vec<Stmt> {
    second_with(block, Fault::None)
}

/// The second pass on what the first one left.
pub fn both(block: &Block) -> Result<Vec<Stmt>, Refusal> {
    both_with(block, Fault::None)
}

/// Both passes with a fault planted in them.
pub fn both_with(block: &Block, fault: Fault) -> Result<Vec<Stmt>, Refusal> {
    let treated = first_with(block, fault)?;
    Ok(second_with(&block.with(treated), fault))
}
