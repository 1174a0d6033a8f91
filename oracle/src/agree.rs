//! Holds the original against the model on generated blocks.

use crate::answers::Pass;
use crate::block::{Block, Limits};
use crate::gen::{self, small, Shape};
use crate::model::fault::Fault;
use crate::original::{self, Outcome};
use crate::rng::Rng;
use crate::{checks, text};
use std::fmt::Write;

/// What a comparison of many blocks came to.
#[derive(Default)]
pub struct Tally {
    blocks: usize,
    refused_by_checks: usize,
    not_comparable: usize,
    /// Compared answers and the unequal ones among them, for first, second and both.
    compared: [usize; 3],
    unequal: [usize; 3],
    refused: [usize; 10],
    changed: [usize; 3],
    /// Blocks whose added temporaries the original names otherwise than 01.
    named_otherwise: usize,
    first_difference: Option<String>,
}

/// A block for the comparison; a few are larger than the first pass takes.
fn generated(rng: &mut Rng) -> Block {
    if rng.chance(1, 50) {
        let shape = Shape { statements: rng.between(65, 129), variables: rng.between(2, 110), runs: false };
        return gen::block(rng, shape);
    }
    gen::good(rng)
}

pub fn agree(seed: u64, count: u64, fault: Fault) -> Tally {
    let mut tally = Tally::default();
    for case in 0..count {
        let block = generated(&mut Rng::for_case(seed, case));
        tally.take(&block, fault);
    }
    tally
}

/// Every block of up to `length` statements of a short list.
pub fn agree_small(length: usize, fault: Fault) -> Tally {
    let mut tally = Tally::default();
    for length in 0..=length {
        small::each(length, &mut |stmts| tally.take(&Block { stmts: stmts.to_vec(), marks: Vec::new() }, fault));
    }
    tally
}

impl Tally {
    fn take(&mut self, block: &Block, fault: Fault) {
        self.blocks += 1;
        let passes = |limits: Limits| block.stmts.len() <= limits.statements && checks::check(block, limits).is_ok();
        if !passes(Limits::SECOND) {
            self.refused_by_checks += 1;
            return;
        }
        let small = passes(Limits::FIRST);
        for (at, (pass, name)) in Pass::ALL.into_iter().enumerate() {
            if small || pass == Pass::Second {
                self.compare(at, pass, name, block, fault);
            }
        }
        if small {
            self.named_otherwise += original::first_noting_names(block).1 as usize;
        }
    }

    fn compare(&mut self, at: usize, pass: Pass, name: &str, block: &Block, fault: Fault) {
        let original = match pass.original(block) {
            Outcome::Treated(stmts) => Ok(stmts),
            Outcome::Refused(refusal) => Err(refusal),
            Outcome::NotComparable(_) => {
                self.not_comparable += (pass == Pass::Second) as usize;
                return;
            }
            Outcome::Panic => panic!("the second pass never panics on a checked block"),
        };
        let model = pass.model(block, fault);
        self.compared[at] += 1;
        self.changed[at] += (original.as_ref() != Ok(&block.stmts)) as usize;
        if let (Err(refusal), Pass::First) = (&original, pass) {
            self.refused[refusal.number as usize] += 1;
        }
        if original == model {
            return;
        }
        self.unequal[at] += 1;
        if self.first_difference.is_none() {
            let (original, model) = (text::print_answer(&original), text::print_answer(&model));
            let (number, given) = (self.blocks, text::print_block(block));
            self.first_difference =
                Some(format!("block {number}, {name}\n-- block\n{given}-- original\n{original}-- model\n{model}"));
        }
    }

    pub fn report(&self) -> String {
        let mut out = String::new();
        let checks = self.refused_by_checks;
        let _ = writeln!(
            out,
            "blocks {}, refused by the checks {checks}, not comparable {}",
            self.blocks, self.not_comparable
        );
        for (at, (_, name)) in Pass::ALL.into_iter().enumerate() {
            let (compared, unequal, changed) = (self.compared[at], self.unequal[at], self.changed[at]);
            let _ = writeln!(out, "{name}: compared {compared}, changed by the pass {changed}, unequal {unequal}");
        }
        let _ = writeln!(out, "refused 8: {}, refused 9: {}", self.refused[8], self.refused[9]);
        let _ = writeln!(out, "added temporaries named otherwise by the original: {}", self.named_otherwise);
        out + self.first_difference.as_deref().unwrap_or_default()
    }

    pub fn agreed(&self) -> bool {
        self.unequal == [0; 3]
    }
}
