//! The second pass, from document 01's sentences and the points B1 to B4: each statement judged by looking ahead.

use super::fault::Fault;
use crate::block::{Block, Stmt, Var};
use crate::ops::Op;

pub struct Second<'a> {
    block: &'a Block,
    fault: Fault,
    /// Ids read before any write since the last label.
    early: Vec<i16>,
    /// Whether a statement stays; settled from the last to the first.
    kept: Vec<bool>,
}

pub fn second(block: &Block, fault: Fault) -> Vec<Stmt> {
    let stmts = &block.stmts;
    let mut pass = Second { block, fault, early: read_early(stmts, fault), kept: vec![false; stmts.len()] };
    for place in (0..stmts.len()).rev() {
        pass.kept[place] = pass.stays(place);
    }
    (0..stmts.len()).filter(|place| pass.kept[*place]).map(|place| stmts[place]).collect()
}

/// "Ids read anywhere in the block before any write since the last label (whole ids; removed statements count, labels'
/// own operands don't)."
fn read_early(stmts: &[Stmt], fault: Fault) -> Vec<i16> {
    let (mut early, mut written) = (Vec::new(), Vec::new());
    for stmt in stmts {
        if stmt.op == Op::PcodeLabel {
            if fault != Fault::LabelNoStretch {
                written.clear();
            }
            continue;
        }
        early.extend(stmt.reads().map(|var| var.id).filter(|id| !written.contains(id)));
        written.extend(stmt.output.map(|var| var.id));
    }
    early
}

/// What a stretch does to one byte, from where one looks.
#[derive(PartialEq)]
enum Fate {
    Read,
    Overwritten,
    Passed,
}

fn covers(var: Var, id: i16, byte: usize) -> bool {
    var.id == id && var.bytes().contains(&byte)
}

impl Second<'_> {
    fn stays(&self, place: usize) -> bool {
        let stmt = &self.block.stmts[place];
        if stmt.op.has_side_effects() {
            return true;
        }
        let Some(output) = stmt.output else { return true };
        let lasts = self.block.is_lasting(output.id) || self.early.contains(&output.id);
        output
            .bytes()
            .any(|byte| (lasts && !self.overwritten(place, output.id, byte)) || self.needed(place, output.id, byte))
    }

    fn ends(&self, stmt: &Stmt) -> bool {
        match (self.fault, stmt.op) {
            (Fault::LabelNoStretch, Op::PcodeLabel) => false,
            (Fault::BranchNoStretch, Op::PcodeBranch | Op::Branch) => false,
            (_, op) => op.ends_stretch(),
        }
    }

    /// Whether any statement overwrites the byte before the next branch, label or marker.
    fn overwritten(&self, place: usize, id: i16, byte: usize) -> bool {
        let later = self.block.stmts[place + 1..].iter().take_while(|stmt| !self.ends(stmt));
        later.filter_map(|stmt| stmt.output).any(|var| covers(var, id, byte))
    }

    /// What the stretch from `from` on does to the byte, and the statement that ends it.
    fn fate(&self, from: usize, id: i16, byte: usize) -> (Fate, usize) {
        let stmts = &self.block.stmts;
        let mut fate = Fate::Passed;
        for (place, stmt) in stmts.iter().enumerate().skip(from) {
            let counts = self.kept[place] || self.fault == Fault::RemovedReads;
            if fate == Fate::Passed && counts && stmt.reads().any(|var| covers(var, id, byte)) {
                fate = Fate::Read;
            }
            if fate == Fate::Passed && self.kept[place] && stmt.output.is_some_and(|var| covers(var, id, byte)) {
                fate = Fate::Overwritten;
            }
            if self.ends(stmt) {
                return (fate, place);
            }
        }
        (fate, stmts.len())
    }

    /// Whether a kept statement reads the byte: in this stretch, or in a later one before the next marker.
    fn needed(&self, place: usize, id: i16, byte: usize) -> bool {
        let (fate, mut end) = self.fate(place + 1, id, byte);
        if fate != Fate::Passed || self.fault == Fault::NoLaterStretch {
            return fate == Fate::Read;
        }
        while end < self.block.stmts.len() && self.block.stmts[end].op != Op::InstructionMarker {
            let (fate, next) = self.fate(end + 1, id, byte);
            if fate == Fate::Read {
                return true;
            }
            end = next;
        }
        false
    }
}
