//! Demand 3 by running: a block and what the passes made of it run alike from one start, inside the premises.

use crate::block::{Block, Limits, Stmt};
use crate::gen;
use crate::model::{self, fault::Fault};
use crate::ops::Op;
use crate::original::{self, Outcome};
use crate::rng::Rng;
use crate::run::{self, start::Start, Run};
use crate::{checks, text};
use std::fmt::Write;

/// Starts for each block.
const STARTS: usize = 4;

#[derive(Default)]
pub struct Tally {
    blocks: usize,
    /// Blocks that a check, refusal 16 or a premise on branches leaves out.
    outside: usize,
    /// Blocks that the first pass refuses, or with a number that the original can't hold.
    untreated: usize,
    /// Blocks that two ways treat differently.
    unequal: usize,
    stale: usize,
    runs: usize,
    statements: [usize; 2],
    jumps: usize,
    events: [(&'static str, usize); 5],
    broken: usize,
    /// The run, counted from 1, that broke first, with its block.
    first_broken: Option<(usize, String)>,
}

/// "Branches forward and inside one instruction."
fn branches_inside(block: &Block) -> bool {
    block.stmts.iter().enumerate().filter(|(_, stmt)| stmt.op == Op::PcodeBranch).all(|(at, stmt)| {
        let label = block.label(stmt.number).expect("the checks found the label");
        label > at && block.stmts[at..label].iter().all(|stmt| stmt.op != Op::InstructionMarker)
    })
}

/// What a way to treat a block came to.
#[derive(Default)]
pub struct Treated {
    /// The treated block; none where it was refused, or a number can't be held.
    pub stmts: Option<Vec<Stmt>>,
    /// Two ways to treat it were compared and differed.
    pub unequal: bool,
}

/// As the original treats it, held against the model; as the faulty model treats it if a fault is planted.
pub fn by_original(block: &Block, fault: Fault) -> Treated {
    if fault != Fault::None {
        return Treated { stmts: model::both_with(block, fault).ok(), unequal: false };
    }
    match original::both(block) {
        Outcome::Treated(stmts) => {
            let unequal = model::both(block).as_ref() != Ok(&stmts);
            Treated { stmts: Some(stmts), unequal }
        }
        _ => Treated::default(),
    }
}

/// Runs generated blocks and what `treat` makes of them side by side.
pub fn alike(seed: u64, count: u64, mut treat: impl FnMut(&Block, &mut Rng) -> Treated) -> Tally {
    let kinds = ["load", "store", "exit", "marker", "end"];
    let mut tally = Tally { events: kinds.map(|kind| (kind, 0)), ..Tally::default() };
    for case in 0..count {
        let mut rng = Rng::for_case(seed, case);
        let block = gen::running(&mut rng);
        tally.blocks += 1;
        let accepted = checks::check(&block, Limits::FIRST).is_ok() && run::check(&block).is_ok();
        if !accepted || !branches_inside(&block) {
            tally.outside += 1;
            continue;
        }
        let treated = treat(&block, &mut rng);
        tally.unequal += treated.unequal as usize;
        match treated.stmts {
            None => tally.untreated += 1,
            Some(stmts) => tally.run_both(&mut rng, &block, &block.with(stmts)),
        }
    }
    tally
}

impl Tally {
    fn run_both(&mut self, rng: &mut Rng, block: &Block, treated: &Block) {
        let ids = block.ids();
        let lasting: Vec<i16> = ids.iter().copied().filter(|id| block.is_lasting(*id)).collect();
        for _ in 0..STARTS {
            let answers = rng.below(6);
            let start = Start::random(rng, &ids, answers);
            let given = run::run(block, &start, &lasting);
            if given.stale_read {
                self.stale += 1;
                continue;
            }
            let made = run::run(treated, &start, &lasting);
            self.count(&given, &made);
            if given.events != made.events {
                self.broken += 1;
                let text = || text::print_block(block) + "-- treated\n" + &text::print(&treated.stmts);
                let at = self.runs;
                self.first_broken.get_or_insert_with(|| (at, text() + "-- start\n" + &start.rows_text()));
            }
        }
    }

    fn count(&mut self, given: &Run, made: &Run) {
        self.runs += 1;
        self.jumps += given.jumps;
        self.statements[0] += given.statements;
        self.statements[1] += made.statements;
        for (kind, count) in &mut self.events {
            *count += given.events.iter().filter(|event| event.kind == *kind).count();
        }
    }

    pub fn report(&self) -> String {
        let mut out = String::new();
        let Tally { blocks, outside, untreated, unequal, stale, runs, jumps, broken, .. } = self;
        let _ =
            writeln!(out, "blocks {blocks}, outside the premises {outside}, untreated {untreated}, unequal {unequal}");
        let _ =
            writeln!(out, "runs left out for a stale read {stale}, runs inside the premises {runs}, broken {broken}");
        let [given, made] = self.statements;
        let _ = write!(out, "statements run {given}, treated {made}; jumps {jumps}");
        let events: String = self.events.iter().map(|(kind, count)| format!(", {kind} {count}")).collect();
        let _ = writeln!(out, "{events}");
        if let Some((at, text)) = &self.first_broken {
            let _ = write!(out, "first broken at run {at}\n{text}");
        }
        out
    }

    pub fn held(&self) -> bool {
        self.broken == 0 && self.unequal == 0
    }
}
