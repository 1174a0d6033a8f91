//! Time of the passes against the original's, from one driver: the ratio by size, and the program's start-up.

use crate::files;
use oracle::answers::Pass;
use oracle::block::{Block, Limits};
use oracle::gen::{self, Shape};
use oracle::original::{self, convert, Outcome};
use oracle::rng::Rng;
use oracle::{checks, text};
use std::fmt::Write as _;
use std::hint::black_box;
use std::path::Path;
use std::process::{Command, Stdio};
use std::time::Instant;

/// Blocks for each size.
const BLOCKS: usize = 20;

/// How often a block is treated between two looks at the clock.
const TIMES: u32 = 200;

const SEED: u64 = 1;

/// Blocks of exactly so many statements that the pass accepts.
fn blocks(pass: Pass, statements: usize) -> Vec<Block> {
    let limits = pass.limits();
    let accepted = |block: &Block| {
        block.stmts.len() == statements
            && checks::check(block, limits).is_ok()
            && (limits == Limits::SECOND || matches!(original::first(block), Outcome::Treated(_)))
            && block.stmts.iter().all(|stmt| convert::to_instruction(stmt).is_some())
    };
    let cases = (0..).map(|case| {
        let rng = &mut Rng::for_case(SEED, case);
        let variables = rng.pick(&[3, 5, 8, 24, 40]);
        gen::block(rng, Shape { statements, variables, runs: false })
    });
    cases.filter(accepted).take(BLOCKS).collect()
}

/// A block in both forms.
struct Case {
    file: Vec<u8>,
    given: pcode::Block,
    work: pcode::Block,
    optimizer: icicle::Optimizer,
}

impl Case {
    fn new(block: &Block) -> Self {
        let mut given = pcode::Block::new();
        for stmt in &block.stmts {
            given.push(convert::to_instruction(stmt).expect("only such blocks were taken"));
        }
        let mut optimizer = icicle::Optimizer::new();
        block.marks.iter().for_each(|id| optimizer.mark_as_temporary(*id));
        Self { file: text::print_block(block).into_bytes(), given, work: pcode::Block::new(), optimizer }
    }

    /// Nanoseconds for one treatment by the original, its block copied anew each time.
    fn original(&mut self, pass: Pass) -> f64 {
        let began = Instant::now();
        for _ in 0..TIMES {
            self.work.instructions.clear();
            self.work.instructions.extend_from_slice(&self.given.instructions);
            if pass != Pass::Second {
                self.optimizer.const_prop(&mut self.work);
            }
            if pass != Pass::First {
                self.optimizer.dead_store_elimination(&mut self.work);
            }
            black_box(&mut self.work);
        }
        began.elapsed().as_nanos() as f64 / TIMES as f64
    }

    /// Nanoseconds for one treatment by the library, its checks included and its reading not.
    fn library(&mut self, pass: Pass) -> f64 {
        let time = |times| {
            let began = Instant::now();
            black_box(quargnil::repeat(files::pass(pass), black_box(&self.file), times));
            began.elapsed().as_nanos() as f64
        };
        (time(TIMES + 1) - time(1)) / TIMES as f64
    }
}

/// The best of several rounds, in which both take turns; summed over the blocks of a size.
fn ratio(pass: Pass, statements: usize, rounds: u64) -> (f64, f64) {
    let mut sums = (0.0, 0.0);
    for block in blocks(pass, statements) {
        let mut case = Case::new(&block);
        let mut best = (f64::MAX, f64::MAX);
        for _ in 0..rounds {
            best = (best.0.min(case.original(pass)), best.1.min(case.library(pass)));
        }
        sums = (sums.0 + best.0, sums.1 + best.1);
    }
    (sums.0 / BLOCKS as f64, sums.1 / BLOCKS as f64)
}

/// Milliseconds from starting a program to its end, on an empty file: the best of several.
fn start_up(program: &Path, words: &[&str], rounds: u64) -> Option<f64> {
    let mut best = f64::MAX;
    for _ in 0..10 * rounds {
        let began = Instant::now();
        let ended = Command::new(program).args(words).stdin(Stdio::null()).stdout(Stdio::null()).status();
        ended.ok().filter(|status| status.success())?;
        best = best.min(began.elapsed().as_secs_f64() * 1e3);
    }
    Some(best)
}

pub fn bench(rounds: u64, program: &Path) -> Result<String, String> {
    let mut out = String::from("pass\tstatements\toriginal µs\tlibrary µs\tratio\n");
    for (pass, name) in Pass::ALL {
        let largest: &[usize] = if pass == Pass::Second { &[129] } else { &[] };
        for statements in [8, 16, 32, 64].iter().chain(largest) {
            let (theirs, ours) = ratio(pass, *statements, rounds);
            let _ = writeln!(out, "{name}\t{statements}\t{:.2}\t{:.2}\t{:.2}", theirs / 1e3, ours / 1e3, ours / theirs);
        }
    }
    let theirs = std::env::current_exe().ok().map(|path| path.with_file_name("oracle"));
    let theirs = theirs.and_then(|path| start_up(&path, &["block"], rounds));
    match (theirs, start_up(program, &[], rounds)) {
        (Some(theirs), Some(ours)) => {
            let _ = writeln!(out, "start-up\t-\t{theirs:.2} ms\t{ours:.2} ms\t{:.2}", ours / theirs);
        }
        _ => out += "start-up: wants the built programs `oracle` and `block`\n",
    }
    Ok(out)
}
