//! The recorder of runs: `block`, `start`, `answers`, then `events` or `refused`.

use super::tabbed;
use crate::block::{Limits, Operand, Refusal, Stmt, Var};
use crate::gen::{self, Shape};
use crate::ops::Op;
use crate::rng::Rng;
use crate::run::{self, start::Start};
use crate::{checks, sections, text};
use std::io::{self, Write};

/// Generated blocks of each kind.
const FOR_EACH_OPERATION: usize = 8;
const SMALL: usize = 800;
const MIDDLE: usize = 150;
const LARGE: usize = 12;

/// Blocks for the rules of a run, with blanks for tabs.
const RULES: &[&str] = &[
    // Loads past the list, a load without output, a cut answer, an answer into a slot.
    "Load 7 v1:0:16 c64:8 -
     Load 8 - v1:0:2 v2:3:4
     Load 9 v2:15:1 c65:8 -
     Load 65535 v3:4:7 c66:8 -
     Load 0 v4:0:16 c67:8 -
     Load 0 v5:0:16 c68:8 -
     Load 0 v6:0:16 c69:8 -",
    // Operands are read before the output is written.
    "IntAdd - v1:1:4 v1:0:4 v1:2:4
     Copy - v1:0:8 v1:4:8 -
     Load 1 v2:0:8 v2:0:8 v2:4:8
     Store 2 - v2:0:8 v1:0:16",
    // Taken exits are recorded and the run goes on; others leave no event.
    "Branch 0 - c1:1 c4096:8
     Branch 1 - c0:1 c4097:8
     Branch 2 - c2:1 -
     Branch 65535 - v1:0:16 v2:0:1
     Copy - v1:0:1 c1:1 -
     Branch 3 - v1:0:9 v-1:0:2
     Branch 0 - c256:2 -",
    // Jumps on any operand that isn't 0, forward, also past a marker.
    "PcodeBranch 1 - v1:0:1 -
     Copy - v2:0:1 c7:1 -
     InstructionMarker - - c0:8 c4:8
     PcodeLabel 1 - v1:0:1 -
     PcodeBranch 2 - c256:2 v9:0:1
     Store 0 - c0:8 c0:8
     PcodeLabel 3 - - -
     Store 1 - c0:8 c0:8
     PcodeLabel 2 - - -
     InstructionMarker - - v-1:0:4 v2:0:4
     PcodeBranch 4 - c0:16 -
     Store 2 - c0:8 c0:8
     PcodeLabel 4 - - -",
    // Markers and the end show lasting variables only; marks take one out.
    "temporary 3
     temporary 9
     Copy - v3:0:4 c305419896:4 -
     Copy - v-4:0:4 v3:0:4 -
     InstructionMarker - - - -
     Copy - v2:0:4 v-4:0:4 -
     InstructionMarker - - - -
     InstructionMarker - - - -",
    // No lasting variable at all, and an empty block.
    "Copy - v-1:0:1 c1:1 -
     InstructionMarker - - - -",
    "",
    // Shifts at, above and far above the width; the whole amount counts.
    "IntLeft - v1:0:4 v2:0:4 c31:1
     IntLeft - v3:0:4 v2:0:4 c32:1
     IntRight - v4:0:4 v2:0:4 c33:8
     IntSignedRight - v5:0:4 v2:0:4 c18446744073709551615:16
     Copy - v6:8:8 c1:8 -
     Copy - v6:0:8 c0:8 -
     IntSignedRight - v7:0:11 v2:0:11 v6:0:16
     IntLeft - v8:0:16 v2:0:16 v6:0:16
     IntRight - v9:0:16 v2:0:16 c127:1",
    // Subpiece past the end, and outputs wider than what is left.
    "Subpiece 16 v1:0:16 v2:0:16 -
     Subpiece 15 v3:0:16 v2:0:16 -
     Subpiece 0 v4:0:16 v2:0:3 -
     Subpiece 3 v5:0:2 v2:0:3 -",
    // The ends of signed and unsigned numbers.
    "IntNegate - v1:0:1 c128:1 -
     IntSignedCarry - v1:1:1 c127:1 c1:1
     IntSignedBorrow - v1:2:1 c128:1 c1:1
     IntCarry - v1:3:1 c255:1 c1:1
     IntSignedLess - v1:4:1 c128:1 c127:1
     IntLess - v1:5:1 c128:1 c127:1
     IntMul - v2:0:16 v3:0:16 v3:0:16
     IntCountLeadingZeroes - v1:6:1 c0:16 -
     IntCountOnes - v1:7:2 c18446744073709551615:16 -
     IntSignedBorrow - v1:9:1 v3:0:16 v4:0:16
     IntSignedCarry - v1:10:1 v3:0:16 v4:0:16
     IntCarry - v1:11:1 v3:0:16 v4:0:16",
    // 16: backward, to itself is not possible, the first of several, and after the checks.
    "PcodeLabel 1 - - -
     PcodeBranch 1 - c0:1 -",
    "PcodeBranch 2 - c1:1 -
     PcodeLabel 1 - - -
     PcodeBranch 1 - c0:1 -
     IntDiv - v1:0:1 c1:1 c1:1
     PcodeLabel 2 - - -",
    "IntRotateLeft - v1:0:1 v2:0:1 c9:1
     PcodeBranch 2 - c1:1 -",
    "Hook 0 - - -
     Copy - v1:0:1 c1:2 -",
    "Hook 0 - - -
     Copy - v1:0:1",
];

/// The events of a run from a start, or the refusal.
pub fn events(bytes: &[u8], start: &Start) -> Result<String, Refusal> {
    let block = checks::read(bytes, Limits::SECOND)?;
    run::check(&block)?;
    let lasting: Vec<i16> = block.ids().into_iter().filter(|id| block.is_lasting(*id)).collect();
    Ok(run::run(&block, start, &lasting).events.iter().map(|event| event.line()).collect())
}

fn copy(id: i16) -> Stmt {
    Stmt::plain(Op::Copy, Var::new(id, 0, 1), Operand::Const(3, 1), Operand::None)
}

/// Operations outside the run class at the first, a middle and the last statement, and blocks at the limits.
fn placed(rng: &mut Rng) -> Vec<Vec<u8>> {
    let mut files = Vec::new();
    for op in Op::ALL.iter().copied().filter(|op| !op.rules().runs) {
        let stmt = gen::one(rng, op);
        files.push(text::print(&[copy(1), stmt]).into_bytes());
    }
    let division = gen::one(rng, Op::IntDiv);
    for place in [0, 64, 128] {
        let mut stmts = vec![copy(1); 129];
        stmts[place] = division;
        files.push(text::print(&stmts).into_bytes());
    }
    for count in [64, 65, 129, 130] {
        files.push(text::print(&vec![copy(1); count]).into_bytes());
    }
    for count in [111, 112, 113] {
        files.push(text::print(&(1..=count).map(copy).collect::<Vec<_>>()).into_bytes());
    }
    files
}

fn inputs(rng: &mut Rng) -> Vec<Vec<u8>> {
    let mut files: Vec<Vec<u8>> = RULES.iter().map(|text| tabbed(text)).collect();
    files.extend(placed(rng));
    for op in Op::ALL.iter().copied().filter(|op| op.rules().runs) {
        for _ in 0..FOR_EACH_OPERATION {
            let block = gen::with_run_operation(rng, op);
            files.push(text::print_block(&block).into_bytes());
        }
    }
    for (count, low, high) in [(SMALL, 1, 10), (MIDDLE, 11, 40), (LARGE, 41, 129)] {
        for _ in 0..count {
            let shape =
                Shape { statements: rng.between(low, high), variables: rng.between(2, 7), runs: rng.chance(29, 30) };
            files.push(text::print_block(&gen::block(rng, shape)).into_bytes());
        }
    }
    files
}

/// A start for most of a block's variables and now and then for one that it doesn't name.
fn start_of(rng: &mut Rng, bytes: &[u8]) -> Start {
    let mut ids = checks::read(bytes, Limits::SECOND).map(|block| block.ids()).unwrap_or_default();
    ids.retain(|_| rng.chance(15, 16));
    if rng.chance(1, 8) && !ids.contains(&77) {
        ids.push(77);
    }
    let answers = rng.below(4);
    Start::random(rng, &ids, answers)
}

pub fn record(seed: u64, out: &mut impl Write) -> io::Result<()> {
    let mut rng = Rng::new(seed);
    for block in inputs(&mut rng) {
        let start = start_of(&mut rng, &block);
        sections::write(out, "block", &block)?;
        sections::write(out, "start", start.rows_text())?;
        sections::write(out, "answers", start.answers_text())?;
        match events(&block, &start) {
            Ok(lines) => sections::write(out, "events", lines)?,
            Err(refusal) => sections::write(out, "refused", refusal.line())?,
        }
    }
    Ok(())
}
