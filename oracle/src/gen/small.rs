//! Every short block over a list of statements that meet in few bytes.

use crate::block::Stmt;
use crate::record::tabbed;
use crate::text;

/// Statements with blanks for tabs.
const STATEMENTS: &str = "
    Copy - v1:0:8 c0:8 -
    Copy - v1:0:1 c1:1 -
    Copy - v1:0:1 v2:0:1 -
    Copy - v1:1:1 v-1:0:1 -
    Copy - v2:0:2 v1:0:2 -
    Copy - v2:0:1 v-1:0:1 -
    Copy - v-1:0:1 v1:0:1 -
    Copy - v-1:0:1 c0:1 -
    Copy - v-1:0:2 v1:0:2 -
    Copy - v-1:0:2 v2:0:2 -
    Copy - v2:0:16 c0:16 -
    ZeroExtend - v1:0:2 v2:0:1 -
    SignExtend - v-1:0:2 v1:0:1 -
    Subpiece 1 v2:0:1 v1:0:2 -
    IntNot - v-1:0:1 v1:0:1 -
    IntNot - v2:0:1 v-1:0:1 -
    IntAnd - v1:0:1 v1:0:1 v-1:0:1
    IntXor - v2:0:1 v1:0:1 v-1:0:1
    IntAdd - v-1:0:1 v1:0:1 c1:1
    IntEqual - v-1:0:1 v1:0:1 c0:1
    IntLeft - v2:0:1 v2:0:1 v-1:0:1
    IntRotateLeft - v2:0:1 v2:0:1 v-1:0:1
    Load 0 v1:0:1 v2:0:8 -
    Load 0 v-1:0:1 v1:0:1 -
    Store 0 - v1:0:8 v-1:0:1
    Store 1 - v1:0:1 v2:0:1
    Branch 0 - v-1:0:1 -
    PcodeBranch 1 - c1:1 -
    PcodeBranch 1 - v1:0:1 -
    PcodeBranch 2 - v-1:0:1 v2:0:1
    PcodeBranch 2 - c1:1 v-1:0:2
    PcodeLabel 1 - - -
    PcodeLabel 2 - v-1:0:2 -
    InstructionMarker - - - -
    InstructionMarker - - v-1:0:1 -
    HookIf 1 v1:0:1 v-1:0:1 -
    PcodeOp 3 v1:0:1 - -
    IntDiv - v-1:0:1 v1:0:1 v2:0:1
";

pub fn statements() -> Vec<Stmt> {
    let block = text::read(&tabbed(STATEMENTS), crate::block::Limits::FIRST);
    block.expect("a good list of statements").stmts
}

/// Calls `f` with every block of `length` statements of the list.
pub fn each(length: usize, f: &mut impl FnMut(&[Stmt])) {
    let list = statements();
    let mut at = vec![0; length];
    loop {
        let stmts: Vec<Stmt> = at.iter().map(|i| list[*i]).collect();
        f(&stmts);
        let Some(turn) = at.iter().rposition(|i| i + 1 < list.len()) else { return };
        at[turn] += 1;
        at[turn + 1..].fill(0);
    }
}
