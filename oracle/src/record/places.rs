//! Every refusal at its first, a middle and its last possible place, and blocks as large as a pass takes.

use crate::block::{Block, Operand, Stmt, Var};
use crate::ops::Op;
use crate::text;

fn copy(id: i16, size: u8) -> Stmt {
    Stmt::plain(Op::Copy, Var::new(id, 0, size), Operand::Const(0, size), Operand::None)
}

fn load(id: i16) -> Stmt {
    Stmt::new(Op::Load, 0, Some(Var::new(id, 0, 1)), Operand::Const(0, 8), Operand::None)
}

fn label(number: u16) -> Stmt {
    Stmt::new(Op::PcodeLabel, number, None, Operand::None, Operand::None)
}

/// A statement that names three variables.
fn naming(ids: [i16; 3]) -> Stmt {
    let [a, b] = [ids[1], ids[2]].map(|id| Operand::Var(Var::new(id, 0, 1)));
    Stmt::plain(Op::IntXor, Var::new(ids[0], 0, 1), a, b)
}

fn print(stmts: Vec<Stmt>) -> Vec<u8> {
    text::print(&stmts).into_bytes()
}

/// `count` plain statements with one of them another.
fn with(count: usize, place: usize, stmt: Stmt) -> Vec<u8> {
    let mut stmts = vec![copy(1, 2); count];
    stmts[place] = stmt;
    print(stmts)
}

/// One statement for each of the refusals 3, 4, 5, 6 and 8.
fn refused() -> Vec<Stmt> {
    let byte = Var::new(1, 0, 1);
    let rotate = Stmt::plain(Op::IntRotateLeft, byte, Operand::Var(byte), Operand::Const(9, 1));
    vec![
        copy(0, 1),
        Stmt::plain(Op::Copy, byte, Operand::None, Operand::None),
        Stmt::plain(Op::Copy, byte, Operand::Const(0, 2), Operand::None),
        Stmt::new(Op::PcodeBranch, 9, None, Operand::Const(1, 1), Operand::None),
        rotate,
    ]
}

/// Refusals of the checks and passes, at places from the first to the last.
pub fn refusals() -> Vec<Vec<u8>> {
    let mut files = Vec::new();
    for stmt in refused() {
        for (count, place) in [(1, 0), (64, 0), (64, 31), (64, 63), (65, 64), (129, 64), (129, 128), (130, 129)] {
            files.push(with(count, place, stmt));
        }
    }
    for (first, again) in [(0, 1), (30, 31), (0, 63), (62, 63), (127, 128)] {
        let mut stmts = vec![copy(1, 2); (again + 1).max(64)];
        stmts[first] = label(3);
        stmts[again] = label(3);
        files.push(print(stmts));
    }
    for place in [1, 31, 63] {
        let mut stmts = vec![copy(-32768, 2); 64];
        stmts[place] = load(-32768);
        files.push(print(stmts));
    }
    files
}

/// `distinct` variables in a block of `count` statements, `each` to a statement, the last in statement `last`.
fn variables(distinct: usize, count: usize, each: usize, last: usize) -> Vec<u8> {
    let ids: Vec<i16> = (1..=distinct as i16).map(|i| if i % 2 == 0 { -i } else { i }).collect();
    let naming_stmts = ids.chunks(each).map(|ids| match ids {
        [a, b, c] => naming([*a, *b, *c]),
        ids => naming([ids[0], ids[ids.len() - 1], ids[0]]),
    });
    let named: Vec<Stmt> = naming_stmts.collect();
    let mut stmts = vec![copy(1, 1); count];
    let from = last + 1 - named.len();
    stmts[from..=last].copy_from_slice(&named);
    print(stmts)
}

/// The first pass's and the second pass's limits of variables, met and passed by one, early, late and between.
fn many_variables() -> Vec<Vec<u8>> {
    let mut files = Vec::new();
    for distinct in [47, 48, 49, 50] {
        for (count, each, last) in [(20, 3, 16), (64, 3, 16), (64, 3, 40), (64, 1, 63), (65, 1, 64), (129, 1, 128)] {
            files.push(variables(distinct, count, each, last));
        }
    }
    for distinct in [65, 111, 112, 113, 114] {
        for (count, each, last) in [(40, 3, 37), (64, 3, 63), (129, 3, 80), (129, 1, 128), (130, 1, 129)] {
            files.push(variables(distinct, count, each, last));
        }
    }
    files
}

/// As many statements, variables and marks as a pass takes, and one more.
pub fn limits() -> Vec<Vec<u8>> {
    let mut files = Vec::new();
    for count in [63, 64, 65, 66, 128, 129, 130, 131] {
        files.push(print(vec![copy(1, 1); count]));
        files.push(print((0..count).map(|i| copy(1 + (i % 40) as i16, 1 + (i % 8) as u8)).collect()));
    }
    files.extend(many_variables());
    files.extend(marked());
    files.push(largest_result());
    files
}

/// 16 marks and 17, and lines up to the last that a reader comes to.
fn marked() -> Vec<Vec<u8>> {
    let block = |marks: usize, count: usize| {
        let marks = (1..=marks as i16).collect();
        text::print_block(&Block { stmts: vec![copy(1, 1); count], marks }).into_bytes()
    };
    let mut files = vec![block(15, 2), block(16, 2), block(17, 2), block(16, 0), block(17, 0), block(1, 0)];
    files.extend([block(16, 64), block(16, 65), block(16, 129), block(16, 130)]);
    for (marks, count) in [(0, 0), (0, 31), (0, 64), (16, 63), (16, 64), (16, 65), (0, 129), (16, 129), (16, 130)] {
        let mut file = block(marks, count);
        file.extend(b"Copy\n");
        files.push(file);
    }
    let mut late = block(2, 3);
    late.extend(b"temporary\t3\n");
    files.push(late);
    files
}

/// The most statements and variables that a first pass's result can have: 127 and 111.
fn largest_result() -> Vec<u8> {
    let mut stmts = vec![copy(1, 16)];
    for i in 0..63 {
        let mut next = load(1);
        if i < 24 {
            let [a, b] = [2 + 2 * i, 3 + 2 * i].map(|id| Operand::Var(Var::new(id.min(48), 0, 8)));
            next = Stmt { a, b, ..next };
        }
        stmts.push(next);
    }
    print(stmts)
}
