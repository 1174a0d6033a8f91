//! Document 01's text form: reading a block from bytes and printing one.

use crate::block::{Block, Limits, Operand, Refusal, Stmt, Var};
use crate::ops::Op;

/// "At most 200 bytes and an LF."
const LINE_BYTES: usize = 200;
/// "Up to 16 leading records" mark temporaries.
const MARKS: usize = 16;

/// Reads a block; stops at the first bad line (refusal 1) or at one statement too many (refusal 2).
pub fn read(bytes: &[u8], limits: Limits) -> Result<Block, Refusal> {
    let mut block = Block::default();
    let mut rest = bytes;
    let mut number = 0;
    while !rest.is_empty() {
        number += 1;
        let line = take_line(&mut rest);
        let bad = Refusal::new(1, number);
        if line.len() > LINE_BYTES {
            return Err(bad);
        }
        if let Some(id) = mark(line) {
            if !block.stmts.is_empty() || block.marks.len() == MARKS {
                return Err(bad);
            }
            block.marks.push(id);
            continue;
        }
        let stmt = statement(line).ok_or(bad)?;
        if block.stmts.len() == limits.statements {
            return Err(Refusal::new(2, limits.statements));
        }
        block.stmts.push(stmt);
    }
    Ok(block)
}

/// Takes the next line off `rest`, without its LF; the last one may lack it.
fn take_line<'a>(rest: &mut &'a [u8]) -> &'a [u8] {
    let all = *rest;
    match all.iter().position(|&byte| byte == b'\n') {
        Some(at) => {
            *rest = &all[at + 1..];
            &all[..at]
        }
        None => {
            *rest = &[];
            all
        }
    }
}

fn mark(line: &[u8]) -> Option<i16> {
    let id = line.strip_prefix(b"temporary\t")?;
    let id = decimal(id, 32767)?;
    (id >= 1).then_some(id as i16)
}

fn statement(line: &[u8]) -> Option<Stmt> {
    let fields: Vec<&[u8]> = line.split(|&byte| byte == b'\t').collect();
    let [op, number, output, a, b] = fields[..] else { return None };
    let op = Op::from_name(op)?;
    let number = match (op.rules().numbered, number) {
        (false, b"-") => 0,
        (false, _) => return None,
        (true, digits) => decimal(digits, 65535)? as u16,
    };
    let output = match operand(output)? {
        Operand::None => None,
        Operand::Var(var) => Some(var),
        Operand::Const(..) => return None,
    };
    Some(Stmt::new(op, number, output, operand(a)?, operand(b)?))
}

fn operand(field: &[u8]) -> Option<Operand> {
    if field == b"-" {
        return Some(Operand::None);
    }
    let (kind, rest) = field.split_first()?;
    let parts: Vec<&[u8]> = rest.split(|&byte| byte == b':').collect();
    match (kind, &parts[..]) {
        (b'v', [id, offset, size]) => {
            let id = signed(id)?;
            let offset = decimal(offset, 255)? as u8;
            Some(Operand::Var(Var::new(id, offset, decimal(size, 255)? as u8)))
        }
        (b'c', [value, size]) => Some(Operand::Const(decimal(value, u64::MAX)?, decimal(size, 255)? as u8)),
        _ => None,
    }
}

/// An id: 16 bits with a sign, and no `-0`.
fn signed(text: &[u8]) -> Option<i16> {
    match text.strip_prefix(b"-") {
        Some(digits) => match decimal(digits, 32768)? {
            0 => None,
            size => Some((-(size as i32)) as i16),
        },
        None => Some(decimal(text, 32767)? as i16),
    }
}

/// A decimal number of at most `most`, without leading zeros.
fn decimal(text: &[u8], most: u64) -> Option<u64> {
    if text.is_empty() || (text[0] == b'0' && text.len() > 1) {
        return None;
    }
    let mut value: u128 = 0;
    for byte in text {
        if !byte.is_ascii_digit() {
            return None;
        }
        value = value * 10 + (byte - b'0') as u128;
        if value > most as u128 {
            return None;
        }
    }
    Some(value as u64)
}

/// The statements, one a line; marks aren't printed back.
pub fn print(stmts: &[Stmt]) -> String {
    stmts.iter().map(print_statement).collect()
}

/// What a program prints: the statements, or only the refusal.
pub fn print_answer(answer: &Result<Vec<Stmt>, Refusal>) -> String {
    match answer {
        Ok(stmts) => print(stmts),
        Err(refusal) => refusal.line(),
    }
}

/// The marks and the statements, as a reader would take them.
pub fn print_block(block: &Block) -> String {
    let marks: String = block.marks.iter().map(|id| format!("temporary\t{id}\n")).collect();
    marks + &print(&block.stmts)
}

fn print_statement(stmt: &Stmt) -> String {
    let number = match stmt.op.rules().numbered {
        true => stmt.number.to_string(),
        false => "-".to_string(),
    };
    let output = stmt.output.map_or(Operand::None, Operand::Var);
    let [output, a, b] = [output, stmt.a, stmt.b].map(print_operand);
    format!("{}\t{number}\t{output}\t{a}\t{b}\n", stmt.op.name())
}

fn print_operand(operand: Operand) -> String {
    match operand {
        Operand::None => "-".to_string(),
        Operand::Const(value, size) => format!("c{value}:{size}"),
        Operand::Var(var) => format!("v{}:{}:{}", var.id, var.offset, var.size),
    }
}
