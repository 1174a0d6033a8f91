//! Blocks, statements, operands and refusals, as document 01 names them.

use crate::ops::Op;

/// Bytes in a variable.
pub const MAX_BYTES: u8 = 16;

/// Bytes `offset` to `offset + size` of a variable.
#[derive(Clone, Copy, Debug, PartialEq, Eq, Hash)]
pub struct Var {
    pub id: i16,
    pub offset: u8,
    pub size: u8,
}

impl Var {
    pub fn new(id: i16, offset: u8, size: u8) -> Self {
        Self { id, offset, size }
    }

    /// The numbers of the bytes that it covers.
    pub fn bytes(self) -> std::ops::Range<usize> {
        self.offset as usize..self.offset as usize + self.size as usize
    }
}

#[derive(Clone, Copy, Debug, PartialEq, Eq, Hash)]
pub enum Operand {
    None,
    Const(u64, u8),
    Var(Var),
}

impl Operand {
    /// "A constant cut to its size": sizes of 8 bytes and more hold every value of the text form.
    pub fn constant(value: u64, size: u8) -> Self {
        let cut = if size < 8 { value & ((1 << (8 * size)) - 1) } else { value };
        Operand::Const(cut, size)
    }

    pub fn var(self) -> Option<Var> {
        match self {
            Operand::Var(var) => Some(var),
            _ => None,
        }
    }

    pub fn is_none(self) -> bool {
        self == Operand::None
    }

    pub fn size(self) -> Option<u8> {
        match self {
            Operand::None => None,
            Operand::Const(_, size) => Some(size),
            Operand::Var(var) => Some(var.size),
        }
    }
}

#[derive(Clone, Copy, Debug, PartialEq, Eq, Hash)]
pub struct Stmt {
    pub op: Op,
    /// 0 where the operation has no number.
    pub number: u16,
    pub output: Option<Var>,
    pub a: Operand,
    pub b: Operand,
}

impl Stmt {
    pub fn new(op: Op, number: u16, output: Option<Var>, a: Operand, b: Operand) -> Self {
        Self { op, number, output, a, b }
    }

    /// A statement of an operation without a number.
    pub fn plain(op: Op, output: Var, a: Operand, b: Operand) -> Self {
        Self::new(op, 0, Some(output), a, b)
    }

    /// The variables it names, in the order of first naming: output, first, second.
    pub fn vars(&self) -> impl Iterator<Item = Var> {
        [self.output, self.a.var(), self.b.var()].into_iter().flatten()
    }

    /// The variables it reads.
    pub fn reads(&self) -> impl Iterator<Item = Var> {
        [self.a.var(), self.b.var()].into_iter().flatten()
    }
}

#[derive(Clone, Debug, Default, PartialEq, Eq)]
pub struct Block {
    pub stmts: Vec<Stmt>,
    /// The ids marked temporary.
    pub marks: Vec<i16>,
}

impl Block {
    /// "A variable is lasting if its id is above 0 and not marked temporary."
    pub fn is_lasting(&self, id: i16) -> bool {
        id > 0 && !self.marks.contains(&id)
    }

    /// The ids it names, in the order of first naming.
    pub fn ids(&self) -> Vec<i16> {
        let mut ids = Vec::new();
        for var in self.stmts.iter().flat_map(Stmt::vars) {
            if !ids.contains(&var.id) {
                ids.push(var.id);
            }
        }
        ids
    }

    /// The statement at which a label stands.
    pub fn label(&self, number: u16) -> Option<usize> {
        self.stmts.iter().position(|s| s.op == Op::PcodeLabel && s.number == number)
    }

    /// The same marks around other statements.
    pub fn with(&self, stmts: Vec<Stmt>) -> Block {
        Block { stmts, marks: self.marks.clone() }
    }
}

/// A refusal's number and place.
#[derive(Clone, Copy, Debug, PartialEq, Eq)]
pub struct Refusal {
    pub number: u8,
    pub place: usize,
}

impl Refusal {
    pub fn new(number: u8, place: usize) -> Self {
        Self { number, place }
    }

    /// The line that a program prints.
    pub fn line(self) -> String {
        format!("refused\t{}\t{}\n", self.number, self.place)
    }
}

/// How large a block a pass takes.
#[derive(Clone, Copy, Debug, PartialEq, Eq)]
pub struct Limits {
    pub statements: usize,
    pub variables: usize,
}

impl Limits {
    pub const FIRST: Limits = Limits { statements: 64, variables: 48 };
    pub const SECOND: Limits = Limits { statements: 129, variables: 112 };
}
