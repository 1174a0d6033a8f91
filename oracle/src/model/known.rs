//! What the first pass knows: each used variable's bits, and the value map.

use super::bits::{known_constant, Bit, Slice};
use super::fault::Fault;
use crate::block::{Operand, Var};

/// Bits in a variable.
pub const MAX_BITS: usize = 128;

type Row = [Bit; MAX_BITS];

pub struct Known {
    rows: Vec<(i16, Row)>,
    /// Values with the variable entered for them, oldest first.
    map: Vec<(Vec<Bit>, Var)>,
    /// The next new expression; ids never start again.
    next: u32,
    fault: Fault,
}

fn bits_of(var: Var) -> std::ops::Range<usize> {
    8 * var.offset as usize..8 * (var.offset as usize + var.size as usize)
}

impl Known {
    pub fn new(fault: Fault) -> Self {
        Self { rows: Vec::new(), map: Vec::new(), next: 0, fault }
    }

    fn fresh(&mut self) -> u32 {
        self.next += 1;
        self.next - 1
    }

    /// "A first use of a variable makes 128 new expressions" and "enters the bytes used".
    pub fn row(&mut self, var: Var) -> Row {
        if let Some((_, row)) = self.rows.iter().find(|(id, _)| *id == var.id) {
            return *row;
        }
        let id = self.fresh();
        let row: Row = std::array::from_fn(|i| Bit::Expr { id, offset: i as u8, invert: false });
        self.rows.push((var.id, row));
        self.map.push((row[bits_of(var)].to_vec(), var));
        row
    }

    pub fn slice(&mut self, operand: Operand) -> Slice {
        match operand {
            Operand::None => Slice::new(Vec::new()),
            Operand::Const(value, size) => Slice::constant(value, size),
            Operand::Var(var) => {
                let row = self.row(var);
                let mut slice = Slice::new(row[bits_of(var)].to_vec());
                let past = 8 * var.offset as usize + 15;
                if self.fault == Fault::Sign15 && var.size == 1 && past < MAX_BITS {
                    slice.sign = row[past];
                }
                slice
            }
        }
    }

    /// The variable last entered for a value, "used only if that variable still holds it".
    pub fn holder(&mut self, bits: &[Bit]) -> Option<Var> {
        let var = self.map.iter().rev().find(|(value, _)| value == bits)?.1;
        let holds = self.fault == Fault::UncheckedHit || self.row(var)[bits_of(var)] == *bits;
        holds.then_some(var)
    }

    /// "Each operand first becomes its known constant, else the variable that the value map gives."
    pub fn replace(&mut self, operand: Operand) -> Operand {
        let Some(size) = operand.size() else { return Operand::None };
        let bits = self.slice(operand).bits;
        match known_constant(&bits) {
            Some(value) => Operand::Const(value, size),
            None => self.holder(&bits).map_or(operand, Operand::Var),
        }
    }

    /// Writes an output, turning each unknown bit i into a new expression with offset i, and enters it "unless the map
    /// gives one that still holds it".
    pub fn write(&mut self, output: Var, mut bits: Vec<Bit>) -> Vec<Bit> {
        let id = self.fresh();
        for (i, bit) in bits.iter_mut().enumerate() {
            if *bit == Bit::Unknown {
                *bit = Bit::Expr { id, offset: i as u8, invert: false };
            }
        }
        let row =
            self.rows.iter_mut().find(|(id, _)| *id == output.id).expect("an output is used before it is written");
        row.1[bits_of(output)].copy_from_slice(&bits);
        if self.holder(&bits).is_none() {
            self.map.push((bits.clone(), output));
        }
        bits
    }

    /// How many whole zero bytes are known directly above an output.
    pub fn zeros_above(&mut self, output: Var) -> u8 {
        let row = self.row(output);
        let above = &row[bits_of(output).end..];
        above.chunks(8).take_while(|byte| byte.iter().all(|bit| *bit == Bit::Zero)).count() as u8
    }

    /// A marker "empties the value map and forgets temporaries".
    pub fn forget_temporaries(&mut self, is_lasting: impl Fn(i16) -> bool) {
        if self.fault != Fault::MarkerForgetsNothing {
            self.map.clear();
            self.rows.retain(|(id, _)| is_lasting(*id));
        }
    }

    pub fn clear(&mut self) {
        self.map.clear();
        self.rows.clear();
    }
}
