//! The first pass, from document 01's sentences and the points A1 to A14 that settled them.

use super::bits::known_constant;
use super::eval::{eval, Evaluated};
use super::fault::Fault;
use super::known::Known;
use crate::block::{Block, Operand, Refusal, Stmt, Var, MAX_BYTES};
use crate::ops::Op;

pub struct First<'a> {
    block: &'a Block,
    fault: Fault,
    known: Known,
    result: Vec<Stmt>,
    /// Labels that a kept or added branch above, or any branch below, reaches.
    reached: Vec<u16>,
    /// The label that a skip is looking for.
    skip: Option<u16>,
}

pub fn first(block: &Block, fault: Fault) -> Result<Vec<Stmt>, Refusal> {
    let known = Known::new(fault);
    let mut pass = First { block, fault, known, result: Vec::new(), reached: Vec::new(), skip: None };
    for (place, stmt) in block.stmts.iter().enumerate() {
        if stmt.op == Op::PcodeBranch && block.label(stmt.number).is_some_and(|label| label < place) {
            pass.reached.push(stmt.number);
        }
    }
    for (place, stmt) in block.stmts.iter().enumerate() {
        pass.step(stmt).map_err(|number| Refusal::new(number, place))?;
    }
    pass.end_skip();
    Ok(pass.result)
}

impl First<'_> {
    /// One statement of the block, or the number of its refusal.
    fn step(&mut self, stmt: &Stmt) -> Result<(), u8> {
        if stmt.op == Op::InstructionMarker {
            let block = self.block;
            self.known.forget_temporaries(|id| block.is_lasting(id));
        }
        if stmt.op == Op::PcodeLabel {
            self.label(stmt.number);
            return Ok(());
        }
        if self.skip.is_some() {
            return Ok(());
        }
        self.simplify(stmt)
    }

    fn label(&mut self, number: u16) {
        if self.skip == Some(number) {
            self.skip = None;
        }
        if !self.reached.contains(&number) {
            return;
        }
        self.end_skip();
        if self.fault != Fault::LabelKeepsKnowledge {
            self.known.clear();
        }
        self.result.push(Stmt::new(Op::PcodeLabel, number, None, Operand::None, Operand::None));
    }

    /// "A skip meeting a kept label not its own, or the end, becomes a `PcodeBranch` with `c1:1` there."
    fn end_skip(&mut self) {
        if let Some(number) = self.skip.take() {
            self.reached.push(number);
            self.result.push(Stmt::new(Op::PcodeBranch, number, None, Operand::Const(1, 1), Operand::None));
        }
    }

    fn simplify(&mut self, given: &Stmt) -> Result<(), u8> {
        let (a, b) = (self.known.replace(given.a), self.known.replace(given.b));
        let stmt = Stmt { a, b, ..*given };
        let condition = known_constant(&self.known.slice(a).bits);
        match (stmt.op, condition) {
            (Op::PcodeBranch | Op::Branch, Some(0)) => return Ok(()),
            (Op::PcodeBranch, Some(1)) => {
                self.skip = Some(stmt.number);
                return Ok(());
            }
            (Op::PcodeBranch, _) => self.reached.push(stmt.number),
            _ => {}
        }
        match stmt.output {
            Some(output) => self.write(stmt, output),
            None => {
                if stmt.op.is_hook() {
                    self.known.clear();
                }
                self.result.push(stmt);
                Ok(())
            }
        }
    }

    /// A statement with an output, its operands replaced.
    fn write(&mut self, stmt: Stmt, output: Var) -> Result<(), u8> {
        let operands = [stmt.a, stmt.b];
        let [a, b] = operands.map(|operand| self.known.slice(operand));
        let before = {
            self.known.row(output);
            self.known.slice(Operand::Var(output)).bits
        };
        let bits = match eval(stmt.op, stmt.number, &a, &b, before.len(), self.fault) {
            Evaluated::Refused => return Err(8),
            Evaluated::Unchanged => before.clone(),
            Evaluated::Bits(bits) => bits,
        };
        let after = self.known.write(output, bits);
        if stmt.op.is_hook() {
            self.known.clear();
            self.known.row(output);
        }
        if stmt.op.has_side_effects() {
            return self.push_written(stmt, output);
        }
        if after == before {
            return Ok(());
        }
        let copied = match known_constant(&after) {
            Some(value) => Some(Operand::Const(value, output.size)),
            None if after == a.bits => Some(stmt.a),
            None if after == b.bits => Some(stmt.b),
            None => None,
        };
        match copied {
            Some(value) => {
                self.push_copy(output, value);
                Ok(())
            }
            None => self.push_written(stmt, output),
        }
    }

    /// A known result, written at its widened size.
    fn push_copy(&mut self, output: Var, value: Operand) {
        let wide = self.widened(output);
        let stmt = match (value, wide) {
            (Operand::Const(value, _), Some(wide)) => {
                Stmt::plain(Op::Copy, wide, Operand::Const(value, wide.size), Operand::None)
            }
            (value, Some(wide)) => Stmt::plain(Op::ZeroExtend, wide, value, Operand::None),
            (value, None) => Stmt::plain(Op::Copy, output, value, Operand::None),
        };
        self.result.push(stmt);
    }

    /// Another result: as it is, or to an added temporary and a `ZeroExtend`.
    fn push_written(&mut self, stmt: Stmt, output: Var) -> Result<(), u8> {
        let Some(wide) = self.widened(output) else {
            self.result.push(stmt);
            return Ok(());
        };
        let added = Var::new(self.added_id().ok_or(9)?, 0, output.size);
        self.result.push(Stmt { output: Some(added), ..stmt });
        self.result.push(Stmt::plain(Op::ZeroExtend, wide, Operand::Var(added), Operand::None));
        Ok(())
    }

    /// "Offset 0, z whole zero bytes known directly above, z not 0, size+z a power of two."
    fn widened(&mut self, output: Var) -> Option<Var> {
        let zeros = match self.fault {
            Fault::WidenUnchecked => (output.size as u32 + 1).next_power_of_two() as u8 - output.size,
            _ => self.known.zeros_above(output),
        };
        let size = output.size + zeros;
        let widens = output.offset == 0 && zeros != 0 && size <= MAX_BYTES && size.is_power_of_two();
        widens.then(|| Var::new(output.id, 0, size))
    }

    /// "One below the least of 0 and all ids in the block given and the result so far."
    fn added_id(&self) -> Option<i16> {
        if self.fault == Fault::OriginalNames {
            let outputs = self.result.iter().filter_map(|stmt| stmt.output);
            return outputs.map(|var| var.id).min().unwrap_or(0).min(0).checked_sub(1);
        }
        let vars = self.block.stmts.iter().chain(&self.result).flat_map(Stmt::vars);
        vars.map(|var| var.id).min().unwrap_or(0).min(0).checked_sub(1)
    }
}
