//! Running a block on bytes, from document 01's "Running a block"; nothing is taken from the passes.

pub mod concrete;
pub mod start;

use crate::block::{Block, Operand, Refusal, Var};
use crate::ops::Op;
use concrete::{compute, hex, Number};
use start::Start;
use std::collections::HashMap;

/// What a run shows: loads, stores and taken exits with their operands, and lasting variables at markers, taken exits and
/// the end.
#[derive(Clone, Debug, PartialEq, Eq)]
pub struct Event {
    pub kind: &'static str,
    /// The statement's number and operand values, for a load, a store and an exit.
    pub operands: Option<(u16, [Option<Number>; 2])>,
    /// The rows of the lasting variables, for an exit, a marker and the end.
    pub rows: Option<Vec<[u8; 16]>>,
}

impl Event {
    pub fn line(&self) -> String {
        let mut line = self.kind.to_string();
        if let Some((number, operands)) = self.operands {
            let [a, b] = operands.map(|operand| operand.map_or("-".to_string(), Number::hex));
            line += &format!("\t{number}\t{a}\t{b}");
        }
        if let Some(rows) = &self.rows {
            let rows: String = rows.iter().map(|row| hex(row)).collect();
            line += &format!("\t{}", if rows.is_empty() { "-" } else { &rows });
        }
        line + "\n"
    }
}

/// A run's events and what was counted on the way.
#[derive(Default)]
pub struct Run {
    pub events: Vec<Event>,
    pub statements: usize,
    pub jumps: usize,
    /// Whether a temporary's byte was read that an earlier instruction wrote last.
    pub stale_read: bool,
}

/// 16: an operation outside the run class, or a `PcodeBranch` to a label above it.
pub fn check(block: &Block) -> Result<(), Refusal> {
    for (place, stmt) in block.stmts.iter().enumerate() {
        let backward = stmt.op == Op::PcodeBranch && block.label(stmt.number).is_some_and(|label| label < place);
        if !stmt.op.rules().runs || backward {
            return Err(Refusal::new(16, place));
        }
    }
    Ok(())
}

struct Machine<'a> {
    block: &'a Block,
    start: &'a Start,
    /// The variables whose rows events show.
    shown: &'a [i16],
    rows: HashMap<i16, [u8; 16]>,
    /// The instruction that wrote each byte last.
    writers: HashMap<i16, [Option<usize>; 16]>,
    instruction: usize,
    loads: usize,
    run: Run,
}

/// Runs a block that passed the checks, showing the rows of the variables `shown`.
pub fn run(block: &Block, start: &Start, shown: &[i16]) -> Run {
    let rows = start.rows.iter().copied().collect();
    let run = Run::default();
    let mut machine = Machine { block, start, shown, rows, writers: HashMap::new(), instruction: 0, loads: 0, run };
    let mut at = 0;
    while at < block.stmts.len() {
        at = machine.step(at);
    }
    machine.show("end", None, true);
    machine.run
}

impl Machine<'_> {
    /// Runs one statement and tells the next.
    fn step(&mut self, at: usize) -> usize {
        let stmt = self.block.stmts[at];
        self.run.statements += 1;
        if stmt.op == Op::PcodeLabel {
            return at + 1;
        }
        if stmt.op == Op::InstructionMarker {
            self.show("marker", None, true);
            self.instruction += 1;
            return at + 1;
        }
        let operands = [self.read(stmt.a), self.read(stmt.b)];
        let taken = operands[0].is_some_and(|a| a.value != 0);
        let event = Some((stmt.number, operands));
        match stmt.op {
            Op::PcodeBranch if taken => {
                self.run.jumps += 1;
                return self.block.label(stmt.number).expect("the checks found the label");
            }
            Op::PcodeBranch => {}
            Op::Branch if taken => self.show("exit", event, true),
            Op::Branch => {}
            Op::Store => self.show("store", event, false),
            Op::Load => {
                self.show("load", event, false);
                let answer = self.start.answers.get(self.loads).copied().unwrap_or([0; 16]);
                self.loads += 1;
                self.write(stmt.output, u128::from_le_bytes(answer));
            }
            op => {
                let [a, b] = operands.map(|operand| operand.unwrap_or(Number::new(0, 1)));
                let out = stmt.output.map_or(0, |var| var.size);
                self.write(stmt.output, compute(op, stmt.number, a, b, out));
            }
        }
        at + 1
    }

    fn row(&self, id: i16) -> [u8; 16] {
        self.rows.get(&id).copied().unwrap_or([0; 16])
    }

    fn read(&mut self, operand: Operand) -> Option<Number> {
        match operand {
            Operand::None => None,
            Operand::Const(value, size) => Some(Number::new(value as u128, size)),
            Operand::Var(var) => {
                self.note_read(var);
                let whole = u128::from_le_bytes(self.row(var.id));
                Some(Number::new(whole >> (8 * var.offset), var.size))
            }
        }
    }

    fn note_read(&mut self, var: Var) {
        if self.block.is_lasting(var.id) {
            return;
        }
        let writers = self.writers.get(&var.id).copied().unwrap_or([None; 16]);
        let stale = var.bytes().any(|byte| writers[byte].is_some_and(|writer| writer < self.instruction));
        self.run.stale_read |= stale;
    }

    fn write(&mut self, output: Option<Var>, value: u128) {
        let Some(var) = output else { return };
        let row = self.rows.entry(var.id).or_insert([0; 16]);
        row[var.bytes()].copy_from_slice(&value.to_le_bytes()[..var.size as usize]);
        let writers = self.writers.entry(var.id).or_insert([None; 16]);
        writers[var.bytes()].fill(Some(self.instruction));
    }

    fn show(&mut self, kind: &'static str, operands: Option<(u16, [Option<Number>; 2])>, rows: bool) {
        let rows = rows.then(|| self.shown.iter().map(|id| self.row(*id)).collect());
        self.run.events.push(Event { kind, operands, rows });
    }
}
