//! The variables and constants that a generated block draws from: few and overlapping, so that the rules fire.

use crate::block::{Operand, Var, MAX_BYTES};
use crate::rng::Rng;

/// Values at which an operation's answer turns.
const VALUES: &[u64] = &[
    0,
    0,
    0,
    1,
    1,
    2,
    3,
    4,
    7,
    8,
    9,
    15,
    16,
    24,
    31,
    32,
    63,
    64,
    65,
    127,
    128,
    129,
    255,
    256,
    257,
    32767,
    32768,
    65535,
    0x7fff_ffff,
    0x8000_0000,
    0xffff_ffff,
    0x1_0000_0000,
    i64::MAX as u64,
    1 << 63,
    u64::MAX - 1,
    u64::MAX,
];

/// Ids at the ends of their range, for names that run out and marks that reach the top.
const EDGE_IDS: &[i16] = &[-32768, -32767, -32766, -32765, -32764, 32766, 32767];

pub struct Pool {
    pub ids: Vec<i16>,
    /// Slots named before, to be named again.
    recent: Vec<Var>,
    /// Whether constants are common.
    constants: usize,
}

impl Pool {
    pub fn new(rng: &mut Rng, count: usize) -> Self {
        let mut ids = Vec::new();
        let temporaries = rng.between(20, 60);
        let edges = if rng.chance(1, 25) { 100 } else { 1 };
        while ids.len() < count {
            let size = 1 + rng.below(count + 2) as i16;
            let id = match (rng.chance(edges, 300), rng.chance(temporaries, 100)) {
                (true, _) => rng.pick(EDGE_IDS),
                (_, true) => -size,
                _ => size,
            };
            if !ids.contains(&id) {
                ids.push(id);
            }
        }
        let constants = rng.between(10, 50);
        Self { ids, recent: Vec::new(), constants }
    }

    pub fn id(&self, rng: &mut Rng) -> i16 {
        rng.pick(&self.ids)
    }

    /// An id other than the one given, where there is one.
    pub fn other_id(&self, rng: &mut Rng, id: i16) -> i16 {
        let others: Vec<i16> = self.ids.iter().copied().filter(|x| *x != id).collect();
        if others.is_empty() {
            id
        } else {
            rng.pick(&others)
        }
    }

    pub fn size(&self, rng: &mut Rng) -> u8 {
        match rng.chance(3, 4) {
            true => rng.weighted(&[(6, 1), (4, 2), (4, 4), (5, 8), (2, 16)]),
            false => rng.between(1, MAX_BYTES as usize) as u8,
        }
    }

    /// A slot of this size, often one named before.
    pub fn var(&mut self, rng: &mut Rng, size: u8) -> Var {
        let known: Vec<Var> = self.recent.iter().copied().filter(|var| var.size == size).collect();
        if !known.is_empty() && rng.chance(1, 2) {
            return rng.pick(&known);
        }
        let room = (MAX_BYTES - size) as usize;
        let offset = if rng.chance(11, 20) { 0 } else { rng.between(0, room) as u8 };
        let var = Var::new(self.id(rng), offset, size);
        self.name(var);
        var
    }

    fn name(&mut self, var: Var) {
        if self.recent.len() == 24 {
            self.recent.remove(0);
        }
        self.recent.push(var);
    }

    pub fn constant(&self, rng: &mut Rng, size: u8) -> Operand {
        let value = if rng.chance(1, 8) { rng.word() } else { rng.pick(VALUES) };
        // Some stay wider than their size: every reader of an operand has to cut them.
        if rng.chance(1, 16) {
            Operand::Const(value, size)
        } else {
            Operand::constant(value, size)
        }
    }

    pub fn operand(&mut self, rng: &mut Rng, size: u8) -> Operand {
        match rng.chance(self.constants, 100) {
            true => self.constant(rng, size),
            false => Operand::Var(self.var(rng, size)),
        }
    }

    /// A shift or rotate amount near the width of what is turned.
    pub fn amount(&mut self, rng: &mut Rng, width: u8, above: bool) -> Operand {
        if rng.chance(2, 5) {
            let size = self.size(rng);
            return Operand::Var(self.var(rng, size));
        }
        let bits = width as u64 * 8;
        let size = rng.pick(&[1, 1, 1, 2, 4, 8, 9, 16]);
        let value = match rng.below(8) {
            0 => 0,
            1 => bits - 1,
            2 => bits,
            3 if above => bits + 1,
            4 if above => rng.pick(&[255, 256, 1 << 32, 1 << 63, u64::MAX]),
            _ => rng.below(bits as usize) as u64,
        };
        Operand::constant(value, size)
    }

    /// A branch's condition: 0, 1, 2 and undecided, also too wide to be known.
    pub fn condition(&mut self, rng: &mut Rng) -> Operand {
        if rng.chance(9, 20) {
            let size = rng.pick(&[1, 1, 1, 1, 2, 8, 9, 16]);
            return Operand::Var(self.var(rng, size));
        }
        let size = rng.pick(&[1, 1, 1, 1, 1, 2, 8, 9, 16]);
        Operand::constant(rng.pick(&[0, 0, 0, 1, 1, 1, 2, 255]), size)
    }
}
