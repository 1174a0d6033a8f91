//! Symbolic bits and the plain logic on them, from document 01's symbolic rules.

#[derive(Clone, Copy, Debug, PartialEq, Eq)]
pub enum Bit {
    Zero,
    One,
    Unknown,
    /// A bit of an earlier expression, as it is or inverted.
    Expr {
        id: u32,
        offset: u8,
        invert: bool,
    },
}

/// How two bits stand to each other.
#[derive(PartialEq)]
enum Kin {
    Same,
    Opposite,
    Unrelated,
}

impl Bit {
    pub fn of(set: bool) -> Bit {
        if set {
            Bit::One
        } else {
            Bit::Zero
        }
    }

    /// The bit as a truth value, where it is known.
    pub fn known(self) -> Option<bool> {
        match self {
            Bit::Zero => Some(false),
            Bit::One => Some(true),
            _ => None,
        }
    }

    pub fn not(self) -> Bit {
        match self {
            Bit::Zero => Bit::One,
            Bit::One => Bit::Zero,
            Bit::Unknown => Bit::Unknown,
            Bit::Expr { id, offset, invert } => Bit::Expr { id, offset, invert: !invert },
        }
    }

    /// "Two expressions are the same, opposite or unrelated"; unknown is related to nothing, itself included.
    fn kin(self, other: Bit) -> Kin {
        match (self, other) {
            (Bit::Expr { .. }, Bit::Expr { .. }) if self == other => Kin::Same,
            (Bit::Expr { .. }, Bit::Expr { .. }) if self == other.not() => Kin::Opposite,
            _ => Kin::Unrelated,
        }
    }

    pub fn and(self, other: Bit) -> Bit {
        match (self, other) {
            (Bit::Zero, _) | (_, Bit::Zero) => Bit::Zero,
            (Bit::One, x) | (x, Bit::One) => x,
            _ => match self.kin(other) {
                Kin::Same => self,
                Kin::Opposite => Bit::Zero,
                Kin::Unrelated => Bit::Unknown,
            },
        }
    }

    pub fn or(self, other: Bit) -> Bit {
        self.not().and(other.not()).not()
    }

    pub fn xor(self, other: Bit) -> Bit {
        match (self, other) {
            (Bit::Zero, x) | (x, Bit::Zero) => x,
            (Bit::One, x) | (x, Bit::One) => x.not(),
            _ => match self.kin(other) {
                Kin::Same => Bit::Zero,
                Kin::Opposite => Bit::One,
                Kin::Unrelated => Bit::Unknown,
            },
        }
    }
}

/// The bits of an operand, lowest first, and their sign.
#[derive(Clone, Debug)]
pub struct Slice {
    pub bits: Vec<Bit>,
    /// The highest bit, held apart so that a fault can misread it.
    pub sign: Bit,
}

impl Slice {
    pub fn new(bits: Vec<Bit>) -> Self {
        let sign = bits.last().copied().unwrap_or(Bit::Zero);
        Self { bits, sign }
    }

    pub fn constant(value: u64, size: u8) -> Self {
        let bit = |i| Bit::of(i < 64 && value >> i & 1 == 1);
        Self::new((0..size as usize * 8).map(bit).collect())
    }
}

/// "A known constant needs every bit known and at most 64 bits."
pub fn known_constant(bits: &[Bit]) -> Option<u64> {
    if bits.len() > 64 {
        return None;
    }
    let mut value = 0;
    for (i, bit) in bits.iter().enumerate() {
        value |= (bit.known()? as u64) << i;
    }
    Some(value)
}

/// "A shift's least amount reads every undecided bit as zero, modulo 2^64."
pub fn least_amount(bits: &[Bit]) -> u64 {
    bits.iter().take(64).enumerate().map(|(i, bit)| ((*bit == Bit::One) as u64) << i).sum()
}
