//! The operations of document 01 with the rules that its checks hold them to.

/// Whether an operation writes an output.
#[derive(Clone, Copy, Debug, PartialEq, Eq)]
pub enum Outputs {
    Never,
    Optional,
    Needed,
}

/// Which operands an operation takes.
#[derive(Clone, Copy, Debug, PartialEq, Eq)]
pub enum Operands {
    /// Only a first one.
    One,
    /// Both.
    Two,
    /// A first one; the second is free.
    First,
    /// "The rest are free."
    Free,
}

/// The size rule, with operands a and b and output o.
#[derive(Clone, Copy, Debug, PartialEq, Eq)]
pub enum Sizes {
    Any,
    /// a = o
    Same,
    /// The number is at most a.
    Piece,
    /// a is at most o.
    Extend,
    /// a = b = o
    All,
    /// a = b
    Pair,
}

#[derive(Clone, Copy, Debug)]
pub struct Rules {
    pub name: &'static str,
    pub numbered: bool,
    pub outputs: Outputs,
    pub operands: Operands,
    pub sizes: Sizes,
    /// Whether a block with it can be run.
    pub runs: bool,
}

macro_rules! numbered {
    (number) => {
        true
    };
    (plain) => {
        false
    };
}

macro_rules! runs {
    (runs) => {
        true
    };
    (not) => {
        false
    };
}

macro_rules! operations {
    ($($name:ident $number:ident $outputs:ident $operands:ident $sizes:ident $runs:ident;)*) => {
        #[derive(Clone, Copy, Debug, PartialEq, Eq, Hash)]
        pub enum Op { $($name),* }

        impl Op {
            pub const ALL: &'static [Op] = &[$(Op::$name),*];
        }

        static RULES: &[Rules] = &[$(Rules {
            name: stringify!($name),
            numbered: numbered!($number),
            outputs: Outputs::$outputs,
            operands: Operands::$operands,
            sizes: Sizes::$sizes,
            runs: runs!($runs),
        }),*];
    };
}

operations! {
    Copy plain Needed One Same runs;
    Select number Needed Free Any not;
    Subpiece number Needed One Piece runs;
    ZeroExtend plain Needed One Extend runs;
    SignExtend plain Needed One Extend runs;

    IntToFloat plain Needed Free Any not;
    UintToFloat plain Needed Free Any not;
    FloatToFloat plain Needed Free Any not;
    FloatToInt plain Needed Free Any not;

    IntAdd plain Needed Two All runs;
    IntSub plain Needed Two All runs;
    IntXor plain Needed Two All runs;
    IntOr plain Needed Two All runs;
    IntAnd plain Needed Two All runs;
    IntMul plain Needed Two All runs;
    IntDiv plain Needed Two All not;
    IntSignedDiv plain Needed Two All not;
    IntRem plain Needed Two All not;
    IntSignedRem plain Needed Two All not;

    IntLeft plain Needed Two Same runs;
    IntRotateLeft plain Needed Two Same not;
    IntRight plain Needed Two Same runs;
    IntSignedRight plain Needed Two Same runs;
    IntRotateRight plain Needed Two Same not;

    IntEqual plain Needed Two Pair runs;
    IntNotEqual plain Needed Two Pair runs;
    IntLess plain Needed Two Pair runs;
    IntSignedLess plain Needed Two Pair runs;
    IntLessEqual plain Needed Two Pair runs;
    IntSignedLessEqual plain Needed Two Pair runs;
    IntCarry plain Needed Two Pair runs;
    IntSignedCarry plain Needed Two Pair runs;
    IntSignedBorrow plain Needed Two Pair runs;

    IntNot plain Needed One Same runs;
    IntNegate plain Needed One Same runs;
    IntCountOnes plain Needed One Any runs;
    IntCountLeadingZeroes plain Needed One Any runs;

    BoolAnd plain Needed Two Any runs;
    BoolOr plain Needed Two Any runs;
    BoolXor plain Needed Two Any runs;
    BoolNot plain Needed One Any runs;

    FloatAdd plain Needed Free Any not;
    FloatSub plain Needed Free Any not;
    FloatMul plain Needed Free Any not;
    FloatDiv plain Needed Free Any not;
    FloatNegate plain Needed Free Any not;
    FloatAbs plain Needed Free Any not;
    FloatSqrt plain Needed Free Any not;
    FloatCeil plain Needed Free Any not;
    FloatFloor plain Needed Free Any not;
    FloatRound plain Needed Free Any not;
    FloatIsNan plain Needed Free Any not;
    FloatEqual plain Needed Free Any not;
    FloatNotEqual plain Needed Free Any not;
    FloatLess plain Needed Free Any not;
    FloatLessEqual plain Needed Free Any not;

    Load number Optional First Any runs;
    Store number Never Two Any runs;
    Branch number Never First Any runs;
    PcodeBranch number Never First Any runs;
    PcodeLabel number Never Free Any runs;

    MultiEqual plain Needed Free Any not;
    Indirect plain Needed Free Any not;

    Arg number Never Free Any not;
    PcodeOp number Optional Free Any not;
    Hook number Optional Free Any not;
    HookIf number Optional Free Any not;
    TracerLoad number Optional Free Any not;
    TracerStore number Never Free Any not;
    Exception plain Never Free Any not;
    InstructionMarker plain Never Free Any runs;
    Invalid plain Never Free Any not;
}

impl Op {
    pub fn rules(self) -> &'static Rules {
        &RULES[self as usize]
    }

    pub fn name(self) -> &'static str {
        self.rules().name
    }

    pub fn from_name(name: &[u8]) -> Option<Op> {
        Op::ALL.iter().copied().find(|op| op.name().as_bytes() == name)
    }

    /// "Both lists have side effects, the others none": the operations whose output isn't needed.
    pub fn has_side_effects(self) -> bool {
        self.rules().outputs != Outputs::Needed
    }

    pub fn is_rotate(self) -> bool {
        matches!(self, Op::IntRotateLeft | Op::IntRotateRight)
    }

    /// `Hook`, `HookIf` clear.
    pub fn is_hook(self) -> bool {
        matches!(self, Op::Hook | Op::HookIf)
    }

    /// Branches, labels and markers end a stretch of the second pass.
    pub fn ends_stretch(self) -> bool {
        matches!(self, Op::Branch | Op::PcodeBranch | Op::PcodeLabel | Op::InstructionMarker)
    }
}
