//! Faults that can be planted in the model, to show that a comparison finds them.

macro_rules! faults {
    ($($(#[$doc:meta])* $name:ident $text:literal;)*) => {
        #[derive(Clone, Copy, Debug, PartialEq, Eq)]
        pub enum Fault {
            /// The model as document 01 has it.
            None,
            $($(#[$doc])* $name,)*
        }

        impl Fault {
            pub const ALL: &'static [(Fault, &'static str)] = &[$((Fault::$name, $text),)*];
        }
    };
}

faults! {
    /// 01's first slip: the sign of a slice of one byte is read from bit 15.
    Sign15 "sign-15";
    /// 01's second slip: a value map hit isn't checked against the variable.
    UncheckedHit "unchecked-hit";
    /// 01's third slip: a removed statement's reads count as kept.
    RemovedReads "removed-reads";
    /// A kept label leaves knowledge as it is.
    LabelKeepsKnowledge "label-keeps-knowledge";
    /// A marker leaves the value map and temporaries as they are.
    MarkerForgetsNothing "marker-forgets-nothing";
    /// A shift by an amount known in part sets one bit too many.
    LeastAmountPlusOne "least-amount-plus-one";
    /// Widening doesn't ask whether the bytes above are zero.
    WidenUnchecked "widen-unchecked";
    /// A label doesn't end a stretch, nor does "before any write" begin again behind it.
    LabelNoStretch "label-no-stretch";
    /// A branch doesn't end a stretch.
    BranchNoStretch "branch-no-stretch";
    /// Reads in later stretches don't count.
    NoLaterStretch "no-later-stretch";
    /// An added temporary is named as the original names it: one below the least output of the result (D1).
    OriginalNames "original-names";
}

impl Fault {
    pub fn from_name(name: &str) -> Option<Fault> {
        Fault::ALL.iter().find(|(_, text)| *text == name).map(|(fault, _)| *fault)
    }
}
