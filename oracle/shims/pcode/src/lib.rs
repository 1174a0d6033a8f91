//! The crate `pcode` as far as the passes need it: the original's ops.rs and what ops.rs imports.

include!(concat!(env!("OUT_DIR"), "/modules.rs"));

pub use ops::*;

/// The displaying trait that ops.rs imports; nothing here prints through it.
pub trait PcodeDisplay {
    fn display(&self, context: &()) -> String;
}

impl PcodeDisplay for VarNode {
    fn display(&self, _: &()) -> String {
        format!("v{}:{}:{}", self.id, self.offset, self.size)
    }
}

impl PcodeDisplay for Instruction {
    fn display(&self, _: &()) -> String {
        format!("{:?} = {:?} {:?}", self.output, self.op, self.inputs.get())
    }
}

/// A number whose low `bits` bits are ones.
pub fn mask(bits: u64) -> u64 {
    if bits >= 64 { u64::MAX } else { (1 << bits) - 1 }
}
