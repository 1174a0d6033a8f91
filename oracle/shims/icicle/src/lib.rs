//! The original's two passes under the module paths that they import each other by.

// The original has more functions than the passes call, and method names that std may take one day.
#![allow(dead_code, unstable_name_collisions)]

include!(concat!(env!("OUT_DIR"), "/modules.rs"));

pub mod exec {
    pub use crate::const_eval;
}

pub use optimize::Optimizer;
