//! The oracle's parts: the original Rust passes behind document 01's text form, a model written from 01's sentences, an
//! evaluator of blocks, and the generators and recorders that hold programs against them.

pub mod agree;
pub mod alike;
pub mod answers;
pub mod arguments;
pub mod block;
pub mod checks;
pub mod gen;
pub mod model;
pub mod ops;
pub mod original;
pub mod record;
pub mod replay;
pub mod rng;
pub mod run;
pub mod sections;
pub mod text;
