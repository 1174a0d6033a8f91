//! Writes the module lines that take in the original's const_eval.rs and optimize.rs.

#[path = "../locate.rs"]
mod locate;

fn main() {
    locate::write_modules(&[
        ("const_eval", "src--icicle-cpu--src--exec--const_eval.rs.txt"),
        ("optimize", "src--icicle-cpu--src--lifter--optimize.rs.txt"),
    ]);
}
