//! Writes the module line that takes in the original's ops.rs.

#[path = "../locate.rs"]
mod locate;

fn main() {
    locate::write_modules(&[("ops", "src--sleigh--pcode--src--ops.rs.txt")]);
}
