//! The recorders: fixed lists of cases with the answers that the original gave.

pub mod blocks;
pub mod corners;
pub mod evals;
pub mod places;
pub mod runs;
pub mod settled;
pub mod texts;

/// A block file written with blanks for tabs, one statement a line.
pub fn tabbed(text: &str) -> Vec<u8> {
    let lines = text.lines().map(str::trim).filter(|line| !line.is_empty());
    lines.map(|line| line.replace(' ', "\t") + "\n").collect::<String>().into_bytes()
}
