//! Where a run starts: bytes of variables by id, and the answers to its loads, with their text.

use super::concrete::hex;
use crate::rng::Rng;

#[derive(Clone, Debug, Default, PartialEq, Eq)]
pub struct Start {
    /// Bytes by id; a variable that isn't here starts with zeros.
    pub rows: Vec<(i16, [u8; 16])>,
    /// "The n-th load takes the n-th answer, cut to its size; past the list, zero."
    pub answers: Vec<[u8; 16]>,
}

impl Start {
    pub fn rows_text(&self) -> String {
        self.rows.iter().map(|(id, row)| format!("{id}\t{}\n", hex(row))).collect()
    }

    pub fn answers_text(&self) -> String {
        self.answers.iter().map(|row| hex(row) + "\n").collect()
    }

    /// Reads both texts; none if a line breaks their form.
    pub fn read(rows: &str, answers: &str) -> Option<Self> {
        let row_line = |line: &str| {
            let (id, row) = line.split_once('\t')?;
            Some((id.parse().ok()?, read_row(row)?))
        };
        let rows = rows.lines().map(row_line).collect::<Option<_>>()?;
        let answers = answers.lines().map(read_row).collect::<Option<_>>()?;
        Some(Self { rows, answers })
    }

    /// Random bytes for these ids and as many answers, often small so that conditions go both ways.
    pub fn random(rng: &mut Rng, ids: &[i16], answers: usize) -> Self {
        let rows = ids.iter().map(|id| (*id, random_row(rng))).collect();
        let answers = (0..answers).map(|_| random_row(rng)).collect();
        Self { rows, answers }
    }
}

fn read_row(text: &str) -> Option<[u8; 16]> {
    if text.len() != 32 || !text.is_ascii() {
        return None;
    }
    let mut row = [0; 16];
    for (at, byte) in row.iter_mut().enumerate() {
        *byte = u8::from_str_radix(&text[2 * at..2 * at + 2], 16).ok()?;
    }
    Some(row)
}

fn random_row(rng: &mut Rng) -> [u8; 16] {
    let mut row = ((rng.word() as u128) << 64 | rng.word() as u128).to_le_bytes();
    match rng.below(6) {
        0 => row = [0; 16],
        1 => row = [0xff; 16],
        2 | 3 => {
            // Zeros and small bytes, here and there.
            for byte in &mut row {
                *byte = rng.weighted(&[(5, 0), (3, 1), (1, 2), (1, 0x80), (1, *byte)]);
            }
        }
        _ => {}
    }
    row
}
