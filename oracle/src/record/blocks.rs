//! The recorder of whole blocks: `input`, then the answers `first`, `second` and `both`.

use super::{corners, places, settled, tabbed};
use crate::answers::{recorded, Pass};
use crate::gen::{self, broken, damaged, Shape};
use crate::ops::Op;
use crate::rng::Rng;
use crate::{model, sections, text};
use std::io::{self, Write};

/// Generated inputs of each kind.
const SMALL: usize = 1500;
const MIDDLE: usize = 330;
const LARGE: usize = 40;
const WIDE: usize = 40;
const REFUSED: usize = 50;
const BROKEN: usize = 300;
const DAMAGED: usize = 250;

/// All inputs, in the order of the recorded file.
pub fn inputs(seed: u64) -> Vec<Vec<u8>> {
    let mut rng = Rng::new(seed);
    let mut files: Vec<Vec<u8>> = vec![Vec::new()];
    for text in settled::BLOCKS.iter().chain(settled::CASES).chain(corners::BLOCKS) {
        files.push(tabbed(text));
    }
    files.extend(places::refusals());
    files.extend(places::limits());
    for &op in Op::ALL {
        for _ in 0..3 {
            files.push(text::print_block(&gen::with_operation(&mut rng, op)).into_bytes());
        }
    }
    for (count, low, high) in [(SMALL, 1, 9), (MIDDLE, 10, 24), (LARGE, 25, 64), (WIDE, 65, 129)] {
        for _ in 0..count {
            files.push(generated(&mut rng, low, high));
        }
    }
    for number in [8, 9] {
        (0..REFUSED).for_each(|_| files.push(refused(&mut rng, number)));
    }
    for _ in 0..BROKEN {
        let shape = Shape { statements: rng.between(1, 12), ..Shape::any(&mut rng, false) };
        let mut block = gen::block(&mut rng, shape);
        broken::breaking(&mut rng, &mut block);
        files.push(text::print_block(&block).into_bytes());
    }
    (0..DAMAGED).for_each(|_| files.push(damaged::any(&mut rng)));
    files
}

/// A small block that the first pass refuses with this number, found by trying.
fn refused(rng: &mut Rng, number: u8) -> Vec<u8> {
    loop {
        let shape = Shape { statements: rng.between(2, 12), variables: rng.between(2, 5), runs: false };
        let block = gen::block(rng, shape);
        if model::first(&block).is_err_and(|refusal| refusal.number == number) {
            return text::print_block(&block).into_bytes();
        }
    }
}

fn generated(rng: &mut Rng, low: usize, high: usize) -> Vec<u8> {
    let statements = rng.between(low, high);
    let few = rng.between(2, 8);
    let variables = rng.weighted(&[(12, few), (1, 20), (1, 44)]);
    let block = gen::block(rng, Shape { statements, variables, runs: false });
    text::print_block(&block).into_bytes()
}

pub fn record(seed: u64, out: &mut impl Write) -> io::Result<()> {
    inputs(seed).iter().try_for_each(|input| answer(input, out))
}

/// One input with its answers.
pub fn answer(input: &[u8], out: &mut impl Write) -> io::Result<()> {
    sections::write(out, "input", input)?;
    for (pass, name) in Pass::ALL {
        if let Some(answer) = recorded(input, pass) {
            sections::write(out, name, answer)?;
        }
    }
    Ok(())
}
