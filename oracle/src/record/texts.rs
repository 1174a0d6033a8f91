//! The recorder of the text form and the checks alone: `input`, then `read` and `wide`.

use super::{corners, places, tabbed};
use crate::answers::read_back;
use crate::block::Limits;
use crate::gen::{self, broken, damaged, Shape};
use crate::rng::Rng;
use crate::{sections, text};
use std::io::{self, Write};

const GOOD: usize = 150;
const BROKEN: usize = 250;
const HIT: usize = 500;

/// Endings and beginnings of a file.
const WHOLE_FILES: &[&[u8]] = &[
    b"",
    b"\n",
    b"\n\n",
    b"\0",
    b"\t",
    b"\t\t\t\t",
    b"-",
    b"\r\n",
    b"temporary\t1",
    b"temporary\t1\n",
    b"temporary\t1\n\n",
    b"Invalid\t-\t-\t-\t-",
    b"Invalid\t-\t-\t-\t-\n",
    b"Invalid\t-\t-\t-\t-\n\n",
    b"Invalid\t-\t-\t-\t-\r\n",
    b"\nInvalid\t-\t-\t-\t-\n",
    b"Invalid\t-\t-\t-\t-\n\nInvalid\t-\t-\t-\t-\n",
    b"Invalid\t-\t-\t-\t-\ntemporary\t1\n",
    b"Invalid\t-\t-\t-\t-\n\0",
    b"Invalid\t-\t-\t-\t-Invalid\t-\t-\t-\t-\n",
    b"\xef\xbb\xbfInvalid\t-\t-\t-\t-\n",
];

pub fn inputs(seed: u64) -> Vec<Vec<u8>> {
    let mut rng = Rng::new(seed);
    let mut files: Vec<Vec<u8>> = WHOLE_FILES.iter().map(|file| file.to_vec()).collect();
    files.extend(corners::BLOCKS.iter().map(|text| tabbed(text)));
    files.extend(places::refusals());
    files.extend(places::limits());
    files.extend((0..damaged::RULED).map(|kind| damaged::ruled(&mut rng, kind)));
    for broken in [vec![false; GOOD], vec![true; BROKEN]].concat() {
        let shape = Shape { statements: rng.between(1, 8), ..Shape::any(&mut rng, false) };
        let mut block = gen::block(&mut rng, shape);
        if broken {
            broken::breaking(&mut rng, &mut block);
        }
        files.push(text::print_block(&block).into_bytes());
    }
    files.extend((0..HIT).map(|_| damaged::hit(&mut rng)));
    files
}

pub fn record(seed: u64, out: &mut impl Write) -> io::Result<()> {
    for input in inputs(seed) {
        sections::write(out, "input", &input)?;
        sections::write(out, "read", read_back(&input, Limits::FIRST))?;
        sections::write(out, "wide", read_back(&input, Limits::SECOND))?;
    }
    Ok(())
}
