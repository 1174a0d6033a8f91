//! Files that break the text form, each rule in turn, and good files hit at random.

use crate::rng::Rng;
use crate::text;

const STATEMENT: &str = "Copy\t-\tv1:0:8\tc0:8\t-";

/// Lines that aren't records, each for one rule of the text form.
pub const BAD_LINES: &[&str] = &[
    "",
    " ",
    "\t",
    "\r",
    "Copy\t-\tv1:0:8\tc0:8\t-\r",
    "Copy\t-\tv1:0:8\tc0:8",
    "Copy\t-\tv1:0:8\tc0:8\t-\t",
    "Copy\t-\tv1:0:8\tc0:8\t-\t-",
    "\tCopy\t-\tv1:0:8\tc0:8\t-",
    "Copy\t\tv1:0:8\tc0:8\t-",
    "Copy\t-\t\tc0:8\t-",
    "Copy\t-\tv1:0:8\t\t-",
    "Copy\t-\tv1:0:8\tc0:8\t",
    "Copy\t\t-\tv1:0:8\tc0:8\t-",
    "Copy - v1:0:8 c0:8 -",
    "copy\t-\tv1:0:8\tc0:8\t-",
    "COPY\t-\tv1:0:8\tc0:8\t-",
    "Copy \t-\tv1:0:8\tc0:8\t-",
    "Cop\t-\tv1:0:8\tc0:8\t-",
    "Copyy\t-\tv1:0:8\tc0:8\t-",
    "\t-\tv1:0:8\tc0:8\t-",
    "IntSub2\t-\tv1:0:8\tc0:8\tc0:8",
    "IntCountLeadingZeros\t-\tv1:0:8\tc0:8\t-",
    "Temporary\t1",
    "Copy\t0\tv1:0:8\tc0:8\t-",
    "Copy\t1\tv1:0:8\tc0:8\t-",
    "InstructionMarker\t0\t-\t-\t-",
    "IntAdd\t--\tv1:0:1\tc0:1\tc0:1",
    "Load\t-\tv1:0:8\tc0:8\t-",
    "Store\t-\t-\tc0:8\tc0:8",
    "Subpiece\t-\tv1:0:8\tc0:8\t-",
    "Select\t-\tv1:0:8\tc0:8\t-",
    "Branch\t-\t-\tc0:1\t-",
    "PcodeBranch\t-\t-\tc0:1\t-",
    "PcodeLabel\t-\t-\t-\t-",
    "Arg\t-\t-\t-\t-",
    "Hook\t-\t-\t-\t-",
    "HookIf\t-\t-\t-\t-",
    "PcodeOp\t-\t-\t-\t-",
    "TracerLoad\t-\t-\t-\t-",
    "TracerStore\t-\t-\t-\t-",
    "Load\t65536\tv1:0:8\tc0:8\t-",
    "Load\t99999999999999999999\tv1:0:8\tc0:8\t-",
    "Load\t00\tv1:0:8\tc0:8\t-",
    "Load\t01\tv1:0:8\tc0:8\t-",
    "Load\t-1\tv1:0:8\tc0:8\t-",
    "Load\t+1\tv1:0:8\tc0:8\t-",
    "Load\t1 \tv1:0:8\tc0:8\t-",
    "Load\t0x1\tv1:0:8\tc0:8\t-",
    "Load\t\tv1:0:8\tc0:8\t-",
    "Copy\t-\tc1:8\tc0:8\t-",
    "Copy\t-\tv32768:0:8\tc0:8\t-",
    "Copy\t-\tv-32769:0:8\tc0:8\t-",
    "Copy\t-\tv-0:0:8\tc0:8\t-",
    "Copy\t-\tv00:0:8\tc0:8\t-",
    "Copy\t-\tv01:0:8\tc0:8\t-",
    "Copy\t-\tv-01:0:8\tc0:8\t-",
    "Copy\t-\tv+1:0:8\tc0:8\t-",
    "Copy\t-\tv--1:0:8\tc0:8\t-",
    "Copy\t-\tv-:0:8\tc0:8\t-",
    "Copy\t-\tv:0:8\tc0:8\t-",
    "Copy\t-\tv1:256:8\tc0:8\t-",
    "Copy\t-\tv1:0:256\tc0:8\t-",
    "Copy\t-\tv1:00:8\tc0:8\t-",
    "Copy\t-\tv1:0:08\tc0:8\t-",
    "Copy\t-\tv1:-0:8\tc0:8\t-",
    "Copy\t-\tv1:0:-8\tc0:8\t-",
    "Copy\t-\tv1:0\tc0:8\t-",
    "Copy\t-\tv1:0:8:\tc0:8\t-",
    "Copy\t-\tv1:0:8:0\tc0:8\t-",
    "Copy\t-\tv1::8\tc0:8\t-",
    "Copy\t-\tv1:0:\tc0:8\t-",
    "Copy\t-\tv1.0.8\tc0:8\t-",
    "Copy\t-\tv 1:0:8\tc0:8\t-",
    "Copy\t-\tV1:0:8\tc0:8\t-",
    "Copy\t-\t1:0:8\tc0:8\t-",
    "Copy\t-\tv\tc0:8\t-",
    "Copy\t-\t--\tc0:8\t-",
    "Copy\t-\tv1:0:8\tc18446744073709551616:8\t-",
    "Copy\t-\tv1:0:8\tc99999999999999999999999999999999999999999:8\t-",
    "Copy\t-\tv1:0:8\tc-1:8\t-",
    "Copy\t-\tv1:0:8\tc-0:8\t-",
    "Copy\t-\tv1:0:8\tc00:8\t-",
    "Copy\t-\tv1:0:8\tc01:8\t-",
    "Copy\t-\tv1:0:8\tc0:08\t-",
    "Copy\t-\tv1:0:8\tc0:256\t-",
    "Copy\t-\tv1:0:8\tc0\t-",
    "Copy\t-\tv1:0:8\tc0:8:8\t-",
    "Copy\t-\tv1:0:8\tc:8\t-",
    "Copy\t-\tv1:0:8\tc0:\t-",
    "Copy\t-\tv1:0:8\tc\t-",
    "Copy\t-\tv1:0:8\tC0:8\t-",
    "Copy\t-\tv1:0:8\t0:8\t-",
    "Copy\t-\tv1:0:8\tc0x0:8\t-",
    "Copy\t-\tv1:0:8\tc1_0:8\t-",
    "Copy\t-\tv1:0:8\tc0:8\t--",
    "temporary",
    "temporary\t",
    "temporary\t0",
    "temporary\t-1",
    "temporary\t32768",
    "temporary\t01",
    "temporary\t1\t",
    "temporary\t1 ",
    "temporary\t\t1",
    "temporary 1",
    "temporary\tv1",
    "temporary\t+1",
    "temporary\t99999999999999999999",
    "temporary\t-\t-\t-\t-",
    "temporary\t1\t-\t-\t-",
];

/// A good file with one bad line in it; `kind` counts through the bad lines and the damages beside them.
pub fn ruled(rng: &mut Rng, kind: usize) -> Vec<u8> {
    let mut lines: Vec<Vec<u8>> = Vec::new();
    if rng.chance(1, 4) {
        lines.push(b"temporary\t2".to_vec());
    }
    for _ in 0..rng.below(4) {
        lines.push(STATEMENT.into());
    }
    let at = rng.between(0, lines.len());
    let bad = match BAD_LINES.get(kind) {
        Some(line) => line.as_bytes().to_vec(),
        None => odd_line(rng, kind - BAD_LINES.len()),
    };
    lines.insert(at, bad);
    let mut file = lines.join(&b'\n');
    if rng.chance(3, 4) {
        file.push(b'\n');
    }
    file
}

/// How many damages `ruled` knows.
pub const RULED: usize = BAD_LINES.len() + 6;

/// Bad lines that aren't plain text, or long.
fn odd_line(rng: &mut Rng, kind: usize) -> Vec<u8> {
    let mut line = STATEMENT.as_bytes().to_vec();
    match kind {
        0 => line = vec![b'x'; 200],
        1 => line = vec![b'x'; 201],
        2 => line = vec![b'9'; rng.between(300, 3000)],
        3 => line[rng.pick(&[0, 4, 7, 19])] = 0,
        4 => line[0] = 0xff,
        _ => line = (0..rng.between(1, 60)).map(|_| rng.word() as u8).filter(|b| *b != b'\n').collect(),
    }
    line
}

/// A good file hit by flipped bits, cuts, doubled and swapped parts.
pub fn hit(rng: &mut Rng) -> Vec<u8> {
    let block = super::good(rng);
    let mut file = text::print_block(&block).into_bytes();
    for _ in 0..rng.pick(&[1, 1, 1, 2, 5]) {
        if file.is_empty() {
            return file;
        }
        let at = rng.below(file.len());
        match rng.below(8) {
            0 => file[at] ^= 1 << rng.below(8),
            1 => file[at] = rng.word() as u8,
            2 => file[at] = rng.pick(b"\t\n\r:-vc019 \0"),
            3 => file.truncate(at),
            4 => drop(file.remove(at)),
            5 => file.insert(at, rng.pick(b"\t\n\r:-vc019 \0")),
            6 => {
                let end = rng.between(at, file.len().min(at + 40));
                let part: Vec<u8> = file[at..end].to_vec();
                let to = rng.below(file.len());
                file.splice(to..to, part);
            }
            _ => drop(file.drain(..at)),
        }
    }
    file
}

/// A damaged file, by rule or at random.
pub fn any(rng: &mut Rng) -> Vec<u8> {
    match rng.chance(1, 2) {
        true => {
            let kind = rng.below(RULED);
            ruled(rng, kind)
        }
        false => hit(rng),
    }
}
