//! The library's answers, and the block program's, against the original's with 01's refusals, on generated files.

use crate::files;
use oracle::answers::{block_program, recorded, Pass};
use std::fmt::Write as _;
use std::io::Write;
use std::path::Path;
use std::process::{Command, Stdio};

/// What was compared, by kind of file.
#[derive(Default)]
struct Tally {
    compared: [usize; 3],
    refused: [usize; 3],
    /// Files with a number that the original's `Op` can't hold.
    left_out: usize,
}

impl Tally {
    fn count(&mut self, kind: usize, answer: &str) {
        self.compared[kind] += 1;
        self.refused[kind] += answer.starts_with("refused") as usize;
    }

    fn report(&self, what: &str) -> String {
        let mut out = format!("{what}: compared {}, all equal", self.compared.iter().sum::<usize>());
        for (kind, (compared, refused)) in files::KINDS.iter().zip(self.compared.iter().zip(self.refused)) {
            let _ = write!(out, "; {kind} {compared}, of these refused {refused}");
        }
        let _ = writeln!(out, "; not comparable {}", self.left_out);
        out
    }
}

fn differs(what: &str, file: &[u8], said: &str, answer: &str) -> String {
    format!("{what} differs on\n{}-- it says\n{said}-- and must say\n{answer}", String::from_utf8_lossy(file))
}

/// The library, for the first pass, the second and both.
pub fn library(seed: u64, count: u64) -> Result<String, String> {
    let mut tallies = Pass::ALL.map(|_| Tally::default());
    for case in 0..count {
        let (kind, file) = files::generated(seed, case);
        for ((pass, name), tally) in Pass::ALL.into_iter().zip(&mut tallies) {
            let Some(answer) = recorded(&file, pass) else {
                tally.left_out += 1;
                continue;
            };
            let said = files::answer(pass, &file);
            if said != answer {
                return Err(differs(name, &file, &said, &answer));
            }
            tally.count(kind, &answer);
        }
    }
    Ok(Pass::ALL.iter().zip(&tallies).map(|((_, name), tally)| tally.report(name)).collect())
}

fn printed(program: &Path, file: &[u8]) -> std::io::Result<String> {
    let mut child = Command::new(program).stdin(Stdio::piped()).stdout(Stdio::piped()).spawn()?;
    let mut input = child.stdin.take().expect("standard input is a pipe");
    // The program may end before it has read a long file.
    let _ = input.write_all(file);
    drop(input);
    Ok(String::from_utf8_lossy(&child.wait_with_output()?.stdout).into_owned())
}

/// The block program, a process for each file; the model answers where the original can't hold a number.
pub fn program(seed: u64, count: u64, program: &Path) -> Result<String, String> {
    let mut tally = Tally::default();
    for case in 0..count {
        let (kind, file) = files::generated(seed, case);
        let answer = block_program(&file);
        let said = printed(program, &file).map_err(|e| format!("{}: {e}\n", program.display()))?;
        if said != answer {
            return Err(differs("the block program", &file, &said, &answer));
        }
        tally.count(kind, &answer);
    }
    Ok(tally.report("block program"))
}
