//! Holds the model, or a faulty one, against a recorded file of blocks, to show what the file would catch.

use crate::answers::Pass;
use crate::model::fault::Fault;
use crate::{checks, sections, text};

/// Answers held against the recorded ones, and how many were other.
pub struct Replayed {
    pub answers: usize,
    pub unequal: usize,
    pub first_unequal: Option<String>,
}

/// None if the file isn't a list of sections.
pub fn replay(recorded: &[u8], fault: Fault) -> Option<Replayed> {
    let mut replayed = Replayed { answers: 0, unequal: 0, first_unequal: None };
    let mut input = Vec::new();
    for (name, body) in sections::read(recorded)? {
        if name == "input" {
            input = body;
            continue;
        }
        let (pass, _) = Pass::ALL.into_iter().find(|(_, pass)| *pass == name)?;
        let answer = answer(&input, pass, fault);
        replayed.answers += 1;
        if answer.as_bytes() != body {
            replayed.unequal += 1;
            let input = String::from_utf8_lossy(&input);
            replayed.first_unequal.get_or_insert_with(|| format!("{name}\n-- input\n{input}-- model\n{answer}"));
        }
    }
    Some(replayed)
}

fn answer(bytes: &[u8], pass: Pass, fault: Fault) -> String {
    text::print_answer(&checks::read(bytes, pass.limits()).and_then(|block| pass.model(&block, fault)))
}
