//! Holds the original and the model to document 01's listing and to the points that settled where 01 leaves room.

use oracle::answers::{recorded, Pass};
use oracle::block::Limits;
use oracle::model::fault::Fault;
use oracle::record::tabbed;
use oracle::{checks, text};

/// A point's name, a pass, a block and the answer, with blanks for tabs; an answer of one line beginning with `..` is the
/// end of the whole.
const POINTS: &[(&str, Pass, &str, &str)] = &[
    ("listing", Pass::Both,
     "Copy - v-1:0:2 c32767:2 -\nIntAdd - v1:0:2 v-1:0:2 c1:2\nIntSignedLess - v2:0:1 v1:0:2 c0:2",
     "Copy - v1:0:2 c32768:2 -\nCopy - v2:0:1 c1:1 -"),
    ("A1", Pass::First, "HookIf 2 v-3:5:5 - -\nCopy - v22:0:10 v-3:0:10 -\nCopy - v13:0:10 v-3:0:10 -",
     "..Copy - v13:0:10 v22:0:10 -"),
    ("A2", Pass::First, "Copy - v1:0:8 c0:8 -\nHookIf 1 - v1:0:1 -", "..HookIf 1 - c0:1 -"),
    ("A2", Pass::First, "Copy - v1:0:8 c0:8 -\nHookIf 1 v1:0:1 - -", "..HookIf 1 v1:0:1 - -"),
    ("A3", Pass::First, "Copy - v-1:0:1 c0:1 -\nInstructionMarker - - v-1:0:1 -", "..InstructionMarker - - v-1:0:1 -"),
    ("A4", Pass::First, "Copy - v2:8:1 v2:15:1 -\nCopy - v4:0:1 v2:15:1 -", "..Copy - v4:0:1 v2:15:1 -"),
    ("A5", Pass::First,
     "PcodeBranch 1 - c1:1 v5:0:16\nPcodeLabel 1 - - -\nCopy - v6:0:9 v5:0:9 -\nCopy - v7:0:9 v5:0:9 -",
     "Copy - v6:0:9 v5:0:9 -\nCopy - v7:0:9 v6:0:9 -"),
    ("A6", Pass::First,
     "Copy - v-1:0:9 v1:0:9 -\nSignExtend - v-2:0:9 v1:0:8 -\nCopy - v-2:0:8 v-2:0:8 -\nSignExtend - v-1:0:9 v1:0:8 -",
     "..SignExtend - v-1:0:9 v-2:0:8 -"),
    ("A7", Pass::First, "Copy - v-1:0:9 c0:9 -\nIntLessEqual - v-1:0:1 c0:8 c0:8", "..Copy - v-1:0:1 c1:1 -"),
    ("A8", Pass::First, "Copy - v1:0:16 c0:16 -\nCopy - v2:0:16 c0:16 -", "..Copy - v2:0:16 v1:0:16 -"),
    ("A9", Pass::First, "Copy - v1:1:1 v-2:0:1 -\nCopy - v-2:3:1 v1:1:1 -", "..Copy - v-2:3:1 v-2:0:1 -"),
    ("A10", Pass::First, "PcodeLabel 7 - - -\nPcodeBranch 7 - c0:1 -", "PcodeLabel 7 - - -"),
    ("A11", Pass::First, "Copy - v1:8:2 c1:2 -\nIntSignedRight - v2:0:11 c0:11 v1:0:16",
     "..IntSignedRight - v2:0:11 c0:11 v1:0:16"),
    ("A12", Pass::First, "PcodeLabel 0 - v1:0:4 -\nCopy - v2:0:2 v1:0:2 -\nArg 0 - v1:0:2 -", "..Arg 0 - v1:0:2 -"),
    ("A13", Pass::First, "InstructionMarker - - c257:1 -", "InstructionMarker - - c1:1 -"),
    ("A13", Pass::First, "Copy - v1:0:8 c0:8 -\nPcodeOp 4 v1:0:2 - -",
     "Copy - v1:0:8 c0:8 -\nPcodeOp 4 v-1:0:2 - -\nZeroExtend - v1:0:8 v-1:0:2 -"),
    ("B1", Pass::Second, "Copy - v-3:0:4 c0:4 -\nPcodeLabel 1 - v-3:0:9 -",
     "Copy - v-3:0:4 c0:4 -\nPcodeLabel 1 - v-3:0:9 -"),
    ("B2", Pass::Second, "Copy - v-1:0:1 c0:1 -\nInstructionMarker - - v-1:0:1 -",
     "Copy - v-1:0:1 c0:1 -\nInstructionMarker - - v-1:0:1 -"),
    ("B3", Pass::Second, "Copy - v-3:3:8 c0:8 -\nInstructionMarker - - - -\nLoad 0 - v-3:3:8 -",
     "InstructionMarker - - - -\nLoad 0 - v-3:3:8 -"),
    ("B4", Pass::Second,
     "IntSignedCarry - v-1:0:1 c0:2 c0:2\nStore 0 - c0:8 v-1:0:2\nSubpiece 1 v-1:0:2 c0:1 -",
     "IntSignedCarry - v-1:0:1 c0:2 c0:2\nStore 0 - c0:8 v-1:0:2"),
    ("D1", Pass::First, "Copy - v1:0:8 c0:8 -\nLoad 0 v1:0:1 c4096:8 -\nCopy - v2:0:1 v-1:0:1 -",
     "Copy - v1:0:8 c0:8 -\nLoad 0 v-2:0:1 c4096:8 -\nZeroExtend - v1:0:8 v-2:0:1 -\nCopy - v2:0:1 v-1:0:1 -"),
    ("D2", Pass::First, "Copy - v-32768:0:8 c0:8 -\nLoad 0 v-32768:0:1 c0:8 -", "refused 9 1"),
    ("case 8", Pass::First, "IntRotateLeft - v1:0:1 c1:1 c1:1", "Copy - v1:0:1 c128:1 -"),
];

fn assert_answer(name: &str, who: &str, expected: &str, answer: &str) {
    match expected.strip_prefix("..") {
        Some(end) => assert!(answer.ends_with(&String::from_utf8(tabbed(end)).unwrap()), "{name}, {who}: {answer}"),
        None => assert_eq!(answer.as_bytes(), tabbed(expected), "{name}, {who}"),
    }
}

#[test]
fn original_and_model_settle_the_points() {
    for (name, pass, block, expected) in POINTS {
        let bytes = tabbed(block);
        assert_answer(name, "original", expected, &recorded(&bytes, *pass).unwrap());
        let block = checks::read(&bytes, Limits::SECOND).unwrap();
        assert_answer(name, "model", expected, &text::print_answer(&pass.model(&block, Fault::None)));
    }
}
