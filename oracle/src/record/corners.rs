//! Limits of the text form and the checks, met and passed by one.

/// Blocks with blanks for tabs, in pairs or runs around a limit.
pub const BLOCKS: &[&str] = &[
    // Ids.
    "Copy - v32767:0:1 v-32768:0:1 -",
    "Copy - v32768:0:1 v1:0:1 -",
    "Copy - v1:0:1 v-32769:0:1 -",
    "Copy - v0:0:1 v1:0:1 -",
    "Copy - v1:0:1 v0:0:1 -",
    // Slots.
    "Copy - v1:0:16 v2:0:16 -",
    "Copy - v1:0:17 v2:0:17 -",
    "Copy - v1:15:1 v2:15:1 -",
    "Copy - v1:16:1 v2:15:1 -",
    "Copy - v1:9:7 v2:9:7 -",
    "Copy - v1:9:8 v2:9:8 -",
    "Copy - v1:0:0 v2:0:0 -",
    "Copy - v1:255:255 v2:0:1 -",
    "Copy - v1:1:255 v2:0:1 -",
    "Copy - v1:256:1 v2:0:1 -",
    "Copy - v1:0:256 v2:0:1 -",
    // Constants.
    "Copy - v1:0:8 c18446744073709551615:8 -",
    "Copy - v1:0:8 c18446744073709551616:8 -",
    "Copy - v1:0:16 c18446744073709551615:16 -",
    "Copy - v1:0:1 c0:0 -",
    "Copy - v1:0:16 c0:17 -",
    "Copy - v1:0:1 c0:255 -",
    "Copy - v1:0:1 c0:256 -",
    "Store 0 - c0:17 c0:1",
    "Store 0 - c0:1 c0:0",
    "Arg 0 - c0:0 -",
    "Arg 0 - - c0:17",
    // Constants wider than their size.
    "Copy - v1:0:1 c256:1 -",
    "Store 0 - c257:1 c65537:2",
    "Copy - v1:0:7 c18446744073709551615:7 -",
    "PcodeBranch 0 - c257:1 -
     PcodeLabel 0 - - -",
    "PcodeBranch 0 - c256:1 c65536:2
     PcodeLabel 0 - - -",
    // Numbers.
    "Load 65535 v1:0:1 c0:1 -",
    "Load 65536 v1:0:1 c0:1 -",
    "Subpiece 0 v1:0:2 v2:0:2 -",
    "Subpiece 2 v1:0:2 v2:0:2 -",
    "Subpiece 3 v1:0:2 v2:0:2 -",
    "Subpiece 16 v1:0:16 v2:0:16 -",
    "Subpiece 17 v1:0:16 v2:0:16 -",
    "Subpiece 65535 v1:0:16 v2:0:16 -",
    "Select 32767 v1:0:2 v2:0:2 v3:0:2",
    "Select 32768 v1:0:2 v2:0:2 v3:0:2",
    "Branch 2 - v1:0:1 -",
    "Branch 3 - v1:0:1 -",
    "Branch 65535 - c0:1 -",
    "PcodeBranch 65535 - v1:0:1 -
     PcodeLabel 65535 - - -",
    // Size rules.
    "ZeroExtend - v1:0:4 v2:0:4 -",
    "ZeroExtend - v1:0:4 v2:0:5 -",
    "SignExtend - v1:0:4 v2:0:3 -",
    "SignExtend - v1:0:4 v2:0:5 -",
    "Copy - v1:0:4 v2:0:3 -",
    "IntNot - v1:0:4 v2:0:3 -",
    "IntNegate - v1:0:4 v2:0:5 -",
    "IntAdd - v1:0:4 v2:0:4 v3:0:3",
    "IntSub - v1:0:3 v2:0:4 v3:0:4",
    "IntXor - v1:0:4 v2:0:3 v3:0:4",
    "IntRem - v1:0:4 v2:0:3 v3:0:4",
    "IntEqual - v1:0:4 v2:0:2 v3:0:2",
    "IntEqual - v1:0:1 v2:0:2 v3:0:1",
    "IntCarry - v1:0:1 v2:0:1 v3:0:2",
    "IntSignedBorrow - v1:0:16 v2:0:1 v3:0:1",
    "IntLeft - v1:0:4 v2:0:4 v3:0:16",
    "IntLeft - v1:0:4 v2:0:3 v3:0:4",
    "IntRotateRight - v1:0:3 v2:0:4 v3:0:1",
    "IntCountOnes - v1:0:1 v2:0:16 -",
    "IntCountLeadingZeroes - v1:0:16 v2:0:1 -",
    "BoolAnd - v1:0:3 v2:0:5 v3:0:7",
    // Rotates around the width.
    "IntRotateLeft - v1:0:3 v2:0:3 c24:1",
    "IntRotateLeft - v1:0:3 v2:0:3 c25:1",
    "IntRotateRight - v1:0:1 v2:0:1 c8:8",
    "IntRotateRight - v1:0:1 v2:0:1 c9:8",
    "IntRotateRight - v1:0:1 v2:0:1 c9:9",
    "IntRotateLeft - v1:0:16 v2:0:16 c128:1",
    "IntRotateLeft - v1:0:16 v2:0:16 c129:1",
    "IntRotateLeft - v1:0:1 v2:0:1 c18446744073709551615:8",
    // A rotate that is skipped, or not decided, isn't refused.
    "PcodeBranch 1 - c1:1 -
     IntRotateLeft - v1:0:1 v2:0:1 c9:1
     PcodeLabel 1 - - -",
    "Copy - v3:0:1 c9:1 -
     Hook 0 - - -
     IntRotateLeft - v1:0:1 v2:0:1 v3:0:1",
    "Copy - v3:0:1 c9:1 -
     IntRotateLeft - v1:0:1 v2:0:1 v3:0:1",
    // 8 before 9 on one statement; then the first statement that meets either.
    "Copy - v-32768:0:2 c0:2 -
     IntRotateLeft - v-32768:0:1 v1:0:1 c9:1",
    "Copy - v-32768:0:2 c0:2 -
     Load 0 v-32768:0:1 c0:8 -
     IntRotateLeft - v2:0:1 v1:0:1 c9:1",
    "Copy - v-32768:0:2 c0:2 -
     IntRotateLeft - v2:0:1 v1:0:1 c9:1
     Load 0 v-32768:0:1 c0:8 -",
    // -32768 is taken by a name alone: in a label's operand, in a skipped statement, below the need.
    "Copy - v1:0:8 c0:8 -
     Load 0 v1:0:1 c0:8 -
     PcodeLabel 1 - v-32768:0:1 -",
    "Copy - v1:0:8 c0:8 -
     PcodeBranch 1 - c1:1 -
     Store 0 - c0:8 v-32768:0:1
     PcodeLabel 1 - - -
     Load 0 v1:0:1 c0:8 -",
    "Copy - v1:0:8 c0:8 -
     Load 0 v1:0:1 c0:8 -
     Store 0 - c0:8 v-32768:0:1",
    // 3 before 4 before 5 on one statement, each statement finished before the next.
    "Copy - v0:0:1 - v1:0:2",
    "Copy - v1:0:1 - v1:0:2",
    "Copy - v1:0:1 v2:0:2 -
     Copy - v0:0:1 v1:0:1 -",
    "IntAdd - v1:0:1 v2:0:2 -
     Copy - v0:0:1 v1:0:1 -",
    // 6 after 5, and the first of several.
    "PcodeBranch 9 - c0:1 -
     Copy - v1:0:1 v1:0:2 -",
    "PcodeLabel 1 - - -
     PcodeBranch 2 - c0:1 -
     PcodeLabel 1 - - -",
    "PcodeLabel 1 - - -
     PcodeLabel 1 - - -
     PcodeBranch 2 - c0:1 -",
    // 6 before 8.
    "IntRotateLeft - v1:0:1 v2:0:1 c9:1
     PcodeBranch 2 - c0:1 -",
    // Outputs and operands that are not allowed or missing.
    "Store 0 v1:0:1 c0:1 c0:1",
    "TracerStore 0 v1:0:1 - -",
    "Branch 0 v1:0:1 c0:1 -",
    "PcodeBranch 0 v1:0:1 c0:1 -",
    "PcodeLabel 0 v1:0:1 - -",
    "Arg 0 v1:0:1 - -",
    "Exception - v1:0:1 - -",
    "InstructionMarker - v1:0:1 - -",
    "Invalid - v1:0:1 - -",
    "Copy - - c0:1 -",
    "FloatAdd - - - -",
    "IntToFloat - v1:0:4 - c0:1",
    "MultiEqual - - c0:1 c0:1",
    "Select 0 - c0:1 c0:1",
    "Load 0 - c0:1 c0:1",
    "Load 0 v1:0:1 - c0:1",
    "Store 0 - c0:1 -",
    "Store 0 - - c0:1",
    "Branch 0 - - c0:1",
    "Branch 0 - c1:1 c0:1",
    "PcodeBranch 0 - - -",
    "BoolNot - v1:0:1 c0:1 c0:1",
    "BoolOr - v1:0:1 c0:1 -",
    "IntCountOnes - v1:0:1 - -",
    "Subpiece 0 v1:0:1 c0:1 c0:1",
    "ZeroExtend - v1:0:1 c0:1 c0:1",
    "IntLess - v1:0:1 - c0:1",
    "PcodeOp 0 - - c0:1",
    "Hook 0 - - c0:1",
    "TracerLoad 0 - - c0:1",
];
