//! Document 01's listing and the blocks that settled where 01 leaves room: the points A1 to A14, B1 to B4, D1 and D2.

/// Each with blanks for tabs.
pub const BLOCKS: &[&str] = &[
    // 01's listing.
    "Copy - v-1:0:2 c32767:2 -
     IntAdd - v1:0:2 v-1:0:2 c1:2
     IntSignedLess - v2:0:1 v1:0:2 c0:2",
    // A1: a hook's output counts as used right after the clearing.
    "HookIf 2 v-3:5:5 - -
     Copy - v22:0:10 v-3:0:10 -
     Copy - v13:0:10 v-3:0:10 -",
    // A2: a hook replaces its operands before it clears, and is never widened.
    "Copy - v1:0:8 c0:8 -
     HookIf 1 - v1:0:1 -",
    "Copy - v1:0:8 c0:8 -
     HookIf 1 v1:0:1 - -",
    // A3: a marker forgets before its own operands are replaced.
    "Copy - v-1:0:1 c0:1 -
     InstructionMarker - - v-1:0:1 -",
    // A4: uses come in the order first operand, second operand, output.
    "Copy - v2:8:1 v2:15:1 -
     Copy - v4:0:1 v2:15:1 -",
    // A5: a dropped or skipping branch's second operand is still used.
    "PcodeBranch 1 - c1:1 v5:0:16
     PcodeLabel 1 - - -
     Copy - v6:0:9 v5:0:9 -
     Copy - v7:0:9 v5:0:9 -",
    // A6: a dropped, unchanged statement still enters its output.
    "Copy - v-1:0:9 v1:0:9 -
     SignExtend - v-2:0:9 v1:0:8 -
     Copy - v-2:0:8 v-2:0:8 -
     SignExtend - v-1:0:9 v1:0:8 -",
    // A7: z is the longest run of zero bytes and no smaller one is tried.
    "Copy - v-1:0:9 c0:9 -
     IntLessEqual - v-1:0:1 c0:8 c0:8",
    // A8: a constant operand of 9 to 16 bytes can become a variable.
    "Copy - v1:0:16 c0:16 -
     Copy - v2:0:16 c0:16 -",
    // A9: "copy of the first operand" is the operand as replaced.
    "Copy - v1:1:1 v-2:0:1 -
     Copy - v-2:3:1 v1:1:1 -",
    // A10: "any branch below it" counts dropped and skipped branches too.
    "PcodeLabel 7 - - -
     PcodeBranch 7 - c0:1 -",
    "PcodeLabel 7 - - -
     PcodeBranch 8 - c1:1 -
     PcodeBranch 7 - c1:1 -
     PcodeLabel 8 - - -",
    // A11: a shift amount above 8 bytes never saturates by its high half.
    "Copy - v1:8:2 c1:2 -
     IntSignedRight - v2:0:11 c0:11 v1:0:16",
    // A12: a vanishing label does not use its operands.
    "PcodeLabel 0 - v1:0:4 -
     Copy - v2:0:2 v1:0:2 -
     Arg 0 - v1:0:2 -",
    // A13: operands are replaced in kept statements too, and outputs of loads and PcodeOp are widened.
    "InstructionMarker - - c257:1 c4:8
     Branch 0 - c2:1 c258:1
     Store 3 - c65536:2 c1:1",
    "Copy - v1:0:8 c0:8 -
     PcodeOp 4 v1:0:2 - -
     Load 1 v1:0:1 c16:8 -",
    // A14: the symbolic form of a comparison.
    "IntAnd - v-1:0:1 v1:0:1 c1:1
     IntLessEqual - v2:0:1 v-1:0:1 c0:1
     IntLessEqual - v3:0:1 c1:1 v-1:0:1
     IntSignedLess - v4:0:1 v1:0:1 c0:1
     IntSignedLessEqual - v5:0:1 v-1:0:1 c0:1
     IntSignedLess - v6:0:1 c0:1 v-1:0:1",
    // B1: a label's own operands are reads in the stretch above it.
    "Copy - v-3:0:4 c0:4 -
     PcodeLabel 1 - v-3:0:9 -",
    // B2: so are a marker's own reads.
    "Copy - v-1:0:1 c0:1 -
     InstructionMarker - - v-1:0:1 v-1:0:1",
    // B3: "since the last label" restarts at labels only.
    "Copy - v-3:3:8 c0:8 -
     InstructionMarker - - - -
     Load 0 - v-3:3:8 -",
    // B4: whole ids.
    "IntSignedCarry - v-1:0:1 c0:2 c0:2
     Store 0 - c0:8 v-1:0:2
     Subpiece 1 v-1:0:2 c0:1 -",
    // D1: the original's added temporary is one that the block still reads.
    "Copy - v1:0:8 c0:8 -
     Load 0 v1:0:1 c4096:8 -
     Copy - v2:0:1 v-1:0:1 -",
    // D2: id -32768 is taken.
    "Copy - v-32768:0:8 c0:8 -
     Load 0 v-32768:0:1 c0:8 -",
    // The same with one id left, and with that one used up.
    "Copy - v-32767:0:8 c0:8 -
     Load 0 v-32767:0:1 c0:8 -",
    "Copy - v-32767:0:8 c0:8 -
     Load 0 v-32767:0:1 c0:8 -
     Load 0 v-32767:0:2 c0:8 -",
    // A stale value map hit: v1 no longer holds what was entered for it, and holds it again later.
    "Copy - v1:0:2 v2:0:2 -
     Copy - v1:0:1 v3:0:1 -
     Copy - v4:0:2 v2:0:2 -
     Copy - v1:0:1 v2:0:1 -
     Copy - v5:0:2 v2:0:2 -",
    // A removed statement's reads don't count as kept ones.
    "Copy - v-1:0:4 v1:0:4 -
     Copy - v-2:0:4 v-1:0:4 -
     Store 0 - c0:8 c0:4",
    // A write that is kept for a later stretch behind an overwriting one.
    "Copy - v-1:0:4 v1:0:4 -
     PcodeBranch 0 - v2:0:1 -
     Copy - v-1:0:4 v3:0:4 -
     Store 0 - c0:8 v-1:0:4
     PcodeLabel 0 - - -
     Store 1 - c0:8 v-1:0:4",
    // The same variable on both sides of a marker.
    "Copy - v-1:0:4 v1:0:4 -
     InstructionMarker - - c0:8 c4:8
     Store 1 - c0:8 v-1:0:4",
    // Marks make a lasting variable a temporary, for both passes.
    "temporary 5
     temporary 5
     Copy - v5:0:4 c7:4 -
     InstructionMarker - - c0:8 c4:8
     Copy - v6:0:4 v5:0:4 -
     Copy - v5:0:4 v6:0:4 -",
    // A skip that meets a kept label not its own.
    "PcodeLabel 1 - - -
     PcodeBranch 2 - c1:1 -
     Copy - v1:0:1 c1:1 -
     PcodeLabel 3 - - -
     Copy - v2:0:1 c1:1 -
     PcodeLabel 2 - - -
     PcodeBranch 3 - v1:0:1 -
     PcodeBranch 1 - v2:0:1 -",
    // A skip that meets the end.
    "PcodeLabel 1 - - -
     Copy - v1:0:1 c1:1 -
     PcodeBranch 1 - c1:1 -
     Copy - v2:0:1 c1:1 -",
    // Conditions too wide to be known, and a known 2.
    "PcodeBranch 1 - c0:9 -
     PcodeBranch 1 - c1:9 -
     PcodeBranch 1 - c2:1 -
     Branch 0 - c0:9 -
     Branch 1 - c0:8 -
     PcodeLabel 1 - - -",
];

/// 01's eight cases as blocks whose operands hold the bits in question.
pub const CASES: &[&str] = &[
    "IntNot - v-1:0:1 v1:0:1 -
     IntAnd - v2:0:1 v1:0:1 v-1:0:1",
    "IntMul - v-1:0:1 v1:0:1 v2:0:1
     IntMul - v-2:0:1 v1:0:1 v2:0:1
     IntXor - v3:0:1 v-1:0:1 v-2:0:1",
    "IntSignedLess - v1:0:1 c32768:2 c0:2",
    "IntAnd - v-1:0:1 v1:0:1 c1:1
     IntEqual - v2:0:1 v-1:0:1 c1:1
     IntEqual - v3:0:1 v-1:0:1 c0:1
     BoolNot - v4:0:1 v3:0:1 -",
    "IntOr - v-1:0:1 v1:0:1 c8:1
     IntLeft - v2:0:1 v3:0:1 v-1:0:1",
    "IntOr - v-1:0:1 v1:0:1 c2:1
     IntAnd - v-1:0:1 v-1:0:1 c3:1
     IntLeft - v2:0:1 v3:0:1 v-1:0:1
     IntAnd - v4:0:1 v2:0:1 c3:1",
    "Copy - v1:0:9 c0:9 -
     Copy - v2:0:9 v1:0:9 -
     Copy - v3:0:8 v1:0:8 -",
    "IntRotateLeft - v1:0:1 c1:1 c1:1",
];
