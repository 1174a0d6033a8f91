//! Statements of document 01 as the original's instructions, and back.

use crate::block::{Operand, Stmt, Var};
use crate::ops::Op;
use pcode::BranchHint;

macro_rules! plain_operations {
    ($($name:ident)*) => {
        fn plain_to(op: Op) -> Option<pcode::Op> {
            match op {
                $(Op::$name => Some(pcode::Op::$name),)*
                _ => None,
            }
        }

        fn plain_from(op: pcode::Op) -> Op {
            match op {
                $(pcode::Op::$name => Op::$name,)*
                _ => unreachable!("an operation with a number"),
            }
        }
    };
}

plain_operations! {
    Copy ZeroExtend SignExtend IntToFloat UintToFloat FloatToFloat FloatToInt
    IntAdd IntSub IntXor IntOr IntAnd IntMul IntDiv IntSignedDiv IntRem IntSignedRem
    IntLeft IntRotateLeft IntRight IntSignedRight IntRotateRight
    IntEqual IntNotEqual IntLess IntSignedLess IntLessEqual IntSignedLessEqual IntCarry IntSignedCarry IntSignedBorrow
    IntNot IntNegate IntCountOnes IntCountLeadingZeroes BoolAnd BoolOr BoolXor BoolNot
    FloatAdd FloatSub FloatMul FloatDiv FloatNegate FloatAbs FloatSqrt FloatCeil FloatFloor FloatRound FloatIsNan
    FloatEqual FloatNotEqual FloatLess FloatLessEqual
    MultiEqual Indirect Exception InstructionMarker Invalid
}

/// None if the original's operation can't hold the number.
pub fn to_op(op: Op, number: u16) -> Option<pcode::Op> {
    Some(match op {
        Op::Select => pcode::Op::Select(i16::try_from(number).ok()?),
        Op::Subpiece => pcode::Op::Subpiece(u8::try_from(number).ok()?),
        Op::Branch => pcode::Op::Branch(match number {
            0 => BranchHint::Jump,
            1 => BranchHint::Call,
            2 => BranchHint::Return,
            _ => return None,
        }),
        Op::Load => pcode::Op::Load(number),
        Op::Store => pcode::Op::Store(number),
        Op::PcodeBranch => pcode::Op::PcodeBranch(number),
        Op::PcodeLabel => pcode::Op::PcodeLabel(number),
        Op::Arg => pcode::Op::Arg(number),
        Op::PcodeOp => pcode::Op::PcodeOp(number),
        Op::Hook => pcode::Op::Hook(number),
        Op::HookIf => pcode::Op::HookIf(number),
        Op::TracerLoad => pcode::Op::TracerLoad(number),
        Op::TracerStore => pcode::Op::TracerStore(number),
        plain => plain_to(plain)?,
    })
}

fn from_op(op: pcode::Op) -> (Op, u16) {
    match op {
        pcode::Op::Select(id) => (Op::Select, id as u16),
        pcode::Op::Subpiece(offset) => (Op::Subpiece, offset as u16),
        pcode::Op::Branch(hint) => (Op::Branch, hint as u16),
        pcode::Op::Load(n) => (Op::Load, n),
        pcode::Op::Store(n) => (Op::Store, n),
        pcode::Op::PcodeBranch(n) => (Op::PcodeBranch, n),
        pcode::Op::PcodeLabel(n) => (Op::PcodeLabel, n),
        pcode::Op::Arg(n) => (Op::Arg, n),
        pcode::Op::PcodeOp(n) => (Op::PcodeOp, n),
        pcode::Op::Hook(n) => (Op::Hook, n),
        pcode::Op::HookIf(n) => (Op::HookIf, n),
        pcode::Op::TracerLoad(n) => (Op::TracerLoad, n),
        pcode::Op::TracerStore(n) => (Op::TracerStore, n),
        plain => (plain_from(plain), 0),
    }
}

pub fn to_var(var: Option<Var>) -> pcode::VarNode {
    var.map_or(pcode::VarNode::NONE, |Var { id, offset, size }| pcode::VarNode { id, offset, size })
}

fn from_var(var: pcode::VarNode) -> Option<Var> {
    (var != pcode::VarNode::NONE).then(|| Var::new(var.id, var.offset, var.size))
}

fn to_value(operand: Operand) -> pcode::Value {
    match operand {
        Operand::None => pcode::Value::invalid(),
        Operand::Const(value, size) => pcode::Value::Const(value, size),
        Operand::Var(var) => pcode::Value::Var(to_var(Some(var))),
    }
}

fn from_value(value: pcode::Value) -> Operand {
    match value {
        pcode::Value::Const(value, size) => Operand::Const(value, size),
        pcode::Value::Var(var) => from_var(var).map_or(Operand::None, Operand::Var),
    }
}

pub fn to_instruction(stmt: &Stmt) -> Option<pcode::Instruction> {
    let op = to_op(stmt.op, stmt.number)?;
    Some((to_var(stmt.output), op, to_value(stmt.a), to_value(stmt.b)).into())
}

pub fn from_instruction(instruction: &pcode::Instruction) -> Stmt {
    let (op, number) = from_op(instruction.op);
    let [a, b] = instruction.inputs.get().map(from_value);
    Stmt::new(op, number, from_var(instruction.output), a, b)
}
