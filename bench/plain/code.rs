//! Decoding.

use super::memory::{Break, Marks, Memory};

#[derive(Clone, Copy, Debug, PartialEq, Eq)]
pub enum Function {
    J,
    Ldlp,
    Ldnl,
    Ldc,
    Ldnlp,
    Ldl,
    Adc,
    Call,
    Cj,
    Ajw,
    Eqc,
    Stl,
    Stnl,
    Opr,
}

use Function::*;

const CODES: [Option<Function>; 16] = [
    Some(J),
    Some(Ldlp),
    None,
    Some(Ldnl),
    Some(Ldc),
    Some(Ldnlp),
    None,
    Some(Ldl),
    Some(Adc),
    Some(Call),
    Some(Cj),
    Some(Ajw),
    Some(Eqc),
    Some(Stl),
    Some(Stnl),
    Some(Opr),
];

/// The operation is listed.
#[inline]
pub fn is_listed(operand: u32) -> bool {
    matches!(
        operand,
        0x00..=0x10
            | 0x13
            | 0x15..=0x16
            | 0x19..=0x1b
            | 0x1d..=0x21
            | 0x29..=0x2a
            | 0x2c
            | 0x2f..=0x3c
            | 0x3f..=0x46
            | 0x48..=0x4d
            | 0x4f
            | 0x52..=0x53
            | 0x55..=0x59
    )
}

#[derive(Clone, Copy)]
pub struct Instruction {
    pub function: Function,
    pub operand: u32,
    pub length: u8,
}

#[inline(always)]
fn ended(function: Function, operand: u32, length: u8) -> Result<Instruction, Break> {
    if function == Opr && !is_listed(operand) {
        return Err(Break::NoSuchOperation);
    }
    Ok(Instruction { function, operand, length })
}

#[inline(always)]
fn prefixed(code: u8, value: u32) -> u32 {
    if code == 2 { value << 4 } else { !value << 4 }
}

#[inline(always)]
pub fn decode(memory: &Memory, marks: &Marks, iptr: u32) -> Result<Instruction, Break> {
    let byte = memory.read_byte(marks, iptr)?;
    match CODES[usize::from(byte >> 4)] {
        Some(function) => ended(function, u32::from(byte & 15), 1),
        None => decode_chain(memory, marks, iptr, byte),
    }
}

#[inline(never)]
fn decode_chain(memory: &Memory, marks: &Marks, iptr: u32, prefix: u8) -> Result<Instruction, Break> {
    let mut value = prefixed(prefix >> 4, u32::from(prefix & 15));
    let mut address = iptr;
    for had in 1..16 {
        address = address.wrapping_add(1);
        let byte = memory.read_byte(marks, address)?;
        let sum = value.wrapping_add(u32::from(byte & 15));
        if let Some(function) = CODES[usize::from(byte >> 4)] {
            return ended(function, sum, had + 1);
        }
        value = prefixed(byte >> 4, sum);
    }
    Err(Break::LongPrefix)
}
