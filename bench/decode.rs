//! The benchmark `decode` in plain, safe Rust: the same code in a memory, the same checks of each touch, the same
//! answer.

mod plain;

use plain::code::{decode, is_listed, Function, Function::*};
use plain::memory::{Break, Marks, Memory};

const INSTRUCTIONS: u32 = 1_000;
const START: u32 = 0x8000_0080;

fn code_of(function: Function) -> u8 {
    match function {
        J => 0,
        Ldlp => 1,
        Ldnl => 3,
        Ldc => 4,
        Ldnlp => 5,
        Ldl => 7,
        Adc => 8,
        Call => 9,
        Cj => 10,
        Ajw => 11,
        Eqc => 12,
        Stl => 13,
        Stnl => 14,
        Opr => 15,
    }
}

/// Puts a code with a whole number, and returns its length.
fn put(code: u8, number: u32, buffer: &mut [u8; 8]) -> usize {
    let at = if number < 16 { 0 } else { put(2, number / 16, buffer) };
    buffer[at] = 16 * code + (number % 16) as u8;
    at + 1
}

fn encode(function: Function, operand: i32, buffer: &mut [u8; 8]) -> usize {
    let code = code_of(function);
    if operand >= 0 {
        return put(code, operand as u32, buffer);
    }
    let complement = !(operand as u32);
    let at = put(6, complement / 16, buffer);
    buffer[at] = 16 * code + (15 - complement % 16) as u8;
    at + 1
}

const FUNCTIONS: [Function; 16] =
    [Ldl, Stl, Ldc, Ldlp, Adc, Ldnl, Stnl, Opr, Ldl, Stl, J, Cj, Call, Ajw, Eqc, Opr];

fn operand_at(number: u32) -> i32 {
    let digits = number >> 8;
    let value = match number >> 4 & 15 {
        12 => digits & 0xff,
        13 => digits & 0xfff,
        14 => 0u32.wrapping_sub(digits & 0xff),
        15 => 0u32.wrapping_sub(digits & 0xf_ffff),
        _ => digits & 15,
    };
    value as i32
}

fn operation_at(number: u32) -> i32 {
    let drawn = number >> 8 & 0x7f;
    if is_listed(drawn) { drawn as i32 } else { 0 }
}

fn load(memory: &mut Memory, marks: &Marks) -> Result<(), Break> {
    let mut number = 1u32;
    let mut address = START;
    let mut buffer = [0; 8];
    for _ in 0..INSTRUCTIONS {
        number = number.wrapping_mul(1_664_525).wrapping_add(1_013_904_223);
        let drawn = number >> 4;
        let function = FUNCTIONS[(drawn & 15) as usize];
        let operand = if function == Opr { operation_at(drawn) } else { operand_at(drawn) };
        let length = encode(function, operand, &mut buffer);
        for byte in &buffer[..length] {
            memory.write_byte(marks, address, *byte)?;
            address = address.wrapping_add(1);
        }
    }
    Ok(())
}

#[inline(never)]
fn sum_of(memory: &Memory, marks: &Marks, turns: u32) -> Result<u32, Break> {
    let mut sum = 0u32;
    for _ in 0..turns {
        let mut iptr = START;
        for _ in 0..INSTRUCTIONS {
            let instruction = decode(memory, marks, iptr)?;
            sum = sum.wrapping_add(instruction.operand ^ instruction.function as u32);
            iptr = iptr.wrapping_add(u32::from(instruction.length));
        }
    }
    Ok(sum)
}

fn main() {
    let turns = plain::amount();
    let mut memory = Memory::new(131_072);
    let marks = Marks::new();
    load(&mut memory, &marks).expect("the code fits");
    let sum = sum_of(&memory, &marks, turns).expect("the code decodes");
    println!("decode {} {sum}", u64::from(turns) * u64::from(INSTRUCTIONS));
}
