//! What an instruction does to the process that runs.

use super::code::{Function, Instruction};
use super::memory::{Break, Marks, Memory, Span};

#[derive(Clone, Copy, Debug, Default)]
pub struct Registers {
    pub a: u32,
    pub b: u32,
    pub c: u32,
    pub iptr: u32,
    pub wptr: u32,
    pub error: bool,
    pub halt_on_error: bool,
}

#[derive(Clone, Copy, Debug, PartialEq, Eq)]
pub enum Next {
    Go,
    Jumped,
    /// An operation of the scheduler, by its code: nothing is done yet.
    Schedule(u32),
    Halt,
}

impl Registers {
    #[inline]
    fn local(&self, index: u32) -> u32 {
        self.wptr.wrapping_add(index.wrapping_mul(4))
    }

    #[inline]
    fn non_local(&self, index: u32) -> u32 {
        self.a.wrapping_add(index.wrapping_mul(4))
    }

    #[inline]
    fn push(&mut self, value: u32) {
        self.c = self.b;
        self.b = self.a;
        self.a = value;
    }

    #[inline]
    fn pop(&mut self) {
        self.a = self.b;
        self.b = self.c;
    }

    /// A value takes the place of A and B.
    #[inline]
    fn reduce(&mut self, value: u32) {
        self.a = value;
        self.b = self.c;
    }

    /// A double word takes the place of A, B and C.
    #[inline]
    fn reduce_long(&mut self, value: u64) {
        self.a = value as u32;
        self.b = (value >> 32) as u32;
    }

    /// A pair takes the place of A.
    #[inline]
    fn widen(&mut self, first: u32, second: u32) {
        self.c = self.b;
        self.b = second;
        self.a = first;
    }

    #[inline]
    fn finish(&mut self, fails: bool) -> Next {
        self.error |= fails;
        if fails && self.halt_on_error { Next::Halt } else { Next::Go }
    }

    #[inline]
    fn reduce_checked(&mut self, (value, overflows): (i32, bool)) -> Next {
        self.reduce(value as u32);
        self.finish(overflows)
    }

    fn carry(&self) -> u32 {
        self.c & 1
    }

    fn double(&self) -> u64 {
        u64::from(self.c) << 32 | u64::from(self.b)
    }
}

/// Does an instruction, or leaves an operation to the scheduler. A break leaves all as it was.
#[inline]
pub fn local(
    r: &mut Registers,
    memory: &mut Memory,
    marks: &Marks,
    instruction: Instruction,
) -> Result<Next, Break> {
    let next = r.iptr.wrapping_add(u32::from(instruction.length));
    let n = instruction.operand;
    let mut answer = Next::Go;
    match instruction.function {
        Function::J => {
            r.iptr = next.wrapping_add(n);
            return Ok(Next::Jumped);
        }
        Function::Ldlp => r.push(r.local(n)),
        Function::Ldnl => r.a = memory.read_word(marks, r.non_local(n))?,
        Function::Ldc => r.push(n),
        Function::Ldnlp => r.a = r.non_local(n),
        Function::Ldl => r.push(memory.read_word(marks, r.local(n))?),
        Function::Adc => {
            let (sum, overflows) = (r.a as i32).overflowing_add(n as i32);
            r.a = sum as u32;
            answer = r.finish(overflows);
        }
        Function::Call => {
            call(r, memory, marks, next)?;
            r.iptr = next.wrapping_add(n);
            return Ok(Next::Go);
        }
        Function::Cj => {
            if r.a == 0 {
                r.iptr = next.wrapping_add(n);
                return Ok(Next::Go);
            }
            r.pop();
        }
        Function::Ajw => r.wptr = r.local(n),
        Function::Eqc => r.a = u32::from(r.a == n),
        Function::Stl => {
            memory.write_word(marks, r.local(n), r.a)?;
            r.pop();
        }
        Function::Stnl => {
            memory.write_word(marks, r.non_local(n), r.b)?;
            r.reduce(r.c);
        }
        Function::Opr => return operate(r, memory, marks, next, n),
    }
    r.iptr = next;
    Ok(answer)
}

#[inline]
fn call(r: &mut Registers, memory: &mut Memory, marks: &Marks, next: u32) -> Result<(), Break> {
    let workspace = r.wptr.wrapping_sub(16);
    let first = memory.writable(marks, workspace)?;
    let second = memory.writable(marks, workspace.wrapping_add(4))?;
    let third = memory.writable(marks, workspace.wrapping_add(8))?;
    let fourth = memory.writable(marks, workspace.wrapping_add(12))?;
    memory.put(first, next);
    memory.put(second, r.a);
    memory.put(third, r.b);
    memory.put(fourth, r.c);
    r.wptr = workspace;
    r.a = next;
    Ok(())
}

#[inline]
fn operate(
    r: &mut Registers,
    memory: &mut Memory,
    marks: &Marks,
    next: u32,
    operation: u32,
) -> Result<Next, Break> {
    let mut answer = Next::Go;
    match operation {
        0x00 => (r.a, r.b) = (r.b, r.a),
        0x01 => r.a = u32::from(memory.read_byte(marks, r.a)?),
        0x02 | 0x52 => r.reduce(r.b.wrapping_add(r.a)),
        0x04 => r.reduce(r.b.wrapping_sub(r.a)),
        0x05 => answer = r.reduce_checked((r.b as i32).overflowing_add(r.a as i32)),
        0x06 => {
            r.iptr = r.a;
            r.a = next;
            return Ok(Next::Go);
        }
        0x08 => r.reduce(r.b.wrapping_mul(r.a)),
        0x09 => r.reduce(u32::from(r.b as i32 > r.a as i32)),
        0x0a => r.reduce(r.a.wrapping_add(r.b.wrapping_mul(4))),
        0x0c => answer = r.reduce_checked((r.b as i32).overflowing_sub(r.a as i32)),
        0x10 => answer = r.finish(true),
        0x13 => {
            let fails = r.b >= r.a;
            r.pop();
            answer = r.finish(fails);
        }
        0x16 => answer = r.reduce_checked(narrow(
            i64::from(r.b as i32) + i64::from(r.a as i32) + i64::from(r.carry()),
        )),
        0x19 => {
            let value = u64::from(r.b) << 32 | u64::from(r.a);
            let shift = value.leading_zeros();
            r.reduce_long(value.checked_shl(shift).unwrap_or(0));
            r.c = shift;
        }
        0x1a => {
            if r.c >= r.a {
                r.reduce_long(0);
                answer = r.finish(true);
            } else {
                let (value, divisor) = (r.double(), u64::from(r.a));
                r.a = (value / divisor) as u32;
                r.b = (value % divisor) as u32;
            }
        }
        0x1b => r.a = next.wrapping_add(r.a),
        0x1d => r.widen(r.a, (r.a as i32 >> 31) as u32),
        0x1f => {
            if r.a == 0 {
                r.reduce(0);
                answer = r.finish(true);
            } else {
                r.reduce((r.b as i32).wrapping_rem(r.a as i32) as u32);
            }
        }
        0x20 => {
            r.iptr = memory.read_word(marks, r.wptr)?;
            r.wptr = r.wptr.wrapping_add(16);
            return Ok(Next::Go);
        }
        0x21 => {
            if loop_end(r, memory, marks)? {
                r.iptr = next.wrapping_sub(r.a);
                r.reduce(r.c);
                return Ok(Next::Jumped);
            }
            r.reduce(r.c);
        }
        0x29 => {
            r.push(u32::from(!r.error));
            r.error = false;
        }
        0x2a => r.push(0),
        0x2c => {
            if r.a == 0 {
                r.reduce(0);
                answer = r.finish(true);
            } else {
                answer = r.reduce_checked((r.b as i32).overflowing_div(r.a as i32));
            }
        }
        0x31 => r.reduce_long(u64::from(r.b) * u64::from(r.a) + u64::from(r.c)),
        0x32 => r.a = !r.a,
        0x33 => r.reduce(r.b ^ r.a),
        0x34 => r.a = r.a.wrapping_mul(4),
        0x35 => r.reduce_long(r.double().checked_shr(r.a).unwrap_or(0)),
        0x36 => r.reduce_long(r.double().checked_shl(r.a).unwrap_or(0)),
        0x37 => r.reduce_long(u64::from(r.b) + u64::from(r.a) + u64::from(r.carry())),
        0x38 => answer = r.reduce_checked(narrow(
            i64::from(r.b as i32) - i64::from(r.a as i32) - i64::from(r.carry()),
        )),
        0x3a => {
            let (part, sign) = (r.b, r.a);
            r.reduce(if part < sign { part } else { part.wrapping_sub(sign.wrapping_mul(2)) });
        }
        0x3b => {
            memory.write_byte(marks, r.a, r.b as u8)?;
            r.reduce(r.c);
        }
        0x3c => {
            if r.a % 4 != 0 {
                return Err(Break::Unaligned);
            }
            (r.a, r.wptr) = (r.wptr, r.a);
        }
        0x3f => r.widen((r.a as i32 >> 2) as u32, r.a % 4),
        0x40 => r.reduce(r.b.checked_shr(r.a).unwrap_or(0)),
        0x41 => r.reduce(r.b.checked_shl(r.a).unwrap_or(0)),
        0x42 => r.push(0x8000_0000),
        0x46 => r.reduce(r.b & r.a),
        0x4a => {
            memory.may_read(marks, Span { start: r.c, size: r.a })?;
            memory.may_write(marks, Span { start: r.b, size: r.a })?;
            memory.copy(r.c, r.b, r.a);
            r.a = r.c;
            r.b = r.c;
        }
        0x4b => r.reduce(r.b | r.a),
        0x4c => {
            let fails = r.b != (r.a as i32 >> 31) as u32;
            r.reduce(r.a);
            answer = r.finish(fails);
        }
        0x4d => {
            let fails = r.b == 0 || r.b > r.a;
            r.pop();
            answer = r.finish(fails);
        }
        0x4f => {
            let taken = u64::from(r.a) + u64::from(r.carry());
            let (value, borrow) = u64::from(r.b).overflowing_sub(taken);
            r.a = value as u32;
            r.b = u32::from(borrow);
        }
        0x53 => answer = r.reduce_checked((r.b as i32).overflowing_mul(r.a as i32)),
        0x56 => {
            let (value, limit) = (i64::from(r.b as i32), i64::from(r.a as i32));
            r.pop();
            answer = r.finish(value >= limit || value < -limit);
        }
        0x57 => r.halt_on_error = false,
        0x58 => r.halt_on_error = true,
        0x59 => r.push(u32::from(r.halt_on_error)),
        _ => return Ok(Next::Schedule(operation)),
    }
    r.iptr = next;
    Ok(answer)
}

fn narrow(value: i64) -> (i32, bool) {
    (value as i32, i32::try_from(value).is_err())
}

/// The count falls, and where it stays above 0 the index rises: whether it does.
#[inline]
fn loop_end(r: &Registers, memory: &mut Memory, marks: &Marks) -> Result<bool, Break> {
    let count = memory.writable(marks, r.b.wrapping_add(4))?;
    let index = memory.writable(marks, r.b)?;
    let left = memory.get(count).wrapping_sub(1);
    memory.put(count, left);
    if left as i32 > 0 {
        memory.put(index, memory.get(index).wrapping_add(1));
        return Ok(true);
    }
    Ok(false)
}

/// Whether `local` would answer `Jumped`, or its break.
pub fn jumps(
    r: &Registers,
    memory: &Memory,
    marks: &Marks,
    instruction: Instruction,
) -> Result<bool, Break> {
    match (instruction.function, instruction.operand) {
        (Function::J, _) => Ok(true),
        (Function::Opr, 0x21) => {
            let count = memory.take_word(marks, r.b.wrapping_add(4))?;
            memory.writable(marks, r.b)?;
            Ok(count.wrapping_sub(1) as i32 > 0)
        }
        _ => Ok(false),
    }
}
