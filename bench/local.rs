//! The benchmarks `local`, `local-links` and `local-saved` in plain, safe Rust: a loop of instructions that touch no
//! other process, with nothing claimed, with two link buffers on both sides of all that it touches, and with the words
//! of 500 workspaces saved.

mod plain;

use plain::code::decode;
use plain::cpu::{local, Next, Registers};
use plain::memory::{Break, Marks, Memory, Span};
use plain::programs::{LOOP, SIZE, START};
use plain::{checksum, mixed, BEGIN};

const WORKSPACE: u32 = 0x8000_2000;
const SAVED: u32 = 0x8000_4000;

fn claim(name: &str, marks: &mut Marks) {
    match name {
        "local-links" => {
            marks.claim_in(0, Span { start: 0x8000_0060, size: 4 });
            marks.claim_in(1, Span { start: 0x8001_0000, size: 4 });
        }
        "local-saved" => {
            for number in 0..500 {
                marks.claim_saved(SAVED + 64 * number);
            }
        }
        _ => {}
    }
}

#[inline(never)]
fn run(r: &mut Registers, memory: &mut Memory, marks: &Marks, steps: u64) -> Result<(), Break> {
    for _ in 0..steps {
        let instruction = decode(memory, marks, r.iptr)?;
        match local(r, memory, marks, instruction)? {
            Next::Go | Next::Jumped => {}
            Next::Schedule(_) | Next::Halt => return Ok(()),
        }
    }
    Ok(())
}

fn main() {
    let name = plain::name();
    let steps = u64::from(plain::amount()) * 1_000;
    let mut memory = Memory::new(SIZE);
    let mut marks = Marks::new();
    claim(&name, &mut marks);
    memory.load(START, &LOOP);
    let mut r = Registers { iptr: START, wptr: WORKSPACE, ..Registers::default() };
    run(&mut r, &mut memory, &marks, steps).expect("the loop breaks no rule");
    let flags = u32::from(r.error) + 2 * u32::from(r.halt_on_error);
    let registers = [r.a, r.b, r.c, r.iptr, r.wptr, flags].into_iter().fold(BEGIN, mixed);
    println!("{name} {steps} {}", checksum(registers, memory.bytes()));
}
