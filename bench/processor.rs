//! The benchmarks of a whole processor in plain, safe Rust: the loop of `local`, alone and among 500 other processes;
//! processes that do nothing but yield; two processes that send a message back and forth, alone and among others.

mod plain;

use plain::memory::Break;
use plain::processor::{Processor, Ran};
use plain::programs::{IDLE, LOOP, PING, PONG, SIZE, START, WAIT};
use plain::{checksum, mixed, BEGIN};

const IDLE_CODE: u32 = 0x8000_0100;
const WAIT_CODE: u32 = 0x8000_0110;
const PING_CODE: u32 = 0x8000_0120;
const PONG_CODE: u32 = 0x8000_0140;
const PING_BUFFER: u32 = 0x8000_1000;
const PONG_BUFFER: u32 = 0x8000_1400;
const FIRST_CHANNEL: u32 = 0x8000_1800;
const SECOND_CHANNEL: u32 = 0x8000_1804;
const NOT_PROCESS: u32 = 0x8000_0000;
const WORKSPACE: u32 = 0x8000_2000;
const PARTNER: u32 = 0x8000_2200;
const CROWD: u32 = 0x8000_4000;

/// Which other processes there are.
enum Others {
    Nobody,
    Queued(u32),
    Waiting(u32),
}

enum Job {
    Loop(Others),
    Switch(u32),
    Message(u32, Others),
}

fn job(name: &str) -> Option<Job> {
    Some(match name {
        "processor" => Job::Loop(Others::Nobody),
        "processor-queued" => Job::Loop(Others::Queued(500)),
        "processor-waiting" => Job::Loop(Others::Waiting(500)),
        "switch" => Job::Switch(2),
        "switch-500" => Job::Switch(500),
        "message" => Job::Message(4, Others::Nobody),
        "message-500" => Job::Message(4, Others::Waiting(498)),
        "message-1024" => Job::Message(1_024, Others::Nobody),
        "message-1024-500" => Job::Message(1_024, Others::Waiting(498)),
        _ => return None,
    })
}

fn crowd(p: &mut Processor, count: u32, iptr: u32) -> Result<(), Break> {
    (0..count).try_for_each(|number| p.add_process(CROWD + 64 * number + 1, iptr))
}

/// Adds the others, and lets those that wait come so far.
fn add_others(p: &mut Processor, others: &Others) -> Result<(), Break> {
    match *others {
        Others::Nobody => Ok(()),
        Others::Queued(count) => crowd(p, count, IDLE_CODE),
        Others::Waiting(count) => {
            crowd(p, count, WAIT_CODE)?;
            run(p, 7 * u64::from(count))?;
            Ok(())
        }
    }
}

fn put_words(p: &mut Processor, start: u32, words: &[u32]) {
    for (address, word) in (start..).step_by(4).zip(words) {
        p.load(address, &word.to_le_bytes());
    }
}

fn load(p: &mut Processor, length: u32) {
    p.load(START, &LOOP);
    p.load(IDLE_CODE, &IDLE);
    p.load(WAIT_CODE, &WAIT);
    p.load(PING_CODE, &PING);
    p.load(PONG_CODE, &PONG);
    put_words(p, FIRST_CHANNEL, &[NOT_PROCESS, NOT_PROCESS]);
    if length > 0 {
        put_words(p, WORKSPACE, &[FIRST_CHANNEL, SECOND_CHANNEL, PING_BUFFER, length]);
        put_words(p, PARTNER, &[FIRST_CHANNEL, SECOND_CHANNEL, PONG_BUFFER, length]);
    }
}

fn prepared(job: &Job) -> Result<Processor, Break> {
    let timeslice = if let Job::Switch(_) = job { 1 } else { 1_024 };
    let mut p = Processor::new(SIZE, timeslice);
    match job {
        Job::Loop(others) => {
            load(&mut p, 0);
            add_others(&mut p, others)?;
            // A high process, so that those that are queued stay there.
            p.add_process(WORKSPACE, START)?;
        }
        Job::Switch(count) => {
            load(&mut p, 0);
            crowd(&mut p, *count, IDLE_CODE)?;
        }
        Job::Message(length, others) => {
            load(&mut p, *length);
            add_others(&mut p, others)?;
            p.add_process(WORKSPACE + 1, PING_CODE)?;
            p.add_process(PARTNER + 1, PONG_CODE)?;
        }
    }
    Ok(p)
}

/// Does this number of steps, and answers how many processes were dispatched.
#[inline(never)]
fn run(p: &mut Processor, steps: u64) -> Result<u32, Break> {
    let mut dispatches = 0u32;
    for _ in 0..steps {
        if p.run_one()? == Ran::Dispatch {
            dispatches = dispatches.wrapping_add(1);
        }
    }
    Ok(dispatches)
}

fn main() {
    let name = plain::name();
    let steps = u64::from(plain::amount()) * 1_000;
    let job = job(&name).expect("the job is known");
    let mut p = prepared(&job).expect("the processes fit");
    let dispatches = run(&mut p, steps).expect("the programs break no rule");
    println!("{name} {steps} {}", checksum(mixed(BEGIN, dispatches), p.bytes()));
}
