//! The benchmarks of rounds and of free workers in plain, safe Rust, by one thread and round by round: nodes in a ring,
//! of which all compute, nearly all wait, all send and receive until they stop, or all wait for ever.

mod plain;

use plain::memory::Break;
use plain::net::{End, Net, Report};
use plain::processor::Processor;
use plain::programs::{COUNTED_PING, COUNTED_PONG, LOOP, PING, PONG, START};
use plain::{checksum, mixed, BEGIN};

const NODES: usize = 64;
const MEMORY: usize = 16_384;
const WORKSPACE: u32 = 0x8000_1000;
const BUFFER: u32 = 0x8000_2000;

/// The channel words of the output of link 1 and of the input of link 2.
const ONWARD: u32 = 0x8000_0004;
const BACK: u32 = 0x8000_0018;

/// How many bytes a message has.
const LENGTH: u32 = 4;

/// How many Runs a node does at most until what was reported is dropped.
const RUNS: u32 = 262_144;

/// What the nodes do.
#[derive(Clone, Copy)]
enum Load {
    /// All of them compute.
    Computing,
    /// One message goes round, so that nearly all of them wait.
    Waiting,
    /// Each sends and receives this number of messages, and stops.
    Exchanging(u32),
}

/// The load of a benchmark, and its slice.
fn job(name: &str, thousands: u32) -> Option<(Load, u32)> {
    Some(match name {
        "rounds-1024" | "rounds-1024-2" | "rounds-1024-4" => (Load::Computing, 1_024),
        "free-compute" | "free-compute-2" | "free-compute-4" => (Load::Computing, 1_024),
        "rounds-65536" | "rounds-65536-2" | "rounds-65536-4" => (Load::Computing, 65_536),
        "rounds-idle" => (Load::Waiting, 1_024),
        "run-ring" | "free-ring" | "free-ring-2" | "free-ring-4" => {
            (Load::Exchanging(thousands * 100), 64)
        }
        _ => return None,
    })
}

/// The code of a node, and the words that it finds in its workspace.
fn program(number: usize, load: Load) -> (&'static [u8], Vec<u32>) {
    match load {
        Load::Computing => (&LOOP, vec![]),
        Load::Waiting if number == 0 => (&PING, vec![ONWARD, BACK, BUFFER, LENGTH]),
        Load::Waiting => (&PONG, vec![BACK, ONWARD, BUFFER, LENGTH]),
        Load::Exchanging(count) if number % 2 == 0 => {
            (&COUNTED_PING, vec![ONWARD, BACK, BUFFER, LENGTH, 0, count])
        }
        Load::Exchanging(count) => (&COUNTED_PONG, vec![BACK, ONWARD, BUFFER, LENGTH, 0, count]),
    }
}

fn processor((code, words): (&[u8], Vec<u32>)) -> Result<Processor, Break> {
    let mut p = Processor::new(MEMORY, 1_024);
    p.load(START, code);
    for (address, word) in (WORKSPACE..).step_by(4).zip(words) {
        p.load(address, &word.to_le_bytes());
    }
    p.add_process(WORKSPACE + 1, START)?;
    Ok(p)
}

/// `nodes` nodes in a ring, each with its program.
fn prepared(nodes: usize, program: impl Fn(usize) -> (&'static [u8], Vec<u32>)) -> Result<Net, Break> {
    let processors: Result<Vec<_>, _> = (0..nodes).map(|number| processor(program(number))).collect();
    let wires: Vec<_> = (0..nodes)
        .map(|node| (End { node, link: 1 }, End { node: (node + 1) % nodes, link: 2 }))
        .collect();
    Ok(Net::new(processors?, &wires))
}

/// How many nodes that wait for ever there are in a benchmark of rounds that find nothing to do.
fn resting(name: &str) -> Option<usize> {
    match name {
        "turn-idle" => Some(1),
        "turn-idle-2" => Some(2),
        "turn-idle-64" => Some(64),
        _ => None,
    }
}

/// Does this number of rounds, of which all but the first find nothing to do.
fn rest(name: &str, nodes: usize, rounds: u32) {
    let waits = |_| (&PONG[..], vec![BACK, ONWARD, BUFFER, LENGTH]);
    let mut net = prepared(nodes, waits).expect("the processes fit");
    let mut report = Report::default();
    for _ in 0..rounds {
        net.rounds(1, 64, &mut report);
    }
    let sum = mixed(mixed(BEGIN, rounds), report.events.len() as u32);
    println!("{name} {rounds} {sum}");
}

fn main() {
    let name = plain::name();
    let thousands = plain::amount();
    if let Some(nodes) = resting(&name) {
        return rest(&name, nodes, thousands * 1_000);
    }
    let (load, slice) = job(&name, thousands).expect("the benchmark is known");
    let slice = slice.min(thousands * 1_000);
    let mut net = prepared(NODES, |number| program(number, load)).expect("the processes fit");
    let mut left = match load {
        Load::Computing => (thousands * 1_000).div_ceil(slice),
        Load::Waiting => thousands * 100,
        Load::Exchanging(_) => u32::MAX,
    };
    let mut done = 0;
    while left > 0 {
        let count = left.min(RUNS / slice);
        let mut report = Report::default();
        net.rounds(count, slice, &mut report);
        if report.events.is_empty() {
            break;
        }
        done += report.events.len();
        left -= count;
    }
    let begin = mixed(BEGIN, done as u32);
    let sum = net.processors().fold(begin, |sum, processor| checksum(sum, processor.bytes()));
    println!("{name} {done} {sum}");
}
