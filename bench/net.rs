//! The benchmarks of nets in plain, safe Rust, event by event: nodes in a ring that send messages on, and nodes in a
//! row between a source and a sink.

mod plain;

use plain::memory::Break;
use plain::net::{Act, End, Event, Net, StepFault};
use plain::processor::Processor;
use plain::programs::{PING, PONG, START};
use plain::scripts::{Sink, Source};
use plain::{checksum, mixed, BEGIN};

const MEMORY: usize = 16_384;
const WORKSPACE: u32 = 0x8000_1000;
const BUFFER: u32 = 0x8000_2000;

/// The channel words of the output of link 1 and of the input of link 2.
const ONWARD: u32 = 0x8000_0004;
const BACK: u32 = 0x8000_0018;

/// How many Runs a node does at most in one turn.
const SLICE: u32 = 64;

/// A row: how many nodes it has, how many messages its source has, and how many bytes each of these has.
const ROW: usize = 4;
const MESSAGES: u32 = 256;
const LENGTH: u32 = 64;

struct Ring {
    nodes: usize,
    length: u32,
}

fn ring(name: &str) -> Option<Ring> {
    Some(match name {
        "net-byte" => Ring { nodes: 2, length: 1 },
        "net-kilobyte" => Ring { nodes: 2, length: 1_024 },
        "net-ring" => Ring { nodes: 64, length: 4 },
        _ => return None,
    })
}

/// A processor with this code, which finds these words in its workspace.
fn processor(code: &[u8], words: [u32; 4]) -> Result<Processor, Break> {
    let mut p = Processor::new(MEMORY, 1_024);
    p.load(START, code);
    for (address, word) in (WORKSPACE..).step_by(4).zip(words) {
        p.load(address, &word.to_le_bytes());
    }
    p.add_process(WORKSPACE + 1, START)?;
    Ok(p)
}

/// One that waits for a message, and then sends it on.
fn passes_on(length: u32) -> Result<Processor, Break> {
    processor(&PONG, [BACK, ONWARD, BUFFER, length])
}

/// By turns one that sends on what it has, and then waits for the next, and one that waits first.
fn in_ring(number: usize, length: u32) -> Result<Processor, Break> {
    if number % 2 == 0 { processor(&PING, [ONWARD, BACK, BUFFER, length]) } else { passes_on(length) }
}

fn prepared(ring: &Ring) -> Result<Net, Break> {
    let processors: Result<Vec<_>, _> =
        (0..ring.nodes).map(|number| in_ring(number, ring.length)).collect();
    let wires: Vec<_> = (0..ring.nodes)
        .map(|node| (End { node, link: 1 }, End { node: (node + 1) % ring.nodes, link: 2 }))
        .collect();
    Ok(Net::new(processors?, &wires))
}

/// One event, if it is enabled: whether it was done.
#[inline]
fn tried(net: &mut Net, node: u8, act: Act) -> bool {
    !matches!(net.step(Event { node, act }), Err(StepFault::NotEnabled))
}

/// One node does what comes and what it can: how many events that was.
fn turn(net: &mut Net, node: u8) -> u64 {
    let mut done = 0;
    for act in [Act::Ack(1), Act::Data(2), Act::Take(2)] {
        done += u64::from(tried(net, node, act));
    }
    for _ in 0..SLICE {
        if !tried(net, node, Act::Run) {
            break;
        }
        done += 1;
    }
    done + u64::from(tried(net, node, Act::Send(1)))
}

/// Does `thousands` times 1,000 turns, one node after the other: how many events were done, and a checksum of them and
/// of the memories.
fn go_round(ring: &Ring, thousands: u64) -> Result<(u64, u32), Break> {
    let mut net = prepared(ring)?;
    let mut done = 0;
    for number in 0..thousands * 1_000 {
        done += turn(&mut net, (number % ring.nodes as u64) as u8);
    }
    Ok((done, sum_of(&net, done)))
}

fn sum_of(net: &Net, done: u64) -> u32 {
    let sum = net.processors().fold(mixed(BEGIN, done as u32), |sum, processor| checksum(sum, processor.bytes()));
    let messages = net.sources().iter().flat_map(Source::messages);
    let sum = messages.fold(sum, |sum, message| checksum(sum, message));
    net.sinks().iter().fold(sum, |sum, sink| checksum(sum, sink.bytes()))
}

/// A row, whose source feeds the first node, and whose sink drains the last one.
fn row() -> Result<Net, Break> {
    let processors: Result<Vec<_>, _> = (0..ROW).map(|_| passes_on(LENGTH)).collect();
    let wires: Vec<_> =
        (1..ROW).map(|node| (End { node: node - 1, link: 1 }, End { node, link: 2 })).collect();
    let message = |number| (number..number + LENGTH).map(|byte| byte as u8).collect();
    let source = Source::new(End { node: 0, link: 2 }, (0..MESSAGES).map(message).collect());
    let sink = Sink::new(End { node: ROW - 1, link: 1 }, (MESSAGES * LENGTH) as usize);
    Ok(Net::new(processors?, &wires).with_scripts(vec![source], vec![sink]))
}

/// The source, the nodes and the sink do what they can, again and again until nothing is left: how many events were
/// done.
fn pass_all(net: &mut Net) -> u64 {
    let (source, sink) = (ROW as u8, ROW as u8 + 1);
    let mut done = 0;
    loop {
        let before = done;
        for act in [Act::Ack(0), Act::Send(0)] {
            done += u64::from(tried(net, source, act));
        }
        for node in 0..source {
            done += turn(net, node);
        }
        for act in [Act::Data(0), Act::Take(0)] {
            done += u64::from(tried(net, sink, act));
        }
        if done == before {
            return done;
        }
    }
}

/// Does `rows` rows, one after the other: how many events were done, and a checksum of them and of the memories.
fn go_through(rows: u64) -> Result<(u64, u32), Break> {
    let mut all = (0, BEGIN);
    for _ in 0..rows {
        let mut net = row()?;
        let done = pass_all(&mut net);
        all = (all.0 + done, mixed(all.1, sum_of(&net, done)));
    }
    Ok(all)
}

fn main() {
    let (name, amount) = (plain::name(), u64::from(plain::amount()));
    let told = match name.as_str() {
        "net-pipeline" => go_through(amount),
        _ => go_round(&ring(&name).expect("the net is known"), amount),
    };
    let (done, sum) = told.expect("the processes fit");
    println!("{name} {done} {sum}");
}
