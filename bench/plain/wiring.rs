//! Wirings: as much of TOML as the examples and the benchmarks use. Holds are left out.

use super::net::End;
use super::scripts::{Sink, Source};

pub struct NodePlan {
    pub memory: usize,
    pub image: String,
}

pub struct Wiring {
    pub timeslice: u32,
    pub nodes: Vec<NodePlan>,
    pub wires: Vec<(End, End)>,
    pub sources: Vec<Source>,
    pub sinks: Vec<Sink>,
}

/// The table that is being read.
enum Table {
    Top { version: Option<u32>, timeslice: Option<u32> },
    Node { memory: Option<u32>, image: Option<String> },
    Wire { a: Option<End>, b: Option<End> },
    Source { end: Option<End>, messages: Option<Vec<Vec<u8>>> },
    Sink { end: Option<End>, capacity: Option<u32> },
}

impl Table {
    /// The table that a heading begins.
    fn headed(heading: &str) -> Option<Table> {
        match heading {
            "[[node]]" => Some(Table::Node { memory: None, image: None }),
            "[[wire]]" => Some(Table::Wire { a: None, b: None }),
            "[[source]]" => Some(Table::Source { end: None, messages: None }),
            "[[sink]]" => Some(Table::Sink { end: None, capacity: None }),
            _ => None,
        }
    }

    /// Sets a key that was not set before.
    fn set(&mut self, key: &str, value: &str) -> Option<()> {
        match (self, key) {
            (Table::Top { version, .. }, "version") => set(version, value.parse().ok()),
            (Table::Top { timeslice, .. }, "timeslice") => set(timeslice, value.parse().ok()),
            (Table::Node { memory, .. }, "memory") => set(memory, value.parse().ok()),
            (Table::Node { image, .. }, "image") => set(image, text(value)),
            (Table::Wire { a, .. }, "a") => set(a, end(value)),
            (Table::Wire { b, .. }, "b") => set(b, end(value)),
            (Table::Source { end: place, .. }, "end") => set(place, end(value)),
            (Table::Source { messages: place, .. }, "messages") => set(place, messages(value)),
            (Table::Sink { end: place, .. }, "end") => set(place, end(value)),
            (Table::Sink { capacity, .. }, "capacity") => set(capacity, value.parse().ok()),
            _ => None,
        }
    }

    /// Puts what the table told into the wiring.
    fn close(self, wiring: &mut Wiring) -> Option<()> {
        match self {
            Table::Top { version, timeslice } => {
                version.filter(|number| matches!(number, 1 | 2))?;
                wiring.timeslice = timeslice.unwrap_or(wiring.timeslice);
            }
            Table::Node { memory, image } => {
                wiring.nodes.push(NodePlan { memory: memory? as usize, image: image? });
            }
            Table::Wire { a, b } => wiring.wires.push((a?, b?)),
            Table::Source { end, messages } => wiring.sources.push(Source::new(end?, messages?)),
            Table::Sink { end, capacity } => wiring.sinks.push(Sink::new(end?, capacity? as usize)),
        }
        Some(())
    }
}

fn set<T>(place: &mut Option<T>, value: Option<T>) -> Option<()> {
    if place.is_some() {
        return None;
    }
    *place = value;
    place.as_ref().map(|_| ())
}

/// A text in quotes, without escapes.
fn text(value: &str) -> Option<String> {
    let inner = value.strip_prefix('"')?.strip_suffix('"')?;
    (!inner.contains(['"', '\\'])).then(|| inner.to_string())
}

fn end(value: &str) -> Option<End> {
    let inner = value.strip_prefix('[')?.strip_suffix(']')?;
    let (node, link) = inner.split_once(',')?;
    Some(End { node: node.trim().parse().ok()?, link: link.trim().parse().ok()? })
}

/// Messages in a list that is on one line.
fn messages(value: &str) -> Option<Vec<Vec<u8>>> {
    let inner = value.strip_prefix('[')?.strip_suffix(']')?;
    inner.split_terminator(',').map(|value| message(&text(value.trim())?)).collect()
}

/// The bytes of pairs of hexadecimal digits.
fn message(digits: &str) -> Option<Vec<u8>> {
    let value = |digit: u8| char::from(digit).to_digit(16);
    let pair = |pair: &[u8]| match pair {
        [high, low] => Some((value(*high)? * 16 + value(*low)?) as u8),
        _ => None,
    };
    let bytes: Option<Vec<_>> = digits.as_bytes().chunks(2).map(pair).collect();
    bytes.filter(|bytes| (1..=4_096).contains(&bytes.len()))
}

/// A line without its comment and without blanks around it.
fn bare(line: &str) -> &str {
    let mut is_quoted = false;
    let comment = line.find(|letter| {
        is_quoted ^= letter == '"';
        letter == '#' && !is_quoted
    });
    line[..comment.unwrap_or(line.len())].trim()
}

/// Reads a line into its table, or begins another table.
fn read_line(line: &str, table: &mut Table, wiring: &mut Wiring) -> Option<()> {
    if line.is_empty() {
        return Some(());
    }
    if line.starts_with('[') {
        return std::mem::replace(table, Table::headed(line)?).close(wiring);
    }
    let (key, value) = line.split_once('=')?;
    table.set(key.trim(), value.trim())
}

pub fn read_wiring(text: &str) -> Result<Wiring, String> {
    let mut wiring = Wiring { timeslice: 1_024, nodes: vec![], wires: vec![], sources: vec![], sinks: vec![] };
    let mut table = Table::Top { version: None, timeslice: None };
    for (line, number) in text.lines().zip(1..) {
        let read = read_line(bare(line), &mut table, &mut wiring);
        read.ok_or_else(|| format!("the wiring is wrong at line {number}"))?;
    }
    table.close(&mut wiring).ok_or("the wiring is wrong at its end")?;
    Ok(wiring)
}
