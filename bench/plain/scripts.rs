//! Scripted ends, which are at a link of a node: a source offers messages to it, one after another, and a sink keeps
//! what it sends. Both have the link 0 alone.

use super::net::{silently, Act, Answer, Arrival, Emitted, End, Mark, Packet, StepFault};

pub struct Source {
    messages: Vec<Vec<u8>>,
    done: usize,
    sent: usize,
    acked: usize,
    acknowledged: bool,
    far: End,
}

impl Source {
    pub fn new(far: End, messages: Vec<Vec<u8>>) -> Source {
        Source { messages, done: 0, sent: 0, acked: 0, acknowledged: false, far }
    }

    pub fn far(&self) -> End {
        self.far
    }

    pub fn messages(&self) -> &[Vec<u8>] {
        &self.messages
    }

    /// How many messages are over.
    pub fn done(&self) -> usize {
        self.done
    }

    /// A packet comes to its end. A byte lies there for ever.
    #[inline]
    pub fn put(&mut self, packet: Packet) {
        self.acknowledged |= matches!(packet, Packet::Ack);
    }

    #[inline]
    pub fn step(&mut self, act: Act) -> Answer {
        match act {
            Act::Send(0) => self.send(),
            Act::Ack(0) => self.ack(),
            _ => Err(StepFault::NotEnabled),
        }
    }

    fn send(&mut self) -> Answer {
        let message = self.messages.get(self.done).ok_or(StepFault::NotEnabled)?;
        if self.acked != self.sent {
            return Err(StepFault::NotEnabled);
        }
        let byte = *message.get(self.sent).ok_or(StepFault::NotEnabled)?;
        self.sent += 1;
        let packet = Packet::Data(Arrival { byte, last: self.sent == message.len() });
        Ok(Emitted { packet: Some((0, packet)), mark: Mark::Nothing })
    }

    fn ack(&mut self) -> Answer {
        let message = self.messages.get(self.done).ok_or(StepFault::NotEnabled)?;
        if !self.acknowledged || self.sent != self.acked + 1 {
            return Err(StepFault::NotEnabled);
        }
        self.acknowledged = false;
        self.acked += 1;
        if self.acked == message.len() {
            self.sent = 0;
            self.acked = 0;
            self.done += 1;
        }
        silently(Mark::Nothing)
    }

    pub fn is_quiet(&self) -> bool {
        self.done == self.messages.len() || self.sent > self.acked && !self.acknowledged
    }
}

pub struct Sink {
    capacity: usize,
    /// All bytes that it holds, one message after another.
    bytes: Vec<u8>,
    /// Where each whole message ends.
    ends: Vec<usize>,
    arrived: Option<Arrival>,
    carried: Option<Arrival>,
    far: End,
}

impl Sink {
    pub fn new(far: End, capacity: usize) -> Sink {
        Sink { capacity, bytes: Vec::with_capacity(capacity), ends: vec![], arrived: None, carried: None, far }
    }

    pub fn far(&self) -> End {
        self.far
    }

    pub fn capacity(&self) -> usize {
        self.capacity
    }

    pub fn bytes(&self) -> &[u8] {
        &self.bytes
    }

    /// The whole messages.
    pub fn kept(&self) -> impl Iterator<Item = &[u8]> {
        let starts = std::iter::once(0).chain(self.ends.iter().copied());
        self.ends.iter().zip(starts).map(|(end, start)| &self.bytes[start..*end])
    }

    /// The last message that is whole.
    pub fn last(&self) -> &[u8] {
        let start = self.ends.iter().rev().nth(1).copied().unwrap_or(0);
        &self.bytes[start..]
    }

    /// A packet comes to its end. An acknowledge lies there for ever.
    #[inline]
    pub fn put(&mut self, packet: Packet) {
        if let Packet::Data(arrival) = packet {
            self.carried = Some(arrival);
        }
    }

    #[inline]
    pub fn step(&mut self, act: Act) -> Answer {
        match act {
            Act::Data(0) => self.data(),
            Act::Take(0) => self.take(),
            _ => Err(StepFault::NotEnabled),
        }
    }

    fn data(&mut self) -> Answer {
        if self.carried.is_none() || self.arrived.is_some() {
            return Err(StepFault::NotEnabled);
        }
        self.arrived = self.carried.take();
        silently(Mark::Nothing)
    }

    fn has_room(&self) -> bool {
        self.bytes.len() < self.capacity
    }

    fn take(&mut self) -> Answer {
        let Arrival { byte, last } = self.arrived.ok_or(StepFault::NotEnabled)?;
        if !self.has_room() {
            return Err(StepFault::NotEnabled);
        }
        self.arrived = None;
        self.bytes.push(byte);
        let mut mark = Mark::Nothing;
        if last {
            self.ends.push(self.bytes.len());
            mark = Mark::Completed(0);
        }
        Ok(Emitted { packet: Some((0, Packet::Ack)), mark })
    }

    pub fn is_quiet(&self) -> bool {
        let takes = self.arrived.is_some() && self.has_room();
        !takes && (self.carried.is_none() || self.arrived.is_some())
    }
}
