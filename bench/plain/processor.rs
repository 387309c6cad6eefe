//! The scheduler, internal channels, and the processor's half of the links. Alternatives are left out.

use super::code::{decode, Function, Instruction};
use super::cpu::{jumps, local, Next, Registers};
use super::memory::{Break, Marks, Memory, Span, ROOM};
use std::collections::{HashMap, VecDeque};

const NOT_PROCESS: u32 = 0x8000_0000;

/// The channel words of the links: those of the outputs from the first on, then those of the inputs.
const LINK_OUTPUTS: u32 = 0x8000_0000;
const LINK_INPUTS: u32 = 0x8000_0010;
const LINKS_END: u32 = 0x8000_0020;

/// The words below a workspace: saved Iptr, queue link, message pointer.
const IPTR: u32 = 1;
const LINK: u32 = 2;
const BUFFER: u32 = 3;

#[derive(Clone, Copy, Debug, PartialEq, Eq)]
pub enum Ran {
    Instruction,
    Dispatch,
    LinkOut(u8),
    LinkIn(u8),
    Halting,
    Idle,
    Halted,
}

#[derive(Clone, Copy, PartialEq, Eq)]
enum Priority {
    High,
    Low,
}

#[derive(Clone, Copy, PartialEq, Eq)]
enum Side {
    Input,
    Output,
}

/// What a process waits for.
#[derive(Clone, Copy)]
struct Waiting {
    side: Side,
    channel: u32,
    buffer: u32,
    length: u32,
}

/// A message that is pending at a link.
#[derive(Clone, Copy)]
pub struct Offer {
    process: u32,
    buffer: u32,
    pub length: u32,
}

#[derive(Clone, Copy)]
struct Suspended {
    registers: Registers,
    count: u32,
}

/// What a message operation asks for.
struct Request {
    side: Side,
    channel: u32,
    buffer: u32,
    length: u32,
    /// A word that is laid down at the workspace first.
    first: Option<u32>,
}

fn workspace_of(process: u32) -> u32 {
    process & !1
}

fn priority_of(process: u32) -> Priority {
    if process & 1 == 0 { Priority::High } else { Priority::Low }
}

fn require(holds: bool, fault: Break) -> Result<(), Break> {
    if holds { Ok(()) } else { Err(fault) }
}

pub struct Processor {
    memory: Memory,
    marks: Marks,
    registers: Registers,
    current: Option<Priority>,
    count: u32,
    interrupted: Option<Suspended>,
    high: VecDeque<u32>,
    low: VecDeque<u32>,
    waiting: HashMap<u32, Waiting>,
    outputs: [Option<Offer>; 4],
    inputs: [Option<Offer>; 4],
    noticed: [bool; 4],
    timeslice: u32,
    halted: bool,
}

impl Processor {
    pub fn new(size: usize, timeslice: u32) -> Processor {
        Processor {
            memory: Memory::new(size),
            marks: Marks::new(),
            registers: Registers::default(),
            current: None,
            count: 0,
            interrupted: None,
            high: VecDeque::with_capacity(ROOM),
            low: VecDeque::with_capacity(ROOM),
            waiting: HashMap::with_capacity(ROOM),
            outputs: [None; 4],
            inputs: [None; 4],
            noticed: [false; 4],
            timeslice,
            halted: false,
        }
    }

    pub fn load(&mut self, start: u32, bytes: &[u8]) {
        self.memory.load(start, bytes);
    }

    /// These bytes may be loaded, as long as there is no process.
    pub fn may_load(&self, span: Span) -> bool {
        self.memory.may_write(&self.marks, span).is_ok()
    }

    pub fn bytes(&self) -> &[u8] {
        self.memory.bytes()
    }

    pub fn add_process(&mut self, process: u32, iptr: u32) -> Result<(), Break> {
        self.admit(process)?;
        self.memory.set_saved_word(workspace_of(process), IPTR, iptr);
        self.enqueue(process);
        Ok(())
    }

    /// One step: an instruction or a dispatch.
    #[inline]
    pub fn run_one(&mut self) -> Result<Ran, Break> {
        if self.halted {
            return Ok(Ran::Halted);
        }
        match self.current {
            Some(Priority::Low) if !self.high.is_empty() => {
                self.interrupted = Some(Suspended { registers: self.registers, count: self.count });
                Ok(self.dispatch())
            }
            Some(priority) => self.instruction(priority),
            None => Ok(self.dispatch()),
        }
    }

    #[inline]
    fn instruction(&mut self, priority: Priority) -> Result<Ran, Break> {
        let instruction = decode(&self.memory, &self.marks, self.registers.iptr)?;
        if self.will_yield(priority, instruction)? {
            self.memory.may_deschedule(&self.marks, self.registers.wptr)?;
        }
        match local(&mut self.registers, &mut self.memory, &self.marks, instruction)? {
            Next::Go => self.count_one(priority),
            Next::Jumped => {
                self.count_one(priority);
                self.jumped(priority);
            }
            Next::Schedule(operation) => return self.schedule(priority, operation, instruction),
            Next::Halt => {
                self.count_one(priority);
                self.halted = true;
                return Ok(Ran::Halting);
            }
        }
        Ok(Ran::Instruction)
    }

    #[inline]
    fn count_one(&mut self, priority: Priority) {
        if priority == Priority::Low {
            self.count = self.timeslice.min(self.count + 1);
        }
    }

    /// The instruction ends the timeslice of a low process while another is queued.
    #[inline]
    fn will_yield(&self, priority: Priority, instruction: Instruction) -> Result<bool, Break> {
        if priority == Priority::High || self.count + 1 < self.timeslice || self.low.is_empty() {
            return Ok(false);
        }
        jumps(&self.registers, &self.memory, &self.marks, instruction)
    }

    fn jumped(&mut self, priority: Priority) {
        if priority == Priority::High || self.count < self.timeslice {
            return;
        }
        if self.low.is_empty() {
            self.count = 0;
            return;
        }
        let Registers { wptr, iptr, .. } = self.registers;
        self.deschedule(wptr, iptr);
        self.rest();
        self.enqueue(wptr | 1);
    }

    /// Saves the words of a workspace, which was checked, and Iptr among them.
    fn deschedule(&mut self, workspace: u32, iptr: u32) {
        self.marks.claim_saved(workspace);
        self.memory.set_saved_word(workspace, IPTR, iptr);
    }

    /// No process runs any more.
    fn rest(&mut self) {
        let Registers { error, halt_on_error, .. } = self.registers;
        self.registers = Registers { error, halt_on_error, ..Registers::default() };
        self.current = None;
        self.count = 0;
    }

    fn queue(&mut self, priority: Priority) -> &mut VecDeque<u32> {
        match priority {
            Priority::High => &mut self.high,
            Priority::Low => &mut self.low,
        }
    }

    fn enqueue(&mut self, process: u32) {
        let workspace = workspace_of(process);
        if let Some(last) = self.queue(priority_of(process)).back().copied() {
            self.memory.set_saved_word(last, LINK, workspace);
        }
        self.queue(priority_of(process)).push_back(workspace);
    }

    fn start_queued(&mut self, workspace: u32, priority: Priority) {
        let iptr = self.memory.saved_word(workspace, IPTR);
        self.marks.release_saved(workspace);
        let Registers { error, halt_on_error, .. } = self.registers;
        self.registers =
            Registers { iptr, wptr: workspace, error, halt_on_error, ..Registers::default() };
        self.current = Some(priority);
        self.count = 0;
    }

    fn dispatch(&mut self) -> Ran {
        if let Some(workspace) = self.high.pop_front() {
            self.start_queued(workspace, Priority::High);
        } else if let Some(kept) = self.interrupted.take() {
            self.registers = kept.registers;
            self.count = kept.count;
            self.current = Some(Priority::Low);
        } else if let Some(workspace) = self.low.pop_front() {
            self.start_queued(workspace, Priority::Low);
        } else {
            return Ran::Idle;
        }
        Ran::Dispatch
    }

    fn is_live(&self, workspace: u32) -> bool {
        self.marks.has_saved(workspace)
            || self.current.is_some() && self.registers.wptr == workspace
            || self.interrupted.is_some_and(|kept| kept.registers.wptr == workspace)
    }

    fn has_room(&self) -> bool {
        let unqueued = usize::from(self.current.is_some()) + usize::from(self.interrupted.is_some());
        let pending = self.outputs.iter().chain(&self.inputs).flatten().count();
        self.high.len() + self.low.len() + self.waiting.len() + pending + unqueued < ROOM
    }

    fn admit(&mut self, process: u32) -> Result<(), Break> {
        let workspace = workspace_of(process);
        require(workspace % 4 == 0, Break::Unaligned)?;
        require(!self.is_live(workspace), Break::AlreadyLive)?;
        require(self.has_room(), Break::TooManyProcesses)?;
        self.memory.may_deschedule(&self.marks, workspace)?;
        self.marks.claim_saved(workspace);
        Ok(())
    }

    /// An operation of the scheduler. A break leaves all as it was.
    fn schedule(
        &mut self,
        priority: Priority,
        operation: u32,
        instruction: Instruction,
    ) -> Result<Ran, Break> {
        debug_assert!(instruction.function == Function::Opr);
        let next = self.registers.iptr.wrapping_add(u32::from(instruction.length));
        let r = self.registers;
        match operation {
            0x0d => {
                require(r.a % 4 == 0, Break::Unaligned)?;
                let process = r.a | self.bit(priority);
                self.admit(process)?;
                self.memory.set_saved_word(r.a, IPTR, next.wrapping_add(r.b));
                self.enqueue(process);
                self.go(priority, Registers { a: r.c, b: r.c, iptr: next, ..r });
            }
            0x03 => self.end()?,
            0x39 => {
                self.admit(r.a)?;
                self.enqueue(r.a);
                self.go(priority, Registers { a: r.b, b: r.c, iptr: next, ..r });
            }
            0x15 => self.stop(next)?,
            0x55 if r.error => self.stop(next)?,
            0x55 => self.go(priority, Registers { iptr: next, ..r }),
            0x1e => {
                let a = self.bit(priority);
                self.go(priority, Registers { a, b: r.a, c: r.b, iptr: next, ..r });
            }
            0x07 => return self.communicate_from_stack(priority, Side::Input, next),
            0x0b => return self.communicate_from_stack(priority, Side::Output, next),
            0x0e => return self.send_from_workspace(priority, 1, next),
            0x0f => return self.send_from_workspace(priority, 4, next),
            _ => return Err(Break::NoSuchOperation),
        }
        Ok(Ran::Instruction)
    }

    fn bit(&self, priority: Priority) -> u32 {
        u32::from(priority == Priority::Low)
    }

    fn go(&mut self, priority: Priority, registers: Registers) {
        self.registers = registers;
        self.count_one(priority);
    }

    fn stop(&mut self, next: u32) -> Result<(), Break> {
        let word = self.registers.wptr.wrapping_sub(4 * IPTR);
        self.memory.write_word(&self.marks, word, next)?;
        self.rest();
        Ok(())
    }

    fn end(&mut self) -> Result<(), Break> {
        let r = self.registers;
        let iptr = self.memory.read_word(&self.marks, r.a)?;
        let place = self.memory.writable(&self.marks, r.a.wrapping_add(4))?;
        let count = self.memory.get(place);
        if count != 1 {
            self.memory.put(place, count.wrapping_sub(1));
            self.rest();
            return Ok(());
        }
        require(r.a == r.wptr || !self.is_live(r.a), Break::AlreadyLive)?;
        self.memory.put(place, 0);
        self.registers = Registers { a: 0, b: 0, c: 0, iptr, wptr: r.a, ..r };
        Ok(())
    }

    fn communicate_from_stack(&mut self, priority: Priority, side: Side, next: u32) -> Result<Ran, Break> {
        let r = self.registers;
        let request = Request { side, channel: r.b, buffer: r.c, length: r.a, first: None };
        self.communicate(priority, request, next)
    }

    fn send_from_workspace(&mut self, priority: Priority, length: u32, next: u32) -> Result<Ran, Break> {
        let r = self.registers;
        self.memory.writable(&self.marks, r.wptr)?;
        let request =
            Request { side: Side::Output, channel: r.b, buffer: r.wptr, length, first: Some(r.a) };
        self.communicate(priority, request, next)
    }

    /// A process asks for a message on a channel, or offers one.
    fn communicate(&mut self, priority: Priority, request: Request, next: u32) -> Result<Ran, Break> {
        if (LINK_OUTPUTS..LINKS_END).contains(&request.channel) {
            return self.wait_on_link(priority, request, next);
        }
        self.communicate_inside(priority, request, next)?;
        Ok(Ran::Instruction)
    }

    /// The same on an internal channel: the process waits for its partner, or the two meet.
    fn communicate_inside(&mut self, priority: Priority, request: Request, next: u32) -> Result<(), Break> {
        let found = self.memory.take_word(&self.marks, request.channel)?;
        let partner = self.waiting.get(&found).copied();
        match partner {
            _ if found == NOT_PROCESS => self.wait(priority, request, next),
            Some(waiting) if waiting.side != request.side && waiting.channel == request.channel => {
                self.meet(priority, request, found, waiting, next)
            }
            _ => Err(Break::ChannelMisuse),
        }
    }

    /// The link of a channel word, for this side of a message.
    fn link_of(side: Side, channel: u32) -> Result<u8, Break> {
        require(channel % 4 == 0, Break::Unaligned)?;
        let first = if side == Side::Input { LINK_INPUTS } else { LINK_OUTPUTS };
        let link = channel.wrapping_sub(first) / 4;
        require(link < 4, Break::WrongEnd)?;
        Ok(link as u8)
    }

    /// The message of a process is pending at a link from now on, and its buffer is claimed.
    fn wait_on_link(&mut self, priority: Priority, request: Request, next: u32) -> Result<Ran, Break> {
        let Request { side, channel, buffer, length, first } = request;
        let number = Self::link_of(side, channel)?;
        let link = usize::from(number);
        require(length != 0, Break::ZeroLength)?;
        let pending = if side == Side::Input { self.inputs[link] } else { self.outputs[link] };
        require(pending.is_none(), Break::LinkBusy)?;
        let wptr = self.registers.wptr;
        self.memory.may_deschedule(&self.marks, wptr)?;
        let span = Span { start: buffer, size: length };
        match side {
            Side::Input => self.memory.may_write(&self.marks, span)?,
            Side::Output => self.memory.may_read(&self.marks, span)?,
        }
        require(!span.overlaps(Span::below(wptr)), Break::SavedWord)?;
        if let Some(word) = first {
            self.memory.write_word(&self.marks, wptr, word)?;
        }
        self.deschedule(wptr, next);
        let offer = Offer { process: wptr | self.bit(priority), buffer, length };
        self.rest();
        Ok(match side {
            Side::Input => {
                self.marks.claim_in(link, span);
                self.inputs[link] = Some(offer);
                self.noticed[link] = false;
                Ran::LinkIn(number)
            }
            Side::Output => {
                self.marks.claim_out(link, span);
                self.outputs[link] = Some(offer);
                Ran::LinkOut(number)
            }
        })
    }

    #[inline]
    pub fn pending_out(&self, link: u8) -> Option<Offer> {
        self.outputs.get(usize::from(link)).copied().flatten()
    }

    #[inline]
    pub fn pending_in(&self, link: u8) -> Option<Offer> {
        self.inputs.get(usize::from(link)).copied().flatten()
    }

    /// Byte `at` of a pending output.
    #[inline]
    pub fn out_byte(&self, offer: Offer, at: u32) -> u8 {
        self.memory.byte(offer.buffer.wrapping_add(at))
    }

    /// Byte `at` of a pending input is set.
    #[inline]
    pub fn in_byte(&mut self, offer: Offer, at: u32, byte: u8) {
        self.memory.set_byte(offer.buffer.wrapping_add(at), byte);
    }

    /// The bytes of a pending message.
    pub fn message(&self, offer: Offer) -> &[u8] {
        self.memory.span(Span { start: offer.buffer, size: offer.length })
    }

    /// Some of these bytes are in the buffer of a pending link input.
    pub fn hides(&self, span: Span) -> bool {
        self.marks.hides(span)
    }

    pub fn is_halted(&self) -> bool {
        self.halted
    }

    /// There is no step.
    pub fn is_at_rest(&self) -> bool {
        let is_idle = self.current.is_none() && self.interrupted.is_none();
        self.halted || is_idle && self.high.is_empty() && self.low.is_empty()
    }

    pub fn notice(&mut self, link: u8) {
        self.noticed[usize::from(link)] = true;
    }

    pub fn finish_out(&mut self, link: u8) {
        if let Some(offer) = self.outputs[usize::from(link)].take() {
            self.marks.release_out(usize::from(link));
            self.enqueue(offer.process);
        }
    }

    pub fn finish_in(&mut self, link: u8) {
        if let Some(offer) = self.inputs[usize::from(link)].take() {
            self.marks.release_in(usize::from(link));
            self.enqueue(offer.process);
        }
    }

    fn wait(&mut self, priority: Priority, request: Request, next: u32) -> Result<(), Break> {
        let wptr = self.registers.wptr;
        let Request { side, channel, buffer, length, first } = request;
        self.memory.may_deschedule(&self.marks, wptr)?;
        let saved = Span::below(wptr);
        let span = Span { start: buffer, size: length };
        require(!Span { start: channel, size: 4 }.overlaps(saved), Break::SavedWord)?;
        match side {
            Side::Input => self.memory.may_write(&self.marks, span)?,
            Side::Output => self.memory.may_read(&self.marks, span)?,
        }
        require(!span.overlaps(saved), Break::SavedWord)?;
        let process = wptr | self.bit(priority);
        if let Some(word) = first {
            self.memory.write_word(&self.marks, wptr, word)?;
        }
        self.memory.write_word(&self.marks, channel, process)?;
        self.deschedule(wptr, next);
        self.memory.set_saved_word(wptr, BUFFER, buffer);
        self.waiting.insert(process, Waiting { side, channel, buffer, length });
        self.rest();
        Ok(())
    }

    fn meet(
        &mut self,
        priority: Priority,
        request: Request,
        partner: u32,
        waiting: Waiting,
        next: u32,
    ) -> Result<(), Break> {
        let r = self.registers;
        require(waiting.length == request.length, Break::LengthMismatch)?;
        let size = request.length;
        let own = Span { start: request.buffer, size };
        let other = Span { start: waiting.buffer, size };
        let (from, to) = match request.side {
            Side::Input => {
                self.memory.may_write(&self.marks, own)?;
                self.memory.may_read(&self.marks, other)?;
                (other, own)
            }
            Side::Output => {
                self.memory.may_read(&self.marks, own)?;
                self.memory.may_write(&self.marks, other)?;
                (own, other)
            }
        };
        if let Some(word) = request.first {
            self.memory.write_word(&self.marks, r.wptr, word)?;
        }
        self.memory.write_word(&self.marks, request.channel, NOT_PROCESS)?;
        self.memory.copy(from.start, to.start, size);
        self.waiting.remove(&partner);
        self.enqueue(partner);
        self.go(priority, Registers { a: r.c, b: r.c, iptr: next, ..r });
        Ok(())
    }
}
