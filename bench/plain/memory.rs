//! The bytes of a node, who claims them, and the checks of a touch.

pub const MOST_NEG: u32 = 0x8000_0000;

/// How many bytes from the least address on are closed to programs.
const CLOSED: usize = 0x48;

/// How many slots the words of the address space share.
const SLOTS: usize = 65_536;

/// How many workspaces there is room for.
pub const ROOM: usize = 512;

#[derive(Clone, Copy, Debug, PartialEq, Eq)]
pub enum Break {
    BadAddress,
    Reserved,
    Unaligned,
    NoSuchOperation,
    LongPrefix,
    InTransit,
    SavedWord,
    LengthMismatch,
    LinkBusy,
    WrongEnd,
    ChannelMisuse,
    ZeroLength,
    AlreadyLive,
    TooManyProcesses,
}

/// Some bytes in a row.
#[derive(Clone, Copy)]
pub struct Span {
    pub start: u32,
    pub size: u32,
}

impl Span {
    /// The three words below a workspace.
    pub fn below(workspace: u32) -> Span {
        Span { start: workspace.wrapping_sub(12), size: 12 }
    }

    fn bounds(self) -> (u64, u64) {
        let start = u64::from(self.start);
        (start, start + u64::from(self.size))
    }

    pub fn overlaps(self, other: Span) -> bool {
        let ((start, end), (low, high)) = (self.bounds(), other.bounds());
        self.size > 0 && other.size > 0 && start < high && low < end
    }
}

/// The buffers that the inputs, or the outputs, of the links claim, after bounds of them all.
struct Buffers {
    claimed: [Option<Span>; 4],
    low: u64,
    high: u64,
}

impl Buffers {
    fn new() -> Buffers {
        Buffers { claimed: [None; 4], low: u64::MAX, high: 0 }
    }

    fn set(&mut self, link: usize, claim: Option<Span>) {
        self.claimed[link] = claim;
        let bounds = || self.claimed.iter().flatten().map(|span| span.bounds());
        (self.low, self.high) = (
            bounds().map(|(start, _)| start).min().unwrap_or(u64::MAX),
            bounds().map(|(_, end)| end).max().unwrap_or(0),
        );
    }

    #[inline]
    fn overlap(&self, span: Span) -> bool {
        let (start, end) = span.bounds();
        start < self.high && self.low < end && self.any_overlaps(span)
    }

    #[inline(never)]
    fn any_overlaps(&self, span: Span) -> bool {
        self.claimed.iter().flatten().any(|buffer| buffer.overlaps(span))
    }
}

#[inline]
fn slot(address: u32) -> usize {
    (address / 4) as usize % SLOTS
}

fn table() -> Box<[u16; SLOTS]> {
    vec![0; SLOTS].into_boxed_slice().try_into().expect("the size is the same")
}

/// The workspaces whose words are saved, with counts of their words by slot, and a place to look first by slot.
struct Saved {
    workspaces: Vec<u32>,
    counts: Box<[u16; SLOTS]>,
    places: Box<[u16; SLOTS]>,
}

impl Saved {
    fn new() -> Saved {
        Saved { workspaces: Vec::with_capacity(ROOM), counts: table(), places: table() }
    }

    fn place(&self, workspace: u32) -> Option<usize> {
        let place = usize::from(self.places[slot(workspace)]);
        if self.workspaces.get(place) == Some(&workspace) {
            return Some(place);
        }
        if self.counts[slot(workspace.wrapping_sub(4))] == 0 {
            return None;
        }
        self.workspaces.iter().position(|other| *other == workspace)
    }

    fn insert(&mut self, workspace: u32) {
        for below in [12, 8, 4] {
            self.counts[slot(workspace.wrapping_sub(below))] += 1;
        }
        self.places[slot(workspace)] = self.workspaces.len() as u16;
        self.workspaces.push(workspace);
    }

    fn remove(&mut self, workspace: u32) {
        let Some(place) = self.place(workspace) else { return };
        self.workspaces.swap_remove(place);
        for below in [12, 8, 4] {
            self.counts[slot(workspace.wrapping_sub(below))] -= 1;
        }
        if let Some(moved) = self.workspaces.get(place) {
            self.places[slot(*moved)] = place as u16;
        }
    }

    /// Whether a saved word lies at the word of an address, of which the span touches some bytes.
    #[inline]
    fn overlap_in_word(&self, span: Span) -> bool {
        self.counts[slot(span.start)] != 0 && self.any_overlaps(span)
    }

    fn overlap(&self, span: Span) -> bool {
        let (start, end) = span.bounds();
        let (first, past) = (start / 4, end.div_ceil(4));
        let few = past - first <= 256;
        let empty = |word: u64| self.counts[word as usize % SLOTS] == 0;
        !(few && (first..past).all(empty)) && self.any_overlaps(span)
    }

    #[inline(never)]
    fn any_overlaps(&self, span: Span) -> bool {
        self.workspaces.iter().any(|workspace| Span::below(*workspace).overlaps(span))
    }
}

/// The claims on a memory.
pub struct Marks {
    inputs: Buffers,
    outputs: Buffers,
    saved: Saved,
}

impl Marks {
    pub fn new() -> Marks {
        Marks { inputs: Buffers::new(), outputs: Buffers::new(), saved: Saved::new() }
    }

    pub fn has_saved(&self, workspace: u32) -> bool {
        self.saved.place(workspace).is_some()
    }

    pub fn claim_saved(&mut self, workspace: u32) {
        self.saved.insert(workspace);
    }

    pub fn release_saved(&mut self, workspace: u32) {
        self.saved.remove(workspace);
    }

    pub fn claim_in(&mut self, link: usize, span: Span) {
        self.inputs.set(link, Some(span));
    }

    pub fn claim_out(&mut self, link: usize, span: Span) {
        self.outputs.set(link, Some(span));
    }

    pub fn release_in(&mut self, link: usize) {
        self.inputs.set(link, None);
    }

    pub fn release_out(&mut self, link: usize) {
        self.outputs.set(link, None);
    }

    /// Some of these bytes are in the buffer of an input.
    pub fn hides(&self, span: Span) -> bool {
        self.inputs.overlap(span)
    }

    /// The claims let the bytes of a span be read: some bytes of one word.
    #[inline]
    fn check_read_in_word(&self, span: Span) -> Result<(), Break> {
        if self.inputs.overlap(span) {
            return Err(Break::InTransit);
        }
        if self.saved.overlap_in_word(span) {
            return Err(Break::SavedWord);
        }
        Ok(())
    }

    /// The same for a write.
    #[inline]
    fn check_write_in_word(&self, span: Span) -> Result<(), Break> {
        if self.outputs.overlap(span) {
            return Err(Break::InTransit);
        }
        self.check_read_in_word(span)
    }

    fn check_read(&self, span: Span) -> Result<(), Break> {
        if self.inputs.overlap(span) {
            return Err(Break::InTransit);
        }
        if self.saved.overlap(span) {
            return Err(Break::SavedWord);
        }
        Ok(())
    }

    fn check_write(&self, span: Span) -> Result<(), Break> {
        if self.outputs.overlap(span) {
            return Err(Break::InTransit);
        }
        self.check_read(span)
    }
}

pub struct Memory {
    bytes: Vec<u8>,
}

impl Memory {
    pub fn new(size: usize) -> Memory {
        Memory { bytes: vec![0; size] }
    }

    pub fn bytes(&self) -> &[u8] {
        &self.bytes
    }

    /// The place of a byte, where programs may use it.
    #[inline]
    fn place(&self, address: u32) -> Result<usize, Break> {
        let place = address.wrapping_sub(MOST_NEG) as usize;
        if place >= self.bytes.len() {
            return Err(Break::BadAddress);
        }
        if place < CLOSED {
            return Err(Break::Reserved);
        }
        Ok(place)
    }

    /// The place of a word, where programs may use it.
    #[inline]
    fn word_place(&self, address: u32) -> Result<usize, Break> {
        if address % 4 != 0 {
            return Err(Break::Unaligned);
        }
        self.place(address)
    }

    /// The place of some bytes, where programs may use them. There is one at least.
    fn span_place(&self, span: Span) -> Result<usize, Break> {
        let place = span.start.wrapping_sub(MOST_NEG) as usize;
        if place + span.size as usize > self.bytes.len() {
            return Err(Break::BadAddress);
        }
        if place < CLOSED {
            return Err(Break::Reserved);
        }
        Ok(place)
    }

    #[inline]
    fn word(&self, place: usize) -> u32 {
        let bytes = &self.bytes[place..place + 4];
        u32::from_le_bytes(bytes.try_into().expect("there are four"))
    }

    #[inline]
    fn set_word(&mut self, place: usize, value: u32) {
        self.bytes[place..place + 4].copy_from_slice(&value.to_le_bytes());
    }

    #[inline]
    pub fn read_byte(&self, marks: &Marks, address: u32) -> Result<u8, Break> {
        let place = self.place(address)?;
        marks.check_read_in_word(Span { start: address, size: 1 })?;
        Ok(self.bytes[place])
    }

    #[inline]
    pub fn write_byte(&mut self, marks: &Marks, address: u32, value: u8) -> Result<(), Break> {
        let place = self.place(address)?;
        marks.check_write_in_word(Span { start: address, size: 1 })?;
        self.bytes[place] = value;
        Ok(())
    }

    #[inline]
    pub fn read_word(&self, marks: &Marks, address: u32) -> Result<u32, Break> {
        let place = self.word_place(address)?;
        marks.check_read_in_word(Span { start: address, size: 4 })?;
        Ok(self.word(place))
    }

    /// The place of a word that may be written.
    #[inline]
    pub fn writable(&self, marks: &Marks, address: u32) -> Result<usize, Break> {
        let place = self.word_place(address)?;
        marks.check_write_in_word(Span { start: address, size: 4 })?;
        Ok(place)
    }

    #[inline]
    pub fn write_word(&mut self, marks: &Marks, address: u32, value: u32) -> Result<(), Break> {
        let place = self.writable(marks, address)?;
        self.set_word(place, value);
        Ok(())
    }

    /// The word at an address, checked as a write.
    #[inline]
    pub fn take_word(&self, marks: &Marks, address: u32) -> Result<u32, Break> {
        Ok(self.word(self.writable(marks, address)?))
    }

    /// Sets the word at a place that was checked.
    #[inline]
    pub fn put(&mut self, place: usize, value: u32) {
        self.set_word(place, value);
    }

    /// The word at a place that was checked.
    #[inline]
    pub fn get(&self, place: usize) -> u32 {
        self.word(place)
    }

    /// The words below a workspace may be written.
    pub fn may_deschedule(&self, marks: &Marks, workspace: u32) -> Result<(), Break> {
        for below in [12, 8, 4] {
            self.writable(marks, workspace.wrapping_sub(below))?;
        }
        Ok(())
    }

    /// Word `-k` of a workspace whose words are saved.
    pub fn saved_word(&self, workspace: u32, k: u32) -> u32 {
        self.word(workspace.wrapping_sub(4 * k).wrapping_sub(MOST_NEG) as usize)
    }

    pub fn set_saved_word(&mut self, workspace: u32, k: u32, value: u32) {
        self.set_word(workspace.wrapping_sub(4 * k).wrapping_sub(MOST_NEG) as usize, value);
    }

    pub fn may_read(&self, marks: &Marks, span: Span) -> Result<(), Break> {
        if span.size > 0 {
            self.span_place(span)?;
            marks.check_read(span)?;
        }
        Ok(())
    }

    pub fn may_write(&self, marks: &Marks, span: Span) -> Result<(), Break> {
        if span.size > 0 {
            self.span_place(span)?;
            marks.check_write(span)?;
        }
        Ok(())
    }

    /// A byte that was checked.
    #[inline]
    pub fn byte(&self, address: u32) -> u8 {
        self.bytes[address.wrapping_sub(MOST_NEG) as usize]
    }

    /// Bytes that were checked.
    pub fn span(&self, span: Span) -> &[u8] {
        let place = span.start.wrapping_sub(MOST_NEG) as usize;
        &self.bytes[place..place + span.size as usize]
    }

    /// Sets a byte that was checked.
    #[inline]
    pub fn set_byte(&mut self, address: u32, byte: u8) {
        self.bytes[address.wrapping_sub(MOST_NEG) as usize] = byte;
    }

    /// Copies bytes that were checked.
    pub fn copy(&mut self, from: u32, to: u32, size: u32) {
        if size > 0 {
            let source = from.wrapping_sub(MOST_NEG) as usize;
            let target = to.wrapping_sub(MOST_NEG) as usize;
            self.bytes.copy_within(source..source + size as usize, target);
        }
    }

    /// Puts bytes at an address.
    pub fn load(&mut self, start: u32, bytes: &[u8]) {
        let place = start.wrapping_sub(MOST_NEG) as usize;
        self.bytes[place..place + bytes.len()].copy_from_slice(bytes);
    }
}
