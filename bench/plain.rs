//! A plain, safe emulator of nodes and nets, which the benchmarks compare ours with: the same rules, the same checks,
//! the same tables, and the same files and texts. Alternatives and holds are left out. Each benchmark uses a part of
//! it.
#![allow(dead_code)]

pub mod code;
pub mod cpu;
pub mod image;
pub mod memory;
pub mod net;
pub mod processor;
pub mod programs;
pub mod scripts;
pub mod text;
pub mod wiring;

/// The next number of a checksum: FNV-1a over words.
pub fn mixed(sum: u32, word: u32) -> u32 {
    (sum ^ word).wrapping_mul(16_777_619)
}

/// Where a checksum begins.
pub const BEGIN: u32 = 2_166_136_261;

/// The checksum of bytes.
pub fn checksum(sum: u32, bytes: &[u8]) -> u32 {
    bytes.iter().fold(sum, |sum, byte| mixed(sum, u32::from(*byte)))
}

/// The amount of work that the command line asks for.
pub fn amount() -> u32 {
    std::env::args().nth(2).and_then(|word| word.parse().ok()).unwrap_or(0)
}

/// The benchmark that the command line names.
pub fn name() -> String {
    std::env::args().nth(1).unwrap_or_default()
}
