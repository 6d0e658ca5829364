//! Little-endian numbers in bytes.

use crate::conic::Words;

pub fn words_to_bytes(words: &Words) -> [u8; 64] {
    joined(&words.map(u64::to_le_bytes).concat(), &[])
}

pub fn words_from_bytes(bytes: &[u8]) -> Words {
    std::array::from_fn(|i| u64_at(bytes, 8 * i))
}

pub fn u64_at(bytes: &[u8], at: usize) -> u64 {
    u64::from_le_bytes(piece(&bytes[at..at + 8]))
}

pub fn u32_at(bytes: &[u8], at: usize) -> u32 {
    u32::from_le_bytes(piece(&bytes[at..at + 4]))
}

pub fn joined<const N: usize>(front: &[u8], back: &[u8]) -> [u8; N] {
    piece(&[front, back].concat())
}

/// A slice that is known to have N bytes.
fn piece<const N: usize>(bytes: &[u8]) -> [u8; N] {
    bytes.try_into().expect("a slice of N bytes")
}
