//! Little-endian numbers in byte slices.

/// The number that the bytes hold, of any width up to 8.
pub fn number(bytes: &[u8]) -> u64 {
    bytes.iter().rev().fold(0, |sum, &byte| sum * 256 + u64::from(byte))
}

/// The lowest `width` bytes of the number.
pub fn bytes(number: u64, width: usize) -> Vec<u8> {
    number.to_le_bytes()[..width].to_vec()
}
