//! Bits of byte slices. Position p is byte p / 8, bit 7 - (p mod 8), bit 0 being the least significant.

/// The bit at a position.
pub fn bit(bytes: &[u8], position: usize) -> bool {
    bytes[position / 8] >> (7 - position % 8) & 1 == 1
}

/// Turns over the bit at a position.
pub fn flip(bytes: &mut [u8], position: usize) {
    bytes[position / 8] ^= 1 << (7 - position % 8);
}

/// Puts a bit at a position.
pub fn put(bytes: &mut [u8], position: usize, value: bool) {
    if bit(bytes, position) != value {
        flip(bytes, position);
    }
}

/// All bits of the bytes in order.
pub fn bits_of(bytes: &[u8]) -> Vec<bool> {
    (0..8 * bytes.len()).map(|p| bit(bytes, p)).collect()
}

/// The bytes whose bits in order are these. Their number is a multiple of 8.
pub fn bytes_of(bits: &[bool]) -> Vec<u8> {
    assert!(bits.len().is_multiple_of(8));
    bits.chunks(8)
        .map(|byte| byte.iter().fold(0, |value, &bit| value << 1 | bit as u8))
        .collect()
}
