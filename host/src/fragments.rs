//! Remainders in the form that a hardware locator takes (document 004; document 02, E9), for m = 13.

use crate::bits::bits_of;
use crate::reply::{Refusal, Reply, refuse_by};

/// The fragments of one remainder.
pub const COUNT: usize = 7;

/// How many coefficients a remainder has at a level of the locator, if the lengths are right.
fn coefficients(level_field: u64, bytes: usize, count: usize) -> Result<usize, Refusal> {
    let t: usize = match level_field {
        2 => 4,
        4 => 8,
        8 => 16,
        _ => return Err(Reply::LevelTooHigh.into()),
    };
    let lengths_right = bytes == (13 * t).div_ceil(8) && count == COUNT;
    refuse_by(&[(Reply::BufferLength, !lengths_right)])?;
    Ok(13 * t)
}

/// Writes the coefficient of x^p to bit p mod 32 of fragment p / 32. Every other bit is zero, the
/// start bit too.
pub fn export_fragments(
    level_field: u64,
    remainder: &[u8],
    fragments: &mut [u32],
) -> Result<(), Refusal> {
    let count = coefficients(level_field, remainder.len(), fragments.len())?;
    let bits = bits_of(remainder);
    let (above, highest_first) = bits.split_at(bits.len() - count);
    refuse_by(&[(Reply::RemainderTooWide, above.contains(&true))])?;
    fragments.fill(0);
    for (p, &coefficient) in highest_first.iter().rev().enumerate() {
        fragments[p / 32] |= (coefficient as u32) << (p % 32);
    }
    Ok(())
}

/// The same the other way. A one in a bit that holds no coefficient is refused.
pub fn import_fragments(
    level_field: u64,
    fragments: &[u32],
    remainder: &mut [u8],
) -> Result<(), Refusal> {
    let count = coefficients(level_field, remainder.len(), fragments.len())?;
    let one = |p: &usize| fragments[p / 32] >> (p % 32) & 1 == 1;
    let unused = (count..32 * COUNT).any(|p| one(&p));
    refuse_by(&[(Reply::RemainderTooWide, unused)])?;
    remainder.fill(0);
    let last = remainder.len() - 1;
    for p in (0..count).filter(one) {
        remainder[last - p / 8] |= 1 << (p % 8);
    }
    Ok(())
}

#[cfg(test)]
mod tests {
    use super::*;

    /// Bit 0 of fragment 0 is the lowest coefficient, bit 15 of fragment 6 the highest at t = 16.
    #[test]
    fn ends_of_a_remainder() {
        let mut remainder = [0; 26];
        remainder[25] = 0x01;
        remainder[0] = 0x80;
        let mut fragments = [9; 7];
        assert_eq!(export_fragments(8, &remainder, &mut fragments), Ok(()));
        assert_eq!(fragments, [1, 0, 0, 0, 0, 0, 0x8000]);
        fragments[6] |= 0x1_0000;
        let refused = Err(Reply::RemainderTooWide.into());
        assert_eq!(import_fragments(8, &fragments, &mut [0; 26]), refused);
    }
}
