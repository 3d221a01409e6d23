//! Locating from a remainder alone (document 01, Remainder; document 02, E13).

use crate::bits::bits_of;
use crate::code::bch;
use crate::decoder::errors_of_remainder;
use crate::edition::Edition;
use crate::field::FieldChoice;
use crate::reply::{Refusal, Reply, refuse_by};

/// The set of at most t exponents below n whose sum of powers of x leaves the remainder. They are
/// put from the highest down (document 02, E5) into the first places of the list, and their number
/// is returned; the other places keep what they held.
pub fn locate_errors(
    edition: u64,
    level_field: u64,
    field_choice: u64,
    n: u64,
    remainder: &[u8],
    places: &mut [u16],
) -> Result<usize, Refusal> {
    let edition = Edition::from_number(edition).ok_or(Reply::OutOfRange)?;
    let choice = FieldChoice::from_number(field_choice).ok_or(Reply::OutOfRange)?;
    let highest = edition.highest_level_field();
    refuse_by(&[(Reply::LevelTooHigh, level_field > highest)])?;
    let code = bch(choice, 2 * level_field as usize);
    let parity_length = code.parity_length();
    refuse_by(&[
        (
            Reply::EmptyMessage,
            code.t == 0 || n <= parity_length as u64,
        ),
        (Reply::BlockTooLong, n > code.field.order() as u64),
        (
            Reply::BufferLength,
            remainder.len() != parity_length.div_ceil(8) || places.len() < code.t,
        ),
    ])?;
    let bits = bits_of(remainder);
    let (above, remainder) = bits.split_at(bits.len() - parity_length);
    refuse_by(&[(Reply::RemainderTooWide, above.contains(&true))])?;
    let exponents = errors_of_remainder(code, remainder, n as usize).ok_or(Reply::Uncorrectable)?;
    for (place, &exponent) in places.iter_mut().zip(exponents.iter().rev()) {
        *place = exponent as u16;
    }
    Ok(exponents.len())
}
