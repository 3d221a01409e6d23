//! A block's message in pieces (document 02, E4 and E13).

use crate::bits::{bits_of, bytes_of};
use crate::code::{Code, bch};
use crate::edition::Edition;
use crate::field::FieldChoice;
use crate::reply::{Refusal, Reply, refuse_by};

/// The words of a state that a caller keeps: level field, field choice, message length, bytes fed, and
/// the parity of these, the lowest word first.
pub const STATE_WORDS: usize = 18;
const LEVEL: usize = 0;
const CHOICE: usize = 1;
const LENGTH: usize = 2;
const FED: usize = 3;
const CARRIED: usize = 4;

/// A block whose message is arriving. The model keeps the whole message.
#[derive(Clone, Debug)]
pub struct Pieces {
    pub choice: FieldChoice,
    pub t: usize,
    pub length: u64,
    pub message: Vec<u8>,
}

impl Pieces {
    /// Starts a block with a message of so many bytes.
    pub fn start(
        edition: u64,
        level_field: u64,
        field_choice: u64,
        length: u64,
    ) -> Result<Pieces, Refusal> {
        let edition = Edition::from_number(edition).ok_or(Reply::OutOfRange)?;
        let choice = FieldChoice::from_number(field_choice).ok_or(Reply::OutOfRange)?;
        let covered = 8 * length as u128 + choice.field().m as u128 * 2 * (level_field as u128);
        refuse_by(&[
            (
                Reply::LevelTooHigh,
                level_field > edition.highest_level_field(),
            ),
            (Reply::EmptyMessage, length == 0),
            (
                Reply::BlockTooLong,
                level_field > 0 && covered > choice.field().order() as u128,
            ),
        ])?;
        Ok(Pieces {
            choice,
            t: 2 * level_field as usize,
            length,
            message: Vec::new(),
        })
    }

    pub fn code(&self) -> &'static Code<'static> {
        bch(self.choice, self.t)
    }

    /// Takes all of a piece, or none where it would pass the length stated at the start.
    pub fn feed(&mut self, piece: &[u8]) -> Result<(), Refusal> {
        let fed = self.message.len() as u128 + piece.len() as u128;
        refuse_by(&[(Reply::BufferLength, fed > self.length as u128)])?;
        self.message.extend_from_slice(piece);
        Ok(())
    }

    /// The number of bytes of a parity.
    pub fn parity_bytes(&self) -> usize {
        self.code().parity_length().div_ceil(8)
    }

    /// The parity of the message, highest coefficient first, right-aligned.
    pub fn finish(&self, parity: &mut [u8]) -> Result<(), Refusal> {
        let early = self.message.len() as u64 != self.length;
        let wrong = parity.len() != self.parity_bytes();
        refuse_by(&[(Reply::BufferLength, early || wrong)])?;
        let bits = self.code().parity(&bits_of(&self.message));
        let zeros = vec![false; 8 * parity.len() - bits.len()];
        parity.copy_from_slice(&bytes_of(&[zeros, bits].concat()));
        Ok(())
    }
}

/// A block as the words of a state tell it. The parity has as many bits as the generator's degree,
/// highest power first.
struct Carried {
    block: Pieces,
    fed: u64,
    parity: Vec<bool>,
}

impl Carried {
    /// Words that are not those of any block are out of range. A state has no edition, and edition 2 has
    /// every block that edition 1 has.
    fn of(words: &[u64]) -> Result<Carried, Refusal> {
        let unusable = Refusal::from(Reply::OutOfRange);
        let edition = Edition::Second as u64;
        let block = Pieces::start(edition, words[LEVEL], words[CHOICE], words[LENGTH])
            .map_err(|_| unusable)?;
        let highest_first = words[CARRIED..].iter().rev();
        let bits: Vec<bool> = highest_first
            .flat_map(|word| (0..64).rev().map(move |k| word >> k & 1 == 1))
            .collect();
        let (above, parity) = bits.split_at(bits.len() - block.code().parity_length());
        if words[FED] > words[LENGTH] || above.contains(&true) {
            return Err(unusable);
        }
        Ok(Carried {
            fed: words[FED],
            parity: parity.to_vec(),
            block,
        })
    }

    /// The parity once a piece has followed: that of the message so far times x^(8k), plus that of
    /// the piece of k bytes.
    fn parity_with(&self, piece: &[u8]) -> Vec<bool> {
        let piece = bits_of(piece);
        let before = [self.parity.clone(), vec![false; piece.len()]].concat();
        let after = [piece, vec![false; self.parity.len()]].concat();
        let sum: Vec<bool> = before.iter().zip(after).map(|(a, b)| a ^ b).collect();
        self.block.code().remainder(&sum)
    }
}

/// Writes a state. The words of the parity above those that it fills are zeros.
fn write_state(words: &mut [u64], fed: u64, parity: &[bool]) {
    words[FED] = fed;
    words[CARRIED..].fill(0);
    for (p, &coefficient) in parity.iter().rev().enumerate() {
        words[CARRIED + p / 64] |= (coefficient as u64) << (p % 64);
    }
}

/// Starts a block in a state that held anything.
pub fn start_state(
    words: &mut [u64],
    edition: u64,
    level_field: u64,
    field_choice: u64,
    length: u64,
) -> Result<(), Refusal> {
    Pieces::start(edition, level_field, field_choice, length)?;
    words[LEVEL] = level_field;
    words[CHOICE] = field_choice;
    words[LENGTH] = length;
    write_state(words, 0, &[]);
    Ok(())
}

/// Feeds a piece to a state. One whose words are those of some block is gone on with, whoever made it.
pub fn feed_state(words: &mut [u64], piece: &[u8]) -> Result<(), Refusal> {
    let carried = Carried::of(words)?;
    let left = carried.block.length - carried.fed;
    refuse_by(&[(Reply::BufferLength, piece.len() as u64 > left)])?;
    let parity = carried.parity_with(piece);
    write_state(words, carried.fed + piece.len() as u64, &parity);
    Ok(())
}

/// The parity that a state carries once the message is whole.
pub fn finish_state(words: &[u64], parity: &mut [u8]) -> Result<(), Refusal> {
    let carried = Carried::of(words)?;
    let early = carried.fed != carried.block.length;
    let wrong = parity.len() != carried.block.parity_bytes();
    refuse_by(&[(Reply::BufferLength, early || wrong)])?;
    let zeros = vec![false; 8 * parity.len() - carried.parity.len()];
    parity.copy_from_slice(&bytes_of(&[zeros, carried.parity].concat()));
    Ok(())
}
