//! Writing pages, looking at them, taking their payload, judging blocks and checking claims (document 01;
//! document 02, E1, E6, E7 and E13). The calls take a record; what they do under a layout that is accepted, the
//! methods of [`Layout`] do, whether it was made of layout words or of the numbers of sectors.

use crate::bits::{bit, bits_of, bytes_of, put};
use crate::code::flip_exponents;
use crate::layout::{Layout, check_layout};
use crate::outcome::{Outcome, outcome};
use crate::reply::{Refusal, Reply, refuse_by};

/// Writes the page of a payload: each block's message and parity, and ones where no block is. The mark keeps what
/// the page held.
pub fn write_page(
    edition: u64,
    record: &[u8],
    metadata: &[u8],
    data: &[u8],
    page: &mut [u8],
) -> Result<(), Refusal> {
    check_layout(edition, record)?.write(metadata, data, page)
}

/// Looks at a page: one count per block, and that of a ruined block is 255. Where a block is ruined the
/// call is refused and names the lowest, and the counts are written all the same: no other refusal writes.
pub fn look_page(
    edition: u64,
    record: &[u8],
    page: &[u8],
    counts: &mut [u8],
) -> Result<(), Refusal> {
    check_layout(edition, record)?.look(page, counts)
}

/// Takes metadata and data out of a page. Where a block is ruined the call is refused and names the
/// lowest, and no byte changes.
pub fn take_page(
    edition: u64,
    record: &[u8],
    page: &[u8],
    metadata: &mut [u8],
    data: &mut [u8],
) -> Result<(), Refusal> {
    check_layout(edition, record)?.take(page, metadata, data)
}

/// The count of one block.
pub fn judge_block(edition: u64, record: &[u8], page: &[u8], block: u64) -> Result<usize, Refusal> {
    check_layout(edition, record)?.judge(page, block)
}

/// Are these error locations right? They are if they are distinct, each below n, at most t in
/// number, and flipping them gives a codeword.
pub fn check_claim(
    edition: u64,
    record: &[u8],
    page: &[u8],
    block: u64,
    claims: &[u16],
) -> Result<(), Refusal> {
    check_layout(edition, record)?.claim(page, block, claims)
}

/// What the count of an erased block has beside its zeros.
pub const ERASED: usize = 128;

/// The count of a ruined block.
pub const RUINED: u8 = 255;

/// The calls under an accepted layout.
impl Layout {
    pub fn write(&self, metadata: &[u8], data: &[u8], page: &mut [u8]) -> Result<(), Refusal> {
        self.payload_lengths(page, metadata, data)?;
        let payload = bits_of(&[metadata, data].concat());
        let mut messages = payload.as_slice();
        let mut stream = vec![true; self.stream_bits()];
        for number in 0..self.blocks() {
            let block = self.block(number);
            let (message, rest) = messages.split_at(block.message_bits);
            let word = [message, &block.code().parity(message)].concat();
            stream[self.start(number)..][..word.len()].copy_from_slice(&word);
            messages = rest;
        }
        for (position, value) in self.stream().zip(stream) {
            put(page, position, value);
        }
        Ok(())
    }

    pub fn look(&self, page: &[u8], counts: &mut [u8]) -> Result<(), Refusal> {
        refuse_by(&[
            (Reply::PageLength, page.len() != self.page_length),
            (Reply::BufferLength, counts.len() != self.blocks()),
        ])?;
        let blocks: Vec<_> = (0..self.blocks())
            .map(|number| self.read_block(page, number))
            .collect();
        for (count, block) in counts.iter_mut().zip(&blocks) {
            *count = match block {
                Ok((_, count)) => *count as u8,
                Err(_) => RUINED,
            };
        }
        blocks.into_iter().try_for_each(|block| block.map(|_| ()))
    }

    pub fn take(&self, page: &[u8], metadata: &mut [u8], data: &mut [u8]) -> Result<(), Refusal> {
        self.payload_lengths(page, metadata, data)?;
        let mut payload = Vec::new();
        for number in 0..self.blocks() {
            let (message, _) = self.read_block(page, number)?;
            payload.extend(message);
        }
        let payload = bytes_of(&payload);
        let (taken_metadata, taken_data) = payload.split_at(self.metadata_length);
        metadata.copy_from_slice(taken_metadata);
        data.copy_from_slice(taken_data);
        Ok(())
    }

    pub fn judge(&self, page: &[u8], block: u64) -> Result<usize, Refusal> {
        let number = self.number_of(page, block)?;
        self.read_block(page, number).map(|(_, count)| count)
    }

    pub fn claim(&self, page: &[u8], block: u64, claims: &[u16]) -> Result<(), Refusal> {
        let number = self.number_of(page, block)?;
        let code = self.block(number).code();
        let mut word = block_word(self, page, number);
        let exponents: Vec<usize> = claims.iter().map(|&claim| claim as usize).collect();
        let distinct = (1..exponents.len()).all(|i| !exponents[..i].contains(&exponents[i]));
        let below = exponents.iter().all(|&exponent| exponent < word.len());
        refuse_by(&[(
            Reply::ClaimWrong,
            exponents.len() > code.t || !distinct || !below,
        )])?;
        flip_exponents(&mut word, &exponents);
        refuse_by(&[(Reply::ClaimWrong, !code.is_codeword(&word))])
    }

    /// Refuses a page or a payload of a length that is not the layout's.
    fn payload_lengths(&self, page: &[u8], metadata: &[u8], data: &[u8]) -> Result<(), Refusal> {
        refuse_by(&[
            (Reply::PageLength, page.len() != self.page_length),
            (
                Reply::BufferLength,
                metadata.len() != self.metadata_length || data.len() != self.data_length(),
            ),
        ])
    }

    /// The number of a block of a page, neither the page of another length nor the block outside its range.
    fn number_of(&self, page: &[u8], block: u64) -> Result<usize, Refusal> {
        refuse_by(&[
            (Reply::PageLength, page.len() != self.page_length),
            (Reply::OutOfRange, block >= self.blocks() as u64),
        ])?;
        Ok(block as usize)
    }

    /// A block's message and count. The count is the number of flips; the message of an erased block is
    /// all ones, and its count is 128 plus its zeros.
    fn read_block(&self, page: &[u8], number: usize) -> Result<(Vec<bool>, usize), Refusal> {
        let block = self.block(number);
        match outcome(block.code(), &block_word(self, page, number)) {
            Outcome::Repaired { codeword, flips } => {
                Ok((codeword[..block.message_bits].into(), flips))
            }
            Outcome::Erased { zeros } => Ok((vec![true; block.message_bits], ERASED + zeros)),
            Outcome::Ruined => Err(Refusal::uncorrectable(number)),
        }
    }
}

/// The covered bits of a block, as a word.
pub fn block_word(layout: &Layout, page: &[u8], number: usize) -> Vec<bool> {
    let places = layout.block_places(number).into_iter();
    places.map(|position| bit(page, position)).collect()
}
