//! The library as its C interface shows it, and the model in that form.

use crate::explain::{BitPart, Explained, Why, explain_bit, explain_block, explain_layout};
use crate::fragments::{export_fragments, import_fragments};
use crate::layout::{BitPlace, bit_position, check_layout, locate_bit};
use crate::locate::locate_errors;
use crate::page::{check_claim, judge_block, look_page, take_page, write_page};
use crate::pieces::{feed_state, finish_state, start_state};
use crate::reply::Refusal;

/// The exported calls, on slices. Each answers one word: the reply in bits 0 to 7, its block in
/// bits 8 to 23, a kind in bits 24 to 31 and a value in bits 32 to 63; kind and value are 0 on a
/// refusal.
pub trait Library {
    fn check_layout(&self, edition: u64, record: &[u8]) -> u64;

    /// Kind 0 is a covered bit, with the block times 2^16 plus the exponent; kind 1 is the tail, kind 2 the mark.
    fn locate_bit(&self, edition: u64, record: &[u8], position: u64) -> u64;

    /// The value is the position.
    fn bit_position(&self, edition: u64, record: &[u8], block: u64, exponent: u64) -> u64;

    fn write_page(
        &self,
        edition: u64,
        record: &[u8],
        metadata: &[u8],
        data: &[u8],
        page: &mut [u8],
    ) -> u64;

    fn look_page(&self, edition: u64, record: &[u8], page: &[u8], counts: &mut [u8]) -> u64;

    fn take_page(
        &self,
        edition: u64,
        record: &[u8],
        page: &[u8],
        metadata: &mut [u8],
        data: &mut [u8],
    ) -> u64;

    /// The value is the block's count.
    fn judge_block(&self, edition: u64, record: &[u8], page: &[u8], block: u64) -> u64;

    /// The value is the number of exponents found.
    fn locate_errors(
        &self,
        edition: u64,
        level_field: u64,
        field_choice: u64,
        n: u64,
        remainder: &[u8],
        places: &mut [u16],
    ) -> u64;

    fn check_claim(
        &self,
        edition: u64,
        record: &[u8],
        page: &[u8],
        block: u64,
        claims: &[u16],
    ) -> u64;

    fn export_fragments(&self, level_field: u64, remainder: &[u8], fragments: &mut [u32]) -> u64;

    fn import_fragments(&self, level_field: u64, fragments: &[u32], remainder: &mut [u8]) -> u64;

    fn parity_start(
        &self,
        state: &mut [u64],
        edition: u64,
        level: u64,
        choice: u64,
        length: u64,
    ) -> u64;

    fn parity_feed(&self, state: &mut [u64], piece: &[u8]) -> u64;

    fn parity_finish(&self, state: &mut [u64], parity: &mut [u8]) -> u64;

    /// 0, or a refusal: what it is about in bits 8 to 15, and the two numbers in bits 16 to 39 and 40 to 63.
    fn explain_layout(&self, edition: u64, record: &[u8]) -> u64;

    /// A refusal in the same form; flips (0) or zeros (1) and t; on reply 9 the block and t.
    fn explain_block(
        &self,
        edition: u64,
        record: &[u8],
        page: &[u8],
        block: u64,
        list: &mut [u32],
    ) -> u64;

    /// A refusal in the same form; or the part in bits 8 to 15, its block in bits 16 to 23, bit and byte of the page in
    /// bits 24 to 31 and 32 to 47, and the byte of metadata or data in bits 48 to 63.
    fn explain_bit(&self, edition: u64, record: &[u8], position: u64) -> u64;
}

/// The answer word of a call that is done with a kind and a value, or refused.
fn answer(outcome: Result<(u8, usize), Refusal>) -> u64 {
    match outcome {
        Ok((kind, value)) => (kind as u64) << 24 | (value as u64) << 32,
        Err(refusal) => refusal.number() as u64 | (refusal.block as u64) << 8,
    }
}

/// The word of an explanation; a number of more than 24 bits shows as the largest.
pub fn explanation(reply: u64, about: u64, found: u64, limit: u64) -> u64 {
    let shown = |number: u64| number.min(0xFF_FFFF);
    reply | about << 8 | shown(found) << 16 | shown(limit) << 40
}

/// The word of a refusal with its two numbers.
fn refused(why: Why) -> u64 {
    explanation(why.reply as u64, why.about as u64, why.found, why.limit)
}

/// The word of what became of a block.
fn explained(explained: Explained) -> u64 {
    match explained {
        Explained::Flips { count, t } => explanation(0, 0, count as u64, t as u64),
        Explained::Erased { zeros, t } => explanation(0, 1, zeros as u64, t as u64),
        Explained::Ruined { block, t } => explanation(9, 8, block as u64, t as u64),
    }
}

/// The word of a page bit's part.
fn placed(part: BitPart, position: u64) -> u64 {
    let (kind, block, byte) = match part {
        BitPart::Metadata { block, byte } => (1, block, byte),
        BitPart::Data { block, byte } => (2, block, byte),
        BitPart::Parity { block } => (3, block, 0),
        BitPart::Tail => (4, 0, 0),
        BitPart::Mark => (5, 0, 0),
    };
    let page_bit = 7 - position % 8;
    let of_part = kind << 8 | (block as u64) << 16 | (byte as u64) << 48;
    of_part | page_bit << 24 | (position / 8) << 32
}

/// The model of documents 01 and 02.
pub struct Model;

impl Library for Model {
    fn check_layout(&self, edition: u64, record: &[u8]) -> u64 {
        answer(check_layout(edition, record).map(|_| (0, 0)))
    }

    fn locate_bit(&self, edition: u64, record: &[u8], position: u64) -> u64 {
        answer(
            locate_bit(edition, record, position).map(|place| match place {
                BitPlace::Covered { block, exponent } => (0, block << 16 | exponent),
                BitPlace::Tail => (1, 0),
                BitPlace::Mark => (2, 0),
            }),
        )
    }

    fn bit_position(&self, edition: u64, record: &[u8], block: u64, exponent: u64) -> u64 {
        answer(bit_position(edition, record, block, exponent).map(|position| (0, position)))
    }

    fn write_page(
        &self,
        edition: u64,
        record: &[u8],
        metadata: &[u8],
        data: &[u8],
        page: &mut [u8],
    ) -> u64 {
        answer(write_page(edition, record, metadata, data, page).map(|()| (0, 0)))
    }

    fn look_page(&self, edition: u64, record: &[u8], page: &[u8], counts: &mut [u8]) -> u64 {
        answer(look_page(edition, record, page, counts).map(|()| (0, 0)))
    }

    fn take_page(
        &self,
        edition: u64,
        record: &[u8],
        page: &[u8],
        metadata: &mut [u8],
        data: &mut [u8],
    ) -> u64 {
        answer(take_page(edition, record, page, metadata, data).map(|()| (0, 0)))
    }

    fn judge_block(&self, edition: u64, record: &[u8], page: &[u8], block: u64) -> u64 {
        answer(judge_block(edition, record, page, block).map(|flips| (0, flips)))
    }

    fn locate_errors(
        &self,
        edition: u64,
        level_field: u64,
        field_choice: u64,
        n: u64,
        remainder: &[u8],
        places: &mut [u16],
    ) -> u64 {
        let located = locate_errors(edition, level_field, field_choice, n, remainder, places);
        answer(located.map(|size| (0, size)))
    }

    fn check_claim(
        &self,
        edition: u64,
        record: &[u8],
        page: &[u8],
        block: u64,
        claims: &[u16],
    ) -> u64 {
        answer(check_claim(edition, record, page, block, claims).map(|()| (0, 0)))
    }

    fn export_fragments(&self, level_field: u64, remainder: &[u8], fragments: &mut [u32]) -> u64 {
        answer(export_fragments(level_field, remainder, fragments).map(|()| (0, 0)))
    }

    fn import_fragments(&self, level_field: u64, fragments: &[u32], remainder: &mut [u8]) -> u64 {
        answer(import_fragments(level_field, fragments, remainder).map(|()| (0, 0)))
    }

    fn parity_start(
        &self,
        state: &mut [u64],
        edition: u64,
        level: u64,
        choice: u64,
        length: u64,
    ) -> u64 {
        answer(start_state(state, edition, level, choice, length).map(|()| (0, 0)))
    }

    fn parity_feed(&self, state: &mut [u64], piece: &[u8]) -> u64 {
        answer(feed_state(state, piece).map(|()| (0, 0)))
    }

    fn parity_finish(&self, state: &mut [u64], parity: &mut [u8]) -> u64 {
        answer(finish_state(state, parity).map(|()| (0, 0)))
    }

    fn explain_layout(&self, edition: u64, record: &[u8]) -> u64 {
        explain_layout(edition, record).map_or_else(refused, |_| 0)
    }

    fn explain_block(
        &self,
        edition: u64,
        record: &[u8],
        page: &[u8],
        block: u64,
        list: &mut [u32],
    ) -> u64 {
        explain_block(edition, record, page, block, list).map_or_else(refused, explained)
    }

    fn explain_bit(&self, edition: u64, record: &[u8], position: u64) -> u64 {
        explain_bit(edition, record, position).map_or_else(refused, |part| placed(part, position))
    }
}
