//! The edges of the rules for sectors (document 02, E12), and whether a call meets them.

use crate::bits::bit;
use crate::edition::Edition;
use crate::layout::{Block, Layout};
use crate::outcome::{Outcome, outcome};
use crate::page::block_word;
use crate::reply::Reply;
use crate::samples::sector_calls::{Asked, SectorCall};
use crate::sectors::{Sectors, check, locate_bit, sector_bytes};
use crate::{BitPlace, Refusal};

/// The edges: of numbers that are refused, of numbers that are accepted, of bits, and of pages that are read.
pub const SECTOR_EDGES: [&str; 43] = [
    "count 0",
    "count 17",
    "field choice 2",
    "no edition",
    "level field 0x15 in edition 1",
    "level field 0x20 in edition 2",
    "empty last sector at count 1",
    "empty last sector at count 2",
    "empty sector before the last",
    "sector one byte too long",
    "last sector one byte too long",
    "page one byte too short",
    "page too short by pads of the last sector alone",
    "count 1",
    "count 16",
    "count 1 and sector size 0",
    "count 1 and a sector size that is too long",
    "sector of one byte before the last",
    "last sector of one byte",
    "longest sector",
    "longest last sector",
    "level field 0x14 in edition 1",
    "level field 0x1F in edition 2",
    "t = 0 and pads",
    "t = 0 and no pads",
    "parity fills its byte",
    "parity leaves six pad bits",
    "t above 0 and no pads",
    "seven bytes of pads",
    "page fits exactly",
    "page with bits after the last sector",
    "PAGE_SIZE 65,535",
    "pad bit in the parity's last byte",
    "pad bit in a byte of pads",
    "bit after the last sector",
    "last code bit before pads",
    "first code bit behind pads",
    "t flips and more than t zeros in the pads",
    "erased with more than t zeros in the pads",
    "erased with t zeros",
    "ruined with t + 1 zeros",
    "last sector alone ruined",
    "t above 40 and t flips",
];

const OF_REFUSED: usize = 13;
const OF_ACCEPTED: usize = 19;
const OF_BIT: usize = 5;
const OF_PAGE: usize = 6;

/// Which edges a call meets.
pub fn sector_edges(call: &SectorCall) -> [bool; SECTOR_EDGES.len()] {
    let mut met = [false; SECTOR_EDGES.len()];
    let refused = &mut met[..OF_REFUSED];
    let layout = match check(call.edition, &call.sectors) {
        Ok(layout) => layout,
        Err(refusal) => {
            refused.copy_from_slice(&refused_edges(call.edition, &call.sectors, refusal));
            return met;
        }
    };
    let accepted = &mut met[OF_REFUSED..][..OF_ACCEPTED];
    accepted.copy_from_slice(&accepted_edges(call.edition, &call.sectors, &layout));
    let bits = &mut met[OF_REFUSED + OF_ACCEPTED..][..OF_BIT];
    match &call.asked {
        Asked::Bit { position } => bits.copy_from_slice(&bit_edges(call, &layout, *position)),
        Asked::Look { page, counts }
            if page.len() == layout.page_length && counts.len() == layout.blocks() =>
        {
            let pages = &mut met[OF_REFUSED + OF_ACCEPTED + OF_BIT..];
            pages.copy_from_slice(&page_edges(&layout, page));
        }
        _ => (),
    }
    met
}

fn refused_edges(edition: u64, sectors: &Sectors, refusal: Refusal) -> [bool; OF_REFUSED] {
    let is = |reply: Reply, holds: bool| refusal.reply == reply && holds;
    let numbers = |count: u16| sectors.count == count;
    let shorter = |sectors: &Sectors| check(edition, sectors).is_ok();
    let byte_shorter = Sectors {
        size: sectors.size.saturating_sub(1),
        ..*sectors
    };
    let last_shorter = Sectors {
        last_size: sectors.last_size.saturating_sub(1),
        ..*sectors
    };
    let wider = |bytes: u16| Sectors {
        page_size: sectors.page_size.saturating_add(bytes),
        ..*sectors
    };
    let missing = (1..8).find(|&bytes| check(edition, &wider(bytes)).is_ok());
    let last_pads = missing.is_some_and(|bytes| {
        let layout = check(edition, &wider(bytes)).unwrap();
        let last = layout.blocks() - 1;
        layout.start(last) + layout.block(last).covered_bits() <= 8 * sectors.page_size as usize
    });
    [
        is(Reply::OutOfRange, numbers(0)),
        is(Reply::OutOfRange, numbers(17)),
        is(Reply::OutOfRange, sectors.field_choice == 2),
        is(Reply::OutOfRange, Edition::from_number(edition).is_none()),
        is(
            Reply::LevelTooHigh,
            edition == 1 && sectors.level_field == 0x15,
        ),
        is(
            Reply::LevelTooHigh,
            edition == 2 && sectors.level_field == 0x20,
        ),
        is(Reply::EmptyMessage, numbers(1) && sectors.last_size == 0),
        is(
            Reply::EmptyMessage,
            numbers(2) && sectors.last_size == 0 && sectors.size > 0,
        ),
        is(
            Reply::EmptyMessage,
            sectors.size == 0 && sectors.last_size > 0,
        ),
        is(Reply::BlockTooLong, shorter(&byte_shorter)),
        is(Reply::BlockTooLong, shorter(&last_shorter)),
        is(Reply::PageTooSmall, missing == Some(1)),
        is(Reply::PageTooSmall, last_pads),
    ]
}

/// The bits of a sector that are no covered bits.
fn pad_bits(sector: &Block) -> usize {
    8 * sector_bytes(sector) - sector.covered_bits()
}

fn accepted_edges(edition: u64, sectors: &Sectors, layout: &Layout) -> [bool; OF_ACCEPTED] {
    let last = layout.block(layout.blocks() - 1);
    let first = layout.block(0);
    let several = layout.blocks() > 1;
    let longest = |sector: Block| {
        let longer = sector.covered_bits() + 8;
        sector.t() > 0 && longer > sector.choice.field().order()
    };
    let parity_bits = last.covered_bits() - last.message_bits;
    let plain = last.t() == 0;
    let pads = pad_bits(&last);
    [
        !several,
        layout.blocks() == 16,
        !several && sectors.size == 0,
        !several && sectors.size == 0xFFFF,
        several && first.message_bits == 8,
        last.message_bits == 8,
        several && longest(first),
        longest(last),
        edition == 1 && sectors.level_field == 0x14,
        edition == 2 && sectors.level_field == 0x1F,
        plain && pads > 0,
        plain && pads == 0,
        !plain && parity_bits.is_multiple_of(8),
        parity_bits % 8 == 2,
        !plain && pads == 0,
        pads / 8 == 7,
        layout.used_bits() == 8 * layout.page_length,
        layout.used_bits() < 8 * layout.page_length,
        sectors.page_size == 0xFFFF,
    ]
}

fn bit_edges(call: &SectorCall, layout: &Layout, position: u64) -> [bool; OF_BIT] {
    let place = |position: u64| locate_bit(call.edition, &call.sectors, position);
    let tail = place(position) == Ok(BitPlace::Tail);
    let inside = tail && position < layout.used_bits() as u64;
    let covered = |position: u64| matches!(place(position), Ok(BitPlace::Covered { .. }));
    let in_parity_byte = (position / 8 * 8..position).any(covered);
    let lowest = matches!(place(position), Ok(BitPlace::Covered { exponent: 0, .. }));
    let after_pads = position > 0 && place(position - 1) == Ok(BitPlace::Tail);
    [
        inside && in_parity_byte,
        inside && !in_parity_byte,
        tail && !inside,
        lowest && place(position + 1) == Ok(BitPlace::Tail),
        covered(position) && after_pads,
    ]
}

fn page_edges(layout: &Layout, page: &[u8]) -> [bool; OF_PAGE] {
    let mut met = [false; OF_PAGE];
    let mut ruined = Vec::new();
    for number in 0..layout.blocks() {
        let (sector, word) = (layout.block(number), block_word(layout, page, number));
        let found = outcome(sector.code(), &word);
        let covered_end = layout.start(number) + sector.covered_bits();
        let pads = covered_end..layout.start(number + 1);
        let pad_zeros = pads.filter(|&position| !bit(page, position)).count();
        let (t, zeros) = (sector.t(), crate::outcome::zeros(&word));
        let many = t > 0 && pad_zeros > t;
        let erased = matches!(found, Outcome::Erased { .. });
        let all_flips = matches!(found, Outcome::Repaired { flips, .. } if flips == t);
        met[0] |= all_flips && many;
        met[1] |= erased && many;
        met[2] |= erased && zeros == t;
        met[3] |= found == Outcome::Ruined && zeros == t + 1;
        met[5] |= all_flips && t > 40;
        ruined.extend((found == Outcome::Ruined).then_some(number));
    }
    met[4] = layout.blocks() > 1 && ruined == [layout.blocks() - 1];
    met
}
