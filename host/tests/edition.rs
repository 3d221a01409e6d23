//! The two editions (document 02, E13).

use model::bits::{bits_of, flip};
use model::edition::Edition;
use model::field::FieldChoice;
use model::layout::{LayoutRecord, LayoutWords, Part, Reason};
use model::pieces::{Pieces, STATE_WORDS, feed_state, finish_state, start_state};
use model::random::Random;
use model::samples::layouts::{CASE_E, records};
use model::*;

/// Numbers that are no edition.
const OTHERS: [u64; 7] = [0, 3, 4, 255, 257, (1 << 32) + 1, u64::MAX];

/// One block with a message of so many bytes, and a page with as many bytes as may be.
fn one_block(level_field: u8, gf: u8, message_bytes: usize) -> LayoutWords {
    LayoutWords {
        nblocks: 0,
        meta_size: (message_bytes % 4) as u8,
        ecc0: level_field,
        gf0: gf,
        data0_size: (message_bytes / 4) as u16,
        page_size: 0xFFFF,
        ..CASE_E
    }
}

/// Two blocks of the strongest levels, one of each field, in a page with no byte to spare.
fn strong_words(level_field: u8) -> LayoutWords {
    let words = LayoutWords {
        nblocks: 1,
        meta_size: 3,
        gfn: 1,
        eccn: level_field,
        datan_size: 2,
        ..one_block(level_field, 0, 8)
    };
    let page_size = Layout::from(words).used_bits().div_ceil(8) as u16;
    LayoutWords { page_size, ..words }
}

fn reply(edition: u64, record: &[u8]) -> u8 {
    number(check_layout(edition, record))
}

fn number<T>(reply: Result<T, Refusal>) -> u8 {
    reply.map_or_else(|refusal| refusal.number(), |_| 0)
}

/// With m = 13 and t = 62, 923 message bytes give 8,190 bits, and 924 give 8,198.
#[test]
fn the_cases_of_the_paper() {
    let longest = one_block(0x1F, 0, 923);
    assert_eq!(Layout::from(longest).block(0).covered_bits(), 8190);
    assert_eq!(reply(2, &longest.pack()), 0);
    let longer = one_block(0x1F, 0, 924);
    assert_eq!(Layout::from(longer).block(0).covered_bits(), 8198);
    assert_eq!(reply(2, &longer.pack()), 3);
    assert_eq!(reply(1, &longest.pack()), 1);
    assert_eq!(reply(1, &longer.pack()), 1);
}

/// Reply 1 compares the field with the highest of the edition.
#[test]
fn level_fields_of_words() {
    for level_field in 0..=0x1F {
        for (part, words) in [
            (Part::Block0, one_block(level_field, 1, 8)),
            (
                Part::LaterBlock,
                LayoutWords {
                    ecc0: 0,
                    ..strong_words(level_field)
                },
            ),
        ] {
            let reason = Layout::from(words).reason(Edition::First);
            let expected = (level_field > 0x14).then_some(Reason {
                reply: Reply::LevelTooHigh,
                part,
                found: level_field as usize,
                limit: 20,
            });
            assert_eq!(reason, expected);
            assert_eq!(Layout::from(words).reason(Edition::Second), None);
        }
    }
}

/// In edition 1 nothing changes; in edition 2 no layout is refused with 1, and one that edition 1 does not
/// refuse with 1 gets the same answer.
#[test]
fn layouts_in_both_editions() {
    let mut random = Random::new(131);
    let mut ones = 0;
    for record in records(&mut random) {
        let (first, second) = (reply(1, &record), reply(2, &record));
        assert_ne!(second, 1);
        if first == 1 {
            let layout = Layout::from(LayoutRecord::unpack(&record).unwrap());
            let later = layout.later().map_or(0, |later| later.level_field);
            assert!(layout.block(0).level_field.max(later) > 0x14);
            ones += 1;
        } else {
            assert_eq!(first, second);
        }
    }
    assert!(ones > 50);
}

/// Another edition is 7, whatever else is wrong: the length of the record too.
#[test]
fn other_editions_are_looked_at_first() {
    let good = CASE_E.pack();
    let refused = one_block(0x14, 0, 0).pack();
    let outside = [&good[..], &[0xFF; 4]].concat();
    let out_of_range = Refusal::from(Reply::OutOfRange);
    assert_eq!((out_of_range.number(), out_of_range.block), (7, 0));
    for edition in OTHERS {
        for record in [&good[..], &good[..7], &[], &refused, &outside, &[0; 13]] {
            assert_eq!(reply(edition, record), 7);
            assert_eq!(locate_bit(edition, record, 0), Err(out_of_range));
            assert_eq!(bit_position(edition, record, 0, 0), Err(out_of_range));
            for page in [&[0x55; 15][..], &[]] {
                let mut lent = [0xA5; 15];
                let written = write_page(edition, record, &[], &[0; 8], &mut lent[..page.len()]);
                assert_eq!(written, Err(out_of_range));
                let looked = look_page(edition, record, page, &mut lent[..2]);
                assert_eq!(looked, Err(out_of_range));
                let taken = take_page(edition, record, page, &mut [], &mut lent[..8]);
                assert_eq!(taken, Err(out_of_range));
                assert_eq!(lent, [0xA5; 15]);
                assert_eq!(judge_block(edition, record, page, 0), Err(out_of_range));
                let claimed = check_claim(edition, record, page, 0, &[58]);
                assert_eq!(claimed, Err(out_of_range));
            }
        }
        for (level_field, n, remainder) in [(1, 27, &[0; 4][..]), (32, 0, &[]), (1, 27, &[])] {
            let mut places = [7; 2];
            let located = locate_errors(edition, level_field, 0, n, remainder, &mut places);
            assert_eq!((located, places), (Err(out_of_range), [7; 2]));
        }
        for (level_field, length) in [(1, 4), (32, 4), (1, 0), (1, 2000)] {
            let mut state = [9; STATE_WORDS];
            let started = start_state(&mut state, edition, level_field, 0, length);
            assert_eq!((started, state), (Err(out_of_range), [9; STATE_WORDS]));
        }
    }
}

/// A level field handed in as a number is 1 above 0x14 in edition 1 and above 0x1F in edition 2.
#[test]
fn level_fields_as_numbers() {
    let fields = [0x14, 0x15, 0x1E, 0x1F, 0x20, 256, (1 << 32) + 1, u64::MAX];
    for edition in Edition::ALL {
        for level_field in fields {
            let expected = match level_field > edition.highest_level_field() {
                true => 1,
                false => 0,
            };
            for choice in FieldChoice::ALL {
                let bytes = (choice.field().m * 2 * level_field.min(64) as usize).div_ceil(8);
                let mut places = vec![0; 2 * level_field.min(64) as usize];
                let located = locate_errors(
                    edition as u64,
                    level_field,
                    choice as u64,
                    8000,
                    &vec![0; bytes],
                    &mut places,
                );
                assert_eq!(number(located), expected);
                let started = Pieces::start(edition as u64, level_field, choice as u64, 9);
                assert_eq!(number(started), expected);
            }
        }
    }
    assert_eq!(number(Pieces::start(2, 0x1F, 0, 923)), 0);
    assert_eq!(number(Pieces::start(2, 0x1F, 0, 924)), 3);
    assert_eq!(number(locate_errors(1, 0x15, 2, 0, &[], &mut [])), 7);
    assert_eq!(number(locate_errors(2, 0x20, 1, 0, &[], &mut [])), 1);
}

/// A page of the strongest levels reads back with t flips in each block, and with t zeros in erased blocks the
/// counts go to 128 + 62; one more is refused. In edition 1 the same page is refused with 1.
#[test]
fn pages_of_the_second_edition() {
    let mut random = Random::new(132);
    for level_field in 0x15..=0x1F {
        let record = strong_words(level_field).pack();
        let layout = check_layout(2, &record).unwrap();
        let t = 2 * level_field as usize;
        let (metadata, data) = (random.bytes(3), random.bytes(layout.data_length()));
        let mut written = vec![0xA5; layout.page_length];
        let reply = write_page(2, &record, &metadata, &data, &mut written);
        assert_eq!(reply, Ok(()));
        let ones = vec![0xFF; layout.page_length];
        for (before, base) in [(&written, 0), (&ones, 128)] {
            let mut page = before.clone();
            for block in 0..2 {
                let n = layout.block(block).covered_bits();
                for exponent in random.distinct(t, n) {
                    flip(&mut page, layout.code_place(block, exponent));
                }
            }
            let mut counts = [0; 2];
            assert_eq!(look_page(2, &record, &page, &mut counts), Ok(()));
            assert_eq!(counts, [(base + t) as u8; 2]);
            assert_eq!(judge_block(2, &record, &page, 1), Ok(base + t));
            let mut taken = (vec![0; 3], vec![0; data.len()]);
            let reply = take_page(2, &record, &page, &mut taken.0, &mut taken.1);
            assert_eq!(reply, Ok(()));
            let expected = match base {
                0 => (metadata.clone(), data.clone()),
                _ => (vec![0xFF; 3], vec![0xFF; data.len()]),
            };
            assert_eq!(taken, expected);
            assert_eq!(number(look_page(1, &record, &page, &mut counts)), 1);
        }
        let mut ruined = ones.clone();
        for exponent in random.distinct(t + 1, layout.block(1).covered_bits()) {
            flip(&mut ruined, layout.code_place(1, exponent));
        }
        let refused = Err(Refusal::uncorrectable(1));
        assert_eq!(judge_block(2, &record, &ruined, 1), refused);
    }
}

/// A state has no edition: one that edition 2 has started is fed and finished, and the parity is the one that
/// the page has.
#[test]
fn states_have_no_edition() {
    let mut random = Random::new(133);
    for choice in FieldChoice::ALL {
        for level_field in 0x14..=0x1F {
            let record = one_block(level_field, choice as u8, 9).pack();
            let layout = check_layout(2, &record).unwrap();
            let (metadata, data) = (random.bytes(1), random.bytes(8));
            let mut page = vec![0; layout.page_length];
            write_page(2, &record, &metadata, &data, &mut page).unwrap();

            let mut state = [9; STATE_WORDS];
            let level = level_field as u64;
            start_state(&mut state, 2, level, choice as u64, 9).unwrap();
            feed_state(&mut state, &metadata).unwrap();
            feed_state(&mut state, &data).unwrap();
            let bits = choice.field().m * 2 * level_field as usize;
            let mut parity = vec![0; bits.div_ceil(8)];
            finish_state(&state, &mut parity).unwrap();
            let parity = bits_of(&parity);
            assert_eq!(parity[parity.len() - bits..], bits_of(&page)[72..72 + bits]);
        }
    }
    let mut state = [0; STATE_WORDS];
    state[..3].copy_from_slice(&[0x20, 0, 9]);
    let refused = Err(Reply::OutOfRange.into());
    assert_eq!(feed_state(&mut state, &[]), refused);
    assert_eq!(finish_state(&state, &mut []), refused);
}
