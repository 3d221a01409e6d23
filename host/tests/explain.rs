//! Why a layout is refused, what became of a block, and what a page bit is (document 02, E2), in the model.

use model::explain::{About, BitPart, Explained, Why, page_parts};
use model::layout::{LayoutRecord, LayoutWords};
use model::random::Random;
use model::samples::layouts::accepted_words;
use model::samples::marks::marked;
use model::samples::pages::{WrittenPage, damage};
use model::{
    Reply, bit_position, explain_bit, explain_block, explain_layout, judge_block, write_page,
};

/// Case A of document 01.
const WORDS: LayoutWords = LayoutWords {
    nblocks: 7,
    meta_size: 10,
    ecc0: 8,
    gf0: 0,
    data0_size: 128,
    page_size: 4314,
    eccn: 8,
    gfn: 0,
    datan_size: 128,
};

fn why(edition: u64, record: impl Into<LayoutRecord>) -> Option<(Reply, About, u64, u64)> {
    let told = |why: Why| (why.reply, why.about, why.found, why.limit);
    explain_layout(edition, &record.into().pack())
        .err()
        .map(told)
}

/// The rules with the numbers that the paper names, block 0 first, and the smallest number first.
#[test]
fn a_refused_layout_names_rule_block_and_numbers() {
    use About::{Block0, LaterBlock, Page};
    assert_eq!(why(1, WORDS), None);
    let high = |ecc0, eccn| LayoutWords {
        ecc0,
        eccn,
        ..WORDS
    };
    assert_eq!(
        why(1, high(21, 31)),
        Some((Reply::LevelTooHigh, Block0, 21, 20))
    );
    assert_eq!(
        why(1, high(8, 31)),
        Some((Reply::LevelTooHigh, LaterBlock, 31, 20))
    );
    let empty = LayoutWords {
        datan_size: 0,
        ..WORDS
    };
    assert_eq!(why(1, empty), Some((Reply::EmptyMessage, LaterBlock, 0, 1)));
    let long = LayoutWords {
        data0_size: 1023,
        ..WORDS
    };
    assert_eq!(
        why(1, long),
        Some((Reply::BlockTooLong, Block0, 33024, 8191))
    );
    let small = LayoutWords {
        page_size: 4313,
        ..WORDS
    };
    assert_eq!(
        why(1, small),
        Some((Reply::PageTooSmall, Page, 34512, 34504))
    );
    let by_number = LayoutWords {
        data0_size: 1023,
        eccn: 21,
        ..WORDS
    };
    assert_eq!(
        why(1, by_number),
        Some((Reply::LevelTooHigh, LaterBlock, 21, 20))
    );
    assert_eq!(
        why(3, WORDS),
        Some((Reply::OutOfRange, About::Edition, 3, 2))
    );
}

/// The list has the damaged positions, ascending, and the places behind them keep what they held.
#[test]
fn the_listed_flips_are_the_damage() {
    let mut random = Random::new(2);
    for _ in 0..60 {
        let words = accepted_words(&mut random, 250);
        let record = match random.chance(2) {
            true => marked(words, &mut random),
            false => words.into(),
        };
        let written = WrittenPage::new(record, &mut random);
        let block = random.below(written.layout.blocks());
        let t = written.layout.block(block).t();
        let count = random.below(t + 1);
        let mut page = written.page.clone();
        let errors = damage(&mut page, &written.layout, block, count, &mut random);
        let (edition, record) = (written.edition, &written.record);
        let mut list = vec![7; t + 1];
        let explained = explain_block(edition, record, &page, block as u64, &mut list);
        assert_eq!(explained, Ok(Explained::Flips { count, t }));
        let position = |&e| bit_position(edition, record, block as u64, e as u64).unwrap() as u32;
        let expected: Vec<u32> = errors.iter().rev().map(position).collect();
        assert_eq!(list[..count], expected);
        assert!(list[..count].is_sorted() && list[count..].iter().all(|&place| place == 7));
        assert_eq!(judge_block(edition, record, &page, block as u64), Ok(count));
    }
}

/// Turning one bit of the payload over changes, of the bits that are called metadata or data, the one of its byte alone.
#[test]
fn the_parts_of_a_written_page_are_what_they_are_called() {
    let mut random = Random::new(3);
    for _ in 0..20 {
        let record = marked(accepted_words(&mut random, 120), &mut random);
        let written = WrittenPage::new(record, &mut random);
        let parts = page_parts(&written.layout);
        for byte in 0..written.data.len() {
            let mut data = written.data.clone();
            data[byte] ^= 1 << random.below(8);
            let mut page = written.page.clone();
            let (edition, record) = (written.edition, &written.record);
            write_page(edition, record, &written.metadata, &data, &mut page).unwrap();
            let differs = |p: usize| (page[p / 8] ^ written.page[p / 8]) >> (7 - p % 8) & 1 == 1;
            let changed: Vec<BitPart> = (0..parts.len())
                .filter(|&p| differs(p))
                .map(|p| parts[p])
                .collect();
            let of_data =
                |part: &&BitPart| matches!(part, BitPart::Data { byte: b, .. } if *b == byte);
            assert_eq!(changed.iter().filter(of_data).count(), 1);
            let others = changed.iter().filter(|part| !of_data(part));
            assert!(
                others
                    .into_iter()
                    .all(|part| matches!(part, BitPart::Parity { .. }))
            );
        }
        for (position, &part) in parts.iter().enumerate() {
            let told = explain_bit(written.edition, &written.record, position as u64);
            assert_eq!(told, Ok(part), "position {position}");
        }
        let bits = 8 * written.page.len() as u64;
        let past = explain_bit(written.edition, &written.record, bits).unwrap_err();
        assert_eq!(
            (past.reply, past.about, past.found, past.limit),
            (Reply::OutOfRange, About::Position, bits, bits)
        );
    }
}
