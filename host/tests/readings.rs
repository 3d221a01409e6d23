//! Two readings of one page (document 02, E10).

use model::bits::flip;
use model::layout::{LayoutRecord, LayoutWords};
use model::random::Random;
use model::readings::{BlockLine, printed};
use model::samples::layouts::{CASE_E, accepted_words};
use model::samples::marks::{marked, with_mark};
use model::samples::pages::{WrittenPage, damage, damage_tail};
use model::{compare_readings, judge_block, locate_bit};

/// Case F's page under case E's layout.
fn page_of_zeros() -> Vec<u8> {
    let mut page = vec![0; 15];
    page[14] = 0x0F;
    page
}

#[test]
fn the_papers_example() {
    let first = page_of_zeros();
    let mut second = first.clone();
    second[7] = 0x20;
    let text = printed(1, &CASE_E.pack(), &first, &second);
    assert_eq!(text, "block first second change\n0 0 0 0\n1 0 1 1\n58\n");
    let text = printed(1, &CASE_E.pack(), &second, &first);
    assert_eq!(text, "block first second change\n0 0 0 0\n1 1 0 -1\n58\n");
    let text = printed(1, &CASE_E.pack(), &first, &first);
    assert_eq!(text, "block first second change\n0 0 0 0\n1 0 0 0\n");
}

#[test]
fn a_refusal_is_its_number() {
    let page = page_of_zeros();
    let record = CASE_E.pack();
    let answer = |edition, record: &[u8], first: &[u8], second: &[u8]| {
        printed(edition, record, first, second)
    };
    assert_eq!(answer(1, &record, &page, &page[1..]), "reply 5\n");
    assert_eq!(answer(1, &record, &page[1..], &page), "reply 5\n");
    assert_eq!(answer(3, &record, &page, &page), "reply 7\n");
    assert_eq!(answer(1, &record[1..], &page, &page), "reply 6\n");
    let small = LayoutWords {
        page_size: 14,
        ..CASE_E
    };
    assert_eq!(answer(1, &small.pack(), &page, &page), "reply 4\n");
}

#[test]
fn pages_of_16384_bytes_are_the_largest() {
    let mut random = Random::new(1);
    for (page_size, reply) in [(16384, 0), (16385, 6), (65535, 6)] {
        let words = LayoutWords {
            page_size,
            ..CASE_E
        };
        let written = WrittenPage::new(words, &mut random);
        let mut second = written.page.clone();
        let last = 8 * second.len() - 1;
        flip(&mut second, last);
        let report = compare_readings(1, &written.record, &written.page, &second);
        match report {
            Ok(report) => assert_eq!((report.positions, reply), (vec![last], 0)),
            Err(refusal) => assert_eq!(refusal.number(), reply),
        }
        let shorter = compare_readings(1, &written.record, &written.page, &second[1..]);
        assert_eq!(shorter.unwrap_err().number(), 5);
    }
}

#[test]
fn changes_go_down_to_62_below_zero() {
    let words = LayoutWords {
        nblocks: 0,
        ecc0: 0x1F,
        data0_size: 8,
        page_size: 150,
        ..CASE_E
    };
    let mut random = Random::new(2);
    let written = WrittenPage::new(words, &mut random);
    let mut worn = written.page.clone();
    damage(&mut worn, &written.layout, 0, 62, &mut random);
    let change = |first: &[u8], second: &[u8]| {
        compare_readings(2, &written.record, first, second)
            .unwrap()
            .blocks[0]
            .change()
    };
    assert_eq!(change(&worn, &written.page), Some(-62));
    assert_eq!(change(&written.page, &worn), Some(62));
    assert_eq!(change(&worn, &worn), Some(0));
}

#[test]
fn a_ruined_block_has_no_change() {
    let number = |first, second| BlockLine { first, second }.change();
    assert_eq!(number(None, Some(3)), None);
    assert_eq!(number(Some(3), None), None);
    assert_eq!(number(None, None), None);
}

/// The numbers are those of judging each block, and the positions those that Bits does not answer as mark.
#[test]
fn lines_and_positions_on_many_pages() {
    let mut random = Random::new(3);
    for i in 0..200 {
        let words = accepted_words(&mut random, 60);
        let record = if i % 2 == 0 {
            LayoutRecord::from(words)
        } else {
            marked(words, &mut random)
        };
        let written = WrittenPage::new(record, &mut random);
        let mut first = written.damaged(&mut random);
        damage_tail(&mut first, &written.layout, &mut random);
        let second = match i % 3 {
            0 => written.erased(&mut random).0,
            1 => written.ruined(&mut random),
            _ => written.overdamaged(&mut random).0,
        };
        let (edition, record) = (written.edition, &written.record);
        let report = compare_readings(edition, record, &first, &second).unwrap();
        for (number, line) in report.blocks.iter().enumerate() {
            let judged = |page: &[u8]| {
                let count = judge_block(edition, record, page, number as u64).ok()?;
                Some(count % 128)
            };
            assert_eq!((line.first, line.second), (judged(&first), judged(&second)));
        }
        let differ = |position: usize| {
            (first[position / 8] ^ second[position / 8]) & 0x80 >> (position % 8) != 0
        };
        let listed: Vec<usize> = (0..8 * first.len())
            .filter(|&position| differ(position))
            .filter(|&position| {
                let place = locate_bit(edition, record, position as u64).unwrap();
                place != model::BitPlace::Mark
            })
            .collect();
        assert_eq!(report.positions, listed);
    }
}

#[test]
fn marks_are_not_listed() {
    let mut random = Random::new(4);
    let written = WrittenPage::new(with_mark(CASE_E, 7, 2), &mut random);
    let other: Vec<u8> = written.page.iter().map(|byte| !byte).collect();
    let report = compare_readings(written.edition, &written.record, &written.page, &other);
    let positions = report.unwrap().positions;
    assert_eq!(positions, (0..56).chain(72..136).collect::<Vec<_>>());
}
