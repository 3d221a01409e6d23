//! Vectors of two readings of one page. What is to be printed is what the tool prints of two pages.

use crate::{Answer, Vectors};
use model::bits::flip;
use model::layout::{LayoutRecord, LayoutWords, MarkWord};
use model::random::Random;
use model::readings::printed;
use model::samples::erased::edge_layouts;
use model::samples::layouts::{CASE_A, CASE_E, NO_EDITIONS, accepted_words, strong_words};
use model::samples::marks::{marked, outside, with_mark};
use model::samples::pages::{WrittenPage, damage, damage_tail};

pub fn vectors() -> Vectors {
    let mut vectors = Vectors::default();
    let mut random = Random::new(0xC03A);
    document_case(&mut vectors);
    for words in strongest() {
        ends(&mut vectors, words, &mut random);
    }
    for i in 0..60 {
        let words = accepted_words(&mut random, [20, 40, 70, 120][i % 4]);
        add_readings(&mut vectors, words.into(), &mut random);
    }
    for words in [edge_layouts(); 2].concat() {
        add_readings(&mut vectors, words.into(), &mut random);
        let record = marked(words, &mut random);
        add_readings(&mut vectors, record, &mut random);
    }
    for _ in 0..6 {
        let words = strong_words(&mut random);
        add_readings(&mut vectors, words.into(), &mut random);
    }
    marks(&mut vectors, &mut random);
    sizes(&mut vectors, &mut random);
    refusals(&mut vectors, &mut random);
    vectors
}

/// A vector: a head of 40 bytes as those of the page calls have it, with the lengths of the two pages, and the pages.
fn add(vectors: &mut Vectors, edition: u64, record: &[u8], first: &[u8], second: &[u8]) {
    let mut head = [0; 40];
    head[0] = b'R';
    head[1] = record.len() as u8;
    head[2..10].copy_from_slice(&edition.to_be_bytes());
    head[10..10 + record.len()].copy_from_slice(record);
    head[24..28].copy_from_slice(&(first.len() as u32).to_be_bytes());
    head[28..32].copy_from_slice(&(second.len() as u32).to_be_bytes());
    let text = printed(edition, record, first, second);
    let reply = text
        .strip_prefix("reply ")
        .map_or(0, |number| number.trim_end().parse().unwrap());
    let answer = Answer::text(reply, text.trim_end());
    vectors.add(&[&head, first, second].concat(), answer);
}

/// Case F's page, and the same with byte 7 = 0x20.
fn document_case(vectors: &mut Vectors) {
    let record = CASE_E.pack();
    let mut first = vec![0; 15];
    first[14] = 0x0F;
    let mut second = first.clone();
    second[7] = 0x20;
    add(vectors, 1, &record, &first, &second);
    add(vectors, 1, &record, &second, &first);
    add(vectors, 1, &record, &first, &first);
}

/// One block of the highest level in each field.
fn strongest() -> [LayoutWords; 2] {
    [0, 1].map(|gf| LayoutWords {
        nblocks: 0,
        meta_size: 0,
        ecc0: 0x1F,
        gf0: gf,
        data0_size: 8,
        page_size: 150,
        eccn: 0,
        gfn: 0,
        datan_size: 0,
    })
}

/// The change at both ends of its range, -t and t, and on both sides of zero, of written blocks and of erased ones.
fn ends(vectors: &mut Vectors, words: LayoutWords, random: &mut Random) {
    let written = WrittenPage::new(words, random);
    let t = written.layout.block(0).t();
    let worn = |flips: usize, random: &mut Random| {
        let mut page = written.page.clone();
        damage(&mut page, &written.layout, 0, flips, random);
        page
    };
    let zeros = |zeros: usize| {
        let mut page = vec![0xFF; written.page.len()];
        for position in written.layout.block_places(0).into_iter().take(zeros) {
            flip(&mut page, position);
        }
        page
    };
    let pages = [
        written.page.clone(),
        worn(1, random),
        worn(t, random),
        worn(t + 1, random),
        zeros(0),
        zeros(1),
        zeros(t),
        zeros(t + 1),
    ];
    for first in &pages {
        for second in &pages {
            add(vectors, 2, &written.record, first, second);
        }
    }
}

/// Readings of a page: worn, worn further, with the tail and the mark alone turned over, erased and ruined.
fn add_readings(vectors: &mut Vectors, record: LayoutRecord, random: &mut Random) {
    let written = WrittenPage::new(record, random);
    let mut beside = written.page.clone();
    damage_tail(&mut beside, &written.layout, random);
    let pages = [
        written.page.clone(),
        beside,
        written.damaged(random),
        written.overdamaged(random).0,
        written.erased(random).0,
        written.ruined(random),
    ];
    let edition = written.edition;
    for _ in 0..3 {
        let [first, second] = [0, 1].map(|_| random.below(pages.len()));
        add(
            vectors,
            edition,
            &written.record,
            &pages[first],
            &pages[second],
        );
    }
    add(vectors, edition, &written.record, &pages[0], &pages[1]);
    add(vectors, edition, &written.record, &pages[2], &pages[5]);
}

/// Marks at the first byte, inside and at the last byte, with every bit of the page turned over.
fn marks(vectors: &mut Vectors, random: &mut Random) {
    for (offset, length) in [(0, 1), (0, 3), (7, 2), (14, 1), (15, 1), (15, 255), (4, 0)] {
        let written = WrittenPage::new(with_mark(CASE_E, offset, length), random);
        let other: Vec<u8> = written.page.iter().map(|byte| !byte).collect();
        add(
            vectors,
            written.edition,
            &written.record,
            &written.page,
            &other,
        );
    }
}

/// The largest page that is compared, and one byte more.
fn sizes(vectors: &mut Vectors, random: &mut Random) {
    for page_size in [16384, 16385] {
        let written = WrittenPage::new(
            LayoutWords {
                page_size,
                ..CASE_E
            },
            random,
        );
        let mut second = written.page.clone();
        let last = 8 * second.len() - 1;
        for position in [0, 57, 58, 115, 116, 1000, last - 8, last] {
            flip(&mut second, position);
        }
        let (edition, record) = (written.edition, &written.record);
        add(vectors, edition, record, &written.page, &second);
        add(vectors, edition, record, &second[1..], &written.page);
        add(vectors, edition, record, &second, &written.page[1..]);
    }
}

/// Lengths of pages and of records, editions, and each rule of a layout.
fn refusals(vectors: &mut Vectors, random: &mut Random) {
    let written = WrittenPage::new(CASE_E, random);
    let (record, page) = (&written.record, &written.page);
    let longer = [page.as_slice(), &[0]].concat();
    let shorter = &page[..14];
    for (first, second) in [
        (page.as_slice(), shorter),
        (shorter, page),
        (page, longer.as_slice()),
        (longer.as_slice(), page),
        (longer.as_slice(), longer.as_slice()),
        (&[], page),
        (page, &[]),
        (&[], &[]),
    ] {
        add(vectors, 1, record, first, second);
    }
    for edition in NO_EDITIONS {
        add(vectors, edition, record, page, page);
        add(vectors, edition, &record[..7], page, shorter);
    }
    for length in [0, 1, 7, 9, 11] {
        add(
            vectors,
            1,
            &[record.as_slice(), &[0; 4]].concat()[..length],
            page,
            page,
        );
    }
    let broken = [
        LayoutWords {
            ecc0: 0x15,
            ..CASE_E
        },
        LayoutWords {
            data0_size: 0,
            ..CASE_E
        },
        LayoutWords {
            datan_size: 0,
            ..CASE_E
        },
        LayoutWords {
            datan_size: 1023,
            ..CASE_E
        },
        LayoutWords {
            page_size: 14,
            ..CASE_E
        },
        LayoutWords {
            page_size: 4313,
            ..CASE_A
        },
    ];
    for words in broken {
        add(vectors, 1, &words.pack(), page, page);
        add(vectors, 2, &words.pack(), shorter, page);
    }
    for _ in 0..4 {
        let mark: Option<MarkWord> = Some(outside(CASE_E.page_size, random));
        let record = LayoutRecord {
            words: CASE_E,
            mark,
        };
        add(vectors, 1, &record.pack(), page, shorter);
    }
}
