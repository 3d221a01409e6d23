//! The factory's mark (document 02, E7).

use model::bits::flip;
use model::edition::Edition;
use model::layout::{LayoutRecord, LayoutWords, MarkWord, Part, Reason};
use model::random::Random;
use model::samples::edges::{OF_MARK, add, mark_edges};
use model::samples::erased::edge_layouts;
use model::samples::layouts::{CASE_A, CASE_E, accepted_words};
use model::samples::marks::{marked, with_mark};
use model::samples::pages::{WrittenPage, damage, damage_tail};
use model::*;

fn record(words: LayoutWords, offset: u16, length: u8, zero_bits: u8) -> Vec<u8> {
    let mark = MarkWord {
        offset,
        length,
        zero_bits,
    };
    let mark = Some(mark);
    LayoutRecord { words, mark }.pack()
}

fn reply(record: &[u8]) -> u8 {
    check_layout(1, record).map_or_else(|refusal| refusal.number(), |_| 0)
}

/// The reply's number and the two numbers compared.
fn reason(record: &[u8]) -> (u8, usize, usize) {
    let layout = Layout::from(LayoutRecord::unpack(record).unwrap());
    let Reason {
        reply: rule,
        part,
        found,
        limit,
    } = layout.reason(Edition::First).unwrap();
    assert_eq!((part, reply(record)), (Part::Page, rule as u8));
    (rule as u8, found, limit)
}

/// Layouts with marks at every edge, each beside the words whose page is its stream.
fn samples(random: &mut Random) -> Vec<(LayoutRecord, LayoutWords)> {
    let mut all = Vec::new();
    for most_page_bytes in [20, 40, 70, 120, 250] {
        all.extend((0..30).map(|_| accepted_words(random, most_page_bytes)));
    }
    all.extend([edge_layouts(); 6].concat());
    let samples = all.into_iter().map(|words| (marked(words, random), words));
    let samples: Vec<(LayoutRecord, LayoutWords)> = samples.collect();
    let mut met = [0; OF_MARK];
    for &(record, _) in &samples {
        add(&mut met, mark_edges(&record.into()));
    }
    assert!(met.iter().all(|&times| times > 0), "{met:?}");
    samples
}

/// A page without the bytes of its mark.
fn without_mark(page: &[u8], layout: &Layout) -> Vec<u8> {
    let first = layout.mark.offset as usize;
    let after = first + layout.mark.length as usize;
    [&page[..first], &page[after..]].concat()
}

/// The same page with another mark.
fn with_other_mark(page: &[u8], layout: &Layout, random: &mut Random) -> Vec<u8> {
    let mut page = page.to_vec();
    for position in layout.mark_places() {
        if random.chance(2) {
            flip(&mut page, position);
        }
    }
    page
}

#[test]
fn records_have_eight_bytes_or_twelve() {
    let twelve = record(CASE_E, 0, 0, 0);
    assert_eq!(twelve.len(), 12);
    let longer = [twelve.clone(), vec![0; 12]].concat();
    for length in 0..=24 {
        let right = [8, 12].contains(&length);
        assert_eq!(reply(&longer[..length]), if right { 0 } else { 6 });
    }
    assert_eq!(record(CASE_E, 0x0102, 0x03, 0x04)[8..], [1, 2, 3, 4]);
}

/// Offset plus length beyond PAGE_SIZE, which is 15 under case E, or the zero bits not zero: the sum is shown
/// where it is not allowed.
#[test]
fn marks_outside_the_page() {
    let roomy = LayoutWords {
        page_size: 400,
        ..CASE_E
    };
    for (offset, length) in [(0, 0), (400, 0), (399, 1), (145, 255), (0, 255), (1, 0)] {
        assert_eq!(reply(&record(roomy, offset, length, 0)), 0);
        for zero_bits in [1, 0x80, 0xFF] {
            let shown = (11, zero_bits as usize, 0);
            assert_eq!(reason(&record(roomy, offset, length, zero_bits)), shown);
        }
    }
    for (offset, length) in [(401, 0), (400, 1), (146, 255), (0xFFFF, 0), (0xFFFF, 255)] {
        let shown = (11, offset as usize + length as usize, 400);
        assert_eq!(reason(&record(roomy, offset, length, 0)), shown);
        assert_eq!(reason(&record(roomy, offset, length, 0xFF)), shown);
    }
}

/// Rule 4 counts 8 times (PAGE_SIZE - length) bits: 116 are needed under case E.
#[test]
fn a_mark_takes_room() {
    let sized = |page_size| LayoutWords {
        page_size,
        ..CASE_E
    };
    assert_eq!(reply(&record(sized(15), 3, 0, 0)), 0);
    assert_eq!(reason(&record(sized(15), 3, 1, 0)), (4, 116, 8 * 14));
    assert_eq!(reply(&record(sized(16), 3, 1, 0)), 0);
    assert_eq!(reason(&record(sized(269), 0, 255, 0)), (4, 116, 8 * 14));
    assert_eq!(reply(&record(sized(270), 0, 255, 0)), 0);
    assert_eq!(reply(&CASE_A.pack()), 0);
    assert_eq!(reason(&record(CASE_A, 0, 1, 0)), (4, 34512, 34504));
}

/// No page is all mark and tail, since a block has a message: a mark as long as the page is 4, and the least
/// that may stand beside a mark is one byte.
#[test]
fn a_page_of_mark_and_tail_is_refused() {
    let byte = LayoutWords {
        nblocks: 0,
        meta_size: 1,
        ecc0: 0,
        data0_size: 0,
        ..CASE_E
    };
    for length in [1, 2, 255] {
        let page_size = length as u16;
        let all = LayoutWords { page_size, ..byte };
        assert_eq!(reason(&record(all, 0, length, 0)), (4, 8, 0));
        let page_size = page_size + 1;
        let but_one = LayoutWords { page_size, ..byte };
        for offset in [0, 1] {
            let record = record(but_one, offset, length, 0);
            let mut page = vec![0xA5; page_size as usize];
            assert_eq!(write_page(1, &record, &[0x3C], &[], &mut page), Ok(()));
            let mut expected = vec![0xA5; page_size as usize];
            expected[if offset == 0 { length as usize } else { 0 }] = 0x3C;
            assert_eq!(page, expected);
        }
    }
}

/// 1, 2 and 3 are looked at before 11, and 11 before 4; whatever else is wrong comes after.
#[test]
fn precedence_of_marks() {
    let refused_by = |word0: u32, word1: u32, third: u32| {
        let words = [word0, word1, third];
        reply(&words.map(u32::to_be_bytes).concat())
    };
    assert_eq!(refused_by(0x0100_0801, 0x000F_A801, !0), 1);
    assert_eq!(refused_by(0x0100_0800, 0x000F_0801, !0), 2);
    assert_eq!(refused_by(0x0100_0801, 0x000F_0BFF, !0), 3);
    assert_eq!(refused_by(0x0100_0801, 0x0000_0801, !0), 11);
    assert_eq!(refused_by(0x0100_0801, 0x0000_0801, 1), 11);
    assert_eq!(refused_by(0x0100_0801, 0x0000_0801, 0), 4);

    let wrong = record(CASE_E, 16, 0, 0);
    let refused = Refusal::from(Reply::MarkOutside);
    assert_eq!((refused.number(), refused.block), (11, 0));
    assert_eq!(locate_bit(1, &wrong, u64::MAX), Err(refused));
    assert_eq!(bit_position(1, &wrong, 9, 0), Err(refused));
    assert_eq!(write_page(1, &wrong, &[0], &[], &mut [0; 3]), Err(refused));
    assert_eq!(look_page(1, &wrong, &[0; 3], &mut []), Err(refused));
    assert_eq!(
        take_page(1, &wrong, &[0; 3], &mut [], &mut []),
        Err(refused)
    );
    assert_eq!(judge_block(1, &wrong, &[0; 3], 9), Err(refused));
    assert_eq!(check_claim(1, &wrong, &[0; 3], 9, &[58]), Err(refused));
}

/// Under case E with a mark of two bytes: where each bit stands.
#[test]
fn case_e_with_a_mark() {
    let covered = |block, exponent| Ok(BitPlace::Covered { block, exponent });
    let first = with_mark(CASE_E, 0, 2).pack();
    assert_eq!(locate_bit(1, &first, 0), Ok(BitPlace::Mark));
    assert_eq!(locate_bit(1, &first, 15), Ok(BitPlace::Mark));
    assert_eq!(locate_bit(1, &first, 16), covered(0, 57));
    assert_eq!(bit_position(1, &first, 0, 57), Ok(16));
    assert_eq!(locate_bit(1, &first, 132), Ok(BitPlace::Tail));

    let parity = with_mark(CASE_E, 7, 2).pack();
    assert_eq!(locate_bit(1, &parity, 55), covered(0, 2));
    assert_eq!(locate_bit(1, &parity, 56), Ok(BitPlace::Mark));
    assert_eq!(locate_bit(1, &parity, 71), Ok(BitPlace::Mark));
    assert_eq!(locate_bit(1, &parity, 72), covered(0, 1));
    assert_eq!(locate_bit(1, &parity, 74), covered(1, 57));
    assert_eq!(bit_position(1, &parity, 1, 57), Ok(74));

    let last = with_mark(CASE_E, 15, 2).pack();
    assert_eq!(locate_bit(1, &last, 119), Ok(BitPlace::Tail));
    assert_eq!(locate_bit(1, &last, 120), Ok(BitPlace::Mark));
    assert_eq!(locate_bit(1, &last, 135), Ok(BitPlace::Mark));
    assert_eq!(locate_bit(1, &last, 136), Err(Reply::OutOfRange.into()));

    let mut page = [0x5A; 17];
    assert_eq!(write_page(1, &parity, &[], &[0; 8], &mut page), Ok(()));
    let written = [vec![0; 7], vec![0x5A; 2], vec![0; 7], vec![0x0F]].concat();
    assert_eq!(page[..], written);
}

/// Every page position is in one block, in the tail or in the mark, and no two code bits share one; the stream
/// runs through all the others in order.
#[test]
fn bits_go_both_ways_around_a_mark() {
    let mut random = Random::new(71);
    for (sample, _) in samples(&mut random) {
        let record = sample.pack();
        let layout = check_layout(2, &record).unwrap();
        let mut expected = layout.stream();
        for block in 0..layout.blocks() {
            for exponent in (0..layout.block(block).covered_bits()).rev() {
                let position = bit_position(2, &record, block as u64, exponent as u64).unwrap();
                assert_eq!(expected.next(), Some(position));
                let place = BitPlace::Covered { block, exponent };
                assert_eq!(locate_bit(2, &record, position as u64), Ok(place));
            }
        }
        for position in expected {
            assert_eq!(locate_bit(2, &record, position as u64), Ok(BitPlace::Tail));
        }
        let marked = |byte: usize| {
            let first = layout.mark.offset as usize;
            (first..first + layout.mark.length as usize).contains(&byte)
        };
        for position in 0..8 * layout.page_length {
            let is_mark = locate_bit(2, &record, position as u64) == Ok(BitPlace::Mark);
            assert_eq!(is_mark, marked(position / 8));
        }
        assert_eq!(layout.stream().count(), layout.stream_bits());
        assert!(layout.stream().all(|position| !marked(position / 8)));
        assert!(layout.stream().is_sorted());
    }
}

/// A page without its mark is the page of the same words with PAGE_SIZE less by the mark's length: it is
/// written, looked at, taken, judged and claimed about alike. The mark keeps what the page held.
#[test]
fn a_page_around_a_mark_is_a_page_without() {
    let mut random = Random::new(72);
    for (sample, words) in samples(&mut random) {
        let (record, plain) = (sample.pack(), words.pack());
        let written = WrittenPage::new(sample, &mut random);
        let layout = &written.layout;
        let held = random.bytes(layout.page_length);
        let (mut page, mut cut) = (held.clone(), without_mark(&held, layout));
        let (metadata, data) = (&written.metadata, &written.data);
        assert_eq!(
            write_page(written.edition, &record, metadata, data, &mut page),
            Ok(())
        );
        assert_eq!(
            write_page(written.edition, &plain, metadata, data, &mut cut),
            Ok(())
        );
        assert_eq!(without_mark(&page, layout), cut);
        let mark = layout.mark_places();
        let bytes = mark.start / 8..mark.end / 8;
        assert_eq!(page[bytes.clone()], held[bytes]);

        let pages = [
            written.damaged(&mut random),
            written.overdamaged(&mut random).0,
            written.erased(&mut random).0,
            written.ruined(&mut random),
            random.bytes(layout.page_length),
        ];
        for page in pages {
            same_answers(&written, &page, &plain, &without_mark(&page, layout));
            let other = with_other_mark(&page, layout, &mut random);
            same_answers(&written, &page, &record, &other);
        }
    }
}

/// Another record and page answer as those of a written page do.
fn same_answers(written: &WrittenPage, page: &[u8], other_record: &[u8], other_page: &[u8]) {
    let look = |record: &[u8], page: &[u8]| {
        let mut counts = vec![0xA5; written.layout.blocks()];
        (
            look_page(written.edition, record, page, &mut counts),
            counts,
        )
    };
    let take = |record: &[u8], page: &[u8]| {
        let mut taken = (vec![0xA5; written.metadata.len()], written.data.clone());
        let reply = take_page(written.edition, record, page, &mut taken.0, &mut taken.1);
        (reply, taken)
    };
    let record = &written.record;
    assert_eq!(look(record, page), look(other_record, other_page));
    assert_eq!(take(record, page), take(other_record, other_page));
    for block in 0..=written.layout.blocks() as u64 {
        let judged = judge_block(written.edition, record, page, block);
        assert_eq!(
            judged,
            judge_block(written.edition, other_record, other_page, block)
        );
        for claims in [&[][..], &[0], &[7, 9]] {
            let claimed = check_claim(written.edition, record, page, block, claims);
            assert_eq!(
                claimed,
                check_claim(written.edition, other_record, other_page, block, claims)
            );
        }
    }
}

/// Whatever becomes of the mark's bits, damage up to t reads back, and each count is that of the flips.
#[test]
fn damage_around_a_mark_reads_back() {
    let mut random = Random::new(73);
    for (sample, _) in samples(&mut random) {
        let written = WrittenPage::new(sample, &mut random);
        let (layout, mut page) = (&written.layout, written.page.clone());
        let mut flips = Vec::new();
        for block in 0..layout.blocks() {
            let count = random.below(layout.block(block).t() + 1);
            damage(&mut page, layout, block, count, &mut random);
            flips.push(count as u8);
        }
        damage_tail(&mut page, layout, &mut random);
        let mut counts = vec![0xA5; layout.blocks()];
        assert_eq!(
            look_page(written.edition, &written.record, &page, &mut counts),
            Ok(())
        );
        assert_eq!(counts, flips);
        let mut metadata = vec![0xA5; written.metadata.len()];
        let mut data = vec![0xA5; written.data.len()];
        let taken = take_page(
            written.edition,
            &written.record,
            &page,
            &mut metadata,
            &mut data,
        );
        assert_eq!(taken, Ok(()));
        assert_eq!((metadata, data), (written.metadata, written.data));
    }
}

/// A record of eight bytes answers as one of twelve with a third word of zero, and as document 01 says.
#[test]
fn eight_bytes_mean_no_mark() {
    let mut random = Random::new(74);
    for most_page_bytes in [20, 70, 250, 600] {
        for _ in 0..20 {
            let words = accepted_words(&mut random, most_page_bytes);
            let eight = WrittenPage::new(words, &mut random);
            let twelve = [eight.record.clone(), vec![0; 4]].concat();
            let layout = check_layout(eight.edition, &eight.record).unwrap();
            assert!(layout.stream().eq(0..8 * layout.page_length));
            let mut page = random.bytes(layout.page_length);
            let reply = write_page(
                eight.edition,
                &twelve,
                &eight.metadata,
                &eight.data,
                &mut page,
            );
            assert_eq!((reply, &page), (Ok(()), &eight.page));
            for position in (0..8 * layout.page_length as u64 + 2).step_by(5) {
                let found = locate_bit(eight.edition, &eight.record, position);
                assert_eq!(found, locate_bit(eight.edition, &twelve, position));
                assert_ne!(found, Ok(BitPlace::Mark));
            }
            let page = eight.overdamaged(&mut random).0;
            same_answers(&eight, &page, &twelve, &page);
        }
    }
}
