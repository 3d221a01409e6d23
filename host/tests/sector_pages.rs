//! Pages of sectors (document 02, E12): written, damaged and read.

use model::bits::{bit, bits_of, flip, put};
use model::code::bch;
use model::field::FieldChoice;
use model::layout::LayoutWords;
use model::random::Random;
use model::samples::layouts::CASE_E;
use model::samples::pages::{WrittenPage, damage, damage_tail};
use model::samples::sectors::{SMALL, accepted, edge_sectors, one};
use model::sectors::{Sectors, bit_position, check, claim, judge, locate_bit, look, take, write};
use model::{BitPlace, Refusal, Reply};

fn number<T>(outcome: Result<T, Refusal>) -> u8 {
    outcome.map_or_else(|refusal| refusal.number(), |_| 0)
}

/// Sectors for which pages are tried.
fn samples(random: &mut Random) -> Vec<Sectors> {
    let mut samples = edge_sectors();
    samples.extend((0..100).map(|i| accepted(random, [30, 80, 200, 500][i % 4])));
    samples
}

/// Parity of zeros is zeros, so these pages are known: pads and tail are ones.
#[test]
fn pages_of_zeros() {
    let mut page = [0xA5; 33];
    let sectors = Sectors {
        page_size: 33,
        ..SMALL
    };
    assert_eq!(write(1, &sectors, &[0; 12], &mut page), Ok(()));
    let sector = [&[0; 9][..], &[0x3F], &[0xFF; 6]].concat();
    assert_eq!(page[..], [&sector[..], &sector, &[0xFF]].concat());

    let mut page = [0xA5; 40];
    let sectors = Sectors {
        count: 3,
        size: 2,
        last_size: 9,
        level_field: 0,
        page_size: 40,
        ..SMALL
    };
    let data: Vec<u8> = (1..=13).collect();
    assert_eq!(write(2, &sectors, &data, &mut page), Ok(()));
    let ones = |count| vec![0xFF; count];
    let expected = [vec![1, 2], ones(6), vec![3, 4], ones(6), data[4..].to_vec()];
    assert_eq!(page[..], [expected.concat(), ones(15)].concat());

    let mut page = [0xA5; 16];
    assert_eq!(write(1, &one(3, 4, 0, 16), &[0; 3], &mut page), Ok(()));
    assert_eq!(page, [0; 16]);
}

/// A written page is, sector by sector, the data, its parity and ones up to a multiple of eight bytes, then ones.
#[test]
fn written_pages() {
    let mut random = Random::new(121);
    for sectors in samples(&mut random) {
        let written = WrittenPage::of_sectors(sectors, &mut random);
        let choice = FieldChoice::ALL[sectors.field_choice as usize];
        let code = bch(choice, 2 * sectors.level_field as usize);
        let mut data = bits_of(&written.data);
        let mut expected = Vec::new();
        for number in 1..=sectors.count {
            let size = match number == sectors.count {
                true => sectors.last_size,
                false => sectors.size,
            };
            let rest = data.split_off(8 * size as usize);
            expected.extend_from_slice(&data);
            expected.extend(code.parity(&data));
            while expected.len() % 64 != 0 {
                expected.push(true);
            }
            data = rest;
        }
        assert!(data.is_empty());
        expected.resize(8 * sectors.page_size as usize, true);
        assert_eq!(bits_of(&written.page), expected);
    }
}

/// Each covered bit goes to block and exponent and back; every other bit is of the tail.
#[test]
fn bits_go_both_ways() {
    let mut random = Random::new(122);
    for sectors in samples(&mut random) {
        let layout = check(2, &sectors).unwrap();
        let mut tail: Vec<u64> = (0..8 * sectors.page_size as u64).collect();
        for block in 0..layout.blocks() {
            let n = layout.block(block).covered_bits();
            for exponent in 0..n {
                let position = bit_position(2, &sectors, block as u64, exponent as u64).unwrap();
                let place = BitPlace::Covered { block, exponent };
                assert_eq!(locate_bit(2, &sectors, position as u64), Ok(place));
                tail.retain(|&other| other != position as u64);
            }
            let refused = bit_position(2, &sectors, block as u64, n as u64);
            assert_eq!(refused, Err(Reply::OutOfRange.into()));
        }
        for position in tail {
            assert_eq!(locate_bit(2, &sectors, position), Ok(BitPlace::Tail));
        }
    }
}

/// With up to t flips in each sector, and anything in pads and tail, the data is read back and each count is the number
/// of flips.
#[test]
fn damage_up_to_t_reads_back() {
    let mut random = Random::new(123);
    for sectors in samples(&mut random) {
        let written = WrittenPage::of_sectors(sectors, &mut random);
        let (edition, layout) = (written.edition, &written.layout);
        let mut page = written.page.clone();
        damage_tail(&mut page, layout, &mut random);
        let mut flips = Vec::new();
        for block in 0..layout.blocks() {
            let t = layout.block(block).t();
            let any = random.below(t + 1);
            let count = random.pick(&[0, t.min(1), t, t, any]);
            let errors = damage(&mut page, layout, block, count, &mut random);
            let claims: Vec<u16> = errors.iter().map(|&exponent| exponent as u16).collect();
            assert_eq!(
                claim(edition, &sectors, &page, block as u64, &claims),
                Ok(())
            );
            assert_eq!(judge(edition, &sectors, &page, block as u64), Ok(count));
            flips.push(count as u8);
        }
        let mut counts = random.bytes(layout.blocks());
        assert_eq!(look(edition, &sectors, &page, &mut counts), Ok(()));
        let mut data = random.bytes(written.data.len());
        assert_eq!(take(edition, &sectors, &page, &mut data), Ok(()));
        assert_eq!((data, counts), (written.data, flips));
    }
}

/// No answer depends on pads and tail, whatever the page holds.
#[test]
fn pads_are_ignored() {
    let mut random = Random::new(124);
    for sectors in samples(&mut random) {
        let written = WrittenPage::of_sectors(sectors, &mut random);
        let (edition, blocks) = (written.edition, written.layout.blocks());
        let pages = [
            written.overdamaged(&mut random).0,
            written.erased(&mut random).0,
            written.ruined(&mut random),
        ];
        for page in pages {
            let mut other = page.clone();
            for position in written.layout.tail_places() {
                put(&mut other, position, false);
            }
            let all = |page: &[u8]| {
                let (mut counts, mut data) = (vec![7; blocks], vec![7; written.data.len()]);
                let looked = look(edition, &sectors, page, &mut counts);
                let taken = take(edition, &sectors, page, &mut data);
                let judged = (0..blocks as u64).map(|block| judge(edition, &sectors, page, block));
                (looked, counts, taken, data, judged.collect::<Vec<_>>())
            };
            assert_eq!(all(&page), all(&other));
        }
    }
}

/// A page of ones is erased, also with zeros in all pads; t zeros are counted, and t + 1 are too many.
#[test]
fn erased_pages() {
    let mut random = Random::new(125);
    for (level_field, choice) in [(1, 0), (1, 1), (8, 0), (20, 1), (31, 0), (31, 1)] {
        let sectors = Sectors {
            count: 2,
            size: 6,
            last_size: 11,
            level_field,
            field_choice: choice,
            page_size: 0,
        };
        let sectors = sectors.fitted(2);
        let layout = check(2, &sectors).unwrap();
        let t = 2 * level_field as usize;
        let mut page = vec![0xFF; layout.page_length];
        for position in layout.tail_places() {
            flip(&mut page, position);
        }
        let counted = |page: &[u8]| {
            let mut counts = [7; 2];
            let outcome = look(2, &sectors, page, &mut counts);
            (outcome, counts)
        };
        assert_eq!(counted(&page), (Ok(()), [128; 2]));
        let mut data = [0xA5; 17];
        assert_eq!(take(2, &sectors, &page, &mut data), Ok(()));
        assert_eq!(data, [0xFF; 17]);
        for position in random.distinct(t, layout.block(1).covered_bits()) {
            flip(&mut page, layout.start(1) + position);
        }
        assert_eq!(counted(&page), (Ok(()), [128, 128 + t as u8]));
        let one = (layout.start(1)..).find(|&position| bit(&page, position));
        flip(&mut page, one.unwrap());
        assert_eq!(counted(&page), (Err(Refusal::uncorrectable(1)), [128, 255]));
        data = [0xA5; 17];
        let refused = take(2, &sectors, &page, &mut data);
        assert_eq!(
            (refused, data),
            (Err(Refusal::uncorrectable(1)), [0xA5; 17])
        );
    }
}

/// Pages of ones and pages of zeros in pads alone are never refused, whatever the sectors.
#[test]
fn pages_of_ones_are_never_refused() {
    let mut random = Random::new(126);
    for sectors in samples(&mut random) {
        let layout = check(2, &sectors).unwrap();
        let mut page = vec![0xFF; layout.page_length];
        damage_tail(&mut page, &layout, &mut random);
        let mut counts = vec![7; layout.blocks()];
        assert_eq!(look(2, &sectors, &page, &mut counts), Ok(()));
        for (block, &count) in counts.iter().enumerate() {
            let t = layout.block(block).t();
            assert!(count == 128 && t > 0 || count as usize <= t);
        }
    }
}

/// One sector is one block: a page of layout words with that block answers alike.
#[test]
fn one_sector_is_a_block() {
    let mut random = Random::new(127);
    for level_field in [0, 1, 4, 0x14, 0x1F] {
        for choice in [0, 1] {
            let units = random.within(1, 20) as u16;
            let sectors = one(4 * units, level_field, choice, 0).fitted(3);
            let words = LayoutWords {
                nblocks: 0,
                ecc0: level_field as u8,
                gf0: choice as u8,
                data0_size: units,
                page_size: sectors.page_size,
                ..CASE_E
            };
            let record = words.pack();
            let written = WrittenPage::of_sectors(sectors, &mut random);
            let mut page = vec![0; written.page.len()];
            let reply = model::write_page(2, &record, &[], &written.data, &mut page);
            assert_eq!((reply, &page), (Ok(()), &written.page));
            for page in [
                written.damaged(&mut random),
                written.overdamaged(&mut random).0,
            ] {
                let (mut left, mut right) = ([7], [7]);
                let looked = look(2, &sectors, &page, &mut left);
                assert_eq!(looked, model::look_page(2, &record, &page, &mut right));
                assert_eq!(left, right);
            }
            for position in 0..8 * sectors.page_size as u64 + 1 {
                let place = model::locate_bit(2, &record, position);
                assert_eq!(locate_bit(2, &sectors, position), place);
            }
        }
    }
}

/// Under `SMALL`: the smaller reply wins, and what is refused keeps what was lent.
#[test]
fn precedence_in_page_calls() {
    let refused = Sectors {
        last_size: 0,
        ..SMALL
    };
    let (page, ruined) = ([0; 32], [0x55; 32]);
    assert_eq!(number(judge(3, &refused, &page[..3], 9)), 7);
    assert_eq!(number(judge(1, &refused, &page[..3], 9)), 2);
    assert_eq!(number(judge(1, &SMALL, &page[..3], 9)), 5);
    assert_eq!(number(judge(1, &SMALL, &ruined, 2)), 7);
    let judged = judge(1, &SMALL, &ruined, 1);
    assert_eq!(judged, Err(Refusal::uncorrectable(1)));
    assert_eq!(number(claim(1, &refused, &page[..3], 9, &[74])), 2);
    assert_eq!(number(claim(1, &SMALL, &page[..3], 9, &[74])), 5);
    assert_eq!(number(claim(1, &SMALL, &page, 1 << 32, &[74])), 7);
    assert_eq!(number(claim(1, &SMALL, &page, 1, &[74])), 10);
    assert_eq!(number(claim(1, &SMALL, &page, 1, &[73])), 10);
    assert_eq!(number(claim(1, &SMALL, &page, 1, &[])), 0);
    let mut lent = [0xA5; 33];
    assert_eq!(number(look(1, &refused, &page[..3], &mut lent[..0])), 2);
    assert_eq!(number(look(1, &SMALL, &page[..3], &mut lent[..0])), 5);
    assert_eq!(number(look(1, &SMALL, &ruined, &mut lent[..1])), 6);
    assert_eq!(number(look(1, &SMALL, &ruined, &mut lent[..3])), 6);
    assert_eq!(number(take(1, &refused, &page[..3], &mut lent[..0])), 2);
    assert_eq!(number(take(1, &SMALL, &page[..3], &mut lent[..0])), 5);
    assert_eq!(number(take(1, &SMALL, &ruined, &mut lent[..11])), 6);
    assert_eq!(number(take(1, &SMALL, &ruined, &mut lent[..13])), 6);
    assert_eq!(number(take(1, &SMALL, &ruined, &mut lent[..12])), 9);
    assert_eq!(number(write(1, &refused, &[0; 13], &mut lent[..31])), 2);
    assert_eq!(number(write(1, &SMALL, &[0; 13], &mut lent[..31])), 5);
    assert_eq!(number(write(1, &SMALL, &[0; 12], &mut lent)), 5);
    assert_eq!(number(write(1, &SMALL, &[0; 13], &mut lent[..32])), 6);
    assert_eq!(lent, [0xA5; 33]);
    let looked = look(1, &SMALL, &ruined, &mut lent[..2]);
    assert_eq!(looked, Err(Refusal::uncorrectable(0)));
    assert_eq!(lent[..3], [255, 255, 0xA5]);
}
