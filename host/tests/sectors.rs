//! The numbers of sectors (document 02, E12): which are accepted, how long sectors are, and where bits stand.

use model::code::bch;
use model::field::FieldChoice;
use model::random::Random;
use model::samples::pages::WrittenPage;
use model::samples::sector_calls::{Asked, SectorCall};
use model::samples::sector_edges::{SECTOR_EDGES, sector_edges};
use model::samples::sectors::{SMALL, edge_numbers, edge_sectors, longest, one};
use model::sectors::{Sectors, bit_position, check, locate_bit};
use model::{BitPlace, Refusal, Reply};

/// The reply to a layout.
fn reply(edition: u64, sectors: Sectors) -> u8 {
    check(edition, &sectors).map_or_else(|refusal| refusal.number(), |_| 0)
}

/// Counts 1 to 16 are offered, and another one is 7 whatever else is wrong.
#[test]
fn counts() {
    for count in 1..=16 {
        let fits = Sectors {
            count,
            page_size: 16 * count,
            ..SMALL
        };
        assert_eq!(reply(1, fits), 0);
        assert_eq!(check(1, &fits).unwrap().blocks(), count as usize);
    }
    for count in [0, 17, 18, 255, 256, 257, 0xFFFF] {
        let large = Sectors {
            count,
            page_size: 0xFFFF,
            ..SMALL
        };
        let wrong = Sectors {
            size: 0,
            last_size: 0,
            level_field: 0x20,
            page_size: 0,
            ..large
        };
        assert_eq!((reply(1, large), reply(2, wrong)), (7, 7));
    }
}

/// A field choice other than 0 and 1 and an edition other than 1 and 2 are 7, before 1 to 4, and at t = 0 too.
#[test]
fn choices_and_editions() {
    for field_choice in [2, 3, 256, 0xFFFF] {
        for level_field in [0, 1, 0x20] {
            assert_eq!(reply(1, one(0, level_field, field_choice, 0)), 7);
            assert_eq!(reply(2, one(6, level_field, field_choice, 99)), 7);
        }
    }
    for edition in [0, 3, 257, (1 << 32) + 1, u64::MAX] {
        assert_eq!(reply(edition, SMALL), 7);
        assert_eq!(reply(edition, one(0, 0xFFFF, 0, 0)), 7);
    }
    assert_eq!((reply(1, SMALL), reply(2, SMALL)), (0, 0));
}

/// Of several replies the smallest is given.
#[test]
fn precedence_in_layouts() {
    let long = longest(FieldChoice::Thirteen, 1) + 1;
    let several = |size, last_size, level_field, page_size| Sectors {
        size,
        last_size,
        level_field,
        page_size,
        ..SMALL
    };
    assert_eq!(reply(1, several(long, 0, 0x15, 0)), 1);
    assert_eq!(reply(2, several(long, 0, 0x15, 0)), 2);
    assert_eq!(reply(1, several(long, 0, 1, 0)), 2);
    assert_eq!(reply(1, several(0, long, 1, 0)), 2);
    assert_eq!(reply(1, several(long, 1, 1, 0)), 3);
    assert_eq!(reply(1, several(1, long, 1, 0)), 3);
    assert_eq!(reply(1, several(1, 1, 1, 0)), 4);
}

/// t is twice the level field, up to 20 in edition 1 and up to 31 in edition 2.
#[test]
fn level_fields() {
    for level_field in 0..=0x1F {
        for choice in [0, 1] {
            let sectors = one(6, level_field, choice, 200);
            assert_eq!(reply(1, sectors), u8::from(level_field > 20));
            let layout = check(2, &sectors).unwrap();
            assert_eq!(layout.block(0).t(), 2 * level_field as usize);
        }
    }
    for level_field in [0x20, 0x21, 256, 0x8000, 0xFFFF] {
        for edition in [1, 2] {
            assert_eq!(reply(edition, one(6, level_field, 1, 0xFFFF)), 1);
            assert_eq!(reply(edition, one(0, level_field, 0, 0)), 1);
        }
    }
}

/// An empty sector is 2; the sector size is not examined at count 1.
#[test]
fn empty_sectors() {
    for level_field in [0, 1] {
        let several = |count, size, last_size| Sectors {
            count,
            size,
            last_size,
            level_field,
            page_size: 0xFFFF,
            ..SMALL
        };
        assert_eq!(reply(1, several(1, 6, 0)), 2);
        assert_eq!(reply(1, several(1, 0, 0)), 2);
        assert_eq!(reply(1, several(2, 6, 0)), 2);
        assert_eq!(reply(1, several(2, 0, 6)), 2);
        assert_eq!(reply(1, several(16, 0, 6)), 2);
        assert_eq!(reply(1, several(2, 1, 1)), 0);
        for size in [0, 1, 1021, 0xFFFF] {
            let sectors = several(1, size, 6);
            assert_eq!(reply(1, sectors), 0);
            assert_eq!(check(1, &sectors).unwrap().data_length(), 6);
        }
    }
}

/// With t above 0 data and parity have at most 2^m - 1 bits; pads do not count.
#[test]
fn longest_sectors() {
    let several = |size, last_size, level_field, field_choice| Sectors {
        size,
        last_size,
        level_field,
        field_choice,
        page_size: 0xFFFF,
        ..SMALL
    };
    for (level_field, choice, longest, n) in [
        (1, 0, 1020, 8186),
        (0x14, 0, 958, 8184),
        (0x1F, 0, 923, 8190),
        (1, 1, 2044, 16380),
        (0x14, 1, 1977, 16376),
        (0x1F, 1, 1939, 16380),
    ] {
        let layout = check(2, &several(longest, 5, level_field, choice)).unwrap();
        assert_eq!(layout.block(0).covered_bits(), n);
        assert_eq!(reply(2, several(longest + 1, 5, level_field, choice)), 3);
        assert_eq!(reply(2, several(5, longest, level_field, choice)), 0);
        assert_eq!(reply(2, several(5, longest + 1, level_field, choice)), 3);
    }
    assert_eq!(reply(1, several(30000, 30000, 0, 0)), 0);
}

/// The bytes of a sector, on both sides of each edge: a page of these is accepted, and one byte less is 4.
#[test]
fn sector_lengths() {
    for (size, level_field, choice, bytes) in [
        // one byte of data, and 26 bits of parity in 4 bytes
        (1, 1, 0, 8),
        // 26 bits of parity leave six pad bits
        (3, 1, 0, 8),
        (4, 1, 0, 8),
        (5, 1, 0, 16),
        // 28 bits of parity leave four
        (4, 1, 1, 8),
        (5, 1, 1, 16),
        // 104 bits of parity fill 13 bytes
        (3, 4, 0, 16),
        (4, 4, 0, 24),
        (2, 4, 0, 16),
        // 56 bits of parity fill 7 bytes
        (1, 2, 1, 8),
        (2, 2, 1, 16),
        (9, 2, 1, 16),
        // 806 bits of parity in 101 bytes, 868 in 109
        (3, 0x1F, 0, 104),
        (4, 0x1F, 0, 112),
        (3, 0x1F, 1, 112),
        (4, 0x1F, 1, 120),
        // no parity
        (1, 0, 0, 8),
        (7, 0, 0, 8),
        (8, 0, 0, 8),
        (9, 0, 1, 16),
        (16, 0, 1, 16),
        (65528, 0, 0, 65528),
    ] {
        assert_eq!(reply(2, one(size, level_field, choice, bytes)), 0);
        assert_eq!(reply(2, one(size, level_field, choice, bytes - 1)), 4);
        let layout = check(2, &one(size, level_field, choice, bytes)).unwrap();
        assert_eq!(layout.used_bits(), 8 * bytes as usize);
    }
    assert_eq!(reply(2, one(65529, 0, 0, 0xFFFF)), 4);
}

/// The parity's last byte has 0, 2, 4 or 6 pad bits: m t is even, since t is.
#[test]
fn pad_bits_of_a_byte() {
    let mut met = [[0; 8]; 2];
    for choice in FieldChoice::ALL {
        for t in (2..=62).step_by(2) {
            let parity_bits = bch(choice, t).parity_length();
            met[choice as usize][parity_bits.next_multiple_of(8) - parity_bits] += 1;
        }
    }
    assert_eq!(met, [[7, 0, 8, 0, 8, 0, 8, 0], [15, 0, 0, 0, 16, 0, 0, 0]]);
}

/// Rule 4 counts whole sectors: every pad bit, the last sector's too.
#[test]
fn room_for_pads() {
    let page = |page_size| Sectors { page_size, ..SMALL };
    assert_eq!(reply(1, page(32)), 0);
    assert_eq!(reply(1, page(33)), 0);
    // 26 bytes hold the first sector, and data and parity of the last one
    for page_size in [31, 27, 26, 25, 20, 0] {
        assert_eq!(reply(1, page(page_size)), 4);
    }
    let sizes = |size, last_size, page_size| Sectors {
        count: 3,
        size,
        last_size,
        page_size,
        ..SMALL
    };
    assert_eq!(reply(1, sizes(4, 5, 32)), 0);
    assert_eq!(reply(1, sizes(4, 5, 31)), 4);
    assert_eq!(reply(1, sizes(5, 4, 40)), 0);
    assert_eq!(reply(1, sizes(5, 4, 39)), 4);
}

/// Under two sectors of 16 bytes with 74 covered bits each.
#[test]
fn bits_of_the_small_page() {
    let place = |position| locate_bit(1, &SMALL, position);
    let covered = |block, exponent| Ok(BitPlace::Covered { block, exponent });
    assert_eq!(place(0), covered(0, 73));
    assert_eq!(place(73), covered(0, 0));
    assert_eq!(place(74), Ok(BitPlace::Tail));
    assert_eq!(place(79), Ok(BitPlace::Tail));
    assert_eq!(place(80), Ok(BitPlace::Tail));
    assert_eq!(place(127), Ok(BitPlace::Tail));
    assert_eq!(place(128), covered(1, 73));
    assert_eq!(place(201), covered(1, 0));
    assert_eq!(place(202), Ok(BitPlace::Tail));
    assert_eq!(place(255), Ok(BitPlace::Tail));
    let outside = Refusal::from(Reply::OutOfRange);
    assert_eq!(place(256), Err(outside));
    assert_eq!(place(u64::MAX), Err(outside));
    let position = |block, exponent| bit_position(1, &SMALL, block, exponent);
    assert_eq!(position(0, 0), Ok(73));
    assert_eq!(position(1, 73), Ok(128));
    assert_eq!(position(1, 0), Ok(201));
    assert_eq!(position(1, 74), Err(outside));
    assert_eq!(position(2, 0), Err(outside));
    assert_eq!(position(1 << 32, 0), Err(outside));
    assert_eq!(position(0, 1 << 32), Err(outside));
}

/// The samples behind the stored vectors meet every edge.
#[test]
fn samples_meet_every_edge() {
    let mut random = Random::new(128);
    let mut met = [0; SECTOR_EDGES.len()];
    let mut meet = |call: &SectorCall| {
        for (times, edge) in met.iter_mut().zip(sector_edges(call)) {
            *times += usize::from(edge);
        }
    };
    for (edition, sectors) in edge_numbers(&mut random) {
        let asked = Asked::Check;
        meet(&SectorCall {
            edition,
            sectors,
            asked,
        });
    }
    for sectors in [edge_sectors(), edge_sectors(), edge_sectors()].concat() {
        let written = WrittenPage::of_sectors(sectors, &mut random);
        written.sector_calls(&mut random).iter().for_each(&mut meet);
        written.bit_calls(&mut random).iter().for_each(&mut meet);
    }
    for (edge, times) in SECTOR_EDGES.iter().zip(met) {
        assert!(times > 0, "not met: {edge}");
    }
}
