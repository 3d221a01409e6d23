//! Samples of layout words, records and editions.

use crate::edition::Edition;
use crate::field::FieldChoice;
use crate::layout::{Layout, LayoutWords, check_layout};
use crate::random::Random;
use crate::samples::marks;

/// Records of every kind: cases of document 01, both sides of every limit, random ones, some with a mark, and
/// other lengths than eight and twelve.
pub fn records(random: &mut Random) -> Vec<Vec<u8>> {
    let words = [
        document_cases(),
        longest_blocks(),
        page_sizes(random),
        many_blocks(),
        wild_later_fields(random),
        edge_fields(random),
    ]
    .concat();
    let mut records: Vec<Vec<u8>> = words.iter().map(|words| words.pack().to_vec()).collect();
    records.extend((0..100).map(|_| random.bytes(8)));
    let twice = [CASE_A.pack(), CASE_A.pack()].concat();
    records.extend((0..=16).map(|length| twice[..length].to_vec()));
    records.extend([0, 1, 7, 9, 12].map(|length| random.bytes(length)));
    records.extend(marks::records(&words, random));
    records
}

/// Numbers that are no edition.
pub const NO_EDITIONS: [u64; 5] = [0, 3, 257, (1 << 32) + 2, u64::MAX];

/// Editions beside level fields: both editions and a number that is none, each with the fields at the edges.
pub fn level_edges(random: &mut Random) -> Vec<(u64, u64)> {
    let editions = [1, 2, random.pick(&NO_EDITIONS)];
    let fields = [0x14, 0x15, 0x1F, 0x20];
    let beside = |edition| fields.map(|level_field| (edition, level_field));
    editions.map(beside).concat()
}

/// The editions under which a record is tried: both where they answer differently, else one of them; and a number
/// that is no edition beside a record of a wrong length, and now and then beside another.
pub fn editions(record: &[u8], random: &mut Random) -> Vec<u64> {
    let both = Edition::ALL.map(|edition| edition as u64);
    let [first, second] = both.map(|edition| check_layout(edition, record).err());
    let mut editions = match first == second {
        true => vec![random.pick(&both)],
        false => both.to_vec(),
    };
    if ![8, 12].contains(&record.len()) || random.chance(10) {
        editions.push(random.pick(&NO_EDITIONS));
    }
    editions
}

/// An edition that accepts a layout which the second one does.
pub fn accepting_edition(layout: &Layout, random: &mut Random) -> u64 {
    match layout.reason(Edition::First) {
        None => random.pick(&[1, 1, 2]),
        Some(_) => 2,
    }
}

/// Numbers that a library might cut short.
pub const HUGE: [u64; 4] = [1 << 32, (1 << 32) + 5, 1 << 63, u64::MAX];

/// Positions at the edges of an accepted layout's blocks, mark, tail and page.
pub fn positions(layout: &Layout, random: &mut Random) -> Vec<u64> {
    let page_bits = 8 * layout.page_length as u64;
    let mut positions = vec![
        0,
        page_bits - 1,
        page_bits,
        page_bits + 1,
        random.pick(&HUGE),
    ];
    for block in [1, random.within(1, layout.blocks()), layout.blocks()] {
        let around = layout.stream().skip(layout.start(block) - 1).take(2);
        positions.extend(around.map(|position| position as u64));
    }
    if layout.mark.length > 0 {
        let mark = layout.mark_places();
        let edges = [
            mark.start.saturating_sub(1),
            mark.start,
            mark.end - 1,
            mark.end,
        ];
        positions.extend(edges.map(|position| position as u64));
    }
    positions.push(random.below(page_bits as usize) as u64);
    positions.push(page_bits + (1 << 32));
    positions
}

/// Blocks and exponents at the edges of an accepted layout.
pub fn code_bits(layout: &Layout, random: &mut Random) -> Vec<(u64, u64)> {
    let last = layout.blocks() as u64 - 1;
    let mut code_bits = Vec::new();
    for block in [0, random.below(layout.blocks()) as u64, last] {
        let n = layout.block(block as usize).covered_bits() as u64;
        let inside = random.below(n as usize) as u64;
        let exponents = [0, n - 1, n, inside, inside + (1 << 32), random.pick(&HUGE)];
        code_bits.extend(exponents.map(|exponent| (block, exponent)));
    }
    let outside = [last + 1, 256, random.pick(&HUGE), last + (1 << 32)];
    code_bits.extend(outside.map(|block| (block, 0)));
    code_bits
}

/// Layout words that edition 2 accepts, with a page of at most this many bytes.
pub fn accepted_words(random: &mut Random, most_page_bytes: usize) -> LayoutWords {
    loop {
        let mut words = plain_words(random, most_page_bytes);
        let used = Layout::from(words).used_bits().div_ceil(8);
        let slack = random.pick(&[0, 0, 1, 2, 9]);
        if used + slack <= most_page_bytes {
            words.page_size = (used + slack) as u16;
            if check_layout(2, &words.pack()).is_ok() {
                return words;
            }
        }
    }
}

/// Accepted words of a page of at most 300 bytes, with a level field above 0x14 in a block.
pub fn strong_words(random: &mut Random) -> LayoutWords {
    loop {
        let words = accepted_words(random, 300);
        if Layout::from(words).reason(Edition::First).is_some() {
            return words;
        }
    }
}

/// Words with sizes that may suit a page of this many bytes.
fn plain_words(random: &mut Random, page_bytes: usize) -> LayoutWords {
    let units = (page_bytes / 4).clamp(1, 1023);
    let nblocks = match random.below(8) {
        0 => 0,
        1 => random.below(256),
        _ => random.within(1, 6),
    };
    let size = |random: &mut Random| match random.below(3) {
        0 => random.below(3),
        1 => random.below(units.min(40) + 1),
        _ => random.below(units + 1),
    };
    let any_metadata = random.below(256);
    LayoutWords {
        nblocks: nblocks as u8,
        meta_size: random.pick(&[0, 1, 2, 3, 10, any_metadata]) as u8,
        ecc0: level_field(random),
        gf0: random.below(2) as u8,
        data0_size: size(random) as u16,
        page_size: page_bytes as u16,
        eccn: level_field(random),
        gfn: random.below(2) as u8,
        datan_size: size(random) as u16,
    }
}

/// A level field. The small ones, 0 included, come often, and one in six is of edition 2 alone.
fn level_field(random: &mut Random) -> u8 {
    match random.below(6) {
        0 | 1 => random.below(3) as u8,
        2 => random.within(0x15, 0x1F) as u8,
        _ => random.below(0x15) as u8,
    }
}

pub const CASE_A: LayoutWords = LayoutWords {
    nblocks: 7,
    meta_size: 10,
    ecc0: 8,
    gf0: 0,
    data0_size: 128,
    page_size: 4314,
    eccn: 8,
    gfn: 0,
    datan_size: 128,
};

pub const CASE_E: LayoutWords = LayoutWords {
    nblocks: 1,
    meta_size: 0,
    ecc0: 1,
    gf0: 0,
    data0_size: 1,
    page_size: 15,
    eccn: 1,
    gfn: 0,
    datan_size: 1,
};

/// One block, as in cases C, D, I and K of document 01.
fn one_block(meta_size: u8, ecc0: u8, gf0: u8, data0_size: u16) -> LayoutWords {
    LayoutWords {
        nblocks: 0,
        meta_size,
        ecc0,
        gf0,
        data0_size,
        page_size: 2048,
        eccn: 0,
        gfn: 0,
        datan_size: 0,
    }
}

/// The cases of document 01 and of document 02, E13, about layouts, and each with one field a step up or down.
fn document_cases() -> Vec<LayoutWords> {
    let cases = [
        CASE_A,
        one_block(2, 0x14, 0, 239),
        one_block(1, 0x14, 1, 494),
        CASE_E,
        one_block(0, 0x15, 0, 0),
        one_block(0, 0x14, 0, 0),
        one_block(1, 0x14, 0, 0),
        one_block(3, 0x1F, 0, 230),
    ];
    cases.into_iter().flat_map(with_neighbours).collect()
}

fn with_neighbours(words: LayoutWords) -> Vec<LayoutWords> {
    let mut all = vec![words];
    for step in [1, -1] {
        let small = |field: u8| field.wrapping_add_signed(step);
        let wide = |field: u16, bits: u32| {
            field.wrapping_add_signed(step as i16) & (0xFFFF >> (16 - bits))
        };
        all.extend([
            LayoutWords {
                nblocks: small(words.nblocks),
                ..words
            },
            LayoutWords {
                meta_size: small(words.meta_size),
                ..words
            },
            LayoutWords {
                ecc0: small(words.ecc0) & 0x1F,
                ..words
            },
            LayoutWords {
                data0_size: wide(words.data0_size, 10),
                ..words
            },
            LayoutWords {
                page_size: wide(words.page_size, 16),
                ..words
            },
            LayoutWords {
                eccn: small(words.eccn) & 0x1F,
                ..words
            },
            LayoutWords {
                datan_size: wide(words.datan_size, 10),
                ..words
            },
        ]);
    }
    all.push(LayoutWords {
        gf0: 1 - words.gf0,
        ..words
    });
    all.push(LayoutWords {
        gfn: 1 - words.gfn,
        ..words
    });
    all
}

/// At each level the longest block 0 and the longest later block, and one step more.
fn longest_blocks() -> Vec<LayoutWords> {
    let mut all = Vec::new();
    for choice in FieldChoice::ALL {
        let (field, gf) = (choice.field(), choice as u8);
        for level in 0..=0x1F {
            let bytes = match level {
                0 => 4 * 1023 + 3,
                _ => (field.order() - field.m * 2 * level as usize) / 8,
            };
            let block0 = LayoutWords {
                page_size: 0xFFFF,
                ..one_block((bytes % 4) as u8, level, gf, (bytes / 4) as u16)
            };
            let later = LayoutWords {
                nblocks: 1,
                eccn: level,
                gfn: gf,
                datan_size: (bytes / 4) as u16,
                page_size: 0xFFFF,
                ..one_block(1, 0, 0, 0)
            };
            all.extend([block0, later]);
            all.push(LayoutWords {
                meta_size: block0.meta_size + 1,
                ..block0
            });
            if level > 0 {
                all.push(LayoutWords {
                    datan_size: later.datan_size + 1,
                    ..later
                });
            }
        }
        let later = LayoutWords {
            nblocks: 2,
            datan_size: 1023,
            gfn: gf,
            eccn: 1,
            ..one_block(1, 1, gf, 1023)
        };
        all.extend([
            later,
            LayoutWords {
                data0_size: 1,
                ..later
            },
        ]);
    }
    all
}

/// Accepted layouts with PAGE_SIZE as small as may be, one less, and more.
fn page_sizes(random: &mut Random) -> Vec<LayoutWords> {
    let mut all = Vec::new();
    for most in [30, 300, 3000, 30000] {
        for _ in 0..12 {
            let words = accepted_words(random, most);
            let needed = Layout::from(words).used_bits().div_ceil(8) as u16;
            for page_size in [needed, needed - 1, needed + 1, 0, 0xFFFF] {
                all.push(LayoutWords { page_size, ..words });
            }
        }
    }
    all
}

/// 255 later blocks, from the smallest to those that no page can hold.
fn many_blocks() -> Vec<LayoutWords> {
    let mut all = Vec::new();
    for (eccn, gfn, datan_size) in [
        (0, 0, 1),
        (1, 0, 1),
        (20, 1, 1),
        (31, 1, 1),
        (20, 0, 45),
        (0, 1, 63),
        (0, 1, 64),
        (7, 0, 1023),
        (0, 0, 1023),
    ] {
        let words = LayoutWords {
            nblocks: 255,
            eccn,
            gfn,
            datan_size,
            ..one_block(255, 3, 1, 2)
        };
        let needed = Layout::from(words).used_bits().div_ceil(8).min(0xFFFF) as u16;
        for page_size in [needed - 1, needed, 0xFFFF] {
            all.push(LayoutWords { page_size, ..words });
        }
    }
    all
}

/// NBLOCKS 0 with later fields that would be refused if they were examined.
fn wild_later_fields(random: &mut Random) -> Vec<LayoutWords> {
    (0..24)
        .map(|i| LayoutWords {
            nblocks: 0,
            eccn: random.pick(&[0, 0x15, 0x1F]),
            gfn: random.below(2) as u8,
            datan_size: random.pick(&[0, 1, 1023]),
            ..accepted_words(random, [60, 600, 6000][i % 3])
        })
        .collect()
}

/// Fields from the edges of their ranges, so that several replies apply at once.
fn edge_fields(random: &mut Random) -> Vec<LayoutWords> {
    (0..200)
        .map(|_| LayoutWords {
            nblocks: random.pick(&[0, 1, 1, 2, 255]),
            meta_size: random.pick(&[0, 0, 1, 255]),
            ecc0: random.pick(&[0, 1, 0x14, 0x14, 0x15, 0x1F]),
            gf0: random.below(2) as u8,
            data0_size: random.pick(&[0, 0, 1, 255, 511, 1023]),
            page_size: random.pick(&[0, 1, 4096, 0xFFFF]),
            eccn: random.pick(&[0, 1, 0x14, 0x14, 0x15, 0x1F]),
            gfn: random.below(2) as u8,
            datan_size: random.pick(&[0, 1, 1, 255, 511, 1023]),
        })
        .collect()
}
