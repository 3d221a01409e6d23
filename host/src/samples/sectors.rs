//! Samples of the numbers of sectors (document 02, E12).

use crate::field::FieldChoice;
use crate::random::Random;
use crate::samples::layouts::NO_EDITIONS;
use crate::sectors::{Sectors, check};

/// Two sectors of 6 data bytes, t = 2, m = 13: each has 4 bytes of parity, six of its bits pads, and 6 more bytes of
/// pads. The page has no byte to spare.
pub const SMALL: Sectors = Sectors {
    count: 2,
    size: 6,
    last_size: 6,
    level_field: 1,
    field_choice: 0,
    page_size: 32,
};

/// One sector of so many bytes, beside a sector size that is not examined.
pub fn one(last_size: u16, level_field: u16, field_choice: u16, page_size: u16) -> Sectors {
    Sectors {
        count: 1,
        size: 9,
        last_size,
        level_field,
        field_choice,
        page_size,
    }
}

impl Sectors {
    /// The bytes that the sectors need, pads included.
    pub fn needed_bytes(&self) -> usize {
        let choice = FieldChoice::ALL[self.field_choice as usize];
        self.layout(choice).used_bits() / 8
    }

    /// The same sectors in a page with so many bytes to spare.
    pub fn fitted(self, spare: usize) -> Sectors {
        let page_size = (self.needed_bytes() + spare).min(0xFFFF) as u16;
        Sectors { page_size, ..self }
    }
}

/// Numbers and editions at both sides of every rule.
pub fn edge_numbers(random: &mut Random) -> Vec<(u64, Sectors)> {
    let all = [
        counts(),
        empty_sectors(),
        levels_and_choices(),
        longest_sectors(),
        page_sizes(random),
        mixed_numbers(random),
    ]
    .concat();
    let mut numbers = Vec::new();
    for sectors in all {
        numbers.push((random.pick(&[1, 2]), sectors));
        if random.chance(12) {
            numbers.push((random.pick(&NO_EDITIONS), sectors));
        }
    }
    for level_field in [0, 0x14, 0x15, 0x1F, 0x20, 0xFFFF] {
        for edition in [1, 2] {
            let sectors = Sectors {
                level_field,
                page_size: 0xFFFF,
                ..SMALL
            };
            numbers.push((edition, sectors));
        }
    }
    numbers
}

/// Counts at the edges, in pages that fit as many sectors, and beside numbers that are refused otherwise.
fn counts() -> Vec<Sectors> {
    let mut all = Vec::new();
    for count in [0, 1, 2, 15, 16, 17, 255, 256, 0xFFFF] {
        for level_field in [0, 1, 0x14, 0x20] {
            for (size, last_size, page_size) in [(6, 6, 0xFFFF), (0, 6, 0xFFFF), (0, 0, 0)] {
                all.push(Sectors {
                    count,
                    size,
                    last_size,
                    level_field,
                    page_size,
                    ..SMALL
                });
            }
        }
    }
    all
}

/// Empty sectors and sectors of one byte; at count 1 sector sizes that are not examined.
fn empty_sectors() -> Vec<Sectors> {
    let mut all = Vec::new();
    for count in [1, 2, 3, 16] {
        for size in [0, 1, 0xFFFF] {
            for last_size in [0, 1, 8] {
                for level_field in [0, 1] {
                    let sectors = Sectors {
                        count,
                        size,
                        last_size,
                        level_field,
                        ..SMALL
                    };
                    all.push(sectors.fitted(0));
                }
            }
        }
    }
    all
}

/// Field choices that are offered and that are not, beside level fields at their edges.
fn levels_and_choices() -> Vec<Sectors> {
    let mut all = Vec::new();
    for field_choice in [0, 1, 2, 3, 256, 0xFFFF] {
        for level_field in [
            0, 1, 0x13, 0x14, 0x15, 0x1E, 0x1F, 0x20, 256, 0x8000, 0xFFFF,
        ] {
            for last_size in [0, 6] {
                all.push(Sectors {
                    level_field,
                    field_choice,
                    last_size,
                    page_size: 0xFFFF,
                    ..SMALL
                });
            }
        }
    }
    all
}

/// At each level the longest sector, as the last one and before it, and one byte more.
fn longest_sectors() -> Vec<Sectors> {
    let mut all = Vec::new();
    for choice in FieldChoice::ALL {
        for level_field in 1..=0x1F {
            let longest = longest(choice, level_field);
            for size in [longest, longest + 1] {
                for (size, last_size) in [(size, 5), (5, size)] {
                    all.push(Sectors {
                        size,
                        last_size,
                        level_field,
                        field_choice: choice as u16,
                        page_size: 0xFFFF,
                        ..SMALL
                    });
                }
            }
        }
    }
    for (last_size, page_size) in [
        (65528, 65535),
        (65528, 65528),
        (65528, 65527),
        (65529, 65535),
    ] {
        all.push(Sectors {
            count: 1,
            last_size,
            level_field: 0,
            page_size,
            ..SMALL
        });
    }
    all
}

/// The bytes of the longest sector of a level above 0.
pub fn longest(choice: FieldChoice, level_field: u16) -> u16 {
    let field = choice.field();
    ((field.order() - field.m * 2 * level_field as usize) / 8) as u16
}

/// Pages with no byte to spare, one too few, too few by all pads of the last sector, and more.
fn page_sizes(random: &mut Random) -> Vec<Sectors> {
    let mut all = Vec::new();
    for i in 0..40 {
        let sectors = accepted(random, [60, 200, 600, 4000, 65535][i % 5]);
        let needed = sectors.needed_bytes() as u16;
        let choice = FieldChoice::ALL[sectors.field_choice as usize];
        let layout = sectors.layout(choice);
        let last = layout.blocks() - 1;
        let without_pads = (layout.start(last) + layout.block(last).covered_bits()).div_ceil(8);
        for page_size in [
            needed,
            needed - 1,
            without_pads as u16,
            needed.saturating_add(1),
            0,
        ] {
            all.push(Sectors {
                page_size,
                ..sectors
            });
        }
    }
    all
}

/// Numbers from the edges of their ranges, so that several replies apply at once.
fn mixed_numbers(random: &mut Random) -> Vec<Sectors> {
    (0..200)
        .map(|_| Sectors {
            count: random.pick(&[0, 1, 1, 2, 2, 16, 17]),
            size: random.pick(&[0, 1, 8, 1000, 2044, 0xFFFF]),
            last_size: random.pick(&[0, 1, 8, 1000, 2044, 0xFFFF]),
            level_field: random.pick(&[0, 1, 0x14, 0x15, 0x1F, 0x20]),
            field_choice: random.pick(&[0, 0, 1, 1, 2]),
            page_size: random.pick(&[0, 8, 4096, 0xFFFF]),
        })
        .collect()
}

/// Sectors that edition 2 accepts, in a page of at most so many bytes.
pub fn accepted(random: &mut Random, most_page_bytes: usize) -> Sectors {
    loop {
        let any = random.within(1, most_page_bytes.min(2100)) as u16;
        let sectors = Sectors {
            count: random.pick(&[1, 1, 2, 2, 3, 4, 7, 16]),
            size: random.pick(&[1, 2, 3, 5, 8, any]),
            last_size: random.pick(&[1, 2, 4, 7, 8, any]),
            level_field: random.pick(&[0, 1, 1, 2, 3, 4, 5, 8, 0x14, 0x15, 0x1F]),
            field_choice: random.below(2) as u16,
            page_size: 0,
        };
        let spare = random.pick(&[0, 0, 1, 7, 8, 13]);
        let sectors = sectors.fitted(spare);
        let small = sectors.page_size as usize <= most_page_bytes;
        if small && check(2, &sectors).is_ok() {
            return sectors;
        }
    }
}

/// Sectors under which every edge of pads and of outcomes is met: t = 2 in both fields, long enough for a codeword of
/// nearly all ones; parity that fills its byte; sectors without pads; sixteen of one byte; t = 0; the highest levels.
pub fn edge_sectors() -> Vec<Sectors> {
    let sectors = |count, size, last_size, level_field, field_choice| Sectors {
        count,
        size,
        last_size,
        level_field,
        field_choice,
        page_size: 0,
    };
    vec![
        SMALL,
        sectors(3, 50, 55, 1, 0).fitted(0),
        sectors(3, 62, 60, 1, 1).fitted(1),
        sectors(2, 51, 59, 4, 0).fitted(0),
        sectors(2, 9, 17, 2, 1).fitted(3),
        sectors(16, 1, 1, 1, 0).fitted(0),
        sectors(16, 1, 3, 3, 1).fitted(2),
        sectors(1, 0xFFFF, 1, 2, 0).fitted(0),
        sectors(1, 0, 40, 1, 1).fitted(5),
        sectors(4, 5, 8, 0, 0).fitted(0),
        sectors(3, 8, 3, 0, 1).fitted(4),
        sectors(2, 7, 4, 0x14, 0).fitted(0),
        sectors(2, 3, 11, 0x14, 1).fitted(0),
        sectors(2, 4, 9, 0x1F, 0).fitted(1),
        sectors(2, 10, 2, 0x1F, 1).fitted(0),
    ]
}
