//! Vectors of pages of sectors. Input and output are text, one line a call, its words separated by single spaces.
//!
//! A line of input is the call's name, the six numbers of the layout (sector count, sector size, last sector size, level
//! field, field choice, PAGE_SIZE), the edition, and what is lent or handed in beside them:
//!
//!     check
//!     bit      POSITION
//!     position BLOCK EXPONENT
//!     write    DATA PAGE
//!     look     PAGE COUNTS
//!     take     PAGE DATA
//!     judge    PAGE BLOCK
//!     claim    PAGE BLOCK EXPONENTS
//!
//! Numbers are decimal: the six of the layout up to 65535, the edition, POSITION, BLOCK and EXPONENT up to
//! 18446744073709551615. Buffers are hexadecimal in lower case, two digits a byte, and four an exponent in EXPONENTS, most
//! significant digit first; an empty one is `-`.
//!
//! A line of output is the reply and the block in decimal, then, where the reply is 0, the values in decimal: of `bit` 0,
//! block and exponent, or 1 alone for the tail; of `position` the position; of `judge` the count. Last, on refusals too,
//! comes the buffer that the call is lent to write to, as it is afterwards: of `write` the page, of `look` the counts, of
//! `take` the data.

use crate::{Answer, Vectors, hexadecimal};
use model::random::Random;
use model::samples::layouts::NO_EDITIONS;
use model::samples::pages::WrittenPage;
use model::samples::sector_calls::{Asked, SectorCall, spoil};
use model::samples::sector_edges::{SECTOR_EDGES, sector_edges};
use model::samples::sectors::{SMALL, accepted, edge_numbers, edge_sectors};
use model::sectors::{Sectors, bit_position, check, claim, judge, locate_bit, look, take, write};
use model::{BitPlace, Refusal};

pub fn vectors() -> Vectors {
    let mut vectors = Vectors::default();
    let mut random = Random::new(0x5EC7);
    let numbers = edge_numbers(&mut random);
    for (edition, sectors) in numbers {
        let asked = Asked::Check;
        add(
            &mut vectors,
            &SectorCall {
                edition,
                sectors,
                asked,
            },
        );
    }
    for sectors in edge_sectors() {
        add_page(&mut vectors, sectors, &mut random);
        add_page(&mut vectors, sectors, &mut random);
        add_bits(&mut vectors, sectors, &mut random);
        add_refused(&mut vectors, sectors, &mut random);
    }
    for i in 0..40 {
        let sectors = accepted(&mut random, [16, 40, 80, 120, 300][i % 5]);
        add_page(&mut vectors, sectors, &mut random);
    }
    for sectors in large_pages() {
        add_large_page(&mut vectors, sectors, &mut random);
        add_bits(&mut vectors, sectors, &mut random);
    }
    vectors
}

/// The calls about a page, and some of them spoilt in one to three arguments.
fn add_page(vectors: &mut Vectors, sectors: Sectors, random: &mut Random) {
    let written = WrittenPage::of_sectors(sectors, random);
    let calls = written.sector_calls(random);
    let spoilt = (0..6).map(|i| calls[i * calls.len() / 6].clone());
    let spoilt: Vec<SectorCall> = spoilt.collect();
    for call in &calls {
        add(vectors, call);
    }
    for mut call in spoilt {
        for _ in 0..random.within(1, 3) {
            spoil(&mut call, random);
        }
        add(vectors, &call);
    }
}

/// Every call with an edition, a count or a field choice that is not offered, beside buffers of length 0.
fn add_refused(vectors: &mut Vectors, sectors: Sectors, random: &mut Random) {
    let written = WrittenPage::of_sectors(sectors, random);
    let refused = [
        (random.pick(&NO_EDITIONS), sectors),
        (
            2,
            Sectors {
                count: 17,
                ..sectors
            },
        ),
        (
            1,
            Sectors {
                count: 0,
                ..sectors
            },
        ),
        (
            2,
            Sectors {
                field_choice: 2,
                ..sectors
            },
        ),
    ];
    let (edition, sectors) = random.pick(&refused);
    let calls = [
        Asked::Bit { position: 0 },
        Asked::Position {
            block: 0,
            exponent: 0,
        },
        written.asked_write().asked,
        written.asked_look(&[]).asked,
        written.asked_take(&written.page).asked,
        written.asked_judge(&written.page, 0).asked,
        written.asked_claim(&[], 0, vec![]).asked,
    ];
    for asked in calls {
        let call = SectorCall {
            edition,
            sectors,
            asked,
        };
        add(vectors, &call);
    }
}

/// Pages of about 4 KiB, and one of 65,535 bytes with the longest sectors.
fn large_pages() -> [Sectors; 6] {
    let sectors = |count, size, last_size, level_field, field_choice| Sectors {
        count,
        size,
        last_size,
        level_field,
        field_choice,
        ..SMALL
    };
    [
        sectors(8, 512, 522, 8, 0).fitted(0),
        sectors(4, 1024, 1000, 0x14, 1).fitted(1),
        sectors(4, 923, 900, 0x1F, 0).fitted(0),
        sectors(2, 1938, 1939, 0x1F, 1).fitted(0),
        sectors(1, 0, 4093, 0, 0).fitted(0),
        Sectors {
            page_size: 0xFFFF,
            ..sectors(16, 2044, 2043, 1, 1)
        },
    ]
}

/// A large page written, looked at with damage within t, and, but for the largest, taken and judged, and read with
/// sectors ruined.
fn add_large_page(vectors: &mut Vectors, sectors: Sectors, random: &mut Random) {
    let written = WrittenPage::of_sectors(sectors, random);
    let page = written.damaged(random);
    add(vectors, &written.asked_write());
    add(vectors, &written.asked_look(&page));
    if written.layout.page_length < 5000 {
        add(vectors, &written.asked_take(&page));
        let (past, block) = written.overdamaged(random);
        add(vectors, &written.asked_judge(&past, block));
        add(vectors, &written.asked_look(&written.ruined(random)));
    }
}

/// Bits of a page and code bits.
fn add_bits(vectors: &mut Vectors, sectors: Sectors, random: &mut Random) {
    let written = WrittenPage::of_sectors(sectors, random);
    for call in written.bit_calls(random) {
        add(vectors, &call);
    }
}

fn add(vectors: &mut Vectors, call: &SectorCall) {
    vectors.meet(&SECTOR_EDGES, sector_edges(call).map(usize::from));
    vectors.add(line(call).as_bytes(), answer(call));
}

/// The line of input.
fn line(call: &SectorCall) -> String {
    let (name, asked) = match &call.asked {
        Asked::Check => ("check", vec![]),
        Asked::Bit { position } => ("bit", vec![position.to_string()]),
        Asked::Position { block, exponent } => {
            ("position", vec![block.to_string(), exponent.to_string()])
        }
        Asked::Write { data, page } => ("write", vec![hexadecimal(data), hexadecimal(page)]),
        Asked::Look { page, counts } => ("look", vec![hexadecimal(page), hexadecimal(counts)]),
        Asked::Take { page, data } => ("take", vec![hexadecimal(page), hexadecimal(data)]),
        Asked::Judge { page, block } => ("judge", vec![hexadecimal(page), block.to_string()]),
        Asked::Claim {
            page,
            block,
            claims,
        } => {
            let claims: Vec<u8> = claims
                .iter()
                .flat_map(|claim| claim.to_be_bytes())
                .collect();
            let words = [hexadecimal(page), block.to_string(), hexadecimal(&claims)];
            ("claim", words.to_vec())
        }
    };
    let sectors = &call.sectors;
    let numbers = [
        sectors.count,
        sectors.size,
        sectors.last_size,
        sectors.level_field,
        sectors.field_choice,
        sectors.page_size,
    ];
    let mut words = vec![name.to_string()];
    words.extend(numbers.map(|number| number.to_string()));
    words.push(call.edition.to_string());
    words.extend(asked);
    words.join(" ") + "\n"
}

/// What the model answers.
fn answer(call: &SectorCall) -> Answer {
    let (edition, sectors) = (call.edition, &call.sectors);
    match call.asked.clone() {
        Asked::Check => answered(check(edition, sectors), |done, _| done),
        Asked::Bit { position } => answered(
            locate_bit(edition, sectors, position),
            |done, place| match place {
                BitPlace::Covered { block, exponent } => done.with(0).with(block).with(exponent),
                BitPlace::Tail => done.with(1),
                BitPlace::Mark => panic!("sectors have no mark"),
            },
        ),
        Asked::Position { block, exponent } => answered(
            bit_position(edition, sectors, block, exponent),
            Answer::with,
        ),
        Asked::Write { data, mut page } => {
            let written = write(edition, sectors, &data, &mut page);
            answered(written, |done, ()| done).with_bytes(&page)
        }
        Asked::Look { page, mut counts } => {
            let looked = look(edition, sectors, &page, &mut counts);
            answered(looked, |done, ()| done).with_bytes(&counts)
        }
        Asked::Take { page, mut data } => {
            let taken = take(edition, sectors, &page, &mut data);
            answered(taken, |done, ()| done).with_bytes(&data)
        }
        Asked::Judge { page, block } => {
            answered(judge(edition, sectors, &page, block), Answer::with)
        }
        Asked::Claim {
            page,
            block,
            claims,
        } => answered(
            claim(edition, sectors, &page, block, &claims),
            |done, ()| done,
        ),
    }
}

/// Reply and block, and the values where the reply is 0.
fn answered<T>(outcome: Result<T, Refusal>, values: impl Fn(Answer, T) -> Answer) -> Answer {
    match outcome {
        Ok(value) => values(Answer::done(), value),
        Err(refusal) => refusal.into(),
    }
}
