//! Vectors of pages: kinds `W`, `L`, `T`, `J` and `C`.

use crate::{Answer, Vectors};
use model::call::Call;
use model::layout::{Layout, LayoutRecord, LayoutWords};
use model::random::Random;
use model::samples::edges::{EDGES, edges};
use model::samples::erased::edge_layouts;
use model::samples::layouts::{CASE_A, accepted_words, strong_words};
use model::samples::marks::marked;
use model::samples::pages::{WrittenPage, spoil};
use model::{check_claim, check_layout, judge_block, look_page, take_page, write_page};

pub fn vectors() -> Vectors {
    let mut vectors = Vectors::default();
    let mut random = Random::new(0x9A6E);
    for call in document_calls() {
        add(&mut vectors, &call);
    }
    for i in 0..200 {
        let most = [20, 40, 70, 120, 250][i % 5];
        let words = chosen_words(&mut random, i % 8, most);
        add_page(&mut vectors, words.into(), &mut random);
    }
    for _ in 0..20 {
        let words = strong_words(&mut random);
        add_page(&mut vectors, words.into(), &mut random);
    }
    for words in [edge_layouts(); 4].concat() {
        add_page(&mut vectors, words.into(), &mut random);
    }
    for words in many_blocks(&mut random) {
        add_page(&mut vectors, words.into(), &mut random);
    }
    for words in large_words(&mut random) {
        add_large_page(&mut vectors, words.into(), &mut random);
    }
    for record in marked_records(&mut random) {
        add_page(&mut vectors, record, &mut random);
    }
    add_large_page(&mut vectors, marked(CASE_A, &mut random), &mut random);
    vectors
}

/// Small pages with marks.
fn marked_records(random: &mut Random) -> Vec<LayoutRecord> {
    let mut words: Vec<LayoutWords> = (0..50)
        .map(|i| chosen_words(random, i % 8, [20, 40, 70][i % 3]))
        .collect();
    words.extend(edge_layouts());
    words
        .into_iter()
        .map(|words| marked(words, random))
        .collect()
}

/// The calls about a page, and some of them spoilt in one to three arguments.
fn add_page(vectors: &mut Vectors, record: LayoutRecord, random: &mut Random) {
    let written = WrittenPage::new(record, random);
    let calls = written.calls(random);
    for call in &calls {
        add(vectors, call);
    }
    let (page, block) = written.overdamaged(random);
    let spoilt = [
        written.write(),
        written.look(written.ruined(random)),
        written.take(page.clone()),
        written.judge(page.clone(), block),
        written.claim(page, block, vec![0]),
    ];
    for mut call in spoilt {
        for _ in 0..random.within(1, 3) {
            spoil(&mut call, random);
        }
        add(vectors, &call);
    }
}

/// A large page written, read with damage within t and past it, and read erased and ruined.
fn add_large_page(vectors: &mut Vectors, record: LayoutRecord, random: &mut Random) {
    let written = WrittenPage::new(record, random);
    add(vectors, &written.write());
    let page = written.damaged(random);
    add(
        vectors,
        &written.judge(page.clone(), written.layout.blocks() - 1),
    );
    add_read(vectors, &written, page);
    if written.layout.page_length < 5000 {
        let (page, block) = written.overdamaged(random);
        add(vectors, &written.judge(page.clone(), block));
        add_read(vectors, &written, page);
        for call in written.erased_calls(random) {
            add(vectors, &call);
        }
        add_read(vectors, &written, written.ruined(random));
    }
}

fn add_read(vectors: &mut Vectors, written: &WrittenPage, page: Vec<u8>) {
    for call in written.read(page) {
        add(vectors, &call);
    }
}

/// Accepted words of a kind: any, one block, metadata only, t = 0 beside t > 0 in either order,
/// both fields with ECC, blocks that start inside bytes, metadata only in block 0.
fn chosen_words(random: &mut Random, kind: usize, most_page_bytes: usize) -> LayoutWords {
    loop {
        let words = accepted_words(random, most_page_bytes);
        let n = Layout::from(words).block(0).covered_bits();
        let later = words.nblocks > 0;
        let fits = match kind {
            1 => !later,
            2 => !later && words.data0_size == 0,
            3 => later && words.ecc0 == 0 && words.eccn > 0,
            4 => later && words.ecc0 > 0 && words.eccn == 0,
            5 => later && words.ecc0 > 0 && words.eccn > 0 && words.gf0 != words.gfn,
            6 => later && n % 8 != 0,
            7 => later && words.data0_size == 0,
            _ => true,
        };
        if fits {
            return words;
        }
    }
}

/// Words with the smallest PAGE_SIZE or a little more. A block is its level field, field choice
/// and size.
fn fitting_words(
    nblocks: u8,
    meta_size: u8,
    block0: (u8, u8, u16),
    later: (u8, u8, u16),
    random: &mut Random,
) -> LayoutWords {
    let words = LayoutWords {
        nblocks,
        meta_size,
        ecc0: block0.0,
        gf0: block0.1,
        data0_size: block0.2,
        page_size: 0,
        eccn: later.0,
        gfn: later.1,
        datan_size: later.2,
    };
    let used = Layout::from(words).used_bits().div_ceil(8);
    let page_size = (used + random.below(3)) as u16;
    LayoutWords { page_size, ..words }
}

/// 256 small blocks, with ECC and without.
fn many_blocks(random: &mut Random) -> [LayoutWords; 3] {
    [
        fitting_words(255, 3, (0, 1, 0), (1, 0, 1), random),
        fitting_words(255, 0, (2, 1, 1), (0, 0, 1), random),
        fitting_words(255, 255, (0x14, 0, 9), (2, 1, 1), random),
    ]
}

/// Case A, the longest blocks of both fields and editions and the largest page.
fn large_words(random: &mut Random) -> [LayoutWords; 7] {
    let largest = fitting_words(31, 3, (0x14, 1, 493), (0x14, 1, 494), random);
    [
        fitting_words(7, 10, (8, 0, 128), (8, 0, 128), random),
        fitting_words(1, 2, (0x14, 0, 239), (1, 1, 511), random),
        fitting_words(1, 1, (0x14, 1, 494), (0x14, 0, 239), random),
        fitting_words(3, 0, (0x14, 1, 256), (0x14, 1, 256), random),
        fitting_words(1, 3, (0x1F, 0, 230), (0x1F, 1, 484), random),
        fitting_words(3, 0, (0x1E, 1, 256), (0x1E, 1, 256), random),
        LayoutWords {
            page_size: 0xFFFF,
            ..largest
        },
    ]
}

/// Cases E, F, G and L of document 01.
fn document_calls() -> Vec<Call> {
    let record = 0x0100_0801_000F_0801_u64.to_be_bytes().to_vec();
    let written = WrittenPage {
        edition: 1,
        layout: check_layout(1, &record).unwrap(),
        record,
        metadata: vec![],
        data: vec![0; 8],
        page: [vec![0; 14], vec![0x0F]].concat(),
    };
    let mut page = written.page.clone();
    page[0] = 0x80;
    let judge = |block| written.judge(page.clone(), block);
    let claim = |claims: &[u16]| written.claim(page.clone(), 0, claims.to_vec());
    let mut calls = vec![written.write()];
    calls.extend(written.read(page.clone()));
    calls.extend([judge(0), judge(1)]);
    calls.extend([claim(&[57, 57]), claim(&[57]), claim(&[])]);
    calls
}

fn add(vectors: &mut Vectors, call: &Call) {
    vectors.meet(&EDGES, edges(call));
    match call.clone() {
        Call::WritePage {
            edition,
            record,
            metadata,
            data,
            mut page,
        } => {
            let mut input = head(b'W', edition, &record, page.len(), metadata.len());
            input.extend((data.len() as u32).to_be_bytes());
            input.extend([0; 4]);
            input.extend([metadata.as_slice(), &data].concat());
            let reply = write_page(edition, &record, &metadata, &data, &mut page);
            vectors.add(&input, Answer::from(reply).with_bytes(&page));
        }
        Call::LookPage {
            edition,
            record,
            page,
            mut counts,
        } => {
            let mut input = head(b'L', edition, &record, page.len(), counts.len());
            input.extend([0; 8]);
            input.extend(&page);
            let reply = look_page(edition, &record, &page, &mut counts);
            vectors.add(&input, Answer::from(reply).with_bytes(&counts));
        }
        Call::TakePage {
            edition,
            record,
            page,
            mut metadata,
            mut data,
        } => {
            let mut input = head(b'T', edition, &record, page.len(), metadata.len());
            input.extend((data.len() as u32).to_be_bytes());
            input.extend([0; 4]);
            input.extend(&page);
            let reply = take_page(edition, &record, &page, &mut metadata, &mut data);
            let answer = Answer::from(reply).with_bytes(&metadata).with_bytes(&data);
            vectors.add(&input, answer);
        }
        Call::JudgeBlock {
            edition,
            record,
            page,
            block,
        } => {
            let mut input = head(b'J', edition, &record, page.len(), 0);
            input.extend(block.to_be_bytes());
            input.extend(&page);
            let answer = match judge_block(edition, &record, &page, block) {
                Ok(flips) => Answer::done().with(flips),
                Err(refusal) => refusal.into(),
            };
            vectors.add(&input, answer);
        }
        Call::CheckClaim {
            edition,
            record,
            page,
            block,
            claims,
        } => {
            let mut input = head(b'C', edition, &record, page.len(), claims.len());
            input.extend(block.to_be_bytes());
            input.extend(&page);
            input.extend(claims.iter().flat_map(|claim| claim.to_be_bytes()));
            let reply = check_claim(edition, &record, &page, block, &claims);
            vectors.add(&input, reply.into());
        }
        other => panic!("no call about a page: {other:?}"),
    }
}

/// The first 32 bytes: kind, edition, record, the page's length and that of the next thing lent.
fn head(kind: u8, edition: u64, record: &[u8], page: usize, next: usize) -> Vec<u8> {
    let mut head = vec![kind, record.len() as u8];
    head.extend(edition.to_be_bytes());
    head.extend_from_slice(record);
    head.resize(24, 0);
    head.extend((page as u32).to_be_bytes());
    head.extend((next as u32).to_be_bytes());
    head
}
