//! Vectors of layouts and page bits: kinds `L`, `P` and `B`.

use crate::{Answer, Vectors};
use model::edition::Edition;
use model::layout::{Layout, LayoutRecord};
use model::random::Random;
use model::samples::layouts::{CASE_A, CASE_E, HUGE, code_bits, editions, positions, records};
use model::{BitPlace, Reply, bit_position, check_layout, locate_bit};

pub fn vectors() -> Vectors {
    let mut vectors = Vectors::default();
    let mut random = Random::new(0x1A40);
    let mut records = records(&mut random);
    records.retain(|record| record.len() <= RECORD_PLACES);
    let mut calls = Vec::new();
    for record in records {
        for edition in editions(&record, &mut random) {
            add_layout(&mut vectors, edition, &record);
            calls.push((edition, record.clone()));
        }
    }
    let (accepted, refused): (Vec<Beside>, Vec<Beside>) = calls
        .into_iter()
        .partition(|(edition, record)| check_layout(*edition, record).is_ok());
    for _ in 0..150 {
        let (edition, record) = &refused[random.below(refused.len())];
        let (first, second) = (random.pick(&[0, 1, HUGE[3]]), random.pick(&[0, 1, HUGE[0]]));
        add_position(&mut vectors, *edition, record, first);
        add_code_bit(&mut vectors, *edition, record, first, second);
    }
    let some = (0..60).map(|i| accepted[i * accepted.len() / 60].clone());
    let marked = accepted.iter().filter(|(_, record)| record.len() == 12);
    let marked: Vec<Beside> = marked.step_by(4).cloned().collect();
    let cases = [CASE_A, CASE_E].map(|words| (1, words.pack().to_vec()));
    for (edition, record) in some.chain(marked).chain(cases) {
        let layout = check_layout(edition, &record).unwrap();
        for position in positions(&layout, &mut random) {
            add_position(&mut vectors, edition, &record, position);
        }
        for (block, exponent) in code_bits(&layout, &mut random) {
            add_code_bit(&mut vectors, edition, &record, block, exponent);
        }
    }
    vectors
}

/// An edition beside a record.
type Beside = (u64, Vec<u8>);

/// The places for a record in the head of a vector.
const RECORD_PLACES: usize = 12;

/// The head of a vector: kind, edition, record and two numbers.
fn head(kind: u8, edition: u64, record: &[u8], first: u64, second: u64) -> Vec<u8> {
    let mut head = vec![kind, record.len() as u8];
    head.extend(edition.to_be_bytes());
    head.extend_from_slice(record);
    head.resize(24, 0);
    head.extend(first.to_be_bytes());
    head.extend(second.to_be_bytes());
    head
}

fn add_layout(vectors: &mut Vectors, edition: u64, record: &[u8]) {
    vectors.add(
        &head(b'L', edition, record, 0, 0),
        layout_answer(edition, record),
    );
}

fn layout_answer(edition: u64, record: &[u8]) -> Answer {
    let Some(edition) = Edition::from_number(edition) else {
        return Reply::OutOfRange.into();
    };
    let Some(record) = LayoutRecord::unpack(record) else {
        return Reply::BufferLength.into();
    };
    let words = record.words;
    let layout = Layout::from(record);
    if let Some(reason) = layout.reason(edition) {
        return Answer::from(reason.reply)
            .with(reason.part as u8)
            .with(reason.found)
            .with(reason.limit);
    }
    Answer::done()
        .with(words.nblocks)
        .with(words.meta_size)
        .with(words.ecc0)
        .with(words.gf0)
        .with(words.data0_size)
        .with(words.page_size)
        .with(words.eccn)
        .with(words.gfn)
        .with(words.datan_size)
        .with(layout.block(0).covered_bits())
        .with(layout.later().map_or(0, |later| later.covered_bits()))
        .with(layout.used_bits())
        .with(layout.data_length())
        .with(layout.mark.offset)
        .with(layout.mark.length)
}

fn add_position(vectors: &mut Vectors, edition: u64, record: &[u8], position: u64) {
    let answer = match locate_bit(edition, record, position) {
        Ok(BitPlace::Covered { block, exponent }) => {
            Answer::done().with(1).with(block).with(exponent)
        }
        Ok(BitPlace::Tail) => Answer::done().with(0),
        Ok(BitPlace::Mark) => Answer::done().with(2),
        Err(refusal) => refusal.into(),
    };
    vectors.add(&head(b'P', edition, record, position, 0), answer);
}

fn add_code_bit(vectors: &mut Vectors, edition: u64, record: &[u8], block: u64, exponent: u64) {
    let answer = match bit_position(edition, record, block, exponent) {
        Ok(position) => Answer::done().with(position),
        Err(refusal) => refusal.into(),
    };
    vectors.add(&head(b'B', edition, record, block, exponent), answer);
}
