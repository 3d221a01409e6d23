//! Vectors of fragments: kinds `X`, `M` and `L`.

use crate::{Answer, Vectors};
use model::call::Call;
use model::code::{bch, flip_exponents};
use model::field::FieldChoice::Thirteen;
use model::fragments::COUNT;
use model::random::Random;
use model::samples::fragments::{round_trips, spoilt};
use model::samples::remainders::BEFORE;
use model::{Reply, export_fragments, import_fragments, locate_errors};

/// Level field and remainder of document 004: the example with t = 8, and P0 to P3 with t = 16.
const DOCUMENT_004: [(u64, [u32; COUNT]); 5] = [
    (4, [0xFB0D0980, 0xE44F767B, 0x16ABE115, 0x0000000A, 0, 0, 0]),
    (
        8,
        [
            0xE0B718EF, 0xA329AA05, 0x8330B5CC, 0xB0693DB2, 0x318E05BE, 0x12ADDB5A, 0xE8B0,
        ],
    ),
    (
        8,
        [
            0xE5F935EB, 0x79C6BA10, 0xBE093336, 0x0948DF08, 0xC22E6669, 0x49A0D932, 0xBAD0,
        ],
    ),
    (
        8,
        [
            0x60BA3189, 0x1579EF7D, 0x54556EA0, 0xA6498FEE, 0xEC3697FA, 0xB86ABCD5, 0x69D9,
        ],
    ),
    (8, [0; COUNT]),
];

/// The bits of 528 bytes.
const DOCUMENT_LENGTH: u64 = 4224;

pub fn vectors() -> Vectors {
    let mut vectors = Vectors::default();
    let mut random = Random::new(0xF4A6);
    for (level_field, fragments) in DOCUMENT_004 {
        add_located(&mut vectors, level_field, DOCUMENT_LENGTH, &fragments);
    }
    for level_field in [2, 4, 8] {
        for count in [0, 1, 2, level_field, 2 * level_field, 2 * level_field + 1] {
            let n = random.within(26 * level_field as usize + 1, 8191);
            let fragments = of_sum(level_field, &random.distinct(count as usize, n));
            add_located(&mut vectors, level_field, n as u64, &fragments);
        }
    }
    for mut call in round_trips(&mut random) {
        call.fill_outputs(&mut random);
        add(&mut vectors, call);
    }
    for _ in 0..600 {
        let mut call = spoilt(&mut random);
        call.fill_outputs(&mut random);
        add(&mut vectors, call);
    }
    vectors
}

/// The fragments of the remainder that a sum of powers of x leaves.
fn of_sum(level_field: u64, exponents: &[usize]) -> [u32; COUNT] {
    let code = bch(Thirteen, 2 * level_field as usize);
    let mut word = vec![false; code.field.order()];
    flip_exponents(&mut word, exponents);
    let mut fragments = [0; COUNT];
    for (p, coefficient) in code.remainder(&word).into_iter().rev().enumerate() {
        fragments[p / 32] |= (coefficient as u32) << (p % 32);
    }
    fragments
}

/// A vector: head, remainder and fragments.
fn input(kind: u8, places: usize, level_field: u64, n: u64, lent: (&[u8], &[u32])) -> Vec<u8> {
    let (remainder, fragments) = lent;
    let lengths = [remainder.len(), fragments.len(), places].map(|length| length as u8);
    let mut input = vec![kind];
    input.extend(lengths);
    input.resize(8, 0);
    input.extend(level_field.to_be_bytes());
    input.extend(n.to_be_bytes());
    input.resize(32, 0);
    input.extend(remainder);
    input.extend(fragments.iter().flat_map(|fragment| fragment.to_be_bytes()));
    input
}

fn reply(outcome: Result<(), model::Refusal>) -> Answer {
    Answer::alone(outcome.map_or_else(|refusal| refusal.number(), |()| 0))
}

fn add(vectors: &mut Vectors, call: Call) {
    match call {
        Call::ExportFragments {
            level_field,
            remainder,
            mut fragments,
        } => {
            let input = input(b'X', 0, level_field, 0, (&remainder, &fragments));
            let answer = reply(export_fragments(level_field, &remainder, &mut fragments));
            vectors.add(&input, fragments.iter().fold(answer, Answer::with));
        }
        Call::ImportFragments {
            level_field,
            fragments,
            mut remainder,
        } => {
            let input = input(b'M', 0, level_field, 0, (&remainder, &fragments));
            let answer = reply(import_fragments(level_field, &fragments, &mut remainder));
            vectors.add(&input, remainder.iter().fold(answer, Answer::with));
        }
        _ => (),
    }
}

fn add_located(vectors: &mut Vectors, level_field: u64, n: u64, fragments: &[u32]) {
    let mut remainder = vec![0xA5; (26 * level_field as usize).div_ceil(8)];
    let mut places = vec![BEFORE; 2 * level_field as usize];
    let input = input(b'L', places.len(), level_field, n, (&remainder, fragments));
    let answer = reply(import_fragments(level_field, fragments, &mut remainder));
    let located = locate_errors(1, level_field, 0, n, &remainder, &mut places);
    let answer = match located {
        Ok(size) => answer.with(0).with(size),
        Err(refusal) => answer.with(refusal.number()),
    };
    assert_ne!(located.map(|_| ()), Err(Reply::BufferLength.into()));
    vectors.add(&input, places.iter().fold(answer, Answer::with));
}
