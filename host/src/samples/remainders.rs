//! Samples of calls that locate errors from a remainder.

use crate::bits::bytes_of;
use crate::call::Call;
use crate::code::{Code, bch, flip_exponents};
use crate::field::FieldChoice;
use crate::random::Random;
use crate::samples::layouts::{NO_EDITIONS, level_edges};

/// What each place of a lent list holds before a sampled sample.
pub const BEFORE: u16 = 0xA5A5;

/// The arguments of a call; of the list only the number of places.
#[derive(Clone)]
pub struct Remainder {
    pub edition: u64,
    pub level_field: u64,
    pub field_choice: u64,
    pub n: u64,
    pub remainder: Vec<u8>,
    pub places: usize,
}

impl From<Remainder> for Call {
    fn from(sample: Remainder) -> Call {
        Call::LocateErrors {
            edition: sample.edition,
            level_field: sample.level_field,
            field_choice: sample.field_choice,
            n: sample.n,
            remainder: sample.remainder,
            places: vec![BEFORE; sample.places],
        }
    }
}

/// A remainder's bits as bytes, right-aligned.
fn right_aligned(remainder: &[bool]) -> Vec<u8> {
    let zeros = vec![false; remainder.len().next_multiple_of(8) - remainder.len()];
    bytes_of(&[&zeros, remainder].concat())
}

/// A call with this remainder in an edition that has the level, and a list of t places or a few more.
fn sample(
    choice: FieldChoice,
    code: &Code,
    n: usize,
    remainder: &[bool],
    random: &mut Random,
) -> Remainder {
    Remainder {
        edition: match code.t {
            ..=40 => random.pick(&[1, 1, 2]),
            _ => 2,
        },
        level_field: code.t as u64 / 2,
        field_choice: choice as u64,
        n: n as u64,
        remainder: right_aligned(remainder),
        places: code.t + random.pick(&[0, 0, 0, 1, 3, 8]),
    }
}

fn remainder_of_sum(code: &Code, exponents: &[usize]) -> Vec<bool> {
    let mut word = vec![false; code.field.order()];
    flip_exponents(&mut word, exponents);
    code.remainder(&word)
}

/// Sums of powers at short and long lengths: none, up to t, more than t, some at n and above.
pub fn sums(choice: FieldChoice, level_field: usize, random: &mut Random) -> Vec<Remainder> {
    let code = bch(choice, 2 * level_field);
    let (t, shortest, longest) = (code.t, code.parity_length() + 1, code.field.order());
    let lengths = [
        shortest,
        shortest + 7,
        random.within(shortest, 4 * shortest),
        random.within(shortest, longest),
        longest - 1,
        longest,
    ];
    let mut samples = Vec::new();
    for n in lengths {
        let counts = [
            0,
            1,
            random.within(1, t),
            t - 1,
            t,
            t,
            t + 1,
            random.within(t + 2, 2 * t),
            2 * t + 1,
            n / 2,
        ];
        for count in counts {
            let exponents = random.distinct(count, n);
            let remainder = remainder_of_sum(code, &exponents);
            samples.push(sample(choice, code, n, &remainder, random));
        }
        if n < longest {
            let above = random.within(n, longest - 1);
            let outside = random.pick(&[n, above]);
            let inside = random.below(t);
            let mut exponents = random.distinct(inside, n);
            exponents.push(outside);
            let remainder = remainder_of_sum(code, &exponents);
            samples.push(sample(choice, code, n, &remainder, random));
        }
        let remainder = random.bits(code.parity_length());
        samples.push(sample(choice, code, n, &remainder, random));
    }
    samples
}

/// At small levels and great lengths many random remainders have their set of errors.
pub fn random_remainder(choice: FieldChoice, level_field: usize, random: &mut Random) -> Remainder {
    let code = bch(choice, 2 * level_field);
    let longest = code.field.order();
    let n = random.pick(&[longest, longest - 1, longest * 3 / 4, longest / 2]);
    let remainder = random.bits(code.parity_length());
    sample(choice, code, n, &remainder, random)
}

/// The remainders of document 004 and one that lib/bch.c of Linux 6.1 locates wrongly, m = 13.
pub fn document_cases() -> Vec<Remainder> {
    let samples = [
        (4, 4224, "0a16abe115e44f767bfb0d0980"),
        (
            8,
            4224,
            "e8b012addb5a318e05beb0693db28330b5cca329aa05e0b718ef",
        ),
        (
            8,
            4224,
            "bad049a0d932c22e66690948df08be09333679c6ba10e5f935eb",
        ),
        (
            8,
            4224,
            "69d9b86abcd5ec3697faa6498fee54556ea01579ef7d60ba3189",
        ),
        (
            8,
            4224,
            "0000000000000000000000000000000000000000000000000000",
        ),
        (3, 6638, "14150e7b221b361a032c"),
    ];
    samples
        .map(|(level_field, n, digits)| Remainder {
            edition: 1,
            level_field,
            field_choice: 0,
            n,
            remainder: (0..digits.len())
                .step_by(2)
                .map(|i| u8::from_str_radix(&digits[i..i + 2], 16).unwrap())
                .collect(),
            places: 2 * level_field as usize,
        })
        .to_vec()
}

/// Calls that are done where the edition has the level field, at both sides of each edge.
pub fn levels(random: &mut Random) -> Vec<Remainder> {
    let mut samples = Vec::new();
    for (edition, level_field) in level_edges(random) {
        for choice in FieldChoice::ALL {
            let t = 2 * level_field as usize;
            samples.push(Remainder {
                edition,
                level_field,
                field_choice: choice as u64,
                n: choice.field().order() as u64,
                remainder: vec![0; (choice.field().m * t).div_ceil(8)],
                places: t,
            });
        }
    }
    samples
}

/// A call that would be done or answered 9, but for one to three arguments spoilt.
pub fn spoilt(random: &mut Random) -> Remainder {
    let choice = random.pick(&FieldChoice::ALL);
    let code = bch(choice, 2 * random.within(1, 0x1F));
    let (parity_length, longest) = (code.parity_length(), code.field.order());
    let n = random.pick(&[parity_length + 1, longest]);
    let count = random.below(code.t + 2);
    let exponents = random.distinct(count, n);
    let remainder = remainder_of_sum(code, &exponents);
    let mut sample = sample(choice, code, n, &remainder, random);
    for _ in 0..random.within(1, 3) {
        match random.below(8) {
            0 => sample.field_choice = random.pick(&[2, 3, 256, 1 << 32, (1 << 32) + 1, u64::MAX]),
            1 => {
                sample.level_field =
                    random.pick(&[0, 0x15, 0x1F, 0x20, 256, 257, (1 << 32) + 1, u64::MAX])
            }
            2 => sample.n = random.pick(&[0, 1, parity_length, longest + 1]) as u64,
            3 => sample.n = random.pick(&[1 << 16, (1 << 32) + 1000, 1 << 63, u64::MAX]),
            4 => spoil_length(&mut sample, code.t, random),
            5 => {
                let none = random.pick(&NO_EDITIONS);
                sample.edition = random.pick(&[none, none, 1]);
            }
            _ => set_bit_above(&mut sample, parity_length, random),
        }
    }
    sample
}

/// A one above bit mt - 1, where the bytes have room for one.
fn set_bit_above(sample: &mut Remainder, parity_length: usize, random: &mut Random) {
    let room = (8 * sample.remainder.len()).saturating_sub(parity_length);
    if room > 0 {
        let position = random.below(room);
        sample.remainder[position / 8] |= 0x80 >> (position % 8);
    }
}

/// A remainder or a list of a wrong length.
fn spoil_length(sample: &mut Remainder, t: usize, random: &mut Random) {
    match random.below(5) {
        0 => sample.remainder.insert(0, 0),
        1 => sample.remainder.truncate(sample.remainder.len() - 1),
        2 => sample.places = t - 1,
        3 => sample.places = random.below(t),
        _ => sample.remainder = vec![0; random.within(1, 110)],
    }
}
