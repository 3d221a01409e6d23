//! Samples of calls that export fragments and import them.

use crate::call::Call;
use crate::fragments::{COUNT, export_fragments};
use crate::random::Random;
use crate::samples::remainders::document_cases;

/// The level fields of the locator.
const LEVELS: [u64; 3] = [2, 4, 8];

/// Exports of random remainders and of document 004's, each followed by the import.
pub fn round_trips(random: &mut Random) -> Vec<Call> {
    let mut calls = Vec::new();
    for level_field in LEVELS {
        for _ in 0..20 {
            add_both(&mut calls, level_field, remainder(level_field, random));
        }
    }
    for case in document_cases() {
        if LEVELS.contains(&case.level_field) {
            add_both(&mut calls, case.level_field, case.remainder);
        }
    }
    calls
}

/// A remainder with many ones, few or none.
fn remainder(level_field: u64, random: &mut Random) -> Vec<u8> {
    let count = 26 * level_field as usize;
    let mut remainder = vec![0; count.div_ceil(8)];
    let ones = random.pick(&[0, 1, 3, count / 2, count]);
    let last = remainder.len() - 1;
    for p in random.distinct(ones, count) {
        remainder[last - p / 8] |= 1 << (p % 8);
    }
    remainder
}

fn add_both(calls: &mut Vec<Call>, level_field: u64, remainder: Vec<u8>) {
    let mut fragments = vec![0; COUNT];
    export_fragments(level_field, &remainder, &mut fragments).unwrap();
    calls.push(Call::ExportFragments {
        level_field,
        remainder: remainder.clone(),
        fragments: fragments.clone(),
    });
    calls.push(Call::ImportFragments {
        level_field,
        fragments,
        remainder,
    });
}

/// A call that would be done, but for one or two arguments spoilt.
pub fn spoilt(random: &mut Random) -> Call {
    let level_field = random.pick(&LEVELS);
    let mut calls = Vec::new();
    add_both(&mut calls, level_field, remainder(level_field, random));
    let mut call = calls.swap_remove(random.below(2));
    for _ in 0..random.within(1, 2) {
        spoil(&mut call, random);
    }
    call
}

fn spoil(call: &mut Call, random: &mut Random) {
    let (level, remainder, fragments) = match call {
        Call::ExportFragments {
            level_field,
            remainder,
            fragments,
        }
        | Call::ImportFragments {
            level_field,
            fragments,
            remainder,
        } => (level_field, remainder, fragments),
        _ => return,
    };
    match random.below(6) {
        0 => {
            let near = random.within(0, 0x20) as u64;
            *level = random.pick(&[near, 256 + 2, (1 << 32) + 4, (1 << 32) + 8, u64::MAX]);
        }
        1 => resize(remainder, random),
        2 => resize(fragments, random),
        3 => set_bit(remainder, random.below(4), 8, |byte, k| byte | 1 << k),
        4 => set_bit(fragments, 32 * COUNT - 16, 32, |word, k| word | 1 << k),
        _ => {
            let p = random.within(52, 32 * COUNT - 1);
            set_bit(fragments, p, 32, |word, k| word | 1 << k);
        }
    }
}

/// Sets bit p of the places, where they have one: of bytes the highest first.
fn set_bit<T: Copy>(places: &mut [T], p: usize, width: usize, set: impl Fn(T, usize) -> T) {
    let k = if width == 8 { 7 - p % 8 } else { p % width };
    if let Some(place) = places.get_mut(p / width) {
        *place = set(*place, k);
    }
}

/// Another length: none, one less, one more, or any small one.
fn resize<T: Clone + Default>(places: &mut Vec<T>, random: &mut Random) {
    let length = places.len();
    let any = random.below(17);
    let length = random.pick(&[0, length.saturating_sub(1), length + 1, any]);
    places.resize(length, T::default());
}
