//! Vectors of locating from a remainder: kind `E`.

use crate::{Answer, Vectors};
use model::field::FieldChoice;
use model::locate_errors;
use model::random::Random;
use model::samples::remainders::{
    BEFORE, Remainder, document_cases, levels, random_remainder, spoilt, sums,
};

pub fn vectors() -> Vectors {
    let mut vectors = Vectors::default();
    let mut random = Random::new(0x10CA);
    let mut samples = document_cases();
    for choice in FieldChoice::ALL {
        for level_field in 1..=0x14 {
            samples.extend(sums(choice, level_field, &mut random));
            samples.extend(sums(choice, level_field, &mut random));
        }
        for level_field in 0x15..=0x1F {
            let sums = sums(choice, level_field, &mut random);
            let first = random.below(2);
            samples.extend(sums.into_iter().skip(first).step_by(2));
        }
        for level_field in [1, 1, 1, 2, 2, 3] {
            samples.extend((0..50).map(|_| random_remainder(choice, level_field, &mut random)));
        }
    }
    samples.extend(levels(&mut random));
    samples.extend((0..1000).map(|_| spoilt(&mut random)));
    for sample in &samples {
        add(&mut vectors, sample);
    }
    vectors
}

fn add(vectors: &mut Vectors, sample: &Remainder) {
    let mut input = vec![b'E', sample.remainder.len() as u8, sample.places as u8];
    input.resize(8, 0);
    input.extend(sample.edition.to_be_bytes());
    input.extend(sample.level_field.to_be_bytes());
    input.extend(sample.field_choice.to_be_bytes());
    input.extend(sample.n.to_be_bytes());
    input.extend(&sample.remainder);
    let mut places = vec![BEFORE; sample.places];
    let located = locate_errors(
        sample.edition,
        sample.level_field,
        sample.field_choice,
        sample.n,
        &sample.remainder,
        &mut places,
    );
    let answer = match located {
        Ok(size) => Answer::done().with(size),
        Err(refusal) => refusal.into(),
    };
    vectors.add(&input, places.iter().fold(answer, Answer::with));
}
