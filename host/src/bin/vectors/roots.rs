//! Vectors for `root_vectors`: locators with all their roots among the powers of a.

use crate::{Answer, Vectors};
use model::code::HIGHEST_LEVEL;
use model::field::FieldChoice;
use model::random::Random;

pub fn vectors() -> Vectors {
    let mut vectors = Vectors::default();
    let mut random = Random::new(0x2007);
    for choice in FieldChoice::ALL {
        for t in (2..=40).step_by(2) {
            for count in 1..=t {
                for _ in 0..3 {
                    let places = random.distinct(count, choice.field().order());
                    add(&mut vectors, choice, places);
                }
            }
        }
    }
    for choice in FieldChoice::ALL {
        for count in 41..=HIGHEST_LEVEL {
            for _ in 0..6 {
                let places = random.distinct(count, choice.field().order());
                add(&mut vectors, choice, places);
            }
        }
    }
    // Small locators, which have their own ways; the last one divides 1 by 1 on its way.
    for choice in FieldChoice::ALL {
        for count in [3, 4] {
            for _ in 0..400 {
                let places = random.distinct(count, choice.field().order());
                add(&mut vectors, choice, places);
            }
        }
    }
    add(
        &mut vectors,
        FieldChoice::Fourteen,
        vec![3581, 3453, 3322, 855],
    );
    vectors
}

fn add(vectors: &mut Vectors, choice: FieldChoice, mut places: Vec<usize>) {
    let mut input = vec![b'R', choice as u8, places.len() as u8, 0];
    for coefficient in &locator(choice, &places)[1..] {
        input.extend_from_slice(&coefficient.to_be_bytes());
    }
    places.sort_by(|left, right| right.cmp(left));
    let line: Vec<String> = places.iter().map(usize::to_string).collect();
    let answer = Answer {
        reply: 0,
        line: line.join(" "),
    };
    vectors.add(&input, answer);
}

/// The product of x + a^p over the places p, the highest power first.
fn locator(choice: FieldChoice, places: &[usize]) -> Vec<u16> {
    let field = choice.field();
    places.iter().fold(vec![1], |product, &place| {
        let root = field.power_of_a(place);
        let mut next = product.clone();
        next.push(0);
        for (sum, &coefficient) in next[1..].iter_mut().zip(&product) {
            *sum ^= field.product(coefficient, root);
        }
        next
    })
}
