//! The fields, the generators and the decoder against the definitions.

use model::code::{Code, HIGHEST_LEVEL, bch, flip_exponents};
use model::decoder::{errors_of_remainder, errors_of_word};
use model::field::{Field, FieldChoice};
use model::random::Random;
use std::collections::HashSet;

/// The product by shifting and adding.
fn shift_and_add(field: &Field, left: u16, right: u16) -> u16 {
    let mut product: u32 = 0;
    for i in (0..field.m).rev() {
        product <<= 1;
        if product >> field.m & 1 == 1 {
            product ^= field.modulus;
        }
        if right >> i & 1 == 1 {
            product ^= left as u32;
        }
    }
    product as u16
}

#[test]
fn product_is_that_of_polynomials() {
    let mut random = Random::new(1);
    for choice in FieldChoice::ALL {
        let field = choice.field();
        for _ in 0..100_000 {
            let left = random.below(field.order() + 1) as u16;
            let right = random.below(field.order() + 1) as u16;
            assert_eq!(
                field.product(left, right),
                shift_and_add(field, left, right)
            );
        }
        for element in 1..=field.order() as u16 {
            assert_eq!(field.product(element, field.inverse(element)), 1);
        }
    }
}

/// A binary polynomial that is zero at an element is zero at its square. So one with the zeros a,
/// a^2, ..., a^(2t) has at least the zeros counted here, and no smaller degree.
#[test]
fn generator_is_of_least_degree() {
    for choice in FieldChoice::ALL {
        let field = choice.field();
        for t in 0..=HIGHEST_LEVEL {
            let code = bch(choice, t);
            assert!(code.generator()[0]);
            assert!(code.is_codeword(code.generator()));
            let zeros: HashSet<usize> = (1..=2 * t)
                .flat_map(|power| (0..field.m).map(move |i| (power << i) % field.order()))
                .collect();
            assert_eq!(zeros.len(), field.m * t);
            assert_eq!(code.parity_length(), field.m * t);
        }
    }
}

#[test]
fn codewords_are_the_words_without_remainder() {
    let mut random = Random::new(2);
    for choice in FieldChoice::ALL {
        for t in 0..=HIGHEST_LEVEL {
            let code = bch(choice, t);
            let length = random.within(1, 1000);
            let message = random.bits(length);
            let codeword = [message.clone(), code.parity(&message)].concat();
            assert!(code.is_codeword(&codeword));
            assert!(!code.remainder(&codeword).contains(&true));
            let word = random.bits(message.len() + code.parity_length());
            let rest = code.remainder(&word);
            assert_eq!(code.is_codeword(&word), !rest.contains(&true));
            assert_eq!(code.syndromes(&word), code.syndromes(&rest));
        }
    }
}

/// A codeword of n bits with the coefficients of these powers turned over.
fn damaged(code: &Code, n: usize, exponents: &[usize], random: &mut Random) -> Vec<bool> {
    let message = random.bits(n - code.parity_length());
    let mut word = [message.clone(), code.parity(&message)].concat();
    flip_exponents(&mut word, exponents);
    word
}

#[test]
fn up_to_t_errors_are_found() {
    let mut random = Random::new(3);
    for choice in FieldChoice::ALL {
        for t in (1..=40).chain((42..=HIGHEST_LEVEL).step_by(4)) {
            let code = bch(choice, t);
            let longest = code.field.order();
            for n in [
                code.parity_length() + 1,
                code.parity_length() + 32,
                longest - 1,
                longest,
            ] {
                for count in [0, 1, t / 2, t - 1, t] {
                    let mut errors = random.distinct(count, n);
                    errors.sort();
                    let word = damaged(code, n, &errors, &mut random);
                    let rest = code.remainder(&word);
                    assert_eq!(errors_of_remainder(code, &rest, n), Some(errors.clone()));
                    assert_eq!(errors_of_word(code, &word), Some(errors));
                }
            }
        }
    }
}

/// Whatever is answered past t errors, the repaired word is a codeword at most t places away.
#[test]
fn more_than_t_errors_are_refused_or_lead_to_a_codeword() {
    let mut random = Random::new(4);
    for choice in FieldChoice::ALL {
        for t in [1, 2, 3, 4, 8, 16, 40, HIGHEST_LEVEL] {
            let code = bch(choice, t);
            for n in [code.parity_length() + 8, code.field.order()] {
                for count in [t + 1, t + 2, 2 * t, 2 * t + 1, n / 2] {
                    let errors = random.distinct(count.min(n), n);
                    let word = damaged(code, n, &errors, &mut random);
                    let rest = code.remainder(&word);
                    let found = errors_of_word(code, &word);
                    assert_eq!(errors_of_remainder(code, &rest, n), found);
                    if let Some(found) = found {
                        let mut corrected = word.clone();
                        flip_exponents(&mut corrected, &found);
                        assert!(found.len() <= t && code.is_codeword(&corrected));
                    }
                }
            }
        }
    }
}
