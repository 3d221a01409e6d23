//! Binary BCH codes: values of words, codewords, the generator, remainders and parity.

use crate::field::{Field, FieldChoice};
use std::sync::OnceLock;

/// The binary BCH code of level t over a field, at every shortened length. At t = 0 every word is
/// a codeword and the generator is 1.
#[derive(Debug)]
pub struct Code<'a> {
    pub field: &'a Field,
    pub t: usize,
    generator: Vec<bool>,
}

/// The highest level: twice the level field 0x1F (document 02, E13).
pub const HIGHEST_LEVEL: usize = 62;

/// The code of a field choice and a level up to the highest.
pub fn bch(choice: FieldChoice, t: usize) -> &'static Code<'static> {
    static CODES: [[OnceLock<Code>; HIGHEST_LEVEL + 1]; 2] =
        [const { [const { OnceLock::new() }; HIGHEST_LEVEL + 1] }; 2];
    CODES[choice as usize][t].get_or_init(|| Code::new(choice.field(), t))
}

impl<'a> Code<'a> {
    pub fn new(field: &'a Field, t: usize) -> Code<'a> {
        Code {
            field,
            t,
            generator: generator(field, t),
        }
    }

    /// The polynomial of least degree that is zero at a, a^2, ..., a^(2t), highest power first.
    pub fn generator(&self) -> &[bool] {
        &self.generator
    }

    /// The degree of the generator: m times t for the two fields and every level of a level field.
    pub fn parity_length(&self) -> usize {
        self.generator.len() - 1
    }

    /// The values of a word at a, a^2, ..., a^(2t).
    pub fn syndromes(&self, word: &[bool]) -> Vec<u16> {
        (1..=2 * self.t)
            .map(|power| value(self.field, word, self.field.power_of_a(power)))
            .collect()
    }

    pub fn is_codeword(&self, word: &[bool]) -> bool {
        self.syndromes(word).iter().all(|&syndrome| syndrome == 0)
    }

    /// The remainder of a word by the generator, as many bits as the generator's degree.
    pub fn remainder(&self, word: &[bool]) -> Vec<bool> {
        let zeros = vec![false; self.parity_length()];
        let mut rest = [&zeros, word].concat();
        for i in 0..word.len() {
            if rest[i] {
                for (coefficient, &g) in rest[i..].iter_mut().zip(&self.generator) {
                    *coefficient ^= g;
                }
            }
        }
        rest.split_off(word.len())
    }

    /// The remainder of message times x^(mt) by the generator.
    pub fn parity(&self, message: &[bool]) -> Vec<bool> {
        let zeros = vec![false; self.parity_length()];
        self.remainder(&[message, &zeros].concat())
    }
}

/// The value of a word at a field element, by Horner's rule.
pub fn value(field: &Field, word: &[bool], element: u16) -> u16 {
    word.iter()
        .fold(0, |sum, &bit| field.product(sum, element) ^ bit as u16)
}

/// Turns over a word's coefficients of these powers of x.
pub fn flip_exponents(word: &mut [bool], exponents: &[usize]) {
    let n = word.len();
    for exponent in exponents {
        word[n - 1 - exponent] ^= true;
    }
}

/// The product of the different minimal polynomials of a, a^2, ..., a^(2t).
fn generator(field: &Field, t: usize) -> Vec<bool> {
    let mut zeros: Vec<usize> = Vec::new();
    let mut product = vec![true];
    for exponent in 1..=2 * t {
        if zeros.contains(&(exponent % field.order())) {
            continue;
        }
        let conjugates = conjugates(field, exponent);
        product = multiply(&product, &minimal_polynomial(field, &conjugates));
        zeros.extend(conjugates);
    }
    product
}

/// The exponents of the conjugates of a^exponent: exponent times 1, 2, 4 and so on, each once.
fn conjugates(field: &Field, exponent: usize) -> Vec<usize> {
    let first = exponent % field.order();
    let mut conjugates = vec![first];
    let mut next = 2 * first % field.order();
    while next != first {
        conjugates.push(next);
        next = 2 * next % field.order();
    }
    conjugates
}

/// The product of x + a^e over the exponents e of a class of conjugates. Its coefficients are bits.
fn minimal_polynomial(field: &Field, conjugates: &[usize]) -> Vec<bool> {
    let mut polynomial: Vec<u16> = vec![1];
    for &exponent in conjugates {
        let zero = field.power_of_a(exponent);
        polynomial.push(0);
        for i in (1..polynomial.len()).rev() {
            polynomial[i] ^= field.product(polynomial[i - 1], zero);
        }
    }
    assert!(polynomial.iter().all(|&coefficient| coefficient <= 1));
    polynomial
        .iter()
        .map(|&coefficient| coefficient == 1)
        .collect()
}

/// The product of two binary polynomials.
fn multiply(left: &[bool], right: &[bool]) -> Vec<bool> {
    let mut product = vec![false; left.len() + right.len() - 1];
    for (i, &l) in left.iter().enumerate() {
        for (j, &r) in right.iter().enumerate() {
            product[i + j] ^= l & r;
        }
    }
    product
}
