//! The decoder against a search of all sets of at most t places.

use model::code::{Code, bch, flip_exponents};
use model::decoder::{errors_of_remainder, errors_of_word};
use model::field::{Field, FieldChoice};
use model::outcome::{Outcome, outcome};
use model::random::Random;
use std::collections::HashMap;

/// The bits of a number, as many as asked for, highest first.
fn bits(number: u64, length: usize) -> Vec<bool> {
    (0..length).rev().map(|i| number >> i & 1 == 1).collect()
}

fn number(bits: &[bool]) -> u64 {
    bits.iter().fold(0, |value, &bit| value << 1 | bit as u64)
}

/// The remainder of x^exponent as a number.
fn power_remainder(code: &Code, exponent: usize) -> u64 {
    let mut word = vec![false; exponent + 1];
    word[0] = true;
    number(&code.remainder(&word))
}

/// Every set of at most t exponents below n, ascending, by the remainder that its sum leaves.
struct AllSets {
    sets: HashMap<u64, Vec<usize>>,
}

impl AllSets {
    fn new(code: &Code, n: usize) -> AllSets {
        let powers: Vec<u64> = (0..n)
            .map(|exponent| power_remainder(code, exponent))
            .collect();
        let mut all = AllSets {
            sets: HashMap::new(),
        };
        all.extend(&powers, code.t, 0, &mut Vec::new());
        all
    }

    fn extend(&mut self, powers: &[u64], most: usize, remainder: u64, set: &mut Vec<usize>) {
        let other = self.sets.insert(remainder, set.clone());
        assert_eq!(other, None, "two sets leave one remainder");
        if set.len() == most {
            return;
        }
        let first = set.last().map_or(0, |last| last + 1);
        for exponent in first..powers.len() {
            set.push(exponent);
            self.extend(powers, most, remainder ^ powers[exponent], set);
            set.pop();
        }
    }

    fn find(&self, remainder: u64) -> Option<&Vec<usize>> {
        self.sets.get(&remainder)
    }
}

fn assert_same(code: &Code, n: usize, all: &AllSets, remainder: u64) {
    let found = errors_of_remainder(code, &bits(remainder, code.parity_length()), n);
    assert_eq!(
        found.as_ref(),
        all.find(remainder),
        "m {} t {} n {n} remainder {remainder:x}",
        code.field.m,
        code.t
    );
}

/// In small fields every remainder is tried, at every length or at some.
#[test]
fn every_remainder_of_small_codes() {
    let (five, six) = (Field::new(5, 0b100101), Field::new(6, 0b1000011));
    for (field, t, step) in [
        (&five, 1, 1),
        (&five, 2, 1),
        (&five, 3, 1),
        (&six, 2, 1),
        (&six, 3, 11),
    ] {
        let code = Code::new(field, t);
        for n in (code.parity_length() + 1..=field.order())
            .rev()
            .step_by(step)
        {
            let all = AllSets::new(&code, n);
            for remainder in 0..1 << code.parity_length() {
                assert_same(&code, n, &all, remainder);
            }
        }
    }
}

/// Every word of a small code, not only its remainder.
#[test]
fn every_word_of_a_small_code() {
    let field = Field::new(5, 0b100101);
    let code = Code::new(&field, 2);
    for n in [11, 14, 16] {
        let codewords: Vec<Vec<bool>> = (0..1 << (n - code.parity_length()))
            .map(|message| bits(message, n - code.parity_length()))
            .map(|message| [message.clone(), code.parity(&message)].concat())
            .collect();
        for word in (0..1 << n).map(|word| bits(word, n)) {
            let near = codewords
                .iter()
                .find(|codeword| distance(&word, codeword) <= code.t);
            let repaired = errors_of_word(&code, &word).map(|errors| {
                let mut repaired = word.clone();
                flip_exponents(&mut repaired, &errors);
                repaired
            });
            assert_eq!(repaired.as_ref(), near);
        }
    }
}

fn distance(left: &[bool], right: &[bool]) -> usize {
    left.iter().zip(right).filter(|(l, r)| l != r).count()
}

/// What becomes of a word by the rule's words: the codeword within t among all of them, or else the
/// zeros, which are the distance from the word of ones.
fn judged(word: &[bool], t: usize, codewords: &[Vec<bool>]) -> Outcome {
    let near = codewords
        .iter()
        .find(|codeword| distance(word, codeword) <= t);
    let zeros = distance(word, &vec![true; word.len()]);
    match near {
        Some(codeword) => Outcome::Repaired {
            codeword: codeword.clone(),
            flips: distance(word, codeword),
        },
        None if zeros <= t => Outcome::Erased { zeros },
        None => Outcome::Ruined,
    }
}

/// Every word of small codes is repaired, erased or ruined as the rule says, t = 0 included; and words
/// of at most t zeros are among the repaired ones, and words of t + 1 among the ruined.
#[test]
fn every_word_of_small_codes_is_judged() {
    let field = Field::new(5, 0b100101);
    let (mut erased, mut repaired, mut just_ruined) = (0, 0, 0);
    for (t, lengths) in [(0, [1, 9]), (1, [8, 13]), (2, [12, 16]), (3, [16, 17])] {
        let code = Code::new(&field, t);
        for n in lengths {
            let message = n - code.parity_length();
            let codewords: Vec<Vec<bool>> = (0..1 << message)
                .map(|number| bits(number, message))
                .map(|message| [message.clone(), code.parity(&message)].concat())
                .collect();
            for word in (0..1 << n).map(|word| bits(word, n)) {
                let found = outcome(&code, &word);
                assert_eq!(found, judged(&word, t, &codewords), "t {t} n {n}");
                let zeros = word.iter().filter(|bit| !**bit).count();
                erased += matches!(found, Outcome::Erased { .. }) as usize;
                let repairs = matches!(found, Outcome::Repaired { .. });
                repaired += (repairs && 0 < zeros && zeros <= t) as usize;
                just_ruined += (found == Outcome::Ruined && zeros == t + 1) as usize;
            }
        }
    }
    assert!(erased > 0 && repaired > 0 && just_ruined > 0);
}

/// The word of ones at the longest length is a codeword, so that no word of at most t zeros is erased
/// there.
#[test]
fn ones_of_the_longest_length_are_a_codeword() {
    let field = Field::new(5, 0b100101);
    for t in 1..=3 {
        let code = Code::new(&field, t);
        let ones = vec![true; field.order()];
        assert!(code.is_codeword(&ones));
        for exponent in 0..field.order() {
            let mut word = ones.clone();
            flip_exponents(&mut word, &[exponent]);
            let (codeword, flips) = (ones.clone(), 1);
            assert_eq!(outcome(&code, &word), Outcome::Repaired { codeword, flips });
        }
    }
}

/// Short lengths over the two fields: every word of at most t + 1 zeros.
#[test]
fn nearly_all_ones_in_short_codes_of_both_fields() {
    for choice in FieldChoice::ALL {
        for (t, spare) in [(2, 8), (2, 32), (3, 8)] {
            let code = bch(choice, t);
            let n = code.parity_length() + spare;
            let all = AllSets::new(code, n);
            let powers: Vec<u64> = (0..n).map(|e| power_remainder(code, e)).collect();
            let ones = powers.iter().fold(0, |sum, power| sum ^ power);
            for_each_set(n, t + 1, &mut |set| {
                let mut word = vec![true; n];
                flip_exponents(&mut word, set);
                let remainder = set.iter().fold(ones, |sum, &e| sum ^ powers[e]);
                let expected = match all.find(remainder) {
                    Some(errors) => {
                        let mut codeword = word.clone();
                        flip_exponents(&mut codeword, errors);
                        let flips = errors.len();
                        Outcome::Repaired { codeword, flips }
                    }
                    None if set.len() <= t => Outcome::Erased { zeros: set.len() },
                    None => Outcome::Ruined,
                };
                assert_eq!(outcome(code, &word), expected);
            });
        }
    }
}

/// Every set of at most so many exponents below n.
fn for_each_set(n: usize, most: usize, action: &mut impl FnMut(&[usize])) {
    fn extend(n: usize, most: usize, set: &mut Vec<usize>, action: &mut impl FnMut(&[usize])) {
        action(set);
        if set.len() < most {
            for exponent in set.last().map_or(0, |last| last + 1)..n {
                set.push(exponent);
                extend(n, most, set, action);
                set.pop();
            }
        }
    }
    extend(n, most, &mut Vec::new(), action);
}

/// Short lengths over the two fields: every set of at most t places, then words beyond.
#[test]
fn short_codes_of_both_fields() {
    let mut random = Random::new(5);
    for choice in FieldChoice::ALL {
        for (t, spare) in [(2, 1), (2, 30), (3, 1), (3, 12), (4, 1)] {
            let code = bch(choice, t);
            let n = code.parity_length() + spare;
            let all = AllSets::new(code, n);
            for &remainder in all.sets.keys() {
                assert_same(code, n, &all, remainder);
            }
            for _ in 0..10_000 {
                assert_same(
                    code,
                    n,
                    &all,
                    random.number() >> (64 - code.parity_length()),
                );
                let count = random.within(t + 1, 2 * t + 2);
                let sum = random.distinct(count, n);
                assert_same(code, n, &all, remainder_of_sum(code, &sum));
                let count = random.within(1, t);
                let sum = random.distinct(count, n + 8);
                assert_same(code, n, &all, remainder_of_sum(code, &sum));
            }
        }
    }
}

fn remainder_of_sum(code: &Code, exponents: &[usize]) -> u64 {
    exponents
        .iter()
        .fold(0, |sum, &exponent| sum ^ power_remainder(code, exponent))
}

/// Long words with t = 2 and 3: all but one of the places are tried, and the value at a gives the
/// last. Many random remainders have a set there, and many have not.
#[test]
fn long_codes_of_small_levels() {
    let mut random = Random::new(6);
    for choice in FieldChoice::ALL {
        let field = choice.field();
        for (t, n, rounds) in [
            (2, field.order(), 200),
            (2, 5000, 200),
            (3, 4000, 12),
            (3, 2500, 12),
        ] {
            let code = bch(choice, t);
            for round in 0..rounds {
                let remainder = match round % 4 {
                    0 => {
                        let sum = random.distinct(t, field.order());
                        bits(remainder_of_sum(code, &sum), code.parity_length())
                    }
                    _ => random.bits(code.parity_length()),
                };
                let found = errors_of_remainder(code, &remainder, n);
                assert_eq!(found, search(code, &code.syndromes(&remainder), n));
            }
        }
    }
}

/// The set of at most 2 or 3 exponents below n with these syndromes.
fn search(code: &Code, syndromes: &[u16], n: usize) -> Option<Vec<usize>> {
    let power = |exponent: usize| code.field.power_of_a(exponent);
    let mut logarithm = vec![usize::MAX; code.field.order() + 1];
    for exponent in 0..n {
        logarithm[power(exponent) as usize] = exponent;
    }
    let fits = |set: &[usize]| {
        (0..syndromes.len()).all(|j| {
            let sum = set
                .iter()
                .fold(0, |sum, &exponent| sum ^ power(exponent * (j + 1)));
            sum == syndromes[j]
        })
    };
    if fits(&[]) {
        return Some(vec![]);
    }
    let complete = |chosen: &[usize]| {
        let rest = chosen
            .iter()
            .fold(syndromes[0], |sum, &exponent| sum ^ power(exponent));
        let last = logarithm[rest as usize];
        if last >= n || chosen.iter().any(|&exponent| exponent >= last) {
            return None;
        }
        let set = [chosen, &[last]].concat();
        fits(&set).then_some(set)
    };
    if let Some(set) = complete(&[]) {
        return Some(set);
    }
    for i in 0..n {
        if let Some(set) = complete(&[i]) {
            return Some(set);
        }
        if code.t < 3 {
            continue;
        }
        for j in i + 1..n {
            if let Some(set) = complete(&[i, j]) {
                return Some(set);
            }
        }
    }
    None
}
