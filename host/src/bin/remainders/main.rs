//! Writes vectors for the program `division_vectors` and the model's answers to them, at every level from 0 to 62:
//!
//!     remainders INPUT OUTPUT
//!
//! INPUT is what the program reads on its standard input, OUTPUT what it is to print.

use model::bits::bits_of;
use model::code::Code;
use model::field::FieldChoice;
use model::random::Random;
use std::process::ExitCode;

const HIGHEST_LEVEL: usize = 62;
const WORDS: usize = 14;

/// A run of bits in some bytes: where it begins in the first of them, and its length.
struct Run {
    at: usize,
    length: usize,
    bytes: Vec<u8>,
}

impl Run {
    fn new(random: &mut Random, at: usize, length: usize) -> Run {
        let bytes = random.bytes((at + length).div_ceil(8));
        Run { at, length, bytes }
    }

    fn bits(&self) -> Vec<bool> {
        bits_of(&self.bytes)[self.at..self.at + self.length].to_vec()
    }

    fn vector(&self, choice: FieldChoice, t: usize) -> Vec<u8> {
        let mut vector = vec![b'D', choice as u8, (t / 2) as u8, self.at as u8];
        vector.extend_from_slice(&(self.length as u16).to_be_bytes());
        vector.extend_from_slice(&(self.bytes.len() as u16).to_be_bytes());
        vector.extend_from_slice(&self.bytes);
        vector
    }
}

/// The words of a polynomial that is given highest power first, the lowest word first.
fn words(polynomial: &[bool]) -> Vec<String> {
    (0..WORDS)
        .map(|word| {
            (0..64)
                .map(|bit| 64 * word + bit)
                .filter(|&power| {
                    power < polynomial.len() && polynomial[polynomial.len() - 1 - power]
                })
                .fold(0u64, |sum, power| sum | 1 << (power % 64))
                .to_string()
        })
        .collect()
}

/// Runs of no bit, of fewer bits than a remainder has, of as many, of one more, of whole words, and of any number.
fn lengths(random: &mut Random, degree: usize) -> [usize; 6] {
    [
        0,
        random.below(degree.max(1)),
        degree,
        degree + 1,
        degree + 64 * random.within(1, 8),
        random.within(degree, 3000),
    ]
}

fn main() -> ExitCode {
    let arguments: Vec<String> = std::env::args().skip(1).collect();
    let [input, output] = arguments.as_slice() else {
        eprintln!("usage: remainders INPUT OUTPUT");
        return ExitCode::FAILURE;
    };
    let mut random = Random::new(0x6213);
    let mut vectors = Vec::new();
    let mut lines = String::new();
    for choice in FieldChoice::ALL {
        for t in (0..=HIGHEST_LEVEL).step_by(2) {
            let code = Code::new(choice.field(), t);
            for length in lengths(&mut random, code.parity_length()) {
                let at = random.below(8);
                let run = Run::new(&mut random, at, length);
                let bits = run.bits();
                let answer = [words(&code.remainder(&bits)), words(&code.parity(&bits))];
                vectors.extend(run.vector(choice, t));
                lines.push_str(&answer.concat().join(" "));
                lines.push('\n');
            }
        }
    }
    for (path, bytes) in [(input, vectors.as_slice()), (output, lines.as_bytes())] {
        if let Err(error) = std::fs::write(path, bytes) {
            eprintln!("{path}: {error}");
            return ExitCode::FAILURE;
        }
    }
    ExitCode::SUCCESS
}
