//! What becomes of a block that is read (document 01; document 02, E1).

use crate::code::{Code, flip_exponents};
use crate::decoder::errors_of_word;

/// The outcome for a block's covered bits.
#[derive(Clone, Debug, PartialEq, Eq)]
pub enum Outcome {
    /// The codeword within t, and the number of places in which the block differs from it.
    Repaired { codeword: Vec<bool>, flips: usize },
    /// There is no codeword within t, and the zeros are at most t.
    Erased { zeros: usize },
    /// There is no codeword within t, and the zeros are more than t.
    Ruined,
}

/// Decodes first: the zeros count only where there is no codeword within t. At t = 0 every word is
/// a codeword, so that no block is erased.
pub fn outcome(code: &Code, word: &[bool]) -> Outcome {
    if let Some(errors) = errors_of_word(code, word) {
        let mut codeword = word.to_vec();
        flip_exponents(&mut codeword, &errors);
        let flips = errors.len();
        return Outcome::Repaired { codeword, flips };
    }
    match zeros(word) {
        zeros if zeros <= code.t => Outcome::Erased { zeros },
        _ => Outcome::Ruined,
    }
}

/// The number of a word's zeros.
pub fn zeros(word: &[bool]) -> usize {
    word.iter().filter(|&&bit| !bit).count()
}
