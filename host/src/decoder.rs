//! The decoder of Peterson, Gorenstein and Zierler.
//!
//! Where the errors have the locators X_1, ..., X_v (X = a^exponent), the syndromes are the power
//! sums S_j = X_1^j + ... + X_v^j. The t by t matrix of entries S_(i+j-1) is then the product of a
//! Vandermonde matrix, a diagonal matrix without zeros and the first one's transpose, so its rank
//! is v and its upper left v by v part is regular. That part gives the coefficients of the error
//! locator polynomial, which is zero at the inverses of the X_i and nowhere else.

use crate::code::{Code, flip_exponents};
use crate::field::Field;

/// The exponents, ascending, of the set of at most t places in which a word differs from a
/// codeword of its length; none if there is no such set.
pub fn errors_of_word(code: &Code, word: &[bool]) -> Option<Vec<usize>> {
    let exponents = propose(code, &code.syndromes(word), word.len())?;
    let mut corrected = word.to_vec();
    flip_exponents(&mut corrected, &exponents);
    code.is_codeword(&corrected).then_some(exponents)
}

/// The exponents, ascending, of the set of at most t exponents below n whose sum of powers of x
/// leaves this remainder by the generator; none if there is no such set.
pub fn errors_of_remainder(code: &Code, remainder: &[bool], n: usize) -> Option<Vec<usize>> {
    let exponents = propose(code, &code.syndromes(remainder), n)?;
    let mut sum = vec![false; n];
    flip_exponents(&mut sum, &exponents);
    (code.remainder(&sum) == remainder).then_some(exponents)
}

/// The only set of at most t exponents below n that these syndromes can come from. Whether they
/// do is for the caller to confirm.
fn propose(code: &Code, syndromes: &[u16], n: usize) -> Option<Vec<usize>> {
    let field = code.field;
    let mut matrix = syndrome_matrix(syndromes, code.t, code.t);
    let count = reduce(field, &mut matrix, code.t);
    let mut system = syndrome_matrix(syndromes, count, count + 1);
    if reduce(field, &mut system, count) < count {
        return None;
    }
    let mut locator: Vec<u16> = system.iter().map(|row| row[count]).collect();
    locator.push(1);
    let roots: Vec<usize> = (0..n)
        .filter(|exponent| {
            let inverse = field.power_of_a(field.order() - exponent % field.order());
            evaluate(field, &locator, inverse) == 0
        })
        .collect();
    (roots.len() == count).then_some(roots)
}

/// The matrix of entries S_(i+j-1). With one more column than rows it is the system for the error
/// locator: the last column is the sum of the others, each times a coefficient of the locator, the
/// coefficient of the highest power first.
fn syndrome_matrix(syndromes: &[u16], rows: usize, columns: usize) -> Vec<Vec<u16>> {
    (0..rows)
        .map(|i| syndromes[i..i + columns].to_vec())
        .collect()
}

/// Gaussian elimination: brings the first columns of the matrix to reduced row echelon form and
/// returns their rank.
fn reduce(field: &Field, matrix: &mut [Vec<u16>], columns: usize) -> usize {
    let mut rank = 0;
    for column in 0..columns {
        let Some(pivot) = (rank..matrix.len()).find(|&row| matrix[row][column] != 0) else {
            continue;
        };
        matrix.swap(rank, pivot);
        let inverse = field.inverse(matrix[rank][column]);
        for entry in &mut matrix[rank] {
            *entry = field.product(*entry, inverse);
        }
        let pivot_row = matrix[rank].clone();
        for (_, row) in matrix
            .iter_mut()
            .enumerate()
            .filter(|(row, _)| *row != rank)
        {
            let factor = row[column];
            for (entry, &pivot_entry) in row.iter_mut().zip(&pivot_row) {
                *entry ^= field.product(factor, pivot_entry);
            }
        }
        rank += 1;
    }
    rank
}

/// The value of a polynomial over the field, highest power first, by Horner's rule.
fn evaluate(field: &Field, polynomial: &[u16], element: u16) -> u16 {
    polynomial.iter().fold(0, |sum, &coefficient| {
        field.product(sum, element) ^ coefficient
    })
}
