//! The exported calls of the static archive, compared with the model.

mod archive;

use archive::{Archive, EmptyPointer};
use model::compare::Comparison;

/// Compares so many rounds and returns the number of calls of each kind.
fn compare(empty: EmptyPointer, rounds: u64, seed: u64) -> Vec<usize> {
    let archive = Archive { empty };
    let mut calls = Vec::new();
    for round in 0..rounds {
        let mut comparison = Comparison::new(&archive, seed + round);
        if let Err(difference) = comparison.round() {
            panic!("round {round}: {difference:#?}");
        }
        calls.resize(comparison.replies.len(), 0);
        for (sum, replies) in calls.iter_mut().zip(&comparison.replies) {
            *sum += replies.iter().sum::<usize>();
        }
    }
    calls
}

/// RUDDERFIG_ROUNDS asks for more rounds than the usual eight, of some 26,000 calls each.
#[test]
fn exported_calls_are_those_of_the_model() {
    let rounds = std::env::var("RUDDERFIG_ROUNDS").map_or(8, |text| text.parse().unwrap());
    let calls = compare(EmptyPointer::Own, rounds, 1000);
    println!(
        "{} calls compared, by kind {calls:?}",
        calls.iter().sum::<usize>()
    );
    assert!(calls.iter().sum::<usize>() >= 100_000);
}

#[test]
fn empty_slices_may_come_with_any_pointer() {
    compare(EmptyPointer::Null, 1, 2000);
    compare(EmptyPointer::Dangling, 1, 3000);
}
