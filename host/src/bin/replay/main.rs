//! Writes calls and the model's answers to them for host/c/replay.c, which makes them on a board:
//!
//!     replay HEADER ROUNDS SEED CALLS DISPATCH
//!
//! CALLS is the file of calls: for each its number in the header, its arguments before and after, and its
//! answer. DISPATCH is the C text that makes a call of the header by its number. The line that is printed
//! says how many calls there are and what their digest is to be.

mod dispatch;
mod record;

use model::call::POSSIBLE;
use model::compare::Comparison;
use model::header::header_calls;
use model::library::Model;
use record::Record;
use std::process::ExitCode;

/// Rounds of calls of every kind; each reply of each kind must be among them.
fn record(names: &[&str], rounds: u64, seed: u64) -> Record {
    let mut comparison = Comparison::new(&Model, seed);
    comparison.keep();
    let mut record = Record::new(names);
    for _ in 0..rounds {
        comparison.round().expect("the model is itself");
        for seen in comparison.seen.drain(..) {
            record.add(&seen);
        }
    }
    for (replies, possible) in comparison.replies.iter().zip(POSSIBLE) {
        for &reply in possible {
            assert!(
                replies[reply] > 0,
                "reply {reply} of {possible:?} is missing"
            );
        }
    }
    record
}

fn main() -> ExitCode {
    let arguments: Vec<String> = std::env::args().skip(1).collect();
    let [header, rounds, seed, calls, dispatch] = arguments.as_slice() else {
        eprintln!("usage: replay HEADER ROUNDS SEED CALLS DISPATCH");
        return ExitCode::FAILURE;
    };
    let declared = header_calls(&std::fs::read_to_string(header).unwrap());
    let names: Vec<&str> = declared.iter().map(|call| call.name.as_str()).collect();
    let record = record(&names, rounds.parse().unwrap(), seed.parse().unwrap());
    std::fs::write(calls, record.bytes()).unwrap();
    std::fs::write(dispatch, dispatch::text(&declared)).unwrap();
    println!("{} calls, digest {:016x}", record.calls, record.digest);
    ExitCode::SUCCESS
}
