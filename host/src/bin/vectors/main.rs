//! Writes test vectors and the model's answers to them:
//!
//!     vectors layout|locate|fragments|pages|sectors|roots|store|compare INPUT OUTPUT
//!
//! INPUT is what a program reads on its standard input, OUTPUT what it is to print. `fragment_vectors` is given the
//! vectors of fragments and of locate one after the other, `page_vectors` those of pages, compare, store and sectors:
//! before those of store stands a head of the kind `V`, after them a line of the kind `X` and a head of the kind `K`.

mod compare;
mod fragments;
mod layout;
mod locate;
mod pages;
mod roots;
mod sectors;
mod store;
mod store_pages;

use model::store::NUMBERS;
use model::{Refusal, Reply};
use std::fmt::Display;
use std::process::ExitCode;

/// Vectors in the making: the input's bytes, the output's lines, how many vectors got which reply,
/// and how often they met which edge of the rules.
#[derive(Default)]
pub struct Vectors {
    input: Vec<u8>,
    output: String,
    replies: [usize; NUMBERS],
    edges: Vec<(&'static str, usize)>,
}

/// A line of output in the making: reply and block, then whatever follows.
pub struct Answer {
    reply: u8,
    line: String,
}

impl Answer {
    pub fn done() -> Answer {
        Answer::new(0, 0)
    }

    fn new(reply: u8, block: usize) -> Answer {
        Answer {
            reply,
            line: format!("{reply} {block}"),
        }
    }

    /// An answer without a block.
    pub fn alone(reply: u8) -> Answer {
        Answer {
            reply,
            line: format!("{reply}"),
        }
    }

    /// An answer of several lines.
    pub fn text(reply: u8, lines: &str) -> Answer {
        let line = lines.to_string();
        Answer { reply, line }
    }

    /// Appends one more word to the line.
    pub fn with(mut self, word: impl Display) -> Answer {
        self.line.push_str(&format!(" {word}"));
        self
    }

    /// Appends the bytes as hexadecimal digits.
    pub fn with_bytes(self, bytes: &[u8]) -> Answer {
        self.with(hexadecimal(bytes))
    }
}

/// The bytes as hexadecimal digits; none at all are a hyphen.
pub fn hexadecimal(bytes: &[u8]) -> String {
    match bytes {
        [] => "-".to_string(),
        _ => bytes.iter().map(|byte| format!("{byte:02x}")).collect(),
    }
}

impl From<Refusal> for Answer {
    fn from(refusal: Refusal) -> Answer {
        Answer::new(refusal.number(), refusal.block)
    }
}

impl From<Reply> for Answer {
    fn from(reply: Reply) -> Answer {
        Refusal::from(reply).into()
    }
}

impl From<Result<(), Refusal>> for Answer {
    fn from(outcome: Result<(), Refusal>) -> Answer {
        outcome.map_or_else(Answer::from, |()| Answer::done())
    }
}

impl Vectors {
    pub fn add(&mut self, input: &[u8], answer: Answer) {
        self.input.extend_from_slice(input);
        self.output.push_str(&answer.line);
        self.output.push('\n');
        self.replies[answer.reply as usize] += 1;
    }

    /// Counts how often a vector met the edges of these names.
    pub fn meet(&mut self, names: &[&'static str], times: impl IntoIterator<Item = usize>) {
        if self.edges.is_empty() {
            self.edges.extend(names.iter().map(|&name| (name, 0)));
        }
        for ((_, sum), times) in self.edges.iter_mut().zip(times) {
            *sum += times;
        }
    }
}

fn main() -> ExitCode {
    let arguments: Vec<String> = std::env::args().skip(1).collect();
    let [topic, input, output] = arguments.as_slice() else {
        return usage();
    };
    let vectors = match topic.as_str() {
        "layout" => layout::vectors(),
        "locate" => locate::vectors(),
        "fragments" => fragments::vectors(),
        "pages" => pages::vectors(),
        "sectors" => sectors::vectors(),
        "roots" => roots::vectors(),
        "store" => store::vectors(),
        "compare" => compare::vectors(),
        _ => return usage(),
    };
    for (path, bytes) in [
        (input, vectors.input.as_slice()),
        (output, vectors.output.as_bytes()),
    ] {
        if let Err(error) = std::fs::write(path, bytes) {
            eprintln!("{path}: {error}");
            return ExitCode::FAILURE;
        }
    }
    let count: usize = vectors.replies.iter().sum();
    println!("{count} vectors, by reply 0 to 14: {:?}", vectors.replies);
    for (edge, times) in vectors.edges.iter().filter(|edge| edge.1 > 0) {
        println!("{times:6} {edge}");
    }
    ExitCode::SUCCESS
}

fn usage() -> ExitCode {
    eprintln!(
        "usage: vectors layout|locate|fragments|pages|sectors|roots|store|compare INPUT OUTPUT"
    );
    ExitCode::FAILURE
}
