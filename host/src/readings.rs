//! Two readings of one page under one layout (document 02, E10): what became of each block, and where the pages
//! differ.

use crate::bits::bit;
use crate::layout::check_layout;
use crate::outcome::{Outcome, outcome};
use crate::page::block_word;
use crate::reply::{Refusal, Reply, refuse_by};
use std::fmt::{Display, Formatter, Result as Formatted};

/// The largest page that is compared, in bytes.
pub const LARGEST: usize = 16384;

/// What a line shows of a block: its flips in each page, or its zeros where it is erased; none where it is ruined.
#[derive(Clone, Copy, Debug, PartialEq, Eq)]
pub struct BlockLine {
    pub first: Option<usize>,
    pub second: Option<usize>,
}

impl BlockLine {
    /// Second minus first; none where the block is ruined in one of them.
    pub fn change(&self) -> Option<i64> {
        Some(self.second? as i64 - self.first? as i64)
    }
}

/// What is shown of two pages: a line a block, and every position at which they differ, ascending.
#[derive(Clone, Debug, PartialEq, Eq)]
pub struct Report {
    pub blocks: Vec<BlockLine>,
    pub positions: Vec<usize>,
}

/// Compares two pages. Lengths are looked at before the size that is allowed; no block refuses a comparison.
pub fn compare_readings(
    edition: u64,
    record: &[u8],
    first: &[u8],
    second: &[u8],
) -> Result<Report, Refusal> {
    let layout = check_layout(edition, record)?;
    let size = layout.page_length;
    refuse_by(&[
        (
            Reply::PageLength,
            first.len() != size || second.len() != size,
        ),
        (Reply::BufferLength, size > LARGEST),
    ])?;
    let shown = |page: &[u8], number: usize| {
        let word = block_word(&layout, page, number);
        match outcome(layout.block(number).code(), &word) {
            Outcome::Repaired { flips, .. } => Some(flips),
            Outcome::Erased { zeros } => Some(zeros),
            Outcome::Ruined => None,
        }
    };
    let blocks = (0..layout.blocks())
        .map(|number| BlockLine {
            first: shown(first, number),
            second: shown(second, number),
        })
        .collect();
    let mark = layout.mark_places();
    let positions = (0..8 * size)
        .filter(|position| !mark.contains(position))
        .filter(|&position| bit(first, position) != bit(second, position))
        .collect();
    Ok(Report { blocks, positions })
}

/// A number, or a dash where there is none.
fn number_or_dash(number: Option<impl Display>) -> String {
    number.map_or("-".into(), |number| number.to_string())
}

impl Display for BlockLine {
    fn fmt(&self, f: &mut Formatter) -> Formatted {
        let [first, second] = [self.first, self.second].map(number_or_dash);
        write!(f, "{first} {second} {}", number_or_dash(self.change()))
    }
}

impl Display for Report {
    fn fmt(&self, f: &mut Formatter) -> Formatted {
        writeln!(f, "block first second change")?;
        for (number, line) in self.blocks.iter().enumerate() {
            writeln!(f, "{number} {line}")?;
        }
        for position in &self.positions {
            writeln!(f, "{position}")?;
        }
        Ok(())
    }
}

/// What the tool prints of two pages: the report, or the reply's number alone.
pub fn printed(edition: u64, record: &[u8], first: &[u8], second: &[u8]) -> String {
    match compare_readings(edition, record, first, second) {
        Ok(report) => report.to_string(),
        Err(refusal) => format!("reply {}\n", refusal.number()),
    }
}
