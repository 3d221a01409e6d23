//! The edges of the rules for erased and for ruined blocks, for marks and for the levels of edition 2 (document 02,
//! E1, E6, E7 and E13), and how often a call meets them.

use crate::call::Call;
use crate::layout::{Layout, check_layout};
use crate::outcome::{Outcome, outcome, zeros};
use crate::page::block_word;

/// The edges: of a block, where t is above 0 if it is not said to be 0; of a page; of the lengths beside
/// a page; of the mark.
pub const EDGES: [&str; 36] = [
    "erased with no zero",
    "erased with t zeros",
    "ruined with t + 1 zeros",
    "erased with zeros in the parity alone",
    "erased with zeros in the message alone",
    "ruined with t + 1 zeros, some of them in the parity",
    "repaired though it has 1 to t zeros",
    "repaired with more than t zeros and at most 2t",
    "t = 0 and at most 3 zeros",
    "block 0 erased with metadata",
    "erased from inside a byte on",
    "t above 40 and t flips",
    "t above 40 and erased with t zeros",
    "t above 40 and ruined",
    "page with blocks erased and blocks written",
    "ruined block behind an erased one",
    "only the first of several blocks ruined",
    "only a block between others ruined",
    "only the last of several blocks ruined",
    "several blocks ruined, the first not",
    "every one of several blocks ruined",
    "erased block behind a ruined one",
    "block with flips behind a ruined one",
    "block with t = 0 behind a ruined one",
    "ruined block beside counts of a wrong length",
    "ruined block beside metadata or data of a wrong length",
    "mark of length 0 behind the first byte",
    "mark of 255 bytes",
    "mark at the first byte",
    "mark at the last byte",
    "mark inside the metadata",
    "mark inside the data",
    "mark inside a parity",
    "mark between two blocks",
    "mark beside a byte of two blocks",
    "mark before the tail or inside it",
];

const OF_BLOCK: usize = 14;
const OF_PAGE: usize = 10;
const OF_LENGTHS: usize = 2;
/// How many edges a mark has: the last ones.
pub const OF_MARK: usize = 10;

/// How often a call meets each edge: looking at a page and taking it count for each of its blocks, judging
/// a block for that block. Where another length is wrong only that edge is met, and any other call and
/// one that is refused otherwise meets none.
pub fn edges(call: &Call) -> [usize; EDGES.len()] {
    let mut met = [0; EDGES.len()];
    let Some((layout, page, judged)) = decided(call) else {
        return met;
    };
    let blocks = match judged {
        Some(block) => block..block + 1,
        None => 0..layout.blocks(),
    };
    let words: Vec<Vec<bool>> = blocks
        .clone()
        .map(|number| block_word(&layout, page, number))
        .collect();
    let found: Vec<Outcome> = blocks
        .clone()
        .zip(&words)
        .map(|(number, word)| outcome(layout.block(number).code(), word))
        .collect();
    if let Some(edge) = wrong_length(call, &layout) {
        met[edge] = found.contains(&Outcome::Ruined) as usize;
        return met;
    }
    add(
        &mut met[OF_BLOCK + OF_PAGE + OF_LENGTHS..],
        mark_edges(&layout),
    );
    for ((number, word), found) in blocks.zip(&words).zip(&found) {
        add(&mut met, block_edges(&layout, number, word, found));
    }
    if judged.is_none() {
        add(&mut met[OF_BLOCK..], page_edges(&layout, &found));
    }
    met
}

/// Counts the edges that are met.
pub fn add(met: &mut [usize], edges: impl IntoIterator<Item = bool>) {
    for (times, edge) in met.iter_mut().zip(edges) {
        *times += edge as usize;
    }
}

/// The layout and the page of a call that decides blocks, and the block if it is one alone.
fn decided(call: &Call) -> Option<(Layout, &[u8], Option<usize>)> {
    let (edition, record, page, judged) = match call {
        Call::LookPage {
            edition,
            record,
            page,
            ..
        }
        | Call::TakePage {
            edition,
            record,
            page,
            ..
        } => (edition, record, page, None),
        Call::JudgeBlock {
            edition,
            record,
            page,
            block,
        } => (edition, record, page, Some(*block)),
        _ => return None,
    };
    let layout = check_layout(*edition, record).ok()?;
    let inside = judged.is_none_or(|block| block < layout.blocks() as u64);
    let fits = inside && page.len() == layout.page_length;
    fits.then_some((layout, page, judged.map(|block| block as usize)))
}

/// The edge that a wrong length beside the page may meet.
fn wrong_length(call: &Call, layout: &Layout) -> Option<usize> {
    let first = OF_BLOCK + OF_PAGE;
    match call {
        Call::LookPage { counts, .. } if counts.len() != layout.blocks() => Some(first),
        Call::TakePage { metadata, data, .. }
            if metadata.len() != layout.metadata_length || data.len() != layout.data_length() =>
        {
            Some(first + 1)
        }
        _ => None,
    }
}

/// The edges that one block meets.
fn block_edges(layout: &Layout, number: usize, word: &[bool], found: &Outcome) -> [bool; OF_BLOCK] {
    let block = layout.block(number);
    let (t, all) = (block.t(), zeros(word));
    let in_message = zeros(&word[..block.message_bits]);
    let erased = matches!(found, Outcome::Erased { .. });
    let ruined = *found == Outcome::Ruined;
    let repaired = matches!(found, Outcome::Repaired { .. }) && t > 0;
    [
        erased && all == 0,
        erased && all == t,
        ruined && all == t + 1,
        erased && all > 0 && in_message == 0,
        erased && all > 0 && in_message == all,
        ruined && all == t + 1 && in_message < all,
        repaired && (1..=t).contains(&all),
        repaired && (t + 1..=2 * t).contains(&all),
        t == 0 && all <= 3,
        erased && number == 0 && layout.metadata_length > 0,
        erased && layout.start(number) % 8 != 0,
        t > 40 && matches!(found, Outcome::Repaired { flips, .. } if *flips == t),
        t > 40 && erased && all == t,
        t > 40 && ruined,
    ]
}

/// The edges that the blocks of a page meet together.
fn page_edges(layout: &Layout, found: &[Outcome]) -> [bool; OF_PAGE] {
    let last = found.len() - 1;
    let numbers = |is: &dyn Fn(usize, &Outcome) -> bool| -> Vec<usize> {
        (0..=last).filter(|&b| is(b, &found[b])).collect()
    };
    let has_ecc = |b: usize| layout.block(b).t() > 0;
    let erased = numbers(&|_, found| matches!(found, Outcome::Erased { .. }));
    let ruined = numbers(&|_, found| *found == Outcome::Ruined);
    let written = numbers(&|b, found| matches!(found, Outcome::Repaired { .. }) && has_ecc(b));
    let worn = numbers(&|_, found| matches!(found, Outcome::Repaired { flips: 1.., .. }));
    let plain = numbers(&|b, _| !has_ecc(b));
    let before = |some: &[usize], others: &[usize]| match (some.first(), others.last()) {
        (Some(lowest), Some(highest)) => lowest < highest,
        _ => false,
    };
    let alone = |b: usize| last > 0 && ruined == [b];
    [
        !erased.is_empty() && !written.is_empty() && !before(&erased, &ruined),
        before(&erased, &ruined),
        alone(0),
        (1..last).any(alone),
        alone(last),
        ruined.len() > 1 && ruined[0] > 0,
        last > 0 && ruined.len() == found.len(),
        before(&ruined, &erased),
        before(&ruined, &worn),
        before(&ruined, &plain),
    ]
}

/// The edges that the mark of an accepted layout meets.
pub fn mark_edges(layout: &Layout) -> [bool; OF_MARK] {
    let (mark, length) = (layout.mark_places(), layout.mark.length);
    let is = |place: bool| length > 0 && place;
    let inside = |from: usize, to: usize| is(from < mark.start && mark.start < to);
    let metadata_end = 8 * layout.metadata_length;
    let blocks = || (0..layout.blocks()).map(|number| (layout.start(number), layout.block(number)));
    let borders = || blocks().skip(1).map(|(start, _)| start);
    [
        length == 0 && mark.start > 0,
        length == 255,
        is(mark.start == 0),
        is(mark.end == 8 * layout.page_length),
        inside(0, metadata_end),
        blocks().any(|(start, block)| inside(start.max(metadata_end), start + block.message_bits)),
        blocks()
            .any(|(start, block)| inside(start + block.message_bits, start + block.covered_bits())),
        borders().any(|border| is(border == mark.start)),
        borders().any(|border| is(border % 8 != 0 && border.abs_diff(mark.start) < 8)),
        is((layout.used_bits()..layout.stream_bits()).contains(&mark.start)),
    ]
}
