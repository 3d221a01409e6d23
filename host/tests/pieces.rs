//! The exported calls that take a block's message in pieces, compared with the model.

use model::bits::bits_of;
use model::field::FieldChoice;
use model::guarded::Guarded;
use model::interface::{
    PARITY_WORDS as WORDS, Parity, rudderfig_parity_feed, rudderfig_parity_finish,
    rudderfig_parity_start, rudderfig_write_page,
};
use model::layout::check_layout;
use model::pieces::Pieces;
use model::random::Random;
use model::reply::Refusal;
use model::samples::layouts::{CASE_A, accepted_words, strong_words};
use model::samples::pages::WrittenPage;

/// The places of the words of a state, in the order of crates/pieces/src/lib.rt: level field,
/// field choice, message length, bytes fed, and what is carried.
const LEVEL: usize = 0;
const CHOICE: usize = 1;
const LENGTH: usize = 2;
const FED: usize = 3;
const CARRIED: usize = 4;

/// An edition and a level field.
type Level = (u64, u64);

/// An edition that has a level field.
fn in_edition(level: u64, random: &mut Random) -> Level {
    match level {
        ..=20 => (random.pick(&[1, 2]), level),
        _ => (2, level),
    }
}

/// A state between guard places.
struct State {
    words: [u64; WORDS],
}

impl State {
    fn new(random: &mut Random) -> State {
        State {
            words: std::array::from_fn(|_| random.number()),
        }
    }

    /// Lends the state to a call; the places around it must keep what they held.
    fn lend(&mut self, random: &mut Random, call: impl FnOnce(*mut Parity) -> u64) -> u64 {
        let mut guarded = Guarded::new(&self.words, 0x5C5C_5C5C_5C5C_5C5C, random);
        let answer = call(guarded.lend().as_mut_ptr().cast());
        let content = guarded
            .content()
            .expect("a place beside the state was written");
        self.words.copy_from_slice(&content);
        answer
    }

    fn start(
        &mut self,
        random: &mut Random,
        (edition, level): Level,
        choice: u64,
        length: u64,
    ) -> u64 {
        // SAFETY: the pointer is to WORDS words.
        self.lend(random, |state| unsafe {
            rudderfig_parity_start(state, edition, level, choice, length)
        })
    }

    fn feed(&mut self, random: &mut Random, piece: &[u8]) -> u64 {
        let pointer = match piece.len() {
            0 if random.chance(2) => std::ptr::null(),
            _ => piece.as_ptr(),
        };
        // SAFETY: as above, and the piece comes with its length.
        self.lend(random, |state| unsafe {
            rudderfig_parity_feed(state, pointer, piece.len())
        })
    }

    fn finish(&mut self, random: &mut Random, parity: &mut [u8]) -> u64 {
        let mut guarded = Guarded::new(parity, 0x5C, random);
        let lent = guarded.lend();
        let (pointer, length) = (lent.as_mut_ptr(), lent.len());
        // SAFETY: as above.
        let answer = self.lend(random, |state| unsafe {
            rudderfig_parity_finish(state, pointer, length)
        });
        parity.copy_from_slice(
            &guarded
                .content()
                .expect("a place beside the parity was written"),
        );
        answer
    }
}

fn number(outcome: Result<(), Refusal>) -> u64 {
    outcome.map_or_else(|refusal| refusal.number() as u64, |()| 0)
}

/// Starts in both; where it is refused, the state must be as it was.
fn start(random: &mut Random, level: Level, choice: u64, length: u64) -> Option<(State, Pieces)> {
    let mut state = State::new(random);
    let before = state.words;
    let model = Pieces::start(level.0, level.1, choice, length);
    let answer = state.start(random, level, choice, length);
    match model {
        Ok(model) => {
            assert_eq!(answer, 0, "start {level:?} {choice} {length}");
            Some((state, model))
        }
        Err(refusal) => {
            assert_eq!(
                answer,
                refusal.number() as u64,
                "start {level:?} {choice} {length}"
            );
            assert_eq!(state.words, before);
            None
        }
    }
}

/// Feeds both a piece; where it is refused, the state must be as it was.
fn feed(random: &mut Random, state: &mut State, model: &mut Pieces, piece: &[u8]) {
    let before = state.words;
    let expected = number(model.feed(piece));
    assert_eq!(state.feed(random, piece), expected);
    if expected != 0 || piece.is_empty() {
        assert_eq!(state.words, before);
    }
}

/// Finishes both into buffers of this length; the state must be as it was.
fn finish(random: &mut Random, state: &mut State, model: &Pieces, length: usize) {
    let before = state.words;
    let mut found = random.bytes(length);
    let mut expected = found.clone();
    assert_eq!(
        state.finish(random, &mut found),
        number(model.finish(&mut expected))
    );
    assert_eq!(found, expected);
    assert_eq!(state.words, before);
}

/// Feeds a message in random pieces, with refused pieces and finishes between them.
fn feed_cut(random: &mut Random, state: &mut State, model: &mut Pieces, message: &[u8]) {
    let most = random.pick(&[1, 3, 17, 64, 300, 2100]);
    let mut rest = message;
    while !rest.is_empty() {
        if random.chance(8) {
            let long = vec![0xFF; rest.len() + 1 + random.below(100)];
            feed(random, state, model, &long);
            finish(random, state, model, model.parity_bytes());
        }
        let (piece, after) = rest.split_at(random.below(most.min(rest.len()) + 1));
        feed(random, state, model, piece);
        rest = after;
    }
    feed(random, state, model, &[]);
    feed(random, state, model, &[0]);
}

/// Every level of both fields, at the shortest and the longest message and at others.
#[test]
fn any_cutting_gives_the_parity() {
    let mut random = Random::new(41);
    for choice in FieldChoice::ALL {
        for level in 0..=31usize {
            let parity = choice.field().m * 2 * level;
            let longest = (choice.field().order() - parity) / 8;
            for length in [
                1,
                2,
                longest,
                random.within(1, longest),
                random.within(1, 40),
            ] {
                let message = random.bytes(length);
                let level = in_edition(level as u64, &mut random);
                let (mut state, mut model) =
                    start(&mut random, level, choice as u64, length as u64).unwrap();
                finish(&mut random, &mut state, &model, model.parity_bytes());
                feed_cut(&mut random, &mut state, &mut model, &message);
                let bytes = model.parity_bytes();
                for buffer in [bytes, bytes + 1, bytes.saturating_sub(1), bytes] {
                    finish(&mut random, &mut state, &model, buffer);
                }
            }
        }
    }
}

/// Both sides of each rule, and numbers that would be accepted if they were cut.
#[test]
fn starts_are_refused_as_a_block_is() {
    let mut random = Random::new(42);
    let edges = [
        0,
        1,
        2,
        19,
        20,
        21,
        31,
        32,
        255,
        256,
        1 << 32,
        (1 << 32) + 1,
        u64::MAX,
    ];
    for level in edges {
        for choice in [0, 1, 2, 3, 256, 1 << 32, (1 << 63) + 1, u64::MAX] {
            let mut lengths = edges.to_vec();
            for field in FieldChoice::ALL {
                let parity = (field.field().m as u64 * 2).saturating_mul(level);
                let most = (field.field().order() as u64).saturating_sub(parity) / 8;
                lengths.extend([most.saturating_sub(1), most, most + 1]);
            }
            lengths.extend([1 << 61, (1 << 61) + 1, 1 << 63]);
            for length in lengths {
                for edition in [1, 2, 0, 3, u64::MAX] {
                    start(&mut random, (edition, level), choice, length);
                }
            }
        }
    }
    // With no ECC a message may be of any length, and pieces only count.
    let (mut state, mut model) = start(&mut random, (1, 0), 7 % 2, u64::MAX).unwrap();
    feed(&mut random, &mut state, &mut model, &[1, 2, 3]);
    assert_eq!(state.words[FED], 3);
}

/// Whether the words of a state are those of some block, in edition 2 since a state has none: the calls look
/// at all of them.
fn usable(words: &[u64; WORDS]) -> bool {
    let Ok(model) = Pieces::start(2, words[LEVEL], words[CHOICE], words[LENGTH]) else {
        return false;
    };
    let bits = model.code().parity_length();
    let above = |i: usize, word: u64| match bits.saturating_sub(64 * i) {
        64.. => 0,
        below => word >> below,
    };
    let mut carried = words[CARRIED..].iter().enumerate();
    words[FED] <= words[LENGTH] && carried.all(|(i, &word)| above(i, word) == 0)
}

/// States that no start has made: each call ends with an answer and keeps within its buffers.
#[test]
fn any_state_gets_an_answer() {
    let mut random = Random::new(43);
    let mut seen = [0; 8];
    for round in 0..8000 {
        let mut state = State::new(&mut random);
        if round % 4 < 3 {
            state.words = [0; WORDS];
        }
        if round % 4 < 2 {
            state.words[LEVEL] = random.below(35) as u64;
            state.words[CHOICE] = random.below(3) as u64;
            state.words[LENGTH] = random.below(400) as u64;
            let near = random.below(40) as u64;
            state.words[FED] = match random.chance(2) {
                true => state.words[LENGTH].saturating_sub(near),
                false => random.below(500) as u64,
            };
            state.words[CARRIED + random.below(4)] = random.number() >> random.below(64);
        }
        let before = state.words;
        let piece_length = random.below(40);
        let piece = random.bytes(piece_length);
        let feeds = match usable(&before) {
            false => 7,
            true if before[LENGTH] - before[FED] < piece.len() as u64 => 6,
            true => 0,
        };
        let mut after_feed = State { words: before };
        assert_eq!(after_feed.feed(&mut random, &piece), feeds);
        match feeds {
            0 => assert_eq!(after_feed.words[FED], before[FED] + piece.len() as u64),
            _ => assert_eq!(after_feed.words, before),
        }
        assert!(feeds != 0 || usable(&after_feed.words));
        seen[feeds as usize] += 1;
        let length = random.below(115);
        let mut parity = random.bytes(length);
        let held = parity.clone();
        let reply = state.finish(&mut random, &mut parity);
        assert_eq!(state.words, before);
        assert_eq!(reply == 7, !usable(&before));
        assert!(reply == 0 || parity == held);
    }
    assert!(seen[0] > 100 && seen[6] > 100 && seen[7] > 1000, "{seen:?}");
}

/// The parity of every block of written pages.
#[test]
fn the_parity_is_the_one_in_a_written_page() {
    let mut random = Random::new(44);
    let mut layouts: Vec<_> = [20, 40, 70, 120, 250, 600, 2000, 5000]
        .into_iter()
        .flat_map(|bytes| (0..12).map(move |_| bytes))
        .map(|bytes| accepted_words(&mut random, bytes))
        .collect();
    layouts.extend((0..12).map(|_| strong_words(&mut random)));
    layouts.push(CASE_A);
    for words in layouts {
        let written = WrittenPage::new(words, &mut random);
        let mut page = vec![0; written.page.len()];
        // SAFETY: each pointer comes with the length of the slice it was taken from.
        let answer = unsafe {
            rudderfig_write_page(
                written.edition,
                written.record.as_ptr(),
                written.record.len(),
                written.metadata.as_ptr(),
                written.metadata.len(),
                written.data.as_ptr(),
                written.data.len(),
                page.as_mut_ptr(),
                page.len(),
            )
        };
        assert_eq!(answer, 0);
        let page = bits_of(&page);
        let layout = check_layout(written.edition, &written.record).unwrap();
        let payload = [written.metadata.clone(), written.data.clone()].concat();
        let mut at = 0;
        for number in 0..layout.blocks() {
            let block = layout.block(number);
            let message = &payload[at..at + block.message_bits / 8];
            at += message.len();
            let level = (written.edition, block.level_field as u64);
            let length = message.len() as u64;
            let (mut state, mut model) =
                start(&mut random, level, block.choice as u64, length).unwrap();
            feed_cut(&mut random, &mut state, &mut model, message);
            let mut parity = vec![0; model.parity_bytes()];
            assert_eq!(state.finish(&mut random, &mut parity), 0);
            let first = layout.start(number) + block.message_bits;
            let stored = &page[first..layout.start(number) + block.covered_bits()];
            let found = bits_of(&parity);
            let (zeros, found) = found.split_at(found.len() - stored.len());
            assert!(zeros.iter().all(|&bit| !bit));
            assert_eq!(found, stored);
        }
    }
}
