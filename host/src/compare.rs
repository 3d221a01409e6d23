//! Comparing a library with the model on seeded calls.

use crate::call::{Call, KINDS};
use crate::field::FieldChoice;
use crate::guarded::GuardBroken;
use crate::layout::{LayoutRecord, check_layout};
use crate::library::{Library, Model};
use crate::random::Random;
use crate::reply::NUMBERS;
use crate::samples::erased::edge_layouts;
use crate::samples::fragments::{round_trips, spoilt as spoilt_fragments};
use crate::samples::layouts::{
    CASE_A, accepted_words, code_bits, editions, positions, records, strong_words,
};
use crate::samples::marks::marked;
use crate::samples::pages::{WrittenPage, damage_tail, spoil};
use crate::samples::pieces::{
    Message, levels as started_levels, random_state, spoilt as spoilt_pieces,
};
use crate::samples::remainders::{document_cases, levels, random_remainder, spoilt, sums};

/// A library beside the model.
pub struct Comparison<'a> {
    library: &'a dyn Library,
    random: Random,
    keeping: bool,
    /// The calls before and after with their answers, if they are kept.
    pub seen: Vec<Seen>,
    /// How many calls of each kind got each reply, in the order of the kinds of [`Call`].
    pub replies: [[usize; NUMBERS]; KINDS],
}

/// A call, its answer, and the call with what it left in its buffers.
pub struct Seen {
    pub call: Call,
    pub answer: u64,
    pub after: Call,
}

/// A call in which the library and the model differ.
#[derive(Debug)]
pub struct Difference {
    pub call: Call,
    pub expected: (u64, Call),
    pub found: Result<(u64, Call), GuardBroken>,
}

impl<'a> Comparison<'a> {
    pub fn new(library: &'a dyn Library, seed: u64) -> Comparison<'a> {
        Comparison {
            library,
            random: Random::new(seed),
            replies: [[0; NUMBERS]; KINDS],
            seen: Vec::new(),
            keeping: false,
        }
    }

    /// Keeps the calls from now on.
    pub fn keep(&mut self) {
        self.keeping = true;
    }

    /// One round of calls of every kind, some 26,000.
    pub fn round(&mut self) -> Result<(), Box<Difference>> {
        self.layouts()?;
        self.remainders()?;
        self.fragments()?;
        self.pieces()?;
        self.pages()
    }

    /// Performs a call with the library and with the model, and returns it as it is afterwards.
    pub fn perform(&mut self, call: Call) -> Result<Call, Box<Difference>> {
        let (mut expected, mut found) = (call.clone(), call.clone());
        let expected_answer = expected.perform(&Model, &mut self.random).unwrap();
        let found_answer = found.perform(self.library, &mut self.random);
        if found_answer == Ok(expected_answer) && found == expected {
            self.replies[expected.kind()][(expected_answer & 0xFF) as usize] += 1;
            if self.keeping {
                self.seen.push(Seen {
                    call,
                    answer: expected_answer,
                    after: expected,
                });
            }
            return Ok(found);
        }
        Err(Box::new(Difference {
            call,
            expected: (expected_answer, expected),
            found: found_answer.map(|answer| (answer, found)),
        }))
    }

    /// Performs a call with random content in its outputs.
    fn perform_filled(&mut self, mut call: Call) -> Result<Call, Box<Difference>> {
        call.fill_outputs(&mut self.random);
        self.perform(call)
    }

    /// Layouts, and page bits in both directions.
    pub fn layouts(&mut self) -> Result<(), Box<Difference>> {
        for record in records(&mut self.random) {
            for edition in editions(&record, &mut self.random) {
                self.layout(edition, &record)?;
            }
        }
        Ok(())
    }

    /// Calls about one record: the layout, and some of its bits.
    fn layout(&mut self, edition: u64, record: &[u8]) -> Result<(), Box<Difference>> {
        self.perform(Call::CheckLayout {
            edition,
            record: record.to_vec(),
        })?;
        self.perform(Call::ExplainLayout {
            edition,
            record: record.to_vec(),
        })?;
        let (positions, code_bits) = match check_layout(edition, record) {
            Ok(layout) => (
                positions(&layout, &mut self.random),
                code_bits(&layout, &mut self.random),
            ),
            Err(_) => (vec![0, u64::MAX], vec![(0, 0), (1, u64::MAX)]),
        };
        let first = self.random.below(4);
        for position in positions.into_iter().skip(first).step_by(4) {
            self.perform(Call::LocateBit {
                edition,
                record: record.to_vec(),
                position,
            })?;
            self.perform(Call::ExplainBit {
                edition,
                record: record.to_vec(),
                position,
            })?;
        }
        for (block, exponent) in code_bits.into_iter().skip(first).step_by(4) {
            self.perform(Call::BitPosition {
                edition,
                record: record.to_vec(),
                block,
                exponent,
            })?;
        }
        Ok(())
    }

    /// Locating, at a few levels of both fields.
    pub fn remainders(&mut self) -> Result<(), Box<Difference>> {
        let mut samples = document_cases();
        for choice in FieldChoice::ALL {
            for _ in 0..3 {
                let level_field = self.random.within(1, 0x14);
                samples.extend(sums(choice, level_field, &mut self.random));
                let small = self.random.within(1, 3);
                for _ in 0..20 {
                    samples.push(random_remainder(choice, small, &mut self.random));
                }
            }
            let strong = self.random.within(0x15, 0x1F);
            samples.extend(sums(choice, strong, &mut self.random));
        }
        samples.extend(levels(&mut self.random));
        samples.extend((0..200).map(|_| spoilt(&mut self.random)));
        for sample in samples {
            self.perform_filled(sample.into())?;
        }
        Ok(())
    }

    /// Remainders to a hardware locator, and back.
    pub fn fragments(&mut self) -> Result<(), Box<Difference>> {
        let mut calls = round_trips(&mut self.random);
        calls.extend((0..400).map(|_| spoilt_fragments(&mut self.random)));
        calls
            .into_iter()
            .try_for_each(|call| self.perform_filled(call).map(|_| ()))
    }

    /// Messages in pieces, and states that no start has made.
    pub fn pieces(&mut self) -> Result<(), Box<Difference>> {
        for _ in 0..60 {
            let message = Message::new(&mut self.random);
            let before = random_state(&mut self.random);
            let mut state = self.stated(message.start(before))?;
            for piece in message.pieces(&mut self.random) {
                state = self.stated(Call::ParityFeed { state, piece })?;
                if self.random.chance(4) {
                    let parity = message.parity_buffer(&mut self.random);
                    state = self.stated(Call::ParityFinish { state, parity })?;
                }
            }
            let parity = vec![0; message.parity_bytes()];
            self.stated(Call::ParityFinish { state, parity })?;
        }
        for start in started_levels(&mut self.random) {
            self.perform(start)?;
        }
        (0..150).try_for_each(|_| {
            let call = spoilt_pieces(&mut self.random);
            self.perform_filled(call).map(|_| ())
        })
    }

    /// Performs a call on a state and returns the state.
    fn stated(&mut self, call: Call) -> Result<Vec<u64>, Box<Difference>> {
        match self.perform_filled(call)? {
            Call::ParityStart { state, .. }
            | Call::ParityFeed { state, .. }
            | Call::ParityFinish { state, .. } => Ok(state),
            _ => unreachable!("a call on a state"),
        }
    }

    /// Pages of many layouts, most of them small.
    pub fn pages(&mut self) -> Result<(), Box<Difference>> {
        let layouts = page_layouts(&mut self.random);
        layouts.into_iter().try_for_each(|record| self.page(record))
    }

    /// Calls about one page: each by itself, some spoilt, then several on the same buffers.
    fn page(&mut self, record: LayoutRecord) -> Result<(), Box<Difference>> {
        let written = WrittenPage::new(record, &mut self.random);
        let mut calls = written.calls(&mut self.random);
        calls.extend(written.explanations(&mut self.random));
        for call in calls {
            let mut spoilt = call.clone();
            self.perform_filled(call)?;
            for _ in 0..self.random.within(1, 3) {
                spoil(&mut spoilt, &mut self.random);
            }
            self.perform_filled(spoilt)?;
        }
        self.sequence(&written)
    }

    /// Writes a page; looks at it damaged, ruined and damaged again with the same counts; takes it damaged
    /// and then ruined, which the last look was not, into the same outputs; and writes what was taken over
    /// the ruined page.
    fn sequence(&mut self, written: &WrittenPage) -> Result<(), Box<Difference>> {
        self.perform_filled(written.write())?;
        let damaged = written.damaged(&mut self.random);
        let (mut ruined, block) = written.overdamaged(&mut self.random);
        damage_tail(&mut ruined, &written.layout, &mut self.random);
        self.perform(written.judge(ruined.clone(), block))?;
        let [look, take] = written.read(damaged.clone());
        let look = self.perform_filled(look)?;
        let take = self.perform_filled(take)?;
        let look = self.perform(with_page(look, &ruined))?;
        self.perform(with_page(look, &damaged))?;
        if let Call::TakePage {
            edition,
            record,
            page,
            metadata,
            data,
        } = self.perform(with_page(take, &ruined))?
        {
            self.perform(Call::WritePage {
                edition,
                record,
                metadata,
                data,
                page,
            })?;
        }
        Ok(())
    }
}

/// The layouts of one round's pages, one in four with a mark.
fn page_layouts(random: &mut Random) -> Vec<LayoutRecord> {
    let mut plain = Vec::new();
    for most_page_bytes in [20, 40, 70, 120, 250, 600] {
        plain.extend((0..20).map(|_| accepted_words(random, most_page_bytes)));
    }
    plain.extend((0..10).map(|_| strong_words(random)));
    plain.extend([edge_layouts(); 5].concat());
    plain.push(accepted_words(random, 5000));
    plain.push(CASE_A);
    let mut layouts: Vec<LayoutRecord> = plain.iter().map(|&words| words.into()).collect();
    for &words in plain.iter().skip(2).step_by(3) {
        layouts.push(marked(words, random));
    }
    layouts.push(edge_record(random));
    layouts
}

/// A record that edition 2 accepts from the edges: the longest blocks, the most blocks, the largest pages.
fn edge_record(random: &mut Random) -> LayoutRecord {
    let records = records(random);
    loop {
        let record = &records[random.below(records.len())];
        if check_layout(2, record).is_ok() {
            return LayoutRecord::unpack(record).unwrap();
        }
    }
}

/// A look or a take with the same outputs but another page.
fn with_page(mut call: Call, other: &[u8]) -> Call {
    if let Call::LookPage { page, .. } | Call::TakePage { page, .. } = &mut call {
        *page = other.to_vec();
    }
    call
}
