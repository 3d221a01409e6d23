//! Vectors of the store: page calls that name a version, between calls that store and remove versions.

use crate::Answer;
use crate::store::{Run, digits, start};
use model::call::Call;
use model::check_layout;
use model::layout::{LayoutRecord, LayoutWords};
use model::random::Random;
use model::samples::erased::edge_layouts;
use model::samples::layouts::{CASE_A, CASE_E, accepted_words, strong_words};
use model::samples::marks::marked;
use model::samples::pages::{BEFORE, WrittenPage, spoil};

/// Numbers that are never a version of a store that holds some, and those that a library might cut to one.
const UNKNOWN: [u64; 5] = [0, 65_535, 65_537, (1 << 32) + 1, u64::MAX];

/// The largest page, in bytes, that a version from among the records of the store's own calls is tried with.
const SMALL: usize = 300;

impl Run {
    pub fn page_calls(&mut self) {
        let mut random = Random::new(0x7E25);
        self.call(b'E', 0, 0, &[]);
        self.unknown_versions(&mut random);
        for record in layouts(&mut random) {
            self.stored_and_removed(&record, &mut random);
        }
        self.call(b'E', 0, 0, &[]);
        for _ in 0..60 {
            for _ in 0..random.within(1, 5) {
                self.random_call(&mut random);
            }
            self.any_version(&mut random);
        }
    }

    /// Each call under each number that is no version, with buffers of the right length and of others.
    fn unknown_versions(&mut self, random: &mut Random) {
        let written = WrittenPage::new(CASE_E, random);
        let page = written.page.clone();
        for version in UNKNOWN {
            for mut call in [
                written.write(),
                written.look(page.clone()),
                written.take(page.clone()),
                written.judge(page.clone(), 0),
                written.claim(page.clone(), 0, vec![]),
            ] {
                self.page_call(version, &call);
                spoil(&mut call, random);
                self.page_call(version, &call);
            }
        }
    }

    /// A layout under one version: a page written, read, removed, and read again under the version that it is then
    /// stored with; and, where both editions accept it, under the other edition.
    fn stored_and_removed(&mut self, record: &[u8], random: &mut Random) {
        let edition = match check_layout(1, record) {
            Ok(_) => random.pick(&[1, 2]),
            Err(_) => 2,
        };
        let version = self.given(edition, record);
        let written = page_under(edition, record, random);
        self.under(version, &written, random);
        self.call(b'R', version, 0, &[]);
        let page = written.damaged(random);
        let [look, take] = written.read(page);
        self.page_call(version, &look);
        self.page_call(version, &written.write());
        let again = match check_layout(1, record) {
            Ok(_) => 3 - edition,
            Err(_) => 2,
        };
        let version = self.given(again, record);
        self.page_call(version, &look);
        self.page_call(version, &take);
        if random.chance(2) {
            self.call(b'R', version, 0, &[]);
            self.page_call(version, &take);
        }
    }

    /// Stores a layout that is accepted, in a store with room: its version.
    fn given(&mut self, edition: u64, record: &[u8]) -> u64 {
        if let [first, .., last] = self.store.versions()[..] {
            if last > first + 20 {
                self.call(b'R', first, 0, &[]);
            }
        }
        let before = self.store.versions();
        self.call(b'S', edition, 0, record);
        let after = self.store.versions();
        assert_eq!(after.len(), before.len() + 1);
        after[before.len()]
    }

    /// Every kind of call about a page, and some that are refused for a length, for a block, or as another version
    /// has the page.
    fn under(&mut self, version: u64, written: &WrittenPage, random: &mut Random) {
        let mut calls = vec![written.write()];
        calls.extend(written.read(written.damaged(random)));
        let (page, block) = written.overdamaged(random);
        calls.push(written.judge(page.clone(), block));
        calls.extend(written.read(page));
        calls.extend(written.read(written.erased(random).0));
        let (page, block, claims) = written.claimed(random);
        let claims = claims.into_iter().take(3);
        calls.extend(claims.map(|claim| written.claim(page.clone(), block, claim)));
        calls.push(written.judge(page, block));
        let other = random.pick(&self.store.versions());
        for call in &mut calls {
            self.page_call(version, call);
            if random.chance(3) {
                self.page_call(other, call);
            }
            if random.chance(2) {
                spoil(call, random);
                self.page_call(version, call);
            }
        }
    }

    /// Some calls under any version of the store, mostly one that it holds.
    fn any_version(&mut self, random: &mut Random) {
        let version = self.version(random);
        let stored = match self.store.layout(version) {
            Ok(stored) => stored.clone(),
            Err(_) => return self.unknown_version(version, random),
        };
        let written = page_under(stored.edition, &stored.record, random);
        if written.page.len() <= SMALL {
            let page = written.damaged(random);
            self.page_call(version, &written.write());
            for call in written.read(page.clone()) {
                self.page_call(version, &call);
            }
            let block = random.below(written.layout.blocks());
            self.page_call(version, &written.judge(page.clone(), block));
            self.page_call(version, &written.claim(page, block, vec![]));
        }
    }

    fn unknown_version(&mut self, version: u64, random: &mut Random) {
        let written = WrittenPage::new(CASE_E, random);
        for call in written.read(written.page.clone()) {
            self.page_call(version, &call);
        }
    }

    /// Makes a call about a page under a version instead of its edition and record, and adds its line and the model's
    /// answer.
    fn page_call(&mut self, version: u64, call: &Call) {
        let store = &self.store;
        let (line, answer) = match call.clone() {
            Call::WritePage {
                metadata,
                data,
                mut page,
                ..
            } => {
                let line = line(b'w', version, 0, [&metadata, &data, &page]);
                let reply = store.write_version(version, &metadata, &data, &mut page);
                (line, Answer::from(reply).with_bytes(&page))
            }
            Call::LookPage {
                page, mut counts, ..
            } => {
                let line = line(b'l', version, 0, [&page, &counts, &[]]);
                let reply = store.look_version(version, &page, &mut counts);
                (line, Answer::from(reply).with_bytes(&counts))
            }
            Call::TakePage {
                page,
                mut metadata,
                mut data,
                ..
            } => {
                let line = line(b't', version, 0, [&page, &metadata, &data]);
                let reply = store.take_version(version, &page, &mut metadata, &mut data);
                let answer = Answer::from(reply).with_bytes(&metadata);
                (line, answer.with_bytes(&data))
            }
            Call::JudgeBlock { page, block, .. } => {
                let line = line(b'j', version, block, [&page, &[], &[]]);
                let answer = match store.judge_version(version, &page, block) {
                    Ok(flips) => Answer::done().with(flips),
                    Err(refusal) => refusal.into(),
                };
                (line, answer)
            }
            Call::CheckClaim {
                page,
                block,
                claims,
                ..
            } => {
                let bytes: Vec<u8> = claims
                    .iter()
                    .flat_map(|claim| claim.to_be_bytes())
                    .collect();
                let line = line(b'c', version, block, [&page, &bytes, &[]]);
                let reply = store.claim_version(version, &page, block, &claims);
                (line, reply.into())
            }
            other => panic!("no call about a page: {other:?}"),
        };
        self.vectors.add(line.as_bytes(), answer);
    }
}

/// A line with the lengths of the buffers and the buffers themselves.
fn line(kind: u8, version: u64, block: u64, buffers: [&[u8]; 3]) -> String {
    let lengths = buffers
        .iter()
        .flat_map(|buffer| (buffer.len() as u32).to_be_bytes());
    let lengths: Vec<u8> = lengths.collect();
    let mut line = start(kind, version, block, &lengths);
    for buffer in buffers {
        line.push(' ');
        line.push_str(&digits(buffer));
    }
    line.push('\n');
    line
}

/// A page of a random payload, written under an edition and a record that it accepts.
fn page_under(edition: u64, record: &[u8], random: &mut Random) -> WrittenPage {
    let layout = check_layout(edition, record).unwrap();
    let metadata = random.bytes(layout.metadata_length);
    let data = random.bytes(layout.data_length());
    let mut page = vec![BEFORE; layout.page_length];
    layout.write(&metadata, &data, &mut page).unwrap();
    WrittenPage {
        edition,
        record: record.to_vec(),
        layout,
        metadata,
        data,
        page,
    }
}

/// Cases E and A of document 01, small pages of both editions, some with a mark, and the layouts at the edges of erased
/// blocks.
fn layouts(random: &mut Random) -> Vec<Vec<u8>> {
    let mut words: Vec<LayoutWords> = vec![CASE_E];
    words.extend((0..16).map(|i| accepted_words(random, [20, 40, 70, 120][i % 4])));
    words.extend((0..4).map(|_| strong_words(random)));
    words.extend(edge_layouts().into_iter().take(4));
    words.push(CASE_A);
    let records = words.into_iter().map(|words| match random.chance(3) {
        true => marked(words, random),
        false => LayoutRecord::from(words),
    });
    records.map(|record| record.pack()).collect()
}
