//! Looking at a page and taking its payload (document 02, E6).

use model::bits::{bytes_of, put};
use model::layout::LayoutWords;
use model::outcome::{Outcome, outcome};
use model::page::{RUINED, block_word};
use model::random::Random;
use model::reply::{NUMBERS, refuse_by};
use model::samples::erased::edge_layouts;
use model::samples::layouts::{CASE_A, CASE_E, accepted_words};
use model::samples::pages::{BEFORE, WrittenPage, damage, spoil};
use model::*;

/// What document 01's joint call leaves: metadata, data and counts.
type Outputs = (Vec<u8>, Vec<u8>, Vec<u8>);

fn outputs(layout: &Layout, random: &mut Random) -> Outputs {
    (
        random.bytes(layout.metadata_length),
        random.bytes(layout.data_length()),
        random.bytes(layout.blocks()),
    )
}

/// Document 01's joint call, which reads metadata, data and counts at once and on any refusal leaves all
/// of them as they were lent. It is kept here for one test alone.
fn read_page(edition: u64, record: &[u8], page: &[u8], lent: &mut Outputs) -> Result<(), Refusal> {
    let layout = check_layout(edition, record)?;
    let (metadata, data, counts) = lent;
    refuse_by(&[
        (Reply::PageLength, page.len() != layout.page_length),
        (
            Reply::BufferLength,
            metadata.len() != layout.metadata_length
                || data.len() != layout.data_length()
                || counts.len() != layout.blocks(),
        ),
    ])?;
    let (mut payload, mut read_counts) = (Vec::new(), Vec::new());
    for number in 0..layout.blocks() {
        let block = layout.block(number);
        let (message, count) = match outcome(block.code(), &block_word(&layout, page, number)) {
            Outcome::Repaired { codeword, flips } => (codeword[..block.message_bits].into(), flips),
            Outcome::Erased { zeros } => (vec![true; block.message_bits], 128 + zeros),
            Outcome::Ruined => return Err(Refusal::uncorrectable(number)),
        };
        payload.extend(message);
        read_counts.push(count as u8);
    }
    *metadata = bytes_of(&payload);
    *data = metadata.split_off(layout.metadata_length);
    *counts = read_counts;
    Ok(())
}

/// Pages of many layouts: clean, damaged, random, erased and ruined.
fn sampled_pages(random: &mut Random) -> Vec<(WrittenPage, Vec<Vec<u8>>)> {
    let mut layouts = [edge_layouts(); 4].concat();
    for most_page_bytes in [20, 40, 70, 120, 250, 600] {
        layouts.extend((0..20).map(|_| accepted_words(random, most_page_bytes)));
    }
    layouts.push(CASE_A);
    let sampled = layouts.into_iter().map(|words| {
        let written = WrittenPage::new(words, random);
        let mut pages = vec![
            written.page.clone(),
            random.bytes(written.page.len()),
            written.damaged(random),
            written.overdamaged(random).0,
            written.erased(random).0,
        ];
        pages.extend((0..4).map(|_| written.ruined(random)));
        (written, pages)
    });
    sampled.collect()
}

#[test]
fn looking_then_taking_is_the_joint_call_but_for_the_counts_under_9() {
    let mut random = Random::new(61);
    let mut replies = [0; 10];
    for (written, pages) in sampled_pages(&mut random) {
        for page in pages {
            let lent = outputs(&written.layout, &mut random);
            let (mut joint, mut split) = (lent.clone(), lent.clone());
            let read = read_page(written.edition, &written.record, &page, &mut joint);
            let looked = look_page(written.edition, &written.record, &page, &mut split.2);
            let taken = take_page(
                written.edition,
                &written.record,
                &page,
                &mut split.0,
                &mut split.1,
            );
            assert_eq!((looked, taken), (read, read));
            assert_eq!((&split.0, &split.1), (&joint.0, &joint.1));
            if read.is_ok() {
                assert_eq!(split.2, joint.2);
            } else {
                assert_eq!(joint, lent);
            }
            replies[read.map_or_else(|refusal| refusal.number(), |()| 0) as usize] += 1;
        }
    }
    assert!(replies[0] > 300 && replies[9] > 300, "{replies:?}");
    assert_eq!(replies[0] + replies[9], replies.iter().sum::<usize>());
}

/// A count is what judging its block answers, and 255 exactly where judging refuses it; the lowest such
/// block is named. So a count is at most t, or from 128 to 128 + t, or 255.
#[test]
fn looking_counts_every_block_as_judging_does() {
    let mut random = Random::new(62);
    for (written, pages) in sampled_pages(&mut random) {
        for page in pages {
            let mut counts = random.bytes(written.layout.blocks());
            let looked = look_page(written.edition, &written.record, &page, &mut counts);
            let mut lowest = None;
            for (block, &count) in counts.iter().enumerate() {
                let t = written.layout.block(block).t();
                match judge_block(written.edition, &written.record, &page, block as u64) {
                    Ok(judged) => assert_eq!(count as usize, judged),
                    Err(refusal) => {
                        assert_eq!((count, refusal), (RUINED, Refusal::uncorrectable(block)));
                        lowest = lowest.or(Some(refusal));
                    }
                }
                let flips = (count as usize) <= t;
                let erased = t > 0 && (128..=128 + t).contains(&(count as usize));
                assert!(flips || erased || count == RUINED);
            }
            assert_eq!(looked, lowest.map_or(Ok(()), Err));
        }
    }
}

/// A look and a take with one to three arguments spoilt: whatever is refused with 1 to 7 or 11 writes nothing,
/// be a block ruined or not.
#[test]
fn other_refusals_write_nothing() {
    let mut random = Random::new(63);
    let mut replies = [0; NUMBERS];
    for (written, pages) in sampled_pages(&mut random) {
        for mut call in pages.into_iter().flat_map(|page| written.read(page)) {
            for _ in 0..random.within(1, 3) {
                spoil(&mut call, &mut random);
            }
            let mut after = call.clone();
            let answer = after.perform(&library::Model, &mut random).unwrap();
            let reply = (answer & 0xFF) as usize;
            assert!(reply == 0 || reply == 9 || after == call);
            replies[reply] += 1;
        }
    }
    let others = [1, 2, 3, 4, 5, 6, 7, 11];
    assert!(
        others.iter().all(|&reply| replies[reply] > 20),
        "{replies:?}"
    );
}

/// A written page, and that page with what became of it.
struct Case {
    written: WrittenPage,
    page: Vec<u8>,
}

impl Case {
    fn new(words: LayoutWords, random: &mut Random) -> Case {
        let written = WrittenPage::new(words, random);
        let page = written.page.clone();
        Case { written, page }
    }

    fn damage(mut self, block: usize, flips: usize, random: &mut Random) -> Case {
        damage(&mut self.page, &self.written.layout, block, flips, random);
        self
    }

    /// Makes a block all ones.
    fn erase(mut self, block: usize) -> Case {
        for position in self.written.layout.block_places(block) {
            put(&mut self.page, position, true);
        }
        self
    }

    fn look(&self) -> (Result<(), Refusal>, Vec<u8>) {
        let mut counts = vec![BEFORE; self.written.layout.blocks()];
        let looked = look_page(
            self.written.edition,
            &self.written.record,
            &self.page,
            &mut counts,
        );
        (looked, counts)
    }

    fn take(&self) -> (Result<(), Refusal>, Vec<u8>, Vec<u8>) {
        let mut metadata = vec![BEFORE; self.written.metadata.len()];
        let mut data = vec![BEFORE; self.written.data.len()];
        let taken = take_page(
            self.written.edition,
            &self.written.record,
            &self.page,
            &mut metadata,
            &mut data,
        );
        (taken, metadata, data)
    }

    /// Both calls refuse with 9 and this block; the counts are these, and the payload stays as lent.
    fn is_refused(&self, block: usize, counts: &[u8]) {
        let refused = Err(Refusal::uncorrectable(block));
        assert_eq!(self.look(), (refused, counts.to_vec()));
        let metadata = vec![BEFORE; self.written.metadata.len()];
        let data = vec![BEFORE; self.written.data.len()];
        assert_eq!(self.take(), (refused, metadata, data));
    }
}

/// Under case A, t = 16: 17 flips leave no codeword within t but once in 2 * 10^13.
#[test]
fn ruined_blocks_first_between_last_and_all() {
    let mut random = Random::new(64);
    let worn = |random: &mut Random| Case::new(CASE_A, random).damage(4, 16, random);
    for block in [0, 1, 7] {
        let mut counts = [0, 0, 0, 0, 16, 0, 0, 0];
        counts[block] = RUINED;
        worn(&mut random)
            .damage(block, 17, &mut random)
            .is_refused(block, &counts);
    }
    worn(&mut random)
        .damage(2, 17, &mut random)
        .damage(6, 40, &mut random)
        .is_refused(2, &[0, 0, RUINED, 0, 16, 0, RUINED, 0]);
    let mut all = Case::new(CASE_A, &mut random);
    for block in 0..8 {
        all = all.damage(block, 20, &mut random);
    }
    all.is_refused(0, &[RUINED; 8]);
}

#[test]
fn erased_blocks_before_and_behind_a_ruined_one() {
    let mut random = Random::new(65);
    let case = Case::new(CASE_A, &mut random).erase(1).erase(6);
    let (taken, metadata, data) = case.take();
    assert_eq!((taken, case.look().0), (Ok(()), Ok(())));
    assert_eq!(case.look().1, [0, 128, 0, 0, 0, 0, 128, 0]);
    assert_eq!(metadata, case.written.metadata);
    assert_eq!(data[512..1024], [0xFF; 512]);
    assert_eq!(data[1024..3072], case.written.data[1024..3072]);
    case.damage(3, 17, &mut random)
        .damage(6, 16, &mut random)
        .is_refused(3, &[0, 128, 0, RUINED, 0, 0, 144, 0]);
}

/// Blocks with t = 0 before and behind a ruined one: their bits are data, and their count is 0.
#[test]
fn blocks_without_ecc_beside_a_ruined_one() {
    let mut random = Random::new(66);
    let [_, _, first, later, ..] = edge_layouts();
    Case::new(first, &mut random)
        .erase(2)
        .damage(2, 3, &mut random)
        .damage(0, 5, &mut random)
        .is_refused(2, &[0, 0, RUINED, 0]);
    Case::new(later, &mut random)
        .erase(0)
        .damage(0, 3, &mut random)
        .damage(3, 5, &mut random)
        .is_refused(0, &[RUINED, 0, 0, 0]);
}

/// Counts of a wrong length beside a ruined page are not written, and neither is a payload.
#[test]
fn lengths_come_before_a_ruined_block() {
    let mut random = Random::new(67);
    let case = Case::new(CASE_E, &mut random)
        .erase(0)
        .damage(0, 3, &mut random);
    case.is_refused(0, &[RUINED, 0]);
    let (record, page) = (&case.written.record, &case.page);
    let wrong = Err(Reply::BufferLength.into());
    for length in [0, 1, 3, 255] {
        let mut counts = vec![BEFORE; length];
        assert_eq!(look_page(1, record, page, &mut counts), wrong);
        assert_eq!(counts, vec![BEFORE; length]);
    }
    let mut counts = [BEFORE; 2];
    let short = Err(Reply::PageLength.into());
    assert_eq!(look_page(1, record, &page[..14], &mut counts), short);
    assert_eq!(look_page(1, &record[..7], page, &mut counts), wrong);
    assert_eq!(counts, [BEFORE; 2]);
    for (metadata, data) in [(1, 8), (0, 7), (0, 9), (0, 0)] {
        let mut lent = (vec![BEFORE; metadata], vec![BEFORE; data]);
        assert_eq!(take_page(1, record, page, &mut lent.0, &mut lent.1), wrong);
        assert_eq!(lent, (vec![BEFORE; metadata], vec![BEFORE; data]));
    }
}
