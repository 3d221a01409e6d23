//! The page calls against the definitions they stand on, and the precedence of replies.

use model::bits::{bit, bits_of};
use model::random::Random;
use model::samples::layouts::accepted_words;
use model::samples::pages::{WrittenPage, damage, damage_tail};
use model::*;

fn written(random: &mut Random, most_page_bytes: usize) -> WrittenPage {
    WrittenPage::new(accepted_words(random, most_page_bytes), random)
}

/// A block's word, bit by bit from where each coefficient lies.
fn word(written: &WrittenPage, block: usize) -> Vec<bool> {
    (0..written.layout.block(block).covered_bits() as u64)
        .rev()
        .map(|exponent| {
            bit_position(written.edition, &written.record, block as u64, exponent).unwrap()
        })
        .map(|position| bit(&written.page, position))
        .collect()
}

#[test]
fn written_pages_are_messages_codewords_and_ones() {
    let mut random = Random::new(7);
    for _ in 0..150 {
        let written = written(&mut random, 300);
        let mut messages = Vec::new();
        for block in 0..written.layout.blocks() {
            let shape = written.layout.block(block);
            let word = word(&written, block);
            assert!(shape.code().is_codeword(&word));
            messages.extend_from_slice(&word[..shape.message_bits]);
        }
        let payload = [written.metadata.clone(), written.data.clone()].concat();
        assert_eq!(messages, bits_of(&payload));
        let tail = &bits_of(&written.page)[written.layout.used_bits()..];
        assert!(tail.iter().all(|&bit| bit));
    }
}

#[test]
fn bits_go_both_ways() {
    let mut random = Random::new(8);
    for _ in 0..40 {
        let record = accepted_words(&mut random, 200).pack();
        let layout = check_layout(2, &record).unwrap();
        let mut position = 0;
        for block in 0..layout.blocks() {
            for exponent in (0..layout.block(block).covered_bits()).rev() {
                let place = BitPlace::Covered { block, exponent };
                assert_eq!(locate_bit(2, &record, position), Ok(place));
                let found = bit_position(2, &record, block as u64, exponent as u64);
                assert_eq!(found, Ok(position as usize));
                position += 1;
            }
            let n = layout.block(block).covered_bits() as u64;
            let refused = bit_position(2, &record, block as u64, n);
            assert_eq!(refused, Err(Reply::OutOfRange.into()));
        }
        for position in position..8 * layout.page_length as u64 {
            assert_eq!(locate_bit(2, &record, position), Ok(BitPlace::Tail));
        }
    }
}

#[test]
fn damage_up_to_t_reads_back() {
    let mut random = Random::new(9);
    for _ in 0..150 {
        let WrittenPage {
            edition,
            record,
            layout,
            metadata,
            data,
            mut page,
        } = written(&mut random, 400);
        let mut flips = Vec::new();
        for block in 0..layout.blocks() {
            let t = layout.block(block).t();
            let any = random.below(t + 1);
            let count = random.pick(&[0, t.min(1), t, any]);
            let errors = damage(&mut page, &layout, block, count, &mut random);
            let claims: Vec<u16> = errors
                .iter()
                .rev()
                .map(|&exponent| exponent as u16)
                .collect();
            assert_eq!(
                check_claim(edition, &record, &page, block as u64, &claims),
                Ok(())
            );
            assert_eq!(
                judge_block(edition, &record, &page, block as u64),
                Ok(count)
            );
            flips.push(count as u8);
        }
        damage_tail(&mut page, &layout, &mut random);
        let mut counts = random.bytes(layout.blocks());
        assert_eq!(look_page(edition, &record, &page, &mut counts), Ok(()));
        let mut taken = (random.bytes(metadata.len()), random.bytes(data.len()));
        let reply = take_page(edition, &record, &page, &mut taken.0, &mut taken.1);
        assert_eq!(reply, Ok(()));
        assert_eq!((taken, counts), ((metadata, data), flips));
    }
}

fn number<T>(reply: Result<T, Refusal>) -> u8 {
    reply.map_or_else(|refusal| refusal.number(), |_| 0)
}

/// Under case E: the smaller reply wins, and a wrong record comes before all.
#[test]
fn precedence_in_page_calls() {
    let good = 0x0100_0801_000F_0801_u64.to_be_bytes();
    let refused = 0x0100_A801_000F_0801_u64.to_be_bytes();
    let (page, ruined) = ([0; 15], [0x55; 15]);
    assert_eq!(number(judge_block(1, &good[..7], &page[..3], 9)), 6);
    assert_eq!(number(judge_block(1, &refused, &page[..3], 9)), 1);
    assert_eq!(number(judge_block(1, &good, &page[..3], 9)), 5);
    assert_eq!(number(judge_block(1, &good, &ruined, 2)), 7);
    assert_eq!(
        judge_block(1, &good, &ruined, 1),
        Err(Refusal::uncorrectable(1))
    );
    assert_eq!(number(check_claim(1, &good, &page[..3], 9, &[58])), 5);
    assert_eq!(number(check_claim(1, &good, &page, 1 << 32, &[58])), 7);
    assert_eq!(number(check_claim(1, &good, &page, 1, &[58])), 10);
    assert_eq!(number(check_claim(1, &good, &page, 1, &[])), 0);
    assert_eq!(number(look_page(1, &good[..7], &page[..3], &mut [])), 6);
    assert_eq!(number(look_page(1, &refused, &page[..3], &mut [])), 1);
    assert_eq!(number(look_page(1, &good, &page[..3], &mut [])), 5);
    assert_eq!(number(look_page(1, &good, &ruined, &mut [0; 1])), 6);
    assert_eq!(number(look_page(1, &good, &ruined, &mut [0; 3])), 6);
    assert_eq!(number(look_page(1, &good, &ruined, &mut [0; 2])), 9);
    let take = |record, page, metadata: usize, data: usize| {
        let (mut metadata, mut data) = (vec![0; metadata], vec![0; data]);
        number(take_page(1, record, page, &mut metadata, &mut data))
    };
    assert_eq!(take(&good[..7], &page[..3], 1, 0), 6);
    assert_eq!(take(&refused, &page[..3], 1, 0), 1);
    assert_eq!(take(&good, &page[..3], 1, 0), 5);
    assert_eq!(take(&good, &ruined, 1, 8), 6);
    assert_eq!(take(&good, &ruined, 0, 7), 6);
    assert_eq!(take(&good, &ruined, 0, 9), 6);
    assert_eq!(take(&good, &ruined, 0, 8), 9);
    assert_eq!(number(write_page(1, &good, &[], &[0; 9], &mut [0; 14])), 5);
    assert_eq!(number(write_page(1, &good, &[], &[0; 9], &mut [0; 15])), 6);
}

#[test]
fn precedence_in_locating() {
    let mut places = [7; 2];
    let mut locate = |level, choice, n, remainder: &[u8], length: usize| {
        let reply = number(locate_errors(
            1,
            level,
            choice,
            n,
            remainder,
            &mut places[..length],
        ));
        assert_eq!(places, [7; 2]);
        reply
    };
    assert_eq!(locate(0x15, 2, 0, &[], 0), 7);
    assert_eq!(locate(0x15, 1 << 32, 0, &[], 0), 7);
    assert_eq!(locate(0x15, 1, 0, &[], 0), 1);
    assert_eq!(locate(256, 0, 0, &[], 0), 1);
    assert_eq!(locate(0, 0, 9000, &[], 0), 2);
    assert_eq!(locate(1, 0, 26, &[], 0), 2);
    assert_eq!(locate(1, 0, 8192, &[], 0), 3);
    assert_eq!(locate(1, 0, 1 << 32, &[], 0), 3);
    assert_eq!(locate(1, 1, 16384, &[], 0), 3);
    assert_eq!(locate(1, 0, 27, &[0xFF; 3], 2), 6);
    assert_eq!(locate(1, 0, 27, &[0xFF; 5], 2), 6);
    assert_eq!(locate(1, 0, 27, &[0xFF; 4], 1), 6);
    assert_eq!(locate(1, 0, 27, &[0xFF; 4], 2), 8);
    assert_eq!(locate(1, 0, 27, &[0x04, 0, 0, 0], 2), 8);
    assert_eq!(locate(1, 0, 27, &[0x03, 0xFF, 0xFF, 0xFF], 2), 9);
    assert_eq!(locate(1, 0, 27, &[0; 4], 2), 0);
}
