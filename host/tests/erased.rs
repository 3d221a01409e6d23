//! Erased blocks (document 02, E1): cases under the layout of case A and others.

use model::bits::{bit, flip};
use model::layout::{Layout, LayoutWords};
use model::page::block_word;
use model::random::Random;
use model::samples::erased::{codeword_of_ones, edge_layouts};
use model::samples::layouts::{CASE_A, CASE_E, accepted_words};
use model::samples::pages::{WrittenPage, damage};
use model::*;

/// A page under layout words, in the making.
struct Page {
    record: [u8; 8],
    layout: Layout,
    bytes: Vec<u8>,
}

/// What a read page gives.
type Read = Result<(Vec<u8>, Vec<u8>, Vec<u8>), Refusal>;

impl Page {
    fn ones(words: LayoutWords) -> Page {
        let record = words.pack();
        let layout = check_layout(2, &record).unwrap();
        let bytes = vec![0xFF; layout.page_length];
        Page {
            record,
            layout,
            bytes,
        }
    }

    /// Makes the bits at these exponents of a block zeros.
    fn zeros(mut self, block: usize, exponents: impl IntoIterator<Item = usize>) -> Page {
        for exponent in exponents {
            let position = self.layout.code_place(block, exponent);
            assert!(bit(&self.bytes, position));
            flip(&mut self.bytes, position);
        }
        self
    }

    /// Metadata, data and counts, from looking and then taking.
    fn read(&self) -> Read {
        let mut counts = vec![0xA5; self.layout.blocks()];
        let looked = look_page(2, &self.record, &self.bytes, &mut counts);
        let mut metadata = vec![0xA5; self.layout.metadata_length];
        let mut data = vec![0xA5; self.layout.data_length()];
        let taken = take_page(2, &self.record, &self.bytes, &mut metadata, &mut data);
        assert_eq!(looked, taken);
        taken.map(|()| (metadata, data, counts))
    }

    fn judge(&self, block: usize) -> Result<usize, Refusal> {
        judge_block(2, &self.record, &self.bytes, block as u64)
    }

    fn claim(&self, block: usize, claims: &[u16]) -> Result<(), Refusal> {
        check_claim(2, &self.record, &self.bytes, block as u64, claims)
    }
}

fn parity_bits(words: LayoutWords, block: usize) -> usize {
    let shape = Layout::from(words).block(block);
    shape.covered_bits() - shape.message_bits
}

/// Under case A, t = 16: a random word has a codeword within t once in 2 * 10^13.
#[test]
fn a_page_of_ones_is_erased() {
    let page = Page::ones(CASE_A);
    let read = (vec![0xFF; 10], vec![0xFF; 4096], vec![128; 8]);
    assert_eq!(page.read(), Ok(read));
    for block in 0..8 {
        assert_eq!(page.judge(block), Ok(128));
    }
    assert_eq!(page.judge(8), Err(Reply::OutOfRange.into()));
}

#[test]
fn t_zeros_are_erased_and_one_more_ruined() {
    let mut random = Random::new(21);
    for block in [0, 4, 7] {
        let n = Layout::from(CASE_A).block(block).covered_bits();
        let parity = parity_bits(CASE_A, block);
        let message_alone: Vec<usize> = (parity..n).step_by(97).take(17).collect();
        let parity_alone: Vec<usize> = (0..parity).step_by(12).take(17).collect();
        let mut both = message_alone[..16].to_vec();
        both.push(0);
        let any = random.distinct(17, n);
        for places in [message_alone, parity_alone, both, any] {
            for zeros in [0, 1, 15, 16] {
                let page = Page::ones(CASE_A).zeros(block, places[..zeros].iter().copied());
                let (metadata, data, counts) = page.read().unwrap();
                assert!(metadata.iter().chain(&data).all(|&byte| byte == 0xFF));
                let mut expected = [128; 8];
                expected[block] += zeros as u8;
                assert_eq!(counts, expected);
                assert_eq!(page.judge(block), Ok(128 + zeros));
            }
            let page = Page::ones(CASE_A).zeros(block, places);
            assert_eq!(page.read(), Err(Refusal::uncorrectable(block)));
            assert_eq!(page.judge(block), Err(Refusal::uncorrectable(block)));
        }
    }
}

#[test]
fn a_page_half_erased_and_half_written() {
    let mut random = Random::new(22);
    let written = WrittenPage::new(CASE_A, &mut random);
    let mut page = Page::ones(CASE_A);
    page.bytes = written.page.clone();
    for position in written.layout.start(4)..8 * written.layout.page_length {
        if !bit(&page.bytes, position) {
            flip(&mut page.bytes, position);
        }
    }
    damage(&mut page.bytes, &written.layout, 1, 16, &mut random);
    let page = page.zeros(6, [0, 4303]);
    let data = [written.data[..2048].to_vec(), vec![0xFF; 2048]].concat();
    let counts = vec![0, 16, 0, 0, 128, 128, 130, 128];
    let read = (written.metadata.clone(), data, counts);
    assert_eq!(page.read(), Ok(read));

    let page = page.zeros(7, 0..17).zeros(5, 300..340);
    assert_eq!(page.read(), Err(Refusal::uncorrectable(5)));
    assert_eq!(page.judge(4), Ok(128));
    assert_eq!(page.judge(7), Err(Refusal::uncorrectable(7)));
}

/// The highest level of either edition: the highest counts are 168 and 190.
#[test]
fn the_highest_count() {
    for (words, t) in edge_layouts()[4..].iter().zip([40, 62]) {
        for block in 0..4 {
            let page = Page::ones(*words).zeros(block, 10..10 + t);
            assert_eq!(page.judge(block), Ok(128 + t));
            let page = page.zeros(block, [10 + t]);
            assert_eq!(page.judge(block), Err(Refusal::uncorrectable(block)));
        }
    }
}

/// Block 1 of case E starts at bit 2 of byte 7; no codeword of its 58 bits has fewer than five zeros.
#[test]
fn a_block_from_inside_a_byte_on() {
    for a in 0..58 {
        let page = Page::ones(CASE_E).zeros(1, [a]);
        assert_eq!(page.read(), Ok((vec![], vec![0xFF; 8], vec![128, 129])));
        for b in 0..a {
            let page = Page::ones(CASE_E).zeros(1, [a, b]);
            assert_eq!(page.judge(1), Ok(130));
        }
    }
    let page = Page::ones(CASE_E).zeros(1, [57, 30, 0]);
    assert_eq!(page.read(), Err(Refusal::uncorrectable(1)));
}

/// A codeword with four zeros, t = 2: with two of them it is read as that codeword, though its zeros
/// are no more than t; with one it is too far away.
#[test]
fn nearly_all_ones_within_t_of_a_codeword() {
    let mut random = Random::new(23);
    let mut found = 0;
    for words in edge_layouts() {
        let layout = Layout::from(words);
        for block in 0..layout.blocks() {
            if layout.block(block).t() != 2 {
                continue;
            }
            let four = codeword_of_ones(layout.block(block), &mut random).unwrap();
            let codeword = Page::ones(words).zeros(block, four.clone());
            let word = block_word(&layout, &codeword.bytes, block);
            assert!(layout.block(block).code().is_codeword(&word));
            let read = codeword.read().unwrap();
            assert_eq!(read.2[block], 0);
            for zeros in 2..4 {
                let page = Page::ones(words).zeros(block, four[..zeros].iter().copied());
                assert_eq!(page.judge(block), Ok(4 - zeros));
                let mut expected = read.clone();
                expected.2[block] = 4 - zeros as u8;
                assert_eq!(page.read(), Ok(expected));
                let claim: Vec<u16> = four[zeros..].iter().map(|&e| e as u16).collect();
                assert_eq!(page.claim(block, &claim), Ok(()));
            }
            found += 1;
        }
    }
    assert_eq!(found, 12);
}

/// Where t = 0 a block is never erased: its bits are data.
#[test]
fn without_ecc_no_block_is_erased() {
    let words = edge_layouts()[2];
    let page = Page::ones(words);
    let (metadata, data, counts) = page.read().unwrap();
    assert!(metadata.iter().chain(&data).all(|&byte| byte == 0xFF));
    assert_eq!(counts, [0, 128, 128, 128]);
    let n = page.layout.block(0).covered_bits();
    let page = page.zeros(0, [n - 1, 0]);
    let (metadata, data, counts) = page.read().unwrap();
    assert_eq!((metadata[0], data[7]), (0x7F, 0xFE));
    assert_eq!(counts, [0, 128, 128, 128]);
    assert_eq!(page.judge(0), Ok(0));
}

/// Claims and locating did not change: a claim on an erased block is wrong, be it empty or its zeros,
/// and its remainder locates nothing.
#[test]
fn claims_and_locating_stay() {
    let page = Page::ones(CASE_A).zeros(3, [4000, 7]);
    assert_eq!(page.judge(3), Ok(130));
    for claim in [vec![], vec![4000, 7], vec![7]] {
        assert_eq!(page.claim(3, &claim), Err(Reply::ClaimWrong.into()));
    }
    let shape = page.layout.block(3);
    let word = block_word(&page.layout, &page.bytes, 3);
    let remainder = model::bits::bytes_of(&shape.code().remainder(&word));
    let located = locate_errors(2, 8, 0, 4304, &remainder, &mut [0; 16]);
    assert_eq!(located, Err(Reply::Uncorrectable.into()));
}

/// A page of ones is never refused, whatever the layout.
#[test]
fn pages_of_ones_are_never_refused() {
    let mut random = Random::new(24);
    for i in 0..300 {
        let most = [20, 60, 200, 500][i % 4];
        let page = Page::ones(accepted_words(&mut random, most));
        let (_, _, counts) = page.read().unwrap();
        for (block, &count) in counts.iter().enumerate() {
            let t = page.layout.block(block).t();
            assert!(count == 128 && t > 0 || count as usize <= t);
        }
    }
}
