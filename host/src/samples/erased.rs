//! Samples of pages with erased blocks (document 02, E1).

use crate::bits::put;
use crate::call::Call;
use crate::decoder::errors_of_word;
use crate::layout::{Block, Layout, LayoutWords};
use crate::page::block_word;
use crate::random::Random;
use crate::samples::pages::WrittenPage;
use std::collections::HashMap;

impl<Record> WrittenPage<Record> {
    /// A page of all ones (one in eight), of erased blocks (two), of blocks erased and written (two),
    /// or such a one with a block of t + 1 zeros (three), mostly one of the last; and that block, or
    /// else any.
    pub fn erased(&self, random: &mut Random) -> (Vec<u8>, usize) {
        let kind = random.below(8);
        let mut block = random.below(self.layout.blocks());
        if kind == 0 {
            return (vec![0xFF; self.page.len()], block);
        }
        let mut page = self.damaged(random);
        for block in 0..self.layout.blocks() {
            if kind < 3 || random.chance(2) {
                self.erase(&mut page, block, random);
            }
        }
        if kind > 4 {
            block = block.max(random.below(self.layout.blocks()));
            let shape = self.layout.block(block);
            let places = places(shape, shape.t() + 1, random);
            self.put_zeros(&mut page, block, &places);
        }
        (page, block)
    }

    /// A page with erased blocks, one of its blocks, and a claim on that: empty, its zeros, or the right one if it
    /// has a codeword within t.
    pub fn erased_claim(&self, random: &mut Random) -> (Vec<u8>, usize, Vec<u16>) {
        let (page, block) = self.erased(random);
        let word = block_word(&self.layout, &page, block);
        let zeros: Vec<usize> = (0..word.len())
            .filter(|exponent| !word[word.len() - 1 - exponent])
            .collect();
        let right = errors_of_word(self.layout.block(block).code(), &word);
        let claim = match random.below(3) {
            0 => vec![],
            1 if zeros.len() <= 64 => zeros,
            _ => right.unwrap_or_default(),
        };
        let claim = claim.iter().map(|&exponent| exponent as u16).collect();
        (page, block, claim)
    }

    /// Makes a block all ones with none, one, t or any other number of zeros up to t. Where t = 2,
    /// two of three blocks have one to four zeros of a codeword that has four, if there is one.
    pub(super) fn erase(&self, page: &mut [u8], block: usize, random: &mut Random) {
        let shape = self.layout.block(block);
        if shape.t() == 2 && !random.chance(3) {
            if let Some(mut four) = codeword_of_ones(shape, random) {
                four.truncate(random.pick(&[1, 2, 2, 3, 4]));
                return self.put_zeros(page, block, &four);
            }
        }
        let most = match shape.t() {
            0 => 3,
            t => t,
        };
        let any = random.below(most + 1);
        let count = random.pick(&[0, 1, most, any]);
        let places = places(shape, count, random);
        self.put_zeros(page, block, &places);
    }

    /// Makes a block all ones but for zeros at these exponents.
    fn put_zeros(&self, page: &mut [u8], block: usize, exponents: &[usize]) {
        let lowest_first = self.layout.block_places(block).into_iter().rev();
        for (exponent, position) in lowest_first.enumerate() {
            put(page, position, !exponents.contains(&exponent));
        }
    }
}

impl WrittenPage {
    /// Calls about a page with erased blocks: one block judged, a claim on it, and the page read.
    pub fn erased_calls(&self, random: &mut Random) -> Vec<Call> {
        let (page, block, claim) = self.erased_claim(random);
        let mut calls = vec![
            self.judge(page.clone(), block),
            self.claim(page.clone(), block, claim),
        ];
        calls.extend(self.read(page));
        calls
    }
}

/// So many different exponents of a block: of its message, of its parity, or any.
fn places(block: Block, count: usize, random: &mut Random) -> Vec<usize> {
    let n = block.covered_bits();
    let parity = n - block.message_bits;
    let (first, size) = match random.below(3) {
        0 if parity >= count => (0, parity),
        1 if block.message_bits >= count => (parity, block.message_bits),
        _ => (0, n),
    };
    let places = random.distinct(count.min(size), size);
    places.iter().map(|place| first + place).collect()
}

/// Four exponents, in any order, with zeros at which and ones elsewhere a block with t = 2 is a
/// codeword. A word is one if it is 0 at a and at a^3. The four are two pairs, so that the sums of two
/// are listed until one of them meets what another leaves; in a short block there may be none.
pub fn codeword_of_ones(block: Block, random: &mut Random) -> Option<Vec<usize>> {
    let (field, n) = (block.choice.field(), block.covered_bits());
    let values = |exponent: usize| {
        (field.power_of_a(exponent) as u32) << 16 | field.power_of_a(3 * exponent) as u32
    };
    let ones = (0..n).fold(0, |sum, exponent| sum ^ values(exponent));
    let tried = random.distinct(n.min(500), n);
    let mut pairs: HashMap<u32, [usize; 2]> = HashMap::new();
    for (i, &left) in tried.iter().enumerate() {
        for &right in &tried[..i] {
            let sum = values(left) ^ values(right);
            let rest = pairs.get(&(ones ^ sum)).copied().unwrap_or([left, right]);
            if !rest.contains(&left) && !rest.contains(&right) {
                let mut four = [[left, right], rest].concat();
                random.shuffle(&mut four);
                return Some(four);
            }
            pairs.insert(sum, [left, right]);
        }
    }
    None
}

/// Layouts under which every edge is met: blocks with t = 2 that are long enough for a codeword of
/// nearly all ones, of both fields, with metadata and inside bytes; t = 0 before and after them; and
/// the highest level of either edition.
pub fn edge_layouts() -> [LayoutWords; 6] {
    let words = |meta_size, block0: (u8, u8, u16), later: (u8, u8, u16)| {
        let words = LayoutWords {
            nblocks: 3,
            meta_size,
            ecc0: block0.0,
            gf0: block0.1,
            data0_size: block0.2,
            page_size: 0,
            eccn: later.0,
            gfn: later.1,
            datan_size: later.2,
        };
        let page_size = Layout::from(words).used_bits().div_ceil(8) as u16 + 1;
        LayoutWords { page_size, ..words }
    };
    [
        words(3, (1, 0, 12), (1, 0, 13)),
        words(1, (1, 1, 16), (1, 1, 15)),
        words(10, (0, 0, 2), (1, 0, 14)),
        words(2, (1, 1, 17), (0, 1, 1)),
        words(5, (0x14, 0, 1), (0x14, 1, 3)),
        words(5, (0x1F, 0, 1), (0x1F, 1, 3)),
    ]
}
