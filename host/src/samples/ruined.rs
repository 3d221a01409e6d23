//! Samples of pages with ruined blocks (document 02, E6).

use crate::bits::flip;
use crate::outcome::{Outcome, outcome};
use crate::page::block_word;
use crate::random::Random;
use crate::samples::pages::WrittenPage;

impl<Record> WrittenPage<Record> {
    /// A page with ruined blocks among those that have t above 0: the first, the last, any one, some or
    /// all of them. Of the other blocks some are erased, and the rest are damaged within t.
    pub fn ruined(&self, random: &mut Random) -> Vec<u8> {
        let mut page = self.damaged(random);
        for block in 0..self.layout.blocks() {
            if random.chance(3) {
                self.erase(&mut page, block, random);
            }
        }
        let mut blocks: Vec<usize> = (0..self.layout.blocks())
            .filter(|&block| self.layout.block(block).t() > 0)
            .collect();
        match random.below(5) {
            0 => blocks.truncate(1),
            1 => drop(blocks.drain(..blocks.len().saturating_sub(1))),
            2 if blocks.len() > 1 => blocks = vec![random.pick(&blocks)],
            3 => blocks.retain(|_| random.chance(2)),
            _ => (),
        }
        for block in blocks {
            self.ruin(&mut page, block, random);
        }
        page
    }

    /// Turns bits of a block over until it has neither a codeword within t nor at most t zeros.
    fn ruin(&self, page: &mut [u8], block: usize, random: &mut Random) {
        let code = self.layout.block(block).code();
        while outcome(code, &block_word(&self.layout, page, block)) != Outcome::Ruined {
            for position in self.layout.block_places(block) {
                if random.chance(2) {
                    flip(page, position);
                }
            }
        }
    }
}
