//! Damage past the level (document 02, E14): a written block with t > 0 in which e bits flipped, e
//! more than t and at most 2t, is ruined, or erased, or read with at least 2t + 1 - e flips. It holds in both
//! editions: a block has a level, and the levels above 40 are those of edition 2 (E13). A sector is a block, and
//! its pads do not matter (E12).
//!
//! `cargo test --test worn -- --nocapture` prints how often each came: the table of docs/AUDIT.md.

use model::Refusal;
use model::bits::{bytes_of, flip};
use model::code::{Code, HIGHEST_LEVEL, bch, flip_exponents};
use model::decoder::errors_of_word;
use model::field::FieldChoice;
use model::layout::Block;
use model::outcome::{Outcome, outcome};
use model::page::{ERASED, RUINED};
use model::random::Random;
use model::samples::erased::codeword_of_ones;
use model::samples::pages::{WrittenPage, damage_tail};
use model::samples::sectors::{longest, one};
use model::sectors::{Sectors, look, write};

/// Blocks for each level and field.
const ROUNDS: usize = 1000;

/// Pages for each level and field, each of four sectors.
const PAGES: usize = 500;

/// How often a damaged block was ruined, erased and read.
#[derive(Debug, Default)]
struct Tally {
    ruined: usize,
    erased: usize,
    read: usize,
    /// Of the blocks read, those with exactly 2t + 1 - e flips reported.
    fewest: usize,
}

impl Tally {
    /// Turns over these exponents of a codeword, and holds what becomes of it to the law.
    fn add(&mut self, code: &Code, codeword: &[bool], exponents: &[usize]) {
        let (t, e) = (code.t, exponents.len());
        assert!(code.is_codeword(codeword) && t < e && e <= 2 * t);
        let mut word = codeword.to_vec();
        flip_exponents(&mut word, exponents);
        let count = match outcome(code, &word) {
            Outcome::Ruined => None,
            Outcome::Erased { zeros } => Some(ERASED + zeros),
            Outcome::Repaired { flips, .. } => Some(flips),
        };
        self.add_count(t, e, count);
    }

    /// Holds the count of a block, none where it is ruined, to the law.
    fn add_count(&mut self, t: usize, e: usize, count: Option<usize>) {
        match count {
            None => self.ruined += 1,
            Some(ERASED..) => self.erased += 1,
            Some(flips) => {
                assert!(
                    2 * t + 1 - e <= flips && flips <= t,
                    "t {t}, e {e}, flips {flips}"
                );
                self.read += 1;
                self.fewest += usize::from(flips == 2 * t + 1 - e);
            }
        }
    }

    /// Turns over these exponents of each sector of a page, and any bits of pads and tail, and holds the counts
    /// that looking leaves to the law.
    fn add_page(
        &mut self,
        written: &WrittenPage<Sectors>,
        exponents: &[Vec<usize>],
        random: &mut Random,
    ) {
        let layout = &written.layout;
        let mut page = written.page.clone();
        for (block, exponents) in exponents.iter().enumerate() {
            for &exponent in exponents {
                flip(&mut page, layout.code_place(block, exponent));
            }
        }
        damage_tail(&mut page, layout, random);
        let mut counts = vec![0; layout.blocks()];
        let looked = look(written.edition, &written.record, &page, &mut counts);
        let ruined = counts.iter().position(|&count| count == RUINED);
        assert_eq!(looked.err(), ruined.map(Refusal::uncorrectable));
        for (block, count) in counts.into_iter().enumerate() {
            let (t, e) = (layout.block(block).t(), exponents[block].len());
            assert!(t < e && e <= 2 * t);
            self.add_count(t, e, (count != RUINED).then_some(count as usize));
        }
    }

    fn sum(&self) -> usize {
        self.ruined + self.erased + self.read
    }

    fn print(&self, name: &str) {
        println!(
            "{name} | {} | {} | {} | {} |",
            self.sum(),
            self.ruined,
            self.erased,
            self.read
        );
    }
}

fn written(code: &Code, message: &[bool]) -> Vec<bool> {
    [message, &code.parity(message)[..]].concat()
}

fn past_level(t: usize, random: &mut Random) -> usize {
    random.within(t + 1, 2 * t)
}

/// Blocks with a message of so many bytes, each with e bits turned over at random.
fn random_damage(code: &Code, bytes: usize, random: &mut Random) -> Tally {
    let mut tally = Tally::default();
    for _ in 0..ROUNDS {
        let codeword = written(code, &random.bits(8 * bytes));
        let e = past_level(code.t, random);
        let exponents = random.distinct(e, codeword.len());
        tally.add(code, &codeword, &exponents);
    }
    tally.print(&format!(
        "| m = {}, t = {}, random flips",
        code.field.m, code.t
    ));
    assert_eq!(tally.sum(), ROUNDS);
    tally
}

#[test]
fn random_damage_of_levels_to_40() {
    let mut random = Random::new(14);
    for (t, bytes) in [(2, 512), (4, 512), (8, 128), (16, 32), (40, 16)] {
        for choice in FieldChoice::ALL {
            random_damage(bch(choice, t), bytes, &mut random);
        }
    }
}

/// Every level that edition 2 alone has.
#[test]
fn random_damage_of_levels_to_62() {
    let mut random = Random::new(17);
    for choice in FieldChoice::ALL {
        for t in (42..=HIGHEST_LEVEL).step_by(2) {
            random_damage(bch(choice, t), 8, &mut random);
        }
    }
}

/// The exponents in which two codewords at the least distance 2t + 1 differ, if a guess meets one.
fn least_distance(code: &Code, n: usize, random: &mut Random) -> Option<Vec<usize>> {
    let guess = random.distinct(code.t + 1, n);
    let mut word = vec![false; n];
    flip_exponents(&mut word, &guess);
    let rest = errors_of_word(code, &word)?;
    let exponents = [guess, rest].concat();
    (exponents.len() == 2 * code.t + 1).then_some(exponents)
}

/// Flips that lead from the written codeword towards one at the least distance: what is read then is
/// that other one, with exactly 2t + 1 - e flips. Long blocks have such neighbours often enough.
#[test]
fn damage_towards_another_codeword() {
    let mut random = Random::new(15);
    for t in [2, 4] {
        for choice in FieldChoice::ALL {
            let (code, mut tally) = (bch(choice, t), Tally::default());
            let n = code.field.order() - 7;
            let mut between = vec![];
            while between.len() < 4 {
                between.extend(least_distance(code, n, &mut random));
            }
            for round in 0..ROUNDS {
                let codeword = written(code, &random.bits(n - code.parity_length()));
                let mut exponents = between[round % between.len()].clone();
                random.shuffle(&mut exponents);
                exponents.truncate(past_level(t, &mut random));
                tally.add(code, &codeword, &exponents);
            }
            tally.print(&format!(
                "| m = {}, t = {t}, towards another codeword",
                code.field.m
            ));
            assert_eq!((tally.read, tally.fewest), (ROUNDS, ROUNDS));
        }
    }
}

/// Codewords of four zeros and else ones: where three or four of the zeros become ones, the block is
/// erased unless another codeword is near.
#[test]
fn damage_towards_ones() {
    let mut random = Random::new(16);
    for choice in FieldChoice::ALL {
        let block = Block {
            message_bits: 4096,
            choice,
            level_field: 1,
        };
        let mut tally = Tally::default();
        while tally.sum() < ROUNDS {
            let Some(mut zeros) = codeword_of_ones(block, &mut random) else {
                continue;
            };
            let mut codeword = vec![true; block.covered_bits()];
            flip_exponents(&mut codeword, &zeros);
            zeros.truncate(past_level(2, &mut random));
            tally.add(block.code(), &codeword, &zeros);
        }
        tally.print(&format!("| m = {}, t = 2, towards ones", choice.field().m));
        assert!(0 < tally.erased && tally.ruined == 0);
    }
}

/// Pages of four sectors, each with e bits turned over at random, at levels of both editions.
#[test]
fn random_damage_of_sectors() {
    let mut random = Random::new(18);
    for (t, size) in [(2, 512), (4, 256), (8, 64), (16, 32), (40, 16), (62, 8)] {
        for choice in FieldChoice::ALL {
            let sectors = Sectors {
                count: 4,
                size,
                ..one(size + 3, t as u16 / 2, choice as u16, 0)
            };
            let mut tally = Tally::default();
            for _ in 0..PAGES {
                let written = WrittenPage::of_sectors(sectors.fitted(5), &mut random);
                let exponents: Vec<Vec<usize>> = (0..4)
                    .map(|block| {
                        let n = written.layout.block(block).covered_bits();
                        let e = past_level(t, &mut random);
                        random.distinct(e, n)
                    })
                    .collect();
                tally.add_page(&written, &exponents, &mut random);
            }
            let m = choice.field().m;
            tally.print(&format!("| sectors, m = {m}, t = {t}, random flips"));
            assert_eq!(tally.sum(), 4 * PAGES);
        }
    }
}

/// The longest sectors with t = 2, and flips that lead towards another codeword.
#[test]
fn damage_of_sectors_towards_another_codeword() {
    let mut random = Random::new(19);
    for choice in FieldChoice::ALL {
        let sectors = one(longest(choice, 1), 1, choice as u16, 0).fitted(0);
        let mut tally = Tally::default();
        while tally.sum() < ROUNDS {
            let written = WrittenPage::of_sectors(sectors, &mut random);
            let sector = written.layout.block(0);
            let between = least_distance(sector.code(), sector.covered_bits(), &mut random);
            let Some(mut exponents) = between else {
                continue;
            };
            random.shuffle(&mut exponents);
            exponents.truncate(past_level(2, &mut random));
            tally.add_page(&written, &[exponents], &mut random);
        }
        let m = choice.field().m;
        tally.print(&format!(
            "| sectors, m = {m}, t = 2, towards another codeword"
        ));
        assert_eq!((tally.read, tally.fewest), (ROUNDS, ROUNDS));
    }
}

/// Sectors with four zeros, of which three or four become ones.
#[test]
fn damage_of_sectors_towards_ones() {
    let mut random = Random::new(20);
    for choice in FieldChoice::ALL {
        let sectors = one(512, 1, choice as u16, 0).fitted(1);
        let mut tally = Tally::default();
        while tally.sum() < ROUNDS {
            let mut written = WrittenPage::of_sectors(sectors, &mut random);
            let sector = written.layout.block(0);
            let Some(mut zeros) = codeword_of_ones(sector, &mut random) else {
                continue;
            };
            let mut codeword = vec![true; sector.covered_bits()];
            flip_exponents(&mut codeword, &zeros);
            written.data = bytes_of(&codeword[..sector.message_bits]);
            let reply = write(1, &sectors, &written.data, &mut written.page);
            assert_eq!(reply, Ok(()));
            zeros.truncate(past_level(2, &mut random));
            tally.add_page(&written, &[zeros], &mut random);
        }
        let m = choice.field().m;
        tally.print(&format!("| sectors, m = {m}, t = 2, towards ones"));
        assert!(0 < tally.erased && tally.ruined == 0);
    }
}
