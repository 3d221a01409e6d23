//! Samples of calls about pages.

use crate::bits::{bit, flip, put};
use crate::call::Call;
use crate::layout::{Layout, LayoutRecord, LayoutWords, check_layout};
use crate::page::write_page;
use crate::random::Random;
use crate::samples::layouts::{NO_EDITIONS, accepting_edition};
use crate::samples::marks::outside;

/// What each byte of a lent output holds before a sampled call.
pub const BEFORE: u8 = 0xA5;

/// An edition and a layout that it accepts, a payload and the page written for it. The layout is handed in as
/// `record`: the bytes of layout words, or the numbers of sectors.
pub struct WrittenPage<Record = Vec<u8>> {
    pub edition: u64,
    pub record: Record,
    pub layout: Layout,
    pub metadata: Vec<u8>,
    pub data: Vec<u8>,
    pub page: Vec<u8>,
}

impl WrittenPage {
    /// The page of a random payload under a layout that edition 2 accepts, in either edition that does.
    pub fn new(record: impl Into<LayoutRecord>, random: &mut Random) -> WrittenPage {
        let record = record.into().pack();
        let layout = check_layout(2, &record).unwrap();
        let edition = accepting_edition(&layout, random);
        let metadata = random.bytes(layout.metadata_length);
        let data = random.bytes(layout.data_length());
        let mut page = vec![BEFORE; layout.page_length];
        write_page(edition, &record, &metadata, &data, &mut page).unwrap();
        WrittenPage {
            edition,
            record,
            layout,
            metadata,
            data,
            page,
        }
    }

    pub fn write(&self) -> Call {
        Call::WritePage {
            edition: self.edition,
            record: self.record.clone(),
            metadata: self.metadata.clone(),
            data: self.data.clone(),
            page: vec![BEFORE; self.page.len()],
        }
    }

    pub fn look(&self, page: Vec<u8>) -> Call {
        Call::LookPage {
            edition: self.edition,
            record: self.record.clone(),
            page,
            counts: vec![BEFORE; self.layout.blocks()],
        }
    }

    pub fn take(&self, page: Vec<u8>) -> Call {
        Call::TakePage {
            edition: self.edition,
            record: self.record.clone(),
            page,
            metadata: vec![BEFORE; self.metadata.len()],
            data: vec![BEFORE; self.data.len()],
        }
    }

    /// Reading a page: looking, then taking the same page.
    pub fn read(&self, page: Vec<u8>) -> [Call; 2] {
        [self.look(page.clone()), self.take(page)]
    }

    pub fn judge(&self, page: Vec<u8>, block: usize) -> Call {
        Call::JudgeBlock {
            edition: self.edition,
            record: self.record.clone(),
            page,
            block: block as u64,
        }
    }

    /// Explaining a block, with t places in the list or some more.
    pub fn explain(&self, page: Vec<u8>, block: usize, more: usize) -> Call {
        Call::ExplainBlock {
            edition: self.edition,
            record: self.record.clone(),
            page,
            block: block as u64,
            list: vec![0; self.layout.block(block).t() + more],
        }
    }

    pub fn claim(&self, page: Vec<u8>, block: usize, claims: Vec<u16>) -> Call {
        Call::CheckClaim {
            edition: self.edition,
            record: self.record.clone(),
            page,
            block: block as u64,
            claims,
        }
    }

    /// Every call about this page: written, read clean, damaged within t and past it, read from
    /// random bytes, partly erased and with some blocks ruined; blocks judged; claims right and wrong.
    pub fn calls(&self, random: &mut Random) -> Vec<Call> {
        let mut calls = vec![self.write()];
        calls.extend(self.read(self.page.clone()));
        calls.extend(self.read(self.damaged(random)));
        let random_page = random.bytes(self.page.len());
        calls.push(self.judge(random_page.clone(), random.below(self.layout.blocks())));
        calls.extend(self.read(random_page));
        for _ in 0..2 {
            let (page, block) = self.overdamaged(random);
            calls.push(self.judge(page.clone(), block));
            calls.extend(self.read(page));
        }
        calls.extend(self.claims(random));
        calls.extend(self.erased_calls(random));
        calls.extend(self.read(self.ruined(random)));
        calls
    }

    /// Explaining blocks of this page: as written, damaged within t and past it, erased, and of random bytes.
    pub fn explanations(&self, random: &mut Random) -> Vec<Call> {
        let any = random.below(self.layout.blocks());
        let mut asked = vec![
            (self.page.clone(), any),
            (random.bytes(self.page.len()), any),
        ];
        let damaged = self.damaged(random);
        for _ in 0..2 {
            asked.push((damaged.clone(), random.below(self.layout.blocks())));
            asked.push(self.overdamaged(random));
            asked.push(self.erased(random));
        }
        let asked = asked.into_iter();
        asked
            .map(|(page, block)| self.explain(page, block, random.pick(&[0, 0, 1, 9])))
            .collect()
    }

    fn claims(&self, random: &mut Random) -> Vec<Call> {
        let (page, block, claims) = self.claimed(random);
        let claims = claims.into_iter();
        claims
            .map(|claim| self.claim(page.clone(), block, claim))
            .collect()
    }
}

impl<Record> WrittenPage<Record> {
    /// The page with at most t flips in each block, often just t, and with any tail and mark.
    pub fn damaged(&self, random: &mut Random) -> Vec<u8> {
        let mut page = self.page.clone();
        for block in 0..self.layout.blocks() {
            let t = self.layout.block(block).t();
            let any = random.below(t + 1);
            let count = random.pick(&[0, t.min(1), t, any]);
            damage(&mut page, &self.layout, block, count, random);
        }
        damage_tail(&mut page, &self.layout, random);
        page
    }

    /// The page with one block damaged by t + 1, 2t or about as many flips, and that block.
    pub fn overdamaged(&self, random: &mut Random) -> (Vec<u8>, usize) {
        let mut page = self.damaged(random);
        let block = random.below(self.layout.blocks());
        let shape = self.layout.block(block);
        let (n, t) = (shape.covered_bits(), shape.t());
        self.restore(&mut page, block);
        let any = random.within(t, 2 * t + 2);
        let count = random.pick(&[t + 1, 2 * t, 2 * t + 1, any]);
        damage(&mut page, &self.layout, block, count.min(n), random);
        (page, block)
    }

    /// A damaged page, one of its blocks, and claims about that: the true one in any order, and some spoilt ones.
    pub fn claimed(&self, random: &mut Random) -> (Vec<u8>, usize, Vec<Vec<u16>>) {
        let mut page = self.damaged(random);
        let block = random.below(self.layout.blocks());
        let shape = self.layout.block(block);
        let n = shape.covered_bits();
        self.restore(&mut page, block);
        let any = random.below(shape.t() + 1);
        let count = random.pick(&[0, shape.t(), shape.t() + 1, any]).min(n);
        let errors = damage(&mut page, &self.layout, block, count, random);
        let mut truth: Vec<u16> = errors.iter().map(|&exponent| exponent as u16).collect();
        random.shuffle(&mut truth);
        let mut claims = vec![truth.clone(), vec![]];
        for _ in 0..2 {
            let mut claim = truth.clone();
            match random.below(6) {
                0 => claim.push(n as u16),
                1 => claim.push(random.pick(&[0xFFFF, n as u16 + 1])),
                2 => claim.push(random.below(n) as u16),
                3 => drop(claim.pop()),
                4 if !claim.is_empty() => claim.push(random.pick(&truth)),
                _ => {
                    claim = random
                        .distinct(count, n)
                        .iter()
                        .map(|&e| e as u16)
                        .collect()
                }
            }
            random.shuffle(&mut claim);
            claims.push(claim);
        }
        (page, block, claims)
    }

    /// Puts a block back as it was written.
    fn restore(&self, page: &mut [u8], block: usize) {
        for position in self.layout.block_places(block) {
            put(page, position, bit(&self.page, position));
        }
    }
}

/// Turns over so many different covered bits of a block and returns their exponents, ascending.
pub fn damage(
    page: &mut [u8],
    layout: &Layout,
    block: usize,
    count: usize,
    random: &mut Random,
) -> Vec<usize> {
    let mut exponents = random.distinct(count, layout.block(block).covered_bits());
    exponents.sort();
    for exponent in &exponents {
        flip(page, layout.code_place(block, *exponent));
    }
    exponents
}

/// Turns over bits of the tail and of the mark at random.
pub fn damage_tail(page: &mut [u8], layout: &Layout, random: &mut Random) {
    for position in layout.tail_places().chain(layout.mark_places()) {
        if random.chance(2) {
            flip(page, position);
        }
    }
}

/// Spoils one argument of a call about a page: a buffer's length, the edition, the record or the block.
pub fn spoil(call: &mut Call, random: &mut Random) {
    match call {
        Call::WritePage {
            edition,
            record,
            metadata,
            data,
            page,
        }
        | Call::TakePage {
            edition,
            record,
            page,
            metadata,
            data,
        } => match random.below(5) {
            0 => spoil_record(record, random),
            1 => spoil_length(page, random),
            2 => spoil_length(metadata, random),
            3 => spoil_length(data, random),
            _ => spoil_edition(edition, random),
        },
        Call::LookPage {
            edition,
            record,
            page,
            counts,
        } => match random.below(5) {
            0 => spoil_record(record, random),
            1 => spoil_length(page, random),
            2 => spoil_edition(edition, random),
            _ => spoil_length(counts, random),
        },
        Call::JudgeBlock {
            edition,
            record,
            page,
            block,
        }
        | Call::CheckClaim {
            edition,
            record,
            page,
            block,
            ..
        } => match random.below(5) {
            0 => spoil_record(record, random),
            1 => spoil_length(page, random),
            2 => spoil_edition(edition, random),
            _ => spoil_block(block, record, random),
        },
        Call::ExplainBlock {
            edition,
            record,
            page,
            block,
            list,
        } => match random.below(6) {
            0 => spoil_record(record, random),
            1 => spoil_length(page, random),
            2 => spoil_edition(edition, random),
            3 => drop(list.pop()),
            4 => list.truncate(random.below(list.len() + 1)),
            _ => spoil_block(block, record, random),
        },
        _ => (),
    }
}

/// A number that is no edition, the other edition, or one that would be an edition if it were cut.
pub(super) fn spoil_edition(edition: &mut u64, random: &mut Random) {
    let none = random.pick(&NO_EDITIONS);
    *edition = random.pick(&[none, none, *edition ^ 3, *edition | 1 << 32]);
}

pub(super) fn spoil_length(buffer: &mut Vec<u8>, random: &mut Random) {
    match random.below(4) {
        0 => buffer.push(BEFORE),
        1 => buffer.clear(),
        2 => buffer.extend([BEFORE; 3]),
        _ => drop(buffer.pop()),
    }
}

/// Another length, or another field: mostly one that gives reply 1, 2, 3, 4 or 11.
fn spoil_record(record: &mut Vec<u8>, random: &mut Random) {
    let Some(LayoutRecord { words, mark }) = LayoutRecord::unpack(record) else {
        return;
    };
    let spoilt = match random.below(12) {
        0 => return record.truncate(random.below(8)),
        1 => return record.resize(random.within(9, 11), 0),
        2 | 3 => LayoutRecord {
            words,
            mark: Some(outside(words.page_size, random)),
        },
        field => LayoutRecord {
            words: spoilt_words(words, field, random),
            mark,
        },
    };
    *record = spoilt.pack();
}

/// Layout words with another field.
fn spoilt_words(words: LayoutWords, field: usize, random: &mut Random) -> LayoutWords {
    match field {
        4 => LayoutWords {
            ecc0: 0x15,
            ..words
        },
        5 => LayoutWords {
            eccn: 0x1F,
            ..words
        },
        6 => LayoutWords {
            meta_size: 0,
            data0_size: 0,
            ..words
        },
        7 => LayoutWords {
            datan_size: 0,
            ..words
        },
        8 => LayoutWords {
            ecc0: 0x14,
            data0_size: 1023,
            ..words
        },
        9 => LayoutWords {
            eccn: 1,
            datan_size: 1023,
            ..words
        },
        _ => LayoutWords {
            page_size: words.page_size.saturating_sub(random.within(1, 12) as u16),
            ..words
        },
    }
}

fn spoil_block(block: &mut u64, record: &[u8], random: &mut Random) {
    let last = record.first().map_or(0, |&nblocks| nblocks as u64);
    *block = random.pick(&[
        last + 1,
        256,
        1 << 16,
        1 << 32,
        block.wrapping_add(1 << 32),
        u64::MAX,
    ]);
}
