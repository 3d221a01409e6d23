//! Samples of calls about pages of sectors (document 02, E12).

use crate::random::Random;
use crate::samples::layouts::{HUGE, accepting_edition, code_bits, positions};
use crate::samples::pages::{BEFORE, WrittenPage, spoil_edition, spoil_length};
use crate::sectors::{Sectors, check, write};

/// What is asked of a page of sectors, with what is lent and handed in beside the layout.
#[derive(Clone, Debug)]
pub enum Asked {
    Check,
    Bit {
        position: u64,
    },
    Position {
        block: u64,
        exponent: u64,
    },
    Write {
        data: Vec<u8>,
        page: Vec<u8>,
    },
    Look {
        page: Vec<u8>,
        counts: Vec<u8>,
    },
    Take {
        page: Vec<u8>,
        data: Vec<u8>,
    },
    Judge {
        page: Vec<u8>,
        block: u64,
    },
    Claim {
        page: Vec<u8>,
        block: u64,
        claims: Vec<u16>,
    },
}

/// A call about a page of sectors.
#[derive(Clone, Debug)]
pub struct SectorCall {
    pub edition: u64,
    pub sectors: Sectors,
    pub asked: Asked,
}

impl WrittenPage<Sectors> {
    /// The page of random data under sectors that edition 2 accepts, in either edition that does.
    pub fn of_sectors(sectors: Sectors, random: &mut Random) -> WrittenPage<Sectors> {
        let layout = check(2, &sectors).unwrap();
        let edition = accepting_edition(&layout, random);
        let data = random.bytes(layout.data_length());
        let mut page = vec![BEFORE; layout.page_length];
        write(edition, &sectors, &data, &mut page).unwrap();
        WrittenPage {
            edition,
            record: sectors,
            layout,
            metadata: vec![],
            data,
            page,
        }
    }

    pub fn ask(&self, asked: Asked) -> SectorCall {
        SectorCall {
            edition: self.edition,
            sectors: self.record,
            asked,
        }
    }

    pub fn asked_write(&self) -> SectorCall {
        self.ask(Asked::Write {
            data: self.data.clone(),
            page: vec![BEFORE; self.page.len()],
        })
    }

    pub fn asked_look(&self, page: &[u8]) -> SectorCall {
        self.ask(Asked::Look {
            page: page.to_vec(),
            counts: vec![BEFORE; self.layout.blocks()],
        })
    }

    pub fn asked_take(&self, page: &[u8]) -> SectorCall {
        self.ask(Asked::Take {
            page: page.to_vec(),
            data: vec![BEFORE; self.data.len()],
        })
    }

    pub fn asked_judge(&self, page: &[u8], block: usize) -> SectorCall {
        self.ask(Asked::Judge {
            page: page.to_vec(),
            block: block as u64,
        })
    }

    pub fn asked_claim(&self, page: &[u8], block: usize, claims: Vec<u16>) -> SectorCall {
        self.ask(Asked::Claim {
            page: page.to_vec(),
            block: block as u64,
            claims,
        })
    }

    /// Every call about this page: written; looked at and taken clean, damaged within t and past it, partly erased,
    /// with some sectors ruined, and of random bytes; sectors judged; claims right and wrong.
    pub fn sector_calls(&self, random: &mut Random) -> Vec<SectorCall> {
        let mut calls = vec![self.asked_write()];
        let (past, past_block) = self.overdamaged(random);
        let (worn, worn_block, claims) = self.claimed(random);
        let (erased, erased_block, erased_claim) = self.erased_claim(random);
        let any = random.bytes(self.page.len());
        let any_block = random.below(self.layout.blocks());
        for (page, block) in [
            (&past, past_block),
            (&worn, worn_block),
            (&erased, erased_block),
            (&any, any_block),
        ] {
            calls.push(self.asked_judge(page, block));
        }
        for page in [
            self.page.clone(),
            past,
            worn.clone(),
            erased.clone(),
            self.ruined(random),
        ] {
            calls.extend([self.asked_look(&page), self.asked_take(&page)]);
        }
        for claim in claims {
            calls.push(self.asked_claim(&worn, worn_block, claim));
        }
        calls.push(self.asked_claim(&erased, erased_block, erased_claim));
        calls
    }

    /// Bits at the edges of sectors, pads, tail and page, and code bits at the edges of sectors.
    pub fn bit_calls(&self, random: &mut Random) -> Vec<SectorCall> {
        let layout = &self.layout;
        let mut asked = positions(layout, random);
        for block in [0, random.below(layout.blocks()), layout.blocks() - 1] {
            let end = (layout.start(block) + layout.block(block).covered_bits()) as u64;
            let next_byte = end.next_multiple_of(8);
            asked.extend([end - 1, end, next_byte, layout.start(block + 1) as u64 - 1]);
        }
        let bits = asked.into_iter().map(|position| Asked::Bit { position });
        let code_bits = code_bits(layout, random).into_iter();
        let code_bits = code_bits.map(|(block, exponent)| Asked::Position { block, exponent });
        bits.chain(code_bits).map(|asked| self.ask(asked)).collect()
    }
}

/// Spoils one argument of a call: a buffer's length, the edition, a number of the layout or the block.
pub fn spoil(call: &mut SectorCall, random: &mut Random) {
    match random.below(5) {
        0 => return spoil_edition(&mut call.edition, random),
        1 => return spoil_numbers(&mut call.sectors, random),
        _ => (),
    }
    match &mut call.asked {
        Asked::Write { data: other, page }
        | Asked::Look {
            page,
            counts: other,
        }
        | Asked::Take { page, data: other } => {
            let buffer = if random.chance(2) { page } else { other };
            spoil_length(buffer, random);
        }
        Asked::Judge { page, block } | Asked::Claim { page, block, .. } => match random.below(3) {
            0 => spoil_length(page, random),
            _ => {
                let count = call.sectors.count as u64;
                *block = random.pick(&[count, 16, 1 << 16, block.wrapping_add(1 << 32), HUGE[3]]);
            }
        },
        _ => (),
    }
}

/// Another number, mostly one that gives reply 1, 2, 3, 4 or 7.
fn spoil_numbers(sectors: &mut Sectors, random: &mut Random) {
    match random.below(7) {
        0 => sectors.count = random.pick(&[0, 17, 0xFFFF]),
        1 => sectors.size = random.pick(&[0, 3000]),
        2 => sectors.last_size = random.pick(&[0, 3000]),
        3 => sectors.level_field = random.pick(&[0x15, 0x20, 0xFFFF]),
        4 => sectors.field_choice = random.pick(&[2, 0xFFFF]),
        _ => sectors.page_size = sectors.page_size.saturating_sub(random.within(1, 8) as u16),
    }
}
