//! Layout records, the lengths and places of blocks, and Bits in both directions (document 01; document 02,
//! E7 and E13).

use crate::code::{Code, bch};
use crate::edition::Edition;
use crate::field::FieldChoice;
use crate::reply::{Refusal, Reply, refuse_by};
use std::ops::Range;

/// The nine fields of the two layout words, as they are stored.
#[derive(Clone, Copy, Debug, PartialEq, Eq)]
pub struct LayoutWords {
    pub nblocks: u8,
    pub meta_size: u8,
    pub ecc0: u8,
    pub gf0: u8,
    pub data0_size: u16,
    pub page_size: u16,
    pub eccn: u8,
    pub gfn: u8,
    pub datan_size: u16,
}

impl LayoutWords {
    /// Takes the two words apart, most significant byte first.
    pub fn unpack(record: &[u8; 8]) -> LayoutWords {
        let half = |i: usize| u16::from_be_bytes([record[i], record[i + 1]]);
        LayoutWords {
            nblocks: record[0],
            meta_size: record[1],
            ecc0: (half(2) >> 11) as u8,
            gf0: (half(2) >> 10 & 1) as u8,
            data0_size: half(2) & 0x3FF,
            page_size: half(4),
            eccn: (half(6) >> 11) as u8,
            gfn: (half(6) >> 10 & 1) as u8,
            datan_size: half(6) & 0x3FF,
        }
    }

    pub fn pack(&self) -> [u8; 8] {
        let block =
            |ecc: u8, gf: u8, size: u16| (ecc as u32) << 11 | (gf as u32) << 10 | size as u32;
        let word0 = (self.nblocks as u32) << 24
            | (self.meta_size as u32) << 16
            | block(self.ecc0, self.gf0, self.data0_size);
        let word1 = (self.page_size as u32) << 16 | block(self.eccn, self.gfn, self.datan_size);
        ((word0 as u64) << 32 | word1 as u64).to_be_bytes()
    }
}

/// The third word of a record of twelve bytes: where the factory's bad-block mark stands, in bytes, and
/// eight bits that are to be zero.
#[derive(Clone, Copy, Debug, Default, PartialEq, Eq)]
pub struct MarkWord {
    pub offset: u16,
    pub length: u8,
    pub zero_bits: u8,
}

impl MarkWord {
    fn unpack([high, low, length, zero_bits]: [u8; 4]) -> MarkWord {
        MarkWord {
            offset: u16::from_be_bytes([high, low]),
            length,
            zero_bits,
        }
    }

    fn pack(&self) -> [u8; 4] {
        let word = (self.offset as u32) << 16 | (self.length as u32) << 8 | self.zero_bits as u32;
        word.to_be_bytes()
    }
}

/// A layout record: the two words in eight bytes, or three in twelve.
#[derive(Clone, Copy, Debug, PartialEq, Eq)]
pub struct LayoutRecord {
    pub words: LayoutWords,
    pub mark: Option<MarkWord>,
}

impl LayoutRecord {
    /// Takes a record apart; none of another length.
    pub fn unpack(record: &[u8]) -> Option<LayoutRecord> {
        let (words, third) = record.split_first_chunk()?;
        let mark = match third {
            [] => None,
            third => Some(MarkWord::unpack(third.try_into().ok()?)),
        };
        let words = LayoutWords::unpack(words);
        Some(LayoutRecord { words, mark })
    }

    pub fn pack(&self) -> Vec<u8> {
        let mut record = self.words.pack().to_vec();
        record.extend(self.mark.iter().flat_map(MarkWord::pack));
        record
    }
}

impl From<LayoutWords> for LayoutRecord {
    fn from(words: LayoutWords) -> LayoutRecord {
        LayoutRecord { words, mark: None }
    }
}

/// One kind of block: its message's length in bits and the two fields that choose its code.
#[derive(Clone, Copy, Debug)]
pub struct Block {
    pub message_bits: usize,
    pub choice: FieldChoice,
    pub level_field: u16,
}

impl Block {
    pub fn new(message_bytes: usize, choice: FieldChoice, level_field: u16) -> Block {
        Block {
            message_bits: 8 * message_bytes,
            choice,
            level_field,
        }
    }

    pub fn t(&self) -> usize {
        2 * self.level_field as usize
    }

    pub fn code(&self) -> &'static Code<'static> {
        bch(self.choice, self.t())
    }

    /// The shortened length n: the covered bits, message and parity.
    pub fn covered_bits(&self) -> usize {
        self.message_bits + self.choice.field().m * self.t()
    }

    /// The rules about one block in an edition, each with whether it is broken.
    fn rules(&self, edition: Edition, part: Part) -> [(bool, Reason); 3] {
        let (level, highest) = (
            self.level_field as usize,
            edition.highest_level_field() as usize,
        );
        let (n, longest) = (self.covered_bits(), self.choice.field().order());
        let message = self.message_bits;
        let level_too_high = Reason::new(Reply::LevelTooHigh, part, level, highest);
        let empty_message = Reason::new(Reply::EmptyMessage, part, message, 1);
        let too_long = Reason::new(Reply::BlockTooLong, part, n, longest);
        [
            (level > highest, level_too_high),
            (message < 1, empty_message),
            (self.t() > 0 && n > longest, too_long),
        ]
    }
}

/// A block of a page, and the stream position at which it starts.
#[derive(Clone, Copy, Debug)]
pub struct PlacedBlock {
    pub start: usize,
    pub block: Block,
}

impl PlacedBlock {
    /// The stream positions of the covered bits.
    fn covered(&self) -> Range<usize> {
        self.start..self.start + self.block.covered_bits()
    }
}

/// What a page holds: its blocks in order and where each starts, after how many bits they end, and how long the
/// metadata and the page are. Bits of the stream that no block covers are the tail. Where there is no mark it has
/// offset 0 and length 0.
#[derive(Clone, Debug)]
pub struct Layout {
    placed: Vec<PlacedBlock>,
    used_bits: usize,
    pub metadata_length: usize,
    pub page_length: usize,
    pub mark: MarkWord,
}

impl From<LayoutRecord> for Layout {
    /// The later blocks' fields are not examined where NBLOCKS is 0.
    fn from(LayoutRecord { words, mark }: LayoutRecord) -> Layout {
        let block = |bytes: usize, gf: u8, ecc: u8| {
            Block::new(bytes, FieldChoice::ALL[gf as usize], ecc as u16)
        };
        let metadata_length = words.meta_size as usize;
        let message0 = metadata_length + 4 * words.data0_size as usize;
        let block0 = block(message0, words.gf0, words.ecc0);
        let later = block(4 * words.datan_size as usize, words.gfn, words.eccn);
        let mut blocks = vec![block0];
        blocks.resize(1 + words.nblocks as usize, later);
        Layout {
            metadata_length,
            mark: mark.unwrap_or_default(),
            ..Layout::new(blocks, Block::covered_bits, words.page_size)
        }
    }
}

impl From<LayoutWords> for Layout {
    fn from(words: LayoutWords) -> Layout {
        LayoutRecord::from(words).into()
    }
}

impl Layout {
    /// Blocks that follow each other, each in as many bits as `room` says, without metadata and mark.
    pub fn new(blocks: Vec<Block>, room: impl Fn(&Block) -> usize, page_size: u16) -> Layout {
        let mut used_bits = 0;
        let mut placed = Vec::new();
        for block in blocks {
            let start = used_bits;
            placed.push(PlacedBlock { start, block });
            used_bits += room(&block);
        }
        Layout {
            placed,
            used_bits,
            metadata_length: 0,
            page_length: page_size as usize,
            mark: MarkWord::default(),
        }
    }

    /// The number of blocks, block 0 included.
    pub fn blocks(&self) -> usize {
        self.placed.len()
    }

    /// The block of a number below the number of blocks.
    pub fn block(&self, number: usize) -> Block {
        self.placed[number].block
    }

    /// The blocks after block 0 are alike under layout words; none where NBLOCKS is 0.
    pub fn later(&self) -> Option<Block> {
        self.placed.get(1).map(|later| later.block)
    }

    /// The stream position at which a block starts; for the number of blocks, where the last one's room ends.
    pub fn start(&self, number: usize) -> usize {
        let placed = self.placed.get(number);
        placed.map_or(self.used_bits, |placed| placed.start)
    }

    /// The bits that the blocks need.
    pub fn used_bits(&self) -> usize {
        self.used_bits
    }

    pub fn data_length(&self) -> usize {
        let message_bits = self.placed.iter().map(|placed| placed.block.message_bits);
        message_bits.sum::<usize>() / 8 - self.metadata_length
    }

    /// The page positions of the mark's bits.
    pub fn mark_places(&self) -> Range<usize> {
        let first = 8 * self.mark.offset as usize;
        first..first + 8 * self.mark.length as usize
    }

    /// The page positions of the bit stream in order: the page without the mark's bytes. It is asked for only
    /// where the mark lies in the page.
    pub fn stream(&self) -> impl Iterator<Item = usize> + use<> {
        let mark = self.mark_places();
        (0..mark.start).chain(mark.end..8 * self.page_length)
    }

    /// How many bits the stream has; none where the mark is longer than the page.
    pub fn stream_bits(&self) -> usize {
        8 * self.page_length.saturating_sub(self.mark.length as usize)
    }

    /// The page positions of a block's covered bits, the highest exponent first.
    pub fn block_places(&self, number: usize) -> Vec<usize> {
        let covered = self.placed[number].covered();
        let from_start = self.stream().skip(covered.start);
        from_start.take(covered.len()).collect()
    }

    /// The page position of a block's coefficient of x^exponent.
    pub fn code_place(&self, number: usize, exponent: usize) -> usize {
        let position = self.placed[number].covered().end - 1 - exponent;
        self.stream().nth(position).unwrap()
    }

    /// The block that covers a stream position, and the exponent; none for the tail.
    fn covering(&self, position: usize) -> Option<(usize, usize)> {
        let covers = |placed: &PlacedBlock| placed.covered().contains(&position);
        let block = self.placed.iter().position(covers)?;
        Some((block, self.placed[block].covered().end - 1 - position))
    }

    /// The page positions that no block covers, the mark left out.
    pub fn tail_places(&self) -> impl Iterator<Item = usize> {
        let numbered = self.stream().enumerate();
        let tail = numbered.filter(|(position, _)| self.covering(*position).is_none());
        tail.map(|(_, place)| place)
    }

    /// The rules about the mark, each with whether it is broken.
    fn mark_rules(&self) -> [(bool, Reason); 2] {
        let sum = self.mark.offset as usize + self.mark.length as usize;
        let zero_bits = self.mark.zero_bits as usize;
        let outside = |found, limit| Reason::new(Reply::MarkOutside, Part::Page, found, limit);
        [
            (sum > self.page_length, outside(sum, self.page_length)),
            (zero_bits != 0, outside(zero_bits, 0)),
        ]
    }

    /// The rule that refuses the layout in an edition, if one does: the reply that is looked at first, and
    /// block 0 first.
    pub fn reason(&self, edition: Edition) -> Option<Reason> {
        let mut rules = Vec::new();
        for (number, placed) in self.placed.iter().enumerate() {
            let part = match number {
                0 => Part::Block0,
                _ => Part::LaterBlock,
            };
            rules.extend(placed.block.rules(edition, part));
        }
        rules.extend(self.mark_rules());
        let (needed, allowed) = (self.used_bits(), self.stream_bits());
        let too_small = Reason::new(Reply::PageTooSmall, Part::Page, needed, allowed);
        rules.push((needed > allowed, too_small));
        rules
            .into_iter()
            .filter_map(|(broken, reason)| broken.then_some(reason))
            .min_by_key(|reason| reason.reply.precedence())
    }

    /// The layout, if an edition accepts it.
    pub fn accepted(self, edition: Edition) -> Result<Layout, Refusal> {
        match self.reason(edition) {
            Some(reason) => Err(reason.reply.into()),
            None => Ok(self),
        }
    }

    /// Where does a page bit belong, under an accepted layout?
    pub fn locate_bit(&self, position: u64) -> Result<BitPlace, Refusal> {
        refuse_by(&[(Reply::OutOfRange, position >= 8 * self.page_length as u64)])?;
        let position = position as usize;
        let mark = self.mark_places();
        if mark.contains(&position) {
            return Ok(BitPlace::Mark);
        }
        let in_stream = position - mark.filter(|&marked| marked < position).count();
        Ok(match self.covering(in_stream) {
            None => BitPlace::Tail,
            Some((block, exponent)) => BitPlace::Covered { block, exponent },
        })
    }

    /// Where does a code bit lie, under an accepted layout?
    pub fn bit_position(&self, block: u64, exponent: u64) -> Result<usize, Refusal> {
        refuse_by(&[(Reply::OutOfRange, block >= self.blocks() as u64)])?;
        let block = block as usize;
        let n = self.block(block).covered_bits();
        refuse_by(&[(Reply::OutOfRange, exponent >= n as u64)])?;
        Ok(self.code_place(block, exponent as usize))
    }
}

/// What a rule about a layout speaks of.
#[derive(Clone, Copy, Debug, PartialEq, Eq)]
pub enum Part {
    Block0 = 0,
    LaterBlock = 1,
    Page = 2,
}

/// Why a layout is refused: the rule, what it speaks of and the two numbers compared.
#[derive(Clone, Copy, Debug, PartialEq, Eq)]
pub struct Reason {
    pub reply: Reply,
    pub part: Part,
    pub found: usize,
    pub limit: usize,
}

impl Reason {
    fn new(reply: Reply, part: Part, found: usize, limit: usize) -> Reason {
        Reason {
            reply,
            part,
            found,
            limit,
        }
    }
}

/// Is this layout acceptable? The record is the two layout words, and the mark's where there is a third, most
/// significant byte first. The edition is looked at before the record's length.
pub fn check_layout(edition: u64, record: &[u8]) -> Result<Layout, Refusal> {
    let edition = Edition::from_number(edition).ok_or(Reply::OutOfRange)?;
    let record = LayoutRecord::unpack(record).ok_or(Reply::BufferLength)?;
    Layout::from(record).accepted(edition)
}

/// What a page bit is: a block's coefficient of x^exponent, or of the tail, or of the mark.
#[derive(Clone, Copy, Debug, PartialEq, Eq)]
pub enum BitPlace {
    Covered { block: usize, exponent: usize },
    Tail,
    Mark,
}

/// Where does a page bit belong?
pub fn locate_bit(edition: u64, record: &[u8], position: u64) -> Result<BitPlace, Refusal> {
    check_layout(edition, record)?.locate_bit(position)
}

/// Where does a code bit lie?
pub fn bit_position(
    edition: u64,
    record: &[u8],
    block: u64,
    exponent: u64,
) -> Result<usize, Refusal> {
    check_layout(edition, record)?.bit_position(block, exponent)
}
