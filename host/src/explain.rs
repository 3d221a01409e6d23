//! Why a layout is refused, what became of a block, and what a page bit is (document 02, E2).

use crate::edition::Edition;
use crate::layout::{Layout, LayoutRecord, Part};
use crate::outcome::{Outcome, outcome};
use crate::page::block_word;
use crate::reply::Reply;

/// What a refusal is about, with its number in an answer word.
#[derive(Clone, Copy, Debug, PartialEq, Eq)]
pub enum About {
    Edition = 1,
    Record = 2,
    Block0 = 3,
    LaterBlock = 4,
    Page = 5,
    LentPage = 6,
    LentList = 7,
    BlockNumber = 8,
    Position = 9,
}

impl From<Part> for About {
    fn from(part: Part) -> About {
        match part {
            Part::Block0 => About::Block0,
            Part::LaterBlock => About::LaterBlock,
            Part::Page => About::Page,
        }
    }
}

/// A refusal with the two numbers compared.
#[derive(Clone, Copy, Debug, PartialEq, Eq)]
pub struct Why {
    pub reply: Reply,
    pub about: About,
    pub found: u64,
    pub limit: u64,
}

impl Why {
    fn new(reply: Reply, about: About, found: u64, limit: u64) -> Why {
        Why {
            reply,
            about,
            found,
            limit,
        }
    }
}

/// Is this layout accepted, and if not, why? Of a record the length is compared with eight bytes.
pub fn explain_layout(edition: u64, record: &[u8]) -> Result<Layout, Why> {
    let another = Why::new(Reply::OutOfRange, About::Edition, edition, 2);
    let length = Why::new(Reply::BufferLength, About::Record, record.len() as u64, 8);
    let edition = Edition::from_number(edition).ok_or(another)?;
    let layout = Layout::from(LayoutRecord::unpack(record).ok_or(length)?);
    match layout.reason(edition) {
        None => Ok(layout),
        Some(reason) => Err(Why::new(
            reason.reply,
            reason.part.into(),
            reason.found as u64,
            reason.limit as u64,
        )),
    }
}

/// What became of a block whose level is t.
#[derive(Clone, Copy, Debug, PartialEq, Eq)]
pub enum Explained {
    Flips { count: usize, t: usize },
    Erased { zeros: usize, t: usize },
    Ruined { block: usize, t: usize },
}

/// What became of a block, and why the call is refused. The page positions in which block and codeword differ
/// are put into the first places of the list, which has at least t, the highest exponent's first; the other
/// places keep what they held.
pub fn explain_block(
    edition: u64,
    record: &[u8],
    page: &[u8],
    block: u64,
    list: &mut [u32],
) -> Result<Explained, Why> {
    let layout = explain_layout(edition, record)?;
    let (lent, wanted) = (page.len() as u64, layout.page_length as u64);
    if lent != wanted {
        return Err(Why::new(Reply::PageLength, About::LentPage, lent, wanted));
    }
    let blocks = layout.blocks() as u64;
    if block >= blocks {
        return Err(Why::new(
            Reply::OutOfRange,
            About::BlockNumber,
            block,
            blocks,
        ));
    }
    let number = block as usize;
    let t = layout.block(number).t();
    if list.len() < t {
        let (lent, wanted) = (list.len() as u64, t as u64);
        return Err(Why::new(Reply::BufferLength, About::LentList, lent, wanted));
    }
    let word = block_word(&layout, page, number);
    Ok(match outcome(layout.block(number).code(), &word) {
        Outcome::Erased { zeros } => Explained::Erased { zeros, t },
        Outcome::Ruined => Explained::Ruined { block: number, t },
        Outcome::Repaired { codeword, .. } => {
            let pairs = word.iter().zip(&codeword);
            let places = layout.block_places(number).into_iter().zip(pairs);
            let flips: Vec<usize> = places
                .filter(|(_, (read, right))| read != right)
                .map(|(position, _)| position)
                .collect();
            for (place, &position) in list.iter_mut().zip(&flips) {
                *place = position as u32;
            }
            let count = flips.len();
            Explained::Flips { count, t }
        }
    })
}

/// The part of a page that a bit belongs to, with the byte of metadata or data.
#[derive(Clone, Copy, Debug, PartialEq, Eq)]
pub enum BitPart {
    Metadata { block: usize, byte: usize },
    Data { block: usize, byte: usize },
    Parity { block: usize },
    Tail,
    Mark,
}

/// The parts of all bits of a page in order, built up as a page is written.
pub fn page_parts(layout: &Layout) -> Vec<BitPart> {
    let mut payload = Vec::new();
    payload.extend((0..layout.metadata_length).map(|byte| (true, byte)));
    payload.extend((0..layout.data_length()).map(|byte| (false, byte)));
    let mut bits = payload.into_iter().flat_map(|byte| [byte; 8]);
    let mut stream = Vec::new();
    for block in 0..layout.blocks() {
        let shape = layout.block(block);
        for (in_metadata, byte) in bits.by_ref().take(shape.message_bits) {
            stream.push(match in_metadata {
                true => BitPart::Metadata { block, byte },
                false => BitPart::Data { block, byte },
            });
        }
        let parity_bits = shape.covered_bits() - shape.message_bits;
        stream.extend(std::iter::repeat_n(BitPart::Parity { block }, parity_bits));
    }
    stream.resize(layout.stream_bits(), BitPart::Tail);
    let mut parts = vec![BitPart::Mark; 8 * layout.page_length];
    for (position, part) in layout.stream().zip(stream) {
        parts[position] = part;
    }
    parts
}

/// The part of a bit of the stream, counted through the blocks up to it.
fn stream_part(layout: &Layout, mut at: usize) -> BitPart {
    let mut payload_bits = 0;
    for block in 0..layout.blocks() {
        let shape = layout.block(block);
        if at < shape.message_bits {
            let byte = (payload_bits + at) / 8;
            return match byte.checked_sub(layout.metadata_length) {
                None => BitPart::Metadata { block, byte },
                Some(byte) => BitPart::Data { block, byte },
            };
        }
        if at < shape.covered_bits() {
            return BitPart::Parity { block };
        }
        at -= shape.covered_bits();
        payload_bits += shape.message_bits;
    }
    BitPart::Tail
}

/// What is the page bit at a position?
pub fn explain_bit(edition: u64, record: &[u8], position: u64) -> Result<BitPart, Why> {
    let layout = explain_layout(edition, record)?;
    let bits = 8 * layout.page_length as u64;
    if position >= bits {
        return Err(Why::new(Reply::OutOfRange, About::Position, position, bits));
    }
    let in_stream = layout.stream().position(|place| place as u64 == position);
    Ok(in_stream.map_or(BitPart::Mark, |at| stream_part(&layout, at)))
}
