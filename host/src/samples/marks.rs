//! Samples of layouts with a mark (document 02, E7).

use crate::layout::{Layout, LayoutRecord, LayoutWords, MarkWord};
use crate::random::Random;
use crate::samples::layouts::accepted_words;

/// Accepted words with a mark: PAGE_SIZE grows by its length, so that the stream is the page of before.
pub fn marked(words: LayoutWords, random: &mut Random) -> LayoutRecord {
    let any = random.within(3, 20);
    let length = random.pick(&[0, 1, 1, 2, any, 255]);
    let offset = byte_of_stream(&words.into(), random);
    with_mark(words, offset, length)
}

/// The words with a mark after so many bytes of the stream, of this length if a page can be so large.
pub fn with_mark(words: LayoutWords, offset: usize, length: usize) -> LayoutRecord {
    let length = length.min((u16::MAX - words.page_size) as usize) as u8;
    let page_size = words.page_size + length as u16;
    let mark = MarkWord {
        offset: offset as u16,
        length,
        zero_bits: 0,
    };
    LayoutRecord {
        words: LayoutWords { page_size, ..words },
        mark: Some(mark),
    }
}

/// A byte before which a mark may stand under a layout that has none: the first, the end of the page, one in
/// the metadata, in a block's parity or at its end, in the tail, or any.
fn byte_of_stream(layout: &Layout, random: &mut Random) -> usize {
    let block = random.below(layout.blocks());
    let end = layout.start(block + 1);
    let message_end = layout.start(block) + layout.block(block).message_bits;
    match random.below(8) {
        0 => 0,
        1 => layout.page_length,
        2 => random.below(layout.metadata_length + 1),
        3 => random.within(message_end / 8, end / 8),
        4 => end / 8,
        5 => end.div_ceil(8),
        6 => random.within(layout.used_bits().div_ceil(8), layout.page_length),
        _ => random.below(layout.page_length + 1),
    }
}

/// A third word that is refused: a mark that ends just outside the page or far from it, or zero bits that are not
/// zero. On the largest page one of length 0 has no place outside, and is accepted.
pub fn outside(page_size: u16, random: &mut Random) -> MarkWord {
    let length = random.pick(&[0, 1, 2, 255]);
    let after = page_size.saturating_sub(length as u16).saturating_add(1);
    let (offset, zero_bits) = match random.below(4) {
        0 => (random.within(after as usize, 0xFFFF) as u16, 0),
        1 => (after, random.pick(&[0, 0, 1])),
        _ => (after - 1, random.pick(&[1, 0x80, 0xFF])),
    };
    MarkWord {
        offset,
        length,
        zero_bits,
    }
}

/// Records with a third word: accepted words with marks at every edge, and with marks for which the page has no
/// room; words of these with a mark of length 0 at PAGE_SIZE, or with one that is refused.
pub fn records(words: &[LayoutWords], random: &mut Random) -> Vec<Vec<u8>> {
    let mut records = Vec::new();
    for _ in 0..60 {
        let most_page_bytes = random.pick(&[20, 70, 250, 3000]);
        let words = accepted_words(random, most_page_bytes);
        records.push(marked(words, random));
        let record = with_mark(words, 0, random.within(1, 255));
        records.push(LayoutRecord { words, ..record });
    }
    for _ in 0..60 {
        let words = random.pick(words);
        let mark = match random.below(3) {
            0 => MarkWord {
                offset: words.page_size,
                ..MarkWord::default()
            },
            _ => outside(words.page_size, random),
        };
        let mark = Some(mark);
        records.push(LayoutRecord { words, mark });
    }
    records.iter().map(LayoutRecord::pack).collect()
}
