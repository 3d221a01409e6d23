//! Calls of the library as values.

use crate::guarded::{GuardBroken, Guarded};
use crate::library::Library;
use crate::random::Random;

/// A call with all that it is lent. A buffer that the call may write holds its content before.
#[derive(Clone, Debug, PartialEq, Eq)]
pub enum Call {
    CheckLayout {
        edition: u64,
        record: Vec<u8>,
    },
    LocateBit {
        edition: u64,
        record: Vec<u8>,
        position: u64,
    },
    BitPosition {
        edition: u64,
        record: Vec<u8>,
        block: u64,
        exponent: u64,
    },
    WritePage {
        edition: u64,
        record: Vec<u8>,
        metadata: Vec<u8>,
        data: Vec<u8>,
        page: Vec<u8>,
    },
    LookPage {
        edition: u64,
        record: Vec<u8>,
        page: Vec<u8>,
        counts: Vec<u8>,
    },
    TakePage {
        edition: u64,
        record: Vec<u8>,
        page: Vec<u8>,
        metadata: Vec<u8>,
        data: Vec<u8>,
    },
    JudgeBlock {
        edition: u64,
        record: Vec<u8>,
        page: Vec<u8>,
        block: u64,
    },
    LocateErrors {
        edition: u64,
        level_field: u64,
        field_choice: u64,
        n: u64,
        remainder: Vec<u8>,
        places: Vec<u16>,
    },
    CheckClaim {
        edition: u64,
        record: Vec<u8>,
        page: Vec<u8>,
        block: u64,
        claims: Vec<u16>,
    },
    ExportFragments {
        level_field: u64,
        remainder: Vec<u8>,
        fragments: Vec<u32>,
    },
    ImportFragments {
        level_field: u64,
        fragments: Vec<u32>,
        remainder: Vec<u8>,
    },
    ParityStart {
        state: Vec<u64>,
        edition: u64,
        level_field: u64,
        field_choice: u64,
        length: u64,
    },
    ParityFeed {
        state: Vec<u64>,
        piece: Vec<u8>,
    },
    ParityFinish {
        state: Vec<u64>,
        parity: Vec<u8>,
    },
    ExplainLayout {
        edition: u64,
        record: Vec<u8>,
    },
    ExplainBlock {
        edition: u64,
        record: Vec<u8>,
        page: Vec<u8>,
        block: u64,
        list: Vec<u32>,
    },
    ExplainBit {
        edition: u64,
        record: Vec<u8>,
        position: u64,
    },
}

/// How many kinds of calls there are.
pub const KINDS: usize = 17;

/// The replies that each kind of call can give.
pub const POSSIBLE: [&[usize]; KINDS] = [
    &[0, 1, 2, 3, 4, 6, 7, 11],
    &[0, 1, 2, 3, 4, 6, 7, 11],
    &[0, 1, 2, 3, 4, 6, 7, 11],
    &[0, 1, 2, 3, 4, 5, 6, 7, 11],
    &[0, 1, 2, 3, 4, 5, 6, 7, 9, 11],
    &[0, 1, 2, 3, 4, 5, 6, 7, 9, 11],
    &[0, 1, 2, 3, 4, 5, 6, 7, 9, 11],
    &[0, 1, 2, 3, 6, 7, 8, 9],
    &[0, 1, 2, 3, 4, 5, 6, 7, 10, 11],
    &[0, 1, 6, 8],
    &[0, 1, 6, 8],
    &[0, 1, 2, 3, 7],
    &[0, 6, 7],
    &[0, 6, 7],
    &[0, 1, 2, 3, 4, 6, 7, 11],
    &[0, 1, 2, 3, 4, 5, 6, 7, 9, 11],
    &[0, 1, 2, 3, 4, 6, 7, 11],
];

/// An argument of a call: a number, or a buffer of so many elements of so many bytes each, the lowest
/// byte of each first. The length of a state is no argument.
#[derive(Clone, Debug, PartialEq, Eq)]
pub enum Argument {
    Number(u64),
    Buffer { size: usize, content: Vec<u8> },
    State { content: Vec<u8> },
}

const GUARD_BYTE: u8 = 0x5C;
const GUARD_PLACE: u16 = 0x5C5C;
const GUARD_NUMBER: u32 = 0x5C5C_5C5C;
const GUARD_WORD: u64 = 0x5C5C_5C5C_5C5C_5C5C;

impl Call {
    /// The kinds of calls in order, from 0.
    pub fn kind(&self) -> usize {
        match self {
            Call::CheckLayout { .. } => 0,
            Call::LocateBit { .. } => 1,
            Call::BitPosition { .. } => 2,
            Call::WritePage { .. } => 3,
            Call::LookPage { .. } => 4,
            Call::TakePage { .. } => 5,
            Call::JudgeBlock { .. } => 6,
            Call::LocateErrors { .. } => 7,
            Call::CheckClaim { .. } => 8,
            Call::ExportFragments { .. } => 9,
            Call::ImportFragments { .. } => 10,
            Call::ParityStart { .. } => 11,
            Call::ParityFeed { .. } => 12,
            Call::ParityFinish { .. } => 13,
            Call::ExplainLayout { .. } => 14,
            Call::ExplainBlock { .. } => 15,
            Call::ExplainBit { .. } => 16,
        }
    }

    /// The exported function that takes the call.
    pub fn name(&self) -> &'static str {
        match self {
            Call::CheckLayout { .. } => "rudderfig_check_layout",
            Call::LocateBit { .. } => "rudderfig_locate_bit",
            Call::BitPosition { .. } => "rudderfig_bit_position",
            Call::WritePage { .. } => "rudderfig_write_page",
            Call::LookPage { .. } => "rudderfig_look_page",
            Call::TakePage { .. } => "rudderfig_take_page",
            Call::JudgeBlock { .. } => "rudderfig_judge_block",
            Call::LocateErrors { .. } => "rudderfig_locate_errors",
            Call::CheckClaim { .. } => "rudderfig_check_claim",
            Call::ExportFragments { .. } => "rudderfig_export_fragments",
            Call::ImportFragments { .. } => "rudderfig_import_fragments",
            Call::ParityStart { .. } => "rudderfig_parity_start",
            Call::ParityFeed { .. } => "rudderfig_parity_feed",
            Call::ParityFinish { .. } => "rudderfig_parity_finish",
            Call::ExplainLayout { .. } => "rudderfig_explain_layout",
            Call::ExplainBlock { .. } => "rudderfig_explain_block",
            Call::ExplainBit { .. } => "rudderfig_explain_bit",
        }
    }

    /// The arguments in the order of the exported function.
    pub fn arguments(&self) -> Vec<Argument> {
        let bytes = |content: &Vec<u8>| Argument::Buffer {
            size: 1,
            content: content.clone(),
        };
        let list = |content: &Vec<u16>| Argument::Buffer {
            size: 2,
            content: content.iter().flat_map(|x| x.to_le_bytes()).collect(),
        };
        let words = |content: &Vec<u32>| Argument::Buffer {
            size: 4,
            content: content.iter().flat_map(|x| x.to_le_bytes()).collect(),
        };
        let held = |content: &Vec<u64>| Argument::State {
            content: content.iter().flat_map(|x| x.to_le_bytes()).collect(),
        };
        let number = |number: &u64| Argument::Number(*number);
        match self {
            Call::CheckLayout { edition, record } | Call::ExplainLayout { edition, record } => {
                vec![number(edition), bytes(record)]
            }
            Call::LocateBit {
                edition,
                record,
                position,
            }
            | Call::ExplainBit {
                edition,
                record,
                position,
            } => vec![number(edition), bytes(record), number(position)],
            Call::BitPosition {
                edition,
                record,
                block,
                exponent,
            } => vec![
                number(edition),
                bytes(record),
                number(block),
                number(exponent),
            ],
            Call::WritePage {
                edition,
                record,
                metadata,
                data,
                page,
            } => vec![
                number(edition),
                bytes(record),
                bytes(metadata),
                bytes(data),
                bytes(page),
            ],
            Call::LookPage {
                edition,
                record,
                page,
                counts,
            } => vec![number(edition), bytes(record), bytes(page), bytes(counts)],
            Call::TakePage {
                edition,
                record,
                page,
                metadata,
                data,
            } => vec![
                number(edition),
                bytes(record),
                bytes(page),
                bytes(metadata),
                bytes(data),
            ],
            Call::JudgeBlock {
                edition,
                record,
                page,
                block,
            } => vec![number(edition), bytes(record), bytes(page), number(block)],
            Call::LocateErrors {
                edition,
                level_field,
                field_choice,
                n,
                remainder,
                places,
            } => vec![
                number(edition),
                number(level_field),
                number(field_choice),
                number(n),
                bytes(remainder),
                list(places),
            ],
            Call::CheckClaim {
                edition,
                record,
                page,
                block,
                claims,
            } => vec![
                number(edition),
                bytes(record),
                bytes(page),
                number(block),
                list(claims),
            ],
            Call::ExportFragments {
                level_field,
                remainder,
                fragments,
            } => vec![number(level_field), bytes(remainder), words(fragments)],
            Call::ImportFragments {
                level_field,
                fragments,
                remainder,
            } => vec![number(level_field), words(fragments), bytes(remainder)],
            Call::ParityStart {
                state,
                edition,
                level_field,
                field_choice,
                length,
            } => vec![
                held(state),
                number(edition),
                number(level_field),
                number(field_choice),
                number(length),
            ],
            Call::ParityFeed { state, piece } => vec![held(state), bytes(piece)],
            Call::ParityFinish { state, parity } => vec![held(state), bytes(parity)],
            Call::ExplainBlock {
                edition,
                record,
                page,
                block,
                list,
            } => vec![
                number(edition),
                bytes(record),
                bytes(page),
                number(block),
                words(list),
            ],
        }
    }

    /// The byte buffers in the order in which the library takes them.
    fn bytes(&mut self) -> Vec<&mut Vec<u8>> {
        match self {
            Call::CheckLayout { record, .. }
            | Call::LocateBit { record, .. }
            | Call::BitPosition { record, .. }
            | Call::ExplainLayout { record, .. }
            | Call::ExplainBit { record, .. } => vec![record],
            Call::WritePage {
                record,
                metadata,
                data,
                page,
                ..
            } => vec![record, metadata, data, page],
            Call::LookPage {
                record,
                page,
                counts,
                ..
            } => vec![record, page, counts],
            Call::TakePage {
                record,
                page,
                metadata,
                data,
                ..
            } => vec![record, page, metadata, data],
            Call::JudgeBlock { record, page, .. }
            | Call::CheckClaim { record, page, .. }
            | Call::ExplainBlock { record, page, .. } => vec![record, page],
            Call::LocateErrors { remainder, .. }
            | Call::ExportFragments { remainder, .. }
            | Call::ImportFragments { remainder, .. } => vec![remainder],
            Call::ParityStart { .. } => vec![],
            Call::ParityFeed { piece, .. } => vec![piece],
            Call::ParityFinish { parity, .. } => vec![parity],
        }
    }

    /// The list of exponents.
    fn list(&mut self) -> Option<&mut Vec<u16>> {
        match self {
            Call::LocateErrors { places: list, .. } | Call::CheckClaim { claims: list, .. } => {
                Some(list)
            }
            _ => None,
        }
    }

    /// The fragments of a remainder, or the list of page positions.
    fn words(&mut self) -> Option<&mut Vec<u32>> {
        match self {
            Call::ExportFragments {
                fragments: words, ..
            }
            | Call::ImportFragments {
                fragments: words, ..
            }
            | Call::ExplainBlock { list: words, .. } => Some(words),
            _ => None,
        }
    }

    /// The state of a block whose message arrives in pieces.
    fn state(&mut self) -> Option<&mut Vec<u64>> {
        match self {
            Call::ParityStart { state, .. }
            | Call::ParityFeed { state, .. }
            | Call::ParityFinish { state, .. } => Some(state),
            _ => None,
        }
    }

    /// Calls the library with guarded buffers and returns its answer. The buffers of this value
    /// then hold what the library left, those that it may only read too.
    pub fn perform(
        &mut self,
        library: &dyn Library,
        random: &mut Random,
    ) -> Result<u64, GuardBroken> {
        let mut bytes: Vec<Guarded<u8>> = Vec::new();
        for buffer in self.bytes() {
            bytes.push(Guarded::new(buffer, GUARD_BYTE, random));
        }
        let content = self.list().cloned().unwrap_or_default();
        let mut list = Guarded::new(&content, GUARD_PLACE, random);
        let content = self.words().cloned().unwrap_or_default();
        let mut words = Guarded::new(&content, GUARD_NUMBER, random);
        let content = self.state().cloned().unwrap_or_default();
        let mut state = Guarded::new(&content, GUARD_WORD, random);
        let lists = (list.lend(), words.lend(), state.lend());
        let answer = self.lend_to(library, &mut bytes, lists);
        for (buffer, guarded) in self.bytes().into_iter().zip(bytes) {
            *buffer = guarded.content()?;
        }
        let content = list.content()?;
        if let Some(list) = self.list() {
            *list = content;
        }
        let content = words.content()?;
        if let Some(words) = self.words() {
            *words = content;
        }
        let content = state.content()?;
        if let Some(state) = self.state() {
            *state = content;
        }
        Ok(answer)
    }

    fn lend_to(
        &self,
        library: &dyn Library,
        bytes: &mut [Guarded<u8>],
        (list, words, state): (&mut [u16], &mut [u32], &mut [u64]),
    ) -> u64 {
        let mut lent = bytes.iter_mut().map(Guarded::lend);
        let mut next = || lent.next().unwrap();
        match *self {
            Call::CheckLayout { edition, .. } => library.check_layout(edition, next()),
            Call::LocateBit {
                edition, position, ..
            } => library.locate_bit(edition, next(), position),
            Call::BitPosition {
                edition,
                block,
                exponent,
                ..
            } => library.bit_position(edition, next(), block, exponent),
            Call::WritePage { edition, .. } => {
                library.write_page(edition, next(), next(), next(), next())
            }
            Call::LookPage { edition, .. } => library.look_page(edition, next(), next(), next()),
            Call::TakePage { edition, .. } => {
                library.take_page(edition, next(), next(), next(), next())
            }
            Call::JudgeBlock { edition, block, .. } => {
                library.judge_block(edition, next(), next(), block)
            }
            Call::LocateErrors {
                edition,
                level_field,
                field_choice,
                n,
                ..
            } => library.locate_errors(edition, level_field, field_choice, n, next(), list),
            Call::CheckClaim { edition, block, .. } => {
                library.check_claim(edition, next(), next(), block, list)
            }
            Call::ExportFragments { level_field, .. } => {
                library.export_fragments(level_field, next(), words)
            }
            Call::ImportFragments { level_field, .. } => {
                library.import_fragments(level_field, words, next())
            }
            Call::ParityStart {
                edition,
                level_field,
                field_choice,
                length,
                ..
            } => library.parity_start(state, edition, level_field, field_choice, length),
            Call::ParityFeed { .. } => library.parity_feed(state, next()),
            Call::ParityFinish { .. } => library.parity_finish(state, next()),
            Call::ExplainLayout { edition, .. } => library.explain_layout(edition, next()),
            Call::ExplainBlock { edition, block, .. } => {
                library.explain_block(edition, next(), next(), block, words)
            }
            Call::ExplainBit {
                edition, position, ..
            } => library.explain_bit(edition, next(), position),
        }
    }

    /// Puts random content into the buffers that the call may write.
    pub fn fill_outputs(&mut self, random: &mut Random) {
        match self {
            Call::WritePage { page, .. } => *page = random.bytes(page.len()),
            Call::LookPage { counts, .. } => *counts = random.bytes(counts.len()),
            Call::TakePage { metadata, data, .. } => {
                *metadata = random.bytes(metadata.len());
                *data = random.bytes(data.len());
            }
            Call::LocateErrors { places, .. } => {
                places
                    .iter_mut()
                    .for_each(|place| *place = random.number() as u16);
            }
            Call::ExportFragments { fragments, .. } => {
                fragments
                    .iter_mut()
                    .for_each(|fragment| *fragment = random.number() as u32);
            }
            Call::ExplainBlock { list, .. } => {
                list.iter_mut()
                    .for_each(|place| *place = random.number() as u32);
            }
            Call::ImportFragments { remainder, .. } => *remainder = random.bytes(remainder.len()),
            Call::ParityFinish { parity, .. } => *parity = random.bytes(parity.len()),
            _ => (),
        }
    }
}
