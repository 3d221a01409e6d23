//! Libraries that do one thing wrongly.

use model::bits::put;
use model::explain::About;
use model::layout::{Layout, LayoutRecord};
use model::library::{Library, Model, explanation};
use model::outcome::zeros;
use model::page::{RUINED, block_word};
use model::{Reply, check_layout};
use std::cell::Cell;

/// One thing that a library does wrongly.
#[derive(Clone, Copy, Debug, PartialEq)]
pub enum Fault {
    FieldAboveTwentyAccepted,
    HighestFieldRefused,
    EditionAfterLength,
    EditionCutShort,
    BitForgetsEdition,
    PositionForgetsEdition,
    WriteForgetsEdition,
    LookForgetsEdition,
    TakeForgetsEdition,
    JudgeForgetsEdition,
    ClaimForgetsEdition,
    LocateForgetsEdition,
    LocatedFieldAboveTwenty,
    LocatedHighestFieldRefused,
    LocateEditionNotLookedAt,
    StartForgetsEdition,
    StartedFieldAboveTwenty,
    StartedHighestFieldRefused,
    StartEditionNotLookedAt,
    StateAboveTwentyRefused,
    CountsEndAt168,
    RecordOfTwelveRefused,
    LongRecordTaken,
    MarkAtTheEndRefused,
    SumNotLookedAt,
    ZeroBitsNotLookedAt,
    OutsideAfterRoom,
    RoomOfWholePage,
    PositionCutShort,
    BlockCutShort,
    TailAsMark,
    MarkAsTail,
    MarkAsCovered,
    PositionInStream,
    NothingWritten,
    TailOfZeros,
    MarkWritten,
    MarkWrittenAsOnes,
    LookReadsMark,
    TakeReadsMark,
    JudgeReadsMark,
    ClaimReadsMark,
    CountDependsOnMark,
    EveryLookRefused,
    CountsOfBlock0Only,
    LookStopsAtRuined,
    LookWritesNothingOnRefusal,
    CountsWrittenOnWrongPage,
    CountsWrittenOnWrongLength,
    RuinedCountOtherwise,
    RuinedCountedAndDone,
    ErasedCountedAsRuined,
    ErasedCountedAsFlips,
    LookedHighestNamed,
    LookedBlockNotNamed,
    EveryTakeRefused,
    PayloadOfZeros,
    MetadataBeforeRefusal,
    EarlyBlocksBeforeRefusal,
    TakeTrustsLook,
    TakenHighestNamed,
    TakenBlockNotNamed,
    ErasedTakeRefused,
    ErasedMessageAsRead,
    FlipsOfJudgedBlockForgotten,
    ZerosBeforeDecoding,
    OneZeroMore,
    ZerosOfMessageAlone,
    ZerosWithoutEcc,
    PlacesAscending,
    PlacesAfterwardsCleared,
    PlaceWrittenOnRefusal,
    EqualClaimsAccepted,
    FragmentsReversed,
    StartBitSet,
    StartBitPassed,
    RemainderWrittenOnRefusal,
    StateWrittenOnRefusal,
    StateWrittenByFinish,
    PieceTakenInPart,
    RuleByBlock,
    LaterBlockNamed,
    NumbersSwapped,
    SumAfterZeroBits,
    ExplainedEditionCut,
    LengthWantedLeftOut,
    ParityAsData,
    MetadataAsData,
    BitFromTheOtherEnd,
    ByteOfThePage,
    PositionOfTheStream,
    FlipLeftOut,
    FlipsDescending,
    FlipsAsExponents,
    FlipOfTheTail,
    ListClearedBehind,
    ListWrittenForErased,
    ListWrittenForRuined,
    ListWrittenForShort,
    ShortListTaken,
    ListBeforeBlock,
    ErasedExplainedAsFlips,
    ZerosOneMore,
    RuinedWithoutBlock,
}

/// The model with a fault, and what it answered to the last look.
pub struct Faulty {
    pub fault: Fault,
    pub looked: Cell<u64>,
}

const LEVEL_TOO_HIGH: u64 = Reply::LevelTooHigh as u64;
const OUT_OF_RANGE: u64 = Reply::OutOfRange as u64;
const PAGE_TOO_SMALL: u64 = Reply::PageTooSmall as u64;
const PAGE_LENGTH: u64 = Reply::PageLength as u64;
const BUFFER_LENGTH: u64 = Reply::BufferLength as u64;
const TOO_WIDE: u64 = Reply::RemainderTooWide as u64;
const UNCORRECTABLE: u64 = Reply::Uncorrectable as u64;
const MARK_OUTSIDE: u64 = Reply::MarkOutside as u64;
const START_BIT: u32 = 0x1_0000;
const IN_TAIL: u64 = 1 << 24;
const IN_MARK: u64 = 2 << 24;
const NUMBER: u64 = 0xFF_FFFF;

/// The counts of a page by the model.
fn counts_of(edition: u64, record: &[u8], page: &[u8]) -> Vec<u8> {
    let mut counts = vec![0; check_layout(edition, record).unwrap().blocks()];
    Model.look_page(edition, record, page, &mut counts);
    counts
}

/// Reply 9 with the highest ruined block.
fn highest_named(edition: u64, record: &[u8], page: &[u8]) -> u64 {
    let counts = counts_of(edition, record, page);
    let highest = counts.iter().rposition(|&count| count == RUINED).unwrap();
    UNCORRECTABLE | (highest as u64) << 8
}

/// The page with zeros in the place of each ruined block, so that every block can be taken.
fn without_ruined(edition: u64, record: &[u8], page: &[u8]) -> Vec<u8> {
    let layout = check_layout(edition, record).unwrap();
    let mut page = page.to_vec();
    for (block, count) in counts_of(edition, record, &page).into_iter().enumerate() {
        let positions = layout.block_places(block).into_iter();
        for position in positions.filter(|_| count == RUINED) {
            put(&mut page, position, false);
        }
    }
    page
}

/// Whether a byte of the mark is not 0xFF, as the factory marks a bad block.
fn mark_is_bad(edition: u64, record: &[u8], page: &[u8]) -> bool {
    let mark = check_layout(edition, record).unwrap().mark_places();
    page[mark.start / 8..mark.end / 8]
        .iter()
        .any(|&byte| byte != 0xFF)
}

/// The explanation of a record whose later blocks are left out, if it is refused.
fn block0_alone(edition: u64, record: &[u8]) -> Option<u64> {
    let mut alone = record.to_vec();
    alone[0] = 0;
    let answer = Model.explain_layout(edition, &alone);
    (answer >> 8 & 0xFF == About::Block0 as u64).then_some(answer)
}

/// The explanation of a record whose block 0 has the later blocks' fields, about these, if it gives the same reply.
fn later_alone(edition: u64, record: &[u8], reply: u64) -> Option<u64> {
    let mut alone = record.to_vec();
    (alone[1], alone[2], alone[3]) = (0, record[6], record[7]);
    let answer = Model.explain_layout(edition, &alone);
    let block0 = answer >> 8 & 0xFF == About::Block0 as u64;
    (record[0] > 0 && block0 && answer & 0xFF == reply).then_some(answer + (1 << 8))
}

impl Faulty {
    /// The edition that a call goes on with: 1 in the place of 2 where it has the fault to forget it.
    fn kept(&self, edition: u64, forgets: Fault) -> u64 {
        match edition {
            2 if self.fault == forgets => 1,
            _ => edition,
        }
    }
}

/// Whether a block of the layout that is examined has the highest level field.
fn has_highest_field(layout: &Layout) -> bool {
    let blocks = [Some(layout.block(0)), layout.later()];
    let mut blocks = blocks.iter().flatten();
    blocks.any(|block| block.level_field == 0x1F)
}

impl Library for Faulty {
    fn check_layout(&self, edition: u64, record: &[u8]) -> u64 {
        let answer = Model.check_layout(edition, record);
        match (self.fault, answer) {
            (Fault::FieldAboveTwentyAccepted, LEVEL_TOO_HIGH) => {
                return Model.check_layout(2, record);
            }
            (Fault::EditionAfterLength, OUT_OF_RANGE) if ![8, 12].contains(&record.len()) => {
                return BUFFER_LENGTH;
            }
            (Fault::EditionCutShort, _) => return Model.check_layout(edition & 0xFF, record),
            _ => (),
        }
        let Some(unpacked) = LayoutRecord::unpack(record) else {
            return match self.fault {
                Fault::LongRecordTaken if record.len() > 12 => {
                    Model.check_layout(edition, &record[..12])
                }
                _ => answer,
            };
        };
        let layout = Layout::from(unpacked);
        let (needed, room) = (layout.used_bits(), layout.stream_bits());
        let at_the_end = layout.mark.offset as usize == layout.page_length;
        match (self.fault, answer) {
            (Fault::RecordOfTwelveRefused, _) if record.len() == 12 => BUFFER_LENGTH,
            (Fault::HighestFieldRefused, 0) if has_highest_field(&layout) => LEVEL_TOO_HIGH,
            (Fault::MarkAtTheEndRefused, 0) if at_the_end => MARK_OUTSIDE,
            (Fault::SumNotLookedAt, MARK_OUTSIDE) if layout.mark.zero_bits == 0 => 0,
            (Fault::ZeroBitsNotLookedAt, MARK_OUTSIDE) => {
                Model.check_layout(edition, &[&record[..11], &[0]].concat())
            }
            (Fault::OutsideAfterRoom, MARK_OUTSIDE) if needed > room => PAGE_TOO_SMALL,
            (Fault::RoomOfWholePage, PAGE_TOO_SMALL) if needed <= 8 * layout.page_length => 0,
            _ => answer,
        }
    }

    fn locate_bit(&self, edition: u64, record: &[u8], position: u64) -> u64 {
        let edition = self.kept(edition, Fault::BitForgetsEdition);
        let answer = Model.locate_bit(edition, record, position);
        match (self.fault, answer) {
            (Fault::PositionCutShort, _) => {
                Model.locate_bit(edition, record, position as u32 as u64)
            }
            (Fault::TailAsMark, IN_TAIL) => IN_MARK,
            (Fault::MarkAsTail, IN_MARK) => IN_TAIL,
            (Fault::MarkAsCovered, IN_MARK) => Model.locate_bit(edition, &record[..8], position),
            _ => answer,
        }
    }

    fn bit_position(&self, edition: u64, record: &[u8], block: u64, exponent: u64) -> u64 {
        let edition = self.kept(edition, Fault::PositionForgetsEdition);
        let answer = Model.bit_position(edition, record, block, exponent);
        match self.fault {
            Fault::BlockCutShort => {
                Model.bit_position(edition, record, block as u32 as u64, exponent)
            }
            Fault::PositionInStream if answer & 0xFF == 0 => {
                Model.bit_position(edition, &record[..8], block, exponent)
            }
            _ => answer,
        }
    }

    fn write_page(
        &self,
        edition: u64,
        record: &[u8],
        metadata: &[u8],
        data: &[u8],
        page: &mut [u8],
    ) -> u64 {
        let edition = self.kept(edition, Fault::WriteForgetsEdition);
        let held = page.to_vec();
        let answer = Model.write_page(edition, record, metadata, data, page);
        match self.fault {
            Fault::NothingWritten => page.copy_from_slice(&held),
            Fault::TailOfZeros if answer == 0 => {
                let layout = check_layout(edition, record).unwrap();
                for position in layout.tail_places() {
                    put(page, position, false);
                }
            }
            Fault::MarkWritten if answer == 0 => {
                Model.write_page(edition, &record[..8], metadata, data, page);
            }
            Fault::MarkWrittenAsOnes if answer == 0 => {
                let mark = check_layout(edition, record).unwrap().mark_places();
                mark.into_iter()
                    .for_each(|position| put(page, position, true));
            }
            _ => (),
        }
        answer
    }

    fn look_page(&self, edition: u64, record: &[u8], page: &[u8], counts: &mut [u8]) -> u64 {
        let edition = self.kept(edition, Fault::LookForgetsEdition);
        let held = counts.to_vec();
        let answer = Model.look_page(edition, record, page, counts);
        self.looked.set(answer);
        let named = (answer >> 8) as usize;
        let is_erased = |count: u8| (128..RUINED).contains(&count);
        match (self.fault, answer & 0xFF) {
            (Fault::LookReadsMark, 0 | UNCORRECTABLE) => {
                return Model.look_page(edition, &record[..8], page, counts);
            }
            (Fault::CountDependsOnMark, 0) => counts[0] ^= mark_is_bad(edition, record, page) as u8,
            (Fault::EveryLookRefused, 0) => return UNCORRECTABLE,
            (Fault::CountsOfBlock0Only, 0) => counts[1..].fill(0),
            (Fault::LookStopsAtRuined, UNCORRECTABLE) => {
                counts[named + 1..].copy_from_slice(&held[named + 1..]);
            }
            (Fault::LookWritesNothingOnRefusal, UNCORRECTABLE) => counts.copy_from_slice(&held),
            (Fault::CountsWrittenOnWrongPage, PAGE_LENGTH)
            | (Fault::CountsWrittenOnWrongLength, BUFFER_LENGTH) => counts.fill(RUINED),
            (Fault::RuinedCountOtherwise, UNCORRECTABLE) => counts[named] = 254,
            (Fault::RuinedCountedAndDone, UNCORRECTABLE) => return 0,
            (Fault::ErasedCountedAsRuined, 0 | UNCORRECTABLE) => {
                let erased = counts.iter_mut().filter(|count| is_erased(**count));
                erased.for_each(|count| *count = RUINED);
            }
            (Fault::CountsEndAt168, 0) if counts.iter().any(|&count| count > 168) => {
                counts.iter_mut().for_each(|count| *count = 168.min(*count));
            }
            (Fault::ErasedCountedAsFlips, 0 | UNCORRECTABLE) => {
                let erased = counts.iter_mut().filter(|count| is_erased(**count));
                erased.for_each(|count| *count -= 128);
            }
            (Fault::LookedHighestNamed, UNCORRECTABLE) => {
                return highest_named(edition, record, page);
            }
            (Fault::LookedBlockNotNamed, UNCORRECTABLE) => return UNCORRECTABLE,
            _ => (),
        }
        answer
    }

    fn take_page(
        &self,
        edition: u64,
        record: &[u8],
        page: &[u8],
        metadata: &mut [u8],
        data: &mut [u8],
    ) -> u64 {
        let edition = self.kept(edition, Fault::TakeForgetsEdition);
        let (held, answer) = (
            data.to_vec(),
            Model.take_page(edition, record, page, metadata, data),
        );
        match (self.fault, answer & 0xFF) {
            (Fault::TakeReadsMark, 0 | UNCORRECTABLE) => {
                return Model.take_page(edition, &record[..8], page, metadata, data);
            }
            (Fault::EveryTakeRefused, 0) => return UNCORRECTABLE,
            (Fault::PayloadOfZeros, 0) => data.fill(0),
            (Fault::MetadataBeforeRefusal, UNCORRECTABLE) => metadata.fill(0),
            (Fault::EarlyBlocksBeforeRefusal, UNCORRECTABLE) if answer >> 8 > 0 => {
                Model.take_page(
                    edition,
                    record,
                    &without_ruined(edition, record, page),
                    metadata,
                    data,
                );
                let layout = check_layout(edition, record).unwrap();
                let message = |block| layout.block(block).message_bits / 8;
                let early = (0..(answer >> 8) as usize).map(message).sum::<usize>();
                let kept = early - metadata.len()..;
                data[kept.clone()].copy_from_slice(&held[kept]);
            }
            (Fault::TakeTrustsLook, UNCORRECTABLE) if self.looked.get() == 0 => {
                let repaired = without_ruined(edition, record, page);
                return Model.take_page(edition, record, &repaired, metadata, data);
            }
            (Fault::TakenHighestNamed, UNCORRECTABLE) => {
                return highest_named(edition, record, page);
            }
            (Fault::TakenBlockNotNamed, UNCORRECTABLE) => return UNCORRECTABLE,
            (Fault::ErasedTakeRefused, 0)
                if counts_of(edition, record, page).iter().any(|&c| c >= 128) =>
            {
                return UNCORRECTABLE;
            }
            (Fault::ErasedMessageAsRead, 0) if counts_of(edition, record, page)[0] >= 128 => {
                metadata.copy_from_slice(&page[..metadata.len()]);
            }
            _ => (),
        }
        answer
    }

    fn judge_block(&self, edition: u64, record: &[u8], page: &[u8], block: u64) -> u64 {
        let edition = self.kept(edition, Fault::JudgeForgetsEdition);
        let answer = Model.judge_block(edition, record, page, block);
        if answer & 0xFF != 0 && answer & 0xFF != UNCORRECTABLE {
            return answer;
        }
        let layout = check_layout(edition, record).unwrap();
        let shape = layout.block(block as usize);
        let word = block_word(&layout, page, block as usize);
        let (t, all) = (shape.t(), zeros(&word));
        let in_message = zeros(&word[..shape.message_bits]);
        let erased = |zeros: usize| (128 + zeros as u64) << 32;
        match self.fault {
            Fault::JudgeReadsMark => Model.judge_block(edition, &record[..8], page, block),
            Fault::FlipsOfJudgedBlockForgotten => answer & 0xFFFF_FFFF,
            Fault::ZerosBeforeDecoding if t > 0 && all <= t => erased(all),
            Fault::OneZeroMore if answer != 0 && all == t + 1 => erased(all),
            Fault::ZerosOfMessageAlone if answer >> 32 >= 128 => erased(in_message),
            Fault::ZerosWithoutEcc if t == 0 && all == 0 => erased(0),
            _ => answer,
        }
    }

    fn locate_errors(
        &self,
        edition: u64,
        level_field: u64,
        field_choice: u64,
        n: u64,
        remainder: &[u8],
        places: &mut [u16],
    ) -> u64 {
        let edition = match (self.fault, edition, level_field) {
            (Fault::LocatedFieldAboveTwenty, 1, 0x15) => 2,
            (Fault::LocatedHighestFieldRefused, 2, 0x1F) => 1,
            (Fault::LocateEditionNotLookedAt, 0 | 3.., _) => 2,
            _ => self.kept(edition, Fault::LocateForgetsEdition),
        };
        let answer = Model.locate_errors(edition, level_field, field_choice, n, remainder, places);
        let size = (answer >> 32) as usize;
        match (self.fault, answer & 0xFF) {
            (Fault::PlacesAscending, 0) => places[..size].reverse(),
            (Fault::PlacesAfterwardsCleared, 0) => places[size..].fill(0),
            (Fault::PlaceWrittenOnRefusal, UNCORRECTABLE) => places[0] ^= 1,
            _ => (),
        }
        answer
    }

    fn check_claim(
        &self,
        edition: u64,
        record: &[u8],
        page: &[u8],
        block: u64,
        claims: &[u16],
    ) -> u64 {
        let edition = self.kept(edition, Fault::ClaimForgetsEdition);
        let mut claims = claims.to_vec();
        if self.fault == Fault::EqualClaimsAccepted {
            claims.sort();
            claims.dedup();
        }
        let record = match self.fault {
            Fault::ClaimReadsMark if check_layout(edition, record).is_ok() => &record[..8],
            _ => record,
        };
        Model.check_claim(edition, record, page, block, &claims)
    }

    fn export_fragments(&self, level_field: u64, remainder: &[u8], fragments: &mut [u32]) -> u64 {
        let answer = Model.export_fragments(level_field, remainder, fragments);
        match (self.fault, answer & 0xFF) {
            (Fault::FragmentsReversed, 0) => fragments.reverse(),
            (Fault::StartBitSet, 0) => fragments[6] |= START_BIT,
            _ => (),
        }
        answer
    }

    fn import_fragments(&self, level_field: u64, fragments: &[u32], remainder: &mut [u8]) -> u64 {
        let mut fragments = fragments.to_vec();
        if let (Fault::StartBitPassed, Some(last)) = (self.fault, fragments.get_mut(6)) {
            *last &= !START_BIT;
        }
        let answer = Model.import_fragments(level_field, &fragments, remainder);
        if self.fault == Fault::RemainderWrittenOnRefusal && answer == TOO_WIDE {
            remainder[0] ^= 1;
        }
        answer
    }

    fn parity_start(
        &self,
        state: &mut [u64],
        edition: u64,
        level: u64,
        choice: u64,
        length: u64,
    ) -> u64 {
        let edition = match (self.fault, edition, level) {
            (Fault::StartedFieldAboveTwenty, 1, 0x15) => 2,
            (Fault::StartedHighestFieldRefused, 2, 0x1F) => 1,
            (Fault::StartEditionNotLookedAt, 0 | 3.., _) => 2,
            _ => self.kept(edition, Fault::StartForgetsEdition),
        };
        let answer = Model.parity_start(state, edition, level, choice, length);
        if self.fault == Fault::StateWrittenOnRefusal && answer != 0 {
            state[0] ^= 1;
        }
        answer
    }

    fn parity_feed(&self, state: &mut [u64], piece: &[u8]) -> u64 {
        if self.fault == Fault::StateAboveTwentyRefused && state[0] > 20 {
            return OUT_OF_RANGE;
        }
        let answer = Model.parity_feed(state, piece);
        if self.fault == Fault::PieceTakenInPart && answer == BUFFER_LENGTH {
            let left = (state[2] - state[3]) as usize;
            Model.parity_feed(state, &piece[..left]);
        }
        answer
    }

    fn parity_finish(&self, state: &mut [u64], parity: &mut [u8]) -> u64 {
        let answer = Model.parity_finish(state, parity);
        if self.fault == Fault::StateWrittenByFinish && answer == 0 {
            state[3] = 0;
        }
        answer
    }

    fn explain_layout(&self, edition: u64, record: &[u8]) -> u64 {
        let answer = Model.explain_layout(edition, record);
        let (about, found, limit) = (answer >> 8 & 0xFF, answer >> 16 & NUMBER, answer >> 40);
        let layout = || Layout::from(LayoutRecord::unpack(record).unwrap());
        match self.fault {
            Fault::NumbersSwapped => explanation(answer & 0xFF, about, limit, found),
            Fault::LengthWantedLeftOut if about == About::Record as u64 => answer & (1 << 40) - 1,
            Fault::ExplainedEditionCut => Model.explain_layout(edition & 0xFF, record),
            Fault::RuleByBlock if about == About::LaterBlock as u64 => {
                block0_alone(edition, record).unwrap_or(answer)
            }
            Fault::LaterBlockNamed if about == About::Block0 as u64 => {
                later_alone(edition, record, answer & 0xFF).unwrap_or(answer)
            }
            Fault::SumAfterZeroBits if answer & 0xFF == MARK_OUTSIDE => {
                let zero_bits = layout().mark.zero_bits as u64;
                match zero_bits {
                    0 => answer,
                    _ => explanation(MARK_OUTSIDE, about, zero_bits, 0),
                }
            }
            _ => answer,
        }
    }

    fn explain_block(
        &self,
        edition: u64,
        record: &[u8],
        page: &[u8],
        block: u64,
        list: &mut [u32],
    ) -> u64 {
        let answer = Model.explain_block(edition, record, page, block, list);
        let (reply, kind, found) = (answer & 0xFF, answer >> 8 & 0xFF, answer >> 16 & NUMBER);
        let t = answer >> 40;
        let count = found as usize;
        let flips = (reply, kind) == (0, 0) && count > 0;
        match self.fault {
            Fault::FlipLeftOut if flips => return explanation(0, 0, found - 1, t),
            Fault::FlipsDescending if flips => list[..count].reverse(),
            Fault::FlipsAsExponents if flips => {
                for place in &mut list[..count] {
                    *place = Model.locate_bit(edition, record, *place as u64) as u32;
                }
            }
            Fault::FlipOfTheTail if flips => list[count - 1] = 8 * page.len() as u32 - 1,
            Fault::ListClearedBehind if reply == 0 && kind == 0 => list[count..].fill(0),
            Fault::ListWrittenForErased if (reply, kind) == (0, 1) => list.fill(0),
            Fault::ListWrittenForRuined if reply == UNCORRECTABLE => list.fill(0),
            Fault::ListWrittenForShort if reply == BUFFER_LENGTH => list.fill(0),
            Fault::ShortListTaken if reply == BUFFER_LENGTH && kind == About::LentList as u64 => {
                let mut long = vec![0; 64];
                let answer = Model.explain_block(edition, record, page, block, &mut long);
                list.copy_from_slice(&long[..list.len()]);
                return answer;
            }
            Fault::ListBeforeBlock if kind == About::BlockNumber as u64 && list.is_empty() => {
                return explanation(BUFFER_LENGTH, About::LentList as u64, 0, 1);
            }
            Fault::ErasedExplainedAsFlips if (reply, kind) == (0, 1) => {
                return explanation(0, 0, found, t);
            }
            Fault::ZerosOneMore if (reply, kind) == (0, 1) => {
                return explanation(0, 1, found + 1, t);
            }
            Fault::RuinedWithoutBlock if reply == UNCORRECTABLE => {
                return explanation(reply, kind, 0, t);
            }
            _ => (),
        }
        answer
    }

    fn explain_bit(&self, edition: u64, record: &[u8], position: u64) -> u64 {
        let answer = Model.explain_bit(edition, record, position);
        if answer & 0xFF != 0 {
            return answer;
        }
        let (part, page_bit) = (answer >> 8 & 0xFF, answer >> 24 & 0xFF);
        match (self.fault, part) {
            (Fault::ParityAsData, 3) => answer ^ 1 << 8,
            (Fault::MetadataAsData, 1) => answer ^ 3 << 8,
            (Fault::BitFromTheOtherEnd, _) => answer ^ (page_bit ^ (7 - page_bit)) << 24,
            (Fault::ByteOfThePage, 1 | 2) => answer & (1 << 48) - 1 | (answer >> 32 & 0xFFFF) << 48,
            (Fault::PositionOfTheStream, 1..=4) => {
                Model.explain_bit(edition, &record[..8], position)
            }
            _ => answer,
        }
    }
}
