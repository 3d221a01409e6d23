//! The comparison finds nothing against the model itself, provokes every reply, meets every edge of the
//! rules for erased and ruined blocks, for marks and for the levels of edition 2, and finds faulty libraries out.

mod faulty;

use faulty::{Fault, Faulty};
use model::call::POSSIBLE;
use model::compare::Comparison;
use model::library::Model;
use model::samples::edges::{EDGES, edges};
use std::cell::Cell;

#[test]
fn the_model_is_itself() {
    let mut comparison = Comparison::new(&Model, 11);
    for _ in 0..2 {
        comparison.round().unwrap();
    }
    for (replies, possible) in comparison.replies.iter().zip(POSSIBLE) {
        for (reply, &count) in replies.iter().enumerate() {
            assert_eq!(
                count > 0,
                possible.contains(&reply),
                "{:?}",
                comparison.replies
            );
        }
    }
}

/// One round of pages meets each edge at least ten times.
#[test]
fn the_compared_pages_meet_every_edge() {
    let mut comparison = Comparison::new(&Model, 25);
    comparison.keep();
    comparison.pages().unwrap();
    let mut met = [0; EDGES.len()];
    for seen in &comparison.seen {
        met.iter_mut()
            .zip(edges(&seen.call))
            .for_each(|(sum, edge)| *sum += edge);
    }
    for (edge, times) in EDGES.iter().zip(met) {
        println!("{times:6} {edge}");
    }
    assert!(met.iter().all(|&times| times >= 10), "{met:?}");
}

/// The faults of a list that three rounds of a comparison of one kind of calls do not find.
fn not_found(faults: &[Fault], compare: fn(&mut Comparison) -> bool) -> Vec<Fault> {
    let found_out = |fault: Fault| {
        let looked = Cell::new(0);
        let faulty = Faulty { fault, looked };
        let mut comparison = Comparison::new(&faulty, 12);
        (0..3).any(|_| compare(&mut comparison))
    };
    let faults = faults.iter().copied();
    faults.filter(|&fault| !found_out(fault)).collect()
}

#[test]
fn faulty_libraries_are_found_out() {
    let layouts = [
        Fault::FieldAboveTwentyAccepted,
        Fault::HighestFieldRefused,
        Fault::EditionAfterLength,
        Fault::EditionCutShort,
        Fault::BitForgetsEdition,
        Fault::PositionForgetsEdition,
        Fault::RecordOfTwelveRefused,
        Fault::LongRecordTaken,
        Fault::MarkAtTheEndRefused,
        Fault::SumNotLookedAt,
        Fault::ZeroBitsNotLookedAt,
        Fault::OutsideAfterRoom,
        Fault::RoomOfWholePage,
        Fault::PositionCutShort,
        Fault::BlockCutShort,
        Fault::TailAsMark,
        Fault::MarkAsTail,
        Fault::MarkAsCovered,
        Fault::PositionInStream,
        Fault::RuleByBlock,
        Fault::LaterBlockNamed,
        Fault::NumbersSwapped,
        Fault::SumAfterZeroBits,
        Fault::ExplainedEditionCut,
        Fault::LengthWantedLeftOut,
        Fault::ParityAsData,
        Fault::MetadataAsData,
        Fault::BitFromTheOtherEnd,
        Fault::ByteOfThePage,
        Fault::PositionOfTheStream,
    ];
    let remainders = [
        Fault::LocateForgetsEdition,
        Fault::LocatedFieldAboveTwenty,
        Fault::LocatedHighestFieldRefused,
        Fault::LocateEditionNotLookedAt,
        Fault::PlacesAscending,
        Fault::PlacesAfterwardsCleared,
        Fault::PlaceWrittenOnRefusal,
    ];
    let fragments = [
        Fault::FragmentsReversed,
        Fault::StartBitSet,
        Fault::StartBitPassed,
        Fault::RemainderWrittenOnRefusal,
    ];
    let pieces = [
        Fault::StartForgetsEdition,
        Fault::StartedFieldAboveTwenty,
        Fault::StartedHighestFieldRefused,
        Fault::StartEditionNotLookedAt,
        Fault::StateAboveTwentyRefused,
        Fault::StateWrittenOnRefusal,
        Fault::StateWrittenByFinish,
        Fault::PieceTakenInPart,
    ];
    let pages = [
        Fault::WriteForgetsEdition,
        Fault::LookForgetsEdition,
        Fault::TakeForgetsEdition,
        Fault::JudgeForgetsEdition,
        Fault::ClaimForgetsEdition,
        Fault::CountsEndAt168,
        Fault::NothingWritten,
        Fault::TailOfZeros,
        Fault::MarkWritten,
        Fault::MarkWrittenAsOnes,
        Fault::LookReadsMark,
        Fault::TakeReadsMark,
        Fault::JudgeReadsMark,
        Fault::ClaimReadsMark,
        Fault::CountDependsOnMark,
        Fault::EveryLookRefused,
        Fault::CountsOfBlock0Only,
        Fault::LookStopsAtRuined,
        Fault::LookWritesNothingOnRefusal,
        Fault::CountsWrittenOnWrongPage,
        Fault::CountsWrittenOnWrongLength,
        Fault::RuinedCountOtherwise,
        Fault::RuinedCountedAndDone,
        Fault::ErasedCountedAsRuined,
        Fault::ErasedCountedAsFlips,
        Fault::LookedHighestNamed,
        Fault::LookedBlockNotNamed,
        Fault::EveryTakeRefused,
        Fault::PayloadOfZeros,
        Fault::MetadataBeforeRefusal,
        Fault::EarlyBlocksBeforeRefusal,
        Fault::TakeTrustsLook,
        Fault::TakenHighestNamed,
        Fault::TakenBlockNotNamed,
        Fault::ErasedTakeRefused,
        Fault::ErasedMessageAsRead,
        Fault::FlipsOfJudgedBlockForgotten,
        Fault::ZerosBeforeDecoding,
        Fault::OneZeroMore,
        Fault::ZerosOfMessageAlone,
        Fault::ZerosWithoutEcc,
        Fault::EqualClaimsAccepted,
        Fault::FlipLeftOut,
        Fault::FlipsDescending,
        Fault::FlipsAsExponents,
        Fault::FlipOfTheTail,
        Fault::ListClearedBehind,
        Fault::ListWrittenForErased,
        Fault::ListWrittenForRuined,
        Fault::ListWrittenForShort,
        Fault::ShortListTaken,
        Fault::ListBeforeBlock,
        Fault::ErasedExplainedAsFlips,
        Fault::ZerosOneMore,
        Fault::RuinedWithoutBlock,
    ];
    assert_eq!(not_found(&layouts, |c| c.layouts().is_err()), []);
    assert_eq!(not_found(&remainders, |c| c.remainders().is_err()), []);
    assert_eq!(not_found(&fragments, |c| c.fragments().is_err()), []);
    assert_eq!(not_found(&pieces, |c| c.pieces().is_err()), []);
    assert_eq!(not_found(&pages, |c| c.pages().is_err()), []);
}
