//! Cases A to L of document 01, which are those of edition 1 (document 02, E13).

use model::code::bch;
use model::field::FieldChoice::{Fourteen, Thirteen};
use model::*;

fn record(word0: u32, word1: u32) -> Vec<u8> {
    [word0.to_be_bytes(), word1.to_be_bytes()].concat()
}

/// One block and PAGE_SIZE 2,048, as in C, D and K.
fn one_block(metadata: u32, level_field: u32, gf: u32, units: u32) -> Vec<u8> {
    record(
        metadata << 16 | level_field << 11 | gf << 10 | units,
        2048 << 16,
    )
}

fn reply(record: &[u8]) -> u8 {
    check_layout(1, record).map_or_else(|refusal| refusal.number(), |_| 0)
}

fn case_e() -> Vec<u8> {
    record(0x0100_0801, 0x000F_0801)
}

/// The page of case F.
fn page_of_zeros() -> Vec<u8> {
    let mut page = vec![0xA5; 15];
    assert_eq!(write_page(1, &case_e(), &[], &[0; 8], &mut page), Ok(()));
    page
}

#[test]
fn case_a() {
    let layout = check_layout(1, &record(0x070A_4080, 0x10DA_4080)).unwrap();
    assert_eq!(layout.blocks(), 8);
    assert_eq!(layout.metadata_length, 10);
    assert_eq!(
        (layout.block(0).t(), layout.block(0).choice),
        (16, Thirteen)
    );
    assert_eq!(layout.later().unwrap().message_bits, 8 * 512);
    assert_eq!(layout.page_length, 4314);
    assert_eq!(layout.block(0).covered_bits(), 4384);
    assert_eq!(layout.later().unwrap().covered_bits(), 4304);
    assert_eq!(layout.start(7), 30208);
    assert_eq!(layout.used_bits(), 34512);
    assert_eq!(layout.used_bits(), 8 * layout.page_length);
}

#[test]
fn case_b() {
    assert_eq!(reply(&record(0x070A_4080, 0x10D9_4080)), 4);
}

#[test]
fn case_c() {
    let accepted = check_layout(1, &one_block(2, 0x14, 0, 239)).unwrap();
    assert_eq!(accepted.used_bits(), 8184);
    assert_eq!(reply(&one_block(3, 0x14, 0, 239)), 3);
}

#[test]
fn case_d() {
    let accepted = check_layout(1, &one_block(1, 0x14, 1, 494)).unwrap();
    assert_eq!(accepted.used_bits(), 16376);
    assert_eq!(reply(&one_block(2, 0x14, 1, 494)), 3);
}

#[test]
fn case_e_places() {
    let layout = check_layout(1, &case_e()).unwrap();
    assert_eq!(layout.blocks(), 2);
    assert_eq!(layout.block(0).covered_bits(), 58);
    assert_eq!(layout.block(1).covered_bits(), 58);
    assert_eq!((layout.block(0).t(), layout.block(1).t()), (2, 2));
    assert_eq!(layout.start(1), 8 * 7 + 7 - 5);
    assert_eq!(8 * layout.page_length - layout.used_bits(), 4);

    let covered = |block, exponent| Ok(BitPlace::Covered { block, exponent });
    assert_eq!(locate_bit(1, &case_e(), 0), covered(0, 57));
    assert_eq!(locate_bit(1, &case_e(), 57), covered(0, 0));
    assert_eq!(locate_bit(1, &case_e(), 58), covered(1, 57));
    assert_eq!(locate_bit(1, &case_e(), 115), covered(1, 0));
    assert_eq!(locate_bit(1, &case_e(), 116), Ok(BitPlace::Tail));
    assert_eq!(locate_bit(1, &case_e(), 119), Ok(BitPlace::Tail));
    assert_eq!(locate_bit(1, &case_e(), 120), Err(Reply::OutOfRange.into()));
}

#[test]
fn case_f() {
    assert_eq!(page_of_zeros(), [vec![0; 14], vec![0x0F]].concat());
}

#[test]
fn case_g() {
    let mut page = page_of_zeros();
    page[0] = 0x80;
    let (mut data, mut counts) = ([0xFF; 8], [0xFF; 2]);
    assert_eq!(look_page(1, &case_e(), &page, &mut counts), Ok(()));
    assert_eq!(counts, [1, 0]);
    assert_eq!(take_page(1, &case_e(), &page, &mut [], &mut data), Ok(()));
    assert_eq!(data, [0; 8]);
    assert_eq!(judge_block(1, &case_e(), &page, 0), Ok(1));
    assert_eq!(bit_position(1, &case_e(), 0, 57), Ok(0));
}

#[test]
fn case_h() {
    assert_eq!(Thirteen.field().power_of_a(13), 0x1B);
    assert_eq!(Fourteen.field().power_of_a(14), 0x2B);
}

#[test]
fn case_i() {
    assert_eq!(reply(&one_block(0, 0x15, 0, 0)), 1);
}

#[test]
fn case_j() {
    for choice in [Thirteen, Fourteen] {
        for t in [2, 40] {
            let code = bch(choice, t);
            for exponent in [0, 1, 559, 560, 8190] {
                let mut word = vec![false; 8191];
                word[8190 - exponent] = true;
                assert!(!code.is_codeword(&word));
            }
        }
    }
}

#[test]
fn case_k() {
    assert_eq!(reply(&one_block(0, 0x14, 0, 0)), 2);
    assert_eq!(reply(&one_block(1, 0x14, 0, 0)), 0);
}

#[test]
fn case_l() {
    let mut page = page_of_zeros();
    page[0] = 0x80;
    let wrong = Err(Reply::ClaimWrong.into());
    assert_eq!(check_claim(1, &case_e(), &page, 0, &[57, 57]), wrong);
    assert_eq!(check_claim(1, &case_e(), &page, 0, &[57]), Ok(()));
}
