//! Remainders printed in document 004, and one that lib/bch.c of Linux 6.1 locates wrongly.

use model::bits::bits_of;
use model::code::{bch, flip_exponents};
use model::field::FieldChoice::Thirteen;
use model::{Reply, export_fragments, import_fragments, locate_errors};

/// The remainder that a hexadecimal number spells, in as many bytes as its level takes.
fn remainder(hexadecimal: &str, t: usize) -> Vec<u8> {
    let digits = format!("{hexadecimal:0>width$}", width = 2 * (13 * t).div_ceil(8));
    (0..digits.len())
        .step_by(2)
        .map(|i| u8::from_str_radix(&digits[i..i + 2], 16).unwrap())
        .collect()
}

/// The exponents found for m = 13, after a check that their sum leaves the remainder.
fn located(hexadecimal: &str, t: usize, n: usize) -> Result<Vec<u16>, u8> {
    let remainder = remainder(hexadecimal, t);
    let mut places = vec![0xFFFF; t];
    let count = locate_errors(1, t as u64 / 2, 0, n as u64, &remainder, &mut places)
        .map_err(|refusal| refusal.number())?;
    assert!(places[count..].iter().all(|&place| place == 0xFFFF));
    places.truncate(count);
    let mut sum = vec![false; n];
    let exponents: Vec<usize> = places.iter().map(|&place| place as usize).collect();
    flip_exponents(&mut sum, &exponents);
    let bits = bits_of(&remainder);
    assert_eq!(
        bch(Thirteen, t).remainder(&sum),
        bits[bits.len() - 13 * t..]
    );
    Ok(places)
}

/// Document 004 counts within the 528-byte message, so its addresses are smaller by the mt parity
/// bits, here 104.
#[test]
fn continuous_mode() {
    let found = located("0A16ABE115E44F767BFB0D0980", 8, 4224).unwrap();
    assert_eq!(found, [3556, 2013, 1166, 535]);
    let printed: Vec<u16> = found.iter().map(|exponent| exponent - 104).collect();
    assert_eq!(printed, [3452, 1909, 1062, 431]);
}

#[test]
fn page_mode() {
    let p0 = "E8B012ADDB5A318E05BEB0693DB28330B5CCA329AA05E0B718EF";
    let p1 = "BAD049A0D932C22E66690948DF08BE09333679C6BA10E5F935EB";
    let p2 = "69D9B86ABCD5EC3697FAA6498FEE54556EA01579EF7D60BA3189";
    assert_eq!(located(p0, 16, 4224), Ok(vec![2899, 1824, 1767, 718]));
    assert_eq!(located(p1, 16, 4224), Ok(vec![212, 158]));
    assert_eq!(located(p2, 16, 4224), Ok(vec![1208]));
    assert_eq!(located("0", 16, 4224), Ok(vec![]));
}

/// The document's tables give each remainder as fragments too.
#[test]
fn printed_fragments() {
    let example = [0xFB0D0980, 0xE44F767B, 0x16ABE115, 0x0000000A, 0, 0, 0];
    let p0 = [
        0xE0B718EF, 0xA329AA05, 0x8330B5CC, 0xB0693DB2, 0x318E05BE, 0x12ADDB5A, 0xE8B0,
    ];
    let printed = [
        (8, "0A16ABE115E44F767BFB0D0980", example),
        (
            16,
            "E8B012ADDB5A318E05BEB0693DB28330B5CCA329AA05E0B718EF",
            p0,
        ),
    ];
    for (t, hexadecimal, printed) in printed {
        let remainder = remainder(hexadecimal, t);
        let mut fragments = [0xFFFF_FFFF; 7];
        export_fragments(t as u64 / 2, &remainder, &mut fragments).unwrap();
        assert_eq!(fragments, printed);
        let mut back = vec![0xFF; remainder.len()];
        import_fragments(t as u64 / 2, &fragments, &mut back).unwrap();
        assert_eq!(back, remainder);
    }
}

#[test]
fn linux_counterexample() {
    let found = located("14150e7b221b361a032c", 6, 6638);
    assert_eq!(found, Err(Reply::Uncorrectable as u8));
}
