//! The model's store (document 02, E11): its limits, its order of replies, and what it keeps.

use model::Reply;
use model::random::Random;
use model::store::{HIGHEST, PLACES, SAVED, Store, StoreRefusal};

/// Case E of document 01, and the same with a page one byte too small.
const ACCEPTED: [u8; 8] = [0x01, 0x00, 0x08, 0x01, 0x00, 0x0F, 0x08, 0x01];
const TOO_SMALL: [u8; 8] = [0x01, 0x00, 0x08, 0x01, 0x00, 0x0E, 0x08, 0x01];

fn filled(count: usize) -> Store {
    let mut store = Store::new();
    for version in 1..=count as u64 {
        assert_eq!(store.store_layout(1, &ACCEPTED), Ok(version));
    }
    store
}

fn number<T>(outcome: Result<T, StoreRefusal>) -> u8 {
    outcome.map_or_else(|refusal| refusal.number(), |_| 0)
}

#[test]
fn the_33rd_layout_is_refused_with_12_and_a_removal_makes_room() {
    let mut store = filled(PLACES);
    assert_eq!(number(store.store_layout(1, &ACCEPTED)), 12);
    assert_eq!(store.remove_version(5), Ok(()));
    assert_eq!(store.store_layout(1, &ACCEPTED), Ok(33));
    assert_eq!(number(store.remove_version(5)), 7);
}

#[test]
fn a_refused_layout_keeps_its_number_and_uses_up_no_version() {
    let mut store = filled(PLACES);
    let before = store.clone();
    assert_eq!(number(store.store_layout(3, &ACCEPTED[..7])), 7);
    assert_eq!(number(store.store_layout(1, &ACCEPTED[..7])), 6);
    assert_eq!(number(store.store_layout(1, &TOO_SMALL)), 4);
    assert_eq!(store, before);
    let mut store = filled(1);
    assert_eq!(number(store.store_layout(1, &TOO_SMALL)), 4);
    assert_eq!(store.store_layout(1, &ACCEPTED), Ok(2));
}

#[test]
fn numbers_go_to_65535_and_12_is_looked_at_before_13() {
    let mut store = filled(PLACES);
    for version in PLACES as u64 + 1..=HIGHEST {
        assert_eq!(store.remove_version(version - 1), Ok(()));
        assert_eq!(store.store_layout(2, &ACCEPTED), Ok(version));
    }
    assert_eq!(number(store.store_layout(1, &ACCEPTED)), 12);
    assert_eq!(store.remove_version(HIGHEST), Ok(()));
    assert_eq!(number(store.store_layout(1, &ACCEPTED)), 13);
    assert_eq!(number(store.store_layout(1, &TOO_SMALL)), 4);
}

#[test]
fn a_version_in_use_is_not_removed() {
    let mut store = filled(2);
    assert_eq!(store.use_version(15, 2), Ok(()));
    assert_eq!(number(store.remove_version(2)), 14);
    assert_eq!(store.use_version(15, 0), Ok(()));
    assert_eq!(store.remove_version(2), Ok(()));
    for unknown in [(16, 1), (0, 2), (0, 65_537), (u64::MAX, 0)] {
        assert_eq!(number(store.use_version(unknown.0, unknown.1)), 7);
    }
    assert_eq!(store.version_in_use(16), Err(Reply::OutOfRange.into()));
}

#[test]
fn chip_select_15_is_written_first_most_significant_bits_first() {
    let mut store = filled(4);
    assert_eq!(store.use_version(15, 3), Ok(()));
    assert_eq!(store.use_version(0, 4), Ok(()));
    let mut buffer = [0xA5; SAVED];
    assert_eq!(store.save_versions(&mut buffer), Ok(()));
    assert_eq!(buffer[..4], [0, 3, 0, 0]);
    assert_eq!(buffer[28..], [0, 0, 0, 4]);
}

#[test]
fn a_load_sets_all_or_nothing_and_undoes_a_write() {
    let mut random = Random::new(0x10AD);
    let mut store = filled(20);
    for chip in 0..16 {
        let version = random.within(0, 20) as u64;
        assert_eq!(store.use_version(chip, version), Ok(()));
    }
    let mut bytes = [0; SAVED];
    assert_eq!(store.save_versions(&mut bytes), Ok(()));
    let before = store.clone();
    for at in 0..16 {
        let mut wrong = bytes;
        wrong[2 * at] = 0x01;
        assert_eq!(number(store.load_versions(&wrong)), 7);
        assert_eq!(store, before);
    }
    assert_eq!(number(store.load_versions(&bytes[1..])), 6);
    assert_eq!(number(store.save_versions(&mut [0; SAVED + 1])), 6);
    assert_eq!(store.load_versions(&[0; SAVED]), Ok(()));
    assert_eq!(store.load_versions(&bytes), Ok(()));
    assert_eq!(store, before);
}

#[test]
fn a_page_call_under_an_unknown_version_is_7_before_everything_else() {
    let mut store = filled(2);
    assert_eq!(store.remove_version(1), Ok(()));
    let unknown = Err(Reply::OutOfRange.into());
    for version in [0, 1, 3, 65_538, u64::MAX] {
        let (mut page, mut counts) = ([0xA5; 3], [0xA5; 5]);
        let lent = (page, counts);
        assert_eq!(store.write_version(version, &[], &[], &mut page), unknown);
        assert_eq!(store.look_version(version, &page, &mut counts), unknown);
        assert_eq!(
            store.take_version(version, &[], &mut page, &mut counts),
            unknown
        );
        assert_eq!(
            store.judge_version(version, &page, 9),
            unknown.map(|()| 0usize)
        );
        assert_eq!(store.claim_version(version, &page, 9, &[7, 7]), unknown);
        assert_eq!((page, counts), lent);
    }
}

#[test]
fn a_page_is_read_under_the_version_it_was_written_under_or_one_of_the_same_layout() {
    let mut store = filled(1);
    let data = [1, 2, 3, 4, 5, 6, 7, 8];
    let mut page = [0; 15];
    assert_eq!(store.write_version(1, &[], &data, &mut page), Ok(()));
    page[0] ^= 0x80;
    assert_eq!(store.judge_version(1, &page, 0), Ok(1));
    assert_eq!(store.claim_version(1, &page, 0, &[57]), Ok(()));
    assert_eq!(store.store_layout(2, &ACCEPTED), Ok(2));
    assert_eq!(store.remove_version(1), Ok(()));
    let (mut counts, mut taken) = ([0xA5; 2], [0xA5; 8]);
    assert_eq!(store.look_version(2, &page, &mut counts), Ok(()));
    assert_eq!(counts, [1, 0]);
    assert_eq!(store.take_version(2, &page, &mut [], &mut taken), Ok(()));
    assert_eq!(taken, data);
}
