//! The exported calls of the static archive, as `include/rudderfig.h` declares them.

/// The words of [`Parity`].
pub const PARITY_WORDS: usize = 18;

/// What a caller keeps of a block whose message arrives in pieces.
#[repr(C)]
pub struct Parity {
    pub words: [u64; PARITY_WORDS],
}

unsafe extern "C" {
    pub fn rudderfig_check_layout(edition: u64, record: *const u8, record_len: usize) -> u64;

    pub fn rudderfig_locate_bit(
        edition: u64,
        record: *const u8,
        record_len: usize,
        position: u64,
    ) -> u64;

    pub fn rudderfig_bit_position(
        edition: u64,
        record: *const u8,
        record_len: usize,
        block: u64,
        exponent: u64,
    ) -> u64;

    pub fn rudderfig_write_page(
        edition: u64,
        record: *const u8,
        record_len: usize,
        metadata: *const u8,
        metadata_len: usize,
        data: *const u8,
        data_len: usize,
        page: *mut u8,
        page_len: usize,
    ) -> u64;

    pub fn rudderfig_look_page(
        edition: u64,
        record: *const u8,
        record_len: usize,
        page: *const u8,
        page_len: usize,
        counts: *mut u8,
        counts_len: usize,
    ) -> u64;

    pub fn rudderfig_take_page(
        edition: u64,
        record: *const u8,
        record_len: usize,
        page: *const u8,
        page_len: usize,
        metadata: *mut u8,
        metadata_len: usize,
        data: *mut u8,
        data_len: usize,
    ) -> u64;

    pub fn rudderfig_judge_block(
        edition: u64,
        record: *const u8,
        record_len: usize,
        page: *const u8,
        page_len: usize,
        block: u64,
    ) -> u64;

    pub fn rudderfig_locate_errors(
        edition: u64,
        level_field: u64,
        field_choice: u64,
        n: u64,
        remainder: *const u8,
        remainder_len: usize,
        places: *mut u16,
        places_len: usize,
    ) -> u64;

    pub fn rudderfig_check_claim(
        edition: u64,
        record: *const u8,
        record_len: usize,
        page: *const u8,
        page_len: usize,
        block: u64,
        claims: *const u16,
        claims_len: usize,
    ) -> u64;

    pub fn rudderfig_export_fragments(
        level_field: u64,
        remainder: *const u8,
        remainder_len: usize,
        fragments: *mut u32,
        fragments_len: usize,
    ) -> u64;

    pub fn rudderfig_import_fragments(
        level_field: u64,
        fragments: *const u32,
        fragments_len: usize,
        remainder: *mut u8,
        remainder_len: usize,
    ) -> u64;

    pub fn rudderfig_parity_start(
        state: *mut Parity,
        edition: u64,
        level_field: u64,
        field_choice: u64,
        length: u64,
    ) -> u64;

    pub fn rudderfig_parity_feed(state: *mut Parity, piece: *const u8, piece_len: usize) -> u64;

    pub fn rudderfig_parity_finish(state: *mut Parity, parity: *mut u8, parity_len: usize) -> u64;

    pub fn rudderfig_explain_layout(edition: u64, record: *const u8, record_len: usize) -> u64;

    pub fn rudderfig_explain_block(
        edition: u64,
        record: *const u8,
        record_len: usize,
        page: *const u8,
        page_len: usize,
        block: u64,
        list: *mut u32,
        list_len: usize,
    ) -> u64;

    pub fn rudderfig_explain_bit(
        edition: u64,
        record: *const u8,
        record_len: usize,
        position: u64,
    ) -> u64;
}
