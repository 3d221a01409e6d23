//! The C interface of the static archive, as a library.

use model::interface;
use model::library::Library;
use std::ptr;

/// The pointer that is handed over for an empty slice.
#[derive(Clone, Copy, Debug)]
pub enum EmptyPointer {
    Own,
    Null,
    Dangling,
}

/// The linked archive.
pub struct Archive {
    pub empty: EmptyPointer,
}

impl Archive {
    fn of<T>(&self, slice: &[T]) -> *const T {
        match self.empty {
            EmptyPointer::Null if slice.is_empty() => ptr::null(),
            EmptyPointer::Dangling if slice.is_empty() => ptr::dangling(),
            _ => slice.as_ptr(),
        }
    }

    fn of_mut<T>(&self, slice: &mut [T]) -> *mut T {
        match self.empty {
            EmptyPointer::Null if slice.is_empty() => ptr::null_mut(),
            EmptyPointer::Dangling if slice.is_empty() => ptr::dangling_mut(),
            _ => slice.as_mut_ptr(),
        }
    }
}

// SAFETY of all calls: each pointer comes with the length of the slice it was taken from; a state has
// as many words as struct rudderfig_parity.
impl Library for Archive {
    fn check_layout(&self, edition: u64, record: &[u8]) -> u64 {
        unsafe { interface::rudderfig_check_layout(edition, self.of(record), record.len()) }
    }

    fn locate_bit(&self, edition: u64, record: &[u8], position: u64) -> u64 {
        unsafe { interface::rudderfig_locate_bit(edition, self.of(record), record.len(), position) }
    }

    fn bit_position(&self, edition: u64, record: &[u8], block: u64, exponent: u64) -> u64 {
        unsafe {
            interface::rudderfig_bit_position(
                edition,
                self.of(record),
                record.len(),
                block,
                exponent,
            )
        }
    }

    fn write_page(
        &self,
        edition: u64,
        record: &[u8],
        metadata: &[u8],
        data: &[u8],
        page: &mut [u8],
    ) -> u64 {
        unsafe {
            interface::rudderfig_write_page(
                edition,
                self.of(record),
                record.len(),
                self.of(metadata),
                metadata.len(),
                self.of(data),
                data.len(),
                self.of_mut(page),
                page.len(),
            )
        }
    }

    fn look_page(&self, edition: u64, record: &[u8], page: &[u8], counts: &mut [u8]) -> u64 {
        unsafe {
            interface::rudderfig_look_page(
                edition,
                self.of(record),
                record.len(),
                self.of(page),
                page.len(),
                self.of_mut(counts),
                counts.len(),
            )
        }
    }

    fn take_page(
        &self,
        edition: u64,
        record: &[u8],
        page: &[u8],
        metadata: &mut [u8],
        data: &mut [u8],
    ) -> u64 {
        unsafe {
            interface::rudderfig_take_page(
                edition,
                self.of(record),
                record.len(),
                self.of(page),
                page.len(),
                self.of_mut(metadata),
                metadata.len(),
                self.of_mut(data),
                data.len(),
            )
        }
    }

    fn judge_block(&self, edition: u64, record: &[u8], page: &[u8], block: u64) -> u64 {
        unsafe {
            interface::rudderfig_judge_block(
                edition,
                self.of(record),
                record.len(),
                self.of(page),
                page.len(),
                block,
            )
        }
    }

    fn locate_errors(
        &self,
        edition: u64,
        level_field: u64,
        field_choice: u64,
        n: u64,
        remainder: &[u8],
        places: &mut [u16],
    ) -> u64 {
        unsafe {
            interface::rudderfig_locate_errors(
                edition,
                level_field,
                field_choice,
                n,
                self.of(remainder),
                remainder.len(),
                self.of_mut(places),
                places.len(),
            )
        }
    }

    fn check_claim(
        &self,
        edition: u64,
        record: &[u8],
        page: &[u8],
        block: u64,
        claims: &[u16],
    ) -> u64 {
        unsafe {
            interface::rudderfig_check_claim(
                edition,
                self.of(record),
                record.len(),
                self.of(page),
                page.len(),
                block,
                self.of(claims),
                claims.len(),
            )
        }
    }

    fn export_fragments(&self, level_field: u64, remainder: &[u8], fragments: &mut [u32]) -> u64 {
        unsafe {
            interface::rudderfig_export_fragments(
                level_field,
                self.of(remainder),
                remainder.len(),
                self.of_mut(fragments),
                fragments.len(),
            )
        }
    }

    fn import_fragments(&self, level_field: u64, fragments: &[u32], remainder: &mut [u8]) -> u64 {
        unsafe {
            interface::rudderfig_import_fragments(
                level_field,
                self.of(fragments),
                fragments.len(),
                self.of_mut(remainder),
                remainder.len(),
            )
        }
    }

    fn parity_start(
        &self,
        state: &mut [u64],
        edition: u64,
        level: u64,
        choice: u64,
        length: u64,
    ) -> u64 {
        let state = state.as_mut_ptr().cast();
        unsafe { interface::rudderfig_parity_start(state, edition, level, choice, length) }
    }

    fn parity_feed(&self, state: &mut [u64], piece: &[u8]) -> u64 {
        let state = state.as_mut_ptr().cast();
        unsafe { interface::rudderfig_parity_feed(state, self.of(piece), piece.len()) }
    }

    fn parity_finish(&self, state: &mut [u64], parity: &mut [u8]) -> u64 {
        let state = state.as_mut_ptr().cast();
        unsafe { interface::rudderfig_parity_finish(state, self.of_mut(parity), parity.len()) }
    }

    fn explain_layout(&self, edition: u64, record: &[u8]) -> u64 {
        unsafe { interface::rudderfig_explain_layout(edition, self.of(record), record.len()) }
    }

    fn explain_block(
        &self,
        edition: u64,
        record: &[u8],
        page: &[u8],
        block: u64,
        list: &mut [u32],
    ) -> u64 {
        unsafe {
            interface::rudderfig_explain_block(
                edition,
                self.of(record),
                record.len(),
                self.of(page),
                page.len(),
                block,
                self.of_mut(list),
                list.len(),
            )
        }
    }

    fn explain_bit(&self, edition: u64, record: &[u8], position: u64) -> u64 {
        unsafe {
            interface::rudderfig_explain_bit(edition, self.of(record), record.len(), position)
        }
    }
}
