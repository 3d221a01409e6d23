//! A model of document 01 in plain Rust: layout records, page bits, the BCH codes over GF(2^13) and
//! GF(2^14), writing pages and reading them, locating from a remainder and checking claims.
//!
//! The model is the yardstick of the tests, so it follows the paper's definitions and is not fast.
//! A word is a vector of bits, highest power first. The calls of document 01 are
//!
//! - [`check_layout`]: is this layout acceptable?
//! - [`locate_bit`], [`bit_position`]: page bit to block and exponent, tail or mark, and back (document 02, E7,
//!   has the bit stream leave the factory's mark out);
//! - [`write_page`]: payload to page;
//! - [`look_page`], [`take_page`]: page to one count a block, and page to payload (document 02, E6, makes
//!   two calls of reading);
//! - [`judge_block`]: the count of one block: its flips, or 128 plus its zeros if it is erased
//!   (document 02, E1);
//! - [`locate_errors`]: the wrong bits, from a remainder alone;
//! - [`check_claim`]: are these error locations right?
//! - [`pieces::Pieces`]: the parity of a block whose message arrives in pieces (document 02, E4).
//!
//! and those of document 02
//!
//! - [`export_fragments`], [`import_fragments`]: a remainder to a hardware locator's fragments, and back;
//! - those of [`sectors`]: the calls on layouts and pages, for pages of sectors (E12);
//! - [`store::Store`]: layouts with version numbers, and the version in use at each chip select (E11);
//! - [`compare_readings`]: what became of each block between two readings of a page, and where they differ (E10);
//! - [`explain_layout`], [`explain_block`], [`explain_bit`]: why a layout is refused, what became of a block, and
//!   what a page bit is (document 02, E2).
//!
//! Each that takes a layout or a level field is handed the edition before it (document 02, E13), but for those
//! on fragments. Each takes any arguments. `Ok` is reply 0; a [`Refusal`] holds the reply's number and block, and
//! then every lent buffer keeps its content, but for the counts of a look that is refused with 9.
//!
//! The decoder is that of Peterson, Gorenstein and Zierler: the error locator solves a linear system
//! of syndromes, every exponent below n is tried as a root, and the set found is returned only if
//! it is confirmed by the definition of the code.

pub mod bits;
pub mod call;
pub mod code;
pub mod compare;
pub mod decoder;
pub mod edition;
pub mod explain;
pub mod field;
pub mod fragments;
pub mod guarded;
pub mod header;
#[cfg(feature = "archive")]
pub mod interface;
pub mod layout;
pub mod library;
pub mod locate;
pub mod outcome;
pub mod page;
pub mod pieces;
pub mod random;
pub mod readings;
pub mod reply;
pub mod samples;
pub mod sectors;
pub mod store;

pub use explain::{explain_bit, explain_block, explain_layout};
pub use fragments::{export_fragments, import_fragments};
pub use layout::{BitPlace, Layout, bit_position, check_layout, locate_bit};
pub use locate::locate_errors;
pub use page::{check_claim, judge_block, look_page, take_page, write_page};
pub use readings::compare_readings;
pub use reply::{Refusal, Reply};
