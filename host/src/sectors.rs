//! Pages of sectors, the other controller family (document 02, E12). A sector is a block: its data and parity are
//! the covered bits. Ones pad the parity to a byte, and the sector to a multiple of eight bytes; they belong to the
//! tail. A page of sectors has neither metadata nor a mark, and its calls are those of [`crate::page`].

use crate::edition::Edition;
use crate::field::FieldChoice;
use crate::layout::{BitPlace, Block, Layout};
use crate::reply::{Refusal, Reply, refuse_by};

/// The six numbers of a page of sectors.
#[derive(Clone, Copy, Debug, PartialEq, Eq)]
pub struct Sectors {
    pub count: u16,
    pub size: u16,
    pub last_size: u16,
    pub level_field: u16,
    pub field_choice: u16,
    pub page_size: u16,
}

/// The most sectors that a page may have.
pub const MOST_SECTORS: u16 = 16;

/// A sector's length in bytes is a multiple of this.
const ALIGNMENT: usize = 8;

/// The bytes of a sector: data, then parity in whole bytes, then bytes until the length is a multiple of eight.
pub fn sector_bytes(sector: &Block) -> usize {
    let parity_bits = sector.covered_bits() - sector.message_bits;
    let bytes = sector.message_bits / 8 + parity_bits.div_ceil(8);
    bytes.next_multiple_of(ALIGNMENT)
}

impl Sectors {
    /// The layout of so many sectors, at least one. The sector size is that of all but the last, so it is not
    /// examined where there is one.
    pub fn layout(&self, choice: FieldChoice) -> Layout {
        let sector = |size: u16| Block::new(size as usize, choice, self.level_field);
        let mut sectors = vec![sector(self.size); self.count as usize - 1];
        sectors.push(sector(self.last_size));
        Layout::new(sectors, |sector| 8 * sector_bytes(sector), self.page_size)
    }
}

/// Is this layout of sectors acceptable? Their count, the field choice and the edition are looked at first.
pub fn check(edition: u64, sectors: &Sectors) -> Result<Layout, Refusal> {
    let offered = (1..=MOST_SECTORS).contains(&sectors.count);
    refuse_by(&[(Reply::OutOfRange, !offered)])?;
    let choice = FieldChoice::from_number(sectors.field_choice as u64);
    let choice = choice.ok_or(Reply::OutOfRange)?;
    let edition = Edition::from_number(edition).ok_or(Reply::OutOfRange)?;
    sectors.layout(choice).accepted(edition)
}

/// Where does a page bit belong? Pads answer as tail, and nothing as mark.
pub fn locate_bit(edition: u64, sectors: &Sectors, position: u64) -> Result<BitPlace, Refusal> {
    check(edition, sectors)?.locate_bit(position)
}

/// Where does a code bit lie?
pub fn bit_position(
    edition: u64,
    sectors: &Sectors,
    block: u64,
    exponent: u64,
) -> Result<usize, Refusal> {
    check(edition, sectors)?.bit_position(block, exponent)
}

/// Writes the page of the sectors' data, first sector first; pads and what follows the last sector are ones.
pub fn write(edition: u64, sectors: &Sectors, data: &[u8], page: &mut [u8]) -> Result<(), Refusal> {
    check(edition, sectors)?.write(&[], data, page)
}

/// Looks at a page: one count a sector, as [`crate::look_page`] leaves them.
pub fn look(
    edition: u64,
    sectors: &Sectors,
    page: &[u8],
    counts: &mut [u8],
) -> Result<(), Refusal> {
    check(edition, sectors)?.look(page, counts)
}

/// Takes the sectors' data out of a page.
pub fn take(edition: u64, sectors: &Sectors, page: &[u8], data: &mut [u8]) -> Result<(), Refusal> {
    check(edition, sectors)?.take(page, &mut [], data)
}

/// The count of one sector.
pub fn judge(edition: u64, sectors: &Sectors, page: &[u8], block: u64) -> Result<usize, Refusal> {
    check(edition, sectors)?.judge(page, block)
}

/// Are these error locations right?
pub fn claim(
    edition: u64,
    sectors: &Sectors,
    page: &[u8],
    block: u64,
    claims: &[u16],
) -> Result<(), Refusal> {
    check(edition, sectors)?.claim(page, block, claims)
}
