//! The store of layouts with version numbers, the version in use at each chip select, and the page calls that name a
//! version (document 02, E11).
//!
//! Like the other calls of the model each takes any arguments, and a refused call changes nothing.

use crate::layout::check_layout;
use crate::page::{check_claim, judge_block, look_page, take_page, write_page};
use crate::reply::{Refusal, Reply};
use std::collections::BTreeMap;

/// How many layouts a store holds, how many chip selects there are, and the highest version.
pub const PLACES: usize = 32;
pub const CHIP_SELECTS: usize = 16;
pub const HIGHEST: u64 = 65_535;

/// The bytes of the versions in use on flash: 16 numbers of 16 bits.
pub const SAVED: usize = 2 * CHIP_SELECTS;

/// How many numbers there are with the store's own, 0 included.
pub const NUMBERS: usize = 15;

/// Why a call is refused: as every call is, or with one of the store's own numbers.
#[derive(Clone, Copy, Debug, PartialEq, Eq)]
pub enum StoreRefusal {
    Table(Refusal),
    Full,
    NumbersUsedUp,
    InUse,
}

impl StoreRefusal {
    pub fn number(&self) -> u8 {
        match self {
            StoreRefusal::Table(refusal) => refusal.number(),
            StoreRefusal::Full => 12,
            StoreRefusal::NumbersUsedUp => 13,
            StoreRefusal::InUse => 14,
        }
    }
}

impl From<Reply> for StoreRefusal {
    fn from(reply: Reply) -> StoreRefusal {
        StoreRefusal::Table(reply.into())
    }
}

impl From<Refusal> for StoreRefusal {
    fn from(refusal: Refusal) -> StoreRefusal {
        StoreRefusal::Table(refusal)
    }
}

/// An edition and a record, as they were handed in.
#[derive(Clone, Debug, PartialEq, Eq)]
pub struct Stored {
    pub edition: u64,
    pub record: Vec<u8>,
}

/// The layouts by version, how many versions were given so far, and the chip selects that have one in use.
#[derive(Clone, Debug, Default, PartialEq, Eq)]
pub struct Store {
    layouts: BTreeMap<u64, Stored>,
    given: u64,
    in_use: BTreeMap<u64, u64>,
}

impl Store {
    pub fn new() -> Store {
        Store::default()
    }

    /// The versions that the store holds.
    pub fn versions(&self) -> Vec<u64> {
        self.layouts.keys().copied().collect()
    }

    /// What a version was stored with; an unknown version is 7.
    pub fn layout(&self, version: u64) -> Result<&Stored, Refusal> {
        self.layouts.get(&version).ok_or(Reply::OutOfRange.into())
    }

    fn chip_select(chip: u64) -> Result<u64, StoreRefusal> {
        if chip < CHIP_SELECTS as u64 {
            Ok(chip)
        } else {
            Err(Reply::OutOfRange.into())
        }
    }

    /// A version that may be put to use: 0 for none, or one of the store's.
    fn usable(&self, version: u64) -> Result<u64, StoreRefusal> {
        if version != 0 {
            self.layout(version)?;
        }
        Ok(version)
    }

    pub fn store_layout(&mut self, edition: u64, record: &[u8]) -> Result<u64, StoreRefusal> {
        check_layout(edition, record).map_err(|refusal| StoreRefusal::Table(refusal.into()))?;
        if self.layouts.len() == PLACES {
            return Err(StoreRefusal::Full);
        }
        if self.given == HIGHEST {
            return Err(StoreRefusal::NumbersUsedUp);
        }
        self.given += 1;
        let record = record.to_vec();
        self.layouts.insert(self.given, Stored { edition, record });
        Ok(self.given)
    }

    pub fn remove_version(&mut self, version: u64) -> Result<(), StoreRefusal> {
        self.layout(version)?;
        if self.in_use.values().any(|used| *used == version) {
            return Err(StoreRefusal::InUse);
        }
        self.layouts.remove(&version);
        Ok(())
    }

    pub fn use_version(&mut self, chip: u64, version: u64) -> Result<(), StoreRefusal> {
        let chip = Store::chip_select(chip)?;
        let version = self.usable(version)?;
        self.in_use.insert(chip, version);
        Ok(())
    }

    pub fn version_in_use(&self, chip: u64) -> Result<u64, StoreRefusal> {
        let chip = Store::chip_select(chip)?;
        Ok(self.in_use.get(&chip).copied().unwrap_or(0))
    }

    /// Chip select 15 first, most significant bits first.
    pub fn save_versions(&self, buffer: &mut [u8]) -> Result<(), StoreRefusal> {
        if buffer.len() != SAVED {
            return Err(Reply::BufferLength.into());
        }
        for (chip, number) in (0..CHIP_SELECTS as u64).rev().zip(buffer.chunks_mut(2)) {
            let version = self.version_in_use(chip)? as u16;
            number.copy_from_slice(&version.to_be_bytes());
        }
        Ok(())
    }

    /// All 16 numbers are looked at before one of them is put to use.
    pub fn load_versions(&mut self, buffer: &[u8]) -> Result<(), StoreRefusal> {
        if buffer.len() != SAVED {
            return Err(Reply::BufferLength.into());
        }
        let mut loaded = BTreeMap::new();
        for (chip, number) in (0..CHIP_SELECTS as u64).rev().zip(buffer.chunks(2)) {
            let version = u16::from_be_bytes([number[0], number[1]]) as u64;
            loaded.insert(chip, self.usable(version)?);
        }
        self.in_use = loaded;
        Ok(())
    }
}

/// The page calls: the call with what the version was stored with. An unknown version is looked at before everything
/// else.
impl Store {
    pub fn write_version(
        &self,
        version: u64,
        metadata: &[u8],
        data: &[u8],
        page: &mut [u8],
    ) -> Result<(), Refusal> {
        let Stored { edition, record } = self.layout(version)?;
        write_page(*edition, record, metadata, data, page)
    }

    pub fn look_version(
        &self,
        version: u64,
        page: &[u8],
        counts: &mut [u8],
    ) -> Result<(), Refusal> {
        let Stored { edition, record } = self.layout(version)?;
        look_page(*edition, record, page, counts)
    }

    pub fn take_version(
        &self,
        version: u64,
        page: &[u8],
        metadata: &mut [u8],
        data: &mut [u8],
    ) -> Result<(), Refusal> {
        let Stored { edition, record } = self.layout(version)?;
        take_page(*edition, record, page, metadata, data)
    }

    pub fn judge_version(&self, version: u64, page: &[u8], block: u64) -> Result<usize, Refusal> {
        let Stored { edition, record } = self.layout(version)?;
        judge_block(*edition, record, page, block)
    }

    pub fn claim_version(
        &self,
        version: u64,
        page: &[u8],
        block: u64,
        claims: &[u16],
    ) -> Result<(), Refusal> {
        let Stored { edition, record } = self.layout(version)?;
        check_claim(*edition, record, page, block, claims)
    }
}
