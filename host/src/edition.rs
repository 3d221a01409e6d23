//! Editions (document 02, E13).

/// The two editions. They differ in the level fields that there are.
#[derive(Clone, Copy, Debug, PartialEq, Eq)]
pub enum Edition {
    First = 1,
    Second = 2,
}

impl Edition {
    pub const ALL: [Edition; 2] = [Edition::First, Edition::Second];

    /// The edition of a number handed in beside a layout or a level field; none but 1 and 2 are offered.
    pub fn from_number(number: u64) -> Option<Edition> {
        match number {
            1 => Some(Edition::First),
            2 => Some(Edition::Second),
            _ => None,
        }
    }

    /// The highest level field; t is twice the field. In the second edition it is the highest of five bits.
    pub fn highest_level_field(self) -> u64 {
        match self {
            Edition::First => 0x14,
            Edition::Second => 0x1F,
        }
    }
}
