//! The replies of document 01, and of document 02, E7, and their precedence.

/// The replies that refuse a call. Reply 0, done, is `Ok`.
#[derive(Clone, Copy, Debug, PartialEq, Eq)]
pub enum Reply {
    LevelTooHigh = 1,
    EmptyMessage = 2,
    BlockTooLong = 3,
    PageTooSmall = 4,
    PageLength = 5,
    BufferLength = 6,
    OutOfRange = 7,
    RemainderTooWide = 8,
    Uncorrectable = 9,
    ClaimWrong = 10,
    MarkOutside = 11,
}

/// How many numbers there are, 0 included.
pub const NUMBERS: usize = Reply::ALL.len() + 1;

impl Reply {
    pub const ALL: [Reply; 11] = [
        Reply::LevelTooHigh,
        Reply::EmptyMessage,
        Reply::BlockTooLong,
        Reply::PageTooSmall,
        Reply::PageLength,
        Reply::BufferLength,
        Reply::OutOfRange,
        Reply::RemainderTooWide,
        Reply::Uncorrectable,
        Reply::ClaimWrong,
        Reply::MarkOutside,
    ];

    /// Of two replies that apply the one with the smaller precedence is given: the smaller number, but that
    /// 11 is looked at after 3 and before 4.
    pub fn precedence(self) -> u8 {
        match self {
            Reply::MarkOutside => 2 * Reply::BlockTooLong as u8 + 1,
            other => 2 * other as u8,
        }
    }
}

/// A refused call: the reply and the block that goes with it.
#[derive(Clone, Copy, Debug, PartialEq, Eq)]
pub struct Refusal {
    pub reply: Reply,
    pub block: usize,
}

impl Refusal {
    /// Reply 9 about a page, which names its block.
    pub fn uncorrectable(block: usize) -> Refusal {
        Refusal {
            reply: Reply::Uncorrectable,
            block,
        }
    }

    pub fn number(&self) -> u8 {
        self.reply as u8
    }
}

impl From<Reply> for Refusal {
    fn from(reply: Reply) -> Refusal {
        Refusal { reply, block: 0 }
    }
}

/// Refuses with the first of the rules that applies. The rules stand in order of precedence.
pub fn refuse_by(rules: &[(Reply, bool)]) -> Result<(), Refusal> {
    match rules.iter().find(|(_, applies)| *applies) {
        Some((reply, _)) => Err(Refusal::from(*reply)),
        None => Ok(()),
    }
}
