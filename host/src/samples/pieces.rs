//! Samples of messages that arrive in pieces, and of states.

use crate::call::Call;
use crate::code::bch;
use crate::field::FieldChoice;
use crate::pieces::STATE_WORDS;
use crate::random::Random;
use crate::samples::layouts::level_edges;

/// A message and the code that it is taken by.
pub struct Message {
    edition: u64,
    choice: FieldChoice,
    level: usize,
    content: Vec<u8>,
}

impl Message {
    /// One of any level and field: of a byte, short, or as long as it can be.
    pub fn new(random: &mut Random) -> Message {
        let choice = random.pick(&FieldChoice::ALL);
        let level = random.within(0, 31);
        let edition = match level {
            ..=20 => random.pick(&[1, 1, 2]),
            _ => 2,
        };
        let longest = (choice.field().order() - choice.field().m * 2 * level) / 8;
        let (short, any) = (random.within(1, 40), random.within(1, longest));
        let length = match random.below(8) {
            0 => 1,
            1 => longest,
            2 => any,
            _ => short,
        };
        Message {
            edition,
            choice,
            level,
            content: random.bytes(length),
        }
    }

    pub fn start(&self, state: Vec<u64>) -> Call {
        Call::ParityStart {
            state,
            edition: self.edition,
            level_field: self.level as u64,
            field_choice: self.choice as u64,
            length: self.content.len() as u64,
        }
    }

    /// The message cut at random, with pieces that are too long and empty ones between.
    pub fn pieces(&self, random: &mut Random) -> Vec<Vec<u8>> {
        let most = random.pick(&[3, 17, 64, 300, 2100]);
        let mut pieces = Vec::new();
        let mut rest = self.content.as_slice();
        while !rest.is_empty() {
            if random.chance(8) {
                pieces.push(vec![0xFF; rest.len() + 1]);
            }
            let (piece, after) = rest.split_at(random.below(most.min(rest.len()) + 1));
            pieces.push(piece.to_vec());
            rest = after;
        }
        pieces
    }

    pub fn parity_bytes(&self) -> usize {
        let code = bch(self.choice, 2 * self.level);
        code.parity_length().div_ceil(8)
    }

    /// A buffer for the parity that has the right length, or one too many or too few.
    pub fn parity_buffer(&self, random: &mut Random) -> Vec<u8> {
        let right = self.parity_bytes();
        let length = random.pick(&[right, right + 1, right.saturating_sub(1)]);
        vec![0; length]
    }
}

/// A state of random words.
pub fn random_state(random: &mut Random) -> Vec<u64> {
    (0..STATE_WORDS).map(|_| random.number()).collect()
}

/// Starts at both sides of each edge of the level fields, with a message and with none.
pub fn levels(random: &mut Random) -> Vec<Call> {
    let mut starts = Vec::new();
    for (edition, level_field) in level_edges(random) {
        for (field_choice, length) in [(0, 9), (0, 0), (1, 9), (1, 0)] {
            starts.push(Call::ParityStart {
                state: random_state(random),
                edition,
                level_field,
                field_choice,
                length,
            });
        }
    }
    starts
}

/// A start at the edges of the rules, or a feed or a finish of a state that no start has made.
pub fn spoilt(random: &mut Random) -> Call {
    let edges = [0, 1, 20, 21, 31, 32, 256, 1 << 32, (1 << 32) + 1, u64::MAX];
    let mut state = random_state(random);
    let level = random.pick(&edges);
    if random.chance(3) {
        let field_choice = random.pick(&[0, 1, 1, 2, 256, 1 << 32, u64::MAX]);
        let lengths = [0, 0, 0, 1, 900, 1023, 1024, 2047, 2048, 1 << 61, u64::MAX];
        return Call::ParityStart {
            state,
            edition: random.pick(&[1, 1, 1, 2, 2, 2, 0, 3, u64::MAX]),
            level_field: level,
            field_choice,
            length: random.pick(&lengths),
        };
    }
    if random.chance(4) {
        state[4..].fill(0);
    } else {
        state = vec![0; STATE_WORDS];
        state[4 + random.below(4)] = random.number() >> random.below(64);
    }
    state[0] = random.below(35) as u64;
    state[1] = random.below(3) as u64;
    state[2] = random.below(400) as u64;
    let near = random.below(20) as u64;
    state[3] = match random.chance(2) {
        true => state[2].saturating_sub(near),
        false => random.below(500) as u64,
    };
    let length = random.below(40);
    if random.chance(2) {
        let piece = random.bytes(length);
        return Call::ParityFeed { state, piece };
    }
    if random.chance(2) {
        state[3] = state[2];
    }
    let parity = vec![0; random.below(115)];
    Call::ParityFinish { state, parity }
}
