//! Vectors of the store: sequences of calls, one a line. `store_pages.rs` has the page calls that name a version.

use crate::{Answer, Vectors};
use model::random::Random;
use model::samples::layouts::records;
use model::store::{CHIP_SELECTS, HIGHEST, PLACES, SAVED, Store, StoreRefusal};

/// Two words that are accepted: case E of document 01.
const ACCEPTED: [u8; 8] = [0x01, 0x00, 0x08, 0x01, 0x00, 0x0F, 0x08, 0x01];

/// How many bytes a line has room for.
const ROOM: usize = 36;

pub fn vectors() -> Vectors {
    let mut run = Run::new();
    run.edges();
    let mut random = Random::new(0x5E77);
    for _ in 0..4 {
        run.call(b'E', 0, 0, &[]);
        for _ in 0..900 {
            run.random_call(&mut random);
        }
    }
    run.to_the_last_number(&mut random);
    run.page_calls();
    run.vectors
}

/// A sequence of calls, the model's store, and the records that are handed in.
pub struct Run {
    pub vectors: Vectors,
    pub store: Store,
    records: Vec<Vec<u8>>,
}

impl Run {
    fn new() -> Run {
        let mut records = records(&mut Random::new(0x1A40));
        records.retain(|record| record.len() <= ROOM);
        Run {
            vectors: Vectors::default(),
            store: Store::new(),
            records,
        }
    }

    /// Makes a call, and adds its line and the model's answer.
    pub fn call(&mut self, kind: u8, first: u64, second: u64, bytes: &[u8]) {
        let answer = self.answer(kind, first, second, bytes);
        let line = format!("{}\n", start(kind, first, second, bytes));
        self.vectors.add(line.as_bytes(), answer);
    }

    fn answer(&mut self, kind: u8, first: u64, second: u64, bytes: &[u8]) -> Answer {
        let store = &mut self.store;
        match kind {
            b'S' => versioned(store.store_layout(first, bytes)),
            b'R' => reply(store.remove_version(first)),
            b'U' => reply(store.use_version(first, second)),
            b'V' => versioned(store.version_in_use(first)),
            b'W' => {
                let mut buffer = bytes.to_vec();
                let answer = reply(store.save_versions(&mut buffer));
                buffer.iter().fold(answer, Answer::with)
            }
            b'L' => reply(store.load_versions(bytes)),
            b'C' => versioned(cycles(store, first, second, bytes)),
            _ => {
                *store = Store::new();
                Answer::alone(0)
            }
        }
    }

    /// Both sides of every limit.
    fn edges(&mut self) {
        for chip in [0, 15, 16, u64::MAX] {
            self.call(b'V', chip, 0, &[]);
            self.call(b'U', chip, 0, &[]);
        }
        for length in [0, SAVED - 1, SAVED, SAVED + 1] {
            self.call(b'W', 0, 0, &vec![0xA5; length]);
            self.call(b'L', 0, 0, &vec![0; length]);
        }
        for version in [0, 1, 65_536, u64::MAX] {
            self.call(b'R', version, 0, &[]);
            self.call(b'U', 3, version, &[]);
        }
        for edition in [0, 3, u64::MAX] {
            self.call(b'S', edition, 0, &ACCEPTED[..7]);
        }
        for record in self.records.clone() {
            self.call(b'S', 1, 0, &record);
            self.call(b'S', 2, 0, &record);
            if let Some(version) = self.store.versions().first().copied() {
                self.call(b'R', version, 0, &[]);
            }
        }
        self.call(b'E', 0, 0, &[]);
        for _ in 0..=PLACES {
            self.call(b'S', 1, 0, &ACCEPTED);
        }
        self.call(b'S', 1, 0, &ACCEPTED[..7]);
        self.call(b'U', 15, 32, &[]);
        self.call(b'U', 0, 1, &[]);
        self.call(b'W', 0, 0, &[0; SAVED]);
        self.call(b'R', 32, 0, &[]);
        self.call(b'R', 7, 0, &[]);
        self.call(b'R', 7, 0, &[]);
        self.call(b'S', 1, 0, &ACCEPTED);
        self.call(b'S', 1, 0, &ACCEPTED);
        self.partly_unknown();
    }

    /// A load whose number for one chip select alone is unknown, for each of them.
    fn partly_unknown(&mut self) {
        for chip in 0..CHIP_SELECTS {
            let mut bytes = [0u8, 2].repeat(CHIP_SELECTS);
            bytes[2 * chip + 1] = 7;
            self.call(b'L', 0, 0, &bytes);
            self.call(b'W', 0, 0, &[0; SAVED]);
        }
        self.call(b'L', 0, 0, &[0u8, 2].repeat(CHIP_SELECTS));
        self.call(b'W', 0, 0, &[0; SAVED]);
    }

    /// A version that the store holds, mostly, or any number.
    pub fn version(&self, random: &mut Random) -> u64 {
        let versions = self.store.versions();
        if versions.is_empty() || random.chance(6) {
            return random.pick(&[0, 1, 33, 65_535, 65_536, 65_537, u64::MAX]);
        }
        random.pick(&versions)
    }

    pub fn random_call(&mut self, random: &mut Random) {
        let version = self.version(random);
        let chip = random.within(0, CHIP_SELECTS) as u64;
        let edition = random.pick(&[1, 1, 2, 2, 2, 3]);
        match random.below(9) {
            0..=2 => {
                let any = random.below(self.records.len());
                let record = match random.chance(3) {
                    true => self.records[any].clone(),
                    false => ACCEPTED.to_vec(),
                };
                self.call(b'S', edition, 0, &record);
            }
            3 => self.call(b'R', version, 0, &[]),
            4 => self.call(b'U', chip, version, &[]),
            5 => self.call(b'U', chip, 0, &[]),
            6 => self.call(b'V', chip, 0, &[]),
            7 => self.call(b'W', 0, 0, &random.bytes(SAVED)),
            _ => {
                let mut bytes: Vec<u8> = (0..CHIP_SELECTS)
                    .flat_map(|_| match random.chance(2) {
                        true => [0, 0],
                        false => (self.known(random) as u16).to_be_bytes(),
                    })
                    .collect();
                if random.chance(3) {
                    let at = 2 * random.below(CHIP_SELECTS);
                    bytes[at..at + 2].copy_from_slice(&(version as u16).to_be_bytes());
                }
                self.call(b'L', 0, 0, &bytes);
            }
        }
    }

    /// A version that the store holds, or 0.
    fn known(&self, random: &mut Random) -> u64 {
        let versions = self.store.versions();
        match versions.as_slice() {
            [] => 0,
            versions => random.pick(versions),
        }
    }

    /// Runs the numbers to the last one and past it, with a store that is not full, and with one that is.
    fn to_the_last_number(&mut self, random: &mut Random) {
        self.call(b'E', 0, 0, &[]);
        self.call(b'C', 1, HIGHEST - 40, &ACCEPTED);
        for _ in 0..20 {
            self.call(b'S', 2, 0, &ACCEPTED);
        }
        self.call(b'U', 9, HIGHEST - 30, &[]);
        for _ in 0..300 {
            self.random_call(random);
        }
        for _ in 0..=PLACES {
            self.call(b'S', 1, 0, &ACCEPTED);
        }
        for version in self.store.versions() {
            self.call(b'U', 2, version, &[]);
            self.call(b'W', 0, 0, &[0; SAVED]);
            self.call(b'U', 2, 0, &[]);
            self.call(b'R', version, 0, &[]);
            self.call(b'S', 1, 0, &ACCEPTED);
            self.call(b'S', 1, 0, &ACCEPTED[..7]);
        }
        self.call(b'C', 1, 3, &ACCEPTED);
    }
}

/// What every line starts with.
pub fn start(kind: u8, first: u64, second: u64, bytes: &[u8]) -> String {
    let digits = digits(bytes);
    let (kind, length, width) = (kind as char, bytes.len(), 2 * ROOM);
    format!("{kind} {first:016x} {second:016x} {length:02x} {digits:.<width$}")
}

/// The bytes as hexadecimal digits.
pub fn digits(bytes: &[u8]) -> String {
    bytes.iter().map(|byte| format!("{byte:02x}")).collect()
}

/// Stores a layout and removes its version, so many times: the last answer to storing.
fn cycles(store: &mut Store, edition: u64, times: u64, record: &[u8]) -> Result<u64, StoreRefusal> {
    let mut last = Ok(0);
    for _ in 0..times {
        last = store.store_layout(edition, record);
        if let Ok(version) = last {
            let removed = store.remove_version(version);
            assert_eq!(removed, Ok(()));
        }
    }
    last
}

fn reply(outcome: Result<(), StoreRefusal>) -> Answer {
    Answer::alone(outcome.map_or_else(|refusal| refusal.number(), |()| 0))
}

/// The reply and the version beside it, 0 beside a refusal.
fn versioned(outcome: Result<u64, StoreRefusal>) -> Answer {
    match outcome {
        Ok(version) => Answer::alone(0).with(version),
        Err(refusal) => Answer::alone(refusal.number()).with(0),
    }
}
