//! The file of calls. Numbers are written lowest byte first.
//!
//!     u32 number of calls
//!     each call: u8 its number in the header, u8 its arguments
//!         each argument: u8 bytes of an element, 0 for a number, and 8 for a state
//!             a number: u64
//!             a buffer: u32 elements, its content before, u8 whether it changes, its content after if so
//!         u64 the answer

use model::call::Argument;
use model::compare::Seen;

pub struct Record {
    names: Vec<String>,
    written: Vec<u8>,
    pub calls: u32,
    /// FNV-1a, 64 bits, over each answer and what each buffer holds after the call.
    pub digest: u64,
}

impl Record {
    pub fn new(names: &[&str]) -> Record {
        Record {
            names: names.iter().map(|name| name.to_string()).collect(),
            written: Vec::new(),
            calls: 0,
            digest: 0xCBF2_9CE4_8422_2325,
        }
    }

    pub fn bytes(&self) -> Vec<u8> {
        [&self.calls.to_le_bytes(), self.written.as_slice()].concat()
    }

    fn digest(&mut self, bytes: &[u8]) {
        for &byte in bytes {
            self.digest = (self.digest ^ byte as u64).wrapping_mul(0x100_0000_01B3);
        }
    }

    pub fn add(&mut self, seen: &Seen) {
        let number = self.names.iter().position(|name| name == seen.call.name());
        let (before, after) = (seen.call.arguments(), seen.after.arguments());
        self.written.push(number.expect(seen.call.name()) as u8);
        self.written.push(before.len() as u8);
        self.digest(&seen.answer.to_le_bytes());
        for (before, after) in before.iter().zip(&after) {
            self.argument(before, after);
        }
        self.written.extend(seen.answer.to_le_bytes());
        self.calls += 1;
    }

    fn argument(&mut self, before: &Argument, after: &Argument) {
        match (before, after) {
            (Argument::Number(number), _) => {
                self.written.push(0);
                self.written.extend(number.to_le_bytes());
            }
            (Argument::Buffer { size, content }, Argument::Buffer { content: left, .. }) => {
                self.buffer(*size, content, left);
            }
            (Argument::State { content }, Argument::State { content: left }) => {
                self.buffer(8, content, left);
            }
            _ => unreachable!("an argument keeps its kind"),
        }
    }

    fn buffer(&mut self, size: usize, before: &[u8], after: &[u8]) {
        self.written.push(size as u8);
        let elements = (before.len() / size) as u32;
        self.written.extend(elements.to_le_bytes());
        self.written.extend(before);
        self.written.push((before != after) as u8);
        if before != after {
            self.written.extend(after);
        }
        self.digest(after);
    }
}
