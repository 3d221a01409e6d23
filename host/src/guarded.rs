//! Buffers with guard places on both sides.

use crate::random::Random;

const SIDE: usize = 32;

/// A lent buffer between guard places, at any alignment.
pub struct Guarded<T> {
    places: Vec<T>,
    start: usize,
    length: usize,
    guard: T,
}

/// A place outside a lent buffer was written.
#[derive(Clone, Copy, Debug, PartialEq, Eq)]
pub struct GuardBroken;

impl<T: Copy + PartialEq> Guarded<T> {
    pub fn new(content: &[T], guard: T, random: &mut Random) -> Guarded<T> {
        let start = SIDE + random.below(8);
        let mut places = vec![guard; start];
        places.extend_from_slice(content);
        places.resize(start + content.len() + SIDE, guard);
        Guarded {
            places,
            start,
            length: content.len(),
            guard,
        }
    }

    pub fn lend(&mut self) -> &mut [T] {
        &mut self.places[self.start..self.start + self.length]
    }

    /// The content, if the guards still hold what they held.
    pub fn content(&self) -> Result<Vec<T>, GuardBroken> {
        let (before, rest) = self.places.split_at(self.start);
        let (content, after) = rest.split_at(self.length);
        match before.iter().chain(after).all(|place| *place == self.guard) {
            true => Ok(content.to_vec()),
            false => Err(GuardBroken),
        }
    }
}

#[cfg(test)]
mod tests {
    use super::*;

    #[test]
    fn writes_next_to_the_buffer_are_seen() {
        let mut random = Random::new(1);
        let mut buffer = Guarded::new(&[1, 2, 3], 9, &mut random);
        buffer.lend().copy_from_slice(&[4, 5, 6]);
        assert_eq!(buffer.content(), Ok(vec![4, 5, 6]));
        for place in [buffer.start - 1, buffer.start + 3] {
            let held = std::mem::replace(&mut buffer.places[place], 4);
            assert_eq!(buffer.content(), Err(GuardBroken));
            buffer.places[place] = held;
        }
    }
}
