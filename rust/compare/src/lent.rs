//! Memory to lend, with guard words on both sides.

use generate::random::Random;

/// How many words guard each side.
const GUARDS: usize = 32;

/// A number of any width, made from 64 random bits.
pub trait Word: Copy + PartialEq {
    fn of(number: u64) -> Self;
}

impl Word for u8 {
    fn of(number: u64) -> u8 {
        number as u8
    }
}

impl Word for u16 {
    fn of(number: u64) -> u16 {
        number as u16
    }
}

impl Word for u64 {
    fn of(number: u64) -> u64 {
        number
    }
}

/// So many random words.
pub fn noise<T: Word>(length: usize, random: &mut Random) -> Vec<T> {
    (0..length).map(|_| T::of(random.number())).collect()
}

/// A slice that stands between guards.
pub struct Lent<T> {
    memory: Vec<T>,
    guards: Vec<T>,
}

impl<T: Word> Lent<T> {
    pub fn new(content: &[T], random: &mut Random) -> Lent<T> {
        let guards: Vec<T> = noise(2 * GUARDS, random);
        let memory = [&guards[..GUARDS], content, &guards[GUARDS..]].concat();
        Lent { memory, guards }
    }

    pub fn content(&self) -> &[T] {
        &self.memory[GUARDS..self.memory.len() - GUARDS]
    }

    pub fn lend(&mut self) -> &mut [T] {
        let end = self.memory.len() - GUARDS;
        &mut self.memory[GUARDS..end]
    }

    /// Are the guards as they were, and is this between them?
    pub fn holds(&self, content: &[T]) -> bool {
        let (before, rest) = self.memory.split_at(GUARDS);
        let (now, after) = rest.split_at(rest.len() - GUARDS);
        before == &self.guards[..GUARDS] && now == content && after == &self.guards[GUARDS..]
    }
}

#[cfg(test)]
mod tests {
    use super::*;

    #[test]
    fn every_word_is_compared() {
        let mut lent = Lent::new(&[1u64, 2, 3], &mut Random::new(1));
        assert!(lent.holds(&[1, 2, 3]));
        lent.lend()[2] = 4;
        assert!(lent.holds(&[1, 2, 4]) && !lent.holds(&[1, 2, 3]));
        for place in 0..lent.memory.len() {
            lent.memory[place] ^= 1;
            assert!(!lent.holds(&[1, 2, 4]));
            lent.memory[place] ^= 1;
        }
        assert!(lent.holds(&[1, 2, 4]));
    }
}
