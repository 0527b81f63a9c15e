//! Lists that are lent to the library. Each is filled with a random pattern beforehand and lies between two guards, so that a
//! place that must stay as it was, inside or outside, is seen to stay.

use crate::random::Random;

const GUARD: usize = 8;

/// A number that a list can be filled with.
pub trait Word: Copy + PartialEq + std::fmt::Debug {
    fn of(word: u64) -> Self;
}

impl Word for u8 {
    fn of(word: u64) -> u8 {
        word as u8
    }
}

impl Word for u16 {
    fn of(word: u64) -> u16 {
        word as u16
    }
}

impl Word for u32 {
    fn of(word: u64) -> u32 {
        word as u32
    }
}

impl Word for u64 {
    fn of(word: u64) -> u64 {
        word
    }
}

pub struct Lent<T> {
    cells: Vec<T>,
    before: Vec<T>,
}

impl<T: Word> Lent<T> {
    pub fn new(random: &mut Random, length: usize) -> Lent<T> {
        let mut word = random.word();
        let cells: Vec<T> = (0..length + 2 * GUARD)
            .map(|_| {
                word = word.wrapping_mul(6364136223846793005).wrapping_add(1442695040888963407);
                T::of(word >> 24)
            })
            .collect();
        let before = cells.clone();
        Lent { cells, before }
    }

    /// A list that is lent to be read: it has this content, and must keep it.
    pub fn of(random: &mut Random, content: &[T]) -> Lent<T> {
        let mut lent = Lent::new(random, content.len());
        lent.cells[GUARD..GUARD + content.len()].copy_from_slice(content);
        lent.before.copy_from_slice(&lent.cells);
        lent
    }

    pub fn pointer(&mut self) -> *mut T {
        self.cells[GUARD..].as_mut_ptr()
    }

    pub fn length(&self) -> usize {
        self.cells.len() - 2 * GUARD
    }

    /// The list as it was lent.
    pub fn before(&self) -> &[T] {
        &self.before[GUARD..self.before.len() - GUARD]
    }

    /// The list as it is now.
    pub fn now(&self) -> &[T] {
        &self.cells[GUARD..self.cells.len() - GUARD]
    }

    fn guarded(&self, name: &str) -> Result<(), String> {
        let end = self.cells.len() - GUARD;
        if self.cells[..GUARD] != self.before[..GUARD] || self.cells[end..] != self.before[end..] {
            return Err(format!("{name}: a place outside the lent list was changed"));
        }
        Ok(())
    }

    /// The list begins with `filled` and is beyond it as before.
    pub fn holds(&self, name: &str, filled: &[T]) -> Result<(), String> {
        self.guarded(name)?;
        let (now, rest) = (self.now(), &self.before()[filled.len()..]);
        if now[..filled.len()] == *filled && now[filled.len()..] == *rest {
            return Ok(());
        }
        let should = filled.iter().chain(rest);
        let differs = now.iter().zip(should).enumerate().find(|(_, (is, should))| is != should);
        Err(format!("{name}: of {} places this one differs (place, is, should be): {differs:?}", now.len()))
    }

    pub fn is_kept(&self, name: &str) -> Result<(), String> {
        self.holds(name, &[])
    }

    pub fn is_zero(&self, name: &str) -> Result<(), String> {
        self.guarded(name)?;
        match self.now().iter().position(|&x| x != T::of(0)) {
            None => Ok(()),
            Some(i) => Err(format!("{name}: place {i} of {} is not zero", self.length())),
        }
    }

    /// Nothing is asked of the content.
    pub fn is_free(&self, name: &str) -> Result<(), String> {
        self.guarded(name)
    }
}
