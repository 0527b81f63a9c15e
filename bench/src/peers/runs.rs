//! What a method finds: every method here settles a left set at one place of its walk, so that its right sets come as one run, in the order of
//! their places.

use std::ops::Range;

#[derive(Default)]
pub struct Runs {
    rights: Vec<u16>,
    of: Vec<Range<usize>>,
}

impl Runs {
    pub fn clear(&mut self, lefts: usize) {
        self.rights.clear();
        self.of.clear();
        self.of.resize(lefts, 0..0);
    }

    /// The right sets that contain left set k.
    pub fn add(&mut self, k: u16, rights: impl Iterator<Item = u16>) {
        let start = self.rights.len();
        self.rights.extend(rights);
        self.of[k as usize] = start..self.rights.len();
    }

    /// The pairs in rising order of left sets.
    pub fn write(&self, pairs: &mut [[u16; 2]]) -> usize {
        let mut rest = pairs;
        for (k, run) in self.of.iter().enumerate() {
            let (these, later) = rest.split_at_mut(run.len());
            for (pair, &s) in these.iter_mut().zip(&self.rights[run.clone()]) {
                *pair = [k as u16, s];
            }
            rest = later;
        }
        self.rights.len()
    }
}
