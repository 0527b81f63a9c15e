//! A nested loop with marks: document 002's signature nested loop, in memory. Every left set that has an item against every right set,
//! first by a word in which each item sets one of 64 bits, then by a merge of the items.

use super::{is_within, Peer};
use crate::workloads::{Sets, Workload};

#[derive(Default)]
pub struct NestedLoop {
    left: Vec<u64>,
    right: Vec<u64>,
}

fn mark_all(sets: &Sets, marks: &mut Vec<u64>) {
    marks.clear();
    marks.extend(sets.iter().map(|set| set.iter().fold(0, |mark, &item| mark | 1 << (item % 64))));
}

impl Peer for NestedLoop {
    fn join(&mut self, w: &Workload, pairs: &mut [[u16; 2]]) -> usize {
        mark_all(&w.left, &mut self.left);
        mark_all(&w.right, &mut self.right);
        let mut n = 0;
        for (k, (set, mark)) in w.left.iter().zip(&self.left).enumerate().filter(|(_, (set, _))| !set.is_empty()) {
            for (s, other) in self.right.iter().enumerate() {
                if mark & !other == 0 && is_within(set, w.right.set(s)) {
                    pairs[n] = [k as u16, s as u16];
                    n += 1;
                }
            }
        }
        n
    }
}
