//! Bit rows: for each item a row with a bit for each right set; a left set's pairs are the bits that the rows of its items share. No index, no
//! order of items, no counts: what the machine can do at 4,096 sets a side. The way depends on the
//! number of right sets: one is a row of items, up to 1,024 are rows of at most 16 words, more have two levels.

use super::Peer;
use crate::workloads::Workload;

#[derive(Default)]
pub struct BitRows {
    rows: Vec<u64>,
    /// For each item the blocks of 64 right sets in which some set holds it.
    blocks: Vec<u64>,
    known: Known,
}

/// Writes [k, s] for each bit of a word, the bits of a block of right sets.
fn list_bits(mut word: u64, k: usize, block: usize, pairs: &mut [[u16; 2]], n: &mut usize) {
    while word != 0 {
        pairs[*n] = [k as u16, (64 * block) as u16 + word.trailing_zeros() as u16];
        *n += 1;
        word &= word - 1;
    }
}

/// One right set: its items as bits, and every left set is probed.
fn probe(w: &Workload, rows: &mut Vec<u64>, pairs: &mut [[u16; 2]]) -> usize {
    rows.clear();
    rows.resize(w.t.div_ceil(64), 0);
    w.right.set(0).iter().for_each(|&item| rows[item as usize / 64] |= 1 << (item % 64));
    let mut n = 0;
    for (k, set) in w.left.iter().enumerate() {
        if !set.is_empty() && set.iter().all(|&item| rows[item as usize / 64] >> (item % 64) & 1 == 1) {
            pairs[n] = [k as u16, 0];
            n += 1;
        }
    }
    n
}

/// Rows of W words, whole rows at a time until nothing is shared.
fn join_rows<const W: usize>(w: &Workload, rows: &mut Vec<u64>, pairs: &mut [[u16; 2]]) -> usize {
    rows.clear();
    rows.resize(w.t * W, 0);
    let (rows, _) = rows.as_chunks_mut::<W>();
    for (s, set) in w.right.iter().enumerate() {
        set.iter().for_each(|&item| rows[item as usize][s / 64] |= 1 << (s % 64));
    }
    let mut n = 0;
    for (k, set) in w.left.iter().enumerate() {
        let Some((&first, others)) = set.split_first() else { continue };
        let mut shared = rows[first as usize];
        for &item in others {
            let mut any = 0;
            for (word, other) in shared.iter_mut().zip(&rows[item as usize]) {
                *word &= other;
                any |= *word;
            }
            if any == 0 {
                break;
            }
        }
        shared.iter().enumerate().for_each(|(block, &word)| list_bits(word, k, block, pairs, &mut n));
    }
    n
}

/// Left sets by content, so that one that equals an earlier one can take its run.
#[derive(Default)]
struct Known {
    slots: Vec<u16>,
    runs: Vec<(u32, u32)>,
}

const FREE: u16 = u16::MAX;

impl Known {
    fn clear(&mut self, lefts: usize) {
        self.slots.clear();
        self.slots.resize(8192, FREE);
        self.runs.resize(lefts, (0, 0));
    }

    /// An earlier left set with the same items; else this one is kept.
    fn find(&mut self, w: &Workload, k: usize, set: &[u16]) -> Option<usize> {
        let hash = set.iter().fold(set.len() as u32, |hash, &item| (hash ^ item as u32).wrapping_mul(0x9E37_79B1));
        let mut at = (hash >> 19) as usize;
        while self.slots[at] != FREE {
            if w.left.set(self.slots[at] as usize) == set {
                return Some(self.slots[at] as usize);
            }
            at = (at + 1) % 8192;
        }
        self.slots[at] = k as u16;
        None
    }
}

impl BitRows {
    /// Two levels: a word of blocks for each item, and for each block a word for each item, which is valid only where the item's bit of
    /// that block is set, so that nothing but the first level is cleared.
    fn join_blocks(&mut self, w: &Workload, pairs: &mut [[u16; 2]]) -> usize {
        let BitRows { rows, blocks, known } = self;
        rows.resize(w.t * w.right.len().div_ceil(64), 0);
        blocks.clear();
        blocks.resize(w.t, 0);
        for (s, set) in w.right.iter().enumerate() {
            let block = s / 64;
            let row = &mut rows[block * w.t..][..w.t];
            for &item in set {
                let (word, held) = (&mut row[item as usize], &mut blocks[item as usize]);
                *word = *word & 0u64.wrapping_sub(*held >> block & 1) | 1 << (s % 64);
                *held |= 1 << block;
            }
        }
        known.clear(w.left.len());
        let mut n = 0;
        for (k, set) in w.left.iter().enumerate() {
            let mut common = set.iter().fold(u64::MAX, |common, &item| common & blocks[item as usize]);
            if set.is_empty() || common == 0 {
                continue;
            }
            if let Some(same) = known.find(w, k, set) {
                let (from, to) = (known.runs[same].0 as usize, known.runs[same].1 as usize);
                let (before, here) = pairs.split_at_mut(n);
                here.iter_mut().zip(&before[from..to]).for_each(|(pair, old)| *pair = [k as u16, old[1]]);
                n += to - from;
                continue;
            }
            let from = n;
            while common != 0 {
                let block = common.trailing_zeros() as usize;
                common &= common - 1;
                let row = &rows[block * w.t..][..w.t];
                let mut shared = u64::MAX;
                for &item in set {
                    shared &= row[item as usize];
                    if shared == 0 {
                        break;
                    }
                }
                list_bits(shared, k, block, pairs, &mut n);
            }
            known.runs[k] = (from as u32, n as u32);
        }
        n
    }
}

impl Peer for BitRows {
    fn join(&mut self, w: &Workload, pairs: &mut [[u16; 2]]) -> usize {
        let rows = &mut self.rows;
        match w.right.len().div_ceil(64) {
            1 if w.right.len() == 1 => probe(w, rows, pairs),
            0 | 1 => join_rows::<1>(w, rows, pairs),
            2 => join_rows::<2>(w, rows, pairs),
            3..=4 => join_rows::<4>(w, rows, pairs),
            5..=8 => join_rows::<8>(w, rows, pairs),
            9..=12 => join_rows::<12>(w, rows, pairs),
            13..=16 => join_rows::<16>(w, rows, pairs),
            _ => self.join_blocks(w, pairs),
        }
    }
}
