//! The same join by other methods: published ones and the bit rows that bound what can be had here. Each is given what the library is
//! given and writes the same list, pair by pair in rising order, into a lent list. A peer keeps its memory from call to call, as the library's
//! caller keeps the work list, so that a measured call allocates nothing. None keeps the six counts or tests its input. The first kit alone is
//! no join: its loop (`first`) makes the library's tests.

mod bit_rows;
pub mod first;
mod fresh;
mod index;
mod limit;
mod nested;
mod pretti;
mod runs;
pub mod tags;
mod tree;

pub use bit_rows::BitRows;
pub use fresh::FreshJoin;
pub use limit::Limit;
pub use nested::NestedLoop;
pub use pretti::Pretti;

use crate::workloads::Workload;

pub trait Peer {
    /// Writes the pairs, left place and right place, and says how many there are. An empty left set has none.
    fn join(&mut self, w: &Workload, pairs: &mut [[u16; 2]]) -> usize;
}

/// Whether the numbers of one rising list are all in another.
pub(crate) fn is_within(small: &[u16], large: &[u16]) -> bool {
    if small.len() > large.len() {
        return false;
    }
    let mut at = 0;
    for &x in small {
        while at < large.len() && large[at] < x {
            at += 1;
        }
        if at == large.len() || large[at] != x {
            return false;
        }
        at += 1;
    }
    true
}

/// What two rising lists share: the shorter list's numbers are searched in the longer by halving where that takes fewer steps, else the
/// two are merged (document 000, section 5.2). The merge has no jump that depends on the numbers.
fn intersect(a: &[u16], b: &[u16], both: &mut Vec<u16>) {
    let (short, long) = if a.len() <= b.len() { (a, b) } else { (b, a) };
    both.clear();
    if short.is_empty() {
        return;
    }
    if short.len() * (long.len().ilog2() as usize + 1) < short.len() + long.len() {
        let mut rest = long;
        for &x in short {
            rest = &rest[rest.partition_point(|&y| y < x)..];
            if rest.first() == Some(&x) {
                both.push(x);
            }
        }
    } else {
        both.resize(short.len(), 0);
        let (mut i, mut j, mut n) = (0, 0, 0);
        while i < short.len() && j < long.len() {
            let (x, y) = (short[i], long[j]);
            both[n] = x;
            n += (x == y) as usize;
            i += (x <= y) as usize;
            j += (y <= x) as usize;
        }
        both.truncate(n);
    }
}
