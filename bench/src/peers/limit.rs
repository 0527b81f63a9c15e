//! LIMIT and LIMIT+ of document 000 in its order of partitions (OPJ): the prefix tree is cut at a limit and longer left sets are
//! verified by the rest of their items; the inverted index grows by the right sets of each first item before the left sets of
//! that item are joined. LIMIT+ also asks a cost model at each node whether to verify at once, but not at a first item, where the candidates
//! are a whole list and nothing is intersected. The trees of all partitions are built in one go.

use super::index::{Index, Ranked};
use super::runs::Runs;
use super::tree::{Tree, ROOT};
use super::{intersect, is_within, Peer};
use crate::workloads::{Sets, Workload};

/// The constants of LIMIT+'s cost model in nanoseconds: a number of either list in a merge, a step of a search by halving, an intersection as
/// such, a pair that is listed, an item in a verification, and a verification as such. They are those with the least mean time over the
/// workloads among a dozen tried; between these the mean differs by less than a tenth.
struct Costs {
    merged: f64,
    halved: f64,
    start: f64,
    listed: f64,
    item: f64,
    verified: f64,
}

const COSTS: Costs = Costs { merged: 0.7, halved: 1.5, start: 5.0, listed: 0.5, item: 1.0, verified: 10.0 };

/// The inverted index as far as it has grown, over positions in the order of right sets by first rank. Its lists have their final room from the
/// start.
#[derive(Default)]
struct Grown {
    lengths: Vec<u32>,
    sets: Vec<u16>,
}

#[derive(Default)]
pub struct Limit {
    limit: u16,
    adaptive: bool,
    left: Index,
    right: Index,
    left_ranked: Ranked,
    right_ranked: Ranked,
    /// The places of the right sets by first rank, and where each first rank begins.
    places: Vec<u16>,
    firsts: Vec<u32>,
    grown: Grown,
    tree: Tree,
    levels: Vec<Vec<u16>>,
    placed: Vec<u16>,
    runs: Runs,
}

impl Limit {
    pub fn new(limit: u16) -> Limit {
        Limit { limit, ..Limit::default() }
    }

    /// LIMIT+.
    pub fn adaptive(limit: u16) -> Limit {
        Limit { limit, adaptive: true, ..Limit::default() }
    }

    /// Right sets by first rank; empty ones come nowhere.
    fn partition(&mut self, right: &Sets) {
        self.firsts.clear();
        self.firsts.resize(self.right.ranks() + 2, 0);
        let first = |s: usize| self.right_ranked.set(right, s).first().map(|&rank| rank as usize);
        (0..right.len()).filter_map(first).for_each(|rank| self.firsts[rank + 2] += 1);
        (2..self.firsts.len()).for_each(|at| self.firsts[at] += self.firsts[at - 1]);
        self.places.resize(self.firsts[self.firsts.len() - 1] as usize, 0);
        for s in 0..right.len() {
            if let Some(rank) = first(s) {
                self.places[self.firsts[rank + 1] as usize] = s as u16;
                self.firsts[rank + 1] += 1;
            }
        }
    }
}

struct Walk<'a> {
    w: &'a Workload,
    limit: u16,
    adaptive: bool,
    left_ranked: &'a Ranked,
    right_ranked: &'a Ranked,
    places: &'a [u16],
    right: &'a Index,
    tree: &'a Tree,
    grown: &'a mut Grown,
    seen: usize,
    placed: Vec<u16>,
    runs: &'a mut Runs,
}

impl Walk<'_> {
    fn right_set(&self, position: u16) -> &[u16] {
        self.right_ranked.set(&self.w.right, self.places[position as usize] as usize)
    }

    fn list(&self, rank: usize) -> &[u16] {
        &self.grown.sets[self.right.start(rank)..][..self.grown.lengths[rank] as usize]
    }

    /// Adds the right sets up to a position.
    fn grow(&mut self, end: usize) {
        for position in self.seen..end {
            for &rank in self.right_ranked.set(&self.w.right, self.places[position] as usize) {
                let length = &mut self.grown.lengths[rank as usize];
                self.grown.sets[self.right.start(rank as usize) + *length as usize] = position as u16;
                *length += 1;
            }
        }
        self.seen = end;
    }

    /// The places of the candidates in rising order, which all left sets that are settled at a node share.
    fn place(&mut self, candidates: &[u16]) {
        self.placed.clear();
        self.placed.extend(candidates.iter().map(|&position| self.places[position as usize]));
        if self.placed.len() < 64 {
            self.placed.sort_unstable();
            return;
        }
        let mut held = [0u64; 64];
        self.placed.iter().for_each(|&s| held[s as usize / 64] |= 1 << (s % 64));
        self.placed.clear();
        for (block, word) in held.iter_mut().enumerate() {
            while *word != 0 {
                self.placed.push(64 * block as u16 + word.trailing_zeros() as u16);
                *word &= *word - 1;
            }
        }
    }

    /// Compares a left set with each placed right set by what is left of both; they share so many ranks.
    fn verify(&mut self, k: u16, shared: usize) {
        let rest = &self.left_ranked.set(&self.w.left, k as usize)[shared..];
        let holds = |s: u16| is_within(rest, &self.right_ranked.set(&self.w.right, s as usize)[shared..]);
        self.runs.add(k, self.placed.iter().copied().filter(|&s| holds(s)));
    }

    fn verify_below(&mut self, n: u32, shared: usize) {
        for k in self.tree.ends(n) {
            self.verify(k, shared);
        }
        for child in self.tree.children(n) {
            self.verify_below(child, shared);
        }
    }

    /// LIMIT+'s question at a node (document 000, section 3.2): does it cost less to narrow the candidates, list what ends here and verify the
    /// rest, than to verify all that is below at once? `items` is the sum of the candidates' lengths.
    fn goes_on(&self, n: u32, candidates: usize, items: usize) -> bool {
        let node = self.tree.node(n);
        let holders = self.list(node.rank as usize).len() as f64;
        let ended = self.tree.ends(n).filter(|&k| self.w.left.range(k as usize).len() == node.depth as usize).count() as f64;
        let (c, items, depth) = (candidates as f64, items as f64, node.depth as f64);
        let (beginning, lengths) = (node.beginning as f64, node.lengths as f64);
        let share = holders / self.seen as f64;
        let verify = |c: f64, items: f64, sets: f64, lengths: f64, shared: f64| {
            COSTS.item * (c * (lengths - sets * shared) + sets * (items - c * shared)) + COSTS.verified * c * sets
        };
        let halved = COSTS.halved * c.min(holders) * (c.max(holders) + 1.0).log2();
        let narrow = COSTS.start + halved.min(COSTS.merged * (c + holders));
        let list = COSTS.listed * c * share * ended;
        let later = verify(c * share, items * share, beginning - ended, lengths - ended * depth, depth);
        narrow + list + later < verify(c, items, beginning, lengths, depth - 1.0)
    }

    /// At a node whose path is in each of the candidates.
    fn visit(&mut self, n: u32, candidates: &[u16], levels: &mut [Vec<u16>]) {
        if candidates.is_empty() {
            return;
        }
        let depth = self.tree.node(n).depth as usize;
        if self.tree.ends(n).next().is_some() {
            self.place(candidates);
        }
        for k in self.tree.ends(n) {
            if self.w.left.range(k as usize).len() == depth {
                self.runs.add(k, self.placed.iter().copied());
            } else {
                self.verify(k, depth);
            }
        }
        if depth == self.limit as usize {
            return;
        }
        let items = if self.adaptive { candidates.iter().map(|&position| self.right_set(position).len()).sum() } else { 0 };
        let (narrowed, below) = levels.split_first_mut().expect("no left set is longer than the levels");
        for child in self.tree.children(n) {
            if self.adaptive && !self.goes_on(child, candidates.len(), items) {
                self.place(candidates);
                self.verify_below(child, depth);
            } else {
                intersect(candidates, self.list(self.tree.node(child).rank as usize), narrowed);
                self.visit(child, narrowed, below);
            }
        }
    }
}

impl Peer for Limit {
    fn join(&mut self, w: &Workload, pairs: &mut [[u16; 2]]) -> usize {
        self.left.build(&w.left, &w.ranks);
        self.right.build(&w.right, &w.ranks);
        self.left_ranked.build(&w.left, &self.left);
        self.right_ranked.build(&w.right, &self.right);
        self.partition(&w.right);
        self.tree.build(&self.left, w.left.len(), self.limit);
        if self.adaptive {
            self.tree.sum_up(&w.left);
        }
        self.grown.lengths.clear();
        self.grown.lengths.resize(self.right.ranks(), 0);
        self.grown.sets.resize(w.right.items.len(), 0);
        self.levels.resize_with(256, Vec::new);
        self.runs.clear(w.left.len());
        let mut walk = Walk {
            w,
            limit: self.limit,
            adaptive: self.adaptive,
            left_ranked: &self.left_ranked,
            right_ranked: &self.right_ranked,
            places: &self.places,
            right: &self.right,
            tree: &self.tree,
            grown: &mut self.grown,
            seen: 0,
            placed: std::mem::take(&mut self.placed),
            runs: &mut self.runs,
        };
        let (first, levels) = self.levels.split_first_mut().expect("there are levels");
        for child in self.tree.children(ROOT) {
            let rank = self.tree.node(child).rank as usize;
            walk.grow(self.firsts[rank + 1] as usize);
            first.clear();
            first.extend(walk.list(rank));
            walk.visit(child, first, levels);
        }
        self.placed = walk.placed;
        self.runs.write(pairs)
    }
}
