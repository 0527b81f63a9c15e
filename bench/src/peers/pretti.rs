//! PRETTI, as document 000 improves it: the whole prefix tree of the left sets, the whole inverted index of the right sets, items by
//! rising frequency, and one traversal that narrows the candidates at each node.

use super::index::Index;
use super::runs::Runs;
use super::tree::{Tree, ROOT};
use super::{intersect, Peer};
use crate::workloads::Workload;

#[derive(Default)]
pub struct Pretti {
    left: Index,
    right: Index,
    tree: Tree,
    levels: Vec<Vec<u16>>,
    runs: Runs,
}

struct Walk<'a> {
    right: &'a Index,
    tree: &'a Tree,
    runs: &'a mut Runs,
}

impl Walk<'_> {
    /// At a node whose path is in each of the candidates. The levels are the lists of the nodes below.
    fn visit(&mut self, n: u32, candidates: &[u16], levels: &mut [Vec<u16>]) {
        if candidates.is_empty() {
            return;
        }
        for k in self.tree.ends(n) {
            self.runs.add(k, candidates.iter().copied());
        }
        let (narrowed, below) = levels.split_first_mut().expect("no left set is longer than the levels");
        for child in self.tree.children(n) {
            intersect(candidates, self.right.list(self.tree.node(child).rank as usize), narrowed);
            self.visit(child, narrowed, below);
        }
    }
}

impl Peer for Pretti {
    fn join(&mut self, w: &Workload, pairs: &mut [[u16; 2]]) -> usize {
        self.left.build(&w.left, &w.ranks);
        self.right.build(&w.right, &w.ranks);
        self.tree.build(&self.left, w.left.len(), u16::MAX);
        self.levels.resize_with(256, Vec::new);
        self.runs.clear(w.left.len());
        let mut walk = Walk { right: &self.right, tree: &self.tree, runs: &mut self.runs };
        for child in self.tree.children(ROOT) {
            walk.visit(child, self.right.list(self.tree.node(child).rank as usize), &mut self.levels);
        }
        self.runs.write(pairs)
    }
}
