//! The first kit of one stack: the library against a plain loop, and against its own join of all kits with this stack. What they find is
//! compared before anything is timed.

use bench::measure::{contest, Contestant};
use bench::peers;
use bench::table::{rows, table, time};
use bench::workloads::{screens, small, Workload};
use kitfinder::{Collection, Query, Refusal, Rule};
use std::hint::black_box;

/// The place of the first kit, and how many were compared.
type Found = (Option<usize>, usize);

fn library(t: u32, kits: Collection, stack: &[u16]) -> Result<Found, Refusal> {
    kitfinder::first(t, kits, stack).map(|found| (found.place, found.compared))
}

/// The join of all kits with one stack: Merge, over lists that are lent again and again.
struct Join {
    limit: u32,
    work: Vec<u32>,
    pairs: Vec<u16>,
}

impl Join {
    fn new(limit: u32) -> Join {
        Join { limit, work: Vec::new(), pairs: Vec::new() }
    }

    /// The place of the first kit.
    fn first(&mut self, w: &Workload, stack: &[u16]) -> Option<usize> {
        let (t, left, right) = (w.t as u32, w.left.lent(), Collection { ends: &[stack.len() as u32], items: stack });
        let query = Query { t, left, right, limit: self.limit, ranks: &w.ranks, budget: u32::MAX, rule: Rule::Merge };
        let (words, places) = (kitfinder::work_words(t, left, right), kitfinder::pair_places(left, right));
        self.work.resize(words.max(self.work.len()), 0);
        self.pairs.resize(places.max(self.pairs.len()), 0);
        let counts = kitfinder::join(&query, &mut self.work[..words], &mut self.pairs[..places]).expect("a workload is accepted");
        (counts.pairs > 0).then(|| self.pairs[0] as usize)
    }
}

/// The loop finds what the library finds, and so do the joins.
fn compare(w: &Workload) {
    let (t, kits, mut joins) = (w.t as u32, w.left.lent(), [2, 255].map(Join::new));
    for stack in w.right.iter() {
        let found = library(t, kits, stack);
        assert!(found == peers::first::first(t, kits, stack), "the loop finds something else than the library on {}", w.name);
        let place = found.expect("a workload is accepted").0;
        assert!(joins.iter_mut().all(|join| join.first(w, stack) == place), "a join finds something else than the library on {}", w.name);
    }
}

/// The loop refuses what the library refuses, with the same: T, ends, items, kits before the stack.
fn compare_refusals() {
    let many: Vec<u16> = (0..256).collect();
    let sets = vec![0; 4097];
    let kits: [(&[u32], &[u16]); 8] = [
        (&[2, 3], &[0, 1, 1]),
        (&[2, 1], &[0, 1, 1]),
        (&[2, 4], &[0, 1, 1]),
        (&[1, 3], &[0, 1, 1]),
        (&[1, 3], &[2, 1, 0]),
        (&[2, 3], &[0, 1, 299]),
        (&[0, 256], &many),
        (&sets, &[]),
    ];
    let stacks: [&[u16]; 6] = [&[], &[1, 2], &[1, 1], &[2, 1], &[2, 299], &many];
    for (ends, items) in kits {
        for (stack, t) in stacks.iter().flat_map(|&stack| [256, 299, 300, 4096, 4097].map(|t| (stack, t))) {
            let kits = Collection { ends, items };
            assert_eq!(library(t, kits, stack), peers::first::first(t, kits, stack), "t {t}, {kits:?}, {stack:?}");
        }
    }
}

/// The nanoseconds of one call: each method goes through all stacks, so that what one of them teaches the processor helps little.
fn times(w: &Workload, rounds: usize) -> Vec<f64> {
    let (t, kits, [mut join_2, mut join_255]) = (w.t as u32, w.left.lent(), [2, 255].map(Join::new));
    let contestants = vec![
        Contestant::new(|| w.right.iter().for_each(|stack| _ = black_box(kitfinder::first(t, black_box(kits), black_box(stack))))),
        Contestant::new(|| w.right.iter().for_each(|stack| _ = black_box(peers::first::first(t, black_box(kits), black_box(stack))))),
        Contestant::new(|| w.right.iter().for_each(|stack| _ = black_box(join_2.first(w, stack)))),
        Contestant::new(|| w.right.iter().for_each(|stack| _ = black_box(join_255.first(w, stack)))),
    ];
    contest(contestants, rounds).iter().map(|ns| ns / w.right.len() as f64).collect()
}

pub fn measure(rounds: usize) -> String {
    let screens = screens();
    compare_refusals();
    (0..400).map(small).for_each(|w| compare(&w));
    screens.iter().for_each(compare);
    let heads: Vec<String> = screens.iter().map(|w| w.name.clone()).collect();
    let times: Vec<Vec<f64>> = screens.iter().map(|w| times(w, rounds)).collect();
    let names = ["kitfinder, first kit", "the loop", "kitfinder, join, limit 2", "kitfinder, join, limit 255"];
    let cell = |column: &[f64], k: usize| format!("{} ({:.2})", time(column[k]), column[k] / column[0]);
    table("time of one first kit (ratio)", &heads, &rows(&names, &times, cell))
}
