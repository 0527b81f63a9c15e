//! Random joins with many stacks, around the borders of blocks of 64: fewer, exactly and just more than one block, several, and up to 4,095 and
//! 4,096. Kits are equal far apart, longer and shorter than the limit. Each join is made with the shortest work list and with longer ones,
//! on both sides of the length at which a bit for each stack and tag fits, and with the budget and the places exact and one short.

use harness::calls;
use harness::joins::permutation;
use harness::kinds::{expect_all, Tally};
use harness::oracle::*;
use harness::random::Random;
use harness::run::Plan;

/// The words of two rows of bits: a bit a stack for each tag, and a bit for each 64 of them; and what is kept for each kit and stack.
fn row_words(q: &Query) -> usize {
    let (kits, stacks) = (q.left.ends.len(), q.right.ends.len());
    2 * q.t as usize * (stacks.div_ceil(64) + 1) + 4 * kits + 2 * stacks
}

/// A set of items below t, about so many.
fn set(random: &mut Random, t: usize, length: usize) -> Vec<u16> {
    let mut set: Vec<u16> = (0..length).map(|_| random.below(t) as u16).collect();
    set.sort_unstable();
    set.dedup();
    set
}

/// Stacks, some around a kit, the others of at most so many tags; and kits of few kinds, so that equal ones stand far apart.
fn collections(random: &mut Random, t: usize, kits: usize, stacks: usize, most: usize) -> (Vec<Vec<u16>>, Vec<Vec<u16>>) {
    let longest = random.pick(&[1, 3, 6, 12]);
    let kinds: Vec<Vec<u16>> = (0..random.within(1, 12))
        .map(|_| {
            let length = random.within(0, longest);
            set(random, t, length)
        })
        .collect();
    let left: Vec<Vec<u16>> = (0..kits).map(|_| kinds[random.below(kinds.len())].clone()).collect();
    let right = (0..stacks)
        .map(|_| {
            let mut items = if random.one_in(most.max(3)) { kinds[random.below(kinds.len())].clone() } else { Vec::new() };
            let more = random.within(0, most);
            items.extend(set(random, t, more));
            items.sort_unstable();
            items.dedup();
            items
        })
        .collect();
    (left, right)
}

/// How many tags, how many stacks and how long these are: one in forty has thousands of stacks, and one in twelve so few entries for its
/// tags and stacks that rows don't fit the shortest work list.
fn sizes(random: &mut Random) -> (usize, usize, usize) {
    if random.one_in(12) {
        return (4096, random.pick(&[2049, 3000, 4033, 4095, 4096]), 3);
    }
    let t = random.pick(&[1, 2, 7, 30, 257, 300, 600, 4096]);
    if random.one_in(40) {
        return (t, random.pick(&[1023, 1024, 1025, 4031, 4032, 4033, 4095, 4096]), 8);
    }
    (t, random.pick(&[0, 1, 31, 32, 33, 63, 64, 65, 127, 128, 129, 191, 192, 193, 300]), 8)
}

struct Case<'a> {
    q: &'a Query,
    walked: &'a Walked,
}

impl Case<'_> {
    fn stacks(&self) -> usize {
        self.q.right.ends.len()
    }

    fn has_rows(&self) -> bool {
        row_words(self.q) <= self.q.work
    }

    fn is_merge(&self) -> bool {
        self.q.rule == Rule::Merge
    }

    /// Two equal kits in pairs with other kits between them.
    fn has_equal_apart(&self) -> bool {
        let kits = self.q.left.sets();
        let paired = |k: usize| self.walked.pairs.chunks(2).any(|pair| pair[0] as usize == k);
        let apart = |k: usize| (k + 2..kits.len()).any(|j| kits[j] == kits[k] && kits[k + 1] != kits[k]);
        (0..kits.len()).any(|k| apart(k) && paired(k))
    }

    fn has_longer(&self) -> bool {
        self.q.left.sets().iter().any(|kit| kit.len() > self.q.limit as usize)
    }
}

type Kind = (&'static str, fn(&Case) -> bool);
const KINDS: [Kind; 15] = [
    ("Merge where rows fit", |c| c.is_merge() && c.has_rows()),
    ("Merge where they don't", |c| c.is_merge() && !c.has_rows()),
    ("Merge where they just fit", |c| c.is_merge() && row_words(c.q) == c.q.work),
    ("Merge where they lack a word", |c| c.is_merge() && row_words(c.q) == c.q.work + 1),
    ("another rule where rows fit", |c| !c.is_merge() && c.has_rows()),
    ("Merge, no stack", |c| c.is_merge() && c.stacks() == 0),
    ("Merge, 63 stacks", |c| c.is_merge() && c.stacks() == 63),
    ("Merge, 64 stacks", |c| c.is_merge() && c.stacks() == 64),
    ("Merge, 65 stacks", |c| c.is_merge() && c.stacks() == 65),
    ("Merge, 4,095 stacks where rows fit", |c| c.is_merge() && c.stacks() == 4095 && c.has_rows()),
    ("Merge, 4,096 stacks where rows fit", |c| c.is_merge() && c.stacks() == 4096 && c.has_rows()),
    ("Merge, equal kits far apart in pairs, rows fit", |c| c.is_merge() && c.has_rows() && c.has_equal_apart()),
    ("Merge, kits longer than the limit, rows fit", |c| c.is_merge() && c.has_rows() && c.has_longer()),
    ("Merge, checks dropped and false, rows fit", |c| {
        c.is_merge() && c.has_rows() && c.walked.counts.dropped > 0 && c.walked.counts.false_drops > 0
    }),
    ("Merge, a pair with the last stack of a block", |c| {
        c.is_merge() && c.has_rows() && c.walked.pairs.chunks(2).any(|pair| pair[1] % 64 == 63)
    }),
];

fn main() {
    let plan = Plan::from_args(4_000);
    let mut tally = Tally::new(&KINDS);
    plan.run("joins around blocks", |random, print| {
        let ((t, stacks, most), kits) = (sizes(random), random.pick(&[0, 1, 2, 9, 40]));
        let (left, right) = collections(random, t, kits, stacks, most);
        let (left, right) = (Collection::of(&left), Collection::of(&right));
        let ranks = permutation(random, t as u32, &left, &right);
        let rule = match random.below(8) {
            0 => Rule::Check,
            1 => Rule::Weighed { a: 1.0, b: 0.5, g: 1.0, h: 0.7 },
            _ => Rule::Merge,
        };
        let limit = random.pick(&[1, 1, 2, 2, 3, 4, 7, 254, 255]);
        let mut q = Query { t: t as u32, left, right, limit, ranks, budget: u32::MAX, rule, work: 0, places: 0 };
        let (needed, rows) = (work_words(&q), row_words(&q));
        q.work = match random.below(5) {
            0 => rows.max(needed),
            1 => rows.saturating_sub(1).max(needed),
            2 => rows.max(needed) + random.below(1000),
            _ => needed,
        };
        let walked = walk(&q);
        if print {
            println!("{q:?}\n{walked:?}");
        }
        tally.add(KINDS.map(|(_, is_of)| is_of(&Case { q: &q, walked: &walked })));
        let (checks, places) = (walked.counts.checks as u32, 2 * walked.counts.pairs as usize);
        q.budget = random.pick(&[checks, checks.saturating_sub(1), checks / 2, u32::MAX, u32::MAX]);
        q.places = random.pick(&[places, places, places + 3, places.saturating_sub(1), places / 2]);
        calls::join(random, &q, Some(&walked))
    });
    let has_kinds = tally.report();
    expect_all("joins around blocks", &plan, 4_000, has_kinds);
}
