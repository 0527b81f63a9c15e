//! Random small joins against the oracle, and the share of them that tell one order of float operations from another. A join with empty
//! left sets is made again without them: but for the places nothing changes. Every case is counted under each kind that it is of, by
//! its lists and the oracle's account. The last lines have the counts, and a kind without a case fails the run.

use harness::joins::{query, separated, without_empty, SEPARATED};
use harness::kinds::{expect_all, Tally};
use harness::oracle::{join_refusal, walk, walk_refusal, work_words, Query, Refusal, Rule, Walked};
use harness::random::Random;
use harness::{calls, run::Plan};

/// A query with its sets where none is bad, and with the oracle's account of it.
struct Case<'a> {
    q: &'a Query,
    left: Vec<Vec<u16>>,
    right: Vec<Vec<u16>>,
    refusal: Option<Refusal>,
    walked: Option<&'a Walked>,
}

impl<'a> Case<'a> {
    fn new(q: &'a Query, walked: Option<&'a Walked>) -> Case<'a> {
        let refusal = match walked {
            None => join_refusal(q),
            Some(walked) => walk_refusal(q, &walked.counts),
        };
        let has_sets = refusal.is_none_or(|refusal| refusal.0 >= 7);
        let (left, right) = if has_sets { (q.left.sets(), q.right.sets()) } else { Default::default() };
        Case { q, left, right, refusal, walked }
    }

    fn is(&self, number: u64) -> bool {
        self.refusal.map_or(0, |refusal| refusal.0) == number
    }

    fn pairs(&self) -> u64 {
        self.walked.map_or(0, |walked| walked.counts.pairs)
    }

    fn checks(&self) -> u64 {
        self.walked.map_or(0, |walked| walked.counts.checks)
    }

    fn has_empty(&self) -> bool {
        self.left.iter().any(Vec::is_empty)
    }

    /// There are left sets, and all are empty.
    fn has_only_empty(&self) -> bool {
        self.has_empty() && self.left.iter().all(Vec::is_empty)
    }

    /// Whether a left set is in a pair, by its place.
    fn has_pair(&self, holds: impl Fn(usize) -> bool) -> bool {
        self.walked.is_some_and(|walked| walked.pairs.chunks(2).any(|pair| holds(pair[0] as usize)))
    }

    /// Accepted with pairs and with an empty left set, at a place of several of which something holds.
    fn has_empty_at(&self, holds: fn(usize, usize) -> bool) -> bool {
        let last = self.left.len().saturating_sub(1);
        self.is(0) && self.pairs() > 0 && (0..self.left.len()).any(|k| self.left[k].is_empty() && holds(k, last))
    }

    /// Accepted with empty left sets in a row, and pairs of left sets before and behind them.
    fn has_row(&self) -> bool {
        let row = |k: usize| self.left[k..k + 2].iter().all(Vec::is_empty);
        let between = |k: usize| self.has_pair(|place| place < k) && self.has_pair(|place| place > k + 1);
        self.is(0) && (1..self.left.len().saturating_sub(1)).any(|k| row(k) && between(k))
    }

    /// Accepted with an empty left set between two that are equal and in pairs.
    fn is_between_equal(&self) -> bool {
        let between = |k: usize| self.left[k].is_empty() && self.left[k - 1] == self.left[k + 1] && self.has_pair(|place| place == k + 1);
        self.is(0) && (1..self.left.len().saturating_sub(1)).any(between)
    }

    /// Accepted with an empty left set and with pairs, under a rule and a limit.
    fn is_under(&self, rule: fn(Rule) -> bool, limit: u32) -> bool {
        self.is(0) && self.has_empty() && self.pairs() > 0 && rule(self.q.rule) && self.q.limit == limit
    }

    /// Accepted under a rule without allowance and places, with empty left sets alone beside right sets.
    fn needs_nothing(&self, rule: fn(Rule) -> bool) -> bool {
        let has_nothing = (self.q.budget, self.q.places) == (0, 0);
        self.is(0) && self.has_only_empty() && !self.right.is_empty() && has_nothing && rule(self.q.rule)
    }

    /// Refused for a work list that has the words which the query needs without its empty left sets.
    fn is_short_by_empty(&self) -> bool {
        let of_empty = 16 * self.left.iter().filter(|set| set.is_empty()).count();
        self.is(7) && self.q.work + of_empty >= work_words(self.q)
    }
}

fn is_merge(rule: Rule) -> bool {
    rule == Rule::Merge
}

fn is_check(rule: Rule) -> bool {
    rule == Rule::Check
}

fn is_weighed(rule: Rule) -> bool {
    matches!(rule, Rule::Weighed { .. })
}

type Kind = (&'static str, fn(&Case) -> bool);
const KINDS: [Kind; 33] = [
    ("accepted", |c| c.is(0)),
    ("5", |c| c.is(5)),
    ("6", |c| c.is(6)),
    ("7", |c| c.is(7)),
    ("8", |c| c.is(8)),
    ("9", |c| c.is(9)),
    ("an empty kit alone", |c| c.is(0) && c.left == [[]] && c.right.iter().any(|set| !set.is_empty())),
    ("an empty kit first, and pairs", |c| c.has_empty_at(|place, _| place == 0)),
    ("an empty kit in the middle, and pairs", |c| c.has_empty_at(|place, last| place > 0 && place < last)),
    ("an empty kit last, and pairs", |c| c.has_empty_at(|place, last| place == last)),
    ("empty kits in a row between kits in pairs", |c| c.has_row()),
    ("an empty kit between two that are equal and in pairs", |c| c.is_between_equal()),
    ("several kits, all empty", |c| c.is(0) && c.left.len() > 1 && c.has_only_empty() && c.right.iter().any(|set| !set.is_empty())),
    ("only empty kits and empty stacks", |c| c.is(0) && c.has_only_empty() && !c.right.is_empty() && c.right.iter().all(Vec::is_empty)),
    ("only empty kits and no stack", |c| c.is(0) && c.has_only_empty() && c.right.is_empty()),
    ("empty kits and empty stacks beside pairs", |c| c.is(0) && c.has_empty() && c.pairs() > 0 && c.right.iter().any(Vec::is_empty)),
    ("empty kits and stacks, and no items", |c| c.is(0) && c.has_empty() && !c.right.is_empty() && c.q.t == 0),
    ("an empty kit and pairs under Merge, limit 1", |c| c.is_under(is_merge, 1)),
    ("an empty kit and pairs under Merge, limit 255", |c| c.is_under(is_merge, 255)),
    ("an empty kit and pairs under Check, limit 1", |c| c.is_under(is_check, 1)),
    ("an empty kit and pairs under Check, limit 255", |c| c.is_under(is_check, 255)),
    ("an empty kit and pairs under Weighed, limit 1", |c| c.is_under(is_weighed, 1)),
    ("an empty kit and pairs under Weighed, limit 255", |c| c.is_under(is_weighed, 255)),
    ("only empty kits beside stacks, no allowance and no places, under Merge", |c| c.needs_nothing(is_merge)),
    ("only empty kits beside stacks, no allowance and no places, under Check", |c| c.needs_nothing(is_check)),
    ("only empty kits beside stacks, no allowance and no places, under Weighed", |c| c.needs_nothing(is_weighed)),
    ("an empty kit, and the places of the pairs alone", |c| c.has_empty_at(|_, _| true) && c.q.places as u64 == 2 * c.pairs()),
    ("an empty kit, and one place less", |c| c.is(9) && c.has_empty() && c.q.places as u64 + 1 == 2 * c.pairs()),
    ("an empty kit, and the allowance of the checks alone", |c| {
        c.is(0) && c.has_empty() && c.checks() > 0 && u64::from(c.q.budget) == c.checks()
    }),
    ("an empty kit, and one check less", |c| c.is(8) && c.has_empty() && u64::from(c.q.budget) + 1 == c.checks()),
    ("an empty kit, and the work list of the exact length", |c| c.is(0) && c.has_empty() && c.q.work == work_words(c.q)),
    ("7 by the words of an empty kit", |c| c.is_short_by_empty()),
    ("7 by the words of empty kits alone", |c| c.is_short_by_empty() && c.has_only_empty()),
];

/// Joins again without the empty left sets, which took no part.
fn again_without(random: &mut Random, q: &Query, walked: &Walked) -> Result<(), String> {
    let (less, should) = without_empty(q, walked);
    let is = walk(&less);
    if (is.counts, &is.pairs, &is.nodes) != (should.counts, &should.pairs, &should.nodes) {
        return Err(format!("without the empty left sets the oracle has {is:?}"));
    }
    calls::join(random, &less, Some(&should)).map_err(|message| format!("without the empty left sets: {message}"))
}

fn main() {
    let plan = Plan::from_args(220_000);
    let mut told = [0u64; 6];
    let mut tally = Tally::new(&KINDS);
    plan.run("joins", |random, print| {
        let (q, walked) = query(random);
        if print {
            println!("{q:?}\n{walked:?}");
        }
        let case = Case::new(&q, walked.as_ref());
        tally.add(KINDS.map(|(_, is_of)| is_of(&case)));
        if let (Some(walked), Rule::Weighed { .. }) = (&walked, q.rule) {
            let by_node = walked.nodes.iter().map(|&node| separated(q.rule, node));
            by_node.for_each(|by| by.iter().zip(&mut told).for_each(|(&is, sum)| *sum += is as u64));
        }
        calls::join(random, &q, walked.as_ref())?;
        if let (Some(walked), true) = (&walked, case.has_empty()) {
            again_without(random, &q, walked)?;
        }
        if random.one_in(50) {
            let number = [3, 4, 255, u32::MAX][random.below(4)];
            calls::join_by_number(random, &q, number, [1.0; 4], None)?;
        }
        Ok(())
    });
    let has_kinds = tally.report();
    for (name, sum) in SEPARATED.iter().zip(told) {
        println!("nodes decided otherwise by {name}: {sum}");
    }
    expect_all("joins", &plan, 220_000, has_kinds && !told.contains(&0));
}
