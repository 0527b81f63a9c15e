//! Named joins with their results written out: the shelf examples of document 01, the slips that it warns of, and what the random
//! tests found worth keeping.

use harness::calls;
use harness::oracle::{self, Collection, Query, Rule};
use harness::random::Random;
use harness::run::run_named;

type Sets = &'static [&'static [u16]];

/// What is listed: the refusal's number, or the six counts (pairs, by path, confirmed, checks, dropped, false) and the pairs.
enum Result_ {
    Refused(u64),
    Joined([u64; 6], &'static [u16]),
}
use Result_::{Joined, Refused};

struct Vector {
    name: &'static str,
    t: u32,
    left: Sets,
    right: Sets,
    ranks: &'static [u16],
    limit: u32,
    rule: Rule,
    budget: u32,
    places: usize,
    result: Result_,
}

const SHELF_LEFT: Sets = &[&[0, 1], &[1], &[0, 2, 3]];
const SHELF_RIGHT: Sets = &[&[0, 1, 2], &[1, 3], &[0, 2, 3]];
const SHELF_PAIRS: &[u16] = &[0, 0, 1, 0, 1, 1, 2, 2];

const fn weighed(a: f64, b: f64, g: f64, h: f64) -> Rule {
    Rule::Weighed { a, b, g, h }
}

/// The shelf's sets; ranks equal items where none are given.
const SHELF: Vector = Vector {
    name: "",
    t: 4,
    left: SHELF_LEFT,
    right: SHELF_RIGHT,
    ranks: &[],
    limit: 2,
    rule: Rule::Merge,
    budget: u32::MAX,
    places: 8,
    result: Refused(0),
};

const CHECK_ALL: Result_ = Joined([4, 0, 4, 7, 3, 0], SHELF_PAIRS);

const VECTORS: &[Vector] = &[
    Vector { name: "P1", limit: 1, result: Joined([4, 2, 2, 4, 2, 0], SHELF_PAIRS), ..SHELF },
    Vector { name: "P2", limit: 2, result: Joined([4, 3, 1, 2, 1, 0], SHELF_PAIRS), ..SHELF },
    Vector { name: "P3 limit 1", rule: Rule::Check, limit: 1, result: CHECK_ALL, ..SHELF },
    Vector { name: "P3 limit 255", rule: Rule::Check, limit: 255, result: CHECK_ALL, ..SHELF },
    Vector { name: "P4", rule: weighed(1.0, 1.0, 0.0, 1.5), limit: 255, result: Joined([4, 0, 4, 7, 3, 0], SHELF_PAIRS), ..SHELF },
    Vector {
        name: "P5",
        t: 257,
        left: &[&[256]],
        right: &[&[0]],
        rule: Rule::Check,
        places: 0,
        result: Joined([0, 0, 0, 1, 0, 1], &[]),
        ..SHELF
    },
    Vector { name: "P6", left: &[], places: 0, result: Joined([0; 6], &[]), ..SHELF },
    Vector { name: "P7", left: &[&[]], right: &[&[0], &[1, 2]], places: 0, result: Joined([0; 6], &[]), ..SHELF },
    Vector { name: "P8 allowance 6", rule: Rule::Check, budget: 6, result: Refused(8), ..SHELF },
    Vector { name: "P8 allowance 7", rule: Rule::Check, budget: 7, result: CHECK_ALL, ..SHELF },
    Vector { name: "P9 7 places", rule: Rule::Check, places: 7, result: Refused(9), ..SHELF },
    Vector { name: "P9 8 places", rule: Rule::Check, places: 8, result: CHECK_ALL, ..SHELF },
    Vector { name: "8 before 9", rule: Rule::Check, budget: 6, places: 7, result: Refused(8), ..SHELF },
    Vector { name: "limit 0", limit: 0, result: Refused(6), ..SHELF },
    Vector { name: "limit 256", limit: 256, result: Refused(6), ..SHELF },
    Vector { name: "no allowance, no check", limit: 255, budget: 0, result: Joined([4, 4, 0, 0, 0, 0], SHELF_PAIRS), ..SHELF },
    Vector {
        name: "slip: the last check starts after the limit's items",
        left: &[&[0, 1, 2], &[0, 1, 3]],
        right: &[&[0, 1, 2], &[0, 1], &[0, 1, 2, 3]],
        limit: 2,
        places: 6,
        result: Joined([3, 0, 3, 6, 3, 0], &[0, 0, 0, 2, 1, 2]),
        ..SHELF
    },
    Vector {
        name: "slip: equal left sets both pair",
        left: &[&[1, 2], &[1, 2], &[1, 2]],
        right: &[&[1, 2], &[0, 1, 2]],
        places: 12,
        result: Joined([6, 6, 0, 0, 0, 0], &[0, 0, 0, 1, 1, 0, 1, 1, 2, 0, 2, 1]),
        ..SHELF
    },
    Vector {
        name: "slip: a partition's right sets are seen in its own tree",
        left: &[&[2], &[3]],
        right: &[&[2], &[3]],
        places: 4,
        result: Joined([2, 2, 0, 0, 0, 0], &[0, 0, 1, 1]),
        ..SHELF
    },
    Vector {
        name: "slip: equal marks are no containment",
        t: 513,
        left: &[&[0], &[256], &[512]],
        right: &[&[0, 512], &[256]],
        rule: Rule::Check,
        places: 6,
        result: Joined([3, 0, 3, 5, 0, 2], &[0, 0, 1, 1, 2, 0]),
        ..SHELF
    },
    Vector {
        name: "a right set is seen by its first item in rank order",
        left: &[&[0]],
        right: &[&[0, 3], &[1], &[2, 3]],
        ranks: &[2, 3, 0, 1],
        rule: Rule::Check,
        places: 2,
        result: Joined([1, 0, 1, 2, 1, 0], &[0, 0]),
        ..SHELF
    },
    Vector {
        name: "t counts seen right sets that are no candidates",
        left: &[&[0, 2], &[0, 2, 3]],
        right: &[&[0, 2, 3], &[0, 2], &[0, 1]],
        rule: weighed(0.0, 1.0, 0.0, 0.5),
        limit: 3,
        places: 6,
        result: Joined([3, 0, 3, 6, 3, 0], &[0, 0, 0, 1, 1, 0]),
        ..SHELF
    },
    Vector { name: "not-a-number never goes on", rule: weighed(f64::NAN, 0.0, 0.0, f64::INFINITY), result: CHECK_ALL, ..SHELF },
    Vector {
        name: "infinite below infinite is false",
        rule: weighed(0.0, 0.0, f64::INFINITY, f64::INFINITY),
        result: CHECK_ALL,
        ..SHELF
    },
    Vector {
        name: "minus infinity is below",
        rule: weighed(0.0, 0.0, f64::NEG_INFINITY, 0.0),
        limit: 255,
        result: Joined([4, 4, 0, 0, 0, 0], SHELF_PAIRS),
        ..SHELF
    },
    Vector { name: "minus zero is not below zero", rule: weighed(-0.0, -0.0, -0.0, 0.0), result: CHECK_ALL, ..SHELF },
    Vector {
        name: "the smallest subnormal is above zero",
        rule: weighed(0.0, 0.0, 0.0, 5e-324),
        limit: 255,
        result: Joined([4, 4, 0, 0, 0, 0], SHELF_PAIRS),
        ..SHELF
    },
    Vector {
        name: "the sum is taken from the left",
        left: &[&[0]],
        right: &[&[0]],
        rule: weighed(1e16, 1.0, -1e16, 0.5),
        places: 2,
        result: Joined([1, 1, 0, 0, 0, 0], &[0, 0]),
        ..SHELF
    },
    Vector { name: "no items at all", t: 0, left: &[&[], &[]], right: &[&[]], places: 0, result: Joined([0; 6], &[]), ..SHELF },
    Vector {
        name: "an empty left set has no pair with an empty right set",
        left: &[&[0], &[]],
        right: &[&[], &[0]],
        places: 2,
        result: Joined([1, 1, 0, 0, 0, 0], &[0, 1]),
        ..SHELF
    },
    Vector {
        name: "an empty left set is not checked and takes nothing of the allowance",
        left: &[&[], &[1], &[]],
        right: &[&[1, 3], &[0, 2], &[]],
        rule: Rule::Check,
        budget: 2,
        places: 2,
        result: Joined([1, 0, 1, 2, 1, 0], &[1, 0]),
        ..SHELF
    },
    Vector {
        name: "an empty left set begins with no path",
        left: &[&[], &[0], &[0], &[]],
        right: &[&[0], &[0, 1], &[0, 2]],
        rule: weighed(0.0, 0.0, 6.0, 1.0),
        places: 12,
        result: Joined([6, 0, 6, 6, 0, 0], &[1, 0, 1, 1, 1, 2, 2, 0, 2, 1, 2, 2]),
        ..SHELF
    },
    Vector { name: "an item of T", left: &[&[1], &[0, 4]], result: Refused(5), ..SHELF },
    Vector { name: "items that do not rise", left: &[&[1, 1]], result: Refused(5), ..SHELF },
    Vector { name: "a rank table with a repeat", ranks: &[0, 1, 1, 3], result: Refused(6), ..SHELF },
    Vector { name: "a rank table too long", ranks: &[0, 1, 2, 3, 4], result: Refused(6), ..SHELF },
];

fn collection(sets: Sets) -> Collection {
    Collection::of(&sets.iter().map(|set| set.to_vec()).collect::<Vec<_>>())
}

fn check(v: &Vector) -> Result<(), String> {
    let ranks = if v.ranks.is_empty() { (0..v.t as u16).collect() } else { v.ranks.to_vec() };
    let (left, right) = (collection(v.left), collection(v.right));
    let mut q = Query { t: v.t, left, right, limit: v.limit, ranks, budget: v.budget, rule: v.rule, work: 0, places: v.places };
    q.work = oracle::work_words(&q);
    let early = oracle::join_refusal(&q);
    let walked = early.is_none().then(|| oracle::walk(&q));
    let refusal = early.or_else(|| oracle::walk_refusal(&q, &walked.as_ref()?.counts));
    match (&v.result, refusal, &walked) {
        (Refused(number), Some(refusal), _) if *number == refusal.0 => {}
        (Joined(counts, pairs), None, Some(walked)) => {
            let c = walked.counts;
            let is = [c.pairs, c.by_path, c.confirmed, c.checks, c.dropped, c.false_drops];
            if is != *counts || walked.pairs != *pairs {
                return Err(format!("the oracle has {is:?} {:?}", walked.pairs));
            }
        }
        _ => return Err(format!("the oracle has {refusal:?} {:?}", walked.map(|walked| walked.counts))),
    }
    for places in [v.places, v.places + 3] {
        // with more room the shelf's refusal 9 is none
        let more = Query { places, ..q.clone() };
        calls::join(&mut Random::new(1), &more, walked.as_ref())?;
    }
    calls::join(&mut Random::new(1), &Query { work: q.work - 1, ..q.clone() }, walked.as_ref())?;
    calls::join_by_number(&mut Random::new(1), &q, 3, [0.0; 4], None)
}

fn main() {
    run_named(VECTORS.iter().map(|v| (v.name.to_string(), check(v))).collect());
}
