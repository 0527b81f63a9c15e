//! Joins and orders at the limits exactly, and one beyond: 4,096 sets, 255 items a set, 65,535 entries, T of 4,096, limit 255.

use harness::calls;
use harness::oracle::*;
use harness::random::Random;
use harness::run::run_named;

const MERGE: Rule = Rule::Merge;

fn query(t: u32, left: &[Vec<u16>], right: &[Vec<u16>], limit: u32, rule: Rule) -> Query {
    let ranks = (0..t as u16).rev().collect();
    let (left, right) = (Collection::of(left), Collection::of(right));
    let mut q = Query { t, left, right, limit, ranks, budget: u32::MAX, rule, work: 0, places: 0 };
    q.work = work_words(&q);
    q
}

/// The walk decides the room and the budget; then each is tried one short.
fn around(mut q: Query) -> Result<(), String> {
    let random = &mut Random::new(3);
    let walked = walk(&q);
    q.places = 2 * walked.counts.pairs as usize;
    q.budget = walked.counts.checks as u32;
    calls::join(random, &q, Some(&walked))?;
    calls::join(random, &Query { work: q.work - 1, ..q.clone() }, Some(&walked))?;
    if q.budget > 0 {
        calls::join(random, &Query { budget: q.budget - 1, ..q.clone() }, Some(&walked))?;
    }
    if q.places > 0 {
        calls::join(random, &Query { places: q.places - 1, ..q.clone() }, Some(&walked))?;
    }
    Ok(())
}

fn refused(q: Query, should: Refusal) -> Result<(), String> {
    if join_refusal(&q) != Some(should) {
        return Err(format!("the oracle has {:?}", join_refusal(&q)));
    }
    let random = &mut Random::new(4);
    calls::join(random, &q, None)?;
    // a T that is refused needs no list of its length: one of 2^32-1 places would take 8 GB
    let places = (q.t as usize).min(65537);
    calls::order(random, &OrderQuery { t: q.t, left: q.left, right: q.right, falling: false, places })
}

/// Random sets of a length over t items.
fn random_sets(random: &mut Random, sets: usize, t: usize, length: usize) -> Vec<Vec<u16>> {
    (0..sets)
        .map(|_| {
            let mut set: Vec<u16> = (0..length).map(|_| random.below(t) as u16).collect();
            set.sort_unstable();
            set.dedup();
            set
        })
        .collect()
}

fn main() {
    let random = &mut Random::new(5);
    let single = |n: usize| (0..n).map(|k| vec![(k % 4096) as u16]).collect::<Vec<_>>();
    let run = |start: u16, n: u16| (start..start + n).collect::<Vec<u16>>();
    // 257 sets of 255 items are 65,535 entries
    let full: Vec<Vec<u16>> = (0..257).map(|k| run(15 * k % 3841, 255)).collect();
    let mut above = full.clone();
    above.push(vec![7]);
    let mut closed = full.clone();
    closed.push(Vec::new());
    let mixed_left = random_sets(random, 4096, 4096, 3);
    let mixed_right = random_sets(random, 4096, 4096, 15);
    let few_left = random_sets(random, 4096, 100, 4);
    let few_right = random_sets(random, 4096, 100, 15);
    let weighed = Rule::Weighed { a: 1.0, b: 0.5, g: 10.0, h: 0.7 };
    let none: Vec<Vec<u16>> = Vec::new();
    let mut checks: Vec<(&str, Result<(), String>)> = Vec::new();
    let mut add = |name, result| checks.push((name, result));

    add("4,096 sets a side, Merge, limit 1", around(query(4096, &single(4096), &single(4096), 1, MERGE)));
    add("4,096 sets a side, Check", around(query(4096, &single(4096), &single(4096), 255, Rule::Check)));
    add("4,096 sets a side of several items, limit 2", around(query(4096, &mixed_left, &mixed_right, 2, MERGE)));
    add("4,096 sets a side over few items, limit 1", around(query(100, &few_left, &few_right, 1, MERGE)));
    add("4,096 sets a side over few items, limit 255", around(query(100, &few_left, &few_right, 255, MERGE)));
    add("4,096 sets a side over few items, Weighed", around(query(100, &few_left, &few_right, 3, weighed)));
    let one = vec![vec![7]; 4096];
    add("4,096 sets a side of one item, which all hold, limit 1", around(query(9, &one, &one, 1, MERGE)));
    add("4,096 sets a side of one item, which all hold, Check", around(query(9, &one, &one, 1, Rule::Check)));
    add("4,096 left sets of one item and one empty right set", around(query(9, &one, &[vec![]], 1, MERGE)));
    add("4,096 empty left sets and 4,096 right sets", around(query(4096, &vec![vec![]; 4096], &single(4096), 2, MERGE)));
    add("4,096 empty left sets and 4,096 right sets, Check", around(query(4096, &vec![vec![]; 4096], &single(4096), 2, Rule::Check)));
    add("4,096 empty sets a side", around(query(0, &vec![vec![]; 4096], &vec![vec![]; 4096], 1, MERGE)));
    add("4,096 equal left sets", around(query(9, &vec![vec![2, 5]; 4096], &vec![vec![2, 5, 7]; 256], 2, MERGE)));
    add("65,535 entries a side, limit 2", around(query(4096, &full, &closed, 2, MERGE)));
    add("65,535 entries a side, limit 255", around(query(4096, &closed, &full, 255, MERGE)));
    add("65,535 entries a side, Check", around(query(4096, &full, &full, 255, Rule::Check)));
    let deep: Vec<Vec<u16>> = (0..60).map(|k| [run(0, 254), vec![300 + k]].concat()).collect();
    for limit in [1, 2, 253, 254, 255] {
        add("255 items that differ in the last", around(query(4096, &deep, &deep, limit, MERGE)));
        add("255 items that differ in the last, Weighed", around(query(4096, &deep, &deep, limit, weighed)));
    }
    add("T of 4,096 without sets", around(query(4096, &none, &none, 1, MERGE)));

    add("4,097 left sets", refused(query(4096, &single(4097), &single(1), 1, MERGE), Refusal(5, 0, 4096)));
    add("4,097 right sets", refused(query(4096, &single(1), &single(4097), 1, MERGE), Refusal(5, 1, 4096)));
    add("4,097 empty sets", refused(query(0, &vec![vec![]; 4097], &none, 1, MERGE), Refusal(5, 0, 4096)));
    add("256 items", refused(query(4096, &[run(0, 255), run(0, 256)], &none, 1, MERGE), Refusal(5, 0, 1)));
    add("65,536 entries left", refused(query(4096, &above, &none, 1, MERGE), Refusal(5, 0, 257)));
    add("65,536 entries right", refused(query(4096, &none, &above, 1, MERGE), Refusal(5, 1, 257)));
    add("T of 4,097", refused(query(4097, &none, &none, 1, MERGE), Refusal(6, 0, 0)));
    add("T of 65,536", refused(query(65536, &none, &none, 1, MERGE), Refusal(6, 0, 0)));
    add("T of 2^32-1", refused(Query { t: u32::MAX, ranks: Vec::new(), work: 9, ..query(0, &none, &none, 1, MERGE) }, Refusal(6, 0, 0)));

    for falling in [false, true] {
        for (name, left, right) in [
            ("the order of 4,096 equal frequencies", &single(4096), &single(4096)),
            ("the order of 65,535 entries a side", &full, &closed),
            ("the order of 4,096 sets a side", &mixed_left, &mixed_right),
        ] {
            let q = OrderQuery { t: 4096, left: Collection::of(left), right: Collection::of(right), falling, places: 4096 };
            add(name, calls::order(random, &q));
        }
    }
    run_named(checks.into_iter().map(|(name, result)| (name.to_string(), result)).collect());
}
