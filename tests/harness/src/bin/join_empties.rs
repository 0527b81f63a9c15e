//! Empty kits, named: under every rule, at the least limit and the greatest, they pair with nothing, add to no count, and need no place and
//! no allowance; but they are sets, which count in 4,096 and in the words of the work list. What a join with them should give is what
//! the other kits alone give, their places moved on by the empty kits before them.

use harness::calls;
use harness::oracle::*;
use harness::random::Random;
use harness::run::run_named;

type Sets = Vec<Vec<u16>>;

/// The rules, one of Weighed going on everywhere, one nowhere, and one at some nodes.
const RULES: [(&str, Rule); 5] = [
    ("Merge", Rule::Merge),
    ("Check", Rule::Check),
    ("Weighed", Rule::Weighed { a: 1.0, b: 1.0, g: 0.0, h: 1.5 }),
    ("Weighed that goes on", Rule::Weighed { a: 0.0, b: 0.0, g: f64::NEG_INFINITY, h: 0.0 }),
    ("Weighed that does not", Rule::Weighed { a: 0.0, b: 0.0, g: f64::NAN, h: 0.0 }),
];
const LIMITS: [u32; 3] = [1, 2, 255];

/// A query with the work list that it needs, the greatest allowance and no places.
fn query(t: u32, left: &[Vec<u16>], right: &[Vec<u16>], limit: u32, rule: Rule) -> Query {
    let (left, right) = (Collection::of(left), Collection::of(right));
    let mut q = Query { t, left, right, limit, ranks: (0..t as u16).collect(), budget: u32::MAX, rule, work: 0, places: 0 };
    q.work = work_words(&q);
    q
}

/// Kits with so many empty ones before each and behind the last, and where the kits are then.
fn among(kits: &[Vec<u16>], empty: &[usize]) -> (Sets, Vec<u16>) {
    let (mut all, mut places) = (Sets::new(), Vec::new());
    for (k, &n) in empty.iter().enumerate() {
        all.resize(all.len() + n, Vec::new());
        if let Some(kit) = kits.get(k) {
            places.push(all.len() as u16);
            all.push(kit.clone());
        }
    }
    (all, places)
}

/// The oracle has this, and the library too: with the places and checks that it needs, and with one word, place or check less.
fn gives(mut q: Query, counts: Counts, pairs: &[u16]) -> Result<(), String> {
    let walked = walk(&q);
    if (walked.counts, &walked.pairs[..]) != (counts, pairs) {
        return Err(format!("the oracle has {:?} {:?}", walked.counts, walked.pairs));
    }
    let random = &mut Random::new(8);
    (q.places, q.budget) = (pairs.len(), counts.checks as u32);
    calls::join(random, &q, Some(&walked))?;
    calls::join(random, &Query { places: q.places + 3, ..q.clone() }, Some(&walked))?;
    let mut refuses = |number: u64, less: Query| match join_refusal(&less).or(walk_refusal(&less, &counts)) {
        Some(refusal) if refusal.0 == number => calls::join(random, &less, Some(&walked)),
        other => Err(format!("the oracle has {other:?} in place of {number}")),
    };
    refuses(7, Query { work: q.work - 1, ..q.clone() })?;
    if q.budget > 0 {
        refuses(8, Query { budget: q.budget - 1, ..q.clone() })?;
    }
    if q.places > 0 {
        refuses(9, Query { places: q.places - 1, ..q.clone() })?;
    }
    Ok(())
}

/// No pair and no count, without a place and without allowance.
fn gives_nothing(q: Query) -> Result<(), String> {
    gives(q, Counts::default(), &[])
}

/// The kits join as they do alone, and at their new places.
fn moved(kits: &[Vec<u16>], empty: &[usize], stacks: &[Vec<u16>], limit: u32, rule: Rule) -> Result<(), String> {
    let (all, places) = among(kits, empty);
    let alone = walk(&query(4, kits, stacks, limit, rule));
    let pairs: Vec<u16> = alone.pairs.chunks(2).flat_map(|pair| [places[pair[0] as usize], pair[1]]).collect();
    gives(query(4, &all, stacks, limit, rule), alone.counts, &pairs)
}

fn main() {
    let mut checks: Vec<(String, Result<(), String>)> = Vec::new();
    let none = Sets::new();
    let shelf_kits: Sets = vec![vec![0, 1], vec![1], vec![0, 2, 3]];
    let shelf: Sets = vec![vec![0, 1, 2], vec![1, 3], vec![0, 2, 3]];
    let equal: Sets = vec![vec![0, 1], vec![0, 1], vec![0, 1]];
    let with_empty: Sets = vec![vec![], vec![0, 1, 2], vec![], vec![1, 3], vec![0, 2, 3], vec![]];

    let arrangements: [(&str, &[usize]); 8] = [
        ("an empty kit first", &[1, 0, 0, 0]),
        ("an empty kit last", &[0, 0, 0, 1]),
        ("an empty kit in the middle", &[0, 1, 0, 0]),
        ("three in the middle", &[0, 0, 3, 0]),
        ("two first and two last", &[2, 0, 0, 2]),
        ("one between all", &[0, 1, 1, 0]),
        ("one around each", &[1, 1, 1, 1]),
        ("many", &[7, 30, 0, 500]),
    ];
    let kits = [("of the shelf", &shelf_kits), ("of three equal kits", &equal)];
    let lone_empty: Sets = vec![vec![]];
    let stacks = [("", &shelf), (", empty stacks too", &with_empty), (", an empty stack alone", &lone_empty), (", no stack", &none)];
    for (rule_name, rule) in RULES {
        for limit in LIMITS {
            let setting = format!("{rule_name}, limit {limit}");
            for (arrangement, empty) in arrangements {
                for (of, kits) in kits {
                    for (beside, stacks) in stacks {
                        let name = format!("{arrangement} {of}{beside}, {setting}");
                        checks.push((name, moved(kits, empty, stacks, limit, rule)));
                    }
                }
            }
            for (beside, stacks) in stacks {
                for n in [1, 2, 5] {
                    let name = format!("{n} empty kits and no other{beside}, {setting}");
                    checks.push((name, gives_nothing(query(4, &vec![vec![]; n], stacks, limit, rule))));
                }
            }
            let name = format!("empty kits and empty stacks over no items, {setting}");
            checks.push((name, gives_nothing(query(0, &vec![vec![]; 3], &vec![vec![]; 2], limit, rule))));
        }

        // As many as there can be: beside stacks that are all equal, and around one kit that they hold.
        let many = vec![vec![2]; 4096];
        checks.push((format!("4,096 empty kits, {rule_name}"), gives_nothing(query(4, &vec![vec![]; 4096], &many, 2, rule))));
        for place in [0, 2000, 4095] {
            let (kits, _) = among(&[vec![2]], &[place, 4095 - place]);
            let pairs: Vec<u16> = (0..4096).flat_map(|stack| [place as u16, stack]).collect();
            let by_path = if rule.goes_on(4096, 4096, 1) { 4096 } else { 0 };
            let confirmed = 4096 - by_path;
            let counts = Counts { pairs: 4096, by_path, confirmed, checks: confirmed, dropped: 0, false_drops: 0 };
            let q = query(4, &kits, &many, 2, rule);
            checks.push((format!("4,095 empty kits and one at place {place}, {rule_name}"), gives(q, counts, &pairs)));
        }
    }

    // They count in n: 16 words each, and 64.
    for (n, words) in [(1, 80), (2, 96), (4096, 65600)] {
        let q = query(0, &vec![vec![]; n], &none, 1, Rule::Merge);
        let name = format!("{n} empty kits and nothing else");
        checks.push((name, if q.work == words { gives_nothing(q) } else { Err(format!("the oracle asks for {} words", q.work)) }));
    }
    run_named(checks);
}
