//! Random collections and settings of a join: mostly good and small, with every kind of fault now and then.

use crate::oracle::*;
use crate::random::Random;

/// Where the items of a case come from: a few of 0 .. t-1, so that sets share them.
pub struct Pool {
    pub t: u32,
    items: Vec<u16>,
}

impl Pool {
    pub fn new(random: &mut Random) -> Pool {
        let t = match random.below(16) {
            0 => random.below(3),
            1 => random.within(257, 400),
            2 => random.pick(&[255, 256, 257, 258, 512, 513]),
            3 if random.one_in(8) => random.pick(&[4095, 4096]),
            _ => random.within(3, 20),
        };
        let mut items: Vec<u16> = (0..t as u16).collect();
        random.shuffle(&mut items);
        items.truncate(random.within(1, 14));
        if t > 256 && random.one_in(2) {
            // items of one mark position, so that a check can be false
            let k = random.below(t - 256) as u16;
            items.extend([k, k + 256]);
        }
        items.sort_unstable();
        items.dedup();
        Pool { t: t as u32, items }
    }

    fn set(&self, random: &mut Random, one_in: usize) -> Vec<u16> {
        self.items.iter().copied().filter(|_| random.one_in(one_in)).collect()
    }

    /// Sets of one side. Some are empty, and some equal, within or around an earlier one of `known`.
    pub fn sets(&self, random: &mut Random, known: &[Vec<u16>]) -> Vec<Vec<u16>> {
        let most = random.pick(&[0, 1, 3, 6, 12]);
        let one_in = random.pick(&[1, 2, 2, 3, 5]);
        let mut sets: Vec<Vec<u16>> = Vec::new();
        for _ in 0..random.within(0, most) {
            let all = sets.len() + known.len();
            let earlier = |k: usize| if k < sets.len() { &sets[k] } else { &known[k - sets.len()] };
            let set = match random.below(8) {
                0 => Vec::new(),
                1 if all > 0 => earlier(random.below(all)).clone(),
                2 | 3 if all > 0 => {
                    let source = earlier(random.below(all)).clone();
                    source.into_iter().filter(|_| !random.one_in(3)).collect()
                }
                4 if all > 0 => {
                    let mut union = earlier(random.below(all)).clone();
                    union.extend(self.set(random, 3));
                    union.sort_unstable();
                    union.dedup();
                    union
                }
                _ => self.set(random, one_in),
            };
            sets.push(set);
        }
        sets
    }
}

/// Puts empty sets among others: in place of all of them, first, last, in a row at one place, behind each, or between two that are equal.
fn put_empty(random: &mut Random, sets: &mut Vec<Vec<u16>>) {
    let row = vec![Vec::new(); random.within(1, 3)];
    let at = random.below(sets.len() + 1);
    match random.below(7) {
        0 => *sets = row,
        1 => sets.iter_mut().for_each(Vec::clear),
        2 => sets.insert(0, Vec::new()),
        3 => sets.push(Vec::new()),
        4 => drop(sets.splice(at..at, row)),
        5 => *sets = sets.iter().flat_map(|set| [set.clone(), Vec::new()]).collect(),
        _ => {
            if let Some(set) = sets.get(at).cloned() {
                sets.splice(at..at, [set, Vec::new()]);
            }
        }
    }
}

/// Both collections of a case, good, often with empty sets, and with items past the last end now and then.
pub fn collections(random: &mut Random) -> (u32, Collection, Collection) {
    let pool = Pool::new(random);
    let mut right = pool.sets(random, &[]);
    let mut left = pool.sets(random, &right);
    if random.one_in(5) {
        put_empty(random, &mut left);
    }
    if random.one_in(12) {
        put_empty(random, &mut right);
    }
    let mut sides = [Collection::of(&left), Collection::of(&right)];
    for side in &mut sides {
        if random.one_in(4) {
            let past = random.within(1, 5);
            let below = random.pick(&[pool.t as usize + 1, 65536]);
            side.items.extend((0..past).map(|_| random.below(below) as u16));
        }
    }
    let [left, right] = sides;
    (pool.t, left, right)
}

/// Makes a set of a good collection bad, where that can be done in this way.
pub fn spoil(random: &mut Random, t: u32, collection: &mut Collection) {
    let sets = collection.ends.len();
    if sets == 0 || collection.first_bad(t).is_some() {
        return;
    }
    let k = random.below(sets);
    let start = if k == 0 { 0 } else { collection.ends[k - 1] as usize };
    let end = collection.ends[k] as usize;
    match random.below(6) {
        0 => collection.ends[k] = random.pick(&[u32::MAX, 65536, 65535, collection.items.len() as u32 + 1]),
        1 if start > 0 => collection.ends[k] = start as u32 - 1,
        2 if end > start => collection.items[random.within(start, end - 1)] = random.pick(&[t as u16, u16::MAX]),
        3 if end > start + 1 => collection.items[start + 1] = collection.items[start],
        4 if end > start + 1 => collection.items.swap(start, end - 1),
        5 => {
            // a set of 255 or 256 items; the items of small T are then bad in another way as well
            let long: Vec<u16> = (0..random.pick(&[255u16, 256, 257])).collect();
            let mut sets = collection.sets();
            sets[k] = long;
            *collection = Collection::of(&sets);
        }
        _ => {}
    }
}

pub fn permutation(random: &mut Random, t: u32, left: &Collection, right: &Collection) -> Vec<u16> {
    let mut ranks: Vec<u16> = (0..t as u16).collect();
    match random.below(5) {
        0 => {}
        1 => ranks.reverse(),
        2 if t < 300 => ranks = ranks_by_frequency(t, left, right, false),
        3 if t < 300 => ranks = ranks_by_frequency(t, left, right, true),
        _ => random.shuffle(&mut ranks),
    }
    ranks
}

/// Makes a rank table no permutation, where it can.
pub fn spoil_ranks(random: &mut Random, ranks: &mut Vec<u16>) {
    let t = ranks.len() as u16;
    match random.below(4) {
        0 => ranks.push(t),
        1 => drop(ranks.pop()),
        2 if t > 0 => ranks[random.below(t as usize)] = random.pick(&[t, u16::MAX]),
        3 if t > 1 => ranks[0] = ranks[t as usize - 1],
        _ => {}
    }
}

const SPECIAL: [f64; 24] = [
    0.0,
    -0.0,
    1.0,
    -1.0,
    1.5,
    0.5,
    2.0,
    0.1,
    0.2,
    -0.3,
    5e-324,
    -5e-324,
    2.2250738585072009e-308,
    f64::MIN_POSITIVE,
    f64::MAX,
    f64::MIN,
    f64::INFINITY,
    f64::NEG_INFINITY,
    f64::NAN,
    9007199254740992.0,
    9007199254740994.0,
    1e16,
    -1e16,
    1.0000000000000002,
];

/// A weight of any kind: a special value, a small one, or any bits at all.
fn weight(random: &mut Random) -> f64 {
    match random.below(8) {
        0..=3 => random.pick(&SPECIAL),
        4 | 5 => random.unit() * 4.0 - 1.0,
        6 => random.within(0, 12) as f64 - 4.0,
        _ => f64::from_bits(random.word()),
    }
}

/// A finite float some steps above or below another.
fn step(x: f64, steps: i64) -> f64 {
    f64::from_bits((x.to_bits() as i64 + steps) as u64)
}

/// Weights that tell the rule from one other way to compute it at a node, where some draws find such.
fn borderline(random: &mut Random, node: Node) -> Rule {
    let way = random.below(SEPARATED.len());
    let draws: Vec<Rule> = (0..20).map(|_| near_equal(random, node)).collect();
    draws.iter().copied().find(|&rule| separated(rule, node)[way]).unwrap_or(draws[0])
}

/// Weights whose two sides at a node are equal but for the rounding, or nearly so.
fn near_equal(random: &mut Random, node: Node) -> Rule {
    let large = random.pick(&[1e16, 3e15, 9007199254740993.0]);
    let (a, b, g) = match random.below(4) {
        0 => (random.unit(), random.unit(), random.unit()),
        1 => (random.unit(), random.unit() * large, -large),
        2 => (large, 1.0 + random.unit(), -large * node.c as f64),
        _ => (random.within(1, 9) as f64 / 10.0, random.within(1, 9) as f64 / 10.0, random.within(1, 9) as f64 / 10.0),
    };
    let side = (a * node.c as f64 + b * node.t as f64) + g;
    let h = side / (node.c * node.m).max(1) as f64;
    let h = if h.is_finite() && h != 0.0 { step(h, random.within(0, 4) as i64 - 2) } else { h };
    Rule::Weighed { a, b, g, h }
}

/// Which other ways to compute the weighed rule would decide a node otherwise.
pub fn separated(rule: Rule, node: Node) -> [bool; 6] {
    let Rule::Weighed { a, b, g, h } = rule else { return [false; 6] };
    let (c, t, m) = (node.c as f64, node.t as f64, node.m as f64);
    let right = h * (c * m);
    let is = (a * c + b * t) + g < right;
    [
        (a * c + (b * t + g) < right) != is,
        ((a * c + g) + b * t < right) != is,
        (a.mul_add(c, b * t) + g < right) != is,
        (b.mul_add(t, a * c) + g < right) != is,
        ((a * c + b * t) + g < (h * c) * m) != is,
        ((a * c + b * t) + g <= right) != is,
    ]
}

pub const SEPARATED: [&str; 6] = ["a*c + (b*t + g)", "(a*c + g) + b*t", "fused a*c", "fused b*t", "(h*c)*m", "at most instead of below"];

pub fn rule(random: &mut Random, nodes: &[Node]) -> Rule {
    match random.below(8) {
        0 | 1 => Rule::Merge,
        2 => Rule::Check,
        3 | 4 if !nodes.is_empty() => {
            let node = random.pick(nodes);
            borderline(random, node)
        }
        5 => Rule::Weighed {
            a: random.within(0, 4) as f64 / 2.0,
            b: random.within(0, 4) as f64 / 2.0,
            g: random.within(0, 6) as f64 - 3.0,
            h: random.within(0, 6) as f64 / 2.0,
        },
        _ => Rule::Weighed { a: weight(random), b: weight(random), g: weight(random), h: weight(random) },
    }
}

pub fn limit(random: &mut Random) -> u32 {
    match random.below(6) {
        0 => 1,
        1 => 2,
        2 => 3,
        3 => random.pick(&[254, 255]),
        4 => random.within(1, 8) as u32,
        _ => random.within(1, 255) as u32,
    }
}

/// A query with its walk, where there is one. Most are accepted.
pub fn query(random: &mut Random) -> (Query, Option<Walked>) {
    let (t, left, right) = collections(random);
    let ranks = permutation(random, t, &left, &right);
    let mut q = Query { t, left, right, limit: limit(random), ranks, budget: u32::MAX, rule: Rule::Merge, work: 0, places: 0 };
    let nodes = if random.one_in(2) { walk(&q).nodes } else { Vec::new() };
    q.rule = rule(random, &nodes);
    let is_spoilt = random.one_in(5);
    if is_spoilt {
        spoil_some(random, &mut q);
    }
    // a spoilt end may ask for more words than a test can lend
    let needed = work_words(&q).min(100_000);
    q.work = match random.below(12) {
        0 => needed - 1,
        1 => random.below(needed),
        2 => needed + random.within(1, 40),
        _ => needed,
    };
    q.places = random.within(0, 20);
    if join_refusal(&q).is_some() {
        return (q, None);
    }
    let walked = walk(&q);
    let (checks, places) = (walked.counts.checks as usize, 2 * walked.counts.pairs as usize);
    q.budget = match random.below(8) {
        0 => checks.saturating_sub(1),
        1 => checks,
        2 => checks + 1,
        3 => random.below(checks + 1),
        4 => 0,
        _ => u32::MAX as usize,
    } as u32;
    q.places = match random.below(8) {
        0 => places.saturating_sub(1),
        1 => places + 1,
        2 => places + random.within(2, 30),
        3 => random.below(places + 1),
        _ => places,
    };
    (q, Some(walked))
}

/// What is asked and what was walked, without the empty left sets: all is as it was, but that the places of the others close up.
pub fn without_empty(q: &Query, walked: &Walked) -> (Query, Walked) {
    let kept: Vec<usize> = q.left.sets().iter().enumerate().filter(|(_, set)| !set.is_empty()).map(|(k, _)| k).collect();
    let left = Collection { ends: kept.iter().map(|&k| q.left.ends[k]).collect(), items: q.left.items.clone() };
    let mut walked = walked.clone();
    for pair in walked.pairs.chunks_mut(2) {
        let place = kept.iter().position(|&k| k == pair[0] as usize).expect("an empty left set is in no pair");
        pair[0] = place as u16;
    }
    let mut q = Query { left, ..q.clone() };
    q.work = work_words(&q);
    (q, walked)
}

/// One or two faults of settings or sets.
fn spoil_some(random: &mut Random, q: &mut Query) {
    for _ in 0..random.within(1, 2) {
        match random.below(6) {
            0 => q.limit = random.pick(&[0, 256, 257, u32::MAX]),
            1 => spoil_ranks(random, &mut q.ranks),
            2 if random.one_in(4) => {
                q.t = random.pick(&[4097, 5000]);
                q.ranks = (0..q.t as u16).collect();
            }
            3 => spoil(random, q.t, &mut q.left),
            _ => spoil(random, q.t, &mut q.right),
        }
    }
}
