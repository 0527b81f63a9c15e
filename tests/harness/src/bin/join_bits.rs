//! The bits of the items, seen from outside: under Check a left set {k} is dropped against the right set {j} exactly where their bits
//! differ. Each item j below 256 stands against all others of 4,096, in two joins: those with another bit by the rule of powers, of
//! which every check has to be a drop, and those with the same bit, of which none may be.

use harness::calls;
use harness::oracle::*;
use harness::random::Random;
use harness::run::run_named;

const T: u16 = 4096;

/// All left sets have a rank above that of j, so that each is checked against the one right set.
fn against(j: u16, left: &[Vec<u16>]) -> Query {
    let ranks = (0..T).map(|i| (i + T - j) % T).collect();
    let (left, right) = (Collection::of(left), Collection::of(&[vec![j]]));
    let mut q = Query { t: T.into(), left, right, limit: 1, ranks, budget: u32::MAX, rule: Rule::Check, work: 0, places: 0 };
    q.work = work_words(&q);
    q
}

fn item(random: &mut Random, j: u16, bits: &[u32]) -> Result<(), String> {
    for differs in [true, false] {
        let other = |k: u16| (bits[k as usize] != bits[j as usize]) == differs;
        let left: Vec<Vec<u16>> = (0..T).filter(|&k| k != j && other(k)).map(|k| vec![k]).collect();
        let q = against(j, &left);
        let walked = walk(&q);
        let dropped = if differs { left.len() as u64 } else { 0 };
        if (walked.counts.checks, walked.counts.dropped) != (left.len() as u64, dropped) {
            return Err(format!("the oracle has {:?}", walked.counts));
        }
        calls::join(random, &q, Some(&walked))?;
    }
    Ok(())
}

fn main() {
    let random = &mut Random::new(6);
    let bits = positions(T.into());
    run_named((0..256).map(|j| (format!("the bit of item {j}"), item(random, j, &bits))).collect());
}
