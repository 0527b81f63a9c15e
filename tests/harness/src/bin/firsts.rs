//! The search for the first kit on drawn kits and stacks, good and bad, small and about the limits, with guards around every list. Each
//! case is compared with the oracle, and with the join of the same kits with this one stack under two drawn settings: the join refuses
//! as the search does, or its first pair has the place that the search found. Every case is counted under each kind that it is of, by its
//! lists and the oracle's account, whatever it was made for. The last lines have the counts, and a kind without a case fails the run.

use harness::firsts::query;
use harness::joins::{limit, permutation, rule};
use harness::kinds::{expect_all, Tally};
use harness::oracle::{self, contained_kits, first_refusal, has_bad_items, is_contained, Collection, FirstQuery, Refusal};
use harness::random::Random;
use harness::{calls, run::Plan};
use kitfinder::Side;

/// What is wrong with a set.
#[derive(Clone, Copy, Debug, PartialEq)]
enum Fault {
    Place,
    EndFalls,
    EndTooGreat,
    EndPastItems,
    Length,
    Item,
    Equal,
    Fall,
}

/// What is wrong with a set's items.
fn item_faults(t: u32, set: &[u16]) -> Vec<Fault> {
    let is = [
        (set.len() > 255, Fault::Length),
        (set.iter().any(|&i| u32::from(i) >= t), Fault::Item),
        (set.windows(2).any(|w| w[0] == w[1]), Fault::Equal),
        (set.windows(2).any(|w| w[0] > w[1]), Fault::Fall),
    ];
    is.iter().filter(|(is, _)| *is).map(|&(_, fault)| fault).collect()
}

/// What is wrong with a kit; its items are looked at where its end lets them be.
fn kit_faults(q: &FirstQuery, k: usize) -> Vec<Fault> {
    let (start, end) = (if k == 0 { 0 } else { q.left.ends[k - 1] }, q.left.ends[k]);
    let is = [
        (k >= 4096, Fault::Place),
        (end < start, Fault::EndFalls),
        (end > 65535, Fault::EndTooGreat),
        (end as usize > q.left.items.len(), Fault::EndPastItems),
    ];
    let mut faults: Vec<Fault> = is.iter().filter(|(is, _)| *is).map(|&(_, fault)| fault).collect();
    faults.extend(q.left.items.get(start as usize..end as usize).map_or(Vec::new(), |set| item_faults(q.t, set)));
    faults
}

/// A query with the oracle's account of it: its refusal; where there is none, its kits and those that are contained.
struct Case<'a> {
    q: &'a FirstQuery,
    refusal: Option<Refusal>,
    kits: Vec<Vec<u16>>,
    contained: &'a [usize],
    bad_kit: Option<usize>,
    bad_stack: bool,
}

impl Case<'_> {
    fn is(&self, number: u64) -> bool {
        self.refusal.map_or(0, |refusal| refusal.0) == number
    }

    /// Accepted and found, with the place and the last place.
    fn is_found(&self, holds: fn(usize, usize) -> bool) -> bool {
        self.is(0) && self.contained.first().is_some_and(|&place| holds(place, self.kits.len() - 1))
    }

    fn is_none(&self) -> bool {
        self.is(0) && self.contained.is_empty()
    }

    /// The kit that is found.
    fn found(&self) -> Option<&Vec<u16>> {
        self.contained.first().map(|&place| &self.kits[place])
    }

    /// The kits that are compared and not contained.
    fn passed(&self) -> &[Vec<u16>] {
        &self.kits[..self.contained.first().copied().unwrap_or(self.kits.len())]
    }

    /// The kits behind the one that is found.
    fn behind(&self) -> &[Vec<u16>] {
        self.contained.first().map_or(&[], |&place| &self.kits[place + 1..])
    }

    fn has_item(&self, item: u16) -> bool {
        self.q.right.binary_search(&item).is_ok()
    }

    /// A kit is passed of which one item alone is not in the stack, at a place in the kit.
    fn lacks_one(&self, holds: fn(usize, usize) -> bool) -> bool {
        self.passed().iter().any(|kit| {
            let lacking: Vec<usize> = (0..kit.len()).filter(|&i| !self.has_item(kit[i])).collect();
            lacking.len() == 1 && holds(lacking[0], kit.len() - 1)
        })
    }

    /// A kit is passed whose items all equal items of the stack modulo a number.
    fn is_alike(&self, modulo: u16) -> bool {
        let alike = |item: &u16| self.q.right.iter().any(|other| other % modulo == item % modulo);
        self.passed().iter().any(|kit| is_contained(kit, alike))
    }

    /// There are kits, and all are empty.
    fn has_only_empty(&self) -> bool {
        !self.kits.is_empty() && self.kits.iter().all(Vec::is_empty)
    }

    /// Found after so many kits that are all empty.
    fn is_behind_empty(&self, holds: fn(usize) -> bool) -> bool {
        self.found().is_some() && holds(self.passed().len()) && self.passed().iter().all(Vec::is_empty)
    }

    /// An empty kit stands between two kits, of which something holds.
    fn has_empty_between(&self, holds: fn(&Case, usize, usize) -> bool) -> bool {
        (1..self.kits.len().saturating_sub(1)).any(|k| self.kits[k].is_empty() && holds(self, k - 1, k + 1))
    }

    /// The items beyond the last end.
    fn past(&self) -> &[u16] {
        self.q.left.items.get(self.q.left.entries()..).unwrap_or(&[])
    }

    /// Refused for a kit of which these are all the faults.
    fn is_bad_kit(&self, faults: &[Fault]) -> bool {
        matches!(self.refusal, Some(Refusal(5, 0, k)) if kit_faults(self.q, k as usize) == faults)
    }

    /// Refused for a bad kit with an end of which something holds.
    fn has_bad_end(&self, holds: impl Fn(u32) -> bool) -> bool {
        matches!(self.refusal, Some(Refusal(5, 0, k)) if holds(self.q.left.ends[k as usize]))
    }

    /// Refused for a bad kit that would not be bad if ends had 16 bits.
    fn is_good_by_16_bits(&self) -> bool {
        let ends = self.q.left.ends.iter().map(|&end| end & 0xFFFF).collect();
        self.has_bad_end(|end| end > 65535) && Collection { ends, items: self.q.left.items.clone() }.first_bad(self.q.t).is_none()
    }

    /// Refused for a bad kit behind one that the stack contains.
    fn is_bad_behind(&self) -> bool {
        let Some(Refusal(5, 0, k)) = self.refusal else { return false };
        let before = Collection { ends: self.q.left.ends[..k as usize].to_vec(), items: self.q.left.items.clone() };
        !self.bad_stack && before.sets().iter().any(|kit| is_contained(kit, |&item| self.has_item(item)))
    }

    /// Refused for a bad kit behind others that are all empty.
    fn is_bad_behind_empty(&self) -> bool {
        matches!(self.refusal, Some(Refusal(5, 0, k)) if k > 0 && self.q.left.ends[..k as usize].iter().all(|&end| end == 0))
    }

    /// Refused for the stack, of which these are all the faults.
    fn has_bad_items(&self, faults: &[Fault]) -> bool {
        self.refusal == Some(Refusal(5, 1, 0)) && item_faults(self.q.t, &self.q.right) == faults
    }
}

type Kind = (&'static str, fn(&Case) -> bool);
const KINDS: [Kind; 87] = [
    ("found at place 0 of several", |c| c.is_found(|place, last| place == 0 && last > 0)),
    ("found in the middle", |c| c.is_found(|place, last| place > 0 && place < last)),
    ("found at the last place of several", |c| c.is_found(|place, last| place > 0 && place == last)),
    ("none of several", |c| c.is_none() && c.kits.len() > 1 && !c.kits.iter().any(Vec::is_empty)),
    ("a lone kit, found", |c| c.is_found(|_, last| last == 0)),
    ("a lone kit, not found", |c| c.is_none() && c.kits.len() == 1 && !c.has_only_empty()),
    ("no kits", |c| c.is(0) && c.kits.is_empty()),
    ("no kits and no items", |c| c.is(0) && c.kits.is_empty() && c.q.right.is_empty()),
    ("several kits are contained", |c| c.contained.len() > 1),
    ("all kits are contained", |c| c.contained.len() > 1 && c.contained.len() == c.kits.len()),
    ("the kit found is there again", |c| c.found().is_some_and(|kit| c.behind().contains(kit))),
    ("equal kits are passed", |c| c.passed().windows(2).any(|pair| pair[0] == pair[1] && !pair[0].is_empty())),
    ("a kit passed has all items of the kit found", |c| {
        c.found().is_some_and(|found| found.len() > 1 && c.passed().iter().any(|kit| found.iter().all(|item| kit.contains(item))))
    }),
    ("an empty kit first, and the next is found", |c| c.is_behind_empty(|empty| empty == 1)),
    ("several empty kits first, and the next is found", |c| c.is_behind_empty(|empty| empty > 1)),
    ("an empty kit after another, and the next is found", |c| {
        c.is_found(|place, _| place > 1) && c.passed().last().is_some_and(Vec::is_empty) && c.passed().iter().any(|kit| !kit.is_empty())
    }),
    ("an empty kit behind the one found", |c| c.behind().iter().any(Vec::is_empty)),
    ("an empty kit between two that are contained", |c| {
        c.has_empty_between(|c, before, behind| c.contained.contains(&before) && c.contained.contains(&behind))
    }),
    ("an empty kit between two that are equal, and none", |c| {
        c.is_none() && c.has_empty_between(|c, before, behind| c.kits[before] == c.kits[behind] && !c.kits[before].is_empty())
    }),
    ("an empty kit first of several, and none", |c| c.is_none() && c.kits.len() > 1 && c.kits[0].is_empty() && !c.has_only_empty()),
    ("an empty kit last of several, and none", |c| {
        c.is_none() && c.kits.len() > 1 && c.kits.last().is_some_and(Vec::is_empty) && !c.has_only_empty()
    }),
    ("an empty kit alone, and items", |c| c.kits == [[]] && !c.q.right.is_empty()),
    ("an empty kit alone, and an empty stack", |c| c.kits == [[]] && c.q.right.is_empty()),
    ("several kits, all empty", |c| c.kits.len() > 1 && c.has_only_empty() && !c.q.right.is_empty()),
    ("several kits, all empty, and an empty stack", |c| c.kits.len() > 1 && c.has_only_empty() && c.q.right.is_empty()),
    ("only empty kits, and items of the stack beyond the last end", |c| {
        c.is(0) && c.has_only_empty() && is_contained(c.past(), |&item| c.has_item(item))
    }),
    ("only empty kits and a stack of 255 items", |c| c.has_only_empty() && c.q.right.len() == 255),
    ("an empty stack that contains none of several", |c| {
        c.is_none() && c.kits.len() > 1 && !c.kits.iter().any(Vec::is_empty) && c.q.right.is_empty()
    }),
    ("a stack of 255 items, found", |c| c.found().is_some() && c.q.right.len() == 255),
    ("a stack of 255 items, none", |c| c.is_none() && c.kits.len() > 1 && c.q.right.len() == 255),
    ("the kit found is the stack", |c| c.found().is_some_and(|kit| *kit == c.q.right)),
    ("the kit found has 255 items", |c| c.found().is_some_and(|kit| kit.len() == 255)),
    ("the kit found has a lone item", |c| c.found().is_some_and(|kit| kit.len() == 1) && c.q.right.len() > 1),
    ("the kit found has item 0", |c| c.found().is_some_and(|kit| kit.first() == Some(&0))),
    ("the kit found has item 4,095", |c| c.found().is_some_and(|kit| kit.last() == Some(&4095))),
    ("a kit lacks its first item", |c| c.lacks_one(|at, last| at == 0 && last > 0)),
    ("a kit lacks an item in its middle", |c| c.lacks_one(|at, last| at > 0 && at < last)),
    ("a kit lacks its last item", |c| c.lacks_one(|at, last| at > 0 && at == last)),
    ("a kit of 255 items lacks one", |c| c.lacks_one(|_, last| last == 254)),
    ("a kit passed is longer than the stack", |c| c.passed().iter().any(|kit| kit.len() > c.q.right.len() && c.q.right.len() > 1)),
    ("a kit passed equals items of the stack modulo 64", |c| c.is_alike(64) && !c.is_alike(256)),
    ("a kit passed equals items of the stack modulo 256", |c| c.is_alike(256)),
    ("none, and a kit equals items of the stack modulo 256", |c| c.is_none() && c.is_alike(256)),
    ("items beyond the last end", |c| c.is(0) && !c.kits.is_empty() && !c.past().is_empty()),
    ("items beyond the last end that the stack has, and none", |c| {
        c.is_none() && !c.kits.is_empty() && !c.past().is_empty() && c.past().iter().all(|&item| c.has_item(item))
    }),
    ("items beyond the last end of T or more", |c| c.is(0) && !c.kits.is_empty() && c.past().iter().any(|&i| u32::from(i) >= c.q.t)),
    ("items and no ends", |c| c.is(0) && c.kits.is_empty() && !c.past().is_empty()),
    ("T of 0", |c| c.is(0) && c.q.t == 0 && !c.kits.is_empty()),
    ("T of 4,096", |c| c.is(0) && c.q.t == 4096 && !c.kits.is_empty()),
    ("4,096 kits, found at the last place", |c| c.is_found(|place, _| place == 4095)),
    ("4,096 kits, none", |c| c.is_none() && c.kits.len() == 4096),
    ("4,096 kits, found behind an empty one", |c| c.is_found(|_, last| last == 4095) && c.passed().iter().any(Vec::is_empty)),
    ("4,096 kits, none, and some are empty", |c| c.is_none() && c.kits.len() == 4096 && c.kits.iter().any(Vec::is_empty)),
    ("65,535 entries", |c| c.is(0) && c.q.left.entries() == 65535),
    ("T of 4,097", |c| c.is(6) && c.q.t == 4097 && c.bad_kit.is_none() && !c.bad_stack),
    ("T that is good by its low 16 bits", |c| c.is(6) && c.q.t & 0xFFFF <= 4096 && c.bad_kit.is_none() && !c.bad_stack),
    ("T of 2^32-1", |c| c.is(6) && c.q.t == u32::MAX && c.bad_kit.is_none() && !c.bad_stack),
    ("6 against a bad kit", |c| c.is(6) && c.bad_kit.is_some() && !c.bad_stack),
    ("6 against a bad stack", |c| c.is(6) && c.bad_kit.is_none() && c.bad_stack),
    ("6 against both", |c| c.is(6) && c.bad_kit.is_some() && c.bad_stack),
    ("a bad kit against a bad stack", |c| c.is(5) && c.bad_kit.is_some() && c.bad_stack),
    ("a bad kit behind one that is contained", |c| c.is_bad_behind()),
    ("a bad kit behind empty ones", |c| c.is_bad_behind_empty()),
    ("a bad kit, and a later one", |c| {
        c.is(5) && c.bad_kit.is_some_and(|k| (k + 1..c.q.left.ends.len()).any(|k| !kit_faults(c.q, k).is_empty()))
    }),
    ("a bad kit at place 0", |c| c.is(5) && c.bad_kit == Some(0)),
    ("a bad kit at the last place of several", |c| c.is(5) && c.bad_kit.is_some_and(|k| k > 0 && k + 1 == c.q.left.ends.len())),
    ("4,097 kits", |c| c.is_bad_kit(&[Fault::Place])),
    ("an end that falls", |c| c.is_bad_kit(&[Fault::EndFalls])),
    ("an end of 65,536 within the items", |c| c.is_bad_kit(&[Fault::EndTooGreat]) && c.has_bad_end(|end| end == 65536)),
    ("an end one beyond the items", |c| {
        c.is_bad_kit(&[Fault::EndPastItems]) && c.has_bad_end(|end| end as usize == c.q.left.items.len() + 1)
    }),
    ("an end of 2^32-1", |c| c.has_bad_end(|end| end == u32::MAX)),
    ("an end that is good by its low 16 bits", |c| c.is_good_by_16_bits()),
    ("a kit of 256 items", |c| c.is_bad_kit(&[Fault::Length])),
    ("an item of T in a kit", |c| {
        c.is_bad_kit(&[Fault::Item]) && c.bad_kit.is_some_and(|k| c.q.left.items[c.q.left.ends[k] as usize - 1] as u32 == c.q.t)
    }),
    ("equal neighbours in a kit", |c| c.is_bad_kit(&[Fault::Equal])),
    ("a fall in a kit", |c| c.is_bad_kit(&[Fault::Fall])),
    ("a stack of 256 items", |c| c.has_bad_items(&[Fault::Length]) && c.q.right.len() == 256),
    ("a stack of 512 items", |c| c.has_bad_items(&[Fault::Length]) && c.q.right.len() == 512),
    ("an item of T in the stack", |c| c.has_bad_items(&[Fault::Item]) && c.q.right.last().is_some_and(|&i| u32::from(i) == c.q.t)),
    ("an item above T in the stack", |c| c.has_bad_items(&[Fault::Item]) && c.q.right.last().is_some_and(|&i| u32::from(i) > c.q.t)),
    ("equal neighbours at the start of the stack", |c| {
        c.has_bad_items(&[Fault::Equal]) && c.q.right.len() > 2 && c.q.right[0] == c.q.right[1]
    }),
    ("equal neighbours at the end of the stack", |c| {
        c.has_bad_items(&[Fault::Equal]) && c.q.right.len() > 2 && c.q.right[..c.q.right.len() - 1].windows(2).all(|w| w[0] < w[1])
    }),
    ("a fall at the start of the stack", |c| {
        c.has_bad_items(&[Fault::Fall]) && c.q.right.len() > 2 && c.q.right[1..].windows(2).all(|w| w[0] < w[1])
    }),
    ("a fall at the end of the stack", |c| {
        c.has_bad_items(&[Fault::Fall]) && c.q.right.len() > 2 && c.q.right[..c.q.right.len() - 1].windows(2).all(|w| w[0] < w[1])
    }),
    ("a bad stack and no kits", |c| c.refusal == Some(Refusal(5, 1, 0)) && c.q.left.ends.is_empty()),
    ("a bad stack and an empty kit first", |c| c.refusal == Some(Refusal(5, 1, 0)) && c.q.left.ends.first() == Some(&0)),
    ("an item of 4,096 or more in the stack", |c| c.refusal == Some(Refusal(5, 1, 0)) && c.q.right.iter().any(|&i| i >= 4096)),
];

/// The place of the first pair of the join with this one stack, or its refusal, under drawn settings.
fn by_join(random: &mut Random, q: &FirstQuery) -> Result<Option<usize>, Refusal> {
    let right_ends = [q.right.len() as u32];
    let ranks = match first_refusal(q) {
        None => permutation(random, q.t, &q.left, &Collection { ends: right_ends.to_vec(), items: q.right.clone() }),
        Some(Refusal(6, ..)) => Vec::new(),
        Some(_) => (0..q.t as u16).collect(),
    };
    let query = kitfinder::Query {
        t: q.t,
        left: kitfinder::Collection { ends: &q.left.ends, items: &q.left.items },
        right: kitfinder::Collection { ends: &right_ends, items: &q.right },
        limit: limit(random),
        ranks: &ranks,
        budget: u32::MAX,
        rule: match rule(random, &[]) {
            oracle::Rule::Merge => kitfinder::Rule::Merge,
            oracle::Rule::Check => kitfinder::Rule::Check,
            oracle::Rule::Weighed { a, b, g, h } => kitfinder::Rule::Weighed(kitfinder::Weights { a, b, g, h }),
        },
    };
    let joined = query.run().map_err(|refusal| match refusal {
        kitfinder::Refusal::BadSet(side, place) => Refusal(5, u64::from(side == Side::Right), place as u64),
        other => Refusal(u64::from(other.number()), 0, 0),
    })?;
    let first = joined.pairs().next().map(|(kit, _)| kit);
    Ok(first)
}

fn main() {
    let plan = Plan::from_args(30_000);
    let mut tally = Tally::new(&KINDS);
    plan.run("firsts", |random, print| {
        let q = &query(random);
        let refusal = first_refusal(q);
        let contained = &if refusal.is_none() { contained_kits(q) } else { Vec::new() };
        let lowest = contained.first().copied();
        if print {
            println!("{q:?}\n{refusal:?}, contained {contained:?}");
        }
        calls::first(random, q, contained)?;
        for _ in 0..2 {
            let joined = by_join(random, q);
            if joined != refusal.map_or(Ok(lowest), Err) {
                return Err(format!("the first pair of the join is {joined:?}, and the search has {refusal:?}, {lowest:?}"));
            }
        }
        let kits = if refusal.is_none() { q.left.sets() } else { Vec::new() };
        let (bad_kit, bad_stack) = (q.left.first_bad(q.t), has_bad_items(q.t, &q.right));
        let case = Case { q, refusal, kits, contained, bad_kit, bad_stack };
        tally.add(KINDS.map(|(_, is_of)| is_of(&case)));
        Ok(())
    });
    expect_all("firsts", &plan, 30_000, tally.report());
}
