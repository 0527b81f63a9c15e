//! The loader on whole and damaged files with lists around the need. Every file is counted under each kind that it is of, by its answer
//! and by the repeats of its records. The last lines have the counts, and a kind without a file fails the run.

use harness::files::{damage, file, lengths};
use harness::kinds::{expect_all, Tally};
use harness::oracle::{load, LoadedFile, Refusal};
use harness::records::{have_common, have_common_across, of_side, records_of, FileRecord};
use harness::{calls, run::Plan};

/// A file's answer by the oracle, and its whole records: all of them, and those before the one at fault.
struct Case<'a> {
    refusal: Option<Refusal>,
    loaded: &'a Result<LoadedFile, Refusal>,
    records: &'a [FileRecord],
    before: &'a [FileRecord],
}

impl Case<'_> {
    fn is(&self, number: u64) -> bool {
        self.refusal.map_or(0, |refusal| refusal.0) == number
    }

    /// Accepted, where something holds of the repeats of kits and of stacks.
    fn has(&self, holds: fn(usize, usize) -> bool) -> bool {
        self.is(0) && self.loaded.as_ref().is_ok_and(|loaded| holds(loaded.repeats[0], loaded.repeats[1]))
    }

    fn has_none(&self) -> bool {
        self.has(|kits, stacks| kits + stacks == 0)
    }

    /// Refused with a number, where kits and stacks before the fault have repeats.
    fn is_after_repeats(&self, number: u64) -> bool {
        self.is(number) && [false, true].iter().all(|&right| of_side(self.before, right).any(FileRecord::has_repeats))
    }
}

type Kind = (&'static str, fn(&Case) -> bool);
const KINDS: [Kind; 18] = [
    ("accepted", |c| c.is(0)),
    ("1", |c| c.is(1)),
    ("2", |c| c.is(2)),
    ("4", |c| c.is(4)),
    ("repeats of kits alone", |c| c.has(|kits, stacks| kits > 0 && stacks == 0)),
    ("repeats of stacks alone", |c| c.has(|kits, stacks| kits == 0 && stacks > 0)),
    ("repeats of both, more of kits", |c| c.has(|kits, stacks| kits > stacks && stacks > 0)),
    ("repeats of both, more of stacks", |c| c.has(|kits, stacks| stacks > kits && kits > 0)),
    ("repeats of two kits and of two stacks", |c| {
        c.is(0) && [false, true].iter().all(|&right| of_side(c.records, right).filter(|record| record.has_repeats()).count() > 1)
    }),
    ("tags, and no repeat", |c| c.has_none() && c.records.iter().any(|record| !record.tags.is_empty())),
    ("a tag in two kits, and no repeat", |c| c.has_none() && have_common(of_side(c.records, false))),
    ("a tag in two stacks, and no repeat", |c| c.has_none() && have_common(of_side(c.records, true))),
    ("a tag in a kit and a stack, and no repeat", |c| {
        c.has_none() && have_common_across(of_side(c.records, false), of_side(c.records, true))
    }),
    ("a tag in two records, and repeats", |c| c.has(|kits, stacks| kits + stacks > 0) && have_common(c.records.iter())),
    ("1 after repeats", |c| c.is_after_repeats(1)),
    ("2 after repeats", |c| c.is_after_repeats(2)),
    ("2 at a record with repeats", |c| c.is(2) && c.records.get(c.before.len()).is_some_and(FileRecord::has_repeats)),
    ("4 after repeats", |c| c.is_after_repeats(4)),
];

fn main() {
    let mut tally = Tally::new(&KINDS);
    let plan = Plan::from_args(60_000);
    plan.run("loaders", |random, print| {
        let mut bytes = file(random);
        if random.one_in(3) {
            damage(random, &mut bytes);
        }
        let loaded = load(&bytes);
        let needed = match &loaded {
            Ok(loaded) => calls::lengths_needed(loaded),
            Err(_) => [36, 3, 3, 9, 3, 3, 9].map(|length| random.within(0, length)),
        };
        let lengths = lengths(random, needed);
        if print {
            println!("{bytes:02X?}\n{lengths:?}\n{loaded:?}");
        }
        let refusal = calls::load_refusal(lengths, &loaded);
        let records = &records_of(&bytes);
        let fault = loaded.as_ref().err().map_or(bytes.len(), |refusal| refusal.1 as usize);
        let before = &records[..records.iter().filter(|record| record.at < fault).count()];
        tally.add(KINDS.map(|(_, is_of)| is_of(&Case { refusal, loaded: &loaded, records, before })));
        calls::load_into(random, &bytes, lengths, &loaded)
    });
    expect_all("loaders", &plan, 10_000, tally.report());
}
