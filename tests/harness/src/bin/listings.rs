//! The program kitlist on generated, damaged and full tag files, against the oracle. KITLIST names the program. The last lines have how
//! many generated files there were of each kind, and a kind without a file fails the run.

use harness::borders;
use harness::files::{damage, file};
use harness::kinds::{expect_all, Tally};
use harness::oracle::*;
use harness::programs::{self, listed, refused, same_text};
use harness::random::Random;
use harness::run::Plan;
use harness::whole::{kinds_of, Kind, KINDS};

/// What the program prints for a file: the counts of the walk, the repeats of both sides, and the pairs of records by their tags.
fn listing(bytes: &[u8]) -> String {
    if bytes.len() > 65536 {
        return refused(Refusal(7, 0, 0));
    }
    let loaded = match load(bytes) {
        Ok(loaded) => loaded,
        Err(refusal) => return refused(refusal),
    };
    let (left, right) = (loaded.collection(0), loaded.collection(1));
    let t = loaded.tags.len() as u32;
    let ranks = ranks_by_frequency(t, &left, &right, false);
    let q = Query { t, left, right, limit: 2, ranks, budget: u32::MAX, rule: Rule::Merge, work: 16384, places: 16384 };
    if let Some(refusal) = join_refusal(&q) {
        return refused(refusal);
    }
    let walked = walk(&q);
    if let Some(refusal) = walk_refusal(&q, &walked.counts) {
        return refused(refusal);
    }
    let whole = loaded.whole_kits();
    assert_eq!(walked.counts.pairs, whole.len() as u64, "the oracle's pairs are the same by items and by tags");
    listed(&walked.counts, loaded.repeats, &whole)
}

/// The kinds of files with whole kits, by how many reads of kits and of stacks were repeats.
const REPEATS: [Kind; 4] = [
    ("no repeat, and whole kits", |file| has(file, |kits, stacks| kits + stacks == 0)),
    ("repeats of kits alone, and whole kits", |file| has(file, |kits, stacks| kits > 0 && stacks == 0)),
    ("repeats of stacks alone, and whole kits", |file| has(file, |kits, stacks| kits == 0 && stacks > 0)),
    ("repeats of both, not as many, and whole kits", |file| has(file, |kits, stacks| kits > 0 && stacks > 0 && kits != stacks)),
];

fn has(file: &LoadedFile, repeats: fn(usize, usize) -> bool) -> bool {
    repeats(file.repeats[0], file.repeats[1]) && !file.whole_kits().is_empty()
}

fn main() {
    let program = programs::program("KITLIST", "target/bin/kitlist");
    let plan = Plan::from_args(3_000);
    let compare = |bytes: &[u8], random: &mut Random| {
        let ended = programs::run(&program, &[] as &[&str], bytes, random)?;
        same_text(&ended.output, listing(bytes).as_bytes())
    };
    if plan.only.is_none() {
        for (name, bytes) in borders::named() {
            if let Err(message) = compare(&bytes, &mut Random::new(7)) {
                println!("FAILED listings: {name}: {message}");
                std::process::exit(1);
            }
        }
        println!("listings: {} named files", borders::named().len());
    }
    let mut tally = Tally::new(&KINDS);
    let mut repeats = Tally::new(&REPEATS);
    plan.run("listings", |random, print| {
        let mut bytes = file(random);
        if random.one_in(4) {
            damage(random, &mut bytes);
        }
        if let Ok(loaded) = load(&bytes) {
            tally.add(kinds_of(&loaded));
            repeats.add(REPEATS.map(|(_, is_of)| is_of(&loaded)));
        }
        if print {
            println!("{bytes:02X?}\n{}", listing(&bytes));
        }
        compare(&bytes, random)
    });
    expect_all("listings", &plan, 3_000, tally.report() & repeats.report());
}
