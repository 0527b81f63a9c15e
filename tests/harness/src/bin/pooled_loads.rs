//! The pooled load on pairs of tag files, whole and damaged, small and about the limits, with lists around the need that hold a pattern
//! beforehand. Over what is accepted the join lists the kits that have a tag and every tag of which lies on one of the two pads. Every
//! pair is counted under each kind that it is of, by its bytes, its lists and the oracle's account, whatever it was made for. The last
//! lines have the counts, and a kind without a case fails the run.

use harness::files::{damage, file, lengths, pair};
use harness::kinds::{expect_all, Tally};
use harness::oracle::{is_contained, load, pool, read_record, Cause, LoadedFile, Pooled, Read, Refusal, Tag};
use harness::random::Random;
use harness::records::{have_common_across, of_side, records_of, FileRecord};
use harness::{calls, pads, run::Plan, whole};
use kitfinder::TagFile;
use std::collections::{BTreeSet, HashMap};

/// The tags that a record reads more than once, each with the record's number.
fn repeated(record: &FileRecord) -> Vec<(u16, Tag)> {
    record.times().into_iter().filter(|&(_, times)| times > 1).map(|(&tag, _)| (record.number, tag)).collect()
}

/// A pair of files with its lists, what the oracle says of it and of each file alone, and the whole records of each.
struct Case<'a> {
    files: [&'a [u8]; 2],
    damaged: Option<&'static str>,
    lengths: [usize; 7],
    pooled: &'a Result<Pooled, Refusal>,
    refusal: Option<Refusal>,
    first: Result<LoadedFile, Refusal>,
    second: Pooled,
    records: [Vec<FileRecord>; 2],
}

impl Case<'_> {
    fn is(&self, number: u64) -> bool {
        self.refusal.map_or(0, |refusal| refusal.0) == number
    }

    fn loaded(&self) -> Option<&LoadedFile> {
        self.refusal.is_none().then(|| &self.pooled.as_ref().expect("what is accepted was pooled").loaded)
    }

    fn causes(&self) -> &[(u64, Cause)] {
        self.pooled.as_ref().map_or(&[], |pooled| &pooled.causes)
    }

    fn is_in_first(&self, number: u64) -> bool {
        self.pooled.as_ref().err().is_some_and(|refusal| refusal.0 == number)
    }

    /// The causes of the record in the second file that decides with this number.
    fn deciding(&self, number: u64) -> Vec<Cause> {
        match self.refusal {
            Some(Refusal(n, place, _)) if n == number && n != 4 => {
                self.causes().iter().filter(|cause| cause.0 == place).map(|cause| cause.1).collect()
            }
            _ => Vec::new(),
        }
    }

    /// Refused with 2 in the second file, at a number that the first file's stacks have, or have not.
    fn is_used(&self, in_first: bool) -> bool {
        let Some(Refusal(2, place, _)) = self.refusal else { return false };
        let (Some(at), Ok(first)) = ((place as usize).checked_sub(self.files[0].len()), &self.first) else { return false };
        let Read::Record { number, .. } = read_record(self.files[1], at) else { return false };
        first.sides[1].numbers.contains(&number) == in_first
    }

    /// Refused with 3 by this limit alone, which neither file passes by itself.
    fn is_only_pooled(&self, limit: Cause) -> bool {
        let limits: Vec<Cause> = self.deciding(3).into_iter().filter(|cause| cause.number() == 3).collect();
        limits == [limit] && !self.second.causes.iter().any(|(_, cause)| cause.number() == 3)
    }

    /// Refused in the second file with this number, where an earlier record's pooled set is too long.
    fn is_after_overlong(&self, number: u64) -> bool {
        let earlier = |place: u64| self.causes().iter().any(|&(at, cause)| at < place && cause == Cause::Overlong);
        self.is(number) && self.refusal.is_some_and(|refusal| earlier(refusal.1))
    }

    fn is_short(&self) -> bool {
        self.pooled.as_ref().is_ok_and(|pooled| calls::is_short(self.lengths, calls::lengths_needed(&pooled.loaded)))
    }

    /// Refused with 4, where this list alone is too short, by one.
    fn is_one_short(&self, list: usize) -> bool {
        let Ok(pooled) = self.pooled else { return false };
        let needed = calls::lengths_needed(&pooled.loaded);
        let mut longer = self.lengths;
        longer[list] += 1;
        self.is(4) && longer[list] == needed[list] && !calls::is_short(longer, needed)
    }

    /// How each list compares with the need, where the files are accepted.
    fn has_lists(&self, order: fn(&usize, &usize) -> bool) -> bool {
        self.loaded().is_some_and(|loaded| self.lengths.iter().zip(&calls::lengths_needed(loaded)).all(|(n, m)| order(n, m)))
    }

    /// Accepted with a kit of the second file of which something holds.
    fn has_kit(&self, holds: impl Fn(&Case, &FileRecord, usize) -> bool) -> bool {
        self.loaded().is_some() && self.records[1].iter().enumerate().any(|(k, read)| !read.right && holds(self, read, k))
    }

    /// Accepted with a stack of the second file of which something holds, beside the first file's of that number.
    fn has_stack(&self, holds: impl Fn(&FileRecord, Option<&Vec<Tag>>) -> bool) -> bool {
        self.loaded().is_some() && self.has_any_stack(holds)
    }

    fn has_any_stack(&self, holds: impl Fn(&FileRecord, Option<&Vec<Tag>>) -> bool) -> bool {
        let Ok(first) = &self.first else { return false };
        let of = |number: u16| first.sides[1].numbers.iter().position(|&n| n == number).map(|k| &first.sides[1].sets[k]);
        self.records[1].iter().any(|read| read.right && holds(read, of(read.number)))
    }

    /// Whether a stack of 255 tags on each pad pools to so many.
    fn pools_to(&self, number: u64, union: usize) -> bool {
        let pools = |read: &FileRecord, first: Option<&Vec<Tag>>| {
            let Some(first) = first.filter(|first| first.len() == 255 && read.tags.len() == 255) else { return false };
            read.tags.iter().chain(first).collect::<BTreeSet<_>>().len() == union
        };
        self.is(number) && self.has_any_stack(pools)
    }

    /// Whether stacks that the files share are accepted in two orders.
    fn has_two_orders(&self) -> bool {
        let Ok(first) = &self.first else { return false };
        let in_first = |read: &FileRecord| first.sides[1].numbers.iter().position(|&number| number == read.number);
        let places = of_side(&self.records[1], true).filter_map(in_first);
        self.is(0) && !places.is_sorted()
    }

    /// Accepted with an empty kit in the first file, where something holds of its number and of what was loaded.
    fn has_empty_kit(&self, holds: impl Fn(&Case, u16, &LoadedFile) -> bool) -> bool {
        let Some(loaded) = self.loaded() else { return false };
        let kits = &loaded.sides[0];
        kits.numbers.iter().zip(&kits.sets).any(|(&number, kit)| kit.is_empty() && holds(self, number, loaded))
    }

    /// The pairs of a kit and a borrower where the kit has a tag and every tag of it lies on one of the two pads, by the files' records.
    fn whole_on_pads(&self, loaded: &LoadedFile) -> Vec<(u16, u16)> {
        let Ok(first) = &self.first else { return Vec::new() };
        let (kits, stacks) = (&first.sides[0], &first.sides[1]);
        let on_first: HashMap<u16, &Vec<Tag>> = stacks.numbers.iter().copied().zip(&stacks.sets).collect();
        let on_second: HashMap<u16, &BTreeSet<Tag>> = of_side(&self.records[1], true).map(|read| (read.number, &read.tags)).collect();
        let lies = |number: &u16, tag: &Tag| {
            on_first.get(number).is_some_and(|tags| tags.contains(tag)) || on_second.get(number).is_some_and(|tags| tags.contains(tag))
        };
        let mut whole = Vec::new();
        for (kit, tags) in kits.numbers.iter().zip(&kits.sets) {
            let borrowers = loaded.sides[1].numbers.iter().filter(|&number| is_contained(tags, |tag| lies(number, tag)));
            whole.extend(borrowers.map(|&number| (*kit, number)));
        }
        whole
    }

    /// The join of what is accepted lists these pairs, as the oracle has them by the pooled sets.
    fn lists_whole_kits(&self) -> Result<(), String> {
        let Some(loaded) = self.loaded() else { return Ok(()) };
        let on_pads = self.whole_on_pads(loaded);
        if loaded.whole_kits() != on_pads {
            return Err(format!("whole on the two pads are {on_pads:?}, and by the oracle's pooled sets {:?}", loaded.whole_kits()));
        }
        whole::compare(&TagFile::load_pooled(self.files[0], self.files[1]).map_err(|refusal| refusal.to_string())?, loaded)
    }

    /// Whether kits or stacks of a file have repeats.
    fn has_repeats(&self, file: usize, right: bool) -> bool {
        of_side(&self.records[file], right).any(FileRecord::has_repeats)
    }

    /// The same of the first file's kits and stacks, and of the second's.
    fn repeats(&self) -> [bool; 4] {
        [(0, false), (0, true), (1, false), (1, true)].map(|(file, right)| self.has_repeats(file, right))
    }

    /// Whether a stack has a tag that was read several times on each pad.
    fn has_same_repeat(&self) -> bool {
        let repeated = |file: usize| of_side(&self.records[file], true).filter(|read| read.has_repeats()).flat_map(repeated);
        let first: BTreeSet<(u16, Tag)> = repeated(0).collect();
        repeated(1).any(|repeat| first.contains(&repeat))
    }

    /// Refused, where stacks of a file that lie before the place at fault have repeats; before 4 and 10 all lie.
    fn is_after_repeats(&self, file: usize) -> bool {
        let Some(Refusal(number, place, _)) = self.refusal else { return false };
        let fault = if number <= 3 { place as usize } else { usize::MAX };
        let base = if file == 0 { 0 } else { self.files[0].len() };
        of_side(&self.records[file], true).any(|read| base + read.at < fault && read.has_repeats())
    }

    /// Accepted with just so many of something, and fewer in the first file.
    fn reaches(&self, limit: usize, count: fn(&LoadedFile) -> usize) -> bool {
        self.first.as_ref().is_ok_and(|first| count(first) < limit) && self.loaded().is_some_and(|loaded| count(loaded) == limit)
    }
}

type Kind = (&'static str, fn(&Case) -> bool);
const KINDS: [Kind; 75] = [
    ("accepted", |c| c.is(0)),
    ("1 in the first file", |c| c.is_in_first(1)),
    ("2 in the first file", |c| c.is_in_first(2)),
    ("3 in the first file", |c| c.is_in_first(3)),
    ("1 in the second file", |c| c.deciding(1) == [Cause::Malformed]),
    ("2 in the second file, of a number that the first has", |c| c.is_used(true)),
    ("2 in the second file, of a number that the first has not", |c| c.is_used(false)),
    ("3 only by pooling, by sets", |c| c.is_only_pooled(Cause::Sets)),
    ("3 only by pooling, by entries", |c| c.is_only_pooled(Cause::Entries)),
    ("3 only by pooling, by tags", |c| c.is_only_pooled(Cause::Tags)),
    ("4", |c| c.is(4)),
    ("10", |c| c.deciding(10) == [Cause::Overlong]),
    ("10, and again at a later record", |c| c.is(10) && c.causes().len() > 1),
    ("faults in both files", |c| c.first.is_err() && c.second.refusal(false).is_some()),
    ("1 against an earlier 10", |c| c.is_after_overlong(1)),
    ("2 against an earlier 10", |c| c.is_after_overlong(2)),
    ("3 against an earlier 10", |c| c.is_after_overlong(3)),
    ("2 against 3 at one record", |c| c.deciding(2).iter().any(|cause| cause.number() == 3)),
    ("3 against 10 at one record", |c| c.deciding(3).contains(&Cause::Overlong)),
    ("1 to 3 in the second file against 4", |c| c.is_short() && !c.is(4)),
    ("4 against 10", |c| c.is(4) && !c.causes().is_empty()),
    ("lists of the exact lengths", |c| c.has_lists(|length, needed| length == needed)),
    ("longer lists", |c| c.has_lists(|length, needed| length > needed)),
    ("tags one short", |c| c.is_one_short(0)),
    ("left numbers one short", |c| c.is_one_short(1)),
    ("left ends one short", |c| c.is_one_short(2)),
    ("left items one short", |c| c.is_one_short(3)),
    ("right numbers one short", |c| c.is_one_short(4)),
    ("right ends one short", |c| c.is_one_short(5)),
    ("right items one short", |c| c.is_one_short(6)),
    ("an empty first file", |c| c.files[0].is_empty() && !c.files[1].is_empty()),
    ("an empty second file", |c| !c.files[0].is_empty() && c.files[1].is_empty()),
    ("both files empty", |c| c.files.iter().all(|file| file.is_empty())),
    ("one file on both pads", |c| c.is(0) && !c.files[0].is_empty() && std::ptr::eq(c.files[0], c.files[1])),
    ("a byte changed", |c| c.damaged == Some("byte")),
    ("a file cut", |c| c.damaged == Some("cut")),
    ("a mark broken", |c| c.damaged == Some("mark")),
    ("damaged in another way", |c| c.damaged == Some("other")),
    ("a kit of the second with a number of the first's kits", |c| {
        c.has_kit(|c, kit, _| c.loaded().is_some_and(|loaded| loaded.sides[0].numbers.contains(&kit.number)))
    }),
    ("two kits of the second with one number", |c| {
        c.has_kit(|c, kit, k| c.records[1][..k].iter().any(|earlier| !earlier.right && earlier.number == kit.number))
    }),
    ("a kit of the second with tags that nothing else has", |c| {
        c.has_kit(|c, kit, _| c.loaded().is_some_and(|loaded| kit.tags.iter().any(|tag| loaded.tags.binary_search(tag).is_err())))
    }),
    ("an empty kit of the first, and whole kits", |c| c.has_empty_kit(|_, _, loaded| !loaded.whole_kits().is_empty())),
    ("an empty kit of the first, and a stack of both", |c| {
        c.has_empty_kit(|c, _, _| c.has_stack(|read, first| !read.tags.is_empty() && first.is_some()))
    }),
    ("an empty kit of the first that has tags in the second", |c| {
        c.has_empty_kit(|c, number, _| c.has_kit(|_, kit, _| kit.number == number && !kit.tags.is_empty()))
    }),
    ("an empty kit of the first, and an empty stack of both", |c| {
        c.has_empty_kit(|c, _, _| c.has_stack(|read, first| read.tags.is_empty() && first.is_some_and(Vec::is_empty)))
    }),
    ("only empty kits in the first, and stacks", |c| {
        c.has_empty_kit(|_, _, loaded| loaded.sides[0].sets.iter().all(Vec::is_empty) && !loaded.sides[1].sets.is_empty())
    }),
    ("an empty kit of the second", |c| c.has_kit(|_, kit, _| kit.tags.is_empty())),
    ("a stack of the second that the first has not", |c| c.has_stack(|_, first| first.is_none())),
    ("stacks of both files in two orders", |c| c.has_two_orders()),
    ("a tag of one stack on both pads", |c| {
        c.has_stack(|read, first| first.is_some_and(|first| first.iter().any(|tag| read.tags.contains(tag))))
    }),
    ("repeats of a kit of the first", |c| c.is(0) && c.has_repeats(0, false)),
    ("repeats of a stack of the first", |c| c.is(0) && c.has_repeats(0, true)),
    ("repeats of a stack of the second that the first has", |c| c.has_stack(|read, first| first.is_some() && read.has_repeats())),
    ("repeats of a stack of the second that the first has not", |c| c.has_stack(|read, first| first.is_none() && read.has_repeats())),
    ("repeats of kits of both", |c| c.is(0) && c.has_repeats(0, false) && c.has_repeats(1, false)),
    ("repeats of kits of the second alone", |c| c.is(0) && c.repeats() == [false, false, true, false]),
    ("repeats of stacks of the second alone", |c| c.is(0) && c.repeats() == [false, false, false, true]),
    ("repeats of kits and stacks of both", |c| c.is(0) && c.repeats() == [true; 4]),
    ("repeats of one tag in one stack on both pads", |c| c.is(0) && c.has_same_repeat()),
    ("a tag of one stack on both pads, and no repeat", |c| {
        c.repeats() == [false; 4] && c.has_stack(|read, first| first.is_some_and(|first| first.iter().any(|tag| read.tags.contains(tag))))
    }),
    ("a tag of the first's kits that the second's have, and no repeat", |c| {
        c.is(0) && c.repeats() == [false; 4] && have_common_across(of_side(&c.records[0], false), of_side(&c.records[1], false))
    }),
    ("1 in the first file after repeats", |c| c.is_in_first(1) && c.is_after_repeats(0)),
    ("2 in the first file after repeats", |c| c.is_in_first(2) && c.is_after_repeats(0)),
    ("3 in the first file after repeats", |c| c.is_in_first(3) && c.is_after_repeats(0)),
    ("1 in the second file after repeats of both", |c| !c.deciding(1).is_empty() && c.is_after_repeats(0) && c.is_after_repeats(1)),
    ("2 in the second file after repeats of both", |c| !c.deciding(2).is_empty() && c.is_after_repeats(0) && c.is_after_repeats(1)),
    ("3 in the second file after repeats of both", |c| !c.deciding(3).is_empty() && c.is_after_repeats(0) && c.is_after_repeats(1)),
    ("4 after repeats of both", |c| c.is(4) && c.is_after_repeats(0) && c.is_after_repeats(1)),
    ("10 after repeats of both", |c| c.is(10) && c.is_after_repeats(0) && c.is_after_repeats(1)),
    ("255 and 255 tags that pool to 255", |c| c.pools_to(0, 255)),
    ("255 and 255 tags that pool to 256", |c| c.pools_to(10, 256)),
    ("255 and 255 tags that pool to 510", |c| c.pools_to(10, 510)),
    ("4,096 stacks by pooling", |c| c.reaches(4096, |loaded| loaded.sides[1].sets.len())),
    ("65,535 entries by pooling", |c| c.reaches(65535, |loaded| loaded.sides[1].sets.iter().map(Vec::len).sum())),
    ("4,096 tags by pooling", |c| c.reaches(4096, |loaded| loaded.tags.len())),
];

/// Breaks the mark of a record.
fn break_mark(random: &mut Random, file: &mut [u8]) {
    let mut places = Vec::new();
    let mut at = 0;
    while let Read::Record { next, .. } = read_record(file, at) {
        places.push(at);
        at = next;
    }
    if !places.is_empty() {
        let place = random.pick(&places);
        let mark = random.pick(&[*b"SS", *b"KK", *b"TK", *b"KS", *b"ST", [0, 0]]);
        file[place..place + 2].copy_from_slice(&mark);
    }
}

/// Damages one of two files now and then, and says how.
fn damaged(random: &mut Random, files: &mut [Vec<u8>; 2]) -> Option<&'static str> {
    let file = &mut files[random.below(2)];
    let way = random.pick(&["byte", "cut", "mark", "other"]);
    if file.is_empty() || !random.one_in(3) {
        return None;
    }
    let at = random.below(file.len());
    match way {
        "byte" => file[at] ^= 1 << random.below(8),
        "cut" => file.truncate(at),
        "mark" => break_mark(random, file),
        _ => damage(random, file),
    }
    Some(way)
}

/// Two files of any kind, and how one of them was damaged. The large ones are few, and are left whole.
fn files(random: &mut Random) -> ([Vec<u8>; 2], Option<&'static str>) {
    let mut files = match random.below(400) {
        0 => return (pads::full_entries(random), None),
        1..=3 => return (pads::full_sets(random), None),
        4..=7 => return (pads::full_tags(random), None),
        8..=20 => pads::wide(random),
        21..=25 => [Vec::new(), file(random)],
        26..=30 => [file(random), Vec::new()],
        _ => pair(random),
    };
    let way = damaged(random, &mut files);
    (files, way)
}

fn main() {
    let mut tally = Tally::new(&KINDS);
    let plan = Plan::from_args(30_000);
    plan.run("pooled loads", |random, print| {
        let ([first, second], damaged) = &files(random);
        let files = if random.one_in(30) { [&first[..], &first[..]] } else { [&first[..], &second[..]] };
        let pooled = pool(files[0], files[1]);
        let needed = match &pooled {
            Ok(pooled) => calls::lengths_needed(&pooled.loaded),
            Err(_) => [36, 3, 3, 9, 3, 3, 9].map(|length| random.within(0, length)),
        };
        let lengths = lengths(random, needed);
        let refusal = calls::pooled_refusal(lengths, &pooled);
        if print {
            println!("{:02X?}\n{:02X?}\n{lengths:?}\n{pooled:?}\n{refusal:?}", files[0], files[1]);
        }
        let (first, second) = (load(files[0]), pool(&[], files[1]).expect("an empty file has no fault"));
        let records = files.map(records_of);
        let case = Case { files, damaged: *damaged, lengths, pooled: &pooled, refusal, first, second, records };
        tally.add(KINDS.map(|(_, is_of)| is_of(&case)));
        calls::load_pooled_into(random, files, lengths, &pooled)?;
        case.lists_whole_kits()
    });
    expect_all("pooled loads", &plan, 30_000, tally.report());
}
