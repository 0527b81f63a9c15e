//! The record reader at every kind of place of whole and damaged files. Every place where a record should be is counted under each kind
//! that it is of, by how often the record's tags are read and what the rest of the file has. The last lines have the counts, and a kind
//! without a place fails the run.

use harness::files::{damage, file};
use harness::kinds::{expect_all, Tally};
use harness::oracle::{read_record, repeats_of, tags_of, Read, Tag};
use harness::records::{have_common_across, records_of, FileRecord};
use harness::{calls, run::Plan};
use std::collections::HashMap;

/// A place of a file: the whole record that is there, with the times that each tag is read, or none; and all whole records of the file.
struct Place<'a> {
    file: &'a [u8],
    at: usize,
    record: Option<&'a FileRecord>,
    times: Vec<usize>,
    records: &'a [FileRecord],
}

impl Place<'_> {
    /// A whole record in which some tags are read so many times.
    fn has_times(&self, times: &[usize]) -> bool {
        times.iter().all(|n| self.times.contains(n))
    }

    /// A whole record of more than one tag, each of them read so many times.
    fn has_each(&self, times: usize) -> bool {
        self.times.len() > 1 && self.times.iter().all(|&n| n == times)
    }

    /// A whole record of whose reads something holds.
    fn has_reads(&self, holds: impl Fn(&[Tag]) -> bool) -> bool {
        self.record.is_some_and(|record| holds(&record.reads))
    }

    fn has_repeats(&self) -> bool {
        self.record.is_some_and(FileRecord::has_repeats)
    }

    /// A whole record that has a tag in common with another record of its side, or of the other.
    fn has_common(&self, same_side: bool) -> bool {
        let Some(record) = self.record else { return false };
        let others = self.records.iter().filter(|other| other.at != record.at && (other.right == record.right) == same_side);
        have_common_across(std::iter::once(record), others)
    }

    /// No whole record, but the head of one and whole tags, of which some are repeats.
    fn is_cut_with_repeats(&self) -> bool {
        let rest = &self.file[self.at..];
        let has_head = rest.len() > 5 && (rest.starts_with(b"KT") || rest.starts_with(b"SK"));
        self.record.is_none() && has_head && repeats_of(&tags_of(&rest[5..rest.len() - (rest.len() - 5) % 12])) > 0
    }
}

/// Whether a tag is read again with others between.
fn stands_apart(reads: &[Tag]) -> bool {
    let last: HashMap<&Tag, usize> = reads.iter().enumerate().map(|(k, tag)| (tag, k)).collect();
    reads.iter().enumerate().any(|(k, tag)| reads[k..last[tag]].iter().any(|other| other != tag))
}

/// Whether a tag that is repeated differs from another in one byte alone.
fn is_nearly_another(reads: &[Tag]) -> bool {
    let differ = |one: &Tag, other: &Tag| one.iter().zip(other).filter(|(a, b)| a != b).count();
    let is_repeated = |tag: &Tag| reads.iter().filter(|&other| other == tag).count() > 1;
    reads.len() < 50 && reads.iter().any(|tag| is_repeated(tag) && reads.iter().any(|other| differ(tag, other) == 1))
}

type Kind = (&'static str, fn(&Place) -> bool);
const KINDS: [Kind; 26] = [
    ("the file's end", |p| p.at == p.file.len()),
    ("a fault", |p| p.record.is_none() && p.at < p.file.len()),
    ("a fault: a record that is cut short, with repeats", |p| p.is_cut_with_repeats()),
    ("no tag", |p| p.has_reads(|reads| reads.is_empty())),
    ("one read", |p| p.has_reads(|reads| reads.len() == 1)),
    ("several tags, each once", |p| p.has_each(1)),
    ("255 tags, each once", |p| p.has_each(1) && p.times.len() == 255),
    ("a tag twice", |p| p.has_times(&[2])),
    ("a tag three times", |p| p.has_times(&[3])),
    ("a tag four times", |p| p.has_times(&[4])),
    ("a tag more than ten times", |p| p.times.iter().any(|&n| n > 10)),
    ("tags once, twice, three and four times", |p| p.has_times(&[1, 2, 3, 4])),
    ("each tag twice", |p| p.has_each(2)),
    ("each tag three times", |p| p.has_each(3)),
    ("a tag twice and nothing else", |p| p.times == [2]),
    ("a tag 255 times", |p| p.times == [255]),
    ("255 reads of several tags, with repeats", |p| p.has_reads(|reads| reads.len() == 255) && p.has_repeats() && p.times.len() > 1),
    ("a repeat beside the tag", |p| p.has_reads(|reads| reads.windows(2).any(|pair| pair[0] == pair[1]))),
    ("a repeat apart from the tag", |p| p.has_reads(stands_apart)),
    ("the first tag again at the end", |p| p.has_reads(|reads| reads.len() > 2 && reads.first() == reads.last())),
    ("a repeat of a tag that another differs from in a byte", |p| p.has_reads(is_nearly_another)),
    ("repeats of a kit", |p| p.has_repeats() && p.record.is_some_and(|record| !record.right)),
    ("repeats of a stack", |p| p.has_repeats() && p.record.is_some_and(|record| record.right)),
    ("no repeat, but a tag that another record of the side has", |p| !p.has_repeats() && p.has_common(true)),
    ("no repeat, but a tag that a record of the other side has", |p| !p.has_repeats() && p.has_common(false)),
    ("repeats, and a tag that another record has", |p| p.has_repeats() && (p.has_common(true) || p.has_common(false))),
];

fn main() {
    let mut tally = Tally::new(&KINDS);
    let plan = Plan::from_args(60_000);
    plan.run("readers", |random, print| {
        let mut bytes = file(random);
        if random.one_in(2) {
            damage(random, &mut bytes);
        }
        if print {
            println!("{bytes:02X?}");
        }
        let records = &records_of(&bytes);
        let mut at = 0;
        loop {
            calls::read(random, &bytes, at)?;
            let record = records.iter().find(|record| record.at == at);
            let times = record.map_or(Vec::new(), |record| record.times().into_values().collect());
            tally.add(KINDS.map(|(_, is_of)| is_of(&Place { file: &bytes, at, record, times: times.clone(), records })));
            let Read::Record { next, .. } = read_record(&bytes, at) else { break };
            at = next;
        }
        for place in [bytes.len(), bytes.len() + 1, usize::MAX, usize::MAX - 4, random.below(bytes.len() + 9)] {
            calls::read(random, &bytes, place)?;
        }
        Ok(())
    });
    expect_all("readers", &plan, 60_000, tally.report());
}
