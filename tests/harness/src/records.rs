//! The whole records of a file as they were read, and what their reads have in common.

use crate::oracle::{read_record, tags_of, Read, Tag};
use std::collections::{BTreeSet, HashMap, HashSet};

/// A whole record: its byte place, its tags as they were read, and these as a set.
pub struct FileRecord {
    pub at: usize,
    pub right: bool,
    pub number: u16,
    pub reads: Vec<Tag>,
    pub tags: BTreeSet<Tag>,
}

impl FileRecord {
    pub fn has_repeats(&self) -> bool {
        self.tags.len() < self.reads.len()
    }

    /// How many times each of its tags was read.
    pub fn times(&self) -> HashMap<&Tag, usize> {
        let mut times = HashMap::new();
        self.reads.iter().for_each(|tag| *times.entry(tag).or_default() += 1);
        times
    }
}

/// The whole records at the start of a file.
pub fn records_of(file: &[u8]) -> Vec<FileRecord> {
    let mut records = Vec::new();
    let mut at = 0;
    while let Read::Record { right, number, tags, next, .. } = read_record(file, at) {
        let reads = tags_of(&file[tags..next]);
        records.push(FileRecord { at, right, number, tags: reads.iter().copied().collect(), reads });
        at = next;
    }
    records
}

/// The records of a side.
pub fn of_side(records: &[FileRecord], right: bool) -> impl Iterator<Item = &FileRecord> {
    records.iter().filter(move |record| record.right == right)
}

/// Whether two of these records have a tag in common.
pub fn have_common<'a>(records: impl Iterator<Item = &'a FileRecord>) -> bool {
    let mut met = HashSet::new();
    records.flat_map(|record| &record.tags).any(|tag| !met.insert(tag))
}

/// Whether a record of the first has a tag in common with one of the second.
pub fn have_common_across<'a>(first: impl Iterator<Item = &'a FileRecord>, second: impl Iterator<Item = &'a FileRecord>) -> bool {
    let met: HashSet<&Tag> = first.flat_map(|record| &record.tags).collect();
    second.flat_map(|record| &record.tags).any(|tag| met.contains(tag))
}
