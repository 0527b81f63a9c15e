//! Random tag files, whole and damaged, and random collections for the writer.

use crate::joins;
use crate::oracle::*;
use crate::random::Random;
use std::collections::BTreeSet;

/// Bytes whose order differs where they are taken as signed.
const BYTES: [u8; 6] = [0x00, 0x01, 0x7F, 0x80, 0xFE, 0xFF];

/// A tag that differs from others in a few places only.
fn tag(random: &mut Random) -> Tag {
    let mut tag = [0; 12];
    for _ in 0..random.within(0, 3) {
        tag[random.below(12)] = random.pick(&BYTES);
    }
    if random.one_in(8) {
        tag.iter_mut().for_each(|byte| *byte = random.word() as u8);
    }
    tag
}

/// Tags a step apart in their first bytes, more of them than the loader's hints look at where all begin at one slot (step 16,361), or in
/// one bucket of the reader (step 251); now and then more than a record holds.
fn steps(random: &mut Random) -> Vec<Tag> {
    let step = random.pick(&[1u64, 251, 256, 16361, 1 << 40]);
    let many = if random.one_in(3) { 300 } else { random.within(1, 60) };
    (0..many as u64)
        .map(|k| {
            let mut tag = [0; 12];
            tag[..8].copy_from_slice(&(k * step).to_be_bytes());
            tag
        })
        .collect()
}

pub fn record(right: bool, number: u16, tags: &[Tag]) -> Vec<u8> {
    let mut bytes = if right { b"SK".to_vec() } else { b"KT".to_vec() };
    bytes.extend(number.to_be_bytes());
    bytes.push(tags.len() as u8);
    bytes.extend(tags.concat());
    bytes
}

/// Tags for the records of a file.
fn pool(random: &mut Random) -> Vec<Tag> {
    if random.one_in(6) {
        return steps(random);
    }
    (0..random.within(1, 24)).map(|_| tag(random)).collect()
}

/// Numbers for the records of a file.
fn numbers(random: &mut Random) -> Vec<u16> {
    let mut numbers: Vec<u16> = (0..40).map(|k| random.pick(&[k, k * 257, 65535 - k])).collect();
    random.shuffle(&mut numbers);
    numbers
}

/// How often a record reads its tags: as the draw falls, each once, or each so many times.
#[derive(Clone, Copy)]
enum Reads {
    Any,
    Once,
    Times,
}

/// So many reads of a pool's tags, or all of these once where they are fewer.
fn reads(random: &mut Random, pool: &[Tag], count: usize, how: Reads) -> Vec<Tag> {
    let mut tags = Vec::new();
    match how {
        Reads::Any => {
            tags.extend((0..count).map(|_| random.pick(pool)));
            if random.one_in(3) && count > 1 {
                tags[0] = tags[count - 1];
            }
        }
        Reads::Once => {
            tags.extend(BTreeSet::from_iter(pool));
            random.shuffle(&mut tags);
            tags.truncate(count);
        }
        Reads::Times => {
            let same = random.one_in(3).then(|| random.within(2, 3));
            while tags.len() < count {
                let times = same.unwrap_or_else(|| random.pick(&[1, 1, 2, 2, 3, 4, 7, 255]));
                let tag = random.pick(pool);
                tags.extend(vec![tag; times.min(count - tags.len())]);
            }
            if random.one_in(2) {
                random.shuffle(&mut tags);
            }
        }
    }
    tags
}

/// So many whole records with tags of one pool, in any order and with repeats or without. Some have none, and now and then no kit has
/// one. Their numbers are the first of the list; they seldom repeat.
fn records(random: &mut Random, pool: &[Tag], numbers: &[u16], many: usize) -> Vec<u8> {
    let empty_kits = random.one_in(8);
    let mixed = [Reads::Any, Reads::Once, Reads::Times];
    let of_file = random.one_in(2).then(|| random.pick(&mixed));
    let mut file = Vec::new();
    for k in 0..many {
        let right = random.one_in(2);
        let count = match random.below(40) {
            _ if empty_kits && !right => 0,
            0 => 255,
            1 => random.within(100, 254),
            2..=4 => 0,
            _ => random.within(0, 9),
        };
        let how = of_file.unwrap_or_else(|| random.pick(&mixed));
        let tags = reads(random, pool, count, how);
        let number = if random.one_in(60) { numbers[0] } else { numbers[k] };
        file.extend(record(right, number, &tags));
    }
    file
}

/// A file of whole records.
pub fn file(random: &mut Random) -> Vec<u8> {
    let (pool, numbers) = (pool(random), numbers(random));
    let most = random.pick(&[0, 2, 5, 12]);
    let many = random.within(0, most);
    records(random, &pool, &numbers, many)
}

/// Two files of whole records over one pool of tags, with numbers of which some are in both.
pub fn pair(random: &mut Random) -> [Vec<u8>; 2] {
    let (pool, mut numbers) = (pool(random), numbers(random));
    let many = [0; 2].map(|_| random.pick(&[1, 2, 5, 12, 20])).map(|most| random.within(0, most));
    let first = records(random, &pool, &numbers, many[0]);
    let moved = random.pick(&[3, 8, 40]);
    random.shuffle(&mut numbers[..moved]);
    let from = random.pick(&[0, 0, pool.len() / 2]);
    [first, records(random, &pool[from..], &numbers, many[1])]
}

/// Damages a file in one way: a byte changed, bytes cut off, put in or taken out.
pub fn damage(random: &mut Random, file: &mut Vec<u8>) {
    if file.is_empty() {
        file.extend((0..random.within(1, 20)).map(|k| b"KT\x00\x01\x01SK"[k % 7]));
        return;
    }
    let at = random.below(file.len());
    match random.below(7) {
        0 => file[at] ^= 1 << random.below(8),
        1 => file[at] = random.pick(&[0x4B, 0x54, 0x53, 0x00, 0xFF]),
        2 => file.truncate(at),
        3 => drop(file.pop()),
        4 => file.insert(at, random.word() as u8),
        5 => drop(file.remove(at)),
        _ => file.extend((0..random.within(1, 6)).map(|k| b"KT\x00\x09\x00S"[k])),
    }
}

/// Lengths of the seven lists: what is needed, with a list too short or longer now and then.
pub fn lengths(random: &mut Random, needed: [usize; 7]) -> [usize; 7] {
    let mut lengths = needed;
    match random.below(4) {
        0 => {
            let list = random.below(7);
            lengths[list] = lengths[list].saturating_sub(random.pick(&[1, 1, 1, 12]));
        }
        1 => lengths.iter_mut().for_each(|length| *length += random.within(0, 15)),
        2 => {
            let list = random.below(7);
            lengths[list] += random.within(1, 30);
        }
        _ => {}
    }
    lengths
}

/// What a writer is asked: good collections over any tag table, with a fault now and then, and room around the need.
pub fn write_query(random: &mut Random) -> WriteQuery {
    let (t, left, right) = joins::collections(random);
    let tags = (0..t).flat_map(|_| tag(random)).collect();
    let mut number = |_: &u32| random.pick(&[0, 1, 255, 256, 257, 0x4B54, 65535]);
    let left_numbers = left.ends.iter().map(&mut number).collect();
    let right_numbers = right.ends.iter().map(&mut number).collect();
    let mut q = WriteQuery { t, tags, left_numbers, left, right_numbers, right, room: 0 };
    if random.one_in(4) {
        spoil_writing(random, &mut q);
    }
    q.room = usize::MAX;
    let needed = if write_refusal(&q).is_none() { written(&q).len() } else { 40 };
    q.room = match random.below(6) {
        0 => needed.saturating_sub(1),
        1 => random.below(needed + 1),
        2 => needed + random.within(1, 40),
        _ => needed,
    };
    q
}

fn spoil_writing(random: &mut Random, q: &mut WriteQuery) {
    for _ in 0..random.within(1, 2) {
        match random.below(7) {
            0 => q.tags.push(0),
            1 => drop(q.tags.pop()),
            2 if random.one_in(4) => {
                q.t = 4097;
                q.tags = vec![7; 12 * 4097];
            }
            3 => spoil_numbers(random, &mut q.left_numbers),
            4 => spoil_numbers(random, &mut q.right_numbers),
            5 => joins::spoil(random, q.t, &mut q.left),
            _ => joins::spoil(random, q.t, &mut q.right),
        }
    }
}

fn spoil_numbers(random: &mut Random, numbers: &mut Vec<u16>) {
    if random.one_in(2) {
        numbers.push(3);
    } else {
        numbers.pop();
    }
}
