//! Random pairs of tag files, of two pads, beyond the small ones: stacks that pool to about 255 tags, and pairs about the limits of 3.
//! Each may end with a record at fault.

use crate::files::record;
use crate::oracle::Tag;
use crate::random::Random;

/// The tag of a number below 65,536. The order of tags is not that of the numbers.
fn tag(k: usize) -> Tag {
    let mut tag = [0; 12];
    tag[3..5].copy_from_slice(&(k as u16).wrapping_mul(40503).to_be_bytes());
    tag[9] = k as u8;
    tag
}

/// The tags of the numbers from `start` on, in some order.
fn tags(random: &mut Random, start: usize, count: usize) -> Vec<Tag> {
    let mut tags: Vec<Tag> = (start..start + count).map(tag).collect();
    random.shuffle(&mut tags);
    tags
}

/// Now and then some of a record's tags are read again, in the order that falls; seldom so many that it is full.
fn repeat(random: &mut Random, tags: &mut Vec<Tag>) {
    let room = 255 - tags.len();
    if !tags.is_empty() && room > 0 && random.one_in(4) {
        let many = if random.one_in(20) { room } else { random.pick(&[1, 2, 2, 5]).min(room) };
        for _ in 0..many {
            tags.push(random.pick(tags));
        }
        random.shuffle(tags);
    }
}

/// The k-th record number of a file. All are different.
fn number(k: usize) -> u16 {
    (k as u16).wrapping_mul(15).wrapping_add(65000)
}

/// A stack of both files, or of one: `of[0]` tags in the first and `of[1]` in the second, where there is a record, and `union` in all.
struct Shared {
    number: u16,
    start: usize,
    of: [Option<usize>; 2],
    union: usize,
}

impl Shared {
    /// The record of a file, with repeats now and then: the first has the lowest tags, the second the highest.
    fn record(&self, random: &mut Random, file: usize) -> Option<Vec<u8>> {
        let count = self.of[file]?;
        let start = if file == 0 { self.start } else { self.start + self.union - count };
        let mut tags = tags(random, start, count);
        repeat(random, &mut tags);
        Some(record(true, self.number, &tags))
    }
}

/// The records of a file in some order, with kits between them. Those of the second have numbers and tags that others have too, or not.
fn put_together(random: &mut Random, mut records: Vec<Vec<u8>>, file: usize) -> Vec<u8> {
    random.shuffle(&mut records);
    for k in 0..random.within(0, 3) {
        let (kit, start) = (if file == 0 { k } else { random.below(3) }, if file == 0 { 0 } else { random.pick(&[0, 60000]) });
        let count = random.within(0, 4);
        let mut tags = tags(random, start, count);
        repeat(random, &mut tags);
        let kit = record(false, number(kit), &tags);
        let at = random.below(records.len() + 1);
        records.insert(at, kit);
    }
    records.concat()
}

/// A fault at the end of a file, now and then: a stump, another mark, or a stack whose number is used, with a tag that nothing else has.
fn put_fault(random: &mut Random, file: &mut Vec<u8>, used: Option<u16>) {
    match random.below(10) {
        0 => file.extend(b"SK\x00\x00\x01"),
        1 => file.extend(b"KS\x00\x00\x00"),
        2 => {
            if let Some(used) = used {
                file.extend(record(true, used, &[tag(50000)]));
            }
        }
        _ => {}
    }
}

/// The files of these stacks.
fn put_stacks(random: &mut Random, stacks: &[Shared]) -> [Vec<u8>; 2] {
    let mut files = [0, 1].map(|file| {
        let records: Vec<Vec<u8>> = stacks.iter().filter_map(|stack| stack.record(random, file)).collect();
        put_together(random, records, file)
    });
    let used = stacks.iter().find(|stack| stack.of[1].is_some()).map(|stack| stack.number);
    put_fault(random, &mut files[1], used);
    files
}

/// Stacks of up to 255 tags on each pad; many pool to 255, 256 or 510.
pub fn wide(random: &mut Random) -> [Vec<u8>; 2] {
    let mut stacks = Vec::new();
    for k in 0..random.within(1, 4) {
        let of = [0; 2].map(|_| random.pick(&[0, 1, 127, 128, 254, 255, 255, 255, 255]));
        let union = random.pick(&[0, 254, 255, 256, 510]);
        let union = union.clamp(of[0].max(of[1]), of[0] + of[1]);
        stacks.push(Shared { number: number(k), start: 600 * k, of: of.map(Some), union });
    }
    put_stacks(random, &stacks)
}

/// Stacks of few tags, about 4,096 once they are pooled; now and then more than that in the first file alone. One of them may be too long.
pub fn full_sets(random: &mut Random) -> [Vec<u8>; 2] {
    let in_first = random.pick(&[0, 100, 2000, 4000, 4095, 4096, 4096, 4097]);
    let all = random.pick(&[4095, 4096, 4096, 4096, 4097, 4098]);
    let in_both = random.within(0, in_first.min(60));
    let mut stacks: Vec<Shared> = (0..all.max(in_first))
        .map(|k| {
            let few = random.below(2);
            let of = [(k < in_first).then_some(few), (k + in_both >= in_first).then_some(few)];
            Shared { number: number(k), start: k % 50, of, union: few }
        })
        .collect();
    if random.one_in(3) && in_both > 0 {
        stacks[in_first - 1] = Shared { number: number(in_first - 1), start: 0, of: [Some(200); 2], union: 400 };
    }
    put_stacks(random, &stacks)
}

/// Stacks whose entries are about 65,535 once they are pooled; some may be too long.
pub fn full_entries(random: &mut Random) -> [Vec<u8>; 2] {
    let all = random.pick(&[65534, 65535, 65535, 65535, 65535, 65536, 65537]);
    let longest = random.pick(&[255, 255, 255, 255, 510]);
    let mut stacks = Vec::new();
    let mut left = all;
    while left > 0 {
        let union: usize = random.pick(&[200, 255, longest]).min(left);
        let of = if union > 255 || random.one_in(2) {
            let lower = random.within(union.saturating_sub(255), union.min(255));
            [Some(lower), Some(random.within(union - lower, union.min(255)))]
        } else if random.one_in(2) {
            [Some(union), None]
        } else {
            [None, Some(union)]
        };
        stacks.push(Shared { number: number(stacks.len()), start: random.below(3500), of, union });
        left -= union;
    }
    put_stacks(random, &stacks)
}

/// Kits and stacks with about 4,096 tags in all once they are pooled.
pub fn full_tags(random: &mut Random) -> [Vec<u8>; 2] {
    let all = random.pick(&[4095, 4096, 4096, 4096, 4097, 4098]);
    let longest = random.pick(&[255, 400, 510]);
    let by_kits = random.pick(&[0, 0, 1000, 3000]);
    let mut kits = Vec::new();
    for k in 0..by_kits / 250 {
        let kit = tags(random, 250 * k, 250);
        kits.extend(record(false, number(100 + k), &kit));
    }
    let mut stacks = Vec::new();
    let mut start = by_kits;
    while start < all {
        let union: usize = random.pick(&[1, 100, 255, longest]).min(all - start);
        let lower = random.within(union.saturating_sub(255), union.min(255));
        let mut of = [Some(lower), Some(random.within(union - lower, union.min(255)))];
        if union <= 255 && random.one_in(2) {
            of[random.below(2)] = None;
            of = of.map(|count| count.map(|_| union));
        }
        stacks.push(Shared { number: number(stacks.len()), start, of, union });
        start += union;
    }
    let [first, second] = put_stacks(random, &stacks);
    [[kits, first].concat(), second]
}
