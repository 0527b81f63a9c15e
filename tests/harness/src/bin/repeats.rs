//! Repeated reads, named: each record has the repeats that document 02 gives it, written by hand. Its file is read record by record,
//! loaded, pooled with an empty one and with itself, refused with zeros where a fault follows, and written and loaded again without
//! repeats. Then pairs of files, and the limits that a file or a pair with repeats reaches and passes.

use harness::calls;
use harness::files::record;
use harness::oracle::*;
use harness::random::Random;
use harness::run::run_named;
use kitfinder::TagFile;

const KIT: bool = false;
const STACK: bool = true;

/// A record's side and tags, and the repeats that it should have.
type Counted = (bool, Vec<Tag>, usize);

fn tag(k: usize) -> Tag {
    let mut tag = [0; 12];
    tag[4..6].copy_from_slice(&(k as u16).to_be_bytes());
    tag[11] = (k % 251) as u8;
    tag
}

fn tags(start: usize, n: usize) -> Vec<Tag> {
    (start..start + n).map(tag).collect()
}

/// Each tag so many times, the reads of one beside each other.
fn times(tags: &[Tag], n: usize) -> Vec<Tag> {
    tags.iter().flat_map(|&tag| vec![tag; n]).collect()
}

/// All tags so many times, one turn after the other.
fn turns(tags: &[Tag], n: usize) -> Vec<Tag> {
    tags.repeat(n)
}

/// Two files have these repeats of kits and of stacks, by the oracle and by the library, and so has the first alone where the second is
/// empty. Where a list is one too short they are zeros, as the rest of the answer is; and so they are of what is written and loaded again.
fn has(files: [&[u8]; 2], should: [usize; 2]) -> Result<(), String> {
    let random = &mut Random::new(15);
    let pooled = pool(files[0], files[1]);
    let loaded = pooled.as_ref().map_err(|refusal| format!("the oracle has {refusal:?}"))?.loaded.clone();
    if loaded.repeats != should {
        return Err(format!("the oracle has {:?} and should have {should:?}", loaded.repeats));
    }
    let needed = calls::lengths_needed(&loaded);
    let with = |message: String| format!("{message}; the repeats should be {should:?}");
    calls::load_pooled_into(random, files, needed, &pooled).map_err(with)?;
    let owned = TagFile::load_pooled(files[0], files[1]).map_err(|refusal| refusal.to_string())?;
    let again = owned.write().and_then(|written| TagFile::load(&written)).map_err(|refusal| refusal.to_string())?;
    let repeats = [&owned, &again].map(|file| [file.left_repeats(), file.right_repeats()]);
    if repeats != [should, [0, 0]] {
        return Err(with(format!("the Rust package has {:?}, and {:?} once it was written", repeats[0], repeats[1])));
    }
    let alone = load(files[0]);
    if files[1].is_empty() {
        calls::load_into(random, files[0], needed, &alone).map_err(with)?;
    }
    for list in (0..7).filter(|&list| needed[list] > 0) {
        let mut short = needed;
        short[list] -= 1;
        calls::load_pooled_into(random, files, short, &pooled).map_err(|message| format!("list {list} one short: {message}"))?;
        if files[1].is_empty() {
            calls::load_into(random, files[0], short, &alone).map_err(|message| format!("list {list} one short: {message}"))?;
        }
    }
    Ok(())
}

/// Two files are refused so, and the first alone where the second is empty; with the rest of the answer the repeats are zeros.
fn refuses(files: [&[u8]; 2], should: Refusal) -> Result<(), String> {
    let random = &mut Random::new(15);
    let pooled = pool(files[0], files[1]);
    let lengths = pooled.as_ref().map_or([36, 3, 3, 9, 3, 3, 9], |pooled| calls::lengths_needed(&pooled.loaded));
    if calls::pooled_refusal(lengths, &pooled) != Some(should) {
        return Err(format!("the oracle has {:?} and should have {should:?}", calls::pooled_refusal(lengths, &pooled)));
    }
    calls::load_pooled_into(random, files, lengths, &pooled)?;
    if files[1].is_empty() {
        calls::load_into(random, files[0], lengths, &load(files[0]))?;
    }
    Ok(())
}

/// A file of records that have these repeats, whatever is done with it.
fn counts(records: &[Counted]) -> Result<(), String> {
    let random = &mut Random::new(15);
    let (mut file, mut places, mut should) = (Vec::new(), Vec::new(), [0, 0]);
    for (k, (right, tags, repeats)) in records.iter().enumerate() {
        places.push(file.len());
        file.extend(record(*right, k as u16, tags));
        should[usize::from(*right)] += repeats;
    }
    for (&at, (_, _, should)) in places.iter().zip(records) {
        match read_record(&file, at) {
            Read::Record { repeats, .. } if repeats == *should => {}
            other => return Err(format!("the oracle reads {other:?} and should have {should} repeats")),
        }
        calls::read(random, &file, at)?;
    }
    calls::read(random, &file, file.len())?;
    has([&file, &[]], should)?;
    has([&[], &file], [0, should[1]])?;
    has([&file, &file], [should[0], 2 * should[1]])?;

    // A stump behind it, its end cut off, and its first record once more.
    let end = file.len() as u64;
    let stump = [&file[..], b"S"].concat();
    calls::read(random, &stump, file.len())?;
    refuses([&stump, &[]], Refusal(1, end, 0))?;
    refuses([&file, &stump], Refusal(1, 2 * end, 0))?;
    if let (Some(&last), Some((right, tags, _))) = (places.last(), records.first()) {
        let cut = &file[..file.len() - 1];
        calls::read(random, cut, last)?;
        refuses([cut, &[]], Refusal(1, last as u64, 0))?;
        refuses([&file, cut], Refusal(1, end + last as u64, 0))?;
        let twice = [file.clone(), record(*right, 0, tags)].concat();
        refuses([&twice, &[]], Refusal(2, end, 0))?;
        if *right {
            refuses([&file, &twice], Refusal(2, 2 * end, 0))?;
        }
    }

    let loaded = TagFile::load(&file).map_err(|refusal| refusal.to_string())?;
    let written = loaded.write().map_err(|refusal| refusal.to_string())?;
    if written.len() + 12 * (should[0] + should[1]) != file.len() {
        return Err(format!("{} bytes are written as {}", file.len(), written.len()));
    }
    has([&written, &[]], [0, 0])
}

/// Tags of which each differs from the first in one bit alone.
fn bits_apart() -> Vec<Tag> {
    let base = tag(700);
    let flipped = (0..96).map(|bit| {
        let mut tag = base;
        tag[bit / 8] ^= 1 << (bit % 8);
        tag
    });
    std::iter::once(base).chain(flipped).collect()
}

/// Tags that have the same bytes in another order.
fn turned() -> Vec<Tag> {
    let base: Tag = [1, 2, 3, 4, 5, 6, 7, 8, 9, 10, 11, 12];
    (0..12)
        .flat_map(|k| {
            let mut turned = base;
            turned.rotate_left(k);
            let mut back = turned;
            back.reverse();
            [turned, back]
        })
        .collect()
}

/// Tags whose first eight bytes are a number's multiples: of 251 all fall into one bucket of the reader, of 16,361 into one slot of the
/// loader.
fn steps(step: u64) -> Vec<Tag> {
    let tag = |k: u64| [&(k * step).to_be_bytes()[..], &[0; 4]].concat().try_into().expect("12 bytes");
    (0..254).map(tag).collect()
}

fn main() {
    let mut checks: Vec<(String, Result<(), String>)> = Vec::new();
    let mut add = |name: &str, result| checks.push((name.to_string(), result));

    // One record, on either side.
    add("no record", counts(&[]));
    for right in [KIT, STACK] {
        let one = |tags: Vec<Tag>, repeats| counts(&[(right, tags, repeats)]);
        add("no tag", one(vec![], 0));
        for n in 1..=255 {
            add(&format!("a tag {n} times"), one(vec![tag(5); n], n - 1));
            add(&format!("{n} tags"), one(tags(5, n), 0));
        }
        for n in 1..=85 {
            add(&format!("{n} tags three times each"), one(times(&tags(9, n), 3), 2 * n));
        }
        for n in 1..=254 {
            add(&format!("a tag {n} times, before another"), one([vec![tag(5); n], tags(8, 1)].concat(), n - 1));
            add(&format!("a tag {n} times, behind another"), one([tags(8, 1), vec![tag(5); n]].concat(), n - 1));
        }
        add("127 pairs and one more", one([times(&tags(0, 127), 2), tags(127, 1)].concat(), 127));
        add("127 pairs and one more, in two turns", one([turns(&tags(0, 127), 2), tags(127, 1)].concat(), 127));
        add("127 pairs, there and back", one(tags(0, 127).into_iter().chain(tags(0, 127).into_iter().rev()).collect(), 127));
        add("85 triples", one(times(&tags(0, 85), 3), 170));
        add("85 triples, in three turns", one(turns(&tags(0, 85), 3), 170));
        // 1 + 2 + .. + 22 is 253
        let rising: Vec<Tag> = (1..=22).flat_map(|n| vec![tag(n); n]).collect();
        add("tags once, twice and so on, up to 22 times", one(rising.clone(), 253 - 22));
        add("the same from 22 times on", one(rising.iter().rev().copied().collect(), 253 - 22));
        let by_turns = (1..=22).flat_map(|n| tags(n, 23 - n)).collect();
        add("the same, one turn after the other", one(by_turns, 253 - 22));
        add("255 reads, the first and the last the same", one([tags(0, 254), tags(0, 1)].concat(), 1));
        add("255 reads, the last two the same", one([tags(0, 254), tags(253, 1)].concat(), 1));
        add("255 reads, the first two the same", one([tags(0, 1), tags(0, 254)].concat(), 1));
        add("255 reads of two tags in turn", one((0..255).map(|k| tag(k % 2)).collect(), 253));
        add("tags a bit apart", one(bits_apart(), 0));
        add("tags a bit apart, each twice", one(turns(&bits_apart(), 2), 97));
        add("tags a bit apart, and the first again", one([bits_apart(), bits_apart()[..1].to_vec()].concat(), 1));
        add("the same bytes in other orders", one(turned(), 0));
        add("the same bytes in other orders, and twice", one(turns(&turned(), 2), 24));
        add("bytes of 0 and of 255", one([[0; 12], [255; 12], [0; 12], [255; 12], [0; 12]].to_vec(), 3));
        for step in [1, 251, 256, 16361, 1 << 40] {
            add(&format!("tags {step} apart"), one(steps(step), 0));
            add(&format!("tags {step} apart, and the last again"), one([&steps(step)[..], &steps(step)[253..]].concat(), 1));
            add(&format!("tags {step} apart, twice"), one(turns(&steps(step)[..127], 2), 127));
        }
    }

    // Several records: what two of them have is no repeat.
    let (a, b, c) = (tag(1), tag(2), tag(3));
    let example = [(KIT, vec![a, b], 0), (STACK, vec![b, a, a], 1)];
    add("the example of docs/FORMAT.md", counts(&example));
    add("a tag in two kits", counts(&[(KIT, vec![a], 0), (KIT, vec![a], 0)]));
    add("a tag in two stacks", counts(&[(STACK, vec![a], 0), (STACK, vec![a], 0)]));
    add("a tag in a kit and a stack", counts(&[(KIT, vec![a], 0), (STACK, vec![a], 0)]));
    add("a tag in a stack and a kit", counts(&[(STACK, vec![a], 0), (KIT, vec![a], 0)]));
    add("equal records", counts(&[KIT, STACK, KIT, STACK, KIT].map(|right| (right, vec![a, b, c], 0))));
    add("equal records with a repeat", counts(&[KIT, STACK, KIT, STACK, KIT].map(|right| (right, vec![a, b, a], 1))));
    add("a repeat in the first kit alone", counts(&[(KIT, vec![a, a], 1), (KIT, vec![a, b], 0), (STACK, vec![b, a], 0)]));
    add("a repeat in the last stack alone", counts(&[(KIT, vec![a, b], 0), (STACK, vec![b, a], 0), (STACK, vec![a, a], 1)]));
    add("one of kits and three of stacks", counts(&[(KIT, vec![a, a], 1), (STACK, vec![b; 3], 2), (STACK, vec![c, c], 1)]));
    add("three of kits and one of stacks", counts(&[(STACK, vec![a, a], 1), (KIT, vec![b; 3], 2), (KIT, vec![c, c], 1)]));
    add("empty records between", counts(&[(KIT, vec![], 0), (STACK, vec![a, a], 1), (STACK, vec![], 0), (KIT, vec![b, b, b], 2)]));
    let mixed: Vec<Counted> = (1..=60).map(|n| (n % 3 == 0, times(&tags(n, 1 + n % 4), 1 + n % 5), (1 + n % 4) * (n % 5))).collect();
    add("sixty records", counts(&mixed));
    // 258 times 254 is 65,532
    for last in [3, 4, 5] {
        let full = |right: bool| (0..258).map(move |k| (right, vec![tag(k); 255], 254)).chain([(right, vec![tag(9); last], last - 1)]);
        let (kits, stacks): (Vec<Counted>, Vec<Counted>) = (full(KIT).collect(), full(STACK).collect());
        add(&format!("{} repeats of kits", 65_531 + last), counts(&kits));
        add(&format!("{} repeats of stacks, and as many of kits", 65_531 + last), counts(&[stacks, kits].concat()));
    }

    // Two pads. Kits of the second add none, whether the first has their number or not; its stacks add theirs.
    let (kit, stack) = (|number, tags: &[Tag]| record(KIT, number, tags), |number, tags: &[Tag]| record(STACK, number, tags));
    let first = [kit(7, &[a, b, a]), stack(9, &[c, c, c, a])].concat();
    add("nothing on the second pad", has([&first, &[]], [1, 2]));
    add("kits on the second pad", has([&first, &[kit(7, &[a, a]), kit(8, &[c, c]), kit(8, &[b; 9])].concat()], [1, 2]));
    add("kits on the second pad alone", has([&[], &[kit(7, &[a, a]), kit(8, &[c, c, c])].concat()], [0, 0]));
    add("a kit on the second pad with the first's stack's number", has([&first, &kit(9, &[c, c])], [1, 2]));
    add("a stack of both", has([&first, &stack(9, &[b, b])], [1, 3]));
    add("a stack of both, with the same repeat", has([&first, &stack(9, &[c, c, c])], [1, 4]));
    add("a stack of both, with a tag of the other pad", has([&first, &stack(9, &[a, c])], [1, 2]));
    add("a stack of both, all of it new", has([&stack(9, &[a, b]), &stack(9, &[c])], [0, 0]));
    add("a stack of both, equal", has([&stack(9, &[a, b, c]), &stack(9, &[c, b, a])], [0, 0]));
    add("a tag twice on the first pad, once on the second", has([&stack(9, &[a, a]), &stack(9, &[a])], [0, 1]));
    add("a tag once on the first pad, twice on the second", has([&stack(9, &[a]), &stack(9, &[a, a])], [0, 1]));
    add("a tag 255 times on each pad", has([&stack(9, &[a; 255]), &stack(9, &[a; 255])], [0, 508]));
    add("a stack of the second alone", has([&first, &stack(4, &[b, a, b, b])], [1, 4]));
    add("a stack of the second with the first's kit's number", has([&kit(7, &[a, a]), &stack(7, &[a, a, a])], [1, 2]));
    add("a stack that is empty on one pad", has([&stack(9, &[]), &stack(9, &[a, a])], [0, 1]));
    let second = [stack(4, &[b, a, b, b]), kit(7, &[c; 5]), stack(9, &[a, b, b]), kit(1, &[a, a])].concat();
    add("all of these", has([&first, &second], [1, 5]));
    add("the same the other way round", has([&second, &first], [5, 5]));
    add("a tag in kits of both", has([&kit(7, &[a, b]), &[kit(7, &[a]), kit(8, &[b])].concat()], [0, 0]));
    add("a tag in a kit of the first and a stack of the second", has([&kit(7, &[a]), &stack(7, &[a])], [0, 0]));

    // The limits with repeats: 128 tags in 255 reads are 127 repeats. Past them all is zero.
    let wide = |start: usize| [tags(start, 128), tags(start, 127)].concat();
    for right in [KIT, STACK] {
        let none = |n: usize| if right { [0, n] } else { [n, 0] };
        let sets: Vec<u8> = (0..4096).flat_map(|k| record(right, k, &[a, a])).collect();
        let more = record(right, 5000, &[b, b]);
        add("4,096 sets with repeats", has([&sets, &[]], none(4096)));
        add("4,097 sets with repeats", refuses([&[sets.clone(), more].concat(), &[]], Refusal(3, sets.len() as u64, 0)));
        let entries: Vec<u8> = (0..511).flat_map(|k| record(right, k, &wide(0))).chain(record(right, 600, &tags(0, 127))).collect();
        add("65,535 entries with repeats", has([&entries, &[]], none(511 * 127)));
        let more = [entries.clone(), record(right, 700, &[a, a])].concat();
        add("65,536 entries with repeats", refuses([&more, &[]], Refusal(3, entries.len() as u64, 0)));
        let known: Vec<u8> = (0..32).flat_map(|k| record(right, k, &wide(128 * k as usize))).collect();
        add("4,096 tags with repeats", has([&known, &[]], none(32 * 127)));
        let more = [known.clone(), record(right, 700, &[tag(4096); 2])].concat();
        add("4,097 tags with repeats", refuses([&more, &[]], Refusal(3, known.len() as u64, 0)));
    }
    let sets = |from: u16, to: u16| (from..to).flat_map(|k| stack(k, &[a, a])).collect::<Vec<u8>>();
    let base = (sets(0, 4000).len() + sets(3900, 4096).len()) as u64;
    add("4,096 stacks with repeats by pooling", has([&sets(0, 4000), &sets(3900, 4096)], [0, 4196]));
    add("4,097 stacks with repeats by pooling", refuses([&sets(0, 4000), &sets(3900, 4097)], Refusal(3, base, 0)));
    let full = [stack(1, &tags(0, 255)), stack(2, &[a, a]), kit(1, &[a, a])].concat();
    let over = [stack(2, &[b, b]), kit(2, &[b, b]), stack(1, &[tag(300); 2])].concat();
    let place = (full.len() + over.len() - stack(1, &[a, a]).len()) as u64;
    add("255 tags by pooling, with repeats", has([&full, &[stack(2, &[b, b]), stack(1, &[tag(254); 2])].concat()], [1, 3]));
    add("256 tags by pooling, with repeats", refuses([&full, &over], Refusal(10, place, 0)));

    run_named(checks);
}
