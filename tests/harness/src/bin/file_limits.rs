//! The loader and the writer at the limits exactly, and one beyond: 4,096 sets a side, 65,535 collapsed entries a side, 4,096
//! distinct tags; the order of the causes within one record; and records of kits without a tag, which are loaded and written as others.

use harness::calls;
use harness::files::record;
use harness::oracle::*;
use harness::random::Random;
use harness::run::run_named;
use harness::whole;
use kitfinder::TagFile;

fn tag(k: usize) -> Tag {
    let mut tag = [0; 12];
    tag[..2].copy_from_slice(&(k as u16).to_be_bytes());
    tag[11] = (k % 251) as u8;
    tag
}

fn tags(start: usize, n: usize) -> Vec<Tag> {
    (start..start + n).map(tag).collect()
}

/// The file's result as the oracle has it, then the library's with lists of the exact length, and each list one short.
fn loads(file: &[u8], should: Option<Refusal>) -> Result<(), String> {
    let loaded = load(file);
    if loaded.as_ref().err().copied() != should {
        return Err(format!("the oracle has {:?}", loaded.err()));
    }
    let random = &mut Random::new(9);
    let Ok(content) = &loaded else {
        return calls::load_into(random, file, [49152, 4096, 4096, 65535, 4096, 4096, 65535], &loaded);
    };
    let needed = calls::lengths_needed(content);
    calls::load_into(random, file, needed, &loaded)?;
    for list in 0..7 {
        let mut short = needed;
        short[list] = short[list].saturating_sub(1);
        calls::load_into(random, file, short, &loaded).map_err(|message| format!("list {list} one short: {message}"))?;
    }
    let q = WriteQuery {
        t: content.tags.len() as u32,
        tags: content.tags.concat(),
        left_numbers: content.sides[0].numbers.clone(),
        left: content.collection(0),
        right_numbers: content.sides[1].numbers.clone(),
        right: content.collection(1),
        room: file.len(),
    };
    let again = calls::write(random, &q)?.ok_or("the writer refused what was loaded")?;
    if !again.is_empty() {
        calls::write(random, &WriteQuery { room: again.len() - 1, ..q })?;
    }
    calls::load_into(random, &again, needed, &Ok(content.without_repeats()))
}

/// A file with its kits first and their tags rising is loaded, written as it is and loaded again, and these kits are whole, kit number and
/// stack number.
fn keeps(file: &[u8], should: &[(u16, u16)]) -> Result<(), String> {
    loads(file, None)?;
    let loaded = load(file).map_err(|refusal| format!("the oracle has {refusal:?}"))?;
    if loaded.whole_kits() != should {
        return Err(format!("the oracle's whole kits are {:?}", loaded.whole_kits()));
    }
    let first = TagFile::load(file).map_err(|refusal| refusal.to_string())?;
    let written = first.write().map_err(|refusal| refusal.to_string())?;
    if written != file {
        return Err(format!("it is written as {written:02X?}"));
    }
    if TagFile::load(&written).as_ref() != Ok(&first) {
        return Err("the written file holds something else".into());
    }
    whole::compare(&first, &loaded)
}

/// A file and a record more.
fn and(file: &[u8], more: Vec<u8>) -> Vec<u8> {
    [file, &more].concat()
}

fn main() {
    let mut checks: Vec<(&str, Result<(), String>)> = Vec::new();
    let mut add = |name, result| checks.push((name, result));

    let sets = |right: bool| (0..4096).flat_map(|k| record(right, k * 15, &tags(k as usize % 40, 2))).collect::<Vec<u8>>();
    for right in [false, true] {
        let side = sets(right);
        let place = side.len() as u64;
        add("4,096 sets", loads(&side, None));
        add("a 4,097th set", loads(&and(&side, record(right, 65000, &[])), Some(Refusal(3, place, 0))));
        add("a 4,097th set that repeats a number", loads(&and(&side, record(right, 15, &[])), Some(Refusal(2, place, 0))));
        add("a set of the other side", loads(&and(&side, record(!right, 15, &[])), None));
        add("a 4,097th set cut short", loads(&and(&side, b"KT\x00".to_vec()), Some(Refusal(1, place, 0))));

        // 257 records of 255 tags are 65,535 entries; repeats within a record don't count
        let entries: Vec<u8> = (0..257).flat_map(|k| record(right, k, &tags(k as usize * 3, 255))).collect();
        let place = entries.len() as u64;
        add("65,535 entries", loads(&entries, None));
        add("65,535 entries and an empty set", loads(&and(&entries, record(right, 900, &[])), None));
        add("65,536 entries", loads(&and(&entries, record(right, 900, &tags(0, 1))), Some(Refusal(3, place, 0))));
        let repeats = record(right, 900, &[tags(0, 1), tags(0, 1)].concat());
        let short: Vec<u8> = (0..257).flat_map(|k| record(right, k, &tags(k as usize * 3, if k == 9 { 254 } else { 255 }))).collect();
        add("65,535 entries by a collapsed repeat", loads(&and(&short, repeats), None));
        add("65,536 entries with a known number", loads(&and(&entries, record(right, 4, &tags(0, 1))), Some(Refusal(2, place, 0))));

        let known: Vec<u8> = (0..32).flat_map(|k| record(k % 2 == 0, k, &tags(128 * k as usize, 128))).collect();
        let place = known.len() as u64;
        add("4,096 tags", loads(&known, None));
        add("4,096 tags and a known one", loads(&and(&known, record(right, 99, &tags(17, 3))), None));
        add("4,097 tags", loads(&and(&known, record(right, 99, &tags(4096, 1))), Some(Refusal(3, place, 0))));
    }
    let both = and(&sets(false), sets(true));
    add("4,096 sets of both sides", loads(&both, None));
    let long: Vec<u8> = (0..8192).flat_map(|k| record(k % 2 == 0, k, &vec![tag(k as usize % 4096); 255])).collect();
    add("a file of 25 million bytes", loads(&long, None));
    add("an empty file", loads(&[], None));
    add("one byte", loads(b"K", Some(Refusal(1, 0, 0))));
    add("a wrong mark in a stump", loads(b"KS", Some(Refusal(1, 0, 0))));
    add("a whole record and a stump", loads(b"KT\x00\x07\x00SK\x00\x01", Some(Refusal(1, 5, 0))));
    add("a kit and a stack of one number", loads(b"KT\x00\x07\x00SK\x00\x07\x00", None));
    add("two kits of one number", loads(b"KT\x00\x07\x00SK\x00\x07\x00KT\x00\x07\x00", Some(Refusal(2, 10, 0))));
    add("the first fault decides", loads(b"KT\x00\x07\x00KT\x00\x07\x00XX", Some(Refusal(2, 5, 0))));

    // Kits without a tag.
    let kit = |number: u16, n: usize| record(false, number, &tags(1, n));
    let stack = |number: u16, n: usize| record(true, number, &tags(1, n));
    add("an empty kit", keeps(&kit(7, 0), &[]));
    add("an empty kit and a stack", keeps(&and(&kit(7, 0), stack(9, 2)), &[]));
    add("an empty kit and an empty stack", keeps(&and(&kit(7, 0), stack(9, 0)), &[]));
    add("a kit with a last tag", keeps(&[kit(7, 1), kit(5, 2), stack(9, 2)].concat(), &[(7, 9), (5, 9)]));
    add("the same kit when it is withdrawn", keeps(&[kit(7, 0), kit(5, 2), stack(9, 2)].concat(), &[(5, 9)]));
    let around = [kit(0, 0), kit(7, 2), kit(65535, 0), stack(9, 2), stack(7, 3)].concat();
    add("empty kits around a whole one", keeps(&around, &[(7, 9), (7, 7)]));
    let between = [kit(1, 2), kit(4, 0), kit(2, 0), kit(3, 2), stack(9, 2)].concat();
    add("empty kits between equal ones", keeps(&between, &[(1, 9), (3, 9)]));
    let empty = |from: u16, to: u16| (from..to).flat_map(|k| kit(k, 0)).collect::<Vec<u8>>();
    add("4,096 empty kits and a stack", keeps(&and(&empty(0, 4096), stack(9, 2)), &[]));
    add("4,095 empty kits, one that is whole, and a stack", keeps(&[empty(0, 4095), kit(5000, 1), stack(9, 2)].concat(), &[(5000, 9)]));
    add("4,097 empty kits", loads(&empty(0, 4097), Some(Refusal(3, 5 * 4096, 0))));

    let most = WriteQuery {
        t: 4096,
        tags: tags(0, 4096).concat(),
        left_numbers: vec![9; 4096],
        left: Collection::of(&vec![(100..115).collect(); 4096]),
        right_numbers: vec![65535; 257],
        right: Collection::of(&vec![(3841..4096).collect(); 257]),
        room: 4096 * (5 + 12 * 15) + 257 * (5 + 12 * 255),
    };
    add("the writer at the limits", calls::write(&mut Random::new(2), &most).map(|_| ()));
    add("the writer one byte short", calls::write(&mut Random::new(2), &WriteQuery { room: most.room - 1, ..most.clone() }).map(|_| ()));
    add("the writer with 4,097 sets", {
        let left = Collection::of(&vec![vec![]; 4097]);
        calls::write(&mut Random::new(2), &WriteQuery { left_numbers: vec![1; 4097], left, ..most.clone() }).map(|_| ())
    });
    add("the writer with 65,536 entries", {
        let mut sets: Vec<Vec<u16>> = vec![(3841..4096).collect(); 257];
        sets.push(vec![0]);
        let right = Collection::of(&sets);
        calls::write(&mut Random::new(2), &WriteQuery { right_numbers: vec![1; 258], right, ..most.clone() }).map(|_| ())
    });
    add("the writer with no room and T of 4,097", {
        let tags = tags(0, 4097).concat();
        calls::write(&mut Random::new(2), &WriteQuery { t: 4097, tags, room: 0, ..most }).map(|_| ())
    });
    run_named(checks.into_iter().map(|(name, result)| (name.to_string(), result)).collect());
}
