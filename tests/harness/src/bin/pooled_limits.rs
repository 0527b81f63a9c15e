//! The pooled load on named pairs, each with the answer that document 02 gives it, written by hand: what is pooled and in which order,
//! the limits exactly reached by pooling and one beyond, and which of two causes decides.

use harness::calls;
use harness::files::record;
use harness::oracle::*;
use harness::random::Random;
use harness::run::run_named;
use harness::whole::compare;
use kitfinder::TagFile;

fn tag(k: usize) -> Tag {
    let mut tag = [0; 12];
    tag[..2].copy_from_slice(&(k as u16).to_be_bytes());
    tag[11] = (k % 251) as u8;
    tag
}

fn tags(start: usize, n: usize) -> Vec<Tag> {
    (start..start + n).map(tag).collect()
}

fn kit(number: u16, tags: &[Tag]) -> Vec<u8> {
    record(false, number, tags)
}

fn stack(number: u16, tags: &[Tag]) -> Vec<u8> {
    record(true, number, tags)
}

/// The pair's result as the oracle has it, then the library's with lists of the exact length, each list one short, and longer ones.
fn pools(first: &[u8], second: &[u8], should: Option<Refusal>) -> Result<(), String> {
    let (files, random) = ([first, second], &mut Random::new(9));
    let pooled = pool(first, second);
    let needed = match &pooled {
        Ok(pooled) => calls::lengths_needed(&pooled.loaded),
        Err(_) => [49152, 4096, 4096, 65535, 4096, 4096, 65535],
    };
    if calls::pooled_refusal(needed, &pooled) != should {
        return Err(format!("the oracle has {:?}", calls::pooled_refusal(needed, &pooled)));
    }
    calls::load_pooled_into(random, files, needed, &pooled)?;
    let comes_last = should.is_none_or(|refusal| refusal.0 == 10);
    for list in (0..7).filter(|&list| needed[list] > 0) {
        let mut short = needed;
        short[list] -= 1;
        if comes_last && calls::pooled_refusal(short, &pooled) != Some(Refusal(4, 0, 0)) {
            return Err(format!("the oracle has no 4 where list {list} is one short"));
        }
        calls::load_pooled_into(random, files, short, &pooled).map_err(|message| format!("list {list} one short: {message}"))?;
    }
    let longer = needed.map(|length| length + 3);
    calls::load_pooled_into(random, files, longer, &pooled).map_err(|message| format!("longer lists: {message}"))
}

/// The pair as it is accepted: the tag table; numbers and items of the kits, and of the stacks with their ends.
fn gives(first: &[u8], second: &[u8], table: &[Tag], kits: [&[u16]; 2], stacks: [&[u16]; 2], ends: &[u32]) -> Result<(), String> {
    let loaded = pool(first, second).map_err(|refusal| format!("the oracle has {refusal:?}"))?.loaded;
    let (left, right) = (loaded.collection(0), loaded.collection(1));
    let [kit_numbers, stack_numbers] = [0, 1].map(|side| &loaded.sides[side].numbers[..]);
    let is = (&loaded.tags[..], [kit_numbers, &left.items], [stack_numbers, &right.items], &right.ends[..]);
    if is != (table, kits, stacks, ends) {
        return Err(format!("the oracle has {is:?}"));
    }
    pools(first, second, None)
}

/// The kits that are whole on two pads, kit number and stack number.
fn whole(first: &[u8], second: &[u8], should: &[(u16, u16)]) -> Result<(), String> {
    let loaded = pool(first, second).map_err(|refusal| format!("the oracle has {refusal:?}"))?.loaded;
    if loaded.whole_kits() != should {
        return Err(format!("the oracle has {:?}", loaded.whole_kits()));
    }
    pools(first, second, None)?;
    compare(&TagFile::load_pooled(first, second).map_err(|refusal| refusal.to_string())?, &loaded)
}

/// The refusal of a record of the second file: where it begins there, after the first.
fn at(number: u64, first: &[u8], before: &[u8]) -> Option<Refusal> {
    Some(Refusal(number, (first.len() + before.len()) as u64, 0))
}

/// Files one after the other.
fn and(file: &[u8], more: &[u8]) -> Vec<u8> {
    [file, more].concat()
}

fn main() {
    let mut checks: Vec<(&str, Result<(), String>)> = Vec::new();
    let mut add = |name, result| checks.push((name, result));

    // What is pooled: borrower 9 puts tags 1 and 2 on the first pad, 2 and 5 on the second.
    let first = [kit(7, &[tag(3), tag(1)]), stack(9, &[tag(2), tag(1)]), stack(4, &[tag(8)])].concat();
    let second = [stack(6, &[tag(5), tag(1)]), kit(7, &[tag(99)]), stack(9, &[tag(5), tag(2), tag(5)]), stack(7, &[])].concat();
    let table = [1, 2, 3, 5, 8].map(tag);
    let stacks: [&[u16]; 2] = [&[9, 4, 6, 7], &[0, 1, 3, 4, 0, 3]];
    add("two pads", gives(&first, &second, &table, [&[7], &[0, 2]], stacks, &[3, 4, 6, 6]));
    let format = [
        [kit(7, &[tag(1), tag(3)]), stack(9, &[tag(1), tag(2)])].concat(),
        [stack(4, &[tag(5)]), kit(7, &[tag(8)]), stack(9, &[tag(3), tag(2)])].concat(),
    ];
    let table_of_format = [1, 2, 3, 5].map(tag);
    add("the example of docs/FORMAT.md", {
        gives(&format[0], &format[1], &table_of_format, [&[7], &[0, 2]], [&[9, 4], &[0, 1, 2, 3]], &[3, 4])
    });
    let turned: [&[u16]; 2] = [&[6, 9, 7, 4], &[0, 2, 0, 1, 2, 3]];
    add("two pads the other way round", gives(&second, &first, &[1, 2, 5, 8, 99].map(tag), [&[7], &[4]], turned, &[2, 5, 5, 6]));
    let itself: [&[u16]; 2] = [&[9, 4], &[0, 1, 3]];
    add("one file on both pads", gives(&first, &first, &[1, 2, 3, 8].map(tag), [&[7], &[0, 2]], itself, &[2, 3]));
    add("an empty second file", gives(&first, &[], &[1, 2, 3, 8].map(tag), [&[7], &[0, 2]], itself, &[2, 3]));
    add("an empty first file", gives(&[], &first, &[1, 2, 8].map(tag), [&[], &[]], [&[9, 4], &[0, 1, 2]], &[2, 3]));
    add("both files empty", gives(&[], &[], &[], [&[], &[]], [&[], &[]], &[]));

    // Which kits are whole: each tag on one of the pads. A kit without a tag is not, whatever lies there and whatever the second file has.
    add("a kit that is whole on both pads together", whole(&format[0], &format[1], &[(7, 9)]));
    add("the same on the first pad alone", whole(&format[0], &[], &[]));
    let empty = kit(8, &[]);
    add("an empty kit first", whole(&and(&empty, &format[0]), &format[1], &[(7, 9)]));
    add("an empty kit last", whole(&and(&format[0], &empty), &format[1], &[(7, 9)]));
    add("an empty kit alone", whole(&empty, &format[1], &[]));
    add("an empty kit alone, on both pads", whole(&empty, &and(&empty, &format[1]), &[]));
    add(
        "an empty kit that has tags in the second file",
        whole(&and(&format[0], &empty), &and(&kit(8, &[tag(2)]), &format[1]), &[(7, 9)]),
    );
    add("an empty kit and a stack that is empty on both pads", whole(&and(&empty, &stack(9, &[])), &stack(9, &[]), &[]));
    add("an empty kit in the second file alone", whole(&format[0], &and(&empty, &format[1]), &[(7, 9)]));

    let ends = [stack(0, &[tag(0)]), stack(65535, &[tag(65535)])].concat();
    let more = [stack(65535, &[tag(0)]), stack(0, &[tag(65535)])].concat();
    add(
        "the least and the greatest number",
        gives(&ends, &more, &[0, 65535].map(tag), [&[], &[]], [&[0, 65535], &[0, 1, 0, 1]], &[2, 4]),
    );
    let long = |from: u16| (from..from + 4000).flat_map(|k| stack(k, &[tag(k as usize); 255])).collect::<Vec<u8>>();
    add("two files of 12 million bytes", pools(&long(0), &long(96), None));

    // 1 to 3 within the second file, and whose fault comes first.
    add("a stump in the second file", pools(&first, &and(&second, b"SK\x00"), at(1, &first, &second)));
    add("a kit that is cut short in the second", pools(&first, &and(&second, b"KT\x00\x07\x01"), at(1, &first, &second)));
    add("another mark in the second", pools(&first, &and(b"KK\x00\x07\x00", &second), at(1, &first, &[])));
    add("a fault in each file", pools(&and(&first, b"S"), b"T", Some(Refusal(1, first.len() as u64, 0))));
    add("2 in the first and 1 in the second", pools(&and(&first, &stack(4, &[])), b"T", Some(Refusal(2, first.len() as u64, 0))));
    add("a stack of both, twice in the second", pools(&first, &and(&second, &stack(9, &[])), at(2, &first, &second)));
    add("a stack of the second, twice there", pools(&first, &and(&second, &stack(6, &[])), at(2, &first, &second)));
    let twice = and(&second, &stack(9, &[]));
    add("2 and a later 1", pools(&first, &and(&twice, b"SK"), at(2, &first, &second)));
    add("1 and a later 2", pools(&first, &[&second[..], b"KS\x00\x00\x00", &stack(9, &[])].concat(), at(1, &first, &second)));
    add("a stack with the number of the second's kit", pools(&first, &[kit(3, &[]), stack(3, &[])].concat(), None));
    add("a stack with the number of the first's kit", pools(&first, &stack(7, &[]), None));
    add("a kit twice in the second", pools(&first, &[kit(3, &[tag(1)]), kit(3, &[tag(4)])].concat(), None));

    // 4,096 stacks: the first file has 4,000, the second 96 more and 300 that the first has.
    let sets = |from: u16, to: u16| (from..to).flat_map(|k| stack(k * 15, &tags(k as usize % 40, 2))).collect::<Vec<u8>>();
    let (first, second) = (sets(0, 4000), sets(3700, 4096));
    add("4,096 stacks by pooling", pools(&first, &second, None));
    add("a 4,097th stack", pools(&first, &and(&second, &stack(65000, &[])), at(3, &first, &second)));
    add("a stack more that the first has", pools(&first, &and(&second, &stack(15, &tags(90, 1))), None));
    add("a 4,097th stack cut short", pools(&first, &and(&second, b"SK\x00"), at(1, &first, &second)));
    add("a stack more that repeats a number", pools(&first, &and(&second, &stack(4000 * 15, &[])), at(2, &first, &second)));
    add("a kit more", pools(&first, &and(&second, &kit(65000, &[])), None));
    add("4,096 stacks in the first, and they again", pools(&sets(0, 4096), &sets(0, 4096), None));
    add("4,097 stacks in the second", pools(&[], &sets(0, 4097), at(3, &[], &sets(0, 4096))));
    let kits: Vec<u8> = (0..4096).flat_map(|k| kit(k, &[])).collect();
    add("4,096 kits in the first, and another in the second", pools(&kits, &kit(5000, &[]), None));
    let more: Vec<u8> = (0..4200).flat_map(|k| kit(k % 9, &[])).collect();
    add("4,200 kits in the second, of nine numbers", pools(&kits, &and(&more, &stack(1, &[])), None));

    // 65,535 entries: 257 stacks of 255 tags, 128 of each in the first file and 200 in the second.
    let of = |from: usize, n: usize, last: usize| -> Vec<u8> {
        (0..257).flat_map(|k| stack(k, &tags(3 * k as usize + from, if k == 256 { last } else { n }))).collect()
    };
    let (first, second) = (of(0, 128, 128), of(55, 200, 200));
    add("65,535 entries by pooling", pools(&first, &second, None));
    add("65,535 entries and an empty stack", pools(&first, &and(&second, &stack(900, &[])), None));
    add("65,535 entries and kits", pools(&first, &and(&second, &kit(900, &tags(0, 255))), None));
    add("65,536 entries", pools(&first, &and(&second, &stack(900, &tags(0, 1))), at(3, &first, &second)));
    let short = of(55, 200, 199);
    add("65,535 entries by a collapsed repeat", pools(&first, &and(&short, &stack(900, &[tag(5), tag(5)])), None));
    add("65,536 entries with a used number", pools(&first, &and(&second, &stack(4, &tags(900, 1))), at(2, &first, &second)));
    add("each file has 65,535 entries, and they are the same", pools(&of(0, 255, 255), &of(0, 255, 255), None));
    // 128 stacks of 510 tags are 65,280 entries, 255 fewer than the limit: entries count where a stack is too long.
    let long: Vec<Vec<u8>> = [0, 255].map(|from| (0..128).flat_map(|k| stack(k, &tags(from, 255))).collect()).to_vec();
    add("stacks of 510 tags, up to 65,535 entries", pools(&long[0], &and(&long[1], &stack(200, &tags(0, 255))), at(10, &long[0], &[])));
    let beyond = and(&long[1], &stack(200, &tags(0, 255)));
    add("and one entry more", pools(&long[0], &and(&beyond, &stack(201, &tags(0, 1))), at(3, &long[0], &beyond)));

    // 4,096 tags: kits and stacks of the first have 3,000, the second's stacks the others.
    let first: Vec<u8> = (0..30).flat_map(|k| record(k % 2 == 0, k, &tags(100 * k as usize, 100))).collect();
    let second: Vec<u8> = (30..40).flat_map(|k| stack(k, &tags(100 * k as usize, 100))).collect();
    let second = and(&second, &stack(2, &tags(4000, 96)));
    add("4,096 tags by pooling", pools(&first, &second, None));
    add("4,096 tags and known ones", pools(&first, &and(&second, &stack(99, &tags(17, 203))), None));
    add("4,097 tags", pools(&first, &and(&second, &stack(99, &tags(4096, 1))), at(3, &first, &second)));
    add("4,097 tags in a stack of both", pools(&first, &and(&second, &stack(4, &tags(4096, 1))), at(3, &first, &second)));
    add("4,097 tags with a used number", pools(&first, &and(&second, &stack(2, &tags(4096, 1))), at(2, &first, &second)));
    add("255 tags more on a kit of the second", pools(&first, &and(&second, &kit(1, &tags(5000, 255))), None));
    let many: Vec<u8> = (0..20).flat_map(|k| kit(k, &tags(5000 + 255 * k as usize, 255))).collect();
    add("5,100 tags on kits of the second", pools(&first, &and(&many, &second), None));

    // 10, alone and beside others.
    let first = [stack(1, &tags(0, 255)), stack(2, &tags(300, 255)), stack(3, &tags(600, 200))].concat();
    let same = [stack(2, &tags(300, 255)), stack(1, &tags(0, 255)), stack(3, &tags(745, 110))].concat();
    add("255 and 255 tags that are the same", pools(&first, &same, None));
    add("255 reads of a tag that is there", pools(&first, &stack(1, &[tag(7); 255]), None));
    add("255 reads of a 255th tag", pools(&stack(1, &tags(0, 254)), &stack(1, &[tag(900); 255]), None));
    add("255 reads of a 256th tag", pools(&first, &stack(1, &[tag(900); 255]), at(10, &first, &[])));
    let over = stack(2, &tags(301, 255));
    add("256 tags", pools(&first, &over, at(10, &first, &[])));
    let good = [kit(2, &tags(0, 9)), stack(3, &[])].concat();
    add("256 tags after a kit and a good stack", pools(&first, &and(&good, &over), at(10, &first, &good)));
    add("510 tags", pools(&first, &stack(1, &tags(1000, 255)), at(10, &first, &[])));
    add("two that are too long, the first of the second file", pools(&first, &and(&over, &stack(1, &tags(9, 250))), at(10, &first, &[])));
    add("10 and a later 1", pools(&first, &and(&over, b"SK"), at(1, &first, &over)));
    add("10 and a later 2", pools(&first, &and(&over, &over), at(2, &first, &over)));
    let full = and(&over, &(10..4103).flat_map(|k| stack(k, &[])).collect::<Vec<u8>>());
    add("10 and 4,096 stacks", pools(&first, &full, at(10, &first, &[])));
    add("10 and a later 3", pools(&first, &and(&full, &stack(5000, &[])), at(3, &first, &full)));
    add("255 tags of kits on both pads", pools(&kit(1, &tags(0, 255)), &kit(1, &tags(300, 255)), None));
    add("a kit and a stack of one number with 510 tags", pools(&kit(1, &tags(0, 255)), &stack(1, &tags(300, 255)), None));

    run_named(checks.into_iter().map(|(name, result)| (name.to_string(), result)).collect());
}
