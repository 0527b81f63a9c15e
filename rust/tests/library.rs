//! The safe functions over the library: each refusal, the owned lists against the lent ones, and the header's constants.

use kitfinder::{Collection, Counts, Query, Refusal, Rule, Sets, Side, TagFile, Weights};
use std::collections::HashMap;
use std::path::Path;

fn repository(file: &str) -> Vec<u8> {
    let path = Path::new(env!("CARGO_MANIFEST_DIR")).join("..").join(file);
    std::fs::read(&path).unwrap_or_else(|error| panic!("{}: {error}", path.display()))
}

fn record(mark: &[u8; 2], number: u16, tags: &[u8]) -> Vec<u8> {
    let mut bytes = mark.to_vec();
    bytes.extend(number.to_be_bytes());
    bytes.push(tags.len() as u8);
    bytes.extend(tags.iter().flat_map(|&tag| [tag; 12]));
    bytes
}

/// The shelf example: kits {0,1}, {1}, {0,2,3}; stacks {0,1,2}, {1,3}, {0,2,3}.
fn shelf() -> (Sets, Sets) {
    let kits = [vec![0, 1], vec![1], vec![0, 2, 3]].into_iter().collect();
    let stacks = [vec![2, 1, 0], vec![1, 3], vec![0, 2, 3, 3]].into_iter().collect();
    (kits, stacks)
}

fn query<'a>(kits: &'a Sets, stacks: &'a Sets) -> Query<'a> {
    let (left, right) = (kits.collection(), stacks.collection());
    Query { t: 4, left, right, limit: 2, ranks: &[0, 1, 2, 3], budget: u32::MAX, rule: Rule::Merge }
}

/// The repeats of kits and of stacks.
fn repeats(file: &TagFile) -> (usize, usize) {
    (file.left_repeats(), file.right_repeats())
}

/// Whether two loaded files hold the same, whatever their repeats.
fn hold_same(one: &TagFile, other: &TagFile) -> bool {
    let numbers = |file: &TagFile| [file.left_numbers().to_vec(), file.right_numbers().to_vec()];
    one.tags().eq(other.tags()) && numbers(one) == numbers(other) && (one.left(), one.right()) == (other.left(), other.right())
}

/// The counts in the order of document 01.
fn six(counts: Counts) -> [u32; 6] {
    [counts.pairs, counts.by_path, counts.confirmed, counts.checks, counts.dropped, counts.false_drops]
}

#[test]
fn every_rule_and_limit_finds_the_same_pairs() {
    let (kits, stacks) = shelf();
    for rule in [Rule::Merge, Rule::Check, Rule::Weighed(Weights { a: 1.0, b: 1.0, g: 0.0, h: 1.5 })] {
        for limit in [1, 2, 255] {
            let found = Query { rule, limit, ..query(&kits, &stacks) }.run().expect("the shelf is accepted");
            assert!(found.pairs().eq([(0, 0), (1, 0), (1, 1), (2, 2)]));
            assert_eq!(found.counts().pairs, 4);
            assert_eq!(found.pairs().len(), 4);
            assert_eq!(found.pairs().next_back(), Some((2, 2)));
        }
    }
}

#[test]
fn empty_kits_pair_with_nothing_and_add_to_no_count() {
    let (kits, stacks) = shelf();
    let among: Sets = [vec![], vec![0, 1], vec![], vec![], vec![1], vec![0, 2, 3], vec![]].into_iter().collect();
    let empty: Sets = (0..3).map(|_| []).collect();
    let with_empty: Sets = [vec![], vec![0, 1, 2], vec![]].into_iter().collect();
    let none = Sets::new();
    for rule in [Rule::Merge, Rule::Check, Rule::Weighed(Weights { a: 1.0, b: 1.0, g: 0.0, h: 1.5 })] {
        for limit in [1, 2, 255] {
            let run = |kits, stacks| Query { rule, limit, ..query(kits, stacks) }.run().expect("the shelf is accepted");
            assert!(run(&among, &stacks).pairs().eq([(1, 0), (4, 0), (4, 1), (5, 2)]));
            assert_eq!(run(&among, &stacks).counts(), run(&kits, &stacks).counts());
            for stacks in [&stacks, &with_empty, &empty, &none] {
                let alone = Query { rule, limit, budget: 0, ..query(&empty, stacks) };
                let mut work = vec![0; kitfinder::work_words(4, alone.left, alone.right)];
                assert_eq!(kitfinder::join(&alone, &mut work, &mut []).map(six), Ok([0; 6]));
                assert_eq!(kitfinder::join(&alone, &mut work[1..], &mut []), Err(Refusal::ShortWork));
            }
        }
    }
}

#[test]
fn the_first_kit_passes_over_empty_ones_and_counts_them() {
    let kits: Sets = [vec![], vec![0, 1], vec![], vec![1], vec![]].into_iter().collect();
    let empty: Sets = (0..3).map(|_| []).collect();
    let first = |kits: &Sets, stack: &[u16]| kitfinder::first(4, kits.collection(), stack).map(|first| (first.place, first.compared));
    assert_eq!(first(&kits, &[0, 1]), Ok((Some(1), 2)));
    assert_eq!(first(&kits, &[1, 3]), Ok((Some(3), 4)));
    assert_eq!(first(&kits, &[0, 3]), Ok((None, 5)));
    assert_eq!(first(&kits, &[]), Ok((None, 5)));
    assert_eq!(first(&empty, &[0, 1]), Ok((None, 3)));
    assert_eq!(first(&empty, &[]), Ok((None, 3)));
}

#[test]
fn counts_are_those_of_the_library() {
    let (kits, stacks) = shelf();
    let counts = Query { rule: Rule::Check, ..query(&kits, &stacks) }.run().expect("the shelf is accepted").counts();
    assert_eq!(six(counts), [4, 0, 4, 7, 3, 0]);
}

#[test]
fn the_join_refuses() {
    let (kits, stacks) = shelf();
    let good = query(&kits, &stacks);
    let mut many: Sets = (0..4097).map(|_| []).collect();
    assert_eq!(Query { left: many.collection(), ..good }.run(), Err(Refusal::BadSet(Side::Left, 4096)));
    many.push([4]);
    let alien: Sets = [vec![], vec![4]].into_iter().collect();
    assert_eq!(Query { right: alien.collection(), ..good }.run(), Err(Refusal::BadSet(Side::Right, 1)));
    assert_eq!(Query { limit: 0, ..good }.run(), Err(Refusal::BadSettings));
    assert_eq!(Query { ranks: &[0, 1, 1, 3], ..good }.run(), Err(Refusal::BadSettings));
    assert_eq!(Query { rule: Rule::Check, budget: 6, ..good }.run(), Err(Refusal::Spent));
    let (mut work, mut places) = (vec![0; kitfinder::work_words(4, good.left, good.right)], [0; 8]);
    assert!(kitfinder::join(&good, &mut work, &mut places).is_ok());
    assert_eq!(kitfinder::join(&good, &mut work[1..], &mut places), Err(Refusal::ShortWork));
    assert_eq!(kitfinder::join(&good, &mut work, &mut places[..7]), Err(Refusal::ShortPairs));
}

#[test]
fn the_first_kit_is_that_of_the_first_pair() {
    let (kits, stacks) = shelf();
    let found = query(&kits, &stacks).run().expect("the shelf is accepted");
    for (stack, (place, compared)) in [(Some(0), 1), (Some(1), 2), (Some(2), 3)].into_iter().enumerate() {
        let first = kitfinder::first(4, kits.collection(), stacks.get(stack).expect("a stack")).expect("the shelf is accepted");
        assert_eq!((first.place, first.compared), (place, compared));
        assert_eq!(found.pairs().find(|pair| pair.1 == stack).map(|pair| pair.0), place);
    }
    let none = kitfinder::first(4, kits.collection(), &[0, 3]).expect("the shelf is accepted");
    assert_eq!((none.place, none.compared), (None, 3));
    let none = kitfinder::first(0, Collection::default(), &[]).expect("nothing is accepted");
    assert_eq!((none.place, none.compared), (None, 0));
}

#[test]
fn the_first_kit_refuses() {
    let (kits, _) = shelf();
    let left = kits.collection();
    assert_eq!(kitfinder::first(4097, left, &[9, 9]), Err(Refusal::BadSettings));
    assert_eq!(kitfinder::first(3, left, &[9, 9]), Err(Refusal::BadSet(Side::Left, 2)));
    assert_eq!(kitfinder::first(4, left, &[1, 1]), Err(Refusal::BadSet(Side::Right, 0)));
    assert_eq!(kitfinder::first(4, left, &[0, 4]), Err(Refusal::BadSet(Side::Right, 0)));
    let long: Vec<u16> = (0..256).collect();
    assert_eq!(kitfinder::first(256, left, &long), Err(Refusal::BadSet(Side::Right, 0)));
    assert_eq!(kitfinder::first(256, left, &long[..255]).expect("255 items").place, Some(0));
    let wild = Collection { ends: &[u32::MAX], items: &[] };
    assert_eq!(kitfinder::first(4, wild, &[]), Err(Refusal::BadSet(Side::Left, 0)));
}

#[test]
fn the_first_kit_of_a_loaded_stack_is_the_first_whole_one() {
    let empty = [record(b"KT", 3, &[]), record(b"SK", 7, &[1, 2])].concat();
    let more = [empty.clone(), record(b"KT", 2, &[2]), record(b"SK", 4, &[])].concat();
    for bytes in [repository("examples/library.tags"), record(b"SK", 7, &[]), empty, more, Vec::new()] {
        let file = TagFile::load(&bytes).expect("in order");
        let whole = file.whole_kits().expect("accepted");
        for (place, &number) in file.right_numbers().iter().enumerate() {
            let first = file.first_kit(file.right().get(place).expect("a stack"));
            assert_eq!(first, Ok(whole.iter().find(|pair| pair.1 == number).map(|pair| pair.0)));
        }
        assert_eq!(file.first_kit(&[4096]), Err(Refusal::BadSet(Side::Right, 0)));
    }
}

#[test]
fn wild_collections_ask_for_no_more_than_the_limits() {
    let wild = Collection { ends: &[u32::MAX], items: &[] };
    assert!(kitfinder::work_words(u32::MAX, wild, wild) <= 2_293_792);
    assert!(kitfinder::file_bytes(wild, wild) <= 1_613_800);
    let query = Query { t: 4, left: wild, right: wild, limit: 2, ranks: &[0, 1, 2, 3], budget: 0, rule: Rule::Merge };
    assert_eq!(query.run(), Err(Refusal::BadSet(Side::Left, 0)));
    let ends = vec![0; 5000];
    let many = Collection { ends: &ends, items: &[] };
    assert_eq!(kitfinder::pair_places(many, many), 33_554_432);
}

#[test]
fn sets_are_sorted_and_their_repeats_collapsed() {
    let mut sets = Sets::new();
    assert!(sets.is_empty());
    sets.push([3, 1, 3, 2, 1]);
    sets.push([]);
    sets.push([7]);
    assert_eq!(sets.collection(), Collection { ends: &[3, 3, 4], items: &[1, 2, 3, 7] });
    assert_eq!((0..4).map(|place| sets.get(place)).collect::<Vec<_>>(), [Some(&[1, 2, 3][..]), Some(&[]), Some(&[7]), None]);
    assert!(sets.iter().eq([&[1, 2, 3][..], &[], &[7]]));
    assert!(sets.iter().rev().map(<[u16]>::len).eq([1, 0, 3]));
    assert_eq!((sets.iter().len(), Sets::new().iter().len()), (3, 0));
}

#[test]
fn a_result_has_the_stacks_of_a_kit_and_the_kits_of_a_stack() {
    let (kits, stacks) = shelf();
    let among: Sets = [vec![], vec![0, 1], vec![], vec![1], vec![0, 2, 3], vec![]].into_iter().collect();
    for kits in [&kits, &among, &Sets::new()] {
        let found = query(kits, &stacks).run().expect("the shelf is accepted");
        let pairs: Vec<(usize, usize)> = found.pairs().collect();
        // also at places that no set has
        for place in (0..8).chain([65535, 65536, usize::MAX]) {
            let stacks_of: Vec<usize> = pairs.iter().filter(|pair| pair.0 == place).map(|pair| pair.1).collect();
            let kits_of: Vec<usize> = pairs.iter().filter(|pair| pair.1 == place).map(|pair| pair.0).collect();
            assert!(found.stacks_of(place).eq(stacks_of.iter().copied()));
            assert_eq!(found.stacks_of(place).len(), stacks_of.len());
            assert!(found.stacks_of(place).rev().eq(stacks_of.iter().rev().copied()));
            assert!(found.kits_of(place).eq(kits_of.iter().copied()));
            assert!(found.kits_of(place).rev().eq(kits_of.iter().rev().copied()));
        }
    }
    let found = query(&kits, &stacks).run().expect("the shelf is accepted");
    assert_eq!((found.stacks_of(1).collect(), found.kits_of(0).collect()), (vec![0, 1], vec![0, 1]));
}

#[test]
fn a_loaded_file_is_joined_with_any_settings() {
    let file = TagFile::load(&repository("examples/library.tags")).expect("in order");
    let whole = file.whole_kits().expect("accepted");
    assert_eq!(whole, [(101, 1), (102, 1), (103, 2), (104, 1)]);
    for falling in [false, true] {
        let ranks = file.ranks(falling).expect("accepted");
        let start = file.query(&ranks);
        assert_eq!((start.t, start.limit, start.budget, start.rule), (file.t(), 2, u32::MAX, Rule::Merge));
        assert_eq!((start.left, start.right), (file.kits().collection(), file.stacks().collection()));
        for (rule, limit) in [(Rule::Merge, 2), (Rule::Check, 2), (Rule::Merge, 255)] {
            let found = Query { rule, limit, ..start }.run().expect("accepted");
            assert!(file.numbers(&found).eq(whole.iter().copied()));
        }
        assert_eq!(Query { limit: 256, ..start }.run(), Err(Refusal::BadSettings));
    }
}

#[test]
fn a_loaded_file_answers_to_the_words_of_the_join() {
    let kits = [record(b"KT", 9, &[1, 1]), record(b"KT", 4, &[5, 1])].concat();
    let file = TagFile::load(&[kits, record(b"SK", 3, &[7, 1, 7, 7])].concat()).expect("in order");
    assert_eq!((file.left_numbers(), file.right_numbers()), (file.kit_numbers(), file.stack_numbers()));
    assert_eq!((file.left(), file.right()), (file.kits(), file.stacks()));
    assert_eq!((file.left_repeats(), file.right_repeats()), (file.kit_repeats(), file.stack_repeats()));
    assert_eq!((file.kit_numbers(), file.stack_numbers(), repeats(&file)), (&[9, 4][..], &[3][..], (1, 2)));
    assert_eq!((file.kits().len(), file.stacks().len()), (2, 1));
}

#[test]
fn a_loaded_file_has_its_tags_kits_and_stacks() {
    let file = [record(b"SK", 9, &[5, 1, 5]), record(b"KT", 9, &[1]), record(b"KT", 300, &[]), record(b"KT", 4, &[7, 1])].concat();
    let loaded = TagFile::load(&file).expect("the file is in order");
    assert_eq!(loaded.t(), 3);
    assert!(loaded.tags().eq([[1; 12], [5; 12], [7; 12]]));
    assert_eq!(loaded.left_numbers(), [9, 300, 4]);
    assert_eq!(loaded.right_numbers(), [9]);
    assert_eq!(loaded.left().collection(), Collection { ends: &[1, 1, 3], items: &[0, 0, 2] });
    assert_eq!(loaded.right().get(0), Some(&[0, 1][..]));
    assert_eq!(loaded.ranks(false), Ok(vec![2, 0, 1]));
    assert_eq!(loaded.ranks(true), Ok(vec![0, 1, 2]));
    assert_eq!(loaded.whole_kits(), Ok(vec![(9, 9)]));
    assert_eq!(loaded.first_kit(&[]), Ok(None));
    assert_eq!(repeats(&loaded), (0, 1));
    let written = loaded.write().expect("it can be written");
    let kits_first = [record(b"KT", 9, &[1]), record(b"KT", 300, &[]), record(b"KT", 4, &[1, 7]), record(b"SK", 9, &[1, 5])].concat();
    assert_eq!(written, kits_first);
    let again = TagFile::load(&written).expect("the file is in order");
    assert!(hold_same(&again, &loaded));
    assert_eq!(repeats(&again), (0, 0));
    assert_eq!(TagFile::load(&kits_first), Ok(again));
}

#[test]
fn repeats_are_counted_within_a_record() {
    let loaded = |records: &[Vec<u8>]| TagFile::load(&records.concat()).map(|file| repeats(&file));
    assert_eq!(loaded(&[]), Ok((0, 0)));
    assert_eq!(loaded(&[record(b"KT", 1, &[1, 1, 2]), record(b"SK", 1, &[3, 2, 3, 3, 2])]), Ok((1, 3)));
    assert_eq!(loaded(&[record(b"KT", 1, &[5; 255]), record(b"KT", 2, &[5; 255]), record(b"SK", 1, &[5; 2])]), Ok((508, 1)));
    let apart = [record(b"KT", 1, &[1, 2]), record(b"KT", 2, &[2, 1]), record(b"SK", 1, &[1, 2]), record(b"SK", 2, &[2])];
    assert_eq!(loaded(&apart), Ok((0, 0)));

    // of the second pad's file the stacks add theirs, and the kits none
    let first = [record(b"KT", 1, &[1, 1]), record(b"SK", 7, &[1, 2, 2])];
    let pooled = |second: &[Vec<u8>]| TagFile::load_pooled(&first.concat(), &second.concat()).map(|file| repeats(&file));
    assert_eq!(pooled(&[]), Ok((1, 1)));
    assert_eq!(pooled(&[record(b"SK", 7, &[2, 1]), record(b"SK", 8, &[1])]), Ok((1, 1)));
    assert_eq!(pooled(&[record(b"KT", 1, &[9; 4]), record(b"KT", 3, &[1, 1]), record(b"KT", 3, &[])]), Ok((1, 1)));
    assert_eq!(pooled(&[record(b"SK", 8, &[2, 2, 2]), record(b"KT", 1, &[9; 4]), record(b"SK", 7, &[3, 1, 3])]), Ok((1, 4)));
}

#[test]
fn the_loader_has_room_for_files_of_heads_and_of_tags() {
    assert_eq!(TagFile::load(b""), Ok(TagFile::default()));
    let heads: Vec<u8> = (0..4096).flat_map(|number| record(b"KT", number, &[])).collect();
    assert_eq!(TagFile::load(&heads).map(|file| file.left().len()), Ok(4096));
    let tags: Vec<u8> = (0..=255).collect();
    let full = record(b"SK", 0, &tags[..255]);
    assert_eq!(TagFile::load(&full).map(|file| (file.t(), file.right().get(0).map(<[u16]>::len))), Ok((255, Some(255))));
}

#[test]
fn the_loader_refuses() {
    let kit = record(b"KT", 7, &[1, 2]);
    assert_eq!(TagFile::load(&kit[..kit.len() - 1]), Err(Refusal::Malformed(0)));
    assert_eq!(TagFile::load(&[kit.clone(), kit.clone()].concat()), Err(Refusal::NumberUsed(29)));
    let heads: Vec<u8> = (0..4097).flat_map(|number| record(b"KT", number, &[])).collect();
    assert_eq!(TagFile::load(&heads), Err(Refusal::TooMany(5 * 4096)));
    let lists = |tags: &mut [u8]| {
        let (n, e, i) = (&mut [0; 1], &mut [0; 1], &mut [0; 2]);
        let right = (&mut [0; 0], &mut [0; 0], &mut [0; 0]);
        let lists = kitfinder::Lists {
            tags,
            left_numbers: n,
            left_ends: e,
            left_items: i,
            right_numbers: right.0,
            right_ends: right.1,
            right_items: right.2,
        };
        kitfinder::load(&kit, lists).map(|loaded| loaded.tags)
    };
    assert_eq!(lists(&mut [0; 24]), Ok(2));
    assert_eq!(lists(&mut [0; 23]), Err(Refusal::ShortOutput));
}

/// A record whose tags are two-byte numbers.
fn wide_record(number: u16, tags: std::ops::Range<u16>) -> Vec<u8> {
    let mut bytes = record(b"SK", number, &[]);
    bytes[4] = tags.len() as u8;
    bytes.extend(tags.flat_map(|tag| [tag.to_be_bytes(); 6].concat()));
    bytes
}

#[test]
fn stacks_of_two_pads_are_pooled() {
    let first = [record(b"SK", 9, &[5, 1, 5]), record(b"KT", 9, &[1]), record(b"SK", 4, &[]), record(b"KT", 8, &[7, 1])].concat();
    let second = [record(b"SK", 2, &[3]), record(b"KT", 8, &[250]), record(b"SK", 9, &[7, 5]), record(b"KT", 8, &[1])].concat();
    let pooled = TagFile::load_pooled(&first, &second).expect("the files are in order");
    assert!(pooled.tags().eq([[1; 12], [3; 12], [5; 12], [7; 12]]));
    assert_eq!(pooled.left_numbers(), [9, 8]);
    assert_eq!(pooled.left().collection(), Collection { ends: &[1, 3], items: &[0, 0, 3] });
    assert_eq!(pooled.right_numbers(), [9, 4, 2]);
    assert_eq!(pooled.right().collection(), Collection { ends: &[3, 3, 4], items: &[0, 2, 3, 1] });
    assert_eq!(pooled.whole_kits(), Ok(vec![(9, 9), (8, 9)]));
    assert_eq!(TagFile::load(&first).and_then(|alone| alone.whole_kits()), Ok(vec![(9, 9)]));
    assert_eq!(repeats(&pooled), (0, 1));
    assert_eq!(TagFile::load_pooled(&first, b""), TagFile::load(&first));
    assert_eq!(TagFile::load_pooled(b"", b""), Ok(TagFile::default()));
    let of_second = TagFile::load_pooled(b"", &second).expect("the files are in order");
    assert_eq!((of_second.left().len(), of_second.right_numbers(), of_second.t()), (0, &[2, 9][..], 3));
    let written = pooled.write().expect("it can be written");
    let again = TagFile::load(&written).expect("the file is in order");
    assert!(hold_same(&again, &pooled));
    assert_eq!(repeats(&again), (0, 0));
    let empty = TagFile::load_pooled(&[record(b"KT", 5, &[]), first].concat(), &[second, record(b"KT", 5, &[1])].concat());
    assert_eq!(empty.and_then(|pooled| pooled.whole_kits()), pooled.whole_kits());
}

#[test]
fn the_pooled_load_has_room_for_what_is_in_the_second_file_alone() {
    let heads = |numbers: std::ops::Range<u16>| numbers.flat_map(|number| record(b"SK", number, &[])).collect::<Vec<u8>>();
    assert_eq!(TagFile::load_pooled(&heads(0..96), &heads(90..4096)).map(|file| file.right().len()), Ok(4096));
    assert_eq!(TagFile::load_pooled(&heads(0..96), &heads(90..4097)), Err(Refusal::TooMany(5 * (96 + 4006))));
    let tags: Vec<u8> = (0..16).flat_map(|k| wide_record(k, 255 * k..255 * k + 255)).collect();
    assert_eq!(TagFile::load_pooled(b"", &tags).map(|file| (file.t(), file.right().collection().items.len())), Ok((4080, 4080)));
}

#[test]
fn the_pooled_load_refuses() {
    let first = [record(b"KT", 7, &[1, 2]), record(b"SK", 7, &[1])].concat();
    let (stack, base) = (record(b"SK", 7, &[2]), first.len());
    let pooled = |second: &[u8]| TagFile::load_pooled(&first, second).map(|file| file.t());
    assert_eq!(pooled(&stack), Ok(2));
    assert_eq!(pooled(&stack[..16]), Err(Refusal::Malformed(base)));
    assert_eq!(pooled(&[&stack[..], &stack].concat()), Err(Refusal::NumberUsed(base + 17)));
    assert_eq!(TagFile::load_pooled(&first[..base - 1], b"K"), Err(Refusal::Malformed(29)));
    let (full, more) = (wide_record(5, 0..255), [stack.clone(), wide_record(5, 1..256)].concat());
    assert_eq!(TagFile::load_pooled(&full, &full).map(|file| file.t()), Ok(255));
    assert_eq!(TagFile::load_pooled(&full, &more), Err(Refusal::Overlong(full.len() + 17)));
    assert_eq!(TagFile::load_pooled(&full, &[&more[..], b"S"].concat()), Err(Refusal::Malformed(full.len() + more.len())));
    let lists = |tags: &mut [u8], items: &mut [u16]| {
        let lists = kitfinder::Lists {
            tags,
            left_numbers: &mut [],
            left_ends: &mut [],
            left_items: &mut [],
            right_numbers: &mut [0; 2],
            right_ends: &mut [0; 2],
            right_items: items,
        };
        kitfinder::load_pooled(&full, &more, lists)
    };
    assert_eq!(lists(&mut [0; 12 * 257], &mut [0; 257]), Err(Refusal::Overlong(full.len() + 17)));
    assert_eq!(lists(&mut [0; 12 * 257], &mut [0; 256]), Err(Refusal::ShortOutput));
    let mut tags = [9; 12 * 257 - 1];
    assert_eq!(lists(&mut tags, &mut [0; 257]), Err(Refusal::ShortOutput));
    assert_eq!(tags, [0; 12 * 257 - 1]);
}

#[test]
fn records_are_read_one_after_the_other() {
    let file = [record(b"KT", 7, &[1, 2]), record(b"SK", 258, &[]), record(b"SK", 9, &[2, 1, 2, 2])].concat();
    let kit = kitfinder::read_record(&file, 0).expect("in order").expect("a record");
    assert_eq!((kit.side, kit.number, kit.count, kit.tags, kit.next), (Side::Left, 7, 2, 5, 29));
    let stack = kitfinder::read_record(&file, kit.next).expect("in order").expect("a record");
    assert_eq!((stack.side, stack.number, stack.next), (Side::Right, 258, 34));
    let last = kitfinder::read_record(&file, stack.next).expect("in order").expect("a record");
    assert_eq!((last.count, last.tags, last.next), (4, 39, file.len()));
    assert_eq!([kit, stack, last].map(|record| record.repeats), [0, 0, 2]);
    assert_eq!(kitfinder::read_record(&file, last.next), Ok(None));
    assert_eq!(kitfinder::read_record(&file, 1), Err(Refusal::Malformed(1)));
}

#[test]
fn refusals_are_errors_with_numbers_and_words() {
    let refusals = [
        Refusal::Malformed(3),
        Refusal::NumberUsed(3),
        Refusal::TooMany(3),
        Refusal::ShortOutput,
        Refusal::BadSet(Side::Right, 3),
        Refusal::BadSettings,
        Refusal::ShortWork,
        Refusal::Spent,
        Refusal::ShortPairs,
        Refusal::Overlong(3),
    ];
    assert_eq!(refusals.map(|refusal| refusal.detail()), [3, 3, 3, 0, 1, 0, 0, 0, 0, 3]);
    assert_eq!(Refusal::BadSet(Side::Left, 3).detail(), 0);
    for (refusal, number) in refusals.iter().zip(1..) {
        assert_eq!(refusal.number(), number);
        let error: Box<dyn std::error::Error + Send + Sync> = Box::new(*refusal);
        assert!(error.to_string().starts_with(&format!("refused with {number}: ")));
    }
}

#[test]
fn calls_run_on_several_threads_with_the_stack_that_is_stated() {
    let file = repository("examples/library.tags");
    let stack = kitfinder::JOIN_STACK.max(kitfinder::LOAD_STACK).max(kitfinder::LOAD_POOLED_STACK) + (64 << 10);
    let threads: Vec<_> = (0..4)
        .map(|_| {
            let file = file.clone();
            let work = move || {
                let (alone, pooled) = (TagFile::load(&file)?, TagFile::load_pooled(&file, &file)?);
                assert!(hold_same(&alone, &pooled));
                assert_eq!((repeats(&alone), repeats(&pooled)), ((0, 1), (0, 2)));
                pooled.whole_kits()
            };
            std::thread::Builder::new().stack_size(stack).spawn(work).expect("a thread")
        })
        .collect();
    for thread in threads {
        assert_eq!(thread.join().expect("it ends"), Ok(vec![(101, 1), (102, 1), (103, 2), (104, 1)]));
    }
}

/// What the header defines, by name.
fn defined(header: &str) -> HashMap<&str, &str> {
    header.lines().filter_map(|line| line.strip_prefix("#define KITFINDER_")?.split_once(' ')).collect()
}

#[test]
fn answers_have_as_many_words_as_the_headers() {
    let [header, ffi] = ["include/kitfinder.h", "rust/src/ffi.rs"].map(|file| String::from_utf8(repository(file)).expect("text"));
    let in_header: HashMap<&str, &str> =
        defined(&header).into_iter().filter_map(|(name, words)| Some((name.strip_suffix("_ANSWER")?, words))).collect();
    let mut functions = 0;
    for function in ffi.split("pub fn kitfinder_").skip(1) {
        let name = function.split('(').next().expect("a name").to_uppercase();
        let words = function.split_once("answer: *mut [u64; ").and_then(|(_, words)| words.split(']').next());
        assert_eq!(in_header.get(name.as_str()).copied(), words, "{name}");
        functions += 1;
    }
    assert_eq!((functions, in_header.len()), (7, 7));
}

#[test]
fn constants_are_the_headers() {
    let header = String::from_utf8(repository("include/kitfinder.h")).expect("text");
    let defined = defined(&header);
    let number = |name: &str| defined.get(name).and_then(|text| text.parse::<usize>().ok());
    let constants = [
        ("MAX_ITEMS", kitfinder::MAX_ITEMS),
        ("MAX_SETS", kitfinder::MAX_SETS),
        ("MAX_ENTRIES", kitfinder::MAX_ENTRIES),
        ("MAX_SET_LENGTH", kitfinder::MAX_SET_LENGTH),
        ("MAX_LIMIT", kitfinder::MAX_LIMIT as usize),
        ("TAG_BYTES", kitfinder::TAG_BYTES),
        ("RECORD_HEAD_BYTES", kitfinder::RECORD_HEAD_BYTES),
        ("JOIN_STACK", kitfinder::JOIN_STACK),
        ("FIRST_STACK", kitfinder::FIRST_STACK),
        ("ORDER_STACK", kitfinder::ORDER_STACK),
        ("LOAD_STACK", kitfinder::LOAD_STACK),
        ("LOAD_POOLED_STACK", kitfinder::LOAD_POOLED_STACK),
        ("WRITE_STACK", kitfinder::WRITE_STACK),
        ("READ_RECORD_STACK", kitfinder::READ_RECORD_STACK),
    ];
    for (name, value) in constants {
        assert_eq!(number(name), Some(value), "{name}");
    }
    assert_eq!(defined.get("VERSION"), Some(&format!("{:?}", env!("CARGO_PKG_VERSION")).as_str()));
}
