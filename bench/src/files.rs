//! The loader and the writer of the library against those of the peers, and its pooled load of two files against two loads: what they fill
//! is compared before anything is timed.

use bench::measure::{contest, Contestant};
use bench::peers::tags::{self, ByHashMap, ByOpenAddressing, Loaded, Loader, Tag, TagNumbers};
use bench::table::{rows, table, time};
use bench::workloads::{pad_files, Sets};
use kitfinder::Lists;
use std::collections::BTreeSet;
use std::hint::black_box;

/// The seven lists, lent again and again.
struct Lent {
    tags: Vec<u8>,
    numbers: [Vec<u16>; 2],
    ends: [Vec<u32>; 2],
    items: [Vec<u16>; 2],
}

impl Lent {
    fn new() -> Lent {
        let pair = || [vec![0; 4096], vec![0; 4096]];
        Lent { tags: vec![0; 12 * 4096], numbers: pair(), ends: [vec![0; 4096], vec![0; 4096]], items: [vec![0; 65535], vec![0; 65535]] }
    }

    fn lists(&mut self) -> Lists<'_> {
        let ([left_numbers, right_numbers], [left_ends, right_ends]) = (&mut self.numbers, &mut self.ends);
        let [left_items, right_items] = &mut self.items;
        Lists { tags: &mut self.tags, left_numbers, left_ends, left_items, right_numbers, right_ends, right_items }
    }

    fn load(&mut self, file: &[u8]) -> kitfinder::Loaded {
        kitfinder::load(file, self.lists()).expect("the file is in order")
    }

    fn load_pooled(&mut self, [first, second]: &[Vec<u8>; 2]) -> kitfinder::Loaded {
        kitfinder::load_pooled(first, second, self.lists()).expect("the files are in order")
    }

    /// What was loaded, as the peers have it.
    fn loaded(&self, n: &kitfinder::Loaded) -> Loaded {
        let sets = |side: usize, sets: usize, entries: usize| Sets {
            ends: self.ends[side][..sets].to_vec(),
            items: self.items[side][..entries].to_vec(),
        };
        Loaded {
            tags: self.tags.as_chunks::<12>().0[..n.tags].to_vec(),
            numbers: [self.numbers[0][..n.left_sets].to_vec(), self.numbers[1][..n.right_sets].to_vec()],
            sets: [sets(0, n.left_sets, n.left_entries), sets(1, n.right_sets, n.right_entries)],
        }
    }
}

fn loads_same<N: TagNumbers>(loader: &mut Loader<N>, file: &[u8], as_this: &Loaded) {
    for _ in 0..2 {
        loader.load(file).expect("the file is in order");
        assert!(loader.loaded == *as_this, "a peer loads something else");
    }
}

fn load_times(file: &[u8], rounds: usize) -> (Vec<f64>, Loaded) {
    let mut lent = Lent::new();
    let n = lent.load(file);
    let loaded = lent.loaded(&n);
    let (mut hash_map, mut open) = (Loader::<ByHashMap>::default(), Loader::<ByOpenAddressing>::default());
    loads_same(&mut hash_map, file, &loaded);
    loads_same(&mut open, file, &loaded);
    let contestants = vec![
        Contestant::new(|| _ = black_box(lent.load(file))),
        Contestant::new(|| _ = black_box(hash_map.load(file))),
        Contestant::new(|| _ = black_box(open.load(file))),
    ];
    (contest(contestants, rounds), loaded)
}

/// What two loaded files give together: the left sets of the first, the right sets of both.
fn pooled([first, second]: [&Loaded; 2]) -> Loaded {
    let tags_of = |loaded: &Loaded, set: &[u16]| -> BTreeSet<Tag> { set.iter().map(|&item| loaded.tags[item as usize]).collect() };
    let [left, mut right] = [0, 1].map(|side| first.sets[side].iter().map(|set| tags_of(first, set)).collect::<Vec<_>>());
    let mut numbers = first.numbers.clone();
    for (&number, set) in second.numbers[1].iter().zip(second.sets[1].iter()) {
        let place = numbers[1].iter().position(|&known| known == number).unwrap_or_else(|| {
            numbers[1].push(number);
            right.push(BTreeSet::new());
            right.len() - 1
        });
        right[place].extend(tags_of(second, set));
    }
    let tags: BTreeSet<Tag> = left.iter().chain(&right).flatten().copied().collect();
    let tags: Vec<Tag> = tags.into_iter().collect();
    let item = |tag: &Tag| tags.binary_search(tag).expect("a tag of a set is in the table") as u16;
    let sets = [left, right].map(|side| Sets::of(&side.iter().map(|set| set.iter().map(item).collect()).collect::<Vec<_>>()));
    Loaded { tags, numbers, sets }
}

fn pooled_times(files: &[Vec<u8>; 2], rounds: usize) -> Vec<f64> {
    let (mut lent, mut lent_again) = (Lent::new(), Lent::new());
    let [first, second] = [0, 1].map(|k| {
        let n = lent.load(&files[k]);
        lent.loaded(&n)
    });
    for _ in 0..2 {
        let n = lent.load_pooled(files);
        assert!(lent.loaded(&n) == pooled([&first, &second]), "the pooled load gives something else than the two loads");
    }
    let contestants = vec![
        Contestant::new(|| _ = black_box(lent.load_pooled(files))),
        Contestant::new(|| files.iter().for_each(|file| _ = black_box(lent_again.load(file)))),
    ];
    contest(contestants, rounds)
}

fn write_times(from: &Loaded, rounds: usize) -> (Vec<f64>, usize) {
    let mut appended = Vec::new();
    tags::write(from, &mut appended);
    let length = appended.len();
    let (table, [left, right]) = (from.tags.concat(), &from.sets);
    let mut file = vec![0; length];
    let mut write = || {
        let written =
            kitfinder::write(from.tags.len() as u32, &table, &from.numbers[0], left.lent(), &from.numbers[1], right.lent(), &mut file);
        assert_eq!(written, Ok(length), "what was loaded is written");
    };
    write();
    assert!(file == appended, "a peer writes something else");
    let mut write = || {
        black_box(kitfinder::write(
            from.tags.len() as u32,
            &table,
            &from.numbers[0],
            left.lent(),
            &from.numbers[1],
            right.lent(),
            &mut file,
        ))
        .ok();
    };
    let append = || {
        appended.clear();
        tags::write(from, &mut appended);
        black_box(&appended);
    };
    (contest(vec![Contestant::new(&mut write), Contestant::new(append)], rounds), length)
}

pub fn measure(rounds: usize) -> String {
    let pads = [1_000, 65_000, 4_194_304].map(pad_files);
    let heads = |lengths: &[usize]| -> Vec<String> { lengths.iter().map(|n| format!("{n} bytes")).collect() };
    let (loads, loaded): (Vec<Vec<f64>>, Vec<Loaded>) = pads.iter().map(|[file, _]| load_times(file, rounds)).unzip();
    let pools: Vec<Vec<f64>> = pads.iter().map(|files| pooled_times(files, rounds)).collect();
    let (writes, lengths): (Vec<Vec<f64>>, Vec<usize>) = loaded.iter().map(|from| write_times(from, rounds)).unzip();
    let cell = |column: &[f64], k: usize| format!("{} ({:.2})", time(column[k]), column[k] / column[0]);
    let of_files: Vec<usize> = pads.iter().map(|[file, _]| file.len()).collect();
    let of_pads: Vec<String> = pads.iter().map(|[first, second]| format!("{} + {} bytes", first.len(), second.len())).collect();
    let in_two_ways = rows(&["kitfinder, pooled", "kitfinder, one after the other"], &pools, cell);
    table("time of one load (ratio)", &heads(&of_files), &rows(&["kitfinder", "HashMap", "open addressing"], &loads, cell))
        + &table("time of one pooled load (ratio)", &of_pads, &in_two_ways)
        + &table("time of one write (ratio)", &heads(&lengths), &rows(&["kitfinder", "appending"], &writes, cell))
}
