//! The inputs that are measured: eight kinds of join, two more with many tags and few entries, the growth of one kind, waiting screens, and
//! tag files. All follow from their seeds.

use crate::peers::is_within;
use crate::random::Random;
use kitfinder::Collection;
use std::ops::Range;

/// A collection that owns its lists.
#[derive(Clone, Debug, Default, PartialEq)]
pub struct Sets {
    pub ends: Vec<u32>,
    pub items: Vec<u16>,
}

impl Sets {
    pub fn of(sets: &[Vec<u16>]) -> Sets {
        let mut all = Sets::default();
        for set in sets {
            all.items.extend(set);
            all.ends.push(all.items.len() as u32);
        }
        assert!(all.ends.len() <= 4096 && all.items.len() <= 65535, "a workload stays within the limits");
        all
    }

    pub fn lent(&self) -> Collection<'_> {
        Collection { ends: &self.ends, items: &self.items }
    }

    pub fn len(&self) -> usize {
        self.ends.len()
    }

    pub fn is_empty(&self) -> bool {
        self.ends.is_empty()
    }

    pub fn range(&self, k: usize) -> Range<usize> {
        let start = if k == 0 { 0 } else { self.ends[k - 1] };
        start as usize..self.ends[k] as usize
    }

    pub fn set(&self, k: usize) -> &[u16] {
        &self.items[self.range(k)]
    }

    pub fn iter(&self) -> impl Iterator<Item = &[u16]> {
        let mut start = 0;
        self.ends.iter().map(move |&end| {
            let set = &self.items[start..end as usize];
            start = end as usize;
            set
        })
    }
}

pub struct Workload {
    pub name: String,
    pub t: usize,
    pub left: Sets,
    pub right: Sets,
    /// Ranks by rising frequency on both sides, and on the right side alone.
    pub ranks: Vec<u16>,
    pub right_ranks: Vec<u16>,
}

impl Workload {
    fn new(name: &str, t: usize, left: &[Vec<u16>], right: &[Vec<u16>]) -> Workload {
        let (left, right) = (Sets::of(left), Sets::of(right));
        let ranks = ranks_by_frequency(t, left.items.iter().chain(&right.items));
        let right_ranks = ranks_by_frequency(t, right.items.iter());
        Workload { name: name.into(), t, left, right, ranks, right_ranks }
    }
}

/// The rank of each item by rising frequency, ties to the lower item.
fn ranks_by_frequency<'a>(t: usize, items: impl Iterator<Item = &'a u16>) -> Vec<u16> {
    let mut frequency = vec![0u32; t];
    items.for_each(|&item| frequency[item as usize] += 1);
    let mut order: Vec<usize> = (0..t).collect();
    order.sort_by_key(|&item| frequency[item]);
    let mut ranks = vec![0; t];
    order.iter().enumerate().for_each(|(rank, &item)| ranks[item] = rank as u16);
    ranks
}

/// Items by a Zipf law: the item that comes p-th in popularity has weight 1/p^order. Popularity is in no relation to the items' numbers.
struct Zipf {
    by_popularity: Vec<u16>,
    sums: Vec<f64>,
}

impl Zipf {
    fn new(t: usize, order: f64, random: &mut Random) -> Zipf {
        let by_popularity = random.shuffled(t);
        let mut sum = 0.0;
        let weights = (1..=t).map(|p| (p as f64).powf(-order));
        let sums = weights.map(|weight| {
            sum += weight;
            sum
        });
        Zipf { by_popularity, sums: sums.collect() }
    }

    fn item(&self, random: &mut Random) -> u16 {
        let at = random.unit() * self.sums[self.sums.len() - 1];
        self.by_popularity[self.sums.partition_point(|&sum| sum <= at).min(self.sums.len() - 1)]
    }

    /// A set of so many items, some of them given.
    fn set(&self, given: &[u16], length: usize, random: &mut Random) -> Vec<u16> {
        let mut set = given.to_vec();
        while set.len() < length {
            let item = self.item(random);
            if !set.contains(&item) {
                set.push(item);
            }
        }
        set.sort_unstable();
        set
    }

    fn sets(&self, count: usize, lengths: (usize, usize), random: &mut Random) -> Vec<Vec<u16>> {
        let mut set = || {
            let length = random.within(lengths.0, lengths.1);
            self.set(&[], length, random)
        };
        (0..count).map(|_| set()).collect()
    }

    /// Sets of which so many in ten are built around a whole set of `within`, where there is one that is not longer.
    fn around(&self, within: &[Vec<u16>], tenths: usize, count: usize, lengths: (usize, usize), random: &mut Random) -> Vec<Vec<u16>> {
        let mut set = || {
            let length = random.within(lengths.0, lengths.1);
            let chosen = &within[random.below(within.len())];
            let given = if random.below(10) < tenths && chosen.len() <= length { chosen.as_slice() } else { &[] };
            self.set(given, length, random)
        };
        (0..count).map(|_| set()).collect()
    }
}

/// So many items of a list, in rising order.
fn part(of: &[u16], length: usize, random: &mut Random) -> Vec<u16> {
    let mut set = of.to_vec();
    while set.len() > length {
        set.swap_remove(random.below(set.len()));
    }
    set.sort_unstable();
    set
}

struct Kind {
    t: usize,
    zipf: f64,
    left: (usize, (usize, usize)),
    right: (usize, (usize, usize)),
    /// How many right sets in ten are built around a left set.
    around: usize,
}

fn plain(name: &str, seed: u64, kind: &Kind) -> Workload {
    let random = &mut Random(seed);
    let zipf = Zipf::new(kind.t, kind.zipf, random);
    let left = zipf.sets(kind.left.0, kind.left.1, random);
    let right = zipf.around(&left, kind.around, kind.right.0, kind.right.1, random);
    Workload::new(name, kind.t, &left, &right)
}

/// n sets a side over n items.
fn even(name: &str, n: usize) -> Workload {
    plain(name, 3, &Kind { t: n, zipf: 0.5, left: (n, (2, 12)), right: (n, (8, 20)), around: 5 })
}

/// Half of the left sets are parts of a right set.
fn long() -> Workload {
    let random = &mut Random(6);
    let zipf = Zipf::new(1000, 0.5, random);
    let right = zipf.sets(250, (100, 255), random);
    let mut left = zipf.sets(250, (100, 255), random);
    for set in left.iter_mut().step_by(2) {
        let whole = &right[random.below(right.len())];
        *set = part(whole, random.within(100, whole.len()), random);
    }
    Workload::new("long sets", 1000, &left, &right)
}

/// 64 left sets, each many times.
fn equal() -> Workload {
    let random = &mut Random(7);
    let zipf = Zipf::new(1000, 0.5, random);
    let distinct = zipf.sets(64, (2, 12), random);
    let left: Vec<Vec<u16>> = (0..4096).map(|_| distinct[random.below(64)].clone()).collect();
    let right = zipf.around(&distinct, 5, 4096, (8, 20), random);
    Workload::new("equal kits", 1000, &left, &right)
}

/// Left sets that share long prefixes of rare items: one of 16 cores of 48 items, and a few of 40 common ones. A right set has a core, or
/// in three of ten cases all of it but one item, most of the common items and some others.
fn deep() -> Workload {
    let random = &mut Random(8);
    let items = random.shuffled(1200);
    let (common, rare) = items.split_at(40);
    let (cores, others) = rare.split_at(16 * 48);
    let cores: Vec<&[u16]> = cores.chunks(48).collect();
    let with = |mut set: Vec<u16>, more: &[Vec<u16>]| {
        more.iter().for_each(|items| set.extend(items));
        set.sort_unstable();
        set
    };
    let left: Vec<Vec<u16>> = (0..1000)
        .map(|k| {
            let length = random.within(1, 8);
            with(cores[k % 16].to_vec(), &[part(common, length, random)])
        })
        .collect();
    let right: Vec<Vec<u16>> = (0..600)
        .map(|_| {
            let length = if random.below(10) < 7 { 48 } else { 47 };
            let core = part(cores[random.below(16)], length, random);
            let (many, few) = (random.within(24, 38), random.within(2, 10));
            with(core, &[part(common, many, random), part(others, few, random)])
        })
        .collect();
    Workload::new("deep prefixes", 1200, &left, &right)
}

/// The kind whose growth is measured.
pub const FULL: &str = "full";

/// The eight kinds.
pub fn kinds() -> Vec<Workload> {
    vec![
        plain("kiosk", 1, &Kind { t: 300, zipf: 0.5, left: (30, (2, 12)), right: (1, (16, 16)), around: 10 }),
        plain("library", 2, &Kind { t: 1500, zipf: 0.5, left: (300, (2, 12)), right: (500, (1, 30)), around: 5 }),
        even(FULL, 4096),
        plain("skewed", 4, &Kind { t: 4096, zipf: 1.0, left: (4096, (2, 12)), right: (4096, (8, 20)), around: 5 }),
        plain("dense output", 5, &Kind { t: 64, zipf: 0.5, left: (4096, (1, 2)), right: (4096, (8, 20)), around: 0 }),
        long(),
        equal(),
        deep(),
    ]
}

/// Sets of one or two of the most popular 64 of many items: every item that is held at all is held by many.
fn popular() -> Workload {
    let random = &mut Random(10);
    let popular: Vec<u16> = random.shuffled(4096)[..64].to_vec();
    let right: Vec<Vec<u16>> = (0..4096).map(|_| part(&popular, 1, random)).collect();
    let left: Vec<Vec<u16>> = (0..4096).map(|_| part(&popular, 2, random)).collect();
    Workload::new("popular", 4096, &left, &right)
}

/// Two kinds with so few entries for their tags and stacks that a bit for each tag and stack does not fit a work list of 16n + 64 words.
pub fn thin_kinds() -> Vec<Workload> {
    vec![plain("sparse", 9, &Kind { t: 4096, zipf: 0.5, left: (1000, (1, 6)), right: (4096, (1, 6)), around: 5 }), popular()]
}

/// A small join with empty sets, equal sets, few items, and at times nothing on a side; not measured, only compared.
pub fn small(seed: u64) -> Workload {
    let random = &mut Random(seed);
    let t = random.within(1, 40);
    let zipf = Zipf::new(t, 0.5, random);
    let (lefts, rights) =
        (random.below(40), [random.below(3), random.below(70), random.below(300), 1100 + random.below(200)][random.below(4)]);
    let mut left = zipf.sets(lefts, (0, t.min(6)), random);
    left.extend_from_within(..lefts / 4);
    let right = zipf.sets(rights, (0, t.min(20)), random);
    Workload::new(&format!("random join {seed}"), t, &left, &right)
}

/// The kind `FULL` with fewer sets.
pub fn growth() -> Vec<Workload> {
    [256, 512, 1024, 2048].iter().map(|&n| even(&n.to_string(), n)).collect()
}

/// A waiting screen: left sets, and right sets that come one by one. Where a right set is built around a left one, the first that it has
/// whole is in their last third; any other has none.
fn screen(name: &str, seed: u64, kind: &Kind) -> Workload {
    let random = &mut Random(seed);
    let zipf = Zipf::new(kind.t, kind.zipf, random);
    let left = zipf.sets(kind.left.0, kind.left.1, random);
    let late = left.len() * 2 / 3;
    let mut right = || loop {
        let is_around = random.below(10) < kind.around;
        let given = if is_around { left[random.within(late, left.len() - 1)].as_slice() } else { &[] };
        let set = zipf.set(given, random.within(kind.right.1 .0, kind.right.1 .1), random);
        let first = left.iter().position(|left| is_within(left, &set));
        if first.is_some() == is_around && first.is_none_or(|k| k >= late) {
            break set;
        }
    };
    let right: Vec<Vec<u16>> = (0..kind.right.0).map(|_| right()).collect();
    Workload::new(name, kind.t, &left, &right)
}

/// The waiting screens: that of a kiosk, half of whose stacks have a whole kit, and those of a full library whose stacks have none. The
/// kiosk has so many stacks because a processor remembers the jumps of some hundred of them.
pub fn screens() -> Vec<Workload> {
    let full = |length: usize| Kind { t: 4096, zipf: 0.5, left: (4096, (2, 12)), right: (64, (length, length)), around: 0 };
    vec![
        screen("30 kits, 16 tags", 12, &Kind { t: 300, zipf: 0.5, left: (30, (2, 12)), right: (4095, (16, 16)), around: 5 }),
        screen("4096 kits, 16 tags", 13, &full(16)),
        screen("4096 kits, 255 tags", 14, &full(255)),
    ]
}

/// The tag files of two pads over the same tags. The first has about so many bytes, and four records in ten are left sets; the second has right
/// sets alone, about as many and nearly all of numbers that the first has. A record has a few distinct tags, and in a large file each is
/// read many times over.
pub fn pad_files(bytes: usize) -> [Vec<u8>; 2] {
    let random = &mut Random(11);
    let tags = (bytes / 48).clamp(8, 4000);
    let serials: Vec<[u8; 12]> = (0..tags)
        .map(|_| {
            let [a, b, c, d, e, f, g, h] = random.word().to_be_bytes();
            [0x30, 0x34, 0, random.below(8) as u8, a, b, c, d, e, f, g, h]
        })
        .collect();
    let zipf = Zipf::new(tags, 0.5, random);
    let mut numbers = [0u16; 2];
    [0, 1].map(|pad| {
        numbers[1] = 0;
        let mut file = Vec::new();
        while file.len() < if pad == 0 { bytes } else { bytes * 3 / 5 } {
            let side = usize::from(pad == 1 || random.below(10) >= 4);
            let distinct = if side == 0 { random.within(2, 12) } else { random.within(4, 20) }.min(tags);
            let reads = if bytes > 1_000_000 { random.within(60, 120) } else { distinct + random.below(4) };
            let set = zipf.set(&[], distinct, random);
            file.extend([b"KT", b"SK"][side]);
            file.extend(numbers[side].to_be_bytes());
            numbers[side] += 1;
            file.push(reads as u8);
            for read in 0..reads {
                let item = if read < distinct { set[read] } else { set[random.below(distinct)] };
                file.extend(serials[item as usize]);
            }
        }
        file
    })
}
