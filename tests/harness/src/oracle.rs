//! The nested-loop oracle: document 01 and the landed requests of document 02 in plain Rust, sentence by sentence. It shares no code
//! with the library and takes no short cut: the walk goes down a tree of lists of left sets, and every count is counted where the
//! document says so.

use std::collections::{BTreeSet, HashMap, HashSet};

/// A collection as it is lent.
#[derive(Clone, Debug, Default, PartialEq)]
pub struct Collection {
    pub ends: Vec<u32>,
    pub items: Vec<u16>,
}

impl Collection {
    pub fn of(sets: &[Vec<u16>]) -> Collection {
        let mut collection = Collection::default();
        for set in sets {
            collection.items.extend(set);
            collection.ends.push(collection.items.len() as u32);
        }
        collection
    }

    pub fn sets(&self) -> Vec<Vec<u16>> {
        let mut start = 0;
        let mut sets = Vec::new();
        for &end in &self.ends {
            sets.push(self.items[start..end as usize].to_vec());
            start = end as usize;
        }
        sets
    }

    /// The first bad set over t items.
    pub fn first_bad(&self, t: u32) -> Option<usize> {
        let mut start = 0;
        for (k, &end) in self.ends.iter().enumerate() {
            if k >= 4096 || end < start || end > 65535 || end as usize > self.items.len() {
                return Some(k);
            }
            if has_bad_items(t, &self.items[start as usize..end as usize]) {
                return Some(k);
            }
            start = end;
        }
        None
    }

    pub fn entries(&self) -> usize {
        self.ends.last().map_or(0, |&end| end as usize)
    }
}

/// Whether the items of a set make it bad: over 255 of them, one of t or more, or items that don't rise. A lone stack has no other fault.
pub fn has_bad_items(t: u32, set: &[u16]) -> bool {
    set.len() > 255 || set.iter().any(|&i| u32::from(i) >= t) || set.windows(2).any(|w| w[0] >= w[1])
}

/// When a kit is contained in a stack: it has at least one item, and the stack has every item of it. Items may be tags themselves.
pub fn is_contained<T>(kit: &[T], stack_has: impl Fn(&T) -> bool) -> bool {
    !kit.is_empty() && kit.iter().all(stack_has)
}

#[derive(Clone, Copy, Debug, PartialEq)]
pub enum Rule {
    Merge,
    Check,
    Weighed { a: f64, b: f64, g: f64, h: f64 },
}

impl Rule {
    pub fn goes_on(self, c: usize, t: usize, m: usize) -> bool {
        match self {
            Rule::Merge => true,
            Rule::Check => false,
            Rule::Weighed { a, b, g, h } => {
                let ac = a * c as f64;
                let bt = b * t as f64;
                let sum = ac + bt;
                let left = sum + g;
                let right = h * (c * m) as f64;
                left < right
            }
        }
    }
}

/// What a join is asked, with the lengths of the two lists that are lent.
#[derive(Clone, Debug)]
pub struct Query {
    pub t: u32,
    pub left: Collection,
    pub right: Collection,
    pub limit: u32,
    pub ranks: Vec<u16>,
    pub budget: u32,
    pub rule: Rule,
    pub work: usize,
    pub places: usize,
}

#[derive(Clone, Copy, Debug, Default, PartialEq)]
pub struct Counts {
    pub pairs: u64,
    pub by_path: u64,
    pub confirmed: u64,
    pub checks: u64,
    pub dropped: u64,
    pub false_drops: u64,
}

/// A refusal: its number and the two words that are returned with it.
#[derive(Clone, Copy, Debug, PartialEq)]
pub struct Refusal(pub u64, pub u64, pub u64);

/// What a node's decision saw.
#[derive(Clone, Copy, Debug, PartialEq)]
pub struct Node {
    pub c: usize,
    pub t: usize,
    pub m: usize,
}

/// A whole walk: its counts, the pairs, and every node that was decided.
#[derive(Clone, Debug, Default)]
pub struct Walked {
    pub counts: Counts,
    pub pairs: Vec<u16>,
    pub nodes: Vec<Node>,
}

/// A set of items as bits, to ask for one quickly.
struct Bits([u64; 64]);

impl Bits {
    fn of(set: &[u16]) -> Bits {
        let mut bits = [0; 64];
        for &i in set {
            bits[i as usize / 64] |= 1 << (i % 64);
        }
        Bits(bits)
    }

    fn has(&self, item: u16) -> bool {
        self.0[item as usize / 64] >> (item % 64) & 1 == 1
    }
}

/// The bit of each item: (3^k mod 257) mod 64.
pub fn positions(t: u32) -> Vec<u32> {
    let powers = std::iter::successors(Some(1u32), |power| Some(power * 3 % 257));
    powers.take(t as usize).map(|power| power % 64).collect()
}

fn mark(set: &[u16], positions: &[u32]) -> u64 {
    set.iter().fold(0, |mark, &i| mark | 1 << positions[i as usize])
}

struct Walk<'a> {
    left: Vec<Vec<u16>>,
    left_marks: Vec<u64>,
    right: Vec<Bits>,
    right_marks: Vec<u64>,
    rule: Rule,
    limit: usize,
    ranks: &'a [u16],
    walked: Walked,
}

impl Walk<'_> {
    fn contained(&self, k: usize, s: usize) -> bool {
        is_contained(&self.left[k], |&i| self.right[s].has(i))
    }

    fn check(&mut self, k: usize, s: usize) {
        self.walked.counts.checks += 1;
        if self.left_marks[k] & !self.right_marks[s] != 0 {
            self.walked.counts.dropped += 1;
        } else if self.contained(k, s) {
            self.walked.counts.confirmed += 1;
        } else {
            self.walked.counts.false_drops += 1;
        }
    }

    /// The node of a path of this depth: `below` begin with the path, `before` are the seen right sets that hold all of it but
    /// its last item.
    fn node(&mut self, depth: usize, seen: &[usize], before: &[usize], below: &[usize]) {
        let last = self.left[below[0]][depth - 1];
        let t = seen.iter().filter(|&&s| self.right[s].has(last)).count();
        let node = Node { c: before.len(), t, m: below.len() };
        self.walked.nodes.push(node);
        if !self.rule.goes_on(node.c, node.t, node.m) {
            for &k in below {
                for &s in before {
                    self.check(k, s);
                }
            }
            return;
        }
        let candidates: Vec<usize> = before.iter().copied().filter(|&s| self.right[s].has(last)).collect();
        let (ended, longer): (Vec<usize>, Vec<usize>) = below.iter().partition(|&&k| self.left[k].len() == depth);
        self.walked.counts.by_path += (ended.len() * candidates.len()) as u64;
        if depth == self.limit {
            for &k in &longer {
                for &s in &candidates {
                    self.check(k, s);
                }
            }
            return;
        }
        for child in self.split(depth, longer) {
            self.node(depth + 1, seen, &candidates, &child);
        }
    }

    /// Left sets by their item at a depth, in the order of its rank.
    fn split(&self, depth: usize, mut sets: Vec<usize>) -> Vec<Vec<usize>> {
        sets.sort_by_key(|&k| self.ranks[self.left[k][depth] as usize]);
        sets.chunk_by(|&j, &k| self.left[j][depth] == self.left[k][depth]).map(|run| run.to_vec()).collect()
    }
}

/// The whole walk of accepted collections and settings, whatever the budget.
pub fn walk(q: &Query) -> Walked {
    let positions = positions(q.t);
    let ordered = |mut set: Vec<u16>| {
        set.sort_by_key(|&i| q.ranks[i as usize]);
        set
    };
    let left: Vec<Vec<u16>> = q.left.sets().into_iter().map(ordered).collect();
    let right: Vec<Vec<u16>> = q.right.sets().into_iter().map(ordered).collect();
    let mut walk = Walk {
        left_marks: left.iter().map(|set| mark(set, &positions)).collect(),
        right_marks: right.iter().map(|set| mark(set, &positions)).collect(),
        right: right.iter().map(|set| Bits::of(set)).collect(),
        left,
        rule: q.rule,
        limit: q.limit as usize,
        ranks: &q.ranks,
        walked: Walked::default(),
    };
    for k in 0..walk.left.len() {
        for s in 0..right.len() {
            if walk.contained(k, s) {
                walk.walked.counts.pairs += 1;
                walk.walked.pairs.extend([k as u16, s as u16]);
            }
        }
    }
    // a left set without a first item is in no partition, so that nothing of the walk meets it
    let split: Vec<usize> = (0..walk.left.len()).filter(|&k| !walk.left[k].is_empty()).collect();
    for partition in walk.split(0, split) {
        let first = q.ranks[walk.left[partition[0]][0] as usize];
        let is_seen = |s: &usize| right[*s].first().is_some_and(|&i| q.ranks[i as usize] <= first);
        let seen: Vec<usize> = (0..right.len()).filter(is_seen).collect();
        walk.node(1, &seen, &seen, &partition);
    }
    let c = walk.walked.counts;
    assert_eq!(c.pairs, c.by_path + c.confirmed, "the oracle's pairs come by path or are confirmed");
    assert_eq!(c.checks, c.dropped + c.false_drops + c.confirmed, "the oracle's checks end in one of three ways");
    walk.walked
}

pub fn is_permutation(t: u32, ranks: &[u16]) -> bool {
    let mut sorted = ranks.to_vec();
    sorted.sort_unstable();
    sorted.len() == t as usize && sorted.iter().enumerate().all(|(i, &r)| i == r as usize)
}

/// The words that a work list must have.
pub fn work_words(q: &Query) -> usize {
    16 * (q.left.ends.len() + q.right.ends.len() + q.left.entries() + q.right.entries() + q.t as usize) + 64
}

/// The first bad set of two collections, the left one first.
fn bad_set(t: u32, left: &Collection, right: &Collection) -> Option<Refusal> {
    if let Some(k) = left.first_bad(t) {
        return Some(Refusal(5, 0, k as u64));
    }
    right.first_bad(t).map(|k| Refusal(5, 1, k as u64))
}

/// What comes before the walk: 6, 5 left, 5 right, 7.
pub fn join_refusal(q: &Query) -> Option<Refusal> {
    if q.t > 4096 || q.limit == 0 || q.limit > 255 || !is_permutation(q.t, &q.ranks) {
        return Some(Refusal(6, 0, 0));
    }
    if let Some(refusal) = bad_set(q.t, &q.left, &q.right) {
        return Some(refusal);
    }
    (q.work < work_words(q)).then_some(Refusal(7, 0, 0))
}

/// What the walk itself refuses: 8, then 9.
pub fn walk_refusal(q: &Query, counts: &Counts) -> Option<Refusal> {
    if counts.checks > q.budget as u64 {
        return Some(Refusal(8, 0, 0));
    }
    ((q.places as u64) < 2 * counts.pairs).then_some(Refusal(9, 0, 0))
}

/// What the search for the first kit is asked: the kits, and one stack as its items.
#[derive(Clone, Debug, PartialEq)]
pub struct FirstQuery {
    pub t: u32,
    pub left: Collection,
    pub right: Vec<u16>,
}

/// What comes before the search: 6, 5 of the kits, 5 of the stack.
pub fn first_refusal(q: &FirstQuery) -> Option<Refusal> {
    if q.t > 4096 {
        return Some(Refusal(6, 0, 0));
    }
    if let Some(k) = q.left.first_bad(q.t) {
        return Some(Refusal(5, 0, k as u64));
    }
    has_bad_items(q.t, &q.right).then_some(Refusal(5, 1, 0))
}

/// The places of all kits that the stack contains, of an accepted query.
pub fn contained_kits(q: &FirstQuery) -> Vec<usize> {
    let stack: HashSet<u16> = q.right.iter().copied().collect();
    let contained = |kit: &[u16]| is_contained(kit, |item| stack.contains(item));
    q.left.sets().iter().enumerate().filter(|(_, kit)| contained(kit)).map(|(k, _)| k).collect()
}

/// How many kits are compared, where the lowest place is known: up to it, or all. The empty ones count.
pub fn compared(q: &FirstQuery, lowest: Option<usize>) -> usize {
    lowest.map_or(q.left.ends.len(), |place| place + 1)
}

/// What the order of items is asked, with the length of the list that is lent.
#[derive(Clone, Debug)]
pub struct OrderQuery {
    pub t: u32,
    pub left: Collection,
    pub right: Collection,
    pub falling: bool,
    pub places: usize,
}

/// The rank of each item by frequency, ties to the lower item.
pub fn ranks_by_frequency(t: u32, left: &Collection, right: &Collection, falling: bool) -> Vec<u16> {
    let sets: Vec<Vec<u16>> = left.sets().into_iter().chain(right.sets()).collect();
    let frequency = |i: u16| sets.iter().filter(|set| set.contains(&i)).count() as i64;
    let key: Vec<i64> = (0..t as u16).map(|i| if falling { -frequency(i) } else { frequency(i) }).collect();
    let comes_before = |j: usize, i: usize| key[j] < key[i] || key[j] == key[i] && j < i;
    (0..t as usize).map(|i| (0..t as usize).filter(|&j| comes_before(j, i)).count() as u16).collect()
}

pub fn order_refusal(q: &OrderQuery) -> Option<Refusal> {
    if q.t > 4096 || q.places != q.t as usize {
        return Some(Refusal(6, 0, 0));
    }
    bad_set(q.t, &q.left, &q.right)
}

/// A tag, compared as unsigned bytes.
pub type Tag = [u8; 12];

/// The tags that these bytes are.
pub fn tags_of(bytes: &[u8]) -> Vec<Tag> {
    bytes.chunks(12).map(|tag| tag.try_into().expect("12 bytes")).collect()
}

/// How many reads of a record were repeats: its count less its distinct tags.
pub fn repeats_of(tags: &[Tag]) -> usize {
    let distinct: HashSet<&Tag> = tags.iter().collect();
    tags.len() - distinct.len()
}

/// What a place of a tag file has: a record, its end, or a fault.
#[derive(Clone, Copy, Debug, PartialEq)]
pub enum Read {
    Record { right: bool, number: u16, count: usize, tags: usize, next: usize, repeats: usize },
    NoMore,
    Fault,
}

pub fn read_record(file: &[u8], at: usize) -> Read {
    if at == file.len() {
        return Read::NoMore;
    }
    let Some(rest) = file.get(at..) else { return Read::Fault };
    let [mark_a, mark_b, high, low, count, ..] = *rest else { return Read::Fault };
    let right = match (mark_a, mark_b) {
        (0x4B, 0x54) => false,
        (0x53, 0x4B) => true,
        _ => return Read::Fault,
    };
    let count = count as usize;
    let next = at + 5 + 12 * count;
    if next > file.len() {
        return Read::Fault;
    }
    let repeats = repeats_of(&tags_of(&file[at + 5..next]));
    Read::Record { right, number: u16::from_be_bytes([high, low]), count, tags: at + 5, next, repeats }
}

/// One side of a tag file: the record numbers and each record's distinct tags, rising.
#[derive(Clone, Debug, Default, PartialEq)]
pub struct LoadedSide {
    pub numbers: Vec<u16>,
    pub sets: Vec<Vec<Tag>>,
}

/// What a tag file holds, and how many reads of its kits and of its stacks were repeats.
#[derive(Clone, Debug, Default, PartialEq)]
pub struct LoadedFile {
    pub tags: Vec<Tag>,
    pub sides: [LoadedSide; 2],
    pub repeats: [usize; 2],
}

impl LoadedFile {
    /// The same once it was written: no record has a tag twice.
    pub fn without_repeats(&self) -> LoadedFile {
        LoadedFile { repeats: [0; 2], ..self.clone() }
    }

    /// A side as a collection over the tag table.
    pub fn collection(&self, side: usize) -> Collection {
        let item = |tag: &Tag| self.tags.binary_search(tag).expect("a tag of a set is in the table") as u16;
        let sets: Vec<Vec<u16>> = self.sides[side].sets.iter().map(|set| set.iter().map(item).collect()).collect();
        Collection::of(&sets)
    }

    /// Kit number and stack number of every pair of records whose kit is contained in the stack, by their tags, in the order of the list.
    pub fn whole_kits(&self) -> Vec<(u16, u16)> {
        let [kits, stacks] = &self.sides;
        let whole = |k: usize, s: usize| is_contained(&kits.sets[k], |tag| stacks.sets[s].contains(tag));
        let places = (0..kits.sets.len()).flat_map(|k| (0..stacks.sets.len()).map(move |s| (k, s)));
        places.filter(|&(k, s)| whole(k, s)).map(|(k, s)| (kits.numbers[k], stacks.numbers[s])).collect()
    }
}

/// Loads a file, or gives the refusal of its first record at fault.
pub fn load(file: &[u8]) -> Result<LoadedFile, Refusal> {
    let mut tags = BTreeSet::new();
    let mut loaded = LoadedFile::default();
    let mut entries = [0, 0];
    let mut at = 0;
    loop {
        let (side, number, first, next, repeats) = match read_record(file, at) {
            Read::NoMore => break,
            Read::Fault => return Err(Refusal(1, at as u64, 0)),
            Read::Record { right, number, tags, next, repeats, .. } => (right as usize, number, tags, next, repeats),
        };
        if loaded.sides[side].numbers.contains(&number) {
            return Err(Refusal(2, at as u64, 0));
        }
        let mut set = tags_of(&file[first..next]);
        set.sort_unstable();
        set.dedup();
        tags.extend(set.iter().copied());
        entries[side] += set.len();
        loaded.sides[side].numbers.push(number);
        loaded.sides[side].sets.push(set);
        loaded.repeats[side] += repeats;
        if loaded.sides[side].sets.len() > 4096 || entries[side] > 65535 || tags.len() > 4096 {
            return Err(Refusal(3, at as u64, 0));
        }
        at = next;
    }
    loaded.tags = tags.into_iter().collect();
    Ok(loaded)
}

/// Why a record of the second file can't be pooled. 3 has its three limits apart.
#[derive(Clone, Copy, Debug, PartialEq)]
pub enum Cause {
    Malformed,
    NumberUsed,
    Sets,
    Entries,
    Tags,
    Overlong,
}

impl Cause {
    pub fn number(self) -> u64 {
        match self {
            Cause::Malformed => 1,
            Cause::NumberUsed => 2,
            Cause::Sets | Cause::Entries | Cause::Tags => 3,
            Cause::Overlong => 10,
        }
    }
}

/// What two files hold together, and every cause in the second with the byte place of its record, by record and then by number.
#[derive(Clone, Debug, Default, PartialEq)]
pub struct Pooled {
    pub loaded: LoadedFile,
    pub causes: Vec<(u64, Cause)>,
}

impl Pooled {
    /// The cause that decides, where a lent list is too short or none is: the first of the loader's own by record, then 4, then 10.
    pub fn refusal(&self, short: bool) -> Option<Refusal> {
        let first = |is: fn(u64) -> bool| self.causes.iter().find(|(_, cause)| is(cause.number()));
        let refusal = |&(place, cause): &(u64, Cause)| Refusal(cause.number(), place, 0);
        let own = first(|number| number <= 3).map(refusal);
        own.or(short.then_some(Refusal(4, 0, 0))).or(first(|number| number == 10).map(refusal))
    }
}

/// Pools two files, or gives the refusal of the first file. Stacks are sets of tags by number. A record of the second file whose number
/// was used there adds nothing. Repeats are those of each record by itself; the second file's kits add none.
pub fn pool(first: &[u8], second: &[u8]) -> Result<Pooled, Refusal> {
    let mut loaded = load(first)?;
    let [kits, stacks] = &loaded.sides;
    let mut places = stacks.numbers.clone();
    let mut sets: HashMap<u16, BTreeSet<Tag>> =
        stacks.numbers.iter().copied().zip(stacks.sets.iter().map(|set| set.iter().copied().collect())).collect();
    let mut entries: usize = sets.values().map(BTreeSet::len).sum();
    let mut tags: BTreeSet<Tag> = kits.sets.iter().chain(&stacks.sets).flatten().copied().collect();
    let mut met = HashSet::new();
    let mut causes = Vec::new();
    let mut at = 0;
    loop {
        let place = (first.len() + at) as u64;
        let (number, read, repeats) = match read_record(second, at) {
            Read::NoMore => break,
            Read::Fault => {
                causes.push((place, Cause::Malformed));
                break;
            }
            Read::Record { right: false, next, .. } => {
                at = next;
                continue;
            }
            Read::Record { right: true, number, tags, next, repeats, .. } => {
                at = next;
                (number, BTreeSet::from_iter(tags_of(&second[tags..next])), repeats)
            }
        };
        let used = !met.insert(number);
        let known = sets.get(&number).cloned().unwrap_or_default();
        let union: BTreeSet<Tag> = known.union(&read).copied().collect();
        let is = [
            (used, Cause::NumberUsed),
            (sets.len() + usize::from(!sets.contains_key(&number)) > 4096, Cause::Sets),
            (entries - known.len() + union.len() > 65535, Cause::Entries),
            (tags.len() + read.difference(&tags).count() > 4096, Cause::Tags),
            (union.len() > 255, Cause::Overlong),
        ];
        causes.extend(is.iter().filter(|(is, _)| *is).map(|&(_, cause)| (place, cause)));
        if used {
            continue;
        }
        if !places.contains(&number) {
            places.push(number);
        }
        entries += union.len() - known.len();
        tags.extend(read);
        sets.insert(number, union);
        loaded.repeats[1] += repeats;
    }
    loaded.tags = tags.into_iter().collect();
    loaded.sides[1].sets = places.iter().map(|number| sets[number].iter().copied().collect()).collect();
    loaded.sides[1].numbers = places;
    Ok(Pooled { loaded, causes })
}

/// What the writer is asked, with the length of the list that is lent.
#[derive(Clone, Debug)]
pub struct WriteQuery {
    pub t: u32,
    pub tags: Vec<u8>,
    pub left_numbers: Vec<u16>,
    pub left: Collection,
    pub right_numbers: Vec<u16>,
    pub right: Collection,
    pub room: usize,
}

/// The file that is written, without regard to the room for it.
pub fn written(q: &WriteQuery) -> Vec<u8> {
    let mut file = Vec::new();
    for (mark, numbers, side) in [(*b"KT", &q.left_numbers, &q.left), (*b"SK", &q.right_numbers, &q.right)] {
        for (number, set) in numbers.iter().zip(side.sets()) {
            file.extend(mark);
            file.extend(number.to_be_bytes());
            file.push(set.len() as u8);
            for i in set {
                file.extend(&q.tags[12 * i as usize..12 * i as usize + 12]);
            }
        }
    }
    file
}

pub fn write_refusal(q: &WriteQuery) -> Option<Refusal> {
    if q.t > 4096 || q.tags.len() != 12 * q.t as usize {
        return Some(Refusal(6, 0, 0));
    }
    for (number, collection, numbers) in [(0, &q.left, &q.left_numbers), (1, &q.right, &q.right_numbers)] {
        if let Some(k) = collection.first_bad(q.t) {
            return Some(Refusal(5, number, k as u64));
        }
        if numbers.len() != collection.ends.len() {
            return Some(Refusal(5, number, numbers.len().min(collection.ends.len()) as u64));
        }
    }
    (q.room < written(q).len()).then_some(Refusal(4, 0, 0))
}
