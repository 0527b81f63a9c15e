//! Lists that are owned: a collection under construction, a loaded tag file, and the result of a join.

use crate::{
    file_bytes, first, join, load, load_pooled, order, pair_places, pairs, work_words, write, Collection, Counts, Lists, Loaded, Query,
    Refusal, Rule, MAX_ENTRIES, MAX_ITEMS, MAX_SETS, RECORD_HEAD_BYTES, TAG_BYTES,
};

/// A collection that is built set by set.
///
/// ```
/// use kitfinder::Sets;
/// let mut kits = Sets::new();
/// kits.push([5, 0, 5]);
/// kits.push([]);
/// assert_eq!(kits.collection().ends, [2, 2]);
/// assert_eq!(kits.collection().items, [0, 5]);
///
/// let stacks: Sets = [vec![0, 1, 5], vec![5]].into_iter().collect();
/// assert_eq!(stacks.len(), 2);
/// assert_eq!(stacks.get(0), Some(&[0, 1, 5][..]));
/// assert!(stacks.iter().map(<[u16]>::len).eq([3, 1]));
/// ```
#[derive(Clone, Debug, Default, PartialEq, Eq)]
pub struct Sets {
    ends: Vec<u32>,
    items: Vec<u16>,
}

impl Sets {
    /// No sets.
    pub fn new() -> Sets {
        Sets::default()
    }

    /// One set more, of items in any order; a repeated item counts once. What passes a limit is for the join to refuse.
    pub fn push(&mut self, items: impl IntoIterator<Item = u16>) {
        let start = self.items.len();
        self.items.extend(items);
        self.items[start..].sort_unstable();
        let mut kept = start;
        for i in start..self.items.len() {
            if kept == start || self.items[kept - 1] != self.items[i] {
                self.items[kept] = self.items[i];
                kept += 1;
            }
        }
        self.items.truncate(kept);
        self.ends.push(u32::try_from(kept).unwrap_or(u32::MAX));
    }

    /// How many sets there are.
    pub fn len(&self) -> usize {
        self.ends.len()
    }

    /// Whether there is no set.
    pub fn is_empty(&self) -> bool {
        self.ends.is_empty()
    }

    /// The items of the set at a place.
    pub fn get(&self, place: usize) -> Option<&[u16]> {
        let end = *self.ends.get(place)? as usize;
        let start = place.checked_sub(1).map_or(0, |before| self.ends[before] as usize);
        self.items.get(start..end)
    }

    /// The items of each set, by place.
    pub fn iter(&self) -> impl ExactSizeIterator<Item = &[u16]> + DoubleEndedIterator + Clone {
        (0..self.len()).map(|place| self.get(place).unwrap_or_default())
    }

    /// The sets as a join takes them.
    pub fn collection(&self) -> Collection<'_> {
        Collection { ends: &self.ends, items: &self.items }
    }
}

impl<S: IntoIterator<Item = u16>> Extend<S> for Sets {
    fn extend<I: IntoIterator<Item = S>>(&mut self, sets: I) {
        sets.into_iter().for_each(|set| self.push(set));
    }
}

impl<S: IntoIterator<Item = u16>> FromIterator<S> for Sets {
    fn from_iter<I: IntoIterator<Item = S>>(sets: I) -> Sets {
        let mut all = Sets::new();
        all.extend(sets);
        all
    }
}

/// What a join found: its counts and its pair list.
#[derive(Clone, Debug, PartialEq, Eq)]
pub struct Joined {
    counts: Counts,
    list: Vec<u16>,
}

impl Joined {
    /// The counts.
    pub fn counts(&self) -> Counts {
        self.counts
    }

    /// The pairs, each the place of a kit and of a stack that contains it, rising by kit, then stack.
    pub fn pairs(&self) -> impl ExactSizeIterator<Item = (usize, usize)> + DoubleEndedIterator + Clone + '_ {
        pairs(&self.list)
    }

    /// The places of the stacks that contain the kit at a place, rising. It is found by halving.
    ///
    /// ```
    /// use kitfinder::{Query, Rule, Sets};
    /// let kits: Sets = [vec![0], vec![], vec![0, 1]].into_iter().collect();
    /// let stacks: Sets = [vec![0, 1], vec![0]].into_iter().collect();
    /// let (left, right) = (kits.collection(), stacks.collection());
    /// let found = Query { t: 2, left, right, limit: 2, ranks: &[0, 1], budget: u32::MAX, rule: Rule::Merge }.run()?;
    /// assert!(found.stacks_of(0).eq([0, 1]));
    /// assert!(found.stacks_of(1).eq([]));
    /// assert!(found.kits_of(0).eq([0, 2]));
    /// assert!(found.kits_of(1).eq([0]));
    /// # Ok::<(), kitfinder::Refusal>(())
    /// ```
    pub fn stacks_of(&self, kit: usize) -> impl ExactSizeIterator<Item = usize> + DoubleEndedIterator + Clone + '_ {
        let (all, _) = self.list.as_chunks::<2>();
        let start = all.partition_point(|pair| usize::from(pair[0]) < kit);
        let length = all[start..].partition_point(|pair| usize::from(pair[0]) == kit);
        all[start..start + length].iter().map(|pair| usize::from(pair[1]))
    }

    /// The places of the kits that the stack at a place contains, rising. The whole list is gone through.
    pub fn kits_of(&self, stack: usize) -> impl DoubleEndedIterator<Item = usize> + Clone + '_ {
        self.pairs().filter(move |pair| pair.1 == stack).map(|pair| pair.0)
    }
}

impl Query<'_> {
    /// Joins with lists of its own: a work list of [`work_words`] and a pair list that always suffices.
    ///
    /// ```
    /// use kitfinder::{Query, Rule, Sets};
    /// let kits: Sets = [[0, 1], [1, 2]].into_iter().collect();
    /// let stacks: Sets = [[1, 2, 3]].into_iter().collect();
    /// let (left, right) = (kits.collection(), stacks.collection());
    /// let query = Query { t: 4, left, right, limit: 2, ranks: &[0, 1, 2, 3], budget: u32::MAX, rule: Rule::Merge };
    /// assert!(query.run()?.pairs().eq([(1, 0)]));
    /// # Ok::<(), kitfinder::Refusal>(())
    /// ```
    pub fn run(&self) -> Result<Joined, Refusal> {
        let mut work = vec![0; work_words(self.t, self.left, self.right)];
        let mut list = vec![0; pair_places(self.left, self.right)];
        let counts = join(self, &mut work, &mut list)?;
        list.truncate(2 * counts.pairs as usize);
        list.shrink_to_fit();
        Ok(Joined { counts, list })
    }
}

/// A loaded tag file, or those of two pads pooled: its tags, its kits and its stacks, and how many reads of each were repeats. In a
/// [`Query`] the kits are the left sets and the stacks the right sets. What is written and loaded again is equal but for the repeats, of
/// which it has none.
#[derive(Clone, Debug, Default, PartialEq, Eq)]
pub struct TagFile {
    tags: Vec<u8>,
    kit_numbers: Vec<u16>,
    kits: Sets,
    kit_repeats: usize,
    stack_numbers: Vec<u16>,
    stacks: Sets,
    stack_repeats: usize,
}

impl TagFile {
    /// Loads a tag file.
    ///
    /// ```
    /// // Stack 9 with a tag and its repeat. The file that is written has none.
    /// let file = kitfinder::TagFile::load(&[&b"SK\x00\x09\x02"[..], &[1; 12], &[1; 12]].concat())?;
    /// assert_eq!((file.t(), file.right_repeats()), (1, 1));
    /// let again = kitfinder::TagFile::load(&file.write()?)?;
    /// assert_eq!((again.right(), again.right_repeats()), (file.right(), 0));
    /// # Ok::<(), kitfinder::Refusal>(())
    /// ```
    pub fn load(file: &[u8]) -> Result<TagFile, Refusal> {
        let mut loaded = TagFile::with_room(file.len(), file.len());
        let counts = load(file, loaded.lists())?;
        loaded.cut(counts);
        Ok(loaded)
    }

    /// Loads the tag files of two pads: the kits of the first, and the stacks of both, those of one number pooled to one set. See
    /// [`load_pooled`](crate::load_pooled()).
    ///
    /// ```
    /// # fn main() -> Result<(), kitfinder::Refusal> {
    /// // Kit 7 has two tags. The first pad reads one of them, the second pad the other.
    /// let first = [&b"KT\x00\x07\x02"[..], &[1; 12], &[2; 12], b"SK\x00\x09\x01", &[1; 12]].concat();
    /// let second = [&b"SK\x00\x09\x01"[..], &[2; 12]].concat();
    /// assert_eq!(kitfinder::TagFile::load(&first)?.whole_kits()?, []);
    /// assert_eq!(kitfinder::TagFile::load_pooled(&first, &second)?.whole_kits()?, [(7, 9)]);
    /// # Ok(())
    /// # }
    /// ```
    pub fn load_pooled(first: &[u8], second: &[u8]) -> Result<TagFile, Refusal> {
        let mut loaded = TagFile::with_room(first.len(), first.len() + second.len());
        let counts = load_pooled(first, second, loaded.lists())?;
        loaded.cut(counts);
        Ok(loaded)
    }

    /// Lists as long as so many bytes of files can need, those with kits and those with stacks: a record has its head, an entry or a tag
    /// its bytes. Every tag is in the files with stacks.
    fn with_room(kit_bytes: usize, stack_bytes: usize) -> TagFile {
        let sets = |bytes: usize| (bytes / RECORD_HEAD_BYTES).min(MAX_SETS);
        let entries = |bytes: usize| (bytes / TAG_BYTES).min(MAX_ENTRIES);
        let side = |bytes: usize| Sets { ends: vec![0; sets(bytes)], items: vec![0; entries(bytes)] };
        TagFile {
            tags: vec![0; TAG_BYTES * entries(stack_bytes).min(MAX_ITEMS)],
            kit_numbers: vec![0; sets(kit_bytes)],
            kits: side(kit_bytes),
            kit_repeats: 0,
            stack_numbers: vec![0; sets(stack_bytes)],
            stacks: side(stack_bytes),
            stack_repeats: 0,
        }
    }

    /// The lists as they are lent.
    fn lists(&mut self) -> Lists<'_> {
        Lists {
            tags: &mut self.tags,
            left_numbers: &mut self.kit_numbers,
            left_ends: &mut self.kits.ends,
            left_items: &mut self.kits.items,
            right_numbers: &mut self.stack_numbers,
            right_ends: &mut self.stacks.ends,
            right_items: &mut self.stacks.items,
        }
    }

    /// Cuts the lists to what was filled, and takes the repeats over.
    fn cut(&mut self, counts: Loaded) {
        self.tags.truncate(TAG_BYTES * counts.tags);
        self.kit_numbers.truncate(counts.left_sets);
        self.kits.ends.truncate(counts.left_sets);
        self.kits.items.truncate(counts.left_entries);
        self.stack_numbers.truncate(counts.right_sets);
        self.stacks.ends.truncate(counts.right_sets);
        self.stacks.items.truncate(counts.right_entries);
        self.kit_repeats = counts.left_repeats;
        self.stack_repeats = counts.right_repeats;
    }

    /// How many items there are: the distinct tags.
    pub fn t(&self) -> u32 {
        (self.tags.len() / TAG_BYTES) as u32
    }

    /// The tags by item.
    pub fn tags(&self) -> impl ExactSizeIterator<Item = &[u8]> {
        self.tags.chunks_exact(TAG_BYTES)
    }

    /// The record numbers of the kits.
    pub fn kit_numbers(&self) -> &[u16] {
        &self.kit_numbers
    }

    /// The kits.
    pub fn kits(&self) -> &Sets {
        &self.kits
    }

    /// How many reads of the kits were repeats, those of the second of two files left out.
    pub fn kit_repeats(&self) -> usize {
        self.kit_repeats
    }

    /// The record numbers of the stacks.
    pub fn stack_numbers(&self) -> &[u16] {
        &self.stack_numbers
    }

    /// The stacks.
    pub fn stacks(&self) -> &Sets {
        &self.stacks
    }

    /// How many reads of the stacks were repeats, those of both of two files.
    pub fn stack_repeats(&self) -> usize {
        self.stack_repeats
    }

    /// The file that the writer makes: kits, then stacks, each record's tags rising, without repeats.
    pub fn write(&self) -> Result<Vec<u8>, Refusal> {
        let (left, right) = (self.kits.collection(), self.stacks.collection());
        let mut file = vec![0; file_bytes(left, right)];
        let length = write(self.t(), &self.tags, &self.kit_numbers, left, &self.stack_numbers, right, &mut file)?;
        file.truncate(length);
        Ok(file)
    }

    /// The ranks of the items by frequency, rising or falling.
    pub fn ranks(&self, falling: bool) -> Result<Vec<u16>, Refusal> {
        let mut ranks = vec![0; self.t() as usize];
        order(self.t(), self.kits.collection(), self.stacks.collection(), falling, &mut ranks)?;
        Ok(ranks)
    }

    /// The join of the kits and the stacks over these ranks, with the settings to begin with: Merge, limit 2 and the greatest allowance.
    /// Others replace them, as in `Query { limit: 3, ..file.query(&ranks) }`.
    pub fn query<'a>(&'a self, ranks: &'a [u16]) -> Query<'a> {
        let (left, right) = (self.kits.collection(), self.stacks.collection());
        Query { t: self.t(), left, right, limit: 2, ranks, budget: u32::MAX, rule: Rule::Merge }
    }

    /// Kit number and stack number of each kit that a stack holds whole, by their places in the file: [`TagFile::query`] with rising
    /// ranks. A kit without tags is never among them.
    pub fn whole_kits(&self) -> Result<Vec<(u16, u16)>, Refusal> {
        let found = self.query(&self.ranks(false)?).run()?;
        Ok(self.numbers(&found).collect())
    }

    /// Kit number and stack number of each pair that a join of this file found. Of a join of another file it may panic.
    pub fn numbers<'a>(&'a self, found: &'a Joined) -> impl ExactSizeIterator<Item = (u16, u16)> + 'a {
        found.pairs().map(|(kit, stack)| (self.kit_numbers[kit], self.stack_numbers[stack]))
    }

    /// The number of the first kit, by its place in the file, that a stack holds whole, where there is one: what a screen can show before
    /// all of them are found. A kit without tags is passed over. The stack is its items, as [`TagFile::stacks`] has them. See
    /// [`first`](crate::first()).
    ///
    /// ```
    /// # fn main() -> Result<(), kitfinder::Refusal> {
    /// // Kits 7 and 5 have a tag each. Stack 9 has the tag of kit 5 alone, and stack 8 both.
    /// let kits = [&b"KT\x00\x07\x01"[..], &[1; 12], b"KT\x00\x05\x01", &[2; 12]].concat();
    /// let stacks = [&b"SK\x00\x09\x01"[..], &[2; 12], b"SK\x00\x08\x02", &[2; 12], &[1; 12]].concat();
    /// let file = kitfinder::TagFile::load(&[kits, stacks].concat())?;
    /// let stack = |place| file.right().get(place).unwrap_or_default();
    /// assert_eq!((file.first_kit(stack(0))?, file.first_kit(stack(1))?), (Some(5), Some(7)));
    /// assert_eq!(file.first_kit(&[])?, None);
    /// # Ok(())
    /// # }
    /// ```
    pub fn first_kit(&self, stack: &[u16]) -> Result<Option<u16>, Refusal> {
        let found = first(self.t(), self.kits.collection(), stack)?;
        Ok(found.place.map(|kit| self.kit_numbers[kit]))
    }
}

/// The same by the join's words: its left sets are the kits, its right sets the stacks.
impl TagFile {
    /// [`TagFile::kit_numbers`].
    pub fn left_numbers(&self) -> &[u16] {
        self.kit_numbers()
    }

    /// [`TagFile::kits`].
    pub fn left(&self) -> &Sets {
        self.kits()
    }

    /// [`TagFile::kit_repeats`].
    pub fn left_repeats(&self) -> usize {
        self.kit_repeats()
    }

    /// [`TagFile::stack_numbers`].
    pub fn right_numbers(&self) -> &[u16] {
        self.stack_numbers()
    }

    /// [`TagFile::stacks`].
    pub fn right(&self) -> &Sets {
        self.stacks()
    }

    /// [`TagFile::stack_repeats`].
    pub fn right_repeats(&self) -> usize {
        self.stack_repeats()
    }
}
