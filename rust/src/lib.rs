//! Safe Rust functions over the proved static library of the kit finder: a set containment join of kits and stacks, the first kit for
//! one stack, the order of tags, and the tag file's loader and writer, for one pad or two.
//!
//! Two levels. [`join`], [`first`], [`order`], [`load`], [`load_pooled`], [`write()`] and [`read_record`] each call one function of the
//! library on lists that the caller lends, and allocate nothing. [`TagFile`], [`Sets`], [`Query::run`] and [`Joined`] own their lists.
//!
//! Which kits a stack holds whole:
//!
//! ```
//! # fn main() -> Result<(), kitfinder::Refusal> {
//! // Kit 7 with two tags, and stack 9 with the same two.
//! let mut bytes = b"KT\x00\x07\x02".to_vec();
//! bytes.extend([[1; 12], [2; 12]].concat());
//! bytes.extend(b"SK\x00\x09\x02");
//! bytes.extend([[2; 12], [1; 12]].concat());
//!
//! let file = kitfinder::TagFile::load(&bytes)?;
//! assert_eq!(file.whole_kits()?, [(7, 9)]);
//! # Ok(())
//! # }
//! ```
//!
//! A whole program, which says what each stack of a tag file holds:
//!
//! ```
//! use kitfinder::{Query, TagFile};
//!
//! fn main() -> Result<(), Box<dyn std::error::Error>> {
//!     let file = TagFile::load(&std::fs::read("../examples/library.tags")?)?;
//!     // Rare tags first, of which three decide a kit's candidates. Whatever is chosen, the same kits are found.
//!     let ranks = file.ranks(false)?;
//!     let found = Query { limit: 3, ..file.query(&ranks) }.run()?;
//!     for (place, stack) in file.stacks().iter().enumerate() {
//!         let kits: Vec<u16> = found.kits_of(place).map(|kit| file.kit_numbers()[kit]).collect();
//!         println!("stack {} of {} tags holds kits {kits:?}", file.stack_numbers()[place], stack.len());
//!     }
//! #   assert_eq!(file.numbers(&found).collect::<Vec<_>>(), [(101, 1), (102, 1), (103, 2), (104, 1)]);
//! #   assert_eq!([0, 1, 2].map(|place| found.kits_of(place).collect::<Vec<_>>()), [vec![0, 1, 3], vec![2], vec![]]);
//!     Ok(())
//! }
//! ```
//!
//! Words: what owns its lists speaks of kits, stacks and tags, as librarians do. What is lent speaks of the join: a kit is a left set, a
//! stack a right set, a tag an item, the allowance the budget. [`TagFile`] answers to both. A place is the number of a set in its
//! collection, from 0; a record number is what the tag file calls it. A repeat is a read of a tag that its own record had before; pad
//! installers judge an aerial by them.
//! docs/FORMAT.md has the tag file, the limits, and what makes a set bad.
//!
//! Everything may be called from several threads at once. The stack that each function of the library may take is a constant here
//! ([`JOIN_STACK`] and its like), as in include/kitfinder.h.
#![deny(missing_docs)]

pub mod ffi;
mod owned;
mod refusal;

pub use owned::{Joined, Sets, TagFile};
pub use refusal::Refusal;

/// The most items (distinct tags).
pub const MAX_ITEMS: usize = 4096;
/// The most sets of a side.
pub const MAX_SETS: usize = 4096;
/// The most entries of a side: items of its sets.
pub const MAX_ENTRIES: usize = 65535;
/// The most items of a set.
pub const MAX_SET_LENGTH: usize = 255;
/// The greatest limit of a join.
pub const MAX_LIMIT: u32 = 255;
/// The bytes of a tag.
pub const TAG_BYTES: usize = 12;
/// The bytes of a record before its tags.
pub const RECORD_HEAD_BYTES: usize = 5;
/// The bytes of stack that a join may take.
pub const JOIN_STACK: usize = 131072;
/// The bytes of stack that finding the first kit may take.
pub const FIRST_STACK: usize = 8192;
/// The bytes of stack that ordering may take.
pub const ORDER_STACK: usize = 32768;
/// The bytes of stack that loading may take.
pub const LOAD_STACK: usize = 131072;
/// The bytes of stack that a pooled load may take.
pub const LOAD_POOLED_STACK: usize = 131072;
/// The bytes of stack that writing may take.
pub const WRITE_STACK: usize = 8192;
/// The bytes of stack that reading a record may take.
pub const READ_RECORD_STACK: usize = 8192;

/// A collection: set k holds the items from the end of set k-1 (0 for the first) up to its own end, strictly rising. [`Sets`] makes
/// one.
#[derive(Clone, Copy, Debug, Default, PartialEq, Eq)]
pub struct Collection<'a> {
    /// The end of each set.
    pub ends: &'a [u32],
    /// The items of all sets. Those beyond the last end don't count.
    pub items: &'a [u16],
}

/// The two collections of a join.
#[derive(Clone, Copy, Debug, PartialEq, Eq, Hash)]
pub enum Side {
    /// The left sets: kits.
    Left,
    /// The right sets: stacks.
    Right,
}

/// The four weights of the weighed merge rule.
#[derive(Clone, Copy, Debug, PartialEq)]
pub struct Weights {
    /// What a candidate costs.
    pub a: f64,
    /// What a right set costs that holds the path's last item.
    pub b: f64,
    /// What a merge costs in any case.
    pub g: f64,
    /// What a check costs.
    pub h: f64,
}

/// The merge rule.
#[derive(Clone, Copy, Debug, PartialEq)]
pub enum Rule {
    /// Always goes on to the limit.
    Merge,
    /// Checks every left set against every right set seen.
    Check,
    /// Compares the costs of both at each node.
    Weighed(Weights),
}

/// What a join is asked: both collections over `t` items, the depth limit, the rank of each item, the budget of checks, the rule.
#[derive(Clone, Copy, Debug)]
pub struct Query<'a> {
    /// How many items there are.
    pub t: u32,
    /// The left sets: kits.
    pub left: Collection<'a>,
    /// The right sets: stacks.
    pub right: Collection<'a>,
    /// How deep left sets are merged along shared prefixes: 1 to [`MAX_LIMIT`].
    pub limit: u32,
    /// The rank of each item: a permutation of 0 .. t-1.
    pub ranks: &'a [u16],
    /// The most checks that the join may need: the allowance.
    pub budget: u32,
    /// The merge rule.
    pub rule: Rule,
}

/// The six counts of a join.
#[derive(Clone, Copy, Debug, PartialEq, Eq)]
#[non_exhaustive]
pub struct Counts {
    /// Pairs of a left set and a right set that contains it.
    pub pairs: u32,
    /// Those that were met by path.
    pub by_path: u32,
    /// Those that a check confirmed.
    pub confirmed: u32,
    /// All checks.
    pub checks: u32,
    /// Checks that the signatures ended.
    pub dropped: u32,
    /// Checks that the items ended.
    pub false_drops: u32,
}

/// What the search for the first left set found.
#[derive(Clone, Copy, Debug, PartialEq, Eq)]
#[non_exhaustive]
pub struct First {
    /// The lowest place of a left set that the right set contains, where there is one.
    pub place: Option<usize>,
    /// The left sets compared, empty ones included: the place plus one, or all of them.
    pub compared: usize,
}

/// The seven lists that a loader fills.
#[derive(Debug)]
pub struct Lists<'a> {
    /// The tag table: [`TAG_BYTES`] for each item.
    pub tags: &'a mut [u8],
    /// The record numbers of the left sets.
    pub left_numbers: &'a mut [u16],
    /// The ends of the left sets.
    pub left_ends: &'a mut [u32],
    /// The items of the left sets.
    pub left_items: &'a mut [u16],
    /// The record numbers of the right sets.
    pub right_numbers: &'a mut [u16],
    /// The ends of the right sets.
    pub right_ends: &'a mut [u32],
    /// The items of the right sets.
    pub right_items: &'a mut [u16],
}

/// How much a loader filled.
#[derive(Clone, Copy, Debug, PartialEq, Eq)]
#[non_exhaustive]
pub struct Loaded {
    /// Left sets: kit records.
    pub left_sets: usize,
    /// Right sets: stack records, those of one number pooled.
    pub right_sets: usize,
    /// Items of the left sets.
    pub left_entries: usize,
    /// Items of the right sets.
    pub right_entries: usize,
    /// Distinct tags.
    pub tags: usize,
    /// Repeats of kit records: of each, its count of tags less its distinct ones.
    pub left_repeats: usize,
    /// Repeats of stack records, those of both files where two were pooled.
    pub right_repeats: usize,
}

/// A whole record of a tag file.
#[derive(Clone, Copy, Debug, PartialEq, Eq)]
#[non_exhaustive]
pub struct Record {
    /// Left for a kit, right for a stack.
    pub side: Side,
    /// Its number.
    pub number: u16,
    /// How many tags it has, repeats included.
    pub count: usize,
    /// The byte place of its first tag.
    pub tags: usize,
    /// The byte place of the next record.
    pub next: usize,
    /// How many of its tags are repeats: their count less the distinct ones.
    pub repeats: usize,
}

/// The entries of a collection: its last end, or as many as there can be where that is wild.
fn entries(collection: Collection) -> usize {
    collection.ends.last().map_or(0, |&end| (end as usize).min(MAX_ENTRIES))
}

/// The words that a join's work list must have: 16n + 64, where n counts sets, their entries and items. Of a bad collection it takes no
/// more than the limits for granted, so that it never answers more than 2,293,792; the join then refuses for another cause first.
pub fn work_words(t: u32, left: Collection, right: Collection) -> usize {
    let sets = left.ends.len().min(MAX_SETS) + right.ends.len().min(MAX_SETS);
    16 * (sets + entries(left) + entries(right) + (t as usize).min(MAX_ITEMS)) + 64
}

/// Places of a pair list that suffice whatever the sets hold: two for each left set and each right set, 33,554,432 at most.
pub fn pair_places(left: Collection, right: Collection) -> usize {
    2 * left.ends.len().min(MAX_SETS) * right.ends.len().min(MAX_SETS)
}

/// The bytes that [`write()`] fills: 1,613,800 at most.
pub fn file_bytes(left: Collection, right: Collection) -> usize {
    let sets = left.ends.len().min(MAX_SETS) + right.ends.len().min(MAX_SETS);
    RECORD_HEAD_BYTES * sets + TAG_BYTES * (entries(left) + entries(right))
}

/// The pairs of a filled pair list, each a left place and a right place.
///
/// ```
/// assert!(kitfinder::pairs(&[0, 3, 2, 1]).eq([(0, 3), (2, 1)]));
/// ```
pub fn pairs(filled: &[u16]) -> impl ExactSizeIterator<Item = (usize, usize)> + DoubleEndedIterator + Clone + '_ {
    filled.chunks_exact(2).map(|pair| (pair[0] as usize, pair[1] as usize))
}

/// Lists every pair of a left set and a right set that contains it: two places a pair, rising by left, then right. The work list needs
/// [`work_words`], and the pair list two places a pair ([`pair_places`] always suffices); [`pairs`] goes through what was filled. An
/// empty left set is accepted, but no right set contains it, and it adds to none of the counts.
///
/// The work list is the sole undecided result: kept after [`Refusal::BadSet`], [`Refusal::BadSettings`] and [`Refusal::ShortWork`], else its
/// content is free.
///
/// ```
/// use kitfinder::{Collection, Query, Rule};
/// let left = Collection { ends: &[2, 3], items: &[0, 1, 1] };
/// let right = Collection { ends: &[2], items: &[1, 2] };
/// let query = Query { t: 3, left, right, limit: 2, ranks: &[0, 1, 2], budget: u32::MAX, rule: Rule::Merge };
/// let mut work = vec![0; kitfinder::work_words(3, left, right)];
/// let mut list = [0; 4];
/// let counts = kitfinder::join(&query, &mut work, &mut list)?;
/// assert!(kitfinder::pairs(&list[..2 * counts.pairs as usize]).eq([(1, 0)]));
/// # Ok::<(), kitfinder::Refusal>(())
/// ```
pub fn join(query: &Query, work: &mut [u32], pairs: &mut [u16]) -> Result<Counts, Refusal> {
    let (rule, w) = match query.rule {
        Rule::Merge => (0, Weights { a: 0.0, b: 0.0, g: 0.0, h: 0.0 }),
        Rule::Check => (1, Weights { a: 0.0, b: 0.0, g: 0.0, h: 0.0 }),
        Rule::Weighed(weights) => (2, weights),
    };
    let mut answer = [0u64; 9];
    // SAFETY: each pointer comes from a slice of the length that follows it, and no two of the lent lists overlap.
    unsafe {
        ffi::kitfinder_join(
            query.t,
            query.left.ends.as_ptr(),
            query.left.ends.len(),
            query.left.items.as_ptr(),
            query.left.items.len(),
            query.right.ends.as_ptr(),
            query.right.ends.len(),
            query.right.items.as_ptr(),
            query.right.items.len(),
            query.limit,
            query.ranks.as_ptr(),
            query.ranks.len(),
            query.budget,
            rule,
            w.a,
            w.b,
            w.g,
            w.h,
            work.as_mut_ptr(),
            work.len(),
            pairs.as_mut_ptr(),
            pairs.len(),
            &mut answer,
        );
    }
    refusal::accepted(&answer)?;
    Ok(Counts {
        pairs: answer[3] as u32,
        by_path: answer[4] as u32,
        confirmed: answer[5] as u32,
        checks: answer[6] as u32,
        dropped: answer[7] as u32,
        false_drops: answer[8] as u32,
    })
}

/// Finds the first left set that one right set contains, and compares no further. The right set is its items alone. An empty left set
/// is passed over, but its place counts among those compared. [`TagFile::first_kit`] gives the kit's number.
///
/// Everything is tested before a left set is compared: [`Refusal::BadSettings`] where `t` is above [`MAX_ITEMS`], then
/// [`Refusal::BadSet`] of the first bad left set, then that of the right set, at place 0.
///
/// ```
/// use kitfinder::Collection;
/// // The second of four left sets is empty.
/// let left = Collection { ends: &[2, 2, 3, 4], items: &[0, 1, 1, 2] };
/// let first = kitfinder::first(3, left, &[1, 2])?;
/// assert_eq!((first.place, first.compared), (Some(2), 3));
/// let first = kitfinder::first(3, left, &[0])?;
/// assert_eq!((first.place, first.compared), (None, 4));
/// # Ok::<(), kitfinder::Refusal>(())
/// ```
pub fn first(t: u32, left: Collection, right: &[u16]) -> Result<First, Refusal> {
    let mut answer = [0u64; 6];
    // SAFETY: each pointer comes from a slice of the length that follows it, and the answer overlaps none of them.
    unsafe {
        ffi::kitfinder_first(
            t,
            left.ends.as_ptr(),
            left.ends.len(),
            left.items.as_ptr(),
            left.items.len(),
            right.as_ptr(),
            right.len(),
            &mut answer,
        );
    }
    refusal::accepted(&answer)?;
    Ok(First { place: (answer[3] == 1).then_some(answer[4] as usize), compared: answer[5] as usize })
}

/// Gives each item its rank by frequency, rising or falling. The list of ranks must have `t` places.
///
/// ```
/// use kitfinder::Collection;
/// let sets = Collection { ends: &[2, 3], items: &[0, 1, 1] };
/// let mut ranks = [0; 3];
/// kitfinder::order(3, sets, Collection::default(), false, &mut ranks)?;
/// assert_eq!(ranks, [1, 2, 0]);
/// # Ok::<(), kitfinder::Refusal>(())
/// ```
pub fn order(t: u32, left: Collection, right: Collection, falling: bool, ranks: &mut [u16]) -> Result<(), Refusal> {
    let mut answer = [0u64; 3];
    // SAFETY: each pointer comes from a slice of the length that follows it, and no two of the lent lists overlap.
    unsafe {
        ffi::kitfinder_order(
            t,
            left.ends.as_ptr(),
            left.ends.len(),
            left.items.as_ptr(),
            left.items.len(),
            right.ends.as_ptr(),
            right.ends.len(),
            right.items.as_ptr(),
            right.items.len(),
            falling as u32,
            ranks.as_mut_ptr(),
            ranks.len(),
            &mut answer,
        );
    }
    refusal::accepted(&answer)
}

/// Loads a tag file into the seven lists, and counts its repeats. Lists as long as the limits hold every file. [`TagFile::load`] brings
/// its own.
///
/// ```
/// // A kit with a tag, and a stack with three reads of it.
/// let file = [&b"KT\x00\x07\x01"[..], &[1; 12], b"SK\x00\x09\x03", &[1; 36]].concat();
/// let lists = kitfinder::Lists {
///     tags: &mut [0; 12],
///     left_numbers: &mut [0; 1],
///     left_ends: &mut [0; 1],
///     left_items: &mut [0; 1],
///     right_numbers: &mut [0; 1],
///     right_ends: &mut [0; 1],
///     right_items: &mut [0; 1],
/// };
/// let loaded = kitfinder::load(&file, lists)?;
/// assert_eq!((loaded.right_entries, loaded.tags), (1, 1));
/// assert_eq!((loaded.left_repeats, loaded.right_repeats), (0, 2));
/// # Ok::<(), kitfinder::Refusal>(())
/// ```
pub fn load(file: &[u8], lists: Lists) -> Result<Loaded, Refusal> {
    let mut answer = [0u64; 10];
    // SAFETY: each pointer comes from a slice of the length that follows it, and no two of the lent lists overlap.
    unsafe {
        ffi::kitfinder_load(
            file.as_ptr(),
            file.len(),
            lists.tags.as_mut_ptr(),
            lists.tags.len(),
            lists.left_numbers.as_mut_ptr(),
            lists.left_numbers.len(),
            lists.left_ends.as_mut_ptr(),
            lists.left_ends.len(),
            lists.left_items.as_mut_ptr(),
            lists.left_items.len(),
            lists.right_numbers.as_mut_ptr(),
            lists.right_numbers.len(),
            lists.right_ends.as_mut_ptr(),
            lists.right_ends.len(),
            lists.right_items.as_mut_ptr(),
            lists.right_items.len(),
            &mut answer,
        );
    }
    loaded(&answer)
}

/// What a loader's answer says.
fn loaded(answer: &[u64; 10]) -> Result<Loaded, Refusal> {
    refusal::accepted(answer)?;
    Ok(Loaded {
        left_sets: answer[3] as usize,
        right_sets: answer[4] as usize,
        left_entries: answer[5] as usize,
        right_entries: answer[6] as usize,
        tags: answer[7] as usize,
        left_repeats: answer[8] as usize,
        right_repeats: answer[9] as usize,
    })
}

/// Loads the tag files of two pads into the seven lists, over one tag table. Stacks with the same number in both files are pooled: the
/// set is the union of their tags. The kits are the first file's; the stacks are the first file's in its order, each with what the
/// second has under its number, and then the second's others in its order. Of the second file's kit records nothing is kept, and their
/// repeats don't count; those of its stack records do. A tag that lies on both pads is no repeat. [`TagFile::load_pooled`] brings its own
/// lists.
///
/// The first file is refused as by [`load`]. In the second, a kit record can only be [`Refusal::Malformed`]; the number of a stack may be
/// used once, and [`Refusal::TooMany`] counts the pooled stacks, and the tags of these and of the kits. Byte places of the second file
/// count on from the first file's length. [`Refusal::ShortOutput`] comes after all of these, and [`Refusal::Overlong`] last, with the
/// first record of the second file whose stack has over [`MAX_SET_LENGTH`] tags once it is pooled.
///
/// ```
/// let (first, second) = (b"KT\x00\x07\x00SK\x00\x09\x00", b"SK\x00\x08\x00SK\x00\x09\x00");
/// let (mut kits, mut kit_ends) = ([0; 1], [0; 1]);
/// let (mut stacks, mut stack_ends) = ([0; 2], [0; 2]);
/// let lists = kitfinder::Lists {
///     tags: &mut [],
///     left_numbers: &mut kits,
///     left_ends: &mut kit_ends,
///     left_items: &mut [],
///     right_numbers: &mut stacks,
///     right_ends: &mut stack_ends,
///     right_items: &mut [],
/// };
/// assert_eq!(kitfinder::load_pooled(first, second, lists)?.right_sets, 2);
/// assert_eq!((kits, stacks), ([7], [9, 8]));
/// # Ok::<(), kitfinder::Refusal>(())
/// ```
pub fn load_pooled(first: &[u8], second: &[u8], lists: Lists) -> Result<Loaded, Refusal> {
    let mut answer = [0u64; 10];
    // SAFETY: each pointer comes from a slice of the length that follows it, and no two of the lent lists overlap.
    unsafe {
        ffi::kitfinder_load_pooled(
            first.as_ptr(),
            first.len(),
            second.as_ptr(),
            second.len(),
            lists.tags.as_mut_ptr(),
            lists.tags.len(),
            lists.left_numbers.as_mut_ptr(),
            lists.left_numbers.len(),
            lists.left_ends.as_mut_ptr(),
            lists.left_ends.len(),
            lists.left_items.as_mut_ptr(),
            lists.left_items.len(),
            lists.right_numbers.as_mut_ptr(),
            lists.right_numbers.len(),
            lists.right_ends.as_mut_ptr(),
            lists.right_ends.len(),
            lists.right_items.as_mut_ptr(),
            lists.right_items.len(),
            &mut answer,
        );
    }
    loaded(&answer)
}

/// Writes a tag file of both collections, kits first, and answers its length. It needs [`file_bytes`], and a tag table of `t` tags.
///
/// ```
/// use kitfinder::Collection;
/// let kit = Collection { ends: &[1], items: &[0] };
/// let mut file = vec![0; kitfinder::file_bytes(kit, Collection::default())];
/// kitfinder::write(1, &[9; 12], &[258], kit, &[], Collection::default(), &mut file)?;
/// assert_eq!(file, b"KT\x01\x02\x01\x09\x09\x09\x09\x09\x09\x09\x09\x09\x09\x09\x09");
/// # Ok::<(), kitfinder::Refusal>(())
/// ```
pub fn write(
    t: u32,
    tags: &[u8],
    left_numbers: &[u16],
    left: Collection,
    right_numbers: &[u16],
    right: Collection,
    file: &mut [u8],
) -> Result<usize, Refusal> {
    let mut answer = [0u64; 4];
    // SAFETY: each pointer comes from a slice of the length that follows it, and no two of the lent lists overlap.
    unsafe {
        ffi::kitfinder_write(
            t,
            tags.as_ptr(),
            tags.len(),
            left_numbers.as_ptr(),
            left_numbers.len(),
            left.ends.as_ptr(),
            left.ends.len(),
            left.items.as_ptr(),
            left.items.len(),
            right_numbers.as_ptr(),
            right_numbers.len(),
            right.ends.as_ptr(),
            right.ends.len(),
            right.items.as_ptr(),
            right.items.len(),
            file.as_mut_ptr(),
            file.len(),
            &mut answer,
        );
    }
    refusal::accepted(&answer)?;
    Ok(answer[3] as usize)
}

/// Reads the record at a place of a tag file; `None` at the file's end.
///
/// ```
/// // Kit 7 with a tag, another, and the first again.
/// let file = [&b"KT\x00\x07\x03"[..], &[1; 12], &[2; 12], &[1; 12]].concat();
/// let record = kitfinder::read_record(&file, 0)?.expect("there is a record");
/// assert_eq!((record.number, record.count, record.repeats, record.next), (7, 3, 1, 41));
/// assert_eq!(kitfinder::read_record(&file, record.next)?, None);
/// # Ok::<(), kitfinder::Refusal>(())
/// ```
pub fn read_record(file: &[u8], at: usize) -> Result<Option<Record>, Refusal> {
    let mut answer = [0u64; 10];
    // SAFETY: the pointer comes from a slice of the length that follows it.
    unsafe { ffi::kitfinder_read_record(file.as_ptr(), file.len(), at, &mut answer) };
    refusal::accepted(&answer)?;
    if answer[3] == 1 {
        return Ok(None);
    }
    Ok(Some(Record {
        side: if answer[4] == 0 { Side::Left } else { Side::Right },
        number: answer[5] as u16,
        count: answer[6] as usize,
        tags: answer[7] as usize,
        next: answer[8] as usize,
        repeats: answer[9] as usize,
    }))
}
