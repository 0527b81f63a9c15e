//! One call of an exported function on lent lists, compared in every word with what the oracle says.

use crate::lent::Lent;
use crate::oracle::*;
use crate::random::Random;
use kitfinder::ffi;

/// The answer words of a refusal, or of acceptance with its values.
fn words<const N: usize>(refusal: Option<Refusal>, values: &[u64]) -> [u64; N] {
    let mut words = [0; N];
    match refusal {
        Some(Refusal(number, first, second)) => words[..3].copy_from_slice(&[number, first, second]),
        None => words[3..].copy_from_slice(values),
    }
    words
}

/// Answer words that hold a pattern before the call.
fn unanswered<const N: usize>() -> [u64; N] {
    [0xA5A5_5A5A_0F0F_F0F0; N]
}

fn same_words(is: &[u64], should: &[u64]) -> Result<(), String> {
    if is == should {
        return Ok(());
    }
    Err(format!("the answer is {is:?} and should be {should:?}"))
}

/// The rule's number and weights at the boundary. `unused` stands for the weights of a rule that has none.
fn boundary_rule(rule: Rule, unused: f64) -> (u32, [f64; 4]) {
    match rule {
        Rule::Merge => (0, [unused; 4]),
        Rule::Check => (1, [unused; 4]),
        Rule::Weighed { a, b, g, h } => (2, [a, b, g, h]),
    }
}

/// Joins once. `walked` is the oracle's walk of the same query, where it is already known.
pub fn join(random: &mut Random, q: &Query, walked: Option<&Walked>) -> Result<(), String> {
    let unused = random.pick(&[0.0, 1.0, f64::NAN, f64::INFINITY]);
    let (rule, weights) = boundary_rule(q.rule, unused);
    join_by_number(random, q, rule, weights, walked)
}

/// Joins once with a rule's number, which may be none.
pub fn join_by_number(random: &mut Random, q: &Query, rule: u32, w: [f64; 4], walked: Option<&Walked>) -> Result<(), String> {
    let mut work = Lent::<u32>::new(random, q.work);
    let mut pairs = Lent::<u16>::new(random, q.places);
    let mut answer = unanswered::<9>();
    let copy = q.clone();
    // SAFETY: each pointer comes from a list of the length that follows it.
    unsafe {
        ffi::kitfinder_join(
            q.t,
            q.left.ends.as_ptr(),
            q.left.ends.len(),
            q.left.items.as_ptr(),
            q.left.items.len(),
            q.right.ends.as_ptr(),
            q.right.ends.len(),
            q.right.items.as_ptr(),
            q.right.items.len(),
            q.limit,
            q.ranks.as_ptr(),
            q.ranks.len(),
            q.budget,
            rule,
            w[0],
            w[1],
            w[2],
            w[3],
            work.pointer(),
            work.length(),
            pairs.pointer(),
            pairs.length(),
            &mut answer,
        );
    }
    if (&copy.left, &copy.right, &copy.ranks) != (&q.left, &q.right, &q.ranks) {
        return Err("an input list was changed".into());
    }
    let early = if rule > 2 { Some(Refusal(6, 0, 0)) } else { join_refusal(q) };
    if early.is_some() {
        same_words(&answer, &words::<9>(early, &[]))?;
        work.is_kept("work")?;
        return pairs.is_kept("pairs");
    }
    let own;
    let walked = match walked {
        Some(walked) => walked,
        None => {
            own = walk(q);
            &own
        }
    };
    let c = &walked.counts;
    let late = walk_refusal(q, c);
    let counts = [c.pairs, c.by_path, c.confirmed, c.checks, c.dropped, c.false_drops];
    same_words(&answer, &words::<9>(late, &counts))?;
    work.is_free("work")?;
    match late {
        Some(_) => pairs.is_zero("pairs"),
        None => pairs.holds("pairs", &walked.pairs),
    }
}

/// Searches once for the first kit. `contained` are the places of all kits that the stack contains, where the query is accepted.
pub fn first(random: &mut Random, q: &FirstQuery, contained: &[usize]) -> Result<(), String> {
    let mut left_ends = Lent::of(random, &q.left.ends);
    let mut left_items = Lent::of(random, &q.left.items);
    let mut right = Lent::of(random, &q.right);
    let mut answer = Lent::<u64>::new(random, 6);
    // SAFETY: each pointer comes from a list of the length that follows it, and the answer has six words.
    unsafe {
        ffi::kitfinder_first(
            q.t,
            left_ends.pointer(),
            left_ends.length(),
            left_items.pointer(),
            left_items.length(),
            right.pointer(),
            right.length(),
            answer.pointer().cast(),
        );
    }
    let lowest = contained.iter().copied().min();
    let values = [lowest.is_some() as u64, lowest.unwrap_or(0) as u64, compared(q, lowest) as u64];
    same_words(answer.now(), &words::<6>(first_refusal(q), &values))?;
    answer.is_free("answer")?;
    left_ends.is_kept("left ends")?;
    left_items.is_kept("left items")?;
    right.is_kept("right")
}

/// Orders items once.
pub fn order(random: &mut Random, q: &OrderQuery) -> Result<(), String> {
    let mut ranks = Lent::<u16>::new(random, q.places);
    let mut answer = unanswered::<3>();
    let falling = if q.falling { random.pick(&[1, 2, u32::MAX]) } else { 0 };
    // SAFETY: each pointer comes from a list of the length that follows it.
    unsafe {
        ffi::kitfinder_order(
            q.t,
            q.left.ends.as_ptr(),
            q.left.ends.len(),
            q.left.items.as_ptr(),
            q.left.items.len(),
            q.right.ends.as_ptr(),
            q.right.ends.len(),
            q.right.items.as_ptr(),
            q.right.items.len(),
            falling,
            ranks.pointer(),
            ranks.length(),
            &mut answer,
        );
    }
    let refusal = order_refusal(q);
    same_words(&answer, &words::<3>(refusal, &[]))?;
    match refusal {
        Some(_) => ranks.is_kept("ranks"),
        None => ranks.holds("ranks", &ranks_by_frequency(q.t, &q.left, &q.right, q.falling)),
    }
}

/// Reads one record.
pub fn read(random: &mut Random, file: &[u8], at: usize) -> Result<(), String> {
    let mut answer = Lent::<u64>::new(random, 10);
    // SAFETY: the pointer comes from a list of the length that follows it, and the answer has ten words.
    unsafe { ffi::kitfinder_read_record(file.as_ptr(), file.len(), at, answer.pointer().cast()) };
    let should = match read_record(file, at) {
        Read::Record { right, number, count, tags, next, repeats } => {
            words::<10>(None, &[0, right as u64, number as u64, count as u64, tags as u64, next as u64, repeats as u64])
        }
        Read::NoMore => words::<10>(None, &[1, 0, 0, 0, 0, 0, 0]),
        Read::Fault => words::<10>(Some(Refusal(1, at as u64, 0)), &[]),
    };
    same_words(answer.now(), &should).and(answer.is_free("answer")).map_err(|message| format!("at {at}: {message}"))
}

/// The lengths of the seven lists that a loaded file needs.
pub fn lengths_needed(loaded: &LoadedFile) -> [usize; 7] {
    let sets = |side: usize| loaded.sides[side].sets.len();
    let entries = |side: usize| loaded.sides[side].sets.iter().map(Vec::len).sum();
    [12 * loaded.tags.len(), sets(0), sets(0), entries(0), sets(1), sets(1), entries(1)]
}

/// Whether one of seven lists is shorter than it needs to be.
pub fn is_short(lengths: [usize; 7], needed: [usize; 7]) -> bool {
    lengths.iter().zip(needed).any(|(&length, needed)| length < needed)
}

/// The seven lists that a loader is lent.
struct Seven {
    tags: Lent<u8>,
    left_numbers: Lent<u16>,
    left_ends: Lent<u32>,
    left_items: Lent<u16>,
    right_numbers: Lent<u16>,
    right_ends: Lent<u32>,
    right_items: Lent<u16>,
}

impl Seven {
    fn new(random: &mut Random, lengths: [usize; 7]) -> Seven {
        Seven {
            tags: Lent::new(random, lengths[0]),
            left_numbers: Lent::new(random, lengths[1]),
            left_ends: Lent::new(random, lengths[2]),
            left_items: Lent::new(random, lengths[3]),
            right_numbers: Lent::new(random, lengths[4]),
            right_ends: Lent::new(random, lengths[5]),
            right_items: Lent::new(random, lengths[6]),
        }
    }

    /// The answer and the lists are those of a refusal, or of a load that gives `loaded`.
    fn answers(&self, answer: &Lent<u64>, refusal: Option<Refusal>, loaded: Option<&LoadedFile>) -> Result<(), String> {
        answer.is_free("answer")?;
        if refusal.is_some() {
            same_words(answer.now(), &words::<10>(refusal, &[]))?;
            self.tags.is_zero("tags")?;
            self.left_numbers.is_zero("left numbers")?;
            self.left_ends.is_zero("left ends")?;
            self.left_items.is_zero("left items")?;
            self.right_numbers.is_zero("right numbers")?;
            self.right_ends.is_zero("right ends")?;
            return self.right_items.is_zero("right items");
        }
        let loaded = loaded.expect("what is not refused was loaded");
        let needed = lengths_needed(loaded);
        let [kit_repeats, stack_repeats] = loaded.repeats;
        let counts = [needed[1], needed[4], needed[3], needed[6], loaded.tags.len(), kit_repeats, stack_repeats].map(|n| n as u64);
        same_words(answer.now(), &words::<10>(None, &counts))?;
        let (left, right) = (loaded.collection(0), loaded.collection(1));
        self.tags.holds("tags", &loaded.tags.concat())?;
        self.left_numbers.holds("left numbers", &loaded.sides[0].numbers)?;
        self.left_ends.holds("left ends", &left.ends)?;
        self.left_items.holds("left items", &left.items)?;
        self.right_numbers.holds("right numbers", &loaded.sides[1].numbers)?;
        self.right_ends.holds("right ends", &right.ends)?;
        self.right_items.holds("right items", &right.items)
    }
}

/// The refusal of a load into lists of these lengths, or none.
pub fn load_refusal(lengths: [usize; 7], loaded: &Result<LoadedFile, Refusal>) -> Option<Refusal> {
    match loaded {
        Err(refusal) => Some(*refusal),
        Ok(loaded) => is_short(lengths, lengths_needed(loaded)).then_some(Refusal(4, 0, 0)),
    }
}

/// Loads a file once into lists of these lengths. `loaded` is what the oracle says of the file.
pub fn load_into(random: &mut Random, file: &[u8], lengths: [usize; 7], loaded: &Result<LoadedFile, Refusal>) -> Result<(), String> {
    let mut lists = Seven::new(random, lengths);
    let mut answer = Lent::<u64>::new(random, 10);
    // SAFETY: each pointer comes from a list of the length that follows it, and the answer has ten words.
    unsafe {
        ffi::kitfinder_load(
            file.as_ptr(),
            file.len(),
            lists.tags.pointer(),
            lists.tags.length(),
            lists.left_numbers.pointer(),
            lists.left_numbers.length(),
            lists.left_ends.pointer(),
            lists.left_ends.length(),
            lists.left_items.pointer(),
            lists.left_items.length(),
            lists.right_numbers.pointer(),
            lists.right_numbers.length(),
            lists.right_ends.pointer(),
            lists.right_ends.length(),
            lists.right_items.pointer(),
            lists.right_items.length(),
            answer.pointer().cast(),
        );
    }
    lists.answers(&answer, load_refusal(lengths, loaded), loaded.as_ref().ok())
}

/// The refusal of a pooled load into lists of these lengths, or none.
pub fn pooled_refusal(lengths: [usize; 7], pooled: &Result<Pooled, Refusal>) -> Option<Refusal> {
    match pooled {
        Err(refusal) => Some(*refusal),
        Ok(pooled) => pooled.refusal(is_short(lengths, lengths_needed(&pooled.loaded))),
    }
}

/// Loads two files once, pooled, into lists of these lengths. `pooled` is what the oracle says of the files.
pub fn load_pooled_into(
    random: &mut Random,
    [first, second]: [&[u8]; 2],
    lengths: [usize; 7],
    pooled: &Result<Pooled, Refusal>,
) -> Result<(), String> {
    let mut lists = Seven::new(random, lengths);
    let mut answer = Lent::<u64>::new(random, 10);
    // SAFETY: each pointer comes from a list of the length that follows it, and the answer has ten words.
    unsafe {
        ffi::kitfinder_load_pooled(
            first.as_ptr(),
            first.len(),
            second.as_ptr(),
            second.len(),
            lists.tags.pointer(),
            lists.tags.length(),
            lists.left_numbers.pointer(),
            lists.left_numbers.length(),
            lists.left_ends.pointer(),
            lists.left_ends.length(),
            lists.left_items.pointer(),
            lists.left_items.length(),
            lists.right_numbers.pointer(),
            lists.right_numbers.length(),
            lists.right_ends.pointer(),
            lists.right_ends.length(),
            lists.right_items.pointer(),
            lists.right_items.length(),
            answer.pointer().cast(),
        );
    }
    lists.answers(&answer, pooled_refusal(lengths, pooled), pooled.as_ref().ok().map(|pooled| &pooled.loaded))
}

/// Writes once, and answers the file where it was written.
pub fn write(random: &mut Random, q: &WriteQuery) -> Result<Option<Vec<u8>>, String> {
    let mut file = Lent::<u8>::new(random, q.room);
    let mut answer = unanswered::<4>();
    // SAFETY: each pointer comes from a list of the length that follows it.
    unsafe {
        ffi::kitfinder_write(
            q.t,
            q.tags.as_ptr(),
            q.tags.len(),
            q.left_numbers.as_ptr(),
            q.left_numbers.len(),
            q.left.ends.as_ptr(),
            q.left.ends.len(),
            q.left.items.as_ptr(),
            q.left.items.len(),
            q.right_numbers.as_ptr(),
            q.right_numbers.len(),
            q.right.ends.as_ptr(),
            q.right.ends.len(),
            q.right.items.as_ptr(),
            q.right.items.len(),
            file.pointer(),
            file.length(),
            &mut answer,
        );
    }
    let refusal = write_refusal(q);
    if let Some(Refusal(number, ..)) = refusal {
        same_words(&answer, &words::<4>(refusal, &[]))?;
        if number == 4 {
            file.is_zero("file")?;
        } else {
            file.is_kept("file")?;
        }
        return Ok(None);
    }
    let bytes = written(q);
    same_words(&answer, &words::<4>(None, &[bytes.len() as u64]))?;
    file.holds("file", &bytes)?;
    Ok(Some(file.now()[..bytes.len()].to_vec()))
}
