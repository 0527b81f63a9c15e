//! The first kit of one stack by a plain loop. It makes the library's tests in the same order and refuses as it does, marks the stack's
//! items in a local bit set, and goes through the kits until one that is not empty has all its items marked.

use kitfinder::{Collection, Refusal, Side, MAX_ENTRIES, MAX_ITEMS, MAX_SETS, MAX_SET_LENGTH};

/// Whether items can be those of a set: not too many, strictly rising, and so the last of them below t as all are.
fn is_good(t: u32, set: &[u16]) -> bool {
    set.len() <= MAX_SET_LENGTH && set.is_sorted_by(|a, b| a < b) && set.last().is_none_or(|&last| u32::from(last) < t)
}

/// The place of the first bad set. Neither a set nor an end beyond the limits is reached.
fn first_bad(t: u32, sets: Collection) -> Option<usize> {
    let items = &sets.items[..sets.items.len().min(MAX_ENTRIES)];
    let mut start = 0;
    for (k, &end) in sets.ends.iter().take(MAX_SETS).enumerate() {
        match items.get(start..end as usize) {
            Some(set) if is_good(t, set) => start = end as usize,
            _ => return Some(k),
        }
    }
    (sets.ends.len() > MAX_SETS).then_some(MAX_SETS)
}

/// The place of the first kit that the stack contains, and how many kits were compared.
pub fn first(t: u32, kits: Collection, stack: &[u16]) -> Result<(Option<usize>, usize), Refusal> {
    if t as usize > MAX_ITEMS {
        return Err(Refusal::BadSettings);
    }
    if let Some(k) = first_bad(t, kits) {
        return Err(Refusal::BadSet(Side::Left, k));
    }
    if !is_good(t, stack) {
        return Err(Refusal::BadSet(Side::Right, 0));
    }
    let mut marks = [0u64; MAX_ITEMS / 64];
    for &item in stack {
        marks[item as usize / 64] |= 1 << (item % 64);
    }
    let mut start = 0;
    for (k, &end) in kits.ends.iter().enumerate() {
        let end = end as usize;
        if start < end && kits.items[start..end].iter().all(|&item| marks[item as usize / 64] >> (item % 64) & 1 == 1) {
            return Ok((Some(k), k + 1));
        }
        start = end;
    }
    Ok((None, kits.ends.len()))
}
