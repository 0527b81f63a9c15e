//! Random kits and one stack for the search of the first kit: mostly good and small, some about the limits, with every kind of fault now
//! and then.

use crate::joins::{collections, spoil};
use crate::oracle::*;
use crate::random::Random;
use std::collections::HashSet;

/// So many of the items 0 .. t-1, rising, often with the greatest.
fn some_items(random: &mut Random, t: u32, n: usize) -> Vec<u16> {
    let mut items: Vec<u16> = (0..t as u16).collect();
    random.shuffle(&mut items);
    items.truncate(n);
    items.sort_unstable();
    if let (Some(last), true) = (items.last_mut(), random.one_in(4)) {
        *last = t as u16 - 1;
    }
    items
}

/// A part of a stack, which may be all of it or nothing.
fn part(random: &mut Random, stack: &[u16]) -> Vec<u16> {
    let one_in = random.pick(&[2, 3, 3, 8]);
    stack.iter().copied().filter(|_| !random.one_in(one_in)).collect()
}

/// A part of a stack and one item that the stack has not, often one that differs from an item of the stack by a multiple of 64.
fn near(random: &mut Random, t: u32, stack: &[u16]) -> Vec<u16> {
    let others: Vec<u16> = (0..t as u16).filter(|i| stack.binary_search(i).is_err()).collect();
    let step = random.pick(&[64, 256]);
    let remainders: HashSet<u16> = stack.iter().map(|item| item % step).collect();
    let alike: Vec<u16> = others.iter().copied().filter(|item| remainders.contains(&(item % step))).collect();
    let mut kit = if random.one_in(4) { stack.to_vec() } else { part(random, stack) };
    kit.truncate(254);
    let from = if alike.is_empty() || random.one_in(3) { &others } else { &alike };
    kit.push(random.pick(from));
    kit.sort_unstable();
    kit
}

/// So many kits, each with an item that the stack has not, but for some chosen places, whose kits are parts of it. Now and then kits are
/// equal.
fn placed(random: &mut Random, t: u32, stack: Vec<u16>, n: usize) -> FirstQuery {
    let kinds: Vec<Vec<u16>> = (0..random.pick(&[1, 2, 5])).map(|_| near(random, t, &stack)).collect();
    let mut kits: Vec<Vec<u16>> = (0..n).map(|_| kinds[random.below(kinds.len())].clone()).collect();
    let places = match random.below(6) {
        0 => vec![],
        1 => vec![0],
        2 => vec![n - 1],
        3 => vec![n / 2],
        4 => vec![random.below(n), n - 1],
        _ => (0..random.within(1, 4)).map(|_| random.below(n)).collect(),
    };
    let whole: Vec<u16> = stack.iter().copied().take(255).collect();
    let same = part(random, &whole);
    for place in places {
        kits[place] = match random.below(4) {
            0 => whole.clone(),
            1 => same.clone(),
            _ => part(random, &whole),
        };
    }
    FirstQuery { t, left: Collection::of(&kits), right: stack }
}

/// A few kits beside a stack of few items.
fn small(random: &mut Random) -> FirstQuery {
    let t = random.pick(&[1, 2, 5, 20, 20, 70, 300, 4096]);
    let most = random.pick(&[0, 3, 30]).min(t as usize - 1);
    let length = random.within(0, most);
    let stack = some_items(random, t, length);
    let n = random.within(1, 9);
    placed(random, t, stack, n)
}

/// A stack about as long as it can be.
fn long(random: &mut Random) -> FirstQuery {
    let t = random.pick(&[258, 300, 512, 513, 1000, 4095, 4096]);
    let length = random.pick(&[253, 254, 255, 255, 255, 255, 255, 256, 256, 257, 511, 512, 700]).min(t as usize - 1);
    let stack = some_items(random, t, length);
    let n = random.within(1, 4);
    let mut q = placed(random, t, stack, n);
    if random.one_in(12) {
        q.left = Collection::of(&[q.left.sets(), vec![some_items(random, t, 256)]].concat());
    }
    q
}

/// Empty kits: all, first, last, all but the last, or some among the others. The stack contains some of these or none.
fn empties(random: &mut Random) -> FirstQuery {
    let t = random.pick(&[0, 1, 9, 9, 300]);
    let length = random.pick(&[0, 1, 4, 4, 255]).min((t as usize).saturating_sub(1));
    let stack = some_items(random, t, length);
    let n = random.within(1, 6);
    let (way, others) = (random.below(6), random.below(3));
    let is_empty = |random: &mut Random, k: usize| match way {
        _ if t == 0 => true,
        0 => true,
        1 => k == 0,
        2 => k == n - 1,
        3 => k < n - 1,
        _ => random.one_in(2),
    };
    let equal = part(random, &stack);
    let mut kit = |k: usize| match others {
        _ if is_empty(random, k) => Vec::new(),
        0 => near(random, t, &stack),
        1 => equal.clone(),
        _ if random.one_in(2) => near(random, t, &stack),
        _ => part(random, &stack),
    };
    let kits: Vec<Vec<u16>> = (0..n).map(&mut kit).collect();
    FirstQuery { t, left: Collection::of(&kits), right: stack }
}

/// As many kits as there can be, one fewer, or one too many. Now and then some are empty.
fn many(random: &mut Random) -> FirstQuery {
    let t = random.pick(&[3, 40, 4096]);
    let length = random.within(0, 2);
    let stack = some_items(random, t, length);
    let n = random.pick(&[4095, 4096, 4096, 4096, 4097]);
    let q = placed(random, t, stack, n);
    if !random.one_in(4) {
        return q;
    }
    let empty_of = random.pick(&[2, 100]);
    let kits: Vec<Vec<u16>> = q.left.sets().into_iter().map(|kit| if random.one_in(empty_of) { Vec::new() } else { kit }).collect();
    FirstQuery { left: Collection::of(&kits), ..q }
}

/// 65,535 entries, and now and then one more or an empty kit.
fn full(random: &mut Random) -> FirstQuery {
    let length = random.pick(&[3, 255]);
    let stack = some_items(random, 4096, length);
    let mut kits: Vec<Vec<u16>> = (0..257).map(|k| (15 * k..15 * k + 255).map(|i| i % 4096).collect()).collect();
    kits.iter_mut().for_each(|kit| kit.sort_unstable());
    match random.below(4) {
        0 => kits.push(Vec::new()),
        1 => {}
        _ => kits.push(vec![stack[0]]),
    }
    FirstQuery { t: 4096, left: Collection::of(&kits), right: stack }
}

/// Both collections of a join, of which one stack or an empty one is searched for.
fn joined(random: &mut Random) -> FirstQuery {
    let (t, left, right) = collections(random);
    let stacks = right.sets();
    let stack = if stacks.is_empty() { Vec::new() } else { stacks[random.below(stacks.len())].clone() };
    FirstQuery { t, left, right: stack }
}

/// Items beyond the last end: of the stack, or any.
fn add_past(random: &mut Random, q: &mut FirstQuery) {
    let past = match random.below(3) {
        0 => q.right.clone(),
        1 => vec![q.t as u16; random.within(1, 3)],
        _ => (0..random.within(1, 300)).map(|_| random.word() as u16).collect(),
    };
    q.left.items.extend(past);
}

/// Makes a stack bad, where that can be done in this way.
fn spoil_stack(random: &mut Random, t: u32, stack: &mut Vec<u16>) {
    let n = stack.len();
    let i = if n > 1 { random.pick(&[1, n - 1, n / 2 + n % 2]) } else { 0 };
    match random.below(10) {
        0..=2 if i > 0 => stack[i] = stack[i - 1],
        3..=5 if i > 0 => stack.swap(i - 1, i),
        6 => stack.push(t as u16),
        7 => stack.push(random.pick(&[t as u16 + 1, 4096, u16::MAX])),
        8 => *stack = some_items(random, t.max(600), 256),
        _ => stack.insert(0, t as u16),
    }
}

/// Makes a kit bad, where that can be done in this way. Another may be bad already.
fn spoil_kits(random: &mut Random, t: u32, left: &mut Collection) {
    if left.ends.is_empty() {
        return;
    }
    let (k, n) = (random.below(left.ends.len()), left.items.len());
    let i = if n > 1 { random.within(1, n - 1) } else { 0 };
    match random.below(9) {
        0 => left.ends[k] = random.pick(&[u32::MAX, 1 << 31, 65536, 65535]),
        1 => left.ends[k] = left.ends[k].saturating_add(65536),
        2 => *left.ends.last_mut().expect("there is a kit") = n as u32 + 1,
        3 if k > 0 && left.ends[k - 1] > 0 => left.ends[k] = random.below(left.ends[k - 1] as usize) as u32,
        4 if i > 0 => left.items.swap(i - 1, i),
        5 if i > 0 => left.items[i] = left.items[i - 1],
        6 if n > 0 => left.items[i] = random.pick(&[t as u16, t as u16, t as u16 + 1, u16::MAX]),
        _ => spoil(random, t, left),
    }
}

/// Faults of the kits, the stack and T, none to four.
fn spoil_some(random: &mut Random, q: &mut FirstQuery) {
    for _ in 0..random.pick(&[0, 1, 1, 2]) {
        spoil_kits(random, q.t, &mut q.left);
    }
    if random.one_in(2) {
        spoil_stack(random, q.t, &mut q.right);
    }
    if random.one_in(3) {
        q.t = random.pick(&[4097, 4097, 4098, 65536, 65536 + q.t, 1 << 31, u32::MAX, u32::MAX]);
    }
}

/// Kits and a stack of any kind. The large ones are few.
pub fn query(random: &mut Random) -> FirstQuery {
    let mut q = match random.below(400) {
        0..=7 => many(random),
        8..=11 => full(random),
        12..=59 => long(random),
        60..=219 => small(random),
        220..=259 => empties(random),
        260..=264 => FirstQuery { left: Collection::default(), ..small(random) },
        _ => joined(random),
    };
    if random.one_in(4) {
        add_past(random, &mut q);
    }
    if random.one_in(3) {
        spoil_some(random, &mut q);
    }
    q
}
