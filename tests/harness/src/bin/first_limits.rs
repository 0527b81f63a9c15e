//! The search for the first kit on named kits and stacks, each with the answer that document 02 gives it, written by hand: the limits
//! exactly reached and one beyond, what counts as compared, and which of two causes decides.

use harness::calls;
use harness::oracle::*;
use harness::random::Random;
use harness::run::run_named;

/// The answer as it should be: the place found and the kits compared, or a refusal.
type Should = Result<(Option<usize>, usize), Refusal>;

/// The oracle has what is written, and the library too.
fn searches(t: u32, left: Collection, right: &[u16], should: Should) -> Result<(), String> {
    let q = FirstQuery { t, left, right: right.to_vec() };
    let (is, contained) = match first_refusal(&q) {
        Some(refusal) => (Err(refusal), Vec::new()),
        None => {
            let contained = contained_kits(&q);
            let lowest = contained.first().copied();
            (Ok((lowest, compared(&q, lowest))), contained)
        }
    };
    if is != should {
        return Err(format!("the oracle has {is:?}"));
    }
    calls::first(&mut Random::new(7), &q, &contained)
}

fn finds(t: u32, kits: &[Vec<u16>], right: &[u16], place: usize) -> Result<(), String> {
    searches(t, Collection::of(kits), right, Ok((Some(place), place + 1)))
}

fn finds_none(t: u32, kits: &[Vec<u16>], right: &[u16]) -> Result<(), String> {
    searches(t, Collection::of(kits), right, Ok((None, kits.len())))
}

fn bad_kit(t: u32, kits: &[Vec<u16>], right: &[u16], place: u64) -> Result<(), String> {
    searches(t, Collection::of(kits), right, Err(Refusal(5, 0, place)))
}

fn bad_stack(t: u32, kits: &[Vec<u16>], right: &[u16]) -> Result<(), String> {
    searches(t, Collection::of(kits), right, Err(Refusal(5, 1, 0)))
}

fn bad_t(t: u32, kits: &[Vec<u16>], right: &[u16]) -> Result<(), String> {
    searches(t, Collection::of(kits), right, Err(Refusal(6, 0, 0)))
}

fn run(start: u16, n: u16) -> Vec<u16> {
    (start..start + n).collect()
}

/// The stack lies within the kits' items: what is only read may overlap.
fn overlaps() -> Result<(), String> {
    let items = [0, 1, 2, 4, 5, 2, 4];
    let left = kitfinder::Collection { ends: &[2, 5, 7], items: &items };
    let is = [&items[..2], &items[2..5], &items[3..5], &items[3..]].map(|right| kitfinder::first(6, left, right));
    let [whole, second, none, bad] = is.map(|is| is.map(|first| (first.place, first.compared)));
    let should = (Ok((Some(0), 1)), Ok((Some(1), 2)), Ok((None, 3)), Err(kitfinder::Refusal::BadSet(kitfinder::Side::Right, 0)));
    if (whole, second, none, bad) != should {
        return Err(format!("the answers are {whole:?}, {second:?}, {none:?}, {bad:?}"));
    }
    Ok(())
}

fn main() {
    let mut checks: Vec<(&str, Result<(), String>)> = Vec::new();
    let mut add = |name, result| checks.push((name, result));

    // The shelf of document 01.
    let shelf = [vec![0, 1], vec![1], vec![0, 2, 3]];
    add("the shelf's first stack", finds(4, &shelf, &[0, 1, 2], 0));
    add("the shelf's second stack", finds(4, &shelf, &[1, 3], 1));
    add("the shelf's third stack", finds(4, &shelf, &[0, 2, 3], 2));
    add("a stack with none of the shelf's kits", finds_none(4, &shelf, &[0, 2]));
    add("kits that lack one item each", finds_none(4, &[vec![0, 1, 3], vec![0, 2, 3], vec![1, 2, 3]], &[0, 3]));
    add("an empty stack", finds_none(4, &shelf, &[]));
    add("no kits", finds_none(4, &[], &[1, 3]));
    add("nothing at all", finds_none(0, &[], &[]));
    add("three equal kits", finds(4, &[vec![1, 3], vec![1, 3], vec![1, 3]], &[1, 3], 0));
    add("the stack lies within the kits' items", overlaps());

    // Kits without a tag are passed over, and their places count.
    add("an empty kit, an empty stack and no items", finds_none(0, &[vec![]], &[]));
    add("an empty kit and an empty stack", finds_none(4, &[vec![]], &[]));
    add("an empty kit alone", finds_none(4, &[vec![]], &[1, 3]));
    add("three empty kits", finds_none(4, &vec![vec![]; 3], &[1, 3]));
    add("an empty kit first", finds(4, &[vec![], vec![1]], &[1, 3], 1));
    add("an empty kit first, and none", finds_none(4, &[vec![], vec![0]], &[1, 3]));
    add("two empty kits first", finds(4, &[vec![], vec![], vec![1]], &[1, 3], 2));
    add("an empty kit between one that is not contained and one that is", finds(4, &[vec![0], vec![], vec![1]], &[1, 3], 2));
    add("an empty kit last", finds_none(4, &[vec![0], vec![2], vec![]], &[1, 3]));
    add("an empty kit behind the one found", finds(4, &[vec![0], vec![3], vec![]], &[1, 3], 1));
    add("an empty kit between equal ones", finds(4, &[vec![1, 3], vec![], vec![1, 3]], &[1, 3], 0));
    add("an empty kit before equal ones", finds(4, &[vec![], vec![1, 3], vec![1, 3]], &[1, 3], 1));
    add("empty kits around the shelf's", finds(4, &[vec![], vec![0, 1], vec![], vec![1], vec![], vec![0, 2, 3]], &[0, 2, 3], 5));
    add("an empty kit first, and an empty stack", finds_none(4, &[vec![], vec![1]], &[]));

    // The limits.
    let full: Vec<u16> = run(0, 255);
    add("a stack of 255 items", finds(4096, &[run(1, 255), run(0, 255)], &full, 1));
    add("a stack of 255 items, with the last alone", finds(4096, &[vec![255], vec![254]], &full, 1));
    add("a stack of 256 items", bad_stack(4096, &[vec![1]], &run(0, 256)));
    add("a stack of 256 items and no kits", bad_stack(4096, &[], &run(0, 256)));
    add("a stack of 257 items", bad_stack(4096, &[vec![1]], &run(0, 257)));
    add("a stack of 4,096 items", bad_stack(4096, &[vec![1]], &run(0, 4096)));
    add("a stack of 65,536 items", bad_stack(4096, &[vec![]], &[run(0, 65535), vec![65535]].concat()));
    add("a stack of 65,537 items", bad_stack(4096, &[vec![]], &[run(0, 65535), vec![65535, 65535]].concat()));
    add("a kit of 256 items", bad_kit(4096, &[vec![], run(0, 256)], &full, 1));
    let (edge, far) = ([vec![4094], vec![4095]], [vec![4095], vec![0, 4095]]);
    add("the greatest item", finds(4096, &edge, &[4095], 1));
    add("the least and the greatest item", finds(4096, &[vec![1, 4095], vec![0, 4095]], &[0, 4095], 1));
    add("the greatest item beside T of 4,095", bad_kit(4095, &edge, &[4094], 1));
    add("the greatest item in the stack alone, beside T of 4,095", bad_stack(4095, &[vec![1]], &[1, 4095]));
    add("items that differ by 64, 256 and 2,048", finds_none(4096, &[vec![71], vec![263], vec![2055], vec![4039]], &[7]));
    add("a part that differs by 256", finds(4096, &[far[1].clone(), vec![0, 3839]], &[0, 3839], 1));
    let single: Vec<Vec<u16>> = (0..4097).map(|k| vec![(k % 4096) as u16]).collect();
    add("4,096 kits, the first", finds(4096, &single[..4096], &[0, 4095], 0));
    add("4,096 kits, the last", finds(4096, &single[..4096], &[4095], 4095));
    add("4,096 kits, none", finds_none(4096, &single[..4096], &[]));
    add("4,096 empty kits", finds_none(0, &vec![vec![]; 4096], &[]));
    add("4,096 empty kits and 255 items", finds_none(4096, &vec![vec![]; 4096], &full));
    add("4,095 empty kits and a last one", finds(4096, &[vec![vec![]; 4095], vec![vec![7]]].concat(), &full, 4095));
    add("a first kit and 4,095 empty ones", finds(4096, &[vec![vec![7]], vec![vec![]; 4095]].concat(), &full, 0));
    add("4,097 kits", bad_kit(4096, &single, &[0], 4096));
    add("4,097 empty kits", bad_kit(0, &vec![vec![]; 4097], &[], 4096));
    let mut entries: Vec<Vec<u16>> = (0..257).map(|k| run(15 * k % 3841, 255)).collect();
    add("65,535 entries, the last kit", finds(4096, &entries, &entries[256], 256));
    let after_empty: Vec<Vec<u16>> = [vec![vec![]], entries.clone()].concat();
    add("an empty kit and 65,535 entries, the last kit", finds(4096, &after_empty, &entries[256], 257));
    entries.push(Vec::new());
    add("65,535 entries and an empty kit", finds_none(4096, &entries, &[]));
    entries[257] = vec![7];
    add("65,536 entries", bad_kit(4096, &entries, &[7], 257));

    // Ends, and items beyond the last one.
    let left = |ends: &[u32], items: &[u16]| Collection { ends: ends.to_vec(), items: items.to_vec() };
    let kits = [vec![0], vec![3], vec![5]];
    add("the items of a kit beyond the last end", searches(6, left(&[1, 2], &[0, 3, 5]), &[5], Ok((None, 2))));
    add("items of T beyond the last end", searches(6, left(&[1, 2], &[0, 3, 6, 6, 65535]), &[3], Ok((Some(1), 2))));
    add("the items of the stack beyond the end of an empty kit", searches(6, left(&[0], &[0, 3, 5]), &[0, 3, 5], Ok((None, 1))));
    add("items and no ends", searches(6, left(&[], &[0, 3, 5]), &[0, 3, 5], Ok((None, 0))));
    add("an end that falls", searches(6, left(&[2, 1], &[0, 3]), &[0, 3], Err(Refusal(5, 0, 1))));
    add("an end beyond the items", searches(6, left(&[1, 3], &[0, 3]), &[0, 3], Err(Refusal(5, 0, 1))));
    add("an end and no items", searches(6, left(&[1], &[]), &[0, 3], Err(Refusal(5, 0, 0))));
    add("an end of 65,536 more", searches(6, left(&[1, 65538], &[0, 3]), &[0, 3], Err(Refusal(5, 0, 1))));
    add("an end of 2^32-1", searches(6, left(&[u32::MAX], &[0, 3]), &[0, 3], Err(Refusal(5, 0, 0))));
    add("a kit that begins below the end of the one before", finds(6, &[vec![4, 5], vec![0, 1]], &[0, 1, 5], 1));

    // Items that don't rise, and items of T.
    add("equal neighbours in a kit", bad_kit(6, &[vec![0], vec![3, 3]], &[0, 3], 1));
    add("a fall in a kit", bad_kit(6, &[vec![0], vec![3, 5, 4]], &[0, 3], 1));
    add("equal neighbours in the stack", bad_stack(6, &kits, &[3, 3]));
    add("equal neighbours at the end of the stack", bad_stack(6, &kits, &[0, 3, 5, 5]));
    add("a fall in the stack", bad_stack(6, &kits, &[3, 0]));
    add("a fall at the end of the stack", bad_stack(6, &kits, &[0, 3, 5, 4]));
    add("T less one in kit and stack", finds(6, &kits, &[5], 2));
    add("an item of T in a kit", bad_kit(5, &kits, &[0], 2));
    add("an item of T in the stack", bad_stack(6, &kits, &[0, 6]));
    add("an item of T of 0", bad_stack(0, &[vec![]], &[0]));
    add("an item of 65,535 in the stack", bad_stack(6, &kits, &[0, 65535]));

    // All is tested before any kit is compared, in this order.
    add("a bad kit behind one that is contained", bad_kit(6, &[vec![], vec![0], vec![6]], &[0], 2));
    add("a bad kit behind empty ones", bad_kit(6, &[vec![], vec![], vec![6]], &[0], 2));
    add("a bad stack, and an empty kit first", bad_stack(6, &[vec![], vec![0]], &[3, 3]));
    add("a bad stack, and empty kits alone", bad_stack(6, &[vec![], vec![]], &[3, 3]));
    add("two bad kits", bad_kit(6, &[vec![0], vec![6], vec![3, 3]], &[0], 1));
    add("a bad kit and a bad stack", bad_kit(6, &[vec![0], vec![3, 3]], &[3, 3], 1));
    add("T of 4,097", bad_t(4097, &kits, &[5]));
    add("T of 4,097 without kits", bad_t(4097, &[], &[]));
    add("T of 65,536", bad_t(65536, &kits, &[5]));
    add("T of 65,542", bad_t(65542, &kits, &[5]));
    add("T of 2^32-1", bad_t(u32::MAX, &kits, &[5]));
    add("T of 4,097 and a bad kit", bad_t(4097, &[vec![3, 3]], &[5]));
    add("T of 4,097 and a bad stack", bad_t(4097, &kits, &[3, 3]));
    add("T of 4,097 and both", bad_t(4097, &[vec![3, 3]], &run(0, 256)));

    run_named(checks.into_iter().map(|(name, result)| (name.to_string(), result)).collect());
}
