//! The whole kits of a loaded file: what the library finds over the lists that a loader filled, compared with the oracle's containment of
//! tags; and the kinds of files by their empty kits.

use crate::oracle::LoadedFile;
use kitfinder::TagFile;
use std::collections::HashMap;

/// The join lists the kits that are whole by their tags, and the search finds the first of these for each stack.
pub fn compare(file: &TagFile, loaded: &LoadedFile) -> Result<(), String> {
    let whole = loaded.whole_kits();
    let joined = file.whole_kits();
    if joined.as_ref() != Ok(&whole) {
        return Err(format!("the join lists {joined:?} and the whole kits are {whole:?}"));
    }
    let first_of: HashMap<u16, u16> = whole.iter().rev().map(|&(kit, stack)| (stack, kit)).collect();
    for (place, number) in loaded.sides[1].numbers.iter().enumerate() {
        let first = file.first_kit(file.right().get(place).ok_or("a stack is not there")?);
        let should = first_of.get(number).copied();
        if first != Ok(should) {
            return Err(format!("the first kit of stack {number} is {first:?} and should be {should:?}"));
        }
    }
    Ok(())
}

/// A kind of file by its empty kits.
pub type Kind = (&'static str, fn(&LoadedFile) -> bool);
pub const KINDS: [Kind; 7] = [
    ("an empty kit first, and whole kits", |file| is_empty(file, 0) && has_whole(file)),
    ("an empty kit last, and whole kits", |file| is_empty(file, file.sides[0].sets.len().wrapping_sub(1)) && has_whole(file)),
    ("several empty kits, and whole ones", |file| empty_kits(file) > 1 && has_whole(file)),
    ("an empty kit and an empty stack", |file| empty_kits(file) > 0 && file.sides[1].sets.iter().any(Vec::is_empty)),
    ("an empty kit alone, and stacks", |file| has_only_empty(file) && empty_kits(file) == 1 && !file.sides[1].sets.is_empty()),
    ("several kits, all empty, and stacks", |file| has_only_empty(file) && empty_kits(file) > 1 && !file.sides[1].sets.is_empty()),
    ("only empty kits, and no stack", |file| has_only_empty(file) && file.sides[1].sets.is_empty()),
];

/// Of which kinds a file is.
pub fn kinds_of(file: &LoadedFile) -> [bool; KINDS.len()] {
    KINDS.map(|(_, is_of)| is_of(file))
}

fn is_empty(file: &LoadedFile, place: usize) -> bool {
    file.sides[0].sets.get(place).is_some_and(Vec::is_empty)
}

fn empty_kits(file: &LoadedFile) -> usize {
    file.sides[0].sets.iter().filter(|kit| kit.is_empty()).count()
}

fn has_only_empty(file: &LoadedFile) -> bool {
    empty_kits(file) > 0 && empty_kits(file) == file.sides[0].sets.len()
}

fn has_whole(file: &LoadedFile) -> bool {
    !file.whole_kits().is_empty()
}
