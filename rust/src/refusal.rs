//! Why an operation gave no result.

use crate::Side;
use std::fmt;

/// Why an operation gave no result: the rows of the refusal table. Later versions may have more.
///
/// ```
/// let refusal = kitfinder::TagFile::load(b"KX\x00\x00\x00").unwrap_err();
/// assert_eq!(refusal.number(), 1);
/// assert_eq!(refusal.to_string(), "refused with 1: a record with another mark, or cut short, at byte 0");
/// ```
#[derive(Clone, Copy, Debug, PartialEq, Eq, Hash)]
#[non_exhaustive]
pub enum Refusal {
    /// 1: a record with another mark, or cut short, at a byte place.
    Malformed(usize),
    /// 2: a record's number was used before by the same kind; its byte place.
    NumberUsed(usize),
    /// 3: a record passes a limit of sets, entries or tags; its byte place.
    TooMany(usize),
    /// 4: an output list of the loader or writer is too short.
    ShortOutput,
    /// 5: a bad set, or numbers not as many as the sets; the side and the set's place.
    BadSet(Side, usize),
    /// 6: limit, ranks, `t`, or the length of the tag table.
    BadSettings,
    /// 7: the work list is too short.
    ShortWork,
    /// 8: more checks than the budget (the allowance).
    Spent,
    /// 9: the pair list is too short.
    ShortPairs,
    /// 10: the pooled stack of a record of the second file has over 255 tags; the record's byte place.
    Overlong(usize),
}

impl Refusal {
    /// Its number in the refusal table.
    pub fn number(&self) -> u32 {
        match self {
            Refusal::Malformed(_) => 1,
            Refusal::NumberUsed(_) => 2,
            Refusal::TooMany(_) => 3,
            Refusal::ShortOutput => 4,
            Refusal::BadSet(..) => 5,
            Refusal::BadSettings => 6,
            Refusal::ShortWork => 7,
            Refusal::Spent => 8,
            Refusal::ShortPairs => 9,
            Refusal::Overlong(_) => 10,
        }
    }

    /// The first number that is returned with it: a byte place, the side of a bad set (0 for kits, 1 for stacks), or 0.
    pub fn detail(&self) -> usize {
        match self {
            Refusal::Malformed(at) | Refusal::NumberUsed(at) | Refusal::TooMany(at) | Refusal::Overlong(at) => *at,
            Refusal::BadSet(Side::Right, _) => 1,
            _ => 0,
        }
    }
}

impl fmt::Display for Refusal {
    fn fmt(&self, f: &mut fmt::Formatter) -> fmt::Result {
        write!(f, "refused with {}: ", self.number())?;
        match self {
            Refusal::Malformed(at) => write!(f, "a record with another mark, or cut short, at byte {at}"),
            Refusal::NumberUsed(at) => write!(f, "a record's number was used before by the same kind, at byte {at}"),
            Refusal::TooMany(at) => write!(f, "a record passes a limit of sets, entries or tags, at byte {at}"),
            Refusal::ShortOutput => write!(f, "an output list is too short"),
            Refusal::BadSet(Side::Left, place) => write!(f, "the kit at place {place} is bad, or kits and numbers differ in count there"),
            Refusal::BadSet(Side::Right, place) => {
                write!(f, "the stack at place {place} is bad, or stacks and numbers differ in count there")
            }
            Refusal::BadSettings => write!(f, "the limit, the ranks, t or the tag table's length"),
            Refusal::ShortWork => write!(f, "the work list is too short"),
            Refusal::Spent => write!(f, "more checks than the allowance"),
            Refusal::ShortPairs => write!(f, "the pair list is too short"),
            Refusal::Overlong(at) => write!(f, "the pooled stack of a record has over 255 tags, at byte {at}"),
        }
    }
}

impl std::error::Error for Refusal {}

/// The refusal of an answer, or that there is none.
pub(crate) fn accepted(answer: &[u64]) -> Result<(), Refusal> {
    let place = answer[1] as usize;
    Err(match answer[0] {
        0 => return Ok(()),
        1 => Refusal::Malformed(place),
        2 => Refusal::NumberUsed(place),
        3 => Refusal::TooMany(place),
        4 => Refusal::ShortOutput,
        5 if answer[1] == 0 => Refusal::BadSet(Side::Left, answer[2] as usize),
        5 => Refusal::BadSet(Side::Right, answer[2] as usize),
        6 => Refusal::BadSettings,
        7 => Refusal::ShortWork,
        8 => Refusal::Spent,
        9 => Refusal::ShortPairs,
        10 => Refusal::Overlong(place),
        n => unreachable!("the library has no refusal {n}"),
    })
}
