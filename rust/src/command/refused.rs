//! What is said of a refusal: its line, and why it came.

use crate::Failure;
use kitfinder::Refusal;

/// The line of a refusal, as `kitlist` has it.
pub fn line(refusal: Refusal) -> String {
    format!("refused {} {}\n", refusal.number(), refusal.detail())
}

/// Fails by a refusal, in words. Of two files the first has so many bytes; the places of the second count on from them.
pub fn failure<T>(what: &str, refusal: Refusal, first_bytes: usize) -> Result<T, Failure> {
    Err(Failure::Refused(format!("{what}: {}", cause(refusal, first_bytes))))
}

/// Why a refusal came.
pub fn cause(refusal: Refusal, first_bytes: usize) -> String {
    let record = |at: usize| match at.checked_sub(first_bytes) {
        None => format!("the record at byte {at}"),
        Some(second) => format!("the record at byte {second} of the second file"),
    };
    match refusal {
        Refusal::Malformed(at) => format!("{} has another mark, or is cut short", record(at)),
        Refusal::NumberUsed(at) => format!("{} has a number that its kind used before", record(at)),
        Refusal::TooMany(at) => {
            format!("{} passes a limit: 4,096 kits or stacks, 65,535 tags a side, 4,096 distinct tags", record(at))
        }
        Refusal::BadSettings => "the limit is from 1 to 255".into(),
        Refusal::Spent => "more checks were needed than the allowance".into(),
        Refusal::Overlong(at) => format!("the pooled stack of {} has more than 255 tags", record(at)),
        other => other.to_string(),
    }
}
