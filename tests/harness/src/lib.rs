//! What the tests share: a random source, plain oracles that follow document 01 and share no code with the library, lent lists
//! with guards around them, generators, and the comparison of a call with its oracle.

pub mod borders;
pub mod calls;
pub mod files;
pub mod firsts;
pub mod joins;
pub mod kinds;
pub mod lent;
pub mod oracle;
pub mod pads;
pub mod programs;
pub mod random;
pub mod records;
pub mod run;
pub mod whole;
