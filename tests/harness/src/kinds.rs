//! Kinds of cases, and how many cases there were of each.

use crate::run::Plan;

/// How many cases there were of each kind, by name.
pub struct Tally<const N: usize> {
    names: [&'static str; N],
    counts: [u64; N],
}

impl<const N: usize> Tally<N> {
    /// No case yet of the kinds, each with its name and the test of it.
    pub fn new<F>(kinds: &[(&'static str, F); N]) -> Tally<N> {
        Tally { names: kinds.each_ref().map(|(name, _)| *name), counts: [0; N] }
    }

    /// Counts one case under each kind that it is of, by the answers of the kinds' tests in their order.
    pub fn add(&mut self, is_of: [bool; N]) {
        self.counts.iter_mut().zip(is_of).for_each(|(count, is_of)| *count += u64::from(is_of));
    }

    /// Prints the counts, and says whether each kind was there.
    pub fn report(&self) -> bool {
        self.names.iter().zip(self.counts).for_each(|(name, count)| println!("{count:7}  {name}"));
        !self.counts.contains(&0)
    }
}

/// Ends the program where a kind was missed in a run of so many cases or more.
pub fn expect_all(name: &str, plan: &Plan, enough: u64, is_covered: bool) {
    if !is_covered && plan.only.is_none() && plan.cases >= enough {
        println!("FAILED {name}: the generator missed a kind of case");
        std::process::exit(1);
    }
}
