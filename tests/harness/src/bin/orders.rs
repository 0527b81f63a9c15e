//! The order of items on random collections, rising and falling, against the oracle.

use harness::joins::{collections, spoil};
use harness::{calls, oracle::OrderQuery, run::Plan};

fn main() {
    Plan::from_args(30_000).run("orders", |random, print| {
        let (t, left, right) = collections(random);
        let mut q = OrderQuery { t, left, right, falling: random.one_in(2), places: t as usize };
        if random.one_in(4) {
            match random.below(5) {
                0 => q.places = random.below(2 * q.places + 2),
                1 => q.t = random.pick(&[4096, 4097, u32::MAX]),
                2 => (q.t, q.places) = (4097, 4097),
                3 => spoil(random, q.t, &mut q.left),
                _ => spoil(random, q.t, &mut q.right),
            }
        }
        if print {
            println!("{q:?}");
        }
        calls::order(random, &q)
    });
}
