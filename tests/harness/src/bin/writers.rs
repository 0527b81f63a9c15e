//! The writer on random collections with room around the need.

use harness::files::write_query;
use harness::{calls, run::Plan};

fn main() {
    Plan::from_args(60_000).run("writers", |random, print| {
        let q = write_query(random);
        if print {
            println!("{q:?}");
        }
        calls::write(random, &q).map(|_| ())
    });
}
