//! Loading a file, writing what was loaded and loading it again: the second file is the first with kits before stacks, its tags
//! rising and no repeats, so that it is shorter by these, and both loads give the same but for the repeats. Over each the join lists the
//! kits that are whole by their tags. The last lines have how many files there were of each kind, and a kind without a file fails the run.

use harness::files::file;
use harness::kinds::{expect_all, Tally};
use harness::oracle::{load, LoadedFile, WriteQuery};
use harness::whole::{compare, kinds_of, KINDS};
use harness::{calls, run::Plan};
use kitfinder::TagFile;

/// A kind of file by its repeats.
type Kind = (&'static str, fn(&LoadedFile) -> bool);
const REPEATS: [Kind; 4] = [
    ("no repeat, and tags", |file| file.repeats == [0, 0] && !file.tags.is_empty()),
    ("repeats of kits alone", |file| file.repeats[0] > 0 && file.repeats[1] == 0),
    ("repeats of stacks alone", |file| file.repeats[0] == 0 && file.repeats[1] > 0),
    ("repeats of both", |file| file.repeats[0] > 0 && file.repeats[1] > 0),
];

fn main() {
    let plan = Plan::from_args(20_000);
    let mut tally = Tally::new(&KINDS);
    let mut repeats = Tally::new(&REPEATS);
    plan.run("round trips", |random, print| {
        let bytes = file(random);
        let Ok(loaded) = load(&bytes) else { return Ok(()) };
        if print {
            println!("{bytes:02X?}\n{loaded:?}");
        }
        tally.add(kinds_of(&loaded));
        repeats.add(REPEATS.map(|(_, is_of)| is_of(&loaded)));
        calls::load_into(random, &bytes, calls::lengths_needed(&loaded), &Ok(loaded.clone()))?;
        let q = WriteQuery {
            t: loaded.tags.len() as u32,
            tags: loaded.tags.concat(),
            left_numbers: loaded.sides[0].numbers.clone(),
            left: loaded.collection(0),
            right_numbers: loaded.sides[1].numbers.clone(),
            right: loaded.collection(1),
            room: bytes.len(),
        };
        let again = calls::write(random, &q)?.ok_or("the writer refused what was loaded")?;
        let should = loaded.without_repeats();
        if load(&again).as_ref() != Ok(&should) {
            return Err("the written file holds something else".into());
        }
        for (file, loaded) in [(&bytes, &loaded), (&again, &should)] {
            let owned = TagFile::load(file).map_err(|refusal| refusal.to_string())?;
            compare(&owned, loaded)?;
            let repeats = [owned.left_repeats(), owned.right_repeats()];
            if repeats != loaded.repeats || file.len() != again.len() + 12 * (repeats[0] + repeats[1]) {
                return Err(format!("{} bytes, {} once written, with repeats {repeats:?}", file.len(), again.len()));
            }
        }
        calls::load_into(random, &again, calls::lengths_needed(&should), &Ok(should))
    });
    expect_all("round trips", &plan, 10_000, tally.report() & repeats.report());
}
