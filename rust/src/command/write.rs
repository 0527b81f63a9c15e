//! `kitfinder write`: a tag file as the writer makes it.

use crate::arguments::Arguments;
use crate::files::Files;
use crate::{refused, Command, Failure};
use kitfinder::TagFile;

pub const COMMAND: Command = Command {
    name: "write",
    summary: "writes a tag file anew: kits before stacks, tags rising, no repeats",
    help: "\
Usage: kitfinder write FILE OUT
Loads a tag file and writes what it holds to OUT, or to standard output where OUT is -: the kits, then the stacks, each record with its
tags rising and without repeats. Files that hold the same kits and stacks in the same order become the same bytes, and loading OUT gives
what loading FILE gave, without the repeats. An OUT that is there is written over, unless it is FILE itself. A refusal ends with status 1,
and OUT is as it was.

Example: kitfinder write examples/library.tags - | kitfinder info -
",
    options: &[],
    run,
};

fn run(arguments: &Arguments, files: &Files) -> Result<(), Failure> {
    let words = arguments.words("FILE OUT", 2, 2)?;
    let bytes = files.read(words[0])?;
    match TagFile::load(&bytes).and_then(|file| file.write()) {
        Ok(written) => files.write(words[1], &written, words[0]),
        Err(refusal) => refused::failure("nothing is written", refusal, bytes.len()),
    }
}
