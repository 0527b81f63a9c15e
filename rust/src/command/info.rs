//! `kitfinder info`: what a tag file has, and what `kitlist` would say to it.

use crate::arguments::Arguments;
use crate::files::Files;
use crate::{refused, Command, Failure};
use kitfinder::{Refusal, Sets, TagFile};

pub const COMMAND: Command = Command {
    name: "info",
    summary: "says what a tag file has, and what kitlist would say to it",
    help: "\
Usage: kitfinder info FILE
Says what a tag file has, a line each:
  bytes      its length
  kits       how many, their tags, how many tags the longest has, and how many reads were repeats
  stacks     the same
  tags       how many distinct ones
  n          kits + stacks + their tags + distinct tags, by which the work list grows
  kitlist    what kitlist would say: a list and of how many pairs, or a refusal and its cause
A refusal of the file itself is printed as \"refused\", its number and its detail, and ends with status 1.

Example: kitfinder info examples/library.tags
",
    options: &[],
    run,
};

/// What `kitlist` takes.
const LONGEST_FILE: usize = 65_536;
const GREATEST_N: usize = 1_020;
const MOST_PAIRS: usize = 8_192;

fn run(arguments: &Arguments, files: &Files) -> Result<(), Failure> {
    let words = arguments.words("FILE", 1, 1)?;
    let bytes = files.read(words[0])?;
    match inform(&bytes) {
        Ok(text) => files.print("the information", |output| output.write_all(text.as_bytes())),
        Err(refusal) => {
            let line = refused::line(refusal);
            let cause = || format!("{}, since {}", line.trim_end(), refused::cause(refusal, bytes.len()));
            let kitlist = too_long(&bytes).unwrap_or_else(cause);
            files.print("the refusal", |output| writeln!(output, "{line}kitlist: {kitlist}"))?;
            refused::failure("no information", refusal, bytes.len())
        }
    }
}

/// The lines of a file that is accepted.
fn inform(bytes: &[u8]) -> Result<String, Refusal> {
    let file = TagFile::load(bytes)?;
    let (kits, stacks) = (side(file.kits(), file.kit_repeats()), side(file.stacks(), file.stack_repeats()));
    let (length, tags, n, kitlist) = (bytes.len(), file.t(), n(&file), kitlist(bytes, &file)?);
    Ok(format!("bytes {length}\nkits {kits}\nstacks {stacks}\ntags {tags}\nn {n}\nkitlist: {kitlist}\n"))
}

/// A side's sets, tags, longest set and repeats.
fn side(sets: &Sets, repeats: usize) -> String {
    let longest = sets.iter().map(<[u16]>::len).max().unwrap_or(0);
    format!("{} tags {} longest {longest} repeats {repeats}", sets.len(), entries(sets))
}

fn entries(sets: &Sets) -> usize {
    sets.iter().map(<[u16]>::len).sum()
}

fn n(file: &TagFile) -> usize {
    file.kits().len() + file.stacks().len() + entries(file.kits()) + entries(file.stacks()) + file.t() as usize
}

/// What `kitlist` says to a file that is longer than it takes.
fn too_long(bytes: &[u8]) -> Option<String> {
    (bytes.len() > LONGEST_FILE).then(|| "refused 7 0, since the file is longer than 65,536 bytes".into())
}

/// What `kitlist` says to a file that the loader accepts. Only where nothing before refuses does it come to the pairs.
fn kitlist(bytes: &[u8], file: &TagFile) -> Result<String, Refusal> {
    if let Some(refused) = too_long(bytes) {
        return Ok(refused);
    }
    if n(file) > GREATEST_N {
        return Ok("refused 7 0, since n is more than 1,020".into());
    }
    let pairs = file.whole_kits()?.len();
    if pairs > MOST_PAIRS {
        return Ok(format!("refused 9 0, since there are {pairs} pairs, more than 8,192"));
    }
    Ok(format!("a list of {pairs} pairs"))
}
