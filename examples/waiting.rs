//! The waiting screen in Rust: reads a tag file, and says of each stack which kit it holds whole first, and how many kits were compared,
//! those without tags included, which are whole in no stack.
//! Ends with 0 for a list, 1 for a refusal, 2 where reading or writing failed.
//! Usage: waiting FILE

use kitfinder::{First, Refusal, TagFile};
use std::io::{self, Write};
use std::process::ExitCode;

fn fail(what: &str) -> ExitCode {
    eprintln!("waiting: {what}");
    ExitCode::from(2)
}

/// A loaded file, and what the screen needs of each of its stacks.
fn find(bytes: &[u8]) -> Result<(TagFile, Vec<First>), Refusal> {
    let file = TagFile::load(bytes)?;
    let kits = file.kits().collection();
    let found = file.stacks().iter().map(|stack| kitfinder::first(file.t(), kits, stack)).collect::<Result<_, _>>()?;
    Ok((file, found))
}

fn print(file: &TagFile, found: &[First]) -> io::Result<()> {
    let mut output = io::BufWriter::new(io::stdout().lock());
    for (stack, first) in file.stack_numbers().iter().zip(found) {
        match first.place {
            Some(place) => write!(output, "stack {stack}: kit {} is whole", file.kit_numbers()[place])?,
            None => write!(output, "stack {stack}: no kit is whole")?,
        }
        writeln!(output, ", kits compared: {}", first.compared)?;
    }
    output.flush()
}

fn main() -> ExitCode {
    let paths: Vec<_> = std::env::args_os().skip(1).collect();
    let [path] = &paths[..] else { return fail("usage: waiting FILE") };
    let bytes = match std::fs::read(path) {
        Ok(bytes) => bytes,
        Err(error) => return fail(&format!("{}: {error}", path.to_string_lossy())),
    };
    let (file, found) = match find(&bytes) {
        Ok(both) => both,
        Err(refusal) => {
            eprintln!("waiting: {refusal}");
            return ExitCode::from(1);
        }
    };
    match print(&file, &found) {
        Ok(()) => ExitCode::SUCCESS,
        Err(error) => fail(&format!("the list was not written: {error}")),
    }
}
