//! `kitfinder first`: the first kit that one stack contains.

use crate::arguments::Arguments;
use crate::files::Files;
use crate::{failed, refused, Command, Failure};
use kitfinder::{Refusal, TagFile};

pub const COMMAND: Command = Command {
    name: "first",
    summary: "finds the first kit that one stack contains",
    help: "\
Usage: kitfinder first FILE STACK
Finds the first kit of a tag file, by its place there, whose tags all lie in the stack with the number STACK, and compares no further:
what a waiting screen shows. It prints \"first\" and the kit's number, or \"none\", then \"compared\" and how many kits were compared. A kit
without tags is never found, but is among those compared.
A refusal is printed as \"refused\", its number and its detail, and ends with status 1; a stack that the file doesn't have ends with 2.

Example: kitfinder first examples/library.tags 1
",
    options: &[],
    run,
};

fn run(arguments: &Arguments, files: &Files) -> Result<(), Failure> {
    let words = arguments.words("FILE STACK", 2, 2)?;
    let Some(number) = words[1].to_str().and_then(|text| text.parse::<u16>().ok()) else {
        return arguments.wrong("STACK is a number from 0 to 65535");
    };
    let bytes = files.read(words[0])?;
    match find(&bytes, number) {
        Ok(Some((kit, compared))) => {
            let kit = kit.map_or("none".into(), |kit| kit.to_string());
            files.print("the kit", |output| writeln!(output, "first {kit} compared {compared}"))
        }
        Ok(None) => failed(format!("the file has no stack {number}")),
        Err(refusal) => {
            files.print("the refusal", |output| output.write_all(refused::line(refusal).as_bytes()))?;
            refused::failure("no kit", refusal, bytes.len())
        }
    }
}

/// The number of the first kit, where there is one, and how many were compared; `None` where the file has no such stack.
fn find(bytes: &[u8], number: u16) -> Result<Option<(Option<u16>, usize)>, Refusal> {
    let file = TagFile::load(bytes)?;
    let Some(place) = file.stack_numbers().iter().position(|stack| *stack == number) else { return Ok(None) };
    let found = kitfinder::first(file.t(), file.kits().collection(), file.stacks().get(place).unwrap_or_default())?;
    Ok(Some((found.place.map(|kit| file.kit_numbers()[kit]), found.compared)))
}
