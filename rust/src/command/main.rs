//! The program kitfinder: the proved library on the command line, for files of any size that the library takes. A subcommand is a module
//! here and a line of `COMMANDS`; what they share is how arguments are read (`arguments`), how files are read and written (`files`) and
//! what is said of a refusal (`refused`). The exit status is 0 for a result, 1 for a refusal, 2 for wrong arguments or where reading or
//! writing failed.
//!
//! `main` is C's own: Rust's opens /dev/null for a standard file that is closed, and a list that goes there would look as if it were
//! written. It also leaves the signal of a broken pipe as it is, so that this ends the program as it ends any filter.
#![no_main]

mod arguments;
mod files;
mod first;
mod info;
mod list;
mod refused;
mod write;

use arguments::Arguments;
use files::Files;
use std::ffi::{c_int, OsString};

/// A subcommand.
struct Command {
    name: &'static str,
    /// What it does, in a few words.
    summary: &'static str,
    /// What its `--help` says.
    help: &'static str,
    /// Its options, each of which takes a value.
    options: &'static [&'static str],
    run: fn(&Arguments, &Files) -> Result<(), Failure>,
}

const COMMANDS: [Command; 4] = [list::COMMAND, first::COMMAND, info::COMMAND, write::COMMAND];

const USAGE: &str = "\
Usage: kitfinder COMMAND ..
Finds the kits of a tag file whose tags all lie in a stack: for files of up to 4,096 kits and 4,096 stacks, of up to 65,535 tags each.
";

const HELP: &str = "
  kitfinder COMMAND --help   says what a command takes
  kitfinder --version        says the version

A FILE that is - is standard input. After -- a name may begin with -.
Status: 0 for a result; 1 for a refusal, which is told in words on standard error; 2 for wrong arguments, or where reading or writing
fails, with a line on standard error.

Example: kitfinder list examples/library.tags
";

/// Why there is no result.
enum Failure {
    /// The library refused, with what that means: status 1.
    Refused(String),
    /// Arguments that can't be, a failed read or a failed write: status 2.
    Failed(String),
    /// Whoever read the output has gone away: status 2 and no word.
    Gone,
}

/// Fails with status 2.
fn failed<T>(what: impl Into<String>) -> Result<T, Failure> {
    Err(Failure::Failed(what.into()))
}

/// What the program's own `--help` says.
fn help() -> String {
    let lines = COMMANDS.map(|command| format!("  {:8} {}\n", command.name, command.summary));
    format!("{USAGE}\n{}{HELP}", lines.concat())
}

fn run(mut words: impl Iterator<Item = OsString>, files: &Files) -> Result<(), Failure> {
    let Some(name) = words.next() else {
        return failed("which command? kitfinder --help names them");
    };
    let text = match name.to_string_lossy().as_ref() {
        "--help" | "-h" => help(),
        "--version" => format!("kitfinder {}\n", env!("CARGO_PKG_VERSION")),
        name => {
            let Some(command) = COMMANDS.iter().find(|command| command.name == name) else {
                return failed(format!("there is no command {name}; kitfinder --help names them"));
            };
            match Arguments::read(command, words)? {
                Some(arguments) => return (command.run)(&arguments, files),
                None => command.help.into(),
            }
        }
    };
    files.print("the text", |output| output.write_all(text.as_bytes()))
}

#[no_mangle]
pub extern "C" fn main() -> c_int {
    let files = Files::standard();
    let (status, what) = match run(std::env::args_os().skip(1), &files) {
        Ok(()) => (0, None),
        Err(Failure::Refused(what)) => (1, Some(what)),
        Err(Failure::Failed(what)) => (2, Some(what)),
        Err(Failure::Gone) => (2, None),
    };
    if let Some(what) = what {
        files::say(&what);
    }
    status
}
