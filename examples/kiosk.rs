//! A kiosk in Rust: reads a tag file, and prints each kit that a stack holds whole; a kit without tags never is. A wide kiosk has two
//! pads: with the file of the second, stacks of one number are pooled. Where reads were repeats, it tells the installer how many, on
//! standard error. Ends with 0 for a list, 1 for a refusal, 2 where reading or writing failed.
//! Usage: kiosk FILE [SECOND]

use kitfinder::TagFile;
use std::ffi::OsStr;
use std::io::{self, Write};
use std::process::ExitCode;

fn fail(what: &str) -> ExitCode {
    eprintln!("kiosk: {what}");
    ExitCode::from(2)
}

fn print(pairs: &[(u16, u16)]) -> io::Result<()> {
    let mut output = io::BufWriter::new(io::stdout().lock());
    for (kit, stack) in pairs {
        writeln!(output, "kit {kit} is whole in stack {stack}")?;
    }
    output.flush()
}

fn tell_repeats(file: &TagFile) {
    let (kits, stacks) = (file.kit_repeats(), file.stack_repeats());
    if kits + stacks > 0 {
        eprintln!("kiosk: repeated reads: {kits} of kits, {stacks} of stacks");
    }
}

fn read(path: &OsStr) -> Result<Vec<u8>, String> {
    std::fs::read(path).map_err(|error| format!("{}: {error}", path.to_string_lossy()))
}

fn main() -> ExitCode {
    let paths: Vec<_> = std::env::args_os().skip(1).collect();
    let files: Vec<Vec<u8>> = match paths.iter().map(|path| read(path)).collect() {
        Ok(files) => files,
        Err(error) => return fail(&error),
    };
    let loaded = match &files[..] {
        [file] => TagFile::load(file),
        [first, second] => TagFile::load_pooled(first, second),
        _ => return fail("usage: kiosk FILE [SECOND]"),
    };
    let pairs = match loaded.inspect(tell_repeats).and_then(|loaded| loaded.whole_kits()) {
        Ok(pairs) => pairs,
        Err(refusal) => {
            eprintln!("kiosk: {refusal}");
            return ExitCode::from(1);
        }
    };
    match print(&pairs) {
        Ok(()) => ExitCode::SUCCESS,
        Err(error) => fail(&format!("the list was not written: {error}")),
    }
}
