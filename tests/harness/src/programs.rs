//! Programs that are run from outside: how they end and what they print, and the lines of a list as kitlist and kitfinder print it.

use crate::oracle::{Counts, Refusal};
use crate::random::Random;
use std::ffi::OsStr;
use std::fmt::Write as _;
use std::io::Write as _;
use std::process::{Command, Stdio};

/// How a program ended.
#[derive(Debug)]
pub struct Ended {
    pub status: Option<i32>,
    pub output: Vec<u8>,
    pub errors: String,
}

/// The name of a program: that of a variable, or where it is built.
pub fn program(variable: &str, built: &str) -> String {
    std::env::var(variable).unwrap_or_else(|_| built.into())
}

/// Runs a program on standard input. Half of the time the bytes come in two pieces.
pub fn run(program: &str, arguments: &[impl AsRef<OsStr>], input: &[u8], random: &mut Random) -> Result<Ended, String> {
    let piped = Stdio::piped;
    let mut command = Command::new(program);
    let child = command.args(arguments).stdin(piped()).stdout(piped()).stderr(piped()).spawn();
    let mut child = child.map_err(|error| format!("{program}: {error}"))?;
    let mut to = child.stdin.take().expect("the input is piped");
    let cut = if random.one_in(2) { random.below(input.len() + 1) } else { 0 };
    let pieces = [input[..cut].to_vec(), input[cut..].to_vec()];
    // the program may stop reading once the file is too long
    let feeder = std::thread::spawn(move || pieces.iter().try_for_each(|piece| to.write_all(piece).and(to.flush())).is_ok());
    let ended = child.wait_with_output().map_err(|error| error.to_string())?;
    feeder.join().expect("the feeder ends");
    let errors = String::from_utf8_lossy(&ended.stderr).into_owned();
    Ok(Ended { status: ended.status.code(), output: ended.stdout, errors })
}

/// What a program prints, against what it should print.
pub fn same_text(is: &[u8], should: &[u8]) -> Result<(), String> {
    if is == should {
        return Ok(());
    }
    let shown = |line: &[u8]| String::from_utf8_lossy(&line[..line.len().min(200)]).into_owned();
    let lines = |text: &[u8]| text.split(|&byte| byte == b'\n').map(shown).collect::<Vec<String>>();
    let (is_lines, should_lines) = (lines(is), lines(should));
    let first = is_lines.iter().zip(&should_lines).find(|(is, should)| is != should);
    Err(format!("it prints {} bytes and should print {}; first other line {first:?}", is.len(), should.len()))
}

/// The line of a refusal.
pub fn refused(Refusal(number, detail, _): Refusal) -> String {
    format!("refused {number} {detail}\n")
}

/// The lines of a list: the counts, the repeats of both sides, kit number and stack number of each pair.
pub fn listed(c: &Counts, [kits, stacks]: [usize; 2], pairs: &[(u16, u16)]) -> String {
    let mut text = format!(
        "pairs {} path {} confirmed {} checks {} dropped {} false {}\n",
        c.pairs, c.by_path, c.confirmed, c.checks, c.dropped, c.false_drops
    );
    writeln!(text, "repeats {kits} {stacks}").expect("a string takes every line");
    for (kit, stack) in pairs {
        writeln!(text, "{kit} {stack}").expect("a string takes every line");
    }
    text
}
