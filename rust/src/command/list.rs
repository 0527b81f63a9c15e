//! `kitfinder list`: every kit that a stack contains, of one pad or two, with any settings.

use crate::arguments::Arguments;
use crate::files::{tell, Files};
use crate::{refused, Command, Failure};
use kitfinder::{Joined, Query, Refusal, Rule, TagFile, Weights};
use std::ffi::OsStr;
use std::io::{self, Write};

pub const COMMAND: Command = Command {
    name: "list",
    summary: "lists every kit that a stack contains, of one pad or two",
    help: "\
Usage: kitfinder list [OPTIONS] FILE [SECOND]
Lists every kit of a tag file whose tags all lie in a stack: a line with the counts, a line with the repeats, then kit number and stack
number, a line a pair, as kitlist does. With SECOND, the file of a second pad, stacks of one number are pooled; the kits are FILE's.
Repeats are reads of a tag that the same record had before: first those of all kits, then those of all stacks.
A kit without tags is never in the list and adds to no count.

  --format text|csv|json         text unless given; csv has a line a pair, json the counts, the repeats and the pairs
  --limit N                      how many tags of a kit decide its candidates: 1 to 255, and 2 unless given
  --rule merge|check|weighed     merge unless given; weighed needs --weights
  --weights A,B,G,H              goes on where A x c + B x t + G is below H x c x m
  --order rising|falling         which tags come first: the rare ones unless given
  --allowance N                  the most checks, 0 to 4294967295; a list that needs more is refused

Whatever is chosen, the pairs are the same; the options set the pace and what is counted on the way.
A refusal is printed as \"refused\", its number and its detail (in json as such an object, in csv not at all), and ends with status 1.

Example: kitfinder list --format csv examples/library.tags
Example: kitfinder list examples/first_pad.tags examples/second_pad.tags
",
    options: &["--format", "--limit", "--rule", "--weights", "--order", "--allowance"],
    run,
};

#[derive(Clone, Copy)]
enum Format {
    Text,
    Csv,
    Json,
}

struct Settings {
    format: Format,
    limit: u32,
    rule: Rule,
    falling: bool,
    allowance: u32,
}

fn settings(arguments: &Arguments) -> Result<Settings, Failure> {
    let format = arguments.option("--format", "text, csv or json", |value| match value {
        "text" => Some(Format::Text),
        "csv" => Some(Format::Csv),
        "json" => Some(Format::Json),
        _ => None,
    })?;
    let limit = arguments.option("--limit", "a number from 1 to 255", |value| value.parse().ok())?;
    let weights = arguments.option("--weights", "four numbers with commas between them", weights)?;
    let rule = arguments.option("--rule", "merge, check or weighed", |value| match value {
        "merge" => Some(Some(Rule::Merge)),
        "check" => Some(Some(Rule::Check)),
        "weighed" => Some(None),
        _ => None,
    })?;
    let falling = arguments.option("--order", "rising or falling", |value| match value {
        "rising" => Some(false),
        "falling" => Some(true),
        _ => None,
    })?;
    let allowance = arguments.option("--allowance", "a number from 0 to 4294967295", |value| value.parse().ok())?;
    let rule = match (rule.unwrap_or(Some(Rule::Merge)), weights) {
        (None, Some(weights)) => Rule::Weighed(weights),
        (None, None) => return arguments.wrong("--rule weighed needs --weights A,B,G,H"),
        (Some(_), Some(_)) => return arguments.wrong("--weights goes with --rule weighed alone"),
        (Some(rule), None) => rule,
    };
    Ok(Settings {
        format: format.unwrap_or(Format::Text),
        limit: limit.unwrap_or(2),
        rule,
        falling: falling.unwrap_or(false),
        allowance: allowance.unwrap_or(u32::MAX),
    })
}

/// Four weights with commas between them.
fn weights(value: &str) -> Option<Weights> {
    let weights: Option<Vec<f64>> = value.split(',').map(|weight| weight.trim().parse().ok()).collect();
    let [a, b, g, h] = weights?[..] else { return None };
    Some(Weights { a, b, g, h })
}

fn run(arguments: &Arguments, files: &Files) -> Result<(), Failure> {
    let settings = settings(arguments)?;
    let names = arguments.words("FILE [SECOND]", 1, 2)?;
    if names.iter().filter(|name| **name == OsStr::new("-")).count() > 1 {
        return arguments.wrong("standard input is one file alone");
    }
    let first = files.read(names[0])?;
    let second = names.get(1).map(|name| files.read_second(name)).transpose()?;
    match find(&first, second.as_deref(), &settings) {
        Ok((file, found)) => files.print("the list", |output| match settings.format {
            Format::Text => put_text(output, &file, &found),
            Format::Csv => put_csv(output, &file, &found),
            Format::Json => put_json(output, &file, &found),
        }),
        Err(refusal) => {
            files.print("the refusal", |output| match settings.format {
                Format::Text => output.write_all(refused::line(refusal).as_bytes()),
                Format::Csv => Ok(()),
                Format::Json => {
                    writeln!(output, "{{\"refused\":{{\"number\":{},\"detail\":{}}}}}", refusal.number(), refusal.detail())
                }
            })?;
            refused::failure("no list", refusal, first.len())
        }
    }
}

/// Loads one file or two, and joins.
fn find(first: &[u8], second: Option<&[u8]>, settings: &Settings) -> Result<(TagFile, Joined), Refusal> {
    let bytes = first.len() + second.map_or(0, <[u8]>::len);
    tell(bytes, &format!("{bytes} bytes are read"));
    let file = match second {
        Some(second) => TagFile::load_pooled(first, second)?,
        None => TagFile::load(first)?,
    };
    tell(bytes, &format!("{} kits and {} stacks are loaded", file.kits().len(), file.stacks().len()));
    let ranks = file.ranks(settings.falling)?;
    let Settings { limit, rule, allowance, .. } = *settings;
    let found = Query { limit, rule, budget: allowance, ..file.query(&ranks) }.run()?;
    tell(bytes, &format!("{} pairs are found", found.counts().pairs));
    Ok((file, found))
}

fn put_text(output: &mut dyn Write, file: &TagFile, found: &Joined) -> io::Result<()> {
    let c = found.counts();
    writeln!(
        output,
        "pairs {} path {} confirmed {} checks {} dropped {} false {}",
        c.pairs, c.by_path, c.confirmed, c.checks, c.dropped, c.false_drops
    )?;
    writeln!(output, "repeats {} {}", file.kit_repeats(), file.stack_repeats())?;
    file.numbers(found).try_for_each(|(kit, stack)| writeln!(output, "{kit} {stack}"))
}

fn put_csv(output: &mut dyn Write, file: &TagFile, found: &Joined) -> io::Result<()> {
    writeln!(output, "kit,stack")?;
    file.numbers(found).try_for_each(|(kit, stack)| writeln!(output, "{kit},{stack}"))
}

fn put_json(output: &mut dyn Write, file: &TagFile, found: &Joined) -> io::Result<()> {
    let c = found.counts();
    write!(
        output,
        "{{\"counts\":{{\"pairs\":{},\"path\":{},\"confirmed\":{},\"checks\":{},\"dropped\":{},\"false\":{}}},",
        c.pairs, c.by_path, c.confirmed, c.checks, c.dropped, c.false_drops
    )?;
    write!(output, "\"repeats\":{{\"kits\":{},\"stacks\":{}}},\"pairs\":[", file.kit_repeats(), file.stack_repeats())?;
    for (place, (kit, stack)) in file.numbers(found).enumerate() {
        write!(output, "{}[{kit},{stack}]", if place == 0 { "" } else { "," })?;
    }
    writeln!(output, "]}}")
}
