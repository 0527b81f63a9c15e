//! Measures everything and prints it in Markdown; with --write also into bench/README.md, between its two marks, and bench/growth.svg.
//! Usage: bench [--write] [ROUNDS]

mod files;
mod first;
mod joins;

use std::fs;

const README: &str = concat!(env!("CARGO_MANIFEST_DIR"), "/README.md");
const PLOT: &str = concat!(env!("CARGO_MANIFEST_DIR"), "/growth.svg");
const MARKS: [&str; 2] = ["<!-- figures: written by bench/run --write -->\n", "<!-- end of figures -->\n"];

/// The link to the plot, which is of this run only if it is written.
const LINK: &str = "![Time of one join as the sets double](growth.svg)\n\n";

/// Says that times are worth little where more than half of the processors are busy.
fn warn_if_busy(load: &str) {
    let processors = std::thread::available_parallelism().map_or(1, |n| n.get());
    if load.parse().is_ok_and(|load: f64| load > 0.5 * processors as f64) {
        eprintln!("bench: the machine is busy (a load of {load} on {processors} processors): times taken now are no measurement");
    }
}

/// The machine, the day, which the caller names, and how busy the machine was.
fn machine() -> String {
    let line = |file: &str, start: &str| {
        let text = fs::read_to_string(file).unwrap_or_default();
        text.lines().find_map(|line| line.strip_prefix(start).map(|rest| rest.trim_start_matches([' ', '\t', ':']).to_string()))
    };
    let model = line("/proc/cpuinfo", "model name").unwrap_or("a processor without a name".into());
    let load = line("/proc/loadavg", "").and_then(|line| line.split(' ').next().map(str::to_string)).unwrap_or("unknown".into());
    warn_if_busy(&load);
    let day = std::env::var("BENCH_DAY").map_or(String::new(), |day| format!(" on {day}"));
    format!("Measured on {model}{day}, at a load of {load} before it began")
}

fn replaced(text: &str, figures: &str) -> String {
    let (before, rest) = text.split_once(MARKS[0]).expect("README has the first mark");
    let (_, after) = rest.split_once(MARKS[1]).expect("README has the second mark");
    [before, MARKS[0], figures, MARKS[1], after].concat()
}

fn main() {
    let (mut write, mut rounds) = (false, 9);
    for word in std::env::args().skip(1) {
        match (word.as_str(), word.parse()) {
            ("--write", _) => write = true,
            (_, Ok(number)) => rounds = number,
            _ => {
                eprintln!("usage: bench/run [--write] [ROUNDS]");
                std::process::exit(2);
            }
        }
    }
    let machine = machine();
    let joins = joins::measure(rounds);
    let first = first::measure(rounds);
    let files = files::measure(rounds);
    let link = if write { LINK } else { "" };
    let figures = format!("{machine}; best of {rounds} rounds.\n\n{}{link}{first}{files}", joins.tables);
    print!("{figures}");
    if write {
        let readme = fs::read_to_string(README).expect("bench/README.md can be read");
        fs::write(README, replaced(&readme, &figures)).expect("bench/README.md can be written");
        fs::write(PLOT, joins.plot).expect("bench/growth.svg can be written");
        eprintln!("bench/README.md and bench/growth.svg have these figures");
    }
}
