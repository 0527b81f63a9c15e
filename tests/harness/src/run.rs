//! How a test is run: a number of cases from a seed, each with its own random source. `--seed S` repeats a run, `--case K` one
//! case of it with its input printed, `--cases N` sets the number, and `--long` runs a hundred times as many.

use crate::random::Random;
use std::time::Instant;

pub struct Plan {
    pub seed: u64,
    pub cases: u64,
    pub only: Option<u64>,
    pub factor: u64,
}

impl Plan {
    /// The plan that the arguments ask for. Without a seed the clock gives one.
    pub fn from_args(cases: u64) -> Plan {
        let clock = std::time::SystemTime::now().duration_since(std::time::UNIX_EPOCH).map_or(1, |d| d.as_micros() as u64);
        let mut plan = Plan { seed: clock % 1_000_000_007, cases, only: None, factor: 1 };
        let mut args = std::env::args().skip(1);
        while let Some(arg) = args.next() {
            let mut number = || args.next().and_then(|s| s.parse().ok()).unwrap_or_else(|| panic!("{arg} takes a number"));
            match arg.as_str() {
                "--seed" => plan.seed = number(),
                "--case" => plan.only = Some(number()),
                "--cases" => plan.cases = number(),
                "--long" => plan.factor = 100,
                _ => panic!("unknown argument {arg}: --seed S, --case K, --cases N, --long"),
            }
        }
        plan.cases *= plan.factor;
        plan
    }

    /// Runs the cases of one test and says how they went; the first case that fails ends the program with status 1.
    pub fn run(&self, name: &str, mut case: impl FnMut(&mut Random, bool) -> Result<(), String>) {
        self.run_share(name, 1, &mut case);
    }

    /// The same with one of `share` of the cases.
    pub fn run_share(&self, name: &str, share: u64, case: &mut impl FnMut(&mut Random, bool) -> Result<(), String>) {
        let start = Instant::now();
        let (first, last) = match self.only {
            Some(k) => (k, k + 1),
            None => (0, self.cases / share),
        };
        let seed = self.seed ^ name.bytes().fold(0u64, |h, b| h.wrapping_mul(131).wrapping_add(b as u64));
        for k in first..last {
            if let Err(message) = case(&mut Random::of_case(seed, k), self.only.is_some()) {
                println!("FAILED {name}: --seed {} --case {k}: {message}", self.seed);
                std::process::exit(1);
            }
        }
        println!("{name}: {} cases, seed {}, {:.1} s", last - first, self.seed, start.elapsed().as_secs_f64());
    }
}

/// The most memory that a test may take, in MB: the gate runs where little more is free.
const MOST_MEMORY: u64 = 2048;

/// The most memory that this program has taken so far, in MB, as Linux tells it.
fn peak_memory() -> u64 {
    let status = std::fs::read_to_string("/proc/self/status").expect("/proc/self/status");
    let peak = status.lines().find_map(|line| line.strip_prefix("VmHWM:")?.trim().strip_suffix(" kB")?.parse::<u64>().ok());
    peak.expect("a line VmHWM in kB").div_ceil(1024)
}

/// Says of named checks that were made how they went and how much memory they took. Every failure is printed, and the program ends with
/// status 1 where there is one, or where the memory is more than a test may take.
pub fn run_named(checks: Vec<(String, Result<(), String>)>) {
    let mut failures = 0;
    for (name, result) in &checks {
        if let Err(message) = result {
            println!("FAILED {name}: {message}");
            failures += 1;
        }
    }
    let peak = peak_memory();
    println!("{} named cases, {failures} failed, {peak} MB of memory at most", checks.len());
    if peak > MOST_MEMORY {
        println!("FAILED: a test may take {MOST_MEMORY} MB");
        failures += 1;
    }
    if failures > 0 {
        std::process::exit(1);
    }
}
