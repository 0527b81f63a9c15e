//! The program kitfinder on generated, damaged and large tag files and on those at the limits of kitlist, of one pad and of two, with every
//! option, against the oracle; and its lists beside those of kitlist, where both take a file. KITFINDER and KITLIST name the programs,
//! SCRATCH a folder for files. The last lines have how many cases there were of each kind, and a kind without a case fails the run.

use harness::files::{damage, file, pair, record};
use harness::kinds::{expect_all, Tally};
use harness::oracle::*;
use harness::programs::{self, listed, refused, run, same_text, Ended};
use harness::random::Random;
use harness::run::Plan;
use harness::{borders, joins, pads};
use std::path::PathBuf;

/// The two programs, and where files are put for them.
struct Programs {
    kitfinder: String,
    kitlist: String,
    scratch: PathBuf,
}

#[derive(Clone, Copy, Debug, PartialEq)]
enum Format {
    Text,
    Csv,
    Json,
}

/// What a list is asked.
#[derive(Clone, Copy, Debug)]
struct Settings {
    format: Format,
    limit: u32,
    rule: Rule,
    falling: bool,
    allowance: u32,
}

const DEFAULT: Settings = Settings { format: Format::Text, limit: 2, rule: Rule::Merge, falling: false, allowance: u32::MAX };

impl Settings {
    /// The options that ask for these. What need not be given is given or not, and in some order.
    fn options(&self, random: &mut Random) -> Vec<String> {
        let mut options: Vec<[String; 2]> = Vec::new();
        let mut add = |random: &mut Random, is_default: bool, name: &str, value: String| {
            if !is_default || random.one_in(3) {
                options.push([name.into(), value]);
            }
        };
        let format = match self.format {
            Format::Text => "text",
            Format::Csv => "csv",
            Format::Json => "json",
        };
        add(random, self.format == Format::Text, "--format", format.into());
        add(random, self.limit == 2, "--limit", self.limit.to_string());
        add(random, !self.falling, "--order", if self.falling { "falling" } else { "rising" }.into());
        add(random, self.allowance == u32::MAX, "--allowance", self.allowance.to_string());
        match self.rule {
            Rule::Merge => add(random, true, "--rule", "merge".into()),
            Rule::Check => add(random, false, "--rule", "check".into()),
            Rule::Weighed { a, b, g, h } => {
                add(random, false, "--rule", "weighed".into());
                add(random, false, "--weights", [a, b, g, h].map(|weight| format!("{weight:?}")).join(","));
            }
        }
        random.shuffle(&mut options);
        let join = |[name, value]: [String; 2], random: &mut Random| {
            if random.one_in(2) {
                vec![format!("{name}={value}")]
            } else {
                vec![name, value]
            }
        };
        options.into_iter().flat_map(|option| join(option, random)).collect()
    }
}

/// What one file or two hold, or their refusal.
fn load_all(files: &[Vec<u8>]) -> Result<LoadedFile, Refusal> {
    match files {
        [first, second] => {
            let pooled = pool(first, second)?;
            pooled.refusal(false).map_or(Ok(pooled.loaded), Err)
        }
        files => load(&files[0]),
    }
}

/// The query that a list asks. Its lists are long enough.
fn query(loaded: &LoadedFile, settings: &Settings) -> Query {
    let (left, right, t) = (loaded.collection(0), loaded.collection(1), loaded.tags.len() as u32);
    let ranks = ranks_by_frequency(t, &left, &right, settings.falling);
    let Settings { limit, rule, allowance, .. } = *settings;
    Query { t, left, right, limit, ranks, budget: allowance, rule, work: usize::MAX, places: usize::MAX }
}

/// What a list has: counts, repeats and pairs; or its refusal.
type Listed = Result<(Counts, [usize; 2], Vec<(u16, u16)>), Refusal>;

fn list(files: &[Vec<u8>], settings: &Settings) -> Listed {
    let loaded = load_all(files)?;
    let q = query(&loaded, settings);
    join_refusal(&q).map_or(Ok(()), Err)?;
    let counts = walk(&q).counts;
    walk_refusal(&q, &counts).map_or(Ok(()), Err)?;
    let whole = loaded.whole_kits();
    assert_eq!(counts.pairs, whole.len() as u64, "the oracle's pairs are the same by items and by tags");
    Ok((counts, loaded.repeats, whole))
}

/// A list or a refusal as it is printed.
fn text(listing: &Listed, format: Format) -> String {
    match (listing, format) {
        (Ok((counts, repeats, pairs)), Format::Text) => listed(counts, *repeats, pairs),
        (Ok((_, _, pairs)), Format::Csv) => {
            let lines: Vec<String> = pairs.iter().map(|(kit, stack)| format!("{kit},{stack}\n")).collect();
            format!("kit,stack\n{}", lines.concat())
        }
        (Ok((c, [kits, stacks], pairs)), Format::Json) => {
            let counts = [
                ("pairs", c.pairs),
                ("path", c.by_path),
                ("confirmed", c.confirmed),
                ("checks", c.checks),
                ("dropped", c.dropped),
                ("false", c.false_drops),
            ];
            let counts: Vec<String> = counts.iter().map(|(name, count)| format!("\"{name}\":{count}")).collect();
            let pairs: Vec<String> = pairs.iter().map(|(kit, stack)| format!("[{kit},{stack}]")).collect();
            format!(
                "{{\"counts\":{{{}}},\"repeats\":{{\"kits\":{kits},\"stacks\":{stacks}}},\"pairs\":[{}]}}\n",
                counts.join(","),
                pairs.join(",")
            )
        }
        (Err(refusal), Format::Text) => refused(*refusal),
        (Err(_), Format::Csv) => String::new(),
        (Err(Refusal(number, detail, _)), Format::Json) => {
            format!("{{\"refused\":{{\"number\":{number},\"detail\":{detail}}}}}\n")
        }
    }
}

/// Holds a program's end to what it should print, and to its status: 0 in silence, or 1 with a line that begins so.
fn ends(ended: &Ended, should: &[u8], refusal: Option<&str>) -> Result<(), String> {
    let is_right = match refusal {
        None => ended.status == Some(0) && ended.errors.is_empty(),
        Some(start) => ended.status == Some(1) && ended.errors.starts_with(start) && ended.errors.lines().count() == 1,
    };
    if !is_right {
        return Err(format!("status {:?}, and on standard error {:?}", ended.status, ended.errors));
    }
    same_text(&ended.output, should)
}

impl Programs {
    /// Runs kitfinder on files. One of them may be standard input; `last` are words behind them.
    fn kitfinder(
        &self,
        command: &str,
        options: Vec<String>,
        files: &[Vec<u8>],
        last: &[String],
        random: &mut Random,
    ) -> Result<Ended, String> {
        let piped = random.below(files.len() + 1);
        let mut words = vec![command.to_string()];
        words.extend(options);
        for (place, bytes) in files.iter().enumerate() {
            if place == piped {
                words.push("-".into());
            } else {
                let name = self.scratch.join(["first", "second"][place]);
                std::fs::write(&name, bytes).map_err(|error| format!("{}: {error}", name.display()))?;
                words.push(name.display().to_string());
            }
        }
        words.extend_from_slice(last);
        run(&self.kitfinder, &words, files.get(piped).map_or(&[], |bytes| bytes), random)
    }

    fn lists(&self, files: &[Vec<u8>], settings: &Settings, listing: &Listed, random: &mut Random) -> Result<(), String> {
        let ended = self.kitfinder("list", settings.options(random), files, &[], random)?;
        ends(&ended, text(listing, settings.format).as_bytes(), listing.is_err().then_some("kitfinder: no list: "))
    }

    /// The list of a file with the settings that kitlist has is that of kitlist, unless kitlist refuses it with 7 or 9. Says whether both
    /// took it.
    fn beside_kitlist(&self, bytes: &[u8], random: &mut Random) -> Result<bool, String> {
        let kitlist = run(&self.kitlist, &[] as &[&str], bytes, random)?.output;
        let is_small = !kitlist.starts_with(b"refused 7") && !kitlist.starts_with(b"refused 9");
        if is_small {
            same_text(&self.kitfinder("list", Vec::new(), &[bytes.to_vec()], &[], random)?.output, &kitlist)?;
        }
        Ok(is_small)
    }

    /// The first kit of a stack of the file, or of none.
    fn finds_first(&self, bytes: &[u8], random: &mut Random) -> Result<(), String> {
        let files = [bytes.to_vec()];
        let loaded = match load(bytes) {
            Ok(loaded) => loaded,
            Err(refusal) => {
                let ended = self.kitfinder("first", Vec::new(), &files, &["7".into()], random)?;
                return ends(&ended, refused(refusal).as_bytes(), Some("kitfinder: no kit: "));
            }
        };
        let stacks = &loaded.sides[1];
        if stacks.numbers.is_empty() || random.one_in(8) {
            let number = (0..=65535).rev().find(|number| !stacks.numbers.contains(number)).expect("a number that no stack has");
            let ended = self.kitfinder("first", Vec::new(), &files, &[number.to_string()], random)?;
            let is_right = ended.status == Some(2) && ended.output.is_empty() && ended.errors.contains("has no stack");
            return if is_right { Ok(()) } else { Err(format!("no stack {number}: {ended:?}")) };
        }
        let place = random.below(stacks.numbers.len());
        let kits = &loaded.sides[0];
        let whole = |kit: &Vec<Tag>| is_contained(kit, |tag| stacks.sets[place].contains(tag));
        let should = match kits.sets.iter().position(whole) {
            Some(kit) => format!("first {} compared {}\n", kits.numbers[kit], kit + 1),
            None => format!("first none compared {}\n", kits.sets.len()),
        };
        let ended = self.kitfinder("first", Vec::new(), &files, &[stacks.numbers[place].to_string()], random)?;
        ends(&ended, should.as_bytes(), None)
    }

    /// What a file has, and what kitlist prints for it.
    fn informs(&self, bytes: &[u8], random: &mut Random) -> Result<(), String> {
        let ended = self.kitfinder("info", Vec::new(), &[bytes.to_vec()], &[], random)?;
        let output = String::from_utf8_lossy(&ended.output).into_owned();
        let (lines, said) = output.split_once("kitlist: ").ok_or_else(|| format!("nothing on kitlist: {output:?}"))?;
        let kitlist = String::from_utf8_lossy(&run(&self.kitlist, &[] as &[&str], bytes, random)?.output).into_owned();
        let printed = kitlist.lines().next().ok_or("kitlist prints nothing")?;
        let is_right = match printed.strip_prefix("pairs ").and_then(|counts| counts.split(' ').next()) {
            Some(pairs) => said == format!("a list of {pairs} pairs\n"),
            None => said.starts_with(&format!("{printed}, since ")),
        };
        if !is_right {
            return Err(format!("kitlist prints {printed:?}, and kitfinder has {said:?}"));
        }
        let (should, refusal) = match load(bytes) {
            Ok(loaded) => {
                let [kits, stacks] = &loaded.sides;
                let entries = |side: &LoadedSide| side.sets.iter().map(Vec::len).sum::<usize>();
                let side = |side: &LoadedSide, repeats: usize| {
                    let longest = side.sets.iter().map(Vec::len).max().unwrap_or(0);
                    format!("{} tags {} longest {longest} repeats {repeats}", side.sets.len(), entries(side))
                };
                let n = kits.sets.len() + stacks.sets.len() + entries(kits) + entries(stacks) + loaded.tags.len();
                let sides = [side(kits, loaded.repeats[0]), side(stacks, loaded.repeats[1])];
                (format!("bytes {}\nkits {}\nstacks {}\ntags {}\nn {n}\n", bytes.len(), sides[0], sides[1], loaded.tags.len()), None)
            }
            Err(refusal) => (refused(refusal), Some("kitfinder: no information: ")),
        };
        ends(&Ended { output: lines.into(), ..ended }, should.as_bytes(), refusal)
    }

    /// A file is written as the oracle writes it, and holds the same when it is loaded again.
    fn writes(&self, bytes: &[u8], random: &mut Random) -> Result<(), String> {
        let out = self.scratch.join("out");
        let _ = std::fs::remove_file(&out);
        let to_file = random.one_in(2);
        let last = if to_file { out.display().to_string() } else { "-".into() };
        let ended = self.kitfinder("write", Vec::new(), &[bytes.to_vec()], &[last], random)?;
        let loaded = match load(bytes) {
            Ok(loaded) => loaded,
            Err(_) if out.exists() => return Err("a refused file was written".into()),
            Err(_) => return ends(&ended, b"", Some("kitfinder: nothing is written: ")),
        };
        let should = written(&WriteQuery {
            t: loaded.tags.len() as u32,
            tags: loaded.tags.concat(),
            left_numbers: loaded.sides[0].numbers.clone(),
            left: loaded.collection(0),
            right_numbers: loaded.sides[1].numbers.clone(),
            right: loaded.collection(1),
            room: usize::MAX,
        });
        let is = if to_file { std::fs::read(&out).map_err(|error| error.to_string())? } else { ended.output.clone() };
        ends(&ended, if to_file { b"" } else { &should }, None)?;
        if is != should || load(&is).as_ref() != Ok(&loaded.without_repeats()) {
            return Err(format!("it is written as {is:02X?}"));
        }
        Ok(())
    }
}

/// Settings for a list of these files: often those that need not be given, and an allowance about what is needed.
fn settings(random: &mut Random, files: &[Vec<u8>]) -> Settings {
    let format = random.pick(&[Format::Text, Format::Csv, Format::Json]);
    if random.one_in(4) {
        return Settings { format, ..DEFAULT };
    }
    let limit = if random.one_in(12) { random.pick(&[0, 256, u32::MAX]) } else { joins::limit(random) };
    let mut settings = Settings { format, limit, falling: random.one_in(2), ..DEFAULT };
    let Ok(loaded) = load_all(files) else { return settings };
    let q = query(&loaded, &settings);
    if join_refusal(&q).is_some() {
        return settings;
    }
    settings.rule = if random.one_in(6) { Rule::Check } else { joins::rule(random, &walk(&q).nodes) };
    let checks = walk(&query(&loaded, &settings)).counts.checks as u32;
    settings.allowance = random.pick(&[u32::MAX, u32::MAX, checks, checks + 1, checks.saturating_sub(1), 0]);
    settings
}

/// A list that was asked, and what it should be.
struct Case<'a> {
    files: usize,
    settings: Settings,
    listing: &'a Listed,
    beside: bool,
}

impl Case<'_> {
    fn is(&self, number: u64) -> bool {
        self.listing.as_ref().err().is_some_and(|refusal| refusal.0 == number)
    }

    fn has_pairs(&self) -> bool {
        self.listing.as_ref().is_ok_and(|(counts, ..)| counts.pairs > 0)
    }
}

type Kind = (&'static str, fn(&Case) -> bool);
const KINDS: [Kind; 17] = [
    ("pairs as text", |case| case.has_pairs() && case.settings.format == Format::Text),
    ("pairs as csv", |case| case.has_pairs() && case.settings.format == Format::Csv),
    ("pairs as json", |case| case.has_pairs() && case.settings.format == Format::Json),
    ("pairs of two pads", |case| case.has_pairs() && case.files == 2),
    ("pairs beside kitlist", |case| case.has_pairs() && case.beside),
    ("no pair", |case| case.listing.is_ok() && !case.has_pairs()),
    ("pairs under check", |case| case.has_pairs() && case.settings.rule == Rule::Check),
    ("pairs under weighed", |case| case.has_pairs() && matches!(case.settings.rule, Rule::Weighed { .. })),
    ("pairs by falling frequency", |case| case.has_pairs() && case.settings.falling),
    ("pairs with an allowance", |case| case.has_pairs() && case.settings.allowance != u32::MAX),
    ("refused with 1", |case| case.is(1)),
    ("refused with 2", |case| case.is(2)),
    ("refused with 6", |case| case.is(6)),
    ("refused with 8", |case| case.is(8)),
    ("refused with 10", |case| case.is(10)),
    ("refused, as csv", |case| case.listing.is_err() && case.settings.format == Format::Csv),
    ("refused, as json", |case| case.listing.is_err() && case.settings.format == Format::Json),
];

fn tag(k: usize) -> Tag {
    let mut tag = [0; 12];
    tag[3..5].copy_from_slice(&(k as u16).to_be_bytes());
    tag
}

/// So many sets of up to so many of all tags, each of which has one of the stacks' tags only where a stack is given.
fn sets(random: &mut Random, many: usize, longest: usize, tags: usize, of: Option<&[Vec<Tag>]>) -> Vec<Vec<Tag>> {
    let set = |random: &mut Random| {
        let count = random.within(longest / 2, longest);
        match of.map(|stacks| &stacks[random.below(stacks.len())]) {
            Some(stack) => (0..count.min(stack.len())).map(|_| random.pick(stack)).collect(),
            None => (0..count).map(|_| tag(random.below(tags))).collect(),
        }
    };
    (0..many).map(|_| set(random)).collect()
}

fn records(right: bool, sets: &[Vec<Tag>]) -> Vec<u8> {
    sets.iter().enumerate().flat_map(|(k, set)| record(right, (k as u16).wrapping_mul(15), set)).collect()
}

/// Large files, of which kitlist takes none, with what is asked of each.
fn large(random: &mut Random) -> Vec<(&'static str, Vec<Vec<u8>>, Settings)> {
    let file = |random: &mut Random, kits: (usize, usize), stacks: (usize, usize), tags: usize| {
        let right = sets(random, stacks.0, stacks.1, tags, None);
        let left = sets(random, kits.0, kits.1, tags, Some(&right));
        [records(false, &left), records(true, &right)].concat()
    };
    let weighed = Rule::Weighed { a: 1.0, b: 0.5, g: 2.0, h: 0.7 };
    let many = file(random, (4096, 16), (4096, 15), 4096);
    let long = file(random, (257, 255), (257, 255), 400);
    let pads = [file(random, (1000, 6), (2000, 20), 900), file(random, (50, 6), (2000, 20), 900)];
    let of_four = record(false, 9, &[0, 1, 2, 3].map(tag));
    let same: Vec<u8> = (0..200).flat_map(|k| [record(false, 100 + k, &[tag(0)]), record(true, k, &[tag(0)])].concat()).collect();
    let mut kits_and_stack = record(false, 9, &[tag(7); 255]).repeat(9200);
    kits_and_stack.extend(record(true, 4, &[3, 1, 0, 2, 9].map(tag)));
    let heads = |right: bool, many: u16| (0..many).flat_map(|k| record(right, k, &[])).collect::<Vec<u8>>();
    vec![
        ("4,096 kits and stacks", vec![many.clone()], DEFAULT),
        ("the same under check, as csv", vec![many.clone()], Settings { rule: Rule::Check, format: Format::Csv, ..DEFAULT }),
        ("the same under weighed, as json", vec![many], Settings { rule: weighed, format: Format::Json, limit: 4, ..DEFAULT }),
        ("sets of 255 tags", vec![long.clone()], Settings { limit: 255, ..DEFAULT }),
        ("sets of 255 tags, falling", vec![long], Settings { limit: 3, falling: true, ..DEFAULT }),
        ("two pads", pads.to_vec(), Settings { format: Format::Json, ..DEFAULT }),
        ("two pads the other way", vec![pads[1].clone(), pads[0].clone()], DEFAULT),
        ("28 million bytes of the second pad's kits", vec![of_four.clone(), kits_and_stack], DEFAULT),
        ("40,000 pairs", vec![[same, of_four].concat()], DEFAULT),
        ("a 4,097th kit", vec![heads(false, 4097)], DEFAULT),
        (
            "a 4,097th stack by two pads, as json",
            vec![heads(true, 4096), record(true, 5000, &[])],
            Settings { format: Format::Json, ..DEFAULT },
        ),
        ("a file that never ends", vec![vec![0; 30_000_000]], DEFAULT),
        ("25 million bytes", vec![(0..8192).flat_map(|k| record(k % 2 == 0, k, &[tag(k as usize / 2); 255])).collect()], DEFAULT),
        (
            "the same and a record more",
            vec![(0..8193).flat_map(|k| record(k % 2 == 0, k, &[tag(k as usize / 2); 255])).collect()],
            DEFAULT,
        ),
    ]
}

fn main() {
    let programs = Programs {
        kitfinder: programs::program("KITFINDER", "target/cargo/release/kitfinder"),
        kitlist: programs::program("KITLIST", "target/bin/kitlist"),
        scratch: std::env::var_os("SCRATCH").map_or_else(std::env::temp_dir, PathBuf::from),
    };
    let plan = Plan::from_args(1_000);
    if plan.only.is_none() {
        let random = &mut Random::new(plan.seed);
        let large = large(random);
        for (name, files, settings) in &large {
            let listing = list(files, settings);
            let mut result = programs.lists(files, settings, &listing, random);
            if let [bytes] = &files[..] {
                result = result.and_then(|()| programs.finds_first(bytes, random)).and_then(|()| programs.informs(bytes, random));
                result = result.and_then(|()| programs.writes(bytes, random));
            }
            if let Err(message) = result {
                println!("FAILED commands: {name}: seed {}: {message}", plan.seed);
                std::process::exit(1);
            }
        }
        println!("commands: {} large files", large.len());
        for (name, bytes) in borders::named() {
            let files = [bytes];
            let listed = programs.lists(&files, &DEFAULT, &list(&files, &DEFAULT), random);
            let beside = listed.and_then(|()| programs.beside_kitlist(&files[0], random));
            if let Err(message) = beside.and_then(|_| programs.informs(&files[0], random)) {
                println!("FAILED commands: {name}: seed {}: {message}", plan.seed);
                std::process::exit(1);
            }
        }
        println!("commands: {} files at the limits of kitlist", borders::named().len());
    }
    let mut tally = Tally::new(&KINDS);
    plan.run("commands", |random, print| {
        let mut files = match random.below(9) {
            0..=4 => vec![file(random)],
            5 => pads::wide(random).to_vec(),
            _ => pair(random).to_vec(),
        };
        if random.one_in(4) {
            let damaged = random.below(files.len());
            damage(random, &mut files[damaged]);
        }
        let settings = settings(random, &files);
        let listing = list(&files, &settings);
        if print {
            println!("{files:02X?}\n{settings:?}\n{}", text(&listing, settings.format));
        }
        programs.lists(&files, &settings, &listing, random)?;
        let beside = files.len() == 1 && programs.beside_kitlist(&files[0], random)?;
        tally.add(KINDS.map(|(_, is_of)| is_of(&Case { files: files.len(), settings, listing: &listing, beside })));
        match random.below(3) {
            0 => programs.finds_first(&files[0], random),
            1 => programs.informs(&files[0], random),
            _ => programs.writes(&files[0], random),
        }
    });
    expect_all("commands", &plan, 1_000, tally.report());
}
