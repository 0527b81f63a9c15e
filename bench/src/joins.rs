//! The join of the library, under four settings, against its peers: every list is compared before anything is timed.

use bench::measure::{contest, Contestant};
use bench::peers::{BitRows, FreshJoin, Limit, NestedLoop, Peer, Pretti};
use bench::plot::{self, Line};
use bench::table::{rows, table, time};
use bench::workloads::{self, growth, kinds, thin_kinds, Workload, FULL};
use kitfinder::{Query, Rule, Weights};
use std::cell::RefCell;
use std::hint::black_box;

pub struct Report {
    pub tables: String,
    pub plot: String,
}

/// The library under one setting, with a work list that is lent again and again.
struct Library {
    rule: Rule,
    limit: u32,
    work: Vec<u32>,
}

impl Peer for Library {
    fn join(&mut self, w: &Workload, pairs: &mut [[u16; 2]]) -> usize {
        let (t, left, right) = (w.t as u32, w.left.lent(), w.right.lent());
        let query = Query { t, left, right, limit: self.limit, ranks: &w.ranks, budget: u32::MAX, rule: self.rule };
        let words = kitfinder::work_words(t, left, right);
        self.work.resize(words.max(self.work.len()), 0);
        kitfinder::join(&query, &mut self.work[..words], pairs.as_flattened_mut()).expect("a workload is accepted").pairs as usize
    }
}

struct Method {
    name: &'static str,
    is_published: bool,
    is_plotted: bool,
    peer: RefCell<Box<dyn Peer>>,
}

impl Method {
    fn new(name: &'static str, peer: impl Peer + 'static) -> Method {
        Method { name, is_published: false, is_plotted: false, peer: RefCell::new(Box::new(peer)) }
    }

    fn published(self) -> Method {
        Method { is_published: true, ..self }
    }

    fn plotted(self) -> Method {
        Method { is_plotted: true, ..self }
    }
}

fn methods() -> Vec<Method> {
    let library = |rule: Rule, limit: u32| Library { rule, limit, work: Vec::new() };
    let weighed = Rule::Weighed(Weights { a: 1.0, b: 1.0, g: 12.0, h: 4.0 });
    vec![
        Method::new("kitfinder, Merge, limit 2", library(Rule::Merge, 2)).plotted(),
        Method::new("kitfinder, Merge, limit 255", library(Rule::Merge, 255)),
        Method::new("kitfinder, Weighed, limit 255", library(weighed, 255)),
        Method::new("kitfinder, Check", library(Rule::Check, 1)).plotted(),
        Method::new("PRETTI", Pretti::default()).published().plotted(),
        Method::new("LIMIT, limit 2", Limit::new(2)).published(),
        Method::new("LIMIT+, limit 255", Limit::adaptive(255)).published().plotted(),
        Method::new("FreshJoin", FreshJoin::default()).published().plotted(),
        Method::new("nested loop with marks", NestedLoop::default()),
        Method::new("bit rows", BitRows::default()).plotted(),
    ]
}

fn names(methods: &[Method]) -> Vec<&'static str> {
    methods.iter().map(|method| method.name).collect()
}

/// Every method's list over memory that others and itself have used; all must be the first one's.
fn compare(all: &[&Workload], methods: &[Method], pairs: &mut [[u16; 2]]) -> Vec<usize> {
    let compare_on = |w: &&Workload| {
        let n = methods[0].peer.borrow_mut().join(w, pairs);
        let list = pairs[..n].to_vec();
        for method in methods.iter().chain(methods) {
            pairs.fill([u16::MAX; 2]);
            let found = method.peer.borrow_mut().join(w, pairs);
            assert!(pairs[..found] == list, "{} lists other pairs than {} on {}", method.name, methods[0].name, w.name);
        }
        n
    };
    all.iter().map(compare_on).collect()
}

/// The best times: a column for each workload, in it one time for each method. In a round every method has its turn on every workload.
fn time_all(all: &[&Workload], methods: &[Method], pairs: &mut [[u16; 2]], rounds: usize) -> Vec<Vec<f64>> {
    let pairs = RefCell::new(pairs);
    let turn = |w: &&Workload, method: &Method| _ = black_box(method.peer.borrow_mut().join(w, &mut pairs.borrow_mut()));
    let turns = all.iter().flat_map(|w| methods.iter().map(move |method| (w, method)));
    let contestants = turns.map(|(w, method)| Contestant::new(move || turn(w, method))).collect();
    contest(contestants, rounds).chunks(methods.len()).map(<[f64]>::to_vec).collect()
}

/// The workloads on which some published method is not slower than the best of the library's first settings, so many of them.
fn behind(settings: usize, kinds: &[Workload], methods: &[Method], times: &[Vec<f64>]) -> String {
    let is_behind = |column: &[f64]| {
        let ours = column[..settings].iter().copied().fold(f64::MAX, f64::min);
        methods.iter().zip(column).any(|(method, &ns)| method.is_published && ns <= ours)
    };
    let names: Vec<&str> = kinds.iter().zip(times).filter(|(_, column)| is_behind(column)).map(|(w, _)| w.name.as_str()).collect();
    if names.is_empty() {
        "none of the workloads".into()
    } else {
        names.join(", ")
    }
}

/// The times on kinds of workload, with their pairs.
fn time_table(title: &str, kinds: &[Workload], methods: &[Method], times: &[Vec<f64>], found: &[usize]) -> String {
    let heads: Vec<String> = kinds.iter().map(|w| w.name.clone()).collect();
    let mut lines = rows(&names(methods), times, |column, k| time(column[k]));
    lines.push(("pairs", found.iter().map(usize::to_string).collect()));
    table(title, &heads, &lines)
}

/// Times and ratios on every kind of workload.
fn kind_tables(kinds: &[Workload], methods: &[Method], times: &[Vec<f64>], found: &[usize]) -> String {
    let names = names(methods);
    let heads: Vec<String> = kinds.iter().map(|w| w.name.clone()).collect();
    let ratios = rows(&names, times, |column, k| format!("{:.2}", column[k] / column[0]));
    time_table("time of one join", kinds, methods, times, found)
        + &table(&format!("ratio to {}", names[0]), &heads, &ratios)
        + &format!("Merge with limit 2 is behind a published method on: {}.\n", behind(1, kinds, methods, times))
        + &format!("The better of the limits 2 and 255 is behind one on: {}.\n\n", behind(2, kinds, methods, times))
}

/// Times as the sets double, and the plot.
fn growth_report(sizes: &[usize], methods: &[Method], times: &[Vec<f64>]) -> Report {
    let mut heads: Vec<String> = sizes.iter().map(usize::to_string).collect();
    heads.push("factor a doubling".into());
    let mut lines = rows(&names(methods), times, |column, k| time(column[k]));
    for (k, (_, cells)) in lines.iter_mut().enumerate() {
        let doublings = (times.len() - 1) as f64;
        cells.push(format!("{:.2}", (times[times.len() - 1][k] / times[0][k]).powf(1.0 / doublings)));
    }
    let points = |k: usize| sizes.iter().zip(times).map(|(&n, column)| (n, column[k])).collect();
    let plotted = methods.iter().enumerate().filter(|(_, method)| method.is_plotted);
    let plotted = plotted.map(|(k, method)| Line { name: method.name.into(), points: points(k) });
    Report {
        tables: table("sets a side", &heads, &lines),
        plot: plot::svg("The join as the sets double", "sets on each side, and items", "processor time of one join", plotted.collect()),
    }
}

pub fn measure(rounds: usize) -> Report {
    let (kinds, thin, growth, methods) = (kinds(), thin_kinds(), growth(), methods());
    let mut pairs = vec![[0; 2]; 1 << 22];
    let small: Vec<Workload> = (0..400).map(workloads::small).collect();
    compare(&small.iter().collect::<Vec<&Workload>>(), &methods, &mut pairs[..1 << 16]);
    let all: Vec<&Workload> = kinds.iter().chain(&thin).chain(&growth).collect();
    let found = compare(&all, &methods, &mut pairs);
    let mut times = time_all(&all, &methods, &mut pairs, rounds);

    let full = kinds.iter().position(|w| w.name == FULL).expect("there is a full workload");
    let mut growth_times = times.split_off(kinds.len() + thin.len());
    let thin_times = times.split_off(kinds.len());
    growth_times.push(times[full].clone());
    let sizes: Vec<usize> = growth.iter().chain([&kinds[full]]).map(|w| w.left.len()).collect();
    let Report { tables, plot } = growth_report(&sizes, &methods, &growth_times);
    let title = format!("The kind `{FULL}` as its sets and items double; its last column is the one above.\n\n");
    let thin_table =
        time_table("time of one join over many tags", &thin, &methods, &thin_times, &found[kinds.len()..kinds.len() + thin.len()]);
    Report { tables: kind_tables(&kinds, &methods, &times, &found[..kinds.len()]) + &thin_table + &title + &tables, plot }
}
