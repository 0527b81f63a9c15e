//! Tables in Markdown.

use std::fmt::Write;

/// A time in words.
pub fn time(ns: f64) -> String {
    match ns {
        ..1e3 => format!("{ns:.0} ns"),
        ..1e6 => format!("{:.1} µs", ns / 1e3),
        _ => format!("{:.2} ms", ns / 1e6),
    }
}

/// A table with a row for each name and a column for each head.
pub fn table(title: &str, heads: &[String], rows: &[(&str, Vec<String>)]) -> String {
    let mut out = format!("| {title} | {} |\n|---|{}\n", heads.join(" | "), "--:|".repeat(heads.len()));
    for (name, cells) in rows {
        writeln!(out, "| {name} | {} |", cells.join(" | ")).expect("a string takes every line");
    }
    out + "\n"
}

/// A row for each name: a cell of each column of times.
pub fn rows<'a>(names: &[&'a str], times: &[Vec<f64>], cell: impl Fn(&[f64], usize) -> String) -> Vec<(&'a str, Vec<String>)> {
    names.iter().enumerate().map(|(k, &name)| (name, times.iter().map(|column| cell(column, k)).collect())).collect()
}
