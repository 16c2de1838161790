//! Times the Rust block parser and ours on the same texts, in one run:
//! bench [--runs N] [--copies N] [--only PART] [--csv FILE]

mod case;
mod editions;
mod ours;
mod records;
mod rust;
mod sets;
mod texts;
mod timing;

// The Rust's files name these by the crate's root.
use rust::shim::{Alignment, CowStr, OrderedListNumbering, OrderedListStyle};
use rust::{attr, block, lex, refuse};

use case::{Case, SIZES};
use texts::{Text, EDITIONS, TEXTS};

/// Whose records and listing are timed too, at the larger size.
const RECORDED: [&str; 3] = ["flat paragraphs", "mixed runbook", "tables, 38 rows"];

const BUFFERS: &str = "\
The Rust, ours, ours with a copy's own buffers and ours with fresh ones take turns, at both sizes. Both gave the same events,
every word of them.

Buffers: the Rust allocates and frees its vectors, in its time. Ours' were written before the first timed call, so their
pages are touched; nothing clears them before a call, the call does so itself, in its time. One pair serves all copies; in
the column \"own buffers\" each copy has its own, so that both sizes take the same memory. Fresh ones are mapped for each call, zero
and untouched, and unmapped after it, in its time.
";

const TIMES_HEAD: &str = "\
| Text | MB | Rust ns/byte | ours ns/byte | own buffers | fresh buffers | Rust / ours | 16 MB / 1 MB, same memory | and same buffers | events | lines | deepest | looks | bound |
|---|--:|--:|--:|--:|--:|--:|--:|--:|--:|--:|--:|--:|--:|";

const RECORDS_HEAD: &str = "\
| Text | What | MB in | MB out | MB/s in | MB/s out | memcpy of MB out, MB/s | memcpy / ours |
|---|---|--:|--:|--:|--:|--:|--:|";

/// The text at each size, all of them in every round.
fn timed(text: &Text, runs: usize, copies: usize) -> [Case; 2] {
    let [small, large] = SIZES;
    let mut cases = [Case::new(text, small, copies), Case::new(text, large, 1)];
    for round in 0..runs {
        cases.iter_mut().for_each(|case| case.run(round));
    }
    cases
}

/// Prints a line for each size and adds one to the numbers for the plot.
fn print_cases(text: &Text, cases: &[Case], csv: &mut String) {
    let [_, small, spread, _] = cases[0].ns_per_byte();
    for (megabytes, case) in SIZES.into_iter().zip(cases) {
        let [rust, ours, own, fresh] = case.ns_per_byte();
        let (events, lines, deepest, looks) = (case.events, case.lines, case.deepest, case.looks);
        let (name, bound, times) = (text.name, case.bound(), rust / ours);
        let growth = if megabytes == SIZES[0] {
            " | ".to_string()
        } else {
            format!("{:.2} | {:.2}", own / spread, ours / small)
        };
        println!(
            "| {name} | {megabytes} | {rust:.2} | {ours:.2} | {own:.2} | {fresh:.2} | {times:.1} | {growth} | {events} | {lines} | {deepest} | {looks} | {bound} |"
        );
        let kind = text.kind;
        *csv += &format!(
            "\"{name}\",{kind},{megabytes},{rust:.4},{ours:.4},{own:.4},{fresh:.4},{events},{lines},{deepest},{looks},{bound}\n"
        );
    }
}

struct Options {
    runs: usize,
    /// How many copies of the small text are a turn.
    copies: usize,
    only: String,
    csv: Option<String>,
}

fn options() -> Options {
    let mut options = Options {
        runs: 7,
        copies: SIZES[1] / SIZES[0],
        only: String::new(),
        csv: None,
    };
    let mut args = std::env::args().skip(1);
    while let Some(option) = args.next() {
        let value = args
            .next()
            .unwrap_or_else(|| panic!("{option} needs a value"));
        match option.as_str() {
            "--runs" => options.runs = value.parse().expect("a number of runs"),
            "--copies" => options.copies = value.parse().expect("a number of copies"),
            "--only" => options.only = value,
            "--csv" => options.csv = Some(value),
            _ => panic!("bench [--runs N] [--copies N] [--only PART] [--csv FILE]"),
        }
    }
    options
}

fn main() {
    let Options {
        runs,
        copies,
        only,
        csv,
    } = options();
    let chosen = || TEXTS.iter().filter(|text| text.name.contains(&only));
    let mut numbers =
        "text,kind,mb,rust,ours,own,fresh,events,lines,deepest,looks,bound\n".to_string();
    println!(
        "Best of {runs}; at 1 MB, of {copies} copies of the text one after the other. {BUFFERS}"
    );
    println!("{TIMES_HEAD}");
    for text in chosen() {
        print_cases(text, &timed(text, runs, copies), &mut numbers);
    }
    println!("\nBest of {runs}; the functions and the copies take turns. All buffers were written before and are not cleared.\n");
    println!("{RECORDS_HEAD}");
    for text in chosen().filter(|text| RECORDED.contains(&text.name)) {
        records::print(text, runs);
    }
    println!("\nBest of {runs}; the four take turns; the time of pairs is with reading. Ours is lent as many words as the set needs, written before and not cleared.\n");
    println!("{}", sets::HEAD);
    for set in &sets::SETS {
        if format!("sets, {}", set.name).contains(&only) {
            sets::print(set, runs);
        }
    }
    println!("\nBest of {runs}; at 1 MB, of {copies} copies one after the other, each with events of its own. The two parses, the comparison, and the comparison with a copy's own buffers take turns. A byte is one of either edition.\n");
    println!("{}", editions::HEAD);
    for text in EDITIONS {
        if format!("two editions, {}", text.name).contains(&only) {
            editions::print(text, runs, copies);
        }
    }
    if let Some(file) = csv {
        std::fs::write(file, numbers).expect("the file can be written");
    }
}
