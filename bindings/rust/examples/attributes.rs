//! Prints the keys of a page's attribute lines, each with its value and its line: cargo run --offline --example attributes -- [FILE]

use std::error::Error;
use std::io::Read;
use std::process::ExitCode;
use std::{env, fs, io};
use tolphaneap::Page;

fn input() -> io::Result<Vec<u8>> {
    if let Some(path) = env::args().nth(1) {
        return fs::read(path);
    }
    let mut text = Vec::new();
    io::stdin().read_to_end(&mut text)?;
    Ok(text)
}

fn run() -> Result<(), Box<dyn Error>> {
    let text = input()?;
    let page = Page::parse(&text)?;
    let (mut line, mut at) = (1, 0);
    for set in page.attributes(&text) {
        let set = set?;
        let start = set.span().start;
        line += text[at..start].iter().filter(|byte| **byte == b'\n').count();
        at = start;
        for pair in set.pairs() {
            let key = String::from_utf8_lossy(pair.key);
            println!("{line:>5} {key}={}", pair.value);
        }
    }
    Ok(())
}

fn main() -> ExitCode {
    match run() {
        Ok(()) => ExitCode::SUCCESS,
        Err(why) => {
            eprintln!("attributes: {why}");
            ExitCode::FAILURE
        }
    }
}
