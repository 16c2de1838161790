//! Shows a page's table of contents and what its stream takes: cargo run --offline --example page -- [FILE]

use std::error::Error;
use std::io::Read;
use std::process::ExitCode;
use std::{env, fs, io};
use tolphaneap::{Event, Node, Page};

fn input() -> io::Result<Vec<u8>> {
    if let Some(path) = env::args().nth(1) {
        return fs::read(path);
    }
    let mut text = Vec::new();
    io::stdin().read_to_end(&mut text)?;
    Ok(text)
}

/// The number of the line that a position is in, from 1 on.
fn line_of(text: &[u8], position: usize) -> usize {
    1 + text.iter().take(position).filter(|b| **b == b'\n').count()
}

/// Prints each heading with its line, indented by its level.
fn contents(text: &[u8], page: &Page) {
    let mut heading = None;
    for event in page.events() {
        match (event, heading) {
            (Event::Enter(Node::Heading { level, .. }, span), _) => {
                heading = Some((usize::from(level), line_of(text, span.start)));
            }
            (Event::Inline(span), Some((level, line))) => {
                let words = String::from_utf8_lossy(text.get(span).unwrap_or_default());
                let indent = 2 * level.min(32);
                println!("{line:>5}{:indent$}{}", "", words.trim_end());
            }
            (Event::Exit(..), _) => heading = None,
            _ => {}
        }
    }
}

fn run() -> Result<(), Box<dyn Error>> {
    let text = input()?;
    let page = Page::parse(&text)?;
    contents(&text, &page);
    let stream = page.stream()?;
    println!("{} bytes of text", text.len());
    println!(
        "{} events, {} bytes of records",
        page.events().count(),
        stream.len()
    );
    Ok(())
}

fn main() -> ExitCode {
    match run() {
        Ok(()) => ExitCode::SUCCESS,
        Err(why) => {
            eprintln!("page: {why}");
            ExitCode::FAILURE
        }
    }
}
