//! Prints what changed between two editions of a page: cargo run --offline --example changes -- OLD NEW

use std::error::Error;
use std::io::Write;
use std::process::ExitCode;
use std::{env, fs, io};
use tolphaneap::{changed, Blocks, Changed, Which};

fn input(name: &str) -> Result<Vec<u8>, String> {
    fs::read(name).map_err(|why| format!("{name}: {why}"))
}

fn print(what: &str, name: &str, part: &Blocks) -> io::Result<()> {
    let mut out = io::stdout().lock();
    match (part.lines.start(), part.lines.end()) {
        (first, last) if first == last => writeln!(out, "{what} {name}, line {first}:")?,
        (first, last) => writeln!(out, "{what} {name}, lines {first} to {last}:")?,
    }
    out.write_all(part.bytes)?;
    if !part.bytes.ends_with(b"\n") {
        writeln!(out)?;
    }
    Ok(())
}

fn run() -> Result<(), Box<dyn Error>> {
    let names: Vec<_> = env::args().skip(1).collect();
    let [old, new] = &names[..] else {
        return Err("name two editions of a page: changes OLD NEW".into());
    };
    let (older, newer) = (input(old)?, input(new)?);
    match changed(&older, &newer) {
        Ok(Changed::Same) => println!("nothing changed"),
        Ok(Changed::New(part)) => print("new in", new, &part)?,
        Ok(Changed::Removed(part)) => print("removed from", old, &part)?,
        Err(why) => {
            let name = match why.which {
                Which::Older => old,
                Which::Newer => new,
            };
            return Err(format!("{name}: {}", why.refused).into());
        }
    }
    Ok(())
}

fn main() -> ExitCode {
    match run() {
        Ok(()) => ExitCode::SUCCESS,
        Err(why) => {
            eprintln!("{why}");
            ExitCode::FAILURE
        }
    }
}
