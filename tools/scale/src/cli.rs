//! The command line.

use crate::check::{Desk, Difference};
use crate::draw::{Case, Mode};
use crate::options::{unescaped, Options, Usage};
use crate::run::{self, Found, Share};
use crate::{guard, shrink};
use std::panic;
use std::process::ExitCode;
use std::thread;
use std::time::{Duration, Instant};

const USAGE: &str = "usage: scale texts|rooms|bytes|streams --seed S --count N [--threads T]
       scale all --seed S --minutes M [--threads T]
       scale case t|o|b|r|w --salt X --room R --data ESCAPED";

/// Hundredths of the time that `all` gives to each mode.
const SHARES: [(Mode, u64); 4] = [
    (Mode::Texts, 45),
    (Mode::Rooms, 20),
    (Mode::Bytes, 15),
    (Mode::Streams, 20),
];

pub fn run() -> ExitCode {
    let arguments: Vec<String> = std::env::args().skip(1).collect();
    let arguments: Vec<&str> = arguments.iter().map(String::as_str).collect();
    guard::watch();
    match command(&arguments) {
        Ok(true) => ExitCode::SUCCESS,
        Ok(false) => ExitCode::FAILURE,
        Err(Usage(what)) => {
            eprintln!("scale: {what}\n{USAGE}");
            ExitCode::from(2)
        }
    }
}

/// Whether nothing differed.
fn command(arguments: &[&str]) -> Result<bool, Usage> {
    let (name, options) = arguments
        .split_first()
        .ok_or_else(|| Usage("no command".to_string()))?;
    if *name == "case" {
        return one(options);
    }
    let mut options = Options::new(options);
    let (seed, threads) = (options.number("--seed")?, threads(&mut options)?);
    if *name == "all" {
        let seconds = 60 * options.number("--minutes")?;
        options.end()?;
        let share = |part| Share::Time(Duration::from_millis(10 * seconds * part));
        return Ok(SHARES
            .iter()
            .all(|(mode, part)| compared(*mode, seed, share(*part), threads)));
    }
    let mode = Mode::ALL.into_iter().find(|mode| mode.name() == *name);
    let mode = mode.ok_or_else(|| Usage(format!("no command `{name}`")))?;
    let count = options.number("--count")?;
    options.end()?;
    Ok(compared(mode, seed, Share::Count(count), threads))
}

/// As many threads as there are cores, if nothing else is said.
fn threads(options: &mut Options) -> Result<usize, Usage> {
    let Some(word) = options.take("--threads")? else {
        let cores = thread::available_parallelism().map_or(1, usize::from);
        return Ok(cores.min(guard::MOST_THREADS));
    };
    let number = word.parse().ok();
    number
        .filter(|n| (1..=guard::MOST_THREADS).contains(n))
        .ok_or_else(|| Usage(format!("--threads takes 1 to {}", guard::MOST_THREADS)))
}

/// Runs a mode and says what came of it in a line, or shows a difference.
fn compared(mode: Mode, seed: u64, share: Share, threads: usize) -> bool {
    let start = Instant::now();
    match run::run(mode, seed, share, threads) {
        Ok(tally) => {
            let what = match mode {
                Mode::Texts => "texts with words enough, records and listings",
                Mode::Rooms => "texts with every room from none on",
                Mode::Bytes => "inputs of any bytes, each twice",
                Mode::Streams => "streams and word lists",
            };
            let damaged = match mode {
                Mode::Streams => format!(", {} damaged streams read", tally.damaged),
                _ => String::new(),
            };
            let (cases, bytes) = (tally.cases, tally.bytes);
            let calls: u64 = tally.answers.iter().sum();
            let numbers = tally.answers.iter().enumerate().skip(1);
            let refusals: String = numbers
                .filter(|(_, times)| **times > 0)
                .map(|(number, times)| format!(" {number} x {times}"))
                .collect();
            let seconds = start.elapsed().as_secs_f64();
            println!(
                "{}: {cases} {what}{damaged}: {calls} calls on {bytes} bytes, all as the judge reads (refusals:{refusals}), seed {seed}, {seconds:.1} s",
                mode.name()
            );
            true
        }
        Err(found) => {
            shown(mode, seed, found);
            false
        }
    }
}

/// The difference, of the smallest case that has one.
fn shown(mode: Mode, seed: u64, found: Found) {
    let Found {
        index,
        case,
        difference,
    } = found;
    println!("{}: DIFFERENCE at index {index}, seed {seed}", mode.name());
    tell(&case, &difference);
    // Smaller cases may panic in the judge very often, and once was shown.
    panic::set_hook(Box::new(|_| {}));
    let mut desk = Desk::default();
    let case = shrink::smallest(&mut desk, case);
    if let Some(difference) = shrink::difference(&mut desk, &case) {
        println!("smallest:");
        tell(&case, &difference);
    }
}

fn tell(case: &Case, difference: &Difference) {
    let Difference {
        call,
        expected,
        came,
    } = difference;
    println!("  {}", guard::shown(case));
    println!("  {call}\n  expected {expected}\n  came     {came}");
}

/// One case again.
fn one(arguments: &[&str]) -> Result<bool, Usage> {
    let (op, options) = arguments
        .split_first()
        .filter(|(op, _)| ["t", "o", "b", "r", "w"].contains(*op))
        .ok_or_else(|| Usage("a case is t, o, b, r or w".to_string()))?;
    let mut options = Options::new(options);
    let (salt, room) = (
        options.number("--salt")?,
        options.number("--room")? as usize,
    );
    let data = options.take("--data")?.and_then(unescaped);
    options.end()?;
    let case = Case {
        op: op.as_bytes()[0],
        data: data.ok_or_else(|| Usage("--data has no escaped bytes".to_string()))?,
        room,
        salt,
        damaged: false,
    };
    let difference = shrink::difference(&mut Desk::default(), &case);
    match &difference {
        None => println!("as the judge reads"),
        Some(difference) => tell(&case, difference),
    }
    Ok(difference.is_none())
}
