//! The command line: reads the arguments and runs one command.

use crate::frames::{PairFrame, SetFrame, TextFrame};
use crate::options::{Options, Usage, PAGES};
use crate::random::Random;
use crate::refuse::Refusal;
use crate::words::parsed;
use crate::{
    cases, chosen, editions, frames, gen_editions, gen_leaf, gen_records, gen_sets, gen_words,
    leaf, listing, sets, streams,
};
use std::io::{self, BufReader, BufWriter, Read, Write};
use std::process::ExitCode;

const USAGE: &str = "usage: judge leaf
       judge words [--raw rust|page]
       judge listing [--raw rust|page] [--mode short|full]
       judge listing [--raw rust|page] --file PATH
       judge listing --stream PATH
       judge gen leaf OP --seed S --count N
       judge records
       judge trips
       judge gen records --seed S --count N
       judge gen damage
       judge sets
       judge gen sets --seed S --count N
       judge editions
       judge gen editions --seed S --count N [--size small]
       judge gen chosen [--size pages|trips|small]
       judge gen words --seed S --count N [--capacity sweep] [--limits any] [--size pages|trips|small]
       judge short leaf OP --alphabet A --max L
       judge short words --alphabet A --max L
       judge short editions --alphabet A --max L
       judge cases";

/// Why a command did not end well.
enum Failure {
    Usage(Usage),
    Stream(io::Error),
    Cases,
}

impl From<Usage> for Failure {
    fn from(usage: Usage) -> Self {
        Self::Usage(usage)
    }
}

impl From<io::Error> for Failure {
    fn from(e: io::Error) -> Self {
        Self::Stream(e)
    }
}

type Outcome = Result<(), Failure>;

pub fn run() -> ExitCode {
    let arguments: Vec<String> = std::env::args().skip(1).collect();
    let arguments: Vec<&str> = arguments.iter().map(String::as_str).collect();
    let mut input = BufReader::with_capacity(1 << 16, io::stdin().lock());
    let mut output = BufWriter::with_capacity(1 << 16, io::stdout().lock());
    let outcome = command(&arguments, &mut input, &mut output);
    let flushed = output.flush().map_err(Failure::Stream);
    match outcome.and(flushed) {
        Ok(()) => ExitCode::SUCCESS,
        // The reader of our output has seen enough.
        Err(Failure::Stream(e)) if e.kind() == io::ErrorKind::BrokenPipe => ExitCode::SUCCESS,
        Err(Failure::Stream(e)) => {
            eprintln!("judge: {e}");
            ExitCode::FAILURE
        }
        Err(Failure::Usage(Usage(what))) => {
            eprintln!("judge: {what}\n{USAGE}");
            ExitCode::from(2)
        }
        Err(Failure::Cases) => ExitCode::FAILURE,
    }
}

fn command(arguments: &[&str], input: &mut impl Read, output: &mut impl Write) -> Outcome {
    match arguments {
        ["leaf"] => answer_leaves(input, output),
        ["words", options @ ..] => answer_words(Options::new(options), input, output),
        ["listing", options @ ..] => answer_listings(Options::new(options), input, output),
        ["gen", "leaf", op, options @ ..] => {
            generate_leaves(operation(op)?, Options::new(options), output)
        }
        ["records"] => answer_records(input, output),
        ["trips"] => answer_trips(input, output),
        ["gen", "records", options @ ..] => generate_records(Options::new(options), output),
        ["gen", "damage"] => gen_records::damages().try_for_each(|payload| {
            frames::write_leaf(output, b'd', &payload).map_err(Failure::from)
        }),
        ["sets"] => answer_sets(input, output),
        ["gen", "sets", options @ ..] => generate_sets(Options::new(options), output),
        ["editions"] => answer_editions(input, output),
        ["gen", "editions", options @ ..] => generate_editions(Options::new(options), output),
        ["gen", "chosen", options @ ..] => generate_chosen(Options::new(options), output),
        ["gen", "words", options @ ..] => generate_words(Options::new(options), output),
        ["short", "leaf", op, options @ ..] => {
            short_leaves(operation(op)?, Options::new(options), output)
        }
        ["short", "words", options @ ..] => short(Options::new(options), |text| {
            frames::write_text(output, &gen_words::plain(text))
        }),
        ["short", "editions", options @ ..] => short_editions(Options::new(options), output),
        ["cases"] => run_cases(output),
        _ => Err(Usage("no such command".to_string()).into()),
    }
}

fn operation(word: &str) -> Result<u8, Usage> {
    match word.as_bytes() {
        [op] if leaf::OPS.contains(op) => Ok(*op),
        _ => Err(Usage(format!("no operation `{word}`"))),
    }
}

/// Shows the input at hand if the judge panics on it.
struct AtHand<'a>(&'a [u8]);

impl Drop for AtHand<'_> {
    fn drop(&mut self) {
        if std::thread::panicking() {
            eprintln!("judge: the input was \"{}\"", self.0.escape_ascii());
        }
    }
}

fn answer_leaves(input: &mut impl Read, output: &mut impl Write) -> Outcome {
    let mut payload = Vec::new();
    while let Some(op) = frames::read_leaf(input, &mut payload)? {
        let _at_hand = AtHand(&payload);
        writeln!(output, "{}", leaf::answer(op, &payload))?;
    }
    Ok(())
}

fn answer_words(mut options: Options, input: &mut impl Read, output: &mut impl Write) -> Outcome {
    let rust_raw = options.rust_raw()?;
    options.end()?;
    while let Some(frame) = frames::read_text(input)? {
        let _at_hand = AtHand(&frame.text);
        match parsed(&frame, rust_raw) {
            Ok(parsed) => {
                let (len, count) = (frame.text.len(), parsed.events.len());
                write!(output, "0 {len} {count} {}", parsed.looks)?;
                for word in parsed.events.as_flattened() {
                    write!(output, " {word}")?;
                }
                writeln!(output)?;
            }
            Err(Refusal { number, position }) => writeln!(output, "{number} {position} 0 0")?,
        }
    }
    Ok(())
}

/// What writing and reading answer, and what they leave.
fn answer_records(input: &mut impl Read, output: &mut impl Write) -> Outcome {
    let mut payload = Vec::new();
    while let Some(op) = frames::read_leaf(input, &mut payload)? {
        let _at_hand = AtHand(&payload);
        write!(output, "{}", streams::answer(op, &payload))?;
    }
    Ok(())
}

/// What the five functions over sets answer, and what they leave.
fn answer_sets(input: &mut impl Read, output: &mut impl Write) -> Outcome {
    let mut payload = Vec::new();
    while let Some(op) = frames::read_leaf(input, &mut payload)? {
        let _at_hand = AtHand(&payload);
        writeln!(output, "{}", sets::answer(&SetFrame::of(op, &payload)))?;
    }
    Ok(())
}

/// What changed between two editions.
fn answer_editions(input: &mut impl Read, output: &mut impl Write) -> Outcome {
    let mut payload = Vec::new();
    while let Some(op) = frames::read_leaf(input, &mut payload)? {
        let _at_hand = AtHand(&payload);
        writeln!(output, "{}", editions::answer(&PairFrame::of(op, &payload)))?;
    }
    Ok(())
}

/// Of each text: the parse's answer, and what its records and its listing are.
fn answer_trips(input: &mut impl Read, output: &mut impl Write) -> Outcome {
    while let Some(frame) = frames::read_text(input)? {
        let _at_hand = AtHand(&frame.text);
        writeln!(output, "{}", streams::trip(&frame))?;
    }
    Ok(())
}

fn answer_listings(
    mut options: Options,
    input: &mut impl Read,
    output: &mut impl Write,
) -> Outcome {
    if let Some(path) = options.take("--stream")? {
        options.end()?;
        write!(output, "{}", listing::of_stream(&std::fs::read(path)?))?;
        return Ok(());
    }
    let rust_raw = options.rust_raw()?;
    if let Some(path) = options.take("--file")? {
        options.end()?;
        let listing = listing::of_file(&std::fs::read(path)?, rust_raw);
        write!(output, "{listing}")?;
        return Ok(());
    }
    let mode = options.listing_mode()?;
    options.end()?;
    while let Some(frame) = frames::read_text(input)? {
        let _at_hand = AtHand(&frame.text);
        let listing = listing::listing(&parsed(&frame, rust_raw), mode);
        writeln!(output, "{listing}")?;
    }
    Ok(())
}

fn generate_leaves(op: u8, mut options: Options, output: &mut impl Write) -> Outcome {
    let (mut random, count) = (
        Random::new(options.number("--seed")?),
        options.number("--count")?,
    );
    options.end()?;
    for _ in 0..count {
        frames::write_leaf(output, op, &gen_leaf::payload(op, &mut random))?;
    }
    Ok(())
}

fn generate_records(mut options: Options, output: &mut impl Write) -> Outcome {
    let (mut random, count) = (
        Random::new(options.number("--seed")?),
        options.number("--count")?,
    );
    options.end()?;
    for index in 0..count {
        let (op, payload) = gen_records::payload(&mut random, index);
        frames::write_leaf(output, op, &payload)?;
    }
    Ok(())
}

fn generate_sets(mut options: Options, output: &mut impl Write) -> Outcome {
    let (mut random, count) = (
        Random::new(options.number("--seed")?),
        options.number("--count")?,
    );
    options.end()?;
    for frame in gen_sets::frames(&mut random, count) {
        frames::write_leaf(output, frame.op, &frame.payload())?;
    }
    Ok(())
}

fn generate_editions(mut options: Options, output: &mut impl Write) -> Outcome {
    let (mut random, count) = (
        Random::new(options.number("--seed")?),
        options.number("--count")?,
    );
    let longest = options.longest()?;
    options.end()?;
    for frame in gen_editions::frames(&mut random, count, longest) {
        frames::write_leaf(output, frame.op, &frame.payload())?;
    }
    Ok(())
}

fn generate_chosen(mut options: Options, output: &mut impl Write) -> Outcome {
    let longest = options.longest()?;
    options.end()?;
    for frame in chosen::frames().filter(|frame| frame.text.len() <= longest) {
        frames::write_text(output, &frame)?;
    }
    Ok(())
}

fn generate_words(mut options: Options, output: &mut impl Write) -> Outcome {
    let (mut random, count) = (
        Random::new(options.number("--seed")?),
        options.number("--count")?,
    );
    let sweep = options.is("--capacity", "sweep")?;
    let any_limits = options.is("--limits", "any")?;
    let longest = options.longest()?;
    options.end()?;
    let mut give = |frame: TextFrame| {
        if frame.text.len() > longest || longest <= PAGES && !frame.fits_pages() {
            return Ok(());
        }
        frames::write_text(output, &frame)
    };
    for index in 0..count {
        if sweep {
            gen_words::sweep(&mut random, index, any_limits).try_for_each(&mut give)?;
        } else {
            give(gen_words::frame(&mut random, index, any_limits))?;
        }
    }
    Ok(())
}

fn short_leaves(op: u8, options: Options, output: &mut impl Write) -> Outcome {
    if op == b'C' {
        return Err(Usage("payloads of C are not texts".to_string()).into());
    }
    short(options, |text| {
        if op == b'M' && gen_leaf::is_break(text) {
            return Ok(());
        }
        frames::write_leaf(output, op, text)
    })
}

/// Every text beside every text, each with its events.
fn short_editions(options: Options, output: &mut impl Write) -> Outcome {
    let mut texts = Vec::new();
    short(options, |text| {
        texts.push(text.to_vec());
        Ok(())
    })?;
    for older in &texts {
        for newer in &texts {
            let frame = gen_editions::plain(older, newer);
            frames::write_leaf(output, frame.op, &frame.payload())?;
        }
    }
    Ok(())
}

/// Hands over every text of the alphabet, the shorter first.
fn short(mut options: Options, mut give: impl FnMut(&[u8]) -> io::Result<()>) -> Outcome {
    let (alphabet, max) = (options.alphabet()?, options.number("--max")?);
    options.end()?;
    let last = alphabet.len() - 1;
    for len in 0..=max {
        let mut digits = vec![0; len as usize];
        loop {
            let text: Vec<u8> = digits.iter().map(|d| alphabet[*d]).collect();
            give(&text)?;
            // Count up by one; where every digit is the last one, the length is done.
            let Some(place) = digits.iter().rposition(|d| *d < last) else {
                break;
            };
            digits[place] += 1;
            digits[place + 1..].fill(0);
        }
    }
    Ok(())
}

fn run_cases(output: &mut impl Write) -> Outcome {
    let (passed, failed) = cases::run();
    for case in &failed {
        writeln!(output, "failed: {case}")?;
    }
    writeln!(output, "{passed} passed, {} failed", failed.len())?;
    if failed.is_empty() {
        Ok(())
    } else {
        Err(Failure::Cases)
    }
}
