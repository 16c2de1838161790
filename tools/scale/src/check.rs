//! Calls the library on one case and holds every answer and every lent cell to the judge's reading.

use crate::archive::{self, Answer};
use crate::draw::Case;
use crate::lent::{Cell, Lent};
use crate::listing::{self, Mode};
use crate::random::Random;
use crate::records;
use crate::refuse::{Limits, Refusal};
use crate::words::{line_count, walked, Parsed, LIMIT, MAX_TEXT, WORDS_PER_EVENT, WORDS_PER_LINE};
use std::fmt::Debug;

/// The most rooms of a kind that are tried for one text.
const MOST_ROOMS: usize = 32;

/// More bytes than any stream or listing has.
const BOUNDLESS: usize = usize::MAX;

pub struct Difference {
    pub call: String,
    pub expected: String,
    pub came: String,
}

pub type Outcome = Result<(), Box<Difference>>;

/// One call by name, with its rooms, in case it has to be shown.
#[derive(Clone, Copy)]
enum Call {
    Parse {
        lines: usize,
        events: usize,
    },
    Write {
        words: usize,
        room: usize,
    },
    Read {
        bytes: usize,
        room: usize,
    },
    List {
        mode: u64,
        words: usize,
        room: usize,
    },
    Page {
        mode: u64,
        parsed: [u64; 4],
        words: usize,
        room: usize,
    },
}

impl Call {
    fn shown(self) -> String {
        match self {
            Call::Parse { lines, events } => {
                format!("parse with {lines} line words and {events} event words")
            }
            Call::Write { words, room } => format!("write of {words} words with {room} bytes"),
            Call::Read { bytes, room } => format!("read of {bytes} bytes with {room} words"),
            Call::List { mode, words, room } => {
                format!("list in mode {mode} of {words} words with {room} bytes")
            }
            Call::Page {
                mode,
                parsed,
                words,
                room,
            } => {
                format!("page in mode {mode} of {parsed:?} and {words} words with {room} bytes")
            }
        }
    }

    fn differs(self, expected: impl Into<String>, came: impl Into<String>) -> Outcome {
        Err(Box::new(Difference {
            call: self.shown(),
            expected: expected.into(),
            came: came.into(),
        }))
    }

    fn answers<const N: usize>(self, expected: [u64; N], came: Answer<N>) -> Outcome {
        match came {
            Some(came) if came == expected => Ok(()),
            Some(came) => self.differs(format!("answer {expected:?}"), format!("{came:?}")),
            None => self.differs("the words beside the answer left alone", "written over"),
        }
    }

    /// The cells beside the buffer are left alone.
    fn beside<T: Cell>(self, lent: &Lent<T>) -> Outcome {
        match lent.canaries_live() {
            true => Ok(()),
            false => self.differs("the cells beside each buffer left alone", "written over"),
        }
    }

    fn input_kept<T: Cell>(self, lent: &Lent<T>, input: &[T]) -> Outcome {
        match lent.part() == input {
            true => self.beside(lent),
            false => self.differs("the input left alone", "written over"),
        }
    }

    /// The buffer begins with these cells.
    fn begins<T: Cell + Debug>(self, lent: &Lent<T>, expected: &[T]) -> Outcome {
        let part = lent.part().get(..expected.len()).unwrap_or(lent.part());
        if part == expected {
            return Ok(());
        }
        let place = part
            .iter()
            .zip(expected)
            .take_while(|(a, b)| a == b)
            .count();
        // Whole events where the cells are words.
        let from = place - place % 8;
        let near = |cells: &[T]| {
            let to = cells.len().min(from + 8);
            format!("{:?} from cell {from} on", &cells[from.min(to)..to])
        };
        self.differs(near(expected), near(part))
    }

    fn as_found<T: Cell + Debug>(self, lent: &Lent<T>, from: usize) -> Outcome {
        match lent.not_as_found(from) {
            None => Ok(()),
            Some(place) => self.differs(
                format!("cells from {from} on as found"),
                format!("{:?} in cell {place}", lent.part()[place]),
            ),
        }
    }

    fn zeros(self, lent: &Lent<u32>, from: usize) -> Outcome {
        match lent.not_zero(from) {
            None => Ok(()),
            Some(place) => self.differs(
                format!("zeros from word {from} on"),
                format!("{} in word {place}", lent.part()[place]),
            ),
        }
    }
}

/// What was done so far.
#[derive(Default, Clone, Copy)]
pub struct Tally {
    pub cases: u64,
    /// How often each number was answered: 0 where all went well, else the refusal's.
    pub answers: [u64; 13],
    /// Streams read that are not what the writer wrote.
    pub damaged: u64,
    pub bytes: u64,
}

/// The buffers, used again for every call.
#[derive(Default)]
pub struct Desk {
    text: Lent<u8>,
    lines: Lent<u32>,
    events: Lent<u32>,
    words: Lent<u32>,
    stream: Lent<u8>,
    out: Lent<u8>,
    /// How far buffers are off their usual place.
    shift: usize,
    /// Whether empty buffers are NULL.
    null: bool,
    pub tally: Tally,
}

fn refusal(refusal: &Refusal) -> [u64; 3] {
    [refusal.number.into(), refusal.position as u64, 0]
}

fn limits(events: usize) -> Limits {
    Limits {
        nesting: LIMIT.into(),
        sections: LIMIT.into(),
        events,
        rust_raw: false,
    }
}

/// The numbers below `end`, or the first, the last and some between.
fn sample(random: &mut Random, end: usize) -> Vec<usize> {
    if end <= MOST_ROOMS {
        return (0..end).collect();
    }
    let edge = MOST_ROOMS / 4;
    let between = (0..2 * edge).map(|_| random.below(end));
    (0..edge).chain(between).chain(end - edge..end).collect()
}

/// The number of the full listing.
const FULL: u64 = 1;

/// Both modes of a listing as numbers: any other than that of the full one means short.
fn modes(random: &mut Random) -> [u64; 2] {
    let any = random.next() >> random.below(64);
    let short = random.pick(&[0, 0, 2, 257, 1 << 32 | 1, u64::MAX, any]);
    [if short == FULL { 0 } else { short }, FULL]
}

/// The mode that a number means.
fn mode_of(number: u64) -> Mode {
    match number {
        FULL => Mode::Full,
        _ => Mode::Short,
    }
}

/// The lines of events that the writer takes. Its refusals come first (`judged`), then 8 at the first line without room.
fn listed(
    mode: u64,
    words: &[u32],
    room: usize,
    judged: &Result<Vec<u8>, Refusal>,
) -> Result<String, Refusal> {
    judged.as_ref().map_err(|refusal| *refusal)?;
    let mut text = String::new();
    for (position, event) in words.chunks_exact(WORDS_PER_EVENT).enumerate() {
        let event = event.try_into().expect("eight words");
        text += &listing::line(event, mode_of(mode));
        if text.len() > room {
            return Err(Refusal {
                number: 8,
                position,
            });
        }
    }
    Ok(text)
}

/// The events taken and the listing of a parse that answered `parsed`; its last line has to have room too.
fn paged(
    mode: u64,
    parsed: [u64; 4],
    words: &[u32],
    room: usize,
    judged: &Result<Vec<u8>, Refusal>,
) -> Result<(usize, String), Refusal> {
    let [number, place, _, looks] = parsed;
    let (taken, text) = if number == 0 {
        let lines = listed(mode, words, room, judged)?;
        let taken = words.len() / WORDS_PER_EVENT;
        (taken, lines + &format!("looks {looks}\n"))
    } else {
        (0, format!("refused {number} at {place}\n"))
    };
    if text.len() > room {
        let (number, position) = (8, taken);
        return Err(Refusal { number, position });
    }
    Ok((taken, text))
}

impl Desk {
    /// The case held to the judge's reading. Its rooms are drawn from its salt, so that it can be had again.
    pub fn check(&mut self, case: &Case) -> Outcome {
        let mut random = Random::new(case.salt);
        (self.shift, self.null) = (random.below(16), random.once_in(2));
        self.tally.cases += 1;
        self.tally.damaged += u64::from(case.damaged);
        self.tally.bytes += case.data.len() as u64;
        match case.op {
            b't' => self.text(&case.data, &mut random),
            b'o' => self.rooms(&case.data, &mut random),
            b'b' => self.any_bytes(&case.data, &mut random),
            b'r' => self.records_read(&case.data, case.room, &mut random),
            _ => self.events_taken(&case.words(), case.room, &mut random),
        }
    }

    // ---- the modes

    /// A text with words enough, then all that can be done with its events.
    fn text(&mut self, text: &[u8], random: &mut Random) -> Outcome {
        let needed = WORDS_PER_LINE * line_count(text);
        let (expected, counts) = walked(text, needed, limits(usize::MAX));
        let lines = needed + random.pick(&[0, 0, 1, 2, 64]);
        let events = WORDS_PER_EVENT * counts.peak + random.pick(&[0, 0, 1, 7, 8, 64]);
        self.parse(text, lines, events, &expected)?;
        self.trips(text, &expected, random)
    }

    /// A text with every room from none to enough, or some of them where there are many.
    fn rooms(&mut self, text: &[u8], random: &mut Random) -> Outcome {
        let needed = WORDS_PER_LINE * line_count(text);
        let (expected, counts) = walked(text, needed, limits(usize::MAX));
        for lines in sample(random, needed) {
            let events = random.pick(&[0, 8, WORDS_PER_EVENT * counts.peak]);
            let (expected, _) = walked(text, lines, limits(events / WORDS_PER_EVENT));
            self.parse(text, lines, events, &expected)?;
        }
        for room in sample(random, counts.peak) {
            let lines = needed + random.pick(&[0, 0, 1, 2, 64]);
            let events = WORDS_PER_EVENT * room + random.below(WORDS_PER_EVENT);
            let (expected, _) = walked(text, lines, limits(room));
            self.parse(text, lines, events, &expected)?;
        }
        let events = WORDS_PER_EVENT * counts.peak + random.below(WORDS_PER_EVENT);
        self.parse(text, needed, events, &expected)?;
        match &expected {
            Ok(parsed) => self.small_rooms(text, parsed, random),
            Err(Refusal { number, position }) => {
                let parsed = [u64::from(*number), *position as u64, 0, 0];
                let nothing = records::write(&[], BOUNDLESS);
                for mode in modes(random) {
                    let line = listing::listing(&expected, mode_of(mode));
                    (0..=line.len() + 1).try_for_each(|room| {
                        let expected = paged(mode, parsed, &[], room, &nothing);
                        self.page(mode, parsed, &[], room, &expected)
                    })?;
                }
                Ok(())
            }
        }
    }

    /// Writing, reading and listing of an accepted parse's events with too little room.
    fn small_rooms(&mut self, text: &[u8], parsed: &Parsed, random: &mut Random) -> Outcome {
        let words = parsed.events.as_flattened();
        let stream = records::write(words, BOUNDLESS).expect("a parse's events are good");
        for room in sample(random, stream.len() + 1) {
            self.write(words, room, &records::write(words, room))?;
        }
        let live = records::read(&stream, BOUNDLESS).expect("a stream is good");
        for events in sample(random, live.len() + 1) {
            let room = WORDS_PER_EVENT * events + random.below(WORDS_PER_EVENT);
            self.read(&stream, room, &records::read(&stream, room))?;
        }
        let judged = Ok(stream);
        let answer = answer_of(text, parsed);
        for mode in modes(random) {
            let all = paged(mode, answer, words, BOUNDLESS, &judged).expect("room enough");
            for room in sample(random, all.1.len() + 1) {
                let expected = listed(mode, words, room, &judged);
                self.list(mode, words, room, &expected)?;
                let expected = paged(mode, answer, words, room, &judged);
                self.page(mode, answer, words, room, &expected)?;
            }
            // The last rooms end inside the line of looks.
            (0..12).try_for_each(|less| {
                let room = all.1.len() - less;
                let expected = paged(mode, answer, words, room, &judged);
                self.page(mode, answer, words, room, &expected)
            })?;
        }
        Ok(())
    }

    /// Any bytes with any rooms, through every function and twice: as a text, as a stream, as words.
    fn any_bytes(&mut self, bytes: &[u8], random: &mut Random) -> Outcome {
        let needed = WORDS_PER_LINE * line_count(bytes);
        let (mut expected, counts) = walked(bytes, needed, limits(usize::MAX));
        let (mut lines, mut events) = (needed, WORDS_PER_EVENT * counts.peak);
        match random.below(8) {
            0 => lines = random.below(needed + 1),
            1 => events = random.below(events + 1),
            _ => (lines, events) = (lines + random.below(20), events + random.below(80)),
        }
        if lines < needed || events < WORDS_PER_EVENT * counts.peak {
            expected = walked(bytes, lines, limits(events / WORDS_PER_EVENT)).0;
        }
        self.parse(bytes, lines, events, &expected)?;
        self.parse(bytes, lines, events, &expected)?;
        self.trips(bytes, &expected, random)?;
        let short = &bytes[..bytes.len().min(4096)];
        let room = random.below(8 * short.len() / 7 + 2);
        let events = records::read(short, room);
        self.read(short, room, &events)?;
        self.read(short, room, &events)?;
        let whole = short.chunks_exact(4);
        let words: Vec<u32> = whole
            .map(|word| u32::from_le_bytes(word.try_into().expect("four bytes")))
            .collect();
        let room = random.below(200);
        self.events_taken(&words, room, random)
    }

    /// A stream, and if it is taken, its events written again and listed.
    fn records_read(&mut self, bytes: &[u8], room: usize, random: &mut Random) -> Outcome {
        let events = records::read(bytes, room);
        self.read(bytes, room, &events)?;
        let Ok(events) = events else {
            return Ok(());
        };
        let words = events.as_flattened();
        let stream = Ok(bytes.to_vec());
        self.write(words, bytes.len(), &stream)?;
        modes(random).into_iter().try_for_each(|mode| {
            let lines = listed(mode, words, BOUNDLESS, &stream);
            let room = lines.as_ref().map_or(0, String::len);
            self.list(mode, words, room, &lines)
        })
    }

    /// Words written and listed, with the same room.
    fn events_taken(&mut self, words: &[u32], room: usize, random: &mut Random) -> Outcome {
        let judged = records::write(words, BOUNDLESS);
        self.write(words, room, &records::write(words, room))?;
        // A line is about twice as long as its record.
        let room = random.pick(&[room, 2 * room, 3 * room, room / 2]);
        let any = random.next() >> random.below(64);
        let parsed = [
            random.pick(&[0, 0, 0, 1, 6, any]),
            any,
            any,
            random.next() >> random.below(64),
        ];
        modes(random).into_iter().try_for_each(|mode| {
            let expected = listed(mode, words, room, &judged);
            self.list(mode, words, room, &expected)?;
            let expected = paged(mode, parsed, words, room, &judged);
            self.page(mode, parsed, words, room, &expected)
        })
    }

    /// What follows a parse: its events written, read back and listed; its page, or the line of its refusal.
    fn trips(
        &mut self,
        text: &[u8],
        expected: &Result<Parsed, Refusal>,
        random: &mut Random,
    ) -> Outcome {
        let modes = modes(random);
        let pages = modes.map(|mode| listing::listing(expected, mode_of(mode)));
        let room = |page: &str, random: &mut Random| page.len() + random.pick(&[0, 0, 1, 20]);
        let parsed = match expected {
            Ok(parsed) => parsed,
            Err(Refusal { number, position }) => {
                let answer = [u64::from(*number), *position as u64, 0, 0];
                return modes.into_iter().zip(pages).try_for_each(|(mode, page)| {
                    let lent = room(&page, random);
                    self.page(mode, answer, &[], lent, &Ok((0, page)))
                });
            }
        };
        let mut words = parsed.events.as_flattened();
        // Zeros behind the events are Stale ones, and may be taken too.
        let longer: Vec<u32>;
        if random.once_in(4) {
            longer = [words, &[0; 16]].concat();
            words = &longer;
        }
        let stream = records::write(words, BOUNDLESS).expect("a parse's events are good");
        let bytes = stream.len() + random.pick(&[0, 0, 1, 17]);
        let written = Ok(stream);
        self.write(words, bytes, &written)?;
        let stream = written.unwrap_or_default();

        let stale = [0; WORDS_PER_EVENT];
        let events = parsed.events.iter().copied();
        let live: Vec<_> = events.filter(|event| *event != stale).collect();
        let lent = WORDS_PER_EVENT * live.len() + random.pick(&[0, 0, 1, 7, 8, 30]);
        self.read(&stream, lent, &Ok(live))?;

        let answer = answer_of(text, parsed);
        let last = format!("looks {}\n", parsed.looks);
        let taken = words.len() / WORDS_PER_EVENT;
        modes.into_iter().zip(pages).try_for_each(|(mode, page)| {
            let lines = page[..page.len() - last.len()].to_string();
            let lent = room(&lines, random);
            self.list(mode, words, lent, &Ok(lines))?;
            let lent = room(&page, random);
            self.page(mode, answer, words, lent, &Ok((taken, page)))
        })
    }

    // ---- the calls

    fn parse(
        &mut self,
        text: &[u8],
        lines: usize,
        events: usize,
        expected: &Result<Parsed, Refusal>,
    ) -> Outcome {
        let call = Call::Parse { lines, events };
        self.text.give(text, self.shift);
        self.lines.lend(lines, self.shift % 4);
        self.events.lend(events, self.shift % 3);
        let came = archive::parse(&self.text, &mut self.lines, &mut self.events, self.null);
        let answer = match expected {
            Ok(parsed) => answer_of(text, parsed),
            Err(Refusal { number, position }) => [u64::from(*number), *position as u64, 0, 0],
        };
        call.answers(answer, came)?;
        self.tally.answers[answer[0] as usize] += 1;
        call.input_kept(&self.text, text)?;
        call.beside(&self.lines)?;
        call.beside(&self.events)?;
        match expected {
            Ok(parsed) => {
                let words = parsed.events.as_flattened();
                call.begins(&self.events, words)?;
                call.zeros(&self.events, words.len())?;
                call.zeros(&self.lines, 0)
            }
            Err(Refusal { number: 1 | 2, .. }) => {
                call.as_found(&self.lines, 0)?;
                call.as_found(&self.events, 0)
            }
            Err(_) => {
                call.zeros(&self.lines, 0)?;
                call.zeros(&self.events, 0)
            }
        }
    }

    /// A function from words to bytes.
    fn moved(
        &mut self,
        call: Call,
        words: &[u32],
        room: usize,
        function: impl FnOnce(&Lent<u32>, &mut Lent<u8>, bool) -> Answer<3>,
        expected: Result<&[u8], Refusal>,
    ) -> Outcome {
        self.take(words, room);
        let came = function(&self.words, &mut self.out, self.null);
        let taken = words.len() / WORDS_PER_EVENT;
        self.sent(call, words, came, expected.map(|bytes| (taken, bytes)))
    }

    fn write(
        &mut self,
        words: &[u32],
        room: usize,
        expected: &Result<Vec<u8>, Refusal>,
    ) -> Outcome {
        let call = Call::Write {
            words: words.len(),
            room,
        };
        let expected = expected.as_deref().map_err(|refusal| *refusal);
        self.moved(call, words, room, archive::write, expected)
    }

    fn list(
        &mut self,
        mode: u64,
        words: &[u32],
        room: usize,
        expected: &Result<String, Refusal>,
    ) -> Outcome {
        let call = Call::List {
            mode,
            words: words.len(),
            room,
        };
        let expected = match expected {
            Ok(lines) => Ok(lines.as_bytes()),
            Err(refusal) => Err(*refusal),
        };
        let list =
            |events: &Lent<u32>, out: &mut Lent<u8>, null| archive::list(mode, events, out, null);
        self.moved(call, words, room, list, expected)
    }

    fn page(
        &mut self,
        mode: u64,
        parsed: [u64; 4],
        words: &[u32],
        room: usize,
        expected: &Result<(usize, String), Refusal>,
    ) -> Outcome {
        let call = Call::Page {
            mode,
            parsed,
            words: words.len(),
            room,
        };
        self.take(words, room);
        let came = archive::page(mode, &parsed, &self.words, &mut self.out, self.null);
        let expected = expected.as_ref().map_err(|refusal| *refusal);
        self.sent(
            call,
            words,
            came,
            expected.map(|(taken, page)| (*taken, page.as_bytes())),
        )
    }

    /// Words given and bytes lent.
    fn take(&mut self, words: &[u32], room: usize) {
        self.words.give(words, self.shift % 4);
        self.out.lend(room, self.shift);
    }

    /// After a call on words that writes bytes: events taken and bytes, or a refusal.
    fn sent(
        &mut self,
        call: Call,
        words: &[u32],
        came: Answer<3>,
        expected: Result<(usize, &[u8]), Refusal>,
    ) -> Outcome {
        let (answer, bytes): ([u64; 3], &[u8]) = match expected {
            Ok((taken, bytes)) => ([0, taken as u64, bytes.len() as u64], bytes),
            Err(refused) => (refusal(&refused), &[]),
        };
        call.answers(answer, came)?;
        self.tally.answers[answer[0] as usize] += 1;
        call.input_kept(&self.words, words)?;
        call.beside(&self.out)?;
        call.begins(&self.out, bytes)?;
        call.as_found(&self.out, bytes.len())
    }

    fn read(
        &mut self,
        bytes: &[u8],
        room: usize,
        expected: &Result<Vec<[u32; 8]>, Refusal>,
    ) -> Outcome {
        let call = Call::Read {
            bytes: bytes.len(),
            room,
        };
        self.stream.give(bytes, self.shift);
        self.events.lend(room, self.shift % 4);
        let came = archive::read(&self.stream, &mut self.events, self.null);
        let answer = match expected {
            Ok(events) => [0, bytes.len() as u64, events.len() as u64],
            Err(refused) => refusal(refused),
        };
        call.answers(answer, came)?;
        self.tally.answers[answer[0] as usize] += 1;
        call.input_kept(&self.stream, bytes)?;
        call.beside(&self.events)?;
        match expected {
            Ok(events) => {
                let words = events.as_flattened();
                call.begins(&self.events, words)?;
                call.zeros(&self.events, words.len())
            }
            Err(_) => call.as_found(&self.events, 0),
        }
    }
}

/// What an accepted parse answers.
fn answer_of(text: &[u8], parsed: &Parsed) -> [u64; 4] {
    debug_assert!(text.len() <= MAX_TEXT);
    let count = parsed.events.len() as u64;
    [0, text.len() as u64, count, parsed.looks]
}
