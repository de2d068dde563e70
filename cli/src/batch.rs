//! `batch`: many records, answered in order, a line for each.

use std::ffi::OsStr;
use std::fs::File;
use std::io::{self, BufReader, ErrorKind, IsTerminal, Read};
use std::os::unix::ffi::OsStrExt;
use std::time::{Duration, Instant};

use lampsickle::{limits, Answer, Entry, Refusal};

use crate::arguments::{Word, Words, STANDARD};
use crate::demand::Demand;
use crate::end::{End, Trouble};
use crate::input::taken;
use crate::json::Object;
use crate::output::{answered, aside, told, Reader};
use crate::report::{class, class_json, refusal_json, refusal_text};
use crate::text::shown;
use crate::{explain, help};

/// How often the progress line is written anew.
const BEAT: Duration = Duration::from_millis(500);

pub fn run(words: Words) -> Result<End, Trouble> {
    let Some(request) = request(words)? else {
        return help::print();
    };
    let mut batch = Batch { request: &request, progress: Progress::new(), done: 0, end: End::Answered };
    for file in &request.files {
        if batch.one_or_many(file)? == Reader::Gone {
            break;
        }
    }
    batch.progress.clear();
    Ok(batch.end)
}

struct Request {
    files: Vec<Word>,
    json: bool,
    demand: Demand,
}

/// What is asked for; none where that is help.
fn request(mut words: Words) -> Result<Option<Request>, Trouble> {
    let (mut json, mut help, mut demand) = (false, false, Demand::default());
    let mut files = words.files(|words, option| {
        let Some(option) = demand.take(words, option)? else {
            return Ok(());
        };
        match option.name.as_slice() {
            b"--help" | b"-h" => help = true,
            b"--json" => json = option.flag()?,
            _ => return Err(option.unknown("batch")),
        }
        Ok(())
    })?;
    if files.is_empty() {
        files.push(STANDARD.to_vec());
    }
    match files.iter().filter(|file| *file == STANDARD).count() {
        0 | 1 => Ok((!help).then_some(Request { files, json, demand })),
        _ => Err(Trouble::usage("batch: standard input (\"-\") is named twice")),
    }
}

struct Batch<'a> {
    request: &'a Request,
    progress: Progress,
    done: usize,
    end: End,
}

impl Batch<'_> {
    /// A file's record, or the records on standard input. One that can't be read is
    /// told, and the next goes on.
    fn one_or_many(&mut self, file: &[u8]) -> Result<Reader, Trouble> {
        let read = match file {
            STANDARD => self.standard_input()?,
            _ => match one(file) {
                Ok(record) => Ok(self.record(&shown(file), &record)?),
                Err(error) => Err(format!("{}: {error}", shown(file))),
            },
        };
        read.or_else(|words| {
            told(&words);
            self.end = self.end.max(End::Unread);
            Ok(Reader::There)
        })
    }

    /// Records behind their lengths, four bytes each, big-endian. Within is what is
    /// wrong with the input.
    fn standard_input(&mut self) -> Result<Result<Reader, String>, Trouble> {
        let mut input = BufReader::new(io::stdin().lock());
        loop {
            let record = match framed(&mut input) {
                Ok(Some(record)) => record,
                Ok(None) => return Ok(Ok(Reader::There)),
                Err(error) => return Ok(Err(format!("standard input: record {}: {error}", self.done))),
            };
            if self.record(&format!("record {}", self.done), &record)? == Reader::Gone {
                return Ok(Ok(Reader::Gone));
            }
        }
    }

    fn record(&mut self, name: &str, record: &[u8]) -> Result<Reader, Trouble> {
        let asked = lampsickle::ask(record);
        let values = explain::decode("", record).query.values;
        let (end, why) = match &asked {
            Ok(answer) => self.request.demand.end(&values, answer),
            Err(_) => (End::Refused, None),
        };
        self.end = self.end.max(end);
        self.done += 1;
        let line = if self.request.json { json(name, &values, &asked) } else { plain(name, &values, &asked) };
        let reader = answered((line + "\n").as_bytes())?;
        if let Some(why) = why {
            told(&format!("{name}: {why}"));
        }
        self.progress.tell(self.done);
        Ok(reader)
    }
}

/// A file's record: one byte more than a record has is enough to refuse it.
fn one(file: &[u8]) -> io::Result<Vec<u8>> {
    let mut file = File::open(OsStr::from_bytes(file))?;
    Ok(taken(&mut file, limits::RECORD_BYTES + 1)?.bytes)
}

/// The next record behind its length; none at the end.
fn framed(input: &mut impl Read) -> io::Result<Option<Vec<u8>>> {
    let Some(length) = prefix(input)? else {
        return Ok(None);
    };
    let mut whole = input.take(length.into());
    let record = taken(&mut whole, limits::RECORD_BYTES + 1)?.bytes;
    io::copy(&mut whole, &mut io::sink())?;
    match whole.limit() {
        0 => Ok(Some(record)),
        _ => Err(cut()),
    }
}

fn cut() -> io::Error {
    io::Error::new(ErrorKind::UnexpectedEof, "it is cut short")
}

/// The next length; none at the end.
fn prefix(input: &mut impl Read) -> io::Result<Option<u32>> {
    let mut bytes = Vec::new();
    input.take(4).read_to_end(&mut bytes)?;
    match bytes[..] {
        [] => Ok(None),
        [a, b, c, d] => Ok(Some(u32::from_be_bytes([a, b, c, d]))),
        _ => Err(cut()),
    }
}

fn plain(name: &str, values: &[Word], asked: &Result<Answer, Refusal>) -> String {
    match asked {
        Err(refusal) => format!("{name}: {}", refusal_text(*refusal)),
        Ok(answer) => {
            let class = shown(class(values, answer));
            let Answer { rank, rounds, reached, entries } = answer;
            let (all, aside) = (entries.len(), entries.iter().filter(|entry| entry.reason != 0).count());
            let of = values.len();
            format!("{name}: class {class}, rank {rank} of {of}, rounds {rounds}, reached {reached}, {aside} of {all} set aside")
        }
    }
}

fn json(name: &str, values: &[Word], asked: &Result<Answer, Refusal>) -> String {
    let object = match asked {
        Err(refusal) => refusal_json(*refusal),
        Ok(answer) => {
            let entry = |entry: &Entry| {
                Object::default().number("reason", entry.reason.into()).number("place", entry.place).done()
            };
            let entries: Vec<String> = answer.entries.iter().map(entry).collect();
            class_json(values, answer).list("assertions", &entries)
        }
    };
    object.text("record", name).done()
}

/// A line on standard error that counts, where that is a terminal.
struct Progress {
    terminal: bool,
    told: Instant,
    shown: bool,
}

impl Progress {
    fn new() -> Self {
        Self { terminal: io::stderr().is_terminal(), told: Instant::now(), shown: false }
    }

    fn tell(&mut self, done: usize) {
        if self.terminal && self.told.elapsed() >= BEAT {
            aside(&format!("\r{done} records"));
            (self.told, self.shown) = (Instant::now(), true);
        }
    }

    fn clear(&self) {
        if self.shown {
            aside("\r\x1b[K");
        }
    }
}
