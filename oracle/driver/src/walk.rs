//! One log through the crate, up to its first error.
//!
//! The crate reads its log field by field through `Read`. `Tap` gives it those fields, remembers where each one lies, and stops the crate at
//! the limits of document 01 that it does not have.

use crate::lines;
use fallible_iterator::FallibleIterator;
use std::fmt::Write;
use std::hint::black_box;
use std::io::{Error as IoError, ErrorKind, Read};
use std::panic::{catch_unwind, AssertUnwindSafe};
use std::sync::{Arc, Mutex};
use std::time::Duration;
use uefi_eventlog::parsed::{EventParseError, ParsedEventData as Parsed};
use uefi_eventlog::{Error, Event, Parser};

pub const LOG: usize = 65_536;
pub const RECORD: usize = 32_768;
pub const PAIRS: u64 = 16;

#[derive(Clone, Copy)]
pub struct Settings {
    pub detail: bool,
    pub parts: bool,
    pub limits: bool,
}

/// Where the crate stands and what it has said. The watch reads it too.
#[derive(Default)]
pub struct State {
    /// The processor's time at which this walk began.
    pub begun: Option<Duration>,
    lines: String,
    records: usize,
    agile: bool,
    /// The start of the record, of the field last asked for and of the next; how many fields of the record were asked for.
    record: usize,
    field: usize,
    next: usize,
    fields: usize,
    stop: Stop,
}

#[derive(Default, Clone, Copy, PartialEq)]
enum Stop {
    #[default]
    No,
    Marker,
    Outside(u32, usize),
}

pub type Shared = Arc<Mutex<State>>;

impl State {
    pub fn begin(now: Duration) -> State {
        State { begun: Some(now), ..State::default() }
    }

    /// The whole answer, with its first and its last line.
    pub fn answer(&mut self, last: &str) -> String {
        let kind = match self.records {
            _ if self.agile => "agile",
            0 if last.starts_with("end") => "empty",
            0 => "unknown",
            _ => "sha1",
        };
        format!("log {kind}\n{}{last}\n", std::mem::take(&mut self.lines))
    }

    /// The last line where the crate has no answer.
    pub fn nothing(&self, word: &str) -> String {
        format!("{word} at {} data {}+{}", self.record, self.field, self.next - self.field)
    }

    fn number(&mut self, settings: Settings) {
        if !settings.detail {
            let _ = write!(self.lines, "{} ", self.records);
        }
        self.records += 1;
    }
}

struct Tap<'a> {
    log: &'a [u8],
    limits: bool,
    state: Shared,
}

impl std::fmt::Debug for Tap<'_> {
    fn fmt(&self, out: &mut std::fmt::Formatter<'_>) -> std::fmt::Result {
        out.write_str("tap")
    }
}

impl Read for Tap<'_> {
    fn read(&mut self, _: &mut [u8]) -> std::io::Result<usize> {
        unreachable!("the crate asks for whole fields")
    }

    fn read_exact(&mut self, room: &mut [u8]) -> std::io::Result<()> {
        let mut s = self.state.lock().unwrap();
        if s.records == 0 && s.fields == 5 {
            // The first record is whole and the crate reads on without having given it: it was the marker, and it was sound. The crate is
            // stopped here by an error of ours, so that the marker can be told, and called again; it keeps nothing of such an error.
            s.stop = Stop::Marker;
            return Err(ErrorKind::Other.into());
        }
        s.fields += 1;
        s.field = s.next;
        let end = s.field + room.len();
        if self.limits && s.fields > 1 && end - s.record > RECORD {
            s.stop = Stop::Outside(3, s.field);
            return Err(ErrorKind::Other.into());
        }
        room.copy_from_slice(self.log.get(s.field..end).ok_or(IoError::from(ErrorKind::UnexpectedEof))?);
        s.next = end;
        Ok(())
    }
}

/// Fills the state's lines, one for each record, and gives the last line.
pub fn walk(log: &[u8], settings: Settings, state: &Shared) -> String {
    if settings.limits && log.len() > LOG {
        return format!("outside 1 at {LOG}");
    }
    let mut parser = Parser::new(Tap { log, limits: settings.limits, state: state.clone() });
    loop {
        {
            let mut s = state.lock().unwrap();
            (s.record, s.field, s.fields, s.stop) = (s.next, s.next, 0, Stop::No);
        }
        let Ok(said) = catch_unwind(AssertUnwindSafe(|| parser.next())) else {
            return format!("{} {}", state.lock().unwrap().nothing("panic"), crate::PANIC.lock().unwrap());
        };
        let mut s = state.lock().unwrap();
        match said {
            Ok(None) => return format!("end at {} tail {}", s.record, log.len() - s.record),
            Ok(Some(event)) => record(&mut s, log, &event, settings),
            Err(Error::Io(e)) if e.kind() == ErrorKind::UnexpectedEof => return format!("refused 2 at {}", s.field),
            Err(Error::Io(_)) if s.stop == Stop::Marker => {
                let data = &log[32..s.next];
                let told = marker(data, &format!("{parser:?}"));
                if settings.limits && lines::number(data, 24, 4) > PAIRS {
                    return "outside 11 at 32".to_string();
                }
                s.agile = true;
                s.number(settings);
                head(&mut s, settings, lines::number(log, 0, 4), lines::number(log, 4, 4), 1);
                s.lines.push_str(if settings.detail { &told } else { " marker" });
                s.lines.push('\n');
            }
            Err(Error::Io(_)) => match s.stop {
                Stop::Outside(k, at) => return format!("outside {k} at {at}"),
                _ => return "error of the reader".to_string(),
            },
            Err(Error::UnsupportedDigestMethod(_)) => return format!("refused 4 at {}", s.field),
            Err(Error::EventParse(e)) => {
                let (k, data) = (refusal(&e), &log[s.field..s.next]);
                let kind = lines::number(log, s.record + 4, 4) as u32;
                let place = place(kind, data, k).map_or("?".to_string(), |at| (s.field + at).to_string());
                return format!("refused {k} at {place}");
            }
            Err(e) => return format!("error {e:?}"),
        }
    }
}

/// The crate alone over a log, up to its end or its first error; each event is made whole and dropped. Gives how many there were.
pub fn alone(log: &[u8]) -> usize {
    let mut parser = Parser::new(black_box(log));
    let mut records = 0;
    while let Ok(Some(event)) = parser.next() {
        drop(black_box(event));
        records += 1;
    }
    records
}

fn marker(data: &[u8], parser: &str) -> String {
    let mut out = " marker".to_string();
    lines::marker(&mut out, data, parser);
    out
}

/// What every record's line has before its contents.
fn head(s: &mut State, settings: Settings, register: u64, kind: u64, digests: usize) {
    let (record, field, length) = (s.record, s.field, s.next - s.field);
    let _ = write!(s.lines, "at {record} pcr {register} type {kind}");
    if settings.detail {
        let place = record + if s.agile && record > 0 { 12 } else { 8 };
        let _ = write!(s.lines, " place {place}");
    }
    let _ = write!(s.lines, " digests {digests} data {field}+{length}");
}

fn record(s: &mut State, log: &[u8], event: &Event, settings: Settings) {
    assert!(event.data == log[s.field..s.next], "the data are not where they were read");
    s.number(settings);
    head(s, settings, event.pcr_index as u64, u32::from(event.event) as u64, event.digests.len());
    let field = s.field;
    let _ = write!(s.lines, " {}", lines::word(&event.parsed_data));
    if settings.detail {
        lines::fields(&mut s.lines, log, field, event);
    }
    s.lines.push('\n');
    if settings.parts {
        lines::parts(&mut s.lines, event);
    }
}

fn refusal(e: &EventParseError) -> u32 {
    match e {
        EventParseError::TooShort => 5,
        EventParseError::InvalidSignature => 6,
        EventParseError::UnsupportedLog => 7,
        EventParseError::Unaligned => 8,
        EventParseError::InvalidValue => 9,
        EventParseError::TextDecoding => 10,
        EventParseError::InvalidGuid(_) => 99,
    }
}

/// What the crate says of these data as the only record of a log.
fn ask(kind: u32, data: &[u8]) -> Result<Option<Parsed>, u32> {
    let mut log = vec![0; 4];
    log.extend(kind.to_le_bytes());
    log.extend([0; 20]);
    log.extend((data.len() as u32).to_le_bytes());
    log.extend(data);
    match Parser::new(&log[..]).next() {
        Ok(Some(event)) => Ok(event.parsed_data),
        Err(Error::EventParse(e)) => Err(refusal(&e)),
        _ => Err(0),
    }
}

/// The crate says no place. It is found by asking the crate about parts of the data; `None` where no part is refused with this number.
fn place(kind: u32, data: &[u8], k: u32) -> Option<usize> {
    match kind {
        0x8000_0003..=0x8000_0005 if data.len() >= 32 => node_place(kind, data, k),
        0x8000_0006 if data.len() >= 88 => entry_place(kind, data, k),
        _ => Some(0),
    }
}

/// The last node that is refused when it stands alone.
fn node_place(kind: u32, data: &[u8], k: u32) -> Option<usize> {
    let length = |at: usize| lines::number(data, at + 2, 2) as usize;
    let end = 32 + lines::number(data, 24, 8) as usize;
    let starts: Vec<usize> = std::iter::successors(Some(32), |&at| Some(at + length(at)).filter(|&next| next < end)).collect();
    for at in starts.into_iter().rev() {
        let mut alone = vec![0; 24];
        alone.extend((length(at) as u64).to_le_bytes());
        alone.extend(&data[at..at + length(at)]);
        if let Err(why) = ask(kind, &alone) {
            return (why == k).then_some(at);
        }
    }
    None
}

/// The entry that ends the fewest entries that are refused; the data's start where the header alone is.
fn entry_place(kind: u32, data: &[u8], k: u32) -> Option<usize> {
    let (s, e) = (lines::number(data, 12, 4) as usize, lines::number(data, 84, 4) as usize);
    // With these the crate was refusing the header, or it would have panicked or looped.
    if e == 0 || s > data.len() {
        return Some(0);
    }
    let mut h = data.len();
    while h > s + e {
        h -= e;
    }
    if h < 92 {
        return Some(0);
    }
    if let Err(why) = ask(kind, &data[..h]) {
        return (why == k).then_some(0);
    }
    let (mut sound, mut faulty, mut why) = (0, (data.len() - h) / e, k);
    while faulty - sound > 1 {
        let middle = (sound + faulty) / 2;
        match ask(kind, &data[..h + middle * e]) {
            Ok(_) => sound = middle,
            Err(other) => (faulty, why) = (middle, other),
        }
    }
    (why == k).then_some(h + sound * e)
}
