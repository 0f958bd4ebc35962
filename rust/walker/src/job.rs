//! The job program: records from the input, run on a memory of 16 frames.

use crate::answer::*;
use crate::numbers::{FRAME_WORDS, WORD_BYTES};
use crate::unit::Unit;

/// "on a memory of 16 frames"
pub const JOB_FRAMES: u64 = 16;
/// The job program has four levels.
pub const JOB_LEVELS: u32 = 4;

/// What a record asks for.
#[derive(Clone, Debug, PartialEq, Eq)]
pub enum Record {
    Open { h: u16, s: u16 },
    Call(Call),
}

/// A job's memory and the record in use, if an open was granted.
struct Job {
    words: Vec<u64>,
    unit: Option<Unit>,
}

/// Runs the records of the input and yields the whole output.
pub fn run_job(input: &[u8]) -> String {
    let mut job = Job { words: vec![0; (JOB_FRAMES * FRAME_WORDS) as usize], unit: None };
    let mut rest = input;
    let mut output = String::new();
    let mut number = 0;
    while !rest.is_empty() {
        number += 1;
        let Some((record, after)) = read_record(rest) else {
            // "13 and the end"
            output.push_str(&format!("{number} no {BAD_RECORD}\n"));
            break;
        };
        rest = after;
        let answer = job.run(&record);
        output.push_str(&format!("{number} {}\n", answer_line(&answer)));
    }
    output
}

impl Job {
    fn run(&mut self, record: &Record) -> Answer {
        match record {
            Record::Open { h, s } => self.open(*h as u64, *s as u64),
            Record::Call(call) => match &mut self.unit {
                None => Answer::No(NOT_OPEN),
                Some(unit) => unit.call(call),
            },
        }
    }

    /// "A refused open keeps the unit's earlier record in use."
    fn open(&mut self, h: u64, s: u64) -> Answer {
        self.take_words_back();
        match Unit::open(JOB_LEVELS, self.words.clone(), h, s) {
            Err(number) => Answer::No(number),
            Ok(unit) => {
                self.unit = Some(unit);
                Answer::Ok
            }
        }
    }

    /// The memory as it stands. What the tables left in host and shadow frames is
    /// left open by the paper; here it is zeros.
    fn take_words_back(&mut self) {
        if let Some(unit) = &self.unit {
            let first = self.words.len() - unit.guest_words().len();
            self.words[..first].fill(0);
            self.words[first..].copy_from_slice(unit.guest_words());
        }
    }
}

/// "A record is a two-byte length, a two-byte kind, a body; numbers are
/// little-endian and the length counts kind and body." Splits off the first
/// record; none if it is one for 13.
pub fn read_record(input: &[u8]) -> Option<(Record, &[u8])> {
    let length = number(input.get(..2)?) as usize;
    let record = input.get(2..2 + length)?;
    let kind = number(record.get(..2)?);
    let record_read = read_body(kind, &record[2..])?;
    Some((record_read, &input[2 + length..]))
}

/// The body of a kind, if the kind is known and the body has its length.
fn read_body(kind: u64, body: &[u8]) -> Option<Record> {
    if body.len() != body_length(kind)? {
        return None;
    }
    let call = match kind {
        1 => return Some(Record::Open { h: number(&body[..2]) as u16, s: number(&body[2..]) as u16 }),
        2 => Call::Root { frame: number(body) },
        3 => Call::Map { guest: number(&body[..8]), host: number(&body[8..16]), writable: body[16] != 0 },
        4 => Call::Unmap { guest: number(body) },
        5 => Call::SetMark { address: number(&body[..8]), level: body[8] as u64 },
        6 => Call::ClearMark { address: number(&body[..8]), level: body[8] as u64 },
        7 => Call::load_word(number(body)),
        8 => Call::store_word(number(&body[..8]), number(&body[8..])),
        9 => Call::device_store_word(number(&body[..8]), number(&body[8..])),
        _ => return None,
    };
    Some(Record::Call(call))
}

fn body_length(kind: u64) -> Option<usize> {
    match kind {
        1 => Some(2 + 2),
        2 | 4 | 7 => Some(8),
        3 => Some(8 + 8 + 1),
        5 | 6 => Some(8 + 1),
        8 | 9 => Some(8 + 8),
        _ => None,
    }
}

/// "numbers are little-endian"
pub(crate) fn number(bytes: &[u8]) -> u64 {
    bytes.iter().rev().fold(0, |number, byte| number * 256 + *byte as u64)
}

/// "`ok`; `value V R E`; `done R E`; `fault C L G R E`; `no N`. V is 16
/// hexadecimal digits; [...] the rest decimal."
pub fn answer_line(answer: &Answer) -> String {
    match answer {
        Answer::Ok => "ok".to_string(),
        Answer::Value { value, references, exits } => format!("value {value:016x} {references} {exits}"),
        Answer::Done { references, exits } => format!("done {references} {exits}"),
        Answer::Fault { fault, references, exits } => {
            format!("fault {} {} {} {references} {exits}", fault.letter(), fault.level(), fault.frame())
        }
        // No job has a forecast; src/vectors.rs has.
        Answer::Figures { references, exits, tables } => format!("figures {references} {exits} {tables}"),
        Answer::No(number) => format!("no {number}"),
    }
}

/// The bytes of a record, for tests and for programs that write jobs.
pub fn write_record(record: &Record) -> Vec<u8> {
    let (kind, body) = match *record {
        Record::Open { h, s } => (1, [h.to_le_bytes(), s.to_le_bytes()].concat()),
        Record::Call(Call::Root { frame }) => (2, frame.to_le_bytes().to_vec()),
        Record::Call(Call::Map { guest, host, writable }) => {
            (3, [&guest.to_le_bytes()[..], &host.to_le_bytes(), &[writable as u8]].concat())
        }
        Record::Call(Call::Unmap { guest }) => (4, guest.to_le_bytes().to_vec()),
        Record::Call(Call::SetMark { address, level }) => (5, mark_body(address, level)),
        Record::Call(Call::ClearMark { address, level }) => (6, mark_body(address, level)),
        Record::Call(Call::Load { address, width: WORD_BYTES }) => (7, address.to_le_bytes().to_vec()),
        Record::Call(Call::Store { address, width: WORD_BYTES, value }) => {
            (8, [address.to_le_bytes(), value.to_le_bytes()].concat())
        }
        Record::Call(Call::DeviceStore { address, width: WORD_BYTES, value }) => {
            (9, [address.to_le_bytes(), value.to_le_bytes()].concat())
        }
        Record::Call(
            ref other @ (Call::Load { .. }
            | Call::Store { .. }
            | Call::DeviceStore { .. }
            | Call::Forecast { .. }),
        ) => panic!("no kind of record is {other:?}"),
    };
    raw_record(body.len() as u16 + 2, kind, &body)
}

fn mark_body(address: u64, level: u64) -> Vec<u8> {
    [&address.to_le_bytes()[..], &[level as u8]].concat()
}

/// A record with any length and kind, right or wrong.
pub fn raw_record(length: u16, kind: u16, body: &[u8]) -> Vec<u8> {
    [&length.to_le_bytes()[..], &kind.to_le_bytes(), body].concat()
}
