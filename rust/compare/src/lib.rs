//! The proved unit and the second walker on the same calls, and the proved programs.

pub mod damage;
pub mod programs;
pub mod rewrites;

use cangrieb::{Choices, Record};
use walker::book::{Kind, ListedMark, Lookup, Mark, WINDOW_LENGTH};
use walker::numbers::{address_of, frame_of, indexes, page_from};
use walker::random::{Random, Run};
use walker::{Answer, Call, Fault, Unit};

/// The proved unit's record after the run's opening, with what that chooses.
pub fn open(run: &Run, memory: &mut [u64]) -> Record {
    let walker::Choices { bits, automatic } = run.choices;
    Record::open_with(memory, run.sizes.h, run.sizes.s, Choices { bits, automatic }).unwrap()
}

/// The proved unit's answer to one of the walker's calls, in the walker's terms.
pub fn answer(record: &mut Record, memory: &mut [u64], call: &Call) -> Answer {
    let said = match *call {
        Call::Root { frame } => record.root(memory, frame),
        Call::Map { guest, host, writable } => record.map(memory, guest, host, writable),
        Call::Unmap { guest } => record.unmap(memory, guest),
        Call::SetMark { address, level } => record.set_mark(memory, address, level),
        Call::ClearMark { address, level } => record.clear_mark(memory, address, level),
        Call::Load { address, width } => record.load(memory, address, width),
        Call::Store { address, width, value } => record.store(memory, address, width, value),
        Call::DeviceStore { address, width, value } => record.device_store(memory, address, width, value),
        Call::Forecast { ref addresses } => record.forecast(memory, addresses),
    };
    in_walkers_terms(said)
}

fn in_walkers_terms(said: cangrieb::Answer) -> Answer {
    match said {
        cangrieb::Answer::Ok => Answer::Ok,
        cangrieb::Answer::Value { word, references, exits } => {
            Answer::Value { value: word, references, exits }
        }
        cangrieb::Answer::Done { references, exits } => Answer::Done { references, exits },
        cangrieb::Answer::Fault { fault, references, exits } => {
            Answer::Fault { fault: fault_in_walkers_terms(fault), references, exits }
        }
        cangrieb::Answer::Figures { references, exits, tables } => {
            Answer::Figures { references, exits, tables }
        }
        cangrieb::Answer::Refused(refusal) => Answer::No(refusal.0 as u32),
    }
}

fn fault_in_walkers_terms(fault: cangrieb::Fault) -> Fault {
    match fault {
        cangrieb::Fault::Absent { level } => Fault::Absent { level: level as u32 },
        cangrieb::Fault::Malformed { level } => Fault::Malformed { level: level as u32 },
        cangrieb::Fault::Protected { level } => Fault::Protected { level: level as u32 },
        cangrieb::Fault::HostAbsent { frame } => Fault::HostAbsent { frame },
        cangrieb::Fault::HostReadOnly { frame } => Fault::HostReadOnly { frame },
    }
}

/// What the proved unit really takes to serve the list: a forecast's figures. The tables are those of the record, before
/// the first load and after each.
pub fn served(mut record: Record, memory: &mut [u64], addresses: &[u64]) -> Answer {
    let (mut references, mut exits) = (0, 0);
    let mut tables = record.head.shadow.used;
    for address in addresses {
        let said = answer(&mut record, memory, &Call::load_word(*address));
        assert!(!matches!(said, Answer::No(number) if number != 4), "load {address:#x} => {said:?}");
        let (more_references, more_exits) = said.counts();
        references += more_references;
        exits += more_exits;
        tables = tables.max(record.head.shadow.used);
    }
    Answer::Figures { references, exits, tables }
}

/// An address to look up about a call: its own, or that of its frame.
pub fn address_in(call: &Call) -> u64 {
    match *call {
        Call::Load { address, .. }
        | Call::Store { address, .. }
        | Call::DeviceStore { address, .. }
        | Call::SetMark { address, .. }
        | Call::ClearMark { address, .. } => address,
        Call::Root { frame } | Call::Map { guest: frame, .. } | Call::Unmap { guest: frame } => frame << 12,
        Call::Forecast { ref addresses } => addresses.first().copied().unwrap_or(u64::MAX),
    }
}

/// The proved unit's lookup, in the walker's terms.
pub fn lookup(record: &Record, address: u64) -> Lookup {
    let said = record.depth(address);
    Lookup { depth: said.depth.try_into().unwrap(), read: said.read.try_into().unwrap() }
}

/// Whether a mark is set at that place.
pub fn is_set(record: &Record, place: usize) -> bool {
    record.head.set >> place & 1 == 1
}

/// The places of the record's marks in order, in the walker's terms: none where no mark is set.
pub fn places(record: &Record) -> Vec<Option<Mark>> {
    let levels = record.head.levels as u32;
    let places = record.place.iter().enumerate();
    places.map(|(place, word)| is_set(record, place).then(|| mark(*word, levels))).collect()
}

/// A mark as its place holds it: the level in bits 0 to 2, above them the indexes that it keeps, the first one highest.
fn mark(word: u64, levels: u32) -> Mark {
    let level = (word & 7) as u32;
    let kept = levels.saturating_sub(level);
    let prefix = indexes(word >> 3, kept);
    assert_eq!(page_from(&prefix, kept), word >> 3, "{word:#x}: more than the indexes that its level keeps");
    Mark { level, prefix }
}

/// The proved unit's marks with their kinds and charges, in the order of their places and in the walker's terms.
pub fn listed_marks(record: &Record) -> Vec<ListedMark> {
    record.marks().map(|mark| listed_mark(mark, record.head.levels as u32)).collect()
}

/// The address is the lowest that the mark holds for.
fn listed_mark(said: cangrieb::Mark, levels: u32) -> ListedMark {
    let level = said.level as u32;
    let prefix = indexes(frame_of(said.address), levels)[..levels.saturating_sub(level) as usize].to_vec();
    assert_eq!(address_of(page_from(&prefix, levels), levels), said.address, "{said:?}");
    let kind = match said.kind {
        cangrieb::Kind::Operator => Kind::Operator,
        cangrieb::Kind::Automatic => Kind::Automatic,
    };
    ListedMark { mark: Mark { level, prefix }, kind, charges: said.charges as usize }
}

/// The automatic marks in the order in which the record has them, that of their setting.
pub fn automatic_marks(record: &Record) -> Vec<Mark> {
    let levels = record.head.levels as u32;
    let order = &record.order[..record.head.choice.count as usize];
    order.iter().map(|place| mark(record.place[*place as usize], levels)).collect()
}

/// The window as the record has it, the last request first: what it was charged to, if it was.
pub fn window(record: &Record) -> Vec<Option<Vec<u64>>> {
    let choice = record.head.choice;
    let kept = record.head.levels as u32 - 1;
    let mut at = choice.at;
    let charged = (0..WINDOW_LENGTH).map(|place| choice.charged >> place & 1 == 1);
    let mut prefix = || {
        at = at.wrapping_sub(1);
        indexes(record.ring[(at % 64) as usize], kept)
    };
    charged.map(|is_charged| is_charged.then(&mut prefix)).collect()
}

/// The walker's window in the same way, with none for requests that it does not hold.
pub fn window_of(walker: &Unit) -> Vec<Option<Vec<u64>>> {
    let window = walker.book().window();
    let requests = window.into_iter().flat_map(|window| window.requests().iter().rev().cloned());
    requests.chain(std::iter::repeat(None)).take(WINDOW_LENGTH).collect()
}

/// The run's memory with random words in the host and shadow frames: an opening clears them.
pub fn memory_before(run: &Run, random: &mut Random) -> Vec<u64> {
    let mut memory = run.words.clone();
    for word in &mut memory[..first_guest_word(run)] {
        *word = random.word();
    }
    memory
}

pub fn first_guest_word(run: &Run) -> usize {
    ((run.sizes.h + run.sizes.s) * walker::numbers::FRAME_WORDS) as usize
}
