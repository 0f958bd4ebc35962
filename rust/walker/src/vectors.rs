//! A run as lines of text, one for each call with its answer.

use crate::answer::{Answer, Call};
use crate::events::Events;
use crate::job::answer_line;
use crate::random::Run;

/// The lines of a run, and the events in it.
pub fn lines(run: &Run) -> Result<(Vec<String>, Events), u32> {
    let sizes = run.sizes;
    let mut unit = run.open()?;
    let first = run.words.len() - unit.guest_words().len();
    let bits = if run.choices.bits { " bits" } else { "" };
    let automatic = if run.choices.automatic { " automatic" } else { "" };
    let (levels, length) = (sizes.levels, run.words.len());
    let mut lines = vec![format!("open {levels} {length} {} {}{bits}{automatic}", sizes.h, sizes.s)];
    lines.extend(nonzero_words("word", first, unit.guest_words()));
    for call in &run.calls {
        let answer = unit.call(call);
        lines.push(format!("{} => {}", call_text(call), answer_text(&answer)));
    }
    lines.extend(nonzero_words("after", first, unit.guest_words()));
    Ok((lines, unit.events().clone()))
}

/// The nonzero words, each with its index from the start of memory.
fn nonzero_words(name: &str, first: usize, words: &[u64]) -> Vec<String> {
    let nonzero = words.iter().enumerate().filter(|(_, value)| **value != 0);
    nonzero.map(|(index, value)| format!("{name} {} {value:#x}", first + index)).collect()
}

fn call_text(call: &Call) -> String {
    match call {
        Call::Root { frame } => format!("root {frame}"),
        Call::Map { guest, host, writable } => format!("map {guest} {host} {}", *writable as u8),
        Call::Unmap { guest } => format!("unmap {guest}"),
        Call::SetMark { address, level } => format!("mark {address:#x} {level}"),
        Call::ClearMark { address, level } => format!("unmark {address:#x} {level}"),
        Call::Load { address, width } => format!("load {address:#x} {width}"),
        Call::Store { address, width, value } => format!("store {address:#x} {width} {value:#x}"),
        Call::DeviceStore { address, width, value } => format!("device {address:#x} {width} {value:#x}"),
        Call::Forecast { addresses } => {
            let list: String = addresses.iter().map(|address| format!(" {address:#x}")).collect();
            format!("forecast{list}")
        }
    }
}

/// As a job's line, but for the value, which is a plain hexadecimal number.
fn answer_text(answer: &Answer) -> String {
    match answer {
        Answer::Value { value, references, exits } => format!("value {value:#x} {references} {exits}"),
        other => answer_line(other),
    }
}
