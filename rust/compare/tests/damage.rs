//! A million calls on damaged records and memories, a third of them opened with accessed and dirty bits, more than half with the
//! automatic choice, a quarter with many large pages, and a lookup and a list of the marks after each: each ends, and leaves what
//! it may not change.
//! DAMAGED_CALLS sets another number, MARGIN the words on each side of the lent memory.

use cangrieb::Record;
use compare::damage::{Counts, Lent, State};
use compare::{answer, memory_before, open};
use walker::random::{automatic_run, bits_run, large_run, run, Random, Run, Sizes};
use walker::{Answer, Call};

/// Calls after each damage, and damages of one run.
const CALLS: u64 = 50;
const DAMAGES: u64 = 6;

fn number(variable: &str, otherwise: u64) -> u64 {
    std::env::var(variable).ok().and_then(|text| text.parse().ok()).unwrap_or(otherwise)
}

fn calls() -> u64 {
    number("DAMAGED_CALLS", 1_200_000)
}

/// A sound state somewhere in the run.
fn sound_state(run: &Run, random: &mut Random) -> State {
    let mut lent = Lent::new(&memory_before(run, random), number("MARGIN", 1024) as usize, random);
    let mut record = open(run, lent.memory());
    let length = random.below(run.calls.len() as u64) as usize;
    for call in &run.calls[..length] {
        answer(&mut record, lent.memory(), call);
    }
    State { record, lent }
}

fn damaged_run(seed: u64, sizes: Sizes, counts: &mut Counts) {
    let mut random = Random::new(seed ^ 0xDA4A_6E00);
    let sort = [run, bits_run, automatic_run, large_run][seed as usize % 4];
    let run = sort(seed, sizes, 300 + 2 * sizes.frames as usize);
    // The calls before these map the guest's frames.
    let later = &run.calls[run.calls.len() - 250..];
    let sound = sound_state(&run, &mut random);
    let mut before = sound.clone();
    for _ in 0..DAMAGES {
        let mut state = sound.clone();
        state.damage(&mut random, counts);
        let mut at = 0;
        for _ in 0..CALLS {
            // Mostly one after the other: a table is written often only if it is used in between.
            at = if random.one_in(4) { random.below(later.len() as u64) as usize } else { at + 1 };
            let call = &later[at % later.len()];
            let words = state.lent.memory().len();
            if random.one_in(16) {
                state.checked_twins(&mut before, call, &mut random);
                continue;
            }
            // Now and then only a part of the memory is lent, or nothing.
            let part = if random.one_in(100) { random.below(words as u64 + 1) as usize } else { words };
            state.checked_call(&mut before, call, part, counts);
        }
    }
}

fn damaged_runs(first_seed: u64, calls: u64, sizes: fn(&mut Random) -> Sizes) {
    let mut counts = Counts::new();
    let runs = calls.div_ceil(CALLS * DAMAGES);
    for seed in first_seed..first_seed + runs {
        damaged_run(seed, sizes(&mut Random::new(seed)), &mut counts);
    }
    println!("{} calls: {counts:?}", runs * CALLS * DAMAGES);
    if calls >= 100_000 {
        let refusals = [3, 4, 5, 6, 7, 8, 9, 10, 11, 12].map(|number| format!("refusal {number}"));
        let faults = ["A", "M", "P", "H", "W"].map(|letter| format!("fault {letter}"));
        let others = ["ok", "value", "done"].map(String::from);
        let narrow = ["value", "done", "refusal 3", "refusal 4", "refusal 11"];
        let narrow = faults.iter().map(String::as_str).chain(narrow).map(|name| format!("narrow: {name}"));
        let narrow: Vec<String> = narrow.collect();
        let wrong_widths = ["refusal 3", "refusal 15"].map(|name| format!("wrong width: {name}"));
        let forecasts =
            ["figures", "refusal 3", "refusal 11", "refusal 14"].map(|name| format!("forecast: {name}"));
        let lookups =
            ["record refused", "record not refused", "as the walker's", "as the walker's, ended far behind"];
        let lookups = lookups.map(|name| format!("lookup: {name}"));
        let odd = [
            "a mark of level 0",
            "a mark of level 6",
            "a mark of level 7",
            "a mark of more than three indexes",
            "two marks alike",
            "marks out of order",
            "another number of levels",
            "bits neither on nor off",
            "a choice neither on nor off",
            "charges, the choice off",
            "automatic marks, the choice off",
            "more automatic marks than places",
            "an automatic mark at no place",
            "an automatic mark that is not set",
            "an automatic mark of another level",
            "an automatic mark twice",
        ];
        let odd = odd.map(|odd| format!("record with {odd}"));
        let answers = refusals.iter().chain(&faults).chain(&others).chain(&forecasts);
        let answers: Vec<&String> = answers.chain(&narrow).chain(&wrong_widths).collect();
        // With bits all the same but the answers of forecasts.
        let with_bits = answers.iter().filter(|name| !name.starts_with("forecast"));
        let with_bits = with_bits.map(|name| format!("bits: {name}"));
        let of_bits = ["forecast: refusal 3", "forecast: refusal 16", "set by a load", "set by a store"];
        let of_bits: Vec<String> = with_bits.chain(of_bits.map(|name| format!("bits: {name}"))).collect();
        let of_choice = [
            "a charge",
            "an automatic mark set",
            "one cleared for a store",
            "one cleared for the operator",
            "an automatic mark taken over",
        ];
        let with_choice = answers.iter().map(|name| format!("choice: {name}"));
        let of_choice: Vec<String> =
            with_choice.chain(of_choice.map(|name| format!("choice: {name}"))).collect();
        let large = ["value", "done", "fault P", "narrow: value", "narrow: done", "narrow: fault P"];
        let large = large.map(|name| format!("large: {name}"));
        let names = answers.into_iter().chain(&of_bits).chain(&of_choice).chain(&large);
        for name in names.chain(&lookups).chain(&odd) {
            assert!(counts.contains_key(name), "no damaged run had: {name}");
        }
    }
}

/// Whatever the address is, and without a word changed.
#[test]
fn three_before_fifteen_before_four() {
    let mut memory = vec![0; 16 * 512];
    let sound = Record::open(&mut memory, 4, 4).unwrap();
    let opened = memory.clone();
    let mut bad_root = sound;
    bad_root.head.root = 1 << 36;
    let mut refuse = |record: Record, words: usize, address: u64, width: u64, number: u32| {
        let calls = [
            Call::Load { address, width },
            Call::Store { address, width, value: 1 },
            Call::DeviceStore { address, width, value: 1 },
        ];
        for call in calls {
            let mut after = record;
            let said = answer(&mut after, &mut memory[..words], &call);
            assert_eq!(said, Answer::No(number), "{call:?} on {words} words");
            assert!(after == record && memory == opened, "{call:?} => {said:?}");
        }
    };
    let all = 16 * 512;
    let wrong = [0, 3, 5, 6, 7, 9, 16, 0x101, 1 << 32, (1 << 32) + 1, 1 << 63, u64::MAX - 7, u64::MAX];
    // Legal, within a word, and neither a guest's nor a device's.
    for address in [0, 8, 1, 4, 1 << 48, (1 << 48) + 1, u64::MAX >> 1] {
        for width in wrong.into_iter().chain([1, 2, 4, 8]) {
            refuse(Record::zeros(), all, address, width, 3);
            refuse(bad_root, all, address, width, 3);
            refuse(sound, all - 512, address, width, 3);
            refuse(sound, 0, address, width, 3);
        }
        wrong.iter().for_each(|width| refuse(sound, all, address, *width, 15));
    }
    let within = [(1, 2), (6, 4), (2, 4), (4, 8), (1, 8), (7, 8)];
    within.iter().for_each(|(address, width)| refuse(sound, all, *address, *width, 4));
    [1, 2, 4, 8].iter().for_each(|width| refuse(sound, all, 1 << 48, *width, 4));
}

#[test]
fn sixteen_frames() {
    damaged_runs(0, calls() / 2, |_| Sizes { levels: 4, frames: 16, h: 4, s: 4 });
}

#[test]
fn small_memories() {
    damaged_runs(1_000_000, calls() / 2, |random| Sizes::small(random, 4));
}

#[test]
fn hundreds_of_frames() {
    damaged_runs(2_000_000, calls() / 80, |random| Sizes::large(random, 4));
}
