//! Random runs, half of them with accessed and dirty bits, half with the automatic choice: every answer of the proved unit, with
//! its counts, is the second walker's, and so are the guest words, with their bits. Each forecast is also what the unit takes to
//! serve its list, and changes nothing. The unit's places hold the walker's marks, of the same kinds, with the same charges and the
//! automatic ones in the same order, and lookups about them are the walker's.
//! TIMES sets how many times as many runs there are; `-- --nocapture` shows how often each thing happened.

use cangrieb::Record;
use compare::{
    address_in, answer, automatic_marks, first_guest_word, listed_marks, lookup, memory_before, open, places,
    served, window, window_of,
};
use walker::book::Mark;
use walker::events::{
    of_automatic, of_bits, of_forecasts, of_halves, of_large, of_lookups, of_ties, of_widths, Events,
};
use walker::numbers::{address_of, different_proper_prefixes, indexes, page_from, sign_bit};
use walker::random::{automatic_run, bits_run, large_run, mark_run, run, Random, Run, Sizes, Sort};
use walker::{Answer, Call, Choices, Unit};

const CALLS: usize = 1000;

/// One run. The guest words are compared at its end, and in a small memory after each call.
fn same(seed: u64, run: &Run) -> Events {
    let frames = run.sizes.frames;
    let mut memory = memory_before(run, &mut Random::new(!seed));
    let first = first_guest_word(run);
    let mut record = open(run, &mut memory);
    let mut walker = run.open().unwrap();
    assert!(memory[first..] == *walker.guest_words(), "seed {seed}, {:?}: the opening", run.sizes);
    let mut copy = memory.clone();
    let mut lookups = Events::default();
    for (number, call) in run.calls.iter().enumerate() {
        let before = record;
        if matches!(call, Call::Forecast { .. }) {
            copy.copy_from_slice(&memory);
        }
        let said = answer(&mut record, &mut memory, call);
        let expected = walker.call(call);
        assert_eq!(said, expected, "seed {seed}, {:?}, call {number}: {call:?}", run.sizes);
        let choices = (record.head.bits == 1, record.head.choice.on == 1);
        let chosen = (run.choices.bits, run.choices.automatic);
        assert_eq!(choices, chosen, "seed {seed}, call {number}: {call:?}");
        let unchanged = !matches!(said, Answer::No(_)) || record == before;
        assert!(unchanged, "seed {seed}, {:?}, call {number}: {call:?} => {said:?}: the record", run.sizes);
        if let Call::Forecast { addresses } = call {
            let place = format!("seed {seed}, {:?}, forecast {number}: {call:?}", run.sizes);
            assert!(record == before && memory == copy, "{place}: something changed");
            if !matches!(said, Answer::No(14 | 16)) {
                assert_eq!(said, served(before, &mut copy, addresses), "{place}: its loads");
            }
        }
        let marks_changed = marks_of(&record) != marks_of(&before);
        let charged = record.head.choice.at != before.head.choice.at;
        if number % 17 == 16 || marks_changed || charged {
            let after = format!("seed {seed}, {:?}, after call {number}: {call:?}", run.sizes);
            same_marks(&record, &walker, &after);
            if number % 17 == 16 || marks_changed {
                same_lookups(&record, &walker, call, number as u64, &mut lookups, &after);
            }
        }
        if frames <= 24 || number % 100 == 99 {
            let place =
                format!("seed {seed}, {:?}, words or tables after call {number}: {call:?}", run.sizes);
            assert!(memory[first..] == *walker.guest_words(), "{place}");
            assert_eq!(record.head.shadow.used, shadow_tables(&walker), "{place}");
            assert_eq!(record.head.host.used, host_tables(&walker), "{place}");
        }
    }
    lookups.join(walker.events());
    lookups
}

/// What the record has of its marks.
fn marks_of(record: &Record) -> impl PartialEq + '_ {
    (record.head.set, record.head.choice.count, &record.place, &record.order)
}

/// The marks with their kinds and charges, and the window. The automatic marks stand in the order of their setting.
fn same_marks(record: &Record, walker: &Unit, after: &str) {
    let mut listed = listed_marks(record);
    listed.sort();
    assert_eq!(listed, walker.listed_marks(), "{after}: the marks");
    assert_eq!(window(record), window_of(walker), "{after}: the window");
    let in_order = walker.book().automatic_marks();
    assert_eq!(automatic_marks(record), in_order, "{after}: the order of the automatic marks");
}

/// Some lookups after a call. They leave the record. The unit has its marks in ascending order, where of each lower level only
/// the mark with no index but 0 comes before one of level N + 1: so that this ends a lookup after N others at most.
fn same_lookups(record: &Record, walker: &Unit, call: &Call, number: u64, events: &mut Events, after: &str) {
    let levels = walker.machine().levels;
    let before = *record;
    let places = places(record);
    let ends = places.iter().flatten().any(|mark| mark.level == levels + 1);
    for address in addresses_about(call, &places, number, levels) {
        let said = lookup(record, address);
        assert_eq!(Some(said), walker.book().lookup(&places, address), "{after}: lookup of {address:#x}");
        assert!(!ends || said.read <= levels as usize + 1, "{after}: {said:?}");
        events.add_lookup(levels, &places, address, said);
    }
    assert!(*record == before, "{after}: a lookup changed the record");
}

/// The call's own address, the one like it in the other half or with the same indexes and other bits above them, and
/// the two pages at an end of what some mark holds for: one within, one beside it.
fn addresses_about(call: &Call, places: &[Option<Mark>], number: u64, levels: u32) -> [u64; 4] {
    let own = address_in(call);
    let marks: Vec<&Mark> = places.iter().flatten().collect();
    let prefix = if marks.is_empty() { &[][..] } else { &marks[number as usize % marks.len()].prefix };
    let first = page_from(prefix, levels);
    let pages = 512u64.pow(levels);
    let behind = first + pages / 512u64.pow(prefix.len() as u32);
    let end = if number % 2 == 1 { first } else { behind };
    let [below, above] = [end + pages - 1, end].map(|page| address_of(page % pages, levels) + number % 4096);
    let flipped = own ^ u64::MAX << (sign_bit(levels) as u64 + number % 2);
    [own, flipped, below, above]
}

/// "Shadow tables in use are the different proper prefixes of held paths."
fn shadow_tables(walker: &Unit) -> u64 {
    different_proper_prefixes(walker.book().held.keys())
}

/// The top host table always stands.
fn host_tables(walker: &Unit) -> u64 {
    let levels = walker.machine().levels;
    let lists: Vec<Vec<u64>> = walker.machine().mapping.keys().map(|frame| indexes(*frame, levels)).collect();
    different_proper_prefixes(lists.iter()).max(1)
}

/// What the runs of each kind of memory must have had, with bits or without; `overflows` if the shadow tables are few.
fn events(bits: bool, overflows: bool) -> Vec<String> {
    let mut names = of_halves(4);
    names.extend(if bits { of_bits(4, overflows) } else { of_forecasts(4, overflows) });
    names.extend(of_lookups(4));
    names.extend(of_widths(4));
    let mut add = |name: String| names.push(name);
    for access in ["Load", "Store"] {
        for way in ["path held", "path not held"] {
            (0..=4).for_each(|depth| add(format!("granted {access} at depth {depth}, {way}")));
        }
        add(format!("granted {access} at depth 5, no path"));
    }
    for letter in ["A", "M", "P", "H", "W"] {
        for way in ["path held", "path not held"] {
            (1..=4).for_each(|depth| add(format!("fault {letter} at depth {depth}, direct part, {way}")));
        }
        add(format!("fault {letter} at depth 0, shadow part, path not held"));
        add(format!("fault {letter} at depth 5, direct part, no path"));
    }
    for letter in ["A", "M", "H"] {
        (1..=3).for_each(|depth| add(format!("fault {letter} at depth {depth}, shadow part, path not held")));
    }
    add("fault H at depth 4, shadow part, path not held".into());
    for letter in ["P", "W"] {
        add(format!("fault {letter} at depth 0, shadow part, path held"));
    }
    for level in 1..=4 {
        add(format!("fault A of level {level}"));
        add(format!("fault M of level {level}"));
        add(format!("paths dropped by setting a mark of level {level}"));
        add(format!("paths dropped by clearing a mark of level {level}"));
        add(format!("device store, fault H after {level}"));
    }
    (0..=4).for_each(|depth| add(format!("fill at depth {depth}")));
    [4, 5, 6, 7, 8, 9, 10, 12, 15].iter().for_each(|number| add(format!("refusal {number}")));
    (0..=2).for_each(|exits| add(format!("store done, {exits} exits")));
    (0..=1).for_each(|exits| add(format!("device store done, {exits} exits")));
    let others = [
        "device store, fault W after 4",
        "drop though the value is the same",
        "exit for a watched frame",
        "watched frame, no path dropped",
        "held path forbids the store",
        "mapped anew",
        "paths dropped by map",
        "paths dropped by unmap",
        "paths dropped by root",
        "paths dropped by word",
        "paths dropped through a guest frame they did not use",
        "paths dropped by setting a mark of level 5",
        "store drops its own path",
        "store's own fill makes its frame watched",
    ];
    others.iter().for_each(|name| add((*name).into()));
    if overflows {
        (0..=2).for_each(|depth| add(format!("overflow at depth {depth}")));
        add("paths dropped by overflow".into());
        add("store's own overflow leaves its frame not watched".into());
    }
    names
}

/// So many runs, and that they had every event of the list.
fn same_with(
    names: &[String],
    first_seed: u64,
    runs: u64,
    sort: Sort,
    sizes: fn(&mut Random) -> Sizes,
) -> Events {
    let mut all = Events::default();
    let times: u64 = std::env::var("TIMES").map_or(1, |text| text.parse().expect("TIMES is a number"));
    for seed in first_seed..first_seed + runs * times {
        all.join(&same(seed, &sort(seed, sizes(&mut Random::new(seed.wrapping_add(1))), CALLS)));
    }
    for event in names {
        println!("{:>9} {event}", all.count(event));
        assert!(all.count(event) > 0, "no run had: {event}");
    }
    all
}

/// Half of the runs have no bits, the other half, from other seeds, have.
fn all_same(first_seed: u64, runs: u64, overflows: bool, sizes: fn(&mut Random) -> Sizes) {
    let all = same_with(&events(false, overflows), first_seed, runs / 2, run, sizes);
    let forecast = all.count("forecast, overflow");
    println!("{forecast:>9} overflows in forecasts");
    assert!(!overflows || forecast >= 1000, "{forecast} overflows in forecasts");
    // Each byte of a word, each width and each way to be refused: not by chance alone.
    assert_often(of_widths(4), 10, &all);
    println!("With accessed and dirty bits:");
    let all = same_with(&events(true, overflows), first_seed + BITS_SEEDS, runs / 2, bits_run, sizes);
    assert_often(of_widths(4), 10, &all);
    assert_often(of_bits(4, overflows), 10, &all);
}

/// Far above the seeds of runs without bits, however many times as many there are.
const BITS_SEEDS: u64 = 1 << 32;

fn assert_often(names: Vec<String>, least: u64, all: &Events) {
    for event in names {
        assert!(all.count(&event) >= least, "{} times: {event}", all.count(&event));
    }
}

#[test]
fn the_job_programs_sizes() {
    all_same(0, 1000, true, |_| Sizes { levels: 4, frames: 16, h: 4, s: 4 });
}

#[test]
fn small_memories() {
    all_same(10_000, 1000, true, |random| Sizes::small(random, 4));
}

#[test]
fn hundreds_of_frames() {
    all_same(20_000, 600, true, |random| Sizes::large(random, 4));
}

#[test]
fn few_shadow_tables() {
    all_same(30_000, 600, true, |random| Sizes { levels: 4, frames: 80, h: 12, s: 4 + random.below(4) });
}

#[test]
fn few_host_tables() {
    all_same(40_000, 600, false, |random| Sizes { levels: 4, frames: 60, h: 4 + random.below(3), s: 24 });
}

/// The mark of level 5 stands behind as many others as it can.
#[test]
fn marks_that_come_and_go() {
    let mut names = of_lookups(4);
    names.extend((1..=5).map(|read| format!("lookup ended, {read} read")));
    same_with(&names, 50_000, 100, mark_run, |random| Sizes::small(random, 4));
}

/// What happened to automatic marks.
const MOVES: [&str; 5] = [
    "charge",
    "automatic mark set, place free",
    "automatic mark set, another cleared",
    "automatic mark cleared for the operator",
    "automatic mark taken over",
];

/// Where tables are written often: S is the least, so that paths of one prefix alone fit at depth 0; little more; and so much
/// that no fill overflows, or nearly none. Of several automatic marks with the fewest charges the oldest leaves, often where other
/// rules would clear another one.
#[test]
fn tables_written_often() {
    let mut all = Events::default();
    let mut add = |first_seed: u64, several: bool, overflows: bool, sizes: fn(&mut Random) -> Sizes| {
        let names = of_automatic(4, several, overflows);
        all.join(&same_with(&names, first_seed, 300, automatic_run, sizes));
    };
    add(60_000, false, true, |_| Sizes { levels: 4, frames: 16, h: 4, s: 4 });
    add(70_000, true, true, |random| Sizes::small(random, 4));
    add(80_000, true, false, |random| Sizes::large(random, 4));
    add(90_000, true, true, |random| Sizes { levels: 4, frames: 80, h: 12, s: 4 + random.below(4) });
    println!("In all of them:");
    for (names, least) in [(MOVES.map(String::from).to_vec(), 1000), (of_ties(), 100)] {
        names.iter().for_each(|event| println!("{:>9} {event}", all.count(event)));
        assert_often(names, least, &all);
    }
}

/// Where most calls go to large pages, a third of the runs with accessed and dirty bits, half of them with the automatic choice.
/// Pages of both sizes at each depth and by each mark, with what drops their paths and what does not, are met ten times and more in
/// each kind of memory; the table says how often.
#[test]
fn large_pages() {
    let add = |first_seed: u64, overflows: bool, sizes: fn(&mut Random) -> Sizes| {
        println!("Large pages, {:?} and the like:", sizes(&mut Random::new(first_seed)));
        let names = of_large(4, overflows);
        let all = same_with(&names, first_seed, 250, large_run, sizes);
        assert_often(names, 10, &all);
    };
    add(110_000, true, |_| Sizes { levels: 4, frames: 16, h: 4, s: 4 });
    add(120_000, true, |random| Sizes::small(random, 4));
    add(130_000, false, |random| Sizes { levels: 4, frames: 60, h: 4 + random.below(3), s: 24 });
    add(140_000, true, |random| Sizes { levels: 4, frames: 80, h: 12, s: 4 + random.below(4) });
}

/// The same calls with the automatic choice on and off: answers may differ in their counts alone, and the guest words do not. Says
/// how many answers do.
fn off_and_on(seed: u64, run: &Run) -> usize {
    let said = |automatic: bool| {
        let run = Run { choices: Choices { automatic, ..run.choices }, ..run.clone() };
        let mut memory = memory_before(&run, &mut Random::new(!seed));
        let mut record = open(&run, &mut memory);
        let said: Vec<Answer> = run.calls.iter().map(|call| answer(&mut record, &mut memory, call)).collect();
        (said, memory.split_off(first_guest_word(&run)))
    };
    let ((off, words_off), (on, words_on)) = (said(false), said(true));
    for (number, (off, on)) in off.iter().zip(&on).enumerate() {
        let call = &run.calls[number];
        assert_eq!(without_counts(*off), without_counts(*on), "seed {seed}, call {number}: {call:?}");
    }
    assert!(words_off == words_on, "seed {seed}: the guest words");
    off.iter().zip(&on).filter(|(off, on)| off != on).count()
}

fn without_counts(said: Answer) -> Answer {
    let (references, exits) = (0, 0);
    match said {
        Answer::Value { value, .. } => Answer::Value { value, references, exits },
        Answer::Done { .. } => Answer::Done { references, exits },
        Answer::Fault { fault, .. } => Answer::Fault { fault, references, exits },
        Answer::Figures { .. } => Answer::Figures { references, exits, tables: 0 },
        Answer::Ok | Answer::No(_) => said,
    }
}

#[test]
fn the_automatic_choice_changes_counts_alone() {
    let mut differ = 0;
    for seed in 100_000..100_300 {
        let random = &mut Random::new(seed + 1);
        let sizes = if seed % 3 == 0 { Sizes::large(random, 4) } else { Sizes::small(random, 4) };
        differ += off_and_on(seed, &automatic_run(seed, sizes, CALLS));
    }
    println!("{differ:>9} answers with other counts");
    assert!(differ >= 10_000, "{differ} answers with other counts");
}
