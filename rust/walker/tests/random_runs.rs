//! Random runs: the walker beside a separate plain walk over real host tables, the
//! rules of the book checked after each call, lookups beside a search that stops,
//! automatic marks beside a second count of charges, and the exits of quiet stretches
//! beside their figure.

mod naive;

use naive::automatic::Automatic;
use naive::{Naive, Seen};
use std::collections::{BTreeMap, BTreeSet};
use walker::answer::{Answer, Call, Choices};
use walker::book::{HeldPath, Kind, ListedMark, Lookup, Mark};
use walker::events::{
    of_automatic, of_bits, of_forecasts, of_halves, of_large, of_lookups, of_widths, Events,
};
use walker::numbers::{address_of, page_from};
use walker::quiet::{part, Part, Stretch};
use walker::random::{
    automatic_run, bits_run, job_run, large_run, mark_run, quiet_run, run, Random, Run, Sizes, Sort,
};
use walker::unit::large::size;
use walker::vectors::lines;
use walker::Unit;

/// Held paths with the guest words that their shadow parts read, and their writable bits.
type Held = BTreeMap<Vec<u64>, (Vec<(u64, u64)>, bool)>;

/// Marks, each a level and the indexes that it keeps as one number.
type Marks = BTreeSet<(u64, u64)>;

/// The end of a walk: a host frame, or a fault's letter, level and frame.
type End = Result<u64, (char, u32, u64)>;

/// A unit beside the naive machine.
struct Pair {
    unit: Unit,
    naive: Naive,
    /// All marks, automatic ones too.
    marks: Marks,
    /// Only with the automatic choice.
    automatic: Option<Automatic>,
    /// A place for each mark, as a unit might choose it.
    places: Vec<Option<Mark>>,
    lookups: Events,
}

impl Pair {
    fn new(run: &Run) -> Pair {
        let Sizes { levels, h, s, .. } = run.sizes;
        let unit = run.open().unwrap();
        let naive = Naive::open(levels, run.words.clone(), h, s, run.choices.bits);
        Pair {
            unit,
            naive,
            marks: Marks::new(),
            automatic: run.choices.automatic.then(Automatic::default),
            places: vec![None; 64],
            lookups: Events::default(),
        }
    }

    fn step(&mut self, call: &Call) {
        match *call {
            Call::Load { address, width } => self.request(call, address, width, None),
            Call::Store { address, width, value } => self.request(call, address, width, Some(value)),
            Call::DeviceStore { address, width, value } => self.device_store(call, address, width, value),
            Call::Forecast { ref addresses } => self.forecast(call, addresses),
            _ => self.change(call),
        }
        assert_eq!(self.unit.guest_words(), self.naive.guest_words());
        self.check_book();
        self.check_window();
        // What a load did to the marks shows after the next other call.
        if !matches!(call, Call::Load { .. }) {
            self.check_marks();
        }
    }

    fn held(&self) -> Held {
        let words = |held: &HeldPath| held.words.iter().map(|word| (word.frame, word.index)).collect();
        let held = self.unit.book().held.iter();
        held.map(|(path, held)| (path.clone(), (words(held), held.writable))).collect()
    }

    // Root, map, unmap and marks: what is dropped, and only that.

    fn change(&mut self, call: &Call) {
        let before = self.unit.book().held.clone();
        let cleared = self.cleared_for(call);
        let answer = self.unit.call(call);
        let levels = self.naive.levels;
        if let Call::SetMark { address, level } | Call::ClearMark { address, level } = *call {
            let sets = matches!(call, Call::SetMark { .. });
            assert_eq!(answer, self.mark_answer(sets, address, level), "{call:?}");
        }
        let after = &self.unit.book().held;
        let refused = matches!(answer, Answer::No(_));
        for (path, held) in &before {
            let dropped = match *call {
                Call::Root { .. } => true,
                Call::Map { guest, .. } | Call::Unmap { guest } => held.frames.contains(&guest),
                Call::SetMark { address, level } | Call::ClearMark { address, level } => {
                    let kept = levels.saturating_sub(level as u32) as usize;
                    let own = path.len() >= kept && path[..kept] == path_of(address, levels, kept)[..];
                    own || cleared.is_some_and(|prefix| begins(path, prefix, levels))
                }
                _ => unreachable!(),
            };
            assert_eq!(after.contains_key(path), refused || !dropped, "{call:?}");
        }
        assert!(after.keys().all(|path| before.contains_key(path)));
        if let (Some(prefix), false) = (cleared, refused) {
            self.clear_automatic(prefix);
        }
        self.change_naive(call, &answer);
    }

    /// The automatic mark that makes room, if the call is a set mark that needs some.
    fn cleared_for(&self, call: &Call) -> Option<u64> {
        match *call {
            Call::SetMark { address, level } if self.marks.len() == 64 => {
                let is_set = self.marks.contains(&mark(address, level, self.naive.levels));
                self.automatic.as_ref().and_then(Automatic::to_clear).filter(|_| !is_set)
            }
            _ => None,
        }
    }

    fn is_automatic(&self, mark: (u64, u64)) -> bool {
        mark.0 == 1 && self.automatic.as_ref().is_some_and(|automatic| automatic.has(mark.1))
    }

    /// What setting or clearing a mark must answer, from the operator's marks so far.
    fn mark_answer(&self, sets: bool, address: u64, level: u64) -> Answer {
        let levels = self.naive.levels;
        if !legal(address, levels) {
            return Answer::No(4);
        }
        if !(1..=levels as u64 + 1).contains(&level) {
            return Answer::No(5);
        }
        let theirs = self.marks.iter().filter(|mark| !self.is_automatic(**mark));
        let theirs: Vec<(u64, u64)> = theirs.copied().collect();
        if theirs.contains(&mark(address, level, levels)) == sets {
            return Answer::No(6);
        }
        if sets && theirs.len() == 64 {
            return Answer::No(7);
        }
        Answer::Ok
    }

    fn change_naive(&mut self, call: &Call, answer: &Answer) {
        let levels = self.naive.levels;
        match (call.clone(), answer) {
            (Call::Map { guest, host, writable }, Answer::Ok) => {
                assert!(self.naive.map(guest, host, writable))
            }
            (Call::Map { guest, host, writable }, Answer::No(10)) => {
                assert!(!self.naive.map(guest, host, writable))
            }
            (_, Answer::No(_)) => {}
            (Call::Root { frame }, Answer::Ok) => {
                self.naive.root = frame;
                self.automatic.iter_mut().for_each(|automatic| automatic.charged.clear());
            }
            (Call::Unmap { guest }, Answer::Ok) => self.naive.unmap(guest),
            (Call::SetMark { address, level }, Answer::Ok) => {
                let mark = mark(address, level, levels);
                if self.is_automatic(mark) {
                    self.automatic.iter_mut().for_each(|automatic| automatic.clear(mark.1));
                } else {
                    self.set(address, level);
                }
                self.check_lookups(address);
            }
            (Call::ClearMark { address, level }, Answer::Ok) => {
                self.clear(address, level);
                self.check_lookups(address);
            }
            other => panic!("{other:?}"),
        }
    }

    fn set(&mut self, address: u64, level: u64) {
        assert!(self.marks.insert(mark(address, level, self.naive.levels)));
        self.put_in_place(address, level as u32);
    }

    fn clear(&mut self, address: u64, level: u64) {
        let levels = self.naive.levels;
        assert!(self.marks.remove(&mark(address, level, levels)));
        let mark = mark_in_place(address, level as u32, levels);
        self.places.iter_mut().filter(|place| **place == mark).for_each(|place| *place = None);
    }

    // Automatic marks.

    fn clear_automatic(&mut self, prefix: u64) {
        self.automatic.iter_mut().for_each(|automatic| automatic.clear(prefix));
        self.clear(prefix << 21, 1);
    }

    /// The least prefix of the paths of depth 0 that end at the word.
    fn charged(&self, held: &Held, host: u64, address: u64) -> Option<u64> {
        let word = (host, address / 8 % 512);
        let at_depth_0 = held.iter().filter(|(path, _)| path.len() == self.naive.levels as usize);
        // That of a large page has no fourth word.
        let ending = at_depth_0.filter(|(path, (words, _))| words.get(path.len() - 1) == Some(&word));
        ending.map(|(path, _)| page_from(path, self.naive.levels) / 512).min()
    }

    /// A request that was not refused: it may be charged to a prefix, and that may set a mark.
    fn add_request(&mut self, charged: Option<u64>, held: &mut Held) {
        let levels = self.naive.levels;
        let Some(automatic) = &mut self.automatic else { return };
        automatic.add(charged);
        let Some(prefix) = charged.filter(|prefix| automatic.charges(*prefix) >= 3) else { return };
        if self.marks.len() == 64 {
            let Some(cleared) = automatic.to_clear() else { return };
            self.clear_automatic(cleared);
            held.retain(|path, _| !begins(path, cleared, levels));
        }
        self.automatic.iter_mut().for_each(|automatic| automatic.set(prefix));
        self.set(prefix << 21, 1);
        held.retain(|path, _| !begins(path, prefix, levels));
    }

    /// The book's marks are these, each with its kind and its charges, and the automatic ones
    /// in the order of their setting.
    fn check_marks(&self) {
        let listed = |entry: ListedMark| {
            let levels = self.naive.levels;
            let first = page_from(&entry.mark.prefix, levels) << 12;
            (mark(first, entry.mark.level as u64, levels), (entry.kind, entry.charges))
        };
        let listed: BTreeMap<_, _> = self.unit.listed_marks().into_iter().map(listed).collect();
        assert!(listed.keys().eq(&self.marks));
        for (mark, (kind, charges)) in listed {
            let automatic = self.automatic.as_ref().filter(|_| mark.0 == 1);
            assert_eq!(charges, automatic.map_or(0, |automatic| automatic.charges(mark.1)));
            assert_eq!(kind == Kind::Automatic, self.is_automatic(mark));
        }
        let in_order = self.unit.book().automatic_marks().iter();
        let in_order: Vec<u64> =
            in_order.map(|mark| page_from(&mark.prefix, self.naive.levels) / 512).collect();
        assert_eq!(in_order, self.automatic.as_ref().map_or(Vec::new(), Automatic::in_order));
    }

    /// The book's window has just these charges, in their order.
    fn check_window(&self) {
        let number = |prefix: &Vec<u64>| page_from(prefix, self.naive.levels) / 512;
        let window = self.unit.book().window().map(|window| {
            window.requests().iter().rev().map(|charged| charged.as_ref().map(number)).collect::<Vec<_>>()
        });
        assert_eq!(window.as_ref(), self.automatic.as_ref().map(|automatic| &automatic.charged));
    }

    // Lookups.

    /// In any of the places that are not set.
    fn put_in_place(&mut self, address: u64, level: u32) {
        let unset: Vec<usize> = (0..64).filter(|place| self.places[*place].is_none()).collect();
        let place = unset[address as usize % 61 % unset.len()];
        self.places[place] = mark_in_place(address, level, self.naive.levels);
    }

    /// Each is what a search finds that really stops, in both halves and between them.
    fn check_lookups(&mut self, about: u64) {
        let levels = self.naive.levels;
        for address in [about, about ^ 0xFFF, about ^ 1 << 12 << 9, !about, about ^ 1 << 63, 0] {
            let found = stopping_search(&self.places, address, levels);
            assert_eq!(self.unit.book().lookup(&self.places, address), Some(found), "{address:#x}");
            assert_eq!(found.depth as u64, depth(&self.marks, address, levels), "{address:#x}");
            self.lookups.add_lookup(levels, &self.places, address, found);
        }
    }

    // Loads, stores and device stores.

    fn request(&mut self, call: &Call, address: u64, width: u64, value: Option<u64>) {
        if let Some(number) = refusal(legal(address, self.naive.levels), address, width) {
            return self.refused(call, number);
        }
        let mut held = self.held();
        let (seen, references, mut exits) = self.translate(address, value.is_some(), &mut held);
        let end = seen.end;
        if self.naive.bits && end.is_ok() {
            self.naive.touch(&seen, value.is_some());
        }
        // The write and the drops.
        let mut charged = None;
        if let (Ok(host), Some(value)) = (end, value) {
            exits += watched(&held, host) as u64;
            charged = self.charged(&held, host, address);
            self.write(&mut held, host, address, width, value);
        }
        self.add_request(charged, &mut held);
        let answer = self.unit.call(call);
        assert_eq!((end_of(&answer), answer.counts()), (end.err(), (references, exits)), "{call:?}");
        assert_eq!(self.held(), held, "{call:?}");
        if let (Ok(host), Answer::Value { value, .. }) = (end, answer) {
            let word = self.naive.memory[place(host, address)];
            assert_eq!(value as u128, digits(word, address, width), "{call:?}");
        }
    }

    fn refused(&mut self, call: &Call, number: u32) {
        let held = self.held();
        assert_eq!(self.unit.call(call), Answer::No(number), "{call:?}");
        assert_eq!(self.held(), held, "{call:?}");
    }

    fn is_word_address(&self, address: u64) -> bool {
        refusal(legal(address, self.naive.levels), address, 8).is_none()
    }

    /// The end, the references and the exits of a request, and its fill, from the
    /// naive walk and the paths held before.
    fn translate(&self, address: u64, is_store: bool, held: &mut Held) -> (Seen, u64, u64) {
        let levels = self.naive.levels as u64;
        let seen = self.naive.walk(address, is_store);
        let by_marks = depth(&self.marks, address, self.naive.levels);
        let above = seen.large.is_some_and(|level| level as u64 > by_marks);
        let depth = if above { 0 } else { by_marks };
        let (references, exits) = if depth > levels {
            (seen.reads, of_host(seen.end) as u64)
        } else {
            self.through_path(address, is_store, depth, &seen, held)
        };
        if seen.end.is_ok() {
            let skipped = if depth == 0 { 0 } else { seen.large.unwrap_or(1) as u64 - 1 };
            assert_eq!(references, levels + levels * depth - (levels + 1) * skipped);
        }
        (seen, references, exits)
    }

    /// The figures are those of the list's loads, one after the other; nothing changes.
    fn forecast(&mut self, call: &Call, addresses: &[u64]) {
        let (book, machine) = (self.unit.book().clone(), self.unit.machine().clone());
        let answer = self.unit.call(call);
        assert!(*self.unit.book() == book && *self.unit.machine() == machine, "{call:?}");
        if self.naive.bits {
            return assert_eq!(answer, Answer::No(16));
        }
        if addresses.len() > 256 {
            return assert_eq!(answer, Answer::No(14));
        }
        let mut held = self.held();
        let (mut references, mut exits, mut most) = (0, 0, tables(&held));
        for address in addresses.iter().filter(|address| self.is_word_address(**address)) {
            let (_, more_references, more_exits) = self.translate(*address, false, &mut held);
            references += more_references;
            exits += more_exits;
            most = most.max(tables(&held));
        }
        assert_eq!(answer, Answer::Figures { references, exits, tables: most as u64 }, "{call:?}");
    }

    /// References and exits of a request at depth N or less, and the fill.
    fn through_path(
        &self,
        address: u64,
        is_store: bool,
        depth: u64,
        seen: &Seen,
        held: &mut Held,
    ) -> (u64, u64) {
        let shadowed = (self.naive.levels as u64 - depth) as usize;
        let path = path_of(address, self.naive.levels, shadowed);
        let complete = match (depth, seen.lacks) {
            (0, _) => seen.end.is_ok(),
            (_, Some(level)) => level as u64 <= depth,
            (_, None) => seen.found_at.len() > shadowed,
        };
        let was_held = held.contains_key(&path);
        let forbids = depth == 0 && is_store && was_held && !held[&path].1;
        let exits = (!was_held || forbids) as u64;
        if !complete {
            return (seen.reads, exits);
        }
        let exits = exits + of_host(seen.end) as u64;
        // With bits a fault behind the shadow part leaves the path not held.
        if self.naive.bits && seen.end.is_err() && !was_held {
            return (seen.reads, exits);
        }
        // The tables found, and at depth 0 the page.
        let found = shadowed.min(seen.guest_words.len());
        if !was_held || forbids {
            let words = seen.guest_words[..found].to_vec();
            let clean = depth == 0 && !is_store && self.naive.bits && !self.all_have(64, &words[found - 1..]);
            let writable = !clean && self.writable(address, depth as u32, &words);
            held.insert(path.clone(), (Vec::new(), false));
            if tables(held) > self.naive.s as usize {
                held.clear();
            }
            held.insert(path, (words, writable));
        }
        (shadowed as u64 + seen.reads - seen.found_at[found], exits)
    }

    /// Whether each of the guest words has the bit.
    fn all_have(&self, bit: u64, words: &[(u64, u64)]) -> bool {
        words.iter().all(|word| self.naive.memory[(word.0 * 512 + word.1) as usize] & bit != 0)
    }

    fn device_store(&mut self, call: &Call, address: u64, width: u64, value: u64) {
        let frame = address / 4096;
        let frame_bits = if self.naive.levels == 4 { 36 } else { 40 };
        if let Some(number) = refusal(frame >> frame_bits == 0, address, width) {
            return self.refused(call, number);
        }
        let (entry, references) = self.naive.host_walk(frame);
        let end: End = match entry {
            None => Err(('H', 0, frame)),
            Some(entry) if entry & 2 == 0 => Err(('W', 0, frame)),
            Some(entry) => Ok(entry / 4096),
        };
        let mut held = self.held();
        let exits = end.map_or(1, |host| watched(&held, host) as u64);
        if let Ok(host) = end {
            self.write(&mut held, host, address, width, value);
        }
        let answer = self.unit.call(call);
        assert_eq!((end_of(&answer), answer.counts()), (end.err(), (references, exits)), "{call:?}");
        assert_eq!(self.held(), held, "{call:?}");
    }

    fn write(&mut self, held: &mut Held, host: u64, address: u64, width: u64, value: u64) {
        let word = &mut self.naive.memory[place(host, address)];
        let rest = *word as u128 - digits(*word, address, width) * unit(address);
        *word = (rest + value as u128 % 256u128.pow(width as u32) * unit(address)) as u64;
        held.retain(|_, (words, _)| !words.contains(&(host, address / 8 % 512)));
    }

    /// No held path is a proper prefix of another; each has the depth of its
    /// addresses and re-walks to what the book has; the tables fit S.
    fn check_book(&self) {
        let book = self.unit.book();
        let levels = self.naive.levels;
        assert!(book.tables_in_use() <= self.naive.s);
        for (path, held) in &book.held {
            let others = book.held.keys().filter(|other| *other != path);
            assert!(others.into_iter().all(|other| !other.starts_with(path)));
            let address = address_of(page_from(path, levels), levels);
            let path_depth = levels - path.len() as u32;
            let by_marks = depth(&self.marks, address, levels);
            let seen = self.naive.walk(address, false);
            let above = path_depth == 0 && seen.large.is_some_and(|level| level as u64 > by_marks);
            assert!(above || by_marks == path_depth as u64);
            let words: Vec<(u64, u64)> = held.words.iter().map(|word| (word.frame, word.index)).collect();
            let many = path.len().min(seen.guest_words.len());
            assert_eq!(words, seen.guest_words[..many]);
            assert_eq!(held.frames, seen.frames[..=many]);
            let writable = self.writable(address, path_depth, &words);
            if self.naive.bits && path_depth == 0 {
                // A path that allows stores has bit 6. One without may have been filled before.
                assert!(!held.writable || writable && self.all_have(64, &words[many - 1..]));
            } else {
                assert_eq!(held.writable, writable);
            }
            assert!(!self.naive.bits || self.all_have(32, &words));
            assert!(path_depth > 0 || seen.end.is_ok());
        }
    }

    /// At depth 0 whether a store is granted, whatever bits it needs, else whether the
    /// guest words allow it.
    fn writable(&self, address: u64, path_depth: u32, words: &[(u64, u64)]) -> bool {
        if path_depth == 0 {
            return self.naive.walk_without_bits(address, true).end.is_ok();
        }
        self.all_have(2, words)
    }
}

/// Read as a signed number, a legal address has as many bits as the indexes and
/// the offset together.
fn legal(address: u64, levels: u32) -> bool {
    let half = 1i64 << (11 + 9 * levels);
    (-half..half).contains(&(address as i64))
}

/// The refusal of a load or store by its width, or by an address that is not in range
/// or has low bits set.
fn refusal(in_range: bool, address: u64, width: u64) -> Option<u32> {
    match width {
        1 | 2 | 4 | 8 if in_range && address & (width - 1) == 0 => None,
        1 | 2 | 4 | 8 => Some(4),
        _ => Some(15),
    }
}

/// What one of the address's byte counts for in its word: a word is a number with a
/// digit to base 256 for each byte, the first one the ones.
fn unit(address: u64) -> u128 {
    256u128.pow((address % 8) as u32)
}

/// So many digits of a word from the address's byte on.
fn digits(word: u64, address: u64, width: u64) -> u128 {
    word as u128 / unit(address) % 256u128.pow(width as u32)
}

/// The mark of this level at an address.
fn mark(address: u64, level: u64, levels: u32) -> (u64, u64) {
    let page = address / 4096 % 512u64.pow(levels);
    (level, page / 512u64.pow(levels.min(level as u32)))
}

/// Whether a path begins with all but the last index of a page, given as one number.
fn begins(path: &[u64], prefix: u64, levels: u32) -> bool {
    path.starts_with(&path_of(prefix << 21, levels, levels as usize - 1))
}

/// The greatest level whose mark at the address is set.
fn depth(marks: &Marks, address: u64, levels: u32) -> u64 {
    let at_address = |level: &u64| marks.contains(&mark(address, *level, levels));
    (1..=levels as u64 + 1).rev().find(at_address).unwrap_or(0)
}

/// The mark of this level at an address, as a place has it.
fn mark_in_place(address: u64, level: u32, levels: u32) -> Option<Mark> {
    Some(Mark { level, prefix: path_of(address, levels, levels.saturating_sub(level) as usize) })
}

/// The depth search as a loop over the places that ends at a mark of level N + 1.
fn stopping_search(places: &[Option<Mark>], address: u64, levels: u32) -> Lookup {
    let (mut depth, mut read) = (0, 0);
    for mark in places.iter().flatten() {
        read += 1;
        if mark.prefix == path_of(address, levels, mark.prefix.len()) {
            depth = depth.max(mark.level);
        }
        if depth == levels + 1 {
            break;
        }
    }
    Lookup { depth, read }
}

fn path_of(address: u64, levels: u32, length: usize) -> Vec<u64> {
    (0..length as u32).map(|place| (address >> (12 + 9 * (levels - 1 - place))) & 511).collect()
}

/// Shadow tables in use: each proper prefix once.
fn tables(held: &Held) -> usize {
    let mut prefixes: Vec<&[u64]> = Vec::new();
    for path in held.keys() {
        for length in 0..path.len() {
            if !prefixes.contains(&&path[..length]) {
                prefixes.push(&path[..length]);
            }
        }
    }
    prefixes.len()
}

fn watched(held: &Held, host: u64) -> bool {
    held.values().any(|(words, _)| words.iter().any(|word| word.0 == host))
}

fn of_host(end: End) -> bool {
    matches!(end, Err(('H' | 'W', _, _)))
}

fn place(host: u64, address: u64) -> usize {
    (host * 512 + address / 8 % 512) as usize
}

/// The fault of an answer, if it has one.
fn end_of(answer: &Answer) -> Option<(char, u32, u64)> {
    match answer {
        Answer::Fault { fault, .. } => Some((fault.letter(), fault.level(), fault.frame())),
        _ => None,
    }
}

fn check_run(run: &Run) -> Events {
    let mut pair = Pair::new(run);
    for call in &run.calls {
        pair.step(call);
    }
    pair.lookups.join(pair.unit.events());
    pair.lookups
}

fn check_small_runs(sort: Sort, levels: u32, seeds: std::ops::Range<u64>, calls: usize) -> Events {
    let mut all = Events::default();
    for seed in seeds {
        let sizes = Sizes::small(&mut Random::new(seed + 1), levels);
        all.join(&check_run(&sort(seed, sizes, calls)));
    }
    all
}

#[test]
fn small_runs_with_four_levels() {
    let mut events = check_small_runs(run, 4, 0..400, 60);
    events.join_as("bits: ", &check_small_runs(bits_run, 4, 0..400, 60));
    for (name, many) in &events.counts {
        println!("{many:>9}  {name}");
    }
}

#[test]
fn small_runs_with_five_levels() {
    for sort in [run, bits_run] {
        let events = check_small_runs(sort, 5, 0..200, 60);
        assert!(events.count("granted Load at depth 6, no path") > 0);
        assert!(events.count("granted Store at depth 5, path held") > 0);
    }
}

#[test]
fn long_runs_reach_every_event() {
    let events = check_small_runs(run, 4, 1000..1100, 600);
    assert_all_met(sought_events(), &events);
    assert_all_met(of_halves(4), &events);
    assert_all_met(of_widths(4), &events);
    assert_all_met(of_forecasts(4, true), &events);
}

/// With accessed and dirty bits, what is met without them and more.
#[test]
fn long_runs_with_bits_reach_every_event() {
    let events = check_small_runs(bits_run, 4, 1000..1200, 600);
    assert_all_met(sought_events(), &events);
    assert_all_met(of_halves(4), &events);
    assert_all_met(of_widths(4), &events);
    let names = of_bits(4, true);
    for name in &names {
        println!("{:>9}  {name}", events.count(name));
    }
    assert_all_met(names, &events);
}

#[test]
fn long_runs_with_five_levels_reach_both_halves_every_width_and_every_forecast() {
    let events = check_small_runs(run, 5, 1000..1100, 600);
    assert_all_met(of_halves(5), &events);
    assert_all_met(of_widths(5), &events);
    assert_all_met(of_forecasts(5, true), &events);
}

#[test]
fn long_runs_with_five_levels_and_bits() {
    let events = check_small_runs(bits_run, 5, 1000..1500, 600);
    assert_all_met(of_halves(5), &events);
    assert_all_met(of_widths(5), &events);
    assert_all_met(of_bits(5, true), &events);
}

/// Tables that are written often. What can be rare is seen dozens of times.
#[test]
fn long_runs_with_tables_written_often() {
    let events = check_small_runs(automatic_run, 4, 1000..2100, 600);
    let names = of_automatic(4, true, true);
    for name in &names {
        println!("{:>9}  {name}", events.count(name));
    }
    for name in names {
        assert!(events.count(&name) >= 50, "{} times: {name}", events.count(&name));
    }
    for name in seen_often() {
        assert!(events.count(name) >= 1000, "{} times: {name}", events.count(name));
    }
    assert_all_met(of_halves(4), &events);
}

/// What each of many such runs has a few times.
fn seen_often() -> [&'static str; 30] {
    [
        "charge",
        "charge, 1 in the window",
        "charge, 2 in the window",
        "charge, 3 in the window",
        "charge, 4 in the window or more",
        "charge, lower half",
        "charge, upper half",
        "charge by a narrow store",
        "charge by a store at depth 0",
        "charge by a store at depth 1",
        "charge by the store's own path alone",
        "charge, several prefixes",
        "charge, a path has the word at level 1 and above",
        "no charge, dropped by a device store",
        "no charge, depth 0 dropped by upper entries alone",
        "no charge, no path of depth 0 dropped",
        "no charge, the store's own fill dropped the paths",
        "window full, the oldest leaves",
        "window full, a charge leaves",
        "root load, charges in the window",
        "root load, automatic marks stay",
        "automatic mark set, place free",
        "automatic mark set, another cleared",
        "no automatic mark set, all marks are the operator's",
        "automatic mark cleared for a store",
        "automatic mark cleared for the operator",
        "automatic mark cleared, the only one",
        "automatic mark taken over",
        "refusal 6 of clearing an automatic mark",
        "refusal 7",
    ]
}

#[test]
fn long_runs_with_five_levels_and_tables_written_often() {
    let events = check_small_runs(automatic_run, 5, 1000..1200, 600);
    assert_all_met(of_automatic(5, true, true), &events);
}

/// Large pages: what is met at each depth and by each mark is seen ten times and more.
#[test]
fn long_runs_with_large_pages() {
    for (levels, seeds) in [(4, 1000..1400), (5, 1000..1400)] {
        let events = check_small_runs(large_run, levels, seeds, 600);
        for name in of_large(levels, true) {
            println!("{:>9}  {name}", events.count(&name));
            assert!(events.count(&name) >= 10, "{} times: {name}", events.count(&name));
        }
        assert_all_met(of_halves(levels), &events);
    }
}

/// With the least number of shadow frames, paths of one prefix alone fit at depth 0.
#[test]
fn tables_written_often_with_few_shadow_frames() {
    let mut events = Events::default();
    for seed in 0..200 {
        let sizes = Sizes { levels: 4, frames: 16, h: 4, s: 4 };
        events.join(&check_run(&automatic_run(seed, sizes, 600)));
    }
    assert_all_met(of_automatic(4, false, true), &events);
    assert_eq!(events.count("charge, several prefixes"), 0);
}

/// The seed alone says which runs have the automatic choice: about half. Jobs never have.
#[test]
fn half_of_the_runs_have_the_automatic_choice() {
    let sizes = Sizes { levels: 4, frames: 16, h: 4, s: 4 };
    for sort in [run, bits_run, mark_run, quiet_run, large_run] {
        let many = (0..400).filter(|seed| sort(*seed, sizes, 1).choices.automatic).count();
        assert!((160..=240).contains(&many), "{many}");
    }
    assert!((0..100).all(|seed| job_run(seed, sizes, 1).choices == Choices::default()));
    assert!((0..100).all(|seed| automatic_run(seed, sizes, 1).choices.automatic));
}

#[test]
fn lookups_among_marks_that_come_and_go() {
    for levels in [4, 5] {
        let mut events = Events::default();
        for seed in 2000..2060 {
            let sizes = Sizes::small(&mut Random::new(seed + 1), levels);
            events.join(&check_run(&mark_run(seed, sizes, 600)));
        }
        assert_all_met(of_lookups(levels), &events);
    }
}

// Quiet stretches.

/// From each call on the run has a stretch, maybe of no call. As long as it goes on, its
/// exits are its figure, and what is held is what was held and what it touched.
fn check_stretches(run: &Run, events: &mut Events) {
    let levels = run.sizes.levels;
    let mut unit = run.open().unwrap();
    let mut live: Vec<(Stretch, u64)> = Vec::new();
    for call in &run.calls {
        live.push((Stretch::start(&unit), 0));
        let before = unit.clone();
        let answer = unit.call(call);
        let Ok(part) = part(&before, call, &answer) else {
            live.clear();
            continue;
        };
        live.retain_mut(|(stretch, _)| stretch.take(&part).is_ok());
        let exits = if part == Part::Nothing { 0 } else { answer.counts().1 };
        for (stretch, paid) in &mut live {
            *paid += exits;
            assert_eq!(*paid, stretch.figure(), "{call:?}");
            assert!(stretch.held_after().iter().eq(unit.book().held.keys()), "{call:?}");
        }
        if let (Part::Request { path }, true) = (&part, live.len() > 1) {
            let depth = path.as_ref().map_or(levels + 1, |path| levels - path.len() as u32);
            events.add(format!("stretch goes on at depth {depth}"));
            events.add_if(exits > 0, &format!("stretch pays at depth {depth}"));
            let held = path.as_ref().and_then(|path| Some((path, unit.book().held.get(path)?)));
            if let Some(level) = held.and_then(|(path, held)| held.large_level(path)) {
                let pays = if exits > 0 { "pays" } else { "goes on" };
                events.add(format!("stretch {pays} by a {} page", size(level)));
            }
        }
    }
}

#[test]
fn quiet_stretches_cost_their_figure() {
    for levels in [4, 5] {
        let mut events = Events::default();
        for seed in 3000..3040 {
            let sizes = Sizes::small(&mut Random::new(seed + 1), levels);
            check_stretches(&quiet_run(seed, sizes, 600), &mut events);
            check_stretches(&run(seed, sizes, 300), &mut events);
            let often = automatic_run(seed, sizes, 300);
            if !often.choices.bits {
                check_stretches(&often, &mut events);
            }
            let large = large_run(seed, sizes, 300);
            if !large.choices.bits {
                check_stretches(&large, &mut events);
            }
        }
        for way in ["pays", "goes on"] {
            let sizes = ["2 MiB", "1 GiB"].map(|size| format!("stretch {way} by a {size} page"));
            assert_all_met(sizes.to_vec(), &events);
        }
        let on = (0..=levels + 1).map(|depth| format!("stretch goes on at depth {depth}"));
        let pays = (0..=levels).map(|depth| format!("stretch pays at depth {depth}"));
        assert_all_met(on.chain(pays).collect(), &events);
        assert_eq!(events.count(&format!("stretch pays at depth {}", levels + 1)), 0);
    }
}

fn assert_all_met(names: Vec<String>, events: &Events) {
    let missed: Vec<String> = names.into_iter().filter(|name| events.count(name) == 0).collect();
    assert!(missed.is_empty(), "{missed:?}");
}

/// The events that long runs must show.
fn sought_events() -> Vec<String> {
    let mut names = Vec::new();
    for depth in 0..=4 {
        for way in ["path held", "path not held"] {
            names.push(format!("granted Load at depth {depth}, {way}"));
            names.push(format!("granted Store at depth {depth}, {way}"));
        }
        for letter in ["A", "H", "P", "W"] {
            if depth > 0 {
                names.push(format!("fault {letter} at depth {depth}, direct part, path held"));
                names.push(format!("fault {letter} at depth {depth}, direct part, path not held"));
            }
        }
        // P and W belong to the shadow part at depth 0 only, A and M need an entry in it.
        let letters: &[&str] = match depth {
            0 => &["A", "M", "H", "P", "W"],
            4 => &["H"],
            _ => &["A", "M", "H"],
        };
        for letter in letters {
            names.push(format!("fault {letter} at depth {depth}, shadow part, path not held"));
        }
    }
    for letter in ["A", "M", "H", "P", "W"] {
        names.push(format!("fault {letter} at depth 5, direct part, no path"));
    }
    for level in 1..=4 {
        names.push(format!("fault A of level {level}"));
        names.push(format!("fault M of level {level}"));
        names.push(format!("paths dropped by setting a mark of level {level}"));
        names.push(format!("paths dropped by clearing a mark of level {level}"));
        names.push(format!("device store, fault H after {level}"));
    }
    for number in [4, 5, 6, 7, 8, 9, 10, 12, 15] {
        names.push(format!("refusal {number}"));
    }
    let others = [
        "fault P at depth 0, shadow part, path held",
        "fault W at depth 0, shadow part, path held",
        "granted Load at depth 5, no path",
        "granted Store at depth 5, no path",
        "overflow at depth 0",
        "overflow at depth 1",
        "overflow at depth 2",
        "paths dropped by map",
        "paths dropped by overflow",
        "paths dropped by root",
        "paths dropped by setting a mark of level 5",
        "paths dropped by unmap",
        "paths dropped by word",
        "paths dropped through a guest frame they did not use",
        "drop though the value is the same",
        "exit for a watched frame",
        "watched frame, no path dropped",
        "held path forbids the store",
        "mapped anew",
        "store drops its own path",
        "store's own fill makes its frame watched",
        "store's own overflow leaves its frame not watched",
        "device store, fault W after 4",
        "device store done, 0 exits",
        "device store done, 1 exits",
        "store done, 0 exits",
        "store done, 1 exits",
        "store done, 2 exits",
    ];
    names.extend(others.map(String::from));
    names
}

#[test]
fn large_runs() {
    for seed in 0..6 {
        let levels = 4 + (seed % 2) as u32;
        let sizes = Sizes::large(&mut Random::new(seed), levels);
        check_run(&run(seed, sizes, 1000));
        check_run(&bits_run(seed, sizes, 1000));
        check_run(&automatic_run(seed, sizes, 1000));
        check_run(&large_run(seed, sizes, 1000));
    }
}

#[test]
fn the_same_seed_gives_the_same_lines() {
    for sort in [run, automatic_run, large_run] {
        let text = || {
            let sizes = Sizes::small(&mut Random::new(8), 4);
            lines(&sort(7, sizes, 60)).unwrap().0
        };
        assert_eq!(text(), text());
        assert!(text()[0].starts_with("open 4 "));
    }
}
