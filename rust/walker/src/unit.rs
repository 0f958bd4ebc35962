//! The calls: each one asks the first refusal that applies, then steps machine and book.

mod automatic;
mod bits;
pub mod large;

use crate::answer::*;
use crate::book::{
    depth_of_request, faults_in_shadow_part, note_shadow_part, parts, Book, Kind, ListedMark, Paths,
};
use crate::events::Events;
use crate::machine::{words_read, Access, Machine, Mapping, Step, Walk, Word};
use crate::numbers::*;
use automatic::KeptAges;
use std::collections::BTreeMap;

/// How many addresses a forecast takes (document 02, request 2).
pub const MOST_ADDRESSES: usize = 256;

#[derive(Clone, Debug)]
pub struct Unit {
    machine: Machine,
    book: Book,
    events: Events,
    /// Words of which a store changed some bytes, as they were before, until a walk
    /// reads them. Only events rest on them.
    changed: BTreeMap<Word, u64>,
    /// The path of the request before, if it was not held and a fault behind its shadow
    /// part left it so. Only events rest on it.
    left_unfilled: Option<Vec<u64>>,
    /// Ages that automatic marks do not have. Only events rest on them.
    kept_ages: KeptAges,
}

/// A load or store of a guest-virtual address that is not refused.
#[derive(Clone, Copy)]
struct Request {
    address: u64,
    width: u64,
    access: Access,
}

/// What the book has for a request, and where its walk faults.
#[derive(Clone, Copy)]
struct Met {
    depth: u32,
    /// It has a path, which is not held.
    not_held: bool,
    /// "d = 0 and the held path forbids the store"
    forbidden: bool,
    shadow_fault: bool,
}

impl Met {
    fn part(self) -> &'static str {
        if self.shadow_fault {
            "shadow"
        } else {
            "direct"
        }
    }
}

/// A load or store once its walk, its counts and its fill are done.
struct Served {
    depth: u32,
    end: Result<Mapping, Fault>,
    /// The guest frame that was host-walked last: the page's, if granted.
    last_frame: u64,
    references: u64,
    exits: u64,
    /// The paths that its fill dropped.
    overflowed: Paths,
}

/// A granted store, the device's too, once it is written.
struct Written {
    word: Word,
    /// "for a store into a frame that is watched once the store is translated"
    exits: u64,
    /// The paths that it dropped.
    dropped: Paths,
}

impl Unit {
    /// "Open (H, S): 1 if the words are no multiple of 512 or the frames are 0 or
    /// more than 65,536; then 2 if H or S is below 4 or H + S leaves no guest
    /// frame." With N levels, below N. It chooses nothing else.
    pub fn open(levels: u32, words: Vec<u64>, h: u64, s: u64) -> Result<Unit, u32> {
        Unit::open_with(levels, words, h, s, Choices::default())
    }

    /// The same with the choices of document 02, which a job cannot make.
    pub fn open_with(levels: u32, words: Vec<u64>, h: u64, s: u64, choices: Choices) -> Result<Unit, u32> {
        let length = words.len() as u64;
        let frames = length / FRAME_WORDS;
        if length % FRAME_WORDS != 0 || frames == 0 || frames > MOST_FRAMES {
            return Err(BAD_MEMORY);
        }
        let least = levels as u64;
        if h < least || s < least || h.saturating_add(s) >= frames {
            return Err(BAD_SPLIT);
        }
        // "keeps guest words; root 0, no marks"
        let guest_area = words[((h + s) * FRAME_WORDS) as usize..].to_vec();
        let machine = Machine::new(levels, h, s, guest_area, choices.bits);
        Ok(Unit::of(machine, Book::new(levels, s).with_automatic_choice(choices.automatic)))
    }

    /// One in the middle of a run, with this state.
    pub fn of(machine: Machine, book: Book) -> Unit {
        Unit {
            machine,
            book,
            events: Events::default(),
            changed: BTreeMap::new(),
            left_unfilled: None,
            kept_ages: KeptAges::default(),
        }
    }

    /// The words of the guest area, in order.
    pub fn guest_words(&self) -> &[u64] {
        &self.machine.guest_area
    }

    pub fn machine(&self) -> &Machine {
        &self.machine
    }

    pub fn book(&self) -> &Book {
        &self.book
    }

    /// The marks, each with its kind and the charges to it.
    pub fn listed_marks(&self) -> Vec<ListedMark> {
        self.book.listed_marks()
    }

    pub fn events(&self) -> &Events {
        &self.events
    }

    fn levels(&self) -> u32 {
        self.machine.levels
    }

    /// "A refused call changes nothing."
    pub fn call(&mut self, call: &Call) -> Answer {
        let answer = match *call {
            Call::Root { frame } => self.root(frame),
            Call::Map { guest, host, writable } => self.map(guest, host, writable),
            Call::Unmap { guest } => self.unmap(guest),
            Call::SetMark { address, level } => self.set_mark(address, level),
            Call::ClearMark { address, level } => self.clear_mark(address, level),
            Call::Load { address, width } => self.load(address, width),
            Call::Store { address, width, value } => self.store(address, width, value),
            Call::DeviceStore { address, width, value } => self.device_store(address, width, value),
            Call::Forecast { ref addresses } => self.forecast(addresses),
        };
        self.note_answer(call, &answer);
        self.note_address(call, &answer);
        answer
    }

    // Root, map and unmap.

    fn root(&mut self, frame: u64) -> Answer {
        if frame >= frame_limit(self.levels()) {
            return Answer::No(BAD_GUEST_FRAME);
        }
        self.machine.root = frame;
        let dropped = self.book.drop_all();
        self.events.add_many("paths dropped by root", dropped);
        self.note_emptied_window();
        self.book.empty_window();
        Answer::Ok
    }

    fn map(&mut self, guest: u64, host: u64, writable: bool) -> Answer {
        if guest >= frame_limit(self.levels()) {
            return Answer::No(BAD_GUEST_FRAME);
        }
        if !self.machine.in_guest_area(host) {
            return Answer::No(BAD_HOST_FRAME);
        }
        if self.machine.host_tables_with(guest) > self.machine.host_frames {
            return Answer::No(HOST_TABLES_FULL);
        }
        // "A mapped frame is mapped anew."
        let before = self.machine.mapping.insert(guest, Mapping { host, writable });
        let dropped = self.book.drop_by_mapping(guest);
        self.events.add_if(before.is_some(), "mapped anew");
        self.events.add_many("paths dropped by map", dropped.len());
        self.note_mapping_of_large("map", guest, &dropped);
        Answer::Ok
    }

    fn unmap(&mut self, guest: u64) -> Answer {
        if guest >= frame_limit(self.levels()) {
            return Answer::No(BAD_GUEST_FRAME);
        }
        if self.machine.mapping.remove(&guest).is_none() {
            return Answer::No(NOT_MAPPED);
        }
        let dropped = self.book.drop_by_mapping(guest);
        self.events.add_many("paths dropped by unmap", dropped.len());
        self.note_mapping_of_large("unmap", guest, &dropped);
        Answer::Ok
    }

    // Marks.

    /// The refusals that set and clear mark share: 4 by the rule of loads and
    /// stores without the multiple, then "5 if the level is not 1 to 5".
    fn refuse_mark(&self, address: u64, level: u64) -> Option<u32> {
        if !is_legal(address, self.levels()) {
            return Some(BAD_ADDRESS);
        }
        if level < 1 || level > self.levels() as u64 + 1 {
            return Some(BAD_LEVEL);
        }
        None
    }

    fn set_mark(&mut self, address: u64, level: u64) -> Answer {
        if let Some(number) = self.refuse_mark(address, level) {
            return Answer::No(number);
        }
        let mark = self.book.mark(address, level as u32);
        let kind = self.book.kind(&mark);
        if kind == Some(Kind::Operator) {
            return Answer::No(MARK_AS_IS);
        }
        // An automatic mark has its place already, and becomes the operator's.
        if kind.is_none() && !self.make_room("the operator") {
            return Answer::No(MARKS_FULL);
        }
        let full = self.book.marks_full();
        let dropped = self.book.set_mark(mark.clone(), Kind::Operator);
        if kind.is_some() {
            self.note_taken_over(&mark, full, dropped.len());
        }
        self.events.add(format!("mark of level {level} set, {}", self.half(address)));
        self.events.add_many(format!("paths dropped by setting a mark of level {level}"), dropped.len());
        self.note_large_drops(&format!("setting a mark of level {level}"), &dropped);
        Answer::Ok
    }

    fn clear_mark(&mut self, address: u64, level: u64) -> Answer {
        if let Some(number) = self.refuse_mark(address, level) {
            return Answer::No(number);
        }
        let mark = self.book.mark(address, level as u32);
        let kind = self.book.kind(&mark);
        if kind != Some(Kind::Operator) {
            self.events.add_if(kind.is_some(), "refusal 6 of clearing an automatic mark");
            return Answer::No(MARK_AS_IS);
        }
        let dropped = self.book.clear_mark(&mark);
        self.events.add(format!("mark of level {level} cleared, {}", self.half(address)));
        self.events.add_many(format!("paths dropped by clearing a mark of level {level}"), dropped.len());
        self.note_large_drops(&format!("clearing a mark of level {level}"), &dropped);
        Answer::Ok
    }

    // Loads and stores.

    /// Whether a load of a whole word, such as a forecast's, is not refused.
    fn is_word_address(&self, address: u64) -> bool {
        refuse_request(self.levels(), address, WORD_BYTES).is_none()
    }

    fn load(&mut self, address: u64, width: u64) -> Answer {
        if let Some(number) = refuse_request(self.levels(), address, width) {
            return Answer::No(number);
        }
        let served = self.serve(Request { address, width, access: Access::Load });
        self.enter_window(None);
        let Served { references, exits, .. } = served;
        match served.end {
            Err(fault) => Answer::Fault { fault, references, exits },
            Ok(page) => {
                let word = self.machine.read(Word { frame: page.host, index: word_in_frame(address) });
                let bytes = Bytes::at(address, width);
                self.note_bytes("Load", bytes, word);
                Answer::Value { value: bytes.of(word), references, exits }
            }
        }
    }

    /// "a store fills first, then writes, then drops"
    fn store(&mut self, address: u64, width: u64, value: u64) -> Answer {
        if let Some(number) = refuse_request(self.levels(), address, width) {
            return Answer::No(number);
        }
        let request = Request { address, width, access: Access::Store };
        let served = self.serve(request);
        let Served { references, exits, .. } = served;
        match served.end {
            Err(fault) => {
                self.enter_window(None);
                Answer::Fault { fault, references, exits }
            }
            Ok(page) => {
                let word = Word { frame: page.host, index: word_in_frame(address) };
                self.note_own_drop(address, served.depth, word);
                let bytes = Bytes::at(address, width);
                let written = self.write_and_drop("Store", served.last_frame, word, bytes, value);
                self.charge(request, &served, &written);
                Answer::Done { references, exits: exits + written.exits }
            }
        }
    }

    /// "A device store takes one host walk, with W as for a page; granted, it
    /// writes likewise." "For a device store: the host walk's words, 1 exit for
    /// H or W, 1, if granted, for a watched frame."
    fn device_store(&mut self, address: u64, width: u64, value: u64) -> Answer {
        if let Some(number) = refuse_device_store(self.levels(), address, width) {
            return Answer::No(number);
        }
        let frame = frame_of(address);
        let Step::HostWalk { words, found, .. } = self.machine.host_walk(frame) else { unreachable!() };
        match found {
            None => Answer::Fault { fault: Fault::HostAbsent { frame }, references: words, exits: 1 },
            Some(page) if !page.writable => {
                Answer::Fault { fault: Fault::HostReadOnly { frame }, references: words, exits: 1 }
            }
            Some(page) => {
                let word = Word { frame: page.host, index: word_in_frame(address) };
                let bytes = Bytes::at(address, width);
                let written = self.write_and_drop("DeviceStore", frame, word, bytes, value);
                self.note_device_drops(&written);
                Answer::Done { references: words, exits: written.exits }
            }
        }
    }

    /// Writes the bytes and drops by the word around them, whichever of its bytes they
    /// are.
    fn write_and_drop(&mut self, name: &str, through: u64, word: Word, bytes: Bytes, value: u64) -> Written {
        let watched = self.book.watched(word.frame);
        let before = self.machine.read(word);
        let after = bytes.put(before, value);
        self.machine.write(word, after);
        let dropped = self.book.drop_by_word(word);
        let same = before == after;
        self.note_bytes(name, bytes, before);
        self.note_value(name, bytes, value);
        self.note_drops(name, bytes, watched, same, dropped.len());
        self.note_changed_word(word, bytes, before);
        self.note_cleared_bits(before, after, dropped.len());
        self.note_large_entry(name, word, [before, after].map(Entry), &dropped);
        self.events.add_if(watched, "exit for a watched frame");
        self.events.add_if(watched && dropped.is_empty(), "watched frame, no path dropped");
        self.events.add_if(same && !dropped.is_empty(), "drop though the value is the same");
        self.events.add_many("paths dropped by word", dropped.len());
        let by_alias = dropped.iter().filter(|(_, held)| !held.frames.contains(&through)).count();
        self.events.add_many("paths dropped through a guest frame they did not use", by_alias);
        Written { word, exits: watched as u64, dropped }
    }

    /// The path of an address, if it has one. Loads and stores have the same: they read the
    /// same entries.
    pub fn path_of(&self, address: u64) -> Option<Vec<u64>> {
        let walk = self.machine.plain_walk(address, Access::Load);
        self.book.path(address, depth_of_request(self.book.depth(address), &walk))
    }

    /// The walk of a load or store, its counts, and the fill of its path.
    fn serve(&mut self, request: Request) -> Served {
        let Request { address, access, .. } = request;
        let levels = self.levels();
        let bits = self.machine.bits;
        let walk = self.machine.plain_walk(address, access);
        let depth = depth_of_request(self.book.depth(address), &walk);
        let path = self.book.path(address, depth);
        let held = path.as_ref().and_then(|path| self.book.held.get(path));
        let granted = walk.end.is_ok();
        let shadow_fault = faults_in_shadow_part(&walk, levels, depth);

        // "1 if d is at most 4 and the path was not held, or d = 0 and the held
        // path forbids the store"
        let not_held = path.is_some() && held.is_none();
        let forbidden = depth == 0 && access == Access::Store && held.is_some_and(|held| !held.writable);
        let mut exits = (not_held || forbidden) as u64;
        // "1 for H or W in the direct part"
        if let Err(fault) = walk.end {
            exits += (fault.is_of_host() && !shadow_fault) as u64;
        }
        // With bits on a fault that finds no path held counts as if nothing were shadowed.
        let plain_count = shadow_fault || bits && not_held && !granted;
        let references = references(&walk, levels, depth, plain_count);
        // "A path not held is filled exactly if the request meets no fault in its
        // shadow part." With bits on the direct part must be granted too.
        let fills = not_held && if bits { granted } else { !shadow_fault };
        // A path that a load filled with bit 6 clear lets stores by from the first granted
        // one on. With bits off no store is granted that the held path forbids.
        let refills = forbidden && granted;

        let met = Met { depth, not_held, forbidden, shadow_fault };
        self.note_request(&walk, request, met);
        self.note_automatic_mark(&walk, request, met);
        self.note_large(&walk, request, met);
        self.note_changed_entries(&walk);
        self.events.add_if(fills, &format!("fill at depth {depth}"));
        if bits {
            self.note_bits(&walk, request, met);
        }
        let mut overflowed = Paths::new();
        if let (Some(path), true) = (path, fills || refills) {
            let watched_before = self.watches_target(&walk, access);
            let dirty_counts = bits && access == Access::Load;
            overflowed = self.book.fill(path, note_shadow_part(&walk, levels, depth, dirty_counts));
            self.events.add_if(!overflowed.is_empty(), &format!("overflow at depth {depth}"));
            self.events.add_many("paths dropped by overflow", overflowed.len());
            self.note_large_fill(&walk, &overflowed);
            self.note_own_fill(watched_before, self.watches_target(&walk, access));
        }
        self.note_half(&walk, request, depth);
        // Before the caller uses the word. No path is dropped for it and nothing counted: the
        // book is not told. A fault sets none.
        if bits && granted {
            self.machine.set_bits(&walk, access);
        }
        Served { depth, last_frame: last_frame(&walk), end: walk.end, references, exits, overflowed }
    }

    // The forecast.

    /// What serving the list would cost: it is really served, on a copy. An address
    /// that meets 4 adds nothing, and neither it nor a fault ends the list.
    fn forecast(&mut self, addresses: &[u64]) -> Answer {
        if self.machine.bits {
            let too_many = addresses.len() > MOST_ADDRESSES;
            self.events.add_if(too_many, "refusal 16 of more than 256 addresses");
            return Answer::No(NO_FORECAST);
        }
        if addresses.len() > MOST_ADDRESSES {
            let none_legal = addresses.iter().all(|address| !self.is_word_address(*address));
            self.events.add_if(none_legal, "refusal 14, each address would meet 4");
            return Answer::No(TOO_MANY_ADDRESSES);
        }
        let mut copy = Unit::of(self.machine.clone(), self.book.clone());
        let (mut references, mut exits) = (0, 0);
        // The tables in use before the first address count too.
        let mut in_use = vec![copy.book.tables_in_use()];
        for address in addresses {
            self.note_listed(&copy, *address);
            let (more_references, more_exits) = copy.call(&Call::load_word(*address)).counts();
            references += more_references;
            exits += more_exits;
            in_use.push(copy.book.tables_in_use());
        }
        self.note_forecast(&copy.events, &in_use);
        let tables = in_use.into_iter().max().unwrap_or(0);
        Answer::Figures { references, exits, tables }
    }

    // Notes of events. They read the state and change only the counters.

    /// Whether the frame that a granted store goes to is watched.
    fn watches_target(&self, walk: &Walk, access: Access) -> bool {
        access == Access::Store && walk.end.is_ok_and(|page| self.book.watched(page.host))
    }

    fn note_answer(&mut self, call: &Call, answer: &Answer) {
        let device = matches!(call, Call::DeviceStore { .. });
        let narrow_device = matches!(*call, Call::DeviceStore { width, .. } if width < WORD_BYTES);
        match answer {
            Answer::No(number) => self.events.add(format!("refusal {number}")),
            Answer::Fault { fault, references, .. } if device => {
                self.events.add(format!("device store, fault {} after {references}", fault.letter()));
                let name = format!("fault {} of a narrow DeviceStore", fault.letter());
                self.events.add_if(narrow_device, &name);
            }
            Answer::Done { exits, .. } if device => {
                self.events.add(format!("device store done, {exits} exits"))
            }
            Answer::Done { exits, .. } => self.events.add(format!("store done, {exits} exits")),
            _ => {}
        }
    }

    /// Why an address was refused, and what a device's would be as a guest-virtual one.
    fn note_address(&mut self, call: &Call, answer: &Answer) {
        let (name, address, width) = match *call {
            Call::Load { address, width } => ("Load", address, width),
            Call::Store { address, width, .. } => ("Store", address, width),
            // A mark's address is any byte's.
            Call::SetMark { address, .. } => ("SetMark", address, 1),
            Call::ClearMark { address, .. } => ("ClearMark", address, 1),
            Call::DeviceStore { address, width, .. } => {
                return self.note_device_address(address, width, answer)
            }
            Call::Root { .. } | Call::Map { .. } | Call::Unmap { .. } | Call::Forecast { .. } => return,
        };
        match answer {
            Answer::No(BAD_ADDRESS) => self.note_refused_address(name, address, width),
            Answer::No(BAD_WIDTH) => {
                self.events.add_refused_width(name, is_legal(address, self.levels()), address, width)
            }
            _ => {}
        }
    }

    fn half(&self, address: u64) -> &'static str {
        if in_upper_half(address, self.levels()) {
            "upper half"
        } else {
            "lower half"
        }
    }

    /// A load or store that was not refused, once its path is filled.
    fn note_half(&mut self, walk: &Walk, request: Request, depth: u32) {
        let Request { address, access, .. } = request;
        let half = self.half(address);
        match walk.end {
            Err(fault) => self.events.add(format!("fault {}, {half}", fault.letter())),
            Ok(_) => self.events.add(format!("granted {access:?} at depth {depth}, {half}")),
        }
        let other = in_other_half(address, self.levels());
        let unlike = self.book.depth(other) != self.book.depth(address);
        self.events.add_if(unlike, "depth unlike the other half's");
        let is_held = |path: Option<Vec<u64>>| path.is_some_and(|path| self.book.held.contains_key(&path));
        let both_held = is_held(self.book.path(address, depth)) && is_held(self.book.path(other, depth));
        self.events.add_if(both_held && depth < self.levels(), "like paths of both halves held");
    }

    /// An address of a load, store or mark that was refused with 4.
    fn note_refused_address(&mut self, name: &str, address: u64, width: u64) {
        let levels = self.levels();
        if is_legal(address, levels) {
            return self.events.add(format!("refusal 4 of {name}, no multiple of {width}"));
        }
        self.events.add(format!("refusal 4 of {name}, between the halves"));
        // One bit alone may keep it from being legal.
        for place in sign_bit(levels)..64 {
            let flipped = address ^ 1 << place;
            let name = format!("refusal 4, {} but for bit {place}", self.half(flipped));
            self.events.add_if(is_legal(flipped, levels), &name);
        }
    }

    /// A device address, which the rule of guest-virtual ones must not judge.
    fn note_device_address(&mut self, address: u64, width: u64, answer: &Answer) {
        let legal = is_legal(address, self.levels());
        let below_limit = address < device_limit(self.levels());
        match answer {
            Answer::No(BAD_WIDTH) => {
                self.events.add_refused_width("DeviceStore", below_limit, address, width)
            }
            Answer::No(_) if below_limit => {
                self.events.add(format!("refusal 4 of DeviceStore, no multiple of {width}"))
            }
            Answer::No(_) => {
                self.events.add("refusal 4 of DeviceStore, at or above the limit");
                self.events.add_if(legal, "refusal 4 of DeviceStore, legal for a load");
            }
            _ => self.events.add_if(!legal, "device store, not legal for a load"),
        }
    }

    /// Whether a request's path is held.
    fn way(&self, met: Met) -> &'static str {
        if met.depth > self.levels() {
            "no path"
        } else if met.not_held {
            "path not held"
        } else {
            "path held"
        }
    }

    fn note_request(&mut self, walk: &Walk, request: Request, met: Met) {
        let Met { depth, forbidden, .. } = met;
        let access = request.access;
        let narrow = request.width < WORD_BYTES;
        let (part, way) = (met.part(), self.way(met));
        match walk.end {
            Ok(_) => {
                self.events.add(format!("granted {access:?} at depth {depth}, {way}"));
                if narrow {
                    self.events.add(format!("granted narrow {access:?} at depth {depth}, {way}"));
                }
            }
            Err(fault) => {
                self.events.add(format!("fault {} at depth {depth}, {part} part, {way}", fault.letter()));
                self.events.add(format!("fault {} of level {}", fault.letter(), fault.level()));
                self.events.add_if(narrow, &format!("fault {} of a narrow {access:?}", fault.letter()));
            }
        }
        self.events.add_if(forbidden, "held path forbids the store");
    }

    /// A granted load or store by its bytes, and whether their word, as it was before,
    /// has others that a load must not yield and a store must not clear.
    fn note_bytes(&mut self, name: &str, bytes: Bytes, word: u64) {
        let Bytes { first, width } = bytes;
        self.events.add(format!("granted {name}, width {width} at byte {first}"));
        if bytes.put(word, 0) != 0 {
            self.events.add(format!("granted {name}, width {width}, other bytes not 0"));
        }
    }

    /// The bits of a stored value that no byte takes.
    fn note_value(&mut self, name: &str, bytes: Bytes, value: u64) {
        let taken = Bytes { first: 0, ..bytes };
        if taken.put(value, 0) != 0 {
            self.events.add(format!("granted {name}, width {}, value with more bits", bytes.width));
        }
    }

    /// What a store dropped, by its bytes.
    fn note_drops(&mut self, name: &str, bytes: Bytes, watched: bool, same: bool, dropped: usize) {
        let Bytes { first, width } = bytes;
        if dropped > 0 {
            self.events.add(format!("drop by {name}, width {width} at byte {first}"));
        }
        let narrow = width < WORD_BYTES as usize;
        self.events.add_if(narrow && dropped > 0 && same, "narrow drop though the bytes are the same");
        self.events.add_if(narrow && dropped == 0 && watched, "narrow store, watched frame, no path dropped");
    }

    fn note_changed_word(&mut self, word: Word, bytes: Bytes, before: u64) {
        if bytes.width < WORD_BYTES as usize {
            self.changed.entry(word).or_insert(before);
        } else {
            self.changed.remove(&word);
        }
    }

    /// Entries of a walk that are others since stores of some of their bytes.
    fn note_changed_entries(&mut self, walk: &Walk) {
        let levels = self.levels();
        for step in &walk.steps {
            let Step::GuestEntry { level, word, entry } = *step else { continue };
            let Some(before) = self.changed.remove(&word).map(Entry) else { continue };
            let malformed = |entry: Entry| entry.malformed(level, levels);
            let differ = [
                (before.present() != entry.present(), "present bit"),
                (before.writable() != entry.writable(), "writable bit"),
                (before.frame() != entry.frame(), "frame"),
                (malformed(before) != malformed(entry), "form"),
            ];
            for (_, what) in differ.iter().filter(|(differs, _)| *differs) {
                self.events.add(format!("walk by an entry whose {what} was changed by bytes"));
            }
        }
    }

    /// Whether the fill of a store changed that its frame is watched.
    fn note_own_fill(&mut self, watched_before: bool, watched: bool) {
        self.events.add_if(!watched_before && watched, "store's own fill makes its frame watched");
        self.events.add_if(watched_before && !watched, "store's own overflow leaves its frame not watched");
    }

    /// By whom the path of an address in a forecast's list is held, before the
    /// copy serves it. An overflow drops what was held before the forecast.
    fn note_listed(&mut self, copy: &Unit, address: u64) {
        let (Some(path), true) = (copy.path_of(address), copy.is_word_address(address)) else { return };
        let before = self.book.held.contains_key(&path);
        let held = copy.book.held.contains_key(&path);
        let still = before && copy.events.overflows() == 0;
        self.events.add_if(still, "forecast, path held before");
        self.events.add_if(held && !still, "forecast, path held by its list alone");
        self.events.add_if(before && !held, "forecast, path held before, dropped by its list");
    }

    /// A forecast that was not refused, by the copy's events and the numbers of
    /// tables in use.
    fn note_forecast(&mut self, served: &Events, in_use: &[u64]) {
        let (start, after) = (in_use[0], &in_use[1..]);
        let length = after.len();
        self.events.add_if([0, 1, 255, 256].contains(&length), &format!("forecast of {length} addresses"));
        self.events.add_if(served.overflows() > 1, "forecast, several overflows");
        self.events.add_many("forecast, overflow", served.overflows() as usize);
        if let (Some(most), Some(end)) = (after.iter().max(), after.last()) {
            self.events.add_if(start > *most, "forecast, most tables at the start");
            self.events.add_if(start < *most && end < most, "forecast, most tables in between");
            self.events.add_if(start < *most && end == most, "forecast, most tables at the end");
        }
        self.events.join_as("forecast: ", served);
    }

    fn note_own_drop(&mut self, address: u64, depth: u32, word: Word) {
        let path = self.book.path(address, depth);
        let own = path.and_then(|path| self.book.held.get(&path));
        let drops = own.is_some_and(|held| held.words.contains(&word));
        self.events.add_if(drops, "store drops its own path");
    }
}

/// The refusal of a load or store by its address and width, if it has one.
pub fn refuse_request(levels: u32, address: u64, width: u64) -> Option<u32> {
    refuse(is_legal(address, levels), address, width)
}

/// The same for a device store.
pub fn refuse_device_store(levels: u32, address: u64, width: u64) -> Option<u32> {
    refuse(address < device_limit(levels), address, width)
}

/// 15 looks at the width alone, then 4 at the address (document 02, 4).
fn refuse(in_range: bool, address: u64, width: u64) -> Option<u32> {
    if !WIDTHS.contains(&width) {
        Some(BAD_WIDTH)
    } else if !in_range || address % width != 0 {
        Some(BAD_ADDRESS)
    } else {
        None
    }
}

/// "A granted request reads (4 - d) + 5d words. A fault in the shadow part carries
/// the plain walk's count. A later fault carries (4 - d), or 0 at d = 5, and the
/// words read by the direct part, which at d = 5 starts with the root's host walk." Of a
/// large page "each level not walked takes 5 from the count", if it is read directly.
fn references(walk: &Walk, levels: u32, depth: u32, plain_count: bool) -> u64 {
    if plain_count {
        return words_read(&walk.steps);
    }
    let (_, direct) = parts(walk, levels, depth);
    levels.saturating_sub(depth) as u64 + words_read(direct)
}

/// The guest frame of a walk's last host walk.
fn last_frame(walk: &Walk) -> u64 {
    let mut frame = 0;
    for step in &walk.steps {
        if let Step::HostWalk { frame: walked, .. } = step {
            frame = *walked;
        }
    }
    frame
}
