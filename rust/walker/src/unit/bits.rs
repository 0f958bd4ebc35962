//! What loads and stores meet with accessed and dirty bits on (document 02, 6), as
//! events. They read the state and change only the counters.

use super::large::size;
use super::{Met, Request, Unit};
use crate::machine::{lacking, needed_bits, Access, Mapping, Step, Walk, Word};
use crate::numbers::{different_proper_prefixes, word_in_frame, Bytes, Entry, ACCESSED, DIRTY, WORD_BYTES};

/// An entry of a walk, with the mapping by which its table was reached.
#[derive(Clone, Copy)]
struct Read {
    table: Mapping,
    level: u32,
    word: Word,
    entry: Entry,
}

fn entries_read(walk: &Walk) -> Vec<Read> {
    let mut list = Vec::new();
    for pair in walk.steps.windows(2) {
        if let [Step::HostWalk { found: Some(table), .. }, Step::GuestEntry { level, word, entry }] = *pair {
            list.push(Read { table, level, word, entry });
        }
    }
    list
}

impl Unit {
    /// A load or store with bits on, before it fills or sets anything.
    pub(super) fn note_bits(&mut self, walk: &Walk, request: Request, met: Met) {
        let read = entries_read(walk);
        match walk.end {
            Ok(page) => {
                self.note_bits_set(&read, request, met);
                self.note_own_entry(&read, request, page);
                self.note_dirty(&read, request, met, page);
            }
            Err(fault) => match walk.lacking {
                Some(level) => self.note_bit_not_set(walk, &read, request, met, level),
                None => {
                    let bit_too = !lacking(&walk.steps, request.access).is_empty();
                    let name = format!("fault {} before W for a bit", fault.letter());
                    self.events.add_if(bit_too, &name);
                    let name = format!("fault {} by a path that forbids stores", fault.letter());
                    self.events.add_if(met.forbidden, &name);
                }
            },
        }
        self.note_left_unfilled(walk, request, met);
    }

    /// The bits that a granted request sets.
    fn note_bits_set(&mut self, read: &[Read], request: Request, met: Met) {
        let Request { access, .. } = request;
        let (depth, way) = (met.depth, self.way(met));
        let mut sets = false;
        for Read { table, level, word, entry } in read {
            let lacks = entry.lacks(needed_bits(*entry, *level, access));
            sets = sets || lacks != 0;
            if lacks & ACCESSED != 0 {
                self.events.add(format!("bit 5 set at level {level}, depth {depth}, {way}"));
            }
            if lacks & DIRTY != 0 {
                self.events.add(format!("bit 6 set at depth {depth}, {way}"));
                self.events.add(format!("bit 6 set at level {level}, depth {depth}, {way}"));
            }
            if !table.writable {
                self.events.add(format!("granted, table of level {level} read-only, its bits set before"));
            }
            let other_name = self.has_other_name(*table);
            self.events.add_if(lacks != 0 && other_name, "bit set, table read-only by another name");
            self.events.add_if(lacks != 0 && self.book.watched(word.frame), "bit set in a watched frame");
            let held_read = self.book.held.values().any(|held| held.words.contains(word));
            self.events.add_if(lacks != 0 && held_read, "bit set in a word that a held path read");
        }
        if !sets {
            self.events.add(format!("no bit set, granted {access:?} at depth {depth}, {way}"));
        }
        let twice = (1..read.len()).any(|place| read[..place].iter().any(|r| r.word == read[place].word));
        self.events.add_if(sets && twice, "bits set in a walk that reads a word twice");
    }

    /// Whether the table's host frame is mapped with the other right too.
    fn has_other_name(&self, table: Mapping) -> bool {
        let mut names = self.machine.mapping.values();
        names.any(|other| other.host == table.host && other.writable != table.writable)
    }

    /// A granted request whose word is an entry of its own walk, in which it sets a bit.
    fn note_own_entry(&mut self, read: &[Read], request: Request, page: Mapping) {
        let Request { address, width, access } = request;
        let word = Word { frame: page.host, index: word_in_frame(address) };
        let own = read.iter().filter(|read| read.word == word);
        let set =
            own.fold(0, |set, read| set | read.entry.lacks(needed_bits(read.entry, read.level, access)));
        if set == 0 {
            return;
        }
        // The bits are all in byte 0.
        let over = Bytes::at(address, width).of(set) != 0;
        let narrow = width < WORD_BYTES;
        let name = match (access, over, narrow) {
            (Access::Load, true, false) => "Load of an entry of its own, with a bit just set",
            (Access::Load, true, true) => "narrow Load of an entry of its own, with a bit just set",
            (Access::Load, false, _) => "Load beside a bit just set",
            (Access::Store, true, false) => "Store over a bit just set",
            (Access::Store, true, true) => "narrow Store over a bit just set",
            (Access::Store, false, _) => "Store beside a bit just set",
        };
        self.events.add(name);
    }

    /// Bit 6 and the paths of depth 0 that a granted request fills, refills or leaves.
    fn note_dirty(&mut self, read: &[Read], request: Request, met: Met, page: Mapping) {
        let all_writable = page.writable && read.iter().all(|read| read.entry.writable());
        let (Some(last), 0, true) = (read.last(), met.depth, all_writable) else { return };
        let dirty = last.entry.lacks(DIRTY) == 0;
        let path = self.book.path(request.address, 0);
        let held = path.and_then(|path| self.book.held.get(&path));
        let name = match (request.access, held.map(|held| held.writable)) {
            (Access::Load, None) if dirty => "fill by a load, bit 6 set",
            (Access::Load, None) => "fill by a load, bit 6 clear",
            (Access::Load, Some(false)) if dirty => {
                "load by a path that forbids stores, bit 6 set by another"
            }
            (Access::Store, None) => "fill by a store",
            (Access::Store, Some(false)) => {
                let full = self.book.tables_in_use() == self.machine.shadow_frames;
                self.events.add_if(full, "refill, every shadow table in use");
                self.events.add_if(self.book.held.len() > 1, "refill, other paths held");
                self.events.add_if(self.book.watched(page.host), "refill by a store into a watched frame");
                if dirty {
                    "refill, bit 6 set by another"
                } else {
                    "refill, bit 6 clear"
                }
            }
            _ => return,
        };
        self.events.add(name);
        if last.level > 1 {
            self.events.add(format!("{name}, {} page", size(last.level)));
        }
    }

    /// W for a bit of the entry of this level.
    fn note_bit_not_set(&mut self, walk: &Walk, read: &[Read], request: Request, met: Met, level: u32) {
        let (depth, part, way) = (met.depth, met.part(), self.way(met));
        self.events.add(format!("W for a bit of level {level} at depth {depth}, {part} part, {way}"));
        let Some(own) = read.iter().find(|read| read.level == level) else { return };
        if own.entry.lacks(needed_bits(own.entry, level, request.access)) == DIRTY {
            self.events.add(format!("W for bit 6 alone at depth {depth}, {way}"));
            self.events.add(format!("W for bit 6 alone of level {level}"));
        }
        if let Some(large) = walk.large_level() {
            self.events.add(format!("W for a bit of level {level}, {} page", size(large)));
        }
        let many = lacking(&walk.steps, request.access).len();
        self.events.add_if(many > 1, "W for a bit, a lower table lacks one too");
        let others = read.iter().filter(|other| other.word == own.word);
        let by_other = others.filter(|other| other.table.writable).map(|other| other.level);
        let by_other: Vec<u32> = by_other.collect();
        // The one above would have set the bit, were it set on the way.
        self.events
            .add_if(by_other.iter().any(|other| *other > level), "W for a bit, word reached above too");
        self.events
            .add_if(by_other.iter().any(|other| *other < level), "W for a bit, word reached below too");
        self.events.add_if(self.has_other_name(own.table), "W for a bit, table writable by another name");
        self.events.add_if(met.forbidden, "W for a bit by a path that forbids stores");
    }

    /// A fault behind the shadow part of a path that is not held, and the next request.
    fn note_left_unfilled(&mut self, walk: &Walk, request: Request, met: Met) {
        let path = self.book.path(request.address, met.depth).filter(|_| met.not_held);
        let again = path.is_some() && path == self.left_unfilled;
        self.events.add_if(again, "path still not held after a fault behind its shadow part");
        self.left_unfilled = path.filter(|_| walk.end.is_err() && !met.shadow_fault);
        if let Some(path) = &self.left_unfilled {
            let tables = different_proper_prefixes(self.book.held.keys().chain([path]));
            let overflows = tables > self.machine.shadow_frames;
            self.events.add_if(overflows, "fault behind the shadow part, a fill would overflow");
        }
    }

    /// A store or device store into an entry that held paths read.
    pub(super) fn note_cleared_bits(&mut self, before: u64, after: u64, dropped: usize) {
        let cleared = before & !after;
        let drops = self.machine.bits && dropped > 0;
        self.events.add_if(drops && cleared & ACCESSED != 0, "drop by a store that clears bit 5");
        self.events.add_if(drops && cleared & DIRTY != 0, "drop by a store that clears bit 6");
    }
}
