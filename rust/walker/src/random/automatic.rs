//! Random runs in which tables are written often (document 02, 7 and 9): tables of level 1
//! that several entries above name and that are pages too, and the calls that store to them.

use super::*;
use std::ops::Range;

/// Stores of an entry of level 1.
#[derive(Clone, Debug)]
pub(super) struct Rewrite {
    /// Where the guest stores it, and the page of that address.
    address: u64,
    through: u64,
    /// Where a device does, and the entry at opening.
    place: (u64, u64),
    entry: u64,
    /// The pages that have the entry.
    pages: Vec<u64>,
}

/// A load by an entry of level 1 and a store of it: one charge to the prefix of the page.
#[derive(Clone, Debug)]
struct Charge {
    /// An address in the page.
    page: u64,
    /// Where the guest stores the entry.
    place: u64,
    entry: u64,
}

impl Charge {
    fn calls(&self) -> [Call; 2] {
        [Call::load_word(self.page), Call::store_word(self.place, self.entry)]
    }

    /// So many charges.
    fn times(&self, many: usize) -> Vec<Call> {
        vec![self.calls(); many].concat()
    }
}

/// The last of the marks that fill the places: with those before them they are more than can
/// be set.
pub(super) const LAST_FAR_MARKS: Range<u64> = MOST_MARKS as u64 - 8..MOST_MARKS as u64 + 6;

/// How many loads may lie between the second of three charges, each a load and a store,
/// and the third, if the first is to be in the window still.
const LOADS_IN_BETWEEN: u64 = 59;

impl Guest {
    /// Mostly layers of which a few tables of level 1 are used by many prefixes, else any
    /// tables. The pages are all those of a few prefixes.
    pub(super) fn with_tables_written_often(random: Random, sizes: Sizes, choices: Choices) -> Guest {
        let mut guest = Guest::unplanned(random, sizes, choices);
        guest.choose_names();
        for planned in &mut guest.plan {
            planned.2 = planned.2 || !guest.random.one_in(4);
        }
        guest.choose_indexes();
        let first = guest.random.pick(&guest.indexes);
        // A page, a table of level 1 and those above it.
        let room = sizes.guest_frames() > sizes.levels as u64;
        if !room || guest.random.one_in(6) {
            guest.choose_entries();
        } else {
            guest.choose_shared_tables(first);
        }
        guest.choose_prefixes(first);
        // Without a draw, so that the others are the same.
        if guest.random.clone().one_in(8) {
            guest.choose_large_pages(1);
        }
        guest.find_all();
        guest.find_rewrites();
        guest
    }

    /// One table of each upper level, whose entries all name the one below, but that the
    /// one of level 2 may name itself, by the index given. Then one to three tables of
    /// level 1, and pages.
    fn choose_shared_tables(&mut self, own: u64) {
        let upper = self.sizes.levels as u64 - 1;
        let most = (self.sizes.guest_frames() - upper - 1).min(3);
        let tables = upper + 1 + self.random.below(most);
        for number in 0..upper - 1 {
            self.choose_entries_by(number, |guest, _| guest.names[number as usize + 1]);
        }
        let own = if self.random.one_in(3) { None } else { Some(own) };
        self.choose_entries_by(upper - 1, |guest, index| {
            let table = upper + guest.random.below(tables - upper);
            guest.names[if Some(index) == own { upper - 1 } else { table } as usize]
        });
        for number in upper..tables {
            self.choose_entries_by(number, |guest, _| guest.name_of_page(upper, tables));
        }
        (tables..self.sizes.guest_frames()).for_each(|number| self.choose_data(number));
    }

    /// A present entry at each index, of level 1 at times another one.
    fn choose_entries_by(&mut self, number: u64, name: impl Fn(&mut Guest, u64) -> u64) {
        let frame = self.sizes.first_guest_frame() + number;
        let of_level_1 = number >= self.sizes.levels as u64 - 1;
        for index in self.indexes.clone() {
            let name = name(self, index);
            let any = of_level_1 && self.random.one_in(8);
            let entry = if any { self.entry(name) } else { self.plain_entry(name) };
            self.entries.insert((frame, index), entry);
        }
    }

    /// What an entry of level 1 names: a table of level 1 half of the time, else that of
    /// level 2, any name of a table or a page.
    fn name_of_page(&mut self, first: u64, end: u64) -> u64 {
        let table = first + self.random.below(end - first);
        let page = end + self.random.below(self.sizes.guest_frames() - end);
        match self.random.below(8) {
            0..=3 => self.names[table as usize],
            4 => self.names[first as usize - 1],
            5 => self.random.pick(&self.second_names),
            _ => self.names[page as usize],
        }
    }

    /// Some prefixes that differ mostly in their last index, with all their pages. The first
    /// one has the index given.
    fn choose_prefixes(&mut self, first: u64) {
        let levels = self.sizes.levels;
        let last = levels as usize - 2;
        let mut list = vec![first; last + 1];
        let mut prefixes = BTreeSet::from([list.clone()]);
        for _ in 0..1 + self.random.below(8) {
            let place =
                if self.random.one_in(4) { self.random.below(levels as u64 - 1) as usize } else { last };
            list[place] = self.random.pick(&self.indexes);
            prefixes.insert(list.clone());
        }
        for prefix in prefixes {
            let first = page_from(&prefix, levels);
            self.pages.extend(self.indexes.iter().map(|index| first + index));
        }
        self.last_page = self.pages[0];
    }

    /// Each entry of level 1 of the pages, by each page that it is a word of and that can
    /// be stored to.
    fn find_rewrites(&mut self) {
        let mut pages_by_entry: BTreeMap<(u64, u64), Vec<u64>> = BTreeMap::new();
        for page in &self.pages {
            if let Some(place) = self.planned_entry(*page) {
                pages_by_entry.entry(place).or_default().push(*page);
            }
        }
        for through in &self.store_pages {
            let Some(host) = self.planned_walk(*through).1 else { continue };
            let first = address_of(*through, self.sizes.levels);
            for (place, pages) in pages_by_entry.range((host, 0)..(host + 1, 0)) {
                let (address, entry) = (first + 8 * place.1, self.entries[place]);
                let (through, place, pages) = (*through, *place, pages.clone());
                self.rewrites.push(Rewrite { address, through, place, entry, pages });
            }
        }
        // In any order: the first ones are more often used.
        self.random.shuffle(&mut self.rewrites);
    }

    // The calls.

    /// Mostly an entry of level 1 is stored, after loads by it. The operator sets and clears
    /// marks of level 1 at the same tables, and others that fill the places. What spoils
    /// the tables or hides them under a deeper mark is soon undone.
    pub(super) fn next_automatic_call(&mut self) -> Call {
        if let Some(call) = self.soon.pop() {
            return call;
        }
        if self.random.one_in(3) {
            if let Some(call) = self.undo.pop() {
                return call;
            }
        }
        match self.random.below(128) {
            0 | 1 => self.forecast(),
            2 => self.call_of_wrong_width(),
            3 => self.odd_call(),
            4 => Call::Root { frame: self.names[0] },
            5..=16 => self.repair_entry(),
            17..=29 => self.mark_at_a_page(),
            30..=34 => self.first_of(Guest::set_and_clear),
            35..=41 => self.any_far_mark(),
            42..=45 => {
                let call = self.next_job_call();
                self.in_part(call)
            }
            46 | 47 => self.first_of(Guest::calls_at_the_windows_edge),
            48 => self.first_of(Guest::many_loads),
            49 | 50 => self.first_of(Guest::calls_of_a_tie),
            51 | 52 => Call::load_word(self.granted_address(false)),
            53..=56 => self.first_of(Guest::rewrite_by_a_device),
            _ => self.first_of(Guest::rewrite),
        }
    }

    /// The first of some calls; the others come next.
    fn first_of(&mut self, calls: fn(&mut Guest) -> Vec<Call>) -> Call {
        self.soon = if self.rewrites.is_empty() { Vec::new() } else { calls(self) };
        self.soon.reverse();
        match self.soon.pop() {
            Some(call) => call,
            None => self.repair(),
        }
    }

    /// Loads by an entry and a store to it, one to four times.
    fn rewrite(&mut self) -> Vec<Call> {
        let rewrite = self.pick_rewrite();
        let mut calls = Vec::new();
        for _ in 0..1 + self.random.below(4) {
            calls.extend(self.loads_by(&rewrite));
            calls.push(self.store_of(&rewrite));
        }
        calls
    }

    /// One of the first few more often, so that charges come together.
    fn pick_rewrite(&mut self) -> Rewrite {
        let many = self.rewrites.len();
        let many = if self.random.one_in(2) { many } else { many.min(12) };
        self.rewrites[self.random.below(many as u64) as usize].clone()
    }

    fn loads_by(&mut self, rewrite: &Rewrite) -> Vec<Call> {
        let many = self.random.pick(&[0, 1, 1, 1, 2, 3]);
        (0..many).map(|_| Call::load_word(self.address_by(rewrite))).collect()
    }

    /// A word of a page that has the entry. Half of the time the prefix is the store's, so
    /// that four tables suffice.
    fn address_by(&mut self, rewrite: &Rewrite) -> u64 {
        let mut page = self.random.pick(&rewrite.pages);
        if self.random.one_in(2) {
            let near = rewrite.pages.iter().find(|page| *page / FRAME_WORDS == rewrite.through / FRAME_WORDS);
            page = near.copied().unwrap_or(page);
        }
        address_of(page, self.sizes.levels) + 8 * self.word_place()
    }

    /// Mostly of the entry as it was at opening, so that the tables stay as they are.
    fn store_of(&mut self, rewrite: &Rewrite) -> Call {
        let value = self.rewritten(rewrite);
        let call = Call::store_word(rewrite.address, value);
        if self.random.one_in(3) {
            self.narrowed(call)
        } else {
            call
        }
    }

    /// Mostly the entry; another one stays for a few calls.
    fn rewritten(&mut self, rewrite: &Rewrite) -> u64 {
        if !self.random.one_in(8) {
            return rewrite.entry;
        }
        let repair = self.repair_of(rewrite.place);
        self.undo.push(repair);
        let value = self.value();
        self.random.pick(&[rewrite.entry ^ 1, rewrite.entry ^ 2, value])
    }

    /// A device stores an entry that the pages have as it was at opening.
    fn repair_entry(&mut self) -> Call {
        if self.device_entries.is_empty() {
            return self.repair();
        }
        let (address, entry) = self.random.pick(&self.device_entries);
        Call::device_store_word(address, entry)
    }

    /// A device stores the entry, by any name of its table.
    fn rewrite_by_a_device(&mut self) -> Vec<Call> {
        let rewrite = self.pick_rewrite();
        let address = self.device_address_at(rewrite.place);
        let value = self.rewritten(&rewrite);
        let mut calls = self.loads_by(&rewrite);
        calls.push(Call::device_store_word(address, value));
        calls
    }

    /// So many loads that charges leave the window.
    fn many_loads(&mut self) -> Vec<Call> {
        let many = 10 + self.random.below(50);
        self.loads_and_others(many)
    }

    /// Loads that are not refused, some of which fault, and a few calls of other sorts, which
    /// the window does not hold.
    fn loads_and_others(&mut self, loads: u64) -> Vec<Call> {
        let mut calls = Vec::new();
        for _ in 0..loads {
            if self.random.one_in(16) {
                calls.push(self.repair());
            }
            if self.random.one_in(16) {
                calls.push(Call::load_word(self.illegal_address()));
            }
            let address =
                if self.random.one_in(6) { self.edge_address() } else { self.granted_address(false) };
            calls.push(Call::load_word(address));
        }
        calls
    }

    /// Three charges to one prefix, where the first is just in the window still as the third
    /// comes, or just not. Before them the window is emptied and the prefix has no mark.
    fn calls_at_the_windows_edge(&mut self) -> Vec<Call> {
        let rewrite = self.pick_rewrite();
        let page = self.address_by(&rewrite);
        let charge = Charge { page, place: rewrite.address, entry: rewrite.entry };
        let mut calls = vec![Call::Root { frame: self.names[0] }];
        calls.extend(no_mark_at(page));
        calls.extend(charge.times(2));
        let more = self.random.pick(&[0, 1, 1, 2]);
        calls.extend(self.loads_and_others(LOADS_IN_BETWEEN - 1 + more));
        calls.extend(charge.calls());
        calls
    }

    /// All marks are set, of which a few are automatic and tie (document 02, 9). These are set
    /// in an order that has nothing to do with their addresses, and some are withdrawn and
    /// set again. Then charges and the operator need places, until none is automatic.
    fn calls_of_a_tie(&mut self) -> Vec<Call> {
        let mut marked = self.charge_of_each_prefix();
        if marked.len() < 3 {
            return Vec::new();
        }
        self.random.shuffle(&mut marked);
        let many = marked.len().min(3 + self.random.below(4) as usize);
        let waiting = marked.split_off(many);
        let first = self.random.below(LAST_FAR_MARKS.start - many as u64);
        let places: Vec<Call> = (first..first + many as u64).map(|number| self.far_mark(number)).collect();
        // All is as planned, and all marks are the operator's but for the places.
        let mut calls: Vec<Call> = self.undo.drain(..).rev().collect();
        calls.extend(LAST_FAR_MARKS.map(|number| self.far_mark(number)));
        calls.extend(marked.iter().map(|charge| Call::ClearMark { address: charge.page, level: 1 }));
        calls.extend(places.iter().map(clearing));
        calls.push(Call::Root { frame: self.names[0] });
        // One after the other, or by turns.
        let (rounds, times) = self.random.pick(&[(1, 3), (1, 3), (3, 1)]);
        for _ in 0..rounds {
            calls.extend(marked.iter().flat_map(|charge| charge.times(times)));
        }
        for _ in 0..self.random.pick(&[0, 0, 1, 2, many, many]) {
            calls.extend(self.set_again(&mut marked, &places));
        }
        // Of the charges none is left, or some, or all.
        let loads = 20 + self.random.below(50);
        match self.random.below(6) {
            0..=2 => calls.push(Call::Root { frame: self.names[0] }),
            3 => calls.extend(self.loads_and_others(loads)),
            _ => {}
        }
        calls.extend(self.calls_that_need_places(marked, waiting, places));
        // Some places are free again.
        calls.extend((0..many).map(|_| clearing(&self.last_far_mark())));
        calls
    }

    /// The operator sets as many marks as there are automatic ones. In between, prefixes that
    /// have none get theirs: the waiting ones, then those that lost it.
    fn calls_that_need_places(
        &mut self,
        mut marked: Vec<Charge>,
        mut waiting: Vec<Charge>,
        places: Vec<Call>,
    ) -> Vec<Call> {
        let mut calls = Vec::new();
        for place in places {
            if !waiting.is_empty() && self.random.one_in(2) {
                let charge = waiting.remove(0);
                calls.extend(charge.times(3));
                marked.push(charge);
                waiting.push(marked.remove(0));
            }
            calls.push(place);
            waiting.push(marked.remove(0));
        }
        calls
    }

    /// A charge to each prefix that can have one. The store goes by a page of the same prefix
    /// if one will do, so that four tables suffice.
    fn charge_of_each_prefix(&self) -> Vec<Charge> {
        let prefixes: BTreeSet<u64> = self.load_pages.iter().map(|page| page / FRAME_WORDS).collect();
        let charge_to = |prefix: u64| {
            let of_prefix = |page: u64| page / FRAME_WORDS == prefix;
            let usable = self.rewrites.iter().filter_map(|rewrite| {
                let mut pages = rewrite.pages.iter().filter(|page| of_prefix(**page));
                Some((rewrite, *pages.find(|page| self.load_pages.contains(page))?))
            });
            let (rewrite, page) = usable.min_by_key(|(rewrite, _)| !of_prefix(rewrite.through))?;
            let page = address_of(page, self.sizes.levels);
            Some(Charge { page, place: rewrite.address, entry: rewrite.entry })
        };
        prefixes.into_iter().filter_map(charge_to).collect()
    }

    /// One of the automatic marks, often the oldest, is withdrawn, by the operator or for room,
    /// and by one charge more it is the newest.
    fn set_again(&mut self, marked: &mut Vec<Charge>, places: &[Call]) -> Vec<Call> {
        let oldest = self.random.one_in(2);
        let place = if oldest { 0 } else { self.random.below(marked.len() as u64) as usize };
        let charge = marked.remove(place);
        let withdrawn = if place == 0 && self.random.one_in(2) {
            [places[0].clone(), clearing(&places[0])]
        } else {
            no_mark_at(charge.page)
        };
        let calls = withdrawn.into_iter().chain(charge.calls()).collect();
        marked.push(charge);
        calls
    }

    /// The operator sets or clears a mark at one of the pages, mostly of level 1. One that
    /// is set is mostly cleared soon.
    fn mark_at_a_page(&mut self) -> Call {
        let address = self.page_address() + self.random.below(4096);
        let level = self.random.pick(&[1, 1, 1, 1, 1, 1, 2, 3]);
        if !self.random.one_in(3) {
            return Call::ClearMark { address, level };
        }
        if level > 1 || !self.random.one_in(4) {
            self.undo.push(Call::ClearMark { address, level });
        }
        Call::SetMark { address, level }
    }

    /// So that a table can be charged again.
    fn set_and_clear(&mut self) -> Vec<Call> {
        no_mark_at(self.page_address()).to_vec()
    }

    /// One of the last of those that fill the places: mostly it is set.
    fn any_far_mark(&mut self) -> Call {
        let set = self.last_far_mark();
        if self.random.one_in(4) {
            clearing(&set)
        } else {
            set
        }
    }

    fn last_far_mark(&mut self) -> Call {
        let Range { start, end } = LAST_FAR_MARKS;
        let number = start + self.random.below(end - start);
        self.far_mark(number)
    }
}

/// The operator sets the mark of level 1 and clears it: none is left there, whosever it was.
fn no_mark_at(address: u64) -> [Call; 2] {
    [Call::SetMark { address, level: 1 }, Call::ClearMark { address, level: 1 }]
}

/// The call that clears the mark which this one sets.
fn clearing(call: &Call) -> Call {
    match call.clone() {
        Call::SetMark { address, level } => Call::ClearMark { address, level },
        other => other,
    }
}
