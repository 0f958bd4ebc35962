//! Random runs from a seed: a guest whose tables stand in memory at opening, the
//! maps that make them reachable, and calls around a few pages. Frames are
//! aliased, tables are mapped as pages or map themselves, table frames are
//! remapped, tables and pages are read-only at times, marks come and go. Pages and
//! marks are of both halves, and some differ in their half alone. One call in ten is
//! a forecast, more than half of the loads and stores are narrow, and a few have a
//! wrong width, but not in jobs. Runs of another sort mostly set and clear marks, and
//! quiet ones mostly load and store where it is granted. Those with accessed and dirty
//! bits have more read-only tables, and entries that have some bits and lack others.
//! Half of all runs but jobs have the automatic choice, and in runs of one more sort tables
//! are written again and again. Some guests have large pages, and in runs of the last sort
//! most calls go to them.

mod automatic;
mod bits;
mod large;

use automatic::{Rewrite, LAST_FAR_MARKS};
use large::LargePage;

use crate::answer::{Call, Choices};
use crate::book::MOST_MARKS;
use crate::job::{raw_record, write_record, Record, JOB_FRAMES, JOB_LEVELS};
use crate::numbers::*;
use crate::unit::Unit;
use std::collections::{BTreeMap, BTreeSet};

/// A small generator (xorshift with a multiplication), the same on every machine.
#[derive(Clone, Debug)]
pub struct Random(u64);

impl Random {
    pub fn new(seed: u64) -> Random {
        let mixed = (seed ^ 0x9E37_79B9_7F4A_7C15).wrapping_mul(0xBF58_476D_1CE4_E5B9);
        Random((mixed ^ (mixed >> 31)).max(1))
    }

    pub fn word(&mut self) -> u64 {
        self.0 ^= self.0 >> 12;
        self.0 ^= self.0 << 25;
        self.0 ^= self.0 >> 27;
        self.0.wrapping_mul(0x2545_F491_4F6C_DD1D)
    }

    pub fn below(&mut self, limit: u64) -> u64 {
        (self.word() >> 24) % limit
    }

    /// True one time in so many.
    pub fn one_in(&mut self, many: u64) -> bool {
        self.below(many) == 0
    }

    pub fn pick<T: Copy>(&mut self, from: &[T]) -> T {
        from[self.below(from.len() as u64) as usize]
    }

    /// Brings the list in any order.
    pub fn shuffle<T>(&mut self, list: &mut [T]) {
        for place in 1..list.len() {
            let other = self.below(place as u64 + 1) as usize;
            list.swap(place, other);
        }
    }
}

#[derive(Clone, Copy, Debug, PartialEq, Eq)]
pub struct Sizes {
    pub levels: u32,
    pub frames: u64,
    pub h: u64,
    pub s: u64,
}

impl Sizes {
    /// 16 to 24 frames, H and S little above the least, at least six guest frames.
    pub fn small(random: &mut Random, levels: u32) -> Sizes {
        let least = levels as u64;
        let frames = 16 + random.below(9);
        let spare = frames - 2 * least - 6;
        let h = least + random.below(spare.min(4) + 1);
        let s = least + random.below((spare + least - h).min(4) + 1);
        Sizes { levels, frames, h, s }
    }

    /// Hundreds of frames, room for many shadow tables.
    pub fn large(random: &mut Random, levels: u32) -> Sizes {
        let least = levels as u64;
        Sizes {
            levels,
            frames: 200 + random.below(200),
            h: least + random.below(12),
            s: least + random.below(40),
        }
    }

    fn first_guest_frame(&self) -> u64 {
        self.h + self.s
    }

    fn guest_frames(&self) -> u64 {
        self.frames - self.first_guest_frame()
    }
}

/// A run: the memory at opening, what the opening chooses, and the later calls.
#[derive(Clone, Debug)]
pub struct Run {
    pub sizes: Sizes,
    pub choices: Choices,
    pub words: Vec<u64>,
    pub calls: Vec<Call>,
}

impl Run {
    /// The unit that the run's opening gives, or the number that it is refused with.
    pub fn open(&self) -> Result<Unit, u32> {
        let Sizes { levels, h, s, .. } = self.sizes;
        Unit::open_with(levels, self.words.clone(), h, s, self.choices)
    }
}

/// A run of so many calls. The first ones map the guest's frames and load the root.
/// The sizes must be those of a granted opening, with four or five levels.
pub fn run(seed: u64, sizes: Sizes, calls: usize) -> Run {
    run_by(Guest::next_call, Guest::new(Random::new(seed), sizes, by_seed(seed, false)), calls)
}

/// A run with accessed and dirty bits.
pub fn bits_run(seed: u64, sizes: Sizes, calls: usize) -> Run {
    run_by(Guest::next_bits_call, Guest::new(Random::new(seed), sizes, by_seed(seed, true)), calls)
}

/// A run in which most calls set or clear a mark.
pub fn mark_run(seed: u64, sizes: Sizes, calls: usize) -> Run {
    run_by(Guest::next_mark_call, Guest::new(Random::new(seed), sizes, by_seed(seed, false)), calls)
}

/// A run in which most calls are loads and stores of pages that grant them.
pub fn quiet_run(seed: u64, sizes: Sizes, calls: usize) -> Run {
    run_by(Guest::next_quiet_call, Guest::new(Random::new(seed), sizes, by_seed(seed, false)), calls)
}

/// A run with the automatic choice, in which tables are written often. One in four has
/// accessed and dirty bits too.
pub fn automatic_run(seed: u64, sizes: Sizes, calls: usize) -> Run {
    let choices = Choices { bits: Random::new(!seed).one_in(4), automatic: true };
    let guest = Guest::with_tables_written_often(Random::new(seed), sizes, choices);
    run_by(Guest::next_automatic_call, guest, calls)
}

/// A run in which most calls go to large pages. One in three has accessed and dirty bits, one
/// in two the automatic choice.
pub fn large_run(seed: u64, sizes: Sizes, calls: usize) -> Run {
    let choices = by_seed(seed, Random::new(!seed).below(6) % 3 == 0);
    let mut guest = Guest::planned(Random::new(seed), sizes, choices);
    for planned in &mut guest.plan {
        planned.2 = planned.2 || !guest.random.one_in(4);
    }
    let many = 2 + guest.random.below(4);
    guest.choose_large_pages(many);
    guest.find_all();
    run_by(Guest::next_large_call, guest, calls)
}

/// A run of the calls that a job's records can make.
pub fn job_run(seed: u64, sizes: Sizes, calls: usize) -> Run {
    run_by(Guest::next_job_call, Guest::new(Random::new(seed), sizes, Choices::default()), calls)
}

/// How a run is made from a seed.
pub type Sort = fn(u64, Sizes, usize) -> Run;

/// The sort that the programs call by this name; by any other, the plain one.
pub fn named_sort(name: &str) -> Sort {
    match name {
        "bits" => bits_run,
        "automatic" => automatic_run,
        "large" => large_run,
        _ => run,
    }
}

/// The automatic choice in half of the runs, which are the same but for it.
fn by_seed(seed: u64, bits: bool) -> Choices {
    Choices { bits, automatic: Random::new(!seed).one_in(2) }
}

fn run_by(next: fn(&mut Guest) -> Call, mut guest: Guest, calls: usize) -> Run {
    let mut list = guest.setup(calls);
    while list.len() < calls {
        list.push(next(&mut guest));
    }
    list.truncate(calls);
    Run { sizes: guest.sizes, choices: guest.choices, words: guest.memory(), calls: list }
}

/// The top bit of an index: the top level's tells the half.
const TOP_BIT: u64 = 256;

/// A word of the guest area at opening, by host frame and place.
type Places = BTreeMap<(u64, u64), u64>;

/// What the generator knows of the guest: its plan, and calls that undo changes.
struct Guest {
    random: Random,
    sizes: Sizes,
    choices: Choices,
    /// The mapping as planned: guest frame, host frame, write right.
    plan: Vec<(u64, u64, bool)>,
    /// The first of the 512 guest frames that most names are among.
    base: u64,
    /// The guest frame that each frame of the guest area first has.
    names: Vec<u64>,
    /// Further guest frames, mapped to host frames that have a name already.
    second_names: Vec<u64>,
    /// The indexes at which tables have entries.
    indexes: Vec<u64>,
    entries: Places,
    /// The pages that calls go to.
    pages: Vec<u64>,
    /// The entries that the walks of these pages read at opening, each with its address:
    /// the guest's, and a device's.
    guest_entries: Vec<(u64, u64)>,
    device_entries: Vec<(u64, u64)>,
    /// The addresses of words that their own walks read at opening as entries.
    own_entries: Vec<u64>,
    /// Pages of which the plan grants loads, and those of which it grants stores too.
    load_pages: Vec<u64>,
    store_pages: Vec<u64>,
    last_page: u64,
    /// Two pages whose walks find the same entry of level 1, and the greatest level of a
    /// mark at the second that does not hold for the first.
    twins: Vec<(u64, u64, u64)>,
    /// Entries of level 1 that the guest can store to, if the run is one for that.
    rewrites: Vec<Rewrite>,
    /// The large pages, and where the guest can store to their entries: the entry's place
    /// and the address.
    large: Vec<LargePage>,
    large_stores: Vec<((u64, u64), u64)>,
    marks: Vec<(u64, u64)>,
    undo: Vec<Call>,
    /// Calls that come next, the last one first.
    soon: Vec<Call>,
}

impl Guest {
    /// One in four has large pages.
    fn new(random: Random, sizes: Sizes, choices: Choices) -> Guest {
        let mut guest = Guest::planned(random, sizes, choices);
        if guest.random.one_in(4) {
            let many = 1 + guest.random.below(2);
            guest.choose_large_pages(many);
        }
        guest.find_all();
        guest
    }

    fn planned(random: Random, sizes: Sizes, choices: Choices) -> Guest {
        let mut guest = Guest::unplanned(random, sizes, choices);
        guest.choose_names();
        guest.choose_indexes();
        guest.choose_entries();
        guest.choose_pages();
        guest
    }

    fn unplanned(random: Random, sizes: Sizes, choices: Choices) -> Guest {
        Guest {
            random,
            sizes,
            choices,
            plan: Vec::new(),
            base: 0,
            names: Vec::new(),
            second_names: Vec::new(),
            indexes: Vec::new(),
            entries: Places::new(),
            pages: Vec::new(),
            guest_entries: Vec::new(),
            device_entries: Vec::new(),
            own_entries: Vec::new(),
            load_pages: Vec::new(),
            store_pages: Vec::new(),
            last_page: 0,
            twins: Vec::new(),
            rewrites: Vec::new(),
            large: Vec::new(),
            large_stores: Vec::new(),
            marks: Vec::new(),
            undo: Vec::new(),
            soon: Vec::new(),
        }
    }

    /// What the calls need to know of the plan.
    fn find_all(&mut self) {
        if self.choices.bits {
            self.choose_self_map();
        }
        self.find_entries();
        self.find_granted_pages();
        self.find_large_stores();
        if self.choices.bits {
            self.find_twins();
        }
    }

    /// The memory at opening: zeros but for the guest's tables.
    fn memory(&self) -> Vec<u64> {
        let mut words = vec![0; (self.sizes.frames * FRAME_WORDS) as usize];
        for ((frame, index), value) in &self.entries {
            words[(frame * FRAME_WORDS + index) as usize] = *value;
        }
        words
    }

    // The plan.

    /// Guest frames of one group of 512, a few far away, and some second names
    /// for the same host frames: as many as H host tables allow.
    fn choose_names(&mut self) {
        let limit = frame_limit(self.sizes.levels);
        self.base = self.random.pick(&[0, 0, 0, 512, 1 << 18, limit - 512]);
        for number in 0..self.sizes.guest_frames() {
            let name = self.new_name(5, number);
            self.names.push(name);
            self.add_to_plan(name, self.sizes.first_guest_frame() + number);
        }
        for _ in 0..1 + self.random.below(3) {
            let place = 100 + self.random.below(50);
            let name = self.new_name(2, place);
            // Among the first frames are the tables.
            let host = self.sizes.first_guest_frame() + self.random.below(self.sizes.guest_frames().min(6));
            self.second_names.push(name);
            self.add_to_plan(name, host);
        }
    }

    /// One time in so many a far guest frame, if it fits and is new.
    fn new_name(&mut self, many: u64, place: u64) -> u64 {
        let far = self.far_frame();
        let is_new = self.plan.iter().all(|(other, _, _)| *other != far);
        if self.random.one_in(many) && is_new && self.fits(far) {
            far
        } else {
            self.base + place
        }
    }

    fn add_to_plan(&mut self, name: u64, host: u64) {
        if self.plan.iter().all(|(other, _, _)| *other != name) {
            let writable = !self.random.one_in(if self.choices.bits { 4 } else { 5 });
            self.plan.push((name, host, writable));
        }
    }

    /// Whether the frame can be mapped beside the planned ones and the first group.
    fn fits(&self, name: u64) -> bool {
        let planned = self.plan.iter().map(|(guest, _, _)| *guest).chain([self.base, name]);
        let lists: Vec<Vec<u64>> = planned.map(|frame| indexes(frame, self.sizes.levels)).collect();
        different_proper_prefixes(lists.iter()) <= self.sizes.h
    }

    fn far_frame(&mut self) -> u64 {
        let limit = frame_limit(self.sizes.levels);
        let group = self.random.below(4);
        let place = self.random.below(8);
        match self.random.below(4) {
            0 => group * 512 + place,
            1 => (group << 18) + place,
            2 => (group << 27) + place,
            _ => limit - 1 - place,
        }
    }

    /// Some host frame of the guest area.
    fn host_frame(&mut self) -> u64 {
        self.sizes.first_guest_frame() + self.random.below(self.sizes.guest_frames())
    }

    /// Each with the one that differs in the top bit: at the top level the two are
    /// of like addresses in the two halves.
    fn choose_indexes(&mut self) {
        let mut lower = vec![0, 1];
        if self.random.one_in(2) {
            lower.push(self.random.pick(&[2, 3, 255]));
        }
        let upper = lower.iter().map(|index| index ^ TOP_BIT);
        self.indexes = lower.iter().copied().chain(upper).collect();
    }

    /// Either proper layers of tables, or a graph in which every frame is a table
    /// of every level and a page too.
    fn choose_entries(&mut self) {
        let levels = self.sizes.levels as u64;
        if self.sizes.guest_frames() >= levels + 2 && !self.random.one_in(3) {
            self.choose_layers();
        } else {
            self.choose_graph();
        }
    }

    fn choose_graph(&mut self) {
        let any = self.planned_frames();
        for number in 0..self.sizes.guest_frames() {
            self.choose_table(number, &any, 1);
        }
    }

    /// The first frame is the root, the next ones a table of each level, some more
    /// tables, then pages. A level 1 entry may name a table, and the root itself. In
    /// a large memory too the tables are few and often named, so that stores meet them.
    fn choose_layers(&mut self) {
        let levels = self.sizes.levels as u64;
        let tables = levels + self.random.below((self.sizes.guest_frames() - levels - 1).min(24));
        let mut layers: Vec<Vec<u64>> = vec![Vec::new(); levels as usize + 1];
        for number in 0..tables {
            let level = if number < levels { levels - number } else { 1 + self.random.below(levels - 1) };
            layers[level as usize].push(number);
        }
        for number in tables..self.sizes.guest_frames() {
            layers[0].push(number);
            self.choose_data(number);
        }
        for level in 1..=levels as usize {
            let mut below: Vec<u64> =
                layers[level - 1].iter().map(|number| self.names[*number as usize]).collect();
            if level == 1 {
                for _ in 0..=below.len() / 16 {
                    below.extend(self.second_names.clone());
                    below.push(self.names[self.random.below(tables) as usize]);
                }
            }
            for number in layers[level].clone() {
                self.choose_table(number, &below, level as u64);
            }
        }
        if self.random.one_in(3) {
            let index = self.random.pick(&self.indexes);
            let entry = self.plain_entry(self.names[0]);
            self.entries.insert((self.sizes.first_guest_frame(), index), entry);
        }
    }

    /// Entries of one table, at the chosen indexes. Bad ones are rarer in upper
    /// levels, where each spoils many walks.
    fn choose_table(&mut self, number: u64, names: &[u64], level: u64) {
        let frame = self.sizes.first_guest_frame() + number;
        for index in self.indexes.clone() {
            let name = self.random.pick(names);
            let entry = if self.random.one_in(level) { self.entry(name) } else { self.plain_entry(name) };
            self.entries.insert((frame, index), entry);
        }
    }

    /// Words of a page that are all different.
    fn choose_data(&mut self, number: u64) {
        let frame = self.sizes.first_guest_frame() + number;
        for index in self.indexes.clone() {
            self.entries.insert((frame, index), frame << 32 | index << 16 | 0xDA7A);
        }
    }

    fn planned_frames(&self) -> Vec<u64> {
        self.plan.iter().map(|(guest, _, _)| *guest).collect()
    }

    /// A present and writable entry that names the frame. With bits on it may have some.
    fn plain_entry(&mut self, name: u64) -> u64 {
        let entry = name << 12 | 3;
        if self.choices.bits {
            self.with_other_bits(entry)
        } else {
            entry
        }
    }

    /// The entry with other accessed and dirty bits, often none.
    fn with_other_bits(&mut self, entry: u64) -> u64 {
        let both = ACCESSED | DIRTY;
        entry & !both | self.random.pick(&[0, 0, 0, ACCESSED, ACCESSED, DIRTY, both, both])
    }

    /// An entry that names the frame: mostly present and writable, seldom
    /// malformed, often with bits set that a walk ignores.
    fn entry(&mut self, name: u64) -> u64 {
        let mut entry = self.plain_entry(name);
        if self.random.one_in(20) {
            entry &= !1;
        }
        if self.random.one_in(9) {
            entry &= !2;
        }
        if self.random.one_in(30) {
            entry |= 1 << 7;
        }
        if self.random.one_in(50) {
            entry |= 1 << (48 + self.random.below(4));
        }
        if self.random.one_in(5) {
            entry |= self.random.word() & 0xFFF0_0000_0000_0F7C;
        }
        entry
    }

    /// Pages near each other: each new one changes the last few indexes of an old
    /// one, or its half alone.
    fn choose_pages(&mut self) {
        let levels = self.sizes.levels as usize;
        let mut list = vec![self.random.pick(&self.indexes); levels];
        for number in 0..6 + self.random.below(5) {
            if number % 3 == 2 {
                list[0] ^= TOP_BIT;
            } else {
                let kept = self.random.below(levels as u64) as usize;
                for place in list.iter_mut().skip(kept) {
                    *place = self.random.pick(&self.indexes);
                }
            }
            self.pages.push(page_from(&list, self.sizes.levels));
        }
        self.last_page = self.pages[0];
    }

    /// A table is a page of the guest if some walk finds it as one. The pages beside
    /// those that calls go to are tried: they have the same table of level 1, so that
    /// paths of both may be held.
    fn find_entries(&mut self) {
        let read: Places = self.pages.iter().flat_map(|page| self.planned_walk(*page).0).collect();
        let read_in = |host: u64, first: u64| {
            let words = read.range((host, 0)..(host + 1, 0));
            words.map(move |((_, index), entry)| (first + 8 * index, *entry))
        };
        for page in self.pages_beside() {
            if let (own, Some(host)) = self.planned_walk(page) {
                let first = address_of(page, self.sizes.levels);
                self.guest_entries.extend(read_in(host, first));
                let own = own.keys().filter(|(frame, _)| *frame == host);
                self.own_entries.extend(own.map(|(_, index)| first + 8 * index));
            }
        }
        for (guest, host, _) in &self.plan {
            self.device_entries.extend(read_in(*host, device_address_of(*guest)));
        }
    }

    /// The pages that have the same table of level 1 as one that calls go to, and those that
    /// have an index of their own in a large page.
    fn pages_beside(&self) -> Vec<u64> {
        let tables: BTreeSet<u64> = self.pages.iter().map(|page| page - page % FRAME_WORDS).collect();
        let beside = tables.iter().flat_map(|first| self.indexes.iter().map(move |index| first + index));
        let own = self.pages.iter().filter(|page| !self.indexes.contains(&(*page % FRAME_WORDS)));
        beside.chain(own.copied()).collect()
    }

    fn find_granted_pages(&mut self) {
        for page in self.pages_beside() {
            let rights = self.planned_rights(page);
            self.load_pages.extend(rights.map(|_| page));
            self.store_pages.extend(rights.filter(|writable| *writable).map(|_| page));
        }
    }

    /// The places of the entries that the page's walk reads by the plan, the top one first.
    fn planned_entries(&self, page: u64) -> Vec<(u64, u64)> {
        let mut places = Vec::new();
        let mut found = self.planned_host(self.names[0]);
        for level in (1..=self.sizes.levels).rev() {
            let place = found.map(|frame| (frame, index(page, level)));
            let Some(place) = place.filter(|place| self.entries.contains_key(place)) else { break };
            places.push(place);
            let entry = Entry(self.entries[&place]);
            if entry.ends_walk(level) {
                break;
            }
            found = self.planned_host(entry.frame());
        }
        places
    }

    /// Whether the plan grants a store of the page; none if it does not grant a load.
    fn planned_rights(&self, page: u64) -> Option<bool> {
        let levels = self.sizes.levels;
        let planned = |name: u64| self.plan.iter().find(|(guest, _, _)| *guest == name);
        let mut all_writable = true;
        let mut found = planned(self.names[0])?;
        for level in (1..=levels).rev() {
            let entry = Entry(*self.entries.get(&(found.1, index(page, level)))?);
            if !entry.present() || entry.malformed(level, levels) {
                return None;
            }
            all_writable = all_writable && entry.writable();
            found = planned(entry.next_frame(level, page))?;
            if entry.ends_walk(level) {
                break;
            }
        }
        Some(all_writable && found.2)
    }

    /// The entries that the page's walk reads by the plan, whatever they allow, and the
    /// host frame that it finds.
    fn planned_walk(&self, page: u64) -> (Places, Option<u64>) {
        let places = self.planned_entries(page);
        let found = places.last().and_then(|place| {
            let (level, entry) = (self.sizes.levels + 1 - places.len() as u32, Entry(self.entries[place]));
            let name = entry.ends_walk(level).then(|| entry.next_frame(level, page));
            name.and_then(|name| self.planned_host(name))
        });
        (places.into_iter().map(|place| (place, self.entries[&place])).collect(), found)
    }

    /// Where the plan maps a guest frame to.
    fn planned_host(&self, name: u64) -> Option<u64> {
        self.plan.iter().find(|(guest, _, _)| *guest == name).map(|planned| planned.1)
    }

    // The calls.

    /// Maps of the planned frames, the root, some marks, and at times nearly as many
    /// marks as can be set, far from the pages in use.
    fn setup(&mut self, calls: usize) -> Vec<Call> {
        let mut list: Vec<Call> = self.plan.iter().map(planned_map).collect();
        list.push(Call::Root { frame: self.names[0] });
        for _ in 0..self.random.below(3) {
            list.push(self.set_mark());
        }
        let far_marks = self.far_marks_at_first(calls);
        list.extend((0..far_marks).map(|number| self.far_mark(number)));
        list
    }

    /// Where tables are written often, just enough at times that few automatic marks, or
    /// none, have a place.
    fn far_marks_at_first(&mut self, calls: usize) -> u64 {
        let most = MOST_MARKS as u64;
        if calls < 200 {
            0
        } else if !self.rewrites.is_empty() {
            let unset = self.random.pick(&[most, 6, 4, 4, 3, 3, 2, 2, 1, 0]);
            most - unset
        } else if self.random.one_in(3) {
            most - 4
        } else {
            0
        }
    }

    /// One of three levels at an index of its own, in the two halves by turns.
    fn far_mark(&mut self, number: u64) -> Call {
        let levels = self.sizes.levels;
        let place = number / 3;
        let index = 30 + place / 2 + TOP_BIT * (place % 2);
        Call::SetMark { address: address_of(page_from(&[index], levels), levels), level: 1 + number % 3 }
    }

    fn next_call(&mut self) -> Call {
        if self.random.one_in(10) {
            return self.forecast();
        }
        if self.random.one_in(50) {
            return self.call_of_wrong_width();
        }
        let call = self.next_job_call();
        self.in_part(call)
    }

    /// A load or store of some bytes, stores also of an entry in place of the word.
    fn in_part(&mut self, call: Call) -> Call {
        let of_word = match call {
            Call::Store { address, value, .. } => {
                let (address, value) = or_entry(&mut self.random, (address, value), &self.guest_entries);
                Call::store_word(address, value)
            }
            Call::DeviceStore { address, value, .. } => {
                let (address, value) = or_entry(&mut self.random, (address, value), &self.device_entries);
                Call::device_store_word(address, value)
            }
            other => other,
        };
        self.narrowed(of_word)
    }

    /// A load or store of some bytes of the word.
    fn narrowed(&mut self, call: Call) -> Call {
        match call {
            Call::Load { address, .. } => {
                let (address, width) = self.part_at(address);
                Call::Load { address, width }
            }
            Call::Store { address, value, .. } => {
                let (address, width) = self.part_at(address);
                Call::Store { address, width, value: self.part_of(value, address, width) }
            }
            Call::DeviceStore { address, value, .. } => {
                let (address, width) = self.part_at(address);
                Call::DeviceStore { address, width, value: self.part_of(value, address, width) }
            }
            other => other,
        }
    }

    /// An address in the same word, and a width: mostly one that it is a multiple of.
    fn part_at(&mut self, address: u64) -> (u64, u64) {
        let any_byte = self.random.below(WORD_BYTES);
        match self.random.below(64) {
            0..=2 => (address | any_byte, self.random.pick(&WIDTHS)),
            3..=22 => (address, WORD_BYTES),
            // Each width as often as it has places in a word.
            _ => {
                let width = self.random.pick(&[1, 1, 1, 1, 1, 1, 1, 1, 2, 2, 2, 2, 4, 4, 8]);
                (address | (any_byte / width * width), width)
            }
        }
    }

    /// What a store of the whole word would put there, mostly with other bits above it.
    fn part_of(&mut self, value: u64, address: u64, width: u64) -> u64 {
        let low = value >> (8 * (address % WORD_BYTES));
        if width < WORD_BYTES && !self.random.one_in(3) {
            low ^ self.random.word() << (8 * width)
        } else {
            low
        }
    }

    /// At any address: that of a word, within one, or one that is refused too.
    fn call_of_wrong_width(&mut self) -> Call {
        let width = self.wrong_width();
        let value = self.value();
        let byte = self.random.pick(&[0, 0, 1, 2, 4, 7]);
        let odd = self.random.one_in(3);
        let address = if odd { self.illegal_address() } else { self.address() } | byte;
        match self.random.below(3) {
            0 => Call::Load { address, width },
            1 => Call::Store { address, width, value },
            _ => {
                let address = if odd { self.odd_device_address() } else { self.device_address() } | byte;
                Call::DeviceStore { address, width, value }
            }
        }
    }

    /// Near a right one, right by its low bits or but for its sign, or any large number.
    fn wrong_width(&mut self) -> u64 {
        let right = self.random.pick(&WIDTHS);
        match self.random.below(8) {
            0 => right + (1 << self.random.pick(&[8, 16, 31, 32, 63])),
            1 => right.wrapping_neg(),
            2 => 1 << (4 + self.random.below(60)),
            3 => self.random.word() | 1 << 32,
            _ => self.random.pick(&[0, 3, 5, 6, 7, 9, 10, 12, 16, 24]),
        }
    }

    /// Each mark about the pages and at the edges is set half of the time, so that often
    /// those of all levels at address 0 are.
    fn next_mark_call(&mut self) -> Call {
        if self.random.one_in(4) {
            return self.next_call();
        }
        let word = if self.random.one_in(2) { self.edge_address() } else { self.page_address() };
        let address = word + self.random.below(8);
        let level = 1 + self.random.below(self.sizes.levels as u64 + 1);
        if self.random.one_in(2) {
            Call::SetMark { address, level }
        } else {
            Call::ClearMark { address, level }
        }
    }

    /// Mostly loads and stores of pages that grant them. A few calls are forecasts or
    /// refused, and a few change something, which is mostly soon undone.
    fn next_quiet_call(&mut self) -> Call {
        match self.random.below(96) {
            0 => self.next_call(),
            1 => self.repair(),
            2 => Call::Root { frame: self.names[0] },
            3..=5 => match self.undo.pop() {
                Some(call) => call,
                None => self.set_mark(),
            },
            6 => self.clear_mark(),
            7 | 8 => self.forecast(),
            9 | 10 => self.call_of_wrong_width(),
            11 => self.odd_call(),
            12..=37 => self.quiet_store(),
            _ => {
                let word = self.granted_address(false);
                let (address, width) = self.part_at(word);
                Call::Load { address, width }
            }
        }
    }

    /// Mostly of what stood there at opening, so that tables stay as they are. One in
    /// eight goes to an entry, if a page of the guest has one.
    fn quiet_store(&mut self) -> Call {
        let mut word = self.granted_address(true);
        let mut value = self.value();
        if !self.guest_entries.is_empty() && self.random.one_in(8) {
            (word, value) = self.random.pick(&self.guest_entries);
        } else if !self.random.one_in(4) {
            value = self.word_at_opening(word).unwrap_or(value);
        }
        let (address, width) = self.part_at(word);
        Call::Store { address, width, value: self.part_of(value, address, width) }
    }

    /// What the plan has at a guest-virtual address.
    fn word_at_opening(&self, address: u64) -> Option<u64> {
        let (_, host) = self.planned_walk(frame_of(address));
        self.entries.get(&(host?, word_in_frame(address))).copied()
    }

    /// A word of a page that the plan grants, if there is one: often of the page used
    /// last, or of one of a few.
    fn granted_address(&mut self, store: bool) -> u64 {
        let pages = if store { self.store_pages.clone() } else { self.load_pages.clone() };
        if pages.is_empty() {
            return self.address();
        }
        if !pages.contains(&self.last_page) || !self.random.one_in(3) {
            let many = if self.random.one_in(3) { pages.len() } else { pages.len().min(6) };
            self.last_page = self.random.pick(&pages[..many]);
        }
        address_of(self.last_page, self.sizes.levels) + 8 * self.word_place()
    }

    fn next_job_call(&mut self) -> Call {
        if self.random.one_in(6) {
            if let Some(call) = self.undo.pop() {
                return call;
            }
        }
        match self.random.below(100) {
            0..=38 => Call::load_word(self.address()),
            39..=62 => Call::store_word(self.address(), self.value()),
            63..=69 => Call::device_store_word(self.device_address(), self.value()),
            70..=72 => self.repair(),
            73..=78 => self.map(),
            79..=81 => self.unmap(),
            82..=88 => self.set_mark(),
            89..=93 => self.clear_mark(),
            94..=95 => self.root(),
            _ => self.odd_call(),
        }
    }

    /// A word of one of the pages, often of the page used last.
    fn address(&mut self) -> u64 {
        if !self.random.one_in(3) {
            self.last_page = self.random.pick(&self.pages);
        }
        address_of(self.last_page, self.sizes.levels) + 8 * self.word_place()
    }

    /// The first address of one of the pages.
    fn page_address(&mut self) -> u64 {
        address_of(self.random.pick(&self.pages), self.sizes.levels)
    }

    fn device_address(&mut self) -> u64 {
        device_address_of(self.guest_frame()) + 8 * self.word_place()
    }

    /// A place in a frame: mostly one at which tables have entries.
    fn word_place(&mut self) -> u64 {
        match self.random.below(6) {
            0 => 5 + self.random.below(3),
            1 => self.random.below(FRAME_WORDS),
            _ => self.random.pick(&self.indexes),
        }
    }

    fn guest_frame(&mut self) -> u64 {
        let planned = self.planned_frames();
        match self.random.below(12) {
            0 => self.far_frame(),
            1 => self.random.pick(&planned) ^ 32,
            2..=4 => self.random.pick(&self.second_names),
            _ => self.random.pick(&planned),
        }
    }

    fn value(&mut self) -> u64 {
        match self.random.below(10) {
            0 => 0,
            1 => self.random.word(),
            2 => self.random.below(256),
            _ => {
                let name = self.guest_frame();
                self.entry(name)
            }
        }
    }

    /// A device store of an entry as it was at opening.
    fn repair(&mut self) -> Call {
        let places: Vec<(u64, u64)> = self.entries.keys().copied().collect();
        let place = self.random.pick(&places);
        self.repair_of(place)
    }

    fn repair_of(&mut self, place: (u64, u64)) -> Call {
        Call::device_store_word(self.device_address_at(place), self.entries[&place])
    }

    /// By any name that the plan has for the frame.
    fn device_address_at(&mut self, place: (u64, u64)) -> u64 {
        let (frame, index) = place;
        let names = self.plan.iter().filter(|(_, host, _)| *host == frame);
        let names: Vec<u64> = names.map(|(guest, _, _)| *guest).collect();
        let name = if names.is_empty() { self.names[0] } else { self.random.pick(&names) };
        device_address_of(name) + 8 * index
    }

    fn map(&mut self) -> Call {
        let planned = self.random.pick(&self.plan);
        let (guest, host, writable) = planned;
        match self.random.below(8) {
            // The same again, with both rights in turn.
            0 => planned_map(&planned),
            1 | 2 => {
                self.undo.push(planned_map(&planned));
                Call::Map { guest, host, writable: !writable }
            }
            // To another host frame.
            3..=5 => {
                self.undo.push(planned_map(&planned));
                Call::Map { guest, host: self.host_frame(), writable: !self.random.one_in(4) }
            }
            // Another guest frame, far or near.
            6 => Call::Map {
                guest: self.far_frame(),
                host: self.host_frame(),
                writable: !self.random.one_in(4),
            },
            _ => Call::Map { guest: guest ^ 32, host: self.host_frame(), writable: !self.random.one_in(4) },
        }
    }

    fn unmap(&mut self) -> Call {
        let planned = self.random.pick(&self.plan);
        match self.random.below(4) {
            0 => Call::Unmap { guest: self.guest_frame() },
            _ => {
                self.undo.push(planned_map(&planned));
                Call::Unmap { guest: planned.0 }
            }
        }
    }

    /// Marks of low levels stay a while; those of level N and N + 1 hide all
    /// other depths and are cleared soon.
    fn set_mark(&mut self) -> Call {
        let levels = self.sizes.levels as u64;
        let address = self.page_address() + self.random.below(4096);
        let level = match self.random.below(10) {
            0..=3 => 1,
            4 | 5 => 2,
            6 | 7 => 3 + self.random.below(levels - 3),
            _ => levels + self.random.below(2),
        };
        if level >= levels {
            self.clear_soon(level);
        } else {
            self.marks.push((address, level));
        }
        Call::SetMark { address, level }
    }

    /// A mark that keeps no index: any address clears it.
    fn clear_soon(&mut self, level: u64) {
        let address = self.page_address();
        self.undo.push(Call::ClearMark { address, level });
    }

    fn clear_mark(&mut self) -> Call {
        if self.marks.is_empty() || self.random.one_in(10) {
            let address = self.page_address();
            return Call::ClearMark { address, level: 1 + self.random.below(self.sizes.levels as u64 + 1) };
        }
        let place = self.random.below(self.marks.len() as u64) as usize;
        let (address, level) = self.marks.swap_remove(place);
        // By any address that begins with the mark's prefix.
        let others = 4096 * FRAME_WORDS.pow(level as u32);
        Call::ClearMark { address: address ^ self.random.below(others), level }
    }

    fn root(&mut self) -> Call {
        let frame = self.names[0];
        if self.random.one_in(2) {
            return Call::Root { frame };
        }
        self.undo.push(Call::Root { frame });
        Call::Root { frame: self.guest_frame() }
    }

    /// A list for a forecast. One that is too long may have no legal address.
    fn forecast(&mut self) -> Call {
        let length = self.list_length();
        let none_legal = length > 256 && self.random.one_in(2);
        let mut addresses = Vec::new();
        for _ in 0..length {
            let address = if none_legal { self.illegal_address() } else { self.listed_address(&addresses) };
            addresses.push(address);
        }
        Call::Forecast { addresses }
    }

    /// Mostly few: each address is a load. The longest lists are about the limit.
    fn list_length(&mut self) -> u64 {
        match self.random.below(64) {
            0 | 1 => 0,
            2 => 255 + self.random.below(3),
            3 if self.choices.bits => 257,
            3..=5 => 13 + self.random.below(48),
            _ => 1 + self.random.below(12),
        }
    }

    /// Of the pages that calls go to, of one named in the list before, of any page
    /// that the tables may have, whose paths need many tables, or at the edges.
    fn listed_address(&mut self, before: &[u64]) -> u64 {
        match self.random.below(16) {
            0 => self.illegal_address(),
            1 => self.address() + 1 + self.random.below(7),
            2 => self.edge_address(),
            3..=5 => self.any_page_address(),
            6..=8 if !before.is_empty() => self.random.pick(before),
            _ => self.address(),
        }
    }

    /// The first address of a page all of whose indexes are ones of entries.
    fn any_page_address(&mut self) -> u64 {
        let levels = self.sizes.levels;
        let list: Vec<u64> = (0..levels).map(|_| self.random.pick(&self.indexes)).collect();
        address_of(page_from(&list, levels), levels)
    }

    /// Calls at the edges: refused, or only just not.
    fn odd_call(&mut self) -> Call {
        let levels = self.sizes.levels;
        let address = self.address();
        let guest = self.guest_frame();
        let far_guest = self.beyond(frame_limit(levels));
        let bad_level = self.random.pick(&[0, levels as u64 + 2, 255]);
        // Within a word.
        let offset = self.random.below(8);
        match self.random.below(17) {
            0 => Call::load_word(address + 1 + self.random.below(7)),
            1 | 2 => Call::load_word(self.illegal_address()),
            3 => Call::load_word(self.edge_address()),
            4 => Call::store_word(address + 4, 1),
            5 => Call::store_word(self.illegal_address(), 1),
            6 => Call::store_word(self.edge_address(), 1),
            7 => Call::device_store_word(self.odd_device_address(), 1),
            8 => Call::SetMark { address, level: bad_level },
            9 => Call::SetMark { address: self.illegal_address() + offset, level: bad_level.min(1) },
            10 => Call::ClearMark { address: self.illegal_address() + offset, level: bad_level.min(1) },
            11 => {
                let address = self.edge_address() + offset;
                let level = 1 + self.random.below(3);
                self.marks.push((address, level));
                Call::SetMark { address, level }
            }
            12 => Call::Map { guest: far_guest, host: 0, writable: true },
            13 => Call::Map { guest, host: self.odd_host_frame(), writable: true },
            14 => self.odd_frame_call(far_guest),
            _ => {
                let number = self.random.below(LAST_FAR_MARKS.end);
                self.far_mark(number)
            }
        }
    }

    /// A number at the limit, little above it, far above it, or the last of all.
    fn beyond(&mut self, limit: u64) -> u64 {
        self.random.pick(&[limit, limit + 1, limit + (1 << 40), u64::MAX])
    }

    /// The first or last word of a half.
    fn edge_address(&mut self) -> u64 {
        let upper = in_other_half(0, self.sizes.levels);
        self.random.pick(&[0, !upper - 7, upper, u64::MAX - 7])
    }

    /// A word's address that is not legal: one bit or all the bits above a legal
    /// one's indexes are flipped, or the bit that they must equal. So 2^47 and
    /// 2^48 are among them, and an upper address without its sign.
    fn illegal_address(&mut self) -> u64 {
        let sign = sign_bit(self.sizes.levels);
        let legal = if self.random.one_in(2) { self.edge_address() } else { self.address() };
        let flipped = match self.random.below(5) {
            0 => 1 << sign,
            1 => 1 << (sign + 1),
            2 => u64::MAX << (sign + 1),
            _ => 1 << (sign + 1 + self.random.below(63 - sign as u64) as u32),
        };
        legal ^ flipped
    }

    /// A guest-physical address about the limit, one that is not legal as a
    /// guest-virtual one, or a legal one of the upper half, which no device has.
    fn odd_device_address(&mut self) -> u64 {
        let levels = self.sizes.levels;
        let limit = device_limit(levels);
        let address = self.address();
        match self.random.below(6) {
            0 => limit - 8,
            1 => self.beyond(limit) & !7,
            2 => 1 << sign_bit(levels),
            3 => self.device_address() + 4,
            4 => in_other_half(0, levels),
            _ => address.max(in_other_half(address, levels)),
        }
    }

    fn odd_host_frame(&mut self) -> u64 {
        let first = self.sizes.first_guest_frame();
        self.random.pick(&[
            0,
            self.sizes.h,
            first - 1,
            self.sizes.frames,
            self.sizes.frames + (1 << 40),
            u64::MAX,
        ])
    }

    fn odd_frame_call(&mut self, frame: u64) -> Call {
        if self.random.one_in(2) {
            Call::Unmap { guest: frame }
        } else {
            Call::Root { frame }
        }
    }
}

/// An address and a value to store, but one time in three the address of an entry,
/// mostly with the value that it had at opening.
fn or_entry(random: &mut Random, store: (u64, u64), entries: &[(u64, u64)]) -> (u64, u64) {
    if entries.is_empty() || !random.one_in(3) {
        return store;
    }
    let (address, entry) = random.pick(entries);
    (address, if random.one_in(3) { store.1 } else { entry })
}

fn planned_map(planned: &(u64, u64, bool)) -> Call {
    let (guest, host, writable) = *planned;
    Call::Map { guest, host, writable }
}

// Jobs.

/// The bytes of a random job. A memory of zeros is made a guest by device stores;
/// then the run follows. Some jobs have refused opens, records before the first
/// open, a second open, or a damaged end. H + S never falls from one granted open
/// to the next, for what the tables left in their frames is left open.
pub fn job(seed: u64, calls: usize) -> Vec<u8> {
    let mut random = Random::new(seed ^ 0x6A6F_6273);
    let mut bytes = Vec::new();
    if random.one_in(8) {
        bytes.extend(write_record(&Record::Call(Call::load_word(1 << 48))));
    }
    if random.one_in(8) {
        bytes.extend(refused_open(&mut random));
    }
    let first = job_sizes(&mut random);
    bytes.extend(job_part(random.word(), first, calls));
    if random.one_in(4) {
        bytes.extend(refused_open(&mut random));
        bytes.extend(write_record(&Record::Call(Call::load_word(0))));
    }
    if random.one_in(4) {
        let more = if random.one_in(2) && first.h + first.s < 10 { 1 } else { 0 };
        bytes.extend(job_part(random.word(), Sizes { h: first.h + more, ..first }, calls));
    }
    if random.one_in(4) {
        damage_end(&mut random, &mut bytes);
    }
    bytes
}

fn job_sizes(random: &mut Random) -> Sizes {
    let (h, s) = random.pick(&[(4, 4), (4, 4), (4, 5), (5, 4), (6, 4), (5, 5)]);
    Sizes { levels: JOB_LEVELS, frames: JOB_FRAMES, h, s }
}

fn refused_open(random: &mut Random) -> Vec<u8> {
    let (h, s) = random.pick(&[(3, 4), (4, 3), (8, 8), (4, 12), (65_535, 65_535), (65_535, 9), (0, 0)]);
    write_record(&Record::Open { h, s })
}

/// An open, the guest's words by device stores, and a run.
pub fn job_part(seed: u64, sizes: Sizes, calls: usize) -> Vec<u8> {
    let run = job_run(seed, sizes, calls);
    let records = |list: Vec<Call>| {
        list.into_iter().flat_map(|call| write_record(&Record::Call(call))).collect::<Vec<u8>>()
    };
    let mut bytes = write_record(&Record::Open { h: sizes.h as u16, s: sizes.s as u16 });
    for host in sizes.first_guest_frame()..sizes.frames {
        let mut list = vec![Call::Map { guest: 0, host, writable: true }];
        for index in 0..FRAME_WORDS {
            let value = run.words[(host * FRAME_WORDS + index) as usize];
            if value != 0 {
                list.push(Call::device_store_word(8 * index, value));
            }
        }
        list.push(Call::Unmap { guest: 0 });
        bytes.extend(records(list));
    }
    bytes.extend(records(run.calls));
    bytes
}

/// An end that the reader answers with 13, or a cut anywhere.
fn damage_end(random: &mut Random, bytes: &mut Vec<u8>) {
    match random.below(6) {
        0 => bytes.extend(raw_record(10, 10, &[0; 8])),
        1 => bytes.extend(raw_record(11, 7, &[0; 9])),
        2 => bytes.extend(raw_record(1, 7, &[0; 8])),
        3 => bytes.extend(raw_record(0, 2, &[])),
        4 => bytes.push(10),
        _ => {
            let length = random.below(bytes.len() as u64) as usize;
            bytes.truncate(length);
        }
    }
}
