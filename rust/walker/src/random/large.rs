//! Large pages in random runs (document 02, 8): entries of levels 2 and 3 that have bit 7,
//! the frames of which are mapped one by one, and the calls that go to them.

use super::*;

/// A large page at opening.
#[derive(Clone, Debug)]
pub(super) struct LargePage {
    level: u32,
    /// Where its entry stands, and its first guest frame.
    place: (u64, u64),
    frame: u64,
    /// The pages of 4 KiB in it that calls go to.
    pieces: Vec<u64>,
}

impl LargePage {
    /// The guest frame of a piece.
    fn frame_of_piece(&self, piece: u64) -> u64 {
        self.frame + piece % pages_at(self.level)
    }
}

/// How many frame bits must be 0 in an entry of a large page.
fn low_frame_bits(level: u32) -> u64 {
    pages_at(level).ilog2() as u64
}

impl Guest {
    /// Some of the tables that walks of the pages find give way to large pages.
    pub(super) fn choose_large_pages(&mut self, many: u64) {
        for _ in 0..many {
            let page = self.random.pick(&self.pages);
            let level = self.random.pick(&[2, 2, 3]);
            self.choose_large_page(page, level);
        }
    }

    /// Most of its frames that are mapped are those of the first group: tables of the guest,
    /// the one with its own entry too, and its pages.
    fn choose_large_page(&mut self, page: u64, level: u32) {
        let above = (self.sizes.levels - level) as usize;
        let Some(place) = self.planned_entries(page).get(above).copied() else { return };
        let frame = self.base - self.base % pages_at(level);
        let entry = self.large_entry(frame, level);
        self.entries.insert(place, entry);
        let mut large = LargePage { level, place, frame, pieces: Vec::new() };
        for _ in 0..3 + self.random.below(4) {
            let piece = page - page % pages_at(level) + self.piece(level);
            self.name_piece(large.frame_of_piece(piece));
            large.pieces.push(piece);
        }
        self.pages.extend(&large.pieces);
        self.large.push(large);
    }

    /// The lower indexes of a piece, as one number: mostly of a frame that has a name.
    fn piece(&mut self, level: u32) -> u64 {
        let group = self.base % pages_at(level);
        let place = match self.random.below(8) {
            0 => self.random.below(FRAME_WORDS),
            1 => self.random.pick(&self.indexes),
            2 | 3 => self.random.below(self.sizes.guest_frames()),
            _ => self.random.below(self.sizes.guest_frames().min(6)),
        };
        if level > 2 && self.random.one_in(4) {
            self.random.pick(&self.indexes) * FRAME_WORDS + place
        } else {
            group + place
        }
    }

    /// A name for the frame of a piece, if it has none and the host tables suffice.
    fn name_piece(&mut self, name: u64) {
        if self.fits(name) && !self.random.one_in(8) {
            let host = self.host_frame();
            self.add_to_plan(name, host);
        }
    }

    /// Mostly a right one.
    fn large_entry(&mut self, frame: u64, level: u32) -> u64 {
        let entry = self.plain_entry(frame) | LARGE;
        match self.random.below(16) {
            0 | 1 => self.misaligned(entry, level),
            2 | 3 => entry & !2,
            4 => entry | self.random.word() & 0xFFF0_0000_0000_0F1C,
            _ => entry,
        }
    }

    /// With a frame bit below the page size, at times several.
    fn misaligned(&mut self, entry: u64, level: u32) -> u64 {
        let bits = low_frame_bits(level);
        let low =
            if self.random.one_in(6) { self.random.below(1 << bits) } else { 1 << self.random.below(bits) };
        entry | low << 12
    }

    // The calls.

    /// Mostly loads and stores of large pages. Marks of each level come and go over them,
    /// frames in them are mapped anew, and their entries are stored to, by the guest and by
    /// devices. Other calls are as in other runs.
    pub(super) fn next_large_call(&mut self) -> Call {
        if let Some(call) = self.soon.pop() {
            return call;
        }
        if self.large.is_empty() {
            return self.next_call();
        }
        match self.random.below(64) {
            0 | 1 => self.forecast(),
            2 => self.call_of_wrong_width(),
            3 => self.odd_call(),
            4..=7 => match self.undo.pop() {
                Some(call) => call,
                None => self.repair(),
            },
            8..=10 => self.any_entry_made_large(),
            11..=20 => self.start(Guest::calls_under_a_mark),
            21..=26 => self.start(Guest::calls_about_a_mapping),
            27..=34 => self.start(Guest::calls_about_an_entry),
            35..=46 if self.choices.bits => self.start(Guest::calls_about_its_bits),
            47..=54 => {
                let call = self.next_job_call();
                self.in_part(call)
            }
            _ => {
                let large = self.pick_large();
                let call = self.request_of(&large);
                self.narrowed(call)
            }
        }
    }

    /// The first of some calls about a large page; the others come next.
    fn start(&mut self, calls: fn(&mut Guest, LargePage) -> Vec<Call>) -> Call {
        let large = self.pick_large();
        self.soon = calls(self, large);
        self.soon.reverse();
        self.next_large_call()
    }

    fn pick_large(&mut self) -> LargePage {
        self.large[self.random.below(self.large.len() as u64) as usize].clone()
    }

    fn address_in(&mut self, large: &LargePage) -> u64 {
        self.last_page = self.random.pick(&large.pieces);
        address_of(self.last_page, self.sizes.levels) + 8 * self.word_place()
    }

    /// A load or store of some piece.
    fn request_of(&mut self, large: &LargePage) -> Call {
        let address = self.address_in(large);
        self.request_at(address)
    }

    /// A load, or a store that mostly leaves what stood there at opening.
    fn request_at(&mut self, address: u64) -> Call {
        if self.random.one_in(2) {
            return Call::load_word(address);
        }
        let value = self.value();
        let before = self.word_at_opening(address).filter(|_| !self.random.one_in(12));
        Call::store_word(address, before.unwrap_or(value))
    }

    /// Requests and forecasts with a mark of any level over the large page, and after it. At
    /// times the frame is mapped otherwise for some of them.
    fn calls_under_a_mark(&mut self, large: LargePage) -> Vec<Call> {
        let address = self.address_in(&large);
        let (change, back) = self.other_mapping(large.frame_of_piece(self.last_page));
        let level = self.any_level();
        let mut calls = if self.random.one_in(2) { self.repairs_above(&large) } else { Vec::new() };
        if self.random.one_in(2) {
            calls.push(Call::load_word(address));
        }
        calls.push(Call::SetMark { address, level });
        let changes = self.random.one_in(3);
        calls.extend(changes.then_some(change));
        if self.random.one_in(3) {
            calls.push(self.forecast_of(&large, address));
        }
        for _ in 0..2 + self.random.below(3) {
            let call = self.request_at(address);
            calls.push(self.narrowed(call));
        }
        calls.extend(changes.then_some(back));
        calls.push(self.request_of(&large));
        calls.push(self.forecast_of(&large, address));
        calls.push(Call::ClearMark { address, level });
        calls.push(Call::load_word(address));
        calls
    }

    /// The upper entries of the walk as they were at opening, mostly with bit 5 if bits are on.
    fn repairs_above(&mut self, large: &LargePage) -> Vec<Call> {
        let mut places = self.planned_entries(large.pieces[0]);
        places.pop();
        let mut calls = Vec::new();
        for place in places {
            let accessed = if self.choices.bits && !self.random.one_in(4) { ACCESSED } else { 0 };
            calls.extend(self.store_of_entry(place, self.entries[&place] | accessed));
        }
        calls
    }

    /// Loads of the address and of other pieces, if forecasts are not refused.
    fn forecast_of(&mut self, large: &LargePage, address: u64) -> Call {
        let others = if self.choices.bits { 0 } else { 1 + self.random.below(3) };
        let others: Vec<u64> = (0..others).map(|_| self.address_in(large)).collect();
        Call::Forecast { addresses: [vec![address; 2], others].concat() }
    }

    fn any_level(&mut self) -> u64 {
        1 + self.random.below(self.sizes.levels as u64 + 1)
    }

    /// A map or unmap of the guest frame, and the one that undoes it.
    fn other_mapping(&mut self, guest: u64) -> (Call, Call) {
        let planned = self.plan.iter().find(|(name, _, _)| *name == guest).copied();
        let change = match planned {
            Some(_) if self.random.one_in(3) => Call::Unmap { guest },
            Some((_, host, writable)) if self.random.one_in(2) => {
                Call::Map { guest, host, writable: !writable }
            }
            _ => Call::Map { guest, host: self.host_frame(), writable: !self.random.one_in(3) },
        };
        (change, planned.as_ref().map_or(Call::Unmap { guest }, planned_map))
    }

    /// The frame of a piece or another one of the same large page is mapped anew or unmapped
    /// between two requests, and then as it was.
    fn calls_about_a_mapping(&mut self, large: LargePage) -> Vec<Call> {
        let address = self.address_in(&large);
        let own = large.frame_of_piece(self.last_page);
        let piece = self.random.pick(&large.pieces);
        let other = self.random.pick(&[large.frame_of_piece(piece), own ^ 1, own ^ 64]);
        let guest = if self.random.one_in(2) { own } else { other };
        let (change, back) = self.other_mapping(guest);
        vec![Call::load_word(address), change, self.request_at(address), back, self.request_at(address)]
    }

    /// The entry is stored to between two requests, mostly by the guest if it can, and then as
    /// it was.
    fn calls_about_an_entry(&mut self, large: LargePage) -> Vec<Call> {
        let address = self.address_in(&large);
        let entry = self.other_entry(&large);
        let by_guest = self.large_stores.iter().filter(|store| store.0 == large.place);
        let by_guest: Vec<u64> = by_guest.map(|store| store.1).collect();
        let store = if by_guest.is_empty() || self.random.one_in(3) {
            Call::device_store_word(self.device_address_at(large.place), entry)
        } else {
            Call::store_word(self.random.pick(&by_guest), entry)
        };
        let store = if self.random.one_in(3) { self.narrowed(store) } else { store };
        vec![
            self.request_at(address),
            store,
            self.request_at(address),
            self.request_of(&large),
            self.repair_of(large.place),
            Call::load_word(address),
        ]
    }

    /// Its entry lacks bit 6 at first, and a table may be read-only. A load fills the path of a
    /// piece, a store to another one or to the same sets bit 6, and both are used again, all
    /// with a mark at times.
    fn calls_about_its_bits(&mut self, large: LargePage) -> Vec<Call> {
        let address = self.address_in(&large);
        let level = self.any_level();
        let marks = self.random.one_in(2);
        let word = self.word_at_opening(address).unwrap_or(0);
        let mut calls = self.repairs_above(&large);
        let entry = self.entries[&large.place] & !(ACCESSED | DIRTY) | self.random.pick(&[0, ACCESSED]);
        calls.extend(self.store_of_entry(large.place, entry));
        let (table, _) = self.random.pick(&self.planned_entries(self.last_page));
        let names: Vec<_> = self.plan.iter().filter(|planned| planned.1 == table).copied().collect();
        let read_only = self.random.pick(&names);
        let forbids = self.random.one_in(3);
        let (guest, host, _) = read_only;
        calls.extend(forbids.then_some(Call::Map { guest, host, writable: false }));
        calls.extend(marks.then_some(Call::SetMark { address, level }));
        if self.random.one_in(2) {
            calls.push(Call::load_word(address));
        }
        if self.random.one_in(2) {
            let other = self.address_in(&large);
            let other_word = self.word_at_opening(other).unwrap_or(0);
            calls.push(Call::store_word(other, other_word));
            calls.push(Call::load_word(address));
        }
        calls.extend([Call::store_word(address, word), Call::store_word(address, word)]);
        calls.extend(forbids.then(|| planned_map(&read_only)));
        calls.extend(marks.then_some(Call::ClearMark { address, level }));
        calls
    }

    /// As it was but for a bit or two, not aligned, or one that names a table.
    fn other_entry(&mut self, large: &LargePage) -> u64 {
        let entry = self.entries[&large.place];
        let table = self.random.pick(&self.names[..self.names.len().min(6)]);
        match self.random.below(12) {
            0 => entry ^ 1,
            1 | 2 => entry ^ 2,
            3 | 4 => self.misaligned(entry, large.level),
            5 => entry ^ 1 << (48 + self.random.below(4)),
            6 | 7 => self.plain_entry(table),
            8 if self.choices.bits => self.with_other_bits(entry),
            _ => entry,
        }
    }

    /// Another entry that walks read has bit 7 for a while, of level 1 or 4 too.
    fn any_entry_made_large(&mut self) -> Call {
        let page = self.random.pick(&self.pages);
        let places = self.planned_entries(page);
        if places.is_empty() {
            return self.repair();
        }
        let number = self.random.below(places.len() as u64) as usize;
        let level = self.sizes.levels - number as u32;
        let place = places[number];
        let repair = self.repair_of(place);
        self.undo.push(repair);
        let entry = if LARGE_LEVELS.contains(&level) {
            self.large_entry(self.base - self.base % pages_at(level), level)
        } else {
            self.entries[&place] | LARGE
        };
        Call::device_store_word(self.device_address_at(place), entry)
    }

    /// Where the guest itself can store to the entries of large pages.
    pub(super) fn find_large_stores(&mut self) {
        for page in self.store_pages.clone() {
            let Some(host) = self.planned_walk(page).1 else { continue };
            for large in self.large.iter().filter(|large| large.place.0 == host) {
                let address = address_of(page, self.sizes.levels) + 8 * large.place.1;
                self.large_stores.push((large.place, address));
            }
        }
    }
}
