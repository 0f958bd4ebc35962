//! Random runs with accessed and dirty bits (document 02, 6): a root that maps itself,
//! pages by two paths, and the calls.

use super::*;

impl Guest {
    /// The root's table has an entry that names it, mostly by another name and with the
    /// other right. Two more pages have that entry at two levels, and at each.
    pub(super) fn choose_self_map(&mut self) {
        if self.random.one_in(3) {
            return;
        }
        let levels = self.sizes.levels as usize;
        let host = self.sizes.first_guest_frame();
        let (own, _, writable) = self.plan[0];
        let mut name = self.base + 500;
        if self.random.one_in(3) || self.plan.iter().any(|(other, _, _)| *other == name) {
            name = own;
        } else {
            self.plan.push((name, host, !writable));
        }
        let index = self.random.pick(&self.indexes);
        let entry = self.plain_entry(name);
        self.entries.insert((host, index), entry);
        let mut list = vec![index; levels];
        self.pages.push(page_from(&list, self.sizes.levels));
        list[2..].fill_with(|| self.random.pick(&self.indexes));
        self.pages.push(page_from(&list, self.sizes.levels));
    }

    /// Pages that have their last entry by another path too: of level 1, or of a large page,
    /// by another page in it too.
    pub(super) fn find_twins(&mut self) {
        let levels = self.sizes.levels;
        for page in self.store_pages.clone() {
            let entry = self.planned_entries(page).pop();
            for place in 0..levels as usize {
                for index in &self.indexes {
                    let mut list = indexes(page, levels);
                    list[place] = *index;
                    let other = page_from(&list, levels);
                    if other != page && self.planned_entries(other).pop() == entry {
                        let most = levels as u64 - 1 - place as u64;
                        self.twins.push((page, other, most.max(1)));
                    }
                }
            }
        }
    }

    /// The place of the entry of level 1 that the page's walk reads by the plan.
    pub(super) fn planned_entry(&self, page: u64) -> Option<(u64, u64)> {
        self.planned_entries(page).get(self.sizes.levels as usize - 1).copied()
    }

    /// Mostly loads and stores of pages that the plan grants. Tables are mapped with the
    /// other right, entries are stored with other bits, and words that their own walks
    /// read are loaded and stored. A few are forecasts or others that are refused.
    pub(super) fn next_bits_call(&mut self) -> Call {
        if let Some(call) = self.soon.pop() {
            return call;
        }
        match self.random.below(128) {
            0 if !self.twins.is_empty() => {
                self.soon = self.calls_by_two_paths();
                self.soon.reverse();
                self.next_bits_call()
            }
            1 if !self.load_pages.is_empty() => {
                self.soon = self.calls_by_a_spoiled_entry();
                self.soon.reverse();
                self.next_bits_call()
            }
            0..=2 => self.forecast(),
            3 => self.call_of_wrong_width(),
            4 => self.deep_mark(),
            5..=7 => self.odd_call(),
            8..=13 => self.other_right(),
            14..=23 => self.other_bits(),
            24..=29 => match self.undo.pop() {
                Some(call) => call,
                None => self.repair(),
            },
            30..=40 => {
                let call = self.request_to_own_entry();
                self.narrowed(call)
            }
            41..=92 => {
                let call = self.request_of_bits();
                self.narrowed(call)
            }
            _ => {
                let call = self.next_job_call();
                self.in_part(call)
            }
        }
    }

    /// A load or store of a page that grants it, often after another one there. Most
    /// stores leave what stood there at opening, but for the two bits.
    fn request_of_bits(&mut self) -> Call {
        let store = self.random.one_in(2);
        match self.random.below(8) {
            0..=2 => {}
            _ => {
                self.granted_address(store);
            }
        }
        let address = address_of(self.last_page, self.sizes.levels) + 8 * self.word_place();
        if !store {
            return Call::load_word(address);
        }
        let value = self.value();
        match self.word_at_opening(address) {
            Some(word) if !self.random.one_in(8) => Call::store_word(address, self.with_other_bits(word)),
            _ => Call::store_word(address, value),
        }
    }

    /// A page that has its entry of level 1 by two paths: a load fills the first path
    /// while bit 6 is clear, a store by the second sets the bit, and the page is loaded
    /// or stored to by the first again. The second path has a depth of its own or none.
    fn calls_by_two_paths(&mut self) -> Vec<Call> {
        let (page, other, most) = self.random.pick(&self.twins);
        let levels = self.sizes.levels;
        let [first, second] = [page, other].map(|page| address_of(page, levels) + 8 * self.word_place());
        let level = 1 + self.random.below(most);
        let (marks, loads) = (!self.random.one_in(3), self.random.one_in(2));
        let mut calls = Vec::new();
        if let Some(place) = self.planned_entries(page).pop() {
            calls.extend(self.store_of_entry(place, self.entries[&place] & !(ACCESSED | DIRTY)));
        }
        if marks {
            calls.push(Call::SetMark { address: second, level });
        }
        let word = self.word_at_opening(second).unwrap_or(0);
        calls.extend([Call::load_word(first), Call::store_word(second, word)]);
        if loads {
            calls.push(Call::load_word(first));
        }
        let word = self.word_at_opening(first).unwrap_or(0);
        calls.extend([Call::store_word(first, word), Call::store_word(first, word)]);
        if marks {
            calls.push(Call::ClearMark { address: second, level });
        }
        calls
    }

    /// A page is loaded, so that its path is held where it is granted; an entry of its
    /// walk is not present, malformed or of another frame for the next two requests.
    fn calls_by_a_spoiled_entry(&mut self) -> Vec<Call> {
        let page = self.random.pick(&self.load_pages);
        let address = address_of(page, self.sizes.levels) + 8 * self.word_place();
        let place = self.random.pick(&self.planned_entries(page));
        let entry = self.entries[&place];
        let spoiled = entry ^ self.random.pick(&[1, 1 << 7, 1 << 48, 32 << 12, 1 << 40]);
        let mut calls = vec![Call::load_word(address)];
        calls.extend(self.store_of_entry(place, spoiled));
        let (first, second) = (self.random.one_in(2), self.random.one_in(2));
        let value = self.value();
        for store in [first, second] {
            calls.push(if store { Call::store_word(address, value) } else { Call::load_word(address) });
        }
        let repaired = self.with_other_bits(entry);
        calls.extend(self.store_of_entry(place, repaired));
        calls
    }

    /// A device's, if the table's frame is planned to be writable.
    pub(super) fn store_of_entry(&self, place: (u64, u64), entry: u64) -> Option<Call> {
        let mut names = self.plan.iter().filter(|(_, host, writable)| *host == place.0 && *writable);
        names.next().map(|name| Call::device_store_word(device_address_of(name.0) + 8 * place.1, entry))
    }

    /// Of a word that its own walk reads, if there is one. A store leaves the entry as it
    /// was at opening, but for its bits.
    fn request_to_own_entry(&mut self) -> Call {
        if self.own_entries.is_empty() {
            return self.request_of_bits();
        }
        // Mostly one of a few, so that a load follows a store that cleared a bit.
        let many = if self.random.one_in(3) { self.own_entries.len() } else { self.own_entries.len().min(3) };
        let address = self.random.pick(&self.own_entries[..many]);
        self.last_page = frame_of(address) % FRAME_WORDS.pow(self.sizes.levels);
        match self.word_at_opening(address) {
            Some(entry) if self.random.one_in(2) => Call::store_word(address, self.with_other_bits(entry)),
            _ => Call::load_word(address),
        }
    }

    /// A device store of an entry as it was at opening, but for its bits. A few are not
    /// present, not writable or malformed, till the next such store.
    fn other_bits(&mut self) -> Call {
        if self.device_entries.is_empty() {
            return self.repair();
        }
        let (address, entry) = self.random.pick(&self.device_entries);
        let spoiled = if self.random.one_in(8) { self.random.pick(&[1, 2, 1 << 7, 1 << 48]) } else { 0 };
        let call = Call::device_store_word(address, self.with_other_bits(entry) ^ spoiled);
        if self.random.one_in(3) {
            self.narrowed(call)
        } else {
            call
        }
    }

    /// A planned frame, mostly one of the first ones, which are tables, mapped with the
    /// other right. Mostly it is soon mapped as planned again.
    fn other_right(&mut self) -> Call {
        let many = if self.random.one_in(4) { self.plan.len() } else { self.plan.len().min(8) };
        let planned = self.random.pick(&self.plan[..many]);
        let (guest, host, writable) = planned;
        if !self.random.one_in(4) {
            self.undo.push(planned_map(&planned));
        }
        Call::Map { guest, host, writable: !writable }
    }

    /// A mark of level N or N + 1.
    fn deep_mark(&mut self) -> Call {
        let level = self.sizes.levels as u64 + self.random.below(2);
        self.clear_soon(level);
        Call::SetMark { address: self.page_address(), level }
    }
}
