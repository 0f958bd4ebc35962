//! An entirely separate plain walk: host tables are real words in a memory, and a
//! host walk reads them. It shares nothing with the library but the calls.

pub mod automatic;

pub struct Naive {
    pub levels: u32,
    pub h: u64,
    pub s: u64,
    pub root: u64,
    pub memory: Vec<u64>,
    /// Whether accessed and dirty bits are on.
    pub bits: bool,
    used: Vec<bool>,
}

/// What a walk yields: the page's host frame or the fault's letter, level and
/// frame; the level of the entry that lacks a bit, if that is the fault; the level of the
/// entry of a large page, if it got there; the number of all words read, and of those read
/// when each table, and last the page, was found; the guest words among them, by host frame
/// and index; and the guest frames host-walked.
pub struct Seen {
    pub end: Result<u64, (char, u32, u64)>,
    pub lacks: Option<u32>,
    pub large: Option<u32>,
    pub reads: u64,
    pub found_at: Vec<u64>,
    pub guest_words: Vec<(u64, u64)>,
    pub frames: Vec<u64>,
}

impl Naive {
    pub fn open(levels: u32, mut memory: Vec<u64>, h: u64, s: u64, bits: bool) -> Naive {
        for word in memory.iter_mut().take(((h + s) * 512) as usize) {
            *word = 0;
        }
        // Host frame 0 is the top table.
        let mut used = vec![false; h as usize];
        used[0] = true;
        Naive { levels, h, s, root: 0, memory, bits, used }
    }

    pub fn guest_words(&self) -> &[u64] {
        &self.memory[((self.h + self.s) * 512) as usize..]
    }

    fn slot(&self, table: u64, number: u64, level: u32) -> usize {
        let digit = (number / 512u64.pow(level - 1)) % 512;
        (table * 512 + digit) as usize
    }

    /// Maps, or says false if the host frames do not suffice.
    pub fn map(&mut self, guest: u64, host: u64, writable: bool) -> bool {
        if self.missing_tables(guest) > self.used.iter().filter(|used| !**used).count() {
            return false;
        }
        let mut table = 0;
        for level in (2..=self.levels).rev() {
            let slot = self.slot(table, guest, level);
            if self.memory[slot] == 0 {
                let free = self.used.iter().position(|used| !used).unwrap();
                self.used[free] = true;
                self.memory[slot] = (free as u64) * 4096 + 1;
            }
            table = self.memory[slot] / 4096;
        }
        let slot = self.slot(table, guest, 1);
        self.memory[slot] = host * 4096 + if writable { 3 } else { 1 };
        true
    }

    fn missing_tables(&self, guest: u64) -> usize {
        let mut table = 0;
        for level in (2..=self.levels).rev() {
            let entry = self.memory[self.slot(table, guest, level)];
            if entry == 0 {
                return level as usize - 1;
            }
            table = entry / 4096;
        }
        0
    }

    pub fn unmap(&mut self, guest: u64) {
        let mut slots = Vec::new();
        let mut table = 0;
        for level in (1..=self.levels).rev() {
            let slot = self.slot(table, guest, level);
            slots.push(slot);
            table = self.memory[slot] / 4096;
        }
        // Clear from below; a table that is all zero is given back.
        while let Some(slot) = slots.pop() {
            self.memory[slot] = 0;
            let table = slot / 512;
            if table == 0 || self.memory[table * 512..table * 512 + 512].iter().any(|word| *word != 0) {
                break;
            }
            self.used[table] = false;
        }
    }

    /// Reads host entries; the level 1 entry, or none, and the words read.
    pub fn host_walk(&self, guest: u64) -> (Option<u64>, u64) {
        let (mut table, mut reads, mut entry) = (0, 0, 0);
        for level in (1..=self.levels).rev() {
            entry = self.memory[self.slot(table, guest, level)];
            reads += 1;
            if entry & 1 == 0 {
                return (None, reads);
            }
            table = entry / 4096;
        }
        (Some(entry), reads)
    }

    pub fn walk(&self, address: u64, is_store: bool) -> Seen {
        let mut seen = self.walk_without_bits(address, is_store);
        if self.bits && seen.end.is_ok() {
            let last = seen.large.unwrap_or(1);
            seen.lacks = (last..=self.levels).rev().find(|level| self.is_stuck(&seen, *level, is_store));
            if let Some(level) = seen.lacks {
                seen.end = Err(('W', 0, seen.frames[(self.levels - level) as usize]));
            }
        }
        seen
    }

    /// The same as if no bit were needed.
    pub fn walk_without_bits(&self, address: u64, is_store: bool) -> Seen {
        let (found_at, guest_words, frames) = (vec![], vec![], vec![]);
        let mut seen = Seen { end: Ok(0), lacks: None, large: None, reads: 0, found_at, guest_words, frames };
        seen.end = self.walk_into(address, is_store, &mut seen);
        seen
    }

    /// Whether the entry of this level lacks a bit and its table's frame is read-only.
    fn is_stuck(&self, seen: &Seen, level: u32, is_store: bool) -> bool {
        let place = (self.levels - level) as usize;
        let (frame, index) = seen.guest_words[place];
        let entry = self.memory[(frame * 512 + index) as usize];
        let is_last = place + 1 == seen.guest_words.len();
        let complete = entry / 32 % 2 == 1 && (!is_last || !is_store || entry / 64 % 2 == 1);
        let (table, _) = self.host_walk(seen.frames[place]);
        !complete && table.is_some_and(|table| table & 2 == 0)
    }

    /// What a granted request leaves in its entries: 32 in each, 64 in a store's last.
    pub fn touch(&mut self, seen: &Seen, is_store: bool) {
        for (frame, index) in &seen.guest_words {
            self.memory[(frame * 512 + index) as usize] |= 32;
        }
        if let (Some((frame, index)), true) = (seen.guest_words.last(), is_store) {
            self.memory[(frame * 512 + index) as usize] |= 64;
        }
    }

    fn walk_into(&self, address: u64, is_store: bool, seen: &mut Seen) -> Result<u64, (char, u32, u64)> {
        let mut frame = self.root;
        let mut level = self.levels;
        let mut rights = 2;
        let mut is_page = false;
        loop {
            let (host_entry, words) = self.host_walk(frame);
            seen.reads += words;
            seen.frames.push(frame);
            let Some(host_entry) = host_entry else { return Err(('H', 0, frame)) };
            seen.found_at.push(seen.reads);
            if is_page {
                if is_store && host_entry & 2 == 0 {
                    return Err(('W', 0, frame));
                }
                return Ok(host_entry / 4096);
            }
            let slot = self.slot(host_entry / 4096, address / 4096, level);
            let entry = self.memory[slot];
            seen.reads += 1;
            seen.guest_words.push((slot as u64 / 512, slot as u64 % 512));
            let high: u64 = if self.levels == 4 { 0x000F_0000_0000_0000 } else { 0 };
            // What must be 0, and the frame's bits that the address has.
            let (reserved, by_address): (u64, u64) = match (level, entry & 0x80) {
                (2, 0x80) => (high | 0x001F_F000, 0x1FF),
                (3, 0x80) => (high | 0x3FFF_F000, 0x3_FFFF),
                (4 | 5, _) => (high | 0x80, 0),
                _ => (high, 0),
            };
            if entry & 1 == 0 {
                return Err(('A', level, 0));
            }
            if entry & reserved != 0 {
                return Err(('M', level, 0));
            }
            is_page = level == 1 || by_address != 0;
            seen.large = Some(level).filter(|_| by_address != 0);
            rights &= entry;
            if is_page && is_store && rights == 0 {
                return Err(('P', level, 0));
            }
            frame = (entry & 0x000F_FFFF_FFFF_F000) / 4096 + ((address / 4096) & by_address);
            level -= 1;
        }
    }
}
