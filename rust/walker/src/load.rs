//! The load that anyone can repeat (document 02, 10): job records that a seed and a
//! count fix.

use crate::answer::Call;
use crate::job::{number, write_record, Record};
use std::iter::once;

/// "a seed below 2^31"
pub const SEED_LIMIT: u64 = 1 << 31;
/// "a count of at most 65,535"
pub const MOST_RECORDS: u64 = 65_535;

/// What the program writes to this input: "8 bytes each, little-endian; if one is out
/// of range or cut, nothing is written; later bytes are ignored."
pub fn load_of(input: &[u8]) -> Vec<u8> {
    match (input.get(..8), input.get(8..16)) {
        (Some(seed), Some(count)) => load_bytes(number(seed), number(count)),
        _ => Vec::new(),
    }
}

/// The bytes of the load; none if seed or count is out of range.
pub fn load_bytes(seed: u64, count: u64) -> Vec<u8> {
    if seed >= SEED_LIMIT || count > MOST_RECORDS {
        return Vec::new();
    }
    records(seed, count).flat_map(|record| write_record(&record)).collect()
}

/// "An open 4 4 comes first, outside the count."
fn records(seed: u64, count: u64) -> impl Iterator<Item = Record> {
    let mut draws = Draws::new(seed);
    let calls = (0..count).map(move |_| Record::Call(draws.call()));
    once(Record::Open { h: 4, s: 4 }).chain(calls)
}

/// The generator. Its state is below 2^31, so that no product overflows.
pub struct Draws {
    state: u64,
}

impl Draws {
    /// "The state, first the seed"
    pub fn new(seed: u64) -> Draws {
        Draws { state: seed }
    }

    /// "becomes (1,103,515,245 × state + 12,345) mod 2^31 at each draw and is then the
    /// draw."
    pub fn draw(&mut self) -> u64 {
        self.state = (1_103_515_245 * self.state + 12_345) % (1 << 31);
        self.state
    }

    /// "The draw divided by 65,536, whole part", and the remainder of that.
    fn remainder(&mut self, by: u64) -> u64 {
        self.draw() / 65_536 % by
    }

    /// "Draws follow the order of the body": the arguments below stand in that order, and
    /// are drawn in the order in which they stand.
    fn call(&mut self) -> Call {
        let kind = 2 + self.remainder(8);
        match kind {
            2 => Call::Root { frame: self.guest_frame() },
            3 => Call::Map {
                guest: self.guest_frame(),
                host: self.host_frame(),
                writable: self.remainder(2) == 1,
            },
            4 => Call::Unmap { guest: self.guest_frame() },
            5 => Call::SetMark { address: self.address(), level: self.level() },
            6 => Call::ClearMark { address: self.address(), level: self.level() },
            7 => Call::load_word(self.address()),
            8 => Call::store_word(self.address(), self.value()),
            _ => Call::device_store_word(self.address(), self.value()),
        }
    }

    /// "roots and guest frames by remainder by 16"
    fn guest_frame(&mut self) -> u64 {
        self.remainder(16)
    }

    /// "host frames 8 plus remainder by 8"
    fn host_frame(&mut self) -> u64 {
        8 + self.remainder(8)
    }

    /// "addresses 8 times the remainder by 4,096", a device's too
    fn address(&mut self) -> u64 {
        8 * self.remainder(4096)
    }

    /// "levels 1 plus remainder by 5"
    fn level(&mut self) -> u64 {
        1 + self.remainder(5)
    }

    /// "each value 4,096 times the remainder by 16, plus 3"
    fn value(&mut self) -> u64 {
        4096 * self.remainder(16) + 3
    }
}
