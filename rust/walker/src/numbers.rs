//! Addresses, indexes, entries and the bytes of a word. The number of levels is a
//! value: document 01 has four; with five, frames are below 2^40 and addresses have
//! 57 bits.

use std::collections::BTreeSet;
use std::ops::{Range, RangeInclusive};

/// "A frame is 512 words."
pub const FRAME_WORDS: u64 = 512;
/// The bytes of a word, and the width of a load or store that is for all of them.
pub const WORD_BYTES: u64 = 8;
/// How many bytes a load or store may be for (document 02, 4).
pub const WIDTHS: [u64; 4] = [1, 2, 4, WORD_BYTES];
/// "There are at most 65,536 frames"
pub const MOST_FRAMES: u64 = 65_536;
/// "then 12 bits of offset"
const OFFSET_BITS: u32 = 12;
/// "indexes of 9 bits"
const INDEX_BITS: u32 = 9;
/// "bits 12 to 51 frame number"
const FRAME_FIELD_BITS: u32 = 40;
/// The accessed bit of an entry, bit 5, and the dirty bit, bit 6 (document 02, 6).
pub const ACCESSED: u64 = 1 << 5;
pub const DIRTY: u64 = 1 << 6;
/// Bit 7 of an entry, which makes its page a large one at these levels: 2 MiB at level 2,
/// 1 GiB at level 3 (document 02, 8).
pub const LARGE: u64 = 1 << 7;
pub const LARGE_LEVELS: RangeInclusive<u32> = 2..=3;

/// The top bit of the top level's index: bit 47, with five levels bit 56.
pub fn sign_bit(levels: u32) -> u32 {
    INDEX_BITS * levels + OFFSET_BITS - 1
}

/// "An address is legal when bits 48 to 63 all equal bit 47."
pub fn is_legal(address: u64, levels: u32) -> bool {
    let sign = sign_bit(levels);
    (sign + 1..64).all(|place| bit(address, place) == bit(address, sign))
}

/// Which half a legal address is in: "Their kernel lives in the upper half".
pub fn in_upper_half(address: u64, levels: u32) -> bool {
    bit(address, sign_bit(levels))
}

/// The address in the other half that has the same indexes but for the top bit of
/// the top one. It is legal exactly if the address given is.
pub fn in_other_half(address: u64, levels: u32) -> u64 {
    address ^ u64::MAX << sign_bit(levels)
}

/// "A guest frame number is below 2^36": as many indexes as there are levels,
/// and never more bits than an entry's frame field has.
pub fn frame_limit(levels: u32) -> u64 {
    1 << (INDEX_BITS * levels).min(FRAME_FIELD_BITS)
}

/// "Device addresses keep the old limit": the first number that is no
/// guest-physical address.
pub fn device_limit(levels: u32) -> u64 {
    frame_limit(levels) << OFFSET_BITS
}

/// The page or frame number of an address. Of a guest-virtual address it has the
/// bits above the top index too, which no index takes.
pub fn frame_of(address: u64) -> u64 {
    address >> OFFSET_BITS
}

/// The place of an address's word within its frame.
pub fn word_in_frame(address: u64) -> u64 {
    (address / WORD_BYTES) % FRAME_WORDS
}

/// Some bytes of a word (document 02, 4). Byte 0 is the lowest.
#[derive(Clone, Copy, Debug, PartialEq, Eq)]
pub struct Bytes {
    pub first: usize,
    pub width: usize,
}

impl Bytes {
    /// Those of a load or store. At a multiple of its width they are in one word.
    pub fn at(address: u64, width: u64) -> Bytes {
        Bytes { first: (address % WORD_BYTES) as usize, width: width as usize }
    }

    fn places(self) -> Range<usize> {
        self.first..self.first + self.width
    }

    /// These bytes of the word as a number, the first one lowest and zeros above the last.
    pub fn of(self, word: u64) -> u64 {
        let mut bytes = [0; WORD_BYTES as usize];
        bytes[..self.width].copy_from_slice(&word.to_le_bytes()[self.places()]);
        u64::from_le_bytes(bytes)
    }

    /// The word with the value's low bytes in these places, and its own in all others.
    pub fn put(self, word: u64, value: u64) -> u64 {
        let mut bytes = word.to_le_bytes();
        bytes[self.places()].copy_from_slice(&value.to_le_bytes()[..self.width]);
        u64::from_le_bytes(bytes)
    }
}

/// The indexes of a page or frame number, the top level's first.
pub fn indexes(number: u64, levels: u32) -> Vec<u64> {
    (1..=levels).rev().map(|level| index(number, level)).collect()
}

/// The index of a page or frame number for one level.
pub fn index(number: u64, level: u32) -> u64 {
    (number >> (INDEX_BITS * (level - 1))) % FRAME_WORDS
}

/// How many pages of 4 KiB a page has that ends the walk at this level.
pub fn pages_at(level: u32) -> u64 {
    1 << (INDEX_BITS * (level - 1))
}

/// The page number that has these first indexes and then zeros.
pub fn page_from(first: &[u64], levels: u32) -> u64 {
    let below = levels - first.len() as u32;
    first.iter().fold(0, |page, index| (page << INDEX_BITS) | index) << (INDEX_BITS * below)
}

/// The first guest-virtual address of a page, made legal by its bits above the
/// top index.
pub fn address_of(page: u64, levels: u32) -> u64 {
    let address = page << OFFSET_BITS;
    if in_upper_half(address, levels) {
        address | u64::MAX << sign_bit(levels)
    } else {
        address
    }
}

/// The first guest-physical address of a frame.
pub fn device_address_of(frame: u64) -> u64 {
    frame << OFFSET_BITS
}

/// The number of different proper prefixes of some lists of indexes: what host
/// tables and shadow tables alike are counted by. "The empty prefix counts once."
pub fn different_proper_prefixes<'a>(lists: impl Iterator<Item = &'a Vec<u64>>) -> u64 {
    let mut prefixes = BTreeSet::new();
    for list in lists {
        for length in 0..list.len() {
            prefixes.insert(&list[..length]);
        }
    }
    prefixes.len() as u64
}

/// A guest entry, read as it stands in memory.
#[derive(Clone, Copy, Debug, PartialEq, Eq)]
pub struct Entry(pub u64);

impl Entry {
    /// "bit 0 present"
    pub fn present(self) -> bool {
        bit(self.0, 0)
    }

    /// "bit 1 writable"
    pub fn writable(self) -> bool {
        bit(self.0, 1)
    }

    /// Which of these bits are not set.
    pub fn lacks(self, bits: u64) -> u64 {
        bits & !self.0
    }

    /// "bits 12 to 51 frame number"
    pub fn frame(self) -> u64 {
        (self.0 >> OFFSET_BITS) % (1 << FRAME_FIELD_BITS)
    }

    /// Whether it is one of a large page, if it is present and not malformed.
    pub fn is_large(self, level: u32) -> bool {
        LARGE_LEVELS.contains(&level) && self.lacks(LARGE) == 0
    }

    /// "Bit 7 at level 2 or 3 now ends the guest walk there". Else it ends at level 1.
    pub fn ends_walk(self, level: u32) -> bool {
        level == 1 || self.is_large(level)
    }

    /// Whether it has frame bits "below the page size", "bit 12 too". At level 1 there are none.
    pub fn misaligned(self, level: u32) -> bool {
        self.ends_walk(level) && self.frame() % pages_at(level) != 0
    }

    /// "a present guest entry is malformed if any of bits 48 to 51 is set". They are the
    /// bits by which a frame number reaches 2^36; with five levels they are ordinary frame
    /// bits. "Above level 3 bit 7 stays malformed." At level 1 it is ignored.
    pub fn malformed(self, level: u32, levels: u32) -> bool {
        let above = level > *LARGE_LEVELS.end() && self.lacks(LARGE) == 0;
        self.frame() >= frame_limit(levels) || above || self.misaligned(level)
    }

    /// The guest frame that the walk of this page goes to from here: a table's, or where the
    /// walk ends the page's own, which the lower indexes tell from its neighbours.
    pub fn next_frame(self, level: u32, page: u64) -> u64 {
        self.frame() + if self.ends_walk(level) { page % pages_at(level) } else { 0 }
    }
}

fn bit(word: u64, place: u32) -> bool {
    (word >> place) & 1 == 1
}
