//! The proved memory unit, for a monitor to link.
//!
//! The monitor owns a memory, a slice of 64-bit words in frames of 512: first the host frames, then the shadow frames,
//! then the guest area. [`Record::open`] lays it out, [`Record::open_with`] with what [`Choices`] offers beside; each later call
//! takes the record and the same memory.
//!
//! A guest's pages are of 4 KiB, and by bit 7 of an entry of level 2 or 3 of 2 MiB or 1 GiB; host frames are mapped one by one in all
//! of them.
//!
//! Nothing else is asked of the caller: the archive's functions have no precondition. A memory of another length or a
//! record that breaks a rule is refused with 3, and a damaged table with 11; no call reads or writes a word outside the
//! slice.
//!
//! ```
//! use cangrieb::{Answer, Record};
//!
//! let mut memory = vec![0; 16 * 512];
//! let mut unit = Record::open(&mut memory, 4, 4).unwrap();
//! assert_eq!(unit.map(&mut memory, 0, 8, true), Answer::Ok);
//! assert_eq!(unit.root(&mut memory, 0), Answer::Ok);
//! // The guest's top table is its frame 0; its entry 0 names frame 0 again, at each of the four levels.
//! assert_eq!(unit.device_store(&mut memory, 0, 8, 3), Answer::Done { references: 4, exits: 0 });
//! assert_eq!(unit.load(&mut memory, 0, 8), Answer::Value { word: 3, references: 4, exits: 1 });
//! assert_eq!(unit.load(&mut memory, 0, 8), Answer::Value { word: 3, references: 4, exits: 0 });
//! ```

#![no_std]
#![deny(missing_docs)]

use core::fmt;

pub mod raw;

/// The examples of the repository's pages, run as tests.
#[cfg(doctest)]
#[doc = include_str!("../../../README.md")]
#[doc = include_str!("../../../docs/LINKING.md")]
mod pages {}

/// What the unit keeps of an area of tables. The unit's own: a caller has no use for it.
#[repr(C)]
#[derive(Clone, Copy, Debug, Default, PartialEq, Eq)]
pub struct Pool {
    /// Frames handed out so far.
    pub fresh: u64,
    /// The first frame given back, as an entry, or 0.
    pub free: u64,
    /// Tables in use.
    pub used: u64,
    /// The entry of the area's top table, or 0.
    pub top: u64,
}

/// What the automatic choice keeps in numbers. The unit's own: [`Record::marks`] says what a caller may want to know.
#[repr(C)]
#[derive(Clone, Copy, Debug, Default, PartialEq, Eq)]
pub struct Tally {
    /// 1 if it is chosen, as opened, else 0.
    pub on: u64,
    /// The window, one bit for each of the last 64 loads and stores, that of the last lowest: whether it was charged.
    pub charged: u64,
    /// Where the ring is written next, by its low six bits.
    pub at: u64,
    /// Automatic marks.
    pub count: u64,
}

/// The record without its rows of 64 words.
#[repr(C)]
#[derive(Clone, Copy, Debug, Default, PartialEq, Eq)]
pub struct Head {
    /// Levels of tables, 4 as opened.
    pub levels: u64,
    /// Host frames, as opened.
    pub hosts: u64,
    /// Shadow frames, as opened.
    pub shadows: u64,
    /// Frames of the memory.
    pub frames: u64,
    /// Accessed and dirty bits: 1 if they are set, as opened, else 0.
    pub bits: u64,
    /// The host tables.
    pub host: Pool,
    /// The shadow tables.
    pub shadow: Pool,
    /// The guest frame of the guest's top table.
    pub root: u64,
    /// The host frame of the path held at the depth of all levels, or 0.
    pub held: u64,
    /// The places of marks that are set, one bit each.
    pub set: u64,
    /// The automatic choice.
    pub choice: Tally,
}

/// The unit's record. It is plain data: it may be copied, kept and compared. A call changes it where it stands; a refusal
/// leaves it.
#[repr(C)]
#[derive(Clone, Copy, Debug, PartialEq, Eq)]
pub struct Record {
    /// All but the rows of 64 words.
    pub head: Head,
    /// The marks, in ascending order at the places that `head.set` names: each its level in bits
    /// 0 to 2 and above them the indexes that it keeps.
    pub place: [u64; 64],
    /// What stores were charged to, written round and round. `head.choice` says where next, and how many of the last
    /// ones count.
    pub ring: [u64; 64],
    /// The places of the automatic marks, the one set first first, as many as `head.choice` says.
    pub order: [u64; 64],
}

/// What an opening chooses beside its sizes: [`Record::open_with`]. By default nothing is chosen. Later versions have further
/// choices: `Choices { bits: true, ..Choices::default() }` leaves those as they are by default.
#[derive(Clone, Copy, Debug, Default, PartialEq, Eq)]
pub struct Choices {
    /// Accessed and dirty bits in the guest's entries. A load or store that is granted sets bit 5 in each entry of its walk, and
    /// a store also bit 6 in the one where it ends, before its word is loaded or stored; a fault sets none. A bit that is needed and
    /// not set, in a table whose guest frame is mapped read-only, is fault W with that frame. A device store needs and sets
    /// none. Forecasts are refused with 16.
    pub bits: bool,
    /// The automatic choice: a table of level 1 that the guest writes often gets a mark of level 1 by itself, so that it is read
    /// directly and a store to it costs no exit. A store that drops paths of depth 0 by their entries of level 1 is charged to
    /// the lowest prefix of three indexes among theirs; one that has three charges or more in the window then gets its mark. The
    /// window holds the last 64 loads and stores that were not refused, and a root load empties it. If 64 marks are set, the
    /// automatic one with the fewest charges makes room, of several the one set longest ago, and one that is set again counts
    /// as new; if none is automatic, none is set.
    ///
    /// No value, fault or refusal is another by it; references, exits and the figures of forecasts may be. [`Record::marks`]
    /// tells automatic marks from the operator's.
    pub automatic: bool,
}

/// Whose a mark is.
#[derive(Clone, Copy, Debug, PartialEq, Eq)]
pub enum Kind {
    /// [`Record::set_mark`] set it, or took it over.
    Operator,
    /// The automatic choice set it.
    Automatic,
}

/// A mark that is set: [`Record::marks`].
#[derive(Clone, Copy, Debug, PartialEq, Eq)]
pub struct Mark {
    /// The lowest address that it holds for. With the level it names the mark to [`Record::set_mark`] and
    /// [`Record::clear_mark`].
    pub address: u64,
    /// Its level, 1 to 5.
    pub level: u64,
    /// Whose it is.
    pub kind: Kind,
    /// How many loads and stores of the window are charged to its prefix. Only a mark of level 1 has charges, and none
    /// without the automatic choice.
    pub charges: u64,
}

/// What the search among the marks finds for an address.
#[repr(C)]
#[derive(Clone, Copy, Debug, Default, PartialEq, Eq)]
pub struct Lookup {
    /// The depth: the greatest level among the marks that hold for the address, or 0.
    pub depth: u64,
    /// How many marks were read to find it: in the order of their places those up to one of level 5 and with it, or all
    /// that are set.
    pub read: u64,
}

/// Why a walk ended before its word.
#[derive(Clone, Copy, Debug, PartialEq, Eq)]
pub enum Fault {
    /// A: a guest entry is not present.
    Absent {
        /// The level of the entry.
        level: u64,
    },
    /// M: a present guest entry is malformed. That is by one of bits 48 to 51, by bit 7 at level 4, or by a frame bit below the size
    /// of a large page.
    Malformed {
        /// The level of the entry.
        level: u64,
    },
    /// P: a store through a guest entry that is not writable.
    Protected {
        /// The level where the walk ends: 1, or that of a large page's entry.
        level: u64,
    },
    /// H: a guest frame is not mapped.
    HostAbsent {
        /// The guest frame.
        frame: u64,
    },
    /// W: a store to a guest frame that is mapped read-only, or, if they are chosen, an accessed or dirty bit to be set in one.
    HostReadOnly {
        /// The guest frame.
        frame: u64,
    },
}

/// What a call answers. References are the words of tables read; exits are calls of the guest's processor to the monitor.
///
/// `W` is what a load yields: 64 bits, or as many as the load of that width has ([`Record::load_u8`] and its like).
#[derive(Clone, Copy, Debug, PartialEq, Eq)]
pub enum Answer<W = u64> {
    /// Done, where a call has nothing to count.
    Ok,
    /// What a load found.
    Value {
        /// The bytes loaded, the first of them lowest; zeros above them.
        word: W,
        /// Words of tables read.
        references: u64,
        /// Calls of the guest's processor to the monitor.
        exits: u64,
    },
    /// A store is done.
    Done {
        /// Words of tables read.
        references: u64,
        /// Calls of the guest's processor to the monitor.
        exits: u64,
    },
    /// The walk ended before its word; no guest word is changed.
    Fault {
        /// Why.
        fault: Fault,
        /// Words of tables read.
        references: u64,
        /// Calls of the guest's processor to the monitor.
        exits: u64,
    },
    /// A forecast: what serving its list would cost.
    Figures {
        /// Words of tables read, in all.
        references: u64,
        /// Calls of the guest's processor to the monitor, in all.
        exits: u64,
        /// The greatest number of shadow tables in use, from before the first address on.
        tables: u64,
    },
    /// The call was refused; the record is as it was, and so is the memory, but that 11 may have altered host and shadow frames.
    Refused(Refusal),
}

/// Why a call was refused: its number, 1 to 12 or 14 to 16.
///
/// For 4: a guest-virtual address is legal when its bits 48 to 63 all equal bit 47; a device's address, which is
/// guest-physical, is below 2^48. Loads and stores are at multiples of their width; a mark's address need not be.
#[derive(Clone, Copy, Debug, PartialEq, Eq)]
pub struct Refusal(pub u64);

impl fmt::Display for Refusal {
    fn fmt(&self, out: &mut fmt::Formatter) -> fmt::Result {
        let why = match self.0 {
            1 => "the words are no multiple of 512, or the frames are 0 or more than 65,536",
            2 => "fewer than 4 host or shadow frames, or no guest frame is left",
            3 => "the memory has another length, or the record breaks a rule",
            4 => "the address is not legal, or no multiple of the width",
            5 => "the mark's level is not 1 to 5",
            6 => "the mark is set already, or is not set",
            7 => "64 marks are set",
            8 => "the guest frame does not fit",
            9 => "the host frame is not in the guest area",
            10 => "no host table is free",
            11 => "a host or shadow table is damaged",
            12 => "the guest frame is not mapped",
            14 => "more than 256 addresses",
            15 => "the width is not 1, 2, 4 or 8",
            16 => "no forecast with accessed and dirty bits",
            _ => "no number of the unit's",
        };
        write!(out, "refused with {}: {why}", self.0)
    }
}

impl core::error::Error for Refusal {}

impl fmt::Display for Fault {
    fn fmt(&self, out: &mut fmt::Formatter) -> fmt::Result {
        match self {
            Fault::Absent { level } => write!(out, "A: the guest entry of level {level} is not present"),
            Fault::Malformed { level } => write!(out, "M: the guest entry of level {level} is malformed"),
            Fault::Protected { level } => write!(out, "P: a store without the right to write, level {level}"),
            Fault::HostAbsent { frame } => write!(out, "H: guest frame {frame} is not mapped"),
            Fault::HostReadOnly { frame } => write!(out, "W: guest frame {frame} is mapped read-only"),
        }
    }
}

impl core::error::Error for Fault {}

impl Answer {
    /// With the value in another type, the rest as it is.
    fn map<W>(self, narrow: fn(u64) -> W) -> Answer<W> {
        match self {
            Answer::Ok => Answer::Ok,
            Answer::Value { word, references, exits } => {
                Answer::Value { word: narrow(word), references, exits }
            }
            Answer::Done { references, exits } => Answer::Done { references, exits },
            Answer::Fault { fault, references, exits } => Answer::Fault { fault, references, exits },
            Answer::Figures { references, exits, tables } => Answer::Figures { references, exits, tables },
            Answer::Refused(refusal) => Answer::Refused(refusal),
        }
    }

    fn from_raw(raw: raw::Answer) -> Answer {
        let raw::Answer { references, exits, .. } = raw;
        match raw.kind {
            0 => Answer::Ok,
            1 => Answer::Value { word: raw.number, references, exits },
            2 => Answer::Done { references, exits },
            3 => Answer::Fault { fault: Fault::from_raw(raw), references, exits },
            5 => Answer::Figures { references, exits, tables: raw.number },
            _ => Answer::Refused(Refusal(raw.number)),
        }
    }
}

impl Mark {
    /// None if nothing stands there.
    fn from_raw(raw: raw::Mark) -> Option<Mark> {
        let raw::Mark { level, address, charges, .. } = raw;
        let kind = match raw.kind {
            1 => Kind::Operator,
            2 => Kind::Automatic,
            _ => return None,
        };
        Some(Mark { address, level, kind, charges })
    }
}

impl Fault {
    fn from_raw(raw: raw::Answer) -> Fault {
        let raw::Answer { level, frame, .. } = raw;
        match raw.letter as u8 {
            b'A' => Fault::Absent { level },
            b'M' => Fault::Malformed { level },
            b'P' => Fault::Protected { level },
            b'H' => Fault::HostAbsent { frame },
            _ => Fault::HostReadOnly { frame },
        }
    }
}

/// Calls an exported function with the parts of the record, the memory and the numbers.
macro_rules! call {
    ($function:ident($record:expr, $memory:expr $(, $number:expr)*)) => {{
        let Record { head, place, ring, order } = $record;
        let (memory, words) = ($memory.as_mut_ptr(), $memory.len());
        // The pointer and the length are those of one slice, lent mutably for the call, as the parts of the record are lent
        // by reference: none overlaps another. The function asks for nothing else.
        let answer = unsafe { raw::$function(head, place, ring, order, memory, words $(, $number)*) };
        Answer::from_raw(answer)
    }};
}

/// The calls of one width: each the call with that width, in the type that has it.
macro_rules! widths {
    ($($load:ident, $store:ident, $device_store:ident, $word:ident, $width:literal, $bytes:literal;)*) => {$(
        #[doc = concat!("[`Record::load`] of ", $bytes, ".")]
        #[inline]
        pub fn $load(&mut self, memory: &mut [u64], address: u64) -> Answer<$word> {
            // The bits above the width are 0.
            self.load(memory, address, $width).map(|word| word as $word)
        }

        #[doc = concat!("[`Record::store`] of ", $bytes, ".")]
        #[inline]
        pub fn $store(&mut self, memory: &mut [u64], address: u64, value: $word) -> Answer {
            self.store(memory, address, $width, u64::from(value))
        }

        #[doc = concat!("[`Record::device_store`] of ", $bytes, ".")]
        #[inline]
        pub fn $device_store(&mut self, memory: &mut [u64], address: u64, value: $word) -> Answer {
            self.device_store(memory, address, $width, u64::from(value))
        }
    )*};
}

impl Record {
    widths! {
        load_u8, store_u8, device_store_u8, u8, 1, "1 byte";
        load_u16, store_u16, device_store_u16, u16, 2, "2 bytes";
        load_u32, store_u32, device_store_u32, u32, 4, "4 bytes";
        load_u64, store_u64, device_store_u64, u64, 8, "8 bytes";
    }

    /// Opens a memory with so many host frames and shadow frames; those are cleared, the guest area is kept. Refused with
    /// 1 if the words are no multiple of 512 or the frames are 0 or more than 65,536; with 2 if either number is below 4
    /// or no guest frame is left. Nothing else is chosen.
    pub fn open(memory: &mut [u64], hosts: u64, shadows: u64) -> Result<Record, Refusal> {
        Record::open_with(memory, hosts, shadows, Choices::default())
    }

    /// Opens a memory as [`Record::open`] does, with what is chosen beside the sizes: 1, 2.
    ///
    /// ```
    /// use cangrieb::{Answer, Choices, Record};
    ///
    /// let mut memory = vec![0; 16 * 512];
    /// let choices = Choices { bits: true, ..Choices::default() };
    /// let mut unit = Record::open_with(&mut memory, 4, 4, choices).unwrap();
    /// unit.map(&mut memory, 0, 8, true);
    /// unit.device_store(&mut memory, 0, 8, 3);
    /// // The entry by which the word is found is the word itself: its accessed bit is set first, and by the store its dirty bit.
    /// assert_eq!(unit.load(&mut memory, 0, 8), Answer::Value { word: 0x23, references: 4, exits: 1 });
    /// assert!(matches!(unit.store(&mut memory, 8, 8, 1), Answer::Done { .. }));
    /// assert_eq!(unit.load(&mut memory, 0, 8), Answer::Value { word: 0x63, references: 4, exits: 0 });
    /// ```
    pub fn open_with(
        memory: &mut [u64],
        hosts: u64,
        shadows: u64,
        choices: Choices,
    ) -> Result<Record, Refusal> {
        let mut record = Record::zeros();
        let Choices { bits, automatic } = choices;
        match call!(cangrieb_open(&mut record, memory, hosts, shadows, bits, automatic)) {
            Answer::Refused(refusal) => Err(refusal),
            _ => Ok(record),
        }
    }

    /// The record that nothing has opened: every call refuses it with 3.
    pub fn zeros() -> Record {
        Record { head: Head::default(), place: [0; 64], ring: [0; 64], order: [0; 64] }
    }

    /// Loads `width` bytes, 1, 2, 4 or 8, at a guest-virtual address: 3, 15 for another width, 4, 11. The first byte is the
    /// lowest of the value, and above the last are zeros.
    ///
    /// ```
    /// # use cangrieb::{Answer, Record};
    /// # let mut memory = vec![0; 16 * 512];
    /// # let mut unit = Record::open(&mut memory, 4, 4).unwrap();
    /// # unit.map(&mut memory, 0, 8, true);
    /// # unit.device_store_u64(&mut memory, 0, 3);
    /// unit.store(&mut memory, 8, 8, 0x1122_3344_5566_7788);
    /// unit.store(&mut memory, 9, 1, 0xaa);
    /// assert!(matches!(unit.load(&mut memory, 8, 4), Answer::Value { word: 0x5566_aa88, .. }));
    /// assert!(matches!(unit.load_u16(&mut memory, 14), Answer::Value { word: 0x1122, .. }));
    /// ```
    #[inline]
    pub fn load(&mut self, memory: &mut [u64], address: u64, width: u64) -> Answer {
        call!(cangrieb_load(self, memory, address, width))
    }

    /// Stores the low `width` bytes of a value, 1, 2, 4 or 8, at a guest-virtual address: 3, 15 for another width, 4, 11. No
    /// other byte is changed; the bits of the value above the width are not read.
    #[inline]
    pub fn store(&mut self, memory: &mut [u64], address: u64, width: u64, value: u64) -> Answer {
        call!(cangrieb_store(self, memory, address, width, value))
    }

    /// A device stores as [`Record::store`] does, at a guest-physical address: 3, 15, 4, 11.
    #[inline]
    pub fn device_store(&mut self, memory: &mut [u64], address: u64, width: u64, value: u64) -> Answer {
        call!(cangrieb_device_store(self, memory, address, width, value))
    }

    /// Loads the root, the guest frame of the guest's top table: 3, 8. It drops all held paths and empties the window of
    /// the automatic choice.
    #[inline]
    pub fn root(&mut self, memory: &mut [u64], guest: u64) -> Answer {
        call!(cangrieb_root(self, memory, guest))
    }

    /// Maps a guest frame to a host frame of the guest area, or maps it anew: 3, 8, 9, 10, 11.
    #[inline]
    pub fn map(&mut self, memory: &mut [u64], guest: u64, frame: u64, writable: bool) -> Answer {
        call!(cangrieb_map(self, memory, guest, frame, writable))
    }

    /// Unmaps a guest frame: 3, 8, 12, 11.
    #[inline]
    pub fn unmap(&mut self, memory: &mut [u64], guest: u64) -> Answer {
        call!(cangrieb_unmap(self, memory, guest))
    }

    /// Sets a mark of level 1 to 5 at an address: 3, 4, 5, 6, 7, 11. One that is automatic becomes the operator's, without 6.
    /// If 64 marks are set, an automatic one makes room for any other ([`Choices::automatic`]): 7 is for 64 of the operator's.
    #[inline]
    pub fn set_mark(&mut self, memory: &mut [u64], address: u64, level: u64) -> Answer {
        call!(cangrieb_set_mark(self, memory, address, level))
    }

    /// Clears a mark: 3, 4, 5, 6, 11. An automatic one is not the operator's to clear: 6.
    #[inline]
    pub fn clear_mark(&mut self, memory: &mut [u64], address: u64, level: u64) -> Answer {
        call!(cangrieb_clear_mark(self, memory, address, level))
    }

    /// What loads of these guest-virtual addresses, in this order, would cost: 3, 16 if accessed and dirty bits are chosen, 14
    /// for more than 256 addresses, 11.
    /// A load that would fault counts what its fault carries, one that would be refused with 4 counts nothing, and the list
    /// goes on. Nothing is changed, not by 11 either.
    ///
    /// ```
    /// use cangrieb::{Answer, Record};
    ///
    /// let mut memory = vec![0; 16 * 512];
    /// let mut unit = Record::open(&mut memory, 4, 4).unwrap();
    /// unit.map(&mut memory, 0, 8, true);
    /// unit.device_store(&mut memory, 0, 8, 3);
    /// // The first load fills the path through four shadow tables, the second finds it; 4 is no multiple of 8.
    /// let figures = unit.forecast(&memory, &[0, 8, 4]);
    /// assert_eq!(figures, Answer::Figures { references: 8, exits: 1, tables: 4 });
    /// assert_eq!(unit.load(&mut memory, 0, 8), Answer::Value { word: 3, references: 4, exits: 1 });
    /// ```
    #[inline]
    pub fn forecast(&self, memory: &[u64], addresses: &[u64]) -> Answer {
        // Each pointer and its length are those of one slice. All is lent to be read and nothing is written, so that it
        // does no harm if the two overlap. The function asks for nothing else.
        let answer = unsafe {
            raw::cangrieb_forecast(
                &self.head,
                &self.place,
                &self.ring,
                &self.order,
                memory.as_ptr(),
                memory.len(),
                addresses.as_ptr(),
                addresses.len(),
            )
        };
        Answer::from_raw(answer)
    }

    /// The depth of a guest-virtual address by the marks that are set, and how many marks a load or store reads to find it. A request
    /// of a large page whose entry lies above that level has depth 0.
    ///
    /// This looks at the marks alone: it is no call to the unit, takes no memory and refuses nothing. The bits of the address
    /// above its indexes are not read. Of a record that a call would refuse with 3 the two numbers mean nothing, but that
    /// the depth is at most 7 and no more marks were read than are set.
    ///
    /// ```
    /// use cangrieb::{Lookup, Record};
    ///
    /// let mut memory = vec![0; 16 * 512];
    /// let mut unit = Record::open(&mut memory, 4, 4).unwrap();
    /// for page in 0..10 {
    ///     unit.set_mark(&mut memory, page << 21, 1);
    /// }
    /// assert_eq!(unit.depth(0), Lookup { depth: 1, read: 10 });
    /// // A mark of level 5 holds for every address and ends the search: only marks of the first table stand before it.
    /// unit.set_mark(&mut memory, 0, 5);
    /// assert_eq!(unit.depth(0), Lookup { depth: 5, read: 2 });
    /// ```
    #[inline]
    pub fn depth(&self, address: u64) -> Lookup {
        // Both parts are lent to be read. The function asks for nothing else.
        unsafe { raw::cangrieb_depth(&self.head, &self.place, address) }
    }

    /// The marks that are set, in the order of their places: ascending by the indexes that they keep, as one number, and then
    /// by level.
    ///
    /// As [`Record::depth`] this is no call to the unit and refuses nothing. Of a record that a call would refuse with 3 it
    /// yields at most 64 marks, which mean nothing.
    ///
    /// ```
    /// use cangrieb::{Choices, Kind, Mark, Record};
    ///
    /// let mut memory = vec![0; 16 * 512];
    /// let choices = Choices { automatic: true, ..Choices::default() };
    /// let mut unit = Record::open_with(&mut memory, 4, 4, choices).unwrap();
    /// unit.map(&mut memory, 0, 8, true);
    /// unit.device_store(&mut memory, 0, 8, 3);
    /// // Address 0 is the entry by which it is found, at each level. Each store of it drops its own path.
    /// for _ in 0..3 {
    ///     assert_eq!(unit.marks().count(), 0);
    ///     unit.store(&mut memory, 0, 8, 3);
    /// }
    /// let mark = Mark { address: 0, level: 1, kind: Kind::Automatic, charges: 3 };
    /// assert!(unit.marks().eq([mark]));
    /// unit.set_mark(&mut memory, 0, 1);
    /// assert!(unit.marks().eq([Mark { kind: Kind::Operator, ..mark }]));
    /// ```
    pub fn marks(&self) -> impl Iterator<Item = Mark> + '_ {
        let Record { head, place, ring, order } = self;
        // All four parts are lent to be read. The function asks for nothing else.
        let at = |at| unsafe { raw::cangrieb_mark(head, place, ring, order, at) };
        (0..64).filter_map(move |place| Mark::from_raw(at(place)))
    }
}
