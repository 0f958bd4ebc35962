//! The exported functions as the archive has them. The four parts of the record and the memory are lent. The memory is a
//! pointer and a number of words; if there are none, the pointer may be null. The answer comes back by value.

use crate::{Head, Lookup};
use core::mem::size_of;

/// An answer in numbers. What a kind does not have is 0.
#[repr(C)]
#[derive(Clone, Copy, Debug, PartialEq, Eq)]
pub struct Answer {
    /// 0 ok, 1 value, 2 done, 3 fault, 4 refusal, 5 figures.
    pub kind: u64,
    /// The word of a value, the number of a refusal, the shadow tables of figures.
    pub number: u64,
    /// The letter of a fault, in ASCII.
    pub letter: u64,
    /// The guest level of A, M and P.
    pub level: u64,
    /// The guest frame of H and W.
    pub frame: u64,
    /// Words of tables read.
    pub references: u64,
    /// Calls of the guest's processor to the monitor.
    pub exits: u64,
}

/// What stands at a place of the marks, in numbers. What a kind does not have is 0.
#[repr(C)]
#[derive(Clone, Copy, Debug, PartialEq, Eq)]
pub struct Mark {
    /// 0 nothing, 1 a mark of the operator's, 2 an automatic one.
    pub kind: u64,
    /// Its level.
    pub level: u64,
    /// The lowest address that it holds for.
    pub address: u64,
    /// The charges to it in the window.
    pub charges: u64,
}

/// The library has these as rows of 20, 7, 2 and 4 words.
const _: () = assert!(size_of::<Head>() == 20 * 8 && size_of::<Answer>() == 7 * 8);
const _: () = assert!(size_of::<Lookup>() == 2 * 8 && size_of::<Mark>() == 4 * 8);

extern "C" {
    /// Lays the memory out and writes the record: 1, 2. A refusal sets the record to 0. The last two arguments choose
    /// accessed and dirty bits, and the automatic choice.
    pub fn cangrieb_open(
        head: &mut Head,
        place: &mut [u64; 64],
        ring: &mut [u64; 64],
        order: &mut [u64; 64],
        memory: *mut u64,
        words: usize,
        hosts: u64,
        shadows: u64,
        bits: bool,
        automatic: bool,
    ) -> Answer;
    /// Loads 1, 2, 4 or 8 bytes: 3, 15, 4, 11.
    pub fn cangrieb_load(
        head: &mut Head,
        place: &[u64; 64],
        ring: &[u64; 64],
        order: &[u64; 64],
        memory: *mut u64,
        words: usize,
        address: u64,
        width: u64,
    ) -> Answer;
    /// Stores the low 1, 2, 4 or 8 bytes of a value: 3, 15, 4, 11.
    pub fn cangrieb_store(
        head: &mut Head,
        place: &mut [u64; 64],
        ring: &mut [u64; 64],
        order: &mut [u64; 64],
        memory: *mut u64,
        words: usize,
        address: u64,
        width: u64,
        value: u64,
    ) -> Answer;
    /// A device stores at a guest-physical address: 3, 15, 4, 11.
    pub fn cangrieb_device_store(
        head: &mut Head,
        place: &[u64; 64],
        ring: &[u64; 64],
        order: &[u64; 64],
        memory: *mut u64,
        words: usize,
        address: u64,
        width: u64,
        value: u64,
    ) -> Answer;
    /// Another root: 3, 8.
    pub fn cangrieb_root(
        head: &mut Head,
        place: &[u64; 64],
        ring: &[u64; 64],
        order: &[u64; 64],
        memory: *const u64,
        words: usize,
        guest: u64,
    ) -> Answer;
    /// Maps a guest frame, or maps it anew: 3, 8, 9, 10, 11.
    pub fn cangrieb_map(
        head: &mut Head,
        place: &[u64; 64],
        ring: &[u64; 64],
        order: &[u64; 64],
        memory: *mut u64,
        words: usize,
        guest: u64,
        frame: u64,
        writable: bool,
    ) -> Answer;
    /// Unmaps a guest frame: 3, 8, 12, 11.
    pub fn cangrieb_unmap(
        head: &mut Head,
        place: &[u64; 64],
        ring: &[u64; 64],
        order: &[u64; 64],
        memory: *mut u64,
        words: usize,
        guest: u64,
    ) -> Answer;
    /// Sets a mark: 3, 4, 5, 6, 7, 11.
    pub fn cangrieb_set_mark(
        head: &mut Head,
        place: &mut [u64; 64],
        ring: &mut [u64; 64],
        order: &mut [u64; 64],
        memory: *mut u64,
        words: usize,
        address: u64,
        level: u64,
    ) -> Answer;
    /// Clears a mark: 3, 4, 5, 6, 11.
    pub fn cangrieb_clear_mark(
        head: &mut Head,
        place: &mut [u64; 64],
        ring: &mut [u64; 64],
        order: &mut [u64; 64],
        memory: *mut u64,
        words: usize,
        address: u64,
        level: u64,
    ) -> Answer;
    /// What loads of so many addresses would cost: 3, 16, 14, 11. If there are none, their pointer may be null.
    pub fn cangrieb_forecast(
        head: &Head,
        place: &[u64; 64],
        ring: &[u64; 64],
        order: &[u64; 64],
        memory: *const u64,
        words: usize,
        addresses: *const u64,
        count: usize,
    ) -> Answer;
    /// The depth of an address, and how many marks are read to find it. Nothing is refused.
    pub fn cangrieb_depth(head: &Head, place: &[u64; 64], address: u64) -> Lookup;
    /// What stands at one of the 64 places of the marks. Nothing is refused.
    pub fn cangrieb_mark(
        head: &Head,
        place: &[u64; 64],
        ring: &[u64; 64],
        order: &[u64; 64],
        at: u64,
    ) -> Mark;
}
