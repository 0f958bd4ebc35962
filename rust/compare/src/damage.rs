//! Damage to a record and its memory, and what must hold of a call and of a lookup on them all the same.

mod automatic;

use crate::{address_in, answer, is_set, lookup, places};
use cangrieb::{Head, Record};
use std::collections::BTreeMap;
use walker::book::Book;
use walker::numbers::{Bytes, ACCESSED, DIRTY, LARGE, WIDTHS, WORD_BYTES};
use walker::random::Random;
use walker::unit::{refuse_device_store, refuse_request};
use walker::{Answer, Call, Fault};

const FRAME: usize = 512;
/// As an opening sets them; any other number is refused with 3.
const LEVELS: u32 = 4;

/// A memory with a margin of known words on each side of it, which no call may touch.
#[derive(Clone)]
pub struct Lent {
    words: Vec<u64>,
    left: Vec<u64>,
    right: Vec<u64>,
}

impl Lent {
    /// With a margin of 0 the memory is an allocation of its own, for a tool that watches every access.
    pub fn new(memory: &[u64], margin: usize, random: &mut Random) -> Lent {
        let mut side = || -> Vec<u64> { (0..margin).map(|_| random.word()).collect() };
        let (left, right) = (side(), side());
        let words = [&left, memory, &right].concat();
        Lent { words, left, right }
    }

    pub fn memory(&mut self) -> &mut [u64] {
        let end = self.words.len() - self.right.len();
        &mut self.words[self.left.len()..end]
    }

    fn margins_stand(&self) -> bool {
        self.words.starts_with(&self.left) && self.words.ends_with(&self.right)
    }
}

/// A unit's record and memory.
#[derive(Clone)]
pub struct State {
    pub record: Record,
    pub lent: Lent,
}

/// How often each answer came, and each sort of damage to the marks.
pub type Counts = BTreeMap<String, u64>;

impl State {
    /// A call, and what must hold after it whatever the record and the memory were:
    /// no word outside the memory changes; a refusal leaves the record, and
    /// but for 11 leaves every word; a load or store that its width or address forbids is refused with
    /// 15 or 4, unless the record is with 3; a store changes its bytes of one guest word at most, to its
    /// value and at its place in a frame, and any other call none; a load yields bytes that stand
    /// in the guest area, at its place in a frame; a forecast yields figures, 3, 14 or 11, and leaves
    /// the record and every word. With accessed and dirty bits a load that is done may also set bit 5 in as many
    /// guest words as there are levels, a store so too, and bit 6 in one of them, and a forecast is refused with 3
    /// or 16. A record that says neither on nor off is refused with 3. So is one whose automatic choice breaks a rule, and no
    /// other is for its choice; what a call may change of that is in `automatic`.
    pub fn checked_call(&mut self, before: &mut State, call: &Call, part: usize, counts: &mut Counts) {
        before.record = self.record;
        before.lent.words.copy_from_slice(&self.lent.words);
        let said = answer(&mut self.record, &mut self.lent.memory()[..part], call);
        let bits = before.record.head.bits == 1;
        count(counts, name(call, &said));
        count_if(counts, is_large(call, &said), &format!("large: {}", name(call, &said)));
        if bits {
            count(counts, format!("bits: {}", name(call, &said)));
        }
        if before.record.head.choice.on == 1 {
            count(counts, format!("choice: {}", name(call, &said)));
        }
        assert!(before.record.head.bits <= 1 || said == Answer::No(3), "{call:?} => {said:?}: bits");
        // A load that nothing but 3 keeps from being refused with 4.
        let mut is_refused = |mut record: Record| {
            let memory = &mut self.lent.memory()[..part];
            answer(&mut record, memory, &Call::load_word(1 << 48)) == Answer::No(3)
        };
        let broken = automatic::broken_rules(&before.record);
        let refused = !broken.is_empty() || is_refused(automatic::without_choice(&before.record));
        assert_eq!(said == Answer::No(3), refused, "{call:?} => {said:?}: {broken:?}");
        if let Some(number) = refusal_by_numbers(call, bits) {
            assert_eq!(said, Answer::No(if refused { 3 } else { number }), "{call:?}");
        }
        assert!(self.lent.margins_stand(), "{call:?} => {said:?}: a word outside the memory");
        checked_lookup(&self.record, address_in(call), refused, counts);
        checked_marks(&self.record, refused);
        if let Call::Forecast { addresses } = call {
            assert!(self.record == before.record, "{call:?} => {said:?}: the record");
            assert!(self.lent.words == before.lent.words, "{call:?} => {said:?}: a word");
            return check_figures(addresses.len() as u64, &said);
        }
        if let Answer::No(number) = said {
            assert!(self.record == before.record, "{call:?} => {said:?}: the record");
            assert!(number == 11 || self.lent.words == before.lent.words, "{call:?} => {said:?}: a word");
        }
        if said == Answer::No(3) {
            return;
        }
        if !matches!(said, Answer::No(_)) {
            automatic::check_changes(call, &said, &before.record, &self.record, counts);
        }
        // The record broke no rule, so its sizes are those of the memory.
        let first = (before.record.head.hosts + before.record.head.shadows) as usize * FRAME;
        let guest = &self.lent.memory()[first..];
        let guest_before = &before.lent.memory()[first..];
        let changed = || -> Vec<Changed> {
            let words = guest.iter().zip(guest_before).enumerate();
            let others = words.filter(|(_, (now, was))| now != was);
            others.map(|(at, (now, was))| Changed { place: at % FRAME, now: *now, was: *was }).collect()
        };
        match (call, said) {
            (
                Call::Store { address, width, value } | Call::DeviceStore { address, width, value },
                Answer::Done { .. },
            ) => {
                let (at, bytes) = (place(*address), Bytes::at(*address, *width));
                // The bits that it may set before, also in the word that it then stores to.
                let bits = if bits && matches!(call, Call::Store { .. }) { ACCESSED | DIRTY } else { 0 };
                let (set, own): (Vec<Changed>, Vec<Changed>) =
                    changed().into_iter().partition(|word| word.only_sets(bits));
                let is_own = |word: &Changed| {
                    let before = [0, ACCESSED, DIRTY, ACCESSED | DIRTY].map(|set| word.was | set & bits);
                    word.place == at && before.iter().any(|was| word.now == bytes.put(*was, *value))
                };
                assert!(own.iter().all(is_own) && own.len() <= 1, "{call:?}: {own:x?}");
                // Of those in which bits alone are set one may be stored to.
                let dirty = set.iter().filter(|word| word.place != at && (word.now ^ word.was) & DIRTY != 0);
                assert!(dirty.count() <= 1 && set.len() <= LEVELS as usize + 1, "{call:?}: {set:x?}");
                count_if(counts, !set.is_empty(), "bits: set by a store");
                assert!(
                    guest.iter().skip(at).step_by(FRAME).any(|word| *word == bytes.put(*word, *value)),
                    "{call:?}: not stored"
                );
            }
            (Call::Load { address, width }, Answer::Value { value, .. }) => {
                let (at, bytes) = (place(*address), Bytes::at(*address, *width));
                let changed = changed();
                let bits = if bits { ACCESSED } else { 0 };
                assert!(
                    changed.iter().all(|word| word.only_sets(bits)) && changed.len() <= LEVELS as usize,
                    "{call:?} => {said:?}: a guest word: {changed:x?}"
                );
                count_if(counts, !changed.is_empty(), "bits: set by a load");
                assert!(
                    guest.iter().skip(at).step_by(FRAME).any(|word| bytes.of(*word) == value),
                    "{call:?} => {said:?}"
                );
            }
            _ => assert!(guest == guest_before, "{call:?} => {said:?}: a guest word"),
        }
    }

    /// A call on this record, and on one that differs where no word counts: the answer is the same, and so is what counts
    /// after it. This state is the one after the first of the two.
    pub fn checked_twins(&mut self, twin: &mut State, call: &Call, random: &mut Random) {
        twin.record = automatic::with_noise(&self.record, random);
        twin.lent.words.copy_from_slice(&self.lent.words);
        let said = answer(&mut self.record, self.lent.memory(), call);
        let other = answer(&mut twin.record, twin.lent.memory(), call);
        assert_eq!(said, other, "{call:?}: words that are nobody's");
        assert!(self.lent.words == twin.lent.words, "{call:?} => {said:?}: words that are nobody's");
        if said != Answer::No(3) {
            let (one, other) = (automatic::what_counts(&self.record), automatic::what_counts(&twin.record));
            assert!(one == other, "{call:?} => {said:?}: {one:?}, {other:?}");
        }
    }

    /// One to four kinds of damage.
    pub fn damage(&mut self, random: &mut Random, counts: &mut Counts) {
        for _ in 0..1 + random.below(4) {
            match random.below(20) {
                0 => damage_record(&mut self.record, random),
                1 => damage_fields(&mut self.record, random),
                2 | 3 => damage_pools(&mut self.record, random),
                4 => flip_bits(self.lent.memory(), random),
                5 => spoil_frame(&self.record.clone(), self.lent.memory(), random),
                6 | 7 => swap_entries(&self.record.clone(), self.lent.memory(), random),
                8 | 9 => bend_entries(&self.record.clone(), self.lent.memory(), random),
                10 | 11 => close_cycles(&self.record.clone(), self.lent.memory(), random),
                12 => move_marks(&mut self.record, random),
                13 => damage_choice(&mut self.record, random),
                14 => automatic::damage_tally(&mut self.record, random),
                15 | 16 => automatic::damage_rows(&mut self.record, random),
                17 | 18 => make_large(&self.record.clone(), self.lent.memory(), random),
                _ => damage_marks(&mut self.record, random),
            }
        }
        let odd = [odd_marks(&self.record), automatic::broken_rules(&self.record)].concat();
        odd.iter().for_each(|odd| count(counts, format!("record with {odd}")));
    }
}

fn count(counts: &mut Counts, name: String) {
    *counts.entry(name).or_insert(0) += 1;
}

fn count_if(counts: &mut Counts, condition: bool, name: &str) {
    if condition {
        count(counts, name.into());
    }
}

/// A guest word that a call changed: its place in its frame, and what it is and was.
#[derive(Debug)]
struct Changed {
    place: usize,
    now: u64,
    was: u64,
}

impl Changed {
    /// Whether some of these bits were set in it, and nothing else is changed.
    fn only_sets(&self, bits: u64) -> bool {
        self.now == self.was | self.now & bits
    }
}

/// A lookup, and what must hold of it whatever the record is: it leaves the record, yields a level as a place can hold it, and
/// reads no more marks than are set. If no rule of the record is broken, it is the walker's, by the marks that stand there.
fn checked_lookup(record: &Record, address: u64, refused: bool, counts: &mut Counts) {
    let before = *record;
    let said = record.depth(address);
    assert!(*record == before, "lookup of {address:#x} => {said:?}: the record");
    let set = record.head.set.count_ones() as u64;
    assert!(said.depth <= 7 && said.read <= set, "lookup of {address:#x} => {said:?}: {record:?}");
    if refused {
        return count(counts, "lookup: record refused".into());
    }
    count(counts, "lookup: record not refused".into());
    // The walker takes far longer than the unit.
    if counts["lookup: record not refused"] % 4 == 1 {
        check_by_walker(record, address, counts);
    }
}

/// As many marks are listed as are set, each with no more charges than the window can have; of a record that is not refused,
/// what its words say.
fn checked_marks(record: &Record, refused: bool) {
    let set = record.head.set.count_ones() as usize;
    let few_charges = record.marks().filter(|mark| mark.charges <= 64);
    assert_eq!(few_charges.count(), set, "{record:?}");
    if !refused {
        automatic::check_listed(record);
    }
}

/// The walker's lookup, by the marks that stand in the record.
fn check_by_walker(record: &Record, address: u64, counts: &mut Counts) {
    let levels = record.head.levels as u32;
    let places = places(record);
    let mut book = Book::new(levels, record.head.shadows);
    book.marks.extend(places.iter().flatten().cloned());
    let said = lookup(record, address);
    assert_eq!(Some(said), book.lookup(&places, address), "lookup of {address:#x}: {record:?}");
    count(counts, "lookup: as the walker's".into());
    // No more are read in a run, where the marks are in order.
    if said.depth > levels && said.read > levels as usize + 1 {
        count(counts, "lookup: as the walker's, ended far behind".into());
    }
}

/// What no run has: marks that no call sets, or not there, another number of levels to read them by, or another choice.
fn odd_marks(record: &Record) -> Vec<&'static str> {
    let set = (0..64).filter(|place| is_set(record, *place));
    let words: Vec<u64> = set.map(|place| record.place[place]).collect();
    let is_there = |level: u64| words.iter().any(|word| word & 7 == level);
    let odd = [
        (is_there(0), "a mark of level 0"),
        (is_there(6), "a mark of level 6"),
        (is_there(7), "a mark of level 7"),
        (words.iter().any(|word| word >> 3 >= 1 << 27), "a mark of more than three indexes"),
        (words.windows(2).any(|two| two[0] == two[1]), "two marks alike"),
        (words.windows(2).any(|two| two[0] > two[1]), "marks out of order"),
        (record.head.levels != 4, "another number of levels"),
        (record.head.bits > 1, "bits neither on nor off"),
    ];
    odd.iter().filter(|(is_so, _)| *is_so).map(|(_, name)| *name).collect()
}

/// The place of an address's word in its frame.
fn place(address: u64) -> usize {
    (address / 8) as usize % FRAME
}

/// A plain walk, the longest, reads 24 words, and no load costs more than two exits. Where 16 is right is checked before.
fn check_figures(length: u64, said: &Answer) {
    match *said {
        Answer::Figures { references, exits, .. } => {
            assert!(length <= 256 && references <= 24 * length && exits <= 2 * length, "{length}: {said:?}")
        }
        Answer::No(14) => assert!(length > 256, "{length}: {said:?}"),
        _ => assert!(matches!(said, Answer::No(3 | 16 | 11)), "{said:?} to a forecast"),
    }
}

/// The refusal that only 3 goes before, if it is by numbers of the call alone, or by the record's choice of bits.
fn refusal_by_numbers(call: &Call, bits: bool) -> Option<u32> {
    match *call {
        Call::Load { address, width } | Call::Store { address, width, .. } => {
            refuse_request(LEVELS, address, width)
        }
        Call::DeviceStore { address, width, .. } => refuse_device_store(LEVELS, address, width),
        Call::Forecast { .. } => bits.then_some(16),
        _ => None,
    }
}

/// The answers to a forecast have names of their own, and those to a load or store that is not of a word.
fn name(call: &Call, said: &Answer) -> String {
    let name = match said {
        Answer::Ok => "ok".into(),
        Answer::Value { .. } => "value".into(),
        Answer::Done { .. } => "done".into(),
        Answer::Fault { fault, .. } => format!("fault {}", fault.letter()),
        Answer::Figures { .. } => "figures".into(),
        Answer::No(number) => format!("refusal {number}"),
    };
    match *call {
        Call::Forecast { .. } => format!("forecast: {name}"),
        Call::Load { width, .. } | Call::Store { width, .. } | Call::DeviceStore { width, .. }
            if width != WORD_BYTES =>
        {
            format!("{}: {name}", if WIDTHS.contains(&width) { "narrow" } else { "wrong width" })
        }
        _ => name,
    }
}

/// Whether a load or store shows by its answer that it went to a large page: read directly, where the count is no multiple of 4, or
/// not to be stored to.
fn is_large(call: &Call, said: &Answer) -> bool {
    match (call, said) {
        (Call::Load { .. }, Answer::Value { references, .. })
        | (Call::Store { .. }, Answer::Done { references, .. }) => references % 4 != 0,
        (_, Answer::Fault { fault: Fault::Protected { level }, .. }) => *level > 1,
        _ => false,
    }
}

// The record.

fn flip(word: &mut u64, random: &mut Random) {
    *word ^= 1 << random.below(64);
}

/// One bit of the record.
fn damage_record(record: &mut Record, random: &mut Random) {
    let at = random.below(FIELDS + 3 * 64);
    let Record { head, place, ring, order } = record;
    match field(head, at) {
        Some(word) => flip(word, random),
        None => {
            let at = (at - FIELDS) as usize;
            flip(&mut [place, ring, order][at / 64][at % 64], random);
        }
    }
}

/// A field of the record set to a number near a limit, or to any number.
fn damage_fields(record: &mut Record, random: &mut Random) {
    let head = &mut record.head;
    let words = head.frames.wrapping_mul(512);
    let limits = [0, 1, 4, head.hosts, head.shadows, head.frames, words, 1 << 36, u64::MAX];
    let number = if random.one_in(4) {
        random.word()
    } else {
        random.pick(&limits).wrapping_add(random.below(3)).wrapping_sub(1)
    };
    let at = random.below(FIELDS);
    if let Some(word) = field(head, at) {
        *word = number;
    }
}

/// Fields that may keep their ranges and still say what is not so.
fn damage_pools(record: &mut Record, random: &mut Random) {
    let head = &mut record.head;
    // An earlier damage may have set these to any number.
    let frames = head.frames.clamp(1, 65_536);
    let (hosts, shadows) = (head.hosts.min(frames), head.shadows.min(frames));
    match random.below(8) {
        0 => head.held = hosts + shadows + random.below(frames),
        1 => head.root = random.below(frames),
        2 => head.host.free = (random.below(frames + 2) << 12) | random.below(4),
        3 => head.shadow.free = (random.below(frames + 2) << 12) | random.below(4),
        4 => {
            head.shadow.fresh = random.below(shadows + 1);
            head.shadow.used = random.below(head.shadow.fresh + 1);
        }
        5 => {
            head.host.fresh = random.below(hosts + 1);
            head.host.used = random.below(head.host.fresh + 1);
        }
        6 => head.host.top = (random.below(hosts + 1) << 12) | 1,
        _ => head.shadow.top = ((hosts + random.below(shadows + 1)) << 12) | random.below(2),
    }
}

/// The choice of bits turned, which breaks no rule of the record though entries of held paths may lack their bits then, or
/// neither on nor off.
fn damage_choice(record: &mut Record, random: &mut Random) {
    let bits = &mut record.head.bits;
    *bits = match random.below(6) {
        0 => 2 + random.below(3),
        1 => *bits ^ 1 << random.below(64),
        _ => *bits ^ 1,
    };
}

/// The marks with one of level 5 at any places. No rule of the record is broken: the order follows.
fn move_marks(record: &mut Record, random: &mut Random) {
    let unset = (0..64).find(|at| !is_set(record, *at));
    let ends = (0..64).any(|at| is_set(record, at) && record.place[at] == 5);
    let Record { head, place, order, .. } = record;
    if let (Some(at), false) = (unset, ends) {
        place[at] = 5;
        head.set |= 1 << at;
    }
    for _ in 0..64 {
        let (one, other) = (random.below(64), random.below(64));
        place.swap(one as usize, other as usize);
        let differ = (head.set >> one ^ head.set >> other) & 1;
        head.set ^= differ << one | differ << other;
        for at in order.iter_mut() {
            *at = if *at == one {
                other
            } else if *at == other {
                one
            } else {
                *at
            };
        }
    }
}

/// Places set and not set at will, and marks of any level and with any indexes, out of order or twice.
fn damage_marks(record: &mut Record, random: &mut Random) {
    let Record { head, place, .. } = record;
    let sets = [head.set, head.set << 1, head.set >> 1, !head.set, 0, u64::MAX, random.word()];
    head.set = random.pick(&sets);
    for _ in 0..random.below(8) {
        let (at, other) = (random.below(64) as usize, random.below(64) as usize);
        match random.below(5) {
            0 | 1 => place[at] = place[at] & !7 | random.below(8),
            2 => place[at] = random.word() >> random.below(64),
            3 => place.swap(at, other),
            _ => place[at] = place[other],
        }
        head.set |= random.below(2) << at;
    }
}

/// The words of the head.
const FIELDS: u64 = 20;

fn field(head: &mut Head, at: u64) -> Option<&mut u64> {
    Some(match at {
        0 => &mut head.levels,
        1 => &mut head.hosts,
        2 => &mut head.shadows,
        3 => &mut head.frames,
        4 => &mut head.bits,
        5 => &mut head.host.fresh,
        6 => &mut head.host.free,
        7 => &mut head.host.used,
        8 => &mut head.host.top,
        9 => &mut head.shadow.fresh,
        10 => &mut head.shadow.free,
        11 => &mut head.shadow.used,
        12 => &mut head.shadow.top,
        13 => &mut head.root,
        14 => &mut head.held,
        15 => &mut head.set,
        16 => &mut head.choice.on,
        17 => &mut head.choice.charged,
        18 => &mut head.choice.at,
        19 => &mut head.choice.count,
        _ => return None,
    })
}

// The memory.

/// A frame, mostly of the host or shadow tables in use.
fn some_frame(record: &Record, memory: &[u64], random: &mut Random) -> usize {
    let frames = (memory.len() / FRAME) as u64;
    let frame = match random.below(5) {
        0 => random.below(frames),
        1 | 2 => random.below(record.head.host.fresh.clamp(1, frames)),
        _ => record.head.hosts.min(frames) + random.below(record.head.shadow.fresh.clamp(1, frames)),
    };
    frame.min(frames - 1) as usize
}

/// A word of the frame: one that is not 0, if any is.
fn some_word(memory: &[u64], frame: usize, random: &mut Random) -> usize {
    let start = random.below(FRAME as u64) as usize;
    let places = (0..FRAME).map(|step| frame * FRAME + (start + step) % FRAME);
    let mut used = places.clone().filter(|at| memory[*at] != 0);
    used.next().unwrap_or(frame * FRAME + start)
}

fn flip_bits(memory: &mut [u64], random: &mut Random) {
    for _ in 0..1 + random.below(64) {
        let at = random.below(memory.len() as u64) as usize;
        flip(&mut memory[at], random);
    }
}

/// A whole frame: random words, zeros, ones, present entries, or another frame's words.
fn spoil_frame(record: &Record, memory: &mut [u64], random: &mut Random) {
    let frame = some_frame(record, memory, random);
    let from = some_frame(record, memory, random);
    let frames = (memory.len() / FRAME) as u64;
    let kind = random.below(5);
    for at in 0..FRAME {
        memory[frame * FRAME + at] = match kind {
            0 => random.word(),
            1 => 0,
            2 => u64::MAX,
            3 => (random.below(frames) << 12) | 3 | (random.below(2) << 9),
            _ => memory[from * FRAME + at],
        };
    }
}

fn swap_entries(record: &Record, memory: &mut [u64], random: &mut Random) {
    for _ in 0..1 + random.below(4) {
        let (one, other) = (some_frame(record, memory, random), some_frame(record, memory, random));
        let (one, other) = (some_word(memory, one, random), some_word(memory, other, random));
        memory.swap(one, other);
    }
}

/// Present entries that name frames out of range or of a wrong area, flip their low bits, or lose the bits above them.
fn bend_entries(record: &Record, memory: &mut [u64], random: &mut Random) {
    let frames = (memory.len() / FRAME) as u64;
    for _ in 0..1 + random.below(4) {
        let frame = some_frame(record, memory, random);
        let at = some_word(memory, frame, random);
        let word = memory[at];
        let named = match random.below(5) {
            0 => frames + random.below(3),
            1 => random.below(1 << 40),
            2 => (1 << 40) - 1,
            _ => random.below(frames),
        };
        memory[at] = match random.below(4) {
            0 => word ^ (1 << random.pick(&[0, 1, 7, 9, 12, 48, 52, 63])),
            1 => (named << 12) | 3,
            _ => (word & !(((1 << 40) - 1) << 12)) | (named << 12) | 1,
        };
    }
}

/// Entries with bit 7, in guest tables mostly aligned to 2 MiB or 1 GiB. In host and shadow tables no rule reads the bit.
fn make_large(record: &Record, memory: &mut [u64], random: &mut Random) {
    let frames = (memory.len() / FRAME) as u64;
    let first = record.head.hosts.saturating_add(record.head.shadows).min(frames - 1);
    for _ in 0..1 + random.below(16) {
        let guest = (first + random.below(frames - first)) as usize;
        let frame = if random.one_in(4) { some_frame(record, memory, random) } else { guest };
        let at = some_word(memory, frame, random);
        let low = random.pick(&[0, (1 << 9) - 1, (1 << 9) - 1, (1 << 18) - 1]);
        memory[at] = memory[at] & !(low << 12) | LARGE | random.below(4);
    }
}

/// Tables that name themselves or each other.
fn close_cycles(record: &Record, memory: &mut [u64], random: &mut Random) {
    let frame = some_frame(record, memory, random);
    let other = if random.one_in(2) { frame } else { some_frame(record, memory, random) };
    let all = random.one_in(3);
    for (from, to) in [(frame, other), (other, frame)] {
        let one = some_word(memory, from, random);
        let end = (from + 1) * FRAME;
        for word in &mut memory[if all { from * FRAME..end } else { one..one + 1 }] {
            let kept = *word & !(((1 << 40) - 1) << 12);
            *word = kept | ((to as u64) << 12) | 3;
        }
    }
}
