//! The page tables of a real Linux guest (data/linux-guest): every page that the emulator lists, each page of 4 KiB in its large
//! ones, and every address that it was asked for, translated by the proved unit and by the second walker, at depth 0 and with marks
//! of levels 1 to 5. Both must find the recorded physical address, with the count that the papers give, store where the flags
//! allow it and fault where there is no page.
//! `-- --nocapture` shows how many there are.

use cangrieb::Record;
use compare::answer;
use std::collections::{BTreeMap, BTreeSet};
use walker::book::Book;
use walker::machine::{Machine, Mapping};
use walker::numbers::{different_proper_prefixes, indexes};
use walker::{Answer, Call, Fault, Unit};

const TABLES: &str = include_str!("../data/linux-guest/tables.txt");
const PAGES: &str = include_str!("../data/linux-guest/pages.txt");
const PAIRS: &str = include_str!("../data/linux-guest/pairs.txt");

/// The guest has 128 MB; a few pages are of devices far above.
const RAM_FRAMES: u64 = 32_768;

/// A page of a root: what its last entry says, and the level of that.
#[derive(Clone, Copy, Debug, PartialEq, Eq)]
struct Page {
    address: u64,
    physical: u64,
    level: u32,
    user: bool,
    writable: bool,
}

/// What was recorded.
struct Recorded {
    roots: Vec<u64>,
    tables: BTreeMap<u64, Vec<u64>>,
    pages: Vec<Page>,
    pairs: Vec<(u64, Option<u64>)>,
}

fn number(text: &str) -> u64 {
    u64::from_str_radix(text, 16).unwrap_or_else(|error| panic!("{text}: {error}"))
}

/// The numbers of a run: none for a single item, which is then a run of one.
fn run(numbers: &[&str]) -> (u64, Vec<u64>) {
    let mut numbers = numbers.iter().map(|text| number(text));
    (numbers.next().unwrap_or(1), numbers.collect())
}

impl Recorded {
    fn read() -> Recorded {
        let mut lines = TABLES.lines().map(|line| line.split(' ').collect::<Vec<_>>());
        let roots = lines.next().unwrap()[1..].iter().map(|root| number(root)).collect();
        let mut tables = BTreeMap::new();
        for line in lines {
            let table = tables.entry(number(line[0])).or_insert_with(|| vec![0; 512]);
            let [_, place, word, ref numbers @ ..] = line[..] else { continue };
            let (place, word, (count, steps)) = (number(place), number(word), run(numbers));
            for at in 0..count {
                table[(place + at) as usize] = word + at * steps.first().unwrap_or(&0);
            }
        }
        let mut pages = Vec::new();
        for line in PAGES.lines().map(|line| line.split(' ').collect::<Vec<_>>()) {
            let has = |flag: char| line[2].contains(flag);
            let (count, steps) = run(&line[3..]);
            for at in 0..count {
                let step = |of: usize| at * steps.get(of).unwrap_or(&0);
                pages.push(Page {
                    address: number(line[0]) + step(0),
                    physical: number(line[1]) + step(1),
                    // The list does not tell 2 MiB from 1 GiB; the facts do, by the tables.
                    level: if has('P') { 2 } else { 1 },
                    user: has('U'),
                    writable: has('W'),
                });
            }
        }
        let pair = |line: &str| {
            let (address, frame) = line.split_once(' ').unwrap();
            let address = number(address);
            (address, (frame != "-").then(|| (number(frame) << 12) + address % 4096))
        };
        let mut pairs: Vec<_> = PAIRS.lines().map(pair).collect();
        // Neighbours have the same marks.
        pairs.sort();
        Recorded { roots, tables, pages, pairs }
    }

    /// All pages of a root by its tables alone, in the order of their addresses, and the tables that are used.
    fn walk_all(&self, root: u64) -> (Vec<Page>, BTreeSet<u64>) {
        let (mut pages, mut used) = (Vec::new(), BTreeSet::new());
        self.walk_table(root, 4, 0, &mut pages, &mut used);
        (pages, used)
    }

    fn walk_table(
        &self,
        frame: u64,
        level: u32,
        first: u64,
        pages: &mut Vec<Page>,
        used: &mut BTreeSet<u64>,
    ) {
        used.insert(frame);
        for (place, word) in self.tables[&frame].iter().enumerate().filter(|(_, word)| *word & 1 == 1) {
            let mut address = first | (place as u64) << (12 + 9 * (level - 1));
            if level == 4 && place >= 256 {
                address |= 0xFFFF << 48;
            }
            let physical = word & 0x000F_FFFF_FFFF_F000;
            if level == 1 || word & 0x80 != 0 {
                let (user, writable) = (word & 4 != 0, word & 2 != 0);
                pages.push(Page { address, physical, level, user, writable });
            } else {
                self.walk_table(physical >> 12, level - 1, address, pages, used);
            }
        }
    }

    /// The word at a physical address: a table's, else the address itself.
    fn word(&self, physical: u64) -> u64 {
        match self.tables.get(&(physical >> 12)) {
            Some(table) => table[(physical / 8 % 512) as usize],
            None => physical,
        }
    }

    /// Every frame that a table stands in or that a page or pair names.
    fn frames(&self) -> BTreeSet<u64> {
        let pieces = |page: &Page| (page.physical >> 12)..(page.physical >> 12) + 512u64.pow(page.level - 1);
        let pages = self.pages.iter().flat_map(pieces);
        let pairs = self.pairs.iter().filter_map(|pair| pair.1).map(|physical| physical >> 12);
        self.tables.keys().copied().chain(pages).chain(pairs).collect()
    }
}

#[test]
fn the_facts() {
    let recorded = Recorded::read();
    let Recorded { roots, tables, pages, pairs } = &recorded;
    assert_eq!((roots.len(), tables.len(), pages.len(), pairs.len()), (3, 125, 74_301, 5_182));
    assert!(tables.keys().all(|frame| *frame < RAM_FRAMES));
    // The list is what the root's tables say, of the last entries and of the sizes.
    let (by_tables, _) = recorded.walk_all(roots[0]);
    assert!(by_tables == *pages);
    let of_level = |level: u32| pages.iter().filter(|page| page.level == level).count();
    println!("{:>9} pages of 4 KiB", of_level(1));
    println!("{:>9} pages of 2 MiB", of_level(2));
    println!("{:>9} pages of 1 GiB", of_level(3));
    println!("{:>9} addresses asked for", pairs.len());
    println!("{:>9} of them without a page", pairs.iter().filter(|pair| pair.1.is_none()).count());
    assert_eq!([1, 2, 3].map(of_level), [74_221, 80, 0]);
    assert_eq!(pairs.iter().filter(|pair| pair.1.is_none()).count(), 1_200);
    // The kernel's pages are of both sizes, the processes' are small.
    assert!(pages.iter().all(|page| page.level == 1 || !page.user && page.address >= 0xFFFF << 48));
    let users = roots.iter().map(|root| recorded.walk_all(*root).0.iter().filter(|page| page.user).count());
    assert_eq!(users.collect::<Vec<_>>(), [663, 323, 368]);
    // All tables are used by some root.
    let used: BTreeSet<u64> = roots.iter().flat_map(|root| recorded.walk_all(*root).1).collect();
    assert!(used.iter().eq(tables.keys()));
    // Many pages are of one frame.
    let mut by_frame = BTreeMap::new();
    pages.iter().for_each(|page| *by_frame.entry(page.physical).or_insert(0) += 1);
    assert_eq!(by_frame.values().max(), Some(&65_536));
    // Linux sets these bits, of which 8, 9 and 63 mean nothing here and 5 and 6 nothing with bits off.
    let bits = tables.values().flatten().fold(0, |bits, word| bits | word);
    assert!([5, 6, 7, 8, 9, 63].iter().all(|bit| bits >> bit & 1 == 1));
}

/// The guest in the proved unit and in the walker.
struct Guest<'a> {
    recorded: &'a Recorded,
    record: Record,
    memory: Vec<u64>,
    walker: Unit,
    /// The host frame of each guest frame.
    hosts: BTreeMap<u64, u64>,
    mark: Option<Call>,
    served: u64,
}

const SHADOWS: u64 = 64;

/// Guest frames are at host frames in another order: so many further each, round and round.
const STRIDE: u64 = 7_919;

impl<'a> Guest<'a> {
    /// With as many host tables as the frames need, and no more.
    fn open(recorded: &'a Recorded) -> Guest<'a> {
        let frames = recorded.frames();
        let many = frames.len() as u64;
        assert_ne!(many % STRIDE, 0, "two frames would be at one");
        let lists: Vec<Vec<u64>> = frames.iter().map(|frame| indexes(*frame, 4)).collect();
        let tables = different_proper_prefixes(lists.iter());
        let first = tables + SHADOWS;
        let places = frames.iter().enumerate();
        let hosts: BTreeMap<u64, u64> =
            places.map(|(at, frame)| (*frame, first + at as u64 * STRIDE % many)).collect();
        let mut memory = vec![0; ((first + many) * 512) as usize];
        for (frame, host) in &hosts {
            for place in 0..512 {
                memory[(host * 512 + place) as usize] = recorded.word(frame << 12 | place << 3);
            }
        }
        let mut machine = Machine::new(4, tables, SHADOWS, memory[(first * 512) as usize..].to_vec(), false);
        machine.mapping =
            hosts.iter().map(|(frame, host)| (*frame, Mapping { host: *host, writable: true })).collect();
        let walker = Unit::of(machine, Book::new(4, SHADOWS));
        let mut record = Record::open(&mut memory, tables, SHADOWS).unwrap();
        for (guest, host) in &hosts {
            let call = Call::Map { guest: *guest, host: *host, writable: true };
            assert_eq!(answer(&mut record, &mut memory, &call), Answer::Ok, "{call:?}");
        }
        Guest { recorded, record, memory, walker, hosts, mark: None, served: 0 }
    }

    /// Both units' answer.
    fn call(&mut self, call: &Call) -> Answer {
        let said = answer(&mut self.record, &mut self.memory, call);
        assert_eq!(said, self.walker.call(call), "{call:?}");
        said
    }

    fn load_root(&mut self, root: u64) {
        assert_eq!(self.call(&Call::Root { frame: root }), Answer::Ok);
    }

    /// A mark of this level at the address, and no other; none for 0.
    fn mark_at(&mut self, address: u64, level: u32) {
        // The address with the indexes alone that the mark keeps.
        let kept = address & u64::MAX << (12 + 9 * level.min(4));
        let mark = Call::SetMark { address: if level < 4 { kept } else { 0 }, level: level.into() };
        let mark = Some(mark).filter(|_| level > 0);
        if mark == self.mark {
            return;
        }
        if let Some(Call::SetMark { address, level }) = self.mark {
            assert_eq!(self.call(&Call::ClearMark { address, level }), Answer::Ok);
        }
        if let Some(mark) = &mark {
            assert_eq!(self.call(mark), Answer::Ok);
        }
        self.mark = mark;
    }

    /// A word of a page, loaded and stored to, with a mark of this level.
    fn check(&mut self, address: u64, physical: u64, page: Page, mark: u32) {
        self.mark_at(address, mark);
        let references = references(page.level, mark);
        let word = self.recorded.word(physical);
        let said = self.call(&Call::load_word(address));
        let expected = Answer::Value { value: word, references, exits: said.counts().1 };
        assert_eq!(said, expected, "{address:#x}: not {physical:#x}");
        // A table's own words stay as they are.
        let table = self.recorded.tables.contains_key(&(physical >> 12));
        let value = if table { word } else { !word };
        let said = self.call(&Call::store_word(address, value));
        match said {
            Answer::Done { references: counted, .. } => {
                assert!(page.writable && counted == references, "{address:#x}: {said:?}");
                let place = self.hosts[&(physical >> 12)] * 512 + physical / 8 % 512;
                assert_eq!(self.memory[place as usize], value, "{address:#x}");
                let restored = self.call(&Call::store_word(address, word));
                assert_eq!(restored, Answer::Done { references, exits: restored.counts().1 });
            }
            Answer::Fault { fault, .. } => {
                assert!(!page.writable, "{address:#x}: {said:?}");
                assert_eq!(fault, Fault::Protected { level: page.level }, "{address:#x}");
            }
            other => panic!("{address:#x}: {other:?}"),
        }
        // The walker counts the tables of all paths at each fill.
        self.served += 1;
        if self.served & 15 == 0 {
            self.load_root(self.walker.machine().root);
        }
    }

    /// Each page of 4 KiB of a page, at one of its words.
    fn check_page(&mut self, page: Page, mark: u32) {
        for piece in 0..512u64.pow(page.level - 1) {
            let offset = (piece << 12) + 8 * ((page.address >> 12) * 37 % 512);
            self.check(page.address + offset, page.physical + offset, page, mark);
        }
    }
}

/// What a granted request takes by the papers: 4 + 4d, less 5 for each level not walked, if the entry lies in the marked levels; else
/// 4.
fn references(level: u32, mark: u32) -> u64 {
    if level > mark {
        4
    } else {
        4 + 4 * u64::from(mark) - 5 * u64::from(level - 1)
    }
}

#[test]
fn every_page() {
    let recorded = Recorded::read();
    let mut guest = Guest::open(&recorded);
    let by_address: BTreeMap<u64, Page> = recorded.pages.iter().map(|page| (page.address, *page)).collect();
    for mark in 0..=5 {
        guest.load_root(recorded.roots[0]);
        for page in &recorded.pages {
            guest.check_page(*page, mark);
        }
        for (address, physical) in &recorded.pairs {
            match physical {
                Some(physical) => {
                    let page = by_address.range(..=address).next_back().unwrap().1;
                    guest.check(*address, *physical, *page, mark);
                }
                None => {
                    guest.mark_at(*address, mark);
                    let said = guest.call(&Call::load_word(*address));
                    let absent = matches!(said, Answer::Fault { fault: Fault::Absent { .. }, .. });
                    assert!(absent, "{address:#x}: {said:?}");
                }
            }
        }
        // The other processes' own pages, by their tables.
        for root in &recorded.roots[1..] {
            guest.load_root(*root);
            for page in recorded.walk_all(*root).0.into_iter().filter(|page| page.user) {
                guest.check_page(page, mark);
            }
        }
        let depth = if mark == 0 { "without a mark".into() } else { format!("with marks of level {mark}") };
        println!("{:>9} words loaded and stored so far, {depth}", guest.served);
    }
    assert!(
        guest.memory[guest.memory.len() - guest.walker.guest_words().len()..] == *guest.walker.guest_words()
    );
}
