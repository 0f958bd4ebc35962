//! Times calls of the proved unit beside hand-written safe Rust over the same memory. Nanoseconds a call: the least of
//! the rounds, all ways in turn in each round. `cargo run --release --bin speed`

use cangrieb::{Answer, Choices, Record};
use std::hint::black_box;
use std::time::Instant;
use walker::random::Random;

const ROUNDS: usize = 41;
const CALLS: usize = 20_000;
const HOSTS: u64 = 16;
const SHADOWS: u64 = 16;
const FRAMES: u64 = 2048;
const BASE: u64 = HOSTS + SHADOWS;
const PAGES: u64 = 1024;

/// A guest whose frames are mapped in order: 0 the root, 1 and 2 the tables below it, 3 and 4 the tables of level 1,
/// then its pages.
fn guest_with(choices: Choices) -> (Record, Vec<u64>) {
    let mut memory = vec![0; (FRAMES * 512) as usize];
    let mut unit = Record::open_with(&mut memory, HOSTS, SHADOWS, choices).unwrap();
    for guest in 0..5 + PAGES {
        assert_eq!(unit.map(&mut memory, guest, BASE + guest, true), Answer::Ok);
    }
    let mut put = |frame: u64, place: u64, named: u64| {
        memory[((BASE + frame) * 512 + place) as usize] = named << 12 | 3
    };
    put(0, 0, 1);
    put(1, 0, 2);
    put(2, 0, 3);
    put(2, 1, 4);
    (0..PAGES).for_each(|page| put(3 + page / 512, page % 512, 5 + page));
    assert_eq!(unit.root(&mut memory, 0), Answer::Ok);
    (unit, memory)
}

fn guest() -> (Record, Vec<u64>) {
    guest_with(Choices::default())
}

/// With the automatic choice, each address loaded once.
fn automatic(addresses: &[u64]) -> (Record, Vec<u64>) {
    let (mut unit, mut memory) = guest_with(Choices { automatic: true, ..Choices::default() });
    load_each(&mut unit, &mut memory, addresses);
    (unit, memory)
}

fn load_each(unit: &mut Record, memory: &mut [u64], addresses: &[u64]) {
    for address in addresses {
        word(unit.load(memory, *address, 8));
    }
}

/// The guest with a mark of that level at each of its two tables of level 1 (0: no mark), and so many marks elsewhere;
/// each address is loaded once.
fn prepared(level: u64, elsewhere: u64, addresses: &[u64]) -> (Record, Vec<u64>) {
    let (mut unit, mut memory) = guest();
    if level > 0 {
        // Of level 2 and above the two marks are alike.
        unit.set_mark(&mut memory, 0, level);
        unit.set_mark(&mut memory, 512 << 12, level);
    }
    for number in 0..elsewhere {
        assert_eq!(unit.set_mark(&mut memory, (1 << 40) + (number << 21), 1), Answer::Ok);
    }
    load_each(&mut unit, &mut memory, addresses);
    (unit, memory)
}

fn word(said: Answer) -> u64 {
    match said {
        Answer::Value { word, .. } => word,
        Answer::Done { references, .. } | Answer::Figures { references, .. } => references,
        Answer::Ok => 0,
        other => panic!("{other:?}"),
    }
}

// By hand, in safe Rust.

/// The host frame at the end of a walk through four tables, if every entry is present.
#[inline(always)]
fn walk(memory: &[u64], top: u64, page: u64) -> Option<u64> {
    let mut frame = top;
    for level in (0..4).rev() {
        let index = page >> (9 * level) & 511;
        let entry = *memory.get((frame << 9 | index) as usize)?;
        if entry & 1 == 0 {
            return None;
        }
        frame = entry >> 12 & 0xFF_FFFF_FFFF;
    }
    Some(frame)
}

/// Whether a word can be loaded there: bits 48 to 63 all equal bit 47, and the address is a multiple of 8.
#[inline(always)]
fn legal(address: u64) -> bool {
    (address << 16) as i64 >> 16 == address as i64 && address & 7 == 0
}

/// A load through one set of tables: no record, no marks, no counts.
#[inline(never)]
fn plain_load(memory: &[u64], top: u64, address: u64) -> Option<u64> {
    if !legal(address) {
        return None;
    }
    let frame = walk(memory, top, address >> 12)?;
    memory.get((frame << 9 | address >> 3 & 511) as usize).copied()
}

/// A load by a nested walk: 24 entries.
#[inline(never)]
fn nested_load(memory: &[u64], root: u64, address: u64) -> Option<u64> {
    if !legal(address) {
        return None;
    }
    let mut frame = walk(memory, 0, root)?;
    for level in (0..4).rev() {
        let index = address >> (12 + 9 * level) & 511;
        let entry = *memory.get((frame << 9 | index) as usize)?;
        if entry & 1 == 0 || entry >> 48 & 15 != 0 || level > 0 && entry >> 7 & 1 != 0 {
            return None;
        }
        frame = walk(memory, 0, entry >> 12 & 0xFF_FFFF_FFFF)?;
    }
    memory.get((frame << 9 | address >> 3 & 511) as usize).copied()
}

// The measure.

/// One way of doing a call, by its name.
type Way = (String, Box<dyn FnMut(u64) -> u64>);

/// Prints the least time of each way over the rounds, and its ratio to the last way's.
fn compare(title: &str, addresses: &[u64], calls: usize, ways: &mut [Way]) {
    let mut least = vec![f64::INFINITY; ways.len()];
    for _ in 0..ROUNDS {
        for (way, least) in ways.iter_mut().zip(&mut least) {
            let start = Instant::now();
            let mut sum = 0u64;
            for at in 0..calls {
                sum = sum.wrapping_add(way.1(addresses[at % addresses.len()]));
            }
            black_box(sum);
            *least = least.min(start.elapsed().as_nanos() as f64 / calls as f64);
        }
    }
    println!("{title}");
    let last = *least.last().unwrap();
    for (way, least) in ways.iter().zip(&least) {
        println!("  {:<42} {least:>8.1} ns {:>7.2}", way.0, least / last);
    }
}

fn loads(title: &str, addresses: &[u64]) {
    let mut ways: Vec<Way> = Vec::new();
    for (level, elsewhere) in [(0, 0), (0, 8), (0, 62), (1, 0), (2, 0), (3, 0), (4, 0), (5, 0)] {
        let (mut unit, mut memory) = prepared(level, elsewhere, addresses);
        let name = format!("unit: load at depth {level}, {} marks", unit.head.set.count_ones());
        ways.push((name, Box::new(move |address| word(unit.load(&mut memory, address, 8)))));
    }
    let (mut unit, mut memory) = prepared(0, 0, addresses);
    let store = move |address| word(unit.store(&mut memory, address, 8, 1));
    ways.push(("unit: store at depth 0, 0 marks".into(), Box::new(store)));
    let (mut unit, mut memory) = automatic(addresses);
    let load = move |address| word(unit.load(&mut memory, address, 8));
    ways.push(("unit: load at depth 0, automatic choice".into(), Box::new(load)));
    let (mut unit, mut memory) = automatic(addresses);
    let store = move |address| word(unit.store(&mut memory, address, 8, 1));
    ways.push(("unit: store at depth 0, automatic choice".into(), Box::new(store)));
    let (_, memory) = guest();
    let nested = move |address| nested_load(&memory, 0, address).unwrap();
    ways.push(("by hand: load, nested walk of 24 entries".into(), Box::new(nested)));
    // Through the unit's own shadow tables, of which the top one is the first shadow frame.
    let (_, memory) = prepared(0, 0, addresses);
    let plain = move |address| plain_load(&memory, HOSTS, address).unwrap();
    ways.push(("by hand: load, walk of 4 entries".into(), Box::new(plain)));
    compare(title, addresses, CALLS, &mut ways);
}

/// The search among the marks alone: without one of level 5, and with one among others.
fn lookups(addresses: &[u64]) {
    let mut ways: Vec<Way> = Vec::new();
    for (level, elsewhere) in [(0, 0), (0, 8), (0, 62), (5, 5), (5, 63)] {
        let (unit, _) = prepared(level, elsewhere, &[]);
        let name = format!("unit: depth {level}, {} marks", unit.head.set.count_ones());
        ways.push((name, Box::new(move |address| unit.depth(address).depth)));
    }
    compare("The search among the marks", addresses, CALLS, &mut ways);
}

fn others() {
    let mut ways: Vec<Way> = Vec::new();
    let (mut unit, mut memory) = guest();
    let miss = move |address| word(unit.root(&mut memory, 0)) + word(unit.load(&mut memory, address, 8));
    ways.push(("unit: root, then a load that fills".into(), Box::new(miss)));
    let (mut unit, mut memory) = guest();
    let mark = move |address| {
        word(unit.set_mark(&mut memory, address, 1)) + word(unit.clear_mark(&mut memory, address, 1))
    };
    ways.push(("unit: a mark set and cleared".into(), Box::new(mark)));
    let (mut unit, mut memory) = guest();
    let device = move |address| word(unit.device_store(&mut memory, (5 << 12) + address, 8, 1));
    ways.push(("unit: device store".into(), Box::new(device)));
    let (mut unit, mut memory) = guest();
    ways.push((
        "unit: map anew, no path held".into(),
        Box::new(move |_| word(unit.map(&mut memory, 9, BASE + 9, true))),
    ));
    let (mut unit, mut memory) = prepared(0, 0, &(0..PAGES).map(|page| page << 12).collect::<Vec<u64>>());
    ways.push((
        "unit: map anew, 1,024 paths held".into(),
        Box::new(move |_| word(unit.map(&mut memory, 5 + PAGES - 1, BASE + 9, true))),
    ));
    let (mut unit, mut memory) = guest();
    ways.push(("unit: root".into(), Box::new(move |_| word(unit.root(&mut memory, 0)))));
    compare("Other calls", &[0, 8, 16, 24], CALLS, &mut ways);
}

/// 256 pages in a list: its forecast, and the loads themselves. A call stands for the whole list.
fn lists() {
    let list: Vec<u64> = (0..256).map(|page| page << 12).collect();
    let mut ways: Vec<Way> = Vec::new();
    let (unit, memory) = prepared(0, 0, &list);
    let addresses = list.clone();
    ways.push((
        "unit: forecast, all paths held".into(),
        Box::new(move |_| word(unit.forecast(&memory, &addresses))),
    ));
    let (unit, memory) = guest();
    let addresses = list.clone();
    ways.push((
        "unit: forecast, no path held".into(),
        Box::new(move |_| word(unit.forecast(&memory, &addresses))),
    ));
    let (mut unit, mut memory) = guest();
    let served = move |_| {
        let root = word(unit.root(&mut memory, 0));
        root + list.iter().map(|address| word(unit.load(&mut memory, *address, 8))).sum::<u64>()
    };
    ways.push(("unit: root, then its loads, no path held".into(), Box::new(served)));
    compare("A list of 256 addresses", &[0], CALLS / 256, &mut ways);
}

fn main() {
    let mut random = Random::new(1);
    let near: Vec<u64> = (0..16).map(|place| place * 8).collect();
    let far: Vec<u64> = (0..CALLS).map(|_| random.below(PAGES) << 12 | random.below(512) << 3).collect();
    loads("One page, its path held", &near);
    loads("1,024 pages in random order, their paths held", &far);
    lookups(&near);
    others();
    lists();
    if let Ok(load) = std::fs::read_to_string("/proc/loadavg") {
        println!("load average: {}", load.trim());
    }
}
