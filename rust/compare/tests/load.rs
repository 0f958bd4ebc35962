//! The program `load` (document 02, 10) beside the second walker: its bytes, what its input may be, and the jobs that it writes.
//! `rt run` in crates/load builds it, in crates/job the job program; CANGRIEB_LOAD and CANGRIEB_JOB name other places.
//! `-- --nocapture` shows which kinds and answers the jobs had.

use std::collections::{BTreeMap, BTreeSet};
use std::io::Write;
use std::process::{Command, Stdio};
use std::sync::mpsc;
use std::thread;
use std::time::{Duration, Instant};

use compare::programs::{output, program, rest_of, start};
use walker::load::{load_bytes, load_of, MOST_RECORDS, SEED_LIMIT};
use walker::random::Random;
use walker::run_job;

fn input(seed: u64, count: u64) -> Vec<u8> {
    [seed.to_le_bytes(), count.to_le_bytes()].concat()
}

/// What the program writes to its input is what the walker says; yields these bytes.
fn same(input: &[u8]) -> Vec<u8> {
    let written = output("load", input, 65_536);
    // Loads are too long to be shown.
    assert!(written == load_of(input), "{input:02x?}: {} bytes", written.len());
    written
}

// Its bytes.

/// Short ones, and one in ten of up to 5,000 records.
#[test]
fn random_seeds() {
    let random = &mut Random::new(1);
    for _ in 0..400 {
        let most = if random.one_in(10) { 5000 } else { 40 };
        let (seed, count) = (random.below(SEED_LIMIT), random.below(most));
        assert!(!same(&input(seed, count)).is_empty());
    }
}

#[test]
fn ends_of_the_ranges() {
    for seed in [0, 1, SEED_LIMIT - 1] {
        for count in [0, 1, 2, MOST_RECORDS - 1, MOST_RECORDS] {
            assert!(!same(&input(seed, count)).is_empty());
        }
    }
}

// Its input.

/// Each with the other one in range, and both. Some would be in range without their upper bits.
#[test]
fn out_of_range() {
    let seeds = [SEED_LIMIT, SEED_LIMIT + 1, 1 << 32, (1 << 32) + 1, 1 << 63, u64::MAX];
    let counts = [MOST_RECORDS + 1, MOST_RECORDS + 2, 1 << 31, 1 << 32, (1 << 32) + 1, 1 << 63, u64::MAX];
    let with_bad_seed = seeds.iter().flat_map(|seed| [0, 1, MOST_RECORDS].map(|count| (*seed, count)));
    let with_bad_count = counts.iter().flat_map(|count| [0, 1, SEED_LIMIT - 1].map(|seed| (seed, *count)));
    let both = seeds.into_iter().zip(counts);
    for (seed, count) in with_bad_seed.chain(with_bad_count).chain(both) {
        assert!(same(&input(seed, count)).is_empty(), "seed {seed}, count {count}");
    }
}

/// A program that took zeros for what is missing would write.
#[test]
fn every_cut() {
    for whole in [input(1, 3), input(SEED_LIMIT - 1, MOST_RECORDS)] {
        for length in 0..16 {
            assert!(same(&whole[..length]).is_empty(), "{length} bytes");
        }
        assert!(!same(&whole).is_empty());
    }
}

#[test]
fn later_bytes_are_ignored() {
    let random = &mut Random::new(2);
    for more in (1..=17).chain([4096, 65_536, 200_000]) {
        let later: Vec<u8> = (0..more).map(|_| random.word() as u8).collect();
        let (seed, count) = (random.below(SEED_LIMIT), random.below(300));
        let written = same(&[input(seed, count), later].concat());
        assert!(written == load_bytes(seed, count), "{more} bytes more");
    }
}

/// How long an input is kept open for a program that does not end.
const PATIENCE: Duration = Duration::from_secs(5);

/// What the program writes while its input stays open behind these parts. After each part there is a pause, so that it
/// is read by itself.
fn with_open_input(parts: &[&[u8]]) -> Vec<u8> {
    let mut child = start(&mut program("load"));
    let mut stdin = child.stdin.take().unwrap();
    let parts: Vec<Vec<u8>> = parts.iter().map(|part| part.to_vec()).collect();
    let (end, ended) = mpsc::channel();
    let writer = thread::spawn(move || {
        for part in parts {
            stdin.write_all(&part).unwrap();
            thread::sleep(Duration::from_millis(2));
        }
        ended.recv_timeout(PATIENCE).is_ok()
    });
    let written = rest_of(child);
    end.send(()).ok();
    assert!(writer.join().unwrap(), "it waits for the end of its input");
    written
}

#[test]
fn an_input_that_stays_open() {
    for count in [0, 1, 300, MOST_RECORDS] {
        let whole = input(1, count);
        assert!(with_open_input(&[&whole]) == load_bytes(1, count), "count {count}");
        let more = [&whole[..], &[1; 7]].concat();
        assert!(with_open_input(&[&more]) == load_bytes(1, count), "count {count}, and bytes more");
    }
    assert_eq!(with_open_input(&[&input(SEED_LIMIT, 1)]), []);
    assert_eq!(with_open_input(&[&input(1, MOST_RECORDS + 1)]), []);
}

#[test]
fn an_input_in_parts() {
    let whole = input(0x1234_5678, 0x0102);
    let expected = load_bytes(0x1234_5678, 0x0102);
    for length in 1..16 {
        let (first, second) = whole.split_at(length);
        assert!(with_open_input(&[first, second]) == expected, "parts of {length} and {}", 16 - length);
    }
    let single: Vec<&[u8]> = whole.chunks(1).collect();
    assert!(with_open_input(&single) == expected, "single bytes");
}

/// No signal ends it here: its writes fail. A program that tried them again would never end.
#[test]
fn a_closed_output_ends_it() {
    let mut shell = Command::new("sh");
    shell.args(["-c", "trap '' PIPE; exec \"$0\""]).arg(program("load").get_program());
    let mut child = start(shell.stdin(Stdio::piped()).stdout(Stdio::piped()));
    drop(child.stdout.take());
    child.stdin.take().unwrap().write_all(&input(1, MOST_RECORDS)).unwrap();
    let start = Instant::now();
    while child.try_wait().unwrap().is_none() {
        if start.elapsed() > PATIENCE {
            child.kill().unwrap();
            child.wait().unwrap();
            panic!("it did not end");
        }
        thread::sleep(Duration::from_millis(1));
    }
}

// Its jobs.

/// What `load | job` writes, with a pipe of the system's between them.
fn load_and_job(seed: u64, count: u64) -> String {
    let mut load = start(&mut program("load"));
    load.stdin.take().unwrap().write_all(&input(seed, count)).unwrap();
    let job = start(program("job").stdin(load.stdout.take().unwrap()));
    let lines = rest_of(job);
    assert!(load.wait().unwrap().success());
    String::from_utf8(lines).unwrap()
}

/// A line without its record's number and its numbers, but with the letter of a fault or the number of a refusal.
fn answer_in(line: &str) -> String {
    match line.split(' ').collect::<Vec<_>>()[..] {
        [_, answer @ ("fault" | "no"), which, ..] => format!("{answer} {which}"),
        [_, answer, ..] => answer.to_string(),
        _ => panic!("{line}"),
    }
}

/// The kinds of some records, each whole.
fn kinds_of(mut bytes: &[u8]) -> Vec<u8> {
    let mut kinds = Vec::new();
    while let [length, 0, kind, 0, ..] = bytes {
        kinds.push(*kind);
        bytes = &bytes[2 + *length as usize..];
    }
    assert!(bytes.is_empty());
    kinds
}

/// How often each kind met each answer.
type Met = BTreeMap<(u8, String), u64>;

/// A load's job, which must be the walker's, with a line for the open and for each record, none of them 13.
fn meet(seed: u64, count: u64, met: &mut Met) {
    let bytes = load_bytes(seed, count);
    let said = load_and_job(seed, count);
    assert!(said == run_job(&bytes), "seed {seed}, count {count}");
    let kinds = kinds_of(&bytes);
    assert_eq!(kinds.len() as u64, count + 1);
    assert_eq!(said.lines().count() as u64, count + 1);
    for (kind, line) in kinds.into_iter().zip(said.lines()).skip(1) {
        *met.entry((kind, answer_in(line))).or_default() += 1;
    }
    assert!(!said.contains(" no 13\n"), "seed {seed}, count {count}");
}

const KINDS: [(u8, &str); 8] = [
    (2, "root"),
    (3, "map"),
    (4, "unmap"),
    (5, "set mark"),
    (6, "clear mark"),
    (7, "load"),
    (8, "store"),
    (9, "device store"),
];

/// All that a load can meet. Its values are present, writable, and not malformed, so that no fault is P or M; its addresses,
/// levels and frames are in range; its marks are of five sorts and its host tables four, so that neither are too many.
const ANSWERS: [&str; 8] = ["ok", "value", "done", "fault A", "fault H", "fault W", "no 6", "no 12"];

fn print(met: &Met) {
    let count = |kind: u8, answer: &str| met.get(&(kind, answer.to_string())).copied().unwrap_or(0);
    let heads: String = ANSWERS.iter().map(|answer| format!("{answer:>9}")).collect();
    println!("{:<14} {heads} {:>9}", "kind", "all");
    for (kind, name) in KINDS {
        let cells: String = ANSWERS.iter().map(|answer| format!("{:>9}", count(kind, answer))).collect();
        let all: u64 = ANSWERS.iter().map(|answer| count(kind, answer)).sum();
        println!("{kind} {name:<12} {cells} {all:>9}");
    }
}

#[test]
fn jobs() {
    let random = &mut Random::new(3);
    let mut met = Met::new();
    for seed in [0, 1, SEED_LIMIT - 1] {
        [0, 1, 2, MOST_RECORDS].into_iter().for_each(|count| meet(seed, count, &mut met));
    }
    for _ in 0..6 {
        meet(random.below(SEED_LIMIT), MOST_RECORDS - random.below(1000), &mut met);
    }
    for _ in 0..200 {
        meet(random.below(SEED_LIMIT), random.below(500), &mut met);
    }
    print(&met);
    let kinds: BTreeSet<u8> = met.keys().map(|(kind, _)| *kind).collect();
    assert!(kinds.into_iter().eq(KINDS.map(|(kind, _)| kind)), "kinds");
    let answers: BTreeSet<&str> = met.keys().map(|(_, answer)| answer.as_str()).collect();
    assert_eq!(answers, ANSWERS.into_iter().collect());
}

/// The program's own bytes, so written that records are split.
#[test]
fn jobs_in_pieces() {
    for (count, pieces) in [(300, &[1, 2, 3, 5, 7, 11, 13, 64][..]), (MOST_RECORDS, &[509, 4093])] {
        let bytes = same(&input(7, count));
        let expected = run_job(&bytes);
        for piece in pieces {
            let said = output("job", &bytes, *piece);
            assert!(said == expected.as_bytes(), "count {count}, pieces of {piece}");
        }
    }
}

// Its time.

/// The least of ten times, since other work may hold the machine.
#[test]
fn sixty_five_thousand_records() {
    let input = input(1, MOST_RECORDS);
    let time = (0..10).map(|_| timed(&input)).min().unwrap();
    println!("65,535 records in {time:?}");
    assert!(time <= Duration::from_millis(100), "{time:?}");
}

fn timed(input: &[u8]) -> Duration {
    let start = Instant::now();
    let written = output("load", input, 65_536);
    let time = start.elapsed();
    assert!(written == load_of(input));
    time
}
