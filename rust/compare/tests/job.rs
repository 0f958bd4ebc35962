//! The program `job` beside the second walker: random jobs, every way to 13, and how its pipes behave.
//! `rt run` in crates/job builds it; CANGRIEB_JOB names another place.

use std::io::Write;
use std::time::{Duration, Instant};

use compare::programs::{self, program, start};
use walker::job::{raw_record, read_record, run_job, write_record, Record, JOB_LEVELS};
use walker::quiet::{part, End, Stretch};
use walker::random::{job, Random};
use walker::{Answer, Call, Unit};

/// The whole output; the input is written in pieces of so many bytes.
fn output(input: &[u8], piece: usize) -> String {
    String::from_utf8(programs::output("job", input, piece)).unwrap()
}

fn load(address: u64) -> Vec<u8> {
    write_record(&Record::Call(Call::load_word(address)))
}

fn open() -> Vec<u8> {
    write_record(&Record::Open { h: 4, s: 4 })
}

const QUIET_JOB: &[u8] = include_bytes!("../jobs/quiet.job");
const QUIET_LINES: &str = include_str!("../jobs/quiet.txt");

/// Four jobs whose lines were worked out by hand: every line of document 01 on its sixteen-frame guest, each from a new opening,
/// with pages that hold their host frame and word (0xc01 is frame 12, word 1), its load of 0xFFFFFFFFFFF8 refused as request 1 of
/// document 02 has it; every refusal that a job can meet; a quiet stretch that is run twice; and large pages of both sizes, of which
/// some are tables: their counts under marks, P, M, H and W.
#[test]
fn jobs_with_known_lines() {
    let jobs: [(&[u8], &str); 4] = [
        (include_bytes!("../jobs/guest.job"), include_str!("../jobs/guest.txt")),
        (include_bytes!("../jobs/refusals.job"), include_str!("../jobs/refusals.txt")),
        (QUIET_JOB, QUIET_LINES),
        (include_bytes!("../jobs/large.job"), include_str!("../jobs/large.txt")),
    ];
    for (input, lines) in jobs {
        assert_eq!(output(input, 65_536), lines);
        assert_eq!(run_job(input), lines, "the second walker");
    }
}

/// Records 23 to 32 of the quiet job, and the same as 33 to 42. They touch four paths, one of them held at first, with S tables:
/// three exits, then none.
#[test]
fn a_quiet_stretch_costs_three_exits_and_then_none() {
    let mut records = Vec::new();
    let mut rest = QUIET_JOB;
    while let Some((record, after)) = read_record(rest) {
        records.push(record);
        rest = after;
    }
    assert_eq!(records[22..32], records[32..]);
    let Record::Open { h, s } = records[0] else { panic!("{:?}", records[0]) };
    let mut unit = Unit::open(JOB_LEVELS, vec![0; 16 * 512], h as u64, s as u64).unwrap();
    records[1..22].iter().for_each(|record| assert!(!matches!(unit.call(call_of(record)), Answer::No(_))));
    for (stretch, figure) in [(22..32, 3), (32..42, 0)] {
        let taken = take_stretch(&mut unit, &records[stretch.clone()]).unwrap();
        assert_eq!((taken.figure(), taken.touched.len(), taken.tables()), (figure, 4, 4));
        let lines = QUIET_LINES.lines().skip(stretch.start).take(10);
        let exits = lines.map(|line| line.rsplit(' ').next().unwrap().parse::<u64>().unwrap());
        assert_eq!(exits.sum::<u64>(), figure);
    }
}

/// Runs the records as one stretch.
fn take_stretch(unit: &mut Unit, records: &[Record]) -> Result<Stretch, End> {
    let mut stretch = Stretch::start(unit);
    for call in records.iter().map(call_of) {
        let before = unit.clone();
        let answer = unit.call(call);
        stretch.take(&part(&before, call, &answer)?)?;
    }
    Ok(stretch)
}

fn call_of(record: &Record) -> &Call {
    match record {
        Record::Call(call) => call,
        open => panic!("{open:?}"),
    }
}

#[test]
fn random_jobs() {
    let (mut ends, mut large) = (0, 0);
    for seed in 0..400 {
        let input = job(seed, 300);
        let expected = run_job(&input);
        ends += expected.ends_with("no 13\n") as u32;
        large += expected.lines().filter(|line| is_of_large_page(line)).count();
        assert!(output(&input, 65_536) == expected, "seed {seed}");
    }
    println!("{large:>9} lines of large pages that are read directly or may not be stored to");
    assert!(ends > 0, "no job had a damaged end");
    assert!(large >= 100, "{large} lines of large pages");
}

/// A value with a count that is no multiple of 4, or P above level 1.
fn is_of_large_page(line: &str) -> bool {
    match line.split(' ').collect::<Vec<_>>()[..] {
        [_, "value", _, references, _] => references.parse::<u64>().unwrap() % 4 != 0,
        [_, "fault", "P", level, ..] => level != "1",
        _ => false,
    }
}

/// A record with random bytes in it; mostly of a kind and its length, small numbers among them.
fn random_record(random: &mut Random) -> Vec<u8> {
    let kind = 1 + random.below(9) as u16;
    let length = match kind {
        _ if random.one_in(100) => random.below(24) as u16,
        1 => 6,
        3 => 19,
        5 | 6 => 11,
        8 | 9 => 18,
        _ => 10,
    };
    let body: Vec<u8> = (2..length).map(|_| random_byte(random)).collect();
    raw_record(length, if random.one_in(100) { random.word() as u16 } else { kind }, &body)
}

/// Mostly 0, at times 255, so that some addresses are of the upper half.
fn random_byte(random: &mut Random) -> u8 {
    match random.below(8) {
        0 | 1 => random.word() as u8,
        2 => 255,
        _ => 0,
    }
}

#[test]
fn random_bytes() {
    let mut longest = 0;
    for seed in 0..400 {
        let random = &mut Random::new(seed);
        let mut input = if random.one_in(4) { Vec::new() } else { open() };
        for _ in 0..random.below(200) {
            input.extend(random_record(random));
        }
        input.extend((0..random.below(40)).map(|_| random.word() as u8).collect::<Vec<_>>());
        let expected = run_job(&input);
        longest = longest.max(expected.lines().count());
        assert!(output(&input, 65_536) == expected, "seed {seed}");
    }
    assert!(longest > 20, "every job ended early");
}

#[test]
fn every_split_of_a_pipe() {
    let input = [open(), load(0), load(1 << 48), load(4), raw_record(10, 10, &[0; 8]), load(0)].concat();
    for piece in 1..=input.len() {
        assert_eq!(
            output(&input, piece),
            "1 ok\n2 fault H 0 0 1 1\n3 no 4\n4 no 4\n5 no 13\n",
            "pieces of {piece}"
        );
    }
}

#[test]
fn every_cut() {
    let input = [open(), load(0)].concat();
    for length in 0..=input.len() {
        assert_eq!(output(&input[..length], 7), run_job(&input[..length]), "{length} bytes");
    }
    assert_eq!(output(&[], 1), "");
    assert_eq!(output(&input[..3], 1), "1 no 13\n");
}

#[test]
fn every_length_and_kind() {
    for kind in (0..=12).chain([255, 256, 65_535]) {
        for length in (0..=24).chain([256, 65_535]) {
            let body = vec![0; (length as usize).saturating_sub(2)];
            let input = [open(), raw_record(length, kind, &body), load(4)].concat();
            assert_eq!(output(&input, 65_536), run_job(&input), "length {length}, kind {kind}");
        }
    }
}

/// The least of three times, since other work may hold the machine.
#[test]
fn sixty_five_thousand_records() {
    let input = [open(), load(0).repeat(65_534)].concat();
    let time = (0..3).map(|_| timed(&input)).min().unwrap();
    println!("65,535 records in {time:?}");
    assert!(time < Duration::from_secs(1), "{time:?}");
}

fn timed(input: &[u8]) -> Duration {
    let start = Instant::now();
    let said = output(input, 65_536);
    let time = start.elapsed();
    assert_eq!(said.lines().count(), 65_535);
    assert_eq!(said.lines().last(), Some("65535 fault H 0 0 1 1"));
    time
}

#[test]
fn a_closed_output_ends_it() {
    let mut child = start(&mut program("job"));
    drop(child.stdout.take());
    let mut stdin = child.stdin.take().unwrap();
    let input = [open(), load(0).repeat(100_000)].concat();
    stdin.write_all(&input).ok();
    drop(stdin);
    child.wait().unwrap();
}
