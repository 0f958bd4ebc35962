//! The job program: its example, 13 in all its ways, opens that are refused.

use walker::answer::Call;
use walker::job::{answer_line, raw_record, write_record, Record};
use walker::random::{self, Sizes};
use walker::{run_job, Unit};

fn open(h: u16, s: u16) -> Vec<u8> {
    write_record(&Record::Open { h, s })
}

fn call(call: Call) -> Vec<u8> {
    write_record(&Record::Call(call))
}

fn load(address: u64) -> Vec<u8> {
    call(Call::load_word(address))
}

fn map(guest: u64, host: u64) -> Vec<u8> {
    call(Call::Map { guest, host, writable: true })
}

fn device(address: u64, value: u64) -> Vec<u8> {
    call(Call::device_store_word(address, value))
}

/// The example up to its load of 0.
fn example() -> Vec<u8> {
    [open(4, 4), map(0, 8), call(Call::Root { frame: 0 }), device(0, 0x1003), load(0)].concat()
}

const EXAMPLE_LINES: &str = "1 ok\n2 ok\n3 ok\n4 done 4 0\n5 fault H 0 1 9 1\n";

#[test]
fn the_example() {
    let output = run_job(&[example(), load(4)].concat());
    assert_eq!(output, format!("{EXAMPLE_LINES}6 no 4\n"));
}

#[test]
fn the_bytes_of_records() {
    assert_eq!(open(4, 0x102), [6, 0, 1, 0, 4, 0, 2, 1]);
    assert_eq!(map(1, 9), [19, 0, 3, 0, 1, 0, 0, 0, 0, 0, 0, 0, 9, 0, 0, 0, 0, 0, 0, 0, 1]);
    let lengths = [
        (call(Call::Root { frame: 0 }), 10, 2),
        (call(Call::Unmap { guest: 0 }), 10, 4),
        (call(Call::SetMark { address: 0, level: 1 }), 11, 5),
        (call(Call::ClearMark { address: 0, level: 1 }), 11, 6),
        (load(0), 10, 7),
        (call(Call::store_word(0, 0)), 18, 8),
        (device(0, 0), 18, 9),
    ];
    for (bytes, length, kind) in lengths {
        assert_eq!(bytes[..4], [length, 0, kind, 0]);
        assert_eq!(bytes.len(), length as usize + 2);
    }
}

#[test]
fn an_empty_input_has_no_line() {
    assert_eq!(run_job(&[]), "");
}

#[test]
fn every_cut_is_13_and_the_end() {
    let whole = example();
    let starts = [0, 8, 29, 41, 61, 73];
    for length in 0..whole.len() {
        let before = starts.iter().filter(|start| **start < length).count();
        let lines: Vec<&str> = EXAMPLE_LINES.lines().collect();
        let expected = if starts.contains(&length) {
            lines[..before].to_vec().join("\n")
        } else {
            [lines[..before - 1].to_vec(), vec![&format!("{before} no 13")]].concat().join("\n")
        };
        assert_eq!(run_job(&whole[..length]).trim_end(), expected, "cut at {length}");
    }
}

#[test]
fn a_wrong_length_or_kind_is_13_and_the_end() {
    let right = [(1, 6), (2, 10), (3, 19), (4, 10), (5, 11), (6, 11), (7, 10), (8, 18), (9, 18)];
    let body = [0; 300];
    for kind in [0, 1, 2, 3, 4, 5, 6, 7, 8, 9, 10, 11, 255, 256, 257, 0x0700, 65_535] {
        for length in 0..40 {
            let bytes = raw_record(length, kind, &body);
            let output = run_job(&[example(), bytes].concat());
            let sixth = output.lines().nth(5).unwrap();
            let is_right = right.contains(&(kind, length));
            assert_eq!(sixth != "6 no 13", is_right, "kind {kind} length {length}");
            assert!(is_right || output.lines().count() == 6);
        }
    }
    // A length that runs past the input.
    assert_eq!(run_job(&raw_record(65_535, 7, &body)), "1 no 13\n");
}

#[test]
fn thirteen_goes_before_3() {
    assert_eq!(run_job(&raw_record(11, 7, &[0; 9])), "1 no 13\n");
    assert_eq!(run_job(&raw_record(10, 7, &[0; 7])), "1 no 13\n");
}

#[test]
fn three_before_a_granted_open() {
    let all = [
        call(Call::Root { frame: 1 << 36 }),
        map(1 << 36, 0),
        call(Call::Unmap { guest: 0 }),
        call(Call::SetMark { address: 0, level: 9 }),
        call(Call::ClearMark { address: 0, level: 9 }),
        load(1 << 48),
        call(Call::store_word(1, 0)),
        device(1, 0),
        open(4, 12),
        load(0),
        open(65_535, 65_535),
        open(65_535, 9),
        load(0),
    ];
    let expected = "1 no 3\n2 no 3\n3 no 3\n4 no 3\n5 no 3\n6 no 3\n7 no 3\n8 no 3\n\
                    9 no 2\n10 no 3\n11 no 2\n12 no 2\n13 no 3\n";
    assert_eq!(run_job(&all.concat()), expected);
}

#[test]
fn a_refused_open_keeps_the_earlier_record_in_use() {
    let records = [
        example(),
        map(1, 9),
        call(Call::SetMark { address: 0, level: 4 }),
        load(0),
        open(3, 4),
        load(0),
        open(8, 8),
        device(8, 0xABCD_EF01_2345_6789),
        device(0x1000, 0x0003),
        load(0),
    ];
    // At depth 4 the level 3 entry is the sixth word of the direct part. At last
    // frame 1 is a table of levels 3 and 1, frame 0 of 4 and 2, and the page too.
    let expected = "6 ok\n7 ok\n8 fault A 3 0 6 1\n9 no 2\n10 fault A 3 0 6 0\n11 no 2\n\
                    12 done 4 0\n13 done 4 0\n14 value 0000000000001003 20 0\n";
    assert_eq!(run_job(&records.concat()), format!("{EXAMPLE_LINES}{expected}"));
}

#[test]
fn a_second_open_keeps_guest_words_and_nothing_else() {
    let records = [
        example(),
        call(Call::SetMark { address: 0, level: 5 }),
        open(4, 4),
        load(0),
        map(0, 8),
        load(0),
        // Frame 8 becomes a shadow frame and is cleared.
        open(5, 4),
        open(4, 4),
        map(0, 8),
        load(0),
    ];
    let expected = "6 ok\n7 ok\n8 fault H 0 0 1 1\n9 ok\n10 fault H 0 1 9 1\n11 ok\n12 ok\n13 ok\n";
    let output = run_job(&records.concat());
    assert!(output.starts_with(&format!("{EXAMPLE_LINES}{expected}")));
}

#[test]
fn values_have_16_lower_case_digits() {
    let words = [(0, 0x3), (8, 0xABCD_EF01_2345_6789), (16, 0x2a)];
    let stores = words.map(|(address, value)| device(address, value)).concat();
    let records = [open(4, 4), map(0, 15), stores, load(8), load(16), load(24)];
    let expected =
        "6 value abcdef0123456789 4 1\n7 value 000000000000002a 4 0\n8 value 0000000000000000 4 0\n";
    assert!(run_job(&records.concat()).ends_with(expected));
}

#[test]
fn records_keep_width_8() {
    let stores = |address| [call(Call::store_word(address, 1)), device(address, 1)].concat();
    let records = [example(), load(1), load(2), stores(4), stores(6)];
    let expected = "6 no 4\n7 no 4\n8 no 4\n9 no 4\n10 no 4\n11 no 4\n";
    assert_eq!(run_job(&records.concat()), format!("{EXAMPLE_LINES}{expected}"));
}

#[test]
fn any_other_byte_than_0_is_writable() {
    let map_with = |byte: u8| raw_record(19, 3, &[&[0; 8][..], &[8, 0, 0, 0, 0, 0, 0, 0], &[byte]].concat());
    for (byte, line) in
        [(0, "3 fault W 0 0 4 1\n"), (1, "3 done 4 0\n"), (2, "3 done 4 0\n"), (255, "3 done 4 0\n")]
    {
        assert!(run_job(&[open(4, 4), map_with(byte), device(0, 1)].concat()).ends_with(line));
    }
}

#[test]
fn random_jobs_end_with_13_only_if_damaged() {
    let mut damaged = 0;
    for seed in 0..200 {
        let output = run_job(&random::job(seed, 60));
        let ends = output.lines().filter(|line| line.ends_with(" no 13")).count();
        assert!(ends == 0 || (ends == 1 && output.ends_with(" no 13\n")));
        damaged += ends;
        for (number, line) in output.lines().enumerate() {
            assert!(line.starts_with(&format!("{} ", number + 1)));
        }
    }
    assert!(damaged > 10 && damaged < 100);
}

#[test]
fn a_job_answers_as_the_unit_does() {
    let sizes = Sizes { levels: 4, frames: 16, h: 5, s: 4 };
    for seed in 0..50 {
        let run = random::job_run(seed, sizes, 60);
        let mut unit = Unit::open(4, run.words.clone(), sizes.h, sizes.s).unwrap();
        let answers: Vec<String> = run.calls.iter().map(|call| answer_line(&unit.call(call))).collect();
        let output = run_job(&random::job_part(seed, sizes, 60));
        let lines: Vec<&str> = output.lines().map(|line| line.split_once(' ').unwrap().1).collect();
        assert_eq!(lines[lines.len() - 60..], answers);
    }
}
