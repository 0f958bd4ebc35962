//! Times the program `load` with 65,535 records beside `cat` of a file with the same bytes: two processes from their start to their
//! end, each with a file as its input and the same sink, the null device or a pipe that is read here. What `load` takes more is
//! the price of making the records. Milliseconds: the median of the runs, all ways in turn in each round.
//! `cargo run --release --bin load_speed`

use compare::programs::{program, start};
use std::fs::{self, File};
use std::io::Read;
use std::path::{Path, PathBuf};
use std::process::{Command, Stdio};
use std::time::Instant;
use walker::load::{load_bytes, MOST_RECORDS};

const ROUNDS: usize = 201;
const SEED: u64 = 1;

/// A program with the file that is its input and the bytes that it writes.
struct Way {
    name: &'static str,
    command: Command,
    input: PathBuf,
    bytes: Vec<u8>,
}

/// A file with these bytes, in a folder that is removed at the end.
fn file(folder: &Path, name: &str, bytes: &[u8]) -> PathBuf {
    let path = folder.join(name);
    fs::write(&path, bytes).unwrap();
    path
}

fn seed_and_count(count: u64) -> Vec<u8> {
    [SEED.to_le_bytes(), count.to_le_bytes()].concat()
}

/// One run, in milliseconds. What comes through a pipe must be the bytes expected.
fn time(way: &mut Way, sink: fn() -> Stdio, room: &mut Vec<u8>) -> f64 {
    way.command.stdin(File::open(&way.input).unwrap()).stdout(sink());
    room.clear();
    let clock = Instant::now();
    let mut child = start(&mut way.command);
    let read = child.stdout.take().map(|mut pipe| pipe.read_to_end(room).unwrap());
    let status = child.wait().unwrap();
    let time = clock.elapsed();
    assert!(status.success(), "{}: {status}", way.name);
    assert!(read.is_none() || *room == way.bytes, "{}: other bytes", way.name);
    time.as_secs_f64() * 1e3
}

fn median(mut times: Vec<f64>) -> f64 {
    times.sort_by(f64::total_cmp);
    times[times.len() / 2]
}

fn ways(folder: &Path) -> [Way; 3] {
    let (all, none) = (load_bytes(SEED, MOST_RECORDS), load_bytes(SEED, 0));
    let cat = file(folder, "bytes", &all);
    let longest = file(folder, "longest", &seed_and_count(MOST_RECORDS));
    let empty = file(folder, "empty", &seed_and_count(0));
    [
        Way { name: "load, 65,535 records", command: program("load"), input: longest, bytes: all.clone() },
        Way { name: "load, no record but the open", command: program("load"), input: empty, bytes: none },
        Way { name: "cat of the same bytes", command: Command::new("cat"), input: cat, bytes: all },
    ]
}

/// Prints the median of each way over the rounds, and its ratio to the last way's.
fn compare(title: &str, ways: &mut [Way], sink: fn() -> Stdio) {
    let mut times = vec![Vec::new(); ways.len()];
    let mut room = Vec::with_capacity(1 << 21);
    for _ in 0..ROUNDS {
        for (way, times) in ways.iter_mut().zip(&mut times) {
            times.push(time(way, sink, &mut room));
        }
    }
    let medians: Vec<f64> = times.into_iter().map(median).collect();
    println!("{title}");
    let last = medians.last().unwrap();
    for (way, median) in ways.iter().zip(&medians) {
        println!("  {:<42} {median:>8.2} ms {:>7.2}", way.name, median / last);
    }
}

fn main() {
    let folder = std::env::temp_dir().join(format!("cangrieb-load-{}", std::process::id()));
    fs::create_dir(&folder).unwrap();
    let mut ways = ways(&folder);
    println!("{} bytes, {ROUNDS} rounds", ways[0].bytes.len());
    compare("To the null device", &mut ways, Stdio::null);
    compare("To a pipe", &mut ways, Stdio::piped);
    fs::remove_dir_all(&folder).unwrap();
    if let Ok(load) = fs::read_to_string("/proc/loadavg") {
        println!("load average: {}", load.trim());
    }
}
