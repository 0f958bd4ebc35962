//! The instructions of the main calls, counted by callgrind, beside the bounds in counts.txt. A count above its bound fails.
//!
//! The program `count` makes each call in a function of its own, and callgrind collects from that function's entry to its
//! return: the call and all that it calls, and nothing of the loop around it. So nothing is subtracted, and the counts are
//! exact.

use std::collections::BTreeMap;
use std::fmt::Write as _;
use std::io::Write as _;
use std::path::{Path, PathBuf};
use std::process::Command;

/// How many times a case is run: a list of 256 addresses less often. Each costs the same, so that the total is a multiple.
fn times(case: &str) -> u64 {
    if case.contains("-256-") {
        4
    } else {
        100
    }
}

/// A case, and how many tenths of the instructions of another it may take: a forecast of the loads that it speaks of, a search
/// that a mark of level 5 ends of one among fewer marks, a load with accessed and dirty bits that sets none of one without, a load or
/// store with the automatic choice that is charged to nobody of one without.
const AT_MOST: [(&str, u64, &str); 9] = [
    ("forecast-256-missing", 40, "serve-256-missing"),
    ("forecast-256-spread", 40, "serve-256-spread"),
    ("depth-top-and-63", 10, "depth-top-and-5"),
    ("load-depth-0-bits", 11, "load-depth-0"),
    ("load-depth-1-bits", 11, "load-depth-1"),
    ("load-depth-4-bits", 11, "load-depth-4"),
    ("load-depth-5-bits", 11, "load-depth-5"),
    ("load-depth-0-choice", 11, "load-depth-0"),
    ("store-choice", 12, "store"),
];

/// For the program and what callgrind writes.
const FOLDER: &str = env!("CARGO_TARGET_TMPDIR");

/// The program `count` as a release build has it, whatever this test is built as.
fn release_build() -> PathBuf {
    let manifest = Path::new(env!("CARGO_MANIFEST_DIR")).join("Cargo.toml");
    let built = Command::new(env!("CARGO"))
        .args(["build", "--quiet", "--offline", "--release", "--bin", "count", "--target-dir", FOLDER])
        .arg("--manifest-path")
        .arg(manifest)
        .status();
    assert!(built.unwrap().success(), "the program was not built");
    Path::new(FOLDER).join("release/count")
}

/// What the command prints.
fn output(command: &mut Command) -> String {
    let output = command.output().unwrap_or_else(|error| panic!("{command:?}: {error}"));
    assert!(output.status.success(), "{command:?}:\n{}", String::from_utf8_lossy(&output.stderr));
    String::from_utf8(output.stdout).unwrap()
}

/// Of the C library's ways to copy and to clear, the one that every x86-64 processor has: which it takes else is the machine's.
const PLAIN_COPIES: &str = "glibc.cpu.hwcaps=-AVX2,-AVX512F,-AVX512VL,-ERMS,-FSRM,-SSSE3";

/// The instructions of a case, run once.
fn count(program: &Path, case: &str) -> u64 {
    let profile = format!("{FOLDER}/{case}.callgrind");
    output(
        Command::new("valgrind")
            .env("GLIBC_TUNABLES", PLAIN_COPIES)
            .args(["--tool=callgrind", "--toggle-collect=counted_*"])
            .arg(format!("--callgrind-out-file={profile}"))
            .arg(program)
            .args([case, &times(case).to_string()]),
    );
    let text = std::fs::read_to_string(&profile).unwrap();
    std::fs::remove_file(&profile).unwrap();
    let total = text.lines().find_map(|line| line.strip_prefix("totals: ")).expect("a line of totals");
    let total: u64 = total.parse().expect(total);
    assert!(total > 0, "{case}: callgrind saw no function counted_*");
    let times = times(case);
    assert_eq!(total % times, 0, "{case}: {total} in all, so that not each of {times} costs the same");
    total / times
}

/// The lines of counts.txt: a case and its bound, none where it is not known yet.
fn bounds() -> Vec<(String, Option<u64>)> {
    let file = Path::new(env!("CARGO_MANIFEST_DIR")).join("counts.txt");
    let text = std::fs::read_to_string(file).unwrap();
    let bound = |line: &str| {
        let (case, bound) = line.split_once(' ').expect(line);
        (case.to_string(), (bound.trim() != "?").then(|| bound.trim().parse().expect(line)))
    };
    text.lines().filter(|line| !line.is_empty() && !line.starts_with('#')).map(bound).collect()
}

#[test]
fn within_their_bounds() {
    let program = release_build();
    let bounds = bounds();
    let cases = output(&mut Command::new(&program));
    let bounded: Vec<&str> = bounds.iter().map(|(case, _)| case.as_str()).collect();
    assert_eq!(cases.lines().collect::<Vec<_>>(), bounded, "the cases of count, and those of counts.txt");

    let mut table = format!("\n{:<22} {:>7} {:>7}\n", "instructions", "count", "bound");
    let (mut above, mut unknown) = (String::new(), String::new());
    let mut counts = BTreeMap::new();
    for (case, bound) in bounds {
        let count = count(&program, &case);
        counts.insert(case.clone(), count);
        let Some(bound) = bound else {
            writeln!(unknown, "{case:<22} {count:>8}").unwrap();
            continue;
        };
        let remark = if count > bound {
            writeln!(above, "{case}: {count} instructions, bound {bound}").unwrap();
            "  above its bound"
        } else if count * 100 < bound * 97 {
            "  more than 3 of 100 below its bound, which may be lowered"
        } else {
            ""
        };
        writeln!(table, "{case:<22} {count:>7} {bound:>7}{remark}").unwrap();
    }
    // Shown also where the test passes, as nothing printed by println is.
    std::io::stderr().write_all(table.as_bytes()).unwrap();
    for (case, tenths, other) in AT_MOST {
        let (count, others) = (counts[case], counts[other]);
        assert!(
            10 * count <= tenths * others,
            "{case}: {count} instructions, more than {tenths} tenths of {other}: {others}"
        );
    }
    assert!(unknown.is_empty(), "without a bound in counts.txt, where these lines are to be put:\n{unknown}");
    assert!(above.is_empty(), "above their bounds in counts.txt:\n{above}");
}
