//! The C examples, compiled with the header and linked with the archive.

use std::path::{Path, PathBuf};
use std::process::Command;

const LINES: &str = "1 ok\n2 ok\n3 ok\n4 done 4 0\n5 fault H 0 1 9 1\n6 no 4\n\
                     7 tables 0 9 1\n8 tables 0 0 0\n9 done 4 0\n10 value 0000000000000003 4 1\n11 no 15\n\
                     12 ok\n13 ok\n14 depth 1, 2 read\n15 ok\n16 depth 5, 2 read\n17 no 3\n18 no 1\n\
                     19 ok\n20 ok\n21 value 0000000000000023 4 1\n22 done 4 2\n23 value 0000000000000063 4 0\n24 no 16\n\
                     25 ok\n26 ok\n27 done 4 2\n28 done 4 2\n29 done 4 2\n30 automatic mark at 0x0 of level 1, 3 charges\n\
                     31 no 6\n32 ok\n33 operator's mark at 0x0 of level 1, 3 charges\n34 ok\n";

fn package() -> &'static Path {
    Path::new(env!("CARGO_MANIFEST_DIR"))
}

/// What the program prints, once compiled.
fn printed(compiler: &str, standard: &str, source: &Path, name: &str) -> String {
    let folder = std::env::var_os("CANGRIEB_LIB_DIR").map(PathBuf::from);
    let archive = folder.unwrap_or(package().join("../../crates/cangrieb/out")).join("libcangrieb.a");
    let program = Path::new(env!("CARGO_TARGET_TMPDIR")).join(name);
    let compiled = Command::new(compiler)
        .args([standard, "-Wall", "-Wextra", "-Werror", "-O2", "-I"])
        .arg(package().join("include"))
        .arg(source)
        .arg(archive)
        .arg("-o")
        .arg(&program)
        .status();
    assert!(compiled.unwrap_or_else(|error| panic!("{compiler}: {error}")).success());
    let output = Command::new(program).output().unwrap();
    String::from_utf8(output.stdout).unwrap()
}

#[test]
fn the_c_example() {
    assert_eq!(printed("cc", "-std=c11", &package().join("examples/monitor.c"), "monitor"), LINES);
}

/// The lines of C in docs/LINKING.md, in a function.
#[test]
fn the_c_lines_of_the_page() {
    let page = std::fs::read_to_string(package().join("../../docs/LINKING.md")).unwrap();
    let lines = page.split("```c\n").nth(1).and_then(|rest| rest.split("```").next()).expect("lines of C");
    let text = format!(
        "#include <inttypes.h>\n#include <stdio.h>\n#include \"cangrieb.h\"\nint main(void)\n{{\n{lines}return 0;\n}}\n"
    );
    let source = Path::new(env!("CARGO_TARGET_TMPDIR")).join("page.c");
    std::fs::write(&source, text).unwrap();
    assert_eq!(printed("cc", "-std=c11", &source, "page"), "0x3\n");
}
