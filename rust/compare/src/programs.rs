//! The proved programs as processes of their own. `rt run` in crates/NAME builds each as crates/NAME/out/NAME; CANGRIEB_ with the
//! name in capitals, as CANGRIEB_JOB, names another place.

use std::io::{Read, Write};
use std::path::PathBuf;
use std::process::{Child, Command, Stdio};
use std::thread;

/// The program of that name, its input and output piped.
pub fn program(name: &str) -> Command {
    let built = PathBuf::from(env!("CARGO_MANIFEST_DIR")).join("../../crates").join(name).join("out").join(name);
    let other = std::env::var_os(format!("CANGRIEB_{}", name.to_uppercase()));
    let mut command = Command::new(other.map_or(built, PathBuf::from));
    command.stdin(Stdio::piped()).stdout(Stdio::piped());
    command
}

pub fn start(command: &mut Command) -> Child {
    let started = command.spawn();
    started.unwrap_or_else(|error| panic!("{command:?}: {error}"))
}

/// The whole output of the program of that name; the input is written in pieces of so many bytes.
pub fn output(name: &str, input: &[u8], piece: usize) -> Vec<u8> {
    let mut child = start(&mut program(name));
    let mut stdin = child.stdin.take().unwrap();
    let bytes = input.to_vec();
    let writer = thread::spawn(move || {
        // A program may end before it has read all, so that a write may find the pipe closed.
        bytes.chunks(piece).try_for_each(|part| stdin.write_all(part)).ok();
    });
    let written = rest_of(child);
    writer.join().unwrap();
    written
}

/// What a program writes to its pipe until it ends, as it must, with status 0.
pub fn rest_of(mut child: Child) -> Vec<u8> {
    let mut written = Vec::new();
    child.stdout.take().unwrap().read_to_end(&mut written).unwrap();
    let status = child.wait().unwrap();
    assert!(status.success(), "{status}");
    written
}
