//! The listing program: at a terminal, through pipes, with reads that fail, and with inputs of every length.

use std::fs::File;
use std::io::{ErrorKind, Read, Write};
use std::os::fd::OwnedFd;
use std::os::unix::net::UnixStream;
use std::path::PathBuf;
use std::process::{Child, Command, Stdio};
use std::thread::sleep;
use std::time::{Duration, Instant};

use baarqidho::{list, Plan, Row};
use tests::faults::damage;
use tests::rng::Rng;
use tests::{directory, root, rounds};

use crate::packed::packed;

/// The paper's plan.
const PLAN: [u8; 7] = [0x02, 0x00, 0x05, 0x00, 0x02, 0x40, 0x08];
const LISTED: &str = "ok 2\n0 10 0 -\n1 20 0 -\n";

/// The key that ends the input of a terminal.
const CTRL_D: u8 = 0x04;

/// How long a program may take.
const LIMIT: Duration = Duration::from_secs(20);

/// The program: `list` in BAARQIDHO_BIN_DIR, or in target/bin of the repository.
fn program() -> PathBuf {
    let program = directory("BAARQIDHO_BIN_DIR", "target/bin").join("list");
    assert!(program.is_file(), "no file {}: run `make list` in the repository", program.display());
    program
}

/// Starts a command whose output is kept.
fn started(command: &mut Command, input: Stdio) -> Child {
    let child = command.stdin(input).stdout(Stdio::piped()).stderr(Stdio::piped()).spawn();
    child.unwrap_or_else(|error| panic!("{command:?} does not start: {error}"))
}

/// What a command writes to standard output and standard error until it ends, which it does within the limit.
fn written(mut child: Child) -> (String, String) {
    let start = Instant::now();
    while child.try_wait().expect("the command can be waited for").is_none() {
        if start.elapsed() > LIMIT {
            child.kill().expect("the command can be ended");
            panic!("the program still waits for input");
        }
        sleep(Duration::from_millis(2));
    }
    let said = child.wait_with_output().expect("its output");
    let text = |bytes| String::from_utf8(bytes).expect("text");
    (text(said.stdout), text(said.stderr))
}

/// What the program writes for a standard input.
fn with_input(input: impl Into<Stdio>) -> (String, String) {
    written(started(&mut Command::new(program()), input.into()))
}

/// What the program lists of bytes that come through a pipe in pieces, a pause after each. It need not take them all.
fn listed<'a>(pieces: impl IntoIterator<Item = &'a [u8]>, pause: Duration) -> String {
    let mut child = started(&mut Command::new(program()), Stdio::piped());
    let mut input = child.stdin.take().expect("its input");
    for piece in pieces {
        match input.write_all(piece) {
            Err(error) if error.kind() == ErrorKind::BrokenPipe => break,
            written => written.expect("the pipe takes the bytes"),
        }
        sleep(pause);
    }
    drop(input);
    let (listed, complaint) = written(child);
    assert_eq!(complaint, "");
    listed
}

/// What the program lists at a terminal after these keys and no further one: the terminal's input stays open. The
/// terminal takes lines, so that the bytes of a plan have to be none with which it edits one.
fn listed_at_terminal(keys: &[u8]) -> String {
    let commands = "stty -echo -isig -opost && echo ready && exec \"$LIST\"";
    let mut script = Command::new("script");
    let mut child = started(script.args(["-qec", commands, "/dev/null"]).env("LIST", program()), Stdio::piped());
    let mut ready = [0; 6];
    child.stdout.as_mut().expect("its output").read_exact(&mut ready).expect("the terminal is ready");
    assert_eq!(&ready, b"ready\n");
    let mut keyboard = child.stdin.take().expect("its input");
    keyboard.write_all(keys).expect("the terminal takes the keys");
    let (listed, _) = written(child);
    drop(keyboard);
    listed
}

/// Ctrl-D hands on what was typed in the line; with nothing typed it is the end, a read of no bytes. That end comes
/// once, and the program has to take it.
#[test]
fn one_end_at_a_terminal() {
    assert_eq!(listed_at_terminal(&[&PLAN[..], &[CTRL_D, CTRL_D]].concat()), LISTED);
    assert_eq!(listed_at_terminal(&[CTRL_D]), "no 12 0\n");
    // A plan whose last byte ends the line, so that the first Ctrl-D is the end.
    let rows = [Row::Input { period: 10, phase: 0 }, Row::Slower { a: 0, k: 2 }, Row::Slower { a: 0, k: 5 }];
    let line = Plan::from_rows(rows).to_packed().expect("a table");
    assert_eq!(line.last(), Some(&b'\n'));
    assert_eq!(listed_at_terminal(&[&line[..], &[CTRL_D]].concat()), "ok 3\n0 10 0 -\n1 20 0 -\n2 50 0 -\n");
}

/// Nothing is listed, and what failed is told.
fn fails((listed, complaint): (String, String)) {
    assert_eq!(listed, "");
    assert!(complaint.starts_with("standard input: ") && complaint.ends_with('\n'), "{complaint:?}");
}

#[test]
fn reads_that_always_fail() {
    fails(with_input(File::open(root()).expect("a directory")));
    let mut closed = Command::new("sh");
    fails(written(started(closed.args(["-c", "exec \"$LIST\" <&-"]).env("LIST", program()), Stdio::null())));
    let (_ours, theirs) = UnixStream::pair().expect("a pair of sockets");
    theirs.set_nonblocking(true).expect("a socket that does not wait");
    fails(with_input(OwnedFd::from(theirs)));
}

/// A socket that gives these bytes, then fails once, then ends: its other end was closed with a byte unread.
fn failing_once(bytes: &[u8]) -> UnixStream {
    let (mut ours, mut theirs) = UnixStream::pair().expect("a pair of sockets");
    ours.write_all(bytes).expect("a socket takes the bytes");
    theirs.write_all(&[0]).expect("a socket takes a byte");
    theirs
}

/// A read that fails is the last one, even if the next would not fail, and whatever was read before it.
#[test]
fn reads_that_fail_once() {
    let mut socket = failing_once(&PLAN);
    let mut bytes = [0; 8];
    assert_eq!(socket.read(&mut bytes).expect("the bytes"), 7);
    assert_eq!(socket.read(&mut bytes).expect_err("a failure").kind(), ErrorKind::ConnectionReset);
    assert_eq!(socket.read(&mut bytes).expect("the end"), 0);
    for bytes in [&PLAN[..], &PLAN[..3], &[]] {
        fails(with_input(OwnedFd::from(failing_once(bytes))));
    }
}

#[test]
fn pieces_with_pauses() {
    let pause = Duration::from_millis(15);
    assert_eq!(listed(PLAN.chunks(1), pause), LISTED);
    assert_eq!(listed(PLAN.chunks(3), pause), LISTED);
    let longest = Plan::new([1, 7, 4095, 4095].repeat(64)).to_packed().expect("a table");
    assert_eq!(listed(longest.chunks(100), pause), list(&longest));
}

#[test]
fn lengths_of_input() {
    let listed = |packed: &[u8]| listed([packed], Duration::ZERO);
    assert_eq!(listed(&[]), "no 12 0\n");
    assert_eq!(listed(&PLAN), LISTED);
    let mut longest = Plan::new([1, 7, 4095, 4095].repeat(64)).to_packed().expect("a table");
    assert_eq!(longest.len(), baarqidho::PACKED_MAX);
    assert!(listed(&longest).starts_with("ok 64\n0 4095 4095 -\n") && listed(&longest).ends_with("\n63 4095 4095 -\n"));
    for more in [1, 2, 1_000, 200_000] {
        longest.resize(baarqidho::PACKED_MAX + more, 0);
        assert_eq!(listed(&longest), "no 16 0\n");
    }
}

/// A table with an input without a rate can be read, and is refused by the check.
#[test]
fn an_input_without_a_rate() {
    let packed = Plan::new([0, 10, 0, 0, 16, 0, 0, 0]).to_packed().expect("a table");
    assert_eq!(listed([&packed[..]], Duration::ZERO), "no 13 1\n");
}

/// Random tables, every second one damaged: the program lists what the library lists.
#[test]
fn random_tables() {
    let mut rng = Rng::new(91);
    for round in 0..rounds(300) {
        let mut packed = packed(&mut rng);
        if round % 2 == 0 {
            damage(&mut rng, &mut packed);
        }
        assert_eq!(listed([&packed[..]], Duration::ZERO), list(&packed), "{packed:?}");
    }
}
