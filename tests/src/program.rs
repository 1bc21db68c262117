//! The program floorwalk as a process: bytes in, bytes out.
use std::env;
use std::io::{ErrorKind, Read, Write};
use std::path::{Path, PathBuf};
use std::process::{ChildStdin, Command, Stdio};
use std::sync::mpsc::channel;
use std::thread;
use std::time::Duration;

/// Many times as long as any run takes.
const LONGEST: Duration = Duration::from_secs(120);

fn emulated() -> bool {
    env::var_os("AZEBIMORU_EMULATED").is_some()
}

/// Where the program stands; a relative path is taken from this crate's own folder.
fn program() -> PathBuf {
    let named = env::var("AZEBIMORU_FLOORWALK").unwrap_or_else(|_| "../target/bin/floorwalk".to_string());
    Path::new(env!("CARGO_MANIFEST_DIR")).join(named)
}

fn command() -> Command {
    let program = program();
    assert!(program.is_file(), "no program at {}: `tools/build program` makes it", program.display());
    let runner = env::var("AZEBIMORU_RUNNER").unwrap_or_default();
    let mut words = runner.split_whitespace();
    match words.next() {
        None => Command::new(program),
        Some(first) => {
            let mut command = Command::new(first);
            command.args(words).arg(program);
            command
        }
    }
}

/// Hands the input over and closes it. The program takes no more than it may, so it can end before the input does.
fn feed(mut stdin: ChildStdin, input: &[u8], piece: usize) {
    for part in input.chunks(piece) {
        match stdin.write_all(part) {
            Err(e) if e.kind() == ErrorKind::BrokenPipe => return,
            done => done.expect("the input is handed over"),
        }
    }
}

/// All that comes out of a pipe.
fn whole(mut pipe: impl Read) -> Vec<u8> {
    let mut bytes = Vec::new();
    pipe.read_to_end(&mut bytes).expect("the pipe is read");
    bytes
}

/// What the program writes for an input that comes in pieces of this many bytes, or nothing where it does not end.
fn attempt(input: &[u8], piece: usize) -> Option<Vec<u8>> {
    let mut child = command()
        .stdin(Stdio::piped())
        .stdout(Stdio::piped())
        .stderr(Stdio::piped())
        .spawn()
        .expect("the program starts");
    let stdin = child.stdin.take().expect("its input is a pipe");
    let stdout = child.stdout.take().expect("its output is a pipe");
    let stderr = child.stderr.take().expect("its errors go to a pipe");
    // Input goes in beside the output coming out: each pipe alone could fill up and stop both sides.
    thread::scope(|scope| {
        scope.spawn(|| feed(stdin, input, piece));
        let said = scope.spawn(|| whole(stderr));
        let (sender, written) = channel();
        scope.spawn(move || sender.send(whole(stdout)).expect("somebody waits"));
        let written = written.recv_timeout(LONGEST);
        if written.is_err() {
            child.kill().expect("it is stopped");
        }
        let status = child.wait().expect("the program has ended");
        let said = said.join().expect("what it said is read");
        assert!(
            written.is_err() || (status.success() && said.is_empty()),
            "{status} {}",
            String::from_utf8_lossy(&said)
        );
        written.ok()
    })
}

/// What the program writes for an input that comes in pieces of this many bytes. An emulator can stop for ever by itself,
/// though rarely, and is then tried again; a program that does not end never ends.
pub fn run_in_pieces(input: &[u8], piece: usize) -> Vec<u8> {
    let attempts = if emulated() { 3 } else { 1 };
    (0..attempts).find_map(|_| attempt(input, piece)).expect("the program ends")
}

/// What the program writes for an input.
pub fn run(input: &[u8]) -> Vec<u8> {
    run_in_pieces(input, input.len().max(1))
}

/// How many rounds a test makes of this many: an emulated program takes many times as long to start.
pub fn rounds(many: usize) -> usize {
    if emulated() {
        many / 10
    } else {
        many
    }
}
