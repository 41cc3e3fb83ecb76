//! The board program, run on feeds: the binary in SEATBOARD_BOARD, or else `crates/board/out/board`
//! below the current folder. What it prints is compared byte for byte.

use std::io::{self, Write};
use std::path::{Path, PathBuf};
use std::process::{ChildStdin, Command, Output, Stdio};
use std::thread;
use std::time::Duration;

/// How a feed is handed over: the end of a piece is not the end of the feed.
#[derive(Clone, Copy)]
pub enum Handed {
    AtOnce,
    InPiecesOf(usize),
}

const BETWEEN_PIECES: Duration = Duration::from_millis(2);

/// What the program printed for a feed. 01 lets it print the listing alone and says nothing of
/// its exit code, so that only an end by a signal counts as a failure.
pub fn run(feed: &[u8], handed: Handed) -> Result<String, String> {
    let path = path();
    let output = output_of(&path, feed, handed).map_err(|why| {
        let path = path.display();
        format!("{path} does not run: {why}; build it or set SEATBOARD_BOARD")
    })?;
    if output.status.code().is_none() || !output.stderr.is_empty() {
        let errors = String::from_utf8_lossy(&output.stderr);
        return Err(format!("{}, standard error {errors:?}", output.status));
    }
    Ok(String::from_utf8_lossy(&output.stdout).into_owned())
}

fn path() -> PathBuf {
    std::env::var_os("SEATBOARD_BOARD").map_or("crates/board/out/board".into(), PathBuf::from)
}

fn output_of(path: &Path, feed: &[u8], handed: Handed) -> io::Result<Output> {
    let mut program = Command::new(path)
        .stdin(Stdio::piped())
        .stdout(Stdio::piped())
        .stderr(Stdio::piped())
        .spawn()?;
    let stdin = program.stdin.take().expect("standard input is a pipe");
    thread::scope(|scope| {
        scope.spawn(move || hand_over(stdin, feed, handed));
        program.wait_with_output()
    })
}

/// An error here only says that the program reads no further, as it may when the feed is too
/// large; what it prints is the test.
fn hand_over(mut stdin: ChildStdin, feed: &[u8], handed: Handed) {
    let Handed::InPiecesOf(bytes) = handed else {
        let _ = stdin.write_all(feed);
        return;
    };
    for piece in feed.chunks(bytes) {
        let _ = stdin.write_all(piece);
        thread::sleep(BETWEEN_PIECES);
    }
}

/// The first line that differs, its newline included; nothing if all is equal.
pub fn difference(printed: &str, expected: &str) -> Option<String> {
    if printed == expected {
        return None;
    }
    let mut lines = printed.split_inclusive('\n');
    let mut expected_lines = expected.split_inclusive('\n');
    for number in 1.. {
        let (line, expected_line) = (lines.next(), expected_lines.next());
        if line != expected_line {
            return Some(format!(
                "line {number}: the program's {line:?}, expected {expected_line:?}"
            ));
        }
    }
    None
}
