//! Runs a program with a text on its standard input, in a folder of its own, for a limited time.

use crate::console_check::Run;
use crate::console_folder::Folder;
use crate::console_script::{Feed, Script};
use crate::random::Random;
use std::fs;
use std::io::{self, Read, Write};
use std::os::unix::process::ExitStatusExt;
use std::path::{Path, PathBuf};
use std::process::{Child, ChildStdin, ChildStdout, Command, Stdio};
use std::sync::atomic::{AtomicUsize, Ordering};
use std::thread;
use std::time::{Duration, Instant};

/// A program that has not answered a line by then never does before it gets the next one.
const PATIENCE: Duration = Duration::from_secs(60);

#[derive(Clone, Copy, PartialEq, Eq, Debug)]
pub enum Ending {
    Status(i32),
    Signal(i32),
    /// It did not end in time.
    Stopped,
}

impl Ending {
    pub fn told(&self) -> String {
        match self {
            Ending::Status(status) => format!("ended with status {status}"),
            Ending::Signal(signal) => format!("was ended by signal {signal}"),
            Ending::Stopped => "did not end in time and was stopped".to_string(),
        }
    }
}

/// A new folder among the system's temporary ones. It is removed when it is dropped.
pub struct Place {
    pub path: PathBuf,
}

impl Place {
    pub fn new() -> io::Result<Place> {
        static MADE: AtomicUsize = AtomicUsize::new(0);
        loop {
            let number = MADE.fetch_add(1, Ordering::Relaxed);
            let path = std::env::temp_dir().join(format!("designer-test-{}-{number}", std::process::id()));
            match fs::create_dir(&path) {
                Ok(()) => return Ok(Place { path }),
                Err(error) if error.kind() == io::ErrorKind::AlreadyExists => {}
                Err(error) => return Err(error),
            }
        }
    }
}

impl Drop for Place {
    fn drop(&mut self) {
        let _ = fs::remove_dir_all(&self.path);
    }
}

/// Writes the input in pieces. A program that reads no further ends it: what it left out shows in its answers.
fn feed_pieces(mut pipe: ChildStdin, input: &[u8], most: impl Fn(&mut Random) -> u32) {
    let mut random = Random::new(input.len() as u64);
    let mut rest = input;
    while !rest.is_empty() {
        let (piece, after) = rest.split_at((most(&mut random) as usize).min(rest.len()));
        if pipe.write_all(piece).is_err() {
            return;
        }
        rest = after;
    }
}

/// Writes a line at a time, each when the answers to those before it have as many lines as they should. Ends where that takes too long,
/// with the place of the line that was not answered.
fn feed_turns(mut pipe: ChildStdin, turns: &[(Vec<u8>, usize)], heard: &AtomicUsize) -> Option<usize> {
    for (place, (line, height)) in (1..).zip(turns) {
        if pipe.write_all(line).is_err() {
            return None;
        }
        let begin = Instant::now();
        while heard.load(Ordering::Acquire) < *height {
            if begin.elapsed() > PATIENCE {
                return Some(place);
            }
            thread::sleep(Duration::from_micros(100));
        }
    }
    None
}

/// Reads all there is, up to far more than there should be, and counts the lines.
fn hear(mut pipe: ChildStdout, heard: &AtomicUsize) -> io::Result<Vec<u8>> {
    const ROOM: usize = 1 << 28;
    let mut output = Vec::new();
    let mut piece = vec![0; 1 << 16];
    while output.len() < ROOM {
        let count = pipe.read(&mut piece)?;
        if count == 0 {
            break;
        }
        output.extend_from_slice(&piece[..count]);
        heard.fetch_add(piece[..count].iter().filter(|byte| **byte == b'\n').count(), Ordering::Release);
    }
    Ok(output)
}

/// Waits for the end, up to the limit.
pub fn wait(child: &mut Child, limit: Duration) -> io::Result<Ending> {
    let begin = Instant::now();
    loop {
        if let Some(status) = child.try_wait()? {
            return Ok(match status.code() {
                Some(code) => Ending::Status(code),
                None => Ending::Signal(status.signal().unwrap_or(0)),
            });
        }
        if begin.elapsed() > limit {
            child.kill()?;
            child.wait()?;
            return Ok(Ending::Stopped);
        }
        thread::sleep(Duration::from_millis(1));
    }
}

/// Runs the command on the script's lines, in a new folder with the script's files.
pub fn run(command: &mut Command, script: &Script, limit: Duration) -> io::Result<Run> {
    let place = Place::new()?;
    script.before.make(&place.path)?;
    let mut child = command.current_dir(&place.path).stdin(Stdio::piped()).stdout(Stdio::piped()).spawn()?;
    let (stdin, stdout) = (child.stdin.take().expect("a pipe"), child.stdout.take().expect("a pipe"));
    let input = script.input();
    let turns = if script.feed == Feed::Turns { script.turns() } else { Vec::new() };
    let some = |random: &mut Random| if random.chance(1, 3) { random.between(1, 40) } else { random.between(1, 9_000) };
    let way = script.feed;
    let heard = AtomicUsize::new(0);
    let (output, unanswered, ending) = thread::scope(|scope| {
        let feeder = scope.spawn(|| {
            match way {
                Feed::Turns => return feed_turns(stdin, &turns, &heard),
                Feed::Bytes => feed_pieces(stdin, &input, |_| 1),
                Feed::Pieces => feed_pieces(stdin, &input, some),
            }
            None
        });
        let reader = scope.spawn(|| hear(stdout, &heard));
        let ending = wait(&mut child, limit);
        // the pipes are closed at the other end by now
        let unanswered = feeder.join().expect("the feeder ends");
        (reader.join().expect("the reader ends"), unanswered, ending)
    });
    let folder = Folder::found(&place.path)?;
    Ok(Run { output: output?, ending: ending?, unanswered, folder })
}

/// The program's path, whichever folder it is started in.
pub fn path_of(program: &str) -> Option<PathBuf> {
    let path = fs::canonicalize(Path::new(program)).ok()?;
    path.is_file().then_some(path)
}
