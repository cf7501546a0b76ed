//! Runs of a few lines each, in which what stands in the folder or what becomes of the output is special: what a save, a record or delays
//! leave behind, and what is done after an answer that can't be written. Answers and files are those of the console's description, by hand.

use crate::console_check::Counts;
use crate::console_folder::{written, File, Folder, OfWritten, Written, FULL, INNER, PART};
use crate::console_program::{wait, Ending, Place};
use std::fs::{self, OpenOptions, Permissions};
use std::io::{self, Read, Write};
use std::os::unix::fs::{chown, OpenOptionsExt, PermissionsExt};
use std::os::unix::process::CommandExt;
use std::path::{Path, PathBuf};
use std::process::{Child, Command, Stdio};
use std::time::Duration;

/// A program and its arguments.
pub struct Program {
    pub path: PathBuf,
    pub arguments: Vec<String>,
}

impl Program {
    pub fn new(path: &Path, arguments: &[&str]) -> Program {
        Program { path: path.to_path_buf(), arguments: arguments.iter().map(|argument| argument.to_string()).collect() }
    }
}

/// Where the program's answers go.
#[derive(Clone, Copy, PartialEq, Eq)]
enum Outlet {
    /// They are read.
    Read,
    /// Into a file, which is read after the end.
    File,
    /// To a device that is full.
    Full,
    /// Into a pipe that nobody reads.
    Unread,
}

/// Who runs the program.
#[derive(Clone, Copy, PartialEq, Eq)]
enum By {
    /// The user of the tests.
    Us,
    /// A user whom permissions bind, and who owns the folder.
    Owner,
    /// A user whom permissions bind, and who owns nothing there.
    Stranger,
}

pub struct Case {
    /// The special case that it is.
    pub what: &'static str,
    before: Folder,
    /// What is done in the folder before the program is run, besides putting the files there.
    prepare: fn(&Path) -> io::Result<()>,
    lines: String,
    /// The input ends only with the program.
    stays_open: bool,
    outlet: Outlet,
    /// No file may become longer than this.
    room: Option<u64>,
    by: By,
    /// The output, where it can be read.
    answers: Option<String>,
    after: Folder,
    /// A file that may be there or not.
    free: Option<&'static str>,
    /// What comes out of the file `fifo`, where there is one.
    piped: &'static [u8],
}

/// A unit as a file: 1 function, 1 segment, 2 columns; the table begins at byte 6, and its one word has the bit of column 2.
const NEW: &[u8] = &[1, 1, 2, 0, 6, 0, 2, 0, 0, 0];
/// The record of the unit's plan, which is the cycle 1: one latency, a sum of 1, the list at 8, the ring at 9, one bit that is 0 and seven
/// spare ones.
const RECORD: &[u8] = &[1, 0, 1, 0, 8, 0, 9, 0, 1, 0xFE];

/// A unit with delays as a file: marks 1 3 have moved to 1 4 of 4 columns, and the table's one word has the bits of these.
const DELAYED: &[u8] = &[1, 1, 4, 0, 6, 0, 9, 0, 0, 0];

/// How a new file is made: by a save, by a record, or by delays.
struct Way {
    written: Written,
    make: &'static str,
    verb: &'static str,
    bytes: &'static [u8],
}

const SAVE: Way = Way { written: Written::Unit, make: "fresh 1 1 2\nmark 1 1 2\n", verb: "save", bytes: NEW };
const WAYS: [Way; 3] = [
    SAVE,
    Way { written: Written::Record, make: "fresh 1 1 2\nmark 1 1 2\nsearch 1\n", verb: "record 1", bytes: RECORD },
    Way { written: Written::Delays, make: "fresh 2 1 3\nmark 2 1 1\nmark 2 1 3\n", verb: "delays 2 2", bytes: DELAYED },
];

/// A special case of a file that is written, in a run of a few lines.
macro_rules! files {
    ($what:literal) => {
        written!("files: ", $what)
    };
}

/// A longer file.
const OLD: &[u8] = b"an old file, which is longer than the new one";

fn folder(files: &[(&str, File)]) -> Folder {
    Folder { files: files.iter().map(|(name, file)| (name.as_bytes().to_vec(), file.clone())).collect() }
}

fn old() -> File {
    File::Bytes(OLD.to_vec())
}

fn link(target: &str) -> File {
    File::Link(target.as_bytes().to_vec())
}

/// Lines that are answered so.
fn lines(what: &'static str, lines: String, answers: String, before: &[(&str, File)], after: &[(&str, File)]) -> Case {
    Case {
        what,
        before: folder(before),
        prepare: |_| Ok(()),
        lines,
        stays_open: false,
        outlet: Outlet::Read,
        room: None,
        by: By::Us,
        answers: Some(answers),
        after: folder(after),
        free: None,
        piped: b"",
    }
}

impl Way {
    fn new(&self) -> File {
        File::Bytes(self.bytes.to_vec())
    }

    /// A unit is made and written under each of these names, each with whether it is to be written.
    fn writing(&self, what: OfWritten, before: &[(&str, File)], names: &[(&str, bool)], after: &[(&str, File)]) -> Case {
        let (mut typed, mut answers) = (self.make.to_string(), "ok\n".repeat(self.make.lines().count()));
        for (name, written) in names {
            typed += &format!("{} {name}\n", self.verb);
            answers += if *written { "ok\n" } else { "not written\n" };
        }
        lines(what[self.written as usize], typed, answers, before, after)
    }
}

/// "The program stops at the first write to standard output that fails: no later command is carried out."
fn failing(what: &'static str, outlet: Outlet) -> Case {
    let typed = "fresh 1 1 1\nsave x.unit\n".to_string();
    Case { outlet, answers: None, ..lines(what, typed, String::new(), &[], &[]) }
}

/// Takes from a path the right to write, for all users.
fn close(path: &Path) -> io::Result<()> {
    let mode = fs::metadata(path)?.permissions().mode();
    fs::set_permissions(path, Permissions::from_mode(mode & !0o222))
}

/// In this order: what is no regular file of the folder is tried before any device of the system.
fn file_cases(way: &Way) -> Vec<Case> {
    let part = |name: &str| format!("{name}{PART}");
    let name_of = |length: usize| "n".repeat(length);
    let (fits, above, most) = (name_of(250), name_of(251), name_of(255));
    let in_inner = |name: &str| format!("{INNER}/{name}");
    vec![
        Case { piped: way.bytes, ..way.writing(files!("to a FIFO"), &[("fifo", File::Pipe)], &[("fifo", true)], &[("fifo", File::Pipe)]) },
        Case {
            piped: way.bytes,
            ..way.writing(
                files!("to a symbolic link to a FIFO"),
                &[("fifo", File::Pipe), ("link", link("fifo"))],
                &[("link", true)],
                &[("fifo", File::Pipe), ("link", link("fifo"))],
            )
        },
        way.writing(
            files!("to a new name and over other files"),
            &[("longer", old()), ("empty", File::Bytes(Vec::new()))],
            &[("new", true), ("longer", true), ("empty", true), (&in_inner("new"), true), ("new", true)],
            &[("new", way.new()), ("longer", way.new()), ("empty", way.new()), (&in_inner("new"), way.new())],
        ),
        // "the old file stays whole until the new one is": it is not the old one that is written, whatever other name it has
        Case {
            prepare: |folder| fs::hard_link(folder.join("one"), folder.join("two")),
            ..way.writing(
                files!("over a file that has a second name"),
                &[("one", old())],
                &[("one", true)],
                &[("one", way.new()), ("two", old())],
            )
        },
        way.writing(
            files!("to a symbolic link to a file"),
            &[("file", old()), ("link", link("file"))],
            &[("link", true)],
            &[("file", way.new()), ("link", link("file"))],
        ),
        way.writing(
            files!("to a symbolic link in another folder"),
            &[("file", old()), (&in_inner("link"), link("../file"))],
            &[(&in_inner("link"), true)],
            &[("file", way.new()), (&in_inner("link"), link("../file"))],
        ),
        way.writing(
            files!("to a symbolic link to another one"),
            &[("file", old()), ("first", link("file")), ("second", link("first"))],
            &[("second", true)],
            &[("file", way.new()), ("first", link("file")), ("second", link("first"))],
        ),
        way.writing(
            files!("to a symbolic link to nothing"),
            &[("link", link("file")), ("far", link("missing/file")), ("circle", link("circle"))],
            &[("link", true), ("far", false), ("circle", false)],
            &[("file", way.new()), ("link", link("file")), ("far", link("missing/file")), ("circle", link("circle"))],
        ),
        way.writing(files!("to a symbolic link to a folder"), &[("link", link(INNER))], &[("link", false)], &[("link", link(INNER))]),
        way.writing(files!("to a symbolic link to a full device"), &[("link", link(FULL))], &[("link", false)], &[("link", link(FULL))]),
        way.writing(files!("into a folder that is not there"), &[], &[("missing/new", false), ("missing/", false)], &[]),
        way.writing(files!("into a file"), &[("file", old())], &[("file/new", false), ("file/", false)], &[("file", old())]),
        way.writing(
            files!("onto a folder"),
            &[("folder", File::Folder), ("folder/file", old())],
            &[("folder", false), (INNER, false), (".", false), ("folder/", false)],
            &[("folder", File::Folder), ("folder/file", old())],
        ),
        way.writing(
            files!("with a folder in the way of its `.part`"),
            &[("file", old()), (&part("file"), File::Folder), (&part("new"), File::Folder)],
            &[("file", false), ("new", false)],
            &[("file", old()), (&part("file"), File::Folder), (&part("new"), File::Folder)],
        ),
        // one that a run left which was cut off
        way.writing(
            files!("where a `.part` stands"),
            &[("file", old()), (&part("file"), old()), (&part("new"), old())],
            &[("file", true), ("new", true)],
            &[("file", way.new()), ("new", way.new())],
        ),
        way.writing(
            files!("to a name without room for `.part`"),
            &[(&most, old())],
            &[(&fits, true), (&above, false), (&most, false)],
            &[(&fits, way.new()), (&most, old())],
        ),
        Case {
            room: Some(0),
            ..way.writing(files!("with room for no byte"), &[("file", old())], &[("file", false), ("new", false)], &[("file", old())])
        },
        Case {
            room: Some(way.bytes.len() as u64 - 1),
            ..way.writing(
                files!("with room for all but one byte"),
                &[("file", old())],
                &[("file", false), ("new", false)],
                &[("file", old())],
            )
        },
        Case {
            room: Some(way.bytes.len() as u64),
            ..way.writing(files!("with room for just its bytes"), &[("file", old())], &[("file", true)], &[("file", way.new())])
        },
        // "A file that exists and can't be written is `not written`", though the folder could be
        Case {
            by: By::Owner,
            prepare: |folder| close(&folder.join("file")),
            ..way.writing(
                files!("over a file that may not be written"),
                &[("file", old())],
                &[("file", false), ("new", true)],
                &[("file", old()), ("new", way.new())],
            )
        },
        Case {
            by: By::Owner,
            prepare: |folder| close(&folder.join(INNER)),
            ..way.writing(
                files!("into a folder that may not be written"),
                &[(&in_inner("file"), old())],
                &[(&in_inner("file"), false), (&in_inner("new"), false)],
                &[(&in_inner("file"), old())],
            )
        },
        // in such a folder, as the system's temporary one, anybody may write, but nobody may rename over another's file
        Case {
            by: By::Stranger,
            prepare: |folder| {
                fs::set_permissions(folder, Permissions::from_mode(0o1777))?;
                fs::set_permissions(folder.join("file"), Permissions::from_mode(0o666))
            },
            ..way.writing(
                files!("that can't be renamed"),
                &[("file", old())],
                &[("file", false), ("new", true)],
                &[("file", old()), ("new", way.new())],
            )
        },
    ]
}

pub fn cases() -> Vec<Case> {
    let record = [("file", File::Bytes(RECORD.to_vec()))];
    let mut cases: Vec<Case> = WAYS.iter().flat_map(file_cases).collect();
    cases.extend([
        Case {
            by: By::Owner,
            prepare: |folder| fs::set_permissions(folder.join("file"), Permissions::from_mode(0)),
            ..lines(
                "files: a file that may not be read",
                "report file\nring file\nload file\n".to_string(),
                "no file\n".repeat(3),
                &record,
                &record,
            )
        },
        failing("output: a full device", Outlet::Full),
        Case { stays_open: true, ..failing("output: a full device, and more input may come", Outlet::Full) },
        failing("output: a pipe that nobody reads", Outlet::Unread),
        // four answers have room; the save after them is done before its answer can't be written
        Case {
            room: Some(12),
            answers: Some("ok\n".repeat(4)),
            lines: "fresh 1 1 2\nmark 1 1 2\nsave one\nsave two\nsave three\nsave four\nfresh 1 1 1\nsave one\n".to_string(),
            after: folder(&[("one", SAVE.new()), ("two", SAVE.new())]),
            free: Some("three"),
            ..failing("output: a file with room for the first answers", Outlet::File)
        },
    ]);
    cases
}

// ---------------------------------------------------------------------------------------------------------------------------------
// Runs

/// Calls of the system, as Linux has them.
mod system {
    extern "C" {
        fn setrlimit(what: i32, limits: *const [u64; 2]) -> i32;
        fn signal(number: i32, action: usize) -> usize;
    }

    const FILE_LENGTH: i32 = 1;
    const NO_READER: i32 = 13;
    const FILE_TOO_LONG: i32 = 25;
    const IGNORED: usize = 1;

    /// A write that fails is told as such, and ends no process.
    pub fn only_tell() {
        // SAFETY: no handler is set, and both signals can be ignored
        unsafe {
            signal(NO_READER, IGNORED);
            signal(FILE_TOO_LONG, IGNORED);
        }
    }

    pub fn limit_files(length: u64) -> std::io::Result<()> {
        // SAFETY: the limits are two words, which are read
        if unsafe { setrlimit(FILE_LENGTH, &[length, length]) } != 0 {
            return Err(std::io::Error::last_os_error());
        }
        Ok(())
    }
}

/// A user who owns nothing.
const NOBODY: u32 = 65_534;
/// Reading and writing do not wait.
const AT_ONCE: i32 = 0o4000;

/// Whether a file's permissions bind the user of the tests.
fn is_bound(place: &Place) -> io::Result<bool> {
    let path = place.path.join("tried");
    fs::write(&path, b"")?;
    close(&path)?;
    let opened = OpenOptions::new().write(true).open(&path);
    fs::remove_file(&path)?;
    Ok(opened.is_err())
}

/// Hands a folder and all in it over to another user.
fn hand_over(path: &Path) -> io::Result<()> {
    chown(path, Some(NOBODY), Some(NOBODY))?;
    if fs::symlink_metadata(path)?.is_dir() {
        for entry in fs::read_dir(path)? {
            hand_over(&entry?.path())?;
        }
    }
    Ok(())
}

/// How a case went.
pub enum Outcome {
    Right,
    Wrong(String),
    /// Why it can't be tried here.
    NotTried(String),
}

impl Case {
    fn output(&self, answers: &Path) -> io::Result<Stdio> {
        Ok(match self.outlet {
            Outlet::Read | Outlet::Unread => Stdio::piped(),
            Outlet::File => fs::File::create(answers)?.into(),
            Outlet::Full => OpenOptions::new().write(true).open(FULL)?.into(),
        })
    }

    fn start(&self, path: &Path, program: &Program, folder: &Path, output: Stdio, user: Option<u32>) -> io::Result<Child> {
        let mut command = Command::new(path);
        command.args(&program.arguments).current_dir(folder);
        command.stdin(Stdio::piped()).stdout(output).stderr(Stdio::null());
        if let Some(user) = user {
            command.uid(user).gid(user);
        }
        let room = self.room;
        // SAFETY: the new process makes calls of the system alone
        unsafe {
            command.pre_exec(move || {
                system::only_tell();
                room.map_or(Ok(()), system::limit_files)
            });
        }
        command.spawn()
    }

    /// Runs a program on the case's lines, in a new folder.
    pub fn run(&self, program: &Program, limit: Duration) -> io::Result<Outcome> {
        let (place, beside) = (Place::new()?, Place::new()?);
        let is_bound = is_bound(&place)?;
        self.before.make(&place.path)?;
        (self.prepare)(&place.path)?;
        let pipe = place.path.join("fifo");
        // held open, so that no writer waits for a reader
        let mut pipe = match pipe.exists() {
            true => Some(OpenOptions::new().read(true).write(true).custom_flags(AT_ONCE).open(pipe)?),
            false => None,
        };
        let user = match self.by {
            By::Us => None,
            By::Owner if is_bound => None,
            By::Stranger if is_bound => return Ok(Outcome::NotTried("the tests can't take another user's place".to_string())),
            By::Owner | By::Stranger => Some(NOBODY),
        };
        if user.is_some() && self.by == By::Owner {
            if let Err(error) = hand_over(&place.path) {
                return Ok(Outcome::NotTried(format!("a file can't be handed over to another user: {error}")));
            }
        }
        let answers = beside.path.join("answers");
        let started = match self.start(&program.path, program, &place.path, self.output(&answers)?, user) {
            // where the other user can't reach the program
            Err(error) if user.is_some() && error.kind() == io::ErrorKind::PermissionDenied => {
                let copy = beside.path.join("program");
                fs::copy(&program.path, &copy)?;
                fs::set_permissions(&copy, Permissions::from_mode(0o755))?;
                match self.start(&copy, program, &place.path, self.output(&answers)?, user) {
                    Err(error) if error.kind() == io::ErrorKind::PermissionDenied => {
                        return Ok(Outcome::NotTried(format!("the program can't be run by another user: {error}")));
                    }
                    started => started,
                }
            }
            started => started,
        };
        let mut child = started?;
        let mut stdout = child.stdout.take();
        if self.outlet == Outlet::Unread {
            stdout = None;
        }
        let mut stdin = child.stdin.take();
        if let Some(stdin) = &mut stdin {
            // a program that reads no further shows in what it did
            let _ = stdin.write_all(self.lines.as_bytes());
        }
        if !self.stays_open {
            drop(stdin.take());
        }
        // the answers of a right program fit into the pipe
        let ending = wait(&mut child, limit)?;
        let mut said = Vec::new();
        match stdout {
            Some(mut stdout) => drop(stdout.read_to_end(&mut said)?),
            None if self.outlet == Outlet::File => said = fs::read(&answers)?,
            None => {}
        }
        let mut piped = Vec::new();
        if let Some(pipe) = &mut pipe {
            // where nothing is left this is an error
            let _ = pipe.read_to_end(&mut piped);
        }
        // so that what it holds can be looked at, where it is there
        let _ = fs::set_permissions(place.path.join("file"), Permissions::from_mode(0o644));
        let found = Folder::found(&place.path)?;
        // so that it can be removed, where it is still there
        let _ = fs::set_permissions(place.path.join(INNER), Permissions::from_mode(0o755));
        Ok(match self.difference(&said, ending, found, &piped) {
            Some(why) => {
                Outcome::Wrong(format!("DIFFERENCE in a run of a few lines, {}\nlines:\n{}{why}", self.what, indented(&self.lines)))
            }
            None => Outcome::Right,
        })
    }

    fn difference(&self, said: &[u8], ending: Ending, mut found: Folder, piped: &[u8]) -> Option<String> {
        if let Some(answers) = &self.answers {
            if said != answers.as_bytes() {
                let said = String::from_utf8_lossy(said);
                return Some(format!("expected:\n{}found:\n{}and the program {}", indented(answers), indented(&said), ending.told()));
            }
        }
        // how it ends is left open where its output can't be written
        let is_ended = if self.outlet == Outlet::Read { ending == Ending::Status(0) } else { ending != Ending::Stopped };
        if !is_ended {
            return Some(format!("the program {}", ending.told()));
        }
        if let Some(name) = self.free {
            if found.files.get(name.as_bytes()) == Some(&SAVE.new()) {
                found.files.remove(name.as_bytes());
            }
        }
        if piped != self.piped {
            return Some(format!("the FIFO\nexpected: {:?}\nfound:    {piped:?}", self.piped));
        }
        self.after.difference(&found)
    }
}

fn indented(text: &str) -> String {
    text.lines().map(|line| format!("    {line}\n")).collect()
}

/// Runs the program on every case, and counts those that are as they should be.
pub fn check(program: &Path, limit: Duration, counts: &mut Counts) -> Result<(), String> {
    let program = Program::new(program, &[]);
    for case in cases() {
        match case.run(&program, limit).map_err(|error| format!("{}: can't be run: {error}", case.what))? {
            Outcome::Right => counts.meet(case.what),
            Outcome::Wrong(why) => return Err(why),
            Outcome::NotTried(why) => println!("console: not tried: {}: {why}", case.what),
        }
    }
    Ok(())
}
