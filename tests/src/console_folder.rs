//! The folder that the program is started in: what its files hold before, after each `save`, `record` and `delays`, and at the end.

use crate::console_model::Planned;
use crate::model::decode;
use std::collections::BTreeMap;
use std::ffi::OsStr;
use std::fs;
use std::io::{self, Read, Write};
use std::os::unix::ffi::OsStrExt;
use std::os::unix::fs::{symlink, FileTypeExt};
use std::path::Path;
use std::process::Command;

/// The one folder inside the folder.
pub const INNER: &str = "inner";
/// A file that holds nothing and takes everything, and one that can't be written because it is full.
pub const NULL: &str = "/dev/null";
pub const FULL: &str = "/dev/full";
/// The longest name of a file, and the longest path to one, on the systems that the test is for.
const LONGEST_NAME: usize = 255;
const LONGEST_PATH: usize = 4_095;
/// "A save writes the new file beside the old one, under the file's name with `.part` after it, and then renames it." A record and a unit
/// with delays are written in the same way.
pub const PART: &str = ".part";
/// No file in order, a unit or a record, has so many bytes, and one that is longer is refused by the same number, whatever comes after them.
pub const HEAD: usize = 1_400;

#[derive(Clone, PartialEq, Eq, Debug)]
pub enum File {
    Bytes(Vec<u8>),
    /// The record of a plan, whose cycle is seen when the program is run.
    Record(Planned),
    /// These bytes first, zeros after them up to this length. Never written by the program, and too long to be held here.
    Long(Vec<u8>, u64),
    /// A symbolic link to this path, which is taken from the folder that the link is in.
    Link(Vec<u8>),
    /// A folder besides the inner one.
    Folder,
    /// A FIFO, or whatever else is no file that can be read to its end.
    Pipe,
}

/// Whether the system's devices stand where the scripts may name them.
pub fn has_devices() -> bool {
    [NULL, FULL].iter().all(|device| fs::symlink_metadata(device).is_ok_and(|about| about.file_type().is_char_device()))
}

/// What a command writes to a file, or finds in one.
#[derive(Clone)]
pub enum Content {
    /// Of a long file the first bytes, `HEAD` of them.
    Bytes(Vec<u8>),
    Record(Planned),
}

/// Where units and records are read from and written to.
pub trait Shelf {
    /// None where there is no file of this name.
    fn load(&self, name: &[u8]) -> Option<Content>;
    /// Whether it was written.
    fn save(&mut self, name: &[u8], content: &Content) -> bool;
    /// The length of the file of this name, where there is one and its length is known.
    fn length(&self, name: &[u8]) -> Option<u64>;
    /// The special cases that a file written under this name is one of.
    fn special(&self, name: &[u8]) -> Vec<OfWritten>;
}

/// What is written to a file: the unit, the record of a plan, or the unit with delays.
#[derive(Clone, Copy, PartialEq, Eq)]
pub enum Written {
    Unit,
    Record,
    Delays,
}

/// A special case of a file that is written, for each thing that is.
pub type OfWritten = [&'static str; 3];

macro_rules! written {
    ($what:literal) => {
        written!("", $what)
    };
    ($front:literal, $what:literal) => {
        [concat!($front, "a save ", $what), concat!($front, "a record ", $what), concat!($front, "delays ", $what)]
    };
}
pub(crate) use written;

/// What a file's name leads to.
enum Place {
    /// The name by which the file is kept here.
    File(Vec<u8>),
    Null,
    Full,
    Folder,
    /// A name that no file can have.
    None,
}

#[derive(Clone, Default, PartialEq, Eq, Debug)]
pub struct Folder {
    pub files: BTreeMap<Vec<u8>, File>,
}

impl Folder {
    /// What a name leads to; where the last part of it is a symbolic link, to the link itself.
    fn place_of(&self, name: &[u8]) -> Place {
        if name == NULL.as_bytes() {
            return Place::Null;
        }
        if name == FULL.as_bytes() {
            return Place::Full;
        }
        // "A name that is no UTF-8 names no file"
        if name.contains(&0) || name.len() > LONGEST_PATH || std::str::from_utf8(name).is_err() {
            return Place::None;
        }
        assert!(!name.starts_with(b"/"), "no script names another file outside the folder");
        let mut parts: Vec<&[u8]> = name.split(|byte| *byte == b'/').filter(|part| !part.is_empty() && *part != b".").collect();
        if parts.iter().any(|part| part.len() > LONGEST_NAME) {
            return Place::None;
        }
        // a link to the inner folder, with something after it
        let leads_inside = |part: &&[u8]| self.files.get(*part) == Some(&File::Link(INNER.as_bytes().to_vec()));
        if parts.first().is_some_and(leads_inside) && (parts.len() > 1 || name.ends_with(b"/")) {
            parts[0] = INNER.as_bytes();
        }
        match parts[..] {
            [] => Place::Folder,
            [only] if only == INNER.as_bytes() => Place::Folder,
            // `x/` is no file, whatever x is
            _ if name.ends_with(b"/") => Place::None,
            [only] => Place::File(only.to_vec()),
            [folder, file] if folder == INNER.as_bytes() => Place::File([folder, b"/", file].concat()),
            _ => Place::None,
        }
    }

    /// What a name leads to, along links. The links of a folder that scripts are run in stand in the folder itself and not in the inner one.
    fn end_of(&self, name: &[u8]) -> Place {
        let mut place = self.place_of(name);
        for _ in 0..=self.files.len() {
            match &place {
                Place::File(key) => match self.files.get(key) {
                    Some(File::Link(target)) => place = self.place_of(target),
                    _ => return place,
                },
                _ => return place,
            }
        }
        // links in a circle
        Place::None
    }

    fn is_link(&self, name: &[u8]) -> bool {
        matches!(self.place_of(name), Place::File(key) if matches!(self.files.get(&key), Some(File::Link(_))))
    }

    /// Whether the name of a file in order can't have `.part` after it.
    fn has_no_part(&self, name: &[u8]) -> bool {
        let Place::File(key) = self.place_of(name) else { return false };
        let last = key.rsplit(|byte| *byte == b'/').next().map_or(0, |last| last.len());
        last + PART.len() > LONGEST_NAME || name.len() + PART.len() > LONGEST_PATH
    }
}

pub fn part_of(name: &[u8]) -> Vec<u8> {
    [name, PART.as_bytes()].concat()
}

impl Shelf for Folder {
    fn load(&self, name: &[u8]) -> Option<Content> {
        let key = match self.end_of(name) {
            Place::File(key) => key,
            Place::Null => return Some(Content::Bytes(Vec::new())),
            // zeros without end
            Place::Full => return Some(Content::Bytes(vec![0; HEAD])),
            // a folder can be opened, but it is no file and has no bytes to refuse
            Place::Folder | Place::None => return None,
        };
        match self.files.get(&key)? {
            File::Bytes(bytes) => Some(Content::Bytes(bytes[..bytes.len().min(HEAD)].to_vec())),
            File::Record(planned) => Some(Content::Record(planned.clone())),
            File::Long(head, _) => {
                let mut bytes = head.clone();
                bytes.resize(HEAD, 0);
                Some(Content::Bytes(bytes))
            }
            File::Link(_) | File::Folder | File::Pipe => None,
        }
    }

    fn save(&mut self, name: &[u8], content: &Content) -> bool {
        // "A name that is a symbolic link, or that names something other than a regular file, is written in place"
        let in_place = self.is_link(name);
        match self.end_of(name) {
            // "where the new file can't be opened: `not written`"
            Place::File(_) if !in_place && self.has_no_part(name) => false,
            Place::File(key) => {
                // "After an accepted save there is no such `.part` file."
                if !in_place {
                    self.files.remove(&part_of(&key));
                }
                let file = match content.clone() {
                    Content::Bytes(bytes) => File::Bytes(bytes),
                    Content::Record(planned) => File::Record(planned),
                };
                self.files.insert(key, file);
                true
            }
            Place::Null => true,
            Place::Full | Place::Folder | Place::None => false,
        }
    }

    fn length(&self, name: &[u8]) -> Option<u64> {
        let Place::File(key) = self.end_of(name) else { return None };
        match self.files.get(&key)? {
            File::Bytes(bytes) => Some(bytes.len() as u64),
            File::Long(_, length) => Some(*length),
            File::Record(_) | File::Link(_) | File::Folder | File::Pipe => None,
        }
    }

    fn special(&self, name: &[u8]) -> Vec<OfWritten> {
        let (is_link, no_part, old) = (self.is_link(name), self.has_no_part(name), self.load(name));
        let part_stands = !is_link && matches!(self.place_of(name), Place::File(key) if self.files.contains_key(&part_of(&key)));
        let cases = [
            (is_link && matches!(self.end_of(name), Place::File(_)), written!("to a link to a file")),
            (is_link && !matches!(self.end_of(name), Place::File(_)), written!("to a link to something else")),
            (no_part && !is_link, written!("to a name without room for `.part`")),
            (part_stands, written!("where a file has its name with `.part`")),
            (matches!(old, Some(Content::Record(_))), written!("over a record that was written")),
            (matches!(&old, Some(Content::Bytes(bytes)) if decode(bytes).is_ok()), written!("over a unit file")),
        ];
        cases.into_iter().filter(|(holds, _)| *holds).map(|(_, what)| what).collect()
    }
}

/// Writes a file as a save has to, and answers whether it is written.
pub fn store(name: &OsStr, bytes: &[u8]) -> bool {
    match fs::symlink_metadata(name) {
        Ok(about) if !about.is_file() => return fs::write(name, bytes).is_ok(),
        Ok(_) if fs::OpenOptions::new().write(true).open(name).is_err() => return false,
        _ => {}
    }
    let part = part_of(name.as_bytes());
    let part = OsStr::from_bytes(&part);
    let stored = fs::write(part, bytes).and_then(|_| fs::rename(part, name)).is_ok();
    if !stored {
        let _ = fs::remove_file(part);
    }
    stored
}

impl Folder {
    /// Puts the files into a folder that is there and empty.
    pub fn make(&self, root: &Path) -> io::Result<()> {
        fs::create_dir(root.join(INNER))?;
        for (name, file) in &self.files {
            let path = root.join(OsStr::from_bytes(name));
            match file {
                File::Bytes(bytes) => fs::write(path, bytes)?,
                File::Record(_) => return Err(io::Error::other("no folder begins with a record whose cycle is free")),
                File::Long(head, length) => {
                    let mut file = fs::File::create(path)?;
                    file.write_all(head)?;
                    file.set_len(*length)?;
                }
                File::Link(target) => symlink(OsStr::from_bytes(target), path)?,
                File::Folder => fs::create_dir(path)?,
                File::Pipe => {
                    let made = Command::new("mkfifo").arg(path).status()?;
                    if !made.success() {
                        return Err(io::Error::other("no FIFO can be made"));
                    }
                }
            }
        }
        Ok(())
    }

    /// What is in a folder now. Of a file longer than any that the program may write the first 300 bytes are looked at.
    pub fn found(root: &Path) -> io::Result<Folder> {
        let mut folder = Folder::default();
        folder.find(root, b"")?;
        Ok(folder)
    }

    fn find(&mut self, root: &Path, front: &[u8]) -> io::Result<()> {
        for entry in fs::read_dir(root)? {
            let entry = entry?;
            let name = [front, entry.file_name().as_bytes()].concat();
            let kind = entry.file_type()?;
            if kind.is_dir() {
                if name != INNER.as_bytes() {
                    self.files.insert(name.clone(), File::Folder);
                }
                self.find(&entry.path(), &[&name[..], b"/"].concat())?;
                continue;
            }
            if kind.is_symlink() {
                let target = fs::read_link(entry.path())?;
                self.files.insert(name, File::Link(target.as_os_str().as_bytes().to_vec()));
                continue;
            }
            if !kind.is_file() {
                self.files.insert(name, File::Pipe);
                continue;
            }
            let length = entry.metadata()?.len();
            let mut head = Vec::new();
            fs::File::open(entry.path())?.take(if length > 1 << 20 { 300 } else { length }).read_to_end(&mut head)?;
            let file = if head.len() as u64 == length { File::Bytes(head) } else { File::Long(head, length) };
            self.files.insert(name, file);
        }
        Ok(())
    }

    /// The first file in which the found folder differs from this one, in words.
    pub fn difference(&self, found: &Folder) -> Option<String> {
        for (name, file) in &self.files {
            let told = name.escape_ascii();
            match (file, found.files.get(name)) {
                (_, None) => return Some(format!("the file {told} is not there")),
                (File::Long(head, length), Some(File::Long(seen, long))) if length == long && seen.starts_with(head) => {}
                (file, Some(seen)) if file == seen => {}
                (file, Some(seen)) => return Some(format!("the file {told}\nexpected: {file:?}\nfound:    {seen:?}")),
            }
        }
        let more = found.files.keys().find(|name| !self.files.contains_key(*name));
        more.map(|name| format!("the file {} should not be there", name.escape_ascii()))
    }
}
