//! Reading and writing: files by name, the standard files, and lines to people on standard error.

use crate::{failed, Failure};
use std::ffi::OsStr;
use std::fs::{self, File};
use std::io::{self, BufWriter, ErrorKind, IsTerminal, Read, Write};
use std::os::fd::{AsFd, IntoRawFd};
use std::os::unix::fs::MetadataExt;

/// So many bytes decide what a loader answers to a file: after 4,096 kits and 4,096 stacks a record more is at fault, and a record has at
/// most 5 + 12 x 255 bytes.
const DECISIVE_BYTES: u64 = 2 * kitfinder::MAX_SETS as u64 * RECORD_BYTES + RECORD_BYTES;
const RECORD_BYTES: u64 = (kitfinder::RECORD_HEAD_BYTES + kitfinder::TAG_BYTES * kitfinder::MAX_SET_LENGTH) as u64;
/// The kits of a second pad's file are not limited in number, so there is no such border. It is read up to here.
const LONGEST_SECOND: u64 = 1 << 30;
/// From so many bytes on people are told how far it is.
const LARGE: usize = 1_000_000;

/// A line on standard error. Where that can't be written there is nobody to tell.
pub fn say(what: &str) {
    let _ = writeln!(io::stderr(), "kitfinder: {what}");
}

/// The standard files, of which some may be closed.
pub struct Files {
    has_input: bool,
    has_output: bool,
}

impl Files {
    /// Looks at the standard files. Each that is closed becomes /dev/null, so that no other file takes its number.
    pub fn standard() -> Files {
        let is_open = |file: &dyn AsFd| {
            let is_open = file.as_fd().try_clone_to_owned().is_ok();
            if !is_open {
                let _ = File::options().read(true).write(true).open("/dev/null").map(IntoRawFd::into_raw_fd);
            }
            is_open
        };
        let (has_input, has_output) = (is_open(&io::stdin()), is_open(&io::stdout()));
        is_open(&io::stderr());
        Files { has_input, has_output }
    }

    /// Reads a file, or standard input where its name is -, as far as it bears on what a loader answers.
    pub fn read(&self, name: &OsStr) -> Result<Vec<u8>, Failure> {
        self.read_up_to(name, DECISIVE_BYTES)
    }

    /// Reads a second pad's file in the same way.
    pub fn read_second(&self, name: &OsStr) -> Result<Vec<u8>, Failure> {
        let bytes = self.read_up_to(name, LONGEST_SECOND + 1)?;
        if bytes.len() as u64 > LONGEST_SECOND {
            return failed(format!("{} has more than {LONGEST_SECOND} bytes", shown(name)));
        }
        Ok(bytes)
    }

    fn read_up_to(&self, name: &OsStr, most: u64) -> Result<Vec<u8>, Failure> {
        let file = if name != "-" {
            File::open(name)
        } else if self.has_input {
            if io::stdin().is_terminal() {
                say("waits for a tag file on standard input");
            }
            io::stdin().as_fd().try_clone_to_owned().map(File::from)
        } else {
            return failed("standard input is closed");
        };
        let mut bytes = Vec::new();
        match file.and_then(|file| file.take(most).read_to_end(&mut bytes)) {
            Ok(_) => Ok(bytes),
            Err(error) => failed(match error.kind() {
                ErrorKind::NotFound => format!("{}: there is no such file", shown(name)),
                ErrorKind::IsADirectory => format!("{} is a folder", shown(name)),
                ErrorKind::PermissionDenied => format!("{} can't be read", shown(name)),
                _ => format!("{} was not read: {error}", shown(name)),
            }),
        }
    }

    /// Writes to standard output what `put` puts there; `what` names it.
    pub fn print(&self, what: &str, put: impl FnOnce(&mut dyn Write) -> io::Result<()>) -> Result<(), Failure> {
        if !self.has_output {
            return failed("standard output is closed");
        }
        let write = || {
            let mut output = BufWriter::with_capacity(1 << 16, File::from(io::stdout().as_fd().try_clone_to_owned()?));
            put(&mut output)?;
            output.flush()
        };
        match write() {
            Ok(()) => Ok(()),
            Err(error) if error.kind() == ErrorKind::BrokenPipe => Err(Failure::Gone),
            Err(error) => failed(format!("{what} was not written: {error}")),
        }
    }

    /// Writes a file, or standard output where its name is -. It is not written over the file that was read.
    pub fn write(&self, name: &OsStr, bytes: &[u8], read: &OsStr) -> Result<(), Failure> {
        if name == "-" {
            return self.print("the file", |output| output.write_all(bytes));
        }
        let same = |file: &OsStr| fs::metadata(file).map(|about| (about.is_file(), about.dev(), about.ino())).ok();
        if read != "-" && same(name).is_some_and(|about| about.0 && Some(about) == same(read)) {
            return failed(format!("{} is the file that was read, and is not written over", shown(name)));
        }
        match File::create(name).and_then(|mut file| file.write_all(bytes)) {
            Ok(()) => Ok(()),
            Err(error) => failed(match error.kind() {
                ErrorKind::NotFound => format!("{}: there is no such folder", shown(name)),
                ErrorKind::IsADirectory => format!("{} is a folder", shown(name)),
                ErrorKind::PermissionDenied => format!("{} can't be written", shown(name)),
                _ => format!("{} was not written whole: {error}", shown(name)),
            }),
        }
    }
}

/// Says how far it is, where a file is large and somebody looks on.
pub fn tell(bytes: usize, what: &str) {
    if bytes >= LARGE && io::stderr().is_terminal() {
        say(what);
    }
}

/// A file's name as people are told it.
fn shown(name: &OsStr) -> String {
    if name == "-" {
        "standard input".into()
    } else {
        name.to_string_lossy().into_owned()
    }
}
