//! Files are read whole, or as much of them as a record is read from.
use crate::stop::{shown, Stop};
use crate::system::input_is_closed;
use std::ffi::OsStr;
use std::fs::{self, File, Metadata};
use std::io::{self, ErrorKind, Read, Seek};
use std::os::unix::fs::{FileExt, MetadataExt};
use std::os::unix::io::AsFd;
use tronalhet::places::of_length;
use tronalhet::{Refusal, Room, MOST_BYTES};

/// A file up to this length is read whole, which is as quick.
const SHORT: usize = 1 << 16;

/// A chunk's head, and more of its data than reading ever looks at, but for a list of titles: a table of 64 cues has
/// 1,540 bytes.
const LOOKED_AT: usize = 4096;

/// How much is read on where chunks are so short that one follows in what was read.
const AHEAD: usize = 1 << 16;

/// What the system says of a file that is not open.
const NOT_OPEN: i32 = 9;

/// A file that is open: where reading starts, how many bytes there are from there on, if that is known, and what the
/// system says of it before it is read.
struct Opened {
    file: File,
    start: u64,
    size: Option<usize>,
    before: Metadata,
}

/// A file, or standard input, to be read.
fn named(name: &OsStr) -> io::Result<File> {
    if name != "-" {
        return File::open(name);
    }
    if input_is_closed() {
        return Err(io::Error::from_raw_os_error(NOT_OPEN));
    }
    io::stdin().as_fd().try_clone_to_owned().map(File::from)
}

/// Which file is read. It is not opened by its name, as a named pipe would wait for its other end.
pub fn about(name: &OsStr) -> io::Result<Metadata> {
    if name == "-" {
        return named(name)?.metadata();
    }
    fs::metadata(name)
}

/// Opens a file, or standard input. A file that is too long is refused before any of it is read.
fn open(name: &OsStr) -> Result<Opened, Stop> {
    let not_read = |error| Stop::not_read(name, &error);
    let mut file = named(name).map_err(not_read)?;
    let before = file.metadata().map_err(not_read)?;
    if !before.is_file() {
        return Ok(Opened { file, start: 0, size: None, before });
    }
    let start = file.stream_position().map_err(not_read)?;
    let size = before.len().saturating_sub(start);
    if size > MOST_BYTES as u64 {
        return Err(too_long(name, size));
    }
    Ok(Opened { file, start, size: Some(size as usize), before })
}

fn too_long(name: &OsStr, size: u64) -> Stop {
    let refusal = Refusal::LengthOutOfRange;
    Stop::Refused { refusal, file: name.into(), place: of_length(size), way_out: None }
}

/// Whether a name, or standard input, is something else than a file, as a pipe: then it may be long until all is read,
/// and nothing that is written can be in its place.
pub fn is_stream(name: &OsStr) -> bool {
    about(name).map_or(false, |about| !about.is_file())
}

impl Opened {
    /// What was read must be one state of the file.
    fn unchanged(&self, name: &OsStr) -> Result<(), Stop> {
        let after = self.file.metadata().map_err(|error| Stop::not_read(name, &error))?;
        if self.size.is_some() && has_changed(&self.before, &after) {
            return Err(Stop::Trouble(format!("cannot read {}: it changed while it was read", shown(name))));
        }
        Ok(())
    }
}

/// Whether a file was written to: by its length and the time of that. A program may set that time back, but not the one
/// of the last change of any kind; which also changes where a name of the file comes or goes, as where a side is
/// replaced while its old file is still read.
fn has_changed(before: &Metadata, after: &Metadata) -> bool {
    let changed = |about: &Metadata| (about.ctime(), about.ctime_nsec());
    !is_untouched(before, after) || (changed(before) != changed(after) && before.nlink() == after.nlink())
}

/// Whether a file has the length and was last written at the time that it had before.
pub fn is_untouched(before: &Metadata, after: &Metadata) -> bool {
    let written = |about: &Metadata| (about.len(), about.mtime(), about.mtime_nsec());
    written(before) == written(after)
}

/// All bytes of a file.
pub fn whole(name: &OsStr) -> Result<Room<u8>, Stop> {
    all_of(name, open(name)?)
}

/// Where the size is not known there is room for all; room that is not used takes no memory.
fn all_of(name: &OsStr, mut opened: Opened) -> Result<Room<u8>, Stop> {
    let mut room = Room::new(opened.size.unwrap_or(MOST_BYTES) + 1)?;
    let size = fill(&mut opened.file, &mut room).map_err(|error| Stop::not_read(name, &error))?;
    if size > MOST_BYTES {
        return Err(too_long(name, size as u64));
    }
    opened.unchanged(name)?;
    room.shorten(size);
    Ok(room)
}

/// Reads until the room is full or the file ends; how many bytes came.
fn fill(file: &mut File, room: &mut [u8]) -> io::Result<usize> {
    let mut size = 0;
    while size < room.len() {
        match file.read(&mut room[size..]) {
            Ok(0) => break,
            Ok(more) => size += more,
            Err(error) if error.kind() == ErrorKind::Interrupted => {}
            Err(error) => return Err(error),
        }
    }
    Ok(size)
}

/// As much of a file as its record is read from.
pub fn glance(name: &OsStr) -> Result<Room<u8>, Stop> {
    let opened = open(name)?;
    match opened.size {
        Some(size) if size > SHORT => heads_of(name, &opened, size),
        _ => all_of(name, opened),
    }
}

/// A room as long as the file, which is zero but for what its record is read from.
fn heads_of(name: &OsStr, opened: &Opened, size: usize) -> Result<Room<u8>, Stop> {
    let mut room = Room::sparse(size)?;
    heads(&opened.file, opened.start, &mut room).map_err(|error| Stop::not_read(name, &error))?;
    opened.unchanged(name)?;
    Ok(room)
}

/// Reads the head of a file and the start of each chunk to where they stand, and all of a list of titles. Reading goes
/// from chunk to chunk and looks no further into one, so to it this is the whole file; what is left out takes no time
/// and no memory.
fn heads(file: &File, start: u64, room: &mut [u8]) -> io::Result<()> {
    let mut heads = Heads { file, start, room, there: 0 };
    let mut next = 0;
    while next < heads.room.len() {
        heads.read(next, next + LOOKED_AT)?;
        if !heads.room.starts_with(b"RIFF") {
            return Ok(());
        }
        let here = next;
        next = if here == 0 { 12 } else { next_chunk(heads.room, here) };
        if is_title_list(heads.room, here) {
            heads.read(here, next)?;
        }
    }
    Ok(())
}

/// A file that is read into a room as long as it is.
struct Heads<'a> {
    file: &'a File,
    start: u64,
    room: &'a mut [u8],
    /// Up to here the room has what was read last.
    there: usize,
}

impl Heads<'_> {
    /// Reads from a place up to another, but for what is there already; and on where one chunk follows another.
    fn read(&mut self, next: usize, end: usize) -> io::Result<()> {
        let end = end.min(self.room.len());
        if self.there >= end {
            return Ok(());
        }
        let (from, more) = if next < self.there { (self.there, AHEAD) } else { (next, LOOKED_AT) };
        self.there = end.max(from + more).min(self.room.len());
        self.file.read_exact_at(&mut self.room[from..self.there], self.start + from as u64)
    }
}

/// Whether the chunk at a place is a list of titles.
fn is_title_list(room: &[u8], at: usize) -> bool {
    let there = |at: usize, code: &[u8]| room.get(at..at + 4) == Some(code);
    there(at, b"LIST") && there(at + 8, b"adtl")
}

/// Where the chunk after the one at a place starts; past the end where there is none, as after a chunk without its pad.
fn next_chunk(room: &[u8], at: usize) -> usize {
    match room.get(at + 4..at + 8) {
        Some(size) => {
            let size = u32::from_le_bytes(size.try_into().expect("four bytes")) as usize;
            at + 8 + size + size % 2
        }
        None => room.len(),
    }
}

#[cfg(test)]
mod tests {
    use super::*;
    use std::io::Write;
    use std::sync::atomic::{AtomicUsize, Ordering};

    fn chunk(code: &[u8; 4], data: &[u8]) -> Vec<u8> {
        let mut bytes = [&code[..], &(data.len() as u32).to_le_bytes(), data].concat();
        bytes.resize(bytes.len() + data.len() % 2, 0xff);
        bytes
    }

    /// A room of what `heads` reads of some bytes that stand in a file after others.
    fn glanced(bytes: &[u8]) -> Room<u8> {
        static MADE: AtomicUsize = AtomicUsize::new(0);
        let number = MADE.fetch_add(1, Ordering::SeqCst);
        let path = std::env::temp_dir().join(format!("tronalhet-heads-{}-{number}", std::process::id()));
        File::create(&path).unwrap().write_all(&[b"before", bytes].concat()).unwrap();
        let mut room = Room::new(bytes.len()).unwrap();
        heads(&File::open(&path).unwrap(), 6, &mut room).unwrap();
        std::fs::remove_file(path).unwrap();
        room
    }

    #[test]
    fn heads_are_read_and_no_more() {
        let long = chunk(b"junk", &[1; 199_999]);
        let file = [b"RIFF....WAVE".to_vec(), long.clone(), chunk(b"fmt ", &[2; 16]), long].concat();
        let room = glanced(&file);
        let zero = |from: usize, to: usize| room[from..to].iter().all(|byte| *byte == 0);
        assert_eq!(room[..12 + LOOKED_AT], file[..12 + LOOKED_AT]);
        assert!(zero(LOOKED_AT + AHEAD, 200_020));
        assert_eq!(room[200_020..200_044 + LOOKED_AT], file[200_020..200_044 + LOOKED_AT]);
        assert!(zero(200_020 + LOOKED_AT + AHEAD, file.len()));
    }

    #[test]
    fn a_list_of_titles_is_read_whole() {
        let long = chunk(b"junk", &[1; 199_999]);
        for size in [1, LOOKED_AT - 12, LOOKED_AT - 11, LOOKED_AT + AHEAD, 299_999] {
            let list = chunk(b"LIST", &[&b"adtl"[..], &vec![3; size]].concat());
            let file = [b"RIFF....WAVE".to_vec(), long.clone(), list.clone(), long.clone(), list.clone()].concat();
            let room = glanced(&file);
            let second = file.len() - list.len();
            assert_eq!(room[200_020..200_020 + list.len()], list);
            assert_eq!(room[second..], list);
            assert!(room[second - 100_000..second].iter().all(|byte| *byte == 0));
            // A list that says more than the file has is read to the end.
            let cut = &file[..file.len() - list.len() / 2];
            assert_eq!(glanced(cut)[second..], cut[second..]);
        }
    }

    #[test]
    fn the_last_pad_may_be_absent() {
        let long = chunk(b"junk", &[1; 199_999]);
        for last in [chunk(b"fact", &[2; 5]), chunk(b"junk", &[2; 99_999])] {
            let mut file = [b"RIFF....WAVE".to_vec(), long.clone(), last].concat();
            file.pop();
            let end = file.len().min(200_020 + LOOKED_AT);
            assert_eq!(glanced(&file)[200_020..end], file[200_020..end]);
        }
    }

    #[test]
    fn a_file_that_changes_while_it_is_read_is_seen() {
        let path = std::env::temp_dir().join(format!("tronalhet-changed-{}", std::process::id()));
        let (name, long) = (path.as_os_str(), vec![7; SHORT + 1]);
        type Change = fn(&std::path::Path);
        let changes: [(Change, bool); 4] = [
            (|_| {}, true),
            (|path| File::options().append(true).open(path).unwrap().write_all(b"more").unwrap(), false),
            (|path| File::options().write(true).open(path).unwrap().write_all(b"other").unwrap(), false),
            (|path| fs::remove_file(path).unwrap(), true),
        ];
        for (change, accepted) in changes {
            fs::write(&path, &long).unwrap();
            // The system's clock goes in steps, so a change at once might have the same time.
            std::thread::sleep(std::time::Duration::from_millis(30));
            let opened = [open(name), open(name)].map(|opened| opened.ok().unwrap());
            change(&path);
            let [whole, glanced] = opened;
            assert_eq!(
                (all_of(name, whole).is_ok(), heads_of(name, &glanced, long.len()).is_ok()),
                (accepted, accepted)
            );
        }
    }

    #[test]
    fn damaged_files_end_the_reading() {
        for file in
            [&b"RIFF"[..], b"RIFX....WAVEfmt \xff\xff\xff\xff", b"RIFF....WAVEfmt \xff\xff\xff\xff", b"RIFF....WAVEfm"]
        {
            assert_eq!(glanced(file)[..], file[..]);
        }
    }
}
