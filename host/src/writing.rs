//! A new file is written under a name of its own, flushed to the disk, and only then gets its name: whatever
//! happens before, an old file of that name stays whole, and no part of the new one has it.
use crate::reading::{about, is_untouched};
use crate::stop::{counted, shown, Stop};
use crate::system::{keep_owner, lock, remove_on_signal, rename_to_free, usual_mode};
use std::ffi::OsStr;
use std::fs::{self, File, Metadata, OpenOptions, Permissions};
use std::io::{self, ErrorKind, Write};
use std::os::unix::fs::{MetadataExt, OpenOptionsExt, PermissionsExt};
use std::path::{Path, PathBuf};

/// The names of unfinished files.
const BEGINS: &str = ".tronalhet-";
const ENDS: &str = ".part";

/// Who may read and write an unfinished file: its owner alone.
const PRIVATE: u32 = 0o600;

/// Open no link, and do not wait for the other end of a named pipe; as Linux on x86-64 has them.
const NO_FOLLOW: i32 = 0o400_000;
const NO_WAIT: i32 = 0o4_000;

/// Where a new file is to be. A link is followed: it stays, and the file that it leads to is written.
pub struct Target {
    path: PathBuf,
    folder: PathBuf,
    old: Option<Metadata>,
}

impl Target {
    /// Looks at a place before any work is done for it.
    pub fn new(name: &OsStr) -> Result<Target, Stop> {
        let not_written = |error: io::Error| Stop::not_written(Path::new(name), &error);
        let path = followed(Path::new(name)).map_err(not_written)?;
        let folder = match path.parent() {
            Some(folder) if !folder.as_os_str().is_empty() => folder.to_path_buf(),
            _ => PathBuf::from("."),
        };
        if path.file_name().map_or(false, is_unfinished) {
            return Err(Stop::no_place(Path::new(name), "such names are for unfinished files, which are removed"));
        }
        let old = match fs::metadata(&path) {
            Err(error) if error.kind() == ErrorKind::NotFound && path.file_name().is_some() => None,
            old => Some(old.map_err(not_written)?),
        };
        if let Some(old) = &old {
            if !old.is_file() {
                return Err(Stop::no_place(Path::new(name), "it is there, and is no file"));
            }
            // The new file would take the place of one that may not be written.
            OpenOptions::new().write(true).open(&path).map_err(not_written)?;
        }
        Ok(Target { path, folder, old })
    }

    /// Refuses a place that is the file that is read: a sound that was donated is not to be lost to a copy of it.
    pub fn is_not(&self, read: &OsStr, role: &str) -> Result<(), Stop> {
        if !self.is_file(read) {
            return Ok(());
        }
        let (new, old) = (shown(self.path.as_os_str()), shown(read));
        Err(Stop::Trouble(format!("OUT would replace {role}: {new} and {old} are the same file")))
    }

    /// Whether the file of a name, or standard input, is the one that is replaced.
    pub fn is_file(&self, read: &OsStr) -> bool {
        matches!((&self.old, about(read)), (Some(old), Ok(about)) if is_same(old, &about))
    }

    /// Refuses a place where there is anything.
    pub fn is_new(&self) -> Result<(), Stop> {
        match fs::symlink_metadata(&self.path) {
            Ok(_) => Err(Stop::no_place(&self.path, "it is there already")),
            Err(_) => Ok(()),
        }
    }

    /// Refuses to replace a file of other content.
    pub fn replaces_nothing(&self) -> Result<(), Stop> {
        match &self.old {
            Some(_) => Err(Stop::no_place(&self.path, "it is there already; --replace would replace it")),
            None => Ok(()),
        }
    }

    /// Refuses to replace a file that has other names, under which the old one would stay.
    pub fn has_one_name(&self) -> Result<(), Stop> {
        match self.other_names() {
            0 => Ok(()),
            more => {
                let names = counted(more, "more name (a hard link)", "more names (hard links)");
                let why = format!("it has {names}, by which the old file would stay; --replace replaces this one");
                Err(Stop::no_place(&self.path, &why))
            }
        }
    }

    /// How many other names the file has that is replaced. Those that are backups of it are meant to keep it.
    pub fn other_names(&self) -> u64 {
        let old = match &self.old {
            Some(old) => old,
            None => return 0,
        };
        let names = (1..).map(|number| fs::symlink_metadata(numbered(&self.path, number)));
        let backups = names.take_while(Result::is_ok).flatten().filter(|about| is_same(about, old)).count();
        old.nlink().saturating_sub(1 + backups as u64)
    }

    /// Keeps other runs out of the folder that change a side there, and waits for one that does. The lock is on the
    /// folder itself, as the side is replaced, and lasts as long as the file that is given back.
    pub fn lock_folder(&self, waiting: impl Fn(&str)) -> Result<File, Stop> {
        let not_locked = |error: io::Error| Stop::not_written(&self.path, &error);
        let folder = File::open(&self.folder).map_err(not_locked)?;
        if !lock(&folder, false).map_err(not_locked)? {
            let place = shown(self.folder.join("").as_os_str());
            waiting(&format!("waiting for another add, title or new-side in {place}"));
            lock(&folder, true).map_err(not_locked)?;
        }
        Ok(folder)
    }

    /// Writes the file. Where a backup is wanted the file that is replaced keeps a name, which is given back.
    pub fn write(&self, bytes: &[u8], backup: bool) -> Result<Option<PathBuf>, Stop> {
        sweep(&self.folder);
        let made = Unfinished::new(&self.folder).and_then(|file| file.finish(self, bytes, backup));
        made.map_err(|error| Stop::not_written(&self.path, &error))
    }

    /// Gives a finished file its name. One that has appeared there meanwhile, or has changed, is not replaced.
    fn name(&self, finished: &Path) -> io::Result<()> {
        if self.old.is_none() {
            return rename_to_free(finished, &self.path).map_err(|error| match error.kind() {
                ErrorKind::AlreadyExists => io::Error::new(ErrorKind::Other, "it is there already"),
                _ => error,
            });
        }
        if self.is_as_it_was() {
            return fs::rename(finished, &self.path);
        }
        Err(io::Error::new(ErrorKind::Other, "it changed while the new file was made"))
    }

    /// Whether the file is still there that would be replaced, and nobody has written to it.
    fn is_as_it_was(&self) -> bool {
        matches!((&self.old, fs::metadata(&self.path)),
            (Some(old), Ok(there)) if is_same(old, &there) && is_untouched(old, &there))
    }

    /// The file that is written, where the name that was given is a link to it.
    pub fn behind_link(&self, name: &OsStr) -> Option<&Path> {
        Some(self.path.as_path()).filter(|path| *path != Path::new(name))
    }
}

/// A path whose last part is no link.
fn followed(name: &Path) -> io::Result<PathBuf> {
    let mut path = name.to_path_buf();
    for _ in 0..40 {
        match fs::read_link(&path) {
            Ok(link) => path = path.parent().unwrap_or_else(|| Path::new("")).join(link),
            Err(_) => return Ok(path),
        }
    }
    Err(io::Error::new(ErrorKind::Other, "it is a link that leads nowhere"))
}

// ---- backups

/// The name of a backup.
fn numbered(path: &Path, number: u32) -> PathBuf {
    let mut name = path.as_os_str().to_os_string();
    name.push(format!(".{number}"));
    name.into()
}

/// Keeps the file of a path under the first of its backups' names that is free, and gives back that name. It is a
/// second name of the file, so that nothing is copied; where there can be none, it is a copy.
fn kept(path: &Path, folder: &Path) -> io::Result<PathBuf> {
    for number in 1..=u32::MAX {
        let name = numbered(path, number);
        let named = fs::hard_link(path, &name).or_else(|error| match error.kind() {
            ErrorKind::AlreadyExists => Err(error),
            _ => copied(path, folder, &name),
        });
        match named {
            Ok(()) => return Ok(name),
            Err(error) if error.kind() != ErrorKind::AlreadyExists => return Err(error),
            // A run that was cut off has kept this very file already.
            Err(_) if are_same(path, &name) => return Ok(name),
            Err(_) => {}
        }
    }
    Err(ErrorKind::AlreadyExists.into())
}

/// A copy of a file under a name that must be free.
fn copied(path: &Path, folder: &Path, name: &Path) -> io::Result<()> {
    let mut old = File::open(path)?;
    let mut copy = Unfinished::new(folder)?;
    io::copy(&mut old, &mut copy.file)?;
    copy.finished(Some(&old.metadata()?))?;
    rename_to_free(&copy.path, name)
}

// ---- unfinished files

/// A file that is being written. It is locked, so that other runs see that somebody is at it.
struct Unfinished {
    file: File,
    path: PathBuf,
}

impl Unfinished {
    fn new(folder: &Path) -> io::Result<Unfinished> {
        for number in 0.. {
            let path = folder.join(format!("{BEGINS}{}-{number}{ENDS}", std::process::id()));
            let file = match OpenOptions::new().write(true).create_new(true).mode(PRIVATE).open(&path) {
                Err(error) if error.kind() == ErrorKind::AlreadyExists => continue,
                file => file?,
            };
            let made = Unfinished { file, path };
            // Another run may have swept it away before it was locked. Where there are no locks, nobody sweeps.
            if lock(&made.file, false).unwrap_or(true) && is_there(&made.file, &made.path) {
                remove_on_signal(&made.path);
                return Ok(made);
            }
        }
        unreachable!("there is always another number")
    }

    /// Puts the bytes, flushes them to the disk and gives the file its name. The name is flushed too where that is
    /// possible; until then a machine that loses its power has the old file, whole.
    fn finish(mut self, target: &Target, bytes: &[u8], backup: bool) -> io::Result<Option<PathBuf>> {
        self.file.write_all(bytes)?;
        self.finished(target.old.as_ref())?;
        let backup = match &target.old {
            Some(_) if backup => Some(kept(&target.path, &target.folder)?),
            _ => None,
        };
        target.name(&self.path).map_err(|error| {
            // Nothing was replaced, so there is nothing to keep a second time.
            let spare = |name: &&PathBuf| target.is_as_it_was() || are_same(&target.path, name);
            let _ = backup.iter().filter(spare).try_for_each(fs::remove_file);
            error
        })?;
        let _ = File::open(&target.folder).and_then(|folder| folder.sync_all());
        Ok(backup)
    }

    /// All is written: who may read it is as with the old file, or as usual, and it is on the disk.
    fn finished(&self, old: Option<&Metadata>) -> io::Result<()> {
        match old {
            Some(old) => {
                keep_owner(&self.file, old.uid(), old.gid());
                self.file.set_permissions(old.permissions())?;
            }
            None => self.file.set_permissions(Permissions::from_mode(usual_mode()))?,
        }
        self.file.sync_all()
    }
}

impl Drop for Unfinished {
    /// Where it has got its name there is nothing to remove.
    fn drop(&mut self) {
        let _ = fs::remove_file(&self.path);
    }
}

fn is_same(one: &Metadata, other: &Metadata) -> bool {
    (one.dev(), one.ino()) == (other.dev(), other.ino())
}

/// Whether two names are of one file.
fn are_same(one: &Path, other: &Path) -> bool {
    matches!((fs::symlink_metadata(one), fs::symlink_metadata(other)), (Ok(one), Ok(other)) if is_same(&one, &other))
}

/// Whether an open file is the one that has a name.
fn is_there(file: &File, path: &Path) -> bool {
    match (file.metadata(), fs::symlink_metadata(path)) {
        (Ok(open), Ok(named)) => is_same(&open, &named),
        _ => false,
    }
}

/// Removes what runs that were killed have left in a folder: unfinished files that nobody has locked. That some
/// cannot be looked at is no fault.
fn sweep(folder: &Path) {
    for entry in fs::read_dir(folder).into_iter().flatten().flatten() {
        if is_unfinished(&entry.file_name()) {
            remove_unlocked(&entry.path());
        }
    }
}

/// Whether a name is one that an unfinished file gets.
fn is_unfinished(name: &OsStr) -> bool {
    let numbers = name.to_str().and_then(|name| name.strip_prefix(BEGINS)?.strip_suffix(ENDS)?.split_once('-'));
    let digits = |text: &str| !text.is_empty() && text.bytes().all(|byte| byte.is_ascii_digit());
    numbers.map_or(false, |(process, number)| digits(process) && digits(number))
}

/// The lock is held until the file is gone, so that a run which has just made it sees that.
fn remove_unlocked(path: &Path) {
    let open = OpenOptions::new().write(true).custom_flags(NO_FOLLOW | NO_WAIT).open(path);
    if let Ok(file) = open {
        if lock(&file, false).unwrap_or(false) {
            let _ = fs::remove_file(path);
        }
    }
}

#[cfg(test)]
mod tests {
    use super::*;

    #[test]
    fn a_copy_is_kept_where_a_file_can_have_no_second_name() {
        let folder = std::env::temp_dir().join(format!("tronalhet-copies-{}", std::process::id()));
        fs::create_dir(&folder).unwrap();
        let (side, copy) = (folder.join("side.wav"), folder.join("side.wav.1"));
        fs::write(&side, b"a side").unwrap();
        fs::set_permissions(&side, Permissions::from_mode(0o640)).unwrap();
        copied(&side, &folder, &copy).unwrap();
        assert_eq!(fs::read(&copy).unwrap(), b"a side");
        assert_eq!(fs::metadata(&copy).unwrap().mode() & 0o777, 0o640);
        assert!(!are_same(&side, &copy));
        assert_eq!(copied(&side, &folder, &copy).unwrap_err().kind(), ErrorKind::AlreadyExists);
        assert_eq!(fs::read_dir(&folder).unwrap().count(), 2);
        fs::remove_dir_all(folder).unwrap();
    }

    #[test]
    fn unfinished_files_are_known_by_their_names() {
        let known = |name: &str| is_unfinished(OsStr::new(name));
        assert!(known(".tronalhet-1-0.part") && known(".tronalhet-4194304-12.part"));
        let others =
            [".tronalhet-mine.part", ".tronalhet-1-x.part", ".tronalhet--0.part", ".tronalhet-1-0.wav", "x.part"];
        assert!(!others.into_iter().any(known));
    }
}
