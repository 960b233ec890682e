//! What the standard library does not have: locks on open files, their owner and group, the usual permissions of a new
//! file, a name that is given only where it is free, signals, and which standard streams were closed.
use std::ffi::CString;
use std::fs::File;
use std::io;
use std::os::raw::{c_char, c_int, c_uint};
use std::os::unix::ffi::OsStrExt;
use std::os::unix::io::AsRawFd;
use std::path::Path;
use std::ptr::null_mut;
use std::sync::atomic::{AtomicBool, AtomicPtr, Ordering};

extern "C" {
    fn flock(file: c_int, operation: c_int) -> c_int;
    fn fchown(file: c_int, owner: c_uint, group: c_uint) -> c_int;
    fn umask(mask: c_uint) -> c_uint;
    fn renameat2(from_at: c_int, from: *const c_char, to_at: c_int, to: *const c_char, flags: c_uint) -> c_int;
    fn fcntl(file: c_int, command: c_int) -> c_int;
    fn signal(number: c_int, handler: usize) -> usize;
    fn raise(number: c_int) -> c_int;
    fn unlink(path: *const c_char) -> c_int;
}

const LOCK_ALONE: c_int = 2;
const LOCK_AT_ONCE: c_int = 4;
const HERE: c_int = -100;
const NO_REPLACE: c_uint = 1;
/// The call is not there, or not for this file system.
const NOT_IN_ONE_STEP: [Option<c_int>; 2] = [Some(38), Some(22)];
const GET_FLAGS: c_int = 1;
const BY_DEFAULT: usize = 0;
const IGNORED: usize = 1;
/// Hang-up, interrupt and termination: what ends a run that is not wanted any more.
const ENDING: [c_int; 3] = [1, 2, 15];
/// A file has grown past the size that this process may write.
const FILE_SIZE: c_int = 25;

/// Locks an open file or folder for this run alone, as long as it is open here. False if another has it and
/// this is not to wait.
pub fn lock(file: &File, wait: bool) -> io::Result<bool> {
    let operation = if wait { LOCK_ALONE } else { LOCK_ALONE | LOCK_AT_ONCE };
    loop {
        // SAFETY: the file is open as long as it is borrowed.
        if unsafe { flock(file.as_raw_fd(), operation) } == 0 {
            return Ok(true);
        }
        let error = io::Error::last_os_error();
        match error.kind() {
            io::ErrorKind::Interrupted => {}
            io::ErrorKind::WouldBlock => return Ok(false),
            _ => return Err(error),
        }
    }
}

/// Gives an open file an owner and a group, or the group alone where the owner may not be given: volunteers who share
/// a side by their group share the new one too.
pub fn keep_owner(file: &File, owner: u32, group: u32) {
    // SAFETY: the file is open as long as it is borrowed.
    unsafe {
        if fchown(file.as_raw_fd(), owner, group) != 0 {
            fchown(file.as_raw_fd(), c_uint::MAX, group);
        }
    }
}

/// The permissions that a new file has where nothing else is said.
pub fn usual_mode() -> u32 {
    // SAFETY: this program has one thread, so no file is made between the two calls.
    let mask = unsafe {
        let mask = umask(0o077);
        umask(mask);
        mask
    };
    0o666 & !mask
}

/// A path as C has it.
fn c_path(path: &Path) -> io::Result<CString> {
    CString::new(path.as_os_str().as_bytes()).map_err(|_| io::Error::from(io::ErrorKind::InvalidInput))
}

/// Gives a file another name, which must be free. Where the system or the file system cannot do that in one step, it is
/// looked at first.
pub fn rename_to_free(from: &Path, to: &Path) -> io::Result<()> {
    let (old, new) = (c_path(from)?, c_path(to)?);
    // SAFETY: both are texts of C that live to the end of the call.
    if unsafe { renameat2(HERE, old.as_ptr(), HERE, new.as_ptr(), NO_REPLACE) } == 0 {
        return Ok(());
    }
    let error = io::Error::last_os_error();
    if !NOT_IN_ONE_STEP.contains(&error.raw_os_error()) {
        return Err(error);
    }
    match std::fs::symlink_metadata(to) {
        Ok(_) => Err(io::ErrorKind::AlreadyExists.into()),
        Err(_) => std::fs::rename(from, to),
    }
}

/// A file that grows past what this process may write is an error of that write, as on a full disk, and not the end of
/// the process.
pub fn size_limit_is_an_error() {
    // SAFETY: to ignore a signal needs no handler.
    unsafe { signal(FILE_SIZE, IGNORED) };
}

/// Whether standard input and standard output were closed when this process started. The standard library opens the
/// null device in the place of a closed one before `main`, so it must be seen before that.
static CLOSED: [AtomicBool; 2] = [AtomicBool::new(false), AtomicBool::new(false)];

extern "C" fn look_at_streams() {
    for (file, closed) in CLOSED.iter().enumerate() {
        // SAFETY: asks for the flags of a number that need not be open.
        closed.store(unsafe { fcntl(file as c_int, GET_FLAGS) } < 0, Ordering::SeqCst);
    }
}

#[used]
#[link_section = ".init_array"]
static AT_START: extern "C" fn() = look_at_streams;

pub fn input_is_closed() -> bool {
    CLOSED[0].load(Ordering::SeqCst)
}

pub fn output_is_closed() -> bool {
    CLOSED[1].load(Ordering::SeqCst)
}

/// The file that a signal removes, as C has its name.
static UNFINISHED: AtomicPtr<c_char> = AtomicPtr::new(null_mut());

/// From now on a signal that ends this run removes the file first.
pub fn remove_on_signal(path: &Path) {
    let name = c_path(path).expect("a file that was made has no zero byte in its name");
    // The name is kept to the end: a signal may come at any time.
    UNFINISHED.store(name.into_raw(), Ordering::SeqCst);
    for number in ENDING {
        // SAFETY: the handler calls nothing but what may be called in one.
        unsafe {
            if signal(number, on_signal as *const () as usize) == IGNORED {
                signal(number, IGNORED);
            }
        }
    }
}

extern "C" fn on_signal(number: c_int) {
    let name = UNFINISHED.load(Ordering::SeqCst);
    // SAFETY: the name is null or was never freed; these three may be called in a handler.
    unsafe {
        if !name.is_null() {
            unlink(name);
        }
        signal(number, BY_DEFAULT);
        raise(number);
    }
}

#[cfg(test)]
mod tests {
    use super::*;

    #[test]
    fn a_size_limit_does_not_end_the_process() {
        size_limit_is_an_error();
        // SAFETY: the signal is ignored, or the test ends here.
        assert_eq!(unsafe { raise(FILE_SIZE) }, 0);
    }

    #[test]
    fn a_name_that_is_taken_stays() {
        let folder = std::env::temp_dir().join(format!("tronalhet-names-{}", std::process::id()));
        std::fs::create_dir(&folder).unwrap();
        let (one, two, three) = (folder.join("one"), folder.join("two"), folder.join("three"));
        for path in [&one, &two] {
            std::fs::write(path, path.as_os_str().as_bytes()).unwrap();
        }
        assert_eq!(rename_to_free(&one, &two).unwrap_err().kind(), io::ErrorKind::AlreadyExists);
        assert_eq!(std::fs::read(&two).unwrap(), two.as_os_str().as_bytes());
        rename_to_free(&one, &three).unwrap();
        assert_eq!(std::fs::read(&three).unwrap(), one.as_os_str().as_bytes());
        std::fs::remove_dir_all(folder).unwrap();
    }
}
