//! Memory for files and sounds, of which only what is used is taken from the system.
use std::alloc::{alloc_zeroed, dealloc, Layout};
use std::fmt;
use std::ops::{Deref, DerefMut};
use std::os::raw::c_int;
use std::ptr::NonNull;

/// Every room starts at a multiple of this, so that 16-bit sound in a file can be heard where it stands.
const ALIGN: usize = 16;

/// Linux's own numbers on x86-64.
const PAGE: usize = 1 << 12;
const LARGE_PAGE: usize = 1 << 21;
const WITH_LARGE_PAGES: c_int = 14;

extern "C" {
    fn madvise(start: *mut u8, bytes: usize, advice: c_int) -> c_int;
}

/// There is no memory for so many bytes.
#[derive(Clone, Copy, Debug, PartialEq, Eq)]
pub struct NoMemory(pub usize);

impl fmt::Display for NoMemory {
    fn fmt(&self, out: &mut fmt::Formatter) -> fmt::Result {
        write!(out, "there is no memory for {} bytes", self.0)
    }
}

impl std::error::Error for NoMemory {}

/// What a room may hold.
///
/// # Safety
/// Any bits are a value of the type, and it wants no larger alignment than `ALIGN`.
pub unsafe trait Number: Copy {}

// SAFETY: both are plain whole numbers of one and two bytes.
unsafe impl Number for u8 {}
unsafe impl Number for i16 {}

/// Numbers that are 0 at first. Pages that were never written to take no memory. Lack of memory is an
/// answer here, and not the end of the program, which is why this is no `Vec`.
pub struct Room<T: Number> {
    start: NonNull<T>,
    room: usize,
    used: usize,
}

impl<T: Number> Room<T> {
    /// A room that will be used from end to end. Large pages, where the system has them, halve the time of a copy.
    pub fn new(length: usize) -> Result<Room<T>, NoMemory> {
        let room = Room::sparse(length)?;
        let bytes = length * std::mem::size_of::<T>();
        if bytes >= 2 * LARGE_PAGE {
            let start = room.start.as_ptr() as usize / PAGE * PAGE;
            // SAFETY: this is a wish about memory that is there, and changes nothing that is in it.
            unsafe { madvise(start as *mut u8, bytes, WITH_LARGE_PAGES) };
        }
        Ok(room)
    }

    /// A room of which only some places will be used.
    pub fn sparse(length: usize) -> Result<Room<T>, NoMemory> {
        let bytes = length.checked_mul(std::mem::size_of::<T>()).ok_or(NoMemory(usize::MAX))?;
        let layout = Layout::from_size_align(bytes.max(1), ALIGN).map_err(|_| NoMemory(bytes))?;
        // SAFETY: the layout has at least one byte.
        let start = unsafe { alloc_zeroed(layout) }.cast::<T>();
        let start = NonNull::new(start).ok_or(NoMemory(bytes))?;
        Ok(Room { start, room: length, used: length })
    }

    /// Keeps only the first numbers.
    pub fn shorten(&mut self, length: usize) {
        self.used = self.used.min(length);
    }
}

impl<T: Number> Deref for Room<T> {
    type Target = [T];

    fn deref(&self) -> &[T] {
        // SAFETY: `start` leads to `room` numbers that were set to 0, and `used` is never more.
        unsafe { std::slice::from_raw_parts(self.start.as_ptr(), self.used) }
    }
}

impl<T: Number> DerefMut for Room<T> {
    fn deref_mut(&mut self) -> &mut [T] {
        // SAFETY: as above; and whoever has the room for writing is the only one who has it.
        unsafe { std::slice::from_raw_parts_mut(self.start.as_ptr(), self.used) }
    }
}

impl<T: Number> Drop for Room<T> {
    fn drop(&mut self) {
        let bytes = (self.room * std::mem::size_of::<T>()).max(1);
        // SAFETY: the same size and alignment as in `new`, whose checks passed.
        unsafe { dealloc(self.start.as_ptr().cast(), Layout::from_size_align_unchecked(bytes, ALIGN)) }
    }
}

/// Bytes as the 16-bit samples that they are on a little-endian machine, if they stand at an even place in memory.
pub fn as_samples(bytes: &[u8]) -> Option<&[i16]> {
    // SAFETY: any two bytes are a sample.
    let (before, samples, after) = unsafe { bytes.align_to::<i16>() };
    (cfg!(target_endian = "little") && before.is_empty() && after.is_empty()).then_some(samples)
}

/// The same, to put samples there.
pub fn as_samples_mut(bytes: &mut [u8]) -> Option<&mut [i16]> {
    // SAFETY: any two bytes are a sample, and any sample is two bytes.
    let (before, samples, after) = unsafe { bytes.align_to_mut::<i16>() };
    (cfg!(target_endian = "little") && before.is_empty() && after.is_empty()).then_some(samples)
}

#[cfg(test)]
mod tests {
    use super::*;

    #[test]
    fn a_room_is_zero_and_can_be_shortened() {
        let mut room = Room::<i16>::new(1000).unwrap();
        assert!(room.len() == 1000 && room.iter().all(|number| *number == 0));
        room[999] = -1;
        room.shorten(2000);
        assert_eq!((room.len(), room[999]), (1000, -1));
        room.shorten(3);
        assert_eq!(room.len(), 3);
        assert_eq!(Room::<u8>::new(0).unwrap().len(), 0);
    }

    #[test]
    fn no_memory_is_an_answer() {
        // Its address is asked for, as a room that nobody uses may be left out of the program.
        let place = |room: Room<u8>| format!("{:p}", room.as_ptr());
        assert_eq!(Room::new(1 << 60).map(place), Err(NoMemory(1 << 60)));
        assert_eq!(Room::<i16>::new(usize::MAX).err(), Some(NoMemory(usize::MAX)));
    }

    #[test]
    fn bytes_at_an_even_place_are_samples() {
        let mut room = Room::<u8>::new(6).unwrap();
        as_samples_mut(&mut room).unwrap().copy_from_slice(&[1, -2, 0x0304]);
        assert_eq!(&room[..], [1, 0, 0xfe, 0xff, 4, 3]);
        assert_eq!(as_samples(&room[2..]).unwrap(), [-2, 0x0304]);
        assert!(as_samples(&room[1..3]).is_none() && as_samples(&room[..3]).is_none());
    }
}
