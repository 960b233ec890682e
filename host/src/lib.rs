//! WAVE files and LP sides of full size, over the proved library of Tronalhet.
//!
//! What a file says, how it sounds, how it is written and what may be added to a side is settled by the
//! proved library, through its C interface (`include/tronalhet.h`). This crate allocates what that is lent,
//! keeps the duties of the C boundary, and hands out typed results. Nothing here is proved.
//!
//! A song of four frames is put on an empty side; sent once more, it is refused, for it is there already:
//!
//! ```
//! use tronalhet::{add, empty_side, read, sound_of, write, Donation, Fault, Format, Frames, Record, Refusal};
//!
//! let record = Record { format: Format::sixteen_bit(1, 44100), frames: Frames(4), ..Record::default() };
//! let song = write(&record, &[1, 0, 2, 0, 3, 0, 4, 0])?;
//! let side = add(&empty_side(1, 44100)?, &song, Donation(101), Frames(50_000_000))?;
//!
//! let there = read(&side)?;
//! assert_eq!((there.frames, there.cues[0].name), (Frames(4), Donation(101)));
//! assert_eq!(sound_of(&side)?, sound_of(&song)?);
//!
//! let again = add(&side, &song, Donation(101), Frames(50_000_000));
//! assert_eq!(again.err(), Some(Fault::Refused(Refusal::AlreadyListed)));
//! # Ok::<(), Fault>(())
//! ```

mod boundary;
mod copies;
mod operations;
mod parts;
pub mod places;
mod record;
mod room;
mod songs;
mod units;

pub use copies::{approval_copy, sixteen_bit, ApprovalCopy};
pub use operations::{add, decode, decode_block, empty_side, encode, read, sound_of, sound_place, write, Coded, Fault};
pub use parts::check_sound;
pub use record::{Cue, Format, Play, Record, Title, TitleKind};
pub use room::{NoMemory, Number, Room};
pub use songs::same_sound;
pub use units::{BytePlace, Donation, Frames, Refusal};

/// The most bytes of a WAVE file.
pub const MOST_BYTES: usize = 1 << 30;

/// The most samples that are encoded, over all channels.
pub const MOST_SAMPLES: usize = 1 << 29;

/// The most bytes of a title's text.
pub const MOST_TEXT: usize = 255;
