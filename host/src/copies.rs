//! Whole files made of whole files: the sound as a 16-bit WAVE file, and the approval copy.
//!
//! A file is first written around a silence, and the sound is then made in its place: so there is never more in memory
//! than the file that is read and the one that is written. The silence takes no memory, as it is only read.
use crate::operations::{
    coded_bytes, decode, decode_into, encode_into, read, samples_in, samples_per_block, sound_of, sound_place, write,
    Fault,
};
use crate::parts::{encode_parts, SHORTEST_LEAD_IN};
use crate::record::{Format, Record};
use crate::room::{as_samples, as_samples_mut, Room};
use crate::units::{Frames, Refusal};
use crate::{MOST_BYTES, MOST_SAMPLES};
use std::ops::Range;

/// An approval copy, and how much of the sound was chased in each channel.
pub struct ApprovalCopy {
    pub file: Room<u8>,
    pub frames: Frames,
    pub left: Frames,
    pub right: Frames,
}

/// The file of a record whose sound is nothing but zero bytes, and where that stands.
fn around_silence(record: &Record, sound_bytes: usize) -> Result<(Room<u8>, Range<usize>), Fault> {
    if record.file_bytes(sound_bytes) > MOST_BYTES {
        return Err(Refusal::LengthOutOfRange.into());
    }
    let file = write(record, &Room::new(sound_bytes)?)?;
    let place = sound_place(&file)?;
    Ok((file, place))
}

/// A file's sound as a file of 16-bit PCM, with its cues, its playlist and its titles; places are frames, so they stay
/// true.
pub fn sixteen_bit(file: &[u8]) -> Result<(Room<u8>, Frames), Fault> {
    let old = read(file)?;
    let frames = old.frames;
    let new = Record { format: Format::sixteen_bit(old.format.channels, old.format.rate), ..old };
    if old.format.is_sixteen_bit() {
        return Ok((write(&new, sound_of(file)?)?, frames));
    }
    let (mut made, place) = around_silence(&new, 2 * samples_in(frames, &new.format))?;
    decode_into(file, as_samples_mut(&mut made[place]).expect("a chunk stands at an even place"))?;
    Ok((made, frames))
}

/// The approval copy of a file, in IMA blocks of `align` bytes. It has no cues, and so no playlist and no titles.
pub fn approval_copy(file: &[u8], align: u16) -> Result<ApprovalCopy, Fault> {
    let old = read(file)?;
    let (frames, Format { channels, rate, .. }) = (old.frames, old.format);
    let count = samples_in(frames, &old.format);
    if count > MOST_SAMPLES {
        return Err(Refusal::LengthOutOfRange.into());
    }
    let samples = samples_per_block(channels, align);
    let format = Format { tag: Format::IMA, channels, rate, bits: 4, align, samples };
    let new = Record { format, frames, ..Record::default() };
    let (mut made, place) = around_silence(&new, coded_bytes(count, channels, align))?;
    let (left, right) = encode_sound(file, &old, align, &mut made[place])?;
    Ok(ApprovalCopy { file: made, frames, left, right })
}

/// Encodes the sound of a file: 16-bit PCM where it stands, all else in parts. Blocks that are too short to lead into
/// a part, which nobody uses, take the sound decoded as a whole.
fn encode_sound(file: &[u8], record: &Record, align: u16, out: &mut [u8]) -> Result<(Frames, Frames), Fault> {
    let (sound, channels) = (sound_of(file)?, record.format.channels);
    let (_, left, right) = match as_samples(sound) {
        Some(samples) if record.format.is_sixteen_bit() => encode_into(samples, channels, align, out)?,
        _ if samples_per_block(channels, align) >= SHORTEST_LEAD_IN => return encode_parts(record, sound, align, out),
        _ => encode_into(&decode(file)?, channels, align, out)?,
    };
    Ok((left, right))
}
