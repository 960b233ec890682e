//! The operations of the proved library on slices, with rooms of the right length for what they make.
use crate::boundary;
use crate::record::{Format, Record, Words, MOST_TEXTS, WORDS};
use crate::room::{NoMemory, Room};
use crate::units::{Donation, Frames, Refusal};
use crate::MOST_BYTES;
use std::fmt;
use std::ops::Range;

/// Why there is no result.
#[derive(Clone, Copy, Debug, PartialEq, Eq)]
pub enum Fault {
    Refused(Refusal),
    NoMemory(NoMemory),
}

impl From<Refusal> for Fault {
    fn from(refusal: Refusal) -> Fault {
        Fault::Refused(refusal)
    }
}

impl From<NoMemory> for Fault {
    fn from(lack: NoMemory) -> Fault {
        Fault::NoMemory(lack)
    }
}

impl fmt::Display for Fault {
    fn fmt(&self, out: &mut fmt::Formatter) -> fmt::Result {
        match self {
            Fault::Refused(refusal) => refusal.fmt(out),
            Fault::NoMemory(lack) => lack.fmt(out),
        }
    }
}

impl std::error::Error for Fault {}

/// IMA blocks, and the chased samples of each channel.
pub struct Coded {
    pub blocks: Room<u8>,
    pub left: Frames,
    pub right: Frames,
}

/// The answer that a number is: 0 is success.
fn judged(number: u32) -> Result<(), Refusal> {
    if number == 0 {
        return Ok(());
    }
    Err(Refusal::from_number(number).expect("a refusal of the library has one of its 21 numbers"))
}

/// The record of a file. There is room for the texts of any.
pub fn read(file: &[u8]) -> Result<Record, Refusal> {
    let mut words: Words = [0; WORDS];
    let mut texts = [0; MOST_TEXTS];
    // SAFETY: all three are slices with their lengths; `words` and `texts` are borrowed by nobody else.
    let number = unsafe {
        boundary::tronalhet_read(
            file.as_ptr(),
            file.len(),
            words.as_mut_ptr(),
            words.len(),
            texts.as_mut_ptr(),
            texts.len(),
        )
    };
    judged(number)?;
    Ok(Record::from_words(&words, &texts))
}

/// Where the sound of a file stands in it.
pub fn sound_place(file: &[u8]) -> Result<Range<usize>, Refusal> {
    let mut start = 0;
    // SAFETY: `file` is a slice with its length, and `start` one element that is borrowed by nobody else.
    let answer = unsafe { boundary::tronalhet_sound(file.as_ptr(), file.len(), &mut start, 1) };
    judged(answer.refusal)?;
    Ok(start..start + answer.n)
}

/// The sound data of a file, as that very part of it.
pub fn sound_of(file: &[u8]) -> Result<&[u8], Refusal> {
    Ok(&file[sound_place(file)?])
}

/// The file of a record and its sound data.
pub fn write(record: &Record, sound: &[u8]) -> Result<Room<u8>, Fault> {
    let (words, texts) = record.words();
    // A longer file than may be is refused before anything is put, so no more room is ever wanted.
    let mut out = Room::new(record.file_bytes(sound.len()).min(MOST_BYTES))?;
    // SAFETY: all four are slices with their lengths, and `out` is borrowed by nobody else.
    let answer = unsafe {
        boundary::tronalhet_write(
            words.as_ptr(),
            words.len(),
            texts.as_ptr(),
            texts.len(),
            sound.as_ptr(),
            sound.len(),
            out.as_mut_ptr(),
            out.len(),
        )
    };
    judged(answer.refusal)?;
    out.shorten(answer.n);
    Ok(out)
}

/// Decodes a file into a lent buffer, from its start.
pub(crate) fn decode_into(file: &[u8], out: &mut [i16]) -> Result<Frames, Refusal> {
    // SAFETY: both are slices with their lengths, and `out` is borrowed by nobody else.
    let answer = unsafe { boundary::tronalhet_decode(file.as_ptr(), file.len(), out.as_mut_ptr(), out.len()) };
    judged(answer.refusal)?;
    Ok(Frames(answer.n as u32))
}

/// How many samples so many frames have.
pub(crate) fn samples_in(frames: Frames, format: &Format) -> usize {
    frames.0 as usize * usize::from(format.channels)
}

/// The 16-bit samples of a file, its channels in turn.
pub fn decode(file: &[u8]) -> Result<Room<i16>, Fault> {
    let record = read(file)?;
    let mut out = Room::new(samples_in(record.frames, &record.format))?;
    decode_into(file, &mut out)?;
    Ok(out)
}

/// The 16-bit samples of an ADPCM block, counted from 0, with its fill.
pub fn decode_block(file: &[u8], block: u32) -> Result<Room<i16>, Fault> {
    let format = read(file)?.format;
    let mut out = Room::new(samples_in(Frames(format.samples.into()), &format))?;
    // SAFETY: both are slices with their lengths, and `out` is borrowed by nobody else.
    let answer =
        unsafe { boundary::tronalhet_decode_block(file.as_ptr(), file.len(), block, out.as_mut_ptr(), out.len()) };
    judged(answer.refusal)?;
    Ok(out)
}

/// How many samples of a channel an IMA block has; 0 where there can be no such block.
pub(crate) fn samples_per_block(channels: u16, align: u16) -> u16 {
    let (channels, align) = (u32::from(channels), u32::from(align));
    match align.checked_sub(4 * channels) {
        Some(codes) if channels > 0 => (codes * 2 / channels + 1) as u16,
        _ => 0,
    }
}

/// How many bytes the IMA blocks of so many samples have; 0 where there can be no such block.
pub(crate) fn coded_bytes(samples: usize, channels: u16, align: u16) -> usize {
    let block = usize::from(samples_per_block(channels, align)) * usize::from(channels);
    match block {
        0 => 0,
        block => (samples + block - 1) / block * usize::from(align),
    }
}

/// Encodes a sound into a lent buffer, from its start: the bytes of the blocks, and the chased samples.
pub(crate) fn encode_into(
    sound: &[i16],
    channels: u16,
    align: u16,
    out: &mut [u8],
) -> Result<(usize, Frames, Frames), Refusal> {
    // SAFETY: both are slices with their lengths, and `out` is borrowed by nobody else.
    let answer = unsafe {
        boundary::tronalhet_encode(sound.as_ptr(), sound.len(), channels, align, out.as_mut_ptr(), out.len())
    };
    judged(answer.refusal)?;
    Ok((answer.n, Frames(answer.left), Frames(answer.right)))
}

/// IMA blocks of a sound, its channels in turn.
pub fn encode(sound: &[i16], channels: u16, align: u16) -> Result<Coded, Fault> {
    let mut blocks = Room::new(coded_bytes(sound.len(), channels, align))?;
    let (bytes, left, right) = encode_into(sound, channels, align, &mut blocks)?;
    blocks.shorten(bytes);
    Ok(Coded { blocks, left, right })
}

/// How many bytes an empty side has.
const EMPTY_BYTES: usize = 44;

/// A side without songs.
pub fn empty_side(channels: u16, rate: u32) -> Result<Room<u8>, Fault> {
    let mut out = Room::new(EMPTY_BYTES)?;
    // SAFETY: `out` is a slice with its length, and is borrowed by nobody else.
    let answer = unsafe { boundary::tronalhet_empty(channels, rate, out.as_mut_ptr(), out.len()) };
    judged(answer.refusal)?;
    out.shorten(answer.n);
    Ok(out)
}

/// A side with one song more, which may then have so many frames as `limit` says.
pub fn add(side: &[u8], song: &[u8], number: Donation, limit: Frames) -> Result<Room<u8>, Fault> {
    // The first song of a side brings two tables, 60 bytes with its entries; its file has 44 beside the sound. A later
    // one brings 36, and there the list of titles may gain a pad. A longer file than may be is refused before anything
    // is put.
    let mut out = Room::new((side.len() + song.len() + 16).min(MOST_BYTES))?;
    // SAFETY: all three are slices with their lengths, and `out` is borrowed by nobody else.
    let answer = unsafe {
        boundary::tronalhet_add(
            side.as_ptr(),
            side.len(),
            song.as_ptr(),
            song.len(),
            number.0,
            limit.0,
            out.as_mut_ptr(),
            out.len(),
        )
    };
    judged(answer.refusal)?;
    out.shorten(answer.n);
    Ok(out)
}
