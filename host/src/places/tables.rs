//! What is wrong with `cue ` or `plst`.
use super::chunks::{find, Chunk, Code, Field};
use super::format::{Fmt, ALIGN, TAG};
use super::Place;
use crate::record::{Format, MOST_ENTRIES};
use crate::units::{BytePlace, Donation};

pub const COUNT: Field = Field("count", 0, 4);

/// Fields of a cue point, and of an entry of the playlist.
pub const NAME: Field = Field("name", 0, 4);
const CODE: Field = Field("chunk code", 8, 4);
const CHUNK_START: Field = Field("chunk start", 12, 4);
const BLOCK_START: Field = Field("block start", 16, 4);
pub const OFFSET: Field = Field("sample offset", 20, 4);
pub const LENGTH: Field = Field("length", 4, 4);
pub const TIMES: Field = Field("times", 8, 4);

/// How many bytes a cue point has, and an entry of the playlist.
pub const CUE_BYTES: usize = 24;
pub const PLAY_BYTES: usize = 12;

/// The frames of a file whose sound and `fact` were accepted.
fn frames(file: &[u8]) -> Option<u32> {
    let fmt = Fmt::of(file)?;
    match fmt.get(TAG) as u16 {
        Format::PCM => Some(find(file, b"data")?.size as u32 / fmt.get(ALIGN).max(1)),
        _ => Some(COUNT.of(find(file, b"fact")?.data(file))),
    }
}

/// A table's entries, or what is wrong with its count and size.
fn entries<'a>(file: &'a [u8], chunk: &Chunk, each: usize) -> Result<Vec<&'a [u8]>, Place> {
    let data = chunk.data(file);
    let count = COUNT.of(data) as usize;
    if data.len() < 4 {
        return Err(chunk.size_fault(format!("it is {}; 4 or more are needed", data.len())));
    }
    if count > MOST_ENTRIES {
        return Err(chunk.field_fault(COUNT, format!("it is {count}, and {MOST_ENTRIES} is the most")));
    }
    if data.len() != 4 + each * count {
        let right = 4 + each * count;
        return Err(chunk.size_fault(format!("it is {}, and must be {right} for a count of {count}", data.len())));
    }
    Ok(data[4..].chunks_exact(each).collect())
}

/// A fault of a field of an entry, counted from 0, with the cue that it is about.
pub fn entry_fault(chunk: &Chunk, each: usize, turn: usize, field: Field, cue: Donation, what: String) -> Place {
    let byte = chunk.start() + 4 + each * turn + field.1;
    Place { byte: Some(BytePlace(byte)), cue: Some(cue), ..chunk.field_fault(field, what) }
}

pub fn cues(file: &[u8]) -> Option<Place> {
    let chunk = find(file, b"cue ")?;
    let frames = frames(file)?;
    let list = match entries(file, &chunk, CUE_BYTES) {
        Ok(list) => list,
        Err(place) => return Some(place),
    };
    let names: Vec<u32> = list.iter().map(|entry| NAME.of(entry)).collect();
    list.iter().enumerate().find_map(|(turn, entry)| {
        let (field, what) = if names[..turn].contains(&names[turn]) {
            (NAME, "another cue has the same name".to_string())
        } else {
            cue_fault(entry, frames)?
        };
        Some(entry_fault(&chunk, CUE_BYTES, turn, field, Donation(names[turn]), what))
    })
}

/// What is wrong with a cue point by itself.
fn cue_fault(entry: &[u8], frames: u32) -> Option<(Field, String)> {
    let code = Code::at(entry, CODE.1);
    let offset = OFFSET.of(entry);
    if &code.0 != b"data" {
        return Some((CODE, format!("it is '{code}', and must be 'data'")));
    }
    if let Some(field) = [CHUNK_START, BLOCK_START].into_iter().find(|field| field.of(entry) != 0) {
        return Some((field, format!("it is {}, and must be 0", field.of(entry))));
    }
    let what = format!("it is {offset}; the sound has {frames} frames, counted from 0");
    (offset >= frames).then(|| (OFFSET, what))
}

/// The names of the cues of a file whose table was accepted.
pub fn cue_names(file: &[u8]) -> Vec<u32> {
    let list = find(file, b"cue ").and_then(|cues| entries(file, &cues, CUE_BYTES).ok()).unwrap_or_default();
    list.iter().map(|entry| NAME.of(entry)).collect()
}

pub fn playlist(file: &[u8]) -> Option<Place> {
    let chunk = find(file, b"plst")?;
    let frames = frames(file)?;
    let list = match entries(file, &chunk, PLAY_BYTES) {
        Ok(list) => list,
        Err(place) => return Some(place),
    };
    let cues = find(file, b"cue ").and_then(|cues| entries(file, &cues, CUE_BYTES).ok()).unwrap_or_default();
    list.iter().enumerate().find_map(|(turn, entry)| {
        let name = NAME.of(entry);
        let start = cues.iter().find(|cue| NAME.of(cue) == name).map(|cue| OFFSET.of(cue));
        let (field, what) = play_fault(entry, start, frames)?;
        Some(entry_fault(&chunk, PLAY_BYTES, turn, field, Donation(name), what))
    })
}

/// What is wrong with an entry whose cue is at a frame, if there is such a cue.
fn play_fault(entry: &[u8], start: Option<u32>, frames: u32) -> Option<(Field, String)> {
    let (length, times) = (LENGTH.of(entry), TIMES.of(entry));
    let start = match start {
        Some(start) => start,
        None => return Some((NAME, "there is no such cue".into())),
    };
    if length == 0 {
        return Some((LENGTH, "it is 0; 1 or more frames are needed".into()));
    }
    let end = u64::from(start) + u64::from(length);
    if end > frames.into() {
        return Some((LENGTH, format!("it is {length}, from frame {start} to {end}; the sound has {frames} frames")));
    }
    (times == 0).then(|| (TIMES, "it is 0; 1 or more are needed".into()))
}
