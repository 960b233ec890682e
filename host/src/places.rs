//! Where in a file the fault is that a refusal names: the chunk, the field and its byte, the cue, the block.
//!
//! What is refused is the proved library's to say. Given its answer, this looks for the fault once more, to show a
//! volunteer where it is and what can be done; where it finds none it says nothing.
use crate::record::{Format, Record};
use crate::units::{BytePlace, Donation, Refusal};
use crate::{operations, MOST_BYTES, MOST_SAMPLES};
use chunks::{chunks, find, passing, Chunk, Field, Passing};
use ending::{ending, open_sound, riff_size, Ending};
use std::fmt;

mod adding;
mod chunks;
mod ending;
mod format;
mod kinds;
mod left_out;
mod lines;
mod tables;
#[cfg(test)]
mod tests;
mod titles;
mod way_out;

pub use adding::{of_adding, way_out_of_adding, Which};
pub use chunks::Code;
pub use left_out::{left_out, Kept, Left, LeftOut};
pub use lines::is_plain;
pub use way_out::way_out;

/// A block of packed sound, counted from 1, and how many there are.
#[derive(Clone, Copy, Debug, PartialEq, Eq)]
pub struct Block {
    pub number: u32,
    pub of: u32,
}

/// A place in a file, as far as it is known, and what is wrong there.
#[derive(Clone, Debug, Default, PartialEq, Eq)]
pub struct Place {
    pub chunk: Option<Code>,
    pub block: Option<Block>,
    /// Counted from 1.
    pub channel: Option<u16>,
    pub cue: Option<Donation>,
    /// The name of the field that is at fault.
    pub field: Option<&'static str>,
    /// The first byte of the field, or of the chunk where no field of it is at fault.
    pub byte: Option<BytePlace>,
    pub what: String,
}

impl fmt::Display for Place {
    fn fmt(&self, out: &mut fmt::Formatter) -> fmt::Result {
        let field = self.field.map(|name| format!("{name} at ")).unwrap_or_default();
        let parts = [
            self.chunk.map(|code| format!("chunk '{code}'")),
            self.block.map(|block| format!("block {} of {}", block.number, block.of)),
            self.channel.map(|channel| format!("channel {channel}")),
            self.cue.map(|cue| format!("cue {}", cue.0)),
            self.byte.map(|byte| format!("{field}byte {}", byte.0)),
        ];
        let parts: Vec<String> = parts.into_iter().flatten().collect();
        let colon = if parts.is_empty() { "" } else { ": " };
        write!(out, "{}{colon}{}", parts.join(", "), self.what)
    }
}

/// What a size says that was never written.
const CUT_OFF: &str = "the file was cut off while it was written";

/// A fault of the whole file.
fn whole(what: String) -> Option<Place> {
    Some(Place { what, ..Place::default() })
}

/// A fault at a byte of no chunk.
fn at(field: Option<&'static str>, byte: usize, what: String) -> Option<Place> {
    Some(Place { field, byte: Some(BytePlace(byte)), what, ..Place::default() })
}

/// So many frames as minutes, seconds and thousandths, rounded.
fn clock(frames: u64, rate: u32) -> String {
    let rate = u64::from(rate.max(1));
    let thousandths = (frames * 1000 + rate / 2) / rate;
    format!("{}:{:02}.{:03}", thousandths / 60_000, thousandths / 1000 % 60, thousandths % 1000)
}

/// Where the fault of a refused file is. For 15 the file is one that reading accepts.
pub fn of_file(refusal: Refusal, file: &[u8]) -> Option<Place> {
    match refusal {
        Refusal::LengthOutOfRange => of_length(file.len() as u64).or_else(|| too_much(file)),
        Refusal::NotWave => head(file),
        Refusal::RiffSizeWrong => wrong_size(file),
        Refusal::ChunkPastTheEnd => past_the_end(file),
        Refusal::SecondOfItsKind => second(file),
        Refusal::DataBeforeFormat => Some(find(file, b"data")?.fault("no chunk 'fmt ' comes before it".into())),
        Refusal::WaveList => wave_list(file),
        Refusal::FormatOrDataMissing => missing(file),
        Refusal::FormatWrong => format::fault(file),
        Refusal::NotWholeFrames => format::not_whole(file),
        Refusal::FactWrong => format::fact(file),
        Refusal::CuesWrong => tables::cues(file),
        Refusal::PlaylistWrong => tables::playlist(file),
        Refusal::TitlesWrong => titles::fault(file),
        Refusal::BlockHeaderWrong => block_header(file),
        _ => None,
    }
}

/// What is wrong with a length, if anything is.
pub fn of_length(bytes: u64) -> Option<Place> {
    if (12..=MOST_BYTES as u64).contains(&bytes) {
        return None;
    }
    whole(format!("it has {bytes} bytes; 12 to {MOST_BYTES} are accepted"))
}

/// Why a file that reading accepts is not decoded or encoded: its sound is too long for a 16-bit file or for the codec.
fn too_much(file: &[u8]) -> Option<Place> {
    let record = operations::read(file).ok()?;
    let samples = operations::samples_in(record.frames, &record.format);
    let bytes = Record { format: Format::sixteen_bit(1, 1), ..record }.file_bytes(2 * samples);
    let most = format!("{MOST_SAMPLES} samples and {MOST_BYTES} bytes are the most");
    whole(format!("its sound has {samples} samples, in 16 bits a file of {bytes} bytes; {most}"))
}

/// Which of the two codes in the head of a file is wrong, and what the file is if its first bytes show that.
fn head(file: &[u8]) -> Option<Place> {
    let start = file.get(..12)?;
    let codes = [("file code", 0, "RIFF"), ("form type", 8, "WAVE")];
    let (field, byte, right) = codes.into_iter().find(|(_, at, right)| Code::at(start, *at).0 != right.as_bytes())?;
    let kind = kinds::Kind::of(file).map_or(String::new(), |kind| format!(": this is {}", kind.name()));
    at(Some(field), byte, format!("it is '{}', and must be '{right}'{kind}", Code::at(start, byte)))
}

fn wrong_size(file: &[u8]) -> Option<Place> {
    let (size, there) = (riff_size(file), file.len() as u64);
    let fits = format!("it is {size}, for a file of {} bytes; this one has {there}", size + 8);
    let what = match ending(file) {
        Ending::Unfinished => format!("it is {size}: {CUT_OFF}"),
        _ if size + 8 > there => format!("{fits}, {} too few", size + 8 - there),
        _ => format!("{fits}, {} too many", there - size - 8),
    };
    at(Some("RIFF size"), 4, what)
}

fn past_the_end(file: &[u8]) -> Option<Place> {
    let end = file.len();
    if let Some(sound) = open_sound(file) {
        return Some(sound.size_fault(format!("it is {}: {CUT_OFF}", sound.size)));
    }
    let chunk = match passing(file)? {
        Passing::Chunk(chunk) => chunk,
        Passing::Header(byte) => return at(None, byte, format!("the file ends at byte {end}, in a chunk's header")),
    };
    Some(chunk.size_fault(format!("it is {}, up to byte {}; the file ends at byte {end}", chunk.size, chunk.end())))
}

fn second(file: &[u8]) -> Option<Place> {
    let mut seen: Vec<Chunk> = Vec::new();
    let once = [b"fmt ", b"data", b"fact", b"cue ", b"plst"];
    for chunk in chunks(file).flatten().filter(|chunk| once.contains(&&chunk.code.0)) {
        if let Some(first) = seen.iter().find(|first| first.code == chunk.code) {
            return Some(chunk.fault(format!("it is the second of its kind; the first is at byte {}", first.at)));
        }
        seen.push(chunk);
    }
    None
}

fn wave_list(file: &[u8]) -> Option<Place> {
    let chunk = chunks(file).flatten().find(|chunk| chunk.is_list(file, b"wavl"))?;
    Some(chunk.field_fault(Field("list type", 0, 4), "it is 'wavl', a list of pieces of sound".into()))
}

fn missing(file: &[u8]) -> Option<Place> {
    let code = [b"fmt ", b"data"].into_iter().find(|code| find(file, code).is_none())?;
    whole(format!("there is no chunk '{}'", Code(*code)))
}

/// The first block, and the channel in it, whose index or predictor is out of range.
fn block_header(file: &[u8]) -> Option<Place> {
    let Format { tag, channels, rate, align, samples, .. } = operations::read(file).ok()?.format;
    let sound = operations::sound_place(file).ok()?;
    let data = find(file, b"data")?;
    let (step, offset, most, name) = match tag {
        Format::IMA => (4, 2, 88, "step index"),
        _ => (1, 0, 6, "predictor"),
    };
    let (align, channels) = (usize::from(align), usize::from(channels));
    let headers = sound.clone().step_by(align).flat_map(|start| (0..channels).map(move |channel| (start, channel)));
    let wrong = |(start, channel): &(usize, usize)| file[start + step * channel + offset] > most;
    let (start, channel) = headers.into_iter().find(wrong)?;
    let (within, block) = (start + step * channel + offset - data.start(), (start - sound.start) / align);
    let time = clock(block as u64 * u64::from(samples), rate);
    let what = format!("it is {}; 0 to {most} are accepted; the block starts at {time}", file[data.start() + within]);
    let block = Block { number: block as u32 + 1, of: (sound.len() / align) as u32 };
    let place = data.field_fault(Field(name, within, 1), what);
    Some(Place { block: Some(block), channel: Some(channel as u16 + 1), ..place })
}
