//! What is wrong with `fmt `, `data` or `fact`.
use super::chunks::{find, number, Chunk, Field};
use super::{whole, Place};
use crate::record::Format;

pub const TAG: Field = Field("tag", 0, 2);
pub const CHANNELS: Field = Field("channels", 2, 2);
pub const RATE: Field = Field("rate", 4, 4);
pub const AVERAGE: Field = Field("average bytes per second", 8, 4);
pub const ALIGN: Field = Field("block align", 12, 2);
pub const BITS: Field = Field("bits per sample", 14, 2);
const EXTENSION: Field = Field("extension size", 16, 2);
/// What an extensible format says in the place of samples per block.
pub const VALID_BITS: Field = Field("valid bits", 18, 2);
const SAMPLES: Field = Field("samples per block", 18, 2);
const PAIR_COUNT: Field = Field("coefficient count", 20, 2);
/// The format that an extensible one stands for, the first of the sixteen bytes that name it.
pub const MEANT: Field = Field("sub-format", 24, 2);
const COUNT: Field = Field("count", 0, 4);

/// Formats that are refused, and often sent.
pub const FLOAT: u32 = 3;
pub const A_LAW: u32 = 6;
pub const MU_LAW: u32 = 7;
pub const MP3: u32 = 85;
pub const EXTENSIBLE: u32 = 65534;

/// The seven pairs of a Microsoft `fmt `.
const PAIRS: [(i16, i16); 7] = [(256, 0), (512, -256), (0, 0), (192, 64), (240, 0), (460, -208), (392, -232)];

/// A `fmt ` chunk and its data.
pub struct Fmt<'a> {
    pub chunk: Chunk,
    data: &'a [u8],
}

impl<'a> Fmt<'a> {
    pub fn of(file: &'a [u8]) -> Option<Fmt<'a>> {
        let chunk = find(file, b"fmt ")?;
        Some(Fmt { chunk, data: chunk.data(file) })
    }

    pub fn get(&self, field: Field) -> u32 {
        field.of(self.data)
    }

    /// A fault of a field: what it is, and the rule that it breaks.
    pub fn fault(&self, field: Field, rule: &str) -> Place {
        self.chunk.field_fault(field, format!("it is {}{rule}", self.get(field)))
    }

    fn unless(&self, met: bool, field: Field, rule: &str) -> Option<Place> {
        (!met).then(|| self.fault(field, rule))
    }

    fn too_short(&self, least: usize) -> Option<Place> {
        let size = self.chunk.size;
        (size < least).then(|| self.chunk.size_fault(format!("it is {size}; {least} or more are needed")))
    }
}

/// The name of a format that is refused, as it follows its tag.
fn named(fmt: &Fmt) -> String {
    let name = |tag| match tag {
        Some(1) => "PCM",
        Some(FLOAT) => "floating point",
        Some(A_LAW) => "A-law",
        Some(MU_LAW) => "mu-law",
        Some(MP3) => "MP3",
        _ => "",
    };
    match (fmt.get(TAG), name(Some(fmt.get(TAG))), name(fmt.meant())) {
        (EXTENSIBLE, _, "") => " (extensible)".into(),
        (EXTENSIBLE, _, meant) => format!(" (extensible, {}-bit {meant})", fmt.get(BITS)),
        (_, "", _) => String::new(),
        (_, name, _) => format!(" ({name})"),
    }
}

impl Fmt<'_> {
    /// The tag of the format that an extensible one stands for; another is its own.
    pub fn meant(&self) -> Option<u32> {
        const REST: [u8; 14] = [0, 0, 0, 0, 16, 0, 128, 0, 0, 170, 0, 56, 155, 113];
        match self.get(TAG) {
            EXTENSIBLE => (self.data.get(26..40)? == REST).then(|| self.get(MEANT)),
            tag => Some(tag),
        }
    }
}

/// The first rule of `fmt ` that is not met.
pub fn fault(file: &[u8]) -> Option<Place> {
    let fmt = Fmt::of(file)?;
    let known = [1, 2, 17].contains(&fmt.get(TAG));
    fmt.too_short(16)
        .or_else(|| fmt.unless(known, TAG, &format!("{}; 1, 2 and 17 are accepted", named(&fmt))))
        .or_else(|| fmt.unless((1..=2).contains(&fmt.get(CHANNELS)), CHANNELS, "; 1 or 2 are accepted"))
        .or_else(|| fmt.unless((1..=192_000).contains(&fmt.get(RATE)), RATE, "; 1 to 192000 are accepted"))
        .or_else(|| match fmt.get(TAG) as u16 {
            Format::PCM => pcm(&fmt),
            _ => adpcm(&fmt),
        })
}

fn pcm(fmt: &Fmt) -> Option<Place> {
    let (channels, bits, rate) = (fmt.get(CHANNELS), fmt.get(BITS), fmt.get(RATE));
    if bits != 8 && bits != 16 {
        return Some(fmt.fault(BITS, "; 8 or 16 are accepted"));
    }
    let align = channels * bits / 8;
    let average = rate * align;
    fmt.unless(fmt.get(ALIGN) == align, ALIGN, &format!(", and must be {align}"))
        .or_else(|| fmt.unless(fmt.get(AVERAGE) == average, AVERAGE, &format!(", and must be {average}")))
}

/// The rules of the two ADPCM formats.
fn adpcm(fmt: &Fmt) -> Option<Place> {
    let ima = fmt.get(TAG) as u16 == Format::IMA;
    let (least, extension, head, first) = if ima { (20, 2, 4, 1) } else { (50, 32, 7, 2) };
    let channels = fmt.get(CHANNELS);
    if let Some(place) = fmt.too_short(least) {
        return Some(place);
    }
    let longest = fmt.chunk.size as u32 - 18;
    if !(extension..=longest).contains(&fmt.get(EXTENSION)) {
        return Some(fmt.fault(EXTENSION, &format!("; {} accepted", range(extension, longest))));
    }
    if fmt.get(BITS) != 4 {
        return Some(fmt.fault(BITS, ", and must be 4"));
    }
    let (align, step) = (fmt.get(ALIGN), if ima { 4 * channels } else { 1 });
    if !(8 * channels..=4096).contains(&align) || align % step != 0 {
        let multiple = if ima { format!(", in steps of {step}") } else { String::new() };
        return Some(fmt.fault(ALIGN, &format!("; {} to 4096 are accepted{multiple}", 8 * channels)));
    }
    let samples = (align - head * channels) * 2 / channels + first;
    fmt.unless(fmt.get(SAMPLES) == samples, SAMPLES, &format!(", and must be {samples}")).or_else(|| {
        if ima {
            None
        } else {
            pairs(fmt)
        }
    })
}

/// Numbers that are accepted, with their verb.
fn range(least: u32, most: u32) -> String {
    if least == most {
        format!("only {least} is")
    } else {
        format!("{least} to {most} are")
    }
}

/// The first pair of a Microsoft `fmt ` that is not the usual one.
fn pairs(fmt: &Fmt) -> Option<Place> {
    if fmt.get(PAIR_COUNT) != 7 {
        return Some(fmt.fault(PAIR_COUNT, ", and must be 7"));
    }
    let half = |at: usize| number(fmt.data, at, 2) as u16 as i16;
    PAIRS.iter().enumerate().find_map(|(turn, usual)| {
        let at = 22 + 4 * turn;
        let pair = (half(at), half(at + 2));
        let what = format!("pair {} is {pair:?}, and must be {usual:?}", turn + 1);
        (pair != *usual).then(|| fmt.chunk.field_fault(Field("coefficients", at, 4), what))
    })
}

/// A number of things, with its noun.
fn counted(count: usize, noun: &str) -> String {
    format!("{count} {noun}{}", if count == 1 { "" } else { "s" })
}

/// What is wrong with the length of the sound.
pub fn not_whole(file: &[u8]) -> Option<Place> {
    let fmt = Fmt::of(file)?;
    let align = fmt.get(ALIGN).max(1) as usize;
    let chunk = find(file, b"data")?;
    let noun = if fmt.get(TAG) as u16 == Format::PCM { "frame" } else { "block" };
    let (wholes, rest) = (counted(chunk.size / align, noun), counted(chunk.size % align, "byte"));
    Some(chunk.size_fault(format!("it is {}: {wholes} of {align} bytes, and {rest} more", chunk.size)))
}

/// What is wrong with `fact`.
pub fn fact(file: &[u8]) -> Option<Place> {
    let fmt = Fmt::of(file)?;
    let blocks = find(file, b"data")?.size / fmt.get(ALIGN).max(1) as usize;
    let chunk = match find(file, b"fact") {
        Some(chunk) => chunk,
        None => return whole("there is no chunk 'fact', which packed sound must have".into()),
    };
    if chunk.size < 4 {
        return Some(chunk.size_fault(format!("it is {}; 4 or more are needed", chunk.size)));
    }
    let samples = fmt.get(SAMPLES) as usize;
    let least = if blocks == 0 { 0 } else { (blocks - 1) * samples + 1 };
    let (count, blocks, most) = (COUNT.of(chunk.data(file)), counted(blocks, "block"), blocks * samples);
    let what = format!("it is {count}; the sound, {blocks} of {samples} samples, has {least} to {most} frames");
    Some(chunk.field_fault(COUNT, what))
}
