//! What can be done about a refusal: a line that says how, where that is certain enough.
//!
//! Each command line here was tried with the programs that it calls, and what it made was accepted.
use super::chunks::{any_chunks, find, find_any, Field};
use super::ending::{ending, open_sound, Ending};
use super::format::{self, Fmt, ALIGN, AVERAGE, A_LAW, BITS, CHANNELS, FLOAT, MP3, MU_LAW, RATE, TAG, VALID_BITS};
use super::kinds::Kind;
use super::lines::{converting, decoding, Made, Program};
use super::Place;
use crate::record::Format;
use crate::units::Refusal;
use std::ffi::OsStr;

/// What is done where a file has been damaged on its way.
const ASK_AGAIN: &str = "ask for the file again";

/// What is done where a file may be a side.
const EARLIER: &str = "use an earlier copy of the file";

/// The fields of `fmt ` by which a sound that is whole is refused; a wrong one of the others is damage.
const CONVERTED: [Field; 5] = [TAG, CHANNELS, RATE, AVERAGE, BITS];

/// How a refused file can be made to fit; `wanted` is the format of the side that it is for. Nothing where that is not
/// certain enough, or where the file's name cannot be put into a line.
pub fn way_out(refusal: Refusal, file: &[u8], name: &OsStr, wanted: Option<&Format>) -> Option<String> {
    let source = Source { file, name, wanted };
    match refusal {
        Refusal::LengthOutOfRange => (file.len() < 12).then(|| ASK_AGAIN.into()),
        Refusal::NotWave => source.of_kind(Kind::of(file)?),
        Refusal::RiffSizeWrong | Refusal::ChunkPastTheEnd => source.of_ending(),
        Refusal::FormatWrong => source.of_format(),
        Refusal::NotWholeFrames => source.of_length(),
        Refusal::FactWrong => source.copied("for a copy that needs no fact"),
        // A file with a playlist may be a side, which without it would be none.
        Refusal::CuesWrong if find(file, b"plst").is_none() => source.copied(""),
        // A song that is added takes no tables along.
        Refusal::TitlesWrong if find(file, b"plst").is_none() || wanted.is_some() => source.copied(""),
        Refusal::TitlesWrong => Some(EARLIER.into()),
        Refusal::BlockHeaderWrong => Some(ASK_AGAIN.into()),
        _ => None,
    }
}

/// A refused file.
struct Source<'a> {
    file: &'a [u8],
    name: &'a OsStr,
    wanted: Option<&'a Format>,
}

// ---- what helps

impl Source<'_> {
    fn of_kind(&self, kind: Kind) -> Option<String> {
        match kind {
            Kind::Mp3 => self.line(Program::Sox(" -t mp3"), "with libsox-fmt-mp3"),
            Kind::Flac | Kind::Vorbis | Kind::Aiff | Kind::BigEndian | Kind::Rf64 => self.line(Program::Sox(""), ""),
            Kind::Aac | Kind::Ogg | Kind::Mpeg4 | Kind::WindowsMedia | Kind::Bw64 => self.line(Program::Ffmpeg, ""),
            Kind::Zip => Some("unpack it".into()),
            Kind::WebPage => Some("download the song itself".into()),
        }
    }

    fn of_ending(&self) -> Option<String> {
        let whole = |code| find(self.file, code).is_some();
        match ending(self.file) {
            Ending::Unfinished => self.unfinished(),
            Ending::Full => self.copied("to write the sizes anew"),
            Ending::More => self.copied("to leave out what comes after the end"),
            _ if whole(b"fmt ") && whole(b"data") => self.copied("to keep the sound, which is whole"),
            Ending::Missing(1) => Some(format!("1 byte is missing at the end: {ASK_AGAIN}")),
            Ending::Missing(bytes) => Some(format!("{bytes} bytes are missing at the end: {ASK_AGAIN}")),
            Ending::Broken => Some(ASK_AGAIN.into()),
        }
    }

    /// A file that was cut off while it was written. Where the size of the sound is not known sox reads to the end.
    fn unfinished(&self) -> Option<String> {
        let frame = Fmt::of(self.file).map_or(1, |fmt| fmt.get(ALIGN).max(1) as usize);
        let data = find_any(self.file, b"data");
        let there = data.map_or(0, |data| self.file.len() - data.start());
        let known = data.map(|data| data.size).filter(|size| open_sound(self.file).is_none() && *size <= there);
        if known.unwrap_or(there) < frame {
            return Some(format!("there is no sound in it: {ASK_AGAIN}"));
        }
        match self.program()? {
            _ if known.is_some() => self.copied("to write the sizes anew"),
            Program::Sox(_) => self.line(Program::Sox(" --ignore-length"), "to keep the sound that was written"),
            Program::Ffmpeg => None,
        }
    }

    /// Sound that is not whole frames, or blocks.
    fn of_length(&self) -> Option<String> {
        match Fmt::of(self.file)?.get(TAG) as u16 {
            Format::PCM => self.copied("to leave out the part of a frame"),
            _ => Some(ASK_AGAIN.into()),
        }
    }

    /// A format that is refused, or that does not suit the side.
    fn of_format(&self) -> Option<String> {
        let fmt = Fmt::of(self.file)?;
        match (format::fault(self.file), self.wanted) {
            (None, Some(side)) if (fmt.get(CHANNELS), fmt.get(RATE)) == (side.channels.into(), side.rate) => {
                decoding(self.name, self.mark())
            }
            (None, None) => None,
            (Some(Place { field: Some(name), .. }), _) if !CONVERTED.iter().any(|field| field.0 == name) => None,
            _ => self.copied(""),
        }
    }
}

// ---- the line

impl Source<'_> {
    /// The line that makes a 16-bit file of a WAVE file, if there is a program that reads it.
    fn copied(&self, purpose: &str) -> Option<String> {
        self.line(self.program()?, purpose)
    }

    /// The program that reads such a WAVE file, if it has its format and then its sound. sox 14.4 makes nothing of
    /// samples that do not fill their bytes.
    fn program(&self) -> Option<Program> {
        let fmt = Fmt::of(self.file).filter(|fmt| fmt.chunk.size >= 16)?;
        find_any(self.file, b"data").filter(|data| data.at > fmt.chunk.at)?;
        let (channels, bits, tag) = (fmt.get(CHANNELS), fmt.get(BITS), fmt.meant()?);
        let extensible = fmt.get(TAG) != tag;
        let filled = !extensible || fmt.get(VALID_BITS) == bits;
        let packed = fmt.get(ALIGN) == channels * ((bits + 7) / 8);
        match (tag, bits) {
            _ if channels == 0 || fmt.get(RATE) == 0 => None,
            (2 | 17, 4) if channels <= 2 && !extensible => Some(Program::Sox("")),
            (MP3, _) => Some(Program::Ffmpeg),
            _ if !packed => None,
            (1, 8 | 16 | 24 | 32) | (FLOAT, 32 | 64) | (A_LAW | MU_LAW, 8) if filled => Some(Program::Sox("")),
            (1, 9..=32) => Some(Program::Ffmpeg),
            _ => None,
        }
    }

    /// What a line is for, and then the line that makes a 16-bit file beside this one: last, so that it can be copied.
    fn line(&self, program: Program, purpose: &str) -> Option<String> {
        let (rate, channels) = self.changed();
        let command = converting(program, self.name, &Made { mark: self.mark(), rate, channels })?;
        let lost = self.lost_tables();
        let parts: Vec<&str> = [purpose, &lost].into_iter().filter(|part| !part.is_empty()).collect();
        let colon = if parts.is_empty() { "" } else { ": " };
        Some(format!("{}{colon}{command}", parts.join(", ")))
    }

    /// What the file that is made will not have.
    fn lost_tables(&self) -> String {
        let there = |code| find_any(self.file, code).is_some();
        let titles = any_chunks(self.file).any(|chunk| chunk.is_list(self.file, b"adtl"));
        let tables = [("its cues", there(b"cue ")), ("its playlist", there(b"plst")), ("its titles", titles)];
        let lost: Vec<&str> = tables.into_iter().filter_map(|(name, there)| there.then_some(name)).collect();
        match lost.split_last() {
            None => String::new(),
            Some((last, [])) => format!("without {last}"),
            Some((last, before)) => format!("without {} and {last}", before.join(", ")),
        }
    }

    /// The rate and the channels that must be asked for, if any: those of the side, else the most that is accepted.
    fn changed(&self) -> (Option<u32>, Option<u32>) {
        match (self.wanted, Fmt::of(self.file)) {
            (Some(side), _) => (Some(side.rate), Some(side.channels.into())),
            (None, Some(fmt)) if self.file.starts_with(b"RIFF") => {
                ((fmt.get(RATE) > 192_000).then(|| 192_000), (fmt.get(CHANNELS) > 2).then(|| 2))
            }
            _ => (None, None),
        }
    }

    /// What is added to the name of the file that is made.
    fn mark(&self) -> &'static str {
        if self.wanted.is_some() {
            "for-side"
        } else {
            "16bit"
        }
    }
}
