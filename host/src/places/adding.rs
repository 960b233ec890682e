//! Why a song was not added to a side, and what can be done about it.
use super::chunks::find;
use super::format::{Fmt, BITS, CHANNELS, RATE, TAG};
use super::tables::{entry_fault, COUNT, CUE_BYTES, LENGTH, NAME, OFFSET, PLAY_BYTES, TIMES};
use super::{clock, of_file, way_out, whole, Place};
use crate::operations::{read, sound_of};
use crate::record::{Cue, Format, Play, Record, MOST_ENTRIES};
use crate::units::{Donation, Frames, Refusal};
use crate::MOST_BYTES;
use std::ffi::OsStr;

/// The file in which a fault is.
#[derive(Clone, Copy, Debug, PartialEq, Eq)]
pub enum Which {
    Side,
    Song,
}

/// Where the fault is that kept a song off a side.
pub fn of_adding(
    refusal: Refusal,
    side: &[u8],
    song: &[u8],
    number: Donation,
    limit: Frames,
) -> Option<(Which, Place)> {
    let heard = match read(song) {
        Ok(heard) => heard,
        Err(refusal) => return Some((Which::Song, of_file(refusal, song)?)),
    };
    let there = match read(side) {
        Ok(there) => there,
        Err(refusal) => return Some((Which::Side, refused_side(refusal, side)?)),
    };
    let listed = there.cues.iter().position(|cue| cue.name == number);
    match (refusal, listed) {
        (Refusal::NotASide, _) => Some((Which::Side, no_side(&there, side)?)),
        (Refusal::FormatWrong, _) => Some((Which::Song, other_format(song, &there.format)?)),
        (Refusal::SongEmptyOrDifferent, Some(at)) if heard.frames.0 > 0 => {
            let (what, mark) = (differs(&there, at, side, song), Some(number));
            Some((Which::Side, Place { cue: mark, ..whole(what?)? }))
        }
        (Refusal::SongEmptyOrDifferent, _) => {
            Some((Which::Song, find(song, b"data")?.size_fault("it is 0; a song has 1 frame or more".into())))
        }
        (Refusal::NoPlaceOnSide, _) => Some((Which::Side, no_place(&there, heard.frames, limit)?)),
        (Refusal::AlreadyListed, Some(at)) => {
            let cue = there.cues[at];
            let what = format!("it is song {} of the side, at frame {}", at + 1, cue.place.0);
            Some((Which::Side, Place { cue: Some(cue.name), ..whole(what)? }))
        }
        (Refusal::LengthOutOfRange, _) => Some((Which::Side, too_long(there, side, song)?)),
        _ => None,
    }
}

/// A side file that reading refuses.
fn refused_side(refusal: Refusal, side: &[u8]) -> Option<Place> {
    let place = of_file(refusal, side).unwrap_or_default();
    let what = format!("{} ({}: {})", place.what, refusal.number(), refusal.meaning());
    Some(Place { what, ..place })
}

/// In what the format of a file is not 16-bit PCM, of the channels and the rate that are wanted, if any are.
fn other(file: &[u8], owner: &str, wanted: &[(super::Field, u32)]) -> Option<Place> {
    let fmt = Fmt::of(file)?;
    let sixteen_bit = [(TAG, 1, " (PCM)"), (BITS, 16, "")];
    let all = sixteen_bit.into_iter().chain(wanted.iter().map(|(field, right)| (*field, *right, "")));
    let (field, right, name) = all.into_iter().find(|(field, right, _)| fmt.get(*field) != *right)?;
    Some(fmt.fault(field, &format!("; {owner} has {right}{name}")))
}

/// In what a song does not suit a side.
fn other_format(song: &[u8], side: &Format) -> Option<Place> {
    other(song, "the side", &[(CHANNELS, side.channels.into()), (RATE, side.rate)])
}

/// Why a file that reading accepts is not a side; nothing of one that is.
fn no_side(record: &Record, side: &[u8]) -> Option<Place> {
    if let Some(place) = other(side, "a side", &[]) {
        return Some(place);
    }
    let (cues, plays) = (record.cues.len(), record.playlist.len());
    let mut end = 0;
    for (turn, (cue, play)) in record.cues.iter().zip(&record.playlist).enumerate() {
        if let Some(place) = no_song(side, turn, cue, play, end) {
            return Some(place);
        }
        end += play.length.0;
    }
    if cues == plays && end == record.frames.0 {
        return None;
    }
    match find(side, b"plst") {
        _ if cues == 0 => whole(format!("it has {} frames and no cue; it may be a song", record.frames.0)),
        Some(chunk) if cues != plays => Some(chunk.field_fault(COUNT, format!("it is {plays}; there are {cues} cues"))),
        Some(chunk) => {
            let what = format!("the last song ends at frame {end}, and the sound at frame {}", record.frames.0);
            Some(entry_fault(&chunk, PLAY_BYTES, plays - 1, LENGTH, record.cues[cues - 1].name, what))
        }
        None => whole(format!("it has {cues} cues and no playlist")),
    }
}

/// Why a cue and the entry in its place, counted from 0, are not a song of a side that starts at a frame.
fn no_song(side: &[u8], turn: usize, cue: &Cue, play: &Play, start: u32) -> Option<Place> {
    let (cues, plays) = (find(side, b"cue ")?, find(side, b"plst")?);
    if cue.place.0 != start {
        let before = if turn == 0 { "the first song starts" } else { "the song before it ends" };
        let what = format!("it is {}; {before} at frame {start}", cue.place.0);
        return Some(entry_fault(&cues, CUE_BYTES, turn, OFFSET, cue.name, what));
    }
    if play.name != cue.name {
        let what = format!("it is {}; the cue in this place is {}", play.name.0, cue.name.0);
        return Some(entry_fault(&plays, PLAY_BYTES, turn, NAME, cue.name, what));
    }
    let what = format!("it is {}; a side plays each song once", play.times);
    (play.times != 1).then(|| entry_fault(&plays, PLAY_BYTES, turn, TIMES, cue.name, what))
}

/// Where a song differs from the one of its number on the side.
fn differs(record: &Record, at: usize, side: &[u8], song: &[u8]) -> Option<String> {
    let (Cue { place, .. }, length) = (record.cues[at], record.playlist.get(at)?.length);
    let align = usize::from(record.format.align);
    let there = &sound_of(side).ok()?[align * place.0 as usize..][..align * length.0 as usize];
    let sent = sound_of(song).ok()?;
    let frame = match there.iter().zip(sent).position(|(old, new)| old != new) {
        Some(byte) => byte / align,
        None => there.len().min(sent.len()) / align,
    };
    let lengths = format!("{} frames there and {} in the song", length.0, sent.len() / align);
    Some(format!("another sound has this number, {lengths}; they differ from frame {frame} on, counted from 0"))
}

/// Why there is no place for a song of so many frames.
fn no_place(record: &Record, song: Frames, limit: Frames) -> Option<Place> {
    if record.cues.len() == MOST_ENTRIES {
        return whole(format!("it has {MOST_ENTRIES} songs, and {MOST_ENTRIES} is the most"));
    }
    let end = u64::from(record.frames.0) + u64::from(song.0);
    let over = end.saturating_sub(limit.0.into());
    let time = clock(over, record.format.rate);
    let sum = format!("{} frames and {} of the song are {end}", record.frames.0, song.0);
    whole(format!("{sum}: {over} frames ({time}) above the limit of {}", limit.0))
}

/// How long the file of a side would be with a song more.
fn too_long(mut record: Record, side: &[u8], song: &[u8]) -> Option<Place> {
    record.cues.push(Cue::default());
    record.playlist.push(Play::default());
    let bytes = record.file_bytes(sound_of(side).ok()?.len() + sound_of(song).ok()?.len());
    whole(format!("its new file would have {bytes} bytes, and {MOST_BYTES} are the most"))
}

// ---- what can be done

/// What can be done where a song of this name was not added to a side. Nothing where that is not certain enough.
pub fn way_out_of_adding(
    refusal: Refusal,
    side: &[u8],
    song: &[u8],
    song_name: &OsStr,
    limit: Frames,
) -> Option<String> {
    let there = read(side);
    let heard = match read(song) {
        Ok(heard) => heard,
        Err(refusal) => return way_out(refusal, song, song_name, there.ok().map(|side| side.format).as_ref()),
    };
    let there = match there {
        Ok(there) => there,
        Err(_) => return Some("use an earlier copy of the side".into()),
    };
    match refusal {
        Refusal::NotASide if no_side(&heard, song).is_none() => {
            Some("the side comes first: tronalhet add SIDE SONG".into())
        }
        Refusal::NotASide if there.cues.is_empty() => {
            let Format { channels, rate, .. } = heard.format;
            Some(format!("start a side for it: tronalhet new-side SIDE --channels {channels} --rate {rate}"))
        }
        Refusal::FormatWrong => way_out(refusal, song, song_name, Some(&there.format)),
        Refusal::SongEmptyOrDifferent if heard.frames.0 == 0 => Some("ask for the song again: it has no sound".into()),
        Refusal::SongEmptyOrDifferent => Some("if it is another song, give it another number".into()),
        Refusal::NoPlaceOnSide if heard.frames > limit => {
            Some("the song alone is longer than the limit: no side has room for it".into())
        }
        Refusal::NoPlaceOnSide => room_left(&there, limit),
        _ => None,
    }
}

/// How long a song may be that fits, or that none does.
fn room_left(side: &Record, limit: Frames) -> Option<String> {
    let left = u64::from(limit.0.saturating_sub(side.frames.0));
    if left == 0 || side.cues.len() == MOST_ENTRIES {
        return Some("start another side: no song fits on this one".into());
    }
    let time = clock(left, side.format.rate);
    Some(format!("a song of at most {left} frames ({time}) fits; start another side for this one"))
}
