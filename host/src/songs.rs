//! The songs of a side: under which numbers a sound stands on it.
use crate::operations::{read, sound_of};
use crate::units::{Donation, Refusal};

/// The numbers of the songs of a side that have the very sound of a song file. Document 01 goes by the number alone, so
/// a sound may be there more than once; a volunteer will want to know.
pub fn same_sound(side: &[u8], song: &[u8]) -> Result<Vec<Donation>, Refusal> {
    let (record, all, sent) = (read(side)?, sound_of(side)?, sound_of(song)?);
    let align = usize::from(record.format.align);
    let songs = record.cues.iter().zip(&record.playlist);
    let same = songs.filter(|(cue, play)| {
        let start = align * cue.place.0 as usize;
        all.get(start..start + align * play.length.0 as usize) == Some(sent)
    });
    Ok(same.map(|(cue, _)| cue.name).collect())
}
