//! What is wrong with the list of titles, `adtl`.
use super::chunks::{chunks_in, title_lists, Chunk, Field, Passing};
use super::tables::{cue_names, NAME};
use super::Place;
use crate::units::{BytePlace, Donation};
use crate::MOST_TEXT;
use std::ops::RangeInclusive;

const TEXT: Field = Field("text", 4, MOST_TEXT + 1);

/// How many bytes a title may have: the name of a cue, and a text with its zero.
const SIZES: RangeInclusive<usize> = 4 + 1..=4 + MOST_TEXT + 1;

/// The first chunk of the list that is not as it must be. A file has at most 64 cues, so of more than 128 titles one is
/// found that names no cue, or the same as another of its kind.
pub fn fault(file: &[u8]) -> Option<Place> {
    let mut lists = title_lists(file);
    let list = lists.next()?;
    if let Some(second) = lists.next() {
        return Some(second.fault(format!("it is the second list of titles; the first is at byte {}", list.at)));
    }
    let cues = cue_names(file);
    let mut seen = vec![];
    chunks_in(file, &list).find_map(|step| match step {
        Err(passing) => Some(past_the_end(&list, passing)),
        Ok(chunk) if !is_title(&chunk) => pad_fault(file, &list, &chunk),
        Ok(title) => {
            let place = pad_fault(file, &list, &title).or_else(|| title_fault(file, &title, &cues, &seen));
            seen.push(title);
            place
        }
    })
}

/// What passes the end of the list.
fn past_the_end(list: &Chunk, passing: Passing) -> Place {
    let end = list.end();
    match passing {
        Passing::Header(byte) => {
            let place = list.fault(format!("the list of titles ends at byte {end}, in a chunk's header"));
            Place { byte: Some(BytePlace(byte)), ..place }
        }
        Passing::Chunk(chunk) => {
            let what = format!("it is {}, up to byte {}", chunk.size, chunk.end());
            chunk.size_fault(format!("{what}; the list of titles ends at byte {end}"))
        }
    }
}

/// The pad of the last chunk is part of the list, unless the file ends there.
fn pad_fault(file: &[u8], list: &Chunk, chunk: &Chunk) -> Option<Place> {
    let end = list.end();
    let there = chunk.size % 2 == 0 || chunk.end() < end || end == file.len();
    let what = format!("it is {}; the list of titles ends at byte {end}, without the pad byte after it", chunk.size);
    (!there).then(|| chunk.size_fault(what))
}

/// What is wrong with a title by itself, beside the cues, and beside the titles before it.
fn title_fault(file: &[u8], chunk: &Chunk, cues: &[u32], before: &[Chunk]) -> Option<Place> {
    if !SIZES.contains(&chunk.size) {
        let range = format!("{} to {} are accepted", SIZES.start(), SIZES.end());
        let what = format!("it is {}; {range}, for a text of at most {MOST_TEXT} bytes", chunk.size);
        return Some(chunk.size_fault(what));
    }
    let name = NAME.of(chunk.data(file));
    let same = |first: &&Chunk| first.code == chunk.code && NAME.of(first.data(file)) == name;
    let place = match (text_fault(file, chunk), before.iter().find(same)) {
        (Some(what), _) => chunk.field_fault(TEXT, what),
        _ if !cues.contains(&name) => chunk.field_fault(NAME, "there is no such cue".into()),
        (_, Some(first)) => chunk.fault(format!("it is the second of this cue; the first is at byte {}", first.at)),
        _ => return None,
    };
    Some(Place { cue: Some(Donation(name)), ..place })
}

/// Whether a chunk of the list is a label or a note; all others are skipped.
pub fn is_title(chunk: &Chunk) -> bool {
    [b"labl", b"note"].contains(&&chunk.code.0)
}

/// What is wrong with the text of a title that has a text.
fn text_fault(file: &[u8], chunk: &Chunk) -> Option<String> {
    let (start, last) = (chunk.start() + TEXT.1, chunk.end() - 1);
    match file[start..=last].iter().position(|byte| *byte == 0) {
        Some(zero) if start + zero == last => None,
        Some(zero) => Some(format!("byte {} is zero, and only the last, byte {last}, may be", start + zero)),
        None => Some(format!("its last byte, {last}, is not zero")),
    }
}
