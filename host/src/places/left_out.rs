//! The chunks of a file that a command does not carry over.
use super::chunks::{chunks, chunks_in, Chunk, Code};
use super::titles::is_title;

/// How many kinds of chunks are named; a file may have millions.
const MOST_KINDS: usize = 20;

/// What a new file says again of an old one: its sound alone, or also what is said of that.
#[derive(Clone, Copy, Debug, PartialEq, Eq)]
pub enum Kept {
    Sound,
    All,
}

/// A kind of what is left out: chunks of a code, lists of a type, or chunks of a code in the list of titles.
#[derive(Clone, Copy, Debug, PartialEq, Eq)]
pub enum Left {
    Chunk(Code),
    List(Code),
    InTitles(Code),
}

/// What is left out of a kind, and how often it is there.
#[derive(Clone, Copy, Debug, PartialEq, Eq)]
pub struct LeftOut {
    pub kind: Left,
    pub count: usize,
}

impl Kept {
    fn has(self, chunk: &Chunk) -> bool {
        let (sound, tables) = ([b"fmt ", b"fact", b"data"], [b"cue ", b"plst"]);
        sound.contains(&&chunk.code.0) || self == Kept::All && tables.contains(&&chunk.code.0)
    }
}

/// The kinds of what is not kept of a file, each with how often it is there. Where titles are kept, the other chunks of
/// their list are left out; that a list without any chunk is gone is no loss.
pub fn left_out(file: &[u8], kept: Kept) -> Vec<LeftOut> {
    let mut kinds = vec![];
    for chunk in chunks(file).flatten().filter(|chunk| !kept.has(chunk)) {
        if kept == Kept::All && chunk.is_list(file, b"adtl") {
            let others = chunks_in(file, &chunk).flatten().filter(|inner| !is_title(inner));
            others.for_each(|other| count(&mut kinds, Left::InTitles(other.code)));
        } else {
            count(&mut kinds, chunk.list_type(file).map_or(Left::Chunk(chunk.code), Left::List));
        }
    }
    kinds
}

/// Counts one more of a kind, if that is named.
fn count(kinds: &mut Vec<LeftOut>, kind: Left) {
    match kinds.iter().position(|counted| counted.kind == kind) {
        Some(place) => kinds[place].count += 1,
        None if kinds.len() < MOST_KINDS => kinds.push(LeftOut { kind, count: 1 }),
        None => {}
    }
}

#[cfg(test)]
mod tests {
    use super::*;

    fn chunk(code: &[u8; 4], data: &[u8]) -> Vec<u8> {
        let mut bytes = [&code[..], &(data.len() as u32).to_le_bytes(), data].concat();
        bytes.resize(bytes.len() + data.len() % 2, 0);
        bytes
    }

    fn named(file: &[u8], kept: Kept) -> Vec<(String, usize)> {
        let name = |kind| match kind {
            Left::Chunk(code) => format!("{code}"),
            Left::List(code) => format!("list {code}"),
            Left::InTitles(code) => format!("{code} in titles"),
        };
        left_out(file, kept).into_iter().map(|left| (name(left.kind), left.count)).collect()
    }

    fn counted(kinds: &[(&str, usize)]) -> Vec<(String, usize)> {
        kinds.iter().map(|(name, count)| (name.to_string(), *count)).collect()
    }

    #[test]
    fn each_kind_is_named_once() {
        let codes = [b"LIST", b"fmt ", b"bext", b"LIST", b"cue ", b"data", b"id3\0"];
        let file = [b"RIFF....WAVE".to_vec(), codes.map(|code| chunk(code, b"abc")).concat()].concat();
        assert_eq!(named(&file, Kept::All), counted(&[("LIST", 2), ("bext", 1), ("id3\\x00", 1)]));
        assert_eq!(named(&file, Kept::Sound), counted(&[("LIST", 2), ("bext", 1), ("cue ", 1), ("id3\\x00", 1)]));
    }

    #[test]
    fn a_list_is_named_by_its_type() {
        let lists = [&b"INFOabc"[..], b"INFO", b"\0\"b\n", b"INF", b""].map(|data| chunk(b"LIST", data)).concat();
        let three = counted(&[("list INFO", 2), ("list \\x00\\\"b\\n", 1), ("LIST", 2)]);
        assert_eq!(named(&[b"RIFF....WAVE".to_vec(), lists].concat(), Kept::All), three);
    }

    #[test]
    fn of_a_list_of_titles_the_titles_are_kept() {
        let title = chunk(b"labl", b"\x07\0\0\0a\0");
        let others = [chunk(b"ltxt", b"abc"), chunk(b"file", b""), chunk(b"ltxt", b"")].concat();
        let list = |inner: &[&[u8]]| chunk(b"LIST", &[&b"adtl"[..], &inner.concat()].concat());
        let file = |lists: &[Vec<u8>]| [b"RIFF....WAVE".to_vec(), chunk(b"ltxt", b""), lists.concat()].concat();
        let inside = [("ltxt", 1), ("ltxt in titles", 2), ("file in titles", 1)];
        let info = file(&[list(&[&others, &title]), chunk(b"LIST", b"INFO")]);
        assert_eq!(named(&info, Kept::All), counted(&[inside[0], inside[1], inside[2], ("list INFO", 1)]));
        for (inner, left) in [(&[&title[..]][..], &inside[..1]), (&[], &inside[..1]), (&[&others], &inside)] {
            let file = file(&[list(inner)]);
            assert_eq!(named(&file, Kept::All), counted(left));
            assert_eq!(named(&file, Kept::Sound), counted(&[("ltxt", 1), ("list adtl", 1)]));
        }
    }
}
