//! The chunks of a file, walked from one to the next, and the fields in them.
use super::Place;
use crate::units::BytePlace;
use std::fmt;

/// A four-byte code.
#[derive(Clone, Copy, Debug, PartialEq, Eq)]
pub struct Code(pub [u8; 4]);

impl Code {
    /// The code at a place where there are four bytes.
    pub(super) fn at(bytes: &[u8], at: usize) -> Code {
        Code([bytes[at], bytes[at + 1], bytes[at + 2], bytes[at + 3]])
    }
}

impl fmt::Display for Code {
    fn fmt(&self, out: &mut fmt::Formatter) -> fmt::Result {
        self.0.iter().try_for_each(|byte| write!(out, "{}", byte.escape_ascii()))
    }
}

/// The number of so many bytes at a place, 0 where there are none.
pub fn number(bytes: &[u8], at: usize, width: usize) -> u32 {
    let there = bytes.get(at..).unwrap_or_default().iter().take(width);
    there.rev().fold(0, |sum, byte| sum << 8 | u32::from(*byte))
}

/// A field of a chunk: its name for people, where it is in the data, and how many bytes it has.
#[derive(Clone, Copy)]
pub struct Field(pub &'static str, pub usize, pub usize);

impl Field {
    pub fn of(&self, data: &[u8]) -> u32 {
        number(data, self.1, self.2)
    }
}

/// A chunk: where its header is, and the size that it says.
#[derive(Clone, Copy)]
pub struct Chunk {
    pub code: Code,
    pub at: usize,
    pub size: usize,
}

impl Chunk {
    pub fn start(&self) -> usize {
        self.at + 8
    }

    /// Where its data end, if there are as many as it says.
    pub fn end(&self) -> usize {
        self.start() + self.size
    }

    /// Its data, as much of them as the file has.
    pub fn data<'a>(&self, file: &'a [u8]) -> &'a [u8] {
        &file[self.start()..file.len().min(self.end())]
    }

    /// Its type, where it is a list that has one.
    pub fn list_type(&self, file: &[u8]) -> Option<Code> {
        let data = self.data(file);
        (&self.code.0 == b"LIST" && data.len() >= 4).then(|| Code::at(data, 0))
    }

    /// Whether it is a list of a type.
    pub fn is_list(&self, file: &[u8], kind: &[u8; 4]) -> bool {
        self.list_type(file) == Some(Code(*kind))
    }

    /// A fault of the chunk as a whole.
    pub fn fault(&self, what: String) -> Place {
        Place { chunk: Some(self.code), byte: Some(BytePlace(self.at)), what, ..Place::default() }
    }

    /// A fault of the size in its header.
    pub fn size_fault(&self, what: String) -> Place {
        Place { field: Some("size"), byte: Some(BytePlace(self.at + 4)), ..self.fault(what) }
    }

    /// A fault of a field of its data.
    pub fn field_fault(&self, field: Field, what: String) -> Place {
        Place { field: Some(field.0), byte: Some(BytePlace(self.start() + field.1)), ..self.fault(what) }
    }
}

/// What passes the end of the file: a chunk, or a header, which starts at this byte.
#[derive(Clone, Copy)]
pub enum Passing {
    Chunk(Chunk),
    Header(usize),
}

/// The chunks of a file, up to its end or to what passes it.
pub fn chunks(file: &[u8]) -> impl Iterator<Item = Result<Chunk, Passing>> + '_ {
    chunks_from(file, 12)
}

/// The chunks of a list that fits into the file, up to the list's end or to what passes it.
pub fn chunks_in<'a>(file: &'a [u8], list: &Chunk) -> impl Iterator<Item = Result<Chunk, Passing>> + 'a {
    chunks_from(&file[..list.end()], list.start() + 4)
}

/// The chunks of some bytes from a place on.
fn chunks_from(bytes: &[u8], mut next: usize) -> impl Iterator<Item = Result<Chunk, Passing>> + '_ {
    std::iter::from_fn(move || {
        if next >= bytes.len() {
            return None;
        }
        let here = next;
        next = bytes.len();
        if bytes.len() - here < 8 {
            return Some(Err(Passing::Header(here)));
        }
        let chunk = Chunk { code: Code::at(bytes, here), at: here, size: number(bytes, here + 4, 4) as usize };
        if chunk.end() > bytes.len() {
            return Some(Err(Passing::Chunk(chunk)));
        }
        // Past the end where the last pad is absent.
        next = chunk.end() + chunk.size % 2;
        Some(Ok(chunk))
    })
}

/// The lists of titles of a file, of which there may be one.
pub fn title_lists(file: &[u8]) -> impl Iterator<Item = Chunk> + '_ {
    chunks(file).flatten().filter(|chunk| chunk.is_list(file, b"adtl"))
}

/// The first chunk of a code that fits into the file.
pub fn find(file: &[u8], code: &[u8; 4]) -> Option<Chunk> {
    chunks(file).flatten().find(|chunk| chunk.code.0 == *code)
}

/// The chunks of a file, the last of which may pass the end.
pub fn any_chunks(file: &[u8]) -> impl Iterator<Item = Chunk> + '_ {
    chunks(file).filter_map(|step| match step {
        Ok(chunk) | Err(Passing::Chunk(chunk)) => Some(chunk),
        Err(Passing::Header(_)) => None,
    })
}

/// The first chunk of a code, be it that it passes the end.
pub fn find_any(file: &[u8], code: &[u8; 4]) -> Option<Chunk> {
    any_chunks(file).find(|chunk| chunk.code.0 == *code)
}

/// What passes the end of the file, if anything does.
pub fn passing(file: &[u8]) -> Option<Passing> {
    chunks(file).find_map(Result::err)
}
