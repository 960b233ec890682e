//! How a file ends whose sizes do not agree with its length.
use super::chunks::{find_any, number, passing, Chunk};

/// How a file ends.
#[derive(Clone, Copy, Debug, PartialEq, Eq)]
pub enum Ending {
    /// Whoever wrote it never came back to write the sizes.
    Unfinished,
    /// The chunks end where the RIFF size says, and more bytes come after.
    More,
    /// The chunks fill the file; the last pad may be absent.
    Full,
    /// The file is shorter than the RIFF size says by so many bytes, and something in it passes the end.
    Missing(u64),
    /// Something passes the end, whatever the RIFF size says.
    Broken,
}

/// Programs that do not know the length yet write 0, FFFFFFFF or nearly 2 GiB, and come back when they have finished.
fn not_known_yet(size: u64) -> bool {
    size == 0 || size >= 0x7fff_f000
}

/// The RIFF size.
pub fn riff_size(file: &[u8]) -> u64 {
    number(file, 4, 4).into()
}

/// The header of `data`, if its size was never written: what comes after a size of 0 is not the code of a chunk.
pub fn open_sound(file: &[u8]) -> Option<Chunk> {
    let letter = |byte: &u8| byte.is_ascii_alphanumeric() || *byte == b' ';
    let sound = |data: &Chunk| match data.size {
        0 => !file[data.start()..].iter().take(4).all(letter),
        size => not_known_yet(size as u64),
    };
    find_any(file, b"data").filter(sound)
}

/// How a file that starts with RIFF and WAVE ends.
pub fn ending(file: &[u8]) -> Ending {
    let (said, there) = (riff_size(file) + 8, file.len() as u64);
    if not_known_yet(said - 8) {
        return Ending::Unfinished;
    }
    let past = passing(file);
    // One byte more than R says is the last pad, and not something after the end.
    let one_more = past.is_none() && said + 1 == there;
    if past.is_some() && open_sound(file).is_some() {
        Ending::Unfinished
    } else if !one_more && (12..there).contains(&said) && passing(&file[..said as usize]).is_none() {
        Ending::More
    } else if past.is_none() {
        Ending::Full
    } else if said > there {
        Ending::Missing(said - there)
    } else {
        Ending::Broken
    }
}
