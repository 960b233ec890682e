//! Lines for a shell, by which other programs make a 16-bit WAVE file of a file.
use std::ffi::OsStr;
use std::path::Path;

/// A program that makes 16-bit WAVE files of others; of sox also the options before the file that it reads.
#[derive(Clone, Copy)]
pub enum Program {
    Sox(&'static str),
    Ffmpeg,
}

/// The file that is made: what is added to the name, and the rate and the channels if they are to be changed.
pub struct Made {
    pub mark: &'static str,
    pub rate: Option<u32>,
    pub channels: Option<u32>,
}

/// The line by which a program makes a file beside the one of a name; none where that cannot be put into a line.
pub fn converting(program: Program, name: &OsStr, made: &Made) -> Option<String> {
    let path = safe_path(name)?;
    let (from, to) = (quoted(&path), quoted(&beside(&path, made.mark)?));
    let option = |name: &str, value: Option<u32>| value.map_or(String::new(), |value| format!(" {name} {value}"));
    Some(match program {
        Program::Sox(before) => {
            // To a shell a pattern in quotes is a name; sox would still look for files that fit it.
            let plain = if path.contains(['*', '?', '[', '{', '\\']) { " --no-glob" } else { "" };
            let changed = option("-r", made.rate) + &option("-c", made.channels);
            format!("sox --no-clobber{plain}{before} {from}{changed} -b 16 -e signed-integer {to}")
        }
        Program::Ffmpeg => {
            let changed = option("-ar", made.rate) + &option("-ac", made.channels);
            format!("ffmpeg -i {from}{changed} -c:a pcm_s16le {to}")
        }
    })
}

/// The line by which `tronalhet` makes such a file of one that it accepts.
pub fn decoding(name: &OsStr, mark: &str) -> Option<String> {
    let path = safe_path(name)?;
    Some(format!("tronalhet decode {} {}", quoted(&path), quoted(&beside(&path, mark)?)))
}

/// Whether a letter can be shown as it is: it does not end the line, move the cursor or turn the direction of writing.
pub fn is_plain(letter: char) -> bool {
    let turns = matches!(letter, '\u{2028}'..='\u{202e}' | '\u{2066}'..='\u{2069}' | '\u{200e}' | '\u{200f}');
    !letter.is_control() && !turns
}

/// A file's name as a path that no program takes for an option, a pipe or an address; none where it is standard input
/// or cannot be shown on a line.
fn safe_path(name: &OsStr) -> Option<String> {
    let name = name.to_str().filter(|name| *name != "-" && name.chars().all(is_plain))?;
    let plain = name.starts_with(|first: char| first.is_alphanumeric() || "._".contains(first)) && !name.contains(':');
    let front = if plain || name.starts_with('/') { "" } else { "./" };
    Some(format!("{front}{name}"))
}

/// The name of a WAVE file in the same folder, with a mark after its own.
fn beside(path: &str, mark: &str) -> Option<String> {
    let stem = Path::new(path).file_stem()?.to_str()?;
    Some(Path::new(path).with_file_name(format!("{stem}-{mark}.wav")).to_str()?.into())
}

/// A word as a shell reads it unchanged.
fn quoted(word: &str) -> String {
    format!("'{}'", word.replace('\'', r"'\''"))
}

#[cfg(test)]
mod tests {
    use super::*;
    use std::os::unix::ffi::OsStrExt;

    const PLAIN: Made = Made { mark: "16bit", rate: None, channels: None };

    fn sox(name: &str) -> Option<String> {
        converting(Program::Sox(""), OsStr::new(name), &PLAIN)
    }

    /// What sox is called with for a file.
    fn called(from: &str, to: &str) -> Option<String> {
        Some(format!("sox --no-clobber {from} -b 16 -e signed-integer {to}"))
    }

    #[test]
    fn the_new_name_is_beside_the_old_one() {
        assert_eq!(sox("song.wav"), called("'song.wav'", "'song-16bit.wav'"));
        assert_eq!(sox("a.b/my song.MP3"), called("'a.b/my song.MP3'", "'a.b/my song-16bit.wav'"));
        assert_eq!(sox("/a/song"), called("'/a/song'", "'/a/song-16bit.wav'"));
        assert_eq!(sox(".."), None);
    }

    #[test]
    fn a_shell_reads_a_name_unchanged() {
        assert_eq!(sox("it's $(ls)`.wav"), called(r"'it'\''s $(ls)`.wav'", r"'it'\''s $(ls)`-16bit.wav'"));
    }

    #[test]
    fn no_name_is_an_option_a_pipe_an_address_or_a_pattern() {
        assert_eq!(sox("-n.wav"), called("'./-n.wav'", "'./-n-16bit.wav'"));
        assert_eq!(sox("|ls"), called("'./|ls'", "'./|ls-16bit.wav'"));
        assert_eq!(sox("http:a.wav"), called("'./http:a.wav'", "'./http:a-16bit.wav'"));
        assert_eq!(sox("/a:b/c.wav"), called("'/a:b/c.wav'", "'/a:b/c-16bit.wav'"));
        for name in ["s*.wav", "s?.wav", "s[1].wav", "s{a,b}.wav", r"s\1.wav"] {
            assert!(sox(name).unwrap().starts_with("sox --no-clobber --no-glob 's"), "{name}");
        }
    }

    #[test]
    fn names_that_fit_on_no_line_have_none() {
        let text = ["-", "a\nb.wav", "a\x1b[2J.wav", "a\x7f.wav", "\u{85}.wav", "a\u{202e}vaw.wav", "a\u{2028}b.wav"];
        for name in text.iter().map(|name| name.as_bytes()).chain([&b"\xff.wav"[..]]) {
            assert_eq!(converting(Program::Ffmpeg, OsStr::from_bytes(name), &PLAIN), None);
            assert_eq!(decoding(OsStr::from_bytes(name), "16bit"), None);
        }
    }

    #[test]
    fn rate_and_channels_are_those_of_the_file_that_is_made() {
        let made = Made { mark: "for-side", rate: Some(44100), channels: Some(2) };
        let name = OsStr::new("a.m4a");
        let sox = "sox --no-clobber -t mp3 'a.m4a' -r 44100 -c 2 -b 16 -e signed-integer 'a-for-side.wav'";
        assert_eq!(converting(Program::Sox(" -t mp3"), name, &made).unwrap(), sox);
        let ffmpeg = "ffmpeg -i 'a.m4a' -ar 44100 -ac 2 -c:a pcm_s16le 'a-for-side.wav'";
        assert_eq!(converting(Program::Ffmpeg, name, &made).unwrap(), ffmpeg);
        assert_eq!(decoding(name, "16bit").unwrap(), "tronalhet decode 'a.m4a' 'a-16bit.wav'");
    }
}
