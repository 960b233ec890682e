//! Why a command stops: a refusal of the library with its place, or an I/O error. And how names are shown.
use std::ffi::{OsStr, OsString};
use std::io;
use std::os::unix::ffi::OsStrExt;
use std::path::Path;
use tronalhet::places::{is_plain, of_file, way_out, Place};
use tronalhet::{Fault, NoMemory, Refusal};

pub enum Stop {
    Refused { refusal: Refusal, file: OsString, place: Option<Place>, way_out: Option<String> },
    Trouble(String),
}

impl Stop {
    pub fn not_read(name: &OsStr, error: &io::Error) -> Stop {
        Stop::Trouble(format!("cannot read {}: {}", shown(name), reason(error)))
    }

    pub fn not_written(path: &Path, error: &io::Error) -> Stop {
        Stop::no_place(path, &reason(error))
    }

    /// A place where nothing is written.
    pub fn no_place(path: &Path, why: &str) -> Stop {
        Stop::Trouble(format!("cannot write {}: {why}", shown(path.as_os_str())))
    }

    /// A file that was refused, or for which there was no memory.
    pub fn of_file(name: &OsStr, file: &[u8], fault: Fault) -> Stop {
        match fault {
            Fault::Refused(refusal) => Stop::Refused {
                refusal,
                file: name.into(),
                place: of_file(refusal, file),
                way_out: way_out(refusal, file, name, None),
            },
            Fault::NoMemory(lack) => lack.into(),
        }
    }

    /// What a call asks for cannot be; the file is the one that it was asked of.
    pub fn of_call(name: &OsStr, refusal: Refusal, what: String) -> Stop {
        let place = Some(Place { what, ..Place::default() });
        Stop::Refused { refusal, file: name.into(), place, way_out: None }
    }
}

impl From<NoMemory> for Stop {
    fn from(lack: NoMemory) -> Stop {
        Stop::Trouble(lack.to_string())
    }
}

/// A file's name as people see it. What would end the line, move the cursor or turn the direction of writing is
/// escaped, so that no name can be read as another line.
pub fn shown(name: &OsStr) -> String {
    match name.to_str() {
        Some("-") => return "standard input".into(),
        Some("") => return "''".into(),
        _ => {}
    }
    on_one_line(name.as_bytes())
}

/// The text of a title as people see it, on one line too.
pub fn shown_text(text: &[u8]) -> String {
    if text.is_empty() {
        return "''".into();
    }
    on_one_line(text)
}

fn on_one_line(bytes: &[u8]) -> String {
    let mut line = String::new();
    for letter in readable(bytes).chars() {
        if is_plain(letter) {
            line.push(letter);
        } else {
            line.extend(letter.escape_default());
        }
    }
    line
}

/// Bytes as the text that they are in UTF-8; each byte that is none is escaped.
pub fn readable(bytes: &[u8]) -> String {
    let (mut text, mut rest) = (String::new(), bytes);
    while !rest.is_empty() {
        let valid = match std::str::from_utf8(rest) {
            Ok(_) => rest.len(),
            Err(error) => error.valid_up_to(),
        };
        let (front, after) = rest.split_at(valid);
        text.push_str(&String::from_utf8_lossy(front));
        rest = after;
        if let Some((byte, more)) = rest.split_first() {
            text.push_str(&format!("\\x{byte:02x}"));
            rest = more;
        }
    }
    text
}

/// A number of things, with the word for one or for more.
pub fn counted(number: u64, one: &str, more: &str) -> String {
    format!("{number} {}", if number == 1 { one } else { more })
}

/// What the system says of an error, without its number.
pub fn reason(error: &io::Error) -> String {
    let said = error.to_string();
    said.split(" (os error").next().unwrap_or_default().into()
}

#[cfg(test)]
mod tests {
    use super::*;

    #[test]
    fn names_stay_on_their_line() {
        let named = |bytes: &[u8]| shown(OsStr::from_bytes(bytes));
        assert_eq!(named(b"a\nrefused 1\r\x1b[2K.wav"), "a\\nrefused 1\\r\\u{1b}[2K.wav");
        assert_eq!(named("é\u{202e}\u{85}\u{7f}".as_bytes()), "é\\u{202e}\\u{85}\\u{7f}");
        assert_eq!(named(b"\xff\xfe song\xc3"), "\\xff\\xfe song\\xc3");
        assert_eq!(
            (named(b"-"), named(b""), named(b"a\\b 'c'")),
            ("standard input".into(), "''".into(), "a\\b 'c'".into())
        );
    }

    #[test]
    fn texts_are_shown_as_they_are_or_escaped() {
        let bytes = b"Gr\xc3\xb6\xdfe\n\xe2\x80";
        assert_eq!(
            (shown_text(bytes), readable(bytes)),
            ("Grö\\xdfe\\n\\xe2\\x80".into(), "Grö\\xdfe\n\\xe2\\x80".into())
        );
        assert_eq!((shown_text(b""), shown_text(b"-"), readable(b"")), ("''".into(), "-".into(), "".into()));
    }
}
