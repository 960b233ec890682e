//! What a file is that is not a WAVE file, by its first bytes.

/// A kind of file that is sent in the place of a WAVE file.
#[derive(Clone, Copy, Debug, PartialEq, Eq)]
pub enum Kind {
    Mp3,
    Aac,
    Flac,
    Vorbis,
    Ogg,
    Aiff,
    Mpeg4,
    WindowsMedia,
    BigEndian,
    Rf64,
    Bw64,
    Zip,
    WebPage,
}

impl Kind {
    /// What it is, with its article.
    pub fn name(self) -> &'static str {
        match self {
            Kind::Mp3 => "an MP3 file",
            Kind::Aac => "an AAC file",
            Kind::Flac => "a FLAC file",
            Kind::Vorbis | Kind::Ogg => "an Ogg file",
            Kind::Aiff => "an AIFF file",
            Kind::Mpeg4 => "an MPEG-4 file (m4a)",
            Kind::WindowsMedia => "a Windows Media file",
            Kind::BigEndian => "a big-endian WAVE file (RIFX)",
            Kind::Rf64 => "an RF64 file",
            Kind::Bw64 => "a BW64 file",
            Kind::Zip => "a ZIP archive",
            Kind::WebPage => "a web page",
        }
    }

    /// The kind of a file, if its first bytes show it.
    pub fn of(file: &[u8]) -> Option<Kind> {
        let there = |at: usize, code: &[u8]| file.get(at..at + code.len()) == Some(code);
        let wave = |code: &[u8]| there(0, code) && there(8, b"WAVE");
        let tests = [
            (Kind::Mp3, there(0, b"ID3") || mp3_frame(file)),
            (Kind::Aac, there(0, b"\xff\xf1") || there(0, b"\xff\xf9")),
            (Kind::Flac, there(0, b"fLaC")),
            (Kind::Vorbis, there(0, b"OggS") && there(29, b"vorbis")),
            (Kind::Ogg, there(0, b"OggS")),
            (Kind::Aiff, there(0, b"FORM") && (there(8, b"AIFF") || there(8, b"AIFC"))),
            (Kind::Mpeg4, there(4, b"ftyp")),
            (Kind::WindowsMedia, there(0, b"\x30\x26\xb2\x75\x8e\x66\xcf\x11")),
            (Kind::BigEndian, wave(b"RIFX")),
            (Kind::Rf64, wave(b"RF64")),
            (Kind::Bw64, wave(b"BW64")),
            (Kind::Zip, there(0, b"PK\x03\x04")),
            (Kind::WebPage, web_page(file)),
        ];
        tests.into_iter().find_map(|(kind, fits)| fits.then_some(kind))
    }
}

/// Whether a file starts with the head of an MP3 frame: eleven ones, a version, layer III, a bit rate, a sample rate.
fn mp3_frame(file: &[u8]) -> bool {
    match file {
        [0xff, second, third, ..] => {
            let version = second >> 3 & 3;
            second >> 5 == 7 && version != 1 && second >> 1 & 3 == 1 && third >> 4 != 15 && third >> 2 & 3 != 3
        }
        _ => false,
    }
}

fn web_page(file: &[u8]) -> bool {
    let starts = |word: &str| file.get(..word.len()).map_or(false, |start| start.eq_ignore_ascii_case(word.as_bytes()));
    starts("<!doctype html") || starts("<html")
}
