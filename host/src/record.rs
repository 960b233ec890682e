//! A file's record, and the 906 words that it travels in through the C interface, with the texts of its titles beside.
use crate::units::{Donation, Frames};
use crate::MOST_TEXT;

/// How many cues, and how many entries, a record has room for.
pub const MOST_ENTRIES: usize = 64;

/// How many titles it has room for: a label and a note for each cue.
pub const MOST_TITLES: usize = 2 * MOST_ENTRIES;

/// The most bytes of all texts of a file, each with its zero.
pub const MOST_TEXTS: usize = MOST_TITLES * (MOST_TEXT + 1);

/// Where the number of titles stands among the words; the titles come after it.
const TITLES: usize = 9 + 6 * MOST_ENTRIES;

/// How many words a record has.
pub const WORDS: usize = TITLES + 1 + 4 * MOST_TITLES;

/// A record as it travels.
pub type Words = [u32; WORDS];

/// What `fmt ` says: tag 1 is PCM, 2 Microsoft ADPCM, 17 IMA ADPCM.
#[derive(Clone, Copy, Debug, Default, PartialEq, Eq)]
pub struct Format {
    pub tag: u16,
    pub channels: u16,
    pub rate: u32,
    pub bits: u16,
    pub align: u16,
    /// Samples per block; 1 for PCM.
    pub samples: u16,
}

impl Format {
    pub const PCM: u16 = 1;
    pub const MICROSOFT: u16 = 2;
    pub const IMA: u16 = 17;

    /// 16-bit PCM. More channels than there can be make a format that is refused.
    pub fn sixteen_bit(channels: u16, rate: u32) -> Format {
        Format { tag: Format::PCM, channels, rate, bits: 16, align: channels.saturating_mul(2), samples: 1 }
    }

    pub fn is_sixteen_bit(&self) -> bool {
        self.tag == Format::PCM && self.bits == 16
    }
}

/// A cue point; its place is counted from the start of the sound.
#[derive(Clone, Copy, Debug, Default, PartialEq, Eq)]
pub struct Cue {
    pub name: Donation,
    pub position: Frames,
    pub place: Frames,
}

/// An entry of the playlist.
#[derive(Clone, Copy, Debug, Default, PartialEq, Eq)]
pub struct Play {
    pub name: Donation,
    pub length: Frames,
    pub times: u32,
}

/// What a title is to its cue: its name for people, or a remark on it.
#[derive(Clone, Copy, Debug, PartialEq, Eq)]
pub enum TitleKind {
    Label,
    Note,
}

/// A title of a cue. Its text is bytes, of which none is zero and at most 255 are there; what they spell is not said.
#[derive(Clone, Debug, PartialEq, Eq)]
pub struct Title {
    pub kind: TitleKind,
    pub cue: Donation,
    pub text: Vec<u8>,
}

/// All that a file says of its sound.
#[derive(Clone, Debug, Default, PartialEq, Eq)]
pub struct Record {
    pub format: Format,
    pub frames: Frames,
    pub cues: Vec<Cue>,
    pub playlist: Vec<Play>,
    /// In the order of the file.
    pub titles: Vec<Title>,
}

impl Record {
    /// The record that words and texts say. The library never gives a word that does not fit its field, nor a text that
    /// is not there.
    pub(crate) fn from_words(words: &Words, texts: &[u8]) -> Record {
        let small = |place: usize| words[place] as u16;
        let format = Format {
            tag: small(0),
            channels: small(1),
            rate: words[2],
            bits: small(3),
            align: small(4),
            samples: small(5),
        };
        let (cues, plays) = words[9..TITLES].split_at(3 * MOST_ENTRIES);
        let titles = words[TITLES + 1..].chunks_exact(4).take(words[TITLES] as usize);
        let cue = |w: &[u32]| Cue { name: Donation(w[0]), position: Frames(w[1]), place: Frames(w[2]) };
        let play = |w: &[u32]| Play { name: Donation(w[0]), length: Frames(w[1]), times: w[2] };
        Record {
            format,
            frames: Frames(words[6]),
            cues: cues.chunks_exact(3).take(words[7] as usize).map(cue).collect(),
            playlist: plays.chunks_exact(3).take(words[8] as usize).map(play).collect(),
            titles: titles.map(|w| Title::from_words(w, texts)).collect(),
        }
    }

    /// The words that say a record, and the texts. Its counts are those of its lists; entries past 64 and titles past
    /// 128 have no words, and the library refuses the count.
    pub(crate) fn words(&self) -> (Words, Vec<u8>) {
        let Format { tag, channels, rate, bits, align, samples } = self.format;
        let mut words: Words = [0; WORDS];
        words[..6].copy_from_slice(&[tag.into(), channels.into(), rate, bits.into(), align.into(), samples.into()]);
        words[6..9].copy_from_slice(&[self.frames.0, counted(self.cues.len()), counted(self.playlist.len())]);
        let (cues, plays) = words[9..TITLES].split_at_mut(3 * MOST_ENTRIES);
        for (to, cue) in cues.chunks_exact_mut(3).zip(&self.cues) {
            to.copy_from_slice(&[cue.name.0, cue.position.0, cue.place.0]);
        }
        for (to, play) in plays.chunks_exact_mut(3).zip(&self.playlist) {
            to.copy_from_slice(&[play.name.0, play.length.0, play.times]);
        }
        words[TITLES] = counted(self.titles.len());
        let mut texts = vec![];
        for (to, title) in words[TITLES + 1..].chunks_exact_mut(4).zip(&self.titles) {
            to.copy_from_slice(&[title.kind as u32, title.cue.0, counted(texts.len()), counted(title.text.len())]);
            texts.extend_from_slice(&title.text);
            texts.push(0);
        }
        (words, texts)
    }

    /// How many bytes its file has with so many bytes of sound.
    pub fn file_bytes(&self, sound_bytes: usize) -> usize {
        let (format, fact) = match self.format.tag {
            Format::MICROSOFT => (50, 12),
            Format::IMA => (20, 12),
            _ => (16, 0),
        };
        let table = |count: usize, each: usize| if count == 0 { 0 } else { 12 + each * count };
        let tables = table(self.cues.len(), 24) + table(self.playlist.len(), 12) + self.title_bytes();
        12 + 8 + format + fact + tables + 8 + sound_bytes + sound_bytes % 2
    }

    /// How many bytes the list of its titles takes: each is a chunk with a name, a text, its zero and a pad.
    fn title_bytes(&self) -> usize {
        let each = |title: &Title| {
            let size = 4 + title.text.len() + 1;
            8 + size + size % 2
        };
        match self.titles.iter().map(each).sum() {
            0 => 0,
            chunks => 8 + 4 + chunks,
        }
    }
}

// ---- its titles

impl Title {
    fn from_words(words: &[u32], texts: &[u8]) -> Title {
        let kind = if words[0] == TitleKind::Label as u32 { TitleKind::Label } else { TitleKind::Note };
        let (start, length) = (words[2] as usize, words[3] as usize);
        Title { kind, cue: Donation(words[1]), text: texts[start..start + length].to_vec() }
    }
}

impl Record {
    /// The titles of a cue, in their order.
    pub fn titles_of(&self, cue: Donation) -> impl Iterator<Item = &Title> {
        self.titles.iter().filter(move |title| title.cue == cue)
    }

    /// Gives a cue a label or a note. One that it has stays in its place. A new label goes before the first note, since
    /// ffmpeg and libsndfile show the labels only up to there; a new note goes last.
    pub fn set_title(&mut self, kind: TitleKind, cue: Donation, text: &[u8]) {
        if let Some(title) = self.titles.iter_mut().find(|title| (title.kind, title.cue) == (kind, cue)) {
            title.text = text.to_vec();
            return;
        }
        let first_note = self.titles.iter().position(|title| title.kind == TitleKind::Note);
        let at = first_note.filter(|_| kind == TitleKind::Label).unwrap_or(self.titles.len());
        self.titles.insert(at, Title { kind, cue, text: text.to_vec() });
    }

    /// Takes a cue both its titles.
    pub fn remove_titles(&mut self, cue: Donation) {
        self.titles.retain(|title| title.cue != cue);
    }
}

/// A number of things as a word; where it does not fit one, the largest, which is refused too.
fn counted(length: usize) -> u32 {
    u32::try_from(length).unwrap_or(u32::MAX)
}

#[cfg(test)]
mod tests {
    use super::*;

    fn title(kind: TitleKind, cue: u32, text: &[u8]) -> Title {
        Title { kind, cue: Donation(cue), text: text.to_vec() }
    }

    #[test]
    fn words_say_the_record_again() {
        let cue = |n: u32| Cue { name: Donation(n), position: Frames(2 * n), place: Frames(3 * n) };
        let play = |n: u32| Play { name: Donation(n), length: Frames(5 * n), times: 7 * n };
        let of_cue = |n: u32| {
            let long = vec![n as u8; 4 * n as usize % 256];
            [title(TitleKind::Note, n, &long), title(TitleKind::Label, n, b"")]
        };
        let format = Format { tag: 1, channels: 2, rate: 3, bits: 4, align: 5, samples: 6 };
        for count in [0, 1, 2, 63, 64] {
            let record = Record {
                format,
                frames: Frames(u32::MAX),
                cues: (1..=count).map(cue).collect(),
                playlist: (1..=count / 2).map(play).collect(),
                titles: (1..=count).flat_map(of_cue).collect(),
            };
            let (words, mut texts) = record.words();
            texts.resize(MOST_TEXTS, 7);
            assert_eq!(Record::from_words(&words, &texts), record);
        }
    }

    #[test]
    fn words_stand_where_the_header_says() {
        let cues = vec![Cue { name: Donation(7), ..Cue::default() }; 65];
        let titles = vec![title(TitleKind::Note, 8, b"ab"); 129];
        let (words, texts) = Record { cues, titles, ..Record::default() }.words();
        assert_eq!((words.len(), words[7], words[9], words[9 + 3 * 63], words[9 + 3 * 64]), (906, 65, 7, 7, 0));
        assert_eq!((words[393], &words[394..398], &words[902..]), (129, &[1, 8, 0, 2][..], &[1, 8, 3 * 127, 2][..]));
        assert_eq!((texts.len(), &texts[..6]), (3 * 128, &b"ab\0ab\0"[..]));
        assert_eq!((MOST_TITLES, MOST_TEXTS), (128, 32768));
    }

    #[test]
    fn a_file_is_as_long_as_its_titles_make_it() {
        let mut record = Record { format: Format::sixteen_bit(1, 8000), ..Record::default() };
        assert_eq!(record.file_bytes(3), 48);
        for (text, more) in [(&b""[..], 12 + 14), (b"a", 14), (b"ab", 16), (&[b'x'; 255], 268)] {
            let before = record.file_bytes(3);
            record.titles.push(title(TitleKind::Label, 7, text));
            assert_eq!(record.file_bytes(3), before + more);
        }
    }

    #[test]
    fn titles_keep_their_order_and_labels_come_before_notes() {
        let mut record = Record::default();
        record.set_title(TitleKind::Note, Donation(8), b"one");
        record.set_title(TitleKind::Label, Donation(7), b"two");
        record.set_title(TitleKind::Label, Donation(8), b"three");
        record.set_title(TitleKind::Note, Donation(8), b"");
        let [one, two, three] =
            [title(TitleKind::Note, 8, b""), title(TitleKind::Label, 7, b"two"), title(TitleKind::Label, 8, b"three")];
        assert_eq!(record.titles, [two.clone(), three.clone(), one.clone()]);
        assert!(record.titles_of(Donation(8)).eq([&three, &one]));
        record.remove_titles(Donation(8));
        assert_eq!(record.titles, [two]);
        record.remove_titles(Donation(9));
        assert_eq!((record.titles.len(), record.titles_of(Donation(9)).count()), (1, 0));
    }
}
