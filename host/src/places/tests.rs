//! The lines themselves, on files made by hand. That every fault is found is tested from outside (`tests/host`).
use super::*;
use crate::units::Frames;
use std::ffi::OsStr;

fn chunk(code: &str, data: &[u8]) -> Vec<u8> {
    let mut bytes = [code.as_bytes(), &(data.len() as u32).to_le_bytes(), data].concat();
    bytes.resize(bytes.len() + data.len() % 2, 0);
    bytes
}

fn wave(chunks: &[Vec<u8>]) -> Vec<u8> {
    let body = [b"WAVE".to_vec(), chunks.concat()].concat();
    chunk("RIFF", &body)
}

/// A `fmt ` chunk with some bytes more.
fn fmt(tag: u16, channels: u16, rate: u32, bits: u16, more: &[u8]) -> Vec<u8> {
    let align = channels * bits / 8;
    let average = rate * u32::from(align);
    let words = |numbers: &[u16]| numbers.iter().flat_map(|number| number.to_le_bytes()).collect::<Vec<u8>>();
    let longs: Vec<u8> = [rate, average].iter().flat_map(|number| number.to_le_bytes()).collect();
    chunk("fmt ", &[words(&[tag, channels]), longs, words(&[align, bits]), more.to_vec()].concat())
}

/// 16-bit PCM, mono, 8000 frames a second.
fn plain() -> Vec<u8> {
    fmt(1, 1, 8000, 16, &[])
}

/// IMA of blocks of 16 bytes for two channels, of 9 samples each.
fn ima() -> Vec<u8> {
    let mut made = fmt(17, 2, 8000, 4, &[2, 0, 9, 0]);
    made[8 + 12] = 16;
    made
}

fn data(bytes: usize) -> Vec<u8> {
    chunk("data", &vec![0; bytes])
}

fn longs(code: &str, numbers: &[u32]) -> Vec<u8> {
    chunk(code, &numbers.iter().flat_map(|number| number.to_le_bytes()).collect::<Vec<u8>>())
}

/// `data` as it is in a cue point.
const DATA: u32 = u32::from_le_bytes(*b"data");

/// The line on a file that is refused with a number.
fn line(number: u8, file: &[u8]) -> String {
    let refusal = Refusal::from_number(number.into()).unwrap();
    if number != 15 {
        assert_eq!(operations::read(file), Err(refusal));
    }
    of_file(refusal, file).unwrap().to_string()
}

#[test]
fn heads_and_sizes() {
    let file = wave(&[plain(), data(8)]);
    let sized = |size: u32| [&file[..4], &size.to_le_bytes(), &file[8..]].concat();
    assert_eq!(line(1, b"RIFF"), "it has 4 bytes; 12 to 1073741824 are accepted");
    assert_eq!(line(2, &[b"RIFX", &file[4..]].concat()), {
        "file code at byte 0: it is 'RIFX', and must be 'RIFF': this is a big-endian WAVE file (RIFX)"
    });
    assert_eq!(line(2, b"RIFF\0\0\0\0AV\n "), r"form type at byte 8: it is 'AV\n ', and must be 'WAVE'");
    assert_eq!(line(3, &sized(45)), {
        "RIFF size at byte 4: it is 45, for a file of 53 bytes; this one has 52, 1 too few"
    });
    assert_eq!(line(3, &sized(46)), {
        "RIFF size at byte 4: it is 46, for a file of 54 bytes; this one has 52, 2 too few"
    });
    assert_eq!(line(3, &sized(40)), {
        "RIFF size at byte 4: it is 40, for a file of 48 bytes; this one has 52, 4 too many"
    });
    let cut = "RIFF size at byte 4: it is 4294967295: the file was cut off while it was written";
    assert_eq!(line(3, &sized(u32::MAX)), cut);
}

#[test]
fn chunks_by_themselves() {
    let junk = |size: u8| [&b"junk"[..], &[size, 0, 0, 0]].concat();
    assert_eq!(line(4, &wave(&[plain(), data(8), junk(7)])), {
        "chunk 'junk', size at byte 56: it is 7, up to byte 67; the file ends at byte 60"
    });
    assert_eq!(line(4, &wave(&[plain(), data(8), b"LI".to_vec()])), {
        "byte 52: the file ends at byte 54, in a chunk's header"
    });
    let open = [&b"data"[..], &[255; 4], &[0; 8]].concat();
    assert_eq!(line(4, &wave(&[plain(), open])), {
        "chunk 'data', size at byte 40: it is 4294967295: the file was cut off while it was written"
    });
    assert_eq!(line(5, &wave(&[plain(), plain(), data(8)])), {
        "chunk 'fmt ', byte 36: it is the second of its kind; the first is at byte 12"
    });
    assert_eq!(line(6, &wave(&[data(8), plain()])), "chunk 'data', byte 12: no chunk 'fmt ' comes before it");
    assert_eq!(line(7, &wave(&[plain(), chunk("LIST", b"wavl"), data(8)])), {
        "chunk 'LIST', list type at byte 44: it is 'wavl', a list of pieces of sound"
    });
    assert_eq!(line(8, &wave(&[plain()])), "there is no chunk 'data'");
}

#[test]
fn formats_and_counts() {
    let format = |made: Vec<u8>| line(9, &wave(&[made, data(8)]));
    assert_eq!(format(fmt(1, 1, 300_000, 16, &[])), {
        "chunk 'fmt ', rate at byte 24: it is 300000; 1 to 192000 are accepted"
    });
    assert_eq!(format(fmt(1, 6, 8000, 16, &[])), "chunk 'fmt ', channels at byte 22: it is 6; 1 or 2 are accepted");
    assert_eq!(format(fmt(3, 1, 8000, 32, &[])), {
        "chunk 'fmt ', tag at byte 20: it is 3 (floating point); 1, 2 and 17 are accepted"
    });
    let wide: Vec<u8> =
        [&[22, 0, 24, 0, 0, 0, 0, 0, 1][..], &[0; 5], &[16, 0, 128, 0, 0, 170, 0, 56, 155, 113]].concat();
    assert_eq!(format(fmt(65534, 1, 8000, 24, &wide)), {
        "chunk 'fmt ', tag at byte 20: it is 65534 (extensible, 24-bit PCM); 1, 2 and 17 are accepted"
    });
    assert_eq!(line(10, &wave(&[plain(), data(7)])), {
        "chunk 'data', size at byte 40: it is 7: 3 frames of 2 bytes, and 1 byte more"
    });
    assert_eq!(line(11, &wave(&[ima(), longs("fact", &[10]), data(16)])), {
        "chunk 'fact', count at byte 48: it is 10; the sound, 1 block of 9 samples, has 1 to 9 frames"
    });
}

#[test]
fn cues_and_entries() {
    let cue = |name, offset| longs("cue ", &[1, name, 0, DATA, 0, 0, offset]);
    assert_eq!(line(12, &wave(&[plain(), cue(101, 4), data(8)])), {
        "chunk 'cue ', cue 101, sample offset at byte 68: it is 4; the sound has 4 frames, counted from 0"
    });
    assert_eq!(line(12, &wave(&[plain(), longs("cue ", &[65]), data(8)])), {
        "chunk 'cue ', count at byte 44: it is 65, and 64 is the most"
    });
    assert_eq!(line(13, &wave(&[plain(), cue(101, 1), longs("plst", &[1, 101, 4, 1]), data(8)])), {
        "chunk 'plst', cue 101, length at byte 88: it is 4, from frame 1 to 5; the sound has 4 frames"
    });
}

/// A title, and what its data are after the name of its cue.
fn title(code: &str, cue: u32, text: &[u8]) -> Vec<u8> {
    chunk(code, &[&cue.to_le_bytes(), text].concat())
}

/// A file with cue 101 and a list of titles, which starts at byte 72; the first title starts at 84.
fn titled(inner: &[Vec<u8>]) -> Vec<u8> {
    let list = chunk("LIST", &[b"adtl".to_vec(), inner.concat()].concat());
    wave(&[plain(), longs("cue ", &[1, 101, 0, DATA, 0, 0, 1]), list, data(8)])
}

#[test]
fn lists_of_titles() {
    let (song, odd) = (title("labl", 101, b"Song\0"), title("ltxt", 101, b"a"));
    assert_eq!(line(21, &titled(&[song[..17].to_vec()])), {
        "chunk 'labl', size at byte 88: it is 9; the list of titles ends at byte 101, without the pad byte after it"
    });
    assert_eq!(line(21, &titled(&[song.clone(), odd[..13].to_vec()])), {
        "chunk 'ltxt', size at byte 106: it is 5; the list of titles ends at byte 115, without the pad byte after it"
    });
    assert_eq!(line(21, &titled(&[song.clone(), odd[..12].to_vec()])), {
        "chunk 'ltxt', size at byte 106: it is 5, up to byte 115; the list of titles ends at byte 114"
    });
    assert_eq!(line(21, &titled(&[song.clone(), b"labl".to_vec()])), {
        "chunk 'LIST', byte 102: the list of titles ends at byte 106, in a chunk's header"
    });
    let list = chunk("LIST", b"adtl");
    assert_eq!(line(21, &wave(&[plain(), list.clone(), data(8), list])), {
        "chunk 'LIST', byte 64: it is the second list of titles; the first is at byte 36"
    });
}

#[test]
fn titles() {
    let song = title("labl", 101, b"Song\0");
    for (text, size) in [(&b""[..], 4), (&[b'x'; 257], 261)] {
        assert_eq!(line(21, &titled(&[title("note", 101, text)])), {
            format!(
                "chunk 'note', size at byte 88: it is {size}; 5 to 260 are accepted, for a text of at most 255 bytes"
            )
        });
    }
    assert_eq!(line(21, &titled(&[song.clone(), title("note", 101, b"Song")])), {
        "chunk 'note', cue 101, text at byte 114: its last byte, 117, is not zero"
    });
    assert_eq!(line(21, &titled(&[title("labl", 101, b"So\0ng\0")])), {
        "chunk 'labl', cue 101, text at byte 96: byte 98 is zero, and only the last, byte 101, may be"
    });
    assert_eq!(line(21, &titled(&[title("labl", 7, b"Song\0")])), {
        "chunk 'labl', cue 7, name at byte 92: there is no such cue"
    });
    assert_eq!(line(21, &titled(&[song.clone(), title("note", 101, b"\0"), song.clone()])), {
        "chunk 'labl', cue 101, byte 116: it is the second of this cue; the first is at byte 84"
    });
}

#[test]
fn a_copy_without_its_titles() {
    let way = |file: &[u8], wanted: Option<&Format>| {
        way_out(Refusal::TitlesWrong, file, OsStr::new("a.wav"), wanted).unwrap_or_default()
    };
    let (song, wanted) = (titled(&[b"labl".to_vec()]), Format::sixteen_bit(2, 8000));
    let without = "without its cues and its titles: sox --no-clobber 'a.wav'";
    assert_eq!(way(&song, None), format!("{without} -b 16 -e signed-integer 'a-16bit.wav'"));
    assert_eq!(way(&song, Some(&wanted)), format!("{without} -r 8000 -c 2 -b 16 -e signed-integer 'a-for-side.wav'"));
    let side = wave(&[song[12..].to_vec(), longs("plst", &[0])]);
    assert_eq!(way(&side, None), "use an earlier copy of the file");
    let without = "without its cues, its playlist and its titles: ";
    assert!(way(&side, Some(&wanted)).starts_with(without));
    let lists = wave(&[plain(), chunk("LIST", b"adtl"), chunk("LIST", b"adtl"), data(8)]);
    assert!(way(&lists, None).starts_with("without its titles: sox "));
}

#[test]
fn blocks_and_channels_are_counted_from_1() {
    let mut file = wave(&[ima(), longs("fact", &[27]), data(48)]);
    let sound = file.len() - 48;
    file[sound + 16 + 4 + 2] = 89;
    assert_eq!(line(15, &file), {
        "chunk 'data', block 2 of 3, channel 2, step index at byte 82: it is 89; 0 to 88 are accepted; \
         the block starts at 0:00.001"
    });
}

#[test]
fn time_is_in_minutes_and_seconds() {
    assert_eq!(clock(0, 8000), "0:00.000");
    assert_eq!(clock(44_100 * 3725 + 22_050, 44_100), "62:05.500");
    assert_eq!(clock(u64::from(u32::MAX) * 2, 1), "143165576:30.000");
    assert_eq!(clock(3, 0), "0:03.000");
}

#[test]
fn songs_that_do_not_suit_a_side() {
    let side = crate::empty_side(2, 44100).unwrap();
    let song = wave(&[fmt(1, 2, 48000, 16, &[]), data(8)]);
    let add = |refusal, side: &[u8], song: &[u8]| {
        let (which, place) = of_adding(refusal, side, song, Donation(7), Frames(2)).unwrap();
        let way = way_out_of_adding(refusal, side, song, OsStr::new("song.wav"), Frames(2));
        (which, place.to_string(), way.unwrap_or_default())
    };
    let (which, place, way) = add(Refusal::FormatWrong, &side, &song);
    assert_eq!(which, Which::Song);
    assert_eq!(place, "chunk 'fmt ', rate at byte 24: it is 48000; the side has 44100");
    let sox = "sox --no-clobber 'song.wav' -r 44100 -c 2 -b 16 -e signed-integer 'song-for-side.wav'";
    assert_eq!(way, sox);
    let long = wave(&[fmt(1, 2, 44100, 16, &[]), data(4 * 44_102)]);
    let (which, place, way) = add(Refusal::NoPlaceOnSide, &side, &long);
    assert_eq!(which, Which::Side);
    assert_eq!(place, "0 frames and 44102 of the song are 44102: 44100 frames (0:01.000) above the limit of 2");
    assert_eq!(way, "the song alone is longer than the limit: no side has room for it");
}
