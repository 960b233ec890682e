//! The library on document 01's own examples, and on what a caller in Rust would try.
use tronalhet::{
    add, approval_copy, decode, decode_block, empty_side, encode, read, sixteen_bit, sound_of, write, Cue, Donation,
    Fault, Format, Frames, Play, Record, Refusal, Room, Title, TitleKind, MOST_TEXT,
};

/// A record without cues.
fn record(format: Format, frames: u32) -> Record {
    Record { format, frames: Frames(frames), ..Record::default() }
}

fn eight_bit(frames: u32) -> Record {
    record(Format { tag: 1, channels: 1, rate: 8000, bits: 8, align: 1, samples: 1 }, frames)
}

fn ima_mono(align: u16, samples: u16, frames: u32) -> Record {
    record(Format { tag: 17, channels: 1, rate: 8000, bits: 4, align, samples }, frames)
}

/// What was made, as bytes or samples; else why it was not.
fn made<T: tronalhet::Number>(answer: Result<Room<T>, Fault>) -> Result<Vec<T>, Fault> {
    answer.map(|room| room.to_vec())
}

fn refused<T>(refusal: Refusal) -> Result<T, Fault> {
    Err(Fault::Refused(refusal))
}

#[test]
fn files_without_sound_and_with_one_byte() {
    let none = made(write(&eight_bit(0), &[])).unwrap();
    let one = made(write(&eight_bit(1), &[7])).unwrap();
    assert_eq!((none.len(), one.len()), (44, 46));
    assert_eq!((read(&none), read(&one)), (Ok(eight_bit(0)), Ok(eight_bit(1))));
    assert_eq!((sound_of(&none), sound_of(&one)), (Ok(&[][..]), Ok(&[7][..])));
    let mut bare = one[..45].to_vec();
    assert_eq!(read(&bare), Err(Refusal::RiffSizeWrong));
    bare[4] = 37;
    assert_eq!((read(&bare), sound_of(&bare)), (Ok(eight_bit(1)), Ok(&[7][..])));
    assert_eq!(made(write(&eight_bit(1), sound_of(&bare).unwrap())), Ok(one));
    assert_eq!(read(&[]), Err(Refusal::LengthOutOfRange));
}

#[test]
fn eight_bit_sound_is_decoded() {
    let file = write(&eight_bit(3), &[0, 128, 255]).unwrap();
    assert_eq!(made(decode(&file)), Ok(vec![-32768, 0, 32512]));
    let (sixteen, frames) = sixteen_bit(&file).unwrap();
    assert_eq!((frames, sound_of(&sixteen)), (Frames(3), Ok(&[0, 0x80, 0, 0, 0, 0x7f][..])));
}

#[test]
fn ima_is_encoded() {
    let sound: Vec<i16> = std::iter::once(-32768).chain([32767; 16]).collect();
    let coded = encode(&sound, 1, 12).unwrap();
    assert_eq!(coded.blocks[..], [0x00, 0x80, 0, 0, 0x77, 0x77, 0x77, 0x77, 0x77, 0x17, 0, 0]);
    assert_eq!((coded.left, coded.right), (Frames(11), Frames(0)));
    assert_eq!(encode(&sound, 3, 12).err(), Some(Fault::Refused(Refusal::FormatWrong)));
    assert_eq!(encode(&sound, 2, 16).err(), Some(Fault::Refused(Refusal::NotWholeFrames)));
    assert_eq!(encode(&sound, 0, 0).err(), Some(Fault::Refused(Refusal::FormatWrong)));
}

#[test]
fn an_index_of_88_is_read_and_89_is_not() {
    for (index, frames) in [(88, Ok(9)), (89, refused(Refusal::BlockHeaderWrong))] {
        let file = write(&ima_mono(8, 9, 9), &[0, 0, index, 0, 0, 0, 0, 0]).unwrap();
        assert_eq!(made(decode(&file)).map(|sound| sound.len()), frames);
        assert_eq!(made(decode_block(&file, 0)).map(|sound| sound.len()), frames);
    }
}

#[test]
fn microsoft_is_decoded() {
    let format = Format { tag: 2, channels: 1, rate: 8000, bits: 4, align: 8, samples: 4 };
    let file = write(&record(format, 3), &[0x00, 0x10, 0x00, 0x64, 0x00, 0x32, 0x00, 0x1f]).unwrap();
    assert_eq!(made(decode(&file)), Ok(vec![50, 100, 116]));
    assert_eq!(made(decode_block(&file, 0)), Ok(vec![50, 100, 116, 100]));
    assert_eq!(made(decode_block(&file, 1)), refused(Refusal::NoSuchBlock));
}

#[test]
fn records_that_cannot_be_are_refused() {
    let mut many = eight_bit(1);
    many.cues = vec![Cue::default(); 65];
    assert_eq!(made(write(&many, &[0])), refused(Refusal::CuesWrong));
    many.cues.clear();
    many.playlist = vec![Play::default(); 1000];
    assert_eq!(made(write(&many, &[0])), refused(Refusal::PlaylistWrong));
    assert_eq!(made(write(&eight_bit(2), &[0])), refused(Refusal::FactWrong));
    assert_eq!(made(write(&Record::default(), &[])), refused(Refusal::FormatWrong));
}

#[test]
fn songs_are_added_once() {
    let song = |value: u8| write(&record(Format::sixteen_bit(1, 8000), 4), &[value; 8]).unwrap();
    let empty = empty_side(1, 8000).unwrap();
    let side = add(&empty, &song(1), Donation(7), Frames(8)).unwrap();
    let side = add(&side, &song(2), Donation(9), Frames(8)).unwrap();
    let there = read(&side).unwrap();
    let cue = |name, place| Cue { name: Donation(name), position: Frames(place), place: Frames(place) };
    let play = |name| Play { name: Donation(name), length: Frames(4), times: 1 };
    assert_eq!((there.cues, there.playlist), (vec![cue(7, 0), cue(9, 4)], vec![play(7), play(9)]));
    assert_eq!(sound_of(&side), Ok(&[[1; 8], [2; 8]].concat()[..]));
    let again = |song: &[u8], number| made(add(&side, song, Donation(number), Frames(8)));
    assert_eq!(again(&song(1), 7), refused(Refusal::AlreadyListed));
    assert_eq!(again(&song(3), 7), refused(Refusal::SongEmptyOrDifferent));
    assert_eq!(again(&song(3), 8), refused(Refusal::NoPlaceOnSide));
    assert_eq!(made(add(&song(1), &song(2), Donation(1), Frames(8))), refused(Refusal::NotASide));
    assert_eq!(made(empty_side(3, 8000)), refused(Refusal::FormatWrong));
    assert_eq!(made(empty_side(65535, 8000)), refused(Refusal::FormatWrong));
}

/// Cues 7 and 9 of 8-bit sound, and some titles.
fn titled(titles: &[(TitleKind, u32, &[u8])]) -> Record {
    let cue = |name, place| Cue { name: Donation(name), position: Frames(place), place: Frames(place) };
    let title =
        |(kind, cue, text): &(TitleKind, u32, &[u8])| Title { kind: *kind, cue: Donation(*cue), text: text.to_vec() };
    Record { cues: vec![cue(7, 0), cue(9, 2)], titles: titles.iter().map(title).collect(), ..eight_bit(4) }
}

#[test]
fn titles_are_written_and_read() {
    use TitleKind::{Label, Note};
    let long = [0xff; MOST_TEXT];
    let titles: [&[(TitleKind, u32, &[u8])]; 4] = [
        &[],
        &[(Label, 7, b"Song")],
        &[(Note, 9, b"a"), (Label, 9, b""), (Label, 7, &long)],
        &[(Label, 9, b"one"), (Note, 7, &long), (Note, 9, b"two"), (Label, 7, b"three")],
    ];
    for record in titles.map(titled) {
        let file = write(&record, &[1, 2, 3, 4]).unwrap();
        assert_eq!((read(&file).as_ref(), sound_of(&file)), (Ok(&record), Ok(&[1, 2, 3, 4][..])));
        assert_eq!(file.len(), record.file_bytes(4));
        assert_eq!(read(&sixteen_bit(&file).unwrap().0).unwrap().titles, record.titles);
        assert_eq!(read(&approval_copy(&file, 256).unwrap().file).unwrap().titles, []);
    }
}

#[test]
fn titles_that_cannot_be_are_refused() {
    use TitleKind::{Label, Note};
    let many: Vec<(TitleKind, u32, &[u8])> = vec![(Note, 7, b""); 200_000];
    let wrong: [&[(TitleKind, u32, &[u8])]; 7] = [
        &[(Label, 7, &[b'x'; MOST_TEXT + 1])],
        &[(Label, 7, &[b'x'; 1 << 20]), (Note, 7, b"")],
        &[(Note, 7, b"a"), (Note, 9, b"a\0b")],
        &[(Label, 9, b"\0")],
        &[(Label, 8, b"a")],
        &[(Note, 9, b"a"), (Label, 9, b"a"), (Note, 9, b"b")],
        &many,
    ];
    for titles in wrong {
        assert_eq!(made(write(&titled(titles), &[0; 4])), refused(Refusal::TitlesWrong));
    }
    let mut file = made(write(&titled(&[(Label, 7, b"Song")]), &[0; 4])).unwrap();
    let zero = file.len() - 4 - 8 - 2;
    file[zero] = b'x';
    assert_eq!(read(&file), Err(Refusal::TitlesWrong));
    assert_eq!(made(decode(&file)), refused(Refusal::TitlesWrong));
}

#[test]
fn a_side_keeps_its_titles() {
    let record = record(Format::sixteen_bit(1, 8000), 4);
    let song = |value: u8| write(&record, &[value; 8]).unwrap();
    let side = add(&empty_side(1, 8000).unwrap(), &song(1), Donation(7), Frames(9)).unwrap();
    let mut there = read(&side).unwrap();
    there.set_title(TitleKind::Note, Donation(7), b"a note");
    there.set_title(TitleKind::Label, Donation(7), b"The song");
    let titled = write(&there, sound_of(&side).unwrap()).unwrap();
    let more = add(&titled, &song(2), Donation(9), Frames(9)).unwrap();
    assert_eq!((read(&more).unwrap().titles, more.len()), (there.titles, titled.len() + 36 + 8));
    // A song brings no titles, and a wrong list in it is refused.
    let other = add(&empty_side(1, 8000).unwrap(), &titled, Donation(7), Frames(9)).unwrap();
    assert_eq!(other[..], side[..]);
    let mut wrong = titled.to_vec();
    let list = wrong.windows(4).position(|letters| letters == b"labl").unwrap();
    wrong[list + 8] = 8;
    assert_eq!(made(add(&side, &wrong, Donation(8), Frames(9))), refused(Refusal::TitlesWrong));
    assert_eq!(made(add(&wrong, &song(2), Donation(8), Frames(9))), refused(Refusal::NotASide));
}

#[test]
fn a_copy_is_written_from_sound_in_any_format() {
    let sound: Vec<u8> = (0..2000u32).map(|place| (place * place % 256) as u8).collect();
    let eight = write(&eight_bit(2000), &sound).unwrap();
    let (sixteen, _) = sixteen_bit(&eight).unwrap();
    let copies = [eight, sixteen].map(|file| approval_copy(&file, 256).unwrap().file.to_vec());
    assert_eq!(copies[0], copies[1]);
    assert_eq!(read(&copies[0]), Ok(ima_mono(256, 505, 2000)));
    let blocks: Vec<i16> = made(decode(&copies[0])).unwrap().into_iter().step_by(505).collect();
    let opening: Vec<i16> = sound.iter().step_by(505).map(|value| (i16::from(*value) - 128) * 256).collect();
    assert_eq!(blocks, opening);
}

/// Bytes by chance, the same each time.
fn some_bytes(count: usize) -> Vec<u8> {
    let mut state = 1u32;
    let next = |_| {
        state = state.wrapping_mul(1_664_525).wrapping_add(1_013_904_223);
        (state >> 24) as u8
    };
    (0..count).map(next).collect()
}

/// Packed sound of any bytes, but for the first of each header, which are in range.
fn some_blocks(format: &Format, count: usize) -> Vec<u8> {
    let mut sound = some_bytes(count * usize::from(format.align));
    for block in sound.chunks_exact_mut(format.align.into()) {
        for channel in 0..usize::from(format.channels) {
            let (place, most) = if format.tag == 17 { (4 * channel + 2, 89) } else { (channel, 7) };
            block[place] %= most;
        }
    }
    sound
}

#[test]
fn a_copy_in_parts_is_the_copy_of_the_whole() {
    let format = |tag, channels, bits, align, samples| Format { tag, channels, rate: 44100, bits, align, samples };
    let formats =
        [format(1, 2, 8, 2, 1), format(17, 1, 4, 256, 505), format(2, 2, 4, 128, 116), format(17, 2, 4, 1024, 1017)];
    for format in formats {
        let blocks = 700_000 / usize::from(format.samples);
        let frames = (blocks * usize::from(format.samples)) as u32 - u32::from(format.samples) / 3;
        let file = write(&record(format, frames), &some_blocks(&format, blocks)).unwrap();
        let sound = decode(&file).unwrap();
        for align in [16, 72, 1024, 4096] {
            let copy = approval_copy(&file, align).unwrap();
            let whole = encode(&sound, format.channels, align).unwrap();
            assert!(sound_of(&copy.file).unwrap() == &whole.blocks[..]);
            assert_eq!((copy.left, copy.right, copy.frames), (whole.left, whole.right, Frames(frames)));
        }
    }
}
