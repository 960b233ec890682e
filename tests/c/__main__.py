#!/usr/bin/env python3
"""Asks the library through its C interface about files of other programs, and about generated ones.

    python3 -m c [COUNT [SEED]]     in tests/, after tests/c/run, which runs it too; COUNT files are generated

Each answer must be what the second implementations in Python say; and, of the files of tests/data, what other programs
report of them, hear in them or make of them.
"""
import hashlib
import sys

from c.request import WORDS, Library, record_of
from c.story import the_story
from data import others, titled_files, written_files
from data.others import CODED, HEARD, NOT_HEARD, REPORTED, TITLED, WRITTEN
from data.songs import LIMIT, NUMBER, listed_after, onto
from second import reader as second_reader, side as second_side
from trying import expect, report
from vectors import many_files, wave_files

# Room past what is needed: all of the lent buffer is compared.
MORE = 9

# Files of reported/ that are read and written again, and how they come out.
AGAIN = {
    # The title is left out, and the average is worked out, where ffmpeg writes 16,000 whatever the format.
    'ffmpeg-microsoft-stereo-title.wav': 'other bytes',
    'sndfile-pcm16-mono-cues.wav': 'same bytes',
    # The title stands after sound of an odd length.
    'sndfile-pcm8-mono-odd-title-after.wav': 'other bytes',
    # sox rounds the average up.
    'sox-ima-mono-empty.wav': 'other bytes',
    'sox-rifx-refused.wav': 2,
}


def form_of(file):
    """Channels, align, samples per block and sound of a file, by its chunks, whatever its fact count."""
    found = second_reader.walk(file)
    _, channels, _, _, align, samples = second_reader.layout(found[b'fmt '][1])
    return channels, align, samples, found[b'data'][1]


# ---- what other programs code and hear

def coded(library):
    """The blocks of each sound of coded/ are libsndfile's."""
    for path in others.paths(CODED):
        sound = path.with_suffix('.raw').read_bytes()
        channels, align, _, blocks = form_of(path.read_bytes())
        made = library.ask(path.name, 'encode', len(blocks) + MORE, sound, channels, align)
        expect(f'{path.name}, whether the blocks are libsndfile\'s', made.buffer[:made.n] == blocks, True)
        short = library.ask(f'{path.name} and a byte too few', 'encode', len(blocks) - 1, sound, channels, align)
        expect(f'{path.name} and a byte too few', short.refusal, 14)


def heard(library):
    """The sound of each file of heard/ is what another program hears, whole and block by block."""
    for path in others.paths(HEARD):
        file = path.read_bytes()
        if path.name in NOT_HEARD:
            not_heard(library, path.name, file)
            continue
        sound = path.with_suffix('.heard').read_bytes()
        channels, _, samples, _ = form_of(file)
        whole = library.ask(path.name, 'decode', len(sound) // 2 + MORE, file)
        expect(f'{path.name}, whether it is as heard', whole.buffer[:len(sound)] == sound, True)
        expect(f'{path.name}, its frames', 2 * channels * whole.n, len(sound))
        by_blocks(library, path.name, file, [] if samples == 1 else parts_of(sound, 2 * channels * samples))


def without_pad(library):
    """A file without its last pad sounds to every program as it does with it, and to those that are exact as to us."""
    found = list(others.without_pad())
    expect('how many files lack their pad', len(found), 5)
    for path, sums in found:
        expect(f'{path.name}, who hears in it', sorted(sums), ['ffmpeg', 'sndfile', 'sox'])
        for program, (padded, bare) in sums.items():
            expect(f'{path.name}, what {program} hears in it', bare, padded)
        own = hashlib.md5(path.with_suffix('.heard').read_bytes()).hexdigest()
        for program in next(exact for word, exact in others.EXACT.items() if f'-{word}-' in path.name):
            expect(f'{path.name}, what {program} hears, which is exact', sums[program][1], own)
    bare, padded = [(HEARD / f'sox-pcm8-mono-{end}.wav').read_bytes() for end in ('no-pad', 'odd')]
    expect('whether a file without its pad is written with it', again(library, 'no pad', bare) == padded, True)


def not_heard(library, name, file):
    """A file that is refused is so whole and by its first block."""
    whole, block = library.ask(name, 'decode', 4096, file), library.ask(name, 'decode_block', 4096, file, 0)
    expect(f'{name}, by hand', [whole.refusal, block.refusal], [NOT_HEARD[name]] * 2)


def parts_of(sound, size):
    """A sound in parts of so many bytes; the last may be shorter."""
    return [sound[at:at + size] for at in range(0, len(sound), size)]


def by_blocks(library, name, file, parts):
    """Each block of a file is heard as its part of the sound; the fill of the last is not heard. Then there is none."""
    channels, _, samples, _ = form_of(file)
    for block, part in enumerate(parts):
        made = library.ask(f'{name}, block {block}', 'decode_block', channels * samples + MORE, file, block)
        expect(f'{name}, whether block {block} is as heard', (made.n, made.buffer[:len(part)] == part), (samples, True))
    none = library.ask(f'{name}, no block', 'decode_block', 4096, file, len(parts))
    expect(f'{name}, no block {len(parts)}', none.refusal, 20)


# ---- files written again, and songs

def again(library, label, file):
    """What is written of a file that was read: its bytes, or the refusal of reading."""
    # The texts of a file are no longer than the file.
    record = library.ask(label, 'read', (WORDS + MORE, len(file) + MORE), file)
    sound = library.ask(label, 'sound', 2, file)
    if record.refusal:
        return record.refusal
    start = int.from_bytes(sound.buffer[:8], 'little')
    made = library.ask(label, 'write', len(file) + MORE, record.buffer[:4 * WORDS], record.titles,
                       file[start:start + sound.n])
    return made.buffer[:made.n]


def lent_titles(library, label, file):
    """A file with titles is read into just enough bytes for them, into one too few, into none, and with a word of the
    record too few."""
    try:
        need = len(second_reader.placed(second_reader.titles(file))[1])
    except second_reader.Refused:
        return
    for words, room in ((WORDS, need), (WORDS, need - 1), (WORDS, 0), (WORDS - 1, need)) if need else ():
        library.ask(f'{label}, {words} words and {room} of {need} bytes for titles', 'read', (words, room), file)


def written(library):
    """The files of written/ come out as they stand; the programs report of them what they must."""
    written_files.check()
    for label, file in others.files_in(WRITTEN).items():
        expect(f'{label}, whether it comes out as it stands', again(library, label, file) == file, True)


def titles_in(answer):
    """The titles that were read, each as (kind, name, text with its zero)."""
    record = record_of(answer.buffer[:4 * WORDS])
    return [(kind, name, answer.titles[start:start + length + 1])
            for kind, name, start, length in record.titles[:record.title_count]]


def titled(library):
    """The files of titled/ have the titles that other programs report of them, also after they are written again, and
    are refused as it is said there; those as `write` must write them come out as they stand."""
    titled_files.check()
    for path in others.paths(TITLED):
        file, wanted = path.read_bytes(), titled_files.reported(path)
        expect(f'{path.name}, whether another program reports titles of it', wanted != [], True)
        found, made = library.ask(path.name, 'read', (WORDS, len(file)), file), again(library, path.name, file)
        if path.name in titled_files.REFUSED:
            expect(f'{path.name}, by hand', [found.refusal, made], [titled_files.REFUSED[path.name]] * 2)
            continue
        expect(f'{path.name}, its titles', titles_in(found), wanted)
        expect(f'{path.name}, its titles when it is written again', second_reader.titles(made), wanted)
        if path.name.startswith('written'):
            expect(f'{path.name}, whether it comes out as it stands', made == file, True)


def written_again(library):
    """Files that other programs made come out as it is said above."""
    for name, said in AGAIN.items():
        file = (REPORTED / name).read_bytes()
        made = again(library, name, file)
        expect(f'{name}, written again',
               made if isinstance(made, int) else 'same bytes' if made == file else 'other bytes', said)


def empty_side(library, label, file):
    """An empty side of a file's channels and rate, or of any where the file is refused."""
    try:
        _, channels, rate, _, _, _ = second_reader.read(file)[0]
    except second_reader.Refused:
        channels, rate = 1, 8000
    made = library.ask(label, 'empty', 44 + MORE, channels, rate)
    return made.buffer[:made.n]


def added(library, label, file):
    """The new side of a file that is added to an empty one of its format, or the refusal; it is not added twice."""
    room = len(file) + 60 + MORE
    made = library.ask(label, 'add', room, empty_side(library, label, file), file, NUMBER, LIMIT)
    if made.refusal:
        return made.refusal
    twice = library.ask(f'{label} once more', 'add', room, made.buffer[:made.n], file, NUMBER, LIMIT)
    expect(f'{label} once more', twice.refusal, 18)
    return made.buffer[:made.n]


def reported_songs(library):
    """The new side has what the program that made a song reports of it."""
    for name, listing in others.listings():
        made = added(library, name, (REPORTED / name).read_bytes())
        lines = [f'refused {made}'] if isinstance(made, int) else second_reader.listing(made)[0]
        expect(f'{name} on an empty side', lines, listed_after(listing))


def heard_songs(library):
    """The new side has what sox hears in a song."""
    for path in (path for path in others.paths(HEARD) if '-pcm16-' in path.name):
        made = added(library, path.name, path.read_bytes())
        sounds = [song.sound for song in second_side.songs(made)]
        expect(f'{path.name}, whether it is on the side as heard', sounds == [path.with_suffix('.heard').read_bytes()],
               True)


def songs_on_sides(library):
    """The sides of tests/data/songs.py, where the answers stand by hand."""
    for label, side, song in onto():
        library.ask(label, 'add', len(side) + len(song), side, song, NUMBER, LIMIT)


# ---- all files

def all_calls(library, label, file):
    """Whatever a file is: it is read, written again, decoded whole and by its last block, and added."""
    again(library, label, file)
    lent_titles(library, label, file)
    added(library, label, file)
    try:
        (_, channels, _, _, align, samples), frames, _, _, _, sound = second_reader.read(file)
    except second_reader.Refused:
        channels, align, samples, frames, sound = 1, 1, 1, 1, b''
    library.ask(label, 'decode', channels * frames + MORE, file)
    library.ask(label, 'decode_block', channels * samples + MORE, file, max(len(sound) // align, 1) - 1)


def all_files(count, seed):
    """All files of tests/data, those at the borders of the rules for reading, and generated ones, each with a label."""
    yield from others.files_in(REPORTED, HEARD, CODED, WRITTEN, TITLED).items()
    yield from ((label, file) for label, file, _ in wave_files.all_files())
    yield 'the most titles and the longest texts', wave_files.most_titles()
    yield from ((f'generated file {place}', file) for place, file in enumerate(many_files.files(count, seed)))


def main(count=2000, seed=1):
    with Library() as library:
        for part in (coded, heard, without_pad, written, titled, written_again, reported_songs, heard_songs,
                     songs_on_sides, the_story):
            part(library)
        for label, file in all_files(int(count), int(seed)):
            all_calls(library, label, file)
        expect('the refusals that were met, and 0', sorted(library.answers), list(range(22)))
    print(f'request: {sum(library.answers.values())} answers, {library.answers[0]} accepted, refused',
          *(f'{number}: {count}' for number, count in sorted(library.answers.items()) if number))
    return report('tests/c')


if __name__ == '__main__':
    sys.exit(main(*sys.argv[1:3]))
