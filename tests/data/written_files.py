"""Files as `write` must write them, which sox, ffmpeg and libsndfile read as document 01 means them.

    python3 -m data.written_files    in tests/: writes the files of data/written; its `make` does that, and then asks
                                     the programs

Beside each NAME.wav stands NAME.txt, the reports of the three programs. No file is empty: ffmpeg and sndfile-info
complain of any file without sound. Of an odd length of sound libsndfile remarks that it is odd, in files of
sox and of its own too; the pad is there.
"""
import hashlib
import re
import struct

from data.others import TAGS, WRITTEN, ffmpeg, one, paths
from second import ima as second_ima, microsoft as second_microsoft, sound as second_sound, writer as second_writer
from second.reader import PAIRS
from second.writer import Record, samples_in

ODD = "*** 'data' chunk should be an even number of bytes in length."
IMA, MICROSOFT = 17, 2


def tone(frames, channels):
    """A triangle of its own in each channel, in whole numbers, so that every machine makes the same."""
    def sample(place, period):
        return abs(place % period * 40000 // period - 20000) - 10000
    return [sample(place, 27 + 14 * channel) for place in range(frames) for channel in range(channels)]


def pcm8(samples):
    return bytes(128 + sample // 256 for sample in samples)


def pcm16(samples):
    return struct.pack(f'<{len(samples)}h', *samples)


def nibbles_of(samples, pair, delta):
    """The nibbles of one channel of a Microsoft block, each the nearest that there is."""
    newer, older, made = samples[1], samples[0], []
    for sample in samples[2:]:
        first, second = PAIRS[2 * pair:2 * pair + 2]
        rest = sample - second_microsoft.quotient(newer * first + older * second)
        nibble = max(-8, min(7, (2 * rest + delta) // (2 * delta))) % 16
        made.append(nibble)
        older, (newer, delta) = newer, second_microsoft.after(pair, delta, newer, older, nibble)
    return made


def microsoft_block(samples, channels, pair, delta=300):
    """A Microsoft block of these samples. Document 01 asks for no coder, so this one is as plain as can be."""
    parts = [samples[channel::channels] for channel in range(channels)]
    coded = second_ima.in_turn([nibbles_of(part, pair, delta) for part in parts])
    header = [delta] * channels + [part[1] for part in parts] + [part[0] for part in parts]
    nibbles = bytes(16 * high + low for high, low in zip(coded[::2], coded[1::2]))
    return bytes([pair] * channels) + pcm16(header) + nibbles


def microsoft_blocks(samples, channels, align):
    """The blocks of a sound, with the pairs in turn; the last frame again fills the last block."""
    size, blocks = samples_in(MICROSOFT, channels, align) * channels, []
    for turn, at in enumerate(range(0, len(samples), size)):
        part = samples[at:at + size]
        part += part[-channels:] * ((size - len(part)) // channels)
        blocks.append(microsoft_block(part, channels, turn % 7))
    return b''.join(blocks)


def pcm(bits, channels, rate, frames, cues=(), plays=()):
    """The record and the sound of a tone in PCM."""
    sound = (pcm8 if bits == 8 else pcm16)(tone(frames, channels))
    form = 1, channels, rate, bits, channels * bits // 8, 1
    return Record(form, frames, len(cues), list(cues), len(plays), list(plays)), sound


def adpcm(tag, channels, align, rate, frames, cues=(), plays=()):
    """The record and the sound of a tone in blocks."""
    if tag == IMA:
        sound, _, _ = second_ima.encode(tone(frames, channels), channels, align, 65536)
    else:
        sound = microsoft_blocks(tone(frames, channels), channels, align)
    form = tag, channels, rate, 4, align, samples_in(tag, channels, align)
    return Record(form, frames, len(cues), list(cues), len(plays), list(plays)), sound


def songs(*lengths):
    """The cues and the playlist of a side with songs of these lengths, numbered anyhow."""
    places = [sum(lengths[:turn]) for turn in range(len(lengths))]
    names = [1 + 37 * turn % 1009 for turn in range(len(lengths))]
    return [(name, place, place) for name, place in zip(names, places)], \
        [(name, length, 1) for name, length in zip(names, lengths)]


def all_files():
    """Name, record and sound of each file."""
    made = {
        'pcm8-mono': pcm(8, 1, 8000, 300),
        'pcm8-mono-odd': pcm(8, 1, 11025, 301),
        'pcm8-mono-odd-songs': pcm(8, 1, 22050, 333, *songs(100, 200, 33)),
        'pcm8-stereo-cue': pcm(8, 2, 44100, 301, [(7, 0, 300)]),
        'pcm16-mono': pcm(16, 1, 8000, 400),
        'pcm16-mono-cues': pcm(16, 1, 48000, 401, [(2**31 - 1, 5, 0), (0, 9999, 400), (12, 0, 77)]),
        'pcm16-mono-64-songs': pcm(16, 1, 16000, 640, *songs(*[10] * 64)),
        'pcm16-mono-repeats': pcm(16, 1, 8000, 200, [(7, 0, 50)], [(7, 150, 3), (7, 1, 2**32 - 1), (7, 2, 1)]),
        'pcm16-stereo-192000': pcm(16, 2, 192000, 500),
        'pcm16-stereo-songs': pcm(16, 2, 44100, 700, *songs(350, 1, 349)),
        'ima-mono': adpcm(IMA, 1, 256, 8000, 1010),
        'ima-mono-short-block-songs': adpcm(IMA, 1, 256, 11025, 1200, *songs(505, 695)),
        'ima-mono-align-1024-cue': adpcm(IMA, 1, 1024, 44100, 2041, [(3, 2040, 2040)]),
        'ima-stereo': adpcm(IMA, 2, 512, 22050, 1010),
        'ima-stereo-short-block-songs': adpcm(IMA, 2, 512, 44100, 1300, *songs(600, 700)),
        'microsoft-mono': adpcm(MICROSOFT, 1, 256, 8000, 1000),
        'microsoft-mono-odd-songs': adpcm(MICROSOFT, 1, 257, 11025, 1506, *songs(500, 1006)),
        'microsoft-mono-short-block-cue': adpcm(MICROSOFT, 1, 256, 22050, 3300, [(9, 0, 3299)]),
        'microsoft-stereo': adpcm(MICROSOFT, 2, 512, 22050, 1000),
        'microsoft-stereo-odd': adpcm(MICROSOFT, 2, 513, 44100, 501),
        'microsoft-stereo-short-block-songs': adpcm(MICROSOFT, 2, 512, 48000, 1234, *songs(1200, 34)),
    }
    return sorted((f'{name}.wav', record, sound) for name, (record, sound) in made.items())


def sections(report):
    """The parts of a report by their titles."""
    titles = re.split(r'^== (.+)\n', report, flags=re.MULTILINE)
    return dict(zip(titles[1::2], titles[2::2]))


def heard_in(record, sound):
    """The sound of a file with the fill of its last block, as the programs give it."""
    tag, channels, _, bits, align, _ = record.form
    if tag == 1:
        return pcm16(second_sound.pcm(sound, bits))
    blocks = [second_sound.ADPCM[tag](sound[at:at + align], channels) for at in range(0, len(sound), align)]
    return pcm16([sample for block in blocks for sample in block])


def facts(record, sound):
    """What the programs must say of a file, each by its own name."""
    tag, channels, rate, bits, align, samples = record.form
    # sox and libsndfile count the frames of ADPCM by whole blocks; the fact count is the record's.
    whole = len(sound) // align * samples
    size, average = len(second_writer.file_of(record, b'', sound)), rate * align // samples
    yield 'sox', (tag, channels, rate, bits, whole)
    yield 'ffmpeg', (tag, channels, rate, bits, record.frames)
    yield 'libsndfile', (tag, channels, rate, bits, align, average, size, len(sound), whole)
    yield 'libsndfile for ADPCM', () if tag == 1 else (samples, record.frames)
    # It prints no more than ten cues, but counts them all.
    yield 'libsndfile for cues', (len(record.cues), *record.cues[:10]) if record.cues else ()
    yield 'the playlist', (4 + 12 * len(record.plays),) if record.plays else ()
    yield 'complaints', (ODD,) if len(sound) % 2 else ()
    yield 'heard', (hashlib.md5(heard_in(record, sound)).hexdigest(),)


def said(report):
    """The same of what they did say."""
    parts = sections(report)
    sox, library = parts['sox'], parts['libsndfile']

    def numbers(text, *names):
        return tuple(int(one(rf'^ *{name} *: (\d+)', text)) for name in names)

    bits, encoding = one(r'^Sample Encoding: (\d+)-bit (.+)$', sox)
    frames = int(one(r'= (\d+) samples', sox))
    yield 'sox', (TAGS[encoding], *numbers(sox, 'Channels', 'Sample Rate'), int(bits), frames)
    encoding, *rest, _ = ffmpeg(parts['ffmpeg'])
    yield 'ffmpeg', (TAGS[encoding], *map(int, rest))
    top, bottom = library.split('-' * 40)
    tag = TAGS[one(r'^  Format +: \w+ => (\w+)$', top)]
    fields = numbers(top, 'Channels', 'Sample Rate', 'Bit Width', 'Block Align', 'Bytes/sec', 'Length', 'data')
    yield 'libsndfile', (tag, *fields, *numbers(bottom, 'Frames'))
    yield 'libsndfile for ADPCM', () if tag == 1 else numbers(top, 'Samples/Block', 'frames')
    point = r'^ +Cue ID : +(\d+)  Pos : +(\d+)  Chunk : data  Chk Start : 0  Blk Start : 0  Offset : +(\d+)$'
    yield 'libsndfile for cues', (*map(int, re.findall(r'^  Count : (\d+)$', top, re.MULTILINE)),
                                  *(tuple(map(int, cue)) for cue in re.findall(point, top, re.MULTILINE)))
    yield 'the playlist', tuple(map(int, re.findall(r'^plst : (\d+)$', top, re.MULTILINE)))
    wrong = re.findall(r'^.*(?:\*\*\*|should be|[Ee]rror|[Ww]arning).*$', library, re.MULTILINE)
    yield 'complaints', tuple(wrong) + tuple((parts['sox complains'] + parts['ffmpeg complains']).splitlines())
    yield 'heard', (parts['heard'].split()[0],)


def check():
    """Stops where a file is not what the second writer makes, or where a program reports something else of it."""
    made = {name: (record, sound) for name, record, sound in all_files()}
    for path in paths(WRITTEN):
        record, sound = made[path.name]
        second_writer.check(record, b'', sound)
        if path.read_bytes() != second_writer.write(record, b'', sound, 65536):
            raise ValueError(f'{path.name} is not what the second writer makes')
        meant, found = dict(facts(record, sound)), dict(said(path.with_suffix('.txt').read_text()))
        if meant != found:
            raise ValueError(f'{path.name}: it must be {meant}, the programs report {found}')


if __name__ == '__main__':
    for name, record, sound in all_files():
        (WRITTEN / name).write_bytes(second_writer.write(record, b'', sound, 65536))
