"""Sounds whose approval copy is made, as `vectors` takes them.

Each comes with the lines that `vectors` must print, by the second coder, the second writer and the second
decoder; which step refuses, or how long the file is, the table says itself.
"""
import random
import struct

from second import ima as second_ima, sound as second_sound, writer as second_writer
from second.reader import Refused, mixed
from second.writer import Record
from vectors.ima_sounds import HIGH, LOW, TONE, some_sound

IMA = 17
# Every byte of a copy but its blocks: three chunks of 20, 4 and no bytes behind the header of the file.
HEAD = 12 + (8 + 20) + (8 + 4) + 8


def record_for(sound, channels, align, rate):
    """The record of the copy: IMA, no cues and no playlist."""
    form = IMA, channels, rate, 4, align, second_ima.frames_in(align, channels)
    return Record(form, len(sound) // channels, 0, [], 0, [])


def lines_of(sound, channels, align, rate, room):
    """What must be printed of a sound, in so much room for its blocks and as much for the file."""
    try:
        blocks, left, right = second_ima.encode(sound, channels, align, room)
    except Refused as refusal:
        return [f'encode refused {refusal.args[0]}']
    file = second_writer.write(record_for(sound, channels, align, rate), b'', blocks, room)
    if isinstance(file, int):
        return [f'write refused {file}']
    frames, heard = second_sound.decode(file, len(sound))
    return [f'bytes {len(file)} mixed {mixed(file)}', f'chased left {left} right {right}', f'frames {frames}',
            f'mixed {mixed(struct.pack(f"<{len(heard)}h", *heard))}']


def vector(label, sound, channels, align, rate, room):
    """A sound to copy, and the lines under its label."""
    made = struct.pack('<5HI', len(label), channels, align, room, 2 * len(sound), rate) + label.encode()
    made += struct.pack(f'<{len(sound)}h', *sound)
    return made, [label, *lines_of(sound, channels, align, rate, room)]


def copy(label, said, sound, channels=1, align=8, rate=8000, room=16384):
    """The same where the table says how the first line starts; a number of blocks stands for the file of them."""
    made, lines = vector(label, sound, channels, align, rate, room)
    starts = f'bytes {HEAD + said * align} mixed ' if isinstance(said, int) else said
    if not lines[1].startswith(starts):
        raise ValueError(f'{label}: the table says {starts!r}, the second programs {lines[1]!r}')
    return made, lines


def copies():
    """Lengths, channels, aligns and rates."""
    yield copy('the worked block', 1, [LOW] + [HIGH] * 16, align=12)
    for frames, blocks in ((0, 0), (1, 1), (8, 1), (9, 1), (10, 2), (18, 2), (19, 3)):
        yield copy(f'{frames} frames, 9 a block', blocks, TONE[:frames])
    for frames, blocks in ((0, 0), (1, 1), (9, 1), (10, 2)):
        yield copy(f'{frames} frames of two channels, 9 a block', blocks, TONE[:2 * frames], 2, 16, 44100)
    yield copy('two unlike channels, 17 a block', 1, [0, 5, 9, 5, HIGH, 4, LOW, 3, 7, -80] * 2, 2, 24)
    yield copy('right alone is chased', 1, [0, 0, 1, 900, 2, 900, 3, 900], 2, 16)
    yield copy('left alone is chased', 1, [0, 0, 900, 1, 900, 2, 900, 3], 2, 16)
    yield copy('the last frame far away', 1, [0, 0] * 4 + [HIGH, LOW], 2, 16)
    yield copy('held at both ends', 2, [0] + [HIGH, LOW] * 10 + [HIGH] * 40 + [LOW] * 40, align=48)
    yield copy('up to index 88 and down again', 1, [0] + [HIGH, LOW] * 20 + [0] * 200, align=256)
    for rate in (1, 2, 191999, 192000):
        yield copy(f'rate {rate}', 1, TONE[:9], rate=rate)
    chance = random.Random(4)
    for frames, blocks in ((505, 1), (506, 2), (1300, 3)):
        yield copy(f'{frames} frames, 505 a block', blocks, some_sound(chance, frames), 1, 256, 22050)
        yield copy(f'{frames} frames of two channels, 505 a block', blocks, some_sound(chance, 2 * frames), 2, 512,
                   48000)
    yield copy('300 frames of align 4096', 1, some_sound(chance, 300), 1, 4096, 192000)
    yield copy('300 frames of two channels and align 4096', 1, some_sound(chance, 600), 2, 4096, 1)


def refused():
    """Each refusal, which of two comes first, and the neighbours that are none."""
    for rate in (0, 192001, 2**32 - 1):
        yield copy(f'rate {rate}', 'write refused 9', TONE[:9], rate=rate)
    yield copy('rate 0 and no sound', 'write refused 9', [], rate=0)
    for align in (0, 4, 10, 4100):
        yield copy(f'align {align}', 'encode refused 9', TONE[:9], align=align)
    for align in (8, 20, 4100, 4104):
        yield copy(f'align {align} of two channels', 'encode refused 9', TONE[:18], 2, align)
    for channels in (0, 3, 65535):
        yield copy(f'{channels} channels', 'encode refused 9', TONE[:9], channels, 96)
    yield copy('half a frame', 'encode refused 10', TONE[:9], 2, 16)
    yield copy('half a frame at rate 0', 'encode refused 10', TONE[:9], 2, 16, 0)
    yield copy('half a frame and a wrong align', 'encode refused 9', TONE[:9], 2, 12)
    for room, said in ((0, 'encode refused 14'), (15, 'encode refused 14'), (16, 'write refused 14'),
                       (HEAD + 15, 'write refused 14'), (HEAD + 16, 2)):
        yield copy(f'two blocks in {room} bytes', said, TONE[:10], room=room)
    yield copy('two blocks in 16 bytes at rate 0', 'write refused 9', TONE[:10], rate=0, room=16)
    yield copy('no sound and no room', 'write refused 14', [], room=0)


def all_vectors():
    return [*copies(), *refused()]


def some_copy(chance, label):
    """A sound of one or two channels; now and then a rate or a room that is refused."""
    channels = chance.choice([1, 2])
    align = 4 * channels * chance.choice([2, 3, 4, 8, 64, chance.randint(2, 1024 // channels)])
    frames = second_ima.frames_in(align, channels)
    count = chance.randrange(min(3 * frames, 1500) + 2)
    rate = chance.choice([chance.randint(1, 192000)] * 10 + [0, 192001])
    room = -(-count // frames) * align + chance.choice([HEAD] * 10 + [HEAD - 1, -1])
    return vector(label, some_sound(chance, count * channels), channels, align, rate, max(room, 0))


def many(count, seed):
    """The longest blocks, and so many more copies, the same for the same seed."""
    chance = random.Random(seed)
    for channels in (1, 2):
        yield vector(f'the longest blocks of {channels}', some_sound(chance, 8186), channels, 4096, 192000, 16384)
    for place in range(count):
        yield some_copy(chance, str(place))
