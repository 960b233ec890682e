"""Sounds to code at the borders of document 01's rules for IMA, as `vectors` takes them.

Each comes with the lines that `vectors` must print, by the second coder; document 01's own examples are
held to what it prints of them.
"""
import random
import struct

from second import ima as second_ima
from second.reader import Refused, mixed

LOW, HIGH = -32768, 32767
TONE = [0, 30, 100, 250, 120, -40, -200, -1000, 2000, -300, 4000, 3000, 20, 19, 18, 500, 16, -5000, 14, 9000]


def coding(label, sound, channels=1, align=8, room=64):
    """A sound to code into so much room, where each byte was 170."""
    try:
        blocks, left, right = second_ima.encode(sound, channels, align, room)
        answer = f'bytes {len(blocks)} left {left} right {right}'
    except Refused as refusal:
        blocks, answer = b'', f'refused {refusal.args[0]}'
    buffer = blocks + bytes([170] * (room - len(blocks)))
    starts = ''.join(f' {byte:02x}' for byte in buffer[:32])
    made = struct.pack('<5H', len(label), channels, align, room, 2 * len(sound)) + label.encode()
    made += struct.pack(f'<{len(sound)}h', *sound)
    return made, [label, answer, f'mixed {mixed(buffer)} starts{starts}']


def examples():
    """What document 01 prints, as it stands there; the second coder must say the same."""
    block = '00 80 00 00 77 77 77 77 77 17 00 00'
    stored = [
        (coding('the worked block', [LOW] + [HIGH] * 16, 1, 12), 'bytes 12 left 11 right 0', f'starts {block} aa'),
        (coding('13 after 0', [0, 13]), 'bytes 8 left 0 right 0', 'starts 00 00 00 00 07'),
        (coding('14 after 0', [0, 14]), 'bytes 8 left 1 right 0', 'starts 00 00 00 00 07'),
        (coding('-1 after 0', [0, -1]), 'bytes 8 left 0 right 0', 'starts 00 00 00 00 09'),
        (coding('506 samples of align 256', [5] * 506, 1, 256, 512), 'bytes 512 left 0 right 0'),
        (coding('505 samples of align 256', [5] * 505, 1, 256, 512), 'bytes 256 left 0 right 0'),
    ]
    for (made, lines), *words in stored:
        for word in words:
            if word not in '\n'.join(lines):
                raise ValueError(f'document 01 says {word!r}, the second coder {lines}')
        yield made, lines


def sounds():
    """Lengths, chased samples and channels."""
    for frames in (0, 1, 8, 9, 10, 17, 18, 19):
        yield coding(f'{frames} frames, 9 a block', TONE[:frames])
    for frames in (0, 1, 8, 9, 10):
        yield coding(f'{frames} frames of two channels, 9 a block', TONE[:2 * frames], 2, 16)
    yield coding('two unlike channels, 17 a block', [0, 5, 9, 5, HIGH, 4, LOW, 3, 7, -80] * 2, 2, 24)
    yield coding('right alone is chased', [0, 0, 1, 900, 2, 900, 3, 900], 2, 16)
    yield coding('left alone is chased', [0, 0, 900, 1, 900, 2, 900, 3], 2, 16)
    # The first step is 7: every code, and its borders.
    for sample in range(-16, 17):
        yield coding(f'0 and {sample}', [0, sample], room=8)
    # Fill is never counted, and here each sample of it is far away.
    for frames in (2, 3, 8, 9):
        yield coding(f'the last of {frames} far away', [0] * (frames - 1) + [HIGH])
        yield coding(f'the last of {frames} far away in each channel', [0, 0] * (frames - 1) + [HIGH, LOW], 2, 16)
    yield coding('an opening sample far away', [0] * 9 + [HIGH] * 9)
    yield coding('the index is carried', ([0, HIGH] * 5)[:9] + [HIGH, 0] * 5)
    yield coding('the index of each channel is carried', ([0, 0, HIGH, 9] * 5)[:18] + [0, 0, 40, 9], 2, 16)
    yield coding('held at the highest', [0] + [HIGH, LOW] * 10 + [HIGH] * 30, align=48)
    yield coding('held at the lowest', [0] + [LOW, HIGH] * 10 + [LOW] * 30, align=48)
    yield coding('up to index 88 and down again', [0] + [HIGH, LOW] * 20 + [0] * 200, align=256, room=256)


def refused():
    """Each refusal, and its neighbours that are none."""
    for align in (0, 1, 4, 7, 8, 9, 10, 12, 4097, 4100, 65532, 65535):
        yield coding(f'align {align}', [1, 2, 3], 1, align)
    for align in (0, 8, 12, 15, 16, 18, 20, 24, 4092, 4100, 4104, 65528):
        yield coding(f'align {align} of two channels', [1, 2, 3, 4], 2, align)
    yield coding('align 4096', [1, 2, 3], 1, 4096, 4096)
    yield coding('align 4096 of two channels', [1, 2, 3, 4], 2, 4096, 4096)
    for channels in (0, 3, 4, 256, 16384, 16385, 32768, 65535):
        yield coding(f'{channels} channels', [1] * 12, channels, 96, 96)
    yield coding('half a frame', [1, 2, 3], 2, 16)
    yield coding('half a frame and no room', [1], 2, 16, 0)
    yield coding('half a frame and a wrong align', [1], 2, 12)
    yield coding('no room and a wrong align', [1], 1, 10, 0)
    yield coding('no room and no sound', [], 1, 8, 0)
    for channels, blocks in ((1, 1), (1, 2), (2, 1), (2, 2)):
        align, frames = 8 * channels, 9 * blocks - 8
        for room in (0, blocks * align - 1, blocks * align, blocks * align + 1):
            yield coding(f'{blocks} x {align} in {room} bytes', [9] * channels * frames, channels, align, room)


def all_vectors():
    return [*examples(), *sounds(), *refused()]


def some_sound(chance, length):
    """A wave that is soft or loud, smooth or full of jumps."""
    loud, jumps = 2 ** chance.randrange(1, 17), chance.choice([0, 0.05, 0.5])
    sound = [chance.randint(LOW, HIGH)]
    while len(sound) < length:
        far = chance.randint(LOW, HIGH) if chance.random() < jumps else sound[-1] + chance.randint(-loud, loud)
        sound.append(max(LOW, min(HIGH, far)))
    return sound[:length]


def some_coding(chance, label):
    channels = chance.choice([1, 1, 1, 2, 2, 2, 2, 3])
    align = 4 * channels * chance.choice([2, 3, 4, 8, 16, 64, chance.randint(1, 1025)])
    align += chance.choice([0] * 20 + [1, 4])
    frames = second_ima.frames_in(align, channels)
    count = chance.randrange(min(3 * frames, 1500) + 2)
    room = max(0, -(-count // frames) * align + chance.choice([0, 0, 0, 1, -1]))
    return coding(label, some_sound(chance, count * channels + chance.choice([0] * 20 + [1])), channels, align, room)


def many(count, seed):
    """The longest blocks, and so many more sounds, the same for the same seed."""
    chance = random.Random(seed)
    for channels in (1, 2):
        yield coding(f'the longest blocks of {channels}', some_sound(chance, 8186), channels, 4096, 8192)
    for place in range(count):
        yield some_coding(chance, str(place))
