"""Files to decode, whole or one block of them, at the borders of the rules of documents 01 and 02, as `vectors` takes
them.

Each comes with the lines that `vectors` must print, by the second decoder; document 01's own examples are
held to what it prints of them.
"""
import random
import struct

from second import ima as second_ima, microsoft as second_microsoft, reader as second_reader, sound as second_sound
from second.reader import Refused, mixed
from vectors import many_files, wave_files

LOW, HIGH = -32768, 32767
IMA, MICROSOFT = 17, 2
CODES, OTHERS = bytes.fromhex('1032547698badcfe'), bytes.fromhex('0818283848588898')
TWO = CODES[:4] + OTHERS[:4] + CODES[4:] + OTHERS[4:]


def vector(label, kind, block, room, file):
    """A file or a block of it to decode into so much room, where each sample was 7."""
    made = struct.pack('<2HI2H', len(label), kind, block, room, len(file)) + label.encode() + file
    try:
        frames, sound = second_sound.decode_block(file, block, room) if kind else second_sound.decode(file, room)
        answer = f'frames {frames}'
    except Refused as refusal:
        sound, answer = [], f'refused {refusal.args[0]}'
    sound = sound + [7] * (room - len(sound))
    if room > 64:
        return made, [label, answer, f'mixed {mixed(sixteen(*sound))}']
    return made, [label, answer, 'sound' + ''.join(f' {sample}' for sample in sound)]


def sizes(file):
    """Channels, frames, samples per block and blocks of a file; of one that is refused what suits many files."""
    try:
        (_, channels, _, _, align, samples), frames, _, _, _, sound = second_reader.read(file)
        return channels, frames, samples, len(sound) // align
    except Refused:
        return 1, 9, 9, 1


def whole(label, file, more=2):
    """A file to decode into its room and so many samples more."""
    channels, frames, _, _ = sizes(file)
    return vector(label, 0, 0, channels * frames + more, file)


def one(label, file, block=0, more=2):
    """A block to decode into its room and so many samples more."""
    channels, _, samples, _ = sizes(file)
    return vector(label, 1, block, channels * samples + more, file)


def both(label, file):
    """A file to decode whole, and its last block; of a file that has none, block 0."""
    yield whole(label, file)
    yield one(f'{label}: the last block', file, max(sizes(file)[3], 1) - 1)


def pcm(sound, channels=1, bits=16):
    return wave_files.wave(wave_files.fmt(channels=channels, bits=bits), wave_files.chunk(b'data', sound))


def sixteen(*samples):
    return struct.pack(f'<{len(samples)}h', *samples)


def form(tag, channels, align):
    """The `fmt ` of an ADPCM file, and its samples per block."""
    if tag == IMA:
        samples = second_ima.frames_in(align, channels)
        return wave_files.ima(channels, align, samples), samples
    samples = second_microsoft.frames_in(align, channels)
    return wave_files.microsoft(channels, align, samples), samples


def adpcm(tag, channels, *blocks, frames=None, align=0):
    """A file of blocks, all their frames or so many; align is for a file of none."""
    made, samples = form(tag, channels, len(blocks[0]) if blocks else align)
    count = wave_files.fact(samples * len(blocks) if frames is None else frames)
    return wave_files.wave(made, count, wave_files.chunk(b'data', b''.join(blocks)))


def header(sample, index, reserved=0):
    """The header of one channel of an IMA block."""
    return struct.pack('<hBB', sample, index, reserved)


def block(nibbles, *headers):
    """A Microsoft block: nibbles in hexadecimal; predictor, delta, newer and older sample of each channel."""
    pairs, *rest = zip(*headers)
    return bytes(pairs) + b''.join(struct.pack(f'<{len(part)}h', *part) for part in rest) + bytes.fromhex(nibbles)


def mono(nibbles, pair=2, delta=16, newer=0, older=0):
    """A mono Microsoft file of one block. Pair 2 predicts 0, so that a sample is its nibble times delta."""
    return adpcm(MICROSOFT, 1, block(nibbles, (pair, delta, newer, older)))


def examples():
    """What document 01 prints, as whole lines; the second decoder must say the same."""
    ima, worked = wave_files.ima(), bytes.fromhex('00 80 00 00 77 77 77 77 77 17 00 00')
    stored = [
        (whole('the Microsoft block', adpcm(MICROSOFT, 1, bytes.fromhex('00 10 00 64 00 32 00 1F'))),
         'frames 4', 'sound 50 100 116 100 7 7'),
        (whole('pair 4, newer -1, nibble 0', mono('00', 4, 16, -1)), 'sound 0 -1 0 0 7 7'),
        (whole('8 bits: 0, 128, 255', pcm(bytes([0, 128, 255]), 1, 8)), 'frames 3', 'sound -32768 0 32512 7 7'),
        (whole('code 7 after 0', adpcm(IMA, 1, header(0, 0) + b'\7\0\0\0', frames=2)), 'sound 0 11 7 7'),
        (whole('code 9 after 0', adpcm(IMA, 1, header(0, 0) + b'\11\0\0\0', frames=2)), 'sound 0 -1 7 7'),
        (whole('index 88', adpcm(IMA, 1, header(100, 88) + bytes(4), frames=1)), 'frames 1', 'sound 100 7 7'),
        (whole('index 89', adpcm(IMA, 1, header(100, 89) + bytes(4), frames=1)), 'refused 15', 'sound 7 7 7'),
        (whole('the worked IMA block', adpcm(IMA, 1, worked)), 'frames 17'),
        (whole('IMA, no block', wave_files.wave(ima, wave_files.fact(0), wave_files.data(0))), 'frames 0', 'sound 7 7'),
        (one('IMA mono, align 256', adpcm(IMA, 1, header(0, 0) + bytes(252), frames=1)), 'frames 505'),
        (one('Microsoft mono, align 256', adpcm(MICROSOFT, 1, bytes(256), frames=1)), 'frames 500'),
    ]
    for (made, lines), *printed in stored:
        for line in printed:
            if line not in lines[1:]:
                raise ValueError(f'document 01 says {line!r}, the second decoder {lines}')
        yield made, lines


def of_each_format():
    """A small file of each format and number of channels, two blocks or a few frames, the last block short."""
    left, right = (0, 16, 100, 50), (1, 30, -5, 5)
    yield '8-bit mono', pcm(bytes(range(100, 105)), 1, 8)
    yield '8-bit stereo', pcm(bytes(range(100, 106)), 2, 8)
    yield '16-bit mono', pcm(sixteen(1, -2, 300, LOW, HIGH))
    yield '16-bit stereo', pcm(sixteen(1, -2, 300, LOW, HIGH, 0), 2)
    yield 'IMA mono', adpcm(IMA, 1, header(9, 5) + CODES[:4], header(-9, 40) + CODES[4:], frames=14)
    yield 'IMA stereo', adpcm(IMA, 2, header(9, 5) * 2 + TWO[:8], header(-9, 40) + header(5, 0) + TWO[8:], frames=14)
    yield 'Microsoft mono', adpcm(MICROSOFT, 1, block('1f2e', left), block('708f', right), frames=9)
    yield 'Microsoft stereo', adpcm(MICROSOFT, 2, block('1f2e', left, right), block('708f', right, left), frames=6)


def rooms():
    """Refusal 14: one sample short, exactly enough, and no room at all."""
    for label, file in of_each_format():
        channels, frames, samples, _ = sizes(file)
        need = channels * frames
        for room in (0, need - 1, need, need + 1):
            yield vector(f'{label}, room {room} of {need}', 0, 0, room, file)
        if 'bit' not in label:
            need = channels * samples
            # The room of what the file has of its last block is not enough for that block.
            for room in (0, channels * (frames - samples), need - 1, need, need + 1):
                yield vector(f'{label}, a block, room {room} of {need}', 1, 1, room, file)


def numbers():
    """Refusal 20: which blocks there are, before the room is looked at; none in PCM."""
    for label, file in of_each_format():
        for number in (0, 2**32 - 1) if 'bit' in label else (0, 1, 2, 256, 65536, 2**32 - 1):
            yield one(f'{label}, block {number}', file, number)
        yield vector(f'{label}, block 2 and no room', 1, 2, 0, file)


def headers():
    """Refusal 15: in each block of mono and each channel of one block, after 14 and 20; the borders of both formats."""
    for tag, most, good in ((IMA, 88, header(3, 88) + CODES[:4]), (MICROSOFT, 6, block('1f', (6, 20, 3, 4)))):
        at = 2 if tag == IMA else 0
        name = 'IMA' if tag == IMA else 'Microsoft'
        for value in (255, 128, most, most + 1):
            bad = good[:at] + bytes([value]) + good[at + 1:]
            yield whole(f'{name}, {value} in a header', adpcm(tag, 1, bad))
        for place in range(3):
            file = adpcm(tag, 1, *[bad if turn == place else good for turn in range(3)])
            yield whole(f'{name}, block {place} of 3 wrong', file)
            yield one(f'{name}, block {place} of 3 wrong, block 1', file, 1)
        short = adpcm(tag, 1, good, bad, frames=sizes(adpcm(tag, 1, good))[1] + 1)
        yield whole(f'{name}, a header wrong and no room', short, -1)
        yield one(f'{name}, a header wrong and no room for the block', short, 1, -1)
        yield one(f'{name}, a header wrong and no such block', short, 2)
        yield whole(f'{name}, the header of a last block of one frame', short)
    for first in (0, 88, 89):
        for second in (0, 88, 89):
            file = adpcm(IMA, 2, header(10, first) + header(-10, second) + TWO)
            yield whole(f'IMA, indices {first} and {second}', file)
    for first in (0, 6, 7):
        for second in (0, 6, 7):
            file = adpcm(MICROSOFT, 2, block('1f2e', (first, 9, 10, 5), (second, 8, -1000, 700)))
            yield whole(f'Microsoft, predictors {first} and {second}', file)
    yield whole('89 where the second index of stereo stands', adpcm(IMA, 1, header(0, 0) + bytes([1, 2, 89, 3])))
    yield whole('7 where the second predictor of stereo stands', mono('1f', 1, 7))


def stereo_block(tag, turn, values):
    """A short stereo block that differs from turn to turn, with these two indices or predictors."""
    if tag == IMA:
        return header(turn, values[0]) + header(-turn, values[1]) + TWO[:8]
    return block('1f2e', (values[0], 9, turn, 5), (values[1], 8, -turn, 700))


def stereo_headers():
    """Refusal 15 for one header of one of three stereo blocks; that block alone, and the good ones beside it."""
    for tag, name, most in ((IMA, 'IMA', 88), (MICROSOFT, 'Microsoft', 6)):
        good = [stereo_block(tag, turn, (most, most)) for turn in range(3)]
        for place in range(3):
            for side, values in (('left', (most + 1, most)), ('right', (most, most + 1))):
                bad = stereo_block(tag, place, values)
                file = adpcm(tag, 2, *good[:place], bad, *good[place + 1:])
                label = f'{name} stereo, {side} header of block {place} wrong'
                yield whole(label, file)
                for number in range(max(place - 1, 0), min(place + 2, 3)):
                    yield one(f'{label}, block {number}', file, number)


def refused_by_reader():
    """Refusals 1 to 13 and 21 come first, whatever the room, the block and the headers."""
    files = {}
    for label, file, lines in wave_files.all_files():
        if lines[0].startswith('refused'):
            files.setdefault(lines[0], file)
    for number in (*range(1, 14), 21):
        file = files[f'refused {number}']
        yield vector(f'refusal {number}', 0, 0, number % 3, file)
        yield vector(f'refusal {number}, a block that is not there', 1, 2**32 - 1, number % 2, file)
    wrong = wave_files.chunk(b'data', header(0, 89) + bytes(4))
    fact, titles = wave_files.fact(9), wave_files.adtl(wave_files.labl(7, b'Song'))
    for label, chunks in (('fact', [wave_files.fact(10)]), ('cues', [fact, wave_files.chunk(b'cue ')]),
                          ('playlist', [fact, wave_files.chunk(b'plst')]), ('list', [fact, titles]),
                          ('playlist and list', [fact, titles, wave_files.chunk(b'plst')])):
        file = wave_files.wave(wave_files.ima(), *chunks, wrong)
        yield vector(f'a wrong {label} and a wrong header', 0, 0, 9, file)
        yield vector(f'a wrong {label} and a wrong header of a block', 1, 0, 9, file)


def pcm_sounds():
    yield whole('all values of 8 bits', pcm(bytes(range(256)), 1, 8))
    yield whole('8 bits, stereo', pcm(bytes(range(120, 136)), 2, 8))
    yield whole('one value of 8 bits', pcm(b'\1', 1, 8))
    borders = (0, 1, -1, 127, 128, -128, -129, 255, 256, -256, -257, HIGH, LOW, HIGH - 1, LOW + 1, 4660)
    yield whole('16 bits', pcm(sixteen(*borders)))
    yield whole('16 bits, stereo', pcm(sixteen(*borders), 2))


def microsoft_blocks():
    """Deltas, pairs, nibbles, both holds, and every align near the smallest."""
    for delta in (0, 1, -1, 15, 16, 17, 18, 255, HIGH, -16, -255, LOW):
        made = [block(f'{nibble}1', (2, delta, 0, 0)) for nibble in '178f']
        yield whole(f'delta {delta}, nibbles 1, 7, 8 and 15', adpcm(MICROSOFT, 1, *made))
    made = [block(f'{nibble:x}1', (2, 1000, 0, 0)) for nibble in range(16)]
    yield whole('each nibble, then 1', adpcm(MICROSOFT, 1, *made))
    for pair in range(7):
        yield whole(f'pair {pair}, every nibble', mono('0123456789abcdef', pair, 20, 300, -200))
        yield whole(f'pair {pair}, every nibble downward', mono('fedcba9876543210', pair, 20, -300, 200))
        ends = [block('0f', (pair, 16, newer, older)) for newer in (LOW, HIGH) for older in (LOW, HIGH)]
        yield whole(f'pair {pair} at the ends of 16 bits', adpcm(MICROSOFT, 1, *ends))
        near = [block('0000', (pair, 0, newer, older)) for newer in (-3, -1, 1) for older in (-2, 0, 3)]
        yield whole(f'pair {pair} around 0', adpcm(MICROSOFT, 1, *near))
    yield whole('delta falls to 16', mono('1' * 20, delta=60))
    yield whole('delta grows to 2,796,202 and falls again', mono('888888' + '00' * 22 + '1111', delta=HIGH))
    # Chosen so that a hold one lower or one higher gives another last sample.
    yield whole('delta held at 2,796,202, not one beside it',
                mono('88888800000400f00000410100100100000f000f1f', 1, HIGH))
    yield whole('delta grows from 16 by nibble 8', mono('8' * 20, 1))
    yield whole('delta grows by nibble 7', mono('7' * 30, 1))
    yield whole('held at the highest', mono('7777ffff', 0, 20000, 30000))
    yield whole('held at the lowest', mono('88881111', 0, 20000, -30000))
    for align in range(8, 14):
        made = block(bytes(range(0x1f, 0x1f + align - 7)).hex(), (1, 40, 7, -8))
        yield from both(f'Microsoft mono, align {align}', adpcm(MICROSOFT, 1, made, made))
    for align in range(16, 22):
        made = block(bytes(range(0x1f, 0x1f + align - 14)).hex(), (1, 40, 7, -8), (3, 90, -300, 50))
        yield from both(f'Microsoft stereo, align {align}', adpcm(MICROSOFT, 2, made, made))
    yield whole('left is the high nibble', adpcm(MICROSOFT, 2, block('1070', (2, 10, 0, 0), (2, 1000, 0, 0))))


def ima_blocks():
    """All codes, every step, both ends of the index, and reserved bytes."""
    for sample, index in ((0, 0), (-1, 0), (1000, 44), (LOW, 88), (HIGH, 88), (0, 87)):
        yield whole(f'all codes from {sample} at index {index}', adpcm(IMA, 1, header(sample, index) + CODES))
    yield whole('all codes downward first', adpcm(IMA, 1, header(0, 30) + CODES[::-1]))
    for index in range(0, 89, 7):
        steps = [header(LOW, step) + b'\7\0\0\0' for step in range(index, min(index + 7, 89))]
        yield whole(f'steps from {index} on', adpcm(IMA, 1, *steps))
    yield whole('index 0 goes no lower', adpcm(IMA, 1, header(0, 0) + bytes(8)))
    yield whole('index 88 goes no higher', adpcm(IMA, 1, header(LOW, 84) + bytes.fromhex('77f7ff7f07080000')))
    yield whole('a reserved byte that is not 0', adpcm(IMA, 1, header(5, 3, 255) + CODES))
    yield whole('reserved bytes that are not 0', adpcm(IMA, 2, header(5, 3, 1) + header(6, 4, 128) + TWO))
    yield whole('a second block at an index of its own', adpcm(IMA, 1, header(0, 0) + CODES, header(0, 70) + CODES))


def blocks_of(tag, channels):
    """Three blocks, each unlike the others."""
    for turn in range(3):
        left, right = header(300 + turn, 20), header(-300, 9 + turn)
        if tag == IMA:
            yield left + CODES if channels == 1 else left + right + TWO
        else:
            yield block('1f2e3d4c', *[(1, 50, 9, turn), (4, 20, -9 - turn, 700)][:channels])


def lengths():
    """Files of no frames, and a last block with one frame, some and all."""
    for channels, kind in ((1, 'mono'), (2, 'stereo')):
        for bits in (8, 16):
            yield from both(f'{bits}-bit {kind}, no frames', pcm(b'', channels, bits))
        for tag, name in ((IMA, f'IMA {kind}'), (MICROSOFT, f'Microsoft {kind}')):
            empty = adpcm(tag, channels, align=8 * channels)
            yield from both(f'{name}, no frames', empty)
            yield vector(f'{name}, no frames and no room', 0, 0, 0, empty)
            made = list(blocks_of(tag, channels))
            samples = form(tag, channels, len(made[0]))[1]
            for frames in (1, 2, 3, samples - 1):
                yield whole(f'{name}, {frames} of {samples}', adpcm(tag, channels, made[0], frames=frames))
            for frames in (1, samples):
                file = adpcm(tag, channels, *made, frames=2 * samples + frames)
                yield from both(f'{name}, {frames} of {samples} in the third block', file)


def places():
    """The sound anywhere among other chunks, and odd lengths with their pads, or without the last."""
    junk, list_ = wave_files.chunk(b'junk', b'odd'), wave_files.chunk(b'LIST', b'INFO' + b'data' * 3)
    blocks = block('1f', (0, 16, 100, 50)) * 2
    sound = {'8 bits': (wave_files.fmt(bits=8), wave_files.chunk(b'data', bytes([1, 2, 3]))),
             '16 bits': (wave_files.fmt(more=bytes(2)), wave_files.chunk(b'data', sixteen(5, -6, 7))),
             'IMA': (wave_files.ima(extension=4, more=b'\0\0'), wave_files.chunk(b'data', header(1, 9) + CODES[:4])),
             'Microsoft': (wave_files.microsoft(), wave_files.chunk(b'data', blocks)),
             'Microsoft, odd': (wave_files.microsoft(1, 9, 6),
                                wave_files.chunk(b'data', block('1f2e', (0, 16, 100, 50))))}
    for name, (made, data) in sound.items():
        fact = wave_files.fact(5)
        yield from both(f'{name}, chunks before the sound', wave_files.wave(list_, made, junk, fact, list_, data))
        yield from both(f'{name}, chunks behind the sound', wave_files.wave(made, data, junk, fact, list_))
        yield from both(f'{name}, a chunk without its pad', wave_files.unpadded(made, fact, data, list_, junk))
        if data[4] % 2 == 1:
            yield from both(f'{name}, sound without its pad', wave_files.unpadded(made, fact, data))
    cue, plst = wave_files.cue(wave_files.point(7, 0)), wave_files.plst(wave_files.entry(7, 5))
    file = wave_files.wave(wave_files.ima(), cue, wave_files.fact(5), plst, sound['IMA'][1])
    yield from both('a cue and a playlist', file)
    titles = wave_files.adtl(wave_files.labl(7, b'Song'), wave_files.note(7, b'data'))
    # No room is lent for titles, and none is asked for.
    tables = [cue, wave_files.fact(5), plst]
    for label, chunks in (('before all others', [titles, wave_files.fmt(), cue, sound['16 bits'][1]]),
                          ('behind the tables', [wave_files.ima(), *tables, titles, sound['IMA'][1]]),
                          ('behind the sound', [wave_files.microsoft(), *tables, sound['Microsoft'][1], titles])):
        yield from both(f'a list of titles {label}', wave_files.wave(*chunks))
    yield whole('a pad that is not 0', wave_files.wave(wave_files.fmt(bits=8), sound['8 bits'][1][:-1] + b'\xff', junk))
    yield whole('the example of document 01', wave_files.example())


def all_vectors():
    return [*examples(), *rooms(), *numbers(), *headers(), *stereo_headers(), *refused_by_reader(), *pcm_sounds(),
            *microsoft_blocks(), *ima_blocks(), *lengths(), *places()]


def some_block(chance, tag, channels, align, wrong=False):
    """A block of loud or of soft codes; a wrong one is so in the header of one channel only."""
    most = 88 if tag == IMA else 6
    values = [chance.randint(0, most) for _ in range(channels)]
    if wrong:
        values[chance.randrange(channels)] = chance.choice([most + 1, chance.randint(most + 1, 255)])
    samples = [chance.choice([chance.randint(LOW, HIGH), chance.randint(-9, 9)]) for _ in range(3 * channels)]
    if tag == IMA:
        made = b''.join(header(sample, value, chance.randrange(256)) for sample, value in zip(samples, values))
    else:
        made = bytes(values) + sixteen(*samples)
    soft = chance.choice([range(256), [0, 1, 15, 16, 17, 31, 128, 136, 240, 255]])
    return made + bytes(chance.choice(soft) for _ in range(align - len(made)))


def some_file(chance):
    """A file of any format; now and then its fact or one header of one block is wrong, or it is damaged."""
    channels, tag = chance.choice([1, 2]), chance.choice([1, IMA, IMA, MICROSOFT, MICROSOFT])
    if tag == 1:
        bits = chance.choice([8, 16])
        made, fact = wave_files.fmt(channels=channels, bits=bits), []
        sound = chance.randbytes(chance.randrange(100) * channels * bits // 8)
    else:
        align = channels * chance.choice([8, 12, 16, 32, 4 * chance.randint(2, 512 // channels)])
        align += chance.choice([0, 1, 2, 3]) if tag == MICROSOFT else 0
        made, samples = form(tag, channels, align)
        blocks = chance.randint(0, 4)
        frames = (blocks - 1) * samples + chance.randint(1, samples) if blocks else 0
        fact = [wave_files.fact(frames + chance.choice([0] * 40 + [1, samples]))]
        wrong = chance.choice([0, 1, 2, 3, None, None, None, None])
        sound = b''.join(some_block(chance, tag, channels, align, turn == wrong) for turn in range(blocks))
    junk = [wave_files.chunk(b'junk', chance.randbytes(chance.randrange(9))) for _ in range(chance.randrange(3))]
    behind = [wave_files.chunk(b'data', sound), *fact, *junk]
    chance.shuffle(behind)
    file = wave_files.wave(made, *behind)
    return many_files.another(file, chance) if chance.random() < 0.1 else file


def some_vector(chance, label):
    file = some_file(chance)
    channels, frames, samples, blocks = sizes(file)
    kind = chance.choice([0, 1]) if samples > 1 else chance.choice([0, 0, 0, 0, 1])
    number = chance.choice([chance.randrange(max(blocks, 1))] * 8 + [blocks, 2**32 - 1])
    room = channels * (samples if kind else frames) + chance.choice([0, 0, 0, 1, 2, -1])
    return vector(label, kind, number, max(0, min(room, 16384)), file)


def many(count, seed):
    """The longest blocks, and so many more files, the same for the same seed."""
    chance = random.Random(seed)
    for tag, name in ((IMA, 'IMA'), (MICROSOFT, 'Microsoft')):
        for channels in (1, 2):
            for align in (4096, 4096 - 4 * channels):
                made = [some_block(chance, tag, channels, align) for _ in range(3)]
                yield whole(f'{name}, {channels} channels, align {align}', adpcm(tag, channels, made[0]))
                yield one(f'{name}, {channels} channels, block of align {align}', adpcm(tag, channels, *made), 2)
    for place in range(count):
        yield some_vector(chance, str(place))
