"""Records, texts and sounds to write, at the borders of the rules of documents 01 and 02, as `vectors` takes them.

Beside each stands its answer, worked out by hand from those, and of a few the whole file; the second writer must say
the same. What `vectors` must print besides is the second writer's.
"""
import random
import struct

from second import reader as second_reader, writer as second_writer
from second.reader import mixed
from second.writer import Record, samples_in

MOST = 2**32 - 1
# The most room that `vectors` has.
ROOM = 16384
TABLES = 'cues', 'plays', 'titles'
IMA, MICROSOFT = 17, 2
ONE, TWO = [(7, 0, 0)], [(7, 0, 0), (8, 90, 1)]


def pcm(channels=1, bits=16, rate=8000, align=None, samples=1, tag=1):
    return tag, channels, rate, bits, channels * bits // 8 if align is None else align, samples


def adpcm(tag, channels=1, align=None, samples=None, rate=8000, bits=4):
    """Of align 8 x channels and the samples of the formula, where nothing else is said."""
    align = 8 * channels if align is None else align
    return tag, channels, rate, bits, align, samples_in(tag, channels, align) if samples is None else samples


def ima(*words, **more):
    return adpcm(IMA, *words, **more)


def microsoft(*words, **more):
    return adpcm(MICROSOFT, *words, **more)


def hexed(data):
    return ''.join(f' {byte:02x}' for byte in data)


def spelled(text):
    """The bytes that a text spells: the letters of codes stand in quotes, everything else is in hex."""
    return b''.join(part.encode() if turn % 2 else bytes.fromhex(part) for turn, part in enumerate(text.split("'")))


def sound_of(n):
    """Sound that tells its places apart; nothing here looks into it."""
    return bytes((7 * i + 1) % 251 for i in range(n))


def entry(label, record, texts, sound, room):
    """A record, the buffer of its texts and a sound as `vectors` takes them. The tables of cues and entries stand there
    as in a file, and titles as four numbers of four bytes each, as many as are given; how many the record counts is
    said apart."""
    tag, channels, rate, bits, align, samples = record.form
    cues = second_writer.cue(record._replace(cue_count=len(record.cues)))
    plays = second_writer.plst(record._replace(play_count=len(record.plays)))
    titles = b''.join(struct.pack('<4I', *title) for title in record.titles)
    words = [len(label), room, len(sound), len(cues), len(plays), tag, channels, bits, align, samples]
    words += [len(titles), len(texts), rate, record.frames, record.cue_count, record.play_count, record.title_count]
    return struct.pack('<12H5I', *words) + label.encode() + cues + plays + titles + texts + sound


def answer_lines(answer, room):
    """What must be printed of an answer, a file or the number of a refusal, and of the lent buffer."""
    if isinstance(answer, int):
        return [f'refused {answer}', f'rest {room} untouched']
    shown = 'file' + hexed(answer) if len(answer) <= 128 else f'mixed {mixed(answer)}'
    return [f'bytes {len(answer)}', shown, f'rest {room - len(answer)} untouched']


def vector(label, record, texts, sound, room):
    """The entry, and the lines that `vectors` must print of it."""
    second_writer.check(record, texts, sound)
    answer = second_writer.write(record, texts, sound, room)
    more = [] if isinstance(answer, int) else ['reads back']
    return entry(label, record, texts, sound, room), [label, *answer_lines(answer, room), *more]


def record_with(form, frames, cues, plays, titles, *counts):
    """A record with these cues, entries and titles, counted as is said or else as many as there are."""
    made = [cues, plays, titles]
    counted = [len(table) if count is None else count for table, count in zip(made, counts)]
    return Record(form, frames, *(part for count, table in zip(counted, made) for part in (count, list(table))))


def writing(label, said, form, sound=8, frames=None, cues=(), plays=(), cue_count=None, play_count=None, room=None,
            titles=(), texts=b'', title_count=None):
    """A vector and the answer that it must have: a refusal's number below 44, else the bytes of the file.

    sound is the bytes or how many; the frames are those of whole blocks, and the room is two bytes more than
    enough, where nothing else is said. The texts of the titles stand in a buffer.
    """
    sound = sound_of(sound) if isinstance(sound, int) else sound
    frames = len(sound) // max(form[4], 1) * form[5] if frames is None else frames
    record = record_with(form, frames, cues, plays, titles, cue_count, play_count, title_count)
    room = len(second_writer.file_of(record, texts, sound)) + 2 if room is None else room
    made, lines = vector(label, record, texts, sound, room)
    answer = f'refused {said}' if said < 44 else f'bytes {said}'
    if lines[1] != answer:
        raise ValueError(f'{label}: by hand it is {answer}, the second writer says {lines[1]}')
    return made, lines


def examples():
    """Whole files, byte by byte; the third is the one whose listing document 01 prints."""
    form8, form16 = '10000000 0100 0100 401f0000 401f0000 0100 0800', '10000000 0100 0100 401f0000 803e0000 0200 1000'
    # The averages: 8000 x 8 / 9 is 7111 and a ninth, 22050 x 17 / 5 is 74,970.
    ima17 = '14000000 1100 0100 401f0000 c71b0000 0800 0400 0200 0900'
    pairs = '0001 0000 0002 00ff 0000 0000 c000 4000 f000 0000 cc01 30ff 8801 18ff'
    microsoft2 = f'32000000 0200 0200 22560000 da240100 1100 0400 2000 0500 0700 {pairs}'
    fact = "'fact' 04000000 05000000"
    cue = "'cue ' 1c000000 01000000 07000000 00000000 'data' 00000000 00000000 00000000"
    plst = "'plst' 10000000 01000000 07000000 04000000 01000000"
    far = "'cue ' 1c000000 01000000 2c010000 0f270000 'data' 00000000 00000000 04000000"
    often = "'plst' 10000000 01000000 2c010000 01000000 ffffffff"
    data = "'data' 08000000 01080f16 1d242b32"
    odd = "'data' 11000000 01080f16 1d242b32 3940474e 555c636a 71 00"
    label, note = "'labl' 09000000 07000000 'Song' 00 00", "'note' 08000000 07000000 'abc' 00"
    stored = [
        (writing('8-bit mono, no sound: 44 bytes', 44, pcm(bits=8), 0), '24000000', f"{form8} 'data' 00000000"),
        (writing('8-bit mono, one byte: 46 bytes', 46, pcm(bits=8), 1), '26000000', f"{form8} 'data' 01000000 01 00"),
        (writing('the example of document 01', 112, pcm(), cues=ONE, plays=[(7, 4, 1)]),
         '68000000', f'{form16} {cue} {plst} {data}'),
        (writing('an IMA block, five frames', 68, ima(), 8, 5), '3c000000', f'{ima17} {fact} {data}'),
        (writing('an IMA block with a cue and an entry', 128, ima(), 8, 5, [(300, 9999, 4)], [(300, 1, MOST)]),
         '78000000', f'{ima17} {fact} {far} {often} {data}'),
        (writing('a Microsoft block of 17 bytes', 108, microsoft(2, 17, rate=22050), 17),
         '64000000', f'{microsoft2} {fact} {odd}'),
        (writing('a frame with a label and a note', 128, pcm(), 2, cues=ONE, **row((0, 7, b'Song'), (1, 7, b'abc'))),
         '78000000', f"{form16} {cue} 'LIST' 26000000 'adtl' {label} {note} 'data' 02000000 0108"),
    ]
    for (made, lines), size, rest in stored:
        if lines[2] != 'file' + hexed(spelled(f"'RIFF' {size} 'WAVE' 'fmt ' {rest}")):
            raise ValueError(f'by hand it is {size} {rest}, the second writer says {lines}')
        yield made, lines
    yield writing('IMA mono, align 256: 505 samples', 316, ima(1, 256, 505), 256, 505)
    yield writing('Microsoft mono, align 256: 500 samples', 346, microsoft(1, 256, 500), 256, 500)


def tables(n, frames):
    """So many cues, and as many entries, the last cue first."""
    cues = [(1000 - i, MOST - i, i % frames) for i in range(n)]
    return cues, [(name, frames - place, 1 + i) for i, (name, _, place) in enumerate(cues[::-1])]


def of_each_format():
    """Name, format, a few bytes of sound and their frames, and how long the file is without tables and sound."""
    for channels, kind in ((1, 'mono'), (2, 'stereo')):
        yield f'8-bit {kind}', pcm(channels, 8), 3 * channels, 3, 44
        yield f'16-bit {kind}', pcm(channels), 6 * channels, 3, 44
        yield f'IMA {kind}', ima(channels), 16 * channels, 12, 60
        yield f'Microsoft {kind}', microsoft(channels), 16 * channels, 6, 90


def formats():
    """Every format without sound, with sound, with cues and with a playlist."""
    for name, form, size, frames, head in of_each_format():
        yield writing(f'{name}, no sound', head, form, 0)
        long = head + size + size % 2
        yield writing(f'{name}, frames: {frames}', long, form, size, frames)
        for n in (1, 2):
            cues, plays = tables(n, frames)
            yield writing(f'{name}, cues and entries: {n}', long + 24 + 36 * n, form, size, frames, cues, plays)
        yield writing(f'{name}, cues: {n}', long + 12 + 24 * n, form, size, frames, cues)


def lengths():
    """Odd sound and its pad, and odd blocks."""
    for n in (2, 7, 8):
        yield writing(f'8-bit mono, {n} bytes', 44 + n + n % 2, pcm(bits=8), n)
    for align, n in ((9, 1), (9, 2), (9, 3), (11, 1), (15, 1)):
        size = align * n
        yield writing(f'Microsoft mono, blocks of {align}: {n}', 90 + size + size % 2, microsoft(1, align), size)
    for n in (2, 3):
        yield writing(f'Microsoft stereo, blocks of 17: {n}', 90 + 17 * n + n % 2, microsoft(2, 17), 17 * n)
    yield writing('odd sound behind tables', 44 + 36 + 24 + 8, pcm(bits=8), 7, cues=ONE, plays=[(7, 7, 2)])
    yield writing('sound that looks like chunks', 68, pcm(), b'data\x04\0\0\0RIFF\0\0\0\0LISTwavl')


def averages():
    """The smallest and the largest rate, and averages that are rounded down; no sound is needed for that."""
    for rate in (1, 192000):
        for name, form in (('8-bit mono', pcm(1, 8, rate)), ('16-bit stereo', pcm(2, 16, rate))):
            yield writing(f'{name}, rate {rate}', 44, form, 0)
        for channels in (1, 2):
            for align in (8 * channels, 4096):
                name = f'{channels} channels, align {align}, rate {rate}'
                yield writing(f'IMA, {name}', 60, ima(channels, align, rate=rate), 0)
                yield writing(f'Microsoft, {name}', 90, microsoft(channels, align, rate=rate), 0)
    for rate in (9, 10, 11025, 44100):
        yield writing(f'IMA mono, rate {rate}', 60, ima(rate=rate), 0)
    for rate in (3, 44101):
        yield writing(f'Microsoft mono, align 9, rate {rate}', 90, microsoft(1, 9, rate=rate), 0)
    yield writing('IMA mono, align 12', 60, ima(1, 12, 17), 0)
    yield writing('IMA stereo, align 24', 60, ima(2, 24, 17), 0)


def long_tables():
    """63 and 64 cues and entries."""
    many = [(7, 1 + i % 4, MOST - i) for i in range(64)]
    yield writing('64 cues', 52 + 12 + 24 * 64, pcm(), cues=tables(64, 4)[0])
    yield writing('63 entries of one cue', 52 + 36 + 12 + 12 * 63, pcm(), cues=ONE, plays=many[:63])
    yield writing('64 entries of one cue', 52 + 36 + 12 + 12 * 64, pcm(), cues=ONE, plays=many)
    for n in (63, 64):
        cues, plays = tables(n, 9)
        yield writing(f'IMA, {n} cues and {n} entries', 68 + 24 + 36 * n, ima(), 8, 9, cues, plays)
    cues, plays = tables(64, 6)
    yield writing('odd Microsoft, 64 cues and 64 entries', 100 + 24 + 36 * 64, microsoft(1, 9), 9, 6, cues, plays)


def junk():
    """What stands past the counts is no part of the record, whatever it says."""
    bad, worse = [(7, 0, 99), (7, 5, MOST), (0, 0, 0)], [(7, 0, 0), (99, MOST, 0), (0, 0, 0)]
    yield writing('junk and no cues', 52, pcm(), cues=bad, plays=worse, cue_count=0, play_count=0)
    yield writing('junk past a cue', 88, pcm(), cues=ONE + bad, cue_count=1)
    yield writing('junk past an entry', 112, pcm(), cues=ONE, plays=[(7, 4, 1)] + worse, play_count=1)
    yield writing('junk past both', 112, pcm(), cues=ONE + bad, plays=[(7, 1, 1)] + worse, cue_count=1, play_count=1)
    yield writing('junk past both and no sound', 44, pcm(), 0, cues=bad, plays=worse, cue_count=0, play_count=0)
    yield writing('a cue that only the junk names again', 88, pcm(), cues=ONE * 2, cue_count=1)
    yield writing('an entry that only the junk names', 13, pcm(), cues=TWO, plays=[(8, 1, 1)], cue_count=1)
    yield writing('an entry of 0, as past the count', 13, pcm(), cues=ONE, plays=[(0, 1, 1)])
    yield writing('an entry and no cue but junk', 13, pcm(), cues=ONE, plays=[(7, 1, 1)], cue_count=0)
    yield writing('junk in the 64th place', 52 + 12 + 24 * 63, pcm(), cues=tables(63, 4)[0] + [(7, 0, 4)], cue_count=63)
    yield writing('IMA, junk past both', 128, ima(), cues=ONE + bad, plays=[(7, 9, 1)] + worse, cue_count=1,
                  play_count=1)


# ---- titles: a list of them comes behind the tables

def row(*titles):
    """Titles, each as (kind, name, text), in a row from the start of a buffer, and that buffer."""
    table, texts = second_reader.placed([(kind, name, text + b'\0') for kind, name, text in titles])
    return {'titles': table, 'texts': texts}


def list_size(*lengths):
    """How long a list of titles with texts of these lengths is: a head, and for each title a head, a name, the text,
    its zero, and a pad where they are odd."""
    return 12 + sum(8 + 4 + n + 1 + (n + 1) % 2 for n in lengths)


def titles():
    """Labels and notes; four frames, and cues 7 and 8."""
    def titled(label, said, *given, **more):
        return writing(label, said, pcm(), cues=TWO, **{**row(*given), **more})
    yield titled('no titles', 112)
    yield titled('no titles, and a buffer', 112, texts=b'Song\0')
    for kind, name in ((0, 'label'), (1, 'note')):
        for length in (0, 1, 4, 254, 255):
            yield titled(f'a {name} of {length} bytes', 112 + list_size(length), (kind, 7, b'a' * length))
        yield titled(f'a {name} of 256 bytes', 21, (kind, 7, b'a' * 256))
    yield titled('a label and a note of one cue', 112 + list_size(4, 3), (0, 7, b'Song'), (1, 7, b'abc'))
    yield titled('a note and a label of one cue', 112 + list_size(3, 4), (1, 7, b'abc'), (0, 7, b'Song'))
    yield titled('the last cue first', 112 + list_size(1, 0, 2), (0, 8, b'a'), (0, 7, b''), (1, 8, b'bc'))
    yield titled('bytes of any kind', 112 + list_size(4), (0, 7, b'\xff\x80\n\x01'))
    yield titled('bytes past the last text', 112 + list_size(4), (0, 7, b'Song'), texts=b'Song\0more\0')
    yield titled('zeros past the last text', 112 + list_size(4), (0, 7, b'Song'), texts=b'Song\0\0')
    yield titled('any titles past the count', 112, (2, 9, b''), (0, 7, b'a'), title_count=0)
    yield titled('any titles past a label', 112 + list_size(4), title_count=1, texts=b'Song\0',
                 titles=[(0, 7, 0, 4), (0, 7, 0, 4), (MOST, MOST, MOST, MOST)])
    for name, form, size, frames, head in of_each_format():
        long = head + size + size % 2
        cues, plays = tables(2, frames)
        yield writing(f'{name}, a cue with a label', long + 36 + list_size(4), form, size, frames, ONE,
                      **row((0, 7, b'Song')))
        yield writing(f'{name}, cues, entries and titles', long + 96 + list_size(3, 2), form, size, frames, cues, plays,
                      **row((1, 999, b'abc'), (0, 1000, b'de')))
    # The room past the titles that are given is zero: a label of the cue 0, whose text has no byte but its zero.
    zero = {'cues': [(0, 0, 0)], 'title_count': 1}
    yield writing('one title counted, none given, and a cue 0', 88 + list_size(0), pcm(), texts=b'\0', **zero)
    yield writing('one title counted, none given, and a cue 0, no texts', 21, pcm(), **zero)
    yield titled('one title counted, none given', 21, texts=b'\0', title_count=1)
    yield titled('two titles counted, one given', 21, (0, 7, b''), texts=b'\0\0', title_count=2)


def wrong_titles():
    """Refusal 21: kinds, names and texts, and where they stand."""
    def titled(label, said, *given, **more):
        return writing(label, said, pcm(), cues=TWO, **{**row(*given), **more})
    for kind in (2, 3, 256, 2**16, MOST):
        yield titled(f'kind {kind}', 21, (kind, 7, b'Song'))
    yield titled('kind 2 behind a label', 21, (0, 7, b'Song'), (2, 7, b'Song'))
    for name in (0, 6, 9, 7 + 2**8, 7 + 2**24, MOST):
        yield titled(f'a label of {name}, which is no cue', 21, (0, name, b'Song'))
    yield titled('a note of no cue behind a label', 21, (0, 7, b'Song'), (1, 9, b'Song'))
    yield writing('a label and no cue', 21, pcm(), **row((0, 7, b'Song')))
    yield writing('a label of a cue past the count', 21, pcm(), cues=TWO, cue_count=1, **row((0, 8, b'Song')))
    yield titled('two labels of one cue', 21, (0, 7, b'Song'), (0, 7, b'Other'))
    yield titled('two notes of one cue, others between', 21, (1, 7, b'a'), (0, 7, b'a'), (0, 8, b'a'), (1, 7, b'a'))
    yield titled('no zero', 21, titles=[(0, 7, 0, 3)], texts=b'Song\0')
    yield titled('no zero in the buffer', 21, titles=[(0, 7, 0, 3)], texts=b'Song')
    yield titled('a zero inside', 21, (0, 7, b'So\0ng'))
    yield titled('a zero at the start', 21, (0, 7, b'\0Song'))
    yield titled('two zeros at the end', 21, (0, 7, b'Song\0'))
    yield titled('a zero inside the second text', 21, (0, 7, b'Song'), (1, 7, b'a\0'))
    yield titled('a buffer of no bytes', 21, titles=[(0, 7, 0, 0)], texts=b'')
    yield titled('a buffer one byte too short', 21, titles=[(0, 7, 0, 5)], texts=b'Song\0')
    yield titled('a buffer that ends before the second text', 21, titles=[(0, 7, 0, 4), (1, 7, 5, 0)], texts=b'Song\0')
    yield titled('a buffer that ends in the second text', 21, titles=[(0, 7, 0, 4), (1, 7, 5, 2)], texts=b'Song\0x\0')
    for length in (256, 2**16 + 4, 2**31, MOST):
        yield titled(f'length {length}', 21, titles=[(0, 7, 0, length)], texts=b'Song\0')
    for start in (1, 5, 2**16, MOST):
        yield titled(f'the first text at {start}', 21, titles=[(0, 7, start, 4)], texts=b'xSong\0')
    yield titled('the first text at 1, and its zero', 21, titles=[(0, 7, 1, 4)], texts=b'\0Song\0')
    for start in (0, 4, 6, 2**32 - 1):
        yield titled(f'the second text at {start}, not at 5', 21, titles=[(0, 7, 0, 4), (1, 7, start, 4)],
                     texts=b'Song\0Song\0Song\0')
    yield titled('texts in another order', 21, titles=[(0, 7, 5, 3), (1, 7, 0, 4)], texts=b'Song\0abc\0')
    yield titled('one text for two titles', 21, titles=[(0, 7, 0, 4), (0, 8, 0, 4)], texts=b'Song\0')


def long_lists():
    """128 titles, and more that are counted."""
    cues = [(name, 0, name % 4) for name in range(64)]
    both = row(*[(kind, name, b'a' * (name % 5)) for kind in (1, 0) for name in range(64)])
    size = 52 + 12 + 24 * 64 + list_size(*[name % 5 for _ in range(2) for name in range(64)])
    yield writing('128 titles', size, pcm(), cues=cues, **both)
    long = row(*[(0, name, b'a' * 255) for name in range(12)])
    yield writing('12 long texts', 1600 + list_size(*[255] * 12), pcm(), cues=cues, **long)
    yield writing('129 titles counted', 21, pcm(), cues=cues, title_count=129, **both)
    for count in (129, 2**8, 2**16, MOST):
        yield writing(f'{count} titles counted, one given', 21, pcm(), cues=ONE, title_count=count,
                      **row((0, 7, b'Song')))
    yield writing('the 128th title a label again', 21, pcm(), cues=cues,
                  **row(*[(kind, name, b'a') for kind in (1, 0) for name in range(64)][:127], (0, 0, b'a')))


def title_rooms():
    """Refusal 14, and 21 and the others before it."""
    good, wrong, need = row((0, 7, b'Song')), row((0, 9, b'Song')), 88 + list_size(4)
    for room in (0, 88, need - 1, need, need + 5):
        said = need if room >= need else 14
        yield writing(f'a label, room {room} of {need}', said, pcm(), cues=ONE, room=room, **good)
    for room in (0, 43, need - 1):
        yield writing(f'a label of no cue, room {room}', 21, pcm(), cues=ONE, room=room, **wrong)
    yield writing('a label of no cue, and a wrong entry', 13, pcm(), cues=ONE, plays=[(7, 5, 1)], **wrong)
    yield writing('129 titles, and 65 entries', 13, pcm(), cues=ONE, play_count=65, title_count=129)
    yield writing('a label of a cue at F', 12, pcm(), cues=[(7, 0, 4)], **good)
    yield writing('two labels of two cues of one name', 12, pcm(), cues=ONE * 2, **row((0, 7, b'a'), (0, 7, b'b')))
    yield writing('a label of no cue, and wrong frames', 11, pcm(), 8, 5, ONE, **wrong)
    yield writing('a label of no cue, and half a frame', 10, pcm(), 7, 3, ONE, **wrong)
    yield writing('a label of no cue, and rate 0', 9, pcm(rate=0), cues=ONE, **wrong)


def wrong_formats():
    """Refusal 9, and the nearest formats that are taken."""
    for tag in (0, 2, 3, 17, 257):
        yield writing(f'tag {tag} in a PCM format', 9, pcm(tag=tag))
    for tag in (1, 2, 273):
        yield writing(f'tag {tag} in an IMA format', 9, (tag, *ima()[1:]))
    for tag in (1, 17):
        yield writing(f'tag {tag} in a Microsoft format', 9, (tag, *microsoft()[1:]))
    for channels in (0, 3, 65535):
        yield writing(f'{channels} channels', 9, pcm(channels, align=2))
        yield writing(f'IMA, {channels} channels', 9, ima(channels, 24, 9), 24)
        yield writing(f'Microsoft, {channels} channels', 9, microsoft(channels, 24, 4), 24)
    yield writing('three channels of two bytes', 9, pcm(3), 12)
    for rate in (0, 192001, MOST):
        yield writing(f'rate {rate}', 9, pcm(rate=rate))
        yield writing(f'IMA, rate {rate}', 9, ima(rate=rate))
        yield writing(f'Microsoft, rate {rate}', 9, microsoft(rate=rate))
    for bits, align in ((0, 2), (4, 2), (12, 2), (20, 3), (24, 3), (8, 2), (16, 1), (264, 1)):
        yield writing(f'{bits} bits in {align} bytes', 9, pcm(bits=bits, align=align), 12)
    for align in (0, 1, 3, 4, 258):
        yield writing(f'16-bit mono, align {align}', 9, pcm(align=align), 0)
    for align in (2, 3, 8):
        yield writing(f'16-bit stereo, align {align}', 9, pcm(2, align=align), 24)
    for samples in (0, 2, 257, 65535):
        yield writing(f'PCM, samples {samples}', 9, pcm(samples=samples), 8, 4)
    for bits in (0, 3, 5, 260):
        yield writing(f'IMA of {bits} bits', 9, ima(bits=bits))
        yield writing(f'Microsoft of {bits} bits', 9, microsoft(bits=bits))


def wrong_blocks():
    """Refusal 9: align and samples per block."""
    for channels, align in ((1, 0), (1, 4), (1, 7), (1, 9), (1, 10), (1, 4094), (1, 4100), (1, 65532),
                            (2, 8), (2, 12), (2, 18), (2, 20), (2, 4092), (2, 4104)):
        samples = max(samples_in(IMA, channels, align), 0) % 65536
        yield writing(f'IMA, {channels} channels, align {align}', 9, ima(channels, align, samples), 0)
    for channels, align in ((1, 0), (1, 7), (1, 4097), (1, 65535), (2, 8), (2, 14), (2, 15), (2, 4097)):
        samples = max(samples_in(MICROSOFT, channels, align), 0) % 65536
        yield writing(f'Microsoft, {channels} channels, align {align}', 9, microsoft(channels, align, samples), 0)
    for samples in (0, 8, 10, 265):
        yield writing(f'IMA mono, samples {samples}', 9, ima(samples=samples), 8, 9)
        yield writing(f'IMA stereo, samples {samples}', 9, ima(2, samples=samples), 16, 9)
    for samples in (0, 3, 5, 260):
        yield writing(f'Microsoft mono, samples {samples}', 9, microsoft(samples=samples), 8, 4)
        yield writing(f'Microsoft stereo, samples {samples}', 9, microsoft(2, samples=samples), 16, 4)
    yield writing('Microsoft samples in an IMA format', 9, ima(1, 256, 500), 0)
    yield writing('IMA samples in a Microsoft format', 9, microsoft(1, 256, 505), 0)


def wrong_lengths():
    """Refusal 10."""
    for name, form, size in (('16-bit mono', pcm(), 1), ('16-bit mono', pcm(), 7), ('8-bit stereo', pcm(2, 8), 3),
                             ('16-bit stereo', pcm(2), 2), ('16-bit stereo', pcm(2), 6), ('IMA mono', ima(), 1),
                             ('IMA mono', ima(), 7), ('IMA mono', ima(), 12), ('IMA stereo', ima(2), 8),
                             ('IMA stereo', ima(2), 24), ('Microsoft mono', microsoft(), 7),
                             ('Microsoft mono', microsoft(), 9), ('Microsoft stereo', microsoft(2, 17), 16),
                             ('Microsoft stereo', microsoft(2, 17), 18)):
        yield writing(f'{name} of align {form[4]}, {size} bytes', 10, form, size, max(size * form[5] // form[4], 1))


def wrong_frames():
    """Refusal 11, and the frames beside it that are taken."""
    def counts(name, form, size, said):
        for frames, answer in said.items():
            yield writing(f'{name}, {size} bytes, {frames} frames', answer, form, size, frames)
    yield from counts('8-bit mono', pcm(bits=8), 3, {0: 11, 2: 11, 3: 48, 4: 11})
    yield from counts('16-bit mono', pcm(), 8, {0: 11, 3: 11, 4: 52, 5: 11, 8: 11, 65540: 11, MOST: 11})
    yield from counts('16-bit stereo', pcm(2), 8, {1: 11, 2: 52, 3: 11, 4: 11})
    yield from counts('16-bit mono', pcm(), 0, {0: 44, 1: 11, MOST: 11})
    yield from counts('IMA mono', ima(), 0, {0: 60, 1: 11, 9: 11, MOST: 11})
    yield from counts('IMA mono', ima(), 8, {0: 11, 1: 68, 8: 68, 9: 68, 10: 11, 18: 11, MOST: 11})
    yield from counts('IMA mono', ima(), 16, {0: 11, 9: 11, 10: 76, 18: 76, 19: 11, 65546: 11})
    yield from counts('IMA stereo', ima(2), 32, {5: 11, 9: 11, 10: 92, 18: 92, 19: 11, 36: 11})
    yield from counts('Microsoft mono', microsoft(), 0, {0: 90, 1: 11})
    yield from counts('Microsoft mono', microsoft(), 8, {0: 11, 1: 98, 4: 98, 5: 11, MOST: 11})
    yield from counts('Microsoft stereo', microsoft(2), 48, {0: 11, 8: 11, 9: 138, 12: 138, 13: 11})


def wrong_cues():
    """Refusal 12, and its neighbours; the file has four frames."""
    def cued(label, said, *cues, **more):
        return writing(label, said, pcm(), cues=cues, **more)
    yield cued('a cue at the last frame', 88, (7, 0, 3))
    yield cued('a cue at F', 12, (7, 0, 4))
    yield cued('a cue at the largest place', 12, (7, 0, MOST))
    yield cued('any position', 88, (7, MOST, 2))
    yield writing('a cue in no sound', 12, pcm(), 0, cues=ONE)
    yield writing('a cue at the last frame of an IMA block', 104, ima(), 8, 5, [(7, 0, 4)])
    yield writing('a cue in the fill of an IMA block', 12, ima(), 8, 5, [(7, 0, 5)])
    yield writing('a cue in the fill of a Microsoft block', 12, microsoft(), 8, 3, [(7, 0, 3)])
    yield cued('two cues at one place', 112, (7, 0, 1), (8, 0, 1))
    yield cued('two cues of one name', 12, (7, 0, 0), (7, 0, 1))
    yield cued('the same cue twice', 12, (0, 0, 0), (0, 0, 0))
    yield cued('the first name again as the fourth', 12, (7, 0, 0), (8, 0, 0), (9, 0, 0), (7, 0, 0))
    yield cued('names that differ in the highest byte', 112, (7, 0, 0), (7 + 2**24, 0, 0))
    yield cued('names 0 and the largest', 112, (MOST, 0, 0), (0, 0, 0))
    yield cued('the second cue at F', 12, (7, 0, 3), (8, 0, 4))
    full = tables(64, 4)[0]
    yield cued('the 64th cue at F', 12, *full[:63], (1, 0, 4))
    yield cued('the 64th name the first', 12, *full[:63], full[0])
    yield cued('65 cues counted', 12, *full, cue_count=65)
    for count in (65, 2**8, 2**16, MOST):
        yield cued(f'{count} cues counted, two given', 12, *TWO, cue_count=count)
    yield writing('65 cues counted in no sound', 12, pcm(), 0, cue_count=65)
    # The room past those that are given is zero.
    yield cued('two cues counted, one given', 112, (7, 0, 0), cue_count=2)
    yield cued('three cues counted, one given', 12, (7, 0, 0), cue_count=3)
    yield cued('two cues counted, the name 0 given', 12, (0, 0, 0), cue_count=2)


def wrong_plays():
    """Refusal 13, and its neighbours; the file has four frames, and cues at 0 and 3."""
    cues = [(7, 0, 0), (8, 0, 3)]

    def played(label, said, *plays, **more):
        return writing(label, said, pcm(), cues=cues, plays=plays, **more)
    yield played('length F', 136, (7, 4, 1))
    yield played('length F + 1', 13, (7, 5, 1))
    yield played('length 0', 13, (7, 0, 1))
    yield played('one frame from the last', 136, (8, 1, 1))
    yield played('two frames from the last', 13, (8, 2, 1))
    yield played('length 0 from the last', 13, (8, 0, 1))
    yield played('the largest length', 13, (7, MOST, 1))
    yield played('a length that wraps to 1', 13, (8, 2**32 - 2, 1))
    yield played('times 0', 13, (7, 4, 0))
    yield played('times the largest number', 136, (7, 4, MOST))
    yield played('a name that no cue has', 13, (9, 1, 1))
    yield played('the name 0, which no cue has', 13, (0, 1, 1))
    yield played('a name that differs in the highest byte', 13, (7 + 2**24, 1, 1))
    yield played('one cue by three entries', 160, (8, 1, 3), (7, 2, 1), (8, 1, 1))
    yield played('the second entry wrong', 13, (7, 4, 1), (8, 2, 1))
    yield played('the second entry without a cue', 13, (7, 4, 1), (9, 1, 1))
    yield played('the first of two without times', 13, (7, 4, 0), (8, 1, 1))
    yield writing('an entry without cues', 13, pcm(), plays=[(7, 1, 1)])
    yield writing('an entry of 0 without cues', 13, pcm(), plays=[(0, 1, 1)])
    yield writing('an entry without cues and sound', 13, pcm(), 0, plays=[(0, 1, 1)])
    yield writing('an IMA entry to the last frame', 128, ima(), 8, 5, ONE, [(7, 5, 1)])
    yield writing('an IMA entry into the fill', 13, ima(), 8, 5, ONE, [(7, 6, 1)])
    yield writing('a Microsoft entry into the fill', 13, microsoft(), 8, 3, ONE, [(7, 4, 1)])
    yield played('the 64th entry wrong', 13, *[(7, 1, 1)] * 63, (7, 5, 1))
    yield played('65 entries counted', 13, *[(7, 1, 1)] * 64, play_count=65)
    for count in (65, 2**8, 2**16, MOST):
        yield played(f'{count} entries counted, one given', 13, (7, 1, 1), play_count=count)
    yield played('two entries counted, one given', 13, (7, 1, 1), play_count=2)


def rooms():
    """Refusal 14: no room, one byte short, exactly enough, and more, where old contents stay."""
    for name, form, size, frames, head in of_each_format():
        need = head + size + size % 2
        for room in (0, need - 1, need, need + 100):
            yield writing(f'{name}, room {room} of {need}', need if room >= need else 14, form, size, frames, room=room)
    for room in (43, 44, 45, 111, 112, 16384):
        said = 112 if room >= 112 else 14
        yield writing(f'the example, room {room} of 112', said, pcm(), cues=ONE, plays=[(7, 4, 1)], room=room)
    cues, plays = tables(64, 4)
    yield writing('64 cues and entries, room 2379 of 2380', 14, pcm(), cues=cues, plays=plays, room=2379)


def orders():
    """All faults at once, and one after the other put right, down to the file; then each fault with no room."""
    for name, form, size, frames, head in of_each_format():
        wrong = (form[0], form[1], 0, *form[3:])
        steps = [(9, wrong, size + 1, frames + 99, [(7, 0, MOST)], [(9, 0, 0)], 0)]
        steps += [(10, form, *steps[0][2:])] if form[4] > 1 else []
        steps += [(11, form, size, *steps[0][3:]), (12, form, size, frames, *steps[0][4:])]
        steps += [(13, form, size, frames, ONE, [(9, 0, 0)], 0), (14, form, size, frames, ONE, [(7, 1, 1)], 0)]
        steps += [(head + 60 + size + size % 2, *steps[-1][1:-1], 300)]
        for said, *made, room in steps:
            label = f'{name}, all faults from {said} on' if said < 44 else f'{name}, all put right'
            yield writing(label, said, *made, room=room)
    late = [(7, 9, 0)]
    yield writing('a wrong format and half a frame', 9, pcm(samples=2), 7, 3)
    yield writing('a wrong format and wrong frames', 9, pcm(samples=0), 8, 5)
    yield writing('a wrong format and 65 cues', 9, pcm(rate=192001), cue_count=65)
    yield writing('a wrong format and a wrong entry', 9, pcm(2, align=2), 8, 4, ONE, late)
    yield writing('half a frame and a cue at F', 10, pcm(), 7, 3, [(7, 0, 3)])
    yield writing('half a frame and a wrong entry', 10, pcm(), 7, 3, ONE, late)
    yield writing('half a block and 65 entries', 10, ima(), 12, 9, play_count=65)
    yield writing('wrong frames and a wrong entry', 11, microsoft(), 8, 5, ONE, late)
    yield writing('wrong frames that let a cue in', 11, pcm(), 8, 5, [(7, 0, 4)])
    yield writing('65 cues and 65 entries', 12, pcm(), cue_count=65, play_count=65)
    yield writing('a cue at F and its entry', 12, pcm(), cues=[(7, 0, 4)], plays=[(7, 1, 1)])
    yield writing('wrong names, and an entry of one', 12, pcm(), cues=ONE * 2, plays=[(7, 1, 1)])
    for said, form, size, frames, more in ((9, pcm(bits=24), 6, 2, {}), (10, ima(), 9, 9, {}), (11, pcm(), 8, 3, {}),
                                           (12, pcm(), 8, 4, {'cues': ONE * 2}), (13, pcm(), 8, 4, {'plays': ONE})):
        for room in (0, 43):
            yield writing(f'refusal {said} and room {room}', said, form, size, frames, **more, room=room)


def all_vectors():
    return [*examples(), *formats(), *lengths(), *averages(), *long_tables(), *junk(), *wrong_formats(),
            *wrong_blocks(), *wrong_lengths(), *wrong_frames(), *wrong_cues(), *wrong_plays(), *rooms(), *orders(),
            *titles(), *wrong_titles(), *long_lists(), *title_rooms()]


def some_titles(chance, names):
    """Labels and notes of some of these cues, and a buffer of their texts; now and then with more behind them."""
    most = [(kind, name) for kind in (0, 1) for name in names]
    lengths = [0, 1, 2, 3, 9, chance.randrange(256), 254, 255]
    found = [(kind, name, bytes(chance.choices(range(1, 256), k=chance.choice(lengths))))
             for kind, name in chance.sample(most, min(chance.choice([0, 0, 1, 2, 5, 128]), len(most)))]
    # As many as there is room for in the program's buffers.
    made = row(*found[:40])
    return made['titles'], made['texts'] + chance.choice([b'', b'', b'\0', b'more\0'])


def some_record(chance):
    """A record, its texts and its sound; good ones, and ones with a fault or two."""
    tag, channels = chance.choice([1, 1, IMA, MICROSOFT]), chance.choice([1, 2])
    if tag == 1:
        form = pcm(channels, chance.choice([8, 16]), chance.randint(1, 192000))
    else:
        align = channels * chance.choice([8, 12, 16, 4 * chance.randint(2, 64)])
        align += chance.choice([0, 1, 2, 3]) if tag == MICROSOFT else 0
        form = adpcm(tag, channels, align, rate=chance.randint(1, 192000))
    blocks = chance.randrange(40 if tag == 1 else 5)
    frames = blocks if tag == 1 else max(blocks * form[5] - chance.randrange(form[5]), 0)
    sound = chance.randbytes(blocks * form[4])
    most = chance.choice([0, 1, 3, 9, 64]) if frames else 0
    names = chance.sample([*range(100), MOST, 2**31], most)
    cues = [(name, chance.choice([0, chance.randint(0, MOST)]), chance.randrange(frames)) for name in names]
    played = chance.choices(cues, k=chance.choice([0, 1, 3, 9, 64])) if cues else []
    plays = [(name, chance.choice([1, frames - place]), chance.choice([1, 2, MOST])) for name, _, place in played]
    titles, texts = some_titles(chance, [name for name, _, _ in cues])
    record = Record(form, frames, len(cues), cues, len(plays), plays, len(titles), titles)
    return damaged(record, texts, sound, chance) if chance.random() < 0.5 else (record, texts, sound)


def damaged_texts(texts, chance):
    """A buffer of texts that is shorter or longer, or has a byte of another value."""
    if not texts or chance.random() < 0.3:
        return chance.choice([texts[:-1], texts[1:], b'\0' + texts, b''])
    at = chance.randrange(len(texts))
    return texts[:at] + bytes([chance.choice([0, 1, 97])]) + texts[at + 1:]


def damaged(record, texts, sound, chance):
    """The record, the texts or the sound with one thing changed, which may leave it good."""
    def near(value, most=MOST):
        return chance.choice([value + 1, value - 1, 0, 1, most, chance.randint(0, most)]) % (most + 1)

    field = chance.choice([*Record._fields, 'titles', 'titles', 'texts', 'sound'])
    if field == 'sound':
        return record, texts, chance.choice([sound[:-1], sound + b'\1'])
    if field == 'texts':
        return record, damaged_texts(texts, chance), sound
    value = getattr(record, field)
    if field == 'form':
        at = chance.randrange(6)
        value = (*value[:at], near(value[at], MOST if at == 2 else 65535), *value[at + 1:])
    elif field in TABLES and value:
        one, at = chance.randrange(len(value)), chance.randrange(len(value[0]))
        other = chance.choice([near(value[one][at]), chance.choice(value)[at]])
        value = [*value[:one], (*value[one][:at], other, *value[one][at + 1:]), *value[one + 1:]]
    elif field not in TABLES:
        value = chance.choice([near(value), 64, 65, 128, 129])
    return record._replace(**{field: value}), texts, sound


def many(count, seed):
    """So many records, the same for the same seed; now and then the room is one byte short or there is none."""
    chance = random.Random(seed)
    for place in range(count):
        record, texts, sound = some_record(chance)
        need = len(second_writer.file_of(record, texts, sound))
        room = max(need + chance.choice([0, 0, 0, 0, 1, 100, -1, -need]), 0)
        yield vector(str(place), record, texts, sound, min(room, ROOM))
