"""A second way to do what the programs do that a volunteer calls, from the text of documents 01 and 02 alone.

Each gives the lines that a program must print, and the file that it must write, None where it writes none. Files are
read, decoded, coded, written and added to by the other second implementations.
"""
import struct

from second import (ima as second_ima, reader as second_reader, side as second_side, sound as second_sound,
                    writer as second_writer)
from second.reader import Refused, demand
from second.writer import Record

# The most bytes of a file that the programs take, and of a side that is written.
LIMIT = 262144
# More samples or bytes than decoding and encoding need.
ROOM = second_writer.LIMIT


def pcm16(sound):
    """Samples as 16-bit PCM."""
    return struct.pack(f'<{len(sound)}h', *sound)


def written(record, titles, sound):
    """The file of a record; its refusal."""
    made = second_writer.write(record, titles, sound, ROOM)
    if isinstance(made, int):
        raise Refused(made)
    return made


def check(file):
    """What `wave_check FILE` says."""
    second_reader.read(file)
    return ['accepted'], None


def decode(file):
    """What `wave_decode IN OUT` says and writes: cues, playlist and titles are kept."""
    (_, channels, rate, _, _, _), frames, cues, plays, _, _, titles = second_reader.read_all(file)
    _, sound = second_sound.decode(file, ROOM)
    form, (table, texts) = (1, channels, rate, 16, 2 * channels, 1), second_reader.placed(titles)
    record = Record(form, frames, len(cues), cues, len(plays), plays, len(table), table)
    made = written(record, texts, pcm16(sound))
    return [f'frames {frames}', f'bytes {len(made)}'], made


def encode(file, align):
    """What `wave_encode IN OUT ALIGN` says and writes."""
    (_, channels, rate, _, _, _), frames, _, _, _, _ = second_reader.read(file)
    _, sound = second_sound.decode(file, ROOM)
    blocks, left, right = second_ima.encode(sound, channels, align, ROOM)
    form = 17, channels, rate, 4, align, second_ima.frames_in(align, channels)
    made = written(Record(form, frames, 0, [], 0, []), b'', blocks)
    return [f'frames {frames}', f'bytes {len(made)}', f'chased left {left}', f'chased right {right}'], made


def add(side, song, number, limit):
    """What `side_add SIDE SONG NUMBER LIMIT OUT` says and writes."""
    kind, made = second_side.add(side, song, number, limit, LIMIT)
    demand(kind == 'bytes', made)
    return [f'added {number}', f'bytes {len(made)}'], made


def answer(work, *words):
    """What one of these says and writes, where a file may be too long or refused."""
    try:
        for word in words:
            demand(not isinstance(word, bytes) or len(word) <= LIMIT, 1)
        return work(*words)
    except Refused as refusal:
        return [f'refused {refusal.args[0]}'], None
