"""A second way to add songs to sides, from the text of documents 01 and 02 alone, to compare the library's programs
with.

Files are read by the second reader and written by the second writer.
"""
from collections import namedtuple

from second import reader as second_reader, writer as second_writer
from second.reader import Refused, demand
from second.writer import Record

MOST_SONGS = 64

# A song of a side: number and position are its cue's, place and length count frames, sound is its bytes.
Song = namedtuple('Song', 'number position place length sound')


def opened(file):
    """Refusal 19 for a file that is no side; the format of a side, its songs, and its titles."""
    try:
        form, frames, cues, plays, _, sound, titles = second_reader.read_all(file)
    except Refused:
        raise Refused(19) from None
    tag, _, _, bits, align, _ = form
    demand(tag == 1 and bits == 16, 19)
    # The places where songs start and the end of the last one; without cues that end is the start.
    borders = [place for _, _, place in cues] + [frames]
    demand(borders[0] == 0 and all(start < end for start, end in zip(borders, borders[1:])), 19)
    songs = [Song(name, position, start, end - start, sound[start * align:end * align])
             for (name, position, start), end in zip(cues, borders[1:])]
    demand(plays == [(song.number, song.length, 1) for song in songs], 19)
    return form, songs, titles


def songs(file):
    """The songs of a side, in order."""
    return opened(file)[1]


def joined(form, held, titles=()):
    """The record, the texts and the sound of a side with these songs, each put where the one before it ends, and these
    titles."""
    cues = [(song.number, song.position, song.place) for song in held]
    plays = [(song.number, song.length, 1) for song in held]
    frames, (table, texts) = sum(song.length for song in held), second_reader.placed(titles)
    record = Record(form, frames, len(cues), cues, len(plays), plays, len(table), table)
    return record, texts, b''.join(song.sound for song in held)


def answer(written):
    """What the second writer answers, as adding does."""
    return ('refused' if isinstance(written, int) else 'bytes'), written


def empty(channels, rate, room=second_writer.LIMIT):
    """An empty side as ('bytes', the file), or ('refused', 9 or 14)."""
    return answer(second_writer.write(*joined((1, channels, rate, 16, 2 * channels, 1), []), room))


def with_song(side, song, number, limit):
    """Refusals 1 to 13, 21, 19, 9, 16, 18 and 17; the format, the songs and the titles of the new side."""
    (tag, channels, rate, bits, _, _), frames, _, _, _, sound = second_reader.read(song)
    form, held, titles = opened(side)
    demand((tag, bits) == (1, 16) and (channels, rate) == form[1:3], 9)
    demand(frames > 0, 16)
    for listed in held:
        if listed.number == number:
            raise Refused(18 if listed.sound == sound else 16)
    end = sum(listed.length for listed in held)
    demand(len(held) < MOST_SONGS and end + frames <= limit, 17)
    return form, held + [Song(number, end, end, frames, sound)], titles


def add(side, song, number, limit, room):
    """The new side as ('bytes', the file), or ('refused', the number)."""
    try:
        form, held, titles = with_song(side, song, number, limit)
    except Refused as refusal:
        return 'refused', refusal.args[0]
    return answer(second_writer.write(*joined(form, held, titles), room))


def check(side, song, number, limit, room):
    """The answer of `add`; stops where a new side is not the old one with the song behind it, or takes it again."""
    kind, made = add(side, song, number, limit, room)
    if kind == 'bytes':
        form, frames, _, _, _, sound = second_reader.read(song)
        old_form, old, titles = opened(side)
        end = sum(listed.length for listed in old)
        if opened(made) != (old_form, old + [Song(number, end, end, frames, sound)], titles):
            raise ValueError('a song or a title of the new side is lost, moved or changed')
        if list(second_reader.walk(made)) != [b'fmt ', b'cue ', b'plst', *[b'LIST'] * bool(titles), b'data']:
            raise ValueError('the new side has other chunks than it must have')
        other = second_writer.file_of(Record(form, frames, 0, [], 0, []), b'', bytes([sound[0] ^ 1]) + sound[1:])
        if [add(made, file, number, 0, 0) for file in (song, other)] != [('refused', 18), ('refused', 16)]:
            raise ValueError('the new side takes the song again')
    return kind, made
