"""Sides and songs to add to them, at the borders of the rules of documents 01 and 02, as `vectors` takes them.

Beside each stands its answer, worked out by hand from those, and of a few the whole file; the second way to add must
say the same. What `vectors` must print besides is what that says.

An entry is four numbers of two bytes, two of four, the label, the side file and the song file. The numbers are: the
length of the label; the room in bytes, at most 16,384; the lengths of the side file and the song file; the song's
number; the limit in frames. Where both files have no bytes, an empty side is asked for: the number is its channels,
the limit its rate.
"""
import random
import struct

from second import reader as second_reader, side as second_side, writer as second_writer
from second.writer import Record
from vectors import many_files
from vectors.wave_files import (LONG, adtl, bare, chunk, cue, data, entry, fact, fmt, ima, labl, microsoft, note, plst,
                                point, unpadded, wave)
from vectors.writer_records import answer_lines, damaged, hexed, list_size, some_titles, spelled

MOST = 2**32 - 1
ROOM = 16384
TITLE = chunk(b'LIST', b'INFOINAM\x07\0\0\0A song\0\0')
# An unknown chunk of an odd length; the reader ignores the pad's value.
ODD = chunk(b'junk', b'abc')[:-1] + b'\xff'
# The cues and the entries of a side with a song of two frames and one of three.
CUES, PLAYS = [(7, 0), (8, 2)], [(7, 2), (8, 3)]
# A `fmt ` behind its code: of mono at 8,000, and of stereo at 44,100.
MONO, STEREO = '10000000 0100 0100 401f0000 803e0000 0200 1000', '10000000 0100 0200 44ac0000 10b10200 0400 1000'


# ---- files

def sound_of(frames, name, channels=1):
    """The sound of a song, which tells its places and its name apart."""
    return bytes((7 * i + 13 * name + 1) % 251 for i in range(2 * channels * frames))


def song(frames=2, name=5, channels=1, rate=8000, bits=16, sound=None):
    """A song file, with the sound that a side has under this name, where no other is given."""
    sound = sound_of(frames, name, channels) if sound is None else sound
    return wave(fmt(channels=channels, rate=rate, bits=bits), chunk(b'data', sound))


def cue_of(cues):
    """A `cue ` of names and places, with the position that adding gives."""
    return cue(*[point(name, place, place) for name, place in cues])


def plst_of(plays):
    return plst(*[entry(*play) for play in plays])


def pieces(*songs, channels=1):
    """The `cue `, the `plst` and the `data` of a side with these songs, each a name and how many frames."""
    places = [sum(frames for _, frames in songs[:turn]) for turn in range(len(songs))]
    sounds = [sound_of(frames, name, channels) for name, frames in songs]
    return cue_of([(name, place) for (name, _), place in zip(songs, places)]), plst_of(songs), \
        chunk(b'data', b''.join(sounds))


def side(*songs, channels=1, rate=8000):
    """A side with these songs, each a name and how many frames, as document 01 writes it."""
    tables = pieces(*songs, channels=channels)
    return wave(fmt(channels=channels, rate=rate), *(tables if songs else tables[2:]))


def labelled(*titles, songs=((7, 2), (8, 3)), **more):
    """A side with these songs and a list of these titles, as document 02 writes it."""
    cues, plays, sound = pieces(*songs)
    return wave(fmt(), cues, plays, adtl(*titles, **more), sound)


def tabled(cues, plays, form=None, sound=None, more=()):
    """A file with these cues and entries; its sound is that of CUES and PLAYS where no other is given."""
    sound = chunk(b'data', sound_of(2, 7) + sound_of(3, 8)) if sound is None else sound
    return wave(fmt() if form is None else form, *more, cue_of(cues), plst_of(plays), sound)


# ---- vectors

def asked(label, old, new, number, limit, room):
    """An entry as `vectors` takes it: a side file and the file of a song."""
    return struct.pack('<4H2I', len(label), room, len(old), len(new), number, limit) + label.encode() + old + new


def vector(label, old, new, number, limit, room):
    """The entry, and the lines that `vectors` must print of it."""
    kind, made = second_side.check(old, new, number, limit, room)
    lines = [label, *answer_lines(made, room)]
    if kind == 'bytes':
        lines.append(f'again {second_side.add(made, new, number, limit, ROOM)[1]}')
    return asked(label, old, new, number, limit, room), lines


def fitting(made, said):
    """The vector, if its answer is the one by hand: a refusal's number below 44, else the bytes of the new file."""
    answer = f'refused {said}' if said < 44 else f'bytes {said}'
    label, told, *_ = made[1]
    if told != answer:
        raise ValueError(f'{label}: by hand it is {answer}, the second way to add says {told}')
    return made


def adding(label, said, old, new, number=5, limit=MOST, room=None):
    """A song to add, and the answer by hand. The room is enough for any new file, where nothing else is said."""
    room = len(old) + len(new) + 100 if room is None else room
    return fitting(vector(label, old, new, number, limit, room), said)


def start(label, channels, rate, room):
    """An empty side to make, and the lines that `vectors` must print of it."""
    _, made = second_side.empty(channels, rate, room)
    return asked(label, b'', b'', channels, rate, room), [label, *answer_lines(made, room)]


def starting(label, said, channels, rate, room=50):
    """An empty side, and the answer by hand."""
    return fitting(start(label, channels, rate, room), said)


def size(songs, frames, channels=1):
    """How long the file of a side with songs is: the format, two tables with their heads, and the sound."""
    return 44 + (12 + 24 * songs) + (12 + 12 * songs) + 2 * channels * frames


# ---- empty sides, and songs that are added

def starts():
    """Empty sides: refusals 9 and 14, and the nearest that are made."""
    for channels, rate, form in ((1, 8000, MONO), (2, 44100, STEREO)):
        meant = spelled(f"'RIFF' 24000000 'WAVE' 'fmt ' {form} 'data' 00000000")
        if second_side.empty(channels, rate) != ('bytes', meant):
            raise ValueError(f'an empty side by hand is{hexed(meant)}')
        yield starting(f'an empty side, channels {channels}, rate {rate}', 44, channels, rate)
    for rate in (1, 192000):
        yield starting(f'an empty side, rate {rate}', 44, 1, rate)
    # Twice 32,769 is 2 in sixteen bits.
    for channels in (0, 3, 32768, 32769, 65535):
        yield starting(f'an empty side, channels {channels}', 9, channels, 8000)
    for rate in (0, 192001, MOST):
        yield starting(f'an empty side, rate {rate}', 9, 1, rate)
    for room, said in ((0, 14), (43, 14), (44, 44), (45, 44), (ROOM, 44)):
        yield starting(f'an empty side, room {room}', said, 1, 8000, room)
    yield starting('an empty side, channels 3, no room', 9, 3, 8000, 0)
    yield starting('an empty side, rate 0, room 43', 9, 2, 0, 43)


def by_hand():
    """Label, side, song, number and limit; and the whole file behind `RIFF`, byte by byte."""
    code, zeros = "'data'", '00000000 00000000'
    seven, sound = f'07000000 00000000 {code} {zeros} 00000000', '01080f16 1d242b32'
    first = wave(fmt(), chunk(b'data', bytes.fromhex(sound)))
    yield 'the example of document 01', wave(fmt(), data(0)), first, 7, 4, \
        f"68000000 'WAVE' 'fmt ' {MONO} 'cue ' 1c000000 01000000 {seven} " \
        f"'plst' 10000000 01000000 07000000 04000000 01000000 {code} 08000000 {sound}"
    yield 'a second song on the example', tabled([(7, 0)], [(7, 4)], sound=first[36:]), \
        wave(fmt(), chunk(b'data', b'\xff\x7f\0\x80')), 300, 6, \
        f"90000000 'WAVE' 'fmt ' {MONO} " \
        f"'cue ' 34000000 02000000 {seven} 2c010000 04000000 {code} {zeros} 04000000 " \
        f"'plst' 1c000000 02000000 07000000 04000000 01000000 2c010000 02000000 01000000 " \
        f'{code} 0c000000 {sound} ff7f0080'
    own = cue(point(1, 0), point(MOST, 0, 3)), plst(entry(1, 1, 9))
    rich = wave(ODD, fmt(channels=2, rate=44100, more=b'\1\0x'), TITLE, fact(77), data(4), *own)
    yield 'stereo, and a song with chunks of its own', \
        wave(TITLE, fmt(channels=2, rate=44100), fact(9), ODD, data(0)), rich, MOST, 1, \
        f"64000000 'WAVE' 'fmt ' {STEREO} 'cue ' 1c000000 01000000 ffffffff 00000000 {code} {zeros} 00000000 " \
        f"'plst' 10000000 01000000 ffffffff 01000000 01000000 {code} 04000000 01080f16"
    far = wave(plst(entry(9, 1)), fmt(), data(2), cue(point(9, 0, MOST)))
    yield 'an old position, far away', far, wave(fmt(), data(2)), 0, MOST, \
        f"88000000 'WAVE' 'fmt ' {MONO} " \
        f"'cue ' 34000000 02000000 09000000 ffffffff {code} {zeros} 00000000 " \
        f'00000000 01000000 {code} {zeros} 01000000 ' \
        f"'plst' 1c000000 02000000 09000000 01000000 01000000 00000000 01000000 01000000 {code} 04000000 01080108"
    # The side's titles in their order, without the chunk between them; the song's are left where they are.
    nine, kept = cue(point(9, 0)), adtl(note(9, b'abc'), chunk(b'ltxt', b'abc'), labl(9, b'Song'))
    yield 'a side with titles, and a song with titles of its own', \
        wave(fmt(), kept, plst(entry(9, 1)), data(2), nine), \
        wave(fmt(), nine, adtl(labl(9, b'Other'), note(9, b'x')), data(2)), 10, MOST, \
        f"b6000000 'WAVE' 'fmt ' {MONO} " \
        f"'cue ' 34000000 02000000 09000000 00000000 {code} {zeros} 00000000 " \
        f'0a000000 01000000 {code} {zeros} 01000000 ' \
        f"'plst' 1c000000 02000000 09000000 01000000 01000000 0a000000 01000000 01000000 " \
        f"'LIST' 26000000 'adtl' 'note' 08000000 09000000 'abc' 00 'labl' 09000000 09000000 'Song' 00 00 " \
        f'{code} 04000000 01080108'


def examples():
    """Whole files; the first is the one whose listing document 01 prints."""
    for label, old, new, number, limit, rest in by_hand():
        meant = spelled(f"'RIFF' {rest}")
        if second_side.add(old, new, number, limit, len(meant)) != ('bytes', meant):
            raise ValueError(f'{label}: by hand it is{hexed(meant)}')
        yield adding(label, len(meant), old, new, number, limit)


def first_songs():
    """On an empty side: channels, rates, numbers and lengths."""
    for channels, kind in ((1, 'mono'), (2, 'stereo')):
        for rate in (1, 44100, 192000):
            like = {'channels': channels, 'rate': rate}
            yield adding(f'{kind}, rate {rate}', size(1, 1, channels), side(**like), song(1, **like))
    for number in (0, 1, 2**31, MOST):
        yield adding(f'number {number}', size(1, 2), side(), song(), number)
    # A copy takes 64 bytes at a turn.
    for frames in (31, 32, 33, 65):
        yield adding(f'{frames} frames', size(1, frames), side(), song(frames))


def more_songs():
    """Behind other songs; a number counts as listed only where a song has it."""
    names = [(7, 2), (8, 3), (1, 1), (900, 2), (2, 1)]
    for count in range(1, 6):
        frames = sum(length for _, length in names[:count])
        yield adding(f'songs before: {count}', size(count + 1, frames + 2), side(*names[:count]), song())
    for number in (0, 2, 6, 8, 7 + 2**8, 7 + 2**16, 7 + 2**24):
        yield adding(f'number {number} behind 7', size(2, 4), side((7, 2)), song(), number)
    yield adding('number 0 behind the largest', size(2, 2), side((MOST, 1)), song(1), 0)
    yield adding('the largest behind 0', size(2, 2), side((0, 1)), song(1), MOST)
    yield adding('the same sound as 7 has, under 5', size(2, 4), side((7, 2)), song(name=7))
    yield adding('a side as a song', size(2, 4), side((7, 2)), side((8, 1), (5, 1)))
    yield adding('a side as a song of itself', size(3, 6), side((7, 2), (8, 1)), side((7, 2), (8, 1)))
    yield adding('two sounds of more than 64 bytes', size(2, 68), side((7, 33)), song(35))
    two = {'channels': 2, 'rate': 44100}
    yield adding('stereo, songs before: 2', size(3, 5, 2), side((7, 2), (8, 1), **two), song(**two))


def left_out():
    """Skipped chunks, tables, facts and longer formats of either file are not carried over."""
    cues, plays, sound = pieces((7, 2))
    own = cue(point(7, 1), point(5, 0, 9)), plst(entry(5, 1, 3), entry(7, 1))
    long, longer, new = fmt(more=b'\0\0'), fmt(more=bytes(24)), chunk(b'data', sound_of(2, 5))
    for label, made in (('cues and a playlist', wave(fmt(), *own, new)),
                        ('cues behind the sound', wave(fmt(), new, *own)),
                        ('tables of count 0', wave(fmt(), cue(), plst(), new)),
                        ('a fact', wave(fmt(), fact(99), new)), ('a title before', wave(fmt(), TITLE, new)),
                        ('a title behind', wave(fmt(), new, TITLE)), ('odd chunks', wave(ODD, fmt(), ODD, new, ODD)),
                        ('a chunk without its pad', unpadded(fmt(), new, ODD)),
                        ('fmt of 18 bytes', wave(long, new)), ('fmt of 40 bytes', wave(longer, new))):
        yield adding(f'a song with {label}', size(2, 4), side((7, 2)), made)
    for label, old in (('a title before', wave(TITLE, fmt(), cues, plays, sound)),
                       ('a title behind', wave(fmt(), cues, plays, sound, TITLE)),
                       ('odd chunks', wave(ODD, fmt(), cues, ODD, plays, sound, ODD)),
                       ('a chunk without its pad', unpadded(fmt(), cues, plays, sound, ODD)),
                       ('a fact', wave(fmt(), fact(99), cues, plays, sound)),
                       ('the playlist first', wave(plays, cues, fmt(), sound)),
                       ('the sound before the tables', wave(fmt(), sound, plays, cues)),
                       ('fmt of 18 bytes', wave(long, cues, plays, sound)),
                       ('fmt of 40 bytes', wave(longer, cues, plays, sound))):
        yield adding(f'a side with {label}', size(2, 4), old, song())
    for label, tables in (('a cue table', [cue()]), ('a playlist', [plst()]), ('both tables', [cue(), plst()]),
                          ('a fact', [fact(99)]), ('a title', [TITLE])):
        yield adding(f'an empty side with {label}', size(1, 2), wave(fmt(), *tables, data(0)), song())


def positions():
    """Old positions are kept, whatever they are; the place decides."""
    for first, second in ((0, 0), (1, 1), (2, 0), (MOST, MOST - 1)):
        points = cue(point(7, 0, first), point(8, 2, second))
        old = wave(fmt(), points, plst_of(PLAYS), chunk(b'data', sound_of(2, 7) + sound_of(3, 8)))
        yield adding(f'positions {first} and {second}', size(3, 7), old, song())


def titles():
    """The titles of a side are kept, whatever the song's; what is skipped in its list is not."""
    song_of, one = labl(7, b'Song'), note(8, b'A note')
    old = labelled(song_of, one)
    yield adding('a side with titles', size(3, 7) + list_size(4, 6), old, song())
    yield adding('a side with titles in another order', size(3, 7) + list_size(6, 4), labelled(one, song_of), song())
    yield adding('a side with a label and a note of one song', size(3, 7) + list_size(4, 0),
                 labelled(song_of, note(7, b'')), song())
    yield adding('a side with the longest label', size(3, 7) + list_size(255), labelled(labl(7, LONG)), song())
    yield adding('a side with chunks that are skipped among titles', size(3, 7) + list_size(4, 6),
                 labelled(chunk(b'ltxt', b'abc'), song_of, chunk(b'file'), one, chunk(b'labL', b'x')), song())
    yield adding('a side with a list of 4 bytes', size(3, 7), labelled(), song())
    yield adding('a side with a list of skipped chunks', size(3, 7), labelled(chunk(b'ltxt', b'abc')), song())
    yield adding('an empty side with a list of 4 bytes', size(1, 2), wave(fmt(), adtl(), data(0)), song())
    cues, plays, sound = pieces((7, 2), (8, 3))
    for label, made in (('before all others', wave(adtl(song_of), fmt(), cues, plays, sound)),
                        ('behind the sound', wave(fmt(), cues, plays, sound, adtl(song_of))),
                        ('before the cues', wave(fmt(), adtl(song_of), plays, cues, sound)),
                        ('beside lists of other kinds', wave(fmt(), TITLE, cues, adtl(song_of), plays, TITLE, sound)),
                        ('at the end, without pads', unpadded(fmt(), cues, plays, sound, adtl(bare(song_of)))),
                        ('with pads that are not 0', wave(fmt(), cues, plays, adtl(bare(song_of) + b'\xff'), sound))):
        yield adding(f'a side with a list {label}', size(3, 7) + list_size(4), made, song())
    yield adding('a song with titles', size(2, 7), side((7, 2)), labelled(song_of, one))
    yield adding('a song with titles, number 8', size(2, 7), side((7, 2)), labelled(song_of, one), 8)
    yield adding('a song with titles on an empty side', size(1, 5), side(), labelled(song_of, one), 7)
    yield adding('a side with titles, and a song with titles', size(3, 10) + list_size(4, 6), old,
                 labelled(labl(7, b'Other'), songs=((7, 5),)))
    yield adding('a side with titles as a song of itself', size(3, 10) + list_size(4, 6), old, old)
    yield adding('a side with titles, a listed song again', 18, old, song(2, 7), 7)
    yield adding('a side with titles, other sound of a listed song', 16, old, song(), 7)
    many = labelled(*[made(100 + turn, b'') for turn in range(63) for made in (labl, note)],
                    songs=[(100 + turn, 1) for turn in range(63)])
    yield adding('126 titles', size(64, 65) + list_size(*[0] * 126), many, song())
    need = size(3, 7) + list_size(4, 6)
    for room in (0, need - 1, need, need + 1):
        yield adding(f'titles, room {room} of {need}', need if room >= need else 14, old, song(), room=room)


# ---- refusals

def faulty():
    """What is wrong with a file that reading refuses, the number, and the file; but for that it is a side."""
    cues, plays, sound = pieces((7, 2))
    whole = wave(fmt(), cues, plays, sound)
    yield 'no bytes', 1, b''
    yield '11 bytes', 1, whole[:11]
    yield 'RIFX', 2, b'RIFX' + whole[4:]
    yield 'R two too large', 3, wave(fmt(), cues, plays, sound, size=len(whole) - 6)
    yield 'sound past the end', 4, wave(fmt(), cues, plays, chunk(b'data', sound_of(2, 7), 6))
    yield 'a second cue', 5, wave(fmt(), cues, plays, sound, cues)
    yield 'data before fmt', 6, wave(sound, fmt(), cues, plays)
    yield 'LIST of wavl', 7, wave(fmt(), cues, plays, sound, chunk(b'LIST', b'wavl'))
    yield 'no data', 8, wave(fmt(), cues, plays)
    yield 'rate 0', 9, wave(fmt(rate=0), cues, plays, sound)
    yield 'a wrong average', 9, wave(fmt(average=8000), cues, plays, sound)
    yield 'half a frame', 10, wave(fmt(), cues, plays, chunk(b'data', sound_of(3, 7)[:5]))
    yield 'a fact of 3 bytes', 11, wave(fmt(), chunk(b'fact', bytes(3)), cues, plays, sound)
    yield 'IMA without fact', 11, wave(ima(), cues, plays, data(8))
    yield 'a cue at F', 12, tabled([(7, 0), (8, 2)], [(7, 2)], sound=sound)
    yield 'two cues of one name', 12, tabled([(7, 0), (7, 1)], [(7, 1), (7, 1)], sound=sound)
    yield 'a name that no cue has', 13, tabled([(7, 0)], [(8, 2)], sound=sound)
    yield 'times 0', 13, tabled([(7, 0)], [(7, 2, 0)], sound=sound)


def faulty_titles():
    """What is wrong with the titles of a file, and the file; but for that it is a side."""
    cues, plays, sound = pieces((7, 2))
    song_of = labl(7, b'Song')
    for label, made in (('a label of no song', [adtl(labl(9, b'Song'))]), ('two labels', [adtl(song_of, song_of)]),
                        ('a text without zero', [adtl(labl(7, b'Song', b''))]),
                        ('a zero inside a text', [adtl(labl(7, b'So\0ng'))]),
                        ('a text of 256 bytes', [adtl(labl(7, LONG + b'a'))]),
                        ('a title past the list', [adtl(chunk(b'labl', song_of[8:16], 9))]),
                        ('a title without pad', [adtl(bare(song_of))]), ('two lists', [adtl(song_of), adtl()])):
        yield label, wave(fmt(), cues, plays, *made, sound)


def refused_files():
    """The song's refusals 1 to 13 and 21; 19 where the side has them."""
    for label, said, made in (*faulty(), *((label, 21, made) for label, made in faulty_titles())):
        yield adding(f'song: {label}', said, side(), made)
        yield adding(f'side: {label}', 19, made, song())


def wrong_tables():
    """What is wrong with a file of 16-bit PCM that is no side, and the file: five frames, mostly, and two cues."""
    yield 'no cue', wave(fmt(), data(4))
    yield 'no cue, tables of count 0', wave(fmt(), cue(), plst(), data(4))
    yield 'no entry', wave(fmt(), cue(point(7, 0)), data(4))
    yield 'no entry, a playlist of count 0', tabled([(7, 0)], [])
    yield 'cues in another order', tabled(CUES[::-1], PLAYS)
    yield 'cues and entries in another order', tabled(CUES[::-1], PLAYS[::-1])
    yield 'entries in another order', tabled(CUES, PLAYS[::-1])
    yield 'a gap', tabled([(7, 0), (8, 3)], [(7, 2), (8, 2)])
    yield 'an overlap', tabled([(7, 0), (8, 1)], [(7, 2), (8, 4)])
    yield 'an overlap, lengths that fill F', tabled([(7, 0), (8, 1)], PLAYS)
    yield 'two cues at 0', tabled([(7, 0), (8, 0)], PLAYS)
    yield 'the first cue at 1', tabled([(7, 1), (8, 2)], [(7, 1), (8, 3)])
    yield 'the first cue at 1, lengths that fill F', tabled([(7, 1), (8, 2)], PLAYS)
    yield 'the only cue at 1', tabled([(7, 1)], [(7, 4)])
    yield 'the only song not to F', tabled([(7, 0)], [(7, 4)])
    yield 'the last song not to F', tabled(CUES, [(7, 2), (8, 2)])
    yield 'the first song one frame short', tabled(CUES, [(7, 1), (8, 3)])
    yield 'the first song one frame long', tabled(CUES, [(7, 3), (8, 3)])
    yield 'the first song to F', tabled(CUES, [(7, 5), (8, 3)])
    yield 'the first entry missing', tabled(CUES, PLAYS[1:])
    yield 'the last entry missing', tabled(CUES, PLAYS[:1])
    yield 'one entry more, the first again', tabled(CUES, [*PLAYS, PLAYS[0]])
    yield 'one entry more, the last again', tabled(CUES, [*PLAYS, PLAYS[1]])
    yield 'one entry more, in the middle', tabled(CUES, [PLAYS[0], *PLAYS])
    yield 'one cue more, in the last song', tabled([*CUES, (9, 4)], PLAYS)
    yield 'one cue more, at the last place', tabled([*CUES, (9, 2)], PLAYS)
    yield 'one cue more, in the first song', tabled([(7, 0), (9, 1), (8, 2)], PLAYS)
    yield 'two entries of 7', tabled(CUES, [(7, 2), (7, 3)])
    yield 'two entries of 8', tabled(CUES, [(8, 2), (8, 3)])
    yield 'the first twice', tabled(CUES, [(7, 2, 2), (8, 3)])
    yield 'the last twice', tabled(CUES, [(7, 2), (8, 3, 2)])
    yield 'the first very often', tabled(CUES, [(7, 2, MOST), (8, 3)])
    yield 'times 257', tabled(CUES, [(7, 2), (8, 3, 257)])


def wrong_formats():
    """What is wrong with a file that has the tables of a side, and the file."""
    yield '8 bits', tabled(CUES, PLAYS, fmt(bits=8), data(5))
    yield '8 bits in stereo', tabled(CUES, PLAYS, fmt(channels=2, bits=8), data(10))
    yield 'IMA', tabled(CUES, PLAYS, ima(), data(8), [fact(5)])
    yield 'Microsoft', tabled(CUES, PLAYS, microsoft(), data(16), [fact(5)])
    yield '8 bits and no sound', wave(fmt(bits=8), data(0))
    yield 'IMA and no sound', wave(ima(), fact(0), data(0))


def no_sides():
    """Refusal 19, and the side next to it."""
    yield adding('the side itself', size(3, 7), tabled(CUES, PLAYS), song())
    for label, made in (*wrong_tables(), *wrong_formats()):
        yield adding(f'no side: {label}', 19, made, song())


def unlike_songs():
    """Refusal 9: another format than the side's; under a listed number, with the same bytes, too."""
    for old, name in ((side(), 'an empty side'), (side((7, 2)), 'a side')):
        yield adding(f'8 bits on {name}', 9, old, song(name=7, bits=8))
        yield adding(f'8 bits of 7 on {name}', 9, old, song(name=7, bits=8), 7)
        yield adding(f'stereo of 7 on {name}', 9, old, song(1, 7, 2, sound=sound_of(2, 7)), 7)
        yield adding(f'rate 8001 of 7 on {name}', 9, old, song(name=7, rate=8001), 7)
        yield adding(f'rate 7999 on {name}', 9, old, song(rate=7999))
        yield adding(f'IMA on {name}', 9, old, wave(ima(), fact(9), data(8)))
        yield adding(f'Microsoft on {name}', 9, old, wave(microsoft(), fact(4), data(8)))
    yield adding('rate 8000 and 2 to the 16th', 9, side((7, 2)), song(rate=8000 + 2**16))
    stereo = side((7, 2), channels=2)
    yield adding('mono on stereo', 9, stereo, song())
    yield adding('mono of 7 on stereo', 9, stereo, song(sound=sound_of(2, 7, 2)), 7)
    yield adding('8-bit stereo on stereo', 9, stereo, song(name=7, channels=2, bits=8), 7)
    yield adding('another rate on stereo', 9, stereo, song(channels=2, rate=11025))
    yield adding('stereo on stereo', size(2, 4, 2), stereo, song(channels=2))


def silent_songs():
    """Refusal 16: no frames."""
    yield adding('no frames on an empty side', 16, side(), song(0))
    yield adding('no frames on a side', 16, side((7, 2)), song(0))
    yield adding('no frames in stereo', 16, side((7, 2), channels=2), song(0, channels=2))
    yield adding('no frames under a listed number', 16, side((7, 2)), song(0), 7)
    yield adding('no frames, and a fact of 9', 16, side((7, 2)), wave(fmt(), fact(9), data(0)))
    yield adding('one frame', size(2, 3), side((7, 2)), song(1))


def changed(sound, at):
    """The sound with one bit changed."""
    return sound[:at] + bytes([sound[at] ^ 1]) + sound[at + 1:]


def listed_songs():
    """A listed number: 18 for the same sound, 16 for any other."""
    songs = [(7, 2), (8, 3), (9, 2)]
    old, end = side(*songs), b''.join(sound_of(frames, name) for name, frames in songs) + b'\0\0'
    for (name, frames), which, at in zip(songs, ('the first', 'the middle one', 'the last'), (0, 4, 10)):
        own = sound_of(frames, name)
        yield adding(f'{which} again', 18, old, song(sound=own), name)
        for label, sound in (('its first byte changed', changed(own, 0)),
                             ('its last byte changed', changed(own, len(own) - 1)),
                             ('a frame shorter', own[:-2]), ('its first frame gone', own[2:]),
                             ('a frame longer, as on the side', end[at:at + len(own) + 2])):
            yield adding(f'{which}, {label}', 16, old, song(sound=sound), name)
    yield adding('the first, the sound of the last', 16, old, song(2, 9), 7)
    yield adding('the last, the sound of the first', 16, old, song(2, 7), 9)
    yield adding('the first, the sound of the side', 16, old, song(sound=end[:-2]), 7)
    yield adding('the middle one, other sound', 16, old, song(3), 8)
    two = side((7, 2), (8, 2), channels=2)
    yield adding('stereo, the last again', 18, two, song(2, 8, 2), 8)
    yield adding('stereo, the last byte changed', 16, two, song(channels=2, sound=changed(sound_of(2, 8, 2), 7)), 8)
    yield adding('stereo, a frame shorter', 16, two, song(1, 8, 2), 8)
    own = chunk(b'data', sound_of(2, 7))
    rich = wave(TITLE, fmt(more=b'\0\0'), fact(1), cue(point(7, 1)), plst(entry(7, 1, 2)), own, ODD)
    yield adding('the same sound in another file', 18, side((7, 2)), rich, 7)
    yield adding('a side of it as the song', 18, side((7, 2)), side((7, 2)), 7)
    moved = wave(fmt(), own, plst(entry(7, 2)), cue(point(7, 0, 99)), TITLE)
    yield adding('again on a side with a title and another position', 18, moved, song(2, 7), 7)
    for name in (0, MOST):
        yield adding(f'number {name} again', 18, side((7, 1), (name, 2)), song(2, name), name)
        yield adding(f'number {name}, other sound', 16, side((7, 1), (name, 2)), song(), name)
    yield adding('equal songs, the second again', 18, equal_songs(), song(2, 7), 8)


def equal_songs():
    """A side with one sound under two numbers."""
    return tabled([(7, 0), (8, 2)], [(7, 2), (8, 2)], sound=chunk(b'data', sound_of(2, 7) * 2))


def long_songs():
    """A listed number whose sound is longer than 64 bytes, and the places of the byte that differs."""
    own, old = sound_of(70, 7), side((7, 70))
    yield adding('70 frames again', 18, old, song(sound=own), 7)
    for at in (63, 64, 128, 139):
        yield adding(f'70 frames, byte {at} changed', 16, old, song(sound=changed(own, at)), 7)


def full_side(n):
    """A side of n songs of one frame, 100 and on."""
    return side(*[(100 + turn, 1) for turn in range(n)])


def limits():
    """Refusal 17: the limit counts frames, those of the side too."""
    old = side((7, 2), (8, 3))
    for limit, said in ((8, size(3, 7)), (7, size(3, 7)), (6, 17), (5, 17), (4, 17), (0, 17)):
        yield adding(f'5 and 2 frames, limit {limit}', said, old, song(), limit=limit)
    for limit, said in ((3, size(1, 2)), (2, size(1, 2)), (1, 17), (0, 17)):
        yield adding(f'2 frames on an empty side, limit {limit}', said, side(), song(), limit=limit)
    old = side((7, 2), channels=2)
    for limit, said in ((4, size(2, 4, 2)), (3, 17)):
        yield adding(f'stereo, 2 and 2 frames, limit {limit}', said, old, song(channels=2), limit=limit)


def full_sides():
    """Refusal 17: 64 songs."""
    yield adding('songs before: 63', size(64, 65), full_side(63), song(), limit=65)
    yield adding('songs before: 64', 17, full_side(64), song())
    yield adding('songs before: 64, the last again', 18, full_side(64), song(1, 163), 163)


def rooms():
    """Refusal 14: no room, one byte short, exactly enough, and more, where old contents stay."""
    old, need = side((7, 2)), size(2, 4)
    for room in (0, 44, need - 1, need, need + 1, ROOM):
        yield adding(f'room {room} of {need}', need if room >= need else 14, old, song(), room=room)
    need = size(1, 1, 2)
    for room in (0, need - 1, need):
        said = need if room >= need else 14
        yield adding(f'stereo, room {room} of {need}', said, side(channels=2), song(1, channels=2), room=room)
    long = wave(TITLE, fmt(), *pieces((7, 2)), TITLE)
    yield adding('room for less than the old file', size(2, 4), long, song(), room=size(2, 4))


def all_at_once():
    """All faults at once, and one after the other put right, down to the file."""
    bad, wrong, old = wave(fmt(rate=0), data(1)), wave(fmt(), data(4)), side((7, 2))
    silent = song(0, bits=8)
    for label, said, *asks in (
            ('all faults from the song on', 9, wrong, bad, 7, 0, 0),
            ('all faults from 21 on', 21, wrong, wave(fmt(bits=8), adtl(labl(7, b'Song')), data(0)), 7, 0, 0),
            ('all faults from 19 on', 19, wrong, silent, 7, 0, 0),
            ('all faults from 9 on', 9, old, silent, 7, 0, 0),
            ('all faults from no frames on', 16, old, song(0), 7, 0, 0),
            ('all faults from other sound on', 16, old, song(), 7, 0, 0),
            ('all faults from 18 on', 18, old, song(2, 7), 7, 0, 0),
            ('all faults from 17 on', 17, old, song(), 5, 0, 0),
            ('all put right but the room', 14, old, song(), 5, 4, 0),
            ('all put right', size(2, 4), old, song(), 5, 4, 300)):
        yield adding(label, said, *asks)


def with_wrong_lists(wrong, old, eight):
    """Two faults at once, one of them a wrong list of titles; it is wrong, as there are no cues."""
    listed = adtl(labl(7, b'Song'))
    untrue = wave(fmt(), listed, data(4))
    yield adding('a wrong playlist and a wrong list, and no side', 13, wrong,
                 wave(fmt(), plst(entry(7, 1)), listed, data(4)))
    yield adding('a wrong list, and no side', 21, wrong, untrue)
    yield adding('a wrong list, and a side with one', 21, wave(fmt(), listed, data(0)), untrue)
    yield adding('a wrong list, and a side that is refused', 21, b'', untrue)
    yield adding('a wrong list in 8 bits', 21, old, wave(fmt(bits=8), listed, data(4)))
    yield adding('a wrong list without frames', 21, old, wave(fmt(), listed, data(0)))
    yield adding('a wrong list of a listed number, over the limit, no room', 21, old, untrue, 7, 0, 0)
    yield adding('a side with a wrong list, and a song in 8 bits', 19, wave(fmt(), listed, data(0)), eight)


def two_by_two():
    """Two faults at once: the earlier one decides."""
    wrong, old = wave(fmt(), data(4)), side((7, 2))
    half, silent, eight = wave(fmt(), data(3)), song(0, bits=8), song(name=7, bits=8)
    yield adding('half a frame, and no side', 10, wrong, half)
    yield adding('half a frame, and a side that is refused', 10, b'', half)
    yield adding('a song and a side that are refused', 2, half, b'RIFX' + song()[4:])
    yield adding('a song of no bytes, and no side', 1, wrong, b'')
    yield adding('a wrong playlist, and no side', 13, wrong, wave(fmt(), plst(entry(7, 1)), data(4)))
    yield from with_wrong_lists(wrong, old, eight)
    yield adding('a wrong cue in a song without frames', 12, old, wave(fmt(), cue(point(7, 0)), data(0)))
    yield adding('a song that is refused, in 8 bits', 11, old, wave(fmt(bits=8), chunk(b'fact'), data(4)))
    yield adding('half a frame of a listed number', 10, old, half, 7)
    yield adding('half a frame over the limit', 10, old, half, limit=2)
    yield adding('half a frame and no room', 10, old, half, room=0)
    yield adding('no side, and a song in 8 bits', 19, wrong, eight)
    yield adding('8 bits, both', 19, wave(fmt(bits=8), data(0)), eight)
    yield adding('no side, and a song without frames', 19, wrong, song(0))
    yield adding('no side, and the first listed again', 19, tabled(CUES, [(7, 2), (8, 2)]), song(2, 7), 7)
    yield adding('no side, and other sound of the first', 19, tabled(CUES, [(7, 2), (8, 2)]), song(), 7)
    yield adding('no side, over the limit', 19, wrong, song(), limit=0)
    yield adding('no side and no room', 19, wrong, song(), room=0)
    yield adding('8 bits without frames', 9, old, silent)
    yield adding('8 bits of a listed number', 9, old, eight, 7)
    yield adding('8 bits over the limit', 9, old, eight, limit=2)
    yield adding('8 bits and no room', 9, old, eight, room=0)
    yield adding('no frames over the limit', 16, side((7, 3)), song(0), limit=2)
    yield adding('no frames and no room', 16, old, song(0), room=0)
    yield adding('listed again, over the limit', 18, old, song(2, 7), 7, limit=2)
    yield adding('listed again and no room', 18, old, song(2, 7), 7, room=0)
    yield adding('listed with other sound, over the limit', 16, old, song(), 7, limit=3)
    yield adding('listed with other sound and no room', 16, old, song(), 7, room=0)
    yield adding('over the limit, one byte short', 17, old, song(), limit=3, room=size(2, 4) - 1)
    yield adding('over the limit and no room', 17, old, song(), limit=3, room=0)


def all_vectors():
    return [*starts(), *examples(), *first_songs(), *more_songs(), *left_out(), *positions(), *titles(),
            *refused_files(), *no_sides(), *unlike_songs(), *silent_songs(), *listed_songs(), *long_songs(), *limits(),
            *full_sides(), *rooms(), *all_at_once(), *two_by_two()]


# ---- what is tried besides

def large():
    """Full sides and long songs, too long to be stored."""
    many, full = full_side(63), full_side(64)
    yield adding('songs before: 63, one frame over the limit', 17, many, song(), limit=64)
    yield adding('songs before: 63, exactly enough room', size(64, 65), many, song(), room=size(64, 65))
    yield adding('songs before: 63, one byte short', 14, many, song(), room=size(64, 65) - 1)
    yield adding('songs before: 64, over the limit, no room', 17, full, song(), limit=0, room=0)
    yield adding('songs before: 64, the first again', 18, full, song(1, 100), 100, limit=0, room=0)
    yield adding('songs before: 64, the last with other sound', 16, full, song(), 163)
    yield adding('songs before: 64, the first with other sound', 16, full, song(1), 100)
    yield adding('songs before: 64, no frames', 16, full, song(0))
    yield adding('songs before: 64, another rate', 9, full, song(rate=1))
    often = full.index(b'data', 2000) - 4
    yield adding('songs before: 64, the last twice', 19, full[:often] + b'\2' + full[often + 1:], song())
    yield adding('300 frames to the limit', size(2, 301), side((7, 1)), song(300), limit=301)
    yield adding('300 frames over the limit', 17, side((7, 1)), song(300), limit=300)
    # 140 bytes of such a file are no sound.
    for frames, said in ((8122, ROOM), (8123, 14)):
        yield adding(f'{frames} frames, room {ROOM}', said, side((7, 4000)), song(frames - 4000), room=ROOM)
    long, sound = side((7, 4000)), sound_of(4000, 7)
    yield adding('4000 frames again', 18, long, song(sound=sound), 7)
    for at in (0, 4095, 4096, 7999):
        yield adding(f'4000 frames, byte {at} changed', 16, long, song(sound=changed(sound, at)), 7)


def some_songs(chance, channels):
    """The songs of a side, with positions and sounds of any kind."""
    held, place = [], 0
    for number in chance.sample([*range(80), 2**31, MOST], chance.choice([0, 1, 1, 2, 3, 5, 9] * 5 + [62, 63, 64])):
        length = chance.choice([1, 2, chance.randint(1, 50)])
        position = chance.choice([place, 0, chance.randint(0, MOST)])
        held.append(second_side.Song(number, position, place, length, chance.randbytes(2 * channels * length)))
        place += length
    return held


def rearranged(file, chance):
    """The file with its tables anywhere, and now and then chunks that are skipped, the last without its pad."""
    (first, *tables, last), _ = many_files.chunks_of(file)
    skipped = [TITLE, ODD, fact(chance.randrange(99)), chunk(b'LIST')]
    tables += chance.sample(skipped, chance.choice([0, 0, 1, 2]))
    chance.shuffle(tables)
    one, two = sorted(chance.choices(range(len(tables) + 1), k=2))
    order = [*tables[:one], first, *tables[one:two], last, *tables[two:]]
    return (unpadded if order[-1] == ODD and chance.random() < 0.5 else wave)(*order)


def some_file(chance, record, texts, sound):
    """The file of a record, its texts and its sound; now and then it says something else, or is damaged."""
    way = chance.randrange(12)
    if way == 0:
        record, texts, sound = damaged(record, texts, sound, chance)
    elif way == 1:
        field = chance.choice(['cues', 'plays'])
        record = record._replace(**{field: chance.sample(getattr(record, field), len(record.cues))})
    file = second_writer.file_of(record, texts, sound)
    if way == 2:
        return many_files.another(file, chance) or b'R'
    return file if way < 6 else rearranged(file, chance)


def some_sound(chance, held, number, align):
    """The sound of a song: that of its number, nearly that, or any."""
    own = next((song.sound for song in held if song.number == number), b'')
    way = chance.randrange(8) if own else 7
    if way < 3:
        return own
    if way == 3:
        return changed(own, chance.randrange(len(own)))
    if way == 4:
        return chance.choice([own[:-align], own[align:], own + own[:align]])
    if way == 5:
        return chance.choice(held).sound
    return chance.randbytes(align * chance.choice([0, *[1, 2, 3] * 4, 30, 60]))


def some_record(chance, channels, rate, sound):
    """The record of a song, mostly of these channels and this rate; now and then with a cue of its own."""
    align = 2 * channels
    form = chance.choice([(1, channels, rate, 16, align, 1)] * 20 + [(1, 3 - channels, rate, 16, 6 - align, 1),
                         (1, channels, rate + 1, 16, align, 1), (1, channels, rate, 8, channels, 1)])
    frames = len(sound) // form[4]
    own = [(7, 0, 0)] if frames and chance.random() < 0.2 else []
    titles, texts = second_reader.placed([(0, chance.choice([7] * 9 + [9]), b'Own\0')] * len(own))
    return Record(form, frames, len(own), own, len(own), [(7, 1, 2)] * len(own), len(titles), titles), texts


def some_vector(chance, label):
    """A song to add to a side, or now and then an empty side to make."""
    channels, rate, room = chance.choice([1, 2]), chance.choice([1, 8000, 44100]), chance.choice([0, 43, 44, 60])
    if chance.random() < 0.02:
        return start(label, chance.choice([channels, 0, 3, 32769]), chance.choice([rate, 0, 192000, 192001]), room)
    held = some_songs(chance, channels)
    listed = [chance.choice(held).number] * 2 if held else []
    number = chance.choice([*listed, chance.randrange(80), chance.randrange(2**32), MOST, 0])
    sound = some_sound(chance, held, number, 2 * channels)
    record, _, joined = second_side.joined((1, channels, rate, 16, 2 * channels, 1), held)
    titles, texts = some_titles(chance, [song.number for song in held])
    old = some_file(chance, record._replace(title_count=len(titles), titles=titles), texts, joined)
    new = some_file(chance, *some_record(chance, channels, rate, sound), sound)
    end = sum(song.length for song in held)
    most = end + len(sound) // (2 * channels)
    limit = chance.choice([*[MOST, most] * 4, most + 1, max(most - 1, 0), end, 0])
    kind, made = second_side.add(old, new, number, limit, ROOM)
    need = len(made) if kind == 'bytes' else len(old) + len(new)
    room = need + chance.choice([*[0] * 6, 1, 100, -1, -need])
    return vector(label, old, new, number, limit, max(min(room, ROOM), 0))


def many(count, seed):
    """The large ones, and so many more songs to add, the same for the same seed."""
    chance = random.Random(seed)
    yield from large()
    for place in range(count):
        yield some_vector(chance, str(place))
