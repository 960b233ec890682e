"""Files with one fault each: the command reports its number and its place. And why a song is not added."""
import random
import struct

from host.places import codes, field_of, first, place_in, refusal_of, with_junk
from host.run import MOST, does, refuses
from trying import expect
from second import command as second_command, reader as second_reader, side as second_side
from second.command import answer
from vectors import side_files, sound_files
from vectors.wave_files import (LONG, LONGER, PAIRS, adtl, bare, chunk, cue, data, entry, fact, fmt, ima, labl,
                                microsoft, note, plst, point, unpadded, wave)


# ---- faults that are made by hand

def meant(bits, tag):
    """What an extensible format adds to the first 16 bytes: its valid bits, a mask, and the tag that it stands for."""
    return struct.pack('<HHIH', 22, bits, 1, tag) + bytes.fromhex('000000001000800000aa00389b71')


def faults():
    """Label, file and number of a file with one fault, and what must be in the words on it.

    Where the length of the file matters, which another chunk changes, `end` stands for it.
    """
    whole = wave(fmt(), data())
    yield 'four bytes', b'RIFF', 1, [4, 12, MOST]
    yield 'RIFX', wave(fmt(), data(), code=b'RIFX'), 2, ['RIFX', 'RIFF']
    yield 'another form', wave(fmt(), data(), form=b'WAVX'), 2, ['WAVX', 'WAVE']
    yield 'an MP3 file', b'ID3\4' + bytes(20), 2, ['RIFF', 'MP3']
    yield 'a FLAC file', b'fLaC' + bytes(20), 2, ['fLaC', 'FLAC']
    eight, right = [fmt(bits=8), data(7)], len(whole) - 8
    yield 'R for a pad that is absent', unpadded(*eight, counted=1), 3, [right, right + 7, '1 too few']
    yield 'R without a pad that is there', wave(*eight, size=right - 1), 3, [right - 1, right + 8, '1 too many']
    yield 'R too large', wave(fmt(), data(), size=len(whole) + 92), 3, [len(whole) + 92, len(whole), '100 too few']
    yield 'R too small', wave(fmt(), data(), size=len(whole) - 20), 3, [len(whole) - 20, len(whole), '12 too many']
    for size in (0, 0xffffffff, 0x7ffff024):
        yield f'R {size}', wave(fmt(), data(), size=size), 3, [size, 'cut off while it was written']
    for size in (0, 0xffffffff, 0x7ffff000):
        sound = chunk(b'data', bytes(range(200, 216)), size)
        yield f'data size {size}', wave(fmt(), sound), 4, [size, 'cut off while it was written']
    yield 'no sound and a broken LIST', wave(fmt(), data(0), chunk(b'LIST', b'', 2)), 4, [2, 'end']
    yield 'data past the end', wave(fmt(), chunk(b'data', bytes(8), 10)), 4, [10, 'end']
    yield 'the last chunk past the end', wave(fmt(), data(), chunk(b'junk', b'', 2**32 - 8)), 4, [2**32 - 8, 'end']
    yield 'a head that is cut', wave(fmt(), data(), b'LIST\0\0'), 4, ['end']
    for name, made in (('fmt', fmt()), ('data', data()), ('fact', fact(4)), ('cue', cue()), ('plst', plst())):
        twice = wave(fmt(), data(), fact(4), cue(), plst(), chunk(b'LIST'), made)
        yield f'a second {name}', twice, 5, ['second', 'first']
    yield 'data before fmt', wave(chunk(b'junk'), data(), fmt()), 6, ['fmt ']
    yield 'LIST of wavl', wave(fmt(), chunk(b'LIST', b'INFO'), chunk(b'LIST', b'wavl'), data()), 7, ['wavl']
    yield 'no fmt', wave(chunk(b'junk')), 8, ['fmt ']
    yield 'no data', wave(fmt()), 8, ['data']
    yield '16-bit sound of 7 bytes', wave(fmt(), data(7)), 10, [7, 1, 2]
    yield 'IMA of a block and a half', wave(ima(), fact(9), data(12)), 10, [12, 4, 8]
    yield 'no fact', wave(ima(), data(8)), 11, ['fact']
    yield 'a fact of 3 bytes', wave(fmt(), chunk(b'fact', b'\0\0\0'), data()), 11, [3, 4]
    yield 'a count of 10 for 9', wave(ima(), fact(10), data(8)), 11, [10, 1, 9]
    yield 'a count of 8 in three blocks', wave(microsoft(2, 16, 4), fact(8), data(48)), 11, [8, 3, 4, 9, 12]
    yield 'a count of 1 without a block', wave(ima(), fact(1), data(0)), 11, [1, 0]


def format_faults():
    """The same of formats."""
    for label, made, said in (
            ('14 bytes', chunk(b'fmt ', fmt()[8:22]), [14, 16]), ('float', fmt(tag=3), [3, 'floating point']),
            ('extensible', fmt(tag=65534), [65534, 'extensible']), ('A-law', fmt(tag=6, bits=8), [6, 'A-law']),
            ('extensible of 24 bits', fmt(tag=65534, bits=24, more=meant(24, 1)), [65534, '24-bit PCM']),
            ('three channels', fmt(channels=3), [3]),
            ('no channel', fmt(channels=0, align=2), [0]), ('rate 0', fmt(rate=0), [0, 192000]),
            ('rate 192001', fmt(rate=192001), [192001, 192000]), ('24 bits', fmt(bits=24), [24, 8, 16]),
            ('align 3', fmt(align=3), [3, 2]), ('average 8000', fmt(average=8000), [8000, 16000]),
            ('IMA of 19 bytes', chunk(b'fmt ', ima()[8:27]), [19, 20]), ('IMA, extension 1', ima(extension=1), [1, 2]),
            ('IMA, extension 258', ima(extension=258), [258, 2]), ('IMA of 16 bits', ima(bits=16), [16, 4]),
            ('IMA, align 10', ima(align=10, samples=13), [10, 8, 4096, 4]),
            ('IMA, align 4100', ima(align=4100, samples=8193), [4100, 4096]),
            ('IMA stereo, align 20', ima(2, 20, 13), [20, 16, 4096, 8]), ('IMA, samples 10', ima(samples=10), [10, 9]),
            ('Microsoft of 48 bytes', chunk(b'fmt ', microsoft()[8:56]), [48, 50]),
            ('Microsoft, extension 31', microsoft(extension=31), [31, 32]),
            ('Microsoft of 8 bits', microsoft(bits=8), [8, 4]),
            ('Microsoft, align 7', microsoft(align=7, samples=2), [7, 8, 4096]),
            ('Microsoft, samples 5', microsoft(samples=5), [5, 4]),
            ('Microsoft, six pairs', microsoft(count=6), [6, 7]),
            ('Microsoft, other pairs', microsoft(pairs=[1] * 14), ['pair 1', '(256, 0)']),
            ('Microsoft, another last pair', microsoft(pairs=[*PAIRS[:13], 232]), ['pair 7', '(392, -232)'])):
        yield label, wave(chunk(b'LIST', b'odd'), made, fact(1), data(8)), 9, said
        yield f'{label}, after others', wave(fact(1), cue(), made, data(8)), 9, said


def table_faults():
    """The same of cues and of the playlist, whose entries are reported by their names."""
    big, good = 4000000000, [point(7, 0), point(8, 3)]
    for label, made, said in (
            ('no bytes', chunk(b'cue '), [0]), ('65 cues', cue(*[point(n, 0) for n in range(65)]), [65, 64]),
            ('one counted and none there', cue(count=1), [4, 1, 28]), ('a cue at F', cue(*good, point(big, 4)), [4]),
            ('a cue far away', cue(*good, point(big, 99), point(9, 98)), [99, 4]),
            ('another chunk', cue(*good, point(big, 0, code=b'slnt')), ['slnt', 'data']),
            ('a chunk start', cue(point(big, 0, start=31), *good), [31, 0]),
            ('a block start', cue(*good, point(big, 0, block=77)), [77, 0]),
            ('a name again', cue(*good, point(7, 1)), ['name'])):
        yield label, wave(fmt(), made, data()), 12, said
        yield f'{label}, in IMA', wave(ima(), data(8), fact(4), made), 12, said
    for label, made, said in (
            ('no bytes', chunk(b'plst'), [0]), ('65 entries', plst(*[entry(7, 1)] * 65), [65, 64]),
            ('two counted and one there', plst(entry(7, 1), count=2), [16, 2, 28]),
            ('no such cue', plst(entry(7, 4), entry(big, 1)), ['cue']),
            ('no frames', plst(entry(7, 1), entry(8, 0)), ['frames']),
            ('past the end', plst(entry(7, 4), entry(8, 2)), [3, 5, 4]), ('never', plst(entry(7, 4, 0)), [0])):
        yield f'playlist, {label}', wave(fmt(), cue(*good), made, data()), 13, said
        yield f'playlist, {label}, before the cues', wave(made, fmt(), data(), cue(*good)), 13, said


def title_faults():
    """The same of the list of titles, at its front, behind a title and another chunk, and behind 4,096 bytes."""
    cues, song, odd = cue(point(7, 0), point(8, 3)), labl(7, b'Song'), chunk(b'ltxt', b'abc')
    before = [], [song, odd], [chunk(b'file', bytes(range(256)) * 20), note(8, LONG)]
    for label, made, said in (
            ('a label of 4 bytes', labl(8, b'', b''), [4, 5, 260, 255]),
            ('a note of no bytes', chunk(b'note'), [0, 5, 260, 255]), ('a text of 256 bytes', labl(8, LONGER), [261]),
            ('no zero', labl(8, b'Tune', b'!'), ['last', 'zero']),
            ('a zero inside', labl(8, b'Tu\0ne'), ['last', 'zero']),
            ('no such cue', labl(9, b'Song'), ['cue']), ('the largest name', note(2**32 - 1, b'Song'), ['cue']),
            ('a second label', song + note(7, b'x') + labl(7, b''), ['second', 'first']),
            ('a second note', note(7, b'x') + labl(8, b'') + note(7, b'x'), ['second', 'first']),
            ('past the list', chunk(b'labl', song[8:16], 9), [9]),
            ('past the file', chunk(b'ltxt', b'', 2**32 - 1), [2**32 - 1]),
            ('a title without its pad', bare(song), [9, 'pad']), ('another without its pad', bare(odd), [3, 'pad']),
            ('a head that is cut', b'labl\x09\0', ['header'])):
        for turn, front in enumerate(before):
            yield f'titles, {label}, {turn}', wave(fmt(), cues, adtl(*front, made), data()), 21, said
    yield 'two lists of titles', wave(fmt(), cues, adtl(song), data(), adtl()), 21, ['second', 'first']
    yield 'titles and no cues', wave(fmt(), adtl(song), data()), 21, ['cue']
    yield 'a list behind the sound', wave(fmt(), cues, data(), adtl(bare(song))), 21, [9, 'pad']


def placed():
    """A fault is reported with chunk, field, byte and cue, and the numbers that matter; also after a skipped chunk."""
    for label, file, number, words in [*faults(), *format_faults(), *table_faults(), *title_faults()]:
        for made in [file] if number < 4 else [file, with_junk(file, 12)]:
            expect(f'{label}, the number by the second reader', refusal_of(made), number)
            where = {'file': 'file.wav', **place_in(number, made)}
            said = [len(made) if word == 'end' else word for word in words]
            for call in (['list', 'file.wav'], ['check', 'file.wav'], ['decode', 'file.wav', 'new.wav'],
                         ['encode', 'file.wav', 'new.wav']):
                refuses(f'{call[0]}, {label}', call, {'file.wav': made}, number, where, said)


def block_places():
    """Refusal 15 is reported with block and channel, both counted from 1, and byte; of two wrong blocks the first."""
    for tag, channels, turn in [(tag, channels, turn) for tag in (17, 2) for channels in (1, 2) for turn in range(3)]:
        most = 88 if tag == 17 else 6
        block, channel, value = ((0, 0, most + 1), (3, channels - 1, 255), (6, 0, most + 2))[turn]
        chance, align = random.Random(turn), 24 * channels
        blocks = [sound_files.some_block(chance, tag, channels, align, at == 6 and block < 6) for at in range(7)]
        within = 4 * channel + 2 if tag == 17 else channel
        blocks[block] = blocks[block][:within] + bytes([value]) + blocks[block][within + 1:]
        file = with_junk(sound_files.adpcm(tag, channels, *blocks), 12)
        name = 'step index' if tag == 17 else 'predictor'
        samples = (24 - 4) * 2 + 1 if tag == 17 else (24 - 7) * 2 + 2
        time = f'0:00.{round(block * samples / 8):03}'
        where = {'file': 'file.wav', **field_of(file, b'data', name, align * block + within), 'block': block + 1,
                 'blocks': 7, 'channel': channel + 1}
        for call in (['decode', 'file.wav', 'new.wav'], ['encode', 'file.wav', 'new.wav'],
                     ['check', 'file.wav', '--sound']):
            refuses(f'{call[0]}, tag {tag}, {channels} channels, block {block}', call, {'file.wav': file}, 15, where,
                    [value, most, time])


# ---- why a song is not added

def no_side(file):
    """The place of what makes a file of 16-bit PCM no side: the first song that is not where it must be, or the end."""
    _, _, cues, plays, _, _ = second_reader.read(file)
    end = 0
    for turn, ((name, _, place), (listed, length, times)) in enumerate(zip(cues, plays)):
        rules = [(b'cue ', 'sample offset', 24 * turn + 20, place == end),
                 (b'plst', 'name', 12 * turn, listed == name), (b'plst', 'times', 12 * turn + 8, times == 1)]
        wrong = [field_of(file, code, field, 4 + offset) for code, field, offset, met in rules if not met]
        if wrong:
            return {**wrong[0], 'cue': name}
        end += length
    if not cues or b'plst' not in codes(file):
        return {}
    if len(cues) != len(plays):
        return field_of(file, b'plst', 'count', 0)
    return {**field_of(file, b'plst', 'length', 4 + 12 * (len(plays) - 1) + 4), 'cue': cues[-1][0]}


def not_added(label, side, song, number, limit, refusal, where, said=()):
    """Adding is refused, in place and to another file, and the place is reported; the files stay."""
    files = {'side.wav': side, 'song.wav': song}
    answered = answer(second_command.add, side, song, number, limit)
    expect(f'{label}, by the second way', answered, ([f'refused {refusal}'], None))
    words = ['add', 'side.wav', 'song.wav', '--number', number, '--limit', limit]
    refuses(f'add, {label}', words, files, refusal, where, said)
    refuses(f'add to another file, {label}', [*words, '--out', 'new.wav'], files, refusal, where, said)


def wrong_files():
    """What is wrong with a song's file is reported as of any file; of a side it is 19, with the number in the words."""
    side, song = side_files.side((7, 2)), side_files.song()
    for label, number, made in side_files.faulty():
        place = place_in(number, made)
        not_added(f'song: {label}', side, made, 5, 99, number, {'file': 'song.wav', **place})
        not_added(f'side: {label}', made, song, 5, 99, 19, {'file': 'side.wav', **place}, [number])
    for label, made in side_files.faulty_titles():
        place = place_in(21, made)
        not_added(f'song: {label}', side, made, 5, 99, 21, {'file': 'song.wav', **place})
        not_added(f'side: {label}', made, song, 5, 99, 19, {'file': 'side.wav', **place}, [21])
    for label, made in side_files.wrong_tables():
        not_added(f'no side: {label}', made, song, 5, 99, 19, {'file': 'side.wav', **no_side(made)})
    for label, made in side_files.wrong_formats():
        tag = made[first(made, b'fmt ')[0] + 8]
        field, said = (('bits per sample', 14), [8, 16]) if tag == 1 else (('tag', 0), [tag, 1])
        where = {'file': 'side.wav', **field_of(made, b'fmt ', *field)}
        not_added(f'no side: {label}', made, song, 5, 99, 19, where, said)


def wrong_songs():
    """Refusals 9 and 16 to 18: the file in which the reason is, the cue, and the numbers that matter."""
    side, song = side_files.side((7, 2), (8, 3)), side_files.song
    on_side, in_song = {'file': 'side.wav'}, {'file': 'song.wav'}
    for label, made, field, said in (('8 bits', song(bits=8), ('bits per sample', 14), [8, 16]),
                                     ('IMA', wave(ima(), fact(9), data(8)), ('tag', 0), [17, 1]),
                                     ('stereo', song(channels=2), ('channels', 2), [2, 1]),
                                     ('rate 8001', song(rate=8001), ('rate', 4), [8001, 8000])):
        not_added(label, side, made, 5, 99, 9, {**in_song, **field_of(made, b'fmt ', *field)}, said)
    silent = wave(chunk(b'junk', b'abc'), fmt(), data(0))
    not_added('no frames', side, silent, 8, 99, 16, {**in_song, **field_of(silent, b'data', 'size', 0)}, [0])
    own = side_files.sound_of(3, 8)
    for label, sound, said in (('another byte', own[:3] + b'\0' + own[4:], [3, 3, 1]),
                               ('longer', own + b'ab', [3, 4, 3]), ('shorter', own[:4], [3, 2, 2]),
                               ('other sound', bytes(60), [3, 30, 0])):
        not_added(label, side, song(sound=sound), 8, 99, 16, {**on_side, 'cue': 8}, said)
    not_added('the second song again', side, song(3, 8), 8, 99, 18, {**on_side, 'cue': 8}, [2])
    not_added('the first song again', side, song(2, 7), 7, 0, 18, {**on_side, 'cue': 7}, [1, 0])
    not_added('past the limit', side, song(20), 5, 21, 17, on_side, [5, 20, 25, 4, 21, '0:00.001'])
    not_added('64 songs', side_files.full_side(64), song(), 5, 99, 17, on_side, [64])


def other_refusals():
    """An align that cannot be, and an empty side that cannot."""
    files = {'file.wav': side_files.song(channels=2)}
    for align in (0, 4, 6, 8, 20, 4100, 65535):
        refuses(f'align {align}', ['encode', 'file.wav', 'new.wav', '--align', align], files, 9, {'file': 'file.wav'},
                [align, 16, 4096, 8])
    for channels, rate in ((0, 8000), (3, 8000), (65535, 44100), (32769, 1), (1, 0), (2, 192001), (2, 2**32 - 1)):
        words = ['new-side', 'new.wav', '--channels', channels, '--rate', rate]
        refuses(f'{channels} channels, rate {rate}', words, {}, 9, {'file': 'new.wav'}, [channels, rate])
    for channels, rate in ((1, 1), (2, 192000), (2, 44100)):
        words = ['new-side', 'new.wav', '--channels', channels, '--rate', rate]
        does(f'{channels} channels, rate {rate}', words, {}, (['bytes 44'], second_side.empty(channels, rate)[1]))
