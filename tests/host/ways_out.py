"""What can be done about a refusal: the line that the command gives, or that it gives none.

Each line was tried once by hand, with sox 14.4.2 and ffmpeg 5.1 on files like these, and the file that it made was
accepted; the tests need neither program.
"""
from host.faults import meant
from host.places import refusal_of
from host.run import HOST, MEANINGS, tells
from trying import tried
from vectors import side_files
from vectors.wave_files import (adtl, chunk, cue, data, entry, fact, fmt, ima, labl, microsoft, plst, point, unpadded,
                                wave)

AGAIN = 'ask for the file again'


def sox(name='file.wav', before='', after='', to='file-16bit.wav'):
    """The line that makes a file by sox: options before the file that is read, and of the one that is made."""
    return f"sox --no-clobber{before} '{name}'{after} -b 16 -e signed-integer '{to}'"


def ffmpeg(name='file.wav', after='', to='file-16bit.wav'):
    """The same by ffmpeg."""
    return f"ffmpeg -i '{name}'{after} -c:a pcm_s16le '{to}'"


# ---- files, and their lines

def formats():
    """Label, file and line for formats that are refused."""
    for label, made, line in (
            ('24 bits', fmt(bits=24), sox()), ('32 bits', fmt(bits=32), sox()), ('64 bits', fmt(bits=64), None),
            ('20 bits', fmt(bits=20, align=3), ffmpeg()), ('24 bits in four bytes', fmt(bits=24, align=4), None),
            ('float', fmt(tag=3, bits=32), sox()), ('float of 64 bits', fmt(tag=3, bits=64), sox()),
            ('float of 16 bits', fmt(tag=3), None), ('A-law', fmt(tag=6, bits=8), sox()),
            ('mu-law', fmt(tag=7, bits=8), sox()), ('MP3 in a WAVE file', fmt(tag=85, bits=0, align=1), ffmpeg()),
            ('another tag', fmt(tag=80), None), ('extensible without more', fmt(tag=65534), None),
            ('extensible of 24 bits', fmt(tag=65534, bits=24, more=meant(24, 1)), sox()),
            ('extensible of 24 bits in four bytes', fmt(tag=65534, bits=32, more=meant(24, 1)), ffmpeg()),
            ('extensible float', fmt(tag=65534, bits=32, more=meant(32, 3)), sox()),
            ('extensible Microsoft', fmt(tag=65534, bits=4, align=8, more=meant(4, 2)), None),
            ('6 channels', fmt(channels=6), sox(after=' -c 2')), ('no channel', fmt(channels=0), None),
            ('6 channels of 24 bits', fmt(channels=6, bits=24), sox(after=' -c 2')), ('rate 0', fmt(rate=0), None),
            ('rate 384000', fmt(rate=384000), sox(after=' -r 192000')), ('average 1', fmt(average=1), sox()),
            ('align 3', fmt(align=3), None), ('IMA, samples 10', ima(samples=10), None),
            ('IMA of 3 channels', ima(3, 24, 9), None), ('a fmt of 14 bytes', chunk(b'fmt ', fmt()[8:22]), None)):
        yield label, wave(made, data(24)), line


def kinds():
    """The same for files that are no WAVE files."""
    mp3 = 'with libsox-fmt-mp3: ' + sox(before=' -t mp3')
    for label, start, line in (
            ('MP3 with a tag', b'ID3\4', mp3), ('MP3', b'\xff\xfb\x90\x64', mp3),
            ('MP3 of version 2', b'\xff\xf3\x84\xc4', mp3), ('text in UTF-16', b'\xff\xfea\0', None),
            ('AAC', b'\xff\xf1\x50\x80', ffmpeg()), ('FLAC', b'fLaC', sox()),
            ('Ogg Vorbis', b'OggS' + bytes(24) + b'\1vorbis', sox()),
            ('Ogg Opus', b'OggS' + bytes(24) + b'OpusHead', ffmpeg()), ('AIFF', b'FORM\0\0\0\0AIFF', sox()),
            ('AIFC', b'FORM\0\0\0\0AIFC', sox()), ('8SVX', b'FORM\0\0\0\x008SVX', None),
            ('m4a', b'\0\0\0\x1cftypM4A ', ffmpeg()), ('WMA', bytes.fromhex('3026b2758e66cf11'), ffmpeg()),
            ('ZIP', b'PK\3\4', 'unpack it'), ('a web page', b'<!DOCTYPE html>', 'download the song itself'),
            ('text', b'all words', None)):
        yield label, start + bytes(40), line
    for code, line in ((b'RIFX', sox()), (b'RF64', sox()), (b'BW64', ffmpeg()), (b'XXXX', None)):
        yield code.decode(), wave(fmt(), data(), code=code), line
    yield 'AVI', wave(fmt(), data(), form=b'AVI '), None


def endings():
    """The same for files whose sizes are wrong."""
    anew, kept = 'to write the sizes anew: ' + sox(), 'to keep the sound, which is whole: ' + sox()
    written = 'to keep the sound that was written: ' + sox(before=' --ignore-length')
    none, sound, whole = f'there is no sound in it: {AGAIN}', bytes(range(200, 216)), len(wave(fmt(), data()))
    for size in (0, 0xffffffff, 0x7ffff024):
        yield f'R {size}, the sound whole', wave(fmt(), data(), chunk(b'LIST'), size=size), anew
        yield f'R {size}, no sound', wave(fmt(), data(0), size=size), none
        yield f'R {size}, no data', wave(fmt(), size=size), none
        for known in (0, 0xffffffff, 0x7ffff000, 99):
            yield f'R {size}, data {known}', wave(fmt(), chunk(b'data', sound, known), size=size), written
    yield 'R 0 and silence', wave(fmt(), chunk(b'data', bytes(16), 0), size=0), written
    yield 'R 0 and less than a frame', wave(fmt(), chunk(b'data', b'', 9), b'a', size=0), none
    for known in (0, 0xffffffff, 0x7ffff000):
        yield f'data {known}', wave(fmt(), chunk(b'data', sound, known)), written
        yield f'data {known} of 20 bits', wave(fmt(bits=20, align=3), chunk(b'data', sound, known)), None
    yield 'R of the whole length', wave(fmt(), data(), size=whole), anew
    yield 'R wrong, data before fmt', wave(data(), fmt(), size=whole), None
    yield 'R wrong, no data', wave(fmt(), size=whole), None
    yield 'R for a pad that is absent', unpadded(fmt(bits=8), data(7), counted=1), anew
    yield 'R without a pad that is there', wave(fmt(bits=8), data(7), size=whole - 9), anew
    yield 'bytes missing', wave(fmt(), data(1000))[:-300], f'300 bytes are missing at the end: {AGAIN}'
    yield 'a byte missing', wave(fmt(), data())[:-1], f'1 byte is missing at the end: {AGAIN}'
    for label, file in (('a pad', wave(fmt(), data())), ('no pad', unpadded(fmt(bits=8), data(7)))):
        tagged = file + b'TAG' + bytes(125)
        yield f'{label}, and an ID3 tag at the end', tagged, 'to leave out what comes after the end: ' + sox()
    yield 'a LIST cut', wave(fmt(), data(), chunk(b'LIST', bytes(100)))[:-40], kept
    yield 'a LIST past the end', wave(fmt(), data(), chunk(b'LIST', b'', 2)), kept
    yield 'titles cut', wave(fmt(), cue(point(7, 0)), data(), adtl(labl(7, b'Song')))[:-3], \
        f'to keep the sound, which is whole, without its cues and its titles: {sox()}'
    yield 'data past the end', wave(fmt(), chunk(b'data', bytes(8), 10)), AGAIN
    yield 'a LIST past the end before the sound', wave(fmt(), chunk(b'LIST', b'', 99), data()), AGAIN


def others():
    """The same for the other refusals of a file."""
    needs_none = 'for a copy that needs no fact: ' + sox()
    yield 'no bytes', b'', AGAIN
    yield 'half a frame', wave(fmt(), data(7)), 'to leave out the part of a frame: ' + sox()
    yield 'half a block', wave(ima(), fact(9), data(12)), AGAIN
    yield 'IMA without fact', wave(ima(), data(8)), needs_none
    yield 'Microsoft with a wrong fact', wave(microsoft(), fact(99), data(8)), needs_none
    yield 'a cue at F', wave(fmt(), cue(point(7, 4)), data()), f'without its cues: {sox()}'
    yield 'a cue at F, and a playlist', wave(fmt(), cue(point(7, 4)), plst(), data()), None
    yield 'an entry for no cue', wave(fmt(), plst(entry(7, 4)), data()), None
    cues, titles = cue(point(7, 0)), adtl(labl(9, b'Song'))
    yield 'a title of no cue', wave(fmt(), cues, titles, data()), f'without its cues and its titles: {sox()}'
    yield 'two lists of titles', wave(fmt(), adtl(), data(), adtl()), f'without its titles: {sox()}'
    yield 'a title of no cue, and a playlist', wave(fmt(), cues, plst(), titles, data()), \
        'use an earlier copy of the file'
    for lost, tables in (('its cues', [cue()]), ('its playlist', [plst()]),
                         ('its cues and its playlist', [cue(), plst()]), ('its titles', [adtl()]),
                         ('its cues and its titles', [cue(), titles]),
                         ('its cues, its playlist and its titles', [adtl(), cue(), plst()])):
        yield f'24 bits, and {lost}', wave(fmt(bits=24), *tables, data(6)), f'without {lost}: {sox()}'
    both = wave(fmt(), cue(), plst(), data(), size=0)
    yield 'R 0, with tables', both, f'to write the sizes anew, without its cues and its playlist: {sox()}'
    yield 'a second data', wave(fmt(), data(), data()), None
    yield 'data before fmt', wave(data(), fmt()), None
    yield 'no data', wave(fmt()), None
    yield 'a song', side_files.song(), None


def offers(label, words, files, number, line, **options):
    """The command refuses with a number, and offers a line, or none."""
    tells(f'the way out, {label}', words, files, (0 if number == 18 else number, line), lambda one: one.get('way_out'),
          **options)


def ways_out():
    """The line for each of these files."""
    for label, file, line in [*formats(), *kinds(), *endings(), *others()]:
        offers(label, ['check', 'file.wav'], {'file.wav': file}, refusal_of(file) or 0, line)


# ---- songs that are not added

def ways_to_side():
    """The line where a song is not added: what it is converted to is the format of the side."""
    song, side = side_files.song, side_files.side((7, 2), (8, 3))
    made = {'name': 'song.wav', 'to': 'song-for-side.wav'}
    fits = sox(after=' -r 8000 -c 1', **made)
    for label, there, sent, number, limit, refusal, line in (
            ('48000', side, song(rate=48000), 5, 99, 9, fits), ('stereo', side, song(channels=2), 5, 99, 9, fits),
            ('24 bits', side, wave(fmt(bits=24), data(6)), 5, 99, 9, fits),
            ('MP3', side, b'ID3\4' + bytes(40), 5, 99, 2,
             'with libsox-fmt-mp3: ' + sox(before=' -t mp3', after=' -r 8000 -c 1', **made)),
            ('m4a', side, b'\0\0\0\x1cftypM4A ', 5, 99, 2, ffmpeg(after=' -ar 8000 -ac 1', **made)),
            ('a wrong title', side, wave(fmt(), cue(point(7, 0)), plst(), adtl(labl(9, b'')), data()), 5, 99, 21,
             f'without its cues, its playlist and its titles: {fits}'),
            ('MP3 for no side', b'no side', b'ID3\4' + bytes(40), 5, 99, 2,
             'with libsox-fmt-mp3: ' + sox(name='song.wav', before=' -t mp3', to='song-16bit.wav')),
            ('8 bits', side, song(bits=8), 5, 99, 9, "tronalhet decode 'song.wav' 'song-for-side.wav'"),
            ('IMA', side, wave(ima(), fact(9), data(8)), 5, 99, 9, "tronalhet decode 'song.wav' 'song-for-side.wav'"),
            ('no frames', side, song(0), 5, 99, 16, 'ask for the song again: it has no sound'),
            ('another sound', side, song(9), 8, 99, 16, 'if it is another song, give it another number'),
            ('the same again', side, song(3, 8), 8, 99, 18, None),
            ('too long', side, song(20), 5, 21, 17,
             'a song of at most 16 frames (0:00.002) fits; start another side for this one'),
            ('full', side, song(4), 5, 5, 17, 'start another side: no song fits on this one'),
            ('longer than any side', side, song(20), 5, 19, 17,
             'the song alone is longer than the limit: no side has room for it'),
            ('64 songs', side_files.full_side(64), song(), 5, 999, 17, 'start another side: no song fits on this one'),
            ('exchanged', song(), side, 5, 99, 19, 'the side comes first: tronalhet add SIDE SONG'),
            ('a song as a side', song(), song(), 5, 99, 19,
             'start a side for it: tronalhet new-side SIDE --channels 1 --rate 8000'),
            ('no side', wave(fmt(), cue(point(7, 1)), data()), song(), 5, 99, 19, None),
            ('a side with a wrong title', side_files.labelled(labl(9, b'')), song(), 5, 99, 19,
             'use an earlier copy of the side'),
            ('a broken side', side[:-2], song(), 5, 99, 19, 'use an earlier copy of the side')):
        words = ['add', 'side.wav', 'song.wav', '--number', number, '--limit', limit]
        offers(f'add, {label}', words, {'side.wav': there, 'song.wav': sent}, refusal, line)


# ---- names, and what people see

def ways_out_by_name():
    """A name is quoted for a shell, and never an option or a pattern to sox; where it fits on no line there is none."""
    file = wave(fmt(bits=24), data(6))
    for name, line in (
            ('my song.wav', sox('my song.wav', to='my song-16bit.wav')),
            ("it's.wav", sox(r"it'\''s.wav", to=r"it'\''s-16bit.wav")), ('song', sox('song', to='song-16bit.wav')),
            ('-n.wav', sox('./-n.wav', to='./-n-16bit.wav')), ('|true', sox('./|true', to='./|true-16bit.wav')),
            ('a[1].wav', sox('a[1].wav', ' --no-glob', to='a[1]-16bit.wav')), ('two\nlines.wav', None)):
        offers(f'of {name!a}', ['check', '--', name], {name: file}, 9, line)
    offers('of standard input', ['check', '-'], {}, 9, None, input=file)


def three_lines():
    """People see where the fault is first, then what the number means, then the way out."""
    lines = ["file.wav: chunk 'fmt ', bits per sample at byte 34: it is 24; 8 or 16 are accepted",
             f'9 means: {MEANINGS[9]}', f'way out: {sox()}']
    wanted = 9, 'refused 9\n', ''.join(f'tronalhet: {line}\n' for line in lines)
    files = {'file.wav': wave(fmt(bits=24), data(6))}
    tried('three lines on a refusal', [*HOST, 'check', 'file.wav'], files, wanted, {})
