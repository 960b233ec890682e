"""The small programs wave_check, wave_decode, wave_encode and side_add on files of other programs, at their limits and
in trouble.

What they must print and write is worked out by tests/second/command.py. A full disk is played by a limit on the size
of files, which stops a write in the same way; permissions are left out where root runs the test, whom they do not stop.
"""
import os
import random
import resource

from data.others import other_files
from data.songs import onto
from programs.running import command
from second import command as second_command, writer as second_writer
from second.command import LIMIT, answer
from second.writer import Record
from trying import EMPTY, SONG, empty_for, expect, limited, printed, report, tried
from vectors import side_files, sound_files, wave_files

FILES = {'song.wav': SONG, 'side.wav': EMPTY}
# Half of the stack that programs usually have is enough for these.
STACK = limited(resource.RLIMIT_STACK, 4 << 20)


def does(label, call, files, answered, out='new.wav'):
    """A call of a program prints the lines and writes the file that it must."""
    name, *words = call
    lines, made = answered
    tried(f'{name}, {label}', [*command(name), *words], files, (0, printed(lines), ''),
          {} if made is None else {out: made}, **STACK)


def trouble(call, said, **options):
    """A call says one line on standard error and nothing on standard output, and changes nothing."""
    name, *words = call
    files = {**FILES, 'link.wav': 'nowhere'}
    tried(f'{name} {words}', [*command(name), *words], files, (0, '', f'{said}\n'), {}, **options)


def reading(name):
    """The calls that read a file of this name."""
    return [['wave_check', name], ['wave_decode', name, 'new.wav'], ['wave_encode', name, 'new.wav', 256],
            ['side_add', 'side.wav', name, 7, 1000, 'new.wav'], ['side_add', name, 'song.wav', 7, 1000, 'new.wav']]


def writing(name):
    """The calls that write a file of this name."""
    return [['wave_decode', 'song.wav', name], ['wave_encode', 'song.wav', name, 256],
            ['side_add', 'side.wav', 'song.wav', 7, 10000, name]]


# ---- files of other programs

def on_other_files():
    """Each file is checked, decoded, copied and added to an empty side of its format."""
    for label, file in other_files().items():
        files = {'file.wav': file, 'side.wav': empty_for(file)}
        does(label, ['wave_check', 'file.wav'], files, answer(second_command.check, file))
        does(label, ['wave_decode', 'file.wav', 'new.wav'], files, answer(second_command.decode, file))
        for align in (256, 40):
            does(f'{label} by {align}', ['wave_encode', 'file.wav', 'new.wav', align], files,
                 answer(second_command.encode, file, align))
        does(label, ['side_add', 'side.wav', 'file.wav', 7, 1000000, 'new.wav'], files,
             answer(second_command.add, files['side.wav'], file, 7, 1000000))


def on_kept_sides():
    """The sides and songs of tests/data/songs.py."""
    for label, side, song in onto():
        does(label, ['side_add', 'side.wav', 'song.wav', 7, 1000000, 'new.wav'], {'side.wav': side, 'song.wav': song},
             answer(second_command.add, side, song, 7, 1000000))


# ---- titles

def on_titles():
    """A decoded file has the titles of the file, a copy has none, and a new side those of the old; a wrong list is
    refused, and no side."""
    song = side_files.song()
    files = {'a list': wave_files.titled(wave_files.SONG, wave_files.note(8, b'by heart')),
             'a list of skipped chunks': wave_files.titled(wave_files.chunk(b'ltxt', b'abc')),
             'a list without pads': wave_files.last_bare(wave_files.bare(wave_files.SONG)),
             'the most titles': wave_files.most_titles(), 'a wrong list': wave_files.titled(wave_files.labl(9, b'a')),
             'a side with titles': side_files.labelled(wave_files.note(8, b'x'), wave_files.SONG),
             'a side with a wrong list': side_files.labelled(wave_files.SONG, wave_files.SONG)}
    for label, file in files.items():
        given = {'file.wav': file, 'side.wav': EMPTY, 'song.wav': song}
        does(label, ['wave_check', 'file.wav'], given, answer(second_command.check, file))
        does(label, ['wave_decode', 'file.wav', 'new.wav'], given, answer(second_command.decode, file))
        does(label, ['wave_encode', 'file.wav', 'new.wav', 256], given, answer(second_command.encode, file, 256))
        does(label, ['side_add', 'side.wav', 'file.wav', 7, 1000, 'new.wav'], given,
             answer(second_command.add, EMPTY, file, 7, 1000))
        does(f'to {label}', ['side_add', 'file.wav', 'song.wav', 5, 1000, 'new.wav'], given,
             answer(second_command.add, file, song, 5, 1000))


# ---- files as long as they may be, and longer

def pcm(size, bits=8, cues=()):
    """A PCM file of so many bytes, with cues that are played to the end."""
    record = Record((1, 1, 8000, bits, bits // 8, 1), 0, len(cues), cues, len(cues), [])
    sound = bytes(place * place % 251 for place in range(size - len(second_writer.file_of(record, b'', b''))))
    frames = len(sound) // (bits // 8)
    plays = [(name, frames - place, 1) for name, _, place in cues]
    return second_writer.file_of(record._replace(frames=frames, plays=plays), b'', sound)


def blocks_within(align):
    """How many blocks a file within the limit has, whatever its format."""
    return (LIMIT - 90) // align


def fullest(tag, channels, align):
    """An ADPCM file of as many blocks as the limit allows."""
    block = sound_files.some_block(random.Random(1), tag, channels, align)
    return sound_files.adpcm(tag, channels, *[block] * blocks_within(align))


def most_samples():
    """Format, channels and align by which a file within the limit has the most samples."""
    sizes = [(tag, channels, align) for tag, step in ((2, 1), (17, 4)) for channels in (1, 2)
             for align in range(8 * channels, 4097, step * channels)]
    return max(sizes, key=lambda size: blocks_within(size[2]) * size[1] * second_writer.samples_in(*size))


def at_the_limit():
    """Decoding and encoding never lack room."""
    files = {'most samples': fullest(*most_samples()), 'Microsoft': fullest(2, 2, 1024), '8 bits': pcm(LIMIT),
             '16 bits': pcm(LIMIT, 16), '64 cues': pcm(LIMIT, 16, [(name, 3 * name, name) for name in range(64)])}
    for label, file in files.items():
        name = {'file.wav': file}
        does(label, ['wave_check', 'file.wav'], name, answer(second_command.check, file))
        does(label, ['wave_decode', 'file.wav', 'new.wav'], name, answer(second_command.decode, file))
    for label, align in (('most samples', 8), ('16 bits', 4096)):
        does(f'{label} by {align}', ['wave_encode', 'file.wav', 'new.wav', align], {'file.wav': files[label]},
             answer(second_command.encode, files[label], align))


def sides_at_the_limit():
    """A new side may be as long as a file that is read; one that is two bytes longer is 14."""
    half = answer(second_command.add, EMPTY, pcm(LIMIT // 2, 16), 1, LIMIT)[1]
    # Beside its sound a song has 60 bytes where it is the first, and 36 where it is not; its file has 44.
    for label, side, size in (('an empty side', EMPTY, LIMIT - 60), ('half a side', half, LIMIT + 8 - len(half))):
        for more, said in ((0, ['added 2', f'bytes {LIMIT}']), (2, ['refused 14'])):
            song = pcm(size + more, 16)
            answered = answer(second_command.add, side, song, 2, LIMIT)
            expect(f'{label} and {more} bytes more, by the second way', answered[0], said)
            does(f'{label} and {more} bytes more', ['side_add', 'side.wav', 'song.wav', 2, LIMIT, 'new.wav'],
                 {'side.wav': side, 'song.wav': song}, answered)


def above_the_limit():
    """A file that is too long is refused by 1, whatever it is; so is an empty one, which is no trouble and no side."""
    for label, file in (('one byte more', pcm(LIMIT) + b'\0'), ('a longer file', pcm(LIMIT + 2)),
                        ('no WAVE file', bytes(LIMIT + 1)), ('a megabyte', pcm(1 << 20)), ('no bytes', b'')):
        *calls, to_file = reading('file.wav')
        for call in calls:
            does(label, call, {**FILES, 'file.wav': file}, (['refused 1'], None))
        does(f'to {label}', to_file, {**FILES, 'file.wav': file}, ([f'refused {1 if file else 19}'], None))


# ---- words

def numbers():
    """Numbers at their borders, and with zeros in front."""
    for number, limit in ((0, 1600), (2**32 - 1, 2**32 - 1), (7, 1599)):
        for given in ((number, limit), (f'000{number}', f'{limit:0100}')):
            does(f'song {number}, limit {limit}', ['side_add', 'side.wav', 'song.wav', *given, 'new.wav'], FILES,
                 answer(second_command.add, EMPTY, SONG, number, limit))


def aligns():
    """Each align of IMA at a border, and such as are none."""
    for align in (0, 7, 8, 12, 4096, 4100, 65535):
        does(f'align {align}', ['wave_encode', 'song.wav', 'new.wav', align], FILES,
             answer(second_command.encode, SONG, align))


def names():
    """Names like options, with blanks, and in a folder."""
    for name in ('--a new one', 'folder/new.wav'):
        does(name, ['wave_decode', '-a song', name], {'-a song': SONG}, answer(second_command.decode, SONG), name)


ENCODING, ADDING = 'wave_encode IN OUT ALIGN', 'side_add SIDE SONG NUMBER LIMIT OUT'


def wrong_calls():
    """No words, too few, too many, and one more that is empty."""
    for usage in ('wave_check FILE', 'wave_decode IN OUT', ENCODING, ADDING):
        name, *needed = usage.split()
        known = {'IN': 'song.wav', 'FILE': 'song.wav', 'SIDE': 'side.wav', 'SONG': 'song.wav', 'OUT': 'new.wav'}
        given = [known.get(word, '256') for word in needed]
        for wrong in ([], given[:-1], [*given, 'more'], [*given, '']):
            trouble([name, *wrong], f'usage: {usage}')


def wrong_numbers():
    """Arguments that are not a number, or too large a one."""
    for word in ('', 'seven', '-1', '+1', ' 1', '1 ', '1.0', '0x10', '4294967296', '9' * 30, '1' * 5000):
        trouble(['side_add', 'side.wav', 'song.wav', word, 1000, 'new.wav'], f'usage: {ADDING}')
        trouble(['side_add', 'side.wav', 'song.wav', 7, word, 'new.wav'], f'usage: {ADDING}')
        trouble(['wave_encode', 'song.wav', 'new.wav', word], f'usage: {ENCODING}')
    trouble(['wave_encode', 'song.wav', 'new.wav', 65536], f'usage: {ENCODING}')


# ---- trouble with files

MISSING, LONG = 'No such file or directory', 'File name too long'


def not_read():
    """Input that is not there, is a folder, may not be read, or has no name that a file can have."""
    reasons = {'nowhere.wav': MISSING, 'nowhere/x': MISSING, '': MISSING, 'folder': 'Is a directory',
               'song.wav/x': 'Not a directory', 'n' * 300: LONG}
    if os.path.exists('/etc/shadow') and not os.access('/etc/shadow', os.R_OK):
        reasons['/etc/shadow'] = 'Permission denied'
    for name, reason in reasons.items():
        for call in reading(name):
            trouble(call, f'{call[0]}: cannot read {name}: {reason}')
    # No name is that long; it is left out.
    trouble(['wave_check', 'n' * 5000], f'wave_check: cannot read : {MISSING}')


def not_made():
    """A place where no file can be made, and a name that is there, also as a link, which is not followed."""
    there = 'File exists'
    reasons = {'side.wav': there, 'song.wav': there, 'link.wav': there, 'folder': there, '': MISSING,
               'nowhere/new.wav': MISSING, 'song.wav/new.wav': 'Not a directory', 'n' * 256: LONG}
    if not os.access('/', os.W_OK):
        reasons['/new.wav'] = 'Permission denied'
    for name, reason in reasons.items():
        for call in writing(name):
            trouble(call, f'{call[0]}: cannot make {name}: {reason}')
    trouble(writing('n' * 5000)[0], f'wave_decode: cannot make : {MISSING}')


def full_disk():
    """A write that fails after a part of the bytes leaves nothing.

    The signal SIGXFSZ, which would end a program at the limit, is ignored: Python does that, and the programs that it
    starts here keep it so. Then the write fails as on a full disk.
    """
    for call in writing('new.wav'):
        trouble(call, f'{call[0]}: cannot write new.wav: File too large', **limited(resource.RLIMIT_FSIZE, 500))


def names_of_no_text():
    """A file whose name is no text is neither read nor made; a mark stands for each byte that is none."""
    name, shown = 'caf\udce9.wav', 'caf\N{REPLACEMENT CHARACTER}.wav'
    for deed, calls, files in (('read', reading(name), {**FILES, name: SONG}), ('make', writing(name), FILES)):
        for program, *words in calls:
            tried(f'{program}, a name that is no text', [*command(program), *words], files,
                  (0, '', f'{program}: cannot {deed} {shown}: invalid filename\n'), {})


def full_output():
    """Where standard output takes nothing, a program says so and ends with 1; a file that it has written stays, whole.
    Where standard error takes nothing, it can only end with 1."""
    said = 'Error: Os { code: 28, kind: StorageFull, message: "No space left on device" }\n'
    made = {'wave_decode': answer(second_command.decode, SONG)[1],
            'wave_encode': answer(second_command.encode, SONG, 256)[1],
            'side_add': answer(second_command.add, EMPTY, SONG, 7, 10000)[1]}
    for program, *words in [['wave_check', 'song.wav'], *writing('new.wav')]:
        to_full = ['sh', '-c', 'exec "$0" "$@" >/dev/full', *command(program), *words]
        tried(f'{program}, a full standard output', to_full, FILES, (1, '', said),
              {'new.wav': made[program]} if program in made else {})
        tried(f'{program}, a full standard error', ['sh', '-c', 'exec "$0" 2>/dev/full', *command(program)], FILES,
              (1, '', ''), {})


def main():
    for part in (on_other_files, on_kept_sides, on_titles, at_the_limit, sides_at_the_limit, above_the_limit, numbers,
                 aligns, names, wrong_calls, wrong_numbers, not_read, not_made, full_disk, names_of_no_text,
                 full_output):
        part()
    return report('tests/programs')
