"""The command tronalhet on files of other programs, at the borders of the rules, and with chunks that are skipped."""
from host.places import place_in, record_of, refusal_of, with_junk
from host.run import HOST, KNOWN, MEANINGS, OF_SOUND, adds, does, left_out, picked, refusal_in, tells, without_ways
from host.walk import walked
from data.others import HEARD, other_files
from data.songs import OF_SONG, onto
from trying import EMPTY, SONG, empty_for, expect, holding, printed, put, run
from second import command as second_command, reader as second_reader
from second.command import answer
from vectors import wave_files
from vectors.wave_files import chunk, cue, data, entry, fact, fmt, ima, microsoft, plst, point, wave


# ---- files of other programs, and at the borders

def border_files():
    """The files at the borders of the rules for reading, by label."""
    return {label: file for label, file, _ in wave_files.all_files()}


def on_files():
    """Each file is listed, checked, decoded, copied and added to an empty side of its format."""
    for name, file in {**other_files(), **border_files()}.items():
        files = {'file.wav': file, 'side.wav': empty_for(file)}
        does(f'list {name}', ['list', 'file.wav'], files, (second_reader.listing(file)[0], None))
        does(f'check {name}', ['check', 'file.wav'], files, answer(second_command.check, file))
        decoded = answer(second_command.decode, file)
        does(f'decode {name}', ['decode', 'file.wav', 'new.wav'], files, decoded,
             remarks=left_out('file.wav', file, KNOWN))
        heard = decoded if decoded[1] is None else (['accepted'], None)
        does(f'check the sound of {name}', ['check', '--sound', 'file.wav'], files, heard)
        for align, words in ((1024, []), (40, ['--align', 40])):
            does(f'encode {name} by {align}', ['encode', 'file.wav', 'new.wav', *words], files,
                 answer(second_command.encode, file, align), remarks=left_out('file.wav', file, OF_SOUND))
        adds(f'add {name}', files['side.wav'], file, 7, 9999, song_name='file.wav')


def on_kept_sides():
    """The sides of tests/data/songs.py, in place and not; and that what is decoded is what sox hears."""
    for label, side, song in onto():
        lines, _ = answer(second_command.add, side, song, 7, 1000000)
        for out in ('new.wav', 'side.wav'):
            adds(label, side, song, 7, 1000000, 'song.wav' if refusal_in(lines) in OF_SONG else 'side.wav', out=out)
    for heard in sorted(HEARD.glob('*.heard')):
        made = answer(second_command.decode, heard.with_suffix('.wav').read_bytes())[1]
        expect(f'whether {heard.name} is decoded', second_reader.read(made)[5] == heard.read_bytes(), True)


def records():
    """`list` reports to a script the whole record of a file that is accepted."""
    for name, file in {**other_files(), **border_files()}.items():
        if refusal_of(file) is None:
            tells(f'list --json {name}', ['list', 'file.wav'], {'file.wav': file}, (0, [record_of('file.wav', file)]))


def told_of(name, file):
    """What `check` must report to a script on a file, but for the words of a place."""
    number = refusal_of(file)
    if number is None:
        return {'file': name, 'ok': True, 'refused': 0}
    where = {'file': name, **place_in(number, file)}
    return {'file': name, 'ok': False, 'refused': number, 'meaning': MEANINGS[number], 'where': where}


def many_checked(label, files):
    """Files are checked all at once, for people and for scripts; each is reported by itself, and the first fault
    counts."""
    named = {f'{turn}.wav': file for turn, file in enumerate(files)}
    numbers = {name: refusal_of(file) for name, file in named.items()}
    status = next((number for number in numbers.values() if number), 0)
    lines = [f'{name}: ' + (f'refused {number}' if number else 'accepted') for name, number in numbers.items()]
    with holding(named) as folder:
        answered = run([*HOST, 'check', *named], folder)
        found, told = picked(lambda *told: told)(run([*HOST, 'check', *named, '--json'], folder))
    expect(f'check {label}', answered[:2], (status, printed(lines)))
    refused = {name: number for name, number in numbers.items() if number}
    said = without_ways(answered[2])
    expect(f'check {label}, where it is', [line.split(':')[1] for line in said[::2]], [f' {name}' for name in refused])
    expect(f'check {label}, what it means', said[1::2],
           [f'tronalhet: {name}: {number} means: {MEANINGS[number]}' for name, number in refused.items()])
    words = [one.get('where', {}).pop('what', '') for one in told]
    for one in told:
        one.pop('way_out', None)
    expect(f'check --json {label}', (found, len(told)), (status, len(files)))
    for (name, file), one, what in zip(named.items(), told, words):
        expect(f'check --json {label}, {name}', one, told_of(name, file))
        expect(f'check --json {label}, {name}, whether words say where', what != '', name in refused)


def checked():
    """All files at once; of each that is refused the place is reported that the walk of places.py finds."""
    many_checked('all files', [*other_files().values(), *border_files().values()])
    many_checked('files that are accepted', [SONG, EMPTY])
    many_checked('one that is accepted after others', [b'', b'RIFF' * 4, SONG])


# ---- files of which only the heads of their chunks are read

def last_chunk(file):
    """Where the last chunk starts, be it whole or not."""
    found, stop = walked(file)
    return stop if stop is not None else found[-1][1] if found else 12


def long_chunks():
    """Files with chunks that are longer than what is read of each, and around the length that is read whole."""
    one, more = [cue(point(7, 0)), plst(entry(7, 4))], bytes(range(256)) * 300
    yield wave(fmt(more=more), *one, data())
    yield wave(ima(extension=2, more=more), fact(9), data(8))
    yield wave(microsoft(extension=40000, more=more), *one, chunk(b'fact', bytes([4, 0, 0, 0]) + more), data(8))
    for long in (cue(point(7, 0), more=more), cue(point(7, 0), count=64, more=more), plst(entry(7, 4), more=more),
                 chunk(b'LIST', b'wavl' + more), chunk(b'LIST', b'INFO' + more), chunk(b'LIST', more)):
        yield wave(fmt(), long, data(70000))
        yield wave(fmt(), data(70000), long)
    cues, plays = [point(turn, turn) for turn in range(64)], [entry(turn, 1 + turn) for turn in range(64)]
    yield wave(chunk(b'junk', more), plst(*plays), fmt(), data(70000), chunk(b'junk', more), cue(*cues))
    for size in range(65530, 65545):
        yield wave(fmt(bits=8), data(size - 44))
        yield wave(fmt(bits=8), data(size - 44))[:-1]
        yield b'RIFX' + wave(fmt(bits=8), data(size - 44))[4:]


def many_chunks():
    """Files of 30,000 small chunks around the others; one has a second fmt at its end, one ends within a head."""
    small = [chunk(b'j%03d' % (turn % 1000), bytes([turn % 255 + 1]) * (turn % 7)) for turn in range(15000)]
    middle = [fmt(), cue(point(7, 3)), plst(entry(7, 1, 9)), data(70000)]
    for end in (b'', fmt(), b'LIST\0\0'):
        yield wave(*small, *middle, *small, end)


def glanced():
    """What is skipped changes nothing: a long chunk in front, or before the last chunk, long chunks, and many."""
    right = [file for file in border_files().values() if refusal_of(file) not in (1, 2, 3)]
    changed = [with_junk(file, 12) for file in right] + [with_junk(file, last_chunk(file)) for file in right]
    made = [*changed, *long_chunks(), *many_chunks()]
    many_checked('files with long chunks', made)
    with holding({}) as folder:
        for turn, file in enumerate(made):
            put(folder / 'file.wav', file)
            lines = second_reader.listing(file)[0]
            expect(f'list with long chunks, {turn}', run([*HOST, 'list', 'file.wav'], folder)[:2],
                   (refusal_in(lines) or 0, printed(lines)))
