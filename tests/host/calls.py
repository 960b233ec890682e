"""How the command tronalhet is called: names, standard input, its words, and what it reports to scripts."""
import os
import subprocess
import tempfile
import time

from host.places import record_of, with_junk
from host.run import (ADDED, ADDED_SONG, DECODED, FILES, HOST, KNOWN, NEW, OF_SOUND, added, does, left_out,
                      many_songs, tells)
from host.titles import with_titles
from second import command as second_command, reader as second_reader
from second.command import answer
from trying import EMPTY, ROOT, SONG, expect, holding, make, printed, run, start, tried
from vectors import side_files, wave_files
from vectors.wave_files import adtl, chunk, cue, data, fmt, labl, point, wave


def names():
    """Names of any kind are reported to scripts as they are; bytes that are no text are shown by a sign for such."""
    for name in (b'a "b" \\ c', b'two\nlines\r\n', b'\t\x01\x1f\x7f', b'no text \xff\xc3', b"'; $(x) {} [] :,",
                 'Größe \u2028 \U0001f3b5'.encode(), b'--json'):
        word, shown = os.fsdecode(name), name.decode(errors='replace')
        files = {word: SONG, 'file.wav': b'no song'}
        tells(f'list {shown!a}', ['list', '--', word], files, (0, [record_of(shown, SONG)]))
        tells(f'check {shown!a}', ['check', '--', word, 'file.wav', word], files,
              (1, [(shown, 0), ('file.wav', 1), (shown, 0)]),
              lambda *told: [(one['file'], one['refused']) for one in told])
        tells(f'add to {shown!a}', ['add', *ADDED, '--', word, 'file.wav'], files, (1, (shown, 'file.wav')),
              lambda one: (one['file'], one['where']['file']))
        tells(f'decode to {shown!a}', ['decode', '--', 'song.wav', word], FILES, (0, ('song.wav', shown)),
              lambda one: (one['file'], one['out']), {word: DECODED[1]})
        for words in (['list', '--', word], ['decode', '--', word, 'new'], ['decode', '--', 'song.wav', f'{word}/x']):
            tells(f'no {shown!a}', words, FILES, (74, True), lambda one: one['trouble'].startswith('cannot '))


def for_scripts():
    """Each command reports to a script in one object what it prints for people, and does the same."""
    lines, coded = answer(second_command.encode, SONG, 256)
    left, right = (int(line.split()[-1]) for line in lines[2:])
    for words, about, out, made, facts in (
            (['decode', 'song.wav', 'new.wav'], 'song.wav', 'new.wav', DECODED[1],
             {'frames': 1600, 'bytes': 3244, 'left_out': []}),
            (['encode', '--align=256', 'song.wav', 'new.wav'], 'song.wav', 'new.wav', coded,
             {'frames': 1600, 'bytes': len(coded), 'chased_left': left, 'chased_right': right, 'left_out': []}),
            (['add', 'side.wav', 'song.wav', *ADDED], 'side.wav', 'side.wav', ADDED_SONG[1],
             {'added': 7, 'bytes': len(ADDED_SONG[1]), 'song': 1, 'place': 0, 'frames': 1600, 'frames_left': 8399,
              'left_out': []}),
            (['new-side', *NEW, 'new.wav'], 'new.wav', 'new.wav', EMPTY, {'bytes': 44})):
        told = {'file': about, 'ok': True, 'refused': 0, 'out': out, **facts}
        tells(f'{words[0]} --json', words, FILES, (0, [told]), changed={out: made})
    tells('check --sound --json', ['check', '--sound', 'song.wav'], FILES,
          (0, [{'file': 'song.wav', 'ok': True, 'refused': 0, 'sound': True}]))


def by_input(label, words, files, answered, content, **more):
    """Standard input is a pipe, a file, and a file of which a part was read already."""
    does(f'{label} from a pipe', words, files, answered, 'standard input', input=content, **more)
    for before in (b'', b'RIFFread already'):
        with tempfile.TemporaryFile(buffering=0) as file:
            file.write(before + content)
            file.seek(len(before))
            does(f'{label} after {len(before)} bytes', words, files, answered, 'standard input', stdin=file, **more)


def from_input():
    """Each file that is read may be standard input, long or short, accepted or not."""
    long, wrong = (with_junk(file, 12) for file in (wave_files.example(), wave(fmt(), fmt(), data())))
    for label, file in (('a song', SONG), ('a long file', long), ('no song', b'no song at all'), ('no bytes', b''),
                        ('a side', side_files.side((5, 2))), ('a long one that is refused', wrong)):
        by_input(f'list {label}', ['list', '-'], {}, (second_reader.listing(file)[0], None), file)
        by_input(f'check {label}', ['check', '-'], {}, answer(second_command.check, file), file)
        without = left_out('standard input', file, KNOWN), left_out('standard input', file, OF_SOUND)
        by_input(f'decode {label}', ['decode', '-', 'new.wav'], {}, answer(second_command.decode, file), file,
                 remarks=without[0])
        by_input(f'encode {label}', ['encode', '-', 'new.wav'], {}, answer(second_command.encode, file, 1024), file,
                 remarks=without[1])
        songs = many_songs('standard input', file) if added(EMPTY, file, 7, 9999)[1] else []
        by_input(f'add {label}', ['add', 'side.wav', '-', *ADDED], FILES, added(EMPTY, file, 7, 9999), file,
                 out='side.wav', remarks=[*without[1], *songs])
        by_input(f'add to {label}', ['add', '-', 'song.wav', *ADDED, '--out=new.wav'], FILES,
                 added(file, SONG, 7, 9999), file, remarks=without[0])
    tells('check among others', ['check', 'song.wav', '-', 'side.wav'], FILES,
          (0, ['song.wav', '-', 'side.wav']), lambda *told: [one['file'] for one in told], input=EMPTY)


def slow_input():
    """A file may come through a pipe by and by."""
    with holding({}) as folder, start([*HOST, 'list', '-'], folder, stdin=subprocess.PIPE) as slow:
        for at in range(0, len(SONG), 1000):
            slow.stdin.buffer.write(SONG[at:at + 1000])
            slow.stdin.buffer.flush()
            time.sleep(0.05)
        expect('a file by and by', slow.communicate(timeout=60)[0], printed(second_reader.listing(SONG)[0]))


def wrongly(words, usage=None):
    """A call is not understood: status 64, what is wrong, how to call it, and nothing else."""
    fronts = 'tronalhet: ', f'usage: tronalhet {words[0] if usage is None else usage}'

    def seen(answered):
        status, shown, said = answered
        lines = said.splitlines()
        return status, shown, len(lines), [line.startswith(front) for line, front in zip(lines, fronts)]
    tried(' '.join(map(str, words))[:99], [*HOST, *words], FILES, (64, '', 2, [True, True]), {}, seen)


# A right call of each command, and the options that it has beside --json.
CALLS = {'list': ['song.wav'], 'check': ['song.wav'], 'decode': ['song.wav', 'new.wav'],
         'encode': ['song.wav', 'new.wav'], 'add': ['side.wav', 'song.wav', *ADDED],
         'title': ['side.wav', 'Song', '--number=7'], 'new-side': ['new.wav', *NEW]}
OPTIONS = {'list': [], 'check': [], 'decode': [], 'encode': ['--align'], 'add': ['--number', '--limit', '--out'],
           'title': ['--number', '--note'], 'new-side': ['--channels', '--rate']}


def called_wrongly():
    """Words that are missing or too many; options that are unknown, twice, without a value or with another option for
    it; - that is written to."""
    for words in ([], ['sing'], [''], ['List'], ['-x'], ['--json'], ['--json', 'list', 'x'], ['--', 'list', 'x']):
        wrongly(words, '|'.join(CALLS))
    for name, call in CALLS.items():
        wrongly([name])
        wrongly([name, *call[1:]])
        for more in (['--loud'], ['-l'], ['--loud=1'], ['--json=1'], ['-', '-']):
            wrongly([name, *call, *more])
        for more in ('more', '', '-') if name != 'check' else ():
            wrongly([name, *call, more])
        for option in sum(OPTIONS.values(), []):
            wrongly([name, *call, option])
            wrongly([name, *call, f'{option}=8', *([option, 8] if option in OPTIONS[name] else [])])
    for option in ('--number', '--limit'):
        wrongly(['add', *[word for word in CALLS['add'] if not word.startswith(option)]])
    for option in ('--channels', '--rate'):
        wrongly(['new-side', *[word for word in CALLS['new-side'] if not word.startswith(option)]])
    for words in (['side.wav', 'Song'], ['side.wav', '--number=7'], ['side.wav', '--number=7', '--remove', 'Song'],
                  ['side.wav', '--number=7', '--remove', '--note=a'], ['side.wav', '--number=7', '--remove=a'],
                  ['side.wav', '--number=7', '--note', '--backup'], ['side.wav', '--number=7', '--note', '--number=8'],
                  ['-', 'Song', '--number=7'], ['-', '--remove', '--number=7']):
        wrongly(['title', *words])
    for words in (['add', '-', '-', *ADDED, '--out=new.wav'], ['add', '-', 'song.wav', *ADDED], ['decode', '-', '-'],
                  ['add', 'side.wav', 'song.wav', *ADDED, '--out=-'], ['decode', 'song.wav', '-'],
                  ['add', 'side.wav', 'song.wav', *ADDED, '--out', '--backup'],
                  ['encode', 'song.wav', '-'], ['new-side', '-', *NEW], ['check', '-', 'song.wav', '-']):
        wrongly(words)


def no_numbers():
    """Arguments that are not a number, or too large a one; zeros in front are accepted."""
    for word in ('', 'seven', '-1', '+1', ' 1', '1 ', '1.0', '0x10', '1e3', '4294967296', '9' * 30, '1' * 5000, '٣'):
        typed = '--out', '--note'
        for name, option in [(name, option) for name in OPTIONS for option in OPTIONS[name] if option not in typed]:
            call = [part for part in CALLS[name] if not part.startswith(option)]
            wrongly([name, *call, option, word])
            wrongly([name, *call, f'{option}={word}'])
    wrongly(['encode', 'song.wav', 'new.wav', '--align', 65536])
    wrongly(['new-side', 'new.wav', '--rate=8000', '--channels', 65536])
    for number, limit in ((0, 1600), (2**32 - 1, 2**32 - 1)):
        for words in ((f'--number={number}', f'--limit={limit:0100}'), ('--limit', limit, '--number', f'000{number}')):
            does(f'song {number}, limit {limit}', ['add', *words, 'side.wav', 'song.wav'], FILES,
                 added(EMPTY, SONG, number, limit), out='side.wav')


def called():
    """Options stand anywhere, with their value after = or as the next word; after -- all is a name."""
    files, coded = {'-song.wav': SONG, '--align': SONG, '--help': SONG}, answer(second_command.encode, SONG, 256)
    for words in (['--align=256', '--', '-song.wav', 'new.wav'], ['--align', '256', '--', '--align', 'new.wav'],
                  ['./-song.wav', '--align', '00256', 'new.wav'], ['./--help', 'new.wav', '--align=256']):
        does(f'encode {words}', ['encode', *words], files, coded)
    does('list --help', ['list', '--', '--help'], files, (second_reader.listing(SONG)[0], None))
    does('decode to --json', ['decode', '--', '-song.wav', '--json'], files, DECODED, out='--json')


def helps():
    """The help names every command and option, and what the status means; nothing is done beside."""
    calls = ['list FILE', 'check FILE..', 'decode IN OUT', 'encode IN OUT', 'add SIDE SONG', 'title SIDE [TEXT]',
             'new-side OUT']
    general = ['--json', '64', '74', '18', '1,073,741,824', 'standard input']
    texts = [([more], [*calls, *sum(OPTIONS.values(), []), *general]) for more in ('--help', '-h', 'help')]
    for (name, known), call in zip(OPTIONS.items(), calls):
        texts += [([name, *more], [call, *known, *general]) for more in (['--help'], ['-h'], ['song.wav', 'new', '-h'])]
    for words, wanted in texts:
        tried(f'{words}', [*HOST, *words], FILES, (0, [], ''), {}, lambda answered, wanted=wanted: (
            answered[0], [word for word in wanted if word not in answered[1]], answered[2]))


def json_page():
    """docs/JSON.md shows what the command prints; the words of a place and of a way out are the command's own."""
    lines = (ROOT / 'docs' / 'JSON.md').read_text().splitlines()
    shown = [(line.split()[2:], lines[turn + 1].strip()) for turn, line in enumerate(lines)
             if line.startswith('    $ tronalhet ')]
    side = added(EMPTY, make.files()['harbour-song.wav'], 101, 4000)[1]
    inner = chunk(b'ltxt'), labl(7, b'a'), chunk(b'ltxt')
    files = {**make.files(), 'side.wav': side, 'copy.wav': answer(second_command.encode, SONG, 256)[1],
             'titled.wav': with_titles(side, [(0, 101, b'Harbour Song\0')]),
             'tagged.wav': wave(fmt(), cue(point(7, 0)), chunk(b'LIST', b'INFO'), adtl(*inner), data())}
    wrong = {'side.wav': wave(fmt(), cue(point(101, 0), point(101, 1)), data())}
    expect('the examples of docs/JSON.md', [words[0] for words, _ in shown],
           ['check', 'list', 'check', 'decode', 'encode', 'add', 'title', 'new-side', 'decode'])
    for words, line in shown:
        new = {'decode': words[2], 'encode': words[2], 'new-side': words[1]}.get(words[0])
        there = wrong if (words[0], words[1]) == ('check', 'side.wav') else files
        with holding({name: content for name, content in there.items() if name != new}) as folder:
            expect(f'docs/JSON.md, {words}', run([*HOST, *words], folder)[1], f'{line}\n')
