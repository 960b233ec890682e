#!/usr/bin/env python3
"""What the programs read and must print in a test, worked out from document 01 and Python's struct.

    python3 -m vectors            in tests/: compares with crates/NAME/stdin, args and stdout, and the files in data/
                                  with those that they are copies of
    python3 -m vectors --write    writes those files

Nothing here is taken from a run of the programs.
"""
import pathlib
import sys

from data.others import HEARD, REPORTED
from second import command as second_command
from vectors import entries, wave_files

CRATES = pathlib.Path(__file__).resolve().parent.parent.parent / 'crates'


def vectors():
    """The entries of tests/vectors/entries.py, which the program must read at once."""
    (data, lines), = entries.batches(entries.stored())
    return data, ''.join(f'{line}\n' for line in lines), None


def copied(program, *sources):
    """The files that a program is run on, and nothing else; each is a copy of one that stands elsewhere."""
    there = {path.name: path.read_bytes() for path in (CRATES / program / 'data').iterdir()}
    if there != {path.name: path.read_bytes() for path in sources}:
        raise ValueError(f'the files of {program}/data are not as they stand elsewhere')
    return [there[path.name] for path in sources]


def command(program, work, sources, *more):
    """For a program that a volunteer calls: no input, what it must print, and the words that it is called with.

    The first words name the sources; of the others, numbers are known to the work too, and names are of new files.
    """
    numbers = [word for word in more if isinstance(word, int)]
    lines, _ = second_command.answer(work, *copied(program, *sources), *numbers)
    return b'', ''.join(f'{line}\n' for line in lines), [*(path.name for path in sources), *more]


def put_copies():
    """Puts the files that the programs are run on into their data/."""
    for program, _, sources, *_ in commands():
        for path in sources:
            (CRATES / program / 'data' / path.name).write_bytes(path.read_bytes())


def commands():
    """The programs that a volunteer calls, by name."""
    demo = CRATES.parent / 'demo'
    yield 'wave_check', second_command.check, [REPORTED / 'sndfile-pcm16-mono-cues.wav']
    yield 'wave_decode', second_command.decode, [HEARD / 'sox-ima-mono-short-block.wav'], 'decoded.wav'
    yield 'wave_encode', second_command.encode, [HEARD / 'sox-pcm16-mono-clipped.wav'], 'copy.wav', 256
    yield 'side_add', second_command.add, [demo / 'empty-side.wav', demo / 'school-song.wav'], 102, 4000, 'side.wav'


def programs():
    """For each program its standard input, its arguments and what it must print."""
    made = {'vectors': vectors(), 'wave_list': (wave_files.example(), '\n'.join(wave_files.EXAMPLE) + '\n', None)}
    made.update({words[0]: command(*words) for words in commands()})
    return made


def main(words):
    """Compares or writes; the exit status is 1 where something differs."""
    if words not in ([], ['--write']):
        sys.exit(__doc__)
    if words:
        put_copies()
    made = programs()
    programs_here = {path.parent.parent.name for path in CRATES.glob('*/src/main.rt')}
    wrong = [f'{name}: nothing here works out what it must print' for name in sorted(programs_here - made.keys())]
    for name, (data, expected, arguments) in made.items():
        args = None if arguments is None else ''.join(f'{word}\n' for word in arguments).encode()
        files = {'stdin': data or None, 'args': args, 'stdout': expected.encode()}
        for path, content in ((CRATES / name / file, content) for file, content in files.items()):
            if words and content is not None:
                path.write_bytes(content)
            if (path.read_bytes() if path.exists() else None) != content:
                wrong.append(f'{name}/{path.name} is not what document 01 and Python give')
    for line in wrong:
        print(f'tests/vectors: {line}')
    return 1 if wrong else 0


if __name__ == '__main__':
    sys.exit(main(sys.argv[1:]))
