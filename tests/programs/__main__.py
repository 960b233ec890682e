#!/usr/bin/env python3
"""Runs the programs, as `rt` has built them, on input that their stored test does not have.

    python3 -m programs [COUNT [SEED]]      in tests/, after `rt ci`; COUNT generated files are read, and a tenth
                                            as many sounds coded, files decoded, records written, songs added and
                                            approval copies made
"""
import os
import subprocess
import sys

from data import others
from programs import small
from programs.running import ROOT, run
from second import reader as second_reader
from vectors import entries, wave_files

def long_file(n):
    """A file of n bytes, all sound but for its header."""
    return wave_files.wave(wave_files.fmt(bits=8), wave_files.data(n - 44))


def listings():
    """What wave_list was given, in words; what it wrote, and what it must write."""
    full = '\n'.join(wave_files.pcm(65536 - 44, 8)) + '\n'
    refused = 'refused 1\n'
    yield '65,536 bytes', run('wave_list', input=long_file(65536)), full
    bare = wave_files.unpadded(wave_files.fmt(bits=8), wave_files.data(65535 - 44))
    yield '65,535 bytes without pad', run('wave_list', input=bare), '\n'.join(wave_files.pcm(65535 - 44, 8)) + '\n'
    yield '65,537 bytes', run('wave_list', input=long_file(65536) + b'\0'), refused
    yield '65,538 bytes', run('wave_list', input=long_file(65538)), refused
    yield '65,537 bytes that are no WAVE file', run('wave_list', input=bytes(65537)), refused
    yield 'a megabyte', run('wave_list', input=long_file(1 << 20)), refused
    yield 'no bytes', run('wave_list', input=b''), refused
    yield 'the null device', run('wave_list', stdin=subprocess.DEVNULL), refused
    folder = os.open(ROOT, os.O_RDONLY)
    yield 'a folder', run('wave_list', stdin=folder), refused
    os.close(folder)
    yield 'a file by and by', in_pieces(wave_files.example()), '\n'.join(wave_files.EXAMPLE) + '\n'
    yield 'titles', run('wave_list', input=wave_files.most_titles()), \
        '\n'.join([*wave_files.pcm(), *(f'cue {name} at {name % 4}' for name in range(64))]) + '\n'
    for name, expected in others.listings():
        yield name, run('wave_list', input=(others.REPORTED / name).read_bytes()), expected
    for label, file in others.files_in(others.TITLED).items():
        yield label, run('wave_list', input=file), '\n'.join(second_reader.listing(file)[0]) + '\n'


def in_pieces(file):
    """What wave_list writes of a file that comes through a pipe in small pieces."""
    half = len(file) // 2
    script = f'head -c {half}; sleep 0.2; cat'
    with subprocess.Popen(['sh', '-c', script], stdin=subprocess.PIPE, stdout=subprocess.PIPE) as slow:
        slow.stdin.write(file)
        slow.stdin.close()
        return run('wave_list', stdin=slow.stdout)


def differences(wrote, lines):
    """The lines that a program wrote and those that it must write, where they differ."""
    yield from (pair for pair in zip(wrote, lines) if pair[0] != pair[1])
    if len(wrote) != len(lines):
        yield f'{len(wrote)} lines', f'{len(lines)} lines'


def unlike(vectors):
    """The lines on which `vectors` and the second reader, coder, decoder, writer or way to add differ."""
    for data, lines in entries.batches(vectors):
        yield from differences(run('vectors', input=data).splitlines(), lines)


def main(count=20000, seed=1):
    count, seed = int(count), int(seed)
    wrong = [f'wave_list on {label} wrote {wrote!r}' for label, wrote, expected in listings() if wrote != expected]
    wrong += [f'vectors wrote {wrote!r}, in Python it is {expected!r}'
              for wrote, expected in unlike(entries.generated(count, seed))]
    for line in wrong[:20]:
        print(f'tests/programs: {line}')
    return max(1 if wrong else 0, small.main())


if __name__ == '__main__':
    sys.exit(main(*sys.argv[1:3]))
