#!/usr/bin/env python3
"""./wave over tronalhet as it is built, its demonstration, and what README.md shows of both.

    python3 -m host.wave --write     in tests/: puts what ./wave says into demo/story and README.md
"""
import os
import re
import shlex
import sys
import tempfile
import textwrap

from host.run import MEANINGS
from second import command as second_command, reader as second_reader
from second.command import answer
from trying import EMPTY, ROOT, SONG, expect, holding, make, printed, run, tried
from vectors.wave_files import cue, data, fmt, point, wave

WAVE = [ROOT / 'wave']
README, STORY = ROOT / 'README.md', make.HERE / 'story'


def by_wave():
    """./wave does what tronalhet does, which speaks under its own name; names have blanks and dashes."""
    files = {'-a song.wav': SONG, 'side.wav': EMPTY}
    lines, made = answer(second_command.decode, SONG)
    tried('./wave decode', [*WAVE, 'decode', '--', '-a song.wav', '-new'], files, (0, True, ''), {'-new': made},
          lambda told: (told[0], set(lines) <= set(told[1].splitlines()), told[2]))
    tried('./wave list', [*WAVE, 'list', '-'], files, (0, printed(second_reader.listing(SONG)[0]), ''), {}, input=SONG)
    tried('./wave check', [*WAVE, 'check', 'nowhere'], files, (74, '', True), {},
          lambda told: (*told[:2], told[2].startswith('tronalhet: cannot read nowhere: ')))
    tried('./wave sing', [*WAVE, 'sing'], files, (64, '', True), {},
          lambda told: (*told[:2], told[2].startswith("tronalhet: there is no command 'sing'\nusage: tronalhet ")))


# ---- the demonstration

def options_of(words):
    """The words of a call, and the values of its options; flags are left out."""
    plain, options, words = [], {}, iter(words)
    for word in words:
        if word in ('--sound', '--remove', '--replace', '--backup', '--json'):
            continue
        if word.startswith('--'):
            options[word] = next(words)
        else:
            plain.append(word)
    return plain, options


def told(words, files):
    """What a call of the demonstration must say at least, by the second implementations; it writes to these files."""
    (name, first, *rest), options = options_of(words)
    out = (rest or [None])[-1]
    if name == 'list':
        return second_reader.listing(files[first])[0]
    if name == 'new-side':
        lines, made, out = ['bytes 44'], EMPTY, first
    elif name == 'add':
        lines, made = answer(second_command.add, files[first], files[out], int(options['--number']),
                             int(options['--limit']))
        out = options.get('--out', first)
    elif name == 'encode':
        lines, made = answer(second_command.encode, files[first], int(options.get('--align', 1024)))
    else:
        lines, made = answer({'check': second_command.check, 'decode': second_command.decode}[name], files[first])
    if made is not None:
        expect(f'whether {out} may be written in the demonstration', out not in files or out == first, True)
        files[out] = made
    return lines


def story():
    """demo/story has the calls of demo/commands, and what they must say."""
    text = STORY.read_text()
    expect('the calls of demo/story', re.findall(r'^(?:\$ |(?=#))(.+)$', text, re.M),
           re.findall('.+', (make.HERE / 'commands').read_text()))
    files = make.files()
    for part in text.rstrip('\n').split('\n\n'):
        _, call, *lines = part.splitlines()
        wanted = told(call.split()[2:], files)
        if wanted[0].startswith('refused'):
            number = int(wanted[0].split()[1])
            wanted.append(f'tronalhet: {number} means: {MEANINGS[number]}')
        expect(f'what {call} does not say', [line for line in wanted if line not in lines], [])


def demonstration():
    """demo/ has what its script makes; ./wave says what demo/story has, and leaves nothing."""
    there = {path.name: path.read_bytes() for path in make.HERE.glob('*.wav')}
    expect('whether the files of demo/ are what demo/make.py makes', there == make.files(), True)
    with tempfile.TemporaryDirectory() as room:
        found = run([*WAVE, 'demo'], '/', env={**os.environ, 'TMPDIR': room})
        expect('./wave demo', found, (0, STORY.read_text(), ''))
        expect('what ./wave demo leaves', os.listdir(room), [])
    expect('a demonstration that cannot be shown', run(['bash', '-c', '"$0" demo >/dev/full', *WAVE], '/'),
           (74, '', 'wave: cannot write to standard output\n'))


# ---- README.md

def shown_calls():
    """The calls whose answers README.md shows, with what they say."""
    twice, side = wave(fmt(), cue(point(101, 0), point(101, 1)), data()), EMPTY
    for number, name in ((101, 'harbour-song.wav'), (102, 'school-song.wav')):
        side = answer(second_command.add, side, make.files()[name], number, 4000)[1]
    for words, file in (('demo', b''), ('help', b''), ('check side.wav', twice),
                        ("title side.wav --number 101 'Harbour Song'", side)):
        with holding({'side.wav': file}) as folder:
            _, shown, said = run([*WAVE, *shlex.split(words)], folder)
            yield words, shown + said


def refreshed(text):
    """README.md with what ./wave really says after each of these calls."""
    for words, said in shown_calls():
        block = textwrap.indent(f'$ ./wave {words}\n{said}', '    ')
        found = re.compile(rf'^    \$ \./wave {re.escape(words)}\n(?:    .*\n|\n(?=    ))*', re.M)
        text, count = found.subn(lambda _, block=block: block, text)
        expect(f'how often README.md shows ./wave {words}', count, 1)
    return text


def readme():
    """README.md shows what ./wave really says, and has nothing typed that is not there."""
    text = README.read_text()
    expect('whether README.md shows what ./wave says', text == refreshed(text), True)
    typed = re.findall(r'^    \$ (\S+)', text[:text.index('## Installing it')], re.M)
    expect('what README.md has typed before it is installed', set(typed), {'./wave', 'tronalhet'})
    story_of = textwrap.indent(STORY.read_text(), '    ')
    expect('whether tronalhet is typed in the story alone', '$ tronalhet' in text.split('## Installing it')[0].replace(
        story_of, ''), False)


if __name__ == '__main__' and sys.argv[1:] == ['--write']:
    STORY.write_text(run([*WAVE, 'demo'], '/')[1])
    README.write_text(refreshed(README.read_text()))
