"""Nothing is lost by a slip of a person: what is there is not replaced, what is replaced can be kept, and what is odd
is said."""
import os
import subprocess

from host.run import (ADDED, ADDED_SONG, DECODED, FILES, HOST, IN_PLACE, KNOWN, OF_SOUND, OTHER, added, adds, does,
                      left_out, parts, reading, replacing, tells, writing)
from host.trouble import trouble
from trying import EMPTY, SONG, expect, holding, kept, opened, put, run, start
from second import command as second_command
from second.command import answer
from vectors import side_files
from vectors.wave_files import chunk, cue, data, entry, fmt, plst, point, wave

THERE = 'it is there already; --replace would replace it'


# ---- what is there is not replaced

def not_replaced():
    """A file of the name OUT stays, unless it is SIDE itself or --replace is given; be it a song, a side, or empty."""
    songs = {'a.wav': SONG, 'b.wav': OTHER, 'empty': b''}
    for name in ('b.wav', 'empty'):
        trouble(f'encode over {name}', ['encode', 'a.wav', name], songs, f'cannot write {name}: {THERE}')
        trouble(f'decode over {name}', ['decode', 'a.wav', name], songs, f'cannot write {name}: {THERE}')
    sides = {'A.wav': EMPTY, 'B.wav': ADDED_SONG[1], 'song.wav': OTHER}
    call = ['add', 'A.wav', 'song.wav', '--number=8', '--limit=9999']
    trouble('add to another side', [*call, '--out=B.wav'], sides, f'cannot write B.wav: {THERE}')
    does('add over another side', [*call, '--out=B.wav', '--replace'], sides, added(EMPTY, OTHER, 8, 9999), out='B.wav')
    does('add to SIDE by its name', [*call, '--out=./A.wav'], sides, added(EMPTY, OTHER, 8, 9999), out='A.wav')
    does('encode over another song', ['encode', 'a.wav', 'b.wav', '--replace'], songs,
         answer(second_command.encode, SONG, 1024), out='b.wav')


def meanwhile():
    """A file that appears at OUT while the song is awaited, or changes there, is not replaced either."""
    for words, why in ((['decode', 'pipe', 'new.wav'], 'it is there already'),
                       (['encode', 'pipe', 'old.wav', '--replace'], 'it changed while the new file was made')):
        out = words[2]
        with holding({'old.wav': b'old'}) as folder:
            os.mkfifo(folder / 'pipe')
            with start([*HOST, *words], folder) as waiting:
                pipe = opened(folder / 'pipe')
                put(folder / out, b'put there meanwhile')
                os.write(pipe, SONG)
                os.close(pipe)
                ended = waiting.communicate(timeout=60)
            expect(f'{words}, and OUT changes meanwhile', (waiting.returncode, *ended),
                   (74, '', f'tronalhet: cannot write {out}: {why}\n'))
            expect(f'{words}, the files', ((folder / out).read_bytes(), parts(folder)), (b'put there meanwhile', []))


# ---- what is odd is said

def other_sounds():
    """A sound that is on the side under other numbers is added, and that is said; so are chunks that are left out."""
    side = side_files.side((7, 2), (9, 3), (11, 2))
    twice = added(side, side_files.song(2, 7), 12, 99)[1]
    for label, on, song in (('no such sound', side, side_files.song(4)), ('one', side, side_files.song(2, 7)),
                            ('two', twice, side_files.song(2, 7))):
        adds(f'{label}, the same sound', on, song, 5, 99)
    tells('the same sound, for scripts', ['add', 'side.wav', 'song.wav', '--number=5', '--limit=99'],
          {'side.wav': twice, 'song.wav': side_files.song(2, 7)}, (0, [7, 12]), lambda told: told['same_sound_as'],
          {'side.wav': added(twice, side_files.song(2, 7), 5, 99)[1]})
    more = [chunk(b'LIST', b'INFO'), chunk(b'bext', bytes(602)), chunk(b'LIST', b'adtl'), chunk(b'\x01"\n\\')]
    song = wave(fmt(), *more, cue(point(3, 0)), plst(entry(3, 4)), data())
    adds('chunks of a song', EMPTY, song, 5, 99)
    adds('chunks of a side', wave(fmt(), chunk(b'bext', b'side'), data(0)), song, 5, 99)
    for call, known, made in ((['decode', 'song.wav', 'new.wav'], KNOWN, answer(second_command.decode, song)),
                              (['encode', 'song.wav', 'new.wav'], OF_SOUND, answer(second_command.encode, song, 1024))):
        does(f'{call[0]}, chunks that are left out', call, {'song.wav': song}, made,
             remarks=left_out('song.wav', song, known))
        titles, tables = [('LIST', 'adtl', 1)], [('cue ', None, 1), ('plst', None, 1)]
        last = ('\\x01\\"\\n\\\\', None, 1)
        tells(f'{call[0]}, chunks that are left out, for scripts', call, {'song.wav': song},
              (0, [('song.wav', *one) for one in [('LIST', 'INFO', 1), ('bext', None, 1)]
                   + ([last] if known == KNOWN else [*titles, last, *tables])]),
              lambda told: [(one['file'], one['chunk'], one.get('type'), one['count']) for one in told['left_out']],
              {'new.wav': made[1]})


def nothing_written():
    """A song that is on the side already is no fault, but OUT is not there then, and that is said."""
    with holding({**FILES, 'side.wav': ADDED_SONG[1]}) as folder:
        before = kept(folder)
        status, shown, said = run([*HOST, *IN_PLACE, '--out=new.wav'], folder)
        expect('a listed song and another OUT', (status, shown, said.splitlines()[-1]),
               (0, 'refused 18\n', 'tronalhet: way out: use SIDE as it is; new.wav was not written'))
        expect('a listed song and another OUT, the files', kept(folder), before)


# ---- what is replaced can be kept

def backups():
    """--backup keeps the old side under the first free name, whatever has the names before; no backup is replaced."""
    for there in ({}, {'side.wav.1': b'other'}, {'side.wav.1': 'nowhere', 'side.wav.2': b''}):
        name = f'side.wav.{len(there) + 1}'
        does(f'a backup as {name}', [*IN_PLACE, '--backup'], {**FILES, **there},
             ([*ADDED_SONG[0], f'backup {name}'], {'side.wav': ADDED_SONG[1], name: EMPTY}))
    tells('a backup, for scripts', ['add', 'side.wav', 'song.wav', *ADDED, '--backup'], FILES,
          (0, ('side.wav', 'side.wav.1')), lambda told: (told['out'], told['backup']),
          {'side.wav': ADDED_SONG[1], 'side.wav.1': EMPTY})
    does('a backup of what is replaced', [*IN_PLACE, '--out=old', '--replace', '--backup'], {**FILES, 'old': b'old'},
         ([*ADDED_SONG[0], 'backup old.1'], {'old': ADDED_SONG[1], 'old.1': b'old'}))
    does('a backup by a link', ['add', 'link', 'song.wav', *ADDED, '--backup'], {**FILES, 'link': 'side.wav'},
         ([*ADDED_SONG[0], 'backup side.wav.1'], {'side.wav': ADDED_SONG[1], 'side.wav.1': EMPTY}),
         remarks=['tronalhet: link: it is a link, and side.wav was written'])
    does('nothing to be kept', [*IN_PLACE, '--out=new.wav', '--backup'], FILES,
         (ADDED_SONG[0], {'new.wav': ADDED_SONG[1]}))
    does('a refusal keeps nothing', [*IN_PLACE[:3], '--number=7', '--limit=1', '--backup'], FILES,
         (['refused 17'], None), 'side.wav')
    long = 'n' * 254
    trouble('a backup with too long a name', ['add', long, 'song.wav', *ADDED, '--backup'], {**FILES, long: EMPTY},
            'cannot write ')


def kept_twice():
    """Backups of several adds: each is the side as it was, with its permissions."""
    with holding(FILES) as folder:
        side = folder / 'side.wav'
        side.chmod(0o640)
        before = []
        for number in range(3):
            before.append(side.read_bytes())
            put(folder / f'{number}.wav', side_files.song(5 + number))
            words = ['add', 'side.wav', f'{number}.wav', '--number', number, '--limit=99', '--backup']
            expect(f'backup {number}', run([*HOST, *words], folder)[0], 0)
        found = [(folder / f'side.wav.{number}') for number in (1, 2, 3)]
        expect('the backups', [path.read_bytes() for path in found], before)
        expect('permissions of backups', [path.stat().st_mode & 0o7777 for path in (*found, side)], [0o640] * 4)


def links_of_backups():
    """A backup that a run which was cut off has made already, as a second name of the side, is no hindrance."""
    for words, backup in ((IN_PLACE, False), ([*IN_PLACE, '--backup'], True)):
        with holding(FILES) as folder:
            os.link(folder / 'side.wav', folder / 'side.wav.1')
            expect(f'{words} after a backup that was cut off', run([*HOST, *words], folder)[0], 0)
            expect(f'{words}, the files', kept(folder),
                   {**FILES, 'folder': None, 'side.wav': ADDED_SONG[1], 'side.wav.1': EMPTY})


def several_names():
    """A side with several names is not replaced under one of them alone, unless that is asked for; then it is said."""
    for words, others, has, keep in (
            (IN_PLACE, ['second'], '1 more name (a hard link)', '1 other name (a hard link) keeps'),
            ([*IN_PLACE, '--out=./side.wav'], ['second', 'third'], '2 more names (hard links)',
             '2 other names (hard links) keep'),
            ([*IN_PLACE, '--backup'], ['second', 'third'], '2 more names (hard links)',
             '2 other names (hard links) keep')):
        with holding(FILES) as folder:
            for name in others:
                os.link(folder / 'side.wav', folder / name)
            status, shown, said = run([*HOST, *words], folder)
            front = f'tronalhet: cannot write side.wav: it has {has}, by which the old file would stay; --replace '
            expect(f'{words}, several names', (status, shown, said.replace('./', '')[:len(front)]), (74, '', front))
            after = {**FILES, 'folder': None, **{name: EMPTY for name in others}}
            expect(f'{words}, several names, the files', kept(folder), after)
            status, _, said = run([*HOST, *IN_PLACE, '--replace'], folder)
            expect(f'{words}, several names, replaced', (status, said),
                   (0, f'tronalhet: side.wav: its {keep} the old file\n'))
            expect(f'{words}, several names, then', kept(folder), {**after, 'side.wav': ADDED_SONG[1]})


# ---- what is printed

def closed_streams():
    """A closed standard output is trouble, and nothing is done; a closed standard input cannot be read."""
    calls = [['--help'], ['--version'], *reading('song.wav'), *writing('new.wav'), *replacing('old'), IN_PLACE,
             ['title', 'side.wav', 'Song', '--number=7']]
    for words in calls:
        with holding({**FILES, 'old': b'old'}) as folder:
            before = kept(folder)
            status, _, said = run(['bash', '-c', '"$@" >&-', 'bash', *HOST, *words], folder)
            expect(f'{words} to a closed output', (status, said),
                   (74, 'tronalhet: standard output is closed; nothing was done\n'))
            expect(f'{words} to a closed output, the files', kept(folder), before)
    with holding(FILES) as folder:
        ended = run(['bash', '-c', '"$@" <&-', 'bash', *HOST, 'list', '-'], folder)
        expect('a closed input', ended, (74, '', 'tronalhet: cannot read standard input: Bad file descriptor\n'))


def closed_pipes():
    """Who closes a pipe wants no more: the work is done, and nothing is said."""
    for words, changed in ((['--help'], {}), (['list', 'song.wav'], {}), (['check', 'song.wav', 'side.wav'], {}),
                           (['decode', 'song.wav', 'new.wav'], {'new.wav': DECODED[1]}),
                           (IN_PLACE, {'side.wav': ADDED_SONG[1]})):
        with holding(FILES) as folder:
            after = {**kept(folder), **changed}
            reads, writes = os.pipe()
            os.close(reads)
            ran = subprocess.run([str(word) for word in [*HOST, *words]], cwd=folder, stdin=subprocess.DEVNULL,
                                 stdout=writes, stderr=subprocess.PIPE, check=False)
            os.close(writes)
            expect(f'{words} to a closed pipe', (ran.returncode, ran.stderr), (0, b''))
            expect(f'{words} to a closed pipe, the files', (kept(folder), parts(folder)), (after, []))


def names_on_one_line():
    """No name can be read as another line: what would end one or move the cursor is escaped."""
    for name, shown in (('a\nrefused 1', 'a\\nrefused 1'), ('b\r\x1b[2Kaccepted', 'b\\r\\u{1b}[2Kaccepted'),
                        ('c\u202ed\x85', 'c\\u{202e}d\\u{85}'), ('Größe', 'Größe')):
        with holding({name: SONG, 'side.wav': EMPTY, 'none.wav': b''}) as folder:
            ended = run([*HOST, 'check', name, 'none.wav'], folder)
            expect(f'check {name!a}', (ended[0], ended[1]), (1, f'{shown}: accepted\nnone.wav: refused 1\n'))
            for words in (['list', f'{name}-'], ['decode', name, f'{name}/x'], ['decode', name, name],
                          ['list', name, name], ['add', 'side.wav', name, '--number', name, '--limit=1'], [name]):
                _, lines, said = run([*HOST, *words], folder)
                expect(f'{words!a}', (lines, shown in said, name in said and name != shown), ('', True, False))
