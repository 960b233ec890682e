"""Several runs at a time: adds to one side, and others that write into one folder."""
import contextlib
import fcntl
import os
import shutil
import time

from host.run import ADDED, ADDED_SONG, DECODED, FILES, HOST, IN_PLACE, NEW, OTHER, added, parts
from host.titles import with_titles
from trying import EMPTY, SONG, expect, holding, kept, opened, printed, put, run, start
from second import reader as second_reader, side as second_side
from vectors import side_files
from vectors.wave_files import chunk, fmt, wave


def adding(side, song, number):
    """The words of an add in place."""
    return [*HOST, 'add', '--number', number, '--limit', 40000, '--', side, song]


def stuck(label, out, killed, wanted):
    """An add waits for a song that does not come, and may be killed so. A second add, which knows the side by another
    path, does not wait for it; then the song comes.

    What is wanted: what the first and the second report, and the songs of the side in the end.
    """
    with holding({'song.wav': OTHER}) as folder:
        put(folder / out, EMPTY)
        os.mkfifo(folder / 'pipe')
        with start(adding(out, 'pipe', 1), folder) as first:
            pipe = opened(folder / 'pipe')
            killed(first)
            second = run(adding(folder / out, folder / 'song.wav', 2), '/', timeout=60)
            with contextlib.suppress(BrokenPipeError):
                os.write(pipe, SONG)
            os.close(pipe)
            told = first.communicate(timeout=60)[0]
        expect(f'{label}, what the adds report', (told.splitlines()[:2], second[1].splitlines()[:2]), wanted[:2])
        songs = [song.number for song in second_side.songs((folder / out).read_bytes())]
        expect(f'{label}, the songs of the side', songs, wanted[2])
        expect(f'{label}, the files', parts(folder), [])


def stuck_songs():
    """A song that does not come keeps nobody out, and none is lost; the same of a side that comes by a pipe."""
    for out in ('side.wav', 'folder/side.wav'):
        stuck(f'two adds to {out}', out, lambda first: None,
              (['added 1', 'bytes 5740'], ['added 2', 'bytes 2504'], [2, 1]))
    stuck('an add after one was killed', 'side.wav', lambda one: (one.kill(), one.wait()),
          ([], ['added 2', 'bytes 2504'], [2]))
    with sides() as folder:
        os.mkfifo(folder / 'pipe')
        with start([*HOST, 'add', 'pipe', 'other.wav', *ADDED, '--out=new.wav'], folder) as first:
            pipe = opened(folder / 'pipe')
            expect('an add beside a side that does not come', run([*HOST, *IN_PLACE], folder, timeout=60)[0], 0)
            os.write(pipe, EMPTY)
            os.close(pipe)
            expect('a side that comes late', first.communicate(timeout=60)[0], printed(added(EMPTY, OTHER, 7, 9999)[0]))


def locked(folder):
    """Has the folder for oneself, as an add does, until what is given back is closed."""
    held = os.open(folder, os.O_RDONLY)
    fcntl.flock(held, fcntl.LOCK_EX)
    return held


@contextlib.contextmanager
def sides():
    """A folder with a side, songs, and in another folder a link to the side."""
    with holding({**FILES, 'other.wav': OTHER}) as folder:
        put(folder / 'folder' / 'link', '../side.wav')
        yield folder


def while_locked(label, words, wanted, meanwhile=lambda folder: None):
    """The command waits, and says so, as long as another program has the folder, where something may happen meanwhile.

    What is wanted: the status, standard output, and the files that are changed then.
    """
    with sides() as folder:
        before, held = kept(folder), locked(folder)
        with start([*HOST, *words], folder) as waiting:
            said = waiting.stderr.readline()
            time.sleep(0.3)
            expect(f'{label}, what is said and done before', (said[:35], waiting.poll(), kept(folder)),
                   ('tronalhet: waiting for another add,', None, before))
            meanwhile(folder)
            after = {**kept(folder), **wanted[2]}
            os.close(held)
            shown, _ = waiting.communicate(timeout=60)
        expect(f'{label}, what is said then', (waiting.returncode, shown), wanted[:2])
        expect(f'{label}, the files', kept(folder), after)


def waits():
    """An add, a title and a new side wait for others in the folder where they write, also where a link leads there."""
    lines, made = ADDED_SONG
    for side in ('side.wav', './folder/../side.wav', 'folder/link'):
        while_locked(f'add to {side}', ['add', side, 'song.wav', *ADDED], (0, printed(lines), {'side.wav': made}))
    for side in ('side.wav', 'folder/link'):
        words = ['title', side, 'Song', '--number=7']
        titled = with_titles(made, [(0, 7, b'Song\0')])
        while_locked(f'a title on {side}', words, (0, printed(['cue 7', 'label Song', f'bytes {len(titled)}']),
                                                   {'side.wav': titled}),
                     lambda folder: put(folder / 'side.wav', made))
    while_locked('add to a new file', [*IN_PLACE, '--out=new.wav'], (0, printed(lines), {'new.wav': made}))
    while_locked('a new side', ['new-side', 'new.wav', *NEW], (0, 'bytes 44\n', {'new.wav': EMPTY}))
    while_locked('a new side whose name is taken', ['new-side', 'new.wav', *NEW], (74, '', {}),
                 lambda folder: put(folder / 'new.wav', b'taken'))
    while_locked('add to a new file whose name is taken', [*IN_PLACE, '--out=new.wav'], (74, '', {}),
                 lambda folder: put(folder / 'new.wav', b'taken'))
    more, both = added(made, OTHER, 8, 9999)
    while_locked('add to a side that is changed', ['add', 'side.wav', 'other.wav', '--number=8', '--limit=9999'],
                 (0, printed(more), {'side.wav': both}), lambda folder: put(folder / 'side.wav', made))
    while_locked('add, and the side vanishes', IN_PLACE, (74, '', {}), lambda folder: (folder / 'side.wav').unlink())
    while_locked('add, and the song vanishes', IN_PLACE, (0, printed(lines), {'side.wav': made}),
                 lambda folder: (folder / 'song.wav').unlink())


def elsewhere():
    """Who writes into another folder does not wait, nor who adds nothing."""
    with sides() as folder:
        held = locked(folder)
        for words in ([*IN_PLACE, '--out=folder/new.wav'], ['list', 'side.wav'], ['check', 'side.wav'],
                      ['decode', 'song.wav', 'new.wav'], ['encode', 'song.wav', 'newer.wav']):
            status, _, said = run([*HOST, *words], folder, timeout=60)
            expect(f'{words} beside a lock', (status, said), (0, ''))
        os.close(held)


def all_at_once(commands, folder):
    """Starts the command with all these words and waits; what each run ends with."""
    ended = []
    for one in [start([*HOST, *words], folder) for words in commands]:
        with one:
            one.communicate(timeout=600)
            ended.append(one.returncode)
    return ended


def ten_adds():
    """Ten adds at the same moment, ten times: what could go wrong takes a moment that is not always hit. The same of
    titles."""
    for _ in range(10):
        ten_songs()
        ten_titles()


def ten_titles():
    """Five songs are given their titles at the same moment as five others are added: no title and no song is lost."""
    with holding({'side.wav': side_files.side(*[(number, 3) for number in range(5)])}) as folder:
        for number in range(5, 10):
            put(folder / f'{number}.wav', side_files.song(3, number))
        calls = [['title', 'side.wav', f'Song {number}', '--number', number] for number in range(5)]
        calls += [['add', 'side.wav', f'{number}.wav', '--number', number, '--limit=99'] for number in range(5, 10)]
        expect('titles and adds, how they end', all_at_once(calls[::2] + calls[1::2], folder), [0] * 10)
        made = (folder / 'side.wav').read_bytes()
        expect('titles and adds, the titles', sorted(second_reader.titles(made)),
               [(0, number, b'Song %d\0' % number) for number in range(5)])
        expect('titles and adds, the songs', sorted(song.number for song in second_side.songs(made)), [*range(10)])
        expect('titles and adds, what is left', parts(folder), [])


def ten_songs():
    """Ten songs are added at the same moment: all are on the side, in some order and each whole."""
    songs = {number: side_files.sound_of(3000 + number, number) for number in range(1, 11)}
    with sides() as folder:
        for number, sound in songs.items():
            put(folder / f'{number}.wav', wave(fmt(), chunk(b'data', sound)))
        ended = all_at_once([['add', 'side.wav' if number % 2 else 'folder/link', f'{number}.wav', '--number', number,
                              '--limit', 99999] for number in songs], folder)
        expect('ten adds, how they end', ended, [0] * 10)
        made = (folder / 'side.wav').read_bytes()
        expect('ten adds, the songs', {song.number: song.sound for song in second_side.songs(made)}, songs)
        expect('ten adds, the size', len(made), len(EMPTY) + 24 + 36 * 10 + sum(map(len, songs.values())))
        expect('ten adds, what is left', (parts(folder), os.readlink(folder / 'folder' / 'link')), ([], '../side.wav'))


def replaced_meanwhile():
    """An add that is held up at any of its looks at files, while another replaces the side, does not take the side for
    another file: both songs are on it. Only where a run can be held up so."""
    for turn in range(1, 13):
        hold = ['strace', '-f', '-o', 'log', '-e', 'trace=statx', '-e', f'inject=statx:delay_enter=300000:when={turn}']
        with sides() as folder:
            if not shutil.which('strace') or run([*hold, 'true'], folder)[0] != 0:
                return
            with start([*hold, *HOST, *IN_PLACE], folder) as held:
                time.sleep(0.15)
                other = run([*HOST, 'add', 'side.wav', 'other.wav', '--number=8', '--limit=9999'], folder)
                held.communicate(timeout=60)
            songs = [song.number for song in second_side.songs((folder / 'side.wav').read_bytes())]
            expect(f'an add held up at look {turn}', (held.returncode, other[0], sorted(songs)), (0, 0, [7, 8]))


def ten_sides():
    """Of ten new sides of one name at the same moment one is made."""
    with sides() as folder:
        ended = all_at_once([['new-side', 'new.wav', '--channels=1', f'--rate={8000 + turn}'] for turn in range(10)],
                            folder)
        expect('ten new sides, how they end', sorted(ended), [0] + [74] * 9)
        expect('the new side', (folder / 'new.wav').read_bytes(), second_side.empty(1, 8000 + ended.index(0))[1])


def many_decodes():
    """Runs that write into one folder at the same moment do not sweep away each other's unfinished files.

    What could go wrong takes a moment that is seldom hit, hence so many; one in a hundred runs would be seen.
    """
    with sides() as folder:
        ended = []
        for turn in range(25):
            ended += all_at_once([['decode', 'song.wav', f'{turn}-{place}.wav'] for place in range(60)], folder)
        made = [path.read_bytes() == DECODED[1] for path in folder.glob('*-*.wav')]
        expect('many decodes, those that did not end well', [status for status in ended if status != 0], [])
        expect('many decodes, what is there', (len(made), all(made), parts(folder)), (1500, True, []))
