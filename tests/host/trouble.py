"""Trouble with files: what cannot be read or written, and what may not be replaced."""
import contextlib
import errno
import os
import pathlib
import resource
import shutil
import socket
import tempfile

from host.run import (ADDED, ADDED_SONG, DECODED, FILES, HOST, IN_PLACE, NATIVE, NEW, PROGRAM, does, picked, reading,
                      replacing, writing)
from trying import EMPTY, ROOT, SONG, expect, holding, kept, limited, printed, put, run, tried
from second import command as second_command, reader as second_reader
from second.command import answer
from vectors.wave_files import cue, data, fmt, point, wave


def trouble(label, words, files, *said, **options):
    """The command says one line on standard error with these words, and changes nothing; a script gets the same."""
    def seen(answered):
        status, shown, line = answered
        return status, shown, line[:11], line.count('\n'), [word for word in said if word not in line]

    def seen_by_script(answered):
        status, line, *_ = picked(lambda told: told['trouble'])(answered)
        return status, answered[2] == f'tronalhet: {line}\n'
    tried(label, [*HOST, *words], files, (74, '', 'tronalhet: ', 1, []), {}, seen, **options)
    tried(f'{label}, for scripts', [*HOST, *words, '--json'], files, (74, True), {}, seen_by_script, **options)


def not_read():
    """Input that is not there, is a folder, leads in a loop, or has no name that a file can have."""
    missing = errno.ENOENT
    for name, reason in (('nowhere.wav', missing), ('nowhere/x', missing), ('', missing), ('dangling', missing),
                         ('folder', errno.EISDIR), ('song.wav/x', errno.ENOTDIR), ('loop', errno.ELOOP),
                         ('n' * 300, errno.ENAMETOOLONG)):
        for words in reading(name):
            trouble(' '.join(words)[:99], words, {**FILES, 'dangling': 'nowhere', 'loop': 'loop'},
                    f"cannot read {name or chr(39) * 2}: {os.strerror(reason)}")
    trouble('add in place to nothing', ['add', 'nowhere.wav', 'song.wav', *ADDED], FILES,
            f'cannot read nowhere.wav: {os.strerror(missing)}')
    folder = os.open(ROOT, os.O_RDONLY)
    trouble('a folder as input', ['list', '-'], {}, f'standard input: {os.strerror(errno.EISDIR)}', stdin=folder)
    os.close(folder)


def not_written():
    """A place that cannot be written: in a folder that is not there, a folder, a link that leads nowhere."""
    missing, no_folder = os.strerror(errno.ENOENT), os.strerror(errno.ENOTDIR)
    taken, files = 'it is there, and is no file', {'dangling': 'nowhere/x', 'loop': 'loop', 'to folder': 'folder'}
    for name, reason in (('nowhere/new.wav', missing), ('', missing), ('dangling', missing), ('new.wav/', no_folder),
                         ('song.wav/new.wav', no_folder), ('folder', taken), ('folder/', taken), ('.', taken),
                         ('..', taken), ('to folder', taken), ('loop', 'it is a link that leads nowhere'),
                         ('n' * 256, os.strerror(errno.ENAMETOOLONG))):
        for words in writing(name):
            trouble(' '.join(words)[:99], words, {**FILES, **files}, 'cannot write ', f': {reason}\n')


def special_files():
    """A named pipe and a socket are not replaced, and a socket cannot be read."""
    with holding(FILES) as folder, socket.socket(socket.AF_UNIX) as end:
        os.mkfifo(folder / 'pipe')
        end.bind(f'{folder}/socket')
        for words in [*writing('pipe'), *writing('socket'), ['list', 'socket'], ['title', 'pipe', 'a', '--number=7']]:
            status, shown, said = run([*HOST, *words], folder, timeout=60)
            expect(f'{words}', (status, shown, said.count('\n')), (74, '', 1))
        special = sorted(path.name for path in folder.iterdir() if not path.is_file())
        expect('special files', special, ['folder', 'pipe', 'socket'])


def same_file():
    """OUT that is IN or SONG is not written, by another name, through a link of either kind, or as standard input."""
    files = {**FILES, 'link': 'song.wav', 'second': 'link', 'to side': 'side.wav'}
    for words, role in ((['decode', 'song.wav', 'song.wav'], 'IN'), (['encode', './song.wav', 'song.wav'], 'IN'),
                        (['decode', 'song.wav', 'folder/../song.wav'], 'IN'), (['decode', 'song.wav', 'link'], 'IN'),
                        (['decode', 'link', 'song.wav'], 'IN'), (['encode', 'link', 'second'], 'IN'),
                        (['decode', '/dev/stdin', 'song.wav'], 'IN'), (['decode', '-', 'song.wav'], 'IN'),
                        (['encode', '-', 'link'], 'IN'), (['add', 'side.wav', '-', *ADDED, '--out=song.wav'], 'SONG'),
                        (['add', 'side.wav', 'song.wav', *ADDED, '--out', './song.wav'], 'SONG'),
                        (['add', 'side.wav', './side.wav', *ADDED], 'SONG'),
                        (['add', 'to side', 'side.wav', *ADDED], 'SONG'),
                        (['add', 'side.wav', 'to side', *ADDED], 'SONG'),
                        (['add', 'side.wav', 'link', *ADDED, '--out=second'], 'SONG')):
        with holding(files) as folder:
            os.link(folder / 'song.wav', folder / 'hard')
            for call in (words, [word.replace('link', 'hard') for word in words]):
                with open(folder / 'song.wav', 'rb') as song:
                    status, shown, said = run([*HOST, *call], folder, stdin=song)
                front = f'tronalhet: OUT would replace {role}: '
                expect(f'{call}', (status, shown, said[:len(front)]), (74, '', front))
            expect(f'{words}, the files', kept(folder), {**files, 'folder': None, 'hard': SONG})


def links():
    """Where OUT is a link, the file that it leads to is written, be it there or not, and the link stays."""
    files = {**FILES, 'old.wav': b'old', 'to old': 'second link', 'second link': './old.wav', 'to song': 'song.wav',
             'to side': 'side.wav', 'to new': 'folder/new.wav'}
    for words, link, path, (lines, made) in (
            (['decode', 'to song', 'to old', '--replace'], 'to old', './old.wav', DECODED),
            (['decode', 'to song', 'to new'], 'to new', 'folder/new.wav', DECODED),
            (['add', 'to side', 'song.wav', *ADDED], 'to side', 'side.wav', ADDED_SONG),
            (['new-side', 'to new', *NEW], 'to new', 'folder/new.wav', (['bytes 44'], EMPTY))):
        does(f'{words}', words, files, (lines, made), out=path.removeprefix('./'),
             remarks=[f'tronalhet: {link}: it is a link, and {path} was written'])


def unfinished_names():
    """A file is not written under a name by which the next run would remove it."""
    for name in ('.tronalhet-1-0.part', 'folder/.tronalhet-22-333.part'):
        for words in writing(name):
            trouble(f'{words}', words, FILES, f'cannot write {name}: such names are for unfinished files')


def new_names():
    """A new side takes no name that is there, be it a file, an empty one, or a link; a name may have 255 bytes."""
    for name in ('song.wav', 'empty', 'link'):
        trouble(f'a new side for {name}', ['new-side', name, *NEW], {**FILES, 'empty': b'', 'link': 'song.wav'},
                'it is there already')
    long = 'n' * 255
    for files in (FILES, {**FILES, long: b'old'}):
        does('a name of 255 bytes', ['decode', 'song.wav', long, '--replace'], files, DECODED, out=long)


def modes():
    """A file that is replaced keeps its permissions; a new one has those that new files have."""
    with holding(FILES) as folder:
        for mode in (0o600, 0o640, 0o664, 0o777):
            for words in replacing('old'):
                put(folder / 'old', b'old')
                (folder / 'old').chmod(mode)
                status, _, _ = run([*HOST, *words], folder)
                expect(f'{words[0]}, mode {mode:o}', (status, (folder / 'old').stat().st_mode & 0o7777), (0, mode))
        for mask in (0o022, 0o027, 0o077, 0o002):
            for place in range(4):
                new = folder / f'new-{mask:o}-{place}'
                words = writing(new.name)[place]
                status, _, _ = run([*HOST, *words], folder, preexec_fn=lambda mask=mask: os.umask(mask))
                expect(f'{words[0]}, a new file', (status, new.stat().st_mode & 0o7777), (0, 0o666 & ~mask))


@contextlib.contextmanager
def guarded(groups=()):
    """A folder with files of a user whom permissions stop, and what runs the command there as that user.

    Where root runs the test, that user may be in other groups too.
    """
    with tempfile.TemporaryDirectory() as name:
        above, user = pathlib.Path(name), {}
        folder, command = above / 'sides', [*HOST[:-1], above / 'tronalhet']
        shutil.copy(PROGRAM, above)
        folder.mkdir()
        for file, content in {**FILES, 'old.wav': b'old'}.items():
            put(folder / file, content)
        if os.getuid() == 0:
            user = {'user': 65534, 'group': 65534, 'extra_groups': groups}
            above.chmod(0o755)
            for path in (folder, *folder.iterdir()):
                os.chown(path, 65534, 65534)
        yield folder, lambda words: run([*command, *words], folder, **user)
        folder.chmod(0o755)


def stopped(label, commands, folder, run_there):
    """Each command is trouble for want of a permission, and all stays as it is."""
    before = kept(folder)
    for words in commands:
        status, shown, said = run_there(words)
        denied = os.strerror(errno.EACCES) in said
        expect(f'{label}, {words}', (status, shown, said.count('\n'), denied), (74, '', 1, True))
    expect(f'{label}, the files', kept(folder), before)


def not_allowed():
    """A file that may not be read, files that may not be written, and a folder that may not be."""
    with guarded() as (folder, run_there):
        (folder / 'song.wav').chmod(0o200)
        songs = [run_there(words) for words in reading('song.wav')]
        (folder / 'song.wav').chmod(0o644)
        expect('a song that may not be read', [(status, shown, said) for status, shown, said in songs],
               [(74, '', f'tronalhet: cannot read song.wav: {os.strerror(errno.EACCES)}\n')] * 6)
        for name in ('old.wav', 'side.wav'):
            (folder / name).chmod(0o444)
        stopped('a file that may not be written', [*writing('old.wav'), *replacing('old.wav'), IN_PLACE], folder,
                run_there)
        for name in ('old.wav', 'side.wav'):
            (folder / name).chmod(0o644)
        folder.chmod(0o555)
        commands = [*replacing('old.wav'), *writing('new.wav'), IN_PLACE]
        stopped('a folder that may not be written', commands, folder, run_there)


def shared():
    """A side that volunteers share by a group is theirs still when one has added to it. Only root can try that."""
    if os.getuid() != 0:
        return
    with guarded([65533]) as (folder, run_there):
        side = folder / 'side.wav'
        os.chown(side, 65532, 65533)
        side.chmod(0o660)
        expect('add to a shared side', run_there(IN_PLACE), (0, printed(ADDED_SONG[0]), ''))
        expect('group and mode of a shared side', (side.stat().st_gid, side.stat().st_mode & 0o7777), (65533, 0o660))


def devices():
    """A device is not replaced. A user asks for it who could not do so, lest a fault cost the machine its devices."""
    with guarded() as (_, run_there):
        for words in [*writing('/dev/null'), *writing('/dev/full')]:
            name = words[1] if words[0] == 'new-side' else words[-1]
            said = f'tronalhet: cannot write {name}: it is there, and is no file\n'
            expect(f'{words}', run_there(words), (74, '', said))


def hidden_folder():
    """In a folder that may be written but not read a file is written; an add, which cannot lock it, is not done."""
    with guarded() as (folder, run_there):
        folder.chmod(0o300)
        ended = [run_there(words)[:2] for words in [*replacing('old.wav')[:2], IN_PLACE]]
        folder.chmod(0o755)
        lines, coded = answer(second_command.encode, SONG, 1024)
        expect('in a folder that may not be read', ended, [(0, printed(DECODED[0])), (0, printed(lines)), (74, '')])
        expect('what is in it', kept(folder), {**FILES, 'old.wav': coded})


def not_shown():
    """Standard output that cannot be written is trouble; what was done is reported, and stays."""
    for words, told, changed in ((['--help'], '', {}), (['list', '--help'], '', {}),
                                 (['check', 'song.wav'], 'accepted', {}),
                                 (['list', 'song.wav'], second_reader.listing(SONG)[0][0], {}),
                                 (['encode', 'song.wav', 'new.wav', '--align=6'], 'refused 9', {}),
                                 (IN_PLACE, 'added 7', {'side.wav': ADDED_SONG[1]})):
        full = os.strerror(errno.ENOSPC)
        front = f'tronalhet: cannot write to standard output: {full}; the answer was: {told}'
        tried(f'{words} to a full device', ['bash', '-c', '"$@" >/dev/full', 'bash', *HOST, *words], FILES,
              (74, front), changed, lambda answered, front=front: (answered[0], answered[2][:len(front)]))


def no_memory():
    """Where memory is lacking it is trouble and no crash, however much is there, until there is enough."""
    if not NATIVE:
        return
    files = {'file.wav': wave(fmt(bits=8), cue(point(7, 0)), data(20000000)), 'side.wav': EMPTY, 'old.wav': b'old'}
    for words, enough in ((['list', 'file.wav'], 0), (['decode', 'file.wav', 'old.wav', '--replace'], 0),
                          (['encode', 'file.wav', 'old.wav', '--replace'], 0),
                          (['add', 'side.wav', 'file.wav', *ADDED], 9),
                          (['title', 'file.wav', 'Song', '--number=7'], 0)):
        with holding(files) as folder:
            status, ended = 74, []
            for size in range(8 << 20, 200 << 20, 4 << 20):
                expect(f'{words[0]} in {size} bytes of memory, the old file', (folder / 'old.wav').read_bytes(), b'old')
                status, shown, said = run([*HOST, *words], folder, **limited(resource.RLIMIT_AS, size))
                if status != 74:
                    break
                ended.append((shown, said[:34]))
            expect(f'{words[0]} in more and more memory', (status, set(ended)),
                   (enough, {('', 'tronalhet: there is no memory for ')}))
            expect(f'{words[0]} in little memory, what is there', sorted(kept(folder)), sorted([*files, 'folder']))
