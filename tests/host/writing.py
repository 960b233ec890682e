"""Nothing is lost: a full disk, a limit of the system, and what runs that were killed leave."""
import contextlib
import errno
import fcntl
import os
import pathlib
import re
import resource
import shutil
import subprocess

from host.run import DECODED, FILES, HOST, IN_PLACE, NATIVE, NEW, PART, STEREO, parts, replacing, writing
from host.titles import BARE
from host.trouble import trouble
from trying import SONG, expect, holding, kept, limited, printed, put, run
from second import command as second_command
from second.command import answer
from vectors.wave_files import chunk, data, wave


TITLE = ['title', 'side.wav', 'Song', '--number=7']


def full_disk():
    """A write that fails after a part of the bytes leaves nothing, also where the file was there before.

    The signal SIGXFSZ, which would end a program at the limit, is ignored, as Python has it; then the write fails as
    on a full disk.
    """
    reason = os.strerror(errno.EFBIG)
    for words in [*writing('new.wav')[:3], *replacing('old.wav')]:
        trouble(f'{words} on a full disk', words, {**FILES, 'old.wav': b'old'}, f'.wav: {reason}',
                **limited(resource.RLIMIT_FSIZE, 500))
    trouble('add in place on a full disk', IN_PLACE, FILES, f'cannot write side.wav: {reason}',
            **limited(resource.RLIMIT_FSIZE, 500))
    trouble('a title on a full disk', TITLE, {'side.wav': BARE}, f'cannot write side.wav: {reason}',
            **limited(resource.RLIMIT_FSIZE, len(BARE) - 1))
    trouble('a new side on a full disk', ['new-side', 'new.wav', *NEW], FILES, f'cannot write new.wav: {reason}',
            **limited(resource.RLIMIT_FSIZE, 43))


def really_full_disk():
    """The same on a small disk of its own; where the system lets nobody have one, the limits above are all."""
    apart = ['unshare', '-m'] if os.getuid() == 0 else ['unshare', '-rm']
    script = ('mount -t tmpfs -o size=64k none folder && cp *.wav folder && cd folder && '
              '{ "$@"; echo "status $?"; ls -A; cat *; }')
    sound = chunk(b'data', b'song' * 10000)
    files = {'old.wav': b'old', 'side.wav': wave(STEREO, data(0)), 'song.wav': wave(STEREO, sound)}
    lines, coded = answer(second_command.encode, files['song.wav'], 1024)
    full, copied_there = (['status 74'], files), ([*lines, 'status 0'], {**files, 'old.wav': coded})
    with holding(files) as folder:
        if not shutil.which('unshare') or run([*apart, 'mount', '-t', 'tmpfs', 'none', 'folder'], folder)[0] != 0:
            return
        for words, (said, after) in ((['decode', 'song.wav', 'old.wav', '--replace'], full),
                                     (['decode', 'song.wav', 'new.wav'], full),
                                     (['add', 'side.wav', 'song.wav', '--number=7', '--limit=10000'], full),
                                     # There is room for a copy.
                                     (['encode', 'song.wav', 'old.wav', '--replace'], copied_there)):
            ran = subprocess.run([str(word) for word in [*apart, 'sh', '-c', script, 'sh', *HOST, *words]], cwd=folder,
                                 stdout=subprocess.PIPE, stderr=subprocess.PIPE, check=False)
            expect(f'{words} on a small disk', ran.stdout, printed([*said, *after]).encode() + b''.join(after.values()))
            lacking = os.strerror(errno.ENOSPC).encode() in ran.stderr
            expect(f'{words} on a small disk, whether it says so', lacking, said == full[0])


def swept(label, folder):
    """The next run in a folder is not hindered by what is left of another, and removes it."""
    put(folder / 'next song.wav', SONG)
    status, _, said = run([*HOST, 'decode', 'next song.wav', 'next.wav', '--replace'], folder)
    expect(f'{label}, the next run', (status, said, parts(folder)), (0, '', []))
    expect(f'{label}, what it writes', (folder / 'next.wav').read_bytes(), DECODED[1])


def at_300_bytes():
    """Has the system send SIGXFSZ, which ends a program, where a file gets longer than that."""
    resource.setrlimit(resource.RLIMIT_CORE, (0, 0))
    resource.setrlimit(resource.RLIMIT_FSIZE, (300, 300))


def past_a_limit():
    """The signal that a file gets longer than the system allows is trouble as a full disk is: nothing is left.

    An emulator is ended by that signal itself; there the command's own unit test is all.
    """
    if not NATIVE:
        return
    for words in [*replacing('old.wav'), *writing('new.wav')[:3], IN_PLACE]:
        trouble(f'{words}, past a limit', words, {**FILES, 'old.wav': b'old'}, os.strerror(errno.EFBIG),
                preexec_fn=at_300_bytes)


def living_parts():
    """What a run that lives has locked is left alone, and what is no unfinished file of the command too."""
    others = ['.tronalhet-mine.part', 'tronalhet-1-0.part', '.tronalhet-1-0.wav', 'song.wav.part', '.part']
    with holding({**FILES, **{other: b'part' for other in others}}) as folder:
        living, dead = folder / '.tronalhet-1-0.part', folder / '.tronalhet-2-0.part'
        put(living, b'part')
        with open(living, 'rb') as held:
            fcntl.flock(held, fcntl.LOCK_EX)
            for place in range(4):
                words = writing(f'new{place}.wav')[place]
                put(dead, b'part')
                status, _, _ = run([*HOST, *words], folder)
                expect(f'{words[0]} beside a run that lives', (status, parts(folder)), (0, [living]))
        swept('after a run that lived', folder)
        expect('other files', [other for other in others if (folder / other).read_bytes() == b'part'], others)


def no_parts():
    """A link with the name of an unfinished file is no way to another file; a folder or a pipe does not stop a run."""
    with holding(FILES) as folder:
        put(folder / '.tronalhet-1-0.part', 'song.wav')
        (folder / '.tronalhet-2-0.part').mkdir()
        before = kept(folder)
        status, _, _ = run([*HOST, 'encode', 'song.wav', 'new.wav'], folder)
        expect('a link and a folder as parts', (status, {**kept(folder), **before}), (0, kept(folder)))
        os.mkfifo(folder / '.tronalhet-3-0.part')
        ended = 'it waits'
        with contextlib.suppress(subprocess.TimeoutExpired):
            ended = run([*HOST, 'encode', 'song.wav', 'newer.wav'], folder, timeout=5)[0]
        expect('a named pipe as a part', ended, 0)


def calls_in(log):
    """The calls that strace wrote down, each with the first file that it names, an unfinished one as such.

    The folder in which a name is looked up is not named by the call.
    """
    for line in log.splitlines():
        named = re.sub(r'AT_FDCWD<[^>]*>', 'AT_FDCWD', line)
        files = [pathlib.Path(file) for file in re.findall(r'[<"]([^<>"]+)[>"]', named)]
        yield from [(line.split('(')[0], PART if file.match(PART) else file.name) for file in files[:1]]


def flushed():
    """The new file is flushed before it gets its name, and then the folder; where the calls of a run can be seen."""
    watch = ['strace', '-y', '-o', 'log', '-e', 'trace=fsync,fdatasync,rename,renameat,renameat2']
    with holding(FILES) as folder:
        if not NATIVE or not shutil.which('strace') or run([*watch, 'true'], folder)[0] != 0:
            return
        for words in [*replacing('song2.wav'), *writing('new.wav')[:1], IN_PLACE, TITLE,
                      ['new-side', 'newer.wav', *NEW]]:
            put(folder / 'song2.wav', SONG)
            status, _, _ = run([*watch, *HOST, *words], folder)
            calls = [(call[:6], file) for call, file in calls_in((folder / 'log').read_text())]
            expect(f'{words[0]}, the order of its calls', (status, calls),
                   (0, [('fsync', PART), ('rename', PART), ('fsync', folder.name)]))
