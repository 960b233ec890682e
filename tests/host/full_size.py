"""Files as long as they may be, and a side of more than 300 million bytes, made on the fly."""
import contextlib
import filecmp
import json
import os
import pathlib
import random
import shutil
import signal
import struct
import subprocess
import sys
import tempfile
import time

from host.run import FILES, HOST, MOST, NATIVE, STEREO, attempted, parts, reading
from trying import ROOT, expect, put, run, start
from host.writing import swept
from second import ima as second_ima
from vectors.wave_files import chunk, cue, entry, fmt, plst, point, wave

# Starts a program from a small process, as its memory counts from before it is loaded. The last line is its peak of
# memory in bytes, and the seconds that it had the processor.
MEASURE = """
import os, sys
child = os.posix_spawnp(sys.argv[1], sys.argv[1:], os.environ)
_, status, used = os.wait4(child, 0)
print(1024 * used.ru_maxrss, used.ru_utime + used.ru_stime, file=sys.stderr)
sys.exit(os.waitstatus_to_exitcode(status))
"""
# How much memory a run may have beside the files that it reads and writes.
SPARE = 16 << 20


def measured(label, words, folder, memory, seconds=3600, **options):
    """Status and lines of a run, which must keep to so many bytes of memory and so many seconds of the processor."""
    status, shown, said = run([sys.executable, '-ISc', MEASURE, *HOST, *words], folder, **options)
    peak, taken = said.splitlines()[-1].split()
    if NATIVE:
        expect(f'{label}, whether {peak} bytes of memory are at most {memory}', int(peak) <= memory, True)
        expect(f'{label}, whether {taken} seconds are at most {seconds}', float(taken) <= seconds, True)
    return status, shown.splitlines()


def room_for_files():
    """A folder with room for the largest files."""
    for folder in (tempfile.gettempdir(), '/dev/shm', ROOT / 'target'):
        if os.access(folder, os.W_OK) and shutil.disk_usage(folder).free >= 2500000000:
            return folder
    raise OSError('there is no folder with room for files of full size')


def sparse(path, size, head):
    """A file of so many bytes that are zero but for its head, and take no room."""
    with open(path, 'wb') as file:
        file.write(head)
        file.truncate(size)


def head_of(size, bits=8, tables=b''):
    """The head of a mono PCM file of so many bytes, all of which is sound after it."""
    front = b'RIFF' + struct.pack('<I', size - 8) + b'WAVE' + fmt(bits=bits) + tables
    return front + b'data' + struct.pack('<I', size - 8 - len(front))


def emptied(label, folder, names_there):
    """Takes away the files of these names, beside which there must be none."""
    expect(f'{label}, the files', sorted(path.name for path in folder.iterdir()), sorted(names_there))
    for name in names_there:
        (folder / name).unlink()


def at_the_limit(folder):
    """A file of the most bytes, and one that lacks just its last pad, are listed and checked without being read; a
    longer one is refused, whatever is asked."""
    sizes = {'most.wav': MOST, 'bare.wav': MOST - 1, 'over.wav': MOST + 1, 'more.wav': 5 << 30}
    for name, size in sizes.items():
        sparse(folder / name, size, head_of(min(size, MOST)))
    for name, content in FILES.items():
        put(folder / name, content)
    # Reading a file of this length takes more memory and more time.
    bounds = folder, 32 << 20, 0.1
    for name in ('most.wav', 'bare.wav'):
        line = f'wave tag 1 channels 1 rate 8000 bits 8 frames {sizes[name] - 44}'
        for words, answered in ((['list', name], line), (['check', name], 'accepted')):
            label = f'{words} of {sizes[name]} bytes'
            expect(label, measured(label, words, *bounds), (0, [answered]))
    for name in ('over.wav', 'more.wav'):
        for words in reading(name):
            label = f'{words} of {sizes[name]} bytes'
            status, (answered,) = measured(label, [*words, '--json'], *bounds)
            where = json.loads(answered)['where']
            expect(label, (status, where['file'], str(sizes[name]) in where['what']), (1, name, True))
            with open(folder / name, 'rb') as file:
                words = ['-' if word == name else word for word in words]
                expect(f'{label}, as input', measured(label, words, *bounds, stdin=file), (1, ['refused 1']))
    emptied('at the limit', folder, [*sizes, *FILES])


def streams(folder):
    """What comes without a size is refused when it is longer than a file may be, and accepted when it is as long."""
    sparse(folder / 'most.wav', MOST, head_of(MOST))
    label = 'a file without end'
    expect(label, measured(label, ['list', '/dev/zero'], folder, MOST + SPARE), (1, ['refused 1']))
    with subprocess.Popen(['cat', folder / 'most.wav'], stdout=subprocess.PIPE) as sent:
        label = 'the most bytes from a pipe'
        expect(label, measured(label, ['check', '-'], folder, MOST + SPARE, stdin=sent.stdout), (0, ['accepted']))
    emptied('streams', folder, ['most.wav'])


def too_long(folder):
    """Refusal 1 for what would be made: a side with a song more, a sound in 16 bits, a copy of too many samples, a file
    with a title."""
    size = 540000000
    tables = cue(point(7, 0)) + plst(entry(7, (size - 104) // 2))
    for name, head in (('eight.wav', head_of(size)), ('side.wav', head_of(size, 16, tables)),
                       ('song.wav', head_of(size, 16))):
        sparse(folder / name, size, head)
    sparse(folder / 'most.wav', MOST, head_of(MOST, 16, cue(point(7, 0))))
    # With a song more the tables grow by 36 bytes; the file of the song has 44 beside the sound.
    for words, read, number in ((['decode', 'eight.wav', 'new.wav'], size, 2 * (size - 44) + 44),
                                (['encode', 'eight.wav', 'new.wav'], size, size - 44),
                                (['add', 'side.wav', 'song.wav', '--number=8', f'--limit={size}'], 2 * size,
                                 size + 36 + size - 44),
                                (['title', 'most.wav', 'Song', '--number=7'], MOST, MOST + 30)):
        status, (answered,) = measured(f'{words}', [*words, '--json'], folder, read + SPARE)
        told = json.loads(answered)
        expect(f'{words}', (status, told['refused']), (1, 1))
        # Where the host says why, it is by the length that is too long.
        what = told.get('where', {'what': str(number)})['what']
        expect(f'{words}, whether "{what}" has {number}', str(number) in what, True)
    emptied('too long', folder, ['eight.wav', 'side.wav', 'song.wav', 'most.wav'])


def in_parts(folder):
    """A sound of 8 bits is encoded without being in memory as a whole in 16; silence gives blocks that are alike."""
    size, block = 100000000, second_ima.encode([-32768] * 2041, 1, 1024, MOST)[0]
    blocks = -(-(size - 44) // 2041)
    sparse(folder / 'eight.wav', size, head_of(size))
    words, coded = ['encode', 'eight.wav', 'copy.wav'], 60 + 1024 * blocks
    expect('8 bits in parts', measured('8 bits in parts', words, folder, size + coded + SPARE),
           (0, [f'frames {size - 44}', f'bytes {coded}', 'chased left 0', 'chased right 0']))
    made = (folder / 'copy.wav').read_bytes()
    expect('the copy of 8 bits', (len(made), made[60:] == block * blocks), (coded, True))
    emptied('in parts', folder, ['eight.wav', 'copy.wav'])


# The songs of a full side, by number, each with how many bytes its sound has.
FULL = {101: 99999996, 2**32 - 1: 98765432, 7: 4, 300: 102345680}
FRAMES = sum(FULL.values()) // 4


def song_file(path, number, size):
    """A song of full size, of other bytes for each number."""
    with open(path, 'wb') as file:
        file.write(b'RIFF' + struct.pack('<I', size + 36) + b'WAVE' + STEREO + b'data' + struct.pack('<I', size))
        chance = random.Random(number)
        for at in range(0, size, 1 << 24):
            file.write(chance.randbytes(min(1 << 24, size - at)))


def side_head(songs):
    """The bytes of a side before its sound."""
    places = [sum(list(songs.values())[:turn]) // 4 for turn in range(len(songs))]
    points = [struct.pack('<II4sIII', number, place, b'data', 0, 0, place) for number, place in zip(songs, places)]
    plays = [struct.pack('<III', number, size // 4, 1) for number, size in songs.items()]
    tables = b'cue ' + struct.pack('<II', 4 + 24 * len(songs), len(songs)) + b''.join(points)
    tables += b'plst' + struct.pack('<II', 4 + 12 * len(songs), len(songs)) + b''.join(plays)
    sound = sum(songs.values())
    body = b'WAVE' + STEREO + tables + b'data' + struct.pack('<I', sound)
    return b'RIFF' + struct.pack('<I', len(body) + sound) + body


def unlike(folder):
    """The first part of the full side that is not as it must be, None where all is: its head, a song, its end."""
    with open(folder / 'side.wav', 'rb') as side:
        if side.read(len(side_head(FULL))) != side_head(FULL):
            return 'head'
        for number, size in FULL.items():
            with open(folder / f'{number}.wav', 'rb') as song:
                song.seek(44)
                for _ in range(0, size, 1 << 24):
                    part = song.read(1 << 24)
                    if side.read(len(part)) != part:
                        return number
        return 'end' if side.read(1) else None


def filled(folder):
    """Songs of full size are added in place until the side is full; it has each byte that it must."""
    label, songs, end = 'a new side', {}, 44
    words = ['new-side', 'side.wav', '--channels=2', '--rate=44100']
    expect(label, measured(label, words, folder, SPARE), (0, ['bytes 44']))
    for number, size in FULL.items():
        song_file(folder / f'{number}.wav', number, size)
        songs[number] = size
        read, end = end + 44 + size, len(side_head(songs)) + sum(songs.values())
        label, words = f'song {number}', ['add', 'side.wav', f'{number}.wav', '--number', number, '--limit', FRAMES]
        status, lines = measured(label, words, folder, read + end + SPARE)
        expect(label, (status, lines[:2], lines[-1]),
               (0, [f'added {number}', f'bytes {end}'], f'frames left {FRAMES - sum(songs.values()) // 4}'))
    expect('whether the side has 300 MB', end >= 300000000, True)
    expect('the part of the full side that is wrong', unlike(folder), None)


def refilled(folder):
    """A full side takes no song again, no other of a number that it has, and none past its limit; it is not touched."""
    before = (folder / 'side.wav').stat()
    for number, song, refusal in ((101, 101, 18), (300, 300, 18), (7, 101, 16), (8, 7, 17)):
        label, words = f'{song} as {number}', ['add', 'side.wav', f'{song}.wav', '--number', number, '--limit', FRAMES]
        expect(label, measured(label, words, folder, before.st_size + FULL[song] + 44 + SPARE),
               (0 if refusal == 18 else refusal, [f'refused {refusal}']))
    after = (folder / 'side.wav').stat()
    expect('the file of the full side', [after.st_ino, after.st_size, after.st_mtime_ns, after.st_ctime_ns],
           [before.st_ino, before.st_size, before.st_mtime_ns, before.st_ctime_ns])
    expect('the part of the full side that is wrong then', unlike(folder), None)


def titled(folder):
    """A song of the full side is given a title; when that is removed, the side is what it was."""
    size = (folder / 'side.wav').stat().st_size
    for words, said, more in ((['Song', '--number=300'], ['label Song'], 30), (['--remove', '--number=300'], [], 0)):
        label = f'a full side, title {words}'
        expect(label, measured(label, ['title', 'side.wav', *words], folder, 2 * size + SPARE),
               (0, ['cue 300', *said, f'bytes {size + more}']))
        expect(f'{label}, its length', (folder / 'side.wav').stat().st_size, size + more)
        expect(f'{label}, whether it is accepted', run([*HOST, 'check', 'side.wav'], folder), (0, 'accepted\n', ''))
    expect('the part of the full side that is wrong after its titles', unlike(folder), None)


def some_frames(path, at, frames):
    """The samples of some frames of a stereo file, from a byte on."""
    with open(path, 'rb') as file:
        file.seek(at)
        return list(struct.unpack(f'<{2 * frames}h', file.read(4 * frames)))


def copy_head(coded):
    """The bytes of an approval copy of the full side before its blocks."""
    form = struct.pack('<IHHIIHHHH', 20, 17, 2, 44100, 44100 * 1024 // 1017, 1024, 4, 2, 1017)
    body = b'WAVEfmt ' + form + b'fact' + struct.pack('<II', 4, FRAMES) + b'data' + struct.pack('<I', coded - 60)
    return b'RIFF' + struct.pack('<I', coded - 8) + body


def copied(folder):
    """The approval copy of the full side, and its sound: the sizes, the first blocks, and some blocks all over."""
    samples, align, start_of_sound = 1017, 1024, len(side_head(FULL))
    blocks, side = -(-FRAMES // samples), folder / 'side.wav'
    coded, heard = 60 + align * blocks, 44 + 4 * FRAMES
    status, lines = measured('a copy', ['encode', 'side.wav', 'copy.wav'], folder, side.stat().st_size + coded + SPARE)
    expect('a copy', (status, lines[:2], [line.split()[:2] for line in lines[2:]]),
           (0, [f'frames {FRAMES}', f'bytes {coded}'], [['chased', 'left'], ['chased', 'right']]))
    expect('its sound', measured('its sound', ['decode', 'copy.wav', 'heard.wav'], folder, coded + heard + SPARE),
           (0, [f'frames {FRAMES}', f'bytes {heard}']))
    expect('sizes', [(folder / name).stat().st_size for name in ('copy.wav', 'heard.wav')], [coded, heard])
    with open(folder / 'copy.wav', 'rb') as file:
        expect('the head of a copy', file.read(60), copy_head(coded))
        sound = some_frames(side, start_of_sound, 3 * samples)
        expect('the first blocks', file.read(3 * align) == second_ima.encode(sound, 2, align, MOST)[0], True)
        for block in [*range(0, blocks - 1, blocks // 20), blocks - 1]:
            file.seek(60 + align * block)
            frames = min(samples, FRAMES - samples * block)
            found = some_frames(folder / 'heard.wav', 44 + 4 * samples * block, frames)
            expect(f'block {block}, its sound', found == second_ima.decode(file.read(align), 2)[:2 * frames], True)
            expect(f'block {block}, its first frame', found[:2],
                   some_frames(side, start_of_sound + 4 * samples * block, 1))


def has_begun(folder):
    """Whether an unfinished file has bytes."""
    with contextlib.suppress(FileNotFoundError):
        return any(path.stat().st_size for path in parts(folder))
    return False


def as_before(folder):
    """Undoes what a run may have done that was too quick to be ended. The side is kept by a second name."""
    side, second = folder / 'side.wav', folder / 'second.wav'
    put(folder / 'old.wav', b'old')
    (folder / 'new.wav').unlink(missing_ok=True)
    if second.exists():
        os.replace(second, side)
    second.unlink(missing_ok=True)
    os.link(side, second)


def caught(words, folder, number):
    """Ends a run by a signal while it writes; what it ends with. One that was too quick is started again.

    A file may be written in a few thousandths of a second: so the look-out does not sleep, and has many tries. The run
    heeds the signal, even where these tests themselves are to outlive it.
    """
    heeded = {'preexec_fn': lambda: signal.signal(number, signal.SIG_DFL)} if number != signal.SIGKILL else {}
    last = time.monotonic() + 180
    while time.monotonic() < last:
        as_before(folder)
        with start([*HOST, *words], folder, **heeded) as running:
            while running.poll() is None and not has_begun(folder):
                pass
            running.send_signal(number)
            running.communicate(timeout=600)
        if running.returncode != 0:
            return running.returncode
    raise TimeoutError(f'no run of {words} is slow enough')


def interrupted(folder):
    """A run that is ended while it writes leaves the old file whole and nothing under a new name.

    One that is killed leaves an unfinished file, which the next run removes; one that is asked to end removes it.
    """
    put(folder / 'one more.wav', wave(STEREO, chunk(b'data', b'song')))
    before = (folder / 'side.wav').stat()
    # The side has a second name here.
    add = ['add', 'side.wav', 'one more.wav', '--number=5', '--limit', FRAMES + 1, '--replace']
    title = ['title', 'side.wav', 'Song', '--number=101', '--replace']
    decode = ['decode', '101.wav', 'old.wav', '--replace'], ['decode', '101.wav', 'new.wav']
    for number, commands in ((signal.SIGKILL, [add, title, *decode]), (signal.SIGTERM, [add, title, *decode]),
                             (signal.SIGINT, decode), (signal.SIGHUP, decode)):
        for words in commands:
            label = f'{words[0]}, {number.name}'
            expect(f'{label}, how it ends', caught(words, folder, number), -number)
            expect(f'{label}, what is left', len(parts(folder)), 1 if number == signal.SIGKILL else 0)
            expect(f'{label}, a new file', (folder / 'new.wav').exists(), False)
            expect(f'{label}, the old file', (folder / 'old.wav').read_bytes(), b'old')
            if number == signal.SIGKILL:
                expect(f'{label}, who may read what is left', [path.stat().st_mode & 0o7777 for path in parts(folder)],
                       [0o600])
                swept(label, folder)
    after = (folder / 'side.wav').stat()
    expect('the side after all that', (after.st_ino, after.st_mtime_ns), (before.st_ino, before.st_mtime_ns))
    expect('the part of the side that is wrong after all that', unlike(folder), None)


def outlived(folder):
    """A run that is to outlive a hang-up does."""
    ignored = {'preexec_fn': lambda: signal.signal(signal.SIGHUP, signal.SIG_IGN)}
    with start([*HOST, 'decode', '101.wav', 'outlived.wav'], folder, **ignored) as running:
        while running.poll() is None and not parts(folder):
            time.sleep(0.001)
        running.send_signal(signal.SIGHUP)
        running.communicate(timeout=600)
    expect('a run that is to outlive a hang-up', (running.returncode, parts(folder)), (0, []))
    expect('what it writes', filecmp.cmp(folder / '101.wav', folder / 'outlived.wav', shallow=False), True)


def full_size():
    """Files as long as they may be, or nearly, in a folder of their own."""
    with tempfile.TemporaryDirectory(dir=room_for_files()) as name:
        for part in (at_the_limit, streams, too_long, in_parts, filled, refilled, titled, copied, interrupted,
                     outlived):
            attempted(part, pathlib.Path(name))
