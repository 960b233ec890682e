"""The most memory that the command `tronalhet` has, against the files that it reads and writes."""
import shutil
import struct
import subprocess

from building import BUILT, NATIVE, ROOT, Trouble, say
from tables import size_name, span, table

COMMAND = ROOT / 'target' / 'host' / 'release' / 'tronalhet'
FILES = BUILT / 'files'
SPARE = 16 << 20
MEMORY_BAR = 'peak memory at most the files and 16 MiB'
# A command, and the kinds of its input; `measure file` has them by these names.
COMMANDS = [('list', ['pcm-16']), ('check', ['pcm-16']), ('decode', ['pcm-16']), ('decode', ['pcm-8']),
            ('decode', ['ima']), ('decode', ['microsoft']), ('encode', ['pcm-16']), ('encode', ['pcm-8']),
            ('encode', ['ima']), ('encode', ['microsoft']),
            ('add', ['side', 'pcm-16'])]


def arguments(command, inputs, out):
    """The arguments of a command."""
    if command == 'add':
        return [*inputs, '--number', '7', '--limit', '4294967295', '--out', out]
    return [*inputs, out] if command in ('decode', 'encode') else inputs


def run(*words):
    """Runs the command; answers its peak memory in bytes and its time in ns."""
    done = subprocess.run([str(BUILT / 'peak'), str(COMMAND), *map(str, words)], capture_output=True, text=True)
    if done.returncode != 0:
        raise Trouble(f'tronalhet {words[0]}: status {done.returncode}: {done.stdout}{done.stderr}')
    _, kib, _, time = done.stderr.splitlines()[-1].split()
    return int(kib) * 1024, int(time)


def made(program, kind, size, place):
    """A made-up file; with two inputs each is half the size."""
    path = FILES / f'{kind}-{place}.wav'
    subprocess.run([str(program), 'file', kind, str(size), str(path)], check=True)
    return path


def rows(program, sizes, bars):
    """Each command at each size."""
    for size in sizes:
        for command, kinds in COMMANDS:
            say(f'bench: memory of {command}, {" ".join(kinds)}, {size_name(size)}')
            inputs = [made(program, kind, size // len(kinds), place) for place, kind in enumerate(kinds)]
            out = FILES / 'out.wav'
            peak, _ = run(command, *arguments(command, inputs, out))
            files = sum(path.stat().st_size for path in [*inputs, out] if path.exists())
            title = f'{command} {" and ".join(kinds)}'
            verdict = bars.verdict(MEMORY_BAR, f'{title}, {size_name(size)}', peak <= files + SPARE)
            yield [title, size_name(size), f'{files / 1e6:,.1f}', f'{peak / 1e6:,.1f}',
                   f'{peak / (files + SPARE):.3f}', '1', verdict]
            for path in FILES.iterdir():
                path.unlink()


def long_list():
    """The listing of a file of 1 GiB, header and a hole: its best time of three, and its memory."""
    path = FILES / 'long.wav'
    size = 1 << 30
    with open(path, 'wb') as file:
        file.write(b'RIFF' + struct.pack('<I', size - 8) + b'WAVEfmt ' + struct.pack('<IHHIIHH', 16, 1, 2, 44100,
                                                                                   176400, 4, 16))
        file.write(b'data' + struct.pack('<I', size - 44))
        file.truncate(size)
    found = [run('list', path) for _ in range(3)]
    path.unlink()
    return max(peak for peak, _ in found), min(time for _, time in found)


def part(program, sizes, bars):
    """The table of the command's memory."""
    yield '## Memory of the command'
    yield ''
    if not NATIVE or not COMMAND.exists():
        yield 'Left out: `target/host/release/tronalhet` is not there, or this is no x86-64 machine.'
        return
    shutil.rmtree(FILES, ignore_errors=True)
    FILES.mkdir(parents=True)
    try:
        lines = list(rows(program, sizes, bars))
        peak, time = long_list()
    finally:
        shutil.rmtree(FILES, ignore_errors=True)
    yield ('The most memory that `tronalhet` has at any time, in MB, next to the sizes of the files that it reads and '
           'writes. The ratio is of the peak to the files and 16 MiB.')
    yield ''
    yield from table(['Command', 'Input', 'Files', 'Peak', 'Ratio', 'Bar', 'Verdict'], lines)
    yield ''
    yield (f'`tronalhet list` on a file of 1 GiB, a header and a hole: {span(time)} from start to end, the best of '
           f'three, with {peak / 1e6:,.1f} MB at most.')
