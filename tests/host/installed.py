"""What ./wave install puts below PREFIX: each thing is used as a person uses it."""
import contextlib
import os
import pathlib
import pty
import re
import select
import shlex
import shutil
import stat
import subprocess
import tempfile

from host.run import HOST, MEANINGS, NATIVE
from trying import ROOT, SONG, expect, kept, printed, put, run
from second import reader as second_reader

WAVE = [ROOT / 'wave']
VERSION = re.search('^version = "(.*)"', (ROOT / 'host/Cargo.toml').read_text(), re.M).group(1)
COMMAND = ['bin/tronalhet'] if NATIVE else ['libexec/tronalhet', 'bin/tronalhet']
PLACES = [*COMMAND, 'lib/libtronalhet.a', 'include/tronalhet.h', 'lib/pkgconfig/tronalhet.pc',
          'share/man/man1/tronalhet.1', 'share/bash-completion/completions/tronalhet']


@contextlib.contextmanager
def installed(prefix='a prefix', **more):
    """A folder in which it is installed, and what ./wave said of that."""
    with tempfile.TemporaryDirectory() as name:
        folder = pathlib.Path(name)
        yield folder, run([*WAVE, 'install', *([prefix] if prefix else [])], folder, env={**os.environ, **more})


def everything():
    """All things are installed with their modes, where it is said; below PREFIX, or DESTDIR and /usr/local."""
    for prefix, more, place in (('a prefix', {}, '{}/a prefix'), (None, {'DESTDIR': 'dest'}, 'dest/usr/local'),
                                ('/opt/x', {'DESTDIR': 'a dest'}, 'a dest/opt/x')):
        with installed(prefix, **more) as (folder, (status, shown, said)):
            at = place.format(os.path.realpath(folder))
            lines = [line for line in shown.splitlines() if line.startswith('installed ')]
            expect(f'install {prefix} {more}', (status, lines, said),
                   (0, [f'installed {at}/{name}' for name in PLACES], ''))
            there = [name for name, content in kept(folder).items() if content is not None]
            below = (folder / at).relative_to(folder) if at.startswith('/') else pathlib.Path(at)
            expect(f'what is installed by {prefix} {more}', sorted(there), sorted(str(below / name) for name in PLACES))
            modes = [stat.S_IMODE((folder / below / name).stat().st_mode) for name in PLACES]
            expect('the modes', modes, [0o755] * len(COMMAND) + [0o644] * 5)
            expect('the header', (folder / below / 'include/tronalhet.h').read_bytes(),
                   (ROOT / 'include/tronalhet.h').read_bytes())
            expect('what is said of the PATH', 'is not on the PATH' in shown, prefix is not None or not any(
                path == '/usr/local/bin' for path in os.environ['PATH'].split(':')))


def not_installed():
    """What cannot be installed is an error; what is there already is replaced."""
    with tempfile.TemporaryDirectory() as name:
        folder = pathlib.Path(name)
        put(folder / 'file', b'')
        status, shown, said = run([*WAVE, 'install', 'file/x'], folder)
        expect('install below a file', (status, shown, said.splitlines()[-1].startswith('wave: cannot install ')),
               (74, '', True))
        for _ in range(2):
            expect('install twice', run([*WAVE, 'install', folder], '/')[0], 0)


def installed_command():
    """The command runs from any folder and by a link, and gets its words as they are."""
    with installed() as (folder, _):
        put(folder / '-a song.wav', SONG)
        put(folder / 'link', 'a prefix/bin/tronalhet')
        for command in ('a prefix/bin/tronalhet', folder / 'a prefix/bin/tronalhet', './link'):
            expect(f'{command} --version', run([command, '--version'], folder), (0, f'tronalhet {VERSION}\n', ''))
            expect(f'{command} list', run([command, 'list', '--', '-a song.wav'], folder),
                   (0, printed(second_reader.listing(SONG)[0]), ''))
        expect('its status', run(['a prefix/bin/tronalhet', 'sing'], folder)[0], 64)


# ---- the library for C

def flags_of(prefix):
    """What pkg-config says of the library; where there is none, the same from its file by hand."""
    file = prefix / 'lib/pkgconfig/tronalhet.pc'
    if shutil.which('pkg-config'):
        status, flags, said = run(['pkg-config', '--cflags', '--libs', 'tronalhet'], '/',
                                  env={**os.environ, 'PKG_CONFIG_PATH': str(file.parent)})
        expect('pkg-config', (status, said), (0, ''))
    else:
        text = file.read_text()
        flags = ' '.join(re.findall('^(?:Cflags|Libs): (.*)$', text, re.M)).replace(
            '${prefix}', re.search('^prefix=(.*)$', text, re.M).group(1))
    return shlex.split(flags)


def compiled():
    """The example in C is built by what pkg-config says, and calls the library. All say the same version."""
    compiler, emulator = (['gcc'], []) if NATIVE else (['x86_64-linux-gnu-gcc', '-static'], ['qemu-x86_64'])
    prefix = "it's a prefix#1"
    with installed(prefix) as (folder, _):
        put(folder / 'song.wav', SONG)
        words = [*compiler, '-o', 'side', ROOT / 'examples/side.c', *flags_of(folder / prefix)]
        expect('the compiler', run(words, folder), (0, '', ''))
        expect('the example', run([*emulator, './side', 'song.wav'], folder),
               (0, 'song 1 at frame 0, 1600 frames\n', ''))
        header = (folder / prefix / 'include/tronalhet.h').read_text()
        file = (folder / prefix / 'lib/pkgconfig/tronalhet.pc').read_text()
        versions = [*re.findall('_VERSION "(.*)"', header), *re.findall('^Version: (.*)', file, re.M),
                    '.'.join(re.findall(r'_VERSION_\w+ (\d+)', header))]
        expect('the versions', versions, [VERSION] * 3)


# ---- what is made from the table of commands

def usages():
    """How each command is called, by its name, as the help has it."""
    return {line.split()[1]: line for line in run([*HOST, '--help'], '/')[1].splitlines() if line.endswith('[--json]')}


def stripped(page):
    """The words of a man page, without the orders to troff."""
    for order, shown in (('\\%', ''), ('\\&', ''), ('\\-', '-'), ('\\(aq', "'"), ('\\e', '\\')):
        page = page.replace(order, shown)
    return ' '.join(re.sub(r'^\.[A-Z]{2} ?|\\f[BIR]', '', page, flags=re.M).split())


def man_page():
    """The page names every command and option with what the help says of it, every refusal, and is right for troff."""
    with installed() as (folder, _):
        path = folder / 'a prefix/share/man/man1/tronalhet.1'
        page = stripped(path.read_text())
        wanted = [*usages().values(), *re.findall('^    (.*)', run([*HOST, '--help'], '/')[1], re.M)]
        for name in usages():
            wanted += re.findall(r'^  (--.*)', run([*HOST, name, '--help'], '/')[1], re.M)
        wanted += [f'{number} {meaning}' for number, meaning in MEANINGS.items()]
        wanted += ['NAME tronalhet - ', 'SYNOPSIS', 'EXIT STATUS', 'FILES', 'EXAMPLES', 'SEE ALSO', '74 I/O error']
        expect('how many commands there are', len(usages()), 7)
        expect('what the man page lacks', [line for line in wanted if ' '.join(line.split()) not in page], [])
        if shutil.which('groff'):
            status, shown, said = run(['groff', '-man', '-ww', '-Tutf8', path], '/')
            expect('what troff says', (status, said, len(shown) > 3000), (0, '', True))


# ---- the completion

class Typing:
    """A shell in which a person types, with tabs. The command only prints its words there."""

    def __init__(self, folder, completion):
        rc = folder / 'rc'
        rc.write_text(f'PS1=; HISTFILE=\nsource {shlex.quote(str(completion))}\n'
                      "tronalhet() { printf 'told'; printf '<%s>' \"$@\"; echo end; }\n")
        self.ours, theirs = pty.openpty()
        self.shell = subprocess.Popen(['bash', '--noprofile', '--rcfile', rc, '-i'], cwd=folder, stdin=theirs,
                                      stdout=theirs, stderr=theirs, start_new_session=True,
                                      env={**os.environ, 'TERM': 'dumb'})
        os.close(theirs)

    def words(self, keys):
        """The words that the command gets where keys are typed after its name."""
        os.write(self.ours, f'tronalhet {keys}\n'.encode())
        shown = b''
        while not (found := re.search(rb'told((?:<[^>]*>)*)end', shown)):
            if not select.select([self.ours], [], [], 60)[0]:
                raise TimeoutError(f'{keys!r} gives only {shown}')
            shown += os.read(self.ours, 4096)
        return re.findall('<([^>]*)>', found.group(1).decode())

    def close(self):
        """Ends the shell."""
        os.write(self.ours, b'exit\n')
        self.shell.wait(timeout=60)
        os.close(self.ours)


# Files are completed, but not where a command, a number or the text of an option stands.
TYPED = [('list ev\t', ['list', 'evening song.wav']), ('check --s\tso\to\t', ['check', '--sound', 'songs/one.wav']),
         ('add --out ev\t', ['add', '--out', 'evening song.wav']), ('add --number ev\t', ['add', '--number', 'ev']),
         ('add --out=ev\t', ['add', '--out=evening song.wav']), ('add --limit=ev\t', ['add', '--limit=ev']),
         ('title ev\t --note ev\t', ['title', 'evening song.wav', '--note', 'ev']),
         ('list --so\t', ['list', '--so']), ('ev\t', ['ev']), ('help ev\t', ['help', 'ev'])]


def by_table():
    """Commands and options with their last letter left out, and what the command then gets."""
    for name, usage in usages().items():
        yield f'{name[:-1]}\t', [name]
        yield f'help {name[:-1]}\t', ['help', name]
        for option in [*re.findall('--[a-z]+', usage), '--help']:
            yield f'{name} {option[:-1]}\t', [name, option]
    for name in ('help', '--help', '--version'):
        yield f'{name[:-1]}\t', [name]


def completed():
    """Bash completes commands, the options of each, and files."""
    with installed() as (folder, _):
        put(folder / 'evening song.wav', SONG)
        (folder / 'songs').mkdir()
        put(folder / 'songs/one.wav', SONG)
        shell = Typing(folder, folder / 'a prefix/share/bash-completion/completions/tronalhet')
        for keys, wanted in [*by_table(), *TYPED]:
            expect(f'{keys!r} completed', shell.words(keys), wanted)
        shell.close()
