"""./wave and host/build in a folder that looks like a clone, with a kit and a compiler that only play: words are handed
over, what is missing or outdated is built, and one build waits for another."""
import contextlib
import json
import os
import pathlib
import pty
import re
import shutil
import signal
import subprocess
import sys
import tempfile
import time

from trying import ROOT, expect, run, start

# Each writes down when it begins and ends. What they make is the same each time.
TOOLS = {
    'uname': 'echo x86_64\n',
    'rt': '''crate=${PWD##*/}
echo "rt $* in $crate" >>"$LOG"
[ -z "${RT_TOUCHES-}" ] || touch "$RT_TOUCHES"
[ "${FAILS-}" != rt ] || { echo "fn $crate::song: not proved"; echo logic=not-proved; exit 1; }
mkdir -p out/rlib
if [ "$crate" = wave_c ]; then
    sleep "${LAST-0}" && echo library >out/libwave_c.a
else
    sleep "${SLOW-0}" && touch out/rlib/stamp
fi
echo "logic=proved functions=2"
echo end >>"$LOG"
''',
    'cargo': '''echo cargo >>"$LOG"
[ -z "${CARGO_TOUCHES-}" ] || touch "$CARGO_TOUCHES"
[ "${FAILS-}" != cargo ] || { echo 'error: no such function'; exit 1; }
mkdir -p "$CARGO_TARGET_DIR/release" && cp bin/told "$CARGO_TARGET_DIR/release/tronalhet"
echo end >>"$LOG"
'''}

# It prints its words and its input, and ends with the status that it is given.
TOLD = f'''#!{sys.executable}
import json, os, sys
print(json.dumps([sys.argv[1:], sys.stdin.read()]))
sys.exit(int(os.environ.get('STATUS', 0)))
'''

CRATES = '''# the ground
little:
units:

# others
samples: little
show: little
wave: units samples
wave_c staticlib: units wave
side_add: wave show
'''
NEEDED = ['little', 'units', 'samples', 'wave']
# What the library is made of, and other sources.
LIBRARY = [*(f'crates/{name}/src/lib.rt' for name in (*NEEDED, 'wave_c')), 'crates.txt']
OTHERS = ['crates/units/must-fail/zero.edit', 'crates/show/src/lib.rt', 'crates/side_add/data/x', 'include/tronalhet.h',
          'host/src/main.rs']


def put_script(path, text):
    """Makes a program."""
    path.write_text(text)
    path.chmod(0o755)


@contextlib.contextmanager
def clone():
    """A folder with ./wave, host/build and sources that are five minutes old; nothing is built."""
    with tempfile.TemporaryDirectory() as name:
        folder = pathlib.Path(name)
        for path in (folder / 'bin/told', *(folder / source for source in LIBRARY + OTHERS)):
            path.parent.mkdir(parents=True, exist_ok=True)
            path.touch()
        for name, text in TOOLS.items():
            put_script(folder / 'bin' / name, f'#!/bin/bash\n{text}')
        put_script(folder / 'bin/told', TOLD)
        (folder / 'crates.txt').write_text(CRATES)
        shutil.copytree(ROOT / 'demo', folder / 'demo', ignore=shutil.ignore_patterns('__pycache__'))
        for script in ('wave', 'host/build'):
            shutil.copy(ROOT / script, folder / script)
        dated(folder, 300)
        yield folder


def dated(folder, ago, *names):
    """Sets the time of all that a clone has, or of some of it, to so many seconds ago."""
    for path in [folder / name for name in names] if names else folder.rglob('*'):
        os.utime(path, (time.time() - ago,) * 2)


def around(folder, **more):
    """The environment in which a clone's scripts find what plays."""
    return {**os.environ, 'PATH': f'{folder}/bin:{os.environ["PATH"]}', 'LOG': str(folder / 'log'), **more}


def done(folder):
    """What the tools wrote down since it was asked last."""
    log = folder / 'log'
    lines = log.read_text().splitlines() if log.exists() else []
    log.unlink(missing_ok=True)
    return lines


PROVED = [line for crate in NEEDED for line in (f'rt lib in {crate}', 'end')] + ['rt lib --cpu=x86-64 in wave_c', 'end']
BUILT = ['cargo', 'end']


def told(words, given=''):
    """What the command of a clone prints."""
    return f'{json.dumps([words, given])}\n'


# ---- words

def handed_over():
    """All words go to tronalhet as they are, with the input, and its status comes back."""
    with clone() as folder:
        run([folder / 'wave', 'x'], '/', env=around(folder))
        (folder / 'a link').symlink_to(folder / 'wave')
        for words in (['list', 'a b', 'two\nlines', '-', '--', '', '*', '$HOME', '\'"\\', '--json=x'], [''], ['-x'],
                      ['demonstration'], ['help', 'add'], ['--help', 'add'], ['add', '--help'], ['--version'],
                      ['list', 'demo'], ['Größe \x1b[1m'], ['check', *map(str, range(2000))], ['-h', 'install']):
            expect(f'{words}', run([folder / 'wave', *words], '/', env=around(folder), input=b'given'),
                   (0, told(words, 'given'), ''))
        expect('by a link', run([folder / 'a link', 'x'], '/', env=around(folder)), (0, told(['x']), ''))
        for status in (1, 18, 64, 74, 255):
            expect(f'the status {status}', run([folder / 'wave', 'x'], '/', env=around(folder, STATUS=str(status))),
                   (status, told(['x']), ''))


def own_words():
    """help has tronalhet's and two commands more; a wrong call of these two builds nothing."""
    with clone() as folder:
        for words in (['demo', 'x'], ['install', 'x', 'y'], ['install', ''], ['install', '--help']):
            status, shown, said = run([folder / 'wave', *words], '/', env=around(folder))
            expect(f'{words}', (status, shown, said.startswith(f'usage: ./wave {words[0]}'), done(folder)),
                   (64, '', True, []))
        run([folder / 'wave', 'x'], '/', env=around(folder))
        for words in ([], ['help'], ['--help'], ['-h']):
            status, shown, said = run([folder / 'wave', *words], '/', env=around(folder))
            expect(f'help by {words}', (status, shown.startswith(told(['help'])), said), (0, True, ''))
            expect(f'what {words} says besides', re.findall(r'^\./wave .*', shown, re.M),
                   ['./wave demo', './wave install [PREFIX]'])
        expect('help that cannot be made', run([folder / 'wave'], '/', env=around(folder, STATUS='74'))[0], 74)


def playing():
    """The demonstration goes on after a refusal, and ends where a call is wrong or a file cannot be written."""
    calls = [line for line in (ROOT / 'demo/commands').read_text().splitlines() if line.startswith('tronalhet ')]
    with clone() as folder, tempfile.TemporaryDirectory() as room:
        run([folder / 'wave', 'x'], '/', env=around(folder))
        for status, wanted, ended in ((0, calls, 0), (17, calls, 0), (64, calls[:1], 74), (74, calls[:1], 74)):
            found, shown, said = run([folder / 'wave', 'demo'], '/',
                                     env=around(folder, STATUS=str(status), TMPDIR=room))
            lines = shown.splitlines()
            expect(f'the demonstration with {status}', (found, [line[2:] for line in lines if line[:2] == '$ ']),
                   (ended, wanted))
            answers = [line for line in lines if line.startswith('[[')]
            expect(f'what is called with {status}', answers, [told(call.split()[1:]).rstrip() for call in wanted])
            expect(f'what is said with {status}', said, 'wave: the demonstration ends here\n' if ended else '')
        expect('what the demonstration leaves', os.listdir(room), [])


# ---- what is built

def built():
    """What is missing is built, once: the crates that the library rests on, each proved once, and then the command."""
    with clone() as folder:
        place = folder / 'target/host/release/tronalhet'
        status, shown, said = run([folder / 'wave', 'list', 'x'], '/', env=around(folder), input=b'given')
        expect('the first call', (status, shown, done(folder)), (0, told(['list', 'x'], 'given'), PROVED + BUILT))
        lines = said.splitlines()
        expect('what is said first', bool(re.search(r'about \d+ minutes on two idle cores', lines[0])), True)
        expect('what is said last', lines[-1], f'host/build: the command is {place}')
        expect('whether it says that all is proved', 'host/build: proved 5 of 5' in lines, True)
        expect('the second call', run([folder / 'wave', 'list', 'x'], '/', env=around(folder)),
               (0, told(['list', 'x']), ''))
        expect('whether it is built again', done(folder), [])
        place.unlink()
        expect('a command that is gone', (run([folder / 'wave', 'x'], '/', env=around(folder))[:2], done(folder)),
               ((0, told(['x'])), BUILT))


def built_again():
    """Where a source is newer, what rests on it is built before the command is run; a folder is a source too."""
    with clone() as folder:
        run([folder / 'wave', 'x'], '/', env=around(folder))
        for source in (*LIBRARY, *OTHERS, 'crates/units/src', 'host/src'):
            dated(folder, 300)
            dated(folder, 200, 'target/staticlib/libwave_c.a', 'target/host/release/tronalhet')
            dated(folder, 100, source)
            done(folder)
            status, shown, _ = run([folder / 'wave', 'x'], '/', env=around(folder))
            wanted = PROVED + BUILT if source in (*LIBRARY, 'crates/units/src') else BUILT
            expect(f'a newer {source}', (status, shown, done(folder)), (0, told(['x']), wanted))
        expect('with nothing newer', (run([folder / 'wave', 'x'], '/', env=around(folder))[2], done(folder)), ('', []))
        dated(folder, 300)
        dated(folder, 200, 'target/staticlib/libwave_c.a', 'target/host/release/tronalhet')
        dated(folder, 100, 'crates/units', 'crates/units/out', 'crates/units/out/rlib', 'crates/units/out/rlib/stamp')
        expect('what rt makes is no source', (run([folder / 'wave', 'x'], '/', env=around(folder))[2], done(folder)),
               ('', []))


def changed_meanwhile():
    """A source that changes while the command is built makes it outdated again, and the library too if it is one of
    the library's."""
    for tool, source, wanted in (('RT_TOUCHES', 'crates.txt', PROVED + BUILT),
                                 ('CARGO_TOUCHES', 'host/src/main.rs', BUILT)):
        with clone() as folder:
            run([folder / 'wave', 'x'], '/', env=around(folder, **{tool: str(folder / source)}))
            done(folder)
            run([folder / 'wave', 'x'], '/', env=around(folder))
            expect(f'{source} changed meanwhile', done(folder), wanted)


def not_built():
    """Where something is not built, the command is not run, and it is tried again the next time."""
    with clone() as folder:
        for fails, why in (('rt', ['fn little::song: not proved', 'host/build: the library is not proved']),
                           ('cargo', ['error: no such function', 'host/build: tronalhet was not built'])):
            status, shown, said = run([folder / 'wave', 'x'], '/', env=around(folder, FAILS=fails))
            expect(f'without {fails}', (status, shown, [line for line in why if line not in said],
                                        said.splitlines()[-1]),
                   (74, '', [], 'wave: tronalhet could not be built'))
        expect('the next time', run([folder / 'wave', 'x'], '/', env=around(folder))[:2], (0, told(['x'])))
        (folder / 'bin/rt').unlink()
        shutil.rmtree(folder / 'target')
        if not shutil.which('rt', path='/usr/bin:/bin'):
            status, _, said = run([folder / 'wave', 'x'], '/', env=around(folder, PATH=f'{folder}/bin:/usr/bin:/bin'))
            missing = 'host/build: the Rattle kit is missing: its command rt is not on the PATH'
            expect('no kit', (status, missing in said), (74, True))


def on_terminal(words, **options):
    """What a program shows on a terminal by standard error."""
    ours, theirs = pty.openpty()
    with subprocess.Popen(words, stderr=theirs, **options):
        os.close(theirs)
        shown = b''
        # Where the last that has it open ends, a terminal is an error to read.
        with contextlib.suppress(OSError):
            while part := os.read(ours, 4096):
                shown += part
    os.close(ours)
    return shown.decode()


def counted():
    """On a terminal the line that counts what is proved is written again and again in its place."""
    with clone() as folder:
        shown = on_terminal([folder / 'host/build', 'library'], env=around(folder, SLOW='1.1'))
        line = max(shown.split('\n'), key=len)
        expect('the counts on a terminal', len(set(re.findall(r'\r[^\n\r]*proved (\d) of 5', line))) > 1, True)
        expect('what only the library wants', done(folder), PROVED)


# ---- one build at a time

def apart(folder):
    """Whether nothing was begun before what was begun earlier had ended."""
    lines = done(folder)
    return lines[1::2] == ['end'] * (len(lines) // 2) and 'end' not in lines[::2]


def two_builds():
    """The second waits until the first is done, says so, and again after some time; then it has nothing to prove. The
    first says how far it is, and says it again where that takes long."""
    with clone() as folder:
        with start([folder / 'host/build'], '/', env=around(folder, SLOW='1.1', LAST='12')) as first:
            time.sleep(1)
            with start([folder / 'wave', 'x'], '/', env=around(folder)) as second:
                shown, waited = second.communicate(timeout=60)
            said = first.communicate(timeout=60)[1]
        expect('two builds', (first.returncode, second.returncode, shown), (0, 0, told(['x'])))
        expect('whether they are apart', apart(folder), True)
        counts = re.findall(r'^host/build: proved (\d) of 5', said, re.M)
        expect('what the first says meanwhile', (counts, len(set(counts)) > 3, counts.count('4') > 1),
               (sorted(counts), True, True))
        lines = waited.splitlines()
        expect('what the second says', lines[0], 'host/build: waiting for another build')
        expect('what it says later', bool(re.match(r'host/build: waiting for another build, 1\d s', lines[1])), True)
        expect('whether the second proves', 'proving' in waited, False)


def killed_build():
    """What a killed build leaves running keeps the lock: it still writes to target/."""
    with clone() as folder:
        with start([folder / 'host/build'], '/', env=around(folder, SLOW='0.7')) as first:
            while not (folder / 'log').exists():
                time.sleep(0.01)
            os.kill(first.pid, signal.SIGKILL)
            first.wait()
            status, shown, said = run([folder / 'wave', 'x'], '/', env=around(folder))
        expect('after a killed build', (status, shown, 'waiting for another build' in said), (0, told(['x']), True))
        expect('whether they are apart', apart(folder), True)
