"""The tools that ./bench needs, and the programs that it builds with them, below target/bench/."""
import os
import pathlib
import platform
import subprocess
import sys

ROOT = pathlib.Path(__file__).resolve().parent.parent
SOURCES = ROOT / 'benchmarks'
BUILT = ROOT / 'target' / 'bench'
ARCHIVE = ROOT / 'target' / 'staticlib' / 'libwave_c.a'
# The library is built for x86-64. On another processor the programs are built by a cross compiler and run by
# the emulator only, so there are no times, and no libsndfile, which is not linked statically.
NATIVE = platform.machine() == 'x86_64'
COMPILER = 'gcc' if NATIVE else 'x86_64-linux-gnu-gcc'
SYMBOLS = 'nm' if NATIVE else 'x86_64-linux-gnu-nm'
EMULATOR = 'qemu-x86_64'
# This processor of the emulator has neither AVX nor ERMS, so that memcpy is by SSE2, which is what the library
# is built for too.
PROCESSOR = 'qemu64'
WARNINGS = ['-std=c11', '-Wall', '-Wextra']
FOLDERS = ['-I', ROOT / 'include', '-I', ROOT / 'tests' / 'c']


class Trouble(Exception):
    """What ends ./bench."""


def say(text):
    """Tells on standard error how far it is."""
    print(text, file=sys.stderr, flush=True)


def works(*words):
    """Whether a command can be run and succeeds."""
    try:
        return subprocess.run([str(word) for word in words], capture_output=True).returncode == 0
    except OSError:
        return False


def first_line(*words):
    """The first line that a command prints; nothing where there is no such command."""
    try:
        return subprocess.run(words, capture_output=True, text=True).stdout.split('\n')[0].strip()
    except OSError:
        return ''


def compiles(compiler, text, *flags):
    """Whether a compiler makes a program of a text."""
    try_it = BUILT / 'try.c'
    try_it.write_text(text)
    return works(compiler, try_it, *flags, '-o', BUILT / 'try')


def builds(compiler, *flags):
    """Whether a compiler has the headers and the static library of C."""
    return compiles(compiler, '#include <stdio.h>\nint main(void) { return puts("") < 0; }\n', '-static', *flags)


def has_sndfile():
    """Whether a program with libsndfile can be built here."""
    text = '#include <sndfile.h>\nint main(void) { return sf_strerror(0) == 0; }\n'
    return NATIVE and compiles(COMPILER, text, '-lsndfile')


def clang_flags():
    """What clang needs to compile for x86-64; elsewhere C's headers stand beside the cross compiler's libraries."""
    if NATIVE:
        return []
    library = pathlib.Path(first_line(COMPILER, '-print-file-name=libc.a')).resolve()
    return ['--target=x86_64-linux-gnu', '-isystem', library.parent.parent / 'include']


def has_clang():
    """Whether clang compiles C for x86-64; the linking is gcc's."""
    return compiles('clang', '#include <string.h>\nint main(void) { return 0; }\n', '-c', *clang_flags())


def install():
    """Installs what is missing by apt-get; what must be there and cannot be had ends the run."""
    wanted = [(['gcc', 'libc6-dev'], lambda: builds('gcc')),
              (['clang'], has_clang),
              (['qemu-user'], lambda: works(EMULATOR, '--version'))]
    if NATIVE:
        wanted.append((['libsndfile1-dev'], has_sndfile))
    else:
        wanted.append((['gcc-x86-64-linux-gnu', 'libc6-dev-amd64-cross'], lambda: builds(COMPILER)))
    missing = [package for packages, there in wanted if not there() for package in packages]
    if missing:
        say(f'bench: installing {" ".join(missing)}')
        works('apt-get', '-q', 'update')
        for package in missing:
            works('apt-get', '-q', 'install', '-y', '--no-install-recommends', package)
    if not builds(COMPILER) or not works(EMULATOR, '--version'):
        raise Trouble(f'{COMPILER} or {EMULATOR} is missing, and could not be installed')


def library_note():
    """What the report must say of the library's age. It is never built here, since others may be at work in target/."""
    if not ARCHIVE.exists():
        raise Trouble('the library is not built: `host/build library` makes target/staticlib/libwave_c.a')
    sources = [ROOT / 'crates.txt', *(path for path in (ROOT / 'crates').rglob('*')
                                      if path.is_file() and 'out' not in path.relative_to(ROOT).parts)]
    if ARCHIVE.stat().st_mtime >= max(source.stat().st_mtime for source in sources):
        return []
    note = 'The library that was measured is older than its sources: `host/build library` builds it anew.'
    say(f'bench: {note}')
    return [note, '']


def compile_file(compiler, source, built, *flags):
    """Compiles one file."""
    words = [compiler, *WARNINGS, *flags, *FOLDERS, '-c', source, '-o', BUILT / built]
    run = subprocess.run([str(word) for word in words], capture_output=True, text=True)
    if run.returncode != 0 or run.stderr:
        raise Trouble(f'{compiler} on {source.name}:\n{run.stderr}')
    return BUILT / built


def link(program, *words):
    """Links a program."""
    run = subprocess.run([COMPILER, *map(str, words), '-o', str(BUILT / program)], capture_output=True, text=True)
    if run.returncode != 0:
        raise Trouble(f'{program} was not linked:\n{run.stderr}')
    return BUILT / program


def opponents(compiler, *flags):
    """The plain C, and the second reader of the tests, by one compiler at -O3."""
    sources = [SOURCES / 'plain.c', *sorted((ROOT / 'tests' / 'c').glob('second_*.c'))]
    return [compile_file(compiler, source, f'{compiler}-{source.stem}.o', '-O3', *flags) for source in sources]


def build():
    """Builds all programs; answers them by name: gcc and where they can be built clang and sndfile."""
    # -fPIE, as Debian's gcc has it anyway: only so is the address of memcpy that of the chosen one.
    harness = [compile_file(COMPILER, SOURCES / f'{name}.c', f'{name}.o', '-O2', '-fPIE')
               for name in ('measure', 'made', 'agree')]
    by_gcc = opponents(COMPILER)
    programs = {'gcc': link('measure-gcc', '-static', *harness, *by_gcc, ARCHIVE)}
    if has_clang():
        programs['clang'] = link('measure-clang', '-static', *harness, *opponents('clang', *clang_flags()), ARCHIVE)
    if has_sndfile():
        jobs = [compile_file(COMPILER, SOURCES / f'{name}.c', f'sndfile-{name}.o', '-O2', '-DHAVE_SNDFILE')
                for name in ('measure', 'with_sndfile')]
        programs['sndfile'] = link('measure-sndfile', *jobs, *harness[1:], *by_gcc, ARCHIVE, '-lsndfile')
    plugin = compile_file('gcc', SOURCES / 'guest_count.c', 'guest_count.o', '-O2', '-fPIC')
    subprocess.run(['gcc', '-shared', str(plugin), '-o', str(BUILT / 'guest_count.so')], check=True)
    if NATIVE:
        link('peak', '-static', compile_file(COMPILER, SOURCES / 'peak.c', 'peak.o', '-O2'))
    return programs


def chosen_memcpy(program, *before, environment=()):
    """The name of the memcpy that glibc chooses for a program here, or under an emulator."""
    run = subprocess.run([*before, str(program), 'memcpy'], capture_output=True, text=True,
                         env={**os.environ, **dict(environment)}, check=True)
    symbols = subprocess.run([SYMBOLS, str(program)], capture_output=True, text=True).stdout.splitlines()
    names = [line.split()[2] for line in symbols if line.startswith(run.stdout.strip() + ' ')]
    return next((name for name in names if name.startswith('__memcpy')), 'an unknown one')


def processor():
    """The name of this machine's processor."""
    for line in pathlib.Path('/proc/cpuinfo').read_text().splitlines():
        if line.startswith('model name'):
            return line.split(':', 1)[1].strip()
    return platform.machine()
