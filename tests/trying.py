"""What the tests of the commands share: a program is run on files in a folder of its own, and what it says and leaves
there is held against what must come."""
import contextlib
import os
import pathlib
import resource
import signal
import subprocess
import sys
import tempfile
import time

from second import reader as second_reader, side as second_side

ROOT = pathlib.Path(__file__).resolve().parent.parent
sys.path.insert(0, str(ROOT / 'demo'))
import make

SONG, EMPTY = make.files()['school-song.wav'], make.files()['empty-side.wav']
WRONG = []


def expect(label, found, wanted):
    """Takes down what is not as it must be."""
    if found != wanted:
        WRONG.append(f'{label}: it is {str(found)[:400]}, and must be {str(wanted)[:400]}')


def report(name):
    """Prints the first of what is wrong; the exit status of the test."""
    for line in WRONG[:20]:
        print(f'{name}: {line}'.encode(errors='backslashreplace').decode())
    return 1 if WRONG else 0


# ---- a program in a folder

def run(words, folder, **options):
    """Exit status, standard output and standard error of a program that is run in a folder."""
    if 'input' not in options:
        options = {'stdin': subprocess.DEVNULL, **options}
    ran = subprocess.run([str(word) for word in words], cwd=folder, stdout=subprocess.PIPE, stderr=subprocess.PIPE,
                         check=False, **options)
    return ran.returncode, ran.stdout.decode(), ran.stderr.decode()


def limited(kind, size):
    """Options for `run` under a limit of the system."""
    return {'preexec_fn': lambda: resource.setrlimit(kind, (size, size)), 'restore_signals': False}


def printed(lines):
    """Lines as a program prints them."""
    return ''.join(f'{line}\n' for line in lines)


def meanings():
    """What a refusal means, by its number from 1 on."""
    return dict(enumerate((ROOT / 'host' / 'meanings').read_text().splitlines(), 1))


def kept(folder):
    """All that a folder has, by name: the bytes of a file, where a link leads, None for a folder."""
    return {str(path.relative_to(folder)): os.readlink(path) if path.is_symlink()
            else path.read_bytes() if path.is_file() else None for path in folder.rglob('*')}


def put(path, content):
    """Makes a file of bytes, or a link to where a text says."""
    if isinstance(content, str):
        path.symlink_to(content)
    else:
        path.write_bytes(content)


@contextlib.contextmanager
def holding(files):
    """A folder with these files and an empty folder, which is removed again."""
    with tempfile.TemporaryDirectory() as name:
        folder = pathlib.Path(name)
        for file, content in files.items():
            put(folder / file, content)
        (folder / 'folder').mkdir()
        yield folder


def tried(label, words, files, wanted, changed, seen=lambda answer: answer, **options):
    """Runs a program in a folder with these files: what is seen of its answer must be what is wanted, and nothing else
    may change there."""
    with holding(files) as folder:
        after = {**kept(folder), **changed}
        expect(label, seen(run(words, folder, **options)), wanted)
        found = kept(folder)
        expect(f'{label}, the files that are there', sorted(found), sorted(after))
        wrong = [file for file in after if found.get(file) != after[file]]
        expect(f'{label}, the files that are not as they must be', wrong, [])


def empty_for(song):
    """An empty side of a song's channels and rate, or of any where the song is refused."""
    try:
        _, channels, rate, _, _, _ = second_reader.read(song)[0]
    except second_reader.Refused:
        return EMPTY
    return second_side.empty(channels, rate)[1]


# ---- programs that run beside the test

class Started(subprocess.Popen):
    """A program that runs beside the test, with a group of processes of its own. Where the test cannot go on, the group
    is killed: to wait for a program that is stuck would have no end."""

    def __exit__(self, kind, *more):
        if kind is not None:
            with contextlib.suppress(ProcessLookupError):
                os.killpg(self.pid, signal.SIGKILL)
        super().__exit__(kind, *more)


def start(words, folder, **options):
    """Starts a program, which runs beside the test."""
    options = {'stdin': subprocess.DEVNULL, **options}
    return Started([str(word) for word in words], cwd=folder, text=True, stdout=subprocess.PIPE,
                   stderr=subprocess.PIPE, start_new_session=True, **options)


def opened(pipe):
    """The writing end of a named pipe, as soon as a program reads it; it waits for that half a minute."""
    for _ in range(3000):
        try:
            return os.open(pipe, os.O_WRONLY | os.O_NONBLOCK)
        except OSError:
            time.sleep(0.01)
    raise TimeoutError(f'no program reads {pipe}')
