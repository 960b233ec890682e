"""What the tests of the command tronalhet share: how it is run, and what is seen of its answer."""
import collections
import json
import platform
import re

from trying import EMPTY, ROOT, SONG, WRONG, make, meanings, printed, tried
from host.walk import in_list, title_lists, walked
from second import command as second_command, reader as second_reader, side as second_side
from second.command import answer
from vectors.wave_files import fmt

NATIVE = platform.machine() == 'x86_64'
PROGRAM = ROOT / 'target' / 'host' / 'release' / 'tronalhet'
HOST = [PROGRAM] if NATIVE else ['qemu-x86_64', PROGRAM]
PART = '.tronalhet-[0-9]*-[0-9]*.part'
MOST = 1 << 30
MEANINGS = meanings()
FILES = {'song.wav': SONG, 'side.wav': EMPTY}
OTHER = make.files()['harbour-song.wav']
ADDED, NEW = ['--number=7', '--limit=9999'], ['--channels=1', '--rate=8000']
STEREO = fmt(channels=2, rate=44100)
# The command accepts files as long as document 01 does; the small programs, whose lines these are, do not.
second_command.LIMIT = MOST
# Chunks that a new file says again: those of the sound, and with the tables all that are known.
OF_SOUND = b'fmt ', b'fact', b'data'
KNOWN = *OF_SOUND, b'cue ', b'plst'
# Chunks of the list of titles that it says again, where it says all that is known.
TITLES = {b'labl': 'label', b'note': 'note'}


def added(side, song, number, limit):
    """What `add` must print and write: the lines of the small program, then which song of the side it is, where it
    starts, how many frames it has, and how many are left."""
    lines, made = answer(second_command.add, side, song, number, limit)
    if made is not None:
        songs, frames = second_side.songs(made), second_reader.read(made)[1]
        last = songs[-1]
        lines = [*lines, f'song {len(songs)}', f'place {last.place}', f'frames {last.length}',
                 f'frames left {limit - frames}']
    return lines, made


DECODED, ADDED_SONG = answer(second_command.decode, SONG), added(EMPTY, SONG, 7, 9999)


def refusal_in(lines):
    """The number of the refusal that is printed, None where there is none."""
    return int(lines[0].split()[1]) if lines[0].startswith('refused') else None


def without_ways(said):
    """What is said on standard error, but for the way out of a refusal."""
    return [line for line in said.splitlines() if not re.match(r'tronalhet: (\S+: )?way out: ', line)]


def cut(about):
    """What is seen of a refusal: the words of a place are left out, which must be there for a file of this name."""
    front = f'tronalhet: {about}: '

    def seen(answered):
        status, shown, said = answered
        lines = without_ways(said)
        if lines and lines[0].startswith(front) and len(lines[0]) > len(front):
            lines[0] = front
        return status, shown, lines
    return seen


def not_kept(file, kept):
    """What a file has that the new one does not have: the code of a chunk or the type of a list, what that is, and
    whether it is in the list of titles."""
    lists = {at: in_list(file, at, end)[0] for at, end in title_lists(file)}
    for code, at, size in walked(file)[0]:
        if kept == KNOWN and at in lists:
            yield from ((code, 'chunk', True) for code, _, _ in lists[at] if code not in TITLES)
        elif code == b'LIST' and size >= 4:
            yield file[at + 8:at + 12], 'list', False
        elif code not in kept:
            yield code, 'chunk', False


def left_out(name, file, kept):
    """The line that names the chunks of a file that the new one does not have; none where there are none."""
    counted = collections.Counter(not_kept(file, kept))
    words = ['the list of titles' if (code, what) == (b'adtl', 'list') else
             (f"{what} '{escaped(code)}'" if count == 1 else f"{count} {what}s '{escaped(code)}'")
             + (' of the list of titles' if inner else '') for (code, what, inner), count in [*counted.items()][:20]]
    return [f'tronalhet: {name}: left out: {", ".join(words)}'] if words else []


def escaped(code):
    """A code with bytes that are no letters as the command shows them."""
    return ''.join(chr(byte) if 32 <= byte < 127 and byte not in b'\'"\\' else
                   {9: '\\t', 10: '\\n', 13: '\\r', 34: '\\"', 39: "\\'", 92: '\\\\'}.get(byte, f'\\x{byte:02x}')
                   for byte in code)


def same_sound(name, side, song):
    """The line that says under which numbers the sound of a song is on a side already; none where it is not."""
    sound = second_reader.read(song)[5]
    numbers = [str(other.number) for other in second_side.songs(side) if other.sound == sound]
    return [f'tronalhet: {name}: this sound is on the side already, as {", ".join(numbers)}'] if numbers else []


def many_songs(name, song):
    """The line that says that what was added as a song has a playlist, as a side has; none where it has none."""
    count = len(second_reader.read(song)[3])
    entries = '1 entry' if count == 1 else f'{count} entries'
    return [f'tronalhet: {name}: it has a playlist of {entries}, and was added as one song'] if count else []


def adds(label, side, song, number, limit, about=None, song_name='song.wav', out='side.wav'):
    """`add` does what it must with a side and a song, in place or to another file."""
    lines, made = added(side, song, number, limit)
    remarks = [] if made is None else [*left_out('side.wav', side, KNOWN), *left_out(song_name, song, OF_SOUND),
                                       *many_songs(song_name, song), *same_sound(song_name, side, song)]
    call = ['add', 'side.wav', song_name, '--number', number, '--limit', limit]
    does(label, call if out == 'side.wav' else [*call, '--out', out], {'side.wav': side, song_name: song},
         (lines, made), about or song_name, out, remarks)


def does(label, words, files, answered, about='file.wav', out='new.wav', remarks=(), **options):
    """The command prints the lines and writes the file, or the files by their names, that it must, and says where the
    fault is that is refused and what it means, or the remarks."""
    lines, made = answered
    number = refusal_in(lines)
    said = [*remarks] if number is None else [f'tronalhet: {about}: ', f'tronalhet: {number} means: {MEANINGS[number]}']
    wanted = 0 if number in (None, 18) else number, printed(lines), said
    seen = cut(about) if number else lambda told: (*told[:2], told[2].splitlines())
    changed = made if isinstance(made, dict) else {} if made is None else {out: made}
    tried(label, [*HOST, *words], files, wanted, changed, seen, **options)


def objects(shown):
    """The objects that are printed for scripts, each on a line of its own."""
    return [json.loads(line) for line in shown.removesuffix('\n').split('\n')]


def picked(pick):
    """What a script sees: the status, and what is picked from the objects; the whole answer where that is not there."""
    def seen(answered):
        try:
            return answered[0], pick(*objects(answered[1]))
        except (KeyError, TypeError, ValueError):
            return answered
    return seen


def tells(label, words, files, wanted, pick=lambda *told: [*told], changed=(), **options):
    """The command reports to a script what is wanted, be it all or what is picked of it."""
    tried(label, [*HOST, words[0], '--json', *words[1:]], files, wanted, dict(changed), picked(pick), **options)


def refuses(label, words, files, number, where, said=()):
    """The command reports to a script the number of a refusal and its place, in whose words some others must stand."""
    def pick(told):
        what = told.get('where', {}).pop('what', '')
        told.pop('way_out', None)
        return told, [word for word in said if not re.search(rf'(?<!\w){re.escape(str(word))}(?!\w)', what)]
    told = {'file': words[1], 'ok': number == 18, 'refused': number, 'meaning': MEANINGS[number], 'where': where}
    tells(label, words, files, (0 if number == 18 else number, (told, [])), pick)


def reading(name):
    """The words of each command that reads a file of this name."""
    return [['list', name], ['check', name], ['decode', name, 'new.wav'], ['encode', name, 'new.wav'],
            ['add', 'side.wav', name, *ADDED], ['add', name, 'song.wav', *ADDED, '--out=new.wav']]


def writing(name):
    """The words of each command that writes a file of this name."""
    return [['decode', 'song.wav', name], ['encode', 'song.wav', name],
            ['add', 'side.wav', 'song.wav', *ADDED, '--out', name], ['new-side', name, *NEW]]


def replacing(name):
    """The same of those that replace a file that is there."""
    return [[*words, '--replace'] for words in writing(name)[:3]]


IN_PLACE = ['add', 'side.wav', 'song.wav', *ADDED]


def parts(folder):
    """The unfinished files of a folder."""
    return list(folder.glob(PART))


def attempted(part, *words):
    """Runs a part of the test. One that cannot go on is wrong too, and the others are still run."""
    try:
        part(*words)
    except Exception as error:
        WRONG.append(f'{part.__name__} cannot go on: {error!r}')
