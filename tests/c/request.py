"""The library through its C interface: target/c/request, which tests/c/run builds, makes one call after the other.

`Library.ask` makes a call, and holds its answer against what the second implementations in Python say.
"""
import struct
import subprocess
from collections import Counter, namedtuple

from programs.running import EMULATOR
from second import (ima as second_ima, reader as second_reader, side as second_side, sound as second_sound,
                    writer as second_writer)
from second.reader import Refused, demand
from second.writer import Record
from trying import ROOT, expect

PROGRAM = ROOT / 'target' / 'c' / 'request'
WORDS, FILL = 906, b'\xa5'

# The refusal, 0 where there is none, and the other numbers of a call; whether the bytes beside the lent buffers are as
# they were; and all of the buffers after the call, that of the output and that of titles.
Answer = namedtuple('Answer', 'refusal n left right kept buffer titles')


# ---- values as they travel

def samples_of(sound):
    """16-bit PCM as samples."""
    return struct.unpack(f'<{len(sound) // 2}h', sound)


def pcm16(samples):
    """Samples as 16-bit PCM."""
    return struct.pack(f'<{len(samples)}h', *samples)


def flat(table, size):
    """The numbers of a table one after the other, and zeros up to so many."""
    numbers = [number for entry in table for number in entry]
    return numbers + [0] * (size - len(numbers))


def words_of(form, frames, cues, plays, titles=()):
    """A record as words; the room past the three counts is zero."""
    return struct.pack(f'<{WORDS}I', *form, frames, len(cues), len(plays), *flat(cues, 192), *flat(plays, 192),
                       len(titles), *flat(titles, 512))


def record_of(words):
    """The record that words are."""
    numbers = struct.unpack(f'<{WORDS}I', words)
    cues, plays, titles = ([numbers[at:at + size] for at in range(start, start + size * count, size)]
                           for start, size, count in ((9, 3, 64), (201, 3, 64), (394, 4, 128)))
    return Record(numbers[:6], numbers[6], numbers[7], cues, numbers[8], plays, numbers[393], titles)


# ---- the second implementations: each gives what stands at the start of the lent buffer, and the numbers of the
# answer; reading also what stands at the start of that for titles

def read(rooms, file):
    form, frames, cues, plays, _, _, found = second_reader.read_all(file)
    titles, texts = second_reader.placed(found)
    room, title_room = rooms
    demand(room >= WORDS and title_room >= len(texts), 14)
    return words_of(form, frames, cues, plays, titles), 0, 0, 0, texts


def sound(room, file):
    start, part = second_reader.read(file)[4:]
    demand(room >= 1, 14)
    return struct.pack('<Q', start), len(part)


def new_file(kind, made):
    """A file that a second implementation has written, or its refusal."""
    demand(kind == 'bytes', made)
    return made, len(made)


def write(room, record, titles, part):
    return new_file(*second_side.answer(second_writer.write(record_of(record), titles, part, room)))


def decode(room, file):
    frames, samples = second_sound.decode(file, room)
    return pcm16(samples), frames


def decode_block(room, file, block):
    frames, samples = second_sound.decode_block(file, block, room)
    return pcm16(samples), frames


def encode(room, part, channels, align):
    blocks, left, right = second_ima.encode(samples_of(part), channels, align, room)
    return blocks, len(blocks), left, right


def add(room, side, song, number, limit):
    return new_file(*second_side.check(side, song, number, limit, room))


def empty(room, channels, rate):
    return new_file(*second_side.empty(channels, rate, room))


# Of each call its number in request.c, the bytes of an element of the buffer that it is lent, and the second way.
CALLS = {'read': (1, 4, read), 'sound': (2, 8, sound), 'write': (3, 1, write), 'decode': (4, 2, decode),
         'decode_block': (5, 2, decode_block), 'encode': (6, 1, encode), 'add': (7, 1, add),
         'empty': (8, 1, empty)}


def rooms_of(room):
    """How many elements are lent for the output, and how many bytes for titles, which only reading is lent."""
    return room if isinstance(room, tuple) else (room, 0)


def second_answer(name, room, *words):
    """What the second implementations say of a call."""
    _, element, work = CALLS[name]
    size, title_size = rooms_of(room)
    try:
        made, n, *more = work(room, *words)
    except Refused as refusal:
        return Answer(refusal.args[0], 0, 0, 0, True, FILL * (size * element), FILL * title_size)
    left, right, *texts = more or (0, 0)
    texts = texts[0] if texts else b''
    return Answer(0, n, left, right, True, made + FILL * (size * element - len(made)),
                  texts + FILL * (title_size - len(texts)))


def first_difference(found, wanted):
    """The first place where two buffers differ; None where they are the same."""
    return None if found == wanted else next(at for at, pair in enumerate(zip(found, wanted)) if pair[0] != pair[1])


class Library:
    """The library, as long as the program runs that calls it; `answers` counts its answers by their refusals."""

    def __enter__(self):
        self.program = subprocess.Popen([*EMULATOR, PROGRAM], stdin=subprocess.PIPE, stdout=subprocess.PIPE)
        self.answers = Counter()
        return self

    def __exit__(self, *_):
        self.program.stdin.close()
        expect('how target/c/request ends', self.program.wait(timeout=60), 0)
        self.program.stdout.close()

    def received(self, size):
        """The next bytes that the program sends."""
        found = self.program.stdout.read(size)
        if len(found) != size:
            raise EOFError('target/c/request ended before its answer')
        return found

    def call(self, name, room, *words):
        """A call with room for so many elements, and for reading with so many bytes for titles too; of its other words,
        files, records, texts and sounds are bytes, the rest numbers."""
        operation, element, _ = CALLS[name]
        size, title_size = rooms_of(room)
        inputs = ([word for word in words if isinstance(word, bytes)] + [b'', b'', b''])[:3]
        numbers = ([word for word in words if isinstance(word, int)] + [0, 0])[:2]
        head = struct.pack('<8I', operation, *numbers, size, title_size, *map(len, inputs))
        self.program.stdin.write(head + b''.join(inputs))
        self.program.stdin.flush()
        refusal, left, right, kept, n = struct.unpack('<4IQ', self.received(24))
        return Answer(refusal, n, left, right, kept == 1, self.received(size * element), self.received(title_size))

    def ask(self, label, name, room, *words):
        """The answer of a call, which must be what the second implementations say."""
        found, wanted = self.call(name, room, *words), second_answer(name, room, *words)
        expect(f'{label}: {name}', found[:-2], wanted[:-2])
        expect(f'{label}: {name}, the first byte that is wrong', first_difference(found.buffer, wanted.buffer), None)
        expect(f'{label}: {name}, the first byte of its titles that is wrong',
               first_difference(found.titles, wanted.titles), None)
        self.answers[found.refusal] += 1
        return found
