"""The input of the program `vectors`: entries of every operation one after the other, and the lines that it prints."""
import random
import struct

from data import songs
from second import reader as second_reader
from second.reader import Refused, mixed
from vectors import approval_copies, ground, ima_sounds, many_files, side_files, sound_files, wave_files, writer_records

# The byte before an entry that says its operation.
OPERATIONS = {'unit': b'U', 'number': b'N', 'put': b'P', 'sample': b'S', 'read': b'R',
              'encode': b'E', 'decode': b'D', 'write': b'W', 'add': b'A', 'copy': b'C'}

# The most bytes that the program reads.
ROOM = 524288
# The most bytes that the texts of a file have.
MOST_TEXTS = 128 * 256


def file_entry(label, file, room):
    """A file to read as `vectors` takes it, with so many bytes that are lent for titles."""
    return struct.pack('<2HI', len(label), room, len(file)) + label.encode() + file


def title_lines(file, room):
    """What must be printed of a file's titles and of the bytes that were lent for them, each 170 before."""
    try:
        table, texts = second_reader.read_titles(file, room)
    except Refused as refusal:
        return [f'titles refused {refusal.args[0]}', f'rest {room} untouched']
    places = ''.join(f' {number}' for title in table for number in title)
    return [f'titles{places}', f'texts bytes {len(texts)} mixed {mixed(texts)}', f'rest {room - len(texts)} untouched']


def read(label, file, room=None):
    """A file to read, and the lines under its label by the second reader; where nothing else is said, two bytes more
    than enough are lent for titles."""
    if room is None:
        room = room_for(file) + 2
    listed, left_out = second_reader.listing(file)
    return file_entry(label, file, room), [label, *listed, *left_out, *title_lines(file, room)]


def room_for(file):
    """How many bytes the texts of a file need; none where it is refused."""
    try:
        return len(second_reader.placed(second_reader.titles(file))[1])
    except Refused:
        return 0


def titles_said(file, room):
    """The titles of a file as the table says them: kind, name and text before its zero; or the refusal."""
    try:
        table, texts = second_reader.read_titles(file, room)
    except Refused as refusal:
        return refusal.args[0]
    return [(kind, name, texts[start:start + length]) for kind, name, start, length in table]


def border_files():
    """The files of tests/vectors/wave_files.py, of which the table itself says what is listed."""
    for label, file, expected in wave_files.all_files():
        listed, _ = second_reader.listing(file)
        if listed != expected:
            raise ValueError(f'{label}: the table says {expected}, the second reader {listed}')
        yield read(label, file)


def border_titles():
    """The titles that the same tables say, and how many bytes are lent for them."""
    lists = ((label, file, MOST_TEXTS, said) for label, file, said, _ in wave_files.title_lists())
    for label, file, room, said in (*lists, *wave_files.title_rooms()):
        found = titles_said(file, room)
        if found != said:
            raise ValueError(f'{label}: the table says {said}, the second reader {found}')
    for label, file, room, _ in wave_files.title_rooms():
        yield read(label, file, room)


def other_sides():
    """The sides and songs of tests/data/songs.py."""
    for label, side, song in songs.onto():
        yield side_files.vector(label, side, song, songs.NUMBER, songs.LIMIT, side_files.ROOM)


def marked(tables):
    """The vectors of operations, each entry after the byte of its operation."""
    return [(OPERATIONS[name] + entry, lines) for name, vectors in tables.items() for entry, lines in vectors]


def stored():
    """What is stored: the tables of all operations; then a byte that is no operation, and an entry that is not run."""
    made = marked({
        'unit': ground.refusals(), 'number': ground.numbers(), 'put': ground.puts(), 'sample': ground.samples(),
        'read': [*border_files(), *border_titles()], 'encode': ima_sounds.all_vectors(),
        'decode': sound_files.all_vectors(), 'write': writer_records.all_vectors(), 'add': side_files.all_vectors(),
        'copy': approval_copies.all_vectors()})
    return [*made, (b'?' + made[0][0], ['no operation 63'])]


def generated(count, seed):
    """So many files to read and a tenth as many entries of the others, in any order, the same for the same seed."""
    files, few = many_files.files(count, seed), count // 10
    made = marked({
        'read': (read(str(place), file) for place, file in enumerate(files)),
        'encode': ima_sounds.many(few, seed), 'decode': sound_files.many(few, seed),
        'write': writer_records.many(few, seed), 'add': [*other_sides(), *side_files.many(few, seed)],
        'copy': approval_copies.many(few, seed)})
    random.Random(seed).shuffle(made)
    return made


def joined(vectors):
    """The entries one after the other, and the lines that must be printed of them."""
    return b''.join(entry for entry, _ in vectors), [line for _, lines in vectors for line in lines]


def batches(vectors):
    """The same for as many entries at a time as the program reads."""
    batch, size = [], 0
    for entry, lines in vectors:
        if size + len(entry) > ROOM:
            yield joined(batch)
            batch, size = [], 0
        batch.append((entry, lines))
        size += len(entry)
    yield joined(batch)
