"""Where the fault of a refused file is, by a walk that is not the command's own."""
import struct

from host.run import TITLES, escaped, refusal_in
from host.walk import in_list, title_lists, walked
from second import reader as second_reader
from vectors import many_files
from vectors.wave_files import PAIRS, chunk

# A chunk that is skipped, and longer than a file that is read whole.
JUNK = chunk(b'junk', bytes(range(1, 251)) * 280)


def codes(file):
    """The codes of the chunks of a file."""
    return [code for code, _, _ in walked(file)[0]]


def first(file, code):
    """Place and size of the first chunk of a code."""
    return next((at, size) for name, at, size in walked(file)[0] if name == code)


def frames_of(file):
    """The frames of a file whose format, sound and fact are accepted."""
    tag, align = struct.unpack_from('<H10xH', file, first(file, b'fmt ')[0] + 8)
    if tag == 1:
        return first(file, b'data')[1] // align
    return struct.unpack_from('<I', file, first(file, b'fact')[0] + 8)[0]


def entries(file, code, each):
    """The entries of a table; None where its count does not fit."""
    at, size = first(file, code)
    count = int.from_bytes(file[at + 8:at + 12], 'little')
    if size < 4 or count > 64 or size != 4 + each * count:
        return None
    return [file[place:place + each] for place in range(at + 12, at + 8 + size, each)]


def field_of(file, code, name, offset):
    """A field as the place of a fault; the size is in the header of the chunk, and the others are in its data."""
    at = first(file, code)[0] + (4 if name == 'size' else 8 + offset)
    return {'chunk': code.decode(), 'field': name, 'byte': at}


def format_field(file):
    """The field of `fmt ` by which the first rule is broken, and its place in the data."""
    at, size = first(file, b'fmt ')
    made = file[at + 8:at + 8 + size].ljust(50, b'\0')
    tag, channels, rate, average, align, bits = struct.unpack_from('<HHIIHH', made)
    extension, samples, count, *numbers = struct.unpack_from('<3H14h', made, 16)
    each = max(channels, 1)
    rules = [('size', 0, size >= 16), ('tag', 0, tag in (1, 2, 17)), ('channels', 2, channels in (1, 2)),
             ('rate', 4, 1 <= rate <= 192000)]
    if tag == 1:
        rules += [('bits per sample', 14, bits in (8, 16)), ('block align', 12, align == channels * bits // 8),
                  ('average bytes per second', 8, average == rate * align)]
    else:
        least, step, head, begin = (20, 4 * each, 4, 1) if tag == 17 else (50, 1, 7, 2)
        rules += [('size', 0, size >= least), ('extension size', 16, least - 18 <= extension <= size - 18),
                  ('bits per sample', 14, bits == 4),
                  ('block align', 12, 8 * each <= align <= 4096 and align % step == 0),
                  ('samples per block', 18, samples == (align - head * each) * 2 // each + begin)]
    if tag == 2:
        rules += [('coefficient count', 20, count == 7)]
        rules += [('coefficients', 22 + 4 * (turn // 2), numbers[turn] == PAIRS[turn]) for turn in range(14)]
    return next((name, offset) for name, offset, met in rules if not met)


def wrong_cue(file):
    """Which cue is the first that cannot be, its name, and the field that is wrong."""
    names = []
    for turn, made in enumerate(entries(file, b'cue ', 24)):
        name, _, code, begin, block, place = struct.unpack('<II4sIII', made)
        rules = [('name', 0, name not in names), ('chunk code', 8, code == b'data'), ('chunk start', 12, begin == 0),
                 ('block start', 16, block == 0), ('sample offset', 20, place < frames_of(file))]
        if not all(met for _, _, met in rules):
            return turn, name, *next((field, offset) for field, offset, met in rules if not met)
        names.append(name)
    raise ValueError('all cues are valid')


def wrong_entry(file):
    """Which entry of the playlist is the first that cannot be, its name, and the field that is wrong."""
    cues = entries(file, b'cue ', 24) if b'cue ' in codes(file) else []
    places = {struct.unpack_from('<I', made)[0]: struct.unpack_from('<I', made, 20)[0] for made in cues}
    for turn, made in enumerate(entries(file, b'plst', 12)):
        name, length, times = struct.unpack('<III', made)
        fits = 0 < length <= frames_of(file) - places.get(name, 0)
        rules = [('name', 0, name in places), ('length', 4, fits), ('times', 8, times > 0)]
        if not all(met for _, _, met in rules):
            return turn, name, *next((field, offset) for field, offset, met in rules if not met)
    raise ValueError('all entries are valid')


def table_place(file, code, each, wrong):
    """The place of a fault in a table: its count, its size, or a field of an entry with the name of its cue."""
    at, size = first(file, code)
    if entries(file, code, each) is None:
        many = size >= 4 and int.from_bytes(file[at + 8:at + 12], 'little') > 64
        return field_of(file, code, 'count' if many else 'size', 0)
    turn, name, field, offset = wrong(file)
    return {**field_of(file, code, field, 4 + each * turn + offset), 'cue': name}


def wrong_chunk(file, end, names, seen, code, at, size):
    """The place of what is wrong with a chunk of the list of titles, which ends there; None where it can be so. Titles
    of these kinds and names were seen before it."""
    of_size = {'chunk': escaped(code), 'field': 'size', 'byte': at + 4}
    if size % 2 and at + 8 + size == end < len(file):
        return of_size
    if code not in TITLES:
        return None
    if not 5 <= size <= 260:
        return of_size
    name, text = int.from_bytes(file[at + 8:at + 12], 'little'), file[at + 12:at + 8 + size]
    of_cue = {'chunk': code.decode(), 'cue': name}
    if text.find(0) != len(text) - 1:
        return {**of_cue, 'field': 'text', 'byte': at + 12}
    if name not in names:
        return {**of_cue, 'field': 'name', 'byte': at + 8}
    return {**of_cue, 'byte': at} if (code, name) in seen else None


def wrong_titles(file):
    """The place of what is wrong with the titles: a second list, or the first chunk of the list that cannot be."""
    (start, end), *more = title_lists(file)
    if more:
        return {'chunk': 'LIST', 'byte': more[0][0]}
    cues = entries(file, b'cue ', 24) if b'cue ' in codes(file) else []
    names, seen = [int.from_bytes(made[:4], 'little') for made in cues], set()
    found, stop = in_list(file, start, end)
    for code, at, size in found:
        place = wrong_chunk(file, end, names, seen, code, at, size)
        if place is not None:
            return place
        seen.add((code, int.from_bytes(file[at + 8:at + 12], 'little')))
    if stop + 8 > end:
        return {'chunk': 'LIST', 'byte': stop}
    return {'chunk': escaped(file[stop:stop + 4]), 'field': 'size', 'byte': stop + 4}


def open_sound(file):
    """Where `data` is if its size was never written: FFFFFFFF, nearly 2 GiB, or 0 before what is no code of a chunk."""
    found, stop = walked(file)
    heads = [at for _, at, _ in found] + ([] if stop is None or stop + 8 > len(file) else [stop])
    at = next((at for at in heads if file[at:at + 4] == b'data'), None)
    if at is None:
        return None
    size, after = int.from_bytes(file[at + 4:at + 8], 'little'), file[at + 8:at + 12]
    letters = all(bytes([byte]).isalnum() or byte == 32 for byte in after)
    return at if size >= 0x7ffff000 or size == 0 and not letters else None


def past_the_end(file):
    """The place of refusal 4: a size that was never written, a chunk's size, or a header that is cut."""
    at, stop = open_sound(file), walked(file)[1]
    if at is None and stop + 8 > len(file):
        return {'byte': stop}
    at = stop if at is None else at
    return {'chunk': escaped(file[at:at + 4]), 'field': 'size', 'byte': at + 4}


def walk_place(number, file):
    """The place of a fault of the walk, 5 to 7."""
    found, names = walked(file)[0], codes(file)
    fits = {5: lambda turn: names[turn] in second_reader.SINGLE and names[turn] in names[:turn],
            6: lambda turn: names[turn] == b'data',
            7: lambda turn: names[turn] == b'LIST' and file[found[turn][1] + 8:][:4] == b'wavl'}[number]
    code, at, _ = found[next(turn for turn in range(len(found)) if fits(turn))]
    return {'chunk': code.decode(), **({'field': 'list type', 'byte': at + 8} if number == 7 else {'byte': at})}


def place_in(number, file):
    """The place that must be reported of a file that reading refuses with this number."""
    if number == 2:
        return {'field': 'file code', 'byte': 0} if file[:4] != b'RIFF' else {'field': 'form type', 'byte': 8}
    if number == 3:
        return {'field': 'RIFF size', 'byte': 4}
    if number == 4:
        return past_the_end(file)
    if number in (5, 6, 7):
        return walk_place(number, file)
    if number == 9:
        return field_of(file, b'fmt ', *format_field(file))
    if number == 10:
        return field_of(file, b'data', 'size', 0)
    if number == 11 and b'fact' in codes(file):
        return field_of(file, b'fact', 'size' if first(file, b'fact')[1] < 4 else 'count', 0)
    if number in (12, 13):
        return table_place(file, *((b'cue ', 24, wrong_cue) if number == 12 else (b'plst', 12, wrong_entry)))
    if number == 21:
        return wrong_titles(file)
    return {}


def refusal_of(file):
    """The number by which the second reader refuses a file, None where it does not."""
    return refusal_in(second_reader.listing(file)[0])


def title_objects(titles):
    """Titles, each with its text and the zero, as a script gets them."""
    for kind, name, text in titles:
        text = text[:-1]
        shown = {'name': name, 'kind': ('label', 'note')[kind], 'text': text.decode(errors='backslashreplace')}
        yield shown if text == text.decode(errors='ignore').encode() else {**shown, 'hex': text.hex()}


def record_of(name, file):
    """What `list` must report to a script on a file that is accepted."""
    (tag, channels, rate, bits, align, samples), frames, cues, plays, _, _ = second_reader.read(file)
    return {'file': name, 'ok': True, 'refused': 0, 'tag': tag, 'channels': channels, 'rate': rate, 'bits': bits,
            'align': align, 'samples_per_block': samples, 'frames': frames,
            'cues': [{'name': name, 'position': position, 'place': place} for name, position, place in cues],
            'playlist': [{'name': name, 'length': length, 'times': times} for name, length, times in plays],
            'titles': [*title_objects(second_reader.titles(file))]}


def with_junk(file, at):
    """The file with a long chunk at a place, and a size that is right."""
    return many_files.sized(file[:at] + JUNK + file[at:])
