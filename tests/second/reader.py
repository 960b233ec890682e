"""A second reader of WAVE files, from the text of documents 01 and 02 alone, to compare the library's programs with."""
import struct

PAIRS = [256, 0, 512, -256, 0, 0, 192, 64, 240, 0, 460, -208, 392, -232]
SINGLE = (b'fmt ', b'data', b'fact', b'cue ', b'plst')
# The chunks of a list of titles that are titles, and what a record calls their kinds.
KINDS = {b'labl': 0, b'note': 1}
MOST_TITLES = 128


class Refused(Exception):
    """The number of the refusal is its first argument."""


def demand(holds, number):
    if not holds:
        raise Refused(number)


def number(data, at, size=4):
    return int.from_bytes(data[at:at + size], 'little')


def tiled(data, at, refusal, lost):
    """Code, start and data of the chunks that tile some bytes from a place on; the last pad may be lost, or may not."""
    while at < len(data):
        demand(at + 8 <= len(data), refusal)
        code, size = data[at:at + 4], number(data, at + 4)
        end = at + 8 + size
        demand(end <= len(data) and (lost or end + size % 2 <= len(data)), refusal)
        yield code, at + 8, data[at + 8:end]
        # A last pad that is absent would be past the end.
        at = end + size % 2


def chunks(file):
    """Refusals 1 to 4; code, start and data of each chunk of a file."""
    demand(12 <= len(file) <= 1 << 30, 1)
    demand(file[:4] == b'RIFF' and file[8:12] == b'WAVE', 2)
    demand(8 + number(file, 4) == len(file), 3)
    yield from tiled(file, 12, 4, True)


def walk(file):
    """Refusals 1 to 7; where each chunk's data start, and the data, by code."""
    found = {}
    for code, start, data in chunks(file):
        demand(code not in SINGLE or code not in found, 5)
        demand(code != b'data' or b'fmt ' in found, 6)
        demand(code != b'LIST' or data[:4] != b'wavl', 7)
        found[code] = start, data
    return found


def layout(data):
    """Refusal 9; tag, channels, rate, bits, align, samples per block."""
    demand(len(data) >= 16, 9)
    tag, channels, rate, average, align, bits = struct.unpack_from('<HHIIHH', data)
    demand(channels in (1, 2) and 1 <= rate <= 192000 and tag in (1, 2, 17), 9)
    if tag == 1:
        demand(bits in (8, 16) and align == channels * bits // 8 and average == rate * align, 9)
        return tag, channels, rate, bits, align, 1
    least, extension = (20, 2) if tag == 17 else (50, 32)
    demand(len(data) >= least and number(data, 16, 2) >= extension and 18 + number(data, 16, 2) <= len(data), 9)
    demand(bits == 4 and 8 * channels <= align <= 4096, 9)
    samples = (align - 4 * channels) * 2 // channels + 1
    if tag == 17:
        demand(align % (4 * channels) == 0, 9)
    else:
        samples = (align - 7 * channels) * 2 // channels + 2
        demand(number(data, 20, 2) == 7 and list(struct.unpack_from('<14h', data, 22)) == PAIRS, 9)
    demand(number(data, 18, 2) == samples, 9)
    return tag, channels, rate, bits, align, samples


def frames(tag, sound, align, samples, fact):
    """Refusals 10 and 11; the number of frames. fact is None where there is none."""
    demand(len(sound) % align == 0, 10)
    blocks = len(sound) // align
    demand(fact is None or len(fact) >= 4, 11)
    if tag == 1:
        return blocks
    demand(fact is not None, 11)
    count = number(fact, 0)
    demand((blocks - 1) * samples < count <= blocks * samples if blocks else count == 0, 11)
    return count


def entries(data, size, refusal):
    """The entries of a table, each so many bytes."""
    demand(len(data) >= 4 and number(data, 0) <= 64 and len(data) == 4 + size * number(data, 0), refusal)
    return [data[at:at + size] for at in range(4, len(data), size)]


def title_lists(file):
    """Where the data of each list of titles start, and the data."""
    return [(start, data) for code, start, data in chunks(file) if code == b'LIST' and data[:4] == b'adtl']


def title(kind, data):
    """Refusal 21 of a title by itself; its kind, the name of its cue, and its text with the zero."""
    text = data[4:]
    demand(len(data) >= 5 and len(text) <= 256 and text.find(0) == len(text) - 1, 21)
    return kind, number(data, 0), text


def titles_in(file, names):
    """Refusal 21 of a file whose cues have these names; the kind, the name and the text of each title."""
    lists, found = title_lists(file), []
    demand(len(lists) <= 1, 21)
    for start, data in lists:
        inner = tiled(data, 4, 21, start + len(data) == len(file))
        found += [title(KINDS[code], part) for code, _, part in inner if code in KINDS]
    demand(all(name in names for _, name, _ in found), 21)
    demand(len({(kind, name) for kind, name, _ in found}) == len(found) <= MOST_TITLES, 21)
    return found


def read_all(file):
    """What `read` gives, and the titles; refusals 1 to 13 and 21."""
    found = walk(file)
    demand(b'fmt ' in found and b'data' in found, 8)
    form = layout(found[b'fmt '][1])
    start, sound = found[b'data']
    length = frames(form[0], sound, form[4], form[5], found.get(b'fact', (0, None))[1])
    cues = []
    for entry in entries(found.get(b'cue ', (0, bytes(4)))[1], 24, 12):
        name, position, code, chunk, block, place = struct.unpack('<II4sIII', entry)
        demand(code == b'data' and chunk == 0 and block == 0 and place < length, 12)
        cues.append((name, position, place))
    places = {name: place for name, _, place in cues}
    demand(len(places) == len(cues), 12)
    plays = [struct.unpack('<III', entry) for entry in entries(found.get(b'plst', (0, bytes(4)))[1], 12, 13)]
    for name, count, times in plays:
        demand(name in places and count >= 1 and places[name] + count <= length and times >= 1, 13)
    return form, length, cues, plays, start, sound, titles_in(file, places)


def read(file):
    """Format, frames, cues as (name, position, place), playlist as (name, length, times), start of the sound, sound."""
    return read_all(file)[:6]


def titles(file):
    """The titles of a file that is accepted, each as (kind, name, text with its zero)."""
    return read_all(file)[6]


def placed(found):
    """Titles as a record holds them, each as (kind, name, start, length), and their texts as they are stored."""
    table, texts = [], b''
    for kind, name, text in found:
        table.append((kind, name, len(texts), len(text) - 1))
        texts += text
    return table, texts


def read_titles(file, room):
    """Refusals 1 to 13, 21 and 14; the titles as a record holds them, and their texts, in so many bytes."""
    table, texts = placed(titles(file))
    demand(len(texts) <= room, 14)
    return table, texts


def listing(file):
    """The lines of the listing, and the lines that tell what it leaves out."""
    try:
        (tag, channels, rate, bits, align, samples), length, cues, plays, start, sound = read(file)
    except Refused as refusal:
        return [f'refused {refusal.args[0]}'], ['align 0 samples 0 positions', 'sound bytes 0 mixed 0']
    lines = [f'wave tag {tag} channels {channels} rate {rate} bits {bits} frames {length}']
    lines += [f'cue {name} at {place}' for name, _, place in cues]
    lines += [f'play {name} length {count} times {times}' for name, count, times in plays]
    pad = 'not needed' if len(sound) % 2 == 0 else 'absent' if start + len(sound) == len(file) else 'there'
    return lines, [f'align {align} samples {samples} positions' + ''.join(f' {position}' for _, position, _ in cues),
                   f'sound at {start} pad {pad} bytes {len(sound)} mixed {mixed(sound)}']


def mixed(numbers):
    """One number of many; 1,000,003 is a prime."""
    result = 0
    for value in numbers:
        result = (result * 31 + value) % 1000003
    return result
