"""A second writer of WAVE files, from the text of documents 01 and 02 alone, to compare the library's programs with.

Only `check` reads, with the second reader; the writer itself knows nothing of it.
"""
import struct
from collections import namedtuple

from second import reader as second_reader

LIMIT = 1 << 30
PAIRS = [(256, 0), (512, -256), (0, 0), (192, 64), (240, 0), (460, -208), (392, -232)]

# form is tag, channels, rate, bits, align, samples per block; cues are (name, position, place) and plays
# (name, length, times). There is room for 64 of each, all zero past those that are given. titles are
# (kind, name, start, length), where the text stands in a buffer beside the record; there is room for 128.
Record = namedtuple('Record', 'form frames cue_count cues play_count plays title_count titles', defaults=(0, ()))


def counted(entries, count):
    """The entries of a table that are part of the record."""
    return (list(entries) + [(0, 0, 0)] * 64)[:64][:count]


def titles_of(record):
    """The titles that are part of the record."""
    return (list(record.titles) + [(0, 0, 0, 0)] * 128)[:128][:record.title_count]


def texts_end(record):
    """Where the last text ends, of a record whose texts are in a row."""
    return sum(length + 1 for _, _, _, length in titles_of(record))


def samples_in(tag, channels, align):
    """Samples per block by the format's formula; 1 for PCM."""
    return {1: 1, 17: (align - 4 * channels) * 2 // channels + 1, 2: (align - 7 * channels) * 2 // channels + 2}[tag]


def format_fine(tag, channels, rate, bits, align, samples):
    """The rules of **fmt**, as far as a record can break them."""
    if tag not in (1, 2, 17) or channels not in (1, 2) or not 1 <= rate <= 192000:
        return False
    if tag == 1 and (bits not in (8, 16) or align != channels * bits // 8):
        return False
    if tag != 1 and (bits != 4 or not 8 * channels <= align <= 4096):
        return False
    if tag == 17 and align % (4 * channels) != 0:
        return False
    return samples == samples_in(tag, channels, align)


def frames_fine(tag, samples, blocks, frames):
    """Whether so many blocks can have so many frames."""
    if tag == 1 or blocks == 0:
        return frames == blocks
    return (blocks - 1) * samples < frames <= blocks * samples


def cues_fine(record):
    if record.cue_count > 64:
        return False
    cues = counted(record.cues, record.cue_count)
    return len({name for name, _, _ in cues}) == len(cues) and all(place < record.frames for _, _, place in cues)


def plays_fine(record):
    """Whether each entry plays what is there; the cues are fine already."""
    if record.play_count > 64:
        return False
    places = {name: place for name, _, place in counted(record.cues, record.cue_count)}
    return all(name in places and length >= 1 and places[name] + length <= record.frames and times >= 1
               for name, length, times in counted(record.plays, record.play_count))


def in_a_row(record, titles):
    """Whether the texts stand one after the other from the start of a buffer, and all in it."""
    ends = [0]
    for _, _, start, length in titles_of(record):
        if start != ends[-1]:
            return False
        ends.append(start + length + 1)
    return ends[-1] <= len(titles)


def titles_fine(record, titles):
    """Whether the titles are as reading gives them; the cues are fine already."""
    if record.title_count > 128 or not in_a_row(record, titles):
        return False
    names, seen = {name for name, _, _ in counted(record.cues, record.cue_count)}, set()
    for kind, name, start, length in titles_of(record):
        if kind not in (0, 1) or name not in names or (kind, name) in seen:
            return False
        # The first zero of a text is the last byte of it.
        if length > 255 or titles.find(0, start) != start + length:
            return False
        seen.add((kind, name))
    return True


def refusal(record, titles, length):
    """The number that a record with these texts and so many bytes of sound gets by **Writing**, but for 1 and 14; None
    if accepted."""
    tag, _, _, _, align, samples = record.form
    if not format_fine(*record.form):
        return 9
    if length % align != 0:
        return 10
    if not frames_fine(tag, samples, length // align, record.frames):
        return 11
    if not cues_fine(record):
        return 12
    if not plays_fine(record):
        return 13
    return None if titles_fine(record, titles) else 21


def chunk(code, data):
    """A chunk, with a pad of zero after odd data."""
    return code + struct.pack('<I', len(data)) + data + bytes(len(data) % 2)


def fmt(tag, channels, rate, bits, align, samples):
    """The data of `fmt `: 16, 20 or 50 bytes. A refused record's average may need more than its field has."""
    average = rate * align // (max(samples, 1) if tag in (2, 17) else 1) % 2**32
    data = struct.pack('<HHIIHH', tag, channels, rate, average, align, bits)
    if tag == 17:
        data += struct.pack('<HH', 2, samples)
    if tag == 2:
        data += struct.pack('<HHH', 32, samples, 7) + b''.join(struct.pack('<hh', *pair) for pair in PAIRS)
    return data


def cue(record):
    """The data of `cue `: each point counts from the start of the data."""
    points = [struct.pack('<II4sIII', name, position, b'data', 0, 0, place)
              for name, position, place in counted(record.cues, record.cue_count)]
    return struct.pack('<I', record.cue_count) + b''.join(points)


def plst(record):
    entries = [struct.pack('<III', *play) for play in counted(record.plays, record.play_count)]
    return struct.pack('<I', record.play_count) + b''.join(entries)


def adtl(record, titles):
    """The data of the list of titles; of a refused record, with any texts, and other codes than those of titles."""
    codes = {0: b'labl', 1: b'note'}
    found = [chunk(codes.get(kind, b'ltxt'), struct.pack('<I', name) + titles[start:start + length + 1])
             for kind, name, start, length in titles_of(record)]
    return b'adtl' + b''.join(found)


def file_of(record, titles, sound):
    """The file of a record, its texts and its sound; of a refused record, what would stand there."""
    chunks = [chunk(b'fmt ', fmt(*record.form))]
    if record.form[0] != 1:
        chunks.append(chunk(b'fact', struct.pack('<I', record.frames)))
    if record.cue_count > 0:
        chunks.append(chunk(b'cue ', cue(record)))
    if record.play_count > 0:
        chunks.append(chunk(b'plst', plst(record)))
    if record.title_count > 0:
        chunks.append(chunk(b'LIST', adtl(record, titles)))
    body = b'WAVE' + b''.join(chunks) + chunk(b'data', sound)
    return b'RIFF' + struct.pack('<I', len(body)) + body


def write(record, titles, sound, room):
    """The file, or the number of the refusal."""
    number = refusal(record, titles, len(sound))
    if number is not None:
        return number
    file = file_of(record, titles, sound)
    if len(file) > LIMIT:
        return 1
    return file if len(file) <= room else 14


def unseen(record, titles, length):
    """Whether the file would not show the fault: PCM stores no samples per block and no frames, and the list of titles
    neither where their texts stood nor kinds that there are not."""
    tag, channels, rate, bits, align, _ = record.form
    number = refusal(record, titles, length)
    if number == 21:
        kinds = {kind for kind, _, _, _ in titles_of(record)}
        return record.title_count > 128 or not in_a_row(record, titles) or not kinds <= {0, 1}
    return tag == 1 and (not format_fine(*record.form) and format_fine(tag, channels, rate, bits, align, 1)
                         or number == 11)


def check(record, titles, sound):
    """Stops where the second reader says otherwise: of a written file record, texts and sound, of a refused one the
    number."""
    number, file = refusal(record, titles, len(sound)), file_of(record, titles, sound)
    try:
        form, frames, cues, plays, _, heard, found = second_reader.read_all(file)
        table, texts = second_reader.placed(found)
        said = None, Record(form, frames, len(cues), cues, len(plays), plays, len(table), table), texts, heard
    except second_reader.Refused as refused:
        said = refused.args
    kept = record._replace(cues=counted(record.cues, record.cue_count), plays=counted(record.plays, record.play_count),
                           titles=titles_of(record))
    meant = (None, kept, titles[:texts_end(record)], sound) if number is None else (number,)
    if said != meant and not unseen(record, titles, len(sound)):
        raise ValueError(f'the second writer says {meant}, the second reader {said}')
