"""Many files near the borders of reading: those of wave_files.py, damaged in all the ways that files get damaged."""
import random
import struct

from vectors import wave_files

VALUES = [0, 1, 2, 3, 4, 7, 8, 15, 16, 17, 18, 20, 32, 50, 63, 64, 65, 255, 256, 4096, 4097, 32768, 65535, 192000,
          192001, 178956971, 357913942, 2**29, 2**31 - 1, 2**31, 2**32 - 8, 2**32 - 2, 2**32 - 1]
CODES = [b'fmt ', b'data', b'fact', b'cue ', b'plst', b'LIST', b'junk', b'labl', b'note']
LISTS = [b'wavl', b'wav', b'INFO', b'adtl', b'']


def rich():
    """Files with all kinds of chunks, so that a change in one meets the others."""
    points, entries = [wave_files.point(7, 0), wave_files.point(8, 3)], [wave_files.entry(8, 1), wave_files.entry(7, 2)]
    cue, plst, data = wave_files.cue(*points), wave_files.plst(*entries), wave_files.data
    yield wave_files.wave(wave_files.fmt(), cue, plst, data())
    title = wave_files.chunk(b'LIST', b'INFOabc')
    labels = [wave_files.labl(8, b'Two'), wave_files.chunk(b'ltxt', b'abc'), wave_files.labl(7, b'One')]
    titles, odd = wave_files.adtl(*labels, wave_files.note(7, b'a')), wave_files.note(8, b'even')
    yield wave_files.wave(wave_files.fmt(), cue, plst, titles, data())
    yield wave_files.wave(titles, wave_files.ima(2, 16, 9), wave_files.fact(12), data(32), cue, plst)
    yield wave_files.unpadded(wave_files.microsoft(2, 17, 5), cue, wave_files.fact(6), data(34), plst,
                              wave_files.adtl(*labels, wave_files.bare(odd)))
    yield wave_files.wave(wave_files.ima(2, 16, 9), wave_files.fact(12), cue, plst, title, data(32))
    yield wave_files.wave(wave_files.microsoft(2, 17, 5), plst, cue, wave_files.fact(6), data(34))
    yield wave_files.unpadded(wave_files.ima(2, 16, 9), wave_files.fact(12), plst, cue, data(32), title)
    yield wave_files.unpadded(wave_files.fmt(bits=8), cue, plst, title, data(9))
    many = range(64)
    yield wave_files.wave(wave_files.fmt(channels=2, bits=8), wave_files.fact(1), data(),
                          wave_files.cue(*[wave_files.point(name, name % 4) for name in many]),
                          wave_files.plst(*[wave_files.entry(name, 1) for name in many]))


def sized(file):
    """The file with a size that is right."""
    return file[:4] + struct.pack('<I', len(file) - 8) + file[8:] if len(file) >= 8 else file


def chunks_of(file):
    """The chunks of a file, as far as they fit with their pads, and what is left."""
    found, at = [], 12
    while at + 8 <= len(file):
        size = struct.unpack_from('<I', file, at + 4)[0]
        end = at + 8 + size + size % 2
        if end > len(file):
            break
        found.append(file[at:end])
        at = end
    return found, file[at:]


def another(file, chance):
    """The file with one byte or field changed, cut, lengthened, or with its chunks in another order or number; or with
    all this done to one of its lists, which is laid out as a file is."""
    way, at = chance.randrange(7), chance.randrange(len(file) + 1)
    if way == 0:
        return file[:at] + bytes([chance.randrange(256)]) + file[at + 1:]
    if way == 1:
        width = chance.choice([2, 4])
        old = int.from_bytes(file[at:at + width], 'little')
        value = chance.choice([old + 1, old - 1, chance.choice(VALUES)]) % (1 << 8 * width)
        return file[:at - at % 2] + value.to_bytes(width, 'little') + file[at - at % 2 + width:]
    if way == 2:
        return sized(file[:at])
    if way == 3:
        return sized(file[:at] + file[at + chance.randrange(1, 9):] + bytes(chance.randrange(4)))
    found, rest = chunks_of(file)
    lists = [place for place, made in enumerate(found) if made[:4] == b'LIST' and len(made) > 12]
    if way == 4:
        chance.shuffle(found)
    elif way == 6 and lists:
        one = chance.choice(lists)
        made = another(found[one], chance)
        found[one] = made + bytes(len(made) % 2)
    elif found:
        one = chance.randrange(len(found))
        new = chance.choice([[], [found[one]] * 2, [chance.choice(CODES) + found[one][4:]],
                             [wave_files.chunk(b'LIST', chance.choice(LISTS)), found[one]],
                             [wave_files.chunk(found[one][:4], found[one][8:] + bytes(chance.choice([1, 2, 12, 24])))]])
        found[one:one + 1] = new
    return sized(file[:12] + b''.join(found) + rest)


def files(count, seed):
    """So many files, the same for the same seed."""
    chance = random.Random(seed)
    whole = [file for _, file, _ in wave_files.all_files() if len(file) < 4000] + list(rich()) * 25
    for _ in range(count):
        file = chance.choice(whole)
        for _ in range(chance.choice([1, 1, 1, 2, 3])):
            file = another(file, chance)
        yield file
