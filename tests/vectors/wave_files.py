"""Files at the borders of document 01's rules for reading, each with what the listing must print.

Every expected line is worked out by hand from documents 01 and 02; nothing is taken from a run of the reader.
"""
import struct

EXAMPLE = ['wave tag 1 channels 1 rate 8000 bits 16 frames 4', 'cue 7 at 0', 'play 7 length 4 times 1']
PAIRS = [256, 0, 512, -256, 0, 0, 192, 64, 240, 0, 460, -208, 392, -232]


def chunk(code, data=b'', size=None):
    """A chunk with its pad; size is what its header says, where that is not its length."""
    return code + struct.pack('<I', len(data) if size is None else size) + data + b'\0' * (len(data) % 2)


def wave(*chunks, size=None, code=b'RIFF', form=b'WAVE'):
    body = form + b''.join(chunks)
    return code + struct.pack('<I', len(body) if size is None else size) + body


def unpadded(*chunks, counted=0):
    """A file whose last chunk is odd and without its pad; R counts so many bytes more than are there."""
    whole = wave(*chunks)
    return wave(*chunks, size=len(whole) - 9 + counted)[:-1]


def fmt(tag=1, channels=1, rate=8000, average=None, align=None, bits=16, more=b''):
    align = channels * bits // 8 if align is None else align
    average = rate * align if average is None else average
    return chunk(b'fmt ', struct.pack('<HHIIHH', tag, channels, rate, average, align, bits) + more)


def ima(channels=1, align=8, samples=9, extension=2, bits=4, more=b''):
    return fmt(17, channels, 8000, 0, align, bits, struct.pack('<HH', extension, samples) + more)


def microsoft(channels=1, align=8, samples=4, extension=32, bits=4, count=7, pairs=PAIRS, more=b''):
    tail = struct.pack('<HHH', extension, samples, count) + struct.pack(f'<{len(pairs)}h', *pairs)
    return fmt(2, channels, 8000, 0, align, bits, tail + more)


def retag(made, tag):
    """A `fmt ` with another tag."""
    return made[:8] + struct.pack('<H', tag) + made[10:]


def data(n=8):
    """Sound that tells its places apart; nothing here looks into it."""
    return chunk(b'data', bytes((7 * i + 1) % 251 for i in range(n)))


def fact(count):
    return chunk(b'fact', struct.pack('<I', count))


def point(name, place, position=0, code=b'data', start=0, block=0):
    return struct.pack('<II4sIII', name, position, code, start, block, place)


def cue(*points, count=None, more=b''):
    return chunk(b'cue ', struct.pack('<I', len(points) if count is None else count) + b''.join(points) + more)


def entry(name, length, times=1):
    return struct.pack('<III', name, length, times)


def plst(*entries, count=None, more=b''):
    return chunk(b'plst', struct.pack('<I', len(entries) if count is None else count) + b''.join(entries) + more)


def labl(name, text, end=b'\0', code=b'labl'):
    """A title of a cue; what closes its text is no zero where something else is said."""
    return chunk(code, struct.pack('<I', name) + text + end)


def note(name, text, end=b'\0'):
    return labl(name, text, end, b'note')


def adtl(*chunks, more=b'', size=None):
    """A list of titles; size is what its header says, where that is not its length."""
    return chunk(b'LIST', b'adtl' + b''.join(chunks) + more, size)


def bare(made):
    """An odd chunk without its pad."""
    return made[:-1]


def pcm(frames=4, bits=16, channels=1, rate=8000):
    return [f'wave tag 1 channels {channels} rate {rate} bits {bits} frames {frames}']


def adpcm(tag, frames, channels=1):
    return [f'wave tag {tag} channels {channels} rate 8000 bits 4 frames {frames}']


def refused(number):
    return [f'refused {number}']


def lengths_and_codes():
    """Refusals 1 to 3: the length, the two codes, the size."""
    whole = wave(fmt(), data())
    yield 'no bytes', b'', refused(1)
    yield 'one byte', b'R', refused(1)
    yield '11 bytes, the header cut', wave()[:11], refused(1)
    yield '12 bytes, the header alone', wave(), refused(8)
    yield 'RIFX', wave(fmt(), data(), code=b'RIFX'), refused(2)
    yield 'riff in small letters', wave(fmt(), data(), code=b'riff'), refused(2)
    yield 'another form', wave(fmt(), data(), form=b'WAVX'), refused(2)
    yield 'twelve zeros', bytes(12), refused(2)
    yield 'the right codes', whole, pcm()
    yield 'mono 8-bit PCM, no sound: 44 bytes', wave(fmt(bits=8), data(0)), pcm(0, 8)
    yield 'one byte of sound: 46 bytes', wave(fmt(bits=8), data(1)), pcm(1, 8)
    yield 'R two too small', wave(fmt(), data(), size=len(whole) - 10), refused(3)
    yield 'R two too large', wave(fmt(), data(), size=len(whole) - 6), refused(3)
    yield 'R one too small', wave(fmt(), data(), size=len(whole) - 9), refused(3)
    yield 'R one too large', wave(fmt(), data(), size=len(whole) - 7), refused(3)
    yield 'R zero', wave(fmt(), data(), size=0), refused(3)
    yield 'R the largest number', wave(fmt(), data(), size=2**32 - 1), refused(3)


def the_walk():
    """Refusals 4 to 8: the chunks one after the other."""
    yield 'two bytes after the last chunk', wave(fmt(), data(), b'\0\0'), refused(4)
    yield 'six bytes after the last chunk', wave(fmt(), data(), b'LIST\0\0'), refused(4)
    yield 'a last chunk of eight bytes', wave(fmt(), data(), chunk(b'LIST')), pcm()
    yield 'data past the end by one', wave(fmt(), chunk(b'data', bytes(8), 9)), refused(4)
    yield 'data past the end by two', wave(fmt(), chunk(b'data', bytes(8), 10)), refused(4)
    yield 'data of seven bytes with pad', wave(fmt(bits=8), data(7)), pcm(7, 8)
    yield 'a size that wraps to the start', wave(fmt(), data(), chunk(b'junk', b'', 2**32 - 8)), refused(4)
    yield 'the largest size', wave(fmt(), chunk(b'data', bytes(8), 2**32 - 1)), refused(4)
    yield 'the first chunk past the end, no fmt', wave(chunk(b'junk', b'', 2)), refused(4)
    yield 'a second fmt', wave(fmt(), fmt(), data()), refused(5)
    yield 'a second data', wave(fmt(), data(), data()), refused(5)
    yield 'a second fact', wave(fmt(), fact(4), fact(4), data()), refused(5)
    yield 'a second cue', wave(fmt(), cue(), cue(), data()), refused(5)
    yield 'a second plst', wave(fmt(), plst(), plst(), data()), refused(5)
    yield 'a second fmt past the end', wave(fmt(), data(), chunk(b'fmt ', b'', 16)), refused(4)
    yield 'two LIST, two unknown', wave(*[chunk(b'LIST', b'INFO'), chunk(b'junk', b'x')] * 2, fmt(), data()), pcm()
    yield 'data without fmt', wave(data()), refused(6)
    yield 'data before fmt', wave(data(), fmt()), refused(6)
    yield 'data, fmt, data', wave(data(), fmt(), data()), refused(6)
    yield 'data past the end, before fmt', wave(chunk(b'data', bytes(8), 10)), refused(4)
    yield 'all but data before fmt', wave(plst(), cue(), fact(0), chunk(b'junk'), fmt(), data()), pcm()
    yield 'LIST of wavl', wave(fmt(), chunk(b'LIST', b'wavl' + data()), data()), refused(7)
    yield 'LIST of wavl alone', wave(chunk(b'LIST', b'wavl')), refused(7)
    yield 'LIST of wavl, then a second fmt', wave(fmt(), chunk(b'LIST', b'wavl'), fmt()), refused(7)
    yield 'a second fmt, then LIST of wavl', wave(fmt(), fmt(), chunk(b'LIST', b'wavl')), refused(5)
    yield 'LIST of wavl past the end', wave(fmt(), chunk(b'LIST', b'wavl', 6)), refused(4)
    yield 'LIST of three bytes, wav', wave(fmt(), chunk(b'LIST', b'wav'), data()), pcm()
    yield 'LIST of three bytes, wav, and what follows starts with l', \
        wave(fmt(), chunk(b'LIST', b'wav')[:-1] + b'l', data()), pcm()
    yield 'LIST of wavL', wave(fmt(), chunk(b'LIST', b'wavL'), data()), pcm()
    yield 'wavl in another chunk', wave(fmt(), chunk(b'list', b'wavl'), data()), pcm()
    yield 'fmt without data', wave(fmt()), refused(8)
    yield 'neither', wave(chunk(b'LIST', b'INFO')), refused(8)
    yield 'no data, and a fmt that breaks its rule', wave(fmt(tag=3)), refused(8)


def lost_pads():
    """Document 02: the pad may be absent where the data of a chunk end with the file, and nowhere else."""
    eight, junk = fmt(bits=8), chunk(b'junk', b'abc')
    yield 'one byte of sound without pad: 45 bytes, R 37', wave(eight, data(1), size=37)[:45], pcm(1, 8)
    yield 'one byte of sound without pad: 45 bytes, R 38', wave(eight, data(1), size=38)[:45], refused(3)
    yield 'one byte of sound with pad: 46 bytes, R 37', wave(eight, data(1), size=37), refused(3)
    yield '301 bytes of sound without pad', unpadded(eight, data(301)), pcm(301, 8)
    yield 'half a frame without pad', unpadded(fmt(), data(7)), refused(10)
    yield 'an unknown chunk without pad', unpadded(fmt(), data(), junk), pcm()
    yield 'an unknown chunk without pad, and R counts it', unpadded(fmt(), data(), junk, counted=1), refused(3)
    yield 'an unknown chunk of one byte without pad', unpadded(fmt(), data(), chunk(b'junk', b'a')), pcm()
    yield 'tables, and a LIST without pad', \
        unpadded(fmt(), cue(point(7, 0)), plst(entry(7, 4)), data(), chunk(b'LIST', b'INFOabc')), EXAMPLE
    yield 'Microsoft stereo, align 17, the sound without pad', unpadded(microsoft(2, 17, 5), fact(1), data(17)), \
        adpcm(2, 1, 2)
    for name, made, tag, frames in (('IMA', ima(), 17, 9), ('Microsoft', microsoft(), 2, 4)):
        found, longer = adpcm(tag, frames), chunk(b'fact', struct.pack('<IB', frames, 9))
        yield f'{name}, an unknown chunk without pad', unpadded(made, fact(frames), data(), junk), found
        yield f'{name}, a fact of 5 bytes without pad', unpadded(made, data(), longer), found
        yield f'{name}, a fact of 3 bytes without pad', unpadded(made, data(), chunk(b'fact', b'abc')), refused(11)
    yield 'a fmt of 17 bytes without pad, no data', unpadded(fmt(more=b'a')), refused(8)
    yield 'data without pad, no fmt', unpadded(data(1)), refused(6)
    yield 'a second fmt without pad', unpadded(fmt(), data(), fmt(more=b'a')), refused(5)
    yield 'LIST of wavl without pad', unpadded(fmt(), data(), chunk(b'LIST', b'wavl?')), refused(7)
    yield 'LIST of three bytes, wav, without pad', unpadded(fmt(), data(), chunk(b'LIST', b'wav')), pcm()
    yield 'a cue table of 5 bytes without pad', unpadded(fmt(), data(), cue(more=b'a')), refused(12)
    yield 'a playlist of 5 bytes without pad', unpadded(fmt(), data(), plst(more=b'a')), refused(13)
    # The first byte of the next chunk is taken for the pad, so that the size there is 49000000 in hex.
    yield 'no pad in the middle', wave(eight, data(7)[:-1], chunk(b'LIST', b'INFO')), refused(4)
    yield 'a pad at the end, and one byte more', wave(eight, data(7), b'\0'), refused(4)
    yield 'even sound, and one byte more', wave(fmt(), data(), b'\0'), refused(4)
    yield 'one byte after the header: 13 bytes, R 5', wave(b'a'), refused(4)
    yield 'even data past the end by one, in an odd file', unpadded(fmt(), chunk(b'data', bytes(7), 8)), refused(4)
    yield 'odd data past the end by two, in an odd file', unpadded(fmt(), chunk(b'data', bytes(7), 9)), refused(4)


def nearly(code):
    """Four letters that are almost a code: one with its case bit turned, the middle two exchanged, all in reverse."""
    for k in range(4):
        yield code[:k] + bytes([code[k] ^ 32]) + code[k + 1:]
    yield code[:1] + code[2:0:-1] + code[3:]
    yield code[::-1]


def letters():
    """Each code counts where all its letters stand in their order, and nowhere else."""
    points, plays = struct.pack('<I', 1) + point(7, 0), struct.pack('<I', 1) + entry(7, 4)
    codes = [('RIFF', lambda code: wave(fmt(), data(), code=code), refused(2)),
             ('WAVE', lambda code: wave(fmt(), data(), form=code), refused(2)),
             ('fmt ', lambda code: wave(chunk(code, fmt()[8:]), data()), refused(6)),
             ('data', lambda code: wave(fmt(), chunk(code, bytes(8))), refused(8)),
             ('fact', lambda code: wave(ima(), chunk(code, fact(1)[8:]), data()), refused(11)),
             ('cue ', lambda code: wave(fmt(), chunk(code, points), plst(entry(7, 4)), data()), refused(13)),
             ('plst', lambda code: wave(fmt(), cue(point(7, 0)), chunk(code, plays), data()), EXAMPLE[:2]),
             ('LIST', lambda code: wave(fmt(), chunk(code, b'wavl'), data()), pcm()),
             ('wavl', lambda code: wave(fmt(), chunk(b'LIST', code), data()), pcm()),
             ('data in a cue', lambda code: wave(fmt(), cue(point(7, 0, code=code)), data()), refused(12)),
             # These titles name no cue, so that they are wrong where they are titles.
             ('LIST of titles', lambda code: wave(fmt(), chunk(code, b'adtl' + labl(7, b'a')), data()), pcm()),
             ('adtl', lambda code: wave(fmt(), chunk(b'LIST', code + labl(7, b'a')), data()), pcm()),
             ('labl', lambda code: wave(fmt(), adtl(labl(7, b'a', code=code)), data()), pcm()),
             ('note', lambda code: wave(fmt(), adtl(labl(7, b'a', code=code)), data()), pcm())]
    for label, file, expected in codes:
        for other in dict.fromkeys(nearly(label[:4].encode())):
            yield f'{other.decode()!r} for {label}', file(other), expected


def formats():
    """Refusal 9: channels, rate, tag and the rules of fmt; and the nearest formats that are taken."""
    yield 'fmt of 14 bytes', wave(chunk(b'fmt ', fmt()[8:22]), data()), refused(9)
    yield 'fmt of 15 bytes', wave(chunk(b'fmt ', fmt(bits=8)[8:23]), data()), refused(9)
    yield 'fmt of no bytes', wave(chunk(b'fmt '), data()), refused(9)
    yield 'fmt of 17 bytes', wave(fmt(more=b'\xff'), data()), pcm()
    yield 'fmt of 18 bytes, any extension size', wave(fmt(more=b'\xff\xff'), data()), pcm()
    yield 'fmt of 40 bytes', wave(fmt(more=bytes(24)), data()), pcm()
    for tag in (0, 3, 16, 18, 273, 65534):
        yield f'tag {tag}', wave(fmt(tag=tag), data()), refused(9)
        yield f'tag {tag} in an IMA format', wave(retag(ima(), tag), fact(1), data()), refused(9)
        yield f'tag {tag} in a Microsoft format', wave(retag(microsoft(), tag), fact(1), data()), refused(9)
    yield 'no channel', wave(fmt(channels=0, align=2), data()), refused(9)
    yield 'two channels', wave(fmt(channels=2), data()), pcm(2, channels=2)
    yield 'three channels', wave(fmt(channels=3), data(12)), refused(9)
    yield 'rate 0', wave(fmt(rate=0), data()), refused(9)
    yield 'rate 1', wave(fmt(rate=1), data()), pcm(rate=1)
    yield 'rate 192000', wave(fmt(rate=192000), data()), pcm(rate=192000)
    yield 'rate 192001', wave(fmt(rate=192001), data()), refused(9)
    yield '20 bits, the example of source 000', wave(fmt(1, 1, 11025, 33075, 3, 20), data(3)), refused(9)
    yield '12 bits in two bytes', wave(fmt(1, 1, 11025, 22050, 2, 12), data()), refused(9)
    yield '24 bits', wave(fmt(bits=24), data(12)), refused(9)
    yield 'no bits', wave(fmt(bits=0), data()), refused(9)
    yield 'stereo 8-bit', wave(fmt(channels=2, bits=8), data()), pcm(4, 8, 2)
    yield 'align one too large', wave(fmt(align=3), data(9)), refused(9)
    yield 'align of one channel for two', wave(fmt(channels=2, align=2), data()), refused(9)
    yield 'average one too large', wave(fmt(average=16001), data()), refused(9)
    yield 'average of the rate alone', wave(fmt(average=8000), data()), refused(9)


def ima_formats():
    one = [fact(1), data(8)]
    yield 'IMA mono, align 8', wave(ima(), *one), adpcm(17, 1)
    yield 'IMA mono, align 256: 505 samples', wave(ima(align=256, samples=505), fact(505), data(256)), adpcm(17, 505)
    yield 'IMA mono, align 256, 504 samples', wave(ima(align=256, samples=504), fact(504), data(256)), refused(9)
    yield 'IMA stereo, align 256: 249 samples', wave(ima(2, 256, 249), fact(249), data(256)), adpcm(17, 249, 2)
    yield 'IMA, samples one too many', wave(ima(samples=10), *one), refused(9)
    yield 'IMA mono, align 4', wave(ima(align=4, samples=1), fact(1), data(4)), refused(9)
    yield 'IMA mono, align 10', wave(ima(align=10, samples=13), fact(1), data(10)), refused(9)
    yield 'IMA stereo, align 12', wave(ima(2, 12, 5), fact(1), data(12)), refused(9)
    yield 'IMA stereo, align 16', wave(ima(2, 16, 9), fact(1), data(16)), adpcm(17, 1, 2)
    yield 'IMA stereo, align 20', wave(ima(2, 20, 13), fact(1), data(20)), refused(9)
    yield 'IMA mono, align 4096', wave(ima(align=4096, samples=8185), fact(1), data(4096)), adpcm(17, 1)
    yield 'IMA mono, align 4100', wave(ima(align=4100, samples=8193), fact(1), data(4100)), refused(9)
    yield 'IMA of 16 bits', wave(ima(bits=16), *one), refused(9)
    yield 'IMA, extension 1', wave(ima(extension=1), *one), refused(9)
    yield 'IMA, extension past the chunk', wave(ima(extension=3), *one), refused(9)
    yield 'IMA, extension 4 in 22 bytes', wave(ima(extension=4, more=b'\0\0'), *one), adpcm(17, 1)
    yield 'IMA, extension 256 in 274 bytes', wave(ima(extension=256, more=bytes(254)), *one), adpcm(17, 1)
    yield 'IMA, extension 258 in 20 bytes', wave(ima(extension=258), *one), refused(9)
    yield 'IMA, fmt of 19 bytes', wave(chunk(b'fmt ', ima(extension=1)[8:27]), *one), refused(9)
    yield 'IMA, no channel', wave(ima(channels=0), *one), refused(9)


def microsoft_formats():
    one = [fact(1), data(8)]
    yield 'Microsoft mono, align 8', wave(microsoft(), *one), adpcm(2, 1)
    yield 'Microsoft mono, align 256: 500 samples', \
        wave(microsoft(align=256, samples=500), fact(500), data(256)), adpcm(2, 500)
    yield 'Microsoft mono, align 256, 501 samples', \
        wave(microsoft(align=256, samples=501), fact(500), data(256)), refused(9)
    yield 'Microsoft mono, align 7', wave(microsoft(align=7, samples=2), fact(1), data(7)), refused(9)
    yield 'Microsoft mono, align 9', wave(microsoft(align=9, samples=6), fact(1), data(9)), adpcm(2, 1)
    yield 'Microsoft stereo, align 15', wave(microsoft(2, 15, 3), fact(1), data(15)), refused(9)
    yield 'Microsoft stereo, align 17', wave(microsoft(2, 17, 5), fact(1), data(17)), adpcm(2, 1, 2)
    yield 'Microsoft mono, align 4096', wave(microsoft(align=4096, samples=8180), fact(1), data(4096)), adpcm(2, 1)
    yield 'Microsoft mono, align 4097', wave(microsoft(align=4097, samples=8182), fact(1), data(4097)), refused(9)
    yield 'Microsoft of 8 bits', wave(microsoft(bits=8), *one), refused(9)
    yield 'Microsoft, extension 31', wave(microsoft(extension=31), *one), refused(9)
    yield 'Microsoft, extension past the chunk', wave(microsoft(extension=33), *one), refused(9)
    yield 'Microsoft, extension 34 in 52 bytes', wave(microsoft(extension=34, more=b'\0\0'), *one), adpcm(2, 1)
    yield 'Microsoft, extension 256 in 274 bytes', wave(microsoft(extension=256, more=bytes(224)), *one), adpcm(2, 1)
    yield 'Microsoft, fmt of 48 bytes', wave(chunk(b'fmt ', microsoft()[8:56]), *one), refused(9)
    yield 'Microsoft, six pairs counted', wave(microsoft(count=6), *one), refused(9)
    yield 'Microsoft, 263 pairs counted', wave(microsoft(count=263), *one), refused(9)
    yield 'Microsoft, eight pairs', wave(microsoft(extension=36, count=8, pairs=PAIRS + [1, 1]), *one), refused(9)
    for at in range(14):
        other = PAIRS[:at] + [PAIRS[at] + 1] + PAIRS[at + 1:]
        yield f'Microsoft, number {at} of the pairs one too large', wave(microsoft(pairs=other), *one), refused(9)


def frames():
    """Refusals 10 and 11: whole frames or blocks, and the fact."""
    yield '16-bit sound of 7 bytes', wave(fmt(), data(7)), refused(10)
    yield '16-bit stereo sound of 6 bytes', wave(fmt(channels=2), data(6)), refused(10)
    yield 'IMA sound of a block and a half', wave(ima(), fact(9), data(12)), refused(10)
    yield 'Microsoft sound of less than a block', wave(microsoft(), fact(1), data(7)), refused(10)
    yield 'half a frame, and a cue table of no bytes', wave(fmt(), chunk(b'cue '), data(7)), refused(10)
    yield 'half a block, and no fact', wave(ima(), data(12)), refused(10)
    yield 'half a frame in a format that breaks its rule', wave(fmt(bits=24), data(8)), refused(9)
    yield 'PCM with a fact of any count', wave(fmt(), fact(99), data()), pcm()
    yield 'PCM with a fact of 3 bytes', wave(fmt(), chunk(b'fact', b'\0\0\0'), data()), refused(11)
    yield 'PCM with a fact of no bytes', wave(fmt(), chunk(b'fact'), data()), refused(11)
    yield 'IMA without fact', wave(ima(), data(8)), refused(11)
    yield 'IMA with a fact of 3 bytes', wave(ima(), chunk(b'fact', b'\1\0\0'), data(8)), refused(11)
    yield 'IMA with a fact of 8 bytes', wave(ima(), chunk(b'fact', b'\1' + bytes(7)), data(8)), adpcm(17, 1)
    yield 'IMA, one block, count 0', wave(ima(), fact(0), data(8)), refused(11)
    yield 'IMA, one block, count 9', wave(ima(), fact(9), data(8)), adpcm(17, 9)
    yield 'IMA, one block, count 10', wave(ima(), fact(10), data(8)), refused(11)
    yield 'IMA, two blocks, count 9', wave(ima(), fact(9), data(16)), refused(11)
    yield 'IMA, two blocks, count 10', wave(ima(), fact(10), data(16)), adpcm(17, 10)
    yield 'IMA, two blocks, count 18', wave(ima(), data(16), fact(18)), adpcm(17, 18)
    yield 'IMA, two blocks, count 19', wave(ima(), fact(19), data(16)), refused(11)
    yield 'IMA, two blocks, count 10 and 2 to the 24th', wave(ima(), fact(10 + 2**24), data(16)), refused(11)
    yield 'IMA, two blocks, the largest count', wave(ima(), fact(2**32 - 1), data(16)), refused(11)
    yield 'IMA, no block, count 0', wave(ima(), fact(0), data(0)), adpcm(17, 0)
    yield 'IMA, no block, count 1', wave(ima(), fact(1), data(0)), refused(11)
    yield 'IMA, no block, no fact', wave(ima(), data(0)), refused(11)
    yield 'Microsoft stereo, three blocks, count 9', wave(microsoft(2, 16, 4), fact(9), data(48)), adpcm(2, 9, 2)
    yield 'Microsoft stereo, three blocks, count 8', wave(microsoft(2, 16, 4), fact(8), data(48)), refused(11)
    yield 'no fact, and a cue table of no bytes', wave(ima(), chunk(b'cue '), data(8)), refused(11)


def cue_tables():
    """Refusal 12."""
    def cued(*points, **more):
        return wave(fmt(), cue(*points, **more), data())
    yield 'cue of no bytes', wave(fmt(), chunk(b'cue '), data()), refused(12)
    yield 'cue of 3 bytes', wave(fmt(), chunk(b'cue ', b'\0\0\0'), data()), refused(12)
    yield 'no cue points', cued(), pcm()
    yield 'no cue points, one byte more', cued(more=b'\0'), refused(12)
    yield 'one cue point counted, none there', cued(count=1), refused(12)
    yield 'one cue point, none counted', cued(point(7, 0), count=0), refused(12)
    yield 'a cue point of 23 bytes', wave(fmt(), chunk(b'cue ', cue(point(7, 0))[8:35]), data()), refused(12)
    yield 'the largest count', cued(point(7, 0), count=2**32 - 1), refused(12)
    yield 'a cue at the last frame', cued(point(7, 3)), pcm() + ['cue 7 at 3']
    yield 'a cue at F', cued(point(7, 4)), refused(12)
    yield 'a cue at the largest offset', cued(point(7, 2**32 - 1)), refused(12)
    yield 'a cue in no sound', wave(fmt(), cue(point(7, 0)), data(0)), refused(12)
    yield 'any position', cued(point(7, 2, position=2**32 - 1)), pcm() + ['cue 7 at 2']
    yield 'chunk code slnt', cued(point(7, 0, code=b'slnt')), refused(12)
    yield 'chunk code DATA', cued(point(7, 0, code=b'DATA')), refused(12)
    yield 'chunk start 1', cued(point(7, 0, start=1)), refused(12)
    yield 'block start 1', cued(point(7, 0, block=1)), refused(12)
    yield 'block start 1 in the second cue', cued(point(7, 0), point(8, 1, block=1)), refused(12)
    yield 'two cues at one place', cued(point(7, 1), point(8, 1)), pcm() + ['cue 7 at 1', 'cue 8 at 1']
    yield 'two cues of one name', cued(point(7, 0), point(7, 1)), refused(12)
    yield 'the first name again as the fourth', cued(*[point(n, 0) for n in (7, 8, 9, 7)]), refused(12)
    yield 'names 0 and the largest', cued(point(2**32 - 1, 0), point(0, 0)), \
        pcm() + [f'cue {2**32 - 1} at 0', 'cue 0 at 0']
    yield '64 cues', cued(*[point(n, n % 4) for n in range(64)]), pcm() + [f'cue {n} at {n % 4}' for n in range(64)]
    yield '65 cues', cued(*[point(n, n % 4) for n in range(65)]), refused(12)
    yield '64 cues, the last name the first', cued(*[point(n % 63, 0) for n in range(64)]), refused(12)
    yield 'a cue at the last frame of an IMA file', wave(ima(), fact(5), cue(point(7, 4)), data(8)), \
        adpcm(17, 5) + ['cue 7 at 4']
    yield 'a cue in the fill of an IMA block', wave(ima(), fact(5), cue(point(7, 5)), data(8)), refused(12)
    yield 'a wrong cue table and a wrong playlist', wave(fmt(), plst(more=b'\0'), cue(more=b'\0'), data()), refused(12)


def playlists():
    """Refusal 13."""
    one, two = cue(point(7, 0)), cue(point(7, 0), point(8, 3))
    both = pcm() + ['cue 7 at 0', 'cue 8 at 3']
    yield 'plst of no bytes', wave(fmt(), chunk(b'plst'), data()), refused(13)
    yield 'plst of 3 bytes', wave(fmt(), chunk(b'plst', b'\0\0\0'), data()), refused(13)
    yield 'no entries', wave(fmt(), plst(), data()), pcm()
    yield 'no entries, two bytes more', wave(fmt(), plst(more=b'\0\0'), data()), refused(13)
    yield 'one entry counted, none there', wave(fmt(), one, plst(count=1), data()), refused(13)
    yield 'one entry, none counted', wave(fmt(), one, plst(entry(7, 4), count=0), data()), refused(13)
    yield 'an entry without a cue table', wave(fmt(), plst(entry(7, 4)), data()), refused(13)
    yield 'an entry of 0 without a cue table', wave(fmt(), plst(entry(0, 1)), data()), refused(13)
    yield 'a name that no cue has', wave(fmt(), one, plst(entry(8, 4)), data()), refused(13)
    yield 'length 0', wave(fmt(), one, plst(entry(7, 0)), data()), refused(13)
    yield 'length F', wave(fmt(), one, plst(entry(7, 4)), data()), EXAMPLE
    yield 'length F + 1', wave(fmt(), one, plst(entry(7, 5)), data()), refused(13)
    yield 'one frame from the last', wave(fmt(), two, plst(entry(8, 1)), data()), both + ['play 8 length 1 times 1']
    yield 'two frames from the last', wave(fmt(), two, plst(entry(8, 2)), data()), refused(13)
    yield 'a length that wraps', wave(fmt(), two, plst(entry(8, 2**32 - 2)), data()), refused(13)
    yield 'times 0', wave(fmt(), one, plst(entry(7, 4, 0)), data()), refused(13)
    yield 'times the largest number', wave(fmt(), one, plst(entry(7, 4, 2**32 - 1)), data()), \
        EXAMPLE[:2] + [f'play 7 length 4 times {2**32 - 1}']
    yield 'plst before cue', wave(plst(entry(7, 4)), one, fmt(), data()), EXAMPLE
    yield 'plst and cue after data', wave(fmt(), data(), plst(entry(7, 4)), one), EXAMPLE
    yield 'one cue played by two entries', wave(fmt(), two, plst(entry(8, 1, 3), entry(7, 2), entry(8, 1)), data()), \
        both + ['play 8 length 1 times 3', 'play 7 length 2 times 1', 'play 8 length 1 times 1']
    yield 'the second entry wrong', wave(fmt(), two, plst(entry(7, 4), entry(8, 2)), data()), refused(13)
    yield '64 entries', wave(fmt(), one, plst(*[entry(7, 1 + n % 4) for n in range(64)]), data()), \
        EXAMPLE[:2] + [f'play 7 length {1 + n % 4} times 1' for n in range(64)]
    yield '65 entries', wave(fmt(), one, plst(*[entry(7, 1)] * 65), data()), refused(13)
    yield 'the largest count of entries', wave(fmt(), one, plst(entry(7, 1), count=2**32 - 1), data()), refused(13)


# ---- lists of titles: beside each file its titles, as (kind, name, text before its zero), or the refusal; and what is
# listed of it, where that is something else than LISTED

# The cues of most of these files, and what is listed of such a file.
CUES = [point(7, 0), point(8, 3)]
LISTED = pcm() + ['cue 7 at 0', 'cue 8 at 3']
# Texts as long as they may be, and a byte longer.
LONG, LONGER = bytes(1 + place % 255 for place in range(255)), bytes(1 + place % 255 for place in range(256))
SONG = labl(7, b'Song')


def titled(*chunks, **more):
    """A file with a list of these chunks."""
    return wave(fmt(), cue(*CUES), adtl(*chunks, **more), data())


def last(*chunks, **more):
    """The same with the list at the file's end."""
    return wave(fmt(), cue(*CUES), data(), adtl(*chunks, **more))


def last_bare(*chunks, **more):
    """The same without the list's own pad."""
    return unpadded(fmt(), cue(*CUES), data(), adtl(*chunks, **more))


def titles_of_cues():
    """Labels and notes of cues."""
    yield 'no list', wave(fmt(), cue(*CUES), data()), []
    yield 'a label', titled(SONG), [(0, 7, b'Song')]
    yield 'a note', titled(note(7, b'By heart')), [(1, 7, b'By heart')]
    yield 'a label and a note of one cue', titled(SONG, note(7, b'Song')), [(0, 7, b'Song'), (1, 7, b'Song')]
    yield 'a note and a label of one cue', titled(note(7, b'x'), SONG), [(1, 7, b'x'), (0, 7, b'Song')]
    yield 'the last cue first', titled(labl(8, b'Two'), labl(7, b'One')), [(0, 8, b'Two'), (0, 7, b'One')]
    yield 'labels and notes in any order', titled(note(8, b'd'), labl(7, b'aa'), labl(8, b'bbb'), note(7, b'cccc')), \
        [(1, 8, b'd'), (0, 7, b'aa'), (0, 8, b'bbb'), (1, 7, b'cccc')]
    yield 'one text for two cues', titled(labl(7, b'Song'), labl(8, b'Song')), [(0, 7, b'Song'), (0, 8, b'Song')]
    yield 'two labels of one cue', titled(SONG, labl(7, b'Other')), 21
    yield 'one label twice', titled(SONG, SONG), 21
    yield 'two labels of one cue, others between', titled(SONG, note(7, b'x'), labl(8, b'y'), SONG), 21
    yield 'two notes of one cue', titled(note(8, b'a'), note(8, b'b')), 21
    yield 'two notes of one cue, a label between', titled(note(7, b'a'), SONG, note(7, b'a')), 21
    yield 'two labels of a name that no cue has', titled(labl(9, b'a'), labl(9, b'a')), 21
    yield 'a label of a name that no cue has', titled(labl(9, b'Song')), 21
    yield 'a note of a name that no cue has', titled(SONG, note(6, b'Song')), 21
    yield 'a label of 0, as in a cue table of zeros', titled(labl(0, b'Song')), 21
    yield 'a name that differs in the highest byte', titled(labl(7 + 2**24, b'Song')), 21
    yield 'a label without a cue table', wave(fmt(), adtl(SONG), data()), 21
    yield 'a label and a cue table of count 0', wave(fmt(), cue(), adtl(SONG), data()), 21
    yield 'labels of 0 and of the largest name', \
        wave(fmt(), cue(point(0, 0), point(2**32 - 1, 0)), adtl(labl(0, b'a'), labl(2**32 - 1, b'b')), data()), \
        [(0, 0, b'a'), (0, 2**32 - 1, b'b')], pcm() + ['cue 0 at 0', f'cue {2**32 - 1} at 0']


def texts():
    """How long a title is, and its zero."""
    for code in (b'labl', b'note'):
        kind, name = (0, 'label') if code == b'labl' else (1, 'note')
        yield f'a {name} of no bytes', titled(chunk(code)), 21
        yield f'a {name} of 3 bytes', titled(chunk(code, b'\7\0\0')), 21
        yield f'a {name} of 4 bytes, which have a zero last', titled(labl(7, b'', b'', code)), 21
        yield f'a {name} of 5 bytes', titled(labl(7, b'', code=code)), [(kind, 7, b'')]
        yield f'a {name} of 5 bytes without zero', titled(labl(7, b'a', b'', code)), 21
        yield f'a {name} of 6 bytes', titled(labl(7, b'a', code=code)), [(kind, 7, b'a')]
        yield f'a {name} of 259 bytes', titled(labl(7, LONG[:254], code=code)), [(kind, 7, LONG[:254])]
        yield f'a {name} of 260 bytes', titled(labl(7, LONG, code=code)), [(kind, 7, LONG)]
        yield f'a {name} of 260 bytes without zero', titled(labl(7, LONGER, b'', code)), 21
        yield f'a {name} of 261 bytes', titled(labl(7, LONGER, code=code)), 21
        yield f'a {name} of 261 bytes, zero in its 260th', titled(labl(7, LONG, b'\0x', code)), 21
        yield f'a {name} of 261 bytes, zeros in its last two', titled(labl(7, LONG, b'\0\0', code)), 21
    yield 'a label of 262 bytes', titled(labl(7, LONGER + b'a')), 21
    yield 'a label of 516 bytes, which is 260 and 256', titled(labl(7, LONGER + LONG)), 21
    yield 'a zero inside', titled(labl(7, b'So\0ng')), 21
    yield 'a zero at the start', titled(labl(7, b'\0Song')), 21
    yield 'two zeros at the end', titled(labl(7, b'Song\0')), 21
    yield 'two zeros and no more', titled(labl(7, b'\0')), 21
    yield 'a zero inside and none at the end', titled(labl(7, b'So\0ng', b'')), 21
    yield 'no zero but the pad', titled(labl(7, b'Son', b'')), 21
    yield 'a pad that is not zero', titled(bare(SONG) + b'x', note(7, b'abc')), [(0, 7, b'Song'), (1, 7, b'abc')]
    yield 'a pad that is not zero, of a text without zero', titled(bare(labl(7, b'Son', b'')) + b'\xff'), 21
    yield 'bytes of any kind', titled(labl(7, b'\xff\x01\n\x80"')), [(0, 7, b'\xff\x01\n\x80"')]
    yield 'the second title without zero', titled(SONG, labl(8, b'Son', b'g')), 21
    yield 'a text that looks like chunks', titled(labl(7, b'labl\x06note')), [(0, 7, b'labl\x06note')]


def many_titles(*more):
    """A file with 64 cues, a label and a note of each, and more chunks in the list."""
    names = range(100, 164)
    found = [made(name, bytes([name])) for name in names for made in (labl, note)]
    return wave(fmt(), cue(*[point(name, name % 4) for name in names]), adtl(*found, *more), data())


def most_titles():
    """A file with as many titles as there may be, and all their texts as long as they may be."""
    cues = cue(*[point(name, name % 4) for name in range(64)])
    return wave(fmt(), cues, adtl(*[made(name, LONG) for made in (note, labl) for name in range(64)]), data())


def counts():
    """At most 128 titles: a label and a note of each of 64 cues."""
    both = [(kind, name, bytes([name])) for name in range(100, 164) for kind in (0, 1)]
    listed = pcm() + [f'cue {name} at {name % 4}' for name in range(100, 164)]
    yield '128 titles', many_titles(), both, listed
    yield '128 titles and a chunk that is skipped', many_titles(chunk(b'ltxt', bytes(20))), both, listed
    yield '128 titles and a label of no cue', many_titles(labl(7, b'a')), 21
    yield '129 titles, the first again', many_titles(labl(100, b'd')), 21
    yield '129 titles, the last again', many_titles(note(163, b'x')), 21


def inner_walk():
    """The chunks of a list tile it from its fourth byte on."""
    yield 'a list of 4 bytes', titled(), []
    yield 'a list of 4 bytes, no cues', wave(fmt(), adtl(), data()), [], pcm()
    yield 'a list of 4 bytes that ends the file', last(), []
    for more in (1, 2, 4, 7):
        yield f'a list of {more} bytes more than its letters', titled(more=bytes(more)), 21
        yield f'{more} bytes after the last title', titled(SONG, more=b'ltxt\0\0\0\0'[:more]), 21
    yield 'a chunk of eight bytes after the last title', titled(SONG, chunk(b'ltxt')), [(0, 7, b'Song')]
    yield 'a chunk of eight zeros', titled(bytes(8), SONG), [(0, 7, b'Song')]
    even = labl(7, b'Tune!')
    for size in (11, 12, 2**31, 2**32 - 8, 2**32 - 1):
        yield f'the last title of 10 bytes says {size}', titled(even[:4] + struct.pack('<I', size) + even[8:]), 21
        yield f'a last chunk of 2 bytes says {size}', titled(SONG, chunk(b'ltxt', b'ab', size)), 21
    # The zero that it lacks is the first byte of the chunk behind the list.
    yield 'a title that ends one byte past the list', \
        wave(fmt(), cue(*CUES), adtl(chunk(b'labl', SONG[8:16], 9)), chunk(b'\0abc'), data()), 21
    yield 'a list that takes in the chunk behind it', \
        wave(fmt(), cue(*CUES), adtl(SONG, size=30), chunk(b'junk'), data()), [(0, 7, b'Song')]
    yield 'the first title says two bytes less', titled(chunk(b'labl', even[8:], 8), note(7, b'x')), 21
    yield 'a chunk that takes a title in', titled(chunk(b'ltxt', even[8:], 24), note(7, b'x')), []


def inner_pads():
    """An odd chunk of a list has its pad there; only where the list ends the file without its own may the last lack
    it."""
    found, odd = [(0, 7, b'Song')], chunk(b'ltxt', b'abc')
    yield 'the last title without pad, the list in the middle', titled(bare(SONG)), 21
    yield 'the last title without pad, the list with its own at the end', last(bare(SONG)), 21
    yield 'the last title without pad, nor the list, at the end', last_bare(bare(SONG)), found
    yield 'the last title with pad, at the end', last(SONG), found
    yield 'a skipped chunk without pad, the list in the middle', titled(SONG, bare(odd)), 21
    yield 'a skipped chunk without pad, the list with its own at the end', last(SONG, bare(odd)), 21
    yield 'a skipped chunk without pad, nor the list, at the end', last_bare(SONG, bare(odd)), found
    yield 'a skipped chunk with pad, at the end', last(SONG, odd), found
    # The first byte of the next chunk is taken for the pad.
    yield 'the first title without pad', titled(bare(SONG), note(7, b'x')), 21
    yield 'the first title without pad, nor the list, at the end', last_bare(bare(SONG), note(7, b'x')), 21
    yield 'an even title and a byte more, the list without pad at the end', last_bare(note(7, b'x'), more=b'\0'), 21
    yield 'a list of 5 bytes without pad at the end', last_bare(more=b'\0'), 21
    yield 'a label of 259 bytes without pad, at the end', last_bare(bare(labl(7, LONG[:254]))), [(0, 7, LONG[:254])]
    yield 'a label of 261 bytes without pad, at the end', last_bare(bare(labl(7, LONGER))), 21
    yield 'the shortest label without pad, at the end', last_bare(bare(labl(7, b''))), [(0, 7, b'')]
    yield 'a label of 4 bytes and an odd chunk without pad, at the end', last_bare(labl(7, b'', b''), bare(odd)), 21
    yield 'a label that counts its absent pad, at the end', last_bare(bare(chunk(b'labl', SONG[8:-1], 10))), 21


def skipped_in_lists():
    """Other chunks in a list: only their sizes count."""
    found = [(0, 7, b'Song')]
    for size in (0, 1, 4, 5, 20, 260, 261, 600):
        yield f'a chunk of {size} bytes before a label', titled(chunk(b'ltxt', b'\xee' * size), SONG), found
    for code in (b'file', b'LABL', b'labL', b'Note', b'rgn ', b'\0\0\0\0'):
        yield f'{code.decode()!r} in a list', titled(SONG, labl(7, b'a\0b', b'', code)), found
    for made in (fmt(), data(), cue(point(7, 0)), plst(), fact(1), adtl(SONG), chunk(b'LIST', b'wavl')):
        yield f'{made[:4].decode()!r} of {len(made)} bytes in a list', titled(made, SONG), found
    yield 'a list of nothing but skipped chunks', titled(chunk(b'ltxt', b'abc'), chunk(b'file')), []
    yield 'skipped chunks between titles', titled(SONG, chunk(b'file', b'abc'), note(8, b'x'), chunk(b'ltxt')), \
        [*found, (1, 8, b'x')]


def other_lists():
    """A second list of titles, and lists that are none."""
    cues, found = cue(*CUES), [(0, 7, b'Song')]
    info = chunk(b'LIST', b'INFO' + labl(9, b'a\0'))
    yield 'two lists', wave(fmt(), cues, adtl(SONG), adtl(note(8, b'x')), data()), 21
    yield 'two lists, the second of 4 bytes', wave(fmt(), cues, adtl(SONG), data(), adtl()), 21
    yield 'two lists, the first of 4 bytes', wave(adtl(), fmt(), cues, data(), adtl(SONG)), 21
    yield 'two lists of 4 bytes', wave(fmt(), adtl(), adtl(), data()), 21
    yield 'three lists of 4 bytes', wave(fmt(), adtl(), adtl(), data(), adtl()), 21
    yield 'two lists, the second without its pad', unpadded(fmt(), cues, adtl(SONG), data(), adtl(bare(SONG))), 21
    yield 'a list of titles and one of INFO', wave(fmt(), cues, info, adtl(SONG), info, data()), found
    yield 'a list of INFO with titles', wave(fmt(), cues, info, data()), []
    yield 'LIST of three bytes, adt', wave(fmt(), cues, chunk(b'LIST', b'adt'), adtl(SONG), data()), found
    yield 'LIST of three bytes, adt, and its pad is l', \
        wave(fmt(), cues, chunk(b'LIST', b'adt')[:-1] + b'l', adtl(SONG), data()), found
    yield 'LIST of three bytes, adt, without pad', unpadded(fmt(), cues, adtl(SONG), data(), chunk(b'LIST', b'adt')), \
        found
    yield 'LIST of no bytes', wave(fmt(), cues, chunk(b'LIST'), adtl(SONG), data()), found
    yield 'LIST of ladt', wave(fmt(), cues, chunk(b'LIST', b'ladtl'), data()), []
    yield 'adtl as a chunk, and titles outside a list', \
        wave(fmt(), cues, chunk(b'adtl', SONG), labl(9, b'x'), note(9, b'\0'), adtl(SONG), data()), found
    yield 'chunks list and adtl with wrong titles', wave(fmt(), cues, chunk(b'list', b'adtl?'), chunk(b'adtl', b'?'),
                                                         data()), []


def list_places():
    """The list may stand anywhere."""
    cues, found, play = cue(*CUES), [(0, 7, b'Song')], plst(entry(7, 4))
    yield 'the list before the cue table', wave(fmt(), adtl(SONG), cues, data()), found
    yield 'the list before all others', wave(adtl(SONG), fmt(), cues, data()), found
    yield 'the list behind the sound', wave(fmt(), cues, data(), adtl(SONG)), found
    yield 'the list behind the sound, and the cue table behind it', wave(fmt(), data(), adtl(SONG), cues), found
    yield 'the list behind odd sound', wave(fmt(bits=8), cues, data(7), adtl(SONG)), found, pcm(7, 8) + LISTED[1:]
    yield 'the list among skipped chunks', wave(chunk(b'junk', b'a'), fmt(), cues, chunk(b'junk', b'abc'), adtl(SONG),
                                                chunk(b'junk', b'a'), data()), found
    yield 'the list behind the playlist', wave(fmt(), cues, play, adtl(SONG), data()), found, LISTED + EXAMPLE[2:]
    yield 'IMA with a list', wave(ima(), fact(9), cues, adtl(SONG), data(8)), found, adpcm(17, 9) + LISTED[1:]
    yield 'Microsoft with a list', wave(microsoft(), fact(4), cues, adtl(SONG), data(8)), found, \
        adpcm(2, 4) + LISTED[1:]


def list_orders():
    """21 comes after 1 to 13: a wrong list beside each other fault."""
    wrong, cues = adtl(labl(9, b'Song')), cue(*CUES)
    whole = wave(fmt(), cues, wrong, data())
    yield 'a wrong list', whole, 21
    yield 'a wrong list, 11 bytes', whole[:11], 1
    yield 'a wrong list, RIFX', b'RIFX' + whole[4:], 2
    yield 'a wrong list, R two too large', wave(fmt(), cues, wrong, data(), size=len(whole) - 6), 3
    yield 'a wrong list, then data past the end', wave(fmt(), cues, wrong, chunk(b'data', bytes(8), 10)), 4
    yield 'a wrong list past the end', wave(fmt(), cues, data(), adtl(labl(9, b'Song'), size=99)), 4
    yield 'a wrong list, then a second fmt', wave(fmt(), cues, wrong, data(), fmt()), 5
    yield 'two lists, then a second cue table', wave(fmt(), cues, wrong, wrong, data(), cues), 5
    yield 'a wrong list, then data before fmt', wave(wrong, data(), fmt(), cues), 6
    yield 'a wrong list, then LIST of wavl', wave(fmt(), cues, wrong, data(), chunk(b'LIST', b'wavl')), 7
    yield 'a wrong list, no data', wave(fmt(), cues, wrong), 8
    yield 'a wrong list, no fmt', wave(cues, wrong), 8
    yield 'a wrong list, rate 0', wave(fmt(rate=0), cues, wrong, data()), 9
    yield 'a wrong list, half a frame', wave(fmt(), cues, wrong, data(7)), 10
    yield 'a wrong list, IMA without fact', wave(ima(), cues, wrong, data()), 11
    yield 'a wrong list, a cue at F', wave(fmt(), cue(point(7, 4)), wrong, data()), 12
    yield 'a list of the names of a wrong cue table', wave(fmt(), cue(point(7, 0), point(7, 1)), adtl(SONG), data()), 12
    yield 'a wrong list, a wrong playlist', wave(fmt(), cues, plst(entry(9, 1)), wrong, data()), 13
    yield 'two lists, a wrong playlist', wave(fmt(), cues, plst(more=b'\0'), adtl(), adtl(), data()), 13
    yield 'a wrong list before a wrong playlist', wave(fmt(), wrong, data(), cues, plst(entry(7, 5))), 13


def title_lists():
    """Label, file, its titles or its refusal, and what is listed of it."""
    for group in (titles_of_cues, texts, counts, inner_walk, inner_pads, skipped_in_lists, other_lists, list_places,
                  list_orders):
        for label, file, said, *listed in group():
            yield label, file, said, refused(said) if isinstance(said, int) else listed[0] if listed else LISTED


def title_rooms():
    """Label, file, the bytes that are lent for titles, and the titles or the refusal."""
    file, found = titled(SONG, note(8, b'A note')), [(0, 7, b'Song'), (1, 8, b'A note')]
    for room, said in ((0, 14), (5, 14), (11, 14), (12, found), (13, found), (300, found)):
        yield f'texts of 12 bytes, room {room}', file, room, said
    for room, said in ((255, 14), (256, [(0, 7, LONG)])):
        yield f'a text of 256 bytes, room {room}', titled(labl(7, LONG)), room, said
    for room, said in ((0, 14), (1, [(0, 7, b'')])):
        yield f'an empty text, room {room}', titled(labl(7, b'')), room, said
    for label, made in (('no list', wave(fmt(), cue(*CUES), data())), ('a list of 4 bytes', titled()),
                        ('a list of skipped chunks', titled(chunk(b'ltxt', b'abc')))):
        for room in (0, 3):
            yield f'{label}, room {room}', made, room, []
    for label, made, said in (('a wrong list', titled(labl(9, b'Song')), 21), ('rate 0', wave(fmt(rate=0), data()), 9),
                              ('a wrong playlist', wave(fmt(), plst(more=b'\0'), data()), 13)):
        yield f'{label}, room 0', made, 0, said


def all_files():
    """Label, bytes and expected lines of each file."""
    yield 'the example of document 01', example(), EXAMPLE
    for group in (lengths_and_codes, the_walk, lost_pads, letters, formats, ima_formats, microsoft_formats, frames,
                  cue_tables, playlists):
        yield from group()
    for label, file, _, listed in title_lists():
        yield f'titles: {label}', file, listed


def example():
    """The file whose listing document 01 prints."""
    return wave(fmt(), cue(point(7, 0)), plst(entry(7, 4)), data())
