"""The files of other programs in this folder, and what document 01 says of them.

    reported/   NAME.wav, and in NAME.txt what the program that made it reports of it
    heard/      NAME.wav, and in NAME.heard its sound as another program hears it; of a file without its last pad also
                NAME.txt, the sums of what the three programs hear in it
    coded/      NAME.raw, a sound, and in NAME.wav libsndfile's IMA blocks of it
    written/    NAME.wav as `write` must write it, and in NAME.txt what the three programs report of it
    titled/     NAME.wav with titles, by other programs or as `write` must write it, and in NAME.txt what six programs
                report of it

The script `make` of each folder made all that is there. Nothing here looks into a WAVE file.
"""
import pathlib
import re

REPORTED, HEARD, CODED, WRITTEN, TITLED = (pathlib.Path(__file__).resolve().parent / name
                                           for name in ('reported', 'heard', 'coded', 'written', 'titled'))
# How many WAVE files each folder has.
HELD = {REPORTED: 31, HEARD: 27, CODED: 9, WRITTEN: 21, TITLED: 19}

# The encodings that document 01 accepts, as sox, ffmpeg and libsndfile call them.
TAGS = {
    'Unsigned Integer PCM': 1, 'Signed Integer PCM': 1, 'IMA ADPCM': 17, 'MS ADPCM': 2,
    'pcm_u8': 1, 'pcm_s16le': 1, 'adpcm_ima_wav': 17, 'adpcm_ms': 2,
    'WAVE_FORMAT_PCM': 1, 'WAVE_FORMAT_IMA_ADPCM': 17, 'WAVE_FORMAT_MS_ADPCM': 2,
}

# Files of reported/ that the programs read back and document 01 refuses.
REFUSED = {
    # Above a rate of 48,000 ffmpeg writes the extensible format, tag 65534.
    'ffmpeg-extensible-192000-refused.wav': 9,
    # Into a pipe ffmpeg leaves R at 4,294,967,295, which is not the length.
    'ffmpeg-pipe-refused.wav': 3,
    # libsndfile divides the fact count of IMA by the channels: 505 for two blocks of 505 frames.
    'sndfile-ima-stereo-refused.wav': 11,
    # Float has tag 3.
    'sox-float-refused.wav': 9,
    # The big-endian form opens with `RIFX`.
    'sox-rifx-refused.wav': 2,
}

# Files of heard/ that document 01 refuses, so that nothing is heard in them.
NOT_HEARD = {
    # As above: 757 for three blocks of 505 frames.
    'sndfile-ima-stereo-refused.wav': 11,
}


# The programs that hear a format as document 01 means it, by a word in the names of files.
EXACT = {'pcm8': ['ffmpeg', 'sndfile', 'sox'], 'ima': ['sndfile', 'sox'], 'microsoft': ['ffmpeg']}


def paths(folder):
    """The WAVE files of a folder, in order of name."""
    found = sorted(folder.glob('*.wav'))
    if len(found) != HELD[folder]:
        raise ValueError(f'{folder.name}/ has {len(found)} files, and must have {HELD[folder]}')
    return found


def files_in(*folders):
    """The WAVE files of folders, by folder and name."""
    return {f'{folder.name}/{path.name}': path.read_bytes() for folder in folders for path in paths(folder)}


def other_files():
    """The files that other programs made, but for those of coded/, whose sound alone counts; and all with titles."""
    return files_in(HEARD, REPORTED, TITLED)


def without_pad():
    """Yields the path of each file without its last pad, and by program the sums of what is heard with and without."""
    for path in paths(HEARD):
        if path.stem.endswith('-no-pad'):
            rows = [line.split() for line in path.with_suffix('.txt').read_text().splitlines()]
            yield path, {program: sums for program, *sums in rows}


def one(pattern, report):
    """What the pattern finds, which must be there just once."""
    found = re.findall(pattern, report, re.MULTILINE)
    if len(found) != 1:
        raise ValueError(f'{len(found)} times in a report: {pattern}')
    return found[0]


def sox(report):
    bits, encoding = one(r'^Sample Encoding: (\d+)-bit (.+)$', report)
    # Not soxi's Duration: that counts the last block of ADPCM as full.
    frames = one(r'Finished writing Wave file, \d+ data bytes (\d+) samples$', report)
    return encoding, one(r'^Channels +: (\d+)$', report), one(r'^Sample Rate +: (\d+)$', report), bits, frames, []


def ffmpeg(report):
    names = ['codec_name', 'channels', 'sample_rate', 'bits_per_sample', 'duration_ts']
    encoding, channels, rate, bits, frames = (one(rf'^{name}=(.+)$', report) for name in names)
    # The duration counts frames only where its unit is one frame.
    if one(r'^time_base=(.+)$', report) != f'1/{rate}':
        raise ValueError('ffprobe does not count in frames')
    return encoding, channels, rate, bits, frames, []


def sndfile(report):
    encoding, bits = one(r'^  Format +: \w+ => (\w+)$', report), one(r'^  Bit Width +: (\d+)$', report)
    # Its own Frames count the last block of ADPCM as full; the fact count, where shown, does not.
    frames = one(r'^Frames +: (\d+)$' if TAGS[encoding] == 1 else r'^  frames +: (\d+)$', report)
    cues = re.findall(r'^ +Cue ID : +(\d+) .* Offset : +(\d+)$', report, re.MULTILINE)
    return encoding, one(r'^Channels +: (\d+)$', report), one(r'^Sample Rate +: (\d+)$', report), bits, frames, cues


def listings():
    """Yields the name of each file of reported/ and the listing that document 01 prescribes for it."""
    for path in paths(REPORTED):
        if path.name in REFUSED:
            yield path.name, f'refused {REFUSED[path.name]}\n'
            continue
        read = {'sox': sox, 'ffmpeg': ffmpeg, 'sndfile': sndfile}[path.name.split('-')[0]]
        encoding, channels, rate, bits, frames, cues = read(path.with_suffix('.txt').read_text())
        line = f'wave tag {TAGS[encoding]} channels {channels} rate {rate} bits {bits} frames {frames}\n'
        yield path.name, line + ''.join(f'cue {number} at {place}\n' for number, place in cues)
