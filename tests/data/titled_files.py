"""Files with titles: those of other programs, and such as `write` must write; and what six programs report of them.

    python3 -m data.titled_files     in tests/: writes the files of data/titled whose names begin with `written`; its
                                     `make` does that, and then asks the programs

Beside each NAME.wav stands NAME.txt, the reports. Each program is asked for what it reads:

    Audio::Wav      labels and notes of each cue, by its number, of PCM only
    libaudiofile    the same, of each mark
    ExifTool        all titles in the order of the file
    ffmpeg          labels, as names of chapters, where `fmt ` comes before the cues, up to the first chunk of the list
                    that is no label
    libsndfile      labels up to the first chunk of the list that is none; it prints those of cues below 10
    GStreamer       labels and notes, as titles and comments of tracks, of PCM where `fmt ` comes before the cues and
                    the sound is of an even length; not such as are empty or no UTF-8
"""
import re

from data.others import TITLED, paths
from data.written_files import IMA, MICROSOFT, adpcm, pcm, sections
from second import reader as second_reader, writer as second_writer

LABEL, NOTE = 0, 1
LONG = b'Harbour Song, ' * 18 + b'The'

# Files that programs read and document 01 with order 1 refuses.
REFUSED = {
    # A text of 256 bytes before its zero.
    'audio-wav-pcm16-mono-text-256-refused.wav': 21,
    # libaudiofile counts the pad of a text as a part of it: a text of an even length has two zeros.
    'audiofile-pcm16-stereo-even-text-refused.wav': 21,
    # And so has the empty comment that it writes of a mark without one.
    'audiofile-pcm8-mono-no-comment-refused.wav': 21,
}


# ---- the files as `write` must write them

def songs(*lengths):
    """The cues and the playlist of a side with songs of these lengths, numbered from 4 on."""
    places = [sum(lengths[:turn]) for turn in range(len(lengths))]
    return [(4 + turn, place, place) for turn, place in enumerate(places)], \
        [(4 + turn, length, 1) for turn, length in enumerate(lengths)]


def titled(made, *titles):
    """A record with titles, their texts, and the sound; a title is (kind, place of its cue in the table, text)."""
    record, sound = made
    table, texts = second_reader.placed([(kind, record.cues[cue][0], text + b'\0') for kind, cue, text in titles])
    return record._replace(title_count=len(table), titles=table), texts, sound


def both(count):
    """A label and a note for each of so many songs, all labels first."""
    words = {LABEL: b'Song ', NOTE: b'It is sung by choir '}
    return [(kind, cue, words[kind] + b'%d' % (3 * cue)) for kind in words for cue in range(count)]


def all_files():
    """Name, record, texts and sound of each file."""
    made = {
        'pcm16-mono-songs': titled(pcm(16, 1, 8000, 300, *songs(100, 150, 50)), (LABEL, 0, b'Harbour Song'),
                                   (LABEL, 1, b'School'), (LABEL, 2, b'Moons'), (NOTE, 0, b'By heart'),
                                   (NOTE, 2, b'Twice!!')),
        'pcm16-stereo-songs': titled(pcm(16, 2, 44100, 200, *songs(150, 50)), (LABEL, 1, b'Last'), (LABEL, 0, b'First'),
                                     (NOTE, 1, b'The last comes first.'), (NOTE, 0, 'Grüße ♫'.encode())),
        # Label and note by song, as they come when one is set after the other; two are empty.
        'pcm8-mono-odd-mixed': titled(pcm(8, 1, 11025, 301, *songs(100, 200, 1)), (LABEL, 0, b'Harbour Song'),
                                      (NOTE, 0, b'By heart'), (LABEL, 1, b'T\xfcne'), (NOTE, 1, b''), (LABEL, 2, b''),
                                      (NOTE, 2, b'X')),
        'ima-mono-long-text': titled(adpcm(IMA, 1, 256, 11025, 1200, *songs(505, 695)), (LABEL, 0, LONG),
                                     (LABEL, 1, LONG[:-1]), (NOTE, 1, LONG)),
        'microsoft-stereo-note-first': titled(adpcm(MICROSOFT, 2, 256, 22050, 500, *songs(300, 200)),
                                              (NOTE, 0, b'Softly'), (LABEL, 0, b'Harbour Song'), (LABEL, 1, b'School')),
        'pcm16-mono-128-titles': titled(pcm(16, 1, 16000, 640, *songs(*[10] * 64)), *both(64)),
    }
    return sorted((f'written-{name}.wav', *parts) for name, parts in made.items())


# ---- what the programs must say of a file that is accepted

def letters(text):
    """A text with each byte as a letter, as reports are read here."""
    return text.decode('latin-1')


def by_gstreamer(text):
    """A text as GStreamer shows it; None where it shows none."""
    return letters(text) if text and text.decode(errors='ignore').encode() == text else None


def codes_of(file):
    """The codes of a file's chunks, and of the chunks in its list of titles."""
    (_, data), = second_reader.title_lists(file)
    return [code for code, _, _ in second_reader.chunks(file)], \
        [code for code, _, _ in second_reader.tiled(data, 4, 21, True)]


def facts(file):
    """What the programs must say, each by its name."""
    (tag, _, rate, *_), _, cues, _, _, sound, titles = second_reader.read_all(file)
    codes, inner = codes_of(file)
    label, note = ({name: text[:-1] for found, name, text in titles if found == kind} for kind in (LABEL, NOTE))
    first = next((turn for turn, code in enumerate(inner) if code != b'labl'), len(inner))
    labels = {name: letters(text[:-1]) for _, name, text in titles[:first]}
    timed = codes.index(b'fmt ') < codes.index(b'cue ')

    def seen(show, name):
        return tuple(show(found[name]) if name in found else None for found in (label, note))

    yield 'Audio::Wav', [(name, position, *seen(letters, name)) for name, position, _ in sorted(cues)] \
        if tag == 1 else []
    yield 'libaudiofile', [(name, place, *(text or '' for text in seen(letters, name))) for name, _, place in cues]
    yield 'ExifTool', [(kind, name, letters(text[:-1])) for kind, name, text in titles]
    yield 'ffmpeg', [(name, place, labels.get(name)) for name, _, place in cues] if timed else []
    yield 'libsndfile', [(name, text) for name, text in labels.items() if name < 10]
    yield 'GStreamer', [((place * 10**9 + rate // 2) // rate, *seen(by_gstreamer, name)) for name, _, place in cues] \
        if timed and tag == 1 and len(sound) % 2 == 0 else []


# ---- what they did say

def found(pattern, report):
    """All that a pattern finds, whose first two groups are numbers; a group that is not there is None."""
    return [(int(match[1]), int(match[2]), *match.groups()[2:]) for match in re.finditer(pattern, report, re.MULTILINE)]


def exiftool(report):
    """All titles in the order of the file, each as (kind, name, text)."""
    kinds = {'Label': LABEL, 'Note': NOTE}
    return [(kinds[kind], int(name), text)
            for kind, name, text in re.findall(r'^CuePoint(Label|Note) +: (\d+) ?(.*)$', report, re.MULTILINE)]


def tracks(report):
    """The start of each track in billionths of a second, its title and its comment."""
    track = r'track: start: (\d+):(\d+):(\d+)\.(\d+) .*\n(?: +Tags:\n)?(?: +title: (.*)\n)?(?: +comment: (.*)\n)?'
    return [(((int(hours) * 60 + int(minutes)) * 60 + int(seconds)) * 10**9 + int(rest), title, comment)
            for hours, minutes, seconds, rest, title, comment in
            (match.groups() for match in re.finditer(track, report))]


def said(report):
    """The same as `facts` of what they did say."""
    parts = sections(report)
    yield 'Audio::Wav', found(r'^cue (\d+) at (\d+)\n(?:label (.*)\n)?(?:note (.*)\n)?', parts['Audio::Wav'])
    yield 'libaudiofile', found(r'^mark (\d+) at (\d+)\nname (.*)\ncomment (.*)$', parts['libaudiofile'])
    yield 'ExifTool', exiftool(parts['ExifTool'])
    yield 'ffmpeg', found(r'^id=(\d+)\nstart=(\d+)\n(?:TAG:title=(.*)\n)?', parts['ffmpeg'])
    yield 'libsndfile', [(int(name), text) for name, text in
                         re.findall(r'^    labl : (\d+) : (.*)$', parts['libsndfile'], re.MULTILINE)]
    yield 'GStreamer', tracks(parts['GStreamer'])


def report_of(path):
    """The report on a file."""
    return letters(path.with_suffix('.txt').read_bytes())


def reported(path):
    """The titles of a file in its order, by the report of ExifTool; each as (kind, name, text with its zero)."""
    return [(kind, name, text.encode('latin-1') + b'\0')
            for kind, name, text in exiftool(sections(report_of(path))['ExifTool'])]


def refusal_of(file):
    """The number by which the second reader refuses a file; None where it is accepted."""
    try:
        second_reader.read_all(file)
    except second_reader.Refused as refusal:
        return refusal.args[0]
    return None


def check():
    """Stops where a file is not what the second writer makes, where the second reader does not refuse it by the right
    number, or where it finds other titles in it than a program reports."""
    own = {name: parts for name, *parts in all_files()}
    for path in paths(TITLED):
        file = path.read_bytes()
        if path.name.startswith('written'):
            second_writer.check(*own[path.name])
            if file != second_writer.write(*own[path.name], 65536):
                raise ValueError(f'{path.name} is not what the second writer makes')
        if refusal_of(file) != REFUSED.get(path.name):
            raise ValueError(f'{path.name}: the second reader answers {refusal_of(file)}')
        if path.name not in REFUSED:
            meant, told = dict(facts(file)), dict(said(report_of(path)))
            if meant != told:
                raise ValueError(f'{path.name}: it must be {meant}, the programs report {told}')


if __name__ == '__main__':
    for file_name, *values in all_files():
        (TITLED / file_name).write_bytes(second_writer.write(*values, 65536))
