"""Titles: the command `title`, what the others do with them, and lists of them that are long."""
import os

from host.places import record_of, refusal_of, title_objects, with_junk
from host.run import ADDED, HOST, KNOWN, MEANINGS, MOST, NEW, added, does, left_out, parts, refuses, tells
from host.trouble import trouble
from data import titled_files
from data.others import TITLED as TITLED_FILES, other_files, paths
from trying import SONG, expect, holding, kept, printed, run, tried
from second import command as second_command, reader as second_reader, writer as second_writer
from second.command import answer
from second.writer import Record
from vectors import side_files, wave_files
from vectors.wave_files import (LONG, LONGER, adtl, chunk, cue, data, entry, fact, fmt, ima, labl, note, plst, point,
                                wave)

LABEL, NOTE = 0, 1
# A side with songs 7 and 8 and no titles, and the same with three; the label of 8 is not UTF-8.
BARE = side_files.side((7, 2), (8, 3))
TITLED = side_files.labelled(note(8, b'A note'), labl(7, b'Song'), labl(8, b'T\xfcne\n'))
LATIN = 'Gr\udcf6\udcdfe \udcff'


def with_titles(file, titles):
    """The file with these titles, each with its zero, as it is written."""
    form, frames, cues, plays, _, sound = second_reader.read(file)
    table, texts = second_reader.placed(titles)
    record = Record(form, frames, len(cues), cues, len(plays), plays, len(table), table)
    return second_writer.write(record, texts, sound, MOST)


def changed(titles, number, texts):
    """Titles after the label and the note of a cue are set to these texts, or are removed where there is none. What is
    changed stays where it is, a new label comes before the first note, and a new note comes last."""
    if texts == [None, None]:
        return [title for title in titles if title[1] != number]
    for kind, text in enumerate(texts):
        found = [title[:2] for title in titles]
        if text is not None and (kind, number) in found:
            place = found.index((kind, number))
            titles = [*titles[:place], (kind, number, text), *titles[place + 1:]]
        elif text is not None:
            kinds = [title[0] for title in titles]
            place = kinds.index(NOTE) if kind == LABEL and NOTE in kinds else len(titles)
            titles = [*titles[:place], (kind, number, text), *titles[place:]]
    return titles


def on_line(text):
    """A text as people see it."""
    named = {'\t': '\\t', '\n': '\\n', '\r': '\\r'}
    letters = text.decode(errors='backslashreplace')
    return ''.join(letter if letter.isprintable() else named.get(letter, f'\\u{{{ord(letter):x}}}')
                   for letter in letters) or "''"


def sets(label, file, number, one=None, two=None, words=(), out='side.wav', remarks=()):
    """`title` sets the label and the note of a cue, or removes both, and reports what the cue has then."""
    texts = [None if text is None else os.fsencode(text) + b'\0' for text in (one, two)]
    titles = changed(second_reader.titles(file), number, texts)
    own = [title for title in titles if title[1] == number]
    made = with_titles(file, titles)
    note = [] if two is None else [f'--note={two}'] if two.startswith('--') else ['--note', two]
    call = ['title', 'side.wav', '--number', number, *note,
            *(['--remove'] if one is two is None else []), *words, *([] if one is None else ['--', one])]
    lines = [f'cue {number}', *(f'{("label", "note")[kind]} {on_line(text[:-1])}' for kind, _, text in own)]
    files = {out: file, **({} if out == 'side.wav' else {'side.wav': out})}
    if titles == second_reader.titles(file):
        so = 'its titles are so already' if own else 'it has no titles'
        does(label, call, files, (lines, None),
             remarks=[f'tronalhet: side.wav: cue {number}: {so}; nothing was written'])
        told = {'file': 'side.wav', 'ok': True, 'refused': 0, 'cue': number, 'titles': [*title_objects(own)]}
        tells(f'{label}, for scripts', call, files, (0, [told]))
        return
    does(label, call, files, ([*lines, f'bytes {len(made)}'], made), out=out,
         remarks=[*left_out('side.wav', file, KNOWN), *remarks])
    tells(f'{label}, for scripts', call, files,
          (0, ('side.wav', number, [*title_objects(own)], len(made))),
          lambda told: (told['out'], told['cue'], told['titles'], told['bytes']), {out: made})


# ---- titles are set and removed

def titles_set():
    """A label and a note are set, changed and removed, of any cue; others stay, and all keep their order."""
    for name, file in (('no titles', BARE), ('titles', TITLED)):
        for number in (7, 8):
            for one, two in (('Song', None), (None, 'A note'), ('Harbour Song', 'By heart'), ('', None), (None, ''),
                             ('-', '--remove'), ('--note', '-'), ('Größe ♫', 'two\nlines \x1b[2K'), (LATIN, LATIN),
                             (None, None), ('Song', 'Song')):
                sets(f'{name}, cue {number}, {one!a} and {two!a}', file, number, one, two)
    sets('the text that is there, not UTF-8', TITLED, 8, 'T\udcfcne\n')
    sets('both texts that are there', TITLED, 8, 'T\udcfcne\n', 'A note')
    sets('one text that is there and one that is not', TITLED, 8, 'T\udcfcne\n', 'Another')


def titles_as_long_as_they_may_be():
    """A text of 255 bytes is stored, and one of 256 is refused, be it by letters of two bytes."""
    for text in ('x' * 255, 'é' * 127 + 'x', os.fsdecode(LONG), 'x' * 254):
        sets(f'a label of {len(os.fsencode(text))} bytes', BARE, 7, text)
        sets(f'a note of {len(os.fsencode(text))} bytes', TITLED, 7, None, text)
    for text in ('x' * 256, 'é' * 128, os.fsdecode(LONGER), 'x' * 100000):
        size = len(os.fsencode(text))
        for words, kind in ((['--', text], 'label'), (['--note', text], 'note'), (['--note', text, 'short'], 'note'),
                            (['--note=short', '--', text], 'label')):
            call = ['title', 'side.wav', '--number=8', *words]
            refuses(f'a {kind} of {size} bytes', call, {'side.wav': TITLED}, 21, {'file': 'side.wav', 'cue': 8},
                    [kind, size, 255])
    ways = ['title', 'side.wav', '--number=7', 'x' * 300], {'side.wav': BARE}
    tells('a text that is too long, the way out', *ways, (21, True), lambda told: '45 bytes' in told['way_out'])


def no_such_cue():
    """A number that no cue has is refused, and the numbers are said; so is a file without cues."""
    one = wave(fmt(), cue(point(7, 0)), data())
    for label, file, line in (('two', TITLED, 'its cues are 7, 8'), ('one', one, 'its cue is 7'),
                              ('none', SONG, 'it has no cues: a song gets one where it is added to a side')):
        for number in (0, 9, 2**32 - 1):
            for words in (['Song'], ['--note', 'Song'], ['--remove']):
                call = ['title', 'side.wav', '--number', number, *words]
                said = [f'side.wav: cue {number}: there is no such cue', f'21 means: {MEANINGS[21]}',
                        f'way out: {line}']
                tried(f'{label}, {call}', [*HOST, *call], {'side.wav': file},
                      (21, 'refused 21\n', printed(f'tronalhet: {line}' for line in said)), {})
                refuses(f'{label}, {call}, for scripts', call, {'side.wav': file}, 21,
                        {'file': 'side.wav', 'cue': number}, ['cue'])


def titles_of_any_file():
    """Any file with cues that is accepted can be given titles. Other chunks are left out, which is said."""
    cues = cue(point(7, 0), point(8, 3))
    made = {'8 bits, tables anywhere': wave(plst(entry(8, 1, 3)), fmt(bits=8), data(7), cues),
            'IMA': wave(ima(), fact(9), cues, data(8)),
            'other chunks': wave(chunk(b'bext', b'abc'), fmt(), cues, adtl(chunk(b'ltxt', b'abc'), labl(8, b'a'),
                                 chunk(b'ltxt'), chunk(b'file')), data(), chunk(b'LIST', b'INFO'))}
    border = {label: file for label, file, _ in wave_files.all_files()}
    for name, file in {**made, **other_files(), **border}.items():
        if refusal_of(file) is None:
            names = [name for name, _, _ in second_reader.read(file)[2]]
            for number in {*names[:1], *names[-1:]}:
                sets(f'a title in {name}', file, number, 'A new title')
                sets(f'no title in {name}', file, number)


def titles_of_others():
    """`list` reports to a script the titles that another program reports of a file, and by number which it refuses."""
    for path in paths(TITLED_FILES):
        number, titles = titled_files.REFUSED.get(path.name, 0), [*title_objects(titled_files.reported(path))]
        expect(f'{path.name}, whether another program reports titles of it', titles != [], True)
        tells(f'list {path.name}', ['list', path.name], {path.name: path.read_bytes()},
              (number, (number, None if number else titles)), lambda told: (told['refused'], told.get('titles')))


def refused_files():
    """A file that reading refuses is not given titles; its place is reported, and it stays."""
    wrong = [(label, 21, made) for label, made in side_files.faulty_titles()]
    for label, number, made in [*side_files.faulty(), *wrong]:
        does(f'a title for a file with {label}', ['title', 'file.wav', 'a', '--number=7'], {'file.wav': made},
             ([f'refused {number}'], None))


# ---- the care for the old file

def old_files_kept():
    """A title has the same care as an add: a link stays, a backup is kept, and a file with other names is replaced only
    where that is asked for; nothing is left where the file cannot be written."""
    sets('a title by a link', BARE, 7, 'Song', out='real.wav',
         remarks=['tronalhet: side.wav: it is a link, and real.wav was written'])
    made = with_titles(BARE, [(LABEL, 7, b'Song\0')])
    call, lines = ['title', 'side.wav', 'Song', '--number=7'], ['cue 7', 'label Song', f'bytes {len(made)}']
    for there in ({}, {'side.wav.1': b'other'}):
        name = f'side.wav.{len(there) + 1}'
        does(f'a title with a backup as {name}', [*call, '--backup'], {'side.wav': BARE, **there},
             ([*lines, f'backup {name}'], {'side.wav': made, name: BARE}))
    does('no backup where nothing is written', [*call, '--backup'], {'side.wav': made}, (lines[:2], None),
         remarks=['tronalhet: side.wav: cue 7: its titles are so already; nothing was written'])
    with holding({'side.wav': BARE}) as folder:
        os.link(folder / 'side.wav', folder / 'second')
        (folder / 'side.wav').chmod(0o640)
        status, shown, said = run([*HOST, *call], folder)
        expect('a title where there is a hard link', (status, shown, 'hard link' in said), (74, '', True))
        expect('a title where there is a hard link, the files', kept(folder),
               {'side.wav': BARE, 'second': BARE, 'folder': None})
        expect('a title with --replace', run([*HOST, *call, '--replace'], folder),
               (0, printed(lines), 'tronalhet: side.wav: its 1 other name (a hard link) keeps the old file\n'))
        expect('a title with --replace, the files', (kept(folder), (folder / 'side.wav').stat().st_mode & 0o777),
               ({'side.wav': made, 'second': BARE, 'folder': None}, 0o640))


def no_place_for_titles():
    """A file that is not there, a folder, a pipe's name, standard input, and the name of an unfinished file."""
    for name, said in (('nowhere.wav', 'cannot read nowhere.wav: '), ('nowhere/x', 'cannot write nowhere/x: '),
                       ('', "cannot write '': "), ('folder', 'it is there, and is no file'),
                       ('.tronalhet-1-0.part', 'such names are for unfinished files'), ('loop', 'leads nowhere')):
        trouble(f'a title for {name}', ['title', name, 'Song', '--number=7'], {'side.wav': BARE, 'loop': 'loop'}, said)


# ---- what the other commands do with titles

def carried():
    """decode and add keep titles, an approval copy and a song that is added bring none."""
    files = {'side.wav': TITLED, 'song.wav': SONG}
    decoded = answer(second_command.decode, TITLED)
    expect('titles of what is decoded', second_reader.titles(decoded[1]), second_reader.titles(TITLED))
    does('decode a file with titles', ['decode', 'side.wav', 'new.wav'], files, decoded)
    coded = answer(second_command.encode, TITLED, 1024)
    expect('titles of a copy', second_reader.titles(coded[1]), [])
    does('encode a file with titles', ['encode', 'side.wav', 'new.wav'], files, coded,
         remarks=["tronalhet: side.wav: left out: chunk 'cue ', chunk 'plst', the list of titles"])
    more = added(TITLED, SONG, 5, 9999)
    expect('titles of a side with a song more', second_reader.titles(more[1]), second_reader.titles(TITLED))
    does('add to a side with titles', ['add', 'side.wav', 'song.wav', '--number=5', '--limit=9999'], files, more,
         out='side.wav')
    other = side_files.labelled(labl(7, b'Other'), songs=((7, 4),))
    tells('titles after a song with titles is added', ['add', 'side.wav', 'song.wav', *ADDED],
          {'side.wav': side_files.side((8, 2)), 'song.wav': other}, (0, [('song.wav', 'cue '), ('song.wav', 'plst'),
                                                                         ('song.wav', 'LIST')]),
          lambda told: [(one['file'], one['chunk']) for one in told['left_out']],
          {'side.wav': added(side_files.side((8, 2)), other, 7, 9999)[1]})
    inner = wave(fmt(), cue(point(7, 0)), adtl(chunk(b'ltxt'), labl(7, b'a'), chunk(b'file'), chunk(b'ltxt')), data())
    tells('what is left out of a list of titles', ['decode', 'file.wav', 'new.wav'], {'file.wav': inner},
          (0, [{'file': 'file.wav', 'chunk': 'ltxt', 'list': 'adtl', 'count': 2},
               {'file': 'file.wav', 'chunk': 'file', 'list': 'adtl', 'count': 1}]), lambda told: told['left_out'],
          {'new.wav': answer(second_command.decode, inner)[1]})


def step_by_step():
    """A side from its start: two songs, each with its titles, which stay through all that comes after."""
    with holding({'one.wav': side_files.song(4), 'two.wav': side_files.song(3, 9)}) as folder:
        for words in (['new-side', 'side.wav', *NEW], ['add', 'side.wav', 'one.wav', '--number=101', '--limit=9'],
                      ['title', 'side.wav', 'One', '--number=101', '--note', 'The first'],
                      ['add', 'side.wav', 'two.wav', '--number=102', '--limit=9'],
                      ['title', 'side.wav', 'Two', '--number=102'], ['title', 'side.wav', 'First', '--number=101'],
                      ['decode', 'side.wav', 'heard.wav'], ['check', '--sound', 'side.wav', 'heard.wav']):
            expect(f'{words}', run([*HOST, *words], folder)[::2], (0, ''))
        titles = [(LABEL, 101, b'First\0'), (LABEL, 102, b'Two\0'), (NOTE, 101, b'The first\0')]
        for name in ('side.wav', 'heard.wav'):
            expect(f'the titles of {name}', second_reader.titles((folder / name).read_bytes()), titles)
        expect('what is left of it', parts(folder), [])


# ---- long lists

def long_lists():
    """A list of more than 4,096 bytes is read whole, though of the other chunks only the heads are; also where only its
    last title is wrong."""
    names = range(100, 164)
    cues = cue(*[point(name, name) for name in names])
    titles = [made(name, bytes([name]) * size) for name, size in zip(names, range(192, 256)) for made in (note, labl)]
    skipped = chunk(b'ltxt', bytes(range(1, 251)) * 800)
    for label, inner in (('32,768 bytes of texts', titles), ('a long chunk first', [skipped, *titles[:2]]),
                         ('long chunks among titles', [titles[0], skipped, titles[5], skipped, titles[9]])):
        for front, sound in ((b'', data(70000)), (chunk(b'junk', bytes(70000)), data(140000))):
            right = wave(*([front] if front else []), fmt(), cues, adtl(*inner), sound)
            wrong = wave(fmt(), cues, *([front] if front else []), sound, adtl(*inner, labl(99, b'no cue')))
            behind = with_junk(wave(fmt(), cues, data(1000), adtl(*inner)), 12)
            for file in (right, behind):
                tells(f'list a long list, {label}', ['list', 'file.wav'], {'file.wav': file},
                      (0, [record_of('file.wav', file)]))
                does(f'check a long list, {label}', ['check', 'file.wav'], {'file.wav': file}, (['accepted'], None))
            where = {'file': 'file.wav', 'chunk': 'labl', 'cue': 99, 'field': 'name', 'byte': len(wrong) - 12}
            for words in (['list', 'file.wav'], ['check', 'file.wav'], ['check', 'file.wav', '--sound']):
                refuses(f'{words[0]} a long list, {label}', words, {'file.wav': wrong}, 21, where, ['cue'])
