"""The parts of docs/BENCHMARKS.md: each runs its jobs and answers its lines."""
import jobs
from building import NATIVE, say
from tables import short, size_name, span, table

PLAIN_BAR = 'at most 1.1 of plain C, in instructions'
COPY_BAR = 'at most 1.1 of the copy, in instructions'
SNDFILE_BAR = 'less than libsndfile'
READ_BAR = 'a 1 GiB file read within a millisecond'
NO_SNDFILE = 'libsndfile is left out: it could not be linked for x86-64 here.'
NO_TIMES = 'Times are left out: this is no x86-64 machine, and an emulator\'s times say nothing.'


def better(numbers):
    """The better of the two compilers' plain C, by its name."""
    return min((name for name in jobs.PLAIN if name in numbers), key=numbers.get)


# ---- Guest instructions ----

def count_all(runs, size):
    """The guest instructions of all jobs: {operation: {name: instructions, 'samples': samples}}."""
    operations = [*jobs.BY_FILE, *jobs.CODECS, *jobs.CLIPPED, *jobs.COPIES]
    wanted = [(name, operation, size) for operation in operations for name in jobs.contestants(operation)
              if not name.endswith('by SSE2')]
    counts = {operation: {} for operation in operations}
    for (name, operation, _), (count, numbers) in runs.all_instructions(wanted).items():
        counts[operation][name] = count
        counts[operation]['samples'] = numbers['samples']
    return counts


def plain_rows(counts, bars):
    """Against plain C: for each sample, of reads and of writes with tables for each file."""
    for operation in [*jobs.CODECS, *jobs.CLIPPED, *jobs.BY_FILE]:
        numbers = counts[operation]
        each = 1 if operation in jobs.BY_FILE else numbers['samples']
        name = better(numbers)
        ratio = numbers['library'] / numbers[name]
        title = jobs.TITLES[operation]
        barred = operation not in jobs.BY_FILE
        yield [title, short(numbers['library'] / each),
               *(short(numbers[plain] / each) if plain in numbers else '' for plain in jobs.PLAIN),
               f'{ratio:.3f}', '1.1' if barred else '',
               bars.verdict(PLAIN_BAR, title, ratio <= 1.1) if barred else 'no bar']


def copy_rows(counts, bars):
    """Against the copy: for each byte of the sound."""
    for operation in jobs.COPIES:
        numbers, title = counts[operation], jobs.TITLES[operation]
        each = 2 * numbers['samples']
        ratio = numbers['library'] / numbers['memcpy']
        yield [title, short(numbers['library'] / each), short(numbers[better(numbers)] / each),
               short(numbers['memcpy'] / each), f'{numbers["library"] / numbers[better(numbers)]:.3f}', f'{ratio:.3f}',
               '1.1', bars.verdict(COPY_BAR, title, ratio <= 1.1)]


def instruction_part(counts, size, bars):
    """The two tables of guest instructions."""
    yield '## Guest instructions'
    yield ''
    yield (f'One run of each job on {size_name(size)} of 16-bit sound. The numbers are exact: a job is run twice '
           'and four times, and half the difference is one run. The ratio is the library against the better of the '
           'two compilers. For each sample; of `read`, and of `write` with tables, for each file:')
    yield ''
    yield from table(['Job', 'Library', 'Plain C, gcc', 'Plain C, clang', 'Ratio', 'Bar', 'Verdict'],
                     list(plain_rows(counts, bars)))
    yield ''
    yield 'The copies, for each byte of the sound:'
    yield ''
    yield from table(['Job', 'Library', 'Plain C', 'memcpy', 'Library / plain C', 'Library / memcpy', 'Bar', 'Verdict'],
                     list(copy_rows(counts, bars)))


# ---- Times ----

def repeats_of(operation, size):
    """So many repeats that one run of a job takes some hundredths of a second."""
    if operation in jobs.BY_FILE:
        return 100
    at_once = 60000000 if operation in jobs.COPIES or operation == 'decode-pcm-8' else 6000000
    return max(2, min(300, at_once // size))


def time_all(runs, sizes, rounds):
    """The best times of all jobs: {size: {operation: {name: ns, 'samples': samples}}}."""
    found = {}
    for size in sizes:
        say(f'bench: times for {size_name(size)}')
        found[size] = {operation: runs.times(jobs.contestants(operation), operation, size,
                                             repeats_of(operation, size), rounds)
                       for operation in [*jobs.CODECS, *jobs.CLIPPED, *jobs.BY_FILE, *jobs.COPIES]}
    return found


def plain_time_rows(times):
    """Against plain C: for each sample, of reads and of writes with tables for each file."""
    for operation in [*jobs.CODECS, *jobs.CLIPPED, *jobs.BY_FILE]:
        numbers = times[operation]
        each = 1 if operation in jobs.BY_FILE else numbers['samples']
        ratio = numbers['library'] / numbers[better(numbers)]
        yield [jobs.TITLES[operation], short(numbers['library'] / each),
               *(short(numbers[plain] / each) if plain in numbers else '' for plain in jobs.PLAIN),
               f'{ratio:.2f}', 'yes' if ratio <= 1.1 else 'no']


def copy_time_rows(times):
    """Against the copies: for the whole job."""
    for operation in jobs.COPIES:
        numbers = times[operation]
        own, baseline = (numbers['library'] / numbers[name] for name in ('memcpy', 'memcpy by SSE2'))
        yield [jobs.TITLES[operation], span(numbers['library']), span(numbers['memcpy by SSE2']),
               span(numbers['memcpy']), f'{baseline:.2f}', f'{own:.2f}', 'yes' if baseline <= 1.1 else 'no',
               'yes' if own <= 1.1 else 'no']


def time_part(times, rounds):
    """The tables of times."""
    yield '## Times'
    yield ''
    if not NATIVE:
        yield NO_TIMES
        return
    yield (f'The best of {rounds} rounds of runs, the contestants in turn. Times have no bar against plain C and the '
           'copy; the last columns say whether they are within 1.1 too. A time differs by some hundredths from run to '
           'run.')
    for size, found in times.items():
        yield ''
        yield (f'{size_name(size)} of 16-bit sound. In ns for each sample; of `read`, and of `write` with tables, for '
               'each file:')
        yield ''
        yield from table(['Job', 'Library', 'Plain C, gcc', 'Plain C, clang', 'Ratio', 'Within 1.1'],
                         list(plain_time_rows(found)))
        yield ''
        yield from table(['Job', 'Library', 'memcpy by SSE2', 'This machine\'s memcpy', 'Library / SSE2',
                          'Library / own', 'Within 1.1, SSE2', 'Within 1.1, own'], list(copy_time_rows(found)))


# ---- libsndfile ----

def sndfile_rows(counts, times, bars):
    """The library against libsndfile, in instructions and in times."""
    for operation in [*jobs.READS, *jobs.CODECS, *jobs.CLIPPED, *jobs.COPIES]:
        if operation in jobs.NOT_OF_SNDFILE:
            continue
        for name in ('sndfile by SSE2', 'sndfile') if operation in jobs.COPIES else ('sndfile',):
            title = jobs.TITLES[operation]
            if operation in jobs.COPIES:
                title += ', memcpy by SSE2' if name.endswith('SSE2') else ', this machine\'s memcpy'
            count = counts[operation]['library'] / counts[operation]['sndfile']
            # Under the emulator there is the memcpy by SSE2 only.
            counted = [] if operation in jobs.COPIES and name == 'sndfile' else [count]
            ratios = [found[operation]['library'] / found[operation][name] for found in times.values()]
            yield [title, f'{count:.3f}' if counted else '', *(f'{ratio:.3f}' for ratio in ratios),
                   'below 1', bars.verdict(SNDFILE_BAR, title, all(ratio < 1 for ratio in [*counted, *ratios]))]


def sndfile_part(runs, counts, times, bars):
    """The table against libsndfile."""
    yield '## Against libsndfile'
    yield ''
    if not runs.has('sndfile'):
        yield NO_SNDFILE
        return
    yield ('The library\'s instructions and times divided by libsndfile\'s, which reads and writes whole sounds in '
           'memory by `sf_open_virtual`. Both give the same bytes; only Microsoft samples differ, since libsndfile '
           'rounds the prediction down. It hands 16-bit PCM to memcpy in one go. It does not add songs.')
    yield ''
    heads = [f'Time, {size_name(size)}' for size in times]
    yield from table(['Job', 'Instructions', *heads, 'Bar', 'Verdict'], list(sndfile_rows(counts, times, bars)))
