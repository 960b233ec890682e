"""How the cost grows from 1 MB to 1 GiB."""
import jobs
from building import NATIVE, say
from sections import NO_TIMES, READ_BAR
from tables import short, size_name, span, table

# The sound of an IMA file is 8,164 bytes for each block of 2,048 in stereo.
SOUND_OF_IMA = 8164, 2048
# An IMA file of 1 GiB becomes 4 GiB of sound; that and a little more must be free.
MEMORY_NEEDED = 6 << 30
COUNTED_UP_TO = 16000000
COPIERS = 'memcpy by SSE2', 'memcpy'


def sound_bytes(operation, size):
    """The bytes of 16-bit sound for a file of so many bytes."""
    if operation != 'decode-ima-stereo':
        return size
    return size // SOUND_OF_IMA[1] * SOUND_OF_IMA[0]


def has_memory():
    """Whether this machine has enough free memory for the jobs at 1 GiB."""
    with open('/proc/meminfo') as lines:
        free = [int(line.split()[1]) * 1024 for line in lines if line.startswith('MemAvailable:')]
    return bool(free) and free[0] >= MEMORY_NEEDED


def counted(runs, sizes):
    """The guest instructions of the library: of `read` at all sizes, of the others at the small ones."""
    wanted = [('library', operation, sound_bytes(operation, size)) for operation in jobs.GROWTH for size in sizes
              if operation == 'read' or size <= COUNTED_UP_TO]
    wanted += [('library', operation, max(sizes)) for operation in jobs.OTHER_SOUNDS]
    return {(operation, size): count
            for (_, operation, size), (count, _) in runs.all_instructions(wanted).items()}


def timed(runs, sizes):
    """The best times: {(operation, size): {name: ns}}; a large job is run once after its first time."""
    found = {}
    for size in sizes:
        say(f'bench: growth, {size_name(size)}')
        for operation in jobs.GROWTH:
            names = ['library', *COPIERS] if operation in jobs.COPIES else ['library']
            slow = operation in ('decode-ima-stereo', 'encode-stereo')
            repeats = max(1 if slow else 3, 16000000 // size)
            rounds = 3 if size < 1 << 28 or not slow else 1
            found[operation, size] = runs.times(names, operation, sound_bytes(operation, size), repeats, rounds)
    return found


def read_rows(counts, times, sizes, bars):
    """Reading by size, and at the largest size of files with other sound."""
    for size in sizes:
        time = times.get(('read', size), {}).get('library')
        bar = ['', '']
        if size == 1 << 30 and time is not None:
            bar = ['1 ms', bars.verdict(READ_BAR, 'read, 1 GiB', time <= 1e6)]
        yield ['read, 16-bit PCM', size_name(size), short(counts['read', size]), span(time) if time else '', *bar]
    for operation, title in jobs.OTHER_SOUNDS.items():
        yield [title, size_name(max(sizes)), short(counts[operation, max(sizes)]), '', '', '']


def time_rows(times, sizes):
    """Each job by size: its time, and for each byte of the file or sound that goes in."""
    for operation, title in jobs.GROWTH.items():
        if operation == 'read':
            continue
        first = times[operation, sizes[0]]['library'] / sizes[0]
        for size in sizes:
            numbers = times[operation, size]
            each = numbers['library'] / size
            copies = [f'{numbers["library"] / numbers[name]:.2f}' if name in numbers else '' for name in COPIERS]
            yield [title, size_name(size), span(numbers['library']), short(each), f'{each / first:.2f}', *copies]


def count_rows(counts, sizes):
    """Each job at the small sizes: guest instructions for each byte."""
    for operation, title in jobs.GROWTH.items():
        if operation != 'read':
            small = [size for size in sizes if size <= COUNTED_UP_TO]
            yield [title, *(f'{counts[operation, sound_bytes(operation, size)] / size:.4f}' for size in small)]


def part(runs, sizes, bars):
    """The tables of growth."""
    yield '## How cost grows'
    yield ''
    if max(sizes) == 1 << 30 and not has_memory():
        yield '1 GiB is left out: its jobs want 6 GiB of free memory.'
        yield ''
        sizes = sizes[:-1]
    say('bench: growth, guest instructions')
    counts = counted(runs, sizes)
    times = timed(runs, sizes) if NATIVE else {}
    yield ('Reading walks the chunks and passes over the sound, so its work is the same at every size and for every '
           'sound.')
    yield ''
    yield from table(['Job', 'File', 'Instructions', 'Time', 'Bar', 'Verdict'],
                     list(read_rows(counts, times, sizes, bars)))
    yield ''
    yield ('The other jobs, by the size of what goes in: the file that is decoded, the 16-bit sound that is encoded or '
           'written, and for `add` the sound of side and song together. Guest instructions for each byte of it:')
    yield ''
    small = [size_name(size) for size in sizes if size <= COUNTED_UP_TO]
    yield from table(['Job', *small], list(count_rows(counts, sizes)))
    yield ''
    if not NATIVE:
        yield NO_TIMES
        return
    yield ('Times, the copies against both kinds of memcpy, by SSE2 and this machine\'s own. Above a size that '
           'depends on the caches, glibc stores past the caches, in both of them; the library does not.')
    yield ''
    yield from table(['Job', 'Size', 'Time', 'ns for each byte', f'Against {size_name(sizes[0])}', 'Library / SSE2',
                      'Library / own'], list(time_rows(times, sizes)))
