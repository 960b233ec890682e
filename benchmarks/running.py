"""Runs the program `measure`: for guest instructions under the emulator, and for times on this machine."""
import concurrent.futures
import os
import subprocess
import typing

from building import BUILT, EMULATOR, PROCESSOR, Trouble

# Runs at a time where no clock is read; a run at 1 GiB has 2 GiB of memory.
AT_A_TIME = 2
# What makes glibc choose the memcpy by SSE2 on any x86-64 machine.
SSE2 = {'GLIBC_TUNABLES': 'glibc.cpu.hwcaps=-AVX512F,-AVX512VL,-AVX2,-AVX_Fast_Unaligned_Load,-ERMS,-SSSE3'}


class Contestant(typing.NamedTuple):
    """Who does a job: its program, its name there, and what is set for the run."""
    program: str
    who: str
    environment: tuple = ()


CONTESTANTS = {
    'library': Contestant('gcc', 'library'),
    'gcc': Contestant('gcc', 'plain'),
    'clang': Contestant('clang', 'plain'),
    'sndfile': Contestant('sndfile', 'sndfile'),
    'memcpy': Contestant('gcc', 'memcpy'),
    'memcpy by SSE2': Contestant('gcc', 'memcpy', tuple(SSE2.items())),
    'sndfile by SSE2': Contestant('sndfile', 'sndfile', tuple(SSE2.items())),
}


def told(line):
    """The numbers of a line of `measure` by their names; the two chased counts are one entry."""
    words, found = line.split(), {}
    while words:
        name = words.pop(0)
        if name == 'chased':
            found[name] = (int(words.pop(0)), int(words.pop(0)))
        else:
            found[name] = words.pop(0) if name == 'checksum' else int(words.pop(0))
    return found


class Runs:
    """All runs of `measure`, and what each job gave, so that contestants that differ are found."""

    def __init__(self, programs):
        self.programs = programs
        self.results = {}

    def has(self, name):
        """Whether there is a program for a contestant."""
        return CONTESTANTS[name].program in self.programs

    def run(self, before, name, operation, size, repeats, *more):
        """One run; answers what it printed, and what it wrote on standard error."""
        contestant = CONTESTANTS[name]
        environment = {**os.environ, **dict(contestant.environment)}
        words = [*before, self.programs[contestant.program], operation, contestant.who, size, repeats, *more]
        done = subprocess.run([str(word) for word in words], capture_output=True, text=True, env=environment)
        if done.returncode != 0:
            raise Trouble(f'measure {operation} {name} {size}: {done.stderr.strip()}')
        numbers = told(done.stdout)
        self.compare(operation, size, name, numbers)
        return numbers, done.stderr

    def compare(self, operation, size, name, numbers):
        """Ends the run where a contestant's result is not the library's."""
        if name.startswith('memcpy') or operation.startswith('read') and name.startswith('sndfile'):
            return
        # libsndfile rounds the Microsoft prediction down, so its samples are others; it counts none as chased.
        if name.startswith('sndfile') and 'microsoft' in operation:
            return
        result = numbers['checksum'], numbers['result'], None if name.startswith('sndfile') else numbers['chased']
        for other, seen in self.results.setdefault((operation, size), {}).items():
            if seen[:2] != result[:2] or None not in (seen[2], result[2]) and seen[2] != result[2]:
                raise Trouble(f'{operation} of {size} bytes: {name} and {other} give different results')
        self.results[operation, size][name] = result

    def instructions(self, name, operation, size):
        """The guest instructions of one run of a job: the difference of four runs and two, halved."""
        before = [EMULATOR, '-cpu', PROCESSOR, '-plugin', BUILT / 'guest_count.so']
        counts = []
        for repeats in 1, 3:
            numbers, errors = self.run(before, name, operation, size, repeats, 'count')
            lines = [line.split() for line in errors.splitlines()]
            counts.append(next(int(words[1]) for words in lines if words and words[0] == 'instructions'))
        return (counts[1] - counts[0]) / 2, numbers

    def all_instructions(self, wanted):
        """The guest instructions of each (name, operation, size), several at a time since no clock is read."""
        wanted = [job for job in wanted if self.has(job[0])]
        with concurrent.futures.ThreadPoolExecutor(AT_A_TIME) as pool:
            return dict(zip(wanted, pool.map(lambda job: self.instructions(*job), wanted)))

    def times(self, names, operation, size, repeats, rounds):
        """The best time of each contestant in ns; they take turns, so that what slows the machine hits all."""
        best = {}
        for _ in range(rounds):
            for name in names:
                if self.has(name):
                    numbers, _ = self.run([], name, operation, size, repeats)
                    best[name] = min(best.get(name, numbers['best']), numbers['best'])
                    best['samples'] = numbers['samples']
        return best
