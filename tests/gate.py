#!/usr/bin/env python3
"""Checks of the repository that `rt ci` does not make.

    tests/gate.py layout            each folder of crates/ has its line in crates.txt, each library that has definitions
                                    has at least two wrong programs, and each edit is laid out as is said below
    tests/gate.py ci                by what `rt ci` has printed, on standard input: it refused each edit of must-fail/
    tests/gate.py edits             each wrong program of must-fail/ is refused because a fact fails
    tests/gate.py all [CRATE..]     the same of must-fail/ and must-fail-more/, of all crates or of these

An edit holds one wrong program or several, each in a function that calls none of the others' functions: each
is then refused by itself, and the crate is proved once for all of them. A wrong program begins with the line
`# in NAME: what is wrong`, where NAME is the function, or the theorem, that it is about. `rt ci` tries the
edits of must-fail/ too, and prints one error of each; here each wrong program must have its own.

What the prover says of an edit is kept as target/must-fail/CRATE/EDIT.log, or target/must-fail-more/, under a
sum of all that it was said of: the kit, the crate and those that it rests on, and the edit. While these stay the
same and it says that a fact fails for each wrong program, the edit is not tried again.
"""
import concurrent.futures
import functools
import hashlib
import os
import pathlib
import queue
import re
import shutil
import subprocess
import sys
import tempfile

ROOT = pathlib.Path(__file__).resolve().parent.parent
ERROR = re.compile(r'error(\[[^]]*\])?:|: no proof: ')
# What the prover says where it looked for a proof of a fact and found none. Any other first error
# means that the edit only made the proof unfit for the code, which shows nothing.
FACT_FAILED = re.compile(r'error: `[^`]+`: `(search|omega|simp|rw|cc|grind)`|: no proof: .*`search` did not prove `')
WRONG_PROGRAM = re.compile(r'# in (\S+): ')
FUNCTION = re.compile(r'^\s*(?:pub(?:\([a-z]+\))? )?(?:extern "C" )?fn (\w+)', re.M)
FOLDERS = 'must-fail', 'must-fail-more'
# What a crate is made of, and what a check of it may take of the memory.
PARTS = 'src', 'specs', 'proofs'
MEMORY = 3 << 30


def listed(root):
    """The crates that crates.txt names, each with its line."""
    lines = (line.split('#')[0].strip() for line in (root / 'crates.txt').read_text().splitlines())
    return {re.match(r'\w+', line)[0]: line for line in lines if line}


def unlisted(root):
    """The folders of crates/ that crates.txt does not name."""
    named = listed(root)
    return [f'crates/{p.name} has no line in crates.txt'
            for p in sorted((root / 'crates').iterdir()) if p.is_dir() and p.name not in named]


def wrong_programs(edit):
    """The functions and theorems that an edit's wrong programs are about, each with what it replaces in src/."""
    found, file = [], ''
    for line in edit.read_text().splitlines():
        start = WRONG_PROGRAM.match(line)
        if start:
            found.append((start.group(1), []))
        elif line.startswith('file: '):
            file = line[6:]
        elif line.startswith('old: ') and file.startswith('src/') and found:
            found[-1][1].append(line[5:])
    return found


def functions(crate):
    """The functions of a crate by name, each with its text up to the next one's."""
    text = '\n'.join(path.read_text() for path in sorted(crate.glob('src/**/*.rt')))
    starts = list(FUNCTION.finditer(text))
    ends = [start.start() for start in starts[1:]] + [len(text)]
    return {start.group(1): text[start.start():end] for start, end in zip(starts, ends)}


def reached(name, texts, seen=()):
    """The functions that a function calls, directly or by way of others."""
    found = set(seen)
    for other in texts:
        if other not in found and other != name and re.search(rf'(?<![\w:.]){other}\(', texts[name]):
            found = reached(other, texts, found | {other})
    return found


def hidden(edit, texts):
    """Why a wrong program of an edit might not be refused by itself."""
    programs = wrong_programs(edit)
    names = [name for name, _ in programs]
    if not names:
        yield 'names no wrong program'
    if len(set(names)) < len(names):
        yield 'has two wrong programs in one place, so one could hide the other'
    for name in sorted(set(names) & set(texts)):
        for other in sorted(reached(name, texts) & set(names)):
            yield f'has wrong programs in {name} and in {other}, which it calls, so one could hide the other'
    for name, olds in programs:
        for other, text in texts.items():
            own = texts.get(name, '')
            if other != name and any(old in text for old in olds) and not any(old in own for old in olds):
                yield f'says {name}, and replaces what stands in {other}'


def misplaced(root):
    """What stands beside the edits and is none, edits that are not laid out right, and libraries with too few."""
    wrong = []
    for crate in sorted(p for p in (root / 'crates').iterdir() if p.is_dir()):
        there = sorted(p for folder in FOLDERS for p in (crate / folder).glob('*'))
        edits = [p for p in there if p.is_file() and p.suffix == '.edit']
        wrong += [f'{p.relative_to(root)} is no edit, so nothing tries it' for p in there if p not in edits]
        texts = functions(crate)
        wrong += [f'{p.relative_to(root)} {why}' for p in edits for why in hidden(p, texts)]
        few = sum(len(wrong_programs(p)) for p in edits) < 2
        if (crate / 'src' / 'lib.rt').exists() and any(crate.glob('specs/*.antt')) and few:
            wrong.append(f'crates/{crate.name} has definitions and fewer than two wrong programs')
    return wrong


# ---- what `rt ci` says of all edits

def lacking(root, lines):
    """What the line on which `rt ci` says that all is well lacks: an edit that is bad, which means that it cannot be
    applied or read, fails nothing there."""
    count = len(list((root / 'crates').glob('*/must-fail/*.edit')))
    said = next((line for line in lines if line.startswith('rt: ok')), 'rt ci does not say that all is well')
    refused = re.search(r'; must-fail edits: (\d+) refused\b', said)
    bad = re.search(r', (\d+) bad\b', said)
    if not refused or int(refused[1]) != count or bad and int(bad[1]):
        return [f'there are {count} edits, and each must be refused: {said}']
    return []


# ---- each edit is tried

class Untold(Exception):
    """Why the prover says nothing of an edit, and what was said in its place."""


def apply(edit, crate):
    """Applies an edit to a crate: each old text, which must stand in its file once, becomes the new one."""
    path = old = None
    for line in edit.read_text().split('\n'):
        if line.startswith('file: '):
            path = crate / line[6:].strip()
        elif line.startswith('old: '):
            old = line[5:]
        elif line.startswith('new:'):
            text = path.read_text() if path and path.is_file() else ''
            if not old or text.count(old) != 1:
                raise Untold(f'cannot be applied: in its file there is not one place with {old}', '')
            path.write_text(text.replace(old, line[4:].removeprefix(' ')))


def files_of(crate):
    """All files that a crate is made of."""
    return sorted(path for part in PARTS for path in (crate / part).rglob('*') if path.is_file())


def sums(root):
    """A function that gives for an edit the sum of all that the prover's answer rests on."""
    lines = listed(root)
    kit = subprocess.run(['rt', 'version'], stdout=subprocess.PIPE, check=True).stdout

    @functools.cache
    def sum_of(name):
        """The sum of a crate and of those that it rests on."""
        digest = hashlib.sha256(lines[name].encode())
        for path in files_of(root / 'crates' / name):
            content = path.read_bytes()
            digest.update(f'\n{path.relative_to(root)} {len(content)}\n'.encode() + content)
        for other in lines[name].partition(':')[2].split():
            if other in lines:
                digest.update(sum_of(other).encode())
        return digest.hexdigest()

    return lambda edit: hashlib.sha256(
        kit + sum_of(edit.parent.parent.name).encode() + edit.read_bytes()).hexdigest()


def copy_of(root, to):
    """A copy of all crates, or of what they are made of: what is proved of them `rt` finds where it was proved."""
    for name in listed(root):
        for path in files_of(root / 'crates' / name):
            copied = to / path.relative_to(root)
            copied.parent.mkdir(parents=True, exist_ok=True)
            shutil.copy(path, copied)
    shutil.copy(root / 'crates.txt', to)
    return to


def told_of(edit, copy):
    """What the prover says of a crate with an edit, in a copy of all crates, which is then as it was."""
    crate = copy / 'crates' / edit.parent.parent.name
    was = {path: path.read_bytes() for path in files_of(crate)}
    try:
        apply(edit, crate)
        ran = subprocess.run(['rt', 'check', '--jobs', '1'], cwd=crate, stdin=subprocess.DEVNULL,
                             stdout=subprocess.PIPE, stderr=subprocess.STDOUT, check=False)
    finally:
        for path, content in was.items():
            path.write_bytes(content)
    told = ran.stdout.decode(errors='replace')
    if ran.returncode == 0:
        raise Untold('is not refused: the crate is still proved', told)
    if ran.returncode != 1 or not re.search('^logic=not-proved', told, re.M):
        raise Untold(f'is not judged: rt check ends with {ran.returncode}', told)
    return told


def log_of(root, edit):
    """Where it is kept what the prover says of an edit."""
    return root / 'target' / edit.parent.name / edit.parent.parent.name / f'{edit.stem}.log'


def kept(root, edit, total):
    """What is kept of an edit under this sum, in lines; none where nothing is."""
    log = log_of(root, edit)
    first, *lines = log.read_text().splitlines() if log.exists() else ['']
    return lines if first == total else []


def lanes(wanted):
    """How many checks run side by side: one for each processor, and no more than there is memory for."""
    free = re.search(r'^MemAvailable: *(\d+) kB', pathlib.Path('/proc/meminfo').read_text(), re.M)
    return max(1, min(wanted, len(os.sched_getaffinity(0)), int(free.group(1)) * 1024 // MEMORY))


def try_all(root, edits, sum_of_try):
    """Tries edits side by side, and keeps what the prover says; why it says nothing of some, by edit."""
    copies, why = queue.SimpleQueue(), {}

    def work(edit):
        total, copy = sum_of_try(edit), copies.get()
        try:
            told = told_of(edit, copy)
        except Untold as untold:
            why[edit], told = untold.args
            total = ''
        finally:
            copies.put(copy)
        log = log_of(root, edit)
        log.parent.mkdir(parents=True, exist_ok=True)
        log.write_text(f'{total or why[edit]}\n{told}')

    with tempfile.TemporaryDirectory() as room:
        count = lanes(len(edits))
        for number in range(count):
            copies.put(copy_of(root, pathlib.Path(room, str(number))))
        with concurrent.futures.ThreadPoolExecutor(count) as pool:
            for number, _ in enumerate(pool.map(work, edits), 1):
                print(f'tests/gate.py: tried {number} of {len(edits)} edits', file=sys.stderr, flush=True)
    return why


def first_error(lines, name):
    """The first error in the proof of a function, or of a theorem."""
    of_function = re.compile(rf'/proofs/(\S*/)?{re.escape(name)}/\w+\.antt:|^fn (\w+::)*{re.escape(name)}: ')
    errors = [line for line in lines if ERROR.search(line)]
    of_name = (line for line in errors if of_function.search(line) or f'error: `{name}`:' in line)
    return next(of_name, 'no error in its log')


def unfit(edit, lines):
    """The wrong programs of an edit whose first error is not a fact that failed."""
    firsts = ((name, first_error(lines, name)) for name, _ in wrong_programs(edit))
    return [(name, first) for name, first in firsts if not FACT_FAILED.search(first)]


def unfit_edits(root, folders, crates):
    """The wrong programs of crates that are not refused because a fact fails. Their edits are tried where it is not
    known what the prover says of them, and where it did not refuse them so the last time."""
    edits = sorted(path for name in crates for folder in folders
                   for path in (root / 'crates' / name / folder).glob('*.edit'))
    sum_of_try = sums(root)
    new = [edit for edit in edits if unfit(edit, kept(root, edit, sum_of_try(edit)))]
    why = try_all(root, new, sum_of_try) if new else {}
    wrong = [f'{edit.relative_to(root)} {why[edit]}' for edit in edits if edit in why]
    return wrong + [f'wrong program {edit.parent.parent.name}/{edit.stem} in {name} was not refused for a fact: {first[:200]}'
                    for edit in edits if edit not in why
                    for name, first in unfit(edit, kept(root, edit, sum_of_try(edit)))]


def main(words, root=ROOT):
    """Prints what is wrong; the exit status is 1 where anything is."""
    if words == ['layout']:
        wrong = unlisted(root) + misplaced(root)
    elif words == ['ci']:
        wrong = lacking(root, sys.stdin.read().splitlines())
    elif words == ['edits']:
        wrong = unfit_edits(root, FOLDERS[:1], listed(root))
    elif words[:1] == ['all'] and set(words[1:]) <= set(listed(root)):
        wrong = unfit_edits(root, FOLDERS, words[1:] or listed(root))
    else:
        wrong = [__doc__]
    for line in wrong:
        print(f'tests/gate.py: {line}')
    return 1 if wrong else 0


if __name__ == '__main__':
    sys.exit(main(sys.argv[1:]))
