#!/usr/bin/env python3
"""Counts the places of the design pass's points in the sources below crates/*/src.

    tools/places.py [-v] [ROOT]     a line for each row with its count; with -v each place too

It reads text alone, so it runs on any commit: `git worktree add FOLDER COMMIT`, then `tools/places.py FOLDER`.
"""
import pathlib
import re
import sys

# A row: its point, its name, and the pattern of a place. Patterns are matched line by line, comments left out.
LINES = [
    ('1', 'own enums of the shape of Option or Result', r'^    (Refused|Stopped|Trouble|Missing)\b'),
    ('1', 'a flag with a value beside it', r'^    (pub )?(form|valid|fits|second): bool,|^    pub verdict: Verdict,'),
    ('1', 'numbers for kinds, tags and refusals', r'\b(kind|tag|refusal): u(8|16|32)\b|^pub const (PCM|IMA|MICROSOFT|LABEL|NOTE)\b'),
    ('1', 'an index that says none by being past the end', r'fn (find|find_cue|first_zero)\b.*-> usize'),
    ('3', 'while loops', r'^\s+while '),
    ('4', 'smaller, larger, held, less: arithmetic that the library has',
     r'^(pub )?fn (smaller|least|less|less_one|held|held_delta|moved|held_of|wide|narrow|from_bits|to_bits|raised|lowered)\('),
    ('4', 'copies and comparisons by hand', r'^(pub )?fn (put_(few|sixteen|many|turns|same|words)|to_sixteen|same_\w+|there)\('),
    ('4', 'variants told apart one by one, for a yes or no', r'^\s+\w+::\w+ => (true|false),'),
    ('4', 'lines printed piece by piece', r'\bshow::(word|field|number|line|sample)\(|^    (word|number)\(rt'),
    ('5', 'IsSteps, IsHeld, IsFactors in a contract', r'\bIs(Steps|Held|Factors) \w+\.now'),
    ('5', 'an index below 89 in a contract', r'\bindex < 89'),
    ('5', 'format_rule in a contract', r'format_rule \w+ ≡ true'),
    ('5', 'a count of at most 64 or 128 in a contract', r'count ≤ (64|128)'),
    ('5', 'Tame in a contract', r'\bTame \w+'),
    ('6', 'an array by value with a length beside it', r'\[(Cue|Play|Title); \d+\](, n: usize|, plays)'),
    ('7', 'a switch on a number that says which step to run', r'match operation|kind: u16'),
]
# What twins' names differ in: a size, a type, or which of two alike.
WORDS = (r'u16|u32|u64|pcm16|pcm8|four|eight|sixteen|many|few|mono|stereo|left|right|both|cue|cues|play|plays|playlist'
         r'|title|titles|label|note|ima|ms|upper|lower|real|filled|lefts|rights')
FUNCTION = re.compile(r'^\s*(?:pub(?:\([a-z]+\))? )?(?:extern "C" )?fn (\w+)')
# Functions of one name in crates of one kind.
ALIKE = [('ima_block', 'ms_block')]


def code(path):
    """The lines of a file with their numbers, without comments."""
    for number, line in enumerate(path.read_text().splitlines(), 1):
        if not line.lstrip().startswith('//'):
            yield number, line


def twins(root, sources):
    """Functions of a crate whose names differ in one of the words only, and those of alike crates with one name."""
    found = []
    names = {}
    for path in sources:
        crate = path.relative_to(root).parts[1]
        for number, line in code(path):
            if (m := FUNCTION.match(line)):
                names.setdefault(crate, []).append((m[1], path, number))
    for listed in names.values():
        groups = {}
        for name, path, number in listed:
            groups.setdefault(re.sub(rf'(?<![a-z])({WORDS})(?![a-z])', '@', name), []).append((name, path, number))
        found += [place for group in groups.values() if len({p[0] for p in group}) > 1 for place in group]
    for one, other in ALIKE:
        here = {name for name, _, _ in names.get(one, [])}
        found += [p for p in names.get(other, []) if p[0] in here]
    return found


def main(words):
    told = '-v' in words
    words = [w for w in words if w != '-v']
    root = pathlib.Path(words[0] if words else pathlib.Path(__file__).parent.parent).resolve()
    sources = sorted(root.glob('crates/*/src/*.rt'))
    rows = [(point, name, [(line.strip(), path, number) for path in sources for number, line in code(path)
                           if re.search(pattern, line)]) for point, name, pattern in LINES]
    rows.append(('2', 'functions whose names differ in a size, a type or which of two', twins(root, sources)))
    for point, name, places in sorted(rows, key=lambda row: row[0]):
        print(f'{point}  {len(places):4}  {name}')
        for text, path, number in places if told else []:
            print(f'          {path.relative_to(root)}:{number}: {text}')


main(sys.argv[1:])
