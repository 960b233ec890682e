#!/usr/bin/env python3
"""Brings this repository's own names in specs/ and proofs/ to the spelling of today's Rattle.

    python3 tools/respell.py [FOLDER]

FOLDER is the top of the repository; without one it is this file's. Run it once, after the kit's port.py, which
respells the paths, clauses and operators, and names that the kit's library has too.

A definition in camel case gets snake case (`fileOf` becomes `file_of`), a fact gets a capital (`padSays` becomes
`PadSays`), and the proof of a function `f` is `f_spec`. A lemma that would then have the name of a definition gets
`_lem`. Functions of src/, the names that C sees, strings, inputs and outputs keep their names: of an .rt file only
names are turned that stand in camel case, which no name of the code does.
"""
import pathlib
import re
import sys

DEFINED = re.compile(r'\s*(?:pub |abbrev |unfoldable )*([^\s:(){}=.,]+)\s+:\s(.*)')
CAMEL = re.compile(r'[a-z][a-z0-9]*(?:[A-Z][a-z0-9]*)+')
# A part of a name in a proof file ends where none of these follows.
NAME = r"\w'₀-₉-"


def snake(name):
    return re.sub(r'([A-Z])', lambda found: '_' + found[1].lower(), name)


def definitions(root):
    """Each name that is defined in specs/ or proofs/, with what stands behind its colons."""
    found = {}
    for path in sorted(root.glob('crates/*/*/**/*.antt')):
        for line in path.read_text().splitlines():
            said = DEFINED.match(line)
            if said and not line.lstrip().startswith('--'):
                found.setdefault(said[1], []).append(said[2])
    return found


def renamed(root):
    """What each name becomes, and which lemmas have to make room."""
    defined = definitions(root)
    table = {}
    for name, types in defined.items():
        if CAMEL.fullmatch(name):
            fact = any(re.search(r'Type 0\s*$', said) for said in types)
            table[name] = name[0].upper() + name[1:] if fact else snake(name)
    if len(set(table.values())) < len(table):
        sys.exit('respell: two names would fall together')
    return table, {new: f'{new}_lem' for new in table.values() if new in defined}


def turned(text, table, edge=NAME):
    if not table:
        return text
    names = '|'.join(sorted(map(re.escape, table), key=len, reverse=True))
    return re.sub(rf'(?<![{edge}])(?:{names})(?![{edge}])', lambda found: table[found[0]], text)


def in_lemma_names(text, table):
    """A definition's name also stands in the names of lemmas about it, behind or before a dash."""
    return re.sub(r"[\w'₀-₉]+(?:-[\w'₀-₉]+)+",
                  lambda found: '-'.join(table.get(part, part) for part in found[0].split('-')), text)


def main():
    root = pathlib.Path(sys.argv[1] if sys.argv[1:] else pathlib.Path(__file__).resolve().parent.parent)
    table, lemmas = renamed(root)
    for path in sorted(root.glob('crates/*/*/**/*.antt')):
        text = old = path.read_text()
        # The name of a function as a part of a path, as in `Rattle.c.proofs.f.Tie`, is no lemma's.
        for name, new in lemmas.items():
            text = re.sub(rf'(?<![{NAME}.]){name}(?![{NAME}]|\.\w)', new, text)
        text = in_lemma_names(turned(text, table), table)
        if path.name == 'Proof.antt':
            function = path.parent.name
            text = re.sub(rf'(?<![{NAME}]){function.replace("_", "-")}-spec(?![{NAME}])', f'{function}_spec', text)
        if text != old:
            path.write_text(text)
    for pattern in ('crates/*/src/**/*.rt', 'crates/*/must-fail*/*.edit'):
        for path in sorted(root.glob(pattern)):
            text = path.read_text()
            if turned(text, table) != text:
                path.write_text(turned(text, table))
    # port.py turned some of the names that the pages cite, so there each name goes by what is defined now.
    defined = definitions(root)
    for path in sorted([root / 'README.md', *root.glob('docs/**/*.md')]):
        text = path.read_text()
        cited = {name: snake(name) for name in CAMEL.findall(text) if snake(name) in defined}
        new = re.sub(r'`[^`\n]+`', lambda found: turned(found[0], {**cited, **table}, edge=r'\w'), text)
        if new != text:
            path.write_text(new)
    print(f'respell: {len(table)} names, {len(lemmas)} lemmas that made room: {" ".join(sorted(lemmas.values()))}')


if __name__ == '__main__':
    main()
