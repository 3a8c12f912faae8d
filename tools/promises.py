#!/usr/bin/env python3
"""Looks that each contract, definition and edit that docs/PROMISES.md names is there, and that each edit is named."""
import pathlib
import re
import sys

ROOT = pathlib.Path(__file__).resolve().parent.parent
CRATES = {path.name: path for path in sorted((ROOT / 'crates').iterdir()) if path.is_dir()}


def edits_of(crate):
    return {path.stem for path in CRATES[crate].glob('must-fail/*.edit')}


def functions_of(crate):
    sources = '\n'.join(path.read_text() for path in CRATES[crate].rglob('src/**/*.rt'))
    return set(re.findall(r'\b(?:fn|struct|enum|trait) (\w+)', sources))


def rows(text):
    for line in text.splitlines():
        cells = [cell.strip() for cell in line.strip().strip('|').split('|')]
        if line.startswith('|') and len(cells) == 4 and cells[0] != 'promise' and not set(cells[0]) <= set('-'):
            yield cells


def contract_flaws(cell):
    crate = None
    for path in re.findall(r'`([\w:]+)`', cell):
        *front, name = path.split('::')
        crate = front[0] if front and front[0] in CRATES else crate
        if crate and name not in functions_of(crate):
            yield f'{crate} has no {name}'


def edit_flaws(cell, named):
    for crate, names in re.findall(r'(\w+): ([\w, -]+)', cell):
        for name in names.split(', '):
            named.add((crate, name.strip()))
            if name.strip() not in edits_of(crate):
                yield f'{crate} has no edit {name}'


def definition_flaws(cell):
    files = {path.stem for path in (ROOT / 'crates').glob('*/specs/**/*.antt')}
    for name in re.findall(r'`(\w+)`', cell):
        if name not in files:
            yield f'no file of specs/ is {name}'


def main():
    named = set()
    flaws = []
    for promise, contract, definitions, edits in rows((ROOT / 'docs/PROMISES.md').read_text()):
        for flaw in [*contract_flaws(contract), *definition_flaws(definitions), *edit_flaws(edits, named)]:
            flaws.append(f'{promise}: {flaw}')
    flaws += [f'named nowhere: {crate}: {name}' for crate in CRATES for name in sorted(edits_of(crate)) if (crate, name) not in named]
    print('\n'.join(flaws) or f'{len(named)} edits are named, and all is there')
    return 1 if flaws else 0


if __name__ == '__main__':
    sys.exit(main())
