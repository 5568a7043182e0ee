#!/usr/bin/env python3
"""Writes the lines of code, specs and proofs of each crate into README.md's table.

usage: lines.py     at the top of the repository
"""
import glob
import re

FOLDERS = (('src', 'rt'), ('specs', 'antt'), ('proofs', 'antt'))


def lines(crate, folder, ending):
    total = 0
    for path in glob.glob(f'crates/{crate}/{folder}/**/*.{ending}', recursive=True):
        with open(path, encoding='utf-8') as f:
            total += sum(1 for _ in f)
    return total


def shown(n):
    return f'{n:,}' if n > 1 else ''


def main():
    with open('crates.txt', encoding='utf-8') as f:
        crates = [line.split(':')[0].split()[0] for line in f if line.strip() and not line.startswith('#')]
    with open('README.md', encoding='utf-8') as f:
        text = f.read()
    counts = {crate: [lines(crate, *folder) for folder in FOLDERS] for crate in crates}
    seen = set()

    def row(m):
        if m[1] not in counts:
            return m[0]
        seen.add(m[1])
        return f'| `{m[1]}` | {m[2]} | ' + ' | '.join(map(shown, counts[m[1]])) + ' |'

    text = re.sub(r'^\| `(\w+)` \| (.*?) \| ([\d,]*) \| ([\d,]*) \| ([\d,]*) \|$', row, text, flags=re.M)
    totals = [f'{sum(column):,}' for column in zip(*counts.values())]
    text = re.sub(r'^\| all \| \| .*$', f'| all | | {" | ".join(totals)} |', text, flags=re.M)
    with open('README.md', 'w', encoding='utf-8') as f:
        f.write(text)
    print('all', *totals)
    for crate in sorted(set(crates) - seen):
        print('no row for', crate)


main()
