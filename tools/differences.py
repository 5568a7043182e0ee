#!/usr/bin/env python3
"""Writes the table of answers by number, which `differential run` prints at its end, into docs/DIFFERENCES.md.

usage: differences.py LOG     at the top of the repository; LOG is what the run printed
"""
import re
import sys

PAGE = 'docs/DIFFERENCES.md'


def table(log):
    lines = log.splitlines()
    head = next(i for i, line in enumerate(lines) if line.strip().startswith('number'))
    operations = lines[head].split()[1:]
    rows = []
    for line in lines[head + 1:]:
        fields = line.split()
        if len(fields) != len(operations) + 1 or not fields[0].isdigit():
            break
        rows.append(fields[:1] + ['' if n == '-' else f'{int(n):,}' for n in fields[1:]])
    rows = [['number', *operations], ['---'] * (len(operations) + 1), *rows]
    return ''.join(f'| {" | ".join(row)} |\n' for row in rows).replace('| --- |', '|---|').replace(' --- |', '---|')


def main():
    with open(sys.argv[1], encoding='utf-8') as f:
        new = table(f.read())
    with open(PAGE, encoding='utf-8') as f:
        text = f.read()
    with open(PAGE, 'w', encoding='utf-8') as f:
        f.write(re.sub(r'\| number \|.*?\n\n', lambda m: new + '\n', text, count=1, flags=re.S))


main()
