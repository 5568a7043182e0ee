#!/usr/bin/env python3
"""Lists the statements that stand in the proofs of two files or more, their bound names left aside: places to look.

usage: twice.py     at the top of the repository
"""
import collections
import glob
import re

SIGNATURE = re.compile(r'^( {0,2})(?:unfoldable |abbrev )*(?:pub )?([^\s:(){}=]+) : (.*)$')
TOKEN = re.compile(r'[^\s(){}\[\];,]+|[(){}\[\];,]')


def statements(path):
    with open(path, encoding='utf-8') as f:
        lines = f.read().split('\n')
    i = 0
    while i < len(lines):
        m = SIGNATURE.match(lines[i])
        i += 1
        if not m or m[2].startswith('--'):
            continue
        text, indent, at = m[3], len(m[1]), i
        while i < len(lines) and lines[i].strip() and len(lines[i]) - len(lines[i].lstrip()) >= indent + 4:
            text += ' ' + lines[i].strip()
            i += 1
        yield at, m[2], text


def normal(text):
    bound = set()
    for m in re.finditer(r'[({]([^(){}:]+?) : |λ ([^.]+)\.', text):
        bound |= set((m[1] or m[2]).split())
    names = {}

    def one(token):
        base, dot, rest = token.partition('.')
        return names.setdefault(base, f'v{len(names)}') + dot + rest if base in bound else token

    return ' '.join(map(one, TOKEN.findall(text))).replace('{', '(').replace('}', ')')


def main():
    places = collections.defaultdict(list)
    for path in sorted(glob.glob('crates/*/proofs/*.antt')):
        for line, name, text in statements(path):
            key = normal(text)
            if len(key) > 25:
                places[key].append((path, line, name))
    for key, found in sorted(places.items(), key=lambda it: -len(it[0])):
        if len({path for path, _, _ in found}) > 1:
            print(key[:200])
            for path, line, name in found:
                print(f'    {path}:{line} {name}')


main()
