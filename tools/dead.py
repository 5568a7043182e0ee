#!/usr/bin/env python3
"""Lists the definitions and lemmas that no other line of the crates names: places to look, as a theorem is named by documents alone.

usage: dead.py     at the top of the repository
"""
import collections
import glob
import re

NAME = re.compile(r"^ {0,2}(?:unfoldable |abbrev )*(?:pub )?([^\s:(){}\"]+) : ")
TOKEN = re.compile(r"[^\s(){}\[\];,.\"]+")
HEAD = re.compile(r'^\s*(?:unfoldable |abbrev )*(?:pub )?')


def main():
    declared, used = [], collections.Counter()
    for path in sorted(glob.glob('crates/**/*.antt', recursive=True) + glob.glob('crates/**/*.rt', recursive=True)):
        if '/out/' in path:
            continue
        with open(path, encoding='utf-8') as f:
            lines = [line for line in f.read().split('\n') if not re.match(r'\s*(?:--|//|use |ghost use )', line)]
        for line in lines:
            tokens = TOKEN.findall(HEAD.sub('', line))
            m = NAME.match(line) if re.fullmatch(r'crates/\w+/(?:specs|proofs)/\w+\.antt', path) else None
            if m:
                declared.append((path, m[1]))
            # a line that begins with a name declares it or is a clause of it
            used.update(set(tokens[1:]) - set(tokens[:1]))
            # an attribute names lemmas by their paths
            used.update(part for token in tokens for part in token.split('::')[1:])
    for path, name in declared:
        if not used[name]:
            print(path, name)


main()
