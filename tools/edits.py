#!/usr/bin/env python3
"""Lists the must-fail edits whose old text does not stand exactly once in the file that it changes.

usage: edits.py     at the top of the repository
"""
import glob


def main():
    edits = sorted(glob.glob('crates/*/must-fail/*.edit'))
    bad = 0
    for edit in edits:
        folder = edit.split('/must-fail/')[0]
        text = ''
        with open(edit, encoding='utf-8') as f:
            lines = f.read().split('\n')
        for line, after in zip(lines, lines[1:] + ['']):
            if line.startswith('file: '):
                with open(f'{folder}/{line[6:]}', encoding='utf-8') as f:
                    text = f.read()
            elif line.startswith('old: '):
                old = line[5:]
                if text.count(old) != 1:
                    bad += 1
                    print(f'{edit}: stands {text.count(old)} times: {old}')
                if after.startswith('new: '):
                    text = text.replace(old, after[5:])
    print(f'{len(edits)} edits, {bad} texts that do not stand once')
    return 1 if bad else 0


raise SystemExit(main())
