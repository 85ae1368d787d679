#!/usr/bin/env python3
"""Gives `AllByRecursion`, which the older files call `All`, the name `Each`: the library has another `All`.

It also names three lemmas after `get_or`, the library's word for what was `getD`. Run once, at the top, after the kit's
port.py and respell.py.
"""
import glob
import re

WORD = re.compile(r"(?<![\w'.-])All(?![\w'-])")
LEMMAS = {'getD_same': 'get_or_same', 'get_d_set': 'get_or_set', 'getD_last': 'get_or_last'}
LEMMA = re.compile(r"(?<![\w'-])(?:" + '|'.join(LEMMAS) + r")(?![\w'-])")


def turn(line, note):
    k = line.find(note)
    code, rest = (line, '') if k < 0 else (line[:k], line[k:])
    return WORD.sub('Each', code) + rest


for path in glob.glob('crates/*/specs/**/*.antt', recursive=True) + glob.glob('crates/*/proofs/**/*.antt', recursive=True) + glob.glob('crates/*/src/**/*.rt', recursive=True):
    text = open(path).read()
    new = LEMMA.sub(lambda m: LEMMAS[m.group(0)], text)
    if 'AllByRecursion as All' in new:
        note = '--' if path.endswith('.antt') else '//'
        new = ''.join(turn(line, note) for line in new.splitlines(True))
    if new != text:
        open(path, 'w').write(new)
