#!/usr/bin/env python3
"""Brings the names of this repository's own definitions and lemmas to today's spelling.

A definition, a lemma, a field or a local name is in snake case (`ranked-price` becomes `ranked_price`); a fact or a type
is in upper camel case (`Stays-sound` becomes `StaysSound`). Run once, at the top, right after the kit's port.py. Names of
std, names that the check makes, and functions of src/ stay as they are. Two names of a different meaning that would
become one are told apart by CHOSEN.
"""
import collections
import glob
import re
import sys

# New names where the rule alone would give two things one name, or a name that means something else already.
CHOSEN = {
    'Most-shares': 'TradeHasMost',
    'Best-cost': 'TradeCostsBest',
    'Quotes-hold': 'QuotesAlwaysHold',
    'Rules-hold': 'RulesAlwaysHold',
    'by-limit': 'first_by_limit',
    'by-offset': 'first_by_offset',
    'bit-or': 'or_bit',
    'bit-xor': 'xor_bit',
}

IDENT = r"[A-Za-z_][\w'₀-₉≢≤≡-]*"
DECLARED = re.compile(r"^\s*(?:(?:abbrev|unfoldable|pub|data|record|mod)\s+)*(" + IDENT + r")(?:\s+[({][^:]*)?\s*:")
OWN = r"Rattle\.(?:terms|quotes|scan_table|tournament_tree|lot_layer|exception_layer|rules|ranking|sifting|queues|register|laws|slips|stacks|tour|venue_tour|matching|book|venue)\."


def spelled(name):
    if name in CHOSEN:
        return CHOSEN[name]
    if name[0].isupper():
        return ''.join(part[:1].upper() + part[1:] for part in name.split('-'))
    return name.replace('-', '_')


def files():
    antt = glob.glob('crates/*/specs/**/*.antt', recursive=True) + glob.glob('crates/*/proofs/**/*.antt', recursive=True)
    return sorted(antt), sorted(glob.glob('crates/*/src/**/*.rt', recursive=True))


def declared(antt):
    names = set()
    foreign = set()
    for path in antt:
        answers = '/proofs/' in path and path.endswith(('Answers.antt', 'Invariants.antt', 'Choices.antt'))
        for line in open(path):
            use = re.match(r"^\s*use ([\w.]+)\.\{(.*)\}", line)
            if use:
                if not re.match(OWN, use.group(1) + '.'):
                    for item in use.group(2).split(','):
                        foreign.add(item.strip().split(' as ')[0])
                continue
            for m in re.finditer(r"\blet (" + IDENT + r")", line):
                names.add(m.group(1))
            if answers and re.match(r"^\S", line):
                continue
            m = DECLARED.match(line)
            if m:
                names.add(m.group(1))
            m = re.match(r"^\s*pub (?:record|data) (" + IDENT + r")", line)
            if m:
                names.add(m.group(1))
            for m in re.finditer(r"λ ((?:" + IDENT + r"\s*)+)\.", line):
                names.update(m.group(1).split())
            for m in re.finditer(r"[({]((?:" + IDENT + r"\s+)*" + IDENT + r") :", line):
                names.update(m.group(1).split())
    return {n for n in names if '-' in n and n not in foreign}


def main():
    antt, rt = files()
    names = {n: spelled(n) for n in declared(antt)}
    token = re.compile(r"(?<![\w'-])" + IDENT)

    # What stands behind a dot, or in the crate of the book, is a field and not the rule of a queue.
    def turn(text, path=''):
        def one(m):
            w = m.group(0)
            if w not in names:
                return w
            if w == 'by-offset' and (path.startswith('crates/book/') or text[m.start() - 1] == '.'):
                return 'by_offset'
            return names[w]
        return token.sub(one, text)

    # names that fall together
    seen = collections.defaultdict(set)
    for path in antt:
        for m in token.finditer(open(path).read()):
            w = m.group(0)
            new = names.get(w, w)
            if w in names or new in names.values():
                seen[(path, new)].add(w)
    for (path, new), olds in sorted(seen.items()):
        if len(olds) > 1:
            print('falls together:', path, new, sorted(olds))
    if '--dry' in sys.argv:
        print(len(names), 'names')
        return
    for path in antt:
        text = open(path).read()
        open(path, 'w').write(turn(text, path))
    for path in rt:
        out = []
        for line in open(path):
            out.append(line if re.match(r"\s*//", line) or '"' in line else turn(line))
        open(path, 'w').write(''.join(out))
    for path in sorted(glob.glob('docs/*.md')) + ['README.md']:
        if path.endswith(('PORT.md', 'PORT-OTHER.md')):
            continue
        text = open(path).read()
        text = re.sub(r"`[^`\n]*`", lambda m: turn(m.group(0)), text)
        open(path, 'w').write(text)
    print(len(names), 'names respelled')


main()
