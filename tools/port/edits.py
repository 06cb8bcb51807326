#!/usr/bin/env python3
"""Brings the texts of the wrong versions (crates/*/must-fail, edits) to today's spelling, behind tools/port/spell.py, which respells their names.

Run at the top of the repository; rewrites the edits in place. `--check` writes nothing. A second run changes nothing.
Turned are: projections, which are written tight (`(x .f)` to `x.f`, `g x .f` to `(g x).f`); the library's words; the names of modules; clauses
(`ensures { λ r. ⌜ P ⌝ }` to `ensures P`); and lines of `use` that named the old library, whose words come from the prelude today.
What does not stand once in its file behind that, and what a text names that its file does not, is printed.
"""
import glob
import os
import re
import sys

WORD = r"[^\s(){}.;,@\"«»\[\]]+"
LIBRARY = {'getD': 'get_or', '_+_': '◌+◌', '_-_': '◌-◌', '_*_': '◌*◌', '_≤_': '◌≤◌', '_<_': '◌<◌', '_≡_': '◌≡◌', '_∷_': '◌∷◌', '_++_': '◌++◌',
           '⌜': None, '⌝': None}
OPERATORS = set("+ - * / % ≤ < ≡ × → = ∷ ++ && || , ; λ . : ∈ ⊎ ∙ ↦ $ | in let".split())
PRELUDE = 'use Rattle.std.specs.Prelude.{'
OLD_LIBRARY = re.compile(r"use (?:Prim\.Native|mathlib\.Core|lib)\.[\w.]+\.\{([^}]*)\}")


def atom_before(text, end):
    """Where the atom begins that ends at `end`: a word with its projections, or a group; None if there is none."""
    at = end
    while True:
        if at > 0 and text[at - 1] in ')}':
            depth = 0
            while at > 0:
                at -= 1
                if text[at] in ')}':
                    depth += 1
                elif text[at] in '({':
                    depth -= 1
                    if depth == 0:
                        break
            else:
                return None
            if depth:
                return None
        else:
            m = re.search(WORD + r'$', text[:at])
            if not m or m.group(0) in OPERATORS:
                return None
            at = m.start()
        if at > 0 and text[at - 1] == '.' and at > 1 and not text[at - 2].isspace():
            at -= 1
            continue
        return at


def tight(text):
    """With tight projections."""
    while True:
        m = re.search(r"(?<=[^\s(]) (\.%s(?: \.%s)*)" % (WORD, WORD), text)
        if not m:
            break
        chain = m.group(1).replace(' ', '')
        begin, atoms = m.start(), 0
        while True:
            b = atom_before(text, begin)
            if b is None:
                break
            atoms, begin = atoms + 1, b
            if b > 0 and text[b - 1] == ' ':
                if atom_before(text, b - 1) is None:
                    break
                begin = b - 1
            else:
                break
        head = text[begin:m.start()].lstrip(' ')
        lead = text[begin:m.start()][:len(text[begin:m.start()]) - len(head)]
        if atoms != 1:
            head = '(' + head + ')'
        text = text[:begin] + lead + head + chain + text[m.end():]
    # a group of one word, or of one group, with its projections needs no parentheses
    at = 0
    while True:
        at = text.find('(', at)
        if at < 0:
            break
        end, depth = at, 0
        for end in range(at, len(text)):
            depth += {'(': 1, ')': -1}.get(text[end], 0)
            if depth == 0:
                break
        inside = text[at + 1:end]
        if depth == 0 and re.search(r"\S\.%s$" % WORD, inside) and atom_before(inside, len(inside)) == 0 and text[end + 1:end + 2] != '.':
            text = text[:at] + inside + text[end + 1:]
        else:
            at += 1
    return text


def modules(text):
    text = re.sub(r"Rattle·([a-z_]+)·(?:specs|proofs)\.(specs|proofs)\.", r'Rattle.\1.\2.', text)
    return re.sub(r"Rattle·([a-z_]+)\.(specs|proofs)\.", r'Rattle.\1.\2.', text)


def clause(text):
    m = re.match(r"(\s*)(requires|ensures) \{ λ (\w+)\. ⌜ (.*) ⌝ \}$", text)
    return '%s%s { %s }' % (m.group(1), m.group(2), re.sub(r'(?<![\w.])%s(?!\w)' % m.group(3), 'result', m.group(4))) if m else text


def turned(text, antt):
    text = clause(modules(text))
    if antt:
        text = tight(text)
    return re.sub(WORD, lambda m: LIBRARY.get(m.group(0)) or m.group(0), text)


def prelude(old, new):
    """A pair that adds words to a line of the old library adds them to the prelude's line."""
    o, n = OLD_LIBRARY.match(old), OLD_LIBRARY.match(new)
    if not o or not n:
        return old, new
    had = [w.strip() for w in o.group(1).split(',')]
    more = [w.strip() for w in n.group(1).split(',') if w.strip() not in had]
    return PRELUDE, PRELUDE + ''.join(LIBRARY.get(w, w) + ', ' for w in more)


def main():
    check, wrong = '--check' in sys.argv[1:], 0
    for path in sorted(glob.glob('crates/*/must-fail/*.edit') + glob.glob('edits/*/*.edit') + glob.glob('edits/*/*.follows')):
        crate = path.split('/')[1]
        lines, out, target, texts, said = open(path, encoding='utf-8').read().split('\n'), [], '', {}, []
        old = None
        for line in lines:
            if line.startswith('file:'):
                target = 'crates/%s/%s' % (crate, line[5:].strip())
                if target not in texts:
                    texts[target] = open(target, encoding='utf-8').read() if os.path.exists(target) else ''
                    if not texts[target]:
                        said.append('no file ' + target)
            if line.startswith('old:'):
                old = line[5:]
                continue
            if line.startswith('new:'):
                new, text, antt = line[5:], texts[target], target.endswith('.antt')
                first, second = turned(prelude(old, new)[0], antt), turned(prelude(old, new)[1], antt)
                if text.count(first) != 1 and text.count(old) == 1:
                    first = old
                if text.count(first) != 1:
                    said.append('%s: stands %d times: %s' % (target, text.count(first), first))
                else:
                    strange = [w for w in re.findall(WORD, second) if w not in re.findall(WORD, text + first) and not w.isdigit()]
                    if strange:
                        said.append('%s: not in the file: %s' % (target, ' '.join(strange)))
                    texts[target] = text.replace(first, second)
                out += ['old: ' + first, ('new: ' + second).rstrip() if not second else 'new: ' + second]
                continue
            out.append(line)
        if out != lines and not check:
            open(path, 'w', encoding='utf-8').write('\n'.join(out))
        for s in said:
            wrong += 'not in the file' not in s
            print(path + ': ' + s)
    print('%d do not fit' % wrong)


main()
