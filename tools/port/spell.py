#!/usr/bin/env python3
"""Brings the repository's own definitions and lemmas to today's spelling: snake_case, and ' for the old prime.

Run at the top of the repository; rewrites crates/*/{src,specs,proofs} (.rt, .antt) and the wrong versions
(crates/*/must-fail, edits) in place. A second run changes nothing. `--tell` lists the table, and writes nothing.
"""
import collections
import os
import re
import sys

# Definitions whose plain new spelling will not do: another clear name.
OTHERS = {
}

# Where a definition's new spelling is a lemma's name in the same file: the lemma's other name (file, definition, lemma, new).
LEMMAS = [
    ('crates/model/proofs/Schedule/Answered.antt', 'askedIn', 'asked_in', 'asked_in_is'),
    ('crates/model/proofs/Reader/Written.antt', 'componentBytes', 'component_bytes', 'component_bytes_are'),
    ('crates/recurrence/proofs/Found.antt', 'hasFirst', 'has_first', 'has_first_is'),
    ('crates/model/proofs/Network/Passage.antt', 'inWindow', 'in_window', 'in_window_is'),
    ('crates/machine/proofs/Sending.antt', 'partIn', 'part_in', 'part_in_is'),
    ('crates/calls/proofs/Spreading.antt', 'readAt', 'read_at', 'read_at_is'),
    ('crates/calls/proofs/RunCalls.antt', 'readAt', 'read_at', 'read_at_is'),
    ('crates/uppaal/proofs/XtaParsed.antt', 'sumMore', 'sum_more', 'sum_more_is'),
    ('crates/opening_text/specs/Cases.antt', 'tooShort', 'too_short', 'too_short_is'),
    ('crates/node/proofs/Effects.antt', 'valueSet', 'value_set', 'value_set_is'),
    ('crates/node/proofs/Steps.antt', 'valueSet', 'value_set', 'value_set_is'),
    ('crates/statement/proofs/update_statement/Proof.antt', 'valueSet', 'value_set', 'value_set_is'),
]

# Lemmas that keep their hyphens, beyond those that the rules below keep.
KEEP = set()

TOKEN = r"[^\s(){}.;,@\"«»\[\]]+"
STRING = r'"(?:\\.|[^"\\\n])*"'
ANTT = re.compile(r"(?P<comment>--[^\n]*)|(?P<string>%s)|(?P<token>%s)" % (STRING, TOKEN))
RT = re.compile(r"(?P<comment>//[^\n]*)|(?P<char>b?'(?:\\[^\n]|[^'\\\n])')|(?P<string>\"(?:\\.|[^\"\\])*\")|(?P<token>%s)" % TOKEN, re.S)
DECLARED = re.compile(r"(?m)^( *)((?:(?:pub|abbrev|unfoldable|opaque|inline|record|data|instance|postulate|partial|law|constructor|mutual)\s+)*)"
                      r"([^\s(){}.;,@\"«»]+)((?: \{[^{}\n]*\})*) :(?= |$)")
USE = re.compile(r"\buse\s+([^\s;{]+?)\.\{([^}]*)\}")
USE_ONE = re.compile(r"\buse\s+([^\s;{]+)(?:\s+as\s+([^\s;]+))?\s*(?:;|$)", re.M)
CAMEL = re.compile(r"(?<=[a-z0-9])[A-Z]")


def camel(name):
    return bool(CAMEL.search(name)) and name[0].islower() and '\\' not in name and not name.startswith('0x')


def snake(name):
    return CAMEL.sub(lambda m: '_' + m.group(0).lower(), name).replace('-', '_')


def is_proof(path):
    return path.endswith('/Proof.antt')


def foreign(module):
    """Whether a module has no file of this repository: it is a library's, or made by Rattle."""
    part = re.split('[.·]', module)
    if part[0] != 'Rattle' or 'declared' in part:
        return True
    return not any(os.path.isfile(os.path.join('crates', *part[1:n]) + '.antt') for n in range(4, len(part) + 1))


def strip(text, path):
    pattern = RT if path.endswith('.rt') else ANTT
    return pattern.sub(lambda m: m.group(0) if m.lastgroup == 'token' else ' ' if m.lastgroup == 'comment' else '""', text)


class File:
    def __init__(self, path, text):
        self.path, self.text = path, text
        self.code = strip(text, path)
        # what stands in the file, without the names of modules
        self.tokens = set(re.findall(TOKEN, re.sub(r"\bRattle(?:[.·][\w']+)*[.·]", ' ', self.code)))
        # and without the fields: what stands behind a point, or is given in a record
        bare = re.sub(r"([{;]\s*)%s(?= = )" % TOKEN, r'\1', re.sub(r"\bRattle(?:[.·][\w']+)*[.·]", ' ', self.code))
        self.bare = set(re.findall(r"(?<!\.)(?<![^\s(){}.;,@\"«»\[\]])" + TOKEN, bare))
        self.imports, self.aliases = uses(self.code)
        self.lemmas = {}


def uses(code):
    """Names that are imported (own, foreign), and the names of foreign modules."""
    own, other, aliases = set(), set(), set()
    for module, names in USE.findall(code):
        for name in names.split(','):
            words = name.split()
            if words:
                (other if foreign(module) else own).add(words[0])
    for module, alias in USE_ONE.findall(code):
        if foreign(module):
            aliases.add(alias or module.split('.')[-1])
        elif not alias:
            own.add(module.split('.')[-1])
    return (own, other), aliases


def read(paths):
    files = {p: File(p, open(p, encoding='utf-8').read()) for p in paths}
    stand = set().union(*(f.tokens for f in files.values()))
    for file, definition, old, new in LEMMAS:
        if file in files and definition in stand:
            files[file].lemmas[old] = new
    return files


def sources():
    found = []
    for crate in sorted(os.listdir('crates')):
        for part in ('src', 'specs', 'proofs'):
            for folder, folders, names in os.walk(os.path.join('crates', crate, part)):
                folders.sort()
                found += [os.path.join(folder, n) for n in sorted(names) if n.endswith(('.rt', '.antt'))]
    return found


def edits():
    found = []
    for top in ('crates', 'edits'):
        for folder, folders, names in os.walk(top):
            folders[:] = sorted(f for f in folders if f != 'out')
            if top == 'edits' or os.path.basename(folder) == 'must-fail':
                found += [os.path.join(folder, n) for n in sorted(names) if n.endswith(('.edit', '.follows'))]
    return found


def fields(code):
    """The fields of the records."""
    found, block = set(), None
    for line in code.split('\n'):
        if not line.strip():
            continue
        indent = len(line) - len(line.lstrip(' '))
        if block is not None and indent <= block:
            block = None
        m = DECLARED.match(line)
        if block is not None and m:
            found.add(m.group(3))
        if re.match(r" *(?:\w+ +)*record ", line):
            block = indent
    return found


class Table:
    def __init__(self, files):
        antt = [f for f in files.values() if f.path.endswith('.antt')]
        self.own, self.labels, self.fields, shared = set(), set(), set(), set()
        for f in antt:
            for m in DECLARED.finditer(f.code):
                if is_proof(f.path):
                    self.labels.add(m.group(3))
                    if 'pub' in m.group(2).split():
                        shared.add(m.group(3))
                else:
                    self.own.add(m.group(3))
            if not is_proof(f.path):
                self.fields |= fields(f.code)
            self.labels |= {t[5:] for t in f.tokens if t.startswith('Need-')}
        for f in files.values():
            if f.path.endswith('.rt'):
                self.labels |= {n.replace('_', '-') for n in re.findall(r'\bfn (\w+)', f.code)}
        users = collections.defaultdict(list)
        for f in files.values():
            for t in f.tokens:
                users[t].append(f)

        # definitions (and what is bound in camelCase)
        self.new, self.clash, self.kept = {}, [], {}
        names = {t for f in antt for t in f.tokens if camel(t) and '-' not in t and t not in f.imports[1]}
        for name in sorted(names):
            self.new[name] = OTHERS.get(name, snake(name))
        back = collections.defaultdict(list)
        for name, new in self.new.items():
            back[new].append(name)
        for name, new in sorted(self.new.items()):
            for f in users[name]:
                others = [n for n in back[new] if n != name and n in f.tokens]
                if new in f.bare and new not in f.lemmas or others:
                    # a function, and a field, may have a definition's name
                    if f.path.endswith('.rt') and not re.search(r'\bfn [^{]*\b%s\s*:(?!:)|\blet (?:mut )?%s\b|\bfor %s\b' % (new, new, new), f.code):
                        continue
                    self.clash.append((name, new, f.path, others))

        # lemmas
        after = {self.new.get(n, n) for n in self.own}
        for f in files.values():
            f.after = {f.lemmas.get(t) or self.new.get(t, t) for t in f.tokens}
        hyphened = {n for n in self.own if '-' in n and n[0].isalpha() and n[0].islower()}
        hyphened |= {t for f in antt if not is_proof(f.path) for t in f.tokens if camel(t) and '-' in t}
        count = collections.Counter(snake(n) for n in hyphened)
        for name in sorted(hyphened):
            new = snake(name)
            if name in KEEP:
                why = 'by hand'
            elif name in shared:
                why = 'a function\'s proof'
            elif name in self.fields and name in self.labels:
                why = 'a field, and a label'
            elif new in after:
                why = 'an own name'
            elif count[new] > 1:
                why = 'another lemma'
            elif any(new in f.after for f in users[name]):
                why = 'stands in a file'
            else:
                self.new[name] = new
                continue
            if camel(name):
                self.new[name] = new.replace('_', '-')
            self.kept[name] = why

    def of(self, path, code, imports, aliases, lemmas):
        """Whether a token is replaced in a file: by (token, the one before its point, whether a point is before it)."""
        proof = is_proof(path)

        def new(token, before, pointed):
            if token in lemmas:
                return lemmas[token]
            if token not in self.new or token in imports[1] or (pointed and before in aliases):
                return None
            if proof and '-' in token and token not in self.fields:
                if pointed and not before_module(before) or not pointed and token not in imports[0]:
                    return None
            return self.new[token]

        own_modules = {a for m, a in USE_ONE.findall(code) if a and not foreign(m)}

        def before_module(before):
            return before in own_modules or before[:1].isupper()
        return new


def in_comment(text, new):
    def one(m):
        name = m.group(0)
        if '-' in name and text.count('`', 0, m.start()) % 2 == 0:  # English, unless it is quoted
            return name
        return new(name, '', False) or name
    return re.sub(r"(?<![\w'-])[A-Za-z][\w'-]*(?![\w'-])", one, text)


def rewritten(text, path, new):
    pattern = RT if path.endswith('.rt') else ANTT
    last = ['', -1]

    def one(m):
        whole = m.group(0)
        if m.lastgroup == 'comment':
            return in_comment(whole, new)
        if m.lastgroup != 'token':
            return whole
        pointed = m.start() > 0 and text[m.start() - 1] == '.'
        before = last[0] if last[1] == m.start() - 1 else ''
        last[0], last[1] = whole, m.end()
        return new(whole.replace('′', "'"), before, pointed) or whole.replace('′', "'")
    return pattern.sub(one, text)


def late(new, file, table):
    """For an edit: also what the sources were respelt before, if only the new spelling stands in the file."""
    def one(token, before, pointed):
        known = new(token, before, pointed)
        if known or token in file.tokens or token in table.kept or not token[:1].islower():
            return known
        spelt = snake(token)
        return spelt if spelt != token and spelt in file.tokens else None
    return one


def main():
    tell = '--tell' in sys.argv[1:]
    files = read(sources())
    table = Table(files)
    changed = 0
    for clash in table.clash:
        print('collision:', *clash)
    if tell:
        for name, why in sorted(table.kept.items()):
            print('kept:', name, '(%s)' % why)
        for name, new in sorted(table.new.items()):
            print(name, new)
    if table.clash:
        sys.exit('nothing written: name another in OTHERS')
    if tell:
        return
    for path, f in files.items():
        text = rewritten(f.text, path, table.of(path, f.code, f.imports, f.aliases, f.lemmas))
        if text != f.text:
            changed += 1
            open(path, 'w', encoding='utf-8').write(text)
    files = read(sources())  # as they stand now
    for path in edits():
        text = open(path, encoding='utf-8').read()
        part = path.split('/')
        crate, target, lines = part[1], '', []
        extra = uses(text)[0]
        for line in text.split('\n'):
            if line.startswith('file:'):
                target = os.path.join('crates', crate, line[5:].strip())
            m = re.match(r'(old:|new:)(.*)$', line)
            if m:
                f = files.get(target)
                own, other, aliases, code, lemmas = extra[0], extra[1], set(), text, {}
                if f:
                    own, other, aliases, code, lemmas = own | f.imports[0], other | f.imports[1], f.aliases, f.code, f.lemmas
                new = table.of(target, code, (own, other), aliases, lemmas)
                line = m.group(1) + rewritten(m.group(2), target, late(new, f, table) if f else new)
            lines.append(line)
        if '\n'.join(lines) != text:
            changed += 1
            open(path, 'w', encoding='utf-8').write('\n'.join(lines))
    camels = sum(1 for n in table.new if '-' not in n)
    print('%d definitions, %d lemmas respelt, %d kept their hyphens; %d files changed'
          % (camels, len(table.new) - camels, len(table.kept), changed))


main()
