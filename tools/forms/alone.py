#!/usr/bin/env python3
"""Takes away the answers that the check finds alone, in the crate's folder given: sets all of proofs/*/Answers.antt aside, lets `rt check --margin` (half
of the search's limits) say which goals stay open, and puts back the answers to those. Says how many there were and how many are left.

usage: alone.py CRATE_FOLDER [--list]     --list changes nothing and names the answers that could go
"""
import os, re, subprocess, sys, glob, shutil, tempfile

crate = os.path.abspath(sys.argv[1])
only_list = "--list" in sys.argv
files = sorted(glob.glob(crate + "/proofs/**/Answers.antt", recursive=True))
if not files:
    print(f"{os.path.basename(crate)}: no answers")
    sys.exit(0)
texts = {f: open(f).read() for f in files}
HEAD = re.compile(r"^pub (\S+) : goal\.(\S+)")


def check(*flags):
    done = subprocess.run(["rt", "check", *flags], cwd=crate, stdout=subprocess.PIPE, stderr=subprocess.STDOUT, text=True)
    return done.stdout


def blocks(text):
    """Pieces of the file: (name of the answer or None, lines)."""
    out, cur = [], (None, [])
    lead = []
    for line in text.split("\n"):
        top = bool(line) and not line[0].isspace()
        m = HEAD.match(line)
        if top and line.startswith("--"):
            lead.append(line)
            continue
        if m:
            out.append(cur)
            cur = (m.group(1), lead + [line])
            lead = []
            continue
        if top and cur[0] is not None and not (line.startswith("unfolding") or line.startswith(cur[0] + " ") or line[0] in ")]}"):
            # a further declaration of the file: its own piece
            out.append(cur)
            cur = (None, lead + [line])
            lead = []
            continue
        cur[1].extend(lead)
        lead = []
        cur[1].append(line)
    cur[1].extend(lead)
    out.append(cur)
    return out


aside = tempfile.mkdtemp()
try:
    for f in files:
        os.remove(f)
    said = check("--margin", "--allow-holes")
finally:
    for f in files:
        open(f, "w").write(texts[f])
# What stays open, by the folder of the function.
open_goals = {}
for m in re.finditer(r"^fn (\S+): no proof: (.*)$", said, re.M):
    rest = m.group(2)
    folder = re.search(r"expected answers in \./(proofs/\S+?)/Answers\.antt", rest)
    names = re.search(r"did not prove ((?:`[^`]+`(?:, )?(?: and )?)+)", rest)
    if folder:
        open_goals.setdefault(folder.group(1), set()).update(re.findall(r"`([^`]+)`", names.group(1)) if names else {"*"})
proved = set(re.findall(r"^fn (\S+): (?:proved|no holes)", said, re.M))
if not proved and not open_goals:
    print(said[-3000:])
    sys.exit("nothing was said of any function")
before = after = 0
gone = []
for f in files:
    folder = os.path.relpath(os.path.dirname(f), crate)
    still = open_goals.get(folder, set())
    pieces = blocks(texts[f])
    kept, dropped = [], 0
    for name, lines in pieces:
        if name is None:
            kept.append((name, lines))
            continue
        before += 1
        need = "*" in still or any(u == name or u.startswith(name + "-clause") or name.startswith(u + "-clause") for u in still)
        if need:
            after += 1
            kept.append((name, lines))
        else:
            dropped += 1
            gone.append(f"{folder}: {name}")
    if not dropped or only_list:
        continue
    if all(n is None for n, _ in kept) and not any(re.match(r"(pub |abbrev |unfoldable )", l) for _, ls in kept for l in ls):
        os.remove(f)
        continue
    text = "\n".join("\n".join(ls).rstrip("\n") + "\n" for _, ls in kept)
    open(f, "w").write(text)
print(f"{os.path.basename(crate)}: {before} answers, {after} stay")
for g in gone:
    print("  gone", g)
if not only_list:
    said = check("--fix-imports")
    said = check()
    bad = re.findall(r"^fn \S+: no proof.*$", said, re.M)
    print("\n".join(bad) if bad else "", re.findall(r"^logic=\S+", said, re.M)[-1:])
    if bad:
        print("check again by hand")
