#!/usr/bin/env python3
"""Turns proofs that hand a list of needs to `tie.spec` into Invariants.antt and Answers.antt.

usage: answers.py CRATE_FOLDER NAMES_JSON [FUNCTION_FOLDER..]

NAMES_JSON is what `rt check --generated DIR --old-names` writes for the crate. Each proofs/../Proof.antt that has `tie.spec` is read, its needs get
the names of today's goals, chains `c.before.before.x` become `c.x`, and invariants go over the record of the loop's variables. Answers that are
`search rules` alone are left out, since the check tries that first. What could not be matched is said in a line `left:`.
"""
import json, os, re, sys

crate, names_path = sys.argv[1], sys.argv[2]
only = set(sys.argv[3:])
name = os.path.basename(os.path.abspath(crate))
names = json.load(open(names_path))
TOK = r"[^\s(){}.;,@\"«»\[\]]+"
HEAD = re.compile(r"^(?:(?:pub|abbrev|unfoldable|opaque|inline|record|data|instance)\s+)*(%s)((?: \{[^{}\n]*\}| \([^()\n]*\))*) :(?=\s|$)" % TOK)


def norm(n):
    n = n.replace("_", "-").replace("′", "'")
    n = re.sub(r"^Need-", "", n)
    n = re.sub(r"^overflow-(add|sub|mul|cast|shl|shr|step)-", r"\1-", n)
    n = re.sub(r"^nonzero-(div|rem)-", r"\1-", n)
    n = re.sub(r"^(slice|offset)-bounds-", "part-", n)
    n = re.sub(r"-+", "-", n)
    return n.lower()


def blocks(text):
    lines = text.split("\n")
    out, cur, lead = [], None, []
    for ln in lines:
        top = ln and not ln[0].isspace()
        start = top and (HEAD.match(ln) or ln.startswith(("use ", "pub use ", "module ", "mutual", "ruleset ", "record ", "data ", "pub record ", "pub data ")))
        if top and ln.startswith("--"):
            lead.append(ln)
            continue
        if start:
            if cur is not None:
                out.append(cur)
            cur = {"lead": lead, "lines": [ln]}
            lead = []
        else:
            if cur is None:
                if ln.strip():
                    cur = {"lead": lead, "lines": [ln]}
                    lead = []
            else:
                if lead and ln.strip():
                    cur["lines"] += lead
                    lead = []
                cur["lines"].append(ln)
    if cur is not None:
        out.append(cur)
    for b in out:
        while b["lines"] and not b["lines"][-1].strip():
            b["lines"].pop()
    return out, lead


def named_clauses():
    """The names of the `ensures` of each function that has named ones, by its folder below proofs/; and its &mut parameters."""
    out, muts = {}, {}
    src = os.path.join(crate, "src")
    for d, _, fs in os.walk(src):
        for f in fs:
            if not f.endswith(".rt"):
                continue
            rel = os.path.relpath(os.path.join(d, f), src)[:-3].split("/")
            if rel[-1] in ("lib", "main", "mod"):
                rel = rel[:-1]
            text = re.sub(r"//[^\n]*", "", open(os.path.join(d, f)).read())
            impl = None
            for m in re.finditer(r"(?m)^impl(?:<[^>]*>)? (\w+)[^\n]*\{|^(\s*)(?:pub )?(?:unsafe )?(?:extern \"C\" )?fn (\w+)", text):
                if m.group(1):
                    impl = m.group(1)
                    continue
                rest = text[m.end():]
                stop = re.search(r"\n%s\{\s*\n|\n%s\{" % (m.group(2).replace("\n", ""), m.group(2).replace("\n", "")), rest)
                head = rest[: stop.start()] if stop else rest[:2000]
                names_ = re.findall(r"\bensures (\w+) \{", head)
                key = rel + ([impl] if m.group(2).strip("\n") and impl else []) + [m.group(3)]
                out["/".join(key)] = names_
                muts["/".join(key)] = re.findall(r"(\w+): &(?:'\w+ )?mut ", head.split(")")[0] + ")" + "".join(head.split(")")[1:2]))
    return out, muts


def all_muts():
    """Of each function of the repository, by crate::fn path, its &mut parameters."""
    global crate
    keep, res = crate, {}
    top = os.path.dirname(os.path.abspath(keep))
    for c in os.listdir(top):
        if os.path.isdir(os.path.join(top, c, "src")):
            crate = os.path.join(top, c)
            for k, v in named_clauses()[1].items():
                res[c + "::" + k.replace("/", "::")] = v
    crate = keep
    return res


def final_expression(t):
    """Where the last expression of an answer's right side begins: behind the last `in` outside brackets."""
    depth, last, i = 0, 0, 0
    while i < len(t):
        ch = t[i]
        if ch in "([{":
            depth += 1
        elif ch in ")]}":
            depth -= 1
        elif depth == 0 and t[i:i + 2] == "in" and (i == 0 or t[i - 1].isspace()) and (i + 2 == len(t) or t[i + 2].isspace()):
            last = i + 2
        i += 1
    return last


def parts_of(tuple_text):
    """The parts of `( a, b, c )`, or None if the text is no such tuple."""
    x = tuple_text.strip()
    if not (x.startswith("(") and x.endswith(")")):
        return None
    depth, out, cur = 0, [], ""
    for k, ch in enumerate(x):
        if ch in "([{":
            depth += 1
            if depth == 1:
                continue
        elif ch in ")]}":
            depth -= 1
            if depth == 0:
                if k != len(x) - 1:
                    return None
                break
        elif ch == "," and depth == 1:
            out.append(cur.strip())
            cur = ""
            continue
        cur += ch
    if cur.strip():
        out.append(cur.strip())
    return out if len(out) > 1 else None


def say(path, what):
    print(f"left: {os.path.relpath(path, crate)}: {what}")


OWN_CLAUSES, _ = named_clauses()
MUTS = all_muts()


def as_record(path, new, rhs, fields):
    """Of an answer to a function's named clauses, the tuple as a record."""
    at = final_expression(rhs)
    expr = rhs[at:]
    ps = parts_of(expr)
    while ps and len(ps) < len(fields) and parts_of(ps[-1]):
        ps = ps[:-1] + parts_of(ps[-1])
    if ps and len(ps) >= len(fields):
        last = ps[len(fields) - 1:]
        ps = ps[: len(fields) - 1] + [last[0] if len(last) == 1 else "(" + ", ".join(last) + ")"]
        return rhs[:at] + " record { " + "; ".join(f"{f} = {p}" for f, p in zip(fields, ps)) + " }"
    if re.match(r"\s*(record|rw|search|omega|grind|simp|elim|λ|cc|absurd)\b", expr) or "record {" in expr[:12]:
        if not re.match(r"\s*record\b", expr):
            say(path, f"{new}: named clauses, by hand")
        return rhs
    return rhs[:at] + " let all-of-it = " + expr.strip() + " in record { " + "; ".join(f"{f} = all-of-it.{k}" for k, f in enumerate(fields)) + " }"


def convert(folder, info):
    path = os.path.join(folder, "Proof.antt")
    text = re.sub(r"(?<=\.)«(\w+)»", r"\1", open(path).read())
    if "tie.spec" not in text:
        say(path, "walks by hand")
        return
    rel = os.path.relpath(folder, os.path.join(crate, "proofs")).replace("/", ".")
    module = f"Rattle.{name}.proofs.{rel}"
    bs, _ = blocks(text)
    needs = info["needs"]
    by_old = {}
    for i, (old, new) in enumerate(needs):
        by_old.setdefault(norm(old), i)
    places = {}
    for p in info["places"]:
        places[p[0]] = {"parent": p[1], "old": p[2][0], "new": p[2][1], "fields": dict(p[4])}
    for k, p in enumerate(info["places"]):
        cl = info["clauses"][k] if k < len(info["clauses"]) else None
        places[p[0]]["clauses"] = (cl or {}).get("fields") or []
        places[p[0]]["callee"] = p[3]
    own = OWN_CLAUSES.get(rel.replace(".", "/"), [])
    label_place = {}
    label_new, label_fields, ambiguous = {}, {}, set()
    for p in info["places"]:
        o, n = norm(p[2][0]), p[2][1]
        if not o:
            continue
        if o in label_new and label_new[o] != n:
            ambiguous.add(o)
        label_new.setdefault(o, n)
        label_place.setdefault(o, p[0])
        label_fields.setdefault(o, {}).update(dict(p[4]))
    asked = info["asked_at"]
    arms = {}
    for a in info["arms"]:
        if not a:
            continue
        for f, old, path_ in a[2]:
            if f.endswith("-own") or not path_:
                continue
            arms.setdefault((norm(old), tuple(path_)), f"{a[0]}.{f}")
    arg_names = {}
    for o, n_ in info["args"]:
        if o.startswith(".args ."):
            arg_names[norm(o[7:])] = n_[7:]
    typed = {}
    for t in info["typed"]:
        for v, old in t:
            typed.setdefault(norm(old), v)
    uses, inv, others, answers = [], [], [], []
    spec_args = []
    for b in bs:
        first = b["lines"][0]
        body = "\n".join(b["lines"])
        if first.startswith(("use ", "pub use ")):
            if ".Statement." in first or first.rstrip().endswith("Tie as tie") or re.search(r"\.Tie\.\{", first):
                continue
            uses.append(body)
            continue
        m = HEAD.match(first)
        if m and "tie.spec" in body and "tie.close" in body:
            spec_args = re.findall(TOK, body.split("tie.spec", 1)[1])
            continue
        if m and re.search(r":\s*tie\.(invariant|decreases)", body):
            inv.append((m.group(1), b, body))
            continue
        if m and re.search(r":\s*tie\.Need-", body):
            answers.append((m.group(1), b, body))
            continue
        others.append((m.group(1) if m else None, b, body))
    helpers, keep_others = {}, []
    place_of = {norm(k): k for k in places}
    for n, b, body in others:
        m = n and re.search(r":\s*\((%s) : tie\.((?:After|Else|In|Then|Start|At)[^\s)]*)[^)]*\)\s*(?:→|(?=[({]))" % TOK, body)
        if not m or m.start() > len(body.split("=")[0]):
            keep_others.append((n, b, body))
            continue
        pl = place_of.get(norm(m.group(2)))
        if pl is None:
            say(path, f"{n}: no place {m.group(2)}")
        ls = body.split("\n")
        # the type goes up to the line of the first clause
        j = 1
        while j < len(ls) and not re.match(r"(%s(\s|$)|unfolding)" % re.escape(n), ls[j]):
            j += 1
        typ = "\n".join(ls[:j])[m.end():].strip()
        unf = []
        while j < len(ls) and ls[j].startswith("unfolding"):
            unf.append(ls[j]); j += 1
        cl = "\n".join(ls[j:])
        if len(re.findall(r"(?m)^%s(?=\s)" % re.escape(n), cl)) != 1 or re.search(r"(?m)^\s*where\b", cl):
            say(path, f"{n}: several clauses over a place")
            keep_others.append((n, b, body))
            continue
        mm = re.match(r"%s((?:\s+[^\s=]+)*)\s*=(.*)" % re.escape(n), cl, re.S)
        ps = mm.group(1).split()
        implicit = []
        while True:
            im = re.match(r"\{(%s) : ([^{}]*)\}\s*(→)?\s*" % TOK, typ)
            if not im:
                break
            implicit.append((im.group(1), im.group(2)))
            typ = typ[im.end():]
        if implicit:
            typ = " → ".join(f"({a} : {t})" for a, t in implicit) + " → " + re.sub(r"^→\s*", "", typ)
            ps = ps[:1] + [a for a, _ in implicit] + ps[1:]
        helpers[n] = {"implicit": len(implicit), "var": m.group(1), "param": ps[0], "more": ps[1:], "place": pl, "type": typ, "body": mm.group(2).strip("\n"), "unf": unf}
    others = keep_others
    loops = info["loops"]
    label_to_new = {}
    # needs by name, else by place in tie.spec
    order = [a for a in spec_args if a not in {x[0] for x in inv}]
    resolved = []
    for label, b, body in answers:
        need = re.search(r":\s*tie\.(Need-[^\s]+)", body).group(1)
        i = by_old.get(norm(need))
        if i is None and len(order) == len(needs) and label in order:
            i = order.index(label)
        if i is None:
            resolved.append((label, b, body, None))
            continue
        label_to_new[label] = needs[i][1]
        resolved.append((label, b, body, i))

    loops = info["loops"]

    def chain(text, start, root="c"):
        """Turns chains from c in text, which is asked at the place `start`."""
        aliases = {root: start}

        def up(place, n):
            for _ in range(n):
                if place is None or place not in places:
                    return None
                place = places[place]["parent"]
            return place

        def field_of(label, fields, rest):
            m = re.match(r"\.([^\s(){}.;,@\"«»\[\]]+)", rest)
            return rest

        # aliases: let s = c.before.before in
        for _ in range(4):
            for m in re.finditer(r"(?:let|in) (%s) = (%s)((?:\.before)*)(?=\s+in\b|\s*$|\s+let\b)" % (TOK, TOK), text, re.M):
                v, h, k = m.group(1), m.group(2), m.group(3).count(".before")
                if h in aliases and v not in aliases:
                    aliases[v] = up(aliases[h], k)

        def turn(m):
            h, bef, lab, fld = m.group(1), m.group(2), m.group(3), m.group(4) or ""
            tail = ""
            if h not in aliases:
                return m.group(0)
            n = bef.count(".before")
            if lab is None:
                return h
            lab = lab[1:]
            if fld.split(".")[1:2] == ["taken"] and lab not in ("args", "loop"):
                fld = ".true" + fld[len(".taken"):]
            if fld.split(".")[1:2] == ["left"] and lab not in ("args", "loop"):
                fld = ".false" + fld[len(".left"):]
            parts_ = fld[1:].split(".") if fld else []
            if norm(lab) == "match" and parts_[:1] == ["rest"]:
                return "@REST@" + "".join("." + x for x in parts_[1:])
            for k in range(len(parts_), 0, -1):
                hit = arms.get((norm(lab), tuple(parts_[:k])))
                if hit:
                    return f"{h}.{hit}" + "".join("." + x for x in parts_[k:])
            if norm(lab) in typed and parts_[:1] == ["given"]:
                return f"{h}.type_inv.{typed[norm(lab)]}" + "".join("." + x for x in parts_[1:])
            if len(parts_) > 1:
                tail = "".join("." + x for x in parts_[1:])
                fld = "." + parts_[0]
            if lab == "pre":
                lab = "requires"
            if lab in ("args", "ranges") and parts_ and norm(parts_[0]) in arg_names:
                return f"{h}.{lab}.{arg_names[norm(parts_[0])]}" + "".join("." + x for x in parts_[1:])
            if lab in ("args", "requires", "ranges", "type_inv", "type-inv", "lifetimes", "auto", "utf8"):
                return f"{h}.{lab}" + fld + tail
            place = up(aliases[h], n)
            new, fields = None, {}
            if lab.endswith("_lem") and norm(lab) not in label_new:
                lab = lab[:-4]
            bare = lambda x: norm(x).rstrip("0123456789")
            if place in places and norm(places[place]["old"]) == norm(lab):
                new, fields = places[place]["new"], places[place]["fields"]
            elif norm(lab) in label_new:
                place = label_place[norm(lab)]
                new, fields = label_new[norm(lab)], label_fields.get(norm(lab), {})
                if norm(lab) in ambiguous:
                    say(path, f"ambiguous label {lab}")
            elif place in places and places[place]["old"] and bare(places[place]["old"]) == bare(lab) and not (bare(lab) == "if" and norm(lab) in label_new and norm(lab) not in ambiguous):
                new, fields = places[place]["new"], places[place]["fields"]
            if new is None:
                say(path, f"no label {lab}")
                return f"{h}.{lab}" + fld + tail
            cls = places[place]["clauses"] if place in places else []
            if cls and fld == ".ensures":
                rest_ = tail[1:].split(".") if tail else []
                left_, path_ = list(cls), list(rest_)
                while path_ and path_[0].isdigit() and len(left_) > 1:
                    kk = int(path_.pop(0))
                    if kk == 0:
                        left_ = left_[:1]
                    elif kk == 1:
                        left_ = left_[1:]
                    elif kk < len(left_):
                        left_ = left_[kk:kk + 1]
                    else:
                        path_.insert(0, str(kk - len(left_) + 1))
                        left_ = left_[-1:]
                if rest_ and len(left_) == 1:
                    return f"{h}.{new}.ensures.{left_[0]}" + "".join("." + x for x in path_)
                if rest_ and not path_:
                    return "(" + ", ".join(f"{h}.{new}.ensures.{x}" for x in left_) + ")"
                if not rest_:
                    return "(" + ", ".join(f"{h}.{new}.ensures.{x}" for x in cls) + ")"
            if fld in (".new", ".auto") and re.match(r"\.\d", tail):
                ms = MUTS.get(places[place]["callee"] or "", []) if place in places else []
                rest_ = tail[1:].split(".")
                ones = 0
                while ones < len(rest_) and rest_[ones] == "1":
                    ones += 1
                if ones < len(rest_) and rest_[ones] == "0":
                    after_, index_ = rest_[ones + 1:], ones
                elif ones == 0 or (ones == 1 and len(rest_) == 1):
                    after_, index_ = rest_[1:], int(rest_[0])
                else:
                    after_, index_ = rest_[ones:], ones
                ps_ = info["params"].get(places[place]["callee"] or "", []) if place in places else []
                if len(ms) == 1:
                    return f"{h}.{new}{fld}.{ms[0]}" + "".join("." + x for x in after_)
                if index_ < len(ps_) and ps_[index_] in ms:
                    return f"{h}.{new}{fld}.{ps_[index_]}" + "".join("." + x for x in after_)
                say(path, f"{lab}{fld}{tail}: {ms}")
            loop_vars = {v for l in loops for v in l[1] if l[0][1] == new}
            if fld and fld[1:] not in loop_vars:
                f = fld[1:]
                fld = "." + fields.get(f, f)
            return f"{h}.{new}" + fld + tail

        for hn, hp in helpers.items():
            av = "|".join(re.escape(a) for a in sorted(aliases, key=len, reverse=True))
            if hp["type"].startswith("tie."):
                text = re.sub(r"\(%s (?:%s)(?:\.before)*\)|(?<![^\s(){};,@\[\]])%s (?:%s)(?:\.before)*(?![^\s(){}.;,@\[\]])(?!\.)" % (re.escape(hn), av, re.escape(hn), av), root, text)
            else:
                text = re.sub(r"\(%s (?:%s)(?:\.before)*\)|(?<![^\s(){};,@\[\]])%s (?:%s)(?:\.before)*(?![^\s(){}.;,@\[\]])(?!\.)" % (re.escape(hn), av, re.escape(hn), av), hn + " _" * hp["implicit"], text)
        for _ in range(12):
            av = "|".join(re.escape(a) for a in sorted(aliases, key=len, reverse=True))
            m = re.search(r"let (%s) = ((?:%s)(?:\.before)*)\.((?!before\b|args\b|requires\b|loop[0-9]*\b)%s)((?:\.%s)*) in[ \n]+" % (TOK, av, TOK, TOK), text)
            if not m:
                break
            v, full = m.group(1), m.group(2) + "." + m.group(3) + m.group(4)
            text = text[: m.start()] + re.sub(r"(?<![^\s(){};,@\[\]])%s(?![^\s(){}.;,@\[\]])" % re.escape(v), lambda _m: full, text[m.end():])
        # aliases: let s = c.before.before in
        for _ in range(4):
            for m in re.finditer(r"(?:let|in) (%s) = (%s)((?:\.before)*)(?=\s+in\b|\s*$|\s+let\b)" % (TOK, TOK), text, re.M):
                v, h, k = m.group(1), m.group(2), m.group(3).count(".before")
                if h in aliases and v not in aliases:
                    aliases[v] = up(aliases[h], k)

        if arg_names:
            av = "|".join(re.escape(a) for a in sorted(aliases, key=len, reverse=True))
            for m in list(re.finditer(r"let (%s) = (?:%s)(?:\.before)*\.args in" % (TOK, av), text)):
                for o, n_ in arg_names.items():
                    text = re.sub(r"(?<![^\s(){};,@\[\]])%s\.%s(?![^\s(){}.;,@\[\]])" % (re.escape(m.group(1)), re.escape(o)), m.group(1) + "." + n_, text)
        hs = "|".join(re.escape(a) for a in sorted(aliases, key=len, reverse=True))
        pat = re.compile(r"(?<![^\s(){};,@\[\]])(%s)((?:\.before)*)(\.(?!before\b)%s)?((?:\.%s)*)(?![^\s(){}.;,@\[\]])" % (hs, TOK, TOK))
        t = pat.sub(turn, text)
        if "@REST@" in t:
            # that no earlier arm took the value: tactics know it, and no name says it
            for v in re.findall(r"let (\S+) = @REST@(?:\.\d)*\s+in\b", t):
                t = re.sub(r"\n *let %s = @REST@(?:\.\d)*\s+in(?=\n)" % re.escape(v), "", t)
                t = re.sub(r", %s(\.\d)*(?=[,)])" % re.escape(v), "", t)
            t = re.sub(r", @REST@(\.\d)*(?=[,)])", "", t)
            if "@REST@" in t:
                t = re.sub(r"@REST@(\.\d)*", "(omega arith)", t)
        return t

    def relabel(text):
        for a, n in label_to_new.items():
            if a != n and not re.search(r"use [^\n]*[{ ,]%s[,} ]" % re.escape(a), "\n".join(uses)):
                text = re.sub(r"(?<![^\s(){};,@\[\]])%s(?![^\s(){}.;,@\[\]])" % re.escape(a), n, text)
        return text

    def with_helpers(t, lead_unf):
        """Puts the helpers that t names in front of it, as lets; and what they unfold."""
        wanted, seen = [], set()

        def visit(txt):
            for hn, hp in helpers.items():
                if hn in seen or hp["type"].startswith("tie."):
                    continue
                if re.search(r"(?<![^\s(){};,@\[\]])%s(?![^\s(){};,@\[\].])" % re.escape(hn), txt) or re.search(r"(?<![^\s(){};,@\[\]])%s(?=\.\d)" % re.escape(hn), txt):
                    seen.add(hn)
                    ty = re.sub(r"(?<![^\s(){};,@\[\]])%s(?=[.\s)])" % re.escape(hp["var"]), "c", hp["type"])
                    bo = re.sub(r"(?<![^\s(){};,@\[\]])%s(?=[.\s)]|$)" % re.escape(hp["param"]), "c", hp["body"])
                    ty, bo = chain(ty, hp["place"]), chain(bo, hp["place"])
                    visit(ty + "\n" + bo)
                    if hp["more"]:
                        bo = "λ " + " ".join(hp["more"]) + "." + (" " if not bo.startswith("\n") else "") + bo
                    wanted.append((hn, ty, bo))
                    for u in hp["unf"]:
                        if u not in lead_unf:
                            lead_unf.append(u)
        visit(t)
        return wanted

    inv_out, inv_names = [], {}
    for label, b, body in inv:
        m = re.search(r":\s*tie\.(invariant|decreases)-([^\s]+)", body)
        kind, lp = m.group(1), m.group(2)
        li = None
        for k, l in enumerate(loops):
            if norm(l[0][0]) == norm(lp):
                li = k
        if li is None:
            say(path, f"no loop {lp} for {label}")
            continue
        new = f"{kind}-{loops[li][0][1]}"
        inv_names[label] = new
        vars_, changed = loops[li][1], info["changed"][li]
        after = body.split("\n", 1)[1] if "\n" in body else ""
        pre = []
        al = after.split("\n")
        while al and not re.match(r"%s(\s|$)" % re.escape(label), al[0]):
            pre.append(al.pop(0))
        after = "\n".join(al)
        mm = re.match(r"%s((?:\s+%s)*)\s*=(.*)" % (re.escape(label), TOK), after, re.S)
        if not mm:
            say(path, f"cannot read {label}")
            continue
        params = mm.group(1).split()
        rhs = mm.group(2)
        want = ["l." + v if not changed[j] else "l.initial." + v for j, v in enumerate(vars_)] + ["l." + v for j, v in enumerate(vars_) if changed[j]]
        if len(params) == len(want) + 1 and not re.search(r"(?<![^\s(){};,@\[\]])%s(?![^\s(){};,@\[\]])" % re.escape(params[len(vars_)]), rhs):
            # the end of a range, which the invariant does not speak of
            del params[len(vars_)]
        if len(params) != len(want):
            say(path, f"{label}: {len(params)} parameters, {len(want)} variables {vars_} {changed}")
            continue
        for p, w in zip(params, want):
            if p == "_":
                continue
            if re.search(r"λ[^.]*(?<![^\s(])%s(?![^\s):])" % re.escape(p), rhs):
                say(path, f"{label}: {p} is bound again")
            rhs = re.sub(r"(?<![^\s(){};,@\[\]])%s(?![^\s(){};,@\[\].])(?! = )" % re.escape(p), "\0" + w[1:], rhs)
            rhs = re.sub(r"(?<![^\s(){};,@\[\]])%s(?=\.[^\s])" % re.escape(p), "\0" + w[1:], rhs)
        rhs = rhs.replace("\0", "l")
        inv_out.append((b["lead"], new, "\n".join(pre), f"{new} l ={rhs}"))
    # what else stands in the file goes where it is used
    inv_text = "\n".join(x[3] for x in inv_out)
    to_inv, to_ans = [], []
    pending = list(others)
    used_in_inv = inv_text
    moved = True
    picked = set()
    while moved:
        moved = False
        for k, (n, b, body) in enumerate(pending):
            if k in picked or n is None:
                continue
            if re.search(r"(?<![^\s(){}.;,@\[\]])%s(?![^\s(){}.;,@\[\]])" % re.escape(n), used_in_inv):
                picked.add(k)
                used_in_inv += "\n" + body
                moved = True
    for k, (n, b, body) in enumerate(pending):
        (to_inv if k in picked else to_ans).append((n, b, body))
    head = "\n".join(l for l in text.split("\n")[:3] if l.startswith("--"))
    if inv_out:
        o = [head] if head else []
        o += uses + [f"use {module}.Given as goal", ""]
        for n, b, body in to_inv:
            f = body.split("\n")
            if not re.match(r"(.*\s)?pub\s", f[0]):
                f[0] = re.sub(r"^((?:abbrev|unfoldable|opaque|inline)\s+)?", lambda m: (m.group(1) or "") + "pub ", f[0])
            o += b["lead"] + f + [""]
        for lead, new, pre, t in inv_out:
            o += lead + [f"abbrev pub {new} : goal.{new}"] + ([pre] if pre else []) + [t, ""]
        open(os.path.join(folder, "Invariants.antt"), "w").write("\n".join(o).rstrip() + "\n")
    ans = []
    for label, b, body, i in resolved:
        if i is None:
            t = re.sub(r"^%s[^=]*=" % re.escape(label), "", body.split("\n", 1)[1] if "\n" in body else "", flags=re.S).strip()
            if t != "search rules":
                say(path, f"no goal for {label} ({re.search(r'tie.(Need-[^ ]+)', body).group(1)})")
            continue
        new = needs[i][1]
        rest = body.split("\n")
        # the head may be long
        j = 1
        while j < len(rest) and not re.match(r"(%s(\s|$)|unfolding)" % re.escape(label), rest[j]):
            j += 1
        eq = rest[j:]
        t = "\n".join(eq)
        stripped = re.sub(r"^unfolding[^\n]*\n", "", t)
        rhs = re.sub(r"^%s[^=]*=" % re.escape(label), "", stripped, flags=re.S).strip()
        if rhs == "search rules":
            continue
        t = re.sub(r"(?m)^%s(?=\s)" % re.escape(label), "@HEAD@", t)
        t = re.sub(r"(?m)^@HEAD@ (\S+) κs(?=\s*=)", r"@HEAD@ \1", t)
        place = asked[i][0] if i < len(asked) else None
        t = chain(t, place).replace(".type-inv", ".type_inv")
        t = relabel(t)
        unf = [u for u in t.split("\n") if u.startswith("unfolding")]
        hm = re.match(r"((?:unfolding[^\n]*\n)*)(@HEAD@[^=]*=)(.*)", t, re.S)
        if hm and helpers:
            w = with_helpers(hm.group(3), unf)
            if w:
                lets = "".join(f"\n    let {hn} : {ty} =\n        ({bo.strip()}) in" for hn, ty, bo in w)
                t = "".join(u + "\n" for u in unf) + hm.group(2) + lets + ("\n    " + hm.group(3).strip(" ") if not hm.group(3).lstrip(" ").startswith("\n") else hm.group(3))
        if own and new.startswith("returns") and len(own) > 1:
            hm = re.match(r"((?:unfolding[^\n]*\n)*@HEAD@[^=]*=)(.*)", t, re.S)
            if hm:
                t = hm.group(1) + as_record(path, new, hm.group(2), own)
        t = t.replace("@HEAD@", new)
        for a, n in inv_names.items():
            if re.search(r"(?<![^\s(])%s(?![^\s)])" % re.escape(a), t):
                say(path, f"{new} names {a}")
        ans.append(b["lead"] + [f"pub {new} : goal.{new}", t, ""])
    extra = []
    for n, b, body in to_ans:
        if "tie." in body:
            say(path, f"{n} speaks of tie")
        extra.append(b["lead"] + [relabel(body), ""])
    if ans or extra:
        o = [head] if head else []
        o += uses
        if any("omega arith" in x for y in ans for x in y) and not any(re.search(r"\barith\b", u) for u in uses):
            o.append("use native.Mathlib.Omega.{arith}")
        if inv_out and to_inv:
            o.append(f"use {module}.Invariants.{{{', '.join(n for n, b, body in to_inv)}}}")
        o += [f"use {module}.Goals as goal", ""]
        for e in extra:
            o += e
        for a in ans:
            o += a
        open(os.path.join(folder, "Answers.antt"), "w").write("\n".join(o).rstrip() + "\n")
    os.remove(path)


for key, info in names.items():
    m = re.match(r"Rattle-(\w+)-proofs\.(.+)\.Lts$", key)
    if not m or m.group(1) != name:
        continue
    folder = os.path.join(crate, "proofs", *m.group(2).split("."))
    if only and os.path.relpath(folder, os.path.join(crate, "proofs")) not in only:
        continue
    if os.path.exists(os.path.join(folder, "Proof.antt")):
        convert(folder, info)
for d, _, fs in os.walk(os.path.join(crate, "proofs")):
    if "Proof.antt" in fs:
        say(os.path.join(d, "Proof.antt"), "still there")
