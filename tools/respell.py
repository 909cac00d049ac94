#!/usr/bin/env python3
"""Brings the names of the repository's own definitions and lemmas to today's spelling.

usage: python3 tools/respell.py [--list]        at the top of the repository, once, after the scripts of the older spelling

Definitions, lemmas, fields and aliases of the files of specs/ and proofs/ get names in snake case, and definitions of facts (what gives a Type)
in upper camel case. A dash stays where it joins two words of lists, as in length-take. A lemma or an alias that would get the name of a
definition that stands in one of its files gets _lem or _is behind it. Names of src/, files and modules keep their spelling, and strings theirs.
The same table turns the names in contracts, in comments and in must-fail edits. --list prints the table and writes nothing.
"""

import collections
import os
import re
import sys

WORD = r"[^\s(){}.;,@\"«»]+"
HEAD = re.compile(
    r"(?m)^([ \t]*)((?:(?:abbrev|pub|unfoldable|record|data|opaque) )*)(" + WORD + r")((?:[ \t]+(?:" + WORD + r"|[({][^(){}]*(?:\([^()]*\)[^(){}]*)*[)}]))*)[ \t]+:[ \t\n]"
)
KEYWORDS = {"module", "where", "use", "mod", "infixr", "infixl", "infix", "unfolding", "elim", "let", "in", "mutual", "abbrev", "pub", "record", "data"}
STD_NAMES = set()
FIXED = {"outside": "IsOutside", "inOrder": "in_order", "in-order": "in_order_lem"}
SOURCE = set()  # words of the source in this form: none
DATA = re.compile(r"(?m)^( *)(?:pub )?data [^\n]* where\n((?:\1 +[^\n]*\n|\n)*)")
LEMMAS = {"crates/task/proofs/Opened.antt": "in_order", "crates/horn_text/proofs/Rows.antt": "in_order"}  # lemmas that have the name which inOrder gets
STD = set("length take drop set map append reverse replicate cond leb eqb ltb min max suc get get_or zip concat".split())
MADE = re.compile(r"\b(?:tie|[a-z-]+-lts|[a-z_]+_lts|goal)\.|statement|Measures|In 1 ")
KVAR = re.compile(r"KVar(s?)(?=$|[A-Z_'-])")


def texts(root, *ends):
    for folder, dirs, files in os.walk(root):
        dirs[:] = sorted(d for d in dirs if d not in ("out", ".git", "target"))
        for f in sorted(files):
            if f.endswith(ends):
                yield os.path.join(folder, f)


def read(p):
    with open(p, encoding="utf-8") as f:
        return f.read()


def uncommented(t):
    return re.sub(r"--[^\n]*", lambda m: " " * len(m[0]), t)


def signature(t, m):
    """The type of a declaration: to the next line that stands no deeper."""
    deep = len(m[1])
    out = []
    for k, line in enumerate(t[m.end() - 1 :].split("\n")):
        if k and (not line.strip() or len(line) - len(line.lstrip()) <= deep):
            break
        out.append(line)
    return " ".join(" ".join(out).split())


def snake(name):
    name = KVAR.sub(lambda m: "Kvar" + m[1], name)
    name = re.sub(r"(?<=[a-z0-9])([A-Z])", lambda m: "_" + m[1].lower(), name)
    return name[0].lower() + name[1:]


def camel(name):
    parts = re.split(r"[-_]", name)
    return "".join(p[:1].upper() + p[1:] for p in parts)


def declared():
    """Each declared name: whether it is a fact, and the files that declare it."""
    found = collections.defaultdict(list)
    for p in texts("crates", ".antt"):
        t = uncommented(read(p))
        made = p.endswith("Proof.antt")
        for m in HEAD.finditer(t):
            name, kind = m[3], m[2].split()
            if name in KEYWORDS or "◌" in name:
                continue
            if any(w in KEYWORDS for w in m[4].split()):
                continue
            kind_of_type = "record" in kind or "data" in kind
            typ = signature(t, m)
            fact = bool(re.search(r"(?:^|→ )Type \S+$", typ))
            if made and (MADE.search(typ) or name.endswith("-spec")):
                continue
            found[name].append((p, kind_of_type, fact, False))
        for m in DATA.finditer(t):
            for line in m[2].split("\n"):
                names = line.split(" : ")[0].split()
                if " : " in line and all(re.fullmatch(r"[a-z][\w'-]*", w) for w in names):
                    for w in names:
                        found[w].append((p, False, False, False))
        for m in re.finditer(r"\bas ([a-z]" + WORD + r")", t):
            if not made:
                found[m[1]].append((p, False, False, True))
    return found


def table(found, files):
    out = dict(FIXED)
    for words in files.values():
        for w in words:
            if re.fullmatch(r"[a-z][a-z0-9]*[A-Z][A-Za-z0-9']*", w) and w not in out and w not in SOURCE:
                found[w].append(("", False, False, False))
    for n, at in found.items():
        if any(k for _, k, _, _ in at) or n in out:
            continue  # a record or data: in upper camel case already
        if n[0].isupper() and "-" not in n:
            continue
        new = joined(n)
        if new != n:
            out[n] = new
    # words of one file that fall together
    where = collections.defaultdict(set)
    for p, words in files.items():
        for w in words:
            where[w].add(p)
    by_new = collections.defaultdict(list)
    for a, b in out.items():
        by_new[b].append(a)
    for b, olds in sorted(by_new.items()):
        olds.sort(key=lambda w: ("-" in w, w))
        if b in found or b in STD_NAMES:
            olds.insert(0, b)
        for k, w in enumerate(olds):
            if w not in FIXED and any(where[w] & where[v] for v in olds[:k]):
                alias = all(a for _, _, _, a in found[w])
                out[w] = b + ("_is" if alias else "_lem")
    return out


def joined(n):
    """Snake case; a dash between two words of lists stays."""
    parts = [snake(p) if p[:1].islower() else p for p in n.split("-")]
    new = parts[0]
    for a, b in zip(parts, parts[1:]):
        new += ("-" if a in STD and b in STD else "_") + b
    return new


def turn(text, rows, fields, edit=False):
    aliases = set(re.findall(r"\bas (" + WORD + ")", text))

    def one(m):
        w = m[0]
        if w not in rows:
            return w
        head = re.search(r"([^\s(){};,@\"«»]+)\.$", text[max(0, m.start() - 200) : m.start()])
        if head and w not in fields and not (head[1][0].isupper() or head[1] in aliases):
            return w
        return rows[w]

    def code(t):
        return t

    out, at = [], 0
    quiet = r"\"(?:[^\"\\\n]|\\.)*\"" + ("" if edit else r"|(?<![^\s(){};,])(?:--|//)[^\n]*")
    for m in re.finditer(quiet, text):
        out.append(part(text, at, m.start(), one))
        if m[0][0] == '"':
            out.append(m[0])
        else:
            out.append(re.sub(WORD, lambda c: rows.get(c[0], c[0]) if re.search("[a-z][A-Z]", c[0]) else c[0], m[0]))
        at = m.end()
    out.append(part(text, at, len(text), one))
    return "".join(out)


def part(text, a, b, one):
    return "".join(piece for piece in pieces(text, a, b, one))


def pieces(text, a, b, one):
    at = a
    for m in re.compile(WORD).finditer(text, a, b):
        yield text[at : m.start()]
        yield one(m)
        at = m.end()
    yield text[at:b]


def main(args):
    for p, w in LEMMAS.items() if "--list" not in args else ():
        t = read(p)
        with open(p, "w", encoding="utf-8") as f:
            f.write(re.sub(rf"(?<![\w.-]){w}(?![\w-])", w + "_lem", t))
    found = declared()
    files = {p: set(re.findall(WORD, re.sub(r'"[^"\n]*"', "", uncommented(read(p))))) for p in texts("crates", ".antt", ".rt")}
    rows = table(found, files)
    if "--list" in args:
        for a, b in sorted(rows.items()):
            print(a, b)
        for b in sorted(b for b in rows.values() if b.endswith(("_lem", "_is"))):
            print("look:", b)
        return 0
    fields = set(found)
    for p in texts("crates", ".antt", ".rt", ".edit"):
        t = read(p)
        new = turn(t, rows, fields, p.endswith(".edit"))
        if new != t:
            with open(p, "w", encoding="utf-8") as f:
                f.write(new)
    return 0


if __name__ == "__main__":
    raise SystemExit(main(sys.argv[1:]))
