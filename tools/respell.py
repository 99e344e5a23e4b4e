#!/usr/bin/env python3
"""Brings the repository's own definitions and lemmas to the spelling of today's Rattle: functions and lemmas in snake case, a dash only between two names.

usage: python3 tools/respell.py [--list]     at the top of the repository, once, after port.py and before any edit by hand

    bigFrom, part-past, drop-take   ->   big_from, part_past, drop-take

It turns names that specs/ and proofs/ declare, where they stand in .antt files, in clauses and ghost imports of .rt files and, between backquotes, in README and
docs/. Functions, types and fields of src/, goals and strings keep their names. A lemma that would have its function's name gets _lem. It turns no must-fail edit.
"""

import glob
import os
import re
import sys

W = r"[^\s(){}.;,@\"«»\[\]\\:`]+"
TOKEN = re.compile(r'"(?:[^"\\]|\\.)*"|«[^»]*»|' + W)
HEAD = re.compile(r"^(\s*)((?:(?:abbrev|unfoldable|pub|opaque|irreducible|syntax) )*)([a-z][^\s(){}.;,@\"«»\[\]\\:`]*(?: [a-z][^\s(){}.;,@\"«»\[\]\\:`]*)*)(?:\s*\{[^}]*\})*\s*:\s")
WORDS = {"let", "in", "use", "where", "module", "rw", "simp", "omega", "grind", "search", "elim", "mod", "record", "data", "cc", "refl", "absurd", "unfolding", "decreasing", "by", "if", "then", "else", "mutual"}
# What programs print, and no name.
PRINTED = {"not-a-number", "big-endian", "little-endian"}
# Words of std that lemmas are named by.
STD = set("length take drop map append reverse sum get_or set add mul sub pow div mod suc zero cons nil ap min max not eq le lt eqb leb ltb replicate".split())


def read(path):
    with open(path, encoding="utf-8") as f:
        return f.read()


def antt():
    return sorted(glob.glob("crates/*/specs/**/*.antt", recursive=True) + glob.glob("crates/*/proofs/**/*.antt", recursive=True))


def in_folder(path):
    """Whether a file is a function's own proof, below proofs/F/."""
    return path.split("/")[2] == "proofs" and path.count("/") > 3


def names_of(path):
    """The names that a file declares: of a function's own proof, all but its goals."""
    for line in read(path).split("\n"):
        if line.lstrip().startswith("--"):
            continue
        m = HEAD.match(line)
        if not m:
            continue
        rest = line[m.end():]
        if in_folder(path) and re.match(r"(tie|goal)\.|\(?tie\.", rest):
            continue
        for n in m.group(3).split(" "):
            if n not in WORDS:
                yield n


def snake(name):
    return re.sub(r"(?<=[a-z0-9])([A-Z])(?![A-Z])", lambda m: "_" + m.group(1).lower(), name)


def main(argv):
    declared, functions, where = set(), set(STD), {}
    for p in antt():
        for n in names_of(p):
            declared.add(n)
            where.setdefault(n, set()).add(p)
            if "/specs/" in p:
                functions.add(snake(n))

    def new(n):
        parts = [snake(x) if x[:1].islower() else x for x in n.split("-")]
        if len(parts) > 1 and all(x in functions or x[:1].isupper() for x in parts):
            return "-".join(parts)
        return "_".join(parts)

    to = {n: new(n) for n in declared if new(n) != n}
    tokens = {p: set(TOKEN.findall(re.sub(r"(?<!\S)--.*", "", read(p)))) for p in antt() + sorted(glob.glob("crates/*/src/**/*.rt", recursive=True))}
    # Names that fall together: the lemma gets _lem; two lemmas, or two definitions, are told here and end the run.
    back = {}
    for n in sorted(declared):
        back.setdefault(to.get(n, n), []).append(n)
    for t, olds in sorted(back.items()):
        if len(olds) > 1:
            if not any(sum(n in tokens[p] for n in olds) > 1 for p in tokens):
                continue
            keep = [n for n in olds if any("/specs/" in p for p in where[n])] or [n for n in olds if re.search("[a-z][A-Z]", n)]
            for n in olds:
                if n not in (keep or olds)[:1]:
                    to[n] = t + "_lem"
            print("fall together:", t, olds, {n: to.get(n, n) for n in olds})
    if "--list" in argv:
        for p in sorted(tokens):
            for n in sorted(tokens[p]):
                if n in to and to[n] in tokens[p] and to[n] not in declared:
                    print("there already:", p, n, to[n])
    if "--list" in argv:
        for n in sorted(to):
            print(n, to[n])
        return 0

    def turn_line(line, code):
        """One line of antt, or a line of a clause."""
        cut = len(line)
        if not code:
            m = re.search(r"(?<!\S)--(\s|$)", line)
            cut = m.start() if m else cut
        head, comment = line[:cut], line[cut:]
        head = TOKEN.sub(lambda m: to.get(m.group(0), m.group(0)) if m.group(0)[0] not in '"«' else m.group(0), head)
        comment = re.sub(r"^(--\s{3,})(\S.*?)(?=\s{3,}|$)", lambda m: m.group(1) + TOKEN.sub(lambda k: to.get(k.group(0), k.group(0)), m.group(2)), comment)
        comment = TOKEN.sub(lambda m: to[m.group(0)] if m.group(0) in to and re.search("[A-Z]", m.group(0)) else m.group(0), comment)
        comment = re.sub(r"`([^`]*)`", lambda m: "`" + TOKEN.sub(lambda k: to.get(k.group(0), k.group(0)), m.group(1)) + "`", comment)
        return head + comment

    def turn_antt(path):
        return "\n".join(turn_line(l, False) for l in read(path).split("\n"))

    def turn_rt(text):
        out, depth = [], 0
        for line in text.split("\n"):
            comment = line.lstrip().startswith("//")
            clause = re.match(r"\s*(ghost |requires|ensures|also_|decreases)", line)
            if comment or clause or depth:
                line2 = TOKEN.sub(lambda m: to[m.group(0)] if m.group(0) in to and (not comment or re.search("[A-Z]", m.group(0))) else m.group(0), line)
                if not comment:
                    depth += line.count("{") - line.count("}")
                line = line2
            out.append(line)
        return "\n".join(out)

    for p in antt():
        t = turn_antt(p)
        if t != read(p):
            open(p, "w", encoding="utf-8").write(t)
    for p in sorted(glob.glob("crates/*/src/**/*.rt", recursive=True)):
        t = turn_rt(read(p))
        if t != read(p):
            open(p, "w", encoding="utf-8").write(t)
    # port.py turns no page: what it renamed is turned here, too.
    here = {to.get(n, n) for n in declared}

    def turn_word(m):
        w = m.group(0)
        if w in PRINTED:
            return w
        if w not in to and re.match("[a-z]+[a-z0-9]*[A-Z]", w) and snake(w) in here:
            return snake(w)
        if w not in to and "-" in w:
            return next((x for x in (w.replace("-of", "_of"), w.replace("-of", "_of", 1), new(w)) if x in here), w)
        return to.get(w, w)

    for p in sorted(glob.glob("*.md") + glob.glob("docs/**/*.md", recursive=True)):
        t = re.sub(r"`([^`\n]*)`", lambda m: "`" + TOKEN.sub(turn_word, m.group(1)) + "`", read(p))
        if t != read(p):
            open(p, "w", encoding="utf-8").write(t)
    print(len(to), "names")
    return 0


if __name__ == "__main__":
    raise SystemExit(main(sys.argv[1:]))
