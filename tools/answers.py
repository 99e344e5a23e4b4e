#!/usr/bin/env python3
"""Turns proofs that answer an older Rattle's goals, Proof.antt, into Invariants.antt and Answers.antt.

usage: python3 tools/answers.py NAMES CRATE [FUNCTION..]

NAMES is the folder of what `rt check --generated DIR --old-names` writes for each crate: NAMES/CRATE/names.json. An answer that only says `search rules` is left out,
since the check finds it. What it cannot turn it says, and leaves in the file for the check to refuse.
"""

import glob
import json
import os
import re
import sys

N = r"[^\s(){}.;,@\"«»\[\]\\]+"
V = r"(?!in(?![^\s(){}.;,]))[^\W\d][^\s(){}.:;,@\"«»\[\]\\]*"
alike = lambda s: re.sub(r"[-_]", "", s).lower()
LEAVES = {"args", "requires", "ranges", "lifetimes", "auto", "well_formed", "type_inv", "utf8"}


def labelled(fields, rest):
    """A way into clauses that now have names: the clause by its place."""
    if len(fields) < 2 or not rest or rest[0] not in ("0", "1"):
        return rest
    k = 0
    while rest and rest[0] == "1" and k < len(fields) - 1:
        k, rest = k + 1, rest[1:]
    if k < len(fields) - 1:
        if rest[:1] != ["0"]:
            return ["1"] * k + rest
        rest = rest[1:]
    return [fields[k]] + rest


def parts_of(text):
    """The parts of a tuple, or None."""
    text = text.strip()
    if not (text.startswith("(") and text.endswith(")")):
        return None
    depth, out, at = 0, [], 1
    for i, ch in enumerate(text):
        if ch in "([{":
            depth += 1
        elif ch in ")]}":
            depth -= 1
            if depth == 0 and i < len(text) - 1:
                return None
        elif ch == "," and depth == 1:
            out.append(text[at:i].strip())
            at = i + 1
    last = text[at:-1].strip()
    return out + ([last] if last else [])


def named(term, fields, pre):
    """A tuple of clauses as a record of them."""
    lets, parts = "", parts_of(term)
    for m in re.finditer(r" in(?=\s)|(?<=\s)rw (?:%s|\([^()]*(?:\([^()]*(?:\([^()]*\)[^()]*)*\)[^()]*)*\))(?=\s)" % N, term):
        if not parts:
            lets, parts = term[: m.end()], parts_of(term[m.end():])
    whole = parts is None

    def more(parts):
        if parts and 1 < len(parts) < len(fields):
            last = parts_of(parts[-1])
            if last and len(last) > 1:
                return parts[:-1] + last
            m = re.fullmatch(r"(%s\.requires)((?:\.1)+)" % V, parts[-1])
            if m and len(pre) > 1:
                rest = pre[len(m.group(2)) // 2:]
                return parts[:-1] + [m.group(1) + "." + f for f in rest]
        return None

    while more(parts):
        parts = more(parts)
    if whole or not parts or len(parts) != len(fields):
        lets = "\n    let told = %s in" % term.strip()
        parts = ["told" + ".1" * i + ("" if i == len(fields) - 1 else ".0") for i in range(len(fields))]
    record = "record {\n" + "".join("      %s = %s;\n" % x for x in zip(fields, parts)) + "    }"
    if lets.rstrip().endswith(" in") or not lets.strip():
        return lets + "\n    " + record
    return lets + " (" + record + ")"


class Names:
    def __init__(self, x):
        self.x = x
        self.places = x["places"]
        self.at = {p[0]: i for i, p in enumerate(self.places)}
        self.needs, self.old = {}, {}
        for (old, new), (place, _) in zip(x["needs"], x["asked_at"]):
            self.needs.setdefault(alike(old), (new, place))
            self.old[new] = alike(old)
        self.asked = {alike(k): v for k, v in x["asked"].items()}
        self.pre = (x["pre"] or {}).get("fields", [])

    def need(self, name):
        name = re.sub(r"^(overflow|nonzero)-", "", name)
        name = {"slice-bounds": "part"}.get(name, name)
        for form in (name, re.sub(r"^slice-bounds-", "part-", name), "overflow" + name):
            if alike(form) in self.needs:
                return self.needs[alike(form)]
        return None

    def partial(self, path, place):
        """Whether more has to follow for the path to have a name."""
        return any(
            alike(old) == alike(path[0]) and len(way) > len(path) - 1 and way[: len(path) - 1] == path[1:]
            for i in self.above(place) if self.x["arms"][i] for _, old, way in self.x["arms"][i][2]
        )

    def labels(self, step):
        return any(alike(p[2][0]) == alike(step) and len((c or {}).get("fields", [])) > 1 for p, c in zip(self.places, self.x["clauses"]))

    def above(self, place):
        while place is not None and place in self.at:
            i = self.at[place]
            yield i
            place = self.places[i][1]

    def resolve(self, path, place):
        """The new path, after `c`, of an old one without its `before`s."""
        step, rest = re.sub("_lem$", "", path[0]), path[1:]
        if step.replace("-", "_") in LEAVES:
            return [step.replace("-", "_")] + (labelled(self.pre, rest) if step == "requires" else rest)
        line = list(self.above(place))
        best = None
        for i in line:
            arm = self.x["arms"][i]
            if not arm:
                continue
            for field, old, way in arm[2]:
                if alike(old) == alike(step) and way and rest[: len(way)] == way and (best is None or len(way) > best[0]):
                    best = (len(way), [arm[0], field] + rest[len(way):])
        if best:
            return best[1]
        if step.startswith("match") and rest and re.match("rest$|keys", rest[0]):
            for i in line:
                if alike(self.places[i][2][0]).startswith("match") and "default" in self.places[i][2][1]:
                    return [self.places[i][2][1], self.places[i][2][1] + "-own"] + rest
        if rest[:1] == ["given"]:
            for i in [*line, *range(len(self.places))]:
                for var, old in self.x["typed"][i]:
                    if alike(old) == alike(step):
                        return ["type_inv", var] + rest[1:]
        for i in line:
            old, new = self.places[i][2]
            if old and alike(old) == alike(step):
                if new.startswith("if-") or new.endswith("-test"):
                    rest = [{"left": "false", "taken": "true"}.get(r, r) for r in rest[:1]] + rest[1:]
                fields = (self.x["clauses"][i] or {}).get("fields", [])
                if new.startswith("loop") and rest[:1] == ["inv"]:
                    rest = ["invariant"] + rest[1:]
                given = self.x["params"].get(self.places[i][3] or "", [])
                if rest[:1] == ["new"]:
                    k = 0
                    while rest[1 + k:2 + k] == ["1"]:
                        k += 1
                    if rest[1 + k:2 + k] == ["0"] and k < len(given):
                        rest = ["new", given[k]] + rest[2 + k:]
                if rest[:1] == ["ensures"]:
                    rest = ["ensures"] + labelled(fields, rest[1:])
                    if new.startswith("wrapping_") and len(rest) == 1:
                        rest.append("value")
                return [new] + rest
        return None


def paragraphs(text):
    out = []
    for part in re.split(r"\n\s*\n", text.strip("\n")):
        if out and part[:1] in " \t":
            out[-1] += "\n\n" + part
        else:
            out.append(part)
    return out


def inline(body, arg, names, place, said):
    """Body with its places and steps under their new names."""
    env = {arg: []}
    token = r"(?<![^\s(){};,@\"\[\]\\])(%s)((?:\.%s)*)(?!%s)" % (N, N, r"[^\s(){};,@\"\[\]\\]")

    def path_of(text):
        parts = text.split(".")
        return env[parts[0]] + parts[1:] if parts[0] in env else None

    def new(path):
        path = [x for x in path if x != "before"]
        if not path:
            return arg
        got = names.resolve(path, place)
        if got is None:
            said.append("no step " + ".".join(path))
            return arg + "." + ".".join(path)
        return arg + "." + ".".join(got)

    out, rest = "", body
    let = re.compile(r"let (%s) = (%s(?:\.%s)*) in(\s|$)" % (N, N, N))
    while True:
        m = let.search(rest)
        if not m:
            break
        head = rest[: m.start()]
        out += re.sub(token, lambda k: new(path_of(k.group(0))) if k.group(1) in env else k.group(0), head)
        path = path_of(m.group(2))
        if path is None:
            out += m.group(0)
        else:
            plain = [x for x in path if x != "before"]
            got = names.resolve(plain, place) if plain else None
            whole = got is not None and not (got[0].startswith("in-") and len(got) == 1)
            if got and (re.fullmatch("requires(.1)*", ".".join(got)) or re.fullmatch("ensures(.1)*", ".".join(got[1:]))) and (len(names.pre) > 1 if got[0] == "requires" else names.labels(plain[0])):
                whole = False
            if not plain or not whole or names.partial(plain, place):
                env[m.group(1)] = path
            else:
                env.pop(m.group(1), None)
                out += f"let {m.group(1)} = {new(path)} in" + m.group(3)
        rest = rest[m.end():]
    out += re.sub(token, lambda k: new(path_of(k.group(0))) if k.group(1) in env else k.group(0), rest)
    return out


class Helper:
    """What a file says once of the facts at a place: it becomes a `let` of each answer that cites it."""

    def __init__(self, body):
        m = re.match(r"(abbrev )?(?:pub )?(%s) :\s" % N, body)
        self.name = m.group(2)
        rest = body[m.end():]
        d = re.search(r"\n(?:unfolding ([^\n]*)\n)?%s (%s)((?: (?!=)%s)*) =(?=\s)" % (re.escape(self.name), N, N), rest)
        self.type, self.term = rest[: d.start()].strip(), rest[d.end():].strip()
        self.unfolding, self.arg, self.more = (d.group(1) or "").split(), d.group(2), d.group(3).split()
        self.at = None
        b = re.match(r"\((%s) : tie\.(%s)[^()]*\)\s*→?\s*" % (N, N), self.type) or re.match(r"()tie\.(%s)[^→]*→\s*" % N, self.type)
        self.type = self.type[b.end():]
        self.typed = b.group(1) or self.arg
        # A place under a name of its own.
        self.place = bool(re.match(r"tie\.", self.type))

    def uses(self, text):
        return re.search(r"(?<![^\s(){};,\[\]])%s(?![^\s(){}.;,\[\]])" % re.escape(self.name), text) is not None

    def bare(self, text):
        """Text with the helper's first argument left out."""
        name = re.escape(self.name)
        if self.place:
            text = re.sub(r"\(%s (%s(?:\.before)*)\)" % (name, V), lambda m: m.group(1), text)
            return re.sub(r"(?<![^\s(){};,\[\]])%s (%s(?:\.before)*)(?![^\s(){};,\[\]])" % (name, V), lambda m: m.group(1), text)
        return re.sub(r"(?<![^\s(){};,\[\]])%s (\(%s %s\)|%s(?:\.before)*)(?![^\s(){};,\[\]])" % (name, V, V, V), self.name, text)


def expanded(term, unfolding, arg, helpers):
    """A term that cites helpers, after the lets that say them."""
    wanted, text = [], term
    for h in reversed(helpers):
        if h.uses(text):
            wanted.insert(0, h)
            text += "\n" + h.type + "\n" + h.term
    lets = ""
    for h in wanted:
        unfolding += [x for x in h.unfolding if x not in unfolding]
        if h.place:
            continue
        as_arg = lambda s, a: re.sub(r"(?<![^\s(){};,\[\]])%s(?![^\s(){}.;,\[\]])" % re.escape(a), arg, s)
        term_of = as_arg(h.term, h.arg).lstrip()
        if h.more:
            term_of = "λ " + " ".join(h.more) + ". " + term_of
        lets += "let %s : %s =\n        %s in\n    " % (h.name, as_arg(h.type, h.typed), term_of)
    before = None
    while before != (lets, term):
        before = lets, term
        for h in helpers:
            if h.place:
                lets, term = h.bare(lets), h.bare(term)
    for h in helpers:
        if not h.place:
            lets, term = h.bare(lets), h.bare(term)
    return "\n    " + lets + term.lstrip() if lets else term


def turn(crate, function, names, path, said):
    text = open(path, encoding="utf-8").read()
    # Names for the types of places.
    for m in list(re.finditer(r"(?m)^abbrev (%s) : Type 0\n(%s) = (tie\.%s)[^\n]*\n" % (N, N, N), text)):
        text = text.replace(m.group(0), "")
        text = re.sub(r"(?<![^\s(){}])%s(?=[\s)])" % re.escape(m.group(1)), m.group(3), text)
    module = "Rattle.%s.proofs.%s" % (crate, function)
    uses, comment, invariants, answers = [], [], [], []
    first = True
    helpers = []
    for part in paragraphs(text):
        body = "\n".join(l for l in part.split("\n") if not l.startswith("--"))
        if "tie." in body and not re.match(r"(?s)use |.*: tie\.(Need|invariant|decreases)-|.*statement M", body):
            try:
                helpers.append(Helper(body))
            except AttributeError:
                pass
    for part in paragraphs(text):
        lines = part.split("\n")
        k = 0
        while k < len(lines) and lines[k].startswith("--"):
            k += 1
        notes, code = lines[:k], lines[k:]
        if first:
            comment, notes, first = notes, [], False
        if code and code[0].startswith("use "):
            uses += [l for l in code if not re.search(r"\.(Statement\.\{statement\}|Tie as tie)", l)]
            continue
        if not code:
            answers.append(part)
            continue
        body = "\n".join(code)
        m = re.match(r"abbrev (?:pub )?(%s) : tie\.(invariant|decreases)-(%s)\n(?:unfolding [^\n]*\n)?" % (N, N), body)
        if m:
            kind, loop = m.group(2), m.group(3)
            found = [l for l in names.x["loops"] if alike(l[0][0]) == alike(loop)]
            if not found:
                said.append("no loop " + loop)
                invariants.append(body)
                continue
            i = names.x["loops"].index(found[0])
            (_, new), vars_ = found[0]
            changed = names.x["changed"][i]
            d = re.match(r"(%s)((?: %s)*) =" % (N, N), body[m.end():])
            args = d.group(2).split()
            ways = ["l." + v if not ch else "l.initial." + v for v, ch in zip(vars_, changed)] + ["l." + v for v, ch in zip(vars_, changed) if ch]
            if len(ways) != len(args):
                said.append("loop %s: %d names for %d" % (loop, len(args), len(ways)))
            to = dict(zip(args, ways))
            rest = re.sub(r"(?<!\.)(?<![^\s(){}.;,@\"«»\[\]\\])" + N, lambda k: to.get(k.group(0), k.group(0)), body[m.end() + d.end():])
            # A field of what is renamed is left as it is.
            label = f"{kind}-{new}"
            invariants.append("\n".join(notes + [f"abbrev pub {label} : goal.{label}", f"{label} l ={rest}"]))
            continue
        m = re.match(r"(%s) : tie\.Need-(%s)(?: [^\n]*)?\n((?:unfolding [^\n]*\n)?)" % (N, N), body)
        if m:
            got = names.need(m.group(2))
            d = re.match(r"(%s) (%s)(?: κs)? =(\s)" % (N, N), body[m.end():])
            if not d:
                said.append("unread answer " + m.group(1))
                answers.append(part)
                continue
            term = body[m.end() + d.end():].strip()
            if term == "search rules" and not m.group(3):
                continue
            if got is None:
                said.append("no goal " + m.group(2))
                continue
            new, place = got
            unfolding = m.group(3).split()[1:]
            term = expanded(d.group(3) + body[m.end() + d.end():], unfolding, d.group(2), helpers)
            term = inline(term, d.group(2), names, place, said)
            # A test of `!x` says what `x` is.
            term = re.sub(r"not-(true|false) _ (%s\.if-not-%s\.(?:true|false))(?![^\s(){};,])" % (V, N), lambda k: k.group(2), term)
            fields = names.asked.get(names.old[new], [])
            if len(fields) > 1 and "record {" not in term:
                as_record = named(term, fields, names.pre)
                if as_record:
                    term = as_record
            answers.append("\n".join(notes + [f"pub {new} : goal.{new}"] + (["unfolding " + " ".join(unfolding)] if unfolding else []) + [f"{new} {d.group(2)} ={term}"]))
            continue
        if re.search(r": \{M : Type 1\} → statement M", body):
            continue
        if any(re.match(r"(abbrev )?(pub )?%s :" % re.escape(h.name), body) for h in helpers):
            continue
        if "tie." in body:
            said.append("helper with tie: " + body.split("\n")[0])
        answers.append(part)
    # What an invariant cites stands beside it.
    shared, text = [], "\n".join(invariants)
    for part in reversed(answers):
        m = re.match(r"(?:--[^\n]*\n)*((?:abbrev |unfoldable |pub |record |data )*)(%s)(?= :|\n| \(| \{)" % N, part)
        if m and not m.group(2).startswith("module") and " : goal." not in part and re.search(r"(?<![^\s(){};,\[\]])%s(?![^\s(){}.;,\[\]])" % re.escape(m.group(2)), text):
            shared.insert(0, (m.group(2), part))
            text += "\n" + part
    answers = [a for a in answers if a not in [s for _, s in shared]]
    shared_names = [n for n, _ in shared]
    for n, part in reversed(shared):
        head = re.sub(r"(?m)^((?:abbrev |unfoldable |record |data )*)(?=%s(?: :|\n| \(| \{))" % re.escape(n), lambda m: m.group(1) + "pub " if m.group(1).startswith(("abbrev", "unfoldable")) else "pub " + m.group(1), part, count=1) if not re.search(r"(?m)^(abbrev |unfoldable )?pub ", part) else part
        if re.search(r"(?m)^pub record ", head):
            head = re.sub(r"(?m)^  (?=%s(?: %s)* :)(?!pub )" % (N, N), "  pub ", head)
        invariants.insert(0, head)
    folder = os.path.dirname(path)
    if invariants:
        with open(os.path.join(folder, "Invariants.antt"), "w", encoding="utf-8") as f:
            f.write("\n".join(comment + uses + [f"use {module}.Given as goal", ""]) + "\n" + "\n\n".join(invariants) + "\n")
    if answers:
        with open(os.path.join(folder, "Answers.antt"), "w", encoding="utf-8") as f:
            brought = [f"use {module}.Invariants.{{{', '.join(shared_names)}}}"] if shared_names else []
            f.write("\n".join(comment + uses + brought + [f"use {module}.Goals as goal", ""]) + "\n" + "\n\n".join(answers) + "\n")
    os.remove(path)


def main(argv):
    if len(argv) < 2:
        print(__doc__)
        return 2
    at, crate, only = argv[0], argv[1], argv[2:]
    with open(os.path.join(at, crate, "names.json"), encoding="utf-8") as f:
        every = json.load(f)
    for path in sorted(glob.glob(f"crates/{crate}/proofs/**/Proof.antt", recursive=True)):
        function = os.path.dirname(path).split("/proofs/", 1)[1].replace("/", ".")
        if only and function not in only:
            continue
        key = f"Rattle-{crate}-proofs.{function}.Lts"
        if key not in every:
            print(f"{crate} {function}: no names")
            continue
        said = []
        turn(crate, function, Names(every[key]), path, said)
        for s in said:
            print(f"{crate} {function}: {s}")
    return 0


if __name__ == "__main__":
    raise SystemExit(main(sys.argv[1:]))
