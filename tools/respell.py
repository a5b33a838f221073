#!/usr/bin/env python3
"""Brings this repository's own names to snake case, once, after the kit's port.py: `python3 tools/respell.py` at the top.

Definitions, lemmas, fields and constructors that specs/ and proofs/ declare: `-` becomes `_`. Names with a middle dot, `Steps·start`, become `steps_start`.
Names that Rattle makes (goals, steps of a function) keep their hyphens, and so do the answers in a function's folder that bear a goal's name.
Pages follow where a name stands between backticks. With --look it writes nothing and prints names that fall together.
"""

import collections
import os
import re
import sys

NAME = r"[^\s:(){};,.«»λ⌜⌝]+"
WORD = r"[\w'?◌│⨾-]"
TOKEN = re.compile(r"(?<![\w'?·◌-])([^\W\d][\w'?]*(?:[-·][\w'?]+)+)(?![\w'?·◌-])")
SPECIAL = {"getD-inside": "get_or_inside", "ltZ-parts": "lt_z_parts", "nltZ-parts": "nlt_z_parts", "parts-ltZ": "parts_lt_z", "parts-nltZ": "parts_nlt_z"}


def texts(ends):
    for d, ds, fs in os.walk("crates"):
        ds[:] = sorted(x for x in ds if x not in ("out", "must-fail"))
        for f in sorted(fs):
            if f.endswith(ends):
                yield os.path.join(d, f)


def in_function(path):
    """A file of one function's proof lies deeper than specs/ and proofs/."""
    return len(path.split("/")) > 4


def declared(path):
    for line in open(path, encoding="utf-8"):
        line = re.sub(r"--.*", "", line)
        m = re.match(r"\s*((?:abbrev |unfoldable |pub )*)(" + NAME + r"(?: +" + NAME + r")*) : (.*)", line)
        if m:
            words = m.group(2).split()
            if words[0] not in ("use", "let", "record", "data", "module"):
                for w in words:
                    yield w, m.group(3)
        m = re.match(r"\s*(?:pub )?(?:record|data) (?:pub )?(" + NAME + ")", line)
        if m:
            yield m.group(1), ""


def spelled(name):
    if name in SPECIAL:
        return SPECIAL[name]
    if "·" in name:
        first, rest = name.split("·", 1)
        name = first[0].lower() + first[1:] + "_" + rest
    return name.replace("-", "_")


def own_names():
    shared, local = set(), collections.defaultdict(set)
    for path in texts(".antt"):
        parts = path.split("/")
        for name, type_ in declared(path):
            if "-" not in name or not re.fullmatch(r"[\w'?-]+", name):
                continue
            if not in_function(path):
                shared.add(name)
            elif not re.match(r"tie\.(?!After|At)", type_) and not name.startswith(("invariant-", "decreases-")):
                local[path].add(name)
            if in_function(path) and name == parts[-2].replace("_", "-") + "-spec":
                local[path].add(name)
    return shared, local


def turned(text, names, comments):
    """The text with each of names respelled; comments only where a name stands between backticks."""

    def one(m):
        w = m.group(1)
        return spelled(w) if w in names or "·" in w else w

    out = []
    for line in text.split("\n"):
        at = line.find(comments) if comments else -1
        head, tail = (line, "") if at < 0 else (line[:at], line[at:])
        tail = re.sub(r"`[^`]*`", lambda m: TOKEN.sub(one, m.group(0)), tail)
        out.append(TOKEN.sub(one, head) + tail)
    return "\n".join(out)


def pages():
    yield from (p for p in ("README.md",) if os.path.exists(p))
    for top in ("docs", "rust", "cases", "include"):
        for d, ds, fs in os.walk(top):
            ds[:] = sorted(x for x in ds if x not in ("target",))
            yield from (os.path.join(d, f) for f in sorted(fs) if f.endswith(".md"))


def main(look):
    shared, local = own_names()
    fell = 0
    for path in texts((".antt", ".rt")):
        text = open(path, encoding="utf-8").read()
        names = shared | local.get(path, set())
        comments = "//" if path.endswith(".rt") else "--"
        code = "\n".join(l.split(comments)[0] for l in text.split("\n"))
        before = set(re.findall(r"(?<![\w'?·◌-])[^\W\d][\w'?]*(?:[-·][\w'?]+)*", code))
        goal = collections.defaultdict(set)
        for w in before:
            goal[spelled(w) if w in names or "·" in w else w].add(w)
        for to, ws in sorted(goal.items()):
            if len(ws) > 1:
                fell += 1
                print(f"{path}: {' and '.join(sorted(ws))} fall together")
        new = turned(text, names, comments)
        if not look and new != text:
            open(path, "w", encoding="utf-8").write(new)
    for path in pages():
        text = open(path, encoding="utf-8").read()
        new = re.sub(r"`[^`\n]*`", lambda m: TOKEN.sub(lambda t: spelled(t.group(1)) if t.group(1) in shared else t.group(1), m.group(0)), text)
        if not look and new != text:
            open(path, "w", encoding="utf-8").write(new)
    print(f"{len(shared)} shared names, {sum(len(v) for v in local.values())} of one function's proof; {fell} places to look at")


if __name__ == "__main__":
    main("--look" in sys.argv[1:])
