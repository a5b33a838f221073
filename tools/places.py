#!/usr/bin/env python3
"""Counts the places of src/ that an older form of Rattle left, point by point: `python3 tools/places.py [--list] [COMMIT]` at the top (HEAD, if no commit is named).

The points are those of docs/DESIGN-PASS.md. A place is a line or a function; --list names each. Comments are not read.
"""

import collections
import re
import subprocess
import sys

FUNCTION = re.compile(r"^( *)(?:pub(?:\(crate\))? )?(?:const )?(?:extern \"C\" )?fn (\w+)((?:(?!;\n).)*?)\{\n(.*?)^\1\}", re.M | re.S)


def sources(commit):
    names = subprocess.check_output(["git", "ls-tree", "-r", "--name-only", commit, "crates"], text=True).split()
    for name in names:
        if re.fullmatch(r"crates/\w+/src/.*\.rt", name):
            text = subprocess.check_output(["git", "show", f"{commit}:{name}"], text=True)
            yield name[len("crates/"):], re.sub(r"//[^\n]*", "", text)


def lines(pattern):
    """Lines of code in which the pattern stands."""
    def found(name, text):
        for number, line in enumerate(text.split("\n"), 1):
            if re.search(pattern, line) and "ghost use" not in line:
                yield f"{name}:{number} {line.strip()[:100]}"
    return found


def functions(test):
    """Functions that pass a test of head (parameters, result and clauses) and body."""
    def found(name, text):
        for match in FUNCTION.finditer(text):
            if test(match.group(3), match.group(4)):
                yield f"{name} {match.group(2)}"
    return found


def parameters(head):
    return len(re.findall(r"[(,\n ](?:mut )?\w+: ", re.split(r"\) ?(?:->|\n|$)|requires|ensures", head)[0]))


POINTS = [
    ("1a own enums", lines(r"\benum \w+")),
    ("1b a number says that there is none", functions(lambda head, body: "used: usize" not in head and (re.search(r"\bBEHIND\b", body)
        or re.search(r"-> usize", head) and re.search(r"return (n|place|column|row);|\n +(n|place)\n$", body)))),
    ("1c numbers for refusals, kinds and outcomes", lines(r"efused\(\d|unpaired\(\d|number: \d|number [!=]= \d|kind [!=]= \d|\d < kind|answer\(\s*\d|Verdict::\w+\(\d|const (DIFFERENT|CUT|END|EQUAL|BEHIND|ABSENT)\b")),
    ("1d a flag chooses", lines(r"^\s*(pub(\(crate\))? )?(\w+: bool,|.*\bfn .*\w+: bool[,)])")),
    ("3 loops by hand", lines(r"^\s*('\w+: )?(while|loop)\b")),
    ("4a a field copied from the same field", lines(r"\b(\w+): \w+\.\1,")),
    ("4b bytes and bits put together by hand", lines(r"(256|65_?536|16_777_216|4_294_967_296) \* |\* 256 |(?<![\w.])!\(less as|9_223_372_036_854_775_80[78]")),
    ("4c a comparison chosen by hand", lines(r"if (\w+) < (\w+) \{ (\1|\2) \} else \{ (\1|\2) \}")),
    ("4d a name only for the place behind a piece of text", lines(r"let after_\w+ =")),
    ("5 functions with six parameters or more", functions(lambda head, body: parameters(head) >= 6)),
    ("6a room and how much of it is used, side by side", functions(lambda head, body: "used: usize" in head)),
    ("6b parallel lists", functions(lambda head, body: re.search(r"fragments: &.*events: &|rows: &(mut )?\[usize\].*columns: &|star: &.*(owner|prime): &|keys: &.*row_prices: &", head, re.S))),
    ("7 a flag or a table that says what to run", lines(r"\bby_steps\b.*(:|\{)|match [\w.]*next \{|^const (NAMES|UNNAMED|STARTS)\b|answers: bool")),
]


def twins(all_sources):
    """Groups of functions whose bodies of three lines or more are the same but for names, numbers and types."""
    groups = collections.defaultdict(list)
    for name, text in all_sources:
        for match in FUNCTION.finditer(text):
            body = match.group(4)
            if body.count("\n") < 4:
                continue
            known = {}
            plain = re.sub(r"b\"[^\"]*\"|[\w:]+", lambda m: known.setdefault(m.group(0), f"#{len(known)}"), re.sub(r"\s+", " ", body))
            groups[plain].append(f"{name} {match.group(2)}")
    for group in groups.values():
        if len(group) > 1:
            yield " = ".join(group)


def main():
    words = [word for word in sys.argv[1:] if word != "--list"]
    commit = words[0] if words else "HEAD"
    texts = list(sources(commit))
    counts = [(title, [place for name, text in texts for place in find(name, text)]) for title, find in POINTS]
    counts.insert(4, ("2 groups of twins", list(twins(texts))))
    for title, places in counts:
        print(f"{len(places):4}  {title}")
        if "--list" in sys.argv:
            for place in places:
                print(f"        {place}")


main()
