#!/usr/bin/env python3
"""Brings this repository's own definitions and lemmas to the spelling of today's Rattle.

Run once at the top, after the kit's port.py: values and members to snake case, types to camel case. Functions of src/,
names that the check makes (goals, steps, loops), names of the library, comments and strings stay. In docs/ and README.md
the names between backticks follow. With --list it prints the names and changes nothing.
"""
import collections
import os
import re
import sys

TOKEN = re.compile(r"[^\s(){}\[\];,.@⟦⟧`]+")
# where the plain respelling would fall together with another name
BY_HAND = {
    "bit-and": "bit_of_and",
    "bit-or": "bit_of_or",
    "step-of": "step_taken",
    "word-of": "word_of_is",
    "None-runs": "NoHeadRuns",
    "in-round": "in_open_round",
    "played-as": "played_with",
    "breach-of": "breach_from",
    "heard-table": "table_heard",
    "in-time": "within_time",
    "getD-rewrite": "get_or_rewrite",
}
MADE = re.compile(
    r"(loop|if|then|else|match|call|overflow|invariant|measure|ensures|requires|range|drop|index|returns|case|arm|while|some|none|ok|err)-"
)
KEYWORDS = {"use", "mod", "pub", "let", "in", "where", "record", "data", "abbrev", "unfoldable", "unfolding", "open", "λ"}


def files(*endings):
    for root, dirs, names in os.walk("crates"):
        dirs[:] = [d for d in dirs if d != "out"]
        for name in sorted(names):
            if name.endswith(endings):
                yield os.path.join(root, name)


def bare(line, mark):
    """The line without its comment."""
    at = line.find(mark)
    return (line, "") if at < 0 else (line[:at], line[at:])


def respelled(name):
    if name in BY_HAND:
        return BY_HAND[name]
    if name[0].isupper():
        return "".join(w[:1].upper() + w[1:] for w in name.split("-"))
    name = re.sub(r"([a-z0-9])([A-Z])", r"\1_\2", name)
    return name.replace("-", "_").replace("′", "'").lower()


def declared():
    """The repository's own names: (top and members), and (names of where and let)."""
    top, local, goals, imported = set(), set(), set(), set()
    for path in files(".antt"):
        with open(path, encoding="utf-8") as f:
            text = f.read()
        goals.update(re.findall(r"goal\.([^\s(){}\[\];,]+)", text))
        for line in text.splitlines():
            code, _ = bare(line, "--")
            m = re.match(r"use ([^\s{]+)\.\{(.*)\}", code)
            if m:
                if not re.match(r"Rattle\.(?!std\.|core\.)\w+\.(specs|proofs)\.(?!declared)", m.group(1)):
                    imported.update(t.strip().split(" as ")[-1] for t in m.group(2).split(","))
                continue
            m = re.match(r"((?:(?:abbrev|unfoldable|pub|opaque|instance)\s+)*(?:record |data )?)([^\s(){}\[\];,.:]+)\s*(?:[({].*)?:(?:\s|$)", code)
            if m and m.group(2) not in KEYWORDS:
                top.add(m.group(2))
                continue
            m = re.match(r"\s+(?:(?:abbrev|unfoldable|pub) )*([^\s(){}\[\];,.:]+) :(?:\s|$)", code)
            if m:
                (top if re.match(r"  \S", code) else local).add(m.group(1))
            local.update(re.findall(r"\blet ([^\s(){}\[\];,.:]+)", code))
    for path in files(".rt"):
        with open(path, encoding="utf-8") as f:
            for line in f:
                m = re.match(r"\s+ghost (?!use|fn)([^\s:=(]+)(?::| =)", line)
                if m:
                    top.add(m.group(1))
    return top, local, goals, imported


def changes():
    top, local, goals, imported = declared()
    map_ = {}
    for name in sorted(top | local):
        if name in goals or name in imported or name in KEYWORDS or not re.match(r"[A-Za-z]", name):
            continue
        if name in local and name not in top and MADE.match(name):
            continue
        new = respelled(name)
        if new != name:
            map_[name] = new
    return map_, imported


def turn(text, map_, mark):
    out = []
    for line in text.splitlines(keepends=True):
        code, comment = bare(line, mark)
        parts = re.split(r'("(?:[^"\\]|\\.)*")', code)
        parts = [p if p.startswith('"') else TOKEN.sub(lambda m: map_.get(m.group(0), m.group(0)), p) for p in parts]
        out.append("".join(parts) + comment)
    return "".join(out)


def main():
    map_, imported = changes()
    again = collections.defaultdict(list)
    for old, new in map_.items():
        again[new].append(old)
    for new, olds in again.items():
        if len(olds) > 1:
            print("falls together:", new, olds)
    for path in files(".antt"):
        with open(path, encoding="utf-8") as f:
            text = "\n".join(bare(l, "--")[0] for l in f.read().splitlines())
        tokens = set(TOKEN.findall(text))
        for old, new in map_.items():
            if old in tokens and new in tokens:
                print("look:", path, old, new)
    if "--list" in sys.argv:
        for old, new in sorted(map_.items()):
            print(old, new)
        return
    for path in files(".antt", ".rt"):
        with open(path, encoding="utf-8") as f:
            text = f.read()
        new = turn(text, map_, "--" if path.endswith(".antt") else "//")
        if new != text:
            with open(path, "w", encoding="utf-8") as f:
                f.write(new)
    pages = ["README.md"] + [os.path.join("docs", n) for n in sorted(os.listdir("docs")) if n.endswith(".md") and n != "PORT.md"]
    for path in pages:
        with open(path, encoding="utf-8") as f:
            text = f.read()
        new = re.sub(r"`[^`\n]+`", lambda m: TOKEN.sub(lambda t: map_.get(t.group(0), t.group(0)), m.group(0)), text)
        if new != text:
            with open(path, "w", encoding="utf-8") as f:
                f.write(new)


main()
