#!/usr/bin/env python3
"""Brings this repository's own definitions and lemmas to the spelling of today's Rattle: words in snake case.

usage: python3 tools/respell.py      at the top of the repository, once, right after the port.py of the kit

It renames what is defined in specs/ and proofs/ with a dash or a capital in a word, wherever it is named: in .antt files, in the clauses and
ghost lines of .rt files, in must-fail edits, and between backticks in comments and in the documents. Functions, types, strings and files keep
their names. It prints names that would fall together, and changes nothing then.
"""

import os
import re
import sys

WORD = r"(?<![\w'\u00b7-])([A-Za-z_\u03bc+][\w']*(?:-[\w']+)*)(?![\w'-])"
TOKEN = re.compile(WORD)
DEFINED = re.compile(r"^ *(?:(?:abbrev|unfoldable|pub|data|record|ruleset) +)*([A-Za-z_][\w']*(?:-[\w']+)*)\s*(?:[({].*)?:(?:\s|$)")
USE = re.compile(r"^(?:pub |ghost )*use ([^{;\s]+?)\.\{([^}]*)\};?$")
# what would fall together with another name, or reads badly
CHOSEN = {
    "read-of": "read_of_frame",
    "message-of": "message_of_numbers",
    "bankSelect": "of_bank",
    "wavSelect": "of_wav",
    "wavMap": "only_wav_map",
    "pairW": "pair_whole",
    "namedW": "named_whole",
    "bindW": "bind_whole",
}
SKIP = ("write_maps/proofs/Walking.antt", "docs/CHANGES.md", "bench/RESULTS.md")


def files(root, ends):
    for folder, dirs, names in os.walk(root):
        dirs[:] = sorted(d for d in dirs if d not in ("out", ".git", "target"))
        for n in sorted(names):
            if n.endswith(ends):
                yield os.path.join(folder, n)


def snake(name):
    if name in CHOSEN:
        return CHOSEN[name]
    if any(name.startswith(k + "-") for k in CHOSEN):
        k = next(k for k in CHOSEN if name.startswith(k + "-"))
        name = CHOSEN[k] + name[len(k):]
    words = name.replace("-", "_")
    if words[0].islower():
        words = re.sub(r"(?<=[a-z])([A-Z])(?=[a-z]|\b|_)", lambda m: "_" + m.group(1).lower(), words)
        words = words.replace("getD_", "get_or_")
    return words


def own_names(root):
    crates = set(os.listdir(os.path.join(root, "crates")))
    own, foreign, where = set(), set(), {}
    for p in files(os.path.join(root, "crates"), ".antt"):
        if p.endswith(SKIP):
            continue
        with open(p, encoding="utf-8") as f:
            for line in f:
                m = USE.match(line.strip())
                if m:
                    c = re.match(r"Rattle\.(\w+)\.", m.group(1))
                    if not (c and c.group(1) in crates):
                        foreign.update(x.strip().split(" as ")[0] for x in m.group(2).split(","))
                    continue
                m = DEFINED.match(line)
                if m and not line.lstrip().startswith(("use ", "--", "let ", "in ")):
                    n = m.group(1)
                    if "-" in n or re.match(r"^[a-z]\w*[A-Z]", n):
                        own.add(n)
                        where.setdefault(n, set()).add(p)
    return own, foreign, where


def in_file(p, text, own, foreign, where):
    """The names to turn in this file: all but those that it takes from the library."""
    taken = set()
    for line in text.splitlines():
        m = USE.match(line.strip())
        if m and not re.match(r"Rattle\.(\w+)\.", m.group(1)):
            taken.update(x.strip().split(" as ")[0] for x in m.group(2).split(","))
        elif m and re.match(r"Rattle\.std\.", m.group(1)):
            taken.update(x.strip().split(" as ")[0] for x in m.group(2).split(","))
    return own - taken


def turn(text, names):
    return TOKEN.sub(lambda m: snake(m.group(1)) if m.group(1) in names else m.group(1), text)


def turn_ticks(text, names):
    return re.sub(r"`[^`\n]*`", lambda m: turn(m.group(0), names), text)


def turn_code(line, names, mark):
    """A line of code, whose comment is turned between backticks only."""
    at = line.find(mark)
    if at < 0 or line[:at].count('"') % 2:
        return turn(line, names)
    return turn(line[:at], names) + turn_ticks(line[at:], names)


def main():
    root = "."
    own, foreign, where = own_names(root)
    to = {}
    for n in own:
        to.setdefault(snake(n), set()).add(n)
    plain = set()
    for p in files(os.path.join(root, "crates"), ".antt"):
        with open(p, encoding="utf-8") as f:
            for line in f:
                m = DEFINED.match(line)
                if m and not p.endswith("Proof.antt") and not line.lstrip().startswith(("use ", "--", "let ", "in ")):
                    plain.add(m.group(1))
    clash = {k: v for k, v in to.items() if len(v) > 1 or (k in plain and k not in v)}
    for k, v in sorted(clash.items()):
        print(f"falls together: {k} <- {sorted(v)}" + (f" and {k} in use" if k in plain else ""))
    if clash and "--force" not in sys.argv:
        return 1
    n = 0
    for p in files(root, (".antt", ".rt", ".edit", ".md")):
        if p.endswith(SKIP):
            continue
        with open(p, encoding="utf-8") as f:
            text = f.read()
        if p.endswith(".antt"):
            names = in_file(p, text, own, foreign, where)
            new = "\n".join(turn_code(l, names, "-- ") for l in text.split("\n"))
        elif p.endswith(".rt"):
            names = in_file(p, text, own, foreign, where)
            new = "\n".join(turn_code(l, names, "//") for l in text.split("\n"))
        elif p.endswith(".edit"):
            new = turn(text, own)
        else:
            new = turn_ticks(text, own)
        if new != text:
            with open(p, "w", encoding="utf-8") as f:
                f.write(new)
            n += 1
    print(f"{len(own)} names, {n} files changed")
    return 0


if __name__ == "__main__":
    raise SystemExit(main())
