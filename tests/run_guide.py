#!/usr/bin/env python3
"""Runs every command of the guide as written, in order, and holds what it prints to what the guide shows.

usage: run_guide.py ROOT FOLDER

ROOT is the repository, with the program desk made. The commands run in one shell, which begins in a copy of what a clone of ROOT has, made in FOLDER, with
ROOT's crates/desk/out linked into it. A command is an indented line that begins with `$ `; the indented lines below it are what it prints, both streams;
a line `...` stands for any number of lines. An indented line that begins with `% ` is a command that is not run.
"""
import os
import re
import shutil
import subprocess
import sys

root, folder = (os.path.abspath(path) for path in sys.argv[1:3])


def commands(guide):
    """Each command that is run, with the lines that it prints."""
    cases = []
    is_below = False
    for line in open(guide, encoding="utf-8"):
        if line.startswith("    $ "):
            cases.append((line[6:].rstrip("\n"), []))
            is_below = True
        elif line.startswith("    ") and not line.startswith("    % "):
            if is_below:
                cases[-1][1].append(line[4:].rstrip("\n"))
        elif line.strip():
            is_below = False
    return cases


def copy_of_clone(room):
    """The files that the repository keeps, as they are now, and the programs."""
    kept = subprocess.run(["git", "-C", root, "ls-files", "-z"], check=True, stdout=subprocess.PIPE).stdout.decode()
    for name in kept.split("\0"):
        path = os.path.join(root, name)
        if name and os.path.exists(path):
            os.makedirs(os.path.dirname(os.path.join(room, name)), exist_ok=True)
            shutil.copy2(path, os.path.join(room, name))
    os.symlink(os.path.join(root, "crates", "desk", "out"), os.path.join(room, "crates", "desk", "out"))


def run_all(cases, room, answers):
    """Runs the commands in one shell, so that cd and export last; what each prints goes to a file of its own."""
    os.mkdir(answers)
    script = os.path.join(answers, "script")
    with open(script, "w", encoding="utf-8") as out:
        for number, (command, _) in enumerate(cases):
            quoted = "'" + command.replace("'", "'\\''") + "'"
            out.write("eval %s > '%s/%d' 2>&1 < /dev/null\n" % (quoted, answers, number))
    subprocess.run(["bash", script], cwd=room, stdin=subprocess.DEVNULL, timeout=300)


cases = commands(os.path.join(root, "docs", "GUIDE.md"))
room, answers = os.path.join(folder, "clone"), os.path.join(folder, "answers")
copy_of_clone(room)
run_all(cases, room, answers)
failed = 0
for number, (command, expected) in enumerate(cases):
    path = os.path.join(answers, str(number))
    got = open(path, "rb").read().decode("utf-8", "replace") if os.path.exists(path) else "(not run)\n"
    pattern = "".join("(?:.*\n)*" if line == "..." else re.escape(line) + "\n" for line in expected)
    if not re.fullmatch(pattern, got):
        failed += 1
        print("the guide's command:", command)
        print("prints:\n" + got + "and the guide shows:\n" + "\n".join(expected))
print("%d commands of the guide, %d failed" % (len(cases), failed))
sys.exit(1 if failed or not cases else 0)
