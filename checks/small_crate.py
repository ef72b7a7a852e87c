#!/usr/bin/env python3
"""Writes the small crate that docs/LIBRARY.md shows into a new repository with the crates below it, and proves it there, as the
page says: `rt check`, and `rt must-fail` of its edit. The libraries are built first where no copy on this machine has them.

    checks/small_crate.py [--test]     --test also proves and runs its tests
"""
import os
import re
import resource
import shutil
import subprocess
import sys
import tempfile

TOP = os.path.dirname(os.path.dirname(os.path.abspath(__file__)))
FILE = re.compile(r"`(crates/runs/[\w./-]+)`[^`]*?\n\n```\n(.*?)^```$", re.M | re.S)
LINE = re.compile(r"^    (runs: .*)$", re.M)


def lines():
    with open(os.path.join(TOP, "crates.txt")) as file:
        for line in file:
            head, _, uses = line.partition("#")[0].partition(":")
            if head.strip():
                yield head.split()[0], uses.split(), line


def main(words):
    with open(os.path.join(TOP, "docs", "LIBRARY.md"), encoding="utf-8") as file:
        page = file.read()
    files, line = FILE.findall(page), LINE.search(page)[1]
    uses = {name: (used, text) for name, used, text in lines()}
    wanted, left = [], line.partition(":")[2].split()
    while left:
        name = left.pop()
        if name in uses and name not in wanted:
            wanted.append(name)
            left += uses[name][0]
    with tempfile.TemporaryDirectory(prefix="zla-small-crate-") as room:
        os.mkdir(os.path.join(room, ".git"))
        for name in wanted:
            to = os.path.join(room, "crates", name)
            shutil.copytree(os.path.join(TOP, "crates", name), to, ignore=shutil.ignore_patterns("out", "must-fail"))
        for path, text in files:
            os.makedirs(os.path.dirname(os.path.join(room, path)), exist_ok=True)
            with open(os.path.join(room, path), "w", encoding="utf-8") as file:
                file.write(text)
        with open(os.path.join(room, "crates.txt"), "w") as file:
            file.write("".join(text for name, (_, text) in uses.items() if name in wanted) + line + "\n")
        folder = os.path.join(room, "crates", "runs")
        commands = [(folder, ["rt", "check"]), (room, ["rt", "must-fail", "runs"])]
        commands += [(folder, ["rt", "test"])] * (words == ["--test"])
        commands.append((folder, ["rt", "fmt"]))
        took = []
        for at, command in commands:
            before = resource.getrusage(resource.RUSAGE_CHILDREN)
            run = subprocess.run(command, cwd=at, stdout=subprocess.PIPE, stderr=subprocess.STDOUT, text=True, errors="replace")
            if run.returncode or "formatted" in run.stdout:
                print(run.stdout, end="")
                print("small crate: %s FAILED on the %d files of docs/LIBRARY.md" % (" ".join(command), len(files)))
                return 1
            after = resource.getrusage(resource.RUSAGE_CHILDREN)
            seconds = after.ru_utime + after.ru_stime - before.ru_utime - before.ru_stime
            took.append("%s %d" % (" ".join(command), seconds))
    print("small crate: passed, %d files; processor seconds: %s" % (len(files), ", ".join(took)))
    return 0


if __name__ == "__main__":
    sys.exit(main(sys.argv[1:]))
