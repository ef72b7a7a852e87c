#!/usr/bin/env python3
"""Runs every command that a document shows, and compares what it writes with what the document says.

A document shows commands in blocks that begin with ```console: a line `$ COMMAND`, and below it what the command
writes to standard output. Where it ends with another status than 0, the last line of its output is `[status N]`.
Commands run at the top of the repository, one after another.

    checks/transcripts.py [--write] FILE..     --write puts what the commands write into the documents
"""
import os
import re
import subprocess
import sys

TOP = os.path.dirname(os.path.dirname(os.path.abspath(__file__)))
BLOCK = re.compile(r"^```console\n(.*?)^```$", re.M | re.S)


def output(command):
    """What a command writes, and its status where that isn't 0."""
    run = subprocess.run(["sh", "-c", command], cwd=TOP, stdout=subprocess.PIPE, stdin=subprocess.DEVNULL)
    said = run.stdout.decode("utf-8", "replace")
    return said if run.returncode == 0 else said + "[status %d]\n" % run.returncode


def commands(block):
    """The commands of a block, each with what the document says that it writes."""
    shown = []
    for line in block.splitlines(True):
        if line.startswith("$ "):
            shown.append([line[2:].rstrip("\n"), ""])
        else:
            shown[-1][1] += line
    return shown


def main(names, writes):
    passed = failed = 0
    for name in names:
        with open(os.path.join(TOP, name), encoding="utf-8") as file:
            document = file.read()

        def again(match):
            nonlocal passed, failed
            text = ""
            for command, said in commands(match.group(1)):
                got = output(command)
                if got == said:
                    passed += 1
                else:
                    failed += 1
                    if not writes:
                        print("%s: $ %s\n--- the document says\n%s--- it writes\n%s" % (name, command, said, got))
                text += "$ %s\n%s" % (command, got)
            return "```console\n%s```" % text

        changed = BLOCK.sub(again, document)
        if writes and changed != document:
            with open(os.path.join(TOP, name), "w", encoding="utf-8") as file:
                file.write(changed)
    print("transcripts: %d passed, %d failed" % (passed, failed))
    return 1 if failed and not writes else 0


if __name__ == "__main__":
    rest = [name for name in sys.argv[1:] if name != "--write"]
    sys.exit(main(rest, "--write" in sys.argv))
