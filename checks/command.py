#!/usr/bin/env python3
"""docs/REFERENCE.md, docs/FORMATS.md, tools/zla.1 and tools/zla.bash against the built program and each other: the
commands, the statuses, the lines of a job, and the lines of the answers.
"""
import glob
import os
import re
import shutil
import subprocess
import sys

TOP = os.path.dirname(os.path.dirname(os.path.abspath(__file__)))
sys.path.insert(0, os.path.join(TOP, "tools"))
sys.dont_write_bytecode = True
import second_reading  # noqa: E402

PROGRAM = os.path.join(TOP, "crates", "zla", "out", "zla")
USAGE = 2
wrong = []


def want(is_right, what):
    if not is_right:
        wrong.append(what)


def read(name):
    with open(os.path.join(TOP, name), encoding="utf-8") as file:
        return file.read()


def zla(words, text=b""):
    run = subprocess.run([PROGRAM] + words, input=text, capture_output=True)
    return run.returncode, run.stdout.decode()


def section(text, head):
    """What stands below a heading, up to the next one."""
    return re.search(r"^## %s$(.*?)(?=^## |\Z)" % head, text, re.M | re.S)[1]


def commands(reference, man):
    """The documents have the forms in the usage line, and no others; the commands that read a job alone."""
    usage = zla([])[1]
    want(usage.encode() == second_reading.USAGE, "the usage line is another one: " + usage)
    rows = re.findall(r"^\| `\./zla (\w+)([^`]*)` \|", section(reference, "Commands"), re.M)
    shown = [command for command, _ in rows]
    parts = [re.sub(r" \[.*", "", part)[len("zla ") :] for part in usage[len("usage: ") :].split(", ")]
    forms = [form.split() for part in parts for form in part.split("|")]
    job = read("examples/lock.zla").encode()
    for form in forms:
        words = ["3" if word in ("N", "K") else word for word in form]
        is_known = zla(words, job)[0] != USAGE
        want(is_known and form[0] in shown, "REFERENCE.md and the program differ on the command " + form[0])
    want(re.findall(r"^\.B zla (\w+)", man, re.M) == shown, "zla.1 has other commands in its synopsis")
    want(re.findall(r"^\.TP\n\.B ([a-z]+)", man, re.M) == shown, "zla.1 describes other commands")
    shell = '. tools/zla.bash; COMP_WORDS=(zla ""); COMP_CWORD=1; _zla; echo "${COMPREPLY[*]}"'
    run = subprocess.run(["bash", "-c", shell], cwd=TOP, capture_output=True, text=True)
    want(run.stdout.split() == shown and not run.stderr, "zla.bash completes other commands: " + run.stdout + run.stderr)
    asked = [command for command, rest in rows if rest == " < JOB"]
    for command in asked:
        want(zla([command, "--cache", "64"], job)[0] == zla([command], job)[0], "--cache changes the status of " + command)
    return asked


def statuses(reference, man):
    formats = re.findall(r"^\| (\d+) \|", section(read("docs/FORMATS.md"), "Statuses"), re.M)
    cells = re.findall(r"\| (\d+) \| ([^|]+?) (?=\|)", section(reference, "Commands"))
    told = {number: meaning.replace("`", "") for number, meaning in cells}
    want(sorted(told, key=int) == formats, "REFERENCE.md has other statuses than FORMATS.md")
    manned = dict(re.findall(r"^\.TP\n\.B (\d+)\n(.*)$", man, re.M))
    others = sorted(set(manned.items()) ^ set(told.items()))
    want(not others, "zla.1 has other statuses than REFERENCE.md: %s" % others)


def lines_of_a_job(reference, man):
    """The grammar has the lines of the second reading, in their order."""
    productions = re.findall(r'^    \w+ += "(\w+)"', reference, re.M)
    expression = [name for firsts in second_reading.EXPRESSION_PLACES[: second_reading.JOB_ENDS] for name in firsts]
    others = {name.decode() for name in expression} - set(productions)
    want(not others, "the grammar of REFERENCE.md lacks lines of a document with an expression: %s" % sorted(others))
    productions.remove("expr")
    places = second_reading.PLACES[: second_reading.JOB_ENDS]
    known = {name.decode() for firsts in places for name in firsts}
    want(sorted(productions) == sorted(known), "the grammar of REFERENCE.md has other lines")
    order = re.search(r"^    job +=(.*)$", reference, re.M)[1]
    want([name.rstrip("+*") for name in order.split()] == productions, "the grammar of REFERENCE.md has another order")
    listed = re.search(r"^\.nf\n(zla 2.*?)\.fi", man, re.M | re.S)[1]
    want([line.split()[0] for line in listed.splitlines()] == productions, "zla.1 has other lines of a job")


def pattern_of(form):
    """The lines that a form stands for: a capital is a token, two and points are any number of them, TEXT is the rest."""
    pattern = re.escape(form).replace("\\ ", " ").replace("TEXT", ".+").replace("\\.\\.", "..")
    pattern = re.sub(r"( [A-Z]){2} \.\.", r"(?: \\S+)*", pattern)
    return re.compile(re.sub(r"(?<![A-Za-z\\])(p?)[A-Z](?![A-Za-z])", r"\1\\S+", pattern))


def claims(text):
    """What `journal` writes for a job, and claims with one thing changed: one of each verdict, where there is a letter."""
    journal = zla(["journal"], text)[1]
    lines = journal.splitlines(keepends=True)
    answer = "claim reject\n" if lines[0] == "claim accept\n" else "claim accept\n"
    fires = lines[1:-1]
    relabelled = [fires[0].split(".")[0] + ".1\n"] if fires else []
    return [journal, "".join([answer] + lines[1:])] + [
        "".join(lines[:1] + changed + lines[-1:])
        for changed in ([], relabelled + fires[1:], fires[:1] + fires)
    ]


def answers(reference, asked):
    """Each line of an answer to a job is in the table, and each line of the table in an answer."""
    forms = re.findall(r"`([^`]+)`", "\n".join(re.findall(r"^\|([^|]*)\|", section(reference, "Output lines"), re.M)))
    patterns = {form: pattern_of(form) for form in forms}
    met = set()
    for name in sorted(glob.glob(os.path.join(TOP, "examples", "**", "*.zla"), recursive=True)):
        with open(name, "rb") as file:
            text = file.read()
        said = [zla([command], text)[1] for command in asked]
        if said[asked.index("journal")].startswith("claim "):
            said += [zla(["audit"], text + claim.encode())[1] for claim in claims(text)]
            said.append(re.sub(r"^.*(?=^cut )", "", zla(["freeze", "2"], text)[1], flags=re.M | re.S))
            said.append(zla(["news"], text + b"readings\nend\n")[1])
        for line in "".join(said).splitlines():
            fits = {form for form, pattern in patterns.items() if pattern.fullmatch(line)}
            want(fits, "no line of REFERENCE.md's table is like: " + line)
            met |= fits
    want(met == set(forms), "no answer has a line like: %s" % sorted(set(forms) - met))


def main():
    if not os.access(PROGRAM, os.X_OK):
        sys.exit("command: there is no program; ./zla builds it")
    reference, man = read("docs/REFERENCE.md"), read("tools/zla.1")
    asked = commands(reference, man)
    statuses(reference, man)
    lines_of_a_job(reference, man)
    answers(reference, asked)
    example = re.search(r"^\$ zla (\w+) < (\S+)\n(.*?)\.fi", man, re.M | re.S)
    want(zla([example[1]], read(example[2]).encode())[1] == example[3], "the example of zla.1 has another answer")
    if shutil.which("groff"):
        run = subprocess.run(["groff", "-man", "-ww", "-z", "tools/zla.1"], cwd=TOP, capture_output=True, text=True)
        want(not run.stderr, "groff says of zla.1: " + run.stderr)
    for line in wrong:
        print("command: " + line)
    print("command: %s" % ("passed" if not wrong else "%d wrong" % len(wrong)))
    return 1 if wrong else 0


if __name__ == "__main__":
    sys.exit(main())
