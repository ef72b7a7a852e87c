#!/usr/bin/env python3
"""The program against tools/second_reading.py, which reads the definitions a second time, in plain Python.

Each text is given to the built program with the words `solo`, `check` and `locals`, and status and bytes are
compared: every example, every text that differs in one byte from a small example (removed, doubled, or changed to
a space, a tab, a letter or a digit; these with `solo`, and every eleventh with the others), and jobs drawn at
random, closed and not closed, in version 1 and with names, comments and repeats in version 2. `gen` is compared on
some numbers.

    checks/compare.py [--long]     --long changes every example, not the small ones alone, and draws 12,000 jobs for 300
"""
import glob
import os
import random
import subprocess
import sys

TOP = os.path.dirname(os.path.dirname(os.path.abspath(__file__)))
sys.path.insert(0, os.path.join(TOP, "tools"))
sys.dont_write_bytecode = True
import second_reading  # noqa: E402

PROGRAM = os.path.join(TOP, "crates", "zla", "out", "zla")
SMALL = ["two_processes", "two_processes_stuck", "one_first"]
DRAWN, DRAWN_LONG = 300, 12000
GENERATED = [0, 1, 7, 4294967295]


def changed(text):
    """Each text that differs from this one in one byte."""
    for i in range(len(text)):
        yield text[:i] + text[i + 1 :]
        yield text[:i] + text[i : i + 1] + text[i:]
        for byte in (b" ", b"\t", b"a", b"b", b"0", b"1"):
            if text[i : i + 1] != byte:
                yield text[:i] + byte + text[i + 1 :]


def drawn(number):
    """A job drawn by a number: a table with gaps, and scripts that are the projections of a word, or nearly."""
    draw = random.Random(number)
    n, m, states = draw.randint(1, 4), draw.randint(1, 5), draw.randint(1, 5)
    locs = [sorted(draw.sample(range(n), draw.randint(1, min(n, 3)))) for _ in range(m)]
    # where each letter adds to a sum of its own, the language is trace-closed; a change of one row may break it
    adds = [draw.randint(0, states - 1) for _ in range(m)]
    rows = {(q, a): (q + adds[a]) % states for q in range(states) for a in range(m)}
    for _ in range(draw.randint(0, 3)):
        rows[draw.randrange(states), draw.randrange(m)] = draw.randrange(states)
    for key in list(rows):
        if draw.random() < 0.1:
            del rows[key]
    word = [draw.randrange(m) for _ in range(draw.randint(0, 12))]
    scripts = [[a for a in word if p in locs[a]] for p in range(n)]
    if draw.random() < 0.4:
        p = draw.randrange(n)
        draw.shuffle(scripts[p])
    lines = ["zla 1", "processes %d" % n]
    lines += ["letter l%d %s" % (a, " ".join(map(str, loc))) for a, loc in enumerate(locs)]
    lines += ["states %d" % states, "start %d" % draw.randrange(states)]
    lines.append(" ".join(["accept"] + [str(q) for q in range(states) if draw.random() < 0.5]))
    lines += ["row %d l%d %d" % (q, a, r) for (q, a), r in rows.items()]
    lines += ["script %d %s" % (p, " ".join("l%d" % a for a in script)) for p, script in enumerate(scripts) if script]
    return ("\n".join(lines + ["end"]) + "\n").encode()


def named(text):
    """The same job in version 2: with names of processes, and its scripts in runs of letters, with comments between."""
    job = second_reading.read(text)
    job.version, job.names = 2, [b"p%d" % p if p % 2 else b"q_%d" % p for p in range(job.processes)]
    return second_reading.printed(job).replace(b"\nstates", b"\n# states\nstates").replace(b"\nend", b"\n\t#end\nend")


# a job of version 2 with what it has beyond version 1, whose changes are tried
NAMED = b"""zla 2
# two sides
processes left right
letter a left
letter b right
letter c left right
states 2
start 0
accept 0
row 0 a 1
row 0 b 0
row 0 c 0
row 1 a 0
row 1 b 1
row 1 c 1
script left a*2 c
script right b c
end
"""


def cases(is_long):
    """The words and the texts that are tried."""
    for name in sorted(glob.glob(os.path.join(TOP, "examples", "**", "*.zla"), recursive=True)):
        with open(name, "rb") as file:
            text = file.read()
        for command in second_reading.COMMANDS:
            yield command, text
        if os.path.basename(name)[: -len(".zla")] in SMALL or is_long:
            for at, other in enumerate(sorted(set(changed(text)))):
                yield "solo", other
                if at % 11 == 0:
                    yield "check", other
                    yield "locals", other
    for at, other in enumerate(sorted(set(changed(NAMED)))):
        yield "solo", other
        if at % 11 == 0:
            yield "locals", other
    for number in range(DRAWN_LONG if is_long else DRAWN):
        text = drawn(number)
        for command in second_reading.COMMANDS:
            yield command, text
            yield command, named(text)


def main():
    if not os.access(PROGRAM, os.X_OK):
        sys.exit("second reading: there is no program; ./zla builds it")
    passed = failed = 0
    statuses = {}
    for number in GENERATED:
        run = subprocess.run([PROGRAM, "gen", str(number)], stdin=subprocess.DEVNULL, capture_output=True)
        if (run.returncode, run.stdout) == (0, second_reading.printed(second_reading.generated(number))):
            passed += 1
            statuses[0] = statuses.get(0, 0) + 1
        else:
            failed += 1
            print("gen %d differs" % number)
    for command, text in cases(sys.argv[1:] == ["--long"]):
        wanted = second_reading.answer(command, text)
        run = subprocess.run([PROGRAM, command], input=text, capture_output=True)
        if (run.returncode, run.stdout) == wanted:
            passed += 1
            statuses[wanted[0]] = statuses.get(wanted[0], 0) + 1
        else:
            failed += 1
            print("%s: wanted %s, got %s, of the text\n%s" % (command, wanted, (run.returncode, run.stdout), text.decode("latin-1")))
    told = ", ".join("%d with status %d" % (count, status) for status, count in sorted(statuses.items()))
    print("second reading: %d passed (%s), %d failed" % (passed, told, failed))
    return 1 if failed else 0


if __name__ == "__main__":
    sys.exit(main())
