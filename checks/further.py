#!/usr/bin/env python3
"""The program's `build`, `news`, `freeze K` and `thaw` against tools/second_reading.py.

Status and bytes are compared on worked rows, on the gallery, on every change of one byte of small texts, and on texts drawn
at random: expressions, right ones and such with a word left out, doubled or changed, of which those that are built are
also run; jobs with readings, right and wrong; jobs that are frozen after each event. A frozen text is thawed, which has to answer
as `solo` does on its job, and so is one with a line changed, left out, doubled or exchanged with the next, which is refused; of some
frozen texts each line is changed in each of these ways. A frozen text that is longer than a text may be is written whole, and refused.
The second reading's tables are held against Python's regular expressions, and its position values against the definition
word by word.

    checks/further.py [--long]     --long draws 4,000 texts of each sort for 150, tries every change of a byte, and changes each line of
                                   40 more frozen texts
"""
import glob
import itertools
import os
import random
import re
import subprocess
import sys
from collections import Counter

TOP = os.path.dirname(os.path.dirname(os.path.abspath(__file__)))
sys.path[:0] = [os.path.join(TOP, "tools"), os.path.join(TOP, "checks")]
sys.dont_write_bytecode = True
import compare  # noqa: E402
import expressions  # noqa: E402
import second_reading  # noqa: E402

PROGRAM = os.path.join(TOP, "crates", "zla", "out", "zla")
SECONDS = 60  # no clause says that `thaw` ends
DRAWN, DRAWN_LONG = 150, 4000
failed = []


def want(is_right, what, text):
    if not is_right:
        failed.append("%s, of the text\n%s" % (what, text[:2000].decode("latin-1")))


def forms():
    """The first words that the program's usage line names."""
    usage = subprocess.run([PROGRAM], stdin=subprocess.DEVNULL, capture_output=True).stdout.decode()
    return set(re.findall(r"\w+", re.sub(r"\[[^]]*\]|usage|\bzla\b|\b[A-Z]\b", "", usage)))


# ---- worked rows: words, text, status, what is written ----

SIDES = b"zla expr\nprocesses left right\nletter a left\nletter b right\nexpr %s\nscript left a\nscript right b\nend\n"
ALL_WORDS = (
    b"zla 2\nprocesses left right\nletter a left\nletter b right\nstates 3\nstart 0\naccept 0 1 2\n"
    b"row 0 a 1\nrow 0 b 2\nrow 1 a 1\nrow 1 b 2\nrow 2 a 1\nrow 2 b 2\nscript left a\nscript right b\nend\n"
)
ALL_WORDS_RUN = b"accept\nfired 2\nbound labels 18 records 3\n"
E = (
    b"zla 1\nprocesses 2\nletter a 0\nletter b 1\nletter c 0 1\nstates 2\nstart 0\naccept 0\nrow 0 a 1\nrow 0 b 0\nrow 0 c 0\n"
    b"row 1 a 0\nrow 1 b 1\nrow 1 c 1\nscript 0 a c a\nscript 1 b c\nend\n"
)
E_STUCK = E.replace(b"script 0 a c a\nscript 1 b c", b"script 0 c a\nscript 1 b")
G = (
    b"zla 1\nprocesses 4\nletter c 1 2\nletter d 1 3\nletter e 0 3\nletter f 0 2\nstates 2\nstart 0\naccept 0\n"
    b"row 0 c 1\nrow 0 d 1\nrow 0 e 1\nrow 0 f 1\nrow 1 c 0\nrow 1 d 0\nrow 1 e 0\nrow 1 f 0\n"
    b"script 0 e f\nscript 1 d c\nscript 2 c f\nscript 3 e d\nend\n"
)
E_READINGS = b"readings\nread 0 10 20 30\nread 1 5\nend\n"
G_READINGS = b"readings\nread 0 1 2\nread 1 3 4\nread 2 5\nread 3 6\nend\n"
E_FROZEN = E + b"cut 2\nat 0 1 a.0 - view 1\nat 1 1 - b.0 view 0\nend\n"
# the printed form has a script line for each process, and each is there
E_STUCK_FROZEN = E_STUCK + b"cut 1\nat 0 0 - - view 0\nat 1 1 - b.0 view 0\nend\n"
E_ACCEPTS = b"accept\nfired 4\nbound labels 27 records 3\n"
STUCK = (
    b"stuck\nfired 1\nbound labels 27 records 3\nprocess 0 fired 0 waits c\nprocess 1 fired 1 ended\ntrace b\nalive\n"
)
WIDE = b"( a | b ) * a" + b" ( a | b )" * 6
ROWS = [
    ("build", SIDES % b"( a | b ) *", 0, ALL_WORDS),
    ("build", SIDES % b"a |", 4, b"refused line 5: bad expression\n"),
    ("build", SIDES % WIDE, 4, b"refused line 5: more than 128 states\n"),
    ("news", E + E_READINGS, 0, b"known 0 30 20\nknown 1 20 20\n"),
    ("news", G + G_READINGS, 0, b"known 0 2 4 2 3\nknown 1 1 4 4 3\nknown 2 2 4 2 3\nknown 3 1 3 - 3\n"),
    ("news", E, 4, b"refused line 18: end is missing\n"),
    ("news", E + b"readings\nread 2 1\nend\n", 4, b"refused line 19: no such process\n"),
    ("freeze 2", E, 0, E_FROZEN),
    ("thaw", E_FROZEN, 0, E_ACCEPTS),
    ("thaw", E_FROZEN.replace(b"cut 2", b"cut 3"), 4, b"refused line 19: not the frozen text\n"),
    ("thaw", E_FROZEN.replace(b"cut 2", b"cut 5"), 4, b"refused line 18: no such cut\n"),
    ("freeze 9", E_STUCK, 0, E_STUCK_FROZEN),
    ("thaw", E_STUCK_FROZEN, 3, STUCK),
    ("thaw", E, 4, b"refused line 18: end is missing\n"),
    ("solo", ALL_WORDS, 0, ALL_WORDS_RUN),
    ("run", ALL_WORDS, 0, ALL_WORDS_RUN),
]


def rows():
    """The second reading on the worked rows."""
    for words, text, status, said in ROWS:
        got = second_reading.answer(words, text)
        want(got == (status, said), "%s: the row has %s, the second reading %s" % (words, (status, said), got), text)
    wide = second_reading.answer("build", SIDES % WIDE.replace(b" ( a | b )", b"", 1))
    want(wide[0] == 0 and b"\nstates 65\n" in wide[1], "five times: %s" % (wide,), WIDE)


# ---- expressions ----


def drawn_plain(draw, letters, size):
    """A plain part of about so many words."""
    if size <= 1:
        return ["1"] if draw.random() < 0.1 else [draw.choice(letters)]
    way = draw.random()
    if way < 0.25:
        return ["(", *drawn_plain(draw, letters, size - 2), ")", "*"]
    if way < 0.35:
        return [*drawn_item(draw, letters, size - 1), "*"]
    first = draw.randint(1, size - 1)
    if way < 0.6:
        return [*drawn_plain(draw, letters, first), "|", *drawn_plain(draw, letters, size - first)]
    return [*drawn_item(draw, letters, first), *drawn_item(draw, letters, size - first)]


def drawn_item(draw, letters, size):
    words = drawn_plain(draw, letters, size)
    return words if len(words) == 1 else ["(", *words, ")"]


def drawn_form(draw, letters, size):
    way = draw.random()
    if size < 4 or way < 0.5:
        return drawn_plain(draw, letters, size)
    if way < 0.65:
        return ["!", *drawn_unary(draw, letters, size - 1)]
    first = draw.randint(1, size - 1)
    return [*drawn_unary(draw, letters, first), "&", *drawn_unary(draw, letters, size - first)]


def drawn_unary(draw, letters, size):
    words = drawn_form(draw, letters, size)
    return ["{", *words, "}"] if "&" in words or draw.random() < 0.3 else words


def with_word(draw, words, letters):
    """Words with one left out, doubled, changed or exchanged with the next."""
    at = draw.randrange(len(words))
    other = draw.choice(["1", "(", ")", "{", "}", "|", "*", "&", "!", "z", "a*", draw.choice(letters)])
    ways = [[], [words[at]] * 2, [other], [other, words[at]], words[at : at + 2][::-1]]
    way = draw.randrange(len(ways))
    return words[:at] + ways[way] + words[at + (2 if way == 4 else 1) :]


def drawn_expression(number):
    """A document with an expression: most of them right."""
    draw = random.Random(number)
    n, m = draw.randint(1, 3), draw.randint(1, 4)
    letters = ["abcd"[a] for a in range(m)]
    locs = [sorted(draw.sample(range(n), draw.choice([1, draw.randint(1, n)]))) for _ in letters]
    size = draw.choice([1, 2, 4, 8, 8, 12, 16, 30, 45])
    words = drawn_form(draw, letters, size)
    if draw.random() < 0.35:
        words = with_word(draw, words, letters)
    lines = ["zla expr", "processes " + " ".join("p%d" % p for p in range(n))]
    lines += ["letter %s %s" % (a, " ".join("p%d" % p for p in loc)) for a, loc in zip(letters, locs)]
    if draw.random() < 0.05:  # a long end, of which the last letters are remembered
        words = ["(", *" | ".join(letters).split(), ")", "*", letters[0]] + ["(", *" | ".join(letters).split(), ")"] * draw.randint(3, 8)
    lines.append("expr " + " ".join(words))
    word = [draw.randrange(m) for _ in range(draw.randint(0, 8))]
    for p in range(n):
        script = [letters[a] for a in word if p in locs[a]]
        if script or draw.random() < 0.5:
            lines.append("script p%d %s" % (p, " ".join(script or [draw.choice([a for a, loc in zip(letters, locs) if p in loc] or ["x"])])))
    lines.append("end")
    if draw.random() < 0.15:
        lines.insert(draw.randint(0, len(lines)), draw.choice(["# note", "states 2", "row 0 a 0", "", "end", "letter a p0", "expr a"]))
    return ("\n".join(lines) + "\n").encode()


def pattern(words):
    """A plain part as Python writes it, whose empty word is an empty group, and which has no star of a star."""
    text = "".join({b"(": "(?:", b"1": "(?:)"}.get(word, word.decode()) for word in words)
    return re.compile(re.sub(r"\*+", "*", text))


def meets(form, parts, word):
    if form[0] == "plain":
        return bool(parts[form[1]].fullmatch(word))
    if form[0] == "not":
        return not meets(form[1], parts, word)
    return all(meets(part, parts, word) for part in form[1:])


def plain_parts(words):
    """The words of each maximal plain part, in their order."""
    parts = [[]]
    for word in words:
        if word in (b"{", b"}", b"&", b"!"):
            parts.append([])
        else:
            parts[-1].append(word)
    return [part for part in parts if part]


def meanings(number):
    """The table of a drawn expression takes the words that Python's own expressions take."""
    text = drawn_expression(number)
    try:
        job = second_reading.read_expression(text)
    except second_reading.Refused:
        return 0
    if len(job.expression) > 16:  # Python goes through all ways to take a word, which may be many
        return 0
    form = expressions.parsed(job.expression).form
    parts = [pattern(part) for part in plain_parts(job.expression)]
    dfa = second_reading.completed(job)
    draw = random.Random(number)
    words = [list(word) for length in range(4) for word in itertools.product(range(len(job.letters)), repeat=length)]
    words += [[draw.randrange(len(job.letters)) for _ in range(draw.randint(4, 8))] for _ in range(30)]
    for word in words:
        wanted = meets(form, parts, "".join(job.name(a) for a in word))
        want(dfa.accepts(word) == wanted, "the second reading is wrong on " + str(word), text)
    return len(words)


def marked_words(tree, most):
    """The marked words of a tree of at most so many occurrences."""
    if tree[0] == "one":
        return {()}
    if tree[0] == "letter":
        return {(tree[1],)} if most else set()
    if tree[0] == "bar":
        return set().union(*(marked_words(part, most) for part in tree[1:]))
    parts = tree[1:] if tree[0] == "cat" else [tree[1]] * most
    found = last = {()}
    for part in parts:
        last = {u + v for u in last for v in marked_words(part, most) if len(u + v) <= most}
        found = last if tree[0] == "cat" else found | last
    return found


def values(number):
    """The states of a small expression are its position values, by the definition word by word."""
    draw = random.Random(number)
    words = [word.encode() for word in drawn_form(draw, ["a", "b"], draw.randint(1, 5))]
    expression = expressions.parsed(words)
    letter_at = {at: b"ab".index(word) for at, word in enumerate(words) if word in (b"a", b"b")}
    made = expressions.table(expression, letter_at, 2, 128)
    marked = set().union(*(marked_words(part, 6) for part in expression.parts))
    for length in range(4):
        for word in itertools.product(range(2), repeat=length):
            q = 0
            for a in word:
                q = made.targets[q][a]
            # a word of `length` letters is a prefix of some marked word of at most 6, if of any: the rest is short here
            ends = {v[length - 1] for v in marked if len(v) >= length > 0 and all(letter_at[p] == a for p, a in zip(v, word))}
            wanted = frozenset(ends) if length else None
            want(made.values[q] == wanted, "the value of %s is %s, and not %s" % (word, wanted, made.values[q]), b" ".join(words))
    least = second_reading.least_words(0, lambda q, a: made.targets[q][a], 2)
    want(list(least) == list(range(len(made.targets))), "the states have another order", b" ".join(words))


def of_expressions(count):
    """Documents with an expression; of those that are right also the job that is built, run and checked."""
    for name in sorted(glob.glob(os.path.join(TOP, "examples", "**", "*.expr"), recursive=True)):
        with open(name, "rb") as file:
            text = file.read()
        yield "build", text
        job = name[: -len("expr")] + "zla"
        if os.path.dirname(name) == os.path.join(TOP, "examples"):
            with open(job, "rb") as file:
                want(file.read() == second_reading.answer("build", text)[1], "%s isn't built of its expression" % job, text)
    for number in range(count):
        text = drawn_expression(number)
        yield "build", text
        status, built = second_reading.answer("build", text)
        if status == 0 and number % 3 == 0:
            yield "check", built
            yield "solo", built
            yield "run", built


# ---- readings ----


def drawn_readings(number):
    """A job with readings: most of them right."""
    draw = random.Random(number)
    text = compare.drawn(number)
    if number % 2:
        text = compare.named(text)
    job = second_reading.read(text)
    lines = []
    for _ in range(draw.randint(0, job.processes + 1)):
        numbers = [str(draw.choice([0, 7, 42, draw.randrange(2**32)])) for _ in range(draw.randint(0, 6))]
        lines.append("read %s %s" % (job.process(draw.randrange(job.processes)), " ".join(numbers)))
    if draw.random() < 0.2:
        wrong = ["read", "read 9 1", "read x 1", "read 00 1", "fire a.0", "# note", "", "readings", "end", "end end", "script 0 a"]
        wrong += ["read %s %s" % (job.process(0), n) for n in ("01", "4294967296", "-1", "a", "1 2 x")]
        lines.insert(draw.randint(0, len(lines)), draw.choice(wrong))
    after = "\n".join([draw.choice(["readings", " readings\t"]), *lines, "end"]) + "\n"
    if draw.random() < 0.1:
        after = draw.choice([after[:-1], after[:-4], after + "end\n", after + "\n# note\n", after.replace("readings", "reading", 1), "readings", ""])
    if draw.random() < 0.1:
        at = draw.randint(0, text.count(b"\n"))
        pieces = text.split(b"\n")
        text = b"\n".join(pieces[:at] + [b"readings"] + pieces[at:])
    return text + after.encode()


def of_readings(count):
    for number in range(count):
        yield "news", drawn_readings(number)


# ---- frozen texts ----


def cuts_of(text):
    """The frozen texts of a job, after each of its events and past the last; none of a job that is refused."""
    status, alone = second_reading.answer("solo", text)
    if status not in (0, 1, 3):
        yield "freeze 0", second_reading.answer("freeze 0", text)[1]
        return
    fired = int(re.search(rb"^fired (\d+)$", alone, re.M)[1])
    for cut in range(fired + 2):
        words = "freeze %d" % cut
        yield words, second_reading.answer(words, text)[1]


def line_changed(lines, at, draw):
    """Lines with one changed, in each way: with another token, left out, doubled, exchanged with the next, with a line put in after
    it, with a space at its end, and with two spaces for one."""
    tokens = lines[at].split(b" ")
    k = draw.randrange(len(tokens))
    other = tokens[:k] + [draw.choice([b"0", b"1", b"2", b"-", b"x", b"a.0", tokens[k] + b"0", tokens[k][:-1]])] + tokens[k + 1 :]
    ways = [
        [b" ".join(other)],
        [],
        [lines[at]] * 2,
        lines[at : at + 2][::-1],
        [lines[at], draw.choice([b"", b" ", b"# note", b"cut 0", b"end"])],
        [lines[at] + b" "],
        [b"  ".join(tokens)],
    ]
    return [b"\n".join(lines[:at] + way + lines[at + (2 if i == 3 else 1) :]) + b"\n" for i, way in enumerate(ways)]


def changed_line(frozen, draw):
    """A frozen text with a line changed in some way."""
    lines = frozen.split(b"\n")[:-1]
    first = next(at for at, line in enumerate(lines) if line.startswith(b"cut "))
    at = draw.randint(first, len(lines) - 1) if draw.random() < 0.7 else draw.randrange(len(lines))
    changed = draw.choice(line_changed(lines, at, draw))
    return changed[: -draw.randint(1, 3)] if draw.random() < 0.05 else changed


def each_line_changed(frozen, draw):
    """A frozen text with each line changed in each way."""
    lines = frozen.split(b"\n")[:-1]
    return [changed for at in range(len(lines)) for changed in line_changed(lines, at, draw)]


def by_positions(text, words, frozen):
    """The lines of a frozen text are those of the definition by positions, which is slow."""
    job = second_reading.read(text)
    word = second_reading.weave(job)[0][: int(words.split()[1])]
    known = second_reading.known(job, second_reading.minimal(second_reading.completed(job)), second_reading.Order(job, word))
    lines = [line.split()[3:] for line in frozen.decode().splitlines() if line.startswith("at ")]
    want(lines == [line.split()[1:] for line in known], "by positions the processes know other things: %s" % known, frozen)


def of_frozen(count):
    """Jobs frozen at every cut, thawed, and thawed with a line changed."""
    for number in range(count):
        draw = random.Random(number)
        text = compare.drawn(number)
        if number % 2:
            text = compare.named(text)
        alone = second_reading.answer("solo", text)
        for words, frozen in cuts_of(text):
            yield words, text
            if alone[0] not in (0, 1, 3):
                continue
            by_positions(text, words, frozen)
            want(second_reading.answer("thaw", frozen) == alone, "a frozen text isn't thawed to the job's answer", frozen)
            yield "thaw", frozen
            yield "thaw", changed_line(frozen, draw)
        yield "thaw", text


def of_changed_lines(count):
    """Frozen texts with each line changed in each way: that of a worked job, and those of so many jobs drawn at random, in their midst."""
    jobs = [G]
    for number in itertools.count():
        if len(jobs) > count:
            break
        text = compare.drawn(number)
        if second_reading.answer("solo", text)[0] in (0, 1, 3):
            jobs.append(text if len(jobs) % 2 else compare.named(text))
    for number, text in enumerate(jobs):
        cuts = list(cuts_of(text))
        _, frozen = cuts[len(cuts) // 2]
        for changed in each_line_changed(frozen, random.Random(number)):
            yield "thaw", changed


def long_job(size):
    """A job in its printed form, of so many bytes: two processes each have one of two letters as often as there is room. Two letters of
    no script, whose rows are missing, fill it up."""
    names = [b"a" * 32, b"b" * 32]

    def text(filling, counts):
        fillers = [b"f" * (filling // 2 + 1), b"g" * (filling - filling // 2 + 1)]
        lines = [b"zla 1", b"processes 2"]
        lines += [b"letter %s %d" % (name, p) for name, p in zip(names + fillers, [0, 1, 0, 1])]
        lines += [b"states 1", b"start 0", b"accept 0", *(b"row 0 %s 0" % name for name in names)]
        lines += [b"script %d %s" % (p, b" ".join([name] * count)) for p, (name, count) in enumerate(zip(names, counts))]
        return b"\n".join([*lines, b"end", b""])

    # a letter of a script takes the bytes of its name and of a space
    left = size - len(text(0, [1, 1]))
    count, filling = divmod(left, 33)
    return text(filling, [1 + count // 2, 1 + count - count // 2])


def of_long_frozen():
    """A frozen text of as many bytes as are read, and longer ones: they are written whole, and thawed none. The last job is as long as
    one may be, and is frozen after all its events."""
    few = 1000
    more = len(second_reading.answer("freeze 2", long_job(few))[1]) - few
    for size, words, status in (
        (second_reading.MOST_BYTES - more, "freeze 2", 0),
        (second_reading.MOST_BYTES - more + 1, "freeze 2", 9),
        (second_reading.MOST_BYTES, "freeze 40000", 9),
    ):
        text = long_job(size)
        frozen = second_reading.answer(words, text)[1]
        is_right = len(text) == size and (len(frozen) > second_reading.MOST_BYTES) == (status == 9)
        want(is_right and second_reading.answer("thaw", frozen)[0] == status, "a long frozen text isn't as it was meant", text)
        yield words, text
        yield "thaw", frozen


# ---- all ----

# words in no form
FORMLESS = ["freeze", "freeze 01", "freeze -1", "freeze 4294967296", "freeze 2 3", "freeze --cache 4 2", "build 2", "build --cache 0"]
FORMLESS += ["news --cache=4", "thaw --cache 4", "thaw 2", "cut 2", "read"]

# small texts whose changes of one byte are tried
BYTES = [
    ("build", b"zla expr\n# two\nprocesses p q\nletter a p\nletter b p q\nexpr { a | b * } & ! ( 1 a )\nscript p a b*2\nend\n"),
    ("news", compare.NAMED + b"readings\nread left 7 8\n# note\nread right 9\nend\n"),
    ("thaw", E_FROZEN),
]


def cases(is_long):
    """The words and the texts that are tried."""
    count = DRAWN_LONG if is_long else DRAWN
    for words, text, _, _ in ROWS:
        yield words, text
    for command, text in BYTES:
        for at, other in enumerate(sorted(set(compare.changed(text)))):
            if is_long or at % 5 == 0:
                yield command, other
    for name in sorted(glob.glob(os.path.join(TOP, "examples", "**", "*.zla"), recursive=True)):
        with open(name, "rb") as file:
            text = file.read()
        for words, frozen in itertools.islice(cuts_of(text), 0, None, 1 if is_long else 3):
            yield words, text
            yield "thaw", frozen
    yield from of_expressions(count)
    yield from of_readings(count)
    yield from of_frozen(count // 10)
    yield from of_changed_lines(40 if is_long else 0)
    yield from of_long_frozen()
    yield "thaw", b"\n" * (second_reading.MOST_BYTES + 1)


def main():
    is_long = sys.argv[1:] == ["--long"]
    rows()
    words_tried = sum(meanings(number) for number in range(2000 if is_long else 200))
    for number in range(2000 if is_long else 100):
        values(number)
    known = forms() if os.access(PROGRAM, os.X_OK) else set()
    if not known:
        print("further: there is no program; ./zla builds it")
    passed, skipped, statuses = 0, 0, Counter()
    for words in FORMLESS:
        run = subprocess.run([PROGRAM, *words.split()], input=E, capture_output=True) if known else None
        if run and "freeze" in known:
            want((run.returncode, run.stdout) == (2, second_reading.USAGE), "%s: %s" % (words, run.stdout), E)
            passed += 1
    for words, text in cases(is_long):
        wanted = second_reading.answer(words, text)
        if words.split()[0] not in known:
            skipped += 1
            continue
        try:
            run = subprocess.run([PROGRAM, *words.split()], input=text, capture_output=True, timeout=SECONDS)
            got = run.returncode, run.stdout
        except subprocess.TimeoutExpired:
            got = "it didn't end in %d seconds" % SECONDS
        if got == wanted:
            passed += 1
            statuses[words.split()[0], wanted[0]] += 1
        else:
            want(False, "%s: wanted %s, got %s" % (words, wanted, got), text)
    for line in failed[:20]:
        print("further: " + line)
    told = ", ".join("%d %s with %d" % (count, command, status) for (command, status), count in sorted(statuses.items()))
    more = ", %d skipped, whose command the program doesn't know" % skipped if skipped else ""
    print("further: %d passed (%s), %d words against Python's expressions%s, %d failed" % (passed, told, words_tried, more, len(failed)))
    return 1 if failed or not known else 0


if __name__ == "__main__":
    sys.exit(main())
