#!/usr/bin/env python3
"""tools/explain, tools/draw and tools/product over the texts that the second reading is compared on, in both versions of
documents, a text for each kind of refusal, some that are rejected, and journals, right and wrong; tools/explain also over
documents with an expression, readings and frozen texts.

    checks/tools.py [--long]     --long takes every example with each of its changes, and 12,000 jobs drawn at random for 300

What is wanted: an explanation begins with the first line of the answer, and names a line for each answer that is no
accept; each kind of refusal that docs/FORMATS.md lists is met. A chart has in the column of each process the events that
it takes part in, in their order, and that of a journal a row for each event. A product takes a word exactly if both rules
do, and joins processes by their names. The small rules and the small expressions of docs/RULES.md take what they say.
"""
import os
import random
import re
import sys
from importlib.machinery import SourceFileLoader
from importlib.util import module_from_spec, spec_from_loader

TOP = os.path.dirname(os.path.dirname(os.path.abspath(__file__)))
sys.path[:0] = [os.path.join(TOP, "tools"), os.path.join(TOP, "checks")]
sys.dont_write_bytecode = True
import compare  # noqa: E402
import further  # noqa: E402
import journals  # noqa: E402
import second_reading  # noqa: E402


def script(name):
    """A script of tools/ as a module."""
    loader = SourceFileLoader(name, os.path.join(TOP, "tools", name))
    module = module_from_spec(spec_from_loader(name, loader))
    loader.exec_module(module)
    return module


explain, draw, product = script("explain"), script("draw"), script("product")
HEAD = b"zla 1\nprocesses 2\nletter a 0\nletter b 0 1\n"
JOB = HEAD + b"states 2\nstart 0\naccept 1\nrow 0 a 1\nscript 0 a\nend\n"
NAMED = b"zla 2\nprocesses left right\nletter a left\nletter b left right\nstates 2\nstart 0\naccept 1\nrow 0 a 1\nscript left a\nend\n"
# a text, and what its explanation has to say
REFUSED = [
    (JOB.replace(b"\n", b"\r\n"), "carriage return"),
    (b"\xef\xbb\xbf" + JOB, "byte order mark"),
    (JOB.decode().encode("utf-16"), "UTF-16"),
    (JOB.replace(b"letter a", b"letter \xc3\xa4"), "beyond ASCII"),
    (JOB.replace(b"letter a", b"letter \x07a"), "can't be seen"),
    (JOB[:-1], "line feed"),
    (JOB[:-4], "end"),
    (b"", "wrote nothing"),
    (JOB + b"zla 1\n", "two jobs in one file"),
    (b"# a job\n" + JOB, "no comment"),
    (b"# a job\n" + NAMED, "move it below `zla 2`"),
    (JOB.replace(b"row 0 a 1", b"row 0 a 1 # begin"), "no comment"),
    (JOB.replace(b"letter a 0", b"letter a 0 // of one"), "no comment"),
    (JOB.replace(b"script 0 a", b"script 0 a -- all"), "no comment"),
    (JOB.replace(b"zla 1", b"zla 3"), "versions 1 and 2 alone"),
    (JOB.replace(b"zla 1\n", b""), "header is missing"),
    (JOB.replace(b"end\n", b"row 1 a 0\nend\n"), "above the first script line"),
    (JOB.replace(b"accept 1\n", b""), "`accept` line comes before it: it is missing"),
    (JOB.replace(b"start 0\naccept 1\n", b"accept 1\nstart 0\n"), "it stands too far down, at line 7"),
    (JOB.replace(b"start 0\n", b"start 0\nletter c 0\n"), "move it above line 5"),
    (JOB.replace(b"start 0\n", b"start 0\nstart 0\n"), "line 6 has it already"),
    (JOB.replace(b"script", b"skript"), "misspelled"),
    (JOB.replace(b"row 0 a 1", b"0 a 1"), "first word is missing"),
    (JOB.replace(b"row 0 a 1", b"row 0 a"), "a word is missing"),
    (JOB.replace(b"row 0 a 1", b"row 0 a b 1"), "a row of its own"),
    (JOB.replace(b"end", b"end job"), "in its line"),
    (JOB.replace(b"row 0 a 1", b"row a 0 1"), "in another order"),
    (JOB.replace(b"row 0 a 1", b"row 0 1 a"), "in another order"),
    (JOB.replace(b"start 0", b"start 00"), "leading 0"),
    (JOB.replace(b"start 0", b"start -1"), "a sign"),
    (JOB.replace(b"start 0", b"start 4294967296"), "too large"),
    (JOB.replace(b"start 0", b"start free"), "states and processes have numbers alone"),
    (JOB.replace(b"letter b 0 1", b"letter b 0,1"), "a comma or a colon"),
    (JOB.replace(b"letter a", b"letter lock-0"), "`lock_0` would be one"),
    (JOB.replace(b"letter a", b"letter 0a"), "begins with a digit"),
    (JOB.replace(b"letter a", b"letter " + b"a" * 33), "33 signs"),
    (JOB.replace(b"processes 2", b"processes 7"), "1 to 6 processes"),
    (JOB.replace(b"states 2", b"states 33"), "1 to 32 states"),
    (HEAD + b"".join(b"letter l%d 0\n" % i for i in range(31)), "32 letter lines"),
    (JOB.replace(b"letter b", b"letter a"), "one line that names them all"),
    (JOB.replace(b"letter a 0", b"letter a"), "after the name"),
    (JOB.replace(b"letter b 0 1", b"letter b 1 2"), "counted from 0"),
    (JOB.replace(b"row 0 a 1", b"row 1 a 2"), "counted from 0"),
    (JOB.replace(b"script 0 a", b"script 0 A"), "`a` is misspelled"),
    (JOB.replace(b"script 0 a", b"script 0 work"), "a letter line is missing"),
    (JOB.replace(b"row 0 a 1", b"row 0 a 1\nrow 0 a 0"), "line 8 says"),
    (JOB.replace(b"script 0 a", b"script 1 a"), "another script"),
    (JOB.replace(b"end\n", b"script 0" + b" a" * 65536 + b"\nend\n"), "65536 script letters"),
    (NAMED.replace(b"left right\nletter a", b"a b c d e f g h i j k\nletter a"), "1 to 10 names"),
    (NAMED.replace(b"processes left right", b"processes left left"), "stands twice"),
    (NAMED.replace(b"states 2\n", b"".join(b"letter l%d left\n" % i for i in range(127))), "128 letter lines"),
    (NAMED.replace(b"states 2", b"states 129"), "1 to 128 states"),
    (NAMED.replace(b"script left a", b"script left a*0"), "a number from 1 on"),
    (NAMED.replace(b"script left a", b"script 0 a"), "they have names alone"),
    (NAMED.replace(b"script left a", b"script right a"), "has to name process right too"),
    (NAMED.replace(b"script left a", b"script left c"), "a letter of process left: a or b"),
    (NAMED.replace(b"script left a", b"script left a * 2"), "`NAME*COUNT` is one piece"),
    (NAMED.replace(b"script left a", b"script left a # once"), "a comment is a line of its own"),
    (NAMED.replace(b"states 2", b"// two\nstates 2"), "a comment is a line of its own"),
    (NAMED.replace(b"processes left right", b"processes"), "the names of the processes are missing"),
    (NAMED.replace(b"processes left right", b"processes 2"), "the line names the processes"),
    (NAMED.replace(b"script left a\n", b""), None),
    (JOB.replace(b"processes 2", b"processes left right"), "version 2 has names of processes"),
    (JOB + b"claim accept\nend\n", "tools/explain --audit"),
    (JOB + b"readings\nend\n", "tools/explain --news"),
    (JOB + b"cut 0\n", "tools/explain --thaw"),
    (JOB.replace(b"zla 1", b"zla expr"), "tools/explain --build"),
]
# the same of texts with a claim
EVENTS = b"claim accept\nfire a.0\nend\n"
CLAIMED = [
    (NAMED, "the journal was forgotten"),
    (NAMED + EVENTS.replace(b"end\n", b""), "its last line isn't `end`"),
    (NAMED + EVENTS + EVENTS, "two journals in one file"),
    (NAMED + EVENTS.replace(b"claim accept\n", b""), "the `claim` line is missing"),
    (NAMED + EVENTS.replace(b"fire", b"fyre"), "`fire` is misspelled"),
    (NAMED + EVENTS.replace(b"fire a.0", b"script left a"), "the job has ended at line 10"),
    (NAMED + EVENTS.replace(b"claim accept\n", b"claim accept\n" * 2), "a claim has one answer"),
    (NAMED + EVENTS.replace(b"accept", b"yes"), "accept, reject or stuck"),
    (NAMED + EVENTS.replace(b"fire a.0\n", b"fire a.0\n" * 65537), "more events than a claim may have"),
    (NAMED + EVENTS.replace(b"a.0", b"a"), "`a` has no point"),
    (NAMED + EVENTS.replace(b"a.0", b"c.0"), "the letter is one of a or b"),
    (NAMED + EVENTS.replace(b"a.0", b"a.00"), "leading 0"),
    (NAMED + EVENTS.replace(b"a.0", b"a.9"), "a label from 0 to 8"),
    (NAMED + EVENTS.replace(b"a.0", b"a .0"), "a space in `LETTER.LABEL`"),
    (NAMED.replace(b"accept 1", b"accept 2") + EVENTS, "counted from 0"),
]
# the same of documents with an expression
EXPRESSION = b"zla expr\nprocesses left right\nletter a left\nletter b left right\nexpr %s\nscript left a\nend\n"
UNBUILT = [
    (NAMED, "a job with a table, of which nothing has to be built"),
    ((EXPRESSION % b"a").replace(b"expr\n", b"expr 2\n", 1), "has no version"),
    ((EXPRESSION % b"a").replace(b"expr a\n", b""), "`expr` line comes before it: it is missing"),
    ((EXPRESSION % b"a").replace(b"expr a\n", b"states 2\n"), "the `expr` line stands in place of all of them"),
    ((EXPRESSION % b"a").replace(b"script left a\n", b"expr b\n"), "line 5 has it already"),
    ((EXPRESSION % b"a").replace(b"expr a\n", b"expr\n"), "of the empty word alone it is `1`"),
    (EXPRESSION % b" ".join([b"a"] * 65), "at most 64 words"),
    (EXPRESSION % b"( a | b ) * a ( a | b ) ( a | b ) ( a | b ) ( a | b ) ( a | b ) ( a | b ) ( a | b )", "more than 128 states"),
    (EXPRESSION % b"a* b", "a space is missing: each letter and each sign is a word of its own, `a *`"),
    (EXPRESSION % b"a ? b", "an A that may be left out is `( 1 | A )`"),
    (EXPRESSION % b"a*2", "an item of scripts"),
    (EXPRESSION % b"A b", "`a` is misspelled"),
    (EXPRESSION % b"go b", "a letter line is missing"),
    (EXPRESSION % b"a |", "what belongs after `|` is missing"),
    (EXPRESSION % b"( a", "`(` isn't closed that is word 1"),
    (EXPRESSION % b"( a & b )", "stand in no parentheses"),
    (EXPRESSION % b"a { b }", "braces group whole forms"),
    (EXPRESSION % b"a ! b", "A that isn't B is `A & ! B`"),
    (EXPRESSION % b"{ a } *", "a form can't be repeated"),
    (EXPRESSION % b"{ a } | b", "`|` joins parts without"),
    (EXPRESSION % b"{ a } b", "forms are joined by `&` alone"),
    (EXPRESSION % b"* a", "no expression begins with `*`"),
    (EXPRESSION % b"a )", "closes nothing"),
    (EXPRESSION % b"( )", "nothing stands before it"),
    (EXPRESSION % b"{ ( a }", "`(` is open, and is closed first"),
    (EXPRESSION % b"a | | b", "two signs follow one another"),
    ((EXPRESSION % b"a").replace(b"script left a", b"script right a"), "has to name process right too"),
    (EXPRESSION % b"a" + b"cut 0\n", "two jobs in one file"),
]
# the same of jobs with readings
READINGS = b"readings\nread left 7\nend\n"
UNREAD = [
    (NAMED, "no readings follow it"),
    (NAMED + READINGS[:-4], "its last line isn't `end`"),
    (NAMED + READINGS + READINGS, "two texts in one file"),
    (NAMED + READINGS.replace(b"read left 7", b"script left a"), "the job has ended at line 10"),
    (NAMED + READINGS.replace(b"read left 7", b"raed left 7"), "`read` is misspelled"),
    (NAMED + READINGS.replace(b"read left 7", b"readings"), "stands once, above all `read` lines"),
    (NAMED + READINGS.replace(b"read left 7", b"read"), "one that reads nothing needs no line"),
    (NAMED + READINGS.replace(b"read left 7", b"read 0 7"), "they have names alone"),
    (JOB + READINGS.replace(b"read left 7", b"read 2 7"), "counted from 0"),
    (NAMED + READINGS.replace(b"7", b"7.5"), "a word, a fraction or a unit"),
    (NAMED + READINGS.replace(b"7", b"-7"), "a sign"),
    (NAMED + b"readings", "no line feed follows it"),
    (NAMED.replace(b"accept 1", b"accept 2") + READINGS, "counted from 0"),
]
# the same of frozen texts
FROZEN = NAMED + b"script right\n"  # the printed form, with a script line for each process
FROZEN = FROZEN.replace(b"end\nscript right\n", b"script right\nend\n") + b"cut 1\nat left 1 a.0 - view 1\nat right 0 - - view 0\nend\n"
UNTHAWED = [
    (NAMED, "it is a job and no frozen text"),
    (FROZEN.replace(b"cut 1", b"cut"), "a word is missing"),
    (FROZEN.replace(b"cut 1", b"cut all"), "a word, a fraction or a unit"),
    (FROZEN.replace(b"cut 1", b"cut 2"), "a number from 0 to 1"),
    (FROZEN.replace(b"left 1 a.0", b"left 0 a.0"), "`at left 1 a.0 - view 1`"),
    (FROZEN.replace(b"cut 1", b"cut 0"), "`at left 0 - - view 0`"),
    (FROZEN.replace(b"script right\n", b""), "without comments"),
    (FROZEN + b"end\n", "the frozen text has ended"),
    (FROZEN[:-4], "not the frozen text"),
    (FROZEN.replace(b"accept 1", b"accept 2"), "counted from 0"),
]
# the same of claims that aren't right
UNRIGHT = [
    (EVENTS.replace(b"a.0", b"b.0"), "process right has ended: it has no script"),
    (EVENTS.replace(b"a.0", b"a.1"), "its label has to be 0: `fire a.0`"),
    (EVENTS.replace(b"fire a.0\n", b""), "`a` can still fire: `fire a.0`"),
    (EVENTS.replace(b"accept", b"reject"), "Line 11 claims `reject`, and the answer is `accept`"),
    (EVENTS.replace(b"fire a.0\n", b"fire a.0\nfire a.0\n"), "No letter can fire there."),
]
# the same of rejected jobs
REJECTED = [
    (JOB.replace(b"script 0 a", b"script 0 b\nscript 1 b"), "no row for `b` in any state"),
    (JOB.replace(b"accept 1", b"accept"), "line 7, `accept`, names no state"),
    (JOB.replace(b"row 0 a 1", b"row 0 a 0"), "no other state; words are accepted from state 1."),
    (JOB.replace(b"accept 1\nrow 0 a 1", b"accept 0\nrow 0 a 1\nrow 1 a 1"), "than was meant (line 9)"),
    (JOB.replace(b"start 0", b"start 1"), "starts in another state than was meant (line 6)"),
    (JOB.replace(b"script 0 a", b"script 0"), "the scripts do nothing"),
]
failed = []


def want(is_right, what, text):
    if not is_right:
        failed.append("%s, of the text\n%s" % (what, text[:2000].decode("latin-1")))


def kinds():
    """The kinds of refusal of documents and claims."""
    with open(os.path.join(TOP, "docs", "FORMATS.md"), encoding="utf-8") as file:
        return set(re.findall(r"^\| `\w+` \| `([^`]+)` \|", file.read(), re.M))


def explanation(text, command="solo"):
    """The explanation of a text, which begins with its answer."""
    lines = explain.explain(text, command)
    status, said = second_reading.answer(command, text)
    answer = said.decode().splitlines()[0]
    if command == "build" and status == 0:
        answer = "built, "
    want(lines[0].startswith(answer), "explain answers " + lines[0], text)
    is_right = status == 0
    is_named = is_right or len(text) > second_reading.MOST_BYTES or re.search(r"\bline", "\n".join(lines), re.I)
    want(is_named, "no line is named", text)
    return "\n".join(lines)


def refusals():
    met = set()
    for texts, command in (
        (REFUSED, "solo"),
        (CLAIMED, "audit"),
        (UNBUILT, "build"),
        (UNREAD, "news"),
        (UNTHAWED, "thaw"),
    ):
        for text, said in texts:
            told = explanation(text, command)
            met.add(told.splitlines()[0].partition(": ")[2])
            wanted = said is None or said in re.sub(r"\s+", " ", told)
            want(wanted, "explain doesn't say '%s' but\n%s\n" % (said, told), text)
    want(met - {""} == kinds(), "no text is refused for: %s" % sorted((met - {""}) ^ kinds()), b"")


def rejected():
    for text, said in REJECTED:
        told = re.sub(r"\s+", " ", explanation(text))
        want(told.startswith("reject ") and said in told, "explain doesn't say '%s' but\n%s\n" % (said, told), text)
    for claim, said in UNRIGHT:
        told = re.sub(r"\s+", " ", explanation(NAMED + claim, "audit"))
        want(said in told, "explain doesn't say '%s' but\n%s\n" % (said, told), NAMED + claim)


def charts(text):
    """The chart of a job's run."""
    job = second_reading.read(text)
    if second_reading.least_break(job, second_reading.minimal(second_reading.completed(job))) is not None:
        return
    word, _ = second_reading.weave(job)
    order = second_reading.Order(job, word)
    lanes(draw.run_of(text, {"--labels": None}, []), [(a, order.shown(i)) for i, a in enumerate(word)], text)
    draw.rule_text(job)
    draw.rule_svg(job, "")
    told = journal(job, text)
    lanes(draw.journal_of(told, {}), [(a, shown) for a, shown in events(told)], told)


def events(text):
    """The events of a claim, as letters and as they are shown."""
    job = second_reading.read(text, second_reading.CLAIM_ENDS)
    return [(a, "%s.%d" % (job.name(a), label)) for a, label in job.events]


def lanes(run, word, text):
    """A chart has the events of each process in its column, in their order."""
    lines = draw.run_text(run).splitlines()
    heads = [match.start() for match in re.finditer(r"\S+(?: \S+)*", lines[0])]
    want(len(heads) == run.job.processes, "the chart has %d columns" % len(heads), text)
    for p, at in enumerate(heads):
        mine = [mark for mark in run.marks if p in mark.processes]
        want(all(x.row < y.row for x, y in zip(mine, mine[1:])), "the lane of process %d doesn't go down" % p, text)
        lane = [line[at:].split() for line in lines[1 : len(lines) - bool(run.ends)]]
        names = [cell[0] for cell in lane if cell and cell[0][0] != "|"]
        wanted = [shown for a, shown in word if p in run.job.loc(a)]
        want(names == wanted, "the lane of process %d shows %s" % (p, names), text)
    if run.is_numbered:
        rows = [line.split()[0] for line in lines[1 : len(lines) - bool(run.ends)]]
        want(rows == [str(at) for at in range(len(word))], "the rows have the numbers %s" % rows, text)
    draw.run_svg(run, "")


def journal(job, text):
    """The job with a journal, which is explained; so are some that are changed."""
    draws = random.Random(len(text))
    dfa = second_reading.minimal(second_reading.completed(job))
    said, fired = second_reading.journal(job, dfa, draws.choice)
    told = text + second_reading.printed_claim(job, said, fired)
    want(explanation(told, "audit").startswith("audit yes"), "a journal isn't right", told)
    for _ in range(4):
        explanation(text + journals.changed(job, said, fired, draws), "audit")
    return told


def products(number):
    """The product of two jobs drawn by a number takes what both take."""
    draws = random.Random(number)
    texts = [compare.drawn(draws.randrange(10**6)) for _ in range(2)]
    if number % 2:
        texts = [compare.named(texts[0]), compare.named(texts[1]).replace(b"q_0", b"other")]
    jobs = [second_reading.read(text) for text in texts]
    dfas = [second_reading.completed(job) for job in jobs]
    dfa = None
    try:
        both, _ = product.product(*jobs)
        dfa = second_reading.completed(second_reading.read(second_reading.printed(both)))
    except product.Unfit as unfit:
        if "no word" not in str(unfit):
            return
    text = texts[0] + texts[1]
    for name, processes in both.letters if dfa else []:
        wanted = {job.names[p] for job in jobs for other, loc in job.letters if other == name for p in loc}
        want({both.names[p] for p in processes} == wanted, "the product's letter %s has other processes" % name, text)
    letters = [name for name, _ in product.alphabet_of(jobs)]
    for _ in range(40):
        word = [draws.randrange(len(letters)) for _ in range(draws.randint(0, 8))]
        takes = []
        for job, one in zip(jobs, dfas):
            names = [bytes(name) for name, _ in job.letters]
            takes.append(one.accepts([names.index(letters[a]) for a in word if letters[a] in names]))
        want((dfa is not None and dfa.accepts(word)) == all(takes), "the product differs on %s" % word, text)


# of each small rule of docs/RULES.md what it says of a word, and whether it asks for an order of a and b
SMALL_RULES = {
    "b only after a first a": (lambda w: "b" not in w or "a" in w[: w.index("b")], True),
    "a and b take turns, a first": (lambda w: w == ("ab" * len(w))[: len(w)], True),
    "each a is answered by one b before the next a, and at the end": (lambda w: w == "ab" * (len(w) // 2), True),
    "at most two a": (lambda w: w.count("a") <= 2, False),
    "an even number of a": (lambda w: w.count("a") % 2 == 0, False),
    "never a and b both": (lambda w: "a" not in w or "b" not in w, False),
    "b is the last": (lambda w: w.endswith("b"), True),
}


def small_rules():
    """The table of small rules: each takes the words that it says, and can be kept without a common process where it says so."""
    with open(os.path.join(TOP, "docs", "RULES.md"), encoding="utf-8") as file:
        rows = re.findall(r"^\| ([^|]+) \| [^|]+ \| ((?:`\d [ab] \d`(?:, )?)+) \| ([\d ]+) \|$", file.read(), re.M)
    want({name for name, _, _ in rows} == set(SMALL_RULES), "docs/RULES.md has other small rules", b"")
    for name, said, accept in rows:
        says, is_order = SMALL_RULES[name]
        lines = said.replace("`", "").split(", ")
        states = 1 + max(int(c) for c in said + accept if c.isdigit())
        lines += ["%d %s %d" % (q, c, q) for c in "ab" if " %s " % c not in said for q in range(states)]
        for is_shared in (False, True):
            letters = "letter a 0\nletter b %s\n" % ("0 1" if is_shared else "1")
            rule = "states %d\nstart 0\naccept %s\nrow %s\nend\n" % (states, accept, "\nrow ".join(lines))
            text = ("zla 1\nprocesses 2\n" + letters + rule).encode()
            job = second_reading.read(text)
            dfa = second_reading.completed(job)
            is_kept = second_reading.least_break(job, second_reading.minimal(dfa)) is None
            want(is_kept == (is_shared or not is_order), "'%s' can be kept: %s" % (name, is_kept), text)
            for length in range(8):
                for number in range(2**length):
                    word = [number >> i & 1 for i in range(length)]
                    right = says("".join("ab"[a] for a in word))
                    want(dfa.accepts(word) == right, "'%s' is wrong on %s" % (name, word), text)


# of each small expression of docs/RULES.md what it says of a word over a, b and c
SMALL_EXPRESSIONS = {
    "b only after a first a": lambda w: "b" not in w or "a" in w[: w.index("b")],
    "a and b take turns, a first": lambda w: w.replace("c", "") == ("ab" * len(w))[: len(w) - w.count("c")],
    "each a is answered by one b before the next a, and at the end": lambda w: w.replace("c", "") == "ab" * w.count("b"),
    "after each a there is a b at some time": lambda w: w.rfind("a") <= w.rfind("b"),
    "no b after an a": lambda w: "a" not in w or w.rfind("b") < w.index("a"),
    "no b directly after an a": lambda w: "ab" not in w,
    "b is the last": lambda w: w.endswith("b"),
    "at most two a": lambda w: w.count("a") <= 2,
    "an even number of a": lambda w: w.count("a") % 2 == 0,
    "never a and b both": lambda w: "a" not in w or "b" not in w,
    "taking turns, and at most two a": lambda w: w.replace("c", "") == "ab" * w.count("b") and w.count("a") <= 2,
}
# where they can be kept: the processes of a, b and c, there and where less is shared
KEPT = {
    "always": ("letter a p\nletter b q\nletter c r\n", None),
    "a and b share a process": ("letter a p\nletter b p q\nletter c r\n", "letter a p\nletter b q\nletter c p q\n"),
    "b shares a process with each letter": ("letter a p\nletter b p q\nletter c q\n", "letter a p\nletter b p\nletter c q\n"),
    "each two letters share a process": ("letter a p q\nletter b q r\nletter c p r\n", "letter a p\nletter b p q\nletter c q\n"),
}


def small_expressions():
    """The table of small expressions: each takes the words that it says, and can be kept where it says so."""
    with open(os.path.join(TOP, "docs", "RULES.md"), encoding="utf-8") as file:
        rows = re.findall(r"^\| ([^|]+) \| `((?:\\\||[^`|])+)` \| ([^|]+) \|$", file.read(), re.M)
    rows = [(name, form.replace("\\|", "|"), where) for name, form, where in rows if where in KEPT]
    want({name for name, _, _ in rows} == set(SMALL_EXPRESSIONS), "docs/RULES.md has other small expressions", b"")
    for name, form, where in rows:
        for is_kept, letters in zip((True, False), KEPT[where]):
            if letters is None:
                continue
            text = ("zla expr\nprocesses p q r\n%sexpr %s\nend\n" % (letters, form)).encode()
            job = second_reading.read_expression(text)
            dfa = second_reading.completed(job)
            found = second_reading.least_break(job, second_reading.minimal(dfa))
            want((found is None) == is_kept, "'%s' can be kept: %s" % (name, found is None), text)
            for length in range(7):
                for number in range(3**length):
                    word = [number // 3**i % 3 for i in range(length)]
                    right = SMALL_EXPRESSIONS[name]("".join("abc"[a] for a in word))
                    want(dfa.accepts(word) == right, "'%s' is wrong on %s" % (name, word), text)


def main():
    is_long = sys.argv[1:] == ["--long"]
    refusals()
    rejected()
    small_rules()
    small_expressions()
    told = charted = 0
    try:
        product.product(second_reading.read(JOB), second_reading.read(NAMED))
        want(False, "jobs of two versions have a product", JOB + NAMED)
    except product.Unfit:
        pass
    for command, text in compare.cases(is_long):
        if command != "solo":
            continue
        told += 1
        if explanation(text).startswith(("accept", "reject", "stuck")):
            charts(text)
            charted += 1
    for at, (words, text) in enumerate(further.cases(is_long)):
        if words in ("build", "news", "thaw") and at % (3 if is_long else 4) == 0:
            told += 1
            explanation(text, words)
    for number in range(1000 if is_long else 100):
        products(number)
    for line in failed[:20]:
        print("tools: " + line)
    told += sum(map(len, (REFUSED, CLAIMED, REJECTED, UNRIGHT, UNBUILT, UNREAD, UNTHAWED)))
    print("tools: %d texts explained, %d drawn, %d wrong" % (told, charted, len(failed)))
    return 1 if failed else 0


if __name__ == "__main__":
    sys.exit(main())
