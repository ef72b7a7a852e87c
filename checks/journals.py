#!/usr/bin/env python3
"""The program's `journal` and `audit`, and the verdict that tools/second_reading.py works out.

Each job is run by `journal`, with a cache and without, on one processor and on all: jobs drawn at random in both versions of
documents, the gallery, and large ones. Of the job with its journal after it the program's `audit` and the second reading both
have to say yes. Then the journal is changed in one event (another letter, another label, two exchanged, one left out, one
twice, one too many, the rest cut off) or in its answer, and a small one in each of its bytes; the program's `audit` has to
say what the second reading says. The journals that examples/ keeps are audited too, and the labels of the second reading
are held against their definition by positions.

    checks/journals.py [--long]     --long draws 3,000 jobs for 60, and makes 40 large runs for 4
"""
import collections
import glob
import os
import random
import re
import subprocess
import sys

TOP = os.path.dirname(os.path.dirname(os.path.abspath(__file__)))
sys.path[:0] = [os.path.join(TOP, "tools"), os.path.join(TOP, "checks")]
sys.dont_write_bytecode = True
import compare  # noqa: E402
import second_reading  # noqa: E402
from second_reading import CLAIM_ENDS, printed_claim  # noqa: E402

PROGRAM = os.path.join(TOP, "crates", "zla", "out", "zla")
DRAWN, DRAWN_LONG = 60, 3000
LARGE, LARGE_LONG = 4, 40
CHANGES_OF_LARGE = 4
SECONDS = 60  # no clause says that `journal` ends
CACHES = ([], ["--cache", "16"])
# of what an audit says, the part that is counted
KIND = re.compile(r"audit (yes|bad \w+|not maximal|wrong answer)|refused|not closed")
failed = []
verdicts = collections.Counter()


def want(is_right, what, text):
    if not is_right:
        failed.append("%s, of the text\n%s" % (what, text[:2000].decode("latin-1")))


def answer(words, text, processors=None):
    """Status and bytes; no status where the run doesn't end within the limit."""
    try:
        run = subprocess.run(
            [PROGRAM, *words],
            input=text,
            capture_output=True,
            timeout=SECONDS,
            preexec_fn=processors and (lambda: os.sched_setaffinity(0, processors)),
        )
    except subprocess.TimeoutExpired:
        return None, b"it didn't end in %d seconds" % SECONDS
    return run.returncode, run.stdout


def audited(text):
    """The program's verdict has to be that of the second reading; it."""
    wanted = second_reading.answer("audit", text)
    got = answer(["audit"], text)
    want(got == wanted, "audit: wanted %s, got %s" % (wanted, got), text)
    said = wanted[1].decode()
    verdicts[KIND.match(said)[0]] += 1
    return said


def with_event(job, events, draw):
    """Events with one that is changed, in a way that is drawn."""
    at = draw.randrange(len(events))
    a, label = events[at]
    other = draw.randrange(len(job.letters)), draw.randint(0, job.processes**3)
    ways = [
        [(other[0], label)],  # another letter
        [(a, draw.choice([label + 1, max(label - 1, 0), other[1]]))],  # another label
        [],  # left out
        [(a, label), (a, label)],  # twice
        [other, (a, label)],  # one too many
    ]
    way = draw.randrange(len(ways) + 2)
    if way < len(ways):
        return events[:at] + ways[way] + events[at + 1 :]
    if way == len(ways):  # exchanged with the next one
        return events[:at] + events[at : at + 2][::-1] + events[at + 2 :]
    return events[:at]


def changed(job, said, events, draw):
    """The claim with one event or its answer changed, printed."""
    if draw.random() < 0.15 or not events:
        said = draw.choice(["accept", "reject", "stuck"])
        return printed_claim(job, said, events)
    events = [(a, min(label, job.processes**3)) for a, label in with_event(job, events, draw)]
    return printed_claim(job, said, events)


def labels_by_definition(job, events, text):
    """The labels of a journal are those of the definition by positions, which is slow."""
    order = second_reading.Order(job, [a for a, _ in events])
    want(order.labels == [label for _, label in events], "the labels by positions are %s" % order.labels, text)


def of_job(text, words, processors, changes, draw):
    """A run of a job: its journal is audited, and so are some that are changed."""
    alone = second_reading.answer("solo", text)
    status, journal = answer(["journal", *words], text, processors)
    want(status == alone[0], "journal ended with %s, solo with %d: %s" % (status, alone[0], journal), text)
    if status not in (0, 1, 3):
        want(journal == alone[1], "journal wrote %s, solo %s" % (journal, alone[1]), text)
        want(answer(["audit"], text + b"claim stuck\nend\n") == alone, "audit doesn't refuse as solo does", text)
        return
    said = audited(text + journal)
    want(said.startswith("audit yes"), "a journal isn't right: %s" % said, text + journal)
    try:
        job = second_reading.read(text + journal, CLAIM_ENDS)
    except second_reading.Refused as refused:
        return want(False, "a journal isn't read: %s" % refused, text + journal)
    want(printed_claim(job, job.claimed, job.events) == journal, "a journal isn't in printed form", text + journal)
    if len(job.events) < 30:
        labels_by_definition(job, job.events, text + journal)
    for _ in range(changes):
        audited(text + changed(job, job.claimed, job.events, draw))


def jobs(count):
    """Small jobs, in both versions of documents."""
    for number in range(count):
        text = compare.drawn(number)
        yield compare.named(text) if number % 2 else text
    for name in sorted(glob.glob(os.path.join(TOP, "examples", "**", "*.zla"), recursive=True)):
        with open(name, "rb") as file:
            yield file.read()


# a claim with a comment, about the job of version 2 whose changes are tried
CLAIM = b"claim accept\nfire b.0\nfire a.0\n # the first was a.0\nfire a.1\nfire c.0\nend\n"


def main():
    if not os.access(PROGRAM, os.X_OK):
        sys.exit("journals: there is no program; ./zla builds it")
    is_long = sys.argv[1:] == ["--long"]
    everywhere = os.sched_getaffinity(0)
    draw = random.Random(1)
    for number, text in enumerate(jobs(DRAWN_LONG if is_long else DRAWN)):
        for words in CACHES:
            of_job(text, words, {min(everywhere)} if number % 3 == 0 else everywhere, 12, draw)
    for number in range(LARGE_LONG if is_long else LARGE):
        text = second_reading.printed(second_reading.generated(7 + number))
        of_job(text, CACHES[number % 2], {min(everywhere)} if number % 4 == 3 else everywhere, CHANGES_OF_LARGE, draw)
    said = audited(compare.NAMED + CLAIM)
    want(said == "audit yes\n", "a claim with a comment: " + said, CLAIM)
    for at, text in enumerate(sorted(set(compare.changed(compare.NAMED + CLAIM)))):
        if is_long or at % 3 == 0 or b"fire a.1\nfire c.0\nend\n" not in text:
            audited(text)
    kept = sorted(glob.glob(os.path.join(TOP, "examples", "**", "*.journal"), recursive=True))
    for name in kept:
        with open(name[: -len("journal")] + "zla", "rb") as job, open(name, "rb") as journal:
            said = audited(job.read() + journal.read())
        want(said.startswith("audit yes"), "%s isn't right: %s" % (name, said), b"")
    for line in failed[:20]:
        print("journals: " + line)
    told = ", ".join("%d %s" % (count, said) for said, count in sorted(verdicts.items()))
    print("journals: %d audits (%s), %d failed" % (sum(verdicts.values()), told, len(failed)))
    return 1 if failed else 0


if __name__ == "__main__":
    sys.exit(main())
