#!/usr/bin/env python3
"""The built program where nothing goes well.

Memory and threads are refused by checks/hostile.c, which is loaded before the program. For each form of the command words, with a
cache and without, the k-th request alone is refused, and then all from the k-th on, for each k up to a run that makes fewer. Such a
run ends with status 8 and nothing written, or as it does when nothing is refused. What is refused is memory that the program itself
asks for; starts of threads; and what the C library and the loader ask for beneath these. Then the same with a limit of the address
space, which the system keeps.

Streams: standard output that is full, closed, or a pipe whose reader is gone; standard input that is a folder, closed, or has no end;
and command words that aren't UTF-8. Each has the one status that it should have. No run may take longer than the limit.

    checks/hostile.py [--long]     --long takes a job at each limit too, and not small ones alone
"""
import collections
import concurrent.futures
import contextlib
import fcntl
import mmap
import os
import re
import resource
import signal
import subprocess
import sys
import tempfile
import threading

TOP = os.path.dirname(os.path.dirname(os.path.abspath(__file__)))
sys.path.insert(0, os.path.join(TOP, "checks"))
sys.dont_write_bytecode = True
from tools import script  # noqa: E402

PROGRAM = os.path.join(TOP, "crates", "zla", "out", "zla")
SECONDS = 30  # a run that takes longer hangs
MOST_BYTES, MOST_WORDS = 1048576, 64
NO_MEMORY = 8
PAGE = 4096
TOO_LONG = b"refused: more than 1048576 bytes\n"

# Each form of the command words, what it reads, and whether it takes a cache. Those that the usage line doesn't name are left out.
FORMS = [
    (["solo"], "job", True),
    (["run"], "job", True),
    (["check"], "job", True),
    (["locals"], "job", True),
    (["journal"], "job", True),
    (["audit"], "audited", False),
    (["gen", "7"], None, False),
    (["build"], "expression", False),
    (["news"], "readings", False),
    (["freeze", "2"], "job", False),
    (["thaw"], "frozen", False),
]
ON_THREADS = {"run", "journal", "thaw"}

ACCEPTED = b"""zla 1
processes 2
letter a 0
letter b 1
letter c 0 1
states 2
start 0
accept 0
row 0 a 1
row 0 b 0
row 0 c 0
row 1 a 0
row 1 b 1
row 1 c 1
script 0 a c a
script 1 b c
end
"""
STUCK = b"""zla 2
# two sides
processes left right
letter a left
letter b right
letter c left right
states 1
start 0
accept 0
row 0 a 0
row 0 c 0
script left c a*2
script right b
end
"""
OPEN = b"zla 1\nprocesses 2\nletter a 0\nletter b 1\nstates 2\nstart 0\naccept 0\nrow 0 a 1\nrow 1 b 0\nend\n"
WRONG = b"zla 1\nprocesses 2\nletter a 2\n"
EXPRESSION = b"""zla expr
processes left right
letter a left
letter b right
expr ( a | b ) * & ! { a a }
script left a
script right b
end
"""
READINGS = b"readings\nread 0 10 20\nread 1 5\nend\n"
NAMED_READINGS = b"readings\nread left 10 20\nread right 5\nend\n"

failed = []
ended = collections.Counter()


def want(is_right, what):
    if not is_right:
        failed.append(what)


# ---- memory and threads


class Counts:
    """How many requests a run made, and how many of them were refused: a file that the run writes to."""

    def __init__(self, folder):
        handle, self.name = tempfile.mkstemp(dir=folder)
        os.truncate(handle, 16)
        self.shared = mmap.mmap(handle, 16)
        os.close(handle)

    def clear(self):
        self.shared[:] = bytes(16)

    def refused(self):
        return int.from_bytes(self.shared[8:16], sys.byteorder)


def answer(words, text, env=None, limit=None):
    """Status, what was written, and what was written to the error stream; no status where the run doesn't end."""
    try:
        run = subprocess.run(
            [PROGRAM, *words],
            input=text,
            capture_output=True,
            timeout=SECONDS,
            env=env,
            preexec_fn=limit and (lambda: resource.setrlimit(resource.RLIMIT_AS, (limit, limit))),
        )
    except subprocess.TimeoutExpired:
        return None, b"", b"it didn't end in %d seconds" % SECONDS
    return run.returncode, run.stdout, run.stderr


def known_forms():
    """The forms that the program knows: its usage line names them."""
    usage = answer([], b"")[1].decode()
    return [form for form in FORMS if form[0][0] in re.findall(r"\w+", usage)]


class Case:
    """Command words and a text, what is refused, and how they end where nothing is."""

    def __init__(self, words, text, *refused):
        self.words, self.text = words, text
        self.refused = refused or (("memory", "threads", "beneath") if words[0] in ON_THREADS else ("memory", "beneath"))
        self.status, self.written, errors = answer(words, text)
        want(self.status not in (None, NO_MEMORY) and not errors, "%s: with ample memory %s" % (self, (self.status, errors)))
        self.is_journal = words[0] == "journal" and self.written.startswith(b"claim ")
        self.right = {self.written} if not self.is_journal or self.is_audited(self.written) else set()

    def __str__(self):
        return "`%s` of %d bytes that begin with %s" % (" ".join(self.words), len(self.text), self.text[:40])

    def is_audited(self, written):
        """Whether `audit` says yes: for a journal many texts are right. Comments are left out, so that both are short enough."""
        return answer(["audit"], re.sub(rb"(?m)^#.*\n", b"", self.text) + written)[1].startswith(b"audit yes")

    def is_right(self, got):
        status, written, errors = got
        if status == NO_MEMORY:
            return not written and not errors
        if status == self.status and self.is_journal and written not in self.right and self.is_audited(written):
            self.right.add(written)
        return status == self.status and written in self.right and not errors

    def refuse(self, what, library, folder):
        """Refuses each request in turn."""
        counts, tried = Counts(folder), 0
        for rest in (False, True):
            for first in range(1, sys.maxsize):
                counts.clear()
                got = answer(
                    self.words,
                    self.text,
                    {
                        "LD_PRELOAD": library,
                        "HOSTILE_REFUSES": what,
                        "HOSTILE_FIRST": str(first),
                        "HOSTILE_LAST": str(sys.maxsize if rest else first),
                        "HOSTILE_COUNTS": counts.name,
                        # what is given out and what is given back is overwritten
                        "MALLOC_PERTURB_": "165",
                    },
                )
                want(self.is_right(got), "%s, %s %d refused%s: %s" % (self, what, first, " and all after it" if rest else "", got))
                if not counts.refused() or got[0] is None:
                    break
                tried += 1
                ended[what, got[0] == NO_MEMORY] += 1
        return tried


def texts_of(job, expression, readings):
    """What each form reads, of one job."""
    journal = answer(["journal"], job)[1]
    return {
        None: b"",
        "job": job,
        "audited": job + journal,
        "expression": expression,
        "readings": job + readings,
        "frozen": answer(["freeze", "2"], job)[1],
    }


def drawn_job(processes, letters, states, script=1, name=b"l"):
    """A job with so many of each: each letter of two neighbours in a ring, each leads to the next state, and each process has those of
    the first letters that are its own, so many times."""
    lines = [b"zla 2", b"processes " + b" ".join(b"p%d" % p for p in range(processes))]
    names = [b"%s%d" % (name, a) for a in range(letters)]
    lines += [b"letter %s p%d p%d" % (names[a], a % processes, (a + 1) % processes) for a in range(letters)]
    lines += [b"states %d" % states, b"start 0", b"accept 0"]
    lines += [b"row %d %s %d" % (q, names[a], (q + 1) % states) for q in range(states) for a in range(letters)]
    for p in range(processes):
        mine = [a for a in range(min(letters, processes)) if p in (a % processes, (a + 1) % processes)]
        lines.append(b"script p%d %s" % (p, b" ".join(b"%s*%d" % (names[a], script) for a in mine)))
    return b"\n".join([*lines, b"end", b""])


WIDEST = drawn_job(10, 128, 128)


def jobs_at_limits():
    """A job at each limit of documents, each with an expression: as many states as five letters tell apart, and for the widest job 64
    words and 128 states, over as many processes and letters."""
    narrow = b"zla expr\nprocesses p q\nletter a p\nletter b q\nexpr ( a | b ) * a" + b" ( a | b )" * 5 + b"\nend\n"
    widest = script("measure").expression().encode()
    status, built, _ = answer(["build"], widest)
    is_widest = len(re.search(rb"^expr (.*)$", widest, re.M)[1].split()) == MOST_WORDS and b"\nstates 128\n" in built
    want(status == 0 and is_widest, "the expression of tools/measure isn't at its limits")
    small = drawn_job(2, 3, 2)
    yield drawn_job(10, 10, 2), narrow
    yield drawn_job(2, 128, 1, 1, b"n" * 29), narrow
    yield drawn_job(2, 2, 128), narrow
    yield drawn_job(1, 1, 2, 65536), narrow
    yield WIDEST, widest
    yield small[:6] + b"#" * (MOST_BYTES - len(small) - 1) + b"\n" + small[6:], narrow


def cases(is_long):
    """Each form on small jobs, with a cache and without, and what is refused; in a long run on a job at each limit too."""
    forms = known_forms()
    jobs = [(ACCEPTED, EXPRESSION, READINGS), (STUCK, EXPRESSION + b"end\n", NAMED_READINGS)]
    if is_long:
        jobs += [(job, expression, b"readings\nread p0 1\nend\n") for job, expression in jobs_at_limits()]
    for job, expression, readings in jobs:
        texts = texts_of(job, expression, readings)
        for words, kind, takes_cache in forms:
            if kind is None and job is not ACCEPTED:
                continue
            yield Case(words, texts[kind])
            if takes_cache and (is_long or job is ACCEPTED):
                # with 64 rows the widest job asks for thousands of records, which takes too long to refuse one by one
                yield Case([*words, "--cache", "64" if is_long and job is not WIDEST else "2"], texts[kind])
    for words in (["solo"], ["run"], ["audit"]):
        yield Case(words, OPEN + (b"claim accept\nend\n" if words == ["audit"] else b""))
        yield Case(words, WRONG)
    # more threads than two
    yield Case(["run"], drawn_job(6, 6, 2), "threads", "beneath")
    yield Case(["journal"], drawn_job(6, 6, 2), "threads", "beneath")
    yield Case(["no", "form"], b"")


def refusals(is_long):
    """Memory and threads, refused at each request in turn."""
    with tempfile.TemporaryDirectory() as folder:
        library = os.path.join(folder, "hostile.so")
        source = os.path.join(TOP, "checks", "hostile.c")
        words = ["cc", "-shared", "-fPIC", "-O2", "-Wall", "-Wextra", "-o", library, source, "-ldl", "-lpthread"]
        if subprocess.run(words).returncode != 0:
            sys.exit("hostile: hostile.c can't be compiled")
        with concurrent.futures.ThreadPoolExecutor(len(os.sched_getaffinity(0))) as pool:
            every, tries = list(cases(is_long)), []
            for case in every:
                tries += [(case, what, pool.submit(case.refuse, what, library, folder)) for what in case.refused]
            for case, what, tried in tries:
                is_to_be = what == "memory" or what == "threads" and case.status in (0, 1, 3)
                want(tried.result() or not is_to_be, "%s: no request for %s was refused" % (case, what))
    return every


# ---- little address space


def least_limit(starts, low, high):
    """The least limit of the address space, in pages, in which the program starts."""
    while low + 1 < high:
        middle = (low + high) // 2
        low, high = (low, middle) if starts(middle * PAGE) else (middle, high)
    return high


def in_little_space(case):
    """From the least address space in which the program starts up to one in which the case has the memory that it needs."""
    limit, step = least_limit(lambda limit: answer([], b"", None, limit)[0] in (2, NO_MEMORY), 1, 1 << 20), 16
    first = limit
    while limit < 1 << 22:
        got = answer(case.words, case.text, None, limit * PAGE)
        want(case.is_right(got), "%s, in %d KB: %s" % (case, limit * PAGE // 1024, got))
        ended["space", got[0] == NO_MEMORY] += 1
        if got[0] == case.status and limit > first + 4 * step:
            return
        limit, step = limit + step, step + step // 4
    want(False, "%s doesn't end as it should, in whatever address space" % case)


# ---- streams


def closed(handle):
    """What a run does before it is the program: it closes one of its streams."""
    return lambda: os.close(handle)


@contextlib.contextmanager
def pipe(size=None, blocks=True):
    """Both ends of a pipe; it may be a small one, and its writing end one that doesn't wait."""
    ends = os.pipe()
    if size:
        fcntl.fcntl(ends[1], fcntl.F_SETPIPE_SZ, size)
    for end in ends:
        os.set_blocking(end, blocks)
    opened = [open(ends[0], "rb", 0), open(ends[1], "wb", 0)]
    try:
        yield opened
    finally:
        for end in opened:
            with contextlib.suppress(OSError):
                end.close()


class Run:
    """A run whose streams are not those of every day. What it writes is read where it goes to a pipe of ours."""

    def __init__(self, words, source=subprocess.DEVNULL, sink=subprocess.PIPE, before=None, **more):
        self.run = subprocess.Popen([PROGRAM, *words], stdin=source, stdout=sink, stderr=subprocess.PIPE, preexec_fn=before, **more)

    def end(self):
        """Status, what was written, and what was written to the error stream; no status where it doesn't end."""
        try:
            written, errors = self.run.communicate(timeout=SECONDS)
        except subprocess.TimeoutExpired:
            self.run.kill()
            self.run.communicate()
            return None, b"", b"it didn't end in %d seconds" % SECONDS
        return self.run.returncode, written, errors


def stands(what, got, status, written=b""):
    ended["streams", True] += 1
    want(got == (status, written, b""), "%s: wanted %d and %s, got %s" % (what, status, written, got))


def file_of(text):
    """A file that begins with these bytes, to be read from its first."""
    file = tempfile.TemporaryFile()
    file.write(text)
    file.flush()
    file.seek(0)
    return file


def sources():
    """Standard input that can't be read, has no end, or comes in pieces."""
    for words in [words for words, kind, _ in known_forms() if kind]:
        for what, name, flags in (("a folder", "/", os.O_RDONLY), ("only for writing", os.devnull, os.O_WRONLY)):
            handle = os.open(name, flags)
            stands("%s, standard input is %s" % (words, what), Run(words, handle).end(), 6)
            os.close(handle)
        stands("%s, standard input is closed" % words, Run(words, None, before=closed(0)).end(), 6)
        with pipe(blocks=False) as (reads, writes):
            writes.write(ACCEPTED[:20])
            stands("%s, standard input has nothing yet and doesn't wait" % words, Run(words, reads).end(), 6)
        with open("/dev/zero", "rb") as zeros:
            stands("%s, standard input has no end" % words, Run(words, zeros).end(), 9, TOO_LONG)
        with pipe() as (reads, writes):
            run = Run(words, reads)
            left = b"\n" * (MOST_BYTES + 1)
            while left:
                left = left[writes.write(left) :]
            stands("%s, standard input stays open after one byte too many" % words, run.end(), 9, TOO_LONG)
    # a byte at a time
    with pipe() as (reads, writes):
        run = Run(["solo"], reads)
        reads.close()
        for byte in ACCEPTED:
            writes.write(bytes([byte]))
        writes.close()
        stands("solo, byte for byte", run.end(), *answer(["solo"], ACCEPTED)[:2])


def taken():
    """How many bytes are taken of standard input."""
    for words, text, status, count in (
        ([], ACCEPTED, 2, 0),
        (["run", "--cache", "65"], ACCEPTED, 2, 0),
        (["gen", "7"], ACCEPTED, 0, 0),
        ([b"solo\xff"], ACCEPTED, 11, 0),
        (["solo"], ACCEPTED, 0, len(ACCEPTED)),
        (["run"], WRONG, 4, len(WRONG)),
        (["solo"], b"\n" * (MOST_BYTES + 7), 9, MOST_BYTES + 1),
    ):
        with file_of(text) as file:
            got = Run(words, file).end()
            at = os.lseek(file.fileno(), 0, os.SEEK_CUR)
            want((got[0], at) == (status, count), "%s: wanted status %d and %d bytes taken, got %s and %d" % (words, status, count, got, at))
            ended["streams", True] += 1


def sinks():
    """Standard output that takes nothing, or a part. Whatever the text is, the status is 7."""
    texts = texts_of(ACCEPTED, EXPRESSION, READINGS)
    asked = [(words, texts[kind]) for words, kind, _ in known_forms()]
    for words, text in [*asked, ([], b""), (["solo"], OPEN), (["run"], WRONG), (["solo"], b"\n" * (MOST_BYTES + 1))]:
        want(answer(words, text)[1], "%s writes nothing" % words)
        for what, name, flags in (("full", "/dev/full", os.O_WRONLY), ("only for reading", os.devnull, os.O_RDONLY)):
            handle = os.open(name, flags)
            stands("%s, standard output is %s" % (words, what), Run(words, file_of(text), handle).end(), 7, None)
            os.close(handle)
        stands("%s, standard output is closed" % words, Run(words, file_of(text), None, closed(1)).end(), 7, None)
        # with the signal of a broken pipe as it is, and ignored
        for restores in (True, False):
            with pipe() as (reads, writes):
                reads.close()
                run = Run(words, file_of(text), writes, restore_signals=restores)
                stands("%s, nobody reads standard output" % words, run.end(), 7, None)
    # both are closed: the source comes first
    both = lambda: os.closerange(0, 2)
    stands("solo, both streams are closed", Run(["solo"], None, None, both).end(), 6, None)
    stands("no words, both streams are closed", Run([], None, None, both).end(), 7, None)


def parts():
    """A text of which a part is taken: the status is 7, and what was taken is a beginning of it."""
    text = answer(["gen", "7"], b"")[1]
    with pipe(PAGE, blocks=False) as (reads, writes):
        stands("gen 7 to a small pipe that doesn't wait", Run(["gen", "7"], sink=writes).end(), 7, None)
        writes.close()
        reads = reads.read()
        want(reads and text.startswith(reads) and reads != text, "gen 7 wrote something else to a small pipe")
    with pipe(PAGE) as (reads, writes):
        run = Run(["gen", "7"], sink=writes)
        writes.close()
        got = os.read(reads.fileno(), 10)
        reads.close()
        stands("gen 7, the reader leaves", run.end(), 7, None)
        want(text.startswith(got), "gen 7 wrote something else to a reader who leaves")
    # a file that may not grow further, where the signal of that is ignored
    with tempfile.TemporaryFile() as file:

        def narrow():
            signal.signal(signal.SIGXFSZ, signal.SIG_IGN)
            resource.setrlimit(resource.RLIMIT_FSIZE, (1000, 1000))

        stands("gen 7 to a file of 1,000 bytes at most", Run(["gen", "7"], sink=file, before=narrow).end(), 7, None)
        want(os.pread(file.fileno(), 2000, 0) == text[:1000], "gen 7 wrote something else to a file")


def command_words():
    """Words that aren't UTF-8, the program's name too, many words, and long ones."""
    for words in ([b"\xff"], [b"solo", b"\xc3"], [b"gen", b"7\xed\xa0\x80"], [b"--cache=\xff", b"solo"]):
        stands("the words %s" % words, Run(words, file_of(ACCEPTED)).end(), 11)
    run = subprocess.run([b"zla\xff", b"solo"], executable=PROGRAM, input=ACCEPTED, capture_output=True, timeout=SECONDS)
    stands("a name of the program that isn't UTF-8", (run.returncode, run.stdout, run.stderr), 11)
    usage = answer([], b"")[1]
    for words in (["\u00e9"], [""], ["solo", ""], ["solo"] * 10000, ["s" * 100000], ["gen", "7" * 100000], ["\0"[:0], "solo"]):
        stands("words that begin with %r" % words[0][:10], Run(words).end(), 2, usage)


def main():
    if not os.access(PROGRAM, os.X_OK):
        sys.exit("hostile: there is no program; ./zla builds it")
    is_long = sys.argv[1:] == ["--long"]
    for part in (command_words, taken, sources, sinks, parts):
        part()
    every = refusals(is_long) + [Case(["run", "--cache", "64"], WIDEST)]
    for case in every:
        if is_long or "--cache" in case.words or case.words[0] == "gen":
            in_little_space(case)
    want(ended["space", True], "memory was never wanting in little address space")
    for line in failed[:40]:
        print("hostile: " + line)
    told = ["%d %s" % (ended[what, True] + ended[what, False], name) for what, name in NAMES.items()]
    print("hostile: %s; %d wrong" % (", ".join(told), len(failed)))
    return 1 if failed else 0


NAMES = {
    "memory": "runs whose memory was refused",
    "threads": "whose threads were",
    "beneath": "where the C library's requests were",
    "space": "in little address space",
    "streams": "with other streams or words",
}


if __name__ == "__main__":
    sys.exit(main())
