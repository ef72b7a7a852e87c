#!/usr/bin/env python3
"""The program's `run` against its `solo`, many times over.

Each job is run on threads again and again: on one processor and on all, with other work on each processor and without, with a
cache and without. The schedule differs each time, and status and bytes have to be those of `solo`. No clause says that `run`
returns, so a run that takes longer than the limit is a failure.

    checks/threads.py [--long]     --long makes 4,000 runs of small jobs and 240 of large ones, for 400 and 8
"""
import contextlib
import glob
import os
import subprocess
import sys

TOP = os.path.dirname(os.path.dirname(os.path.abspath(__file__)))
sys.path.insert(0, os.path.join(TOP, "checks"))
sys.dont_write_bytecode = True
import compare  # noqa: E402

PROGRAM = os.path.join(TOP, "crates", "zla", "out", "zla")
SMALL, SMALL_LONG = 100, 1000  # runs for each way
LARGE, LARGE_LONG = 2, 60
SECONDS = 60
DRAWN = 40


def answer(words, text, processors=None):
    """Status and bytes; None where the run doesn't end within the limit."""
    with contextlib.suppress(subprocess.TimeoutExpired):
        run = subprocess.run(
            [PROGRAM, *words],
            input=text,
            capture_output=True,
            timeout=SECONDS,
            preexec_fn=processors and (lambda: os.sched_setaffinity(0, processors)),
        )
        return run.returncode, run.stdout
    return None


@contextlib.contextmanager
def load(processors):
    """Other work on each processor."""
    works = [subprocess.Popen([sys.executable, "-c", "while True: pass"]) for _ in processors]
    try:
        yield
    finally:
        for work in works:
            work.kill()
            work.wait()


def jobs():
    """Small jobs with what `solo` answers; those that it doesn't run are left out."""
    texts = [compare.drawn(number) for number in range(DRAWN)]
    for name in sorted(glob.glob(os.path.join(TOP, "examples", "*.zla"))):
        with open(name, "rb") as file:
            texts.append(file.read())
    for text in texts:
        for words in ([], ["--cache", "16"]):
            wanted = answer(["solo", *words], text)
            if wanted is None or wanted[0] in (0, 1, 3):
                yield ["run", *words], text, wanted


def large():
    """A job of 20,000 letters, drawn by a number."""
    text = answer(["gen", "7"], b"")[1]
    return [(["run", *words], text, answer(["solo", *words], text)) for words in ([], ["--cache", "16"])]


def main():
    if not os.access(PROGRAM, os.X_OK):
        sys.exit("threads: there is no program; ./zla builds it")
    is_long = sys.argv[1:] == ["--long"]
    everywhere = os.sched_getaffinity(0)
    small, big = list(jobs()), large()
    passed = failed = 0
    for processors in (everywhere, {min(everywhere)}):
        for busy in (False, True):
            with load(everywhere) if busy else contextlib.nullcontext():
                chosen = [small[k % len(small)] for k in range(SMALL_LONG if is_long else SMALL)]
                chosen += [big[k % len(big)] for k in range(LARGE_LONG if is_long else LARGE)]
                for words, text, wanted in chosen:
                    got = answer(words, text, processors)
                    if got == wanted:
                        passed += 1
                        continue
                    failed += 1
                    where = "%d processors%s" % (len(processors), " beside other work" if busy else "")
                    said = "it didn't end in %d seconds" % SECONDS if got is None else "it wrote %s" % (got,)
                    print("%s on %s: %s, `solo` %s, of the text\n%s" % (" ".join(words), where, said, wanted, text[:2000].decode("latin-1")))
    print("threads: %d runs passed, %d failed" % (passed, failed))
    return 1 if failed else 0


if __name__ == "__main__":
    sys.exit(main())
