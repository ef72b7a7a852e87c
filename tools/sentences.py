"""Sentences of tools/explain: names in quotes, lists in words, paragraphs."""
import difflib
import re
import textwrap
from typing import Iterable, List, Optional, Union

from second_reading import Job

Lines = List[str]
WIDTH = 110


def quoted(word: Union[str, bytes]) -> str:
    return "`%s`" % (word.decode("latin-1") if isinstance(word, bytes) else word)


def listed(things: Iterable, last: str = "and") -> str:
    """`a, b and c`."""
    said = [str(thing) for thing in things]
    if len(said) < 2:
        return said[0] if said else "none"
    return "%s %s %s" % (", ".join(said[:-1]), last, said[-1])


def processes(job: Job, numbers: Iterable[int], last: str = "and") -> str:
    """`process 0`, `processes left and right`: by their names, which in version 1 are their numbers."""
    names = [job.process(p) for p in numbers]
    return "%s %s" % ("process" if len(names) == 1 or last == "or" else "processes", listed(names, last))


def ranges(numbers: Iterable[int]) -> Lines:
    """The numbers, rising; of four or more in a row the first and the last."""
    runs: List[List[int]] = []
    for number in sorted(set(numbers)):
        if runs and number == runs[-1][-1] + 1:
            runs[-1].append(number)
        else:
            runs.append([number])
    said = (["%d to %d" % (run[0], run[-1])] if len(run) > 3 else [str(number) for number in run] for run in runs)
    return [piece for pieces in said for piece in pieces]


def counted(what: str, numbers: Iterable[int]) -> str:
    """`line 3`, `lines 3, 5 and 7 to 12`."""
    numbers = set(numbers)
    return "%s%s %s" % (what, "" if len(numbers) == 1 else "s", listed(ranges(numbers)))


def times(count: int) -> str:
    return {0: "never", 1: "once", 2: "twice"}.get(count, "%d times" % count)


def paragraph(text: str, first: str = "", later: str = "") -> Lines:
    """A text in lines of at most 110 columns, with numbers beside what they number, and what is quoted in one piece."""
    pieces = text.split("`")
    pieces[1::2] = [piece.replace(" ", "\0") if len(piece) < 40 else piece for piece in pieces[1::2]]
    text = re.sub(r"\b(lines?|states?|process|event) (?=\d)", "\\1\0", "`".join(pieces))
    fill = textwrap.TextWrapper(WIDTH, initial_indent=first, subsequent_indent=later)
    fill.break_long_words = fill.break_on_hyphens = False
    return [line.replace("\0", " ") for line in fill.wrap(text)]


def nearest(word: bytes, there: Iterable[bytes]) -> Optional[str]:
    """What was perhaps meant."""
    names = {name.decode().lower(): name.decode() for name in there}
    found = difflib.get_close_matches(word.decode("latin-1").lower(), names, 1, 0.6)
    return names[found[0]] if found else None
