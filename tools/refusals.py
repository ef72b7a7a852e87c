"""Why a text is refused, for tools/explain: the word that is wrong, what may stand there, and how it usually comes there.
Unproved, over tools/second_reading.py.
"""
import re
from typing import Callable, Dict, List, NamedTuple, Optional, Tuple

import expressions
import second_reading
from second_reading import Refused, Token
from sentences import Lines, listed, nearest, paragraph, processes, quoted

FORMS = {
    b"zla": "zla 1",
    b"processes": "processes NUMBER",
    b"letter": "letter NAME PROCESS ..",
    b"states": "states NUMBER",
    b"start": "start STATE",
    b"accept": "accept STATE ..",
    b"row": "row STATE LETTER STATE",
    b"script": "script PROCESS LETTER ..",
    b"end": "end",
}
# where they differ in version 2
NAMED_FORMS = {b"zla": "zla 2", b"processes": "processes NAME ..", b"script": "script PROCESS LETTER*COUNT .."}
CLAIM_FORMS = {b"claim": "claim ANSWER", b"fire": "fire LETTER.LABEL", b"end": "end"}
EXPRESSION_FORMS = {b"zla": "zla expr", b"processes": "processes NAME ..", b"letter": "letter NAME PROCESS .."}
EXPRESSION_FORMS.update({b"expr": "expr WORD ..", b"script": "script PROCESS LETTER*COUNT ..", b"end": "end"})
READING_FORMS = {b"readings": "readings", b"read": "read PROCESS NUMBER ..", b"end": "end"}
CUT_FORMS = {b"cut": "cut NUMBER"}
COMMENTS = (b"#", b"//", b"--", b";", b"%", b"/*", b"(*")
SHOWN = 110  # columns of a long line that are shown


class Told(NamedTuple):
    """What is said of a refusal."""

    wrong: str
    may: str
    cause: str


class At(NamedTuple):
    """A refusal with its line, the tokens of this line, and the whole text."""

    fault: Refused
    line: bytes
    words: List[Token]
    text: bytes

    def forms(self) -> Dict[bytes, str]:
        """The forms of the lines of a job, or of what follows one where the fault is there."""
        if self.fault.place >= second_reading.AT_CUT:
            return CUT_FORMS
        if self.fault.place >= second_reading.AT_READINGS:
            return READING_FORMS
        if self.fault.place >= second_reading.JOB_ENDS:
            return CLAIM_FORMS
        if self.is_expression():
            return EXPRESSION_FORMS
        return FORMS if self.fault.job.version == 1 else {**FORMS, **NAMED_FORMS}

    def is_expression(self) -> bool:
        """Whether the text is read as a document with an expression."""
        return self.fault.job.places is second_reading.EXPRESSION_PLACES

    def form(self) -> str:
        """The form of the line."""
        return self.forms()[self.words[0]]


# ---- bytes and lines ----


def wrong_byte(line: bytes) -> int:
    """Where the first byte is that may not stand in a line."""
    return next(i for i, b in enumerate(line) if not (b == 9 or 32 <= b <= 126))


def bad_byte(at: At) -> Told:
    byte = at.line[wrong_byte(at.line)]
    if byte == 13:
        what = "a carriage return (byte 13)"
        cause = "the file has the line ends of Windows; `tr -d '\\r' < JOB > NEW` takes them out"
    elif at.line.startswith(b"\xef\xbb\xbf"):
        what = "a byte order mark (bytes 239 187 191)"
        cause = "an editor put it before the text; save the file as UTF-8 without it, or as ASCII"
    elif byte == 0 or at.line.startswith((b"\xff\xfe", b"\xfe\xff")):
        what = "byte %d" % byte
        cause = "the file was saved as UTF-16; save it as ASCII"
    elif byte >= 128:
        what = "byte %d, of a letter or sign beyond ASCII," % byte
        cause = "an accented letter, a dash, a no-break space or quotation marks that were pasted"
    else:
        what = "byte %d, which can't be seen," % byte
        cause = "it was pasted, or the file isn't a text"
    return Told(what + " stands here", "tabs and the bytes 32 to 126", cause)


def cut(_: At) -> Told:
    return Told(
        "the text ends in the middle of this line: no line feed follows it",
        "the line with a line feed at its end",
        "an editor that doesn't end the last line, `printf` without `\\n`, or a copy that was cut off",
    )


def no_end(at: At) -> Told:
    may = (quoted(at.forms()[word]) for word in at.fault.job.places[at.fault.place])
    said, cause = "the text ends, and its last line isn't `end`", "the last line was forgotten, or a copy was cut off"
    if at.fault.place == second_reading.JOB_ENDS:
        said, cause = "the text ends with the job, and no claim follows it", "the journal was forgotten: `cat JOB JOURNAL`"
    elif at.fault.place == second_reading.AT_READINGS:
        said = "the text ends with the job, and no readings follow it"
        cause = "the readings were forgotten: a line `readings`, a line `read` for each process that reads something, and `end`"
    elif at.fault.place == second_reading.AT_CUT:
        said = "the text ends with the job, and no `cut` line follows it"
        cause = "it is a job and no frozen text: `./zla freeze K < JOB` writes one, and `./zla run < JOB` runs the job"
    elif at.fault.place == 0:
        said, cause = "the text has no words at all", "an empty file, or a command before a `|` that failed and wrote nothing"
    return Told(said, listed(may, "or"), cause)


# what may follow a job, by its first word, and who reads it
FOLLOWERS = {
    b"claim": "a journal follows the job: `./zla audit` and `tools/explain --audit` read both",
    b"readings": "readings follow the job: `./zla news` and `tools/explain --news` read both",
    b"cut": "this is a frozen text: `./zla thaw` and `tools/explain --thaw` read it",
}


def trailing(at: At) -> Told:
    job, place = at.fault.job, at.fault.place
    what, many = "job has", "jobs"
    if place == second_reading.READINGS_END:
        what, many = "readings have", "texts"
    elif job.claimed:
        what, many = "claim has", "journals"
    cause = "two %s in one file, or a line that belongs above `end`" % many
    if place == second_reading.JOB_ENDS and not at.is_expression():
        cause = FOLLOWERS.get(bytes(at.words[0]), cause)
    return Told("the %s ended at line %d" % (what, job.lines[b"end"]), "empty lines alone", cause)


def header(at: At) -> Told:
    may = "`zla expr`, before all other lines" if at.is_expression() else "`zla 1` or `zla 2`, before all other lines"
    if at.words[0] != b"zla":
        said = "the first line that isn't empty has to be the header"
        return Told(said, may, "the header is missing, or something stands above it")
    said = "the header has another version, or more words"
    if at.is_expression() and at.words[1:] in ([b"1"], [b"2"]):
        return Told(said, may, "it is a job with a table, of which nothing has to be built")
    if at.words[1:] == [b"expr"]:
        cause = "a document with an expression: `./zla build` makes a job of it, and `tools/explain --build` reads it"
        return Told(said, may, cause)
    if at.is_expression():
        return Told(said, may, "a document with an expression has no version: it is read as version 2 is")
    return Told(said, may, "there are versions 1 and 2 alone")


def out_of_order(at: At) -> Told:
    first, job, place, forms = at.words[0], at.fault.job, at.fault.place, at.forms()
    said = "no line that begins with %s may stand here" % quoted(first)
    may = listed((quoted(forms[word]) for word in job.places[place]), "or")
    if first not in forms and first in FORMS and at.is_expression():
        return Told(said, may, "a line of a table: in this document the `expr` line stands in place of all of them")
    if first not in forms:
        meant = nearest(first, forms)
        if meant:
            return Told(said, may, "%s is misspelled" % quoted(meant))
        if forms is CLAIM_FORMS or (forms is READING_FORMS and first in FORMS):
            return Told(said, may, "a line of a job; the job has ended at line %d" % job.lines[b"end"])
        firsts = listed(map(quoted, forms))
        return Told(said, may, "the line's first word is missing; each line begins with one of " + firsts)
    if forms is CLAIM_FORMS:
        cause = "the `claim` line is missing" if job.claimed is None else "a claim has one answer"
        return Told(said, may, cause)
    if forms is READING_FORMS:
        return Told(said, may, "the line `readings` stands once, above all `read` lines")
    places = job.places[: second_reading.JOB_ENDS]
    mine = [number for number, firsts in enumerate(places) if first in firsts]
    if min(mine) > place:
        missing = list(job.places[place])[-1]
        firsts = [line.split()[:1] for line in at.text.split(b"\n")]
        later = next((i + 1 for i in range(at.fault.line, len(firsts)) if firsts[i] == [missing]), None)
        where = "it stands too far down, at line %d" % later if later else "it is missing"
        return Told(said, may, "the %s line comes before it: %s" % (quoted(missing), where))
    if first in job.lines and first not in (b"letter", b"row"):
        return Told(said, may, "line %d has it already, and it stands once" % job.lines[first])
    after = next(word for word in job.places[max(mine)] if word != first)
    if after not in job.lines:
        return Told(said, may, "the line stands too far down: move it up")
    below = "the first script line" if after == b"script" else "line %d, %s" % (job.lines[after], quoted(after))
    return Told(said, may, "the line stands too far down: move it above " + below)


def word_count(at: At) -> Told:
    first, count = at.words[0], len(at.words)
    is_named = at.fault.job.version == 2
    wanted = None if is_named and first == b"processes" else second_reading.EXACTLY.get(first)
    many = "%d" % wanted if wanted else "at least %d" % second_reading.AT_LEAST[first]
    said = "the line has %d %s; a line that begins with %s has %s" % (
        count,
        "word" if count == 1 else "words",
        quoted(first),
        many,
    )
    cause = "a word is missing, or one is too many"
    if first == b"row" and count > 4:
        cause = "several letters or states in one row: each letter has a row of its own"
    elif first == b"end":
        cause = "something follows `end` in its line"
    elif first == b"processes" and is_named:
        cause = "the names of the processes are missing"
    elif first in (b"processes", b"states") and count > 2:
        cause = "names or a list; the line says how many there are, and they are numbered from 0"
        cause += "; version 2 has names of processes (`zla 2`)" * (first == b"processes")
    elif first == b"expr":
        cause = "the expression is missing; of the empty word alone it is `1`"
    elif first == b"read":
        cause = "the process is missing; one that reads nothing needs no line"
    elif first == b"fire" and count > 2:
        cause = "a space in `LETTER.LABEL`, or several events in one line"
    return Told(said, quoted(at.form()), cause)


def comment(at: At) -> Optional[Token]:
    signs = (b"#", b"//") if at.words[:1] == [b"expr"] else COMMENTS
    return next((word for word in at.words if word.startswith(signs)), None)


# ---- numbers and names ----


def role(at: At) -> str:
    """What the token that is wrong is meant to be."""
    first = at.words[0]
    if first == b"row":
        place = next(i for i, word in enumerate(at.words) if word.column == at.fault.token.column)
        return "the state that the row begins in" if place == 1 else "the state that the row leads to"
    return {
        b"processes": "how many processes there are",
        b"letter": "a process of the letter",
        b"states": "how many states there are",
        b"start": "the state to start in",
        b"accept": "a state that is accepted",
        b"script": "the process whose script it is",
        b"fire": "the label of an event",
        b"read": "a number that the process reads",
        b"cut": "after how many events the job is frozen",
    }[first]


def in_another_order(at: At) -> str:
    return "the words of the line are in another order; it is " + quoted(at.form())


def bad_number(at: At) -> Told:
    token = at.fault.token
    said = "%s isn't a number, and here stands %s" % (quoted(token), role(at))
    if any(token == name for name, _ in at.fault.job.letters):
        cause = "it is a letter's name: " + in_another_order(at)
    elif token.isdigit():
        cause = "a leading 0" if token[:1] == b"0" else "the number is too large"
    elif token[:1] in (b"+", b"-"):
        cause = "a sign"
    elif re.search(rb"[0-9][,;:]|[,;:][0-9]", token):
        cause = "a comma or a colon; between the words of a line stand spaces or tabs alone"
    elif at.words[0] in (b"read", b"cut"):
        cause = "a word, a fraction or a unit: here stand whole numbers alone, from 0 to 4294967295"
    else:
        cause = "a name stands for a number; states and processes have numbers alone, from 0"
    return Told(said, "a number: digits alone, without a sign and without a leading 0", cause)


def bad_name(at: At) -> Told:
    token = at.fault.token
    other = bytes(b if chr(b).isalnum() or b == 95 else 95 for b in token)
    cause = "a `-`, `.` or another sign in the name; %s would be one" % quoted(other)
    if len(token) > 32:
        cause = "it has %d signs" % len(token)
    elif at.words[0] == b"processes" and token.isdigit():
        cause = "in version 2 the line names the processes; version 1 says how many there are (`zla 1`)"
    elif token[:1].isdigit():
        cause = "it begins with a digit; the line is %s, the name first" % quoted(at.form())
    may = "a name: 1 to 32 of the signs A to Z, a to z, 0 to 9 and _, of which the first is no digit"
    return Told("%s isn't a name" % quoted(token), may, cause)


def process_count(_: At) -> Told:
    cause = "a job of no process, or of more than a document of version 1 may have; version 2 has up to 10"
    return Told("a document has 1 to 6 processes", "a number from 1 to 6", cause)


def wide_processes(_: At) -> Told:
    return Told("a document has 1 to 10 processes", "1 to 10 names", "a job of more processes than a document may have")


def repeated_process(at: At) -> Told:
    said = "%s stands twice in the line" % quoted(at.fault.token)
    return Told(said, "another name", "each process is named once, and has its number by its place in the line")


def bad_repeat(at: At) -> Told:
    count = at.fault.token.partition(b"*")[2]
    said = "%s after the `*` isn't a number from 1 on" % quoted(count) if count else "nothing stands after the `*`"
    may = "NAME*COUNT, with digits alone and without a leading 0"
    return Told(said, may, "an item that stands for no letter is left out; a space before or after the `*` parts the item")


def state_count(at: At) -> Told:
    most = second_reading.MOST_STATES[at.fault.job.version]
    cause = (
        "a rule of no state, or of many parts: leave out the states from which nothing is accepted, since missing rows "
        "say the same, and give one number to states after which the same words are right"
    )
    return Told("a document has 1 to %d states" % most, "a number from 1 to %d" % most, cause)


def numbered(what: str, count: int, line: int) -> Tuple[str, str]:
    """What may stand for a process or a state, and why another number stands there."""
    may = "0, the only %s (line %d)" % (what, line)
    if count > 1:
        may = "a %s from 0 to %d (line %d)" % (what, count - 1, line)
    return may, "they are counted from 0; or line %d has to say more of them" % line


def no_such_process(at: At) -> Told:
    job = at.fault.job
    said = "there is no process " + at.fault.token.decode()
    if job.version == 2:
        may = "a process: " + listed((name.decode() for name in job.names), "or")
        cause = "line %d names the processes; in version 2 they have names alone" % job.lines[b"processes"]
        return Told(said, may, cause)
    return Told(said, *numbered("process", job.processes, job.lines[b"processes"]))


def no_such_state(at: At) -> Told:
    job = at.fault.job
    return Told("there is no state " + at.fault.token.decode(), *numbered("state", job.states, job.lines[b"states"]))


# ---- letters ----


def letter_count(at: At) -> Told:
    said = "%d letter lines stand above" % second_reading.MOST_LETTERS[at.fault.job.version]
    return Told(said, "a `states` line", "more letters than a document may have")


def repeated_name(at: At) -> Told:
    job, token = at.fault.job, at.fault.token
    said = "line %d has a letter %s already" % (job.letter_lines[job.letter_of(token)], quoted(token))
    cause = "a letter of several processes has one line that names them all: `letter %s PROCESS ..`" % token.decode()
    return Told(said, "another name", cause)


def without_process(at: At) -> Told:
    said = "no process takes part in " + quoted(at.fault.token)
    return Told(said, quoted(at.form()), "the processes were forgotten: they stand after the name")


def letters_of(at: At, p: int) -> str:
    mine = (name.decode() for name, loc in at.fault.job.letters if p in loc)
    return "a letter of process %s: %s" % (at.fault.job.process(p), listed(mine, "or"))


def no_such_letter(at: At) -> Told:
    token, job = at.fault.token, at.fault.job
    names = [name for name, _ in job.letters]
    if at.words[0] == b"expr":
        return no_such_sign(token, [bytes(name) for name in names])
    said = "no letter line names " + quoted(token)
    may = "a letter: " + listed((name.decode() for name in names), "or")
    if at.words[0] == b"script":
        may = letters_of(at, job.process_of(at.words[1]))
    elif at.words[0] == b"fire":
        may = "an event: LETTER.LABEL, where the letter is one of %s" % listed((name.decode() for name in names), "or")
    meant = nearest(token, names)
    if not token:
        sign = "point" if at.words[0] == b"fire" else "`*`"
        said = "no letter stands before the " + sign
        cause = "a space before the %s; %s is one piece" % (sign, "an event" if at.words[0] == b"fire" else "`NAME*COUNT`")
    elif second_reading.NUMBER.match(token):
        cause = in_another_order(at)
    elif meant:
        cause = "%s is misspelled (line %d)" % (quoted(meant), job.letter_lines[names.index(meant.encode())])
    else:
        lines = job.letter_lines[0], job.letter_lines[-1]
        cause = "a letter line is missing: the letters stand after `processes`, at lines %d to %d" % lines
    return Told(said, may, cause)


def two_targets(at: At) -> Told:
    job, name = at.fault.job, at.words[2]
    q, a = int(at.words[1]), job.letter_of(name)
    there = job.row_lines[q, a], quoted(name), q, job.targets[q, a]
    cause = (
        "a state with two rows of one letter: the rule is in one state at a time, so one of the rows goes, or both lead "
        "to a new state that stands for either"
    )
    said = "line %d says that %s leads from state %d to state %d" % there
    return Told(said, "state %d" % job.targets[q, a], cause)


def not_of_process(at: At) -> Told:
    job, token, p = at.fault.job, at.fault.token, at.fault.job.process_of(at.words[1])
    a = job.letter_of(token if job.version == 1 else token.partition(b"*")[0])
    line, mine = job.letter_lines[a], job.process(p)
    there = quoted(token), processes(job, job.loc(a)), line, mine
    said = "%s is of %s (line %d), and this is a script of process %s" % there
    cause = "the letter belongs into another script; or line %d has to name process %s too" % (line, mine)
    return Told(said, letters_of(at, p), cause)


def scripts_full(_: At) -> Told:
    cause = "the scripts are longer than a document may have them"
    return Told("65536 script letters stand above", "no letter", cause)


# ---- expressions ----


# how others write what is written otherwise here
OTHERS = {
    b"+": "one or more of A is `A A *`; one of A and B is `A | B`",
    b"?": "an A that may be left out is `( 1 | A )`",
    b".": "any letter is written out: `( a | b )`; words follow one another without a sign",
    b",": "words follow one another without a sign",
    b"||": "one of A and B is `A | B`",
    b"&&": "both A and B is `A & B`",
    b"~": "every word but those of A is `! A`",
    b"-": "the words of A that aren't of B are `A & ! B`",
    b"0": "the empty word is `1`; no word at all is `A & ! A`",
    b"eps": "the empty word is `1`",
    b"epsilon": "the empty word is `1`",
    b"and": "both A and B is `A & B`",
    b"or": "one of A and B is `A | B`",
    b"not": "every word but those of A is `! A`",
}
SIGNS = "`1`, `(`, `)`, `{`, `}`, `|`, `*`, `&` and `!`"


def no_such_sign(token: Token, names: List[bytes]) -> Told:
    said = "%s is no sign of expressions, and no letter line names it" % quoted(token)
    may = "a letter: %s; or one of the signs %s" % (listed((name.decode() for name in names), "or"), SIGNS)
    pieces = re.findall(rb"\w+|[^\w]", token)
    meant = nearest(token, names)
    if len(pieces) > 1 and all(piece in names or piece in expressions.SIGNS for piece in pieces):
        cause = "a space is missing: each letter and each sign is a word of its own, `%s`" % b" ".join(pieces).decode()
    elif token in OTHERS:
        cause = OTHERS[bytes(token)]
    elif re.match(rb"\w+\*\d+\Z", token):
        cause = "`NAME*COUNT` is an item of scripts; in an expression a letter is written as often as it comes"
    elif meant:
        cause = "%s is misspelled" % quoted(meant)
    else:
        cause = "a letter line is missing; they stand above `expr`"
    return Told(said, may, cause)


def still_open(words: List[Token]) -> Optional[Token]:
    """The last parenthesis or brace that isn't closed."""
    opened: List[Token] = []
    for word in words:
        if word in (b"(", b"{"):
            opened.append(word)
        elif word in (b")", b"}") and opened:
            opened.pop()
    return opened[-1] if opened else None


def why_no_form(words: List[Token], at: int) -> str:
    """The usual cause of a form that doesn't go on at a word."""
    word = words[at] if at < len(words) else None
    last, opened = words[at - 1] if at else None, still_open(words[:at])
    if word is None and last in (b"|", b"&", b"!", b"(", b"{"):
        return "what belongs after %s is missing; the empty word is `1`" % quoted(last)
    if word is None:
        return "the %s isn't closed that is word %d after `expr`" % (quoted(opened), words.index(opened) + 1)
    if word in (b"&", b"!") and opened == b"(":
        return "`&` and `!` join whole forms and stand in no parentheses; braces group forms: `{ A & B }`"
    if word == b"{":
        return "braces group whole forms, at the beginning or after `&` or `!`; parts of words are grouped by `(` and `)`"
    if word == b"!":
        return "`!` stands before a whole form, at the beginning or after `&`: A that isn't B is `A & ! B`"
    if word == b"*" and last == b"}":
        return "a form can't be repeated: `*` follows a letter, `1` or `)`"
    if word == b"|" and last == b"}":
        return "`|` joins parts without `&` and `!` alone; A or B of any forms is `! { ! { A } & ! { B } }`"
    if last == b"}":
        return "forms are joined by `&` alone"
    if word == b"*":
        return "`*` stands after what is repeated"
    if word in (b")", b"}") and not opened:
        return "%s closes nothing: one is too many, or its beginning is missing" % quoted(word)
    if word in (b")", b"}") and last in (b"(", b"{", b"|", b"&", b"!"):
        return "nothing stands before it; the empty word is `1`"
    if word in (b")", b"}"):
        return "%s is open, and is closed first" % quoted(opened)
    return "two signs follow one another, and what belongs between them is missing; the empty word is `1`"


def bad_expression(at: At) -> Told:
    words, token = at.words[1:], at.fault.token
    place = len(words) if token is None else next(i for i, word in enumerate(words) if word.column == token.column)
    said = "the line ends, and the expression isn't whole" if token is None else "no expression that begins so goes on with %s" % quoted(token)
    if place == 0:
        said = "no expression begins with %s" % quoted(token)
    return Told(said, listed(at.fault.may, "or"), why_no_form(words, place))


def expression_full(at: At) -> Told:
    said = "the expression has %d words" % (len(at.words) - 1)
    cause = "a rule of many parts: write small ones, build a job of each, and join the jobs by `tools/product`"
    return Told(said, "at most 64 words after `expr`; each letter and each sign is one", cause)


def expression_states(_: At) -> Told:
    cause = (
        "a choice of many letters before a long end, as `( a | b ) * a ( a | b ) ( a | b )`, of which the last letters have to be "
        "remembered one by one; or several such parts under `&`, whose numbers multiply"
    )
    said = "the expression would have a table of more than 128 states: so many sets of places may the last letter have"
    return Told(said, "an expression of at most 128 position values", cause)


# ---- frozen texts ----


def no_such_cut(at: At) -> Told:
    fired = len(second_reading.weave(at.fault.job)[0])
    said = "the scripts fire %d letters, and not %s" % (fired, at.fault.token.decode())
    return Told(said, "a number from 0 to %d" % fired, "the number or a script was changed after the job was frozen")


def not_own(at: At) -> Told:
    cut = at.fault.job.lines[b"cut"]
    said = "the line isn't that of the frozen text of this job after %d events" % at.fault.job.cut
    may = quoted(at.fault.may[0]) if at.fault.may else "no line: the frozen text has ended"
    if at.fault.line < cut:
        return Told(said, may, "the job isn't in its printed form; `./zla freeze` prints it so, without comments")
    cause = "the text was changed after it was frozen, here or in a script, or in the number after `cut` (line %d)" % cut
    return Told(said, may, cause)


# ---- claims ----


def no_such_answer(at: At) -> Told:
    said = "%s is no answer" % quoted(at.fault.token)
    return Told(said, "accept, reject or stuck", "another word for an answer; `./zla journal` writes the claim line")


def claim_full(_: At) -> Told:
    return Told("65536 `fire` lines stand above", "`end`", "more events than a claim may have")


def bad_event(at: At) -> Told:
    said = "%s has no point" % quoted(at.fault.token)
    may = "an event: a letter's name, a point, and the event's label"
    return Told(said, may, "the label is missing; `./zla journal` writes it")


def no_such_label(at: At) -> Told:
    n = at.fault.job.processes
    said = "there is no label " + at.fault.token.decode()
    may = "a label from 0 to %d, the cube of the number of processes" % n**3
    return Told(said, may, "the event's number in the journal; a label is a small number that is used again")


KINDS: Dict[str, Callable[[At], Told]] = {
    "line is cut": cut,
    "bad byte": bad_byte,
    "header is not zla 1 or 2": header,
    "line is out of order": out_of_order,
    "wrong number of words": word_count,
    "end is missing": no_end,
    "text after end": trailing,
    "bad number": bad_number,
    "bad name": bad_name,
    "processes not in 1 to 6": process_count,
    "processes not in 1 to 10": wide_processes,
    "process is repeated": repeated_process,
    "more than 32 letters": letter_count,
    "more than 128 letters": letter_count,
    "name is repeated": repeated_name,
    "letter without process": without_process,
    "no such process": no_such_process,
    "states not in 1 to 32": state_count,
    "states not in 1 to 128": state_count,
    "no such state": no_such_state,
    "no such letter": no_such_letter,
    "two targets": two_targets,
    "letter not of this process": not_of_process,
    "bad repeat": bad_repeat,
    "more than 65536 script letters": scripts_full,
    "no such answer": no_such_answer,
    "more than 65536 events": claim_full,
    "bad event": bad_event,
    "no such label": no_such_label,
    "header is not zla expr": header,
    "more than 64 expression words": expression_full,
    "bad expression": bad_expression,
    "more than 128 states": expression_states,
    "no such cut": no_such_cut,
    "not the frozen text": not_own,
}
# of these a comment is no likely cause, and what is wrong may be no token
NOT_OF_TOKENS = ("line is cut", "bad byte", "end is missing", "letter without process", "not the frozen text")


def told_of(at: At) -> Told:
    note = comment(at)
    if note is None or at.fault.kind in NOT_OF_TOKENS:
        return KINDS[at.fault.kind](at)
    if at.fault.place == 0:
        may = "no comment here: the header comes first, and after it version 2 alone has comments"
        cause = "a comment above the header; move it below `zla 2`"
    elif at.fault.job.version == 2 or at.is_expression():
        may = "no comment here: a comment is a line of its own that begins with `#`"
        cause = "a comment after something else in its line, or one that begins otherwise"
    else:
        may = "no comment here: version 2 alone has comments, in lines of their own that begin with `#`"
        cause = "write the job in version 2 (`zla 2`), or notes in a file beside it"
    return Told("%s begins a comment, it seems" % quoted(note), may, cause)


def marked(at: At) -> Tuple[int, int]:
    """Where in its line the wrong part begins, and how long it is."""
    if at.fault.kind == "bad byte":
        return wrong_byte(at.line), 1
    if at.fault.kind == "line is cut" or (at.fault.kind == "bad expression" and at.fault.token is None):
        return len(at.line), 1
    if at.fault.kind == "not the frozen text":
        own = at.fault.may[0].encode().split() if at.fault.may else []
        other = next((word for i, word in enumerate(at.words) if own and own[i : i + 1] != [word]), None)
        return (0, len(at.line)) if other is None else (other.column, len(other))
    token = comment(at) or at.fault.token
    return (0, len(at.line)) if token is None else (token.column, len(token))


def shown(at: At) -> Lines:
    """The line, with marks below what is wrong in it; of a long line a part."""
    column, width = marked(at)
    first = max(0, column - SHOWN // 2)
    part = at.line[first : first + SHOWN]
    head = "  line %d: %s" % (at.fault.line, "..." if first else "")
    text = "".join(chr(b) if 32 <= b <= 126 else " " if b == 9 else "?" for b in part)
    more = "..." if first + SHOWN < len(at.line) else ""
    marks = "^" * max(1, min(width, len(part) - (column - first)))
    return [head + text + more, " " * (len(head) + column - first) + marks]


def explain_refusal(text: bytes, fault: Refused) -> Lines:
    pieces = text.split(b"\n")
    line = pieces[fault.line - 1] if fault.line <= len(pieces) else b""
    at = At(fault, line, second_reading.tokens(line), text)
    told = told_of(at)
    out = [str(fault), ""] + (shown(at) + [""] if line else [])
    heads = ("What is wrong:    ", told.wrong), ("What may stand:   ", told.may), ("The usual cause:  ", told.cause)
    return out + [line for head, what in heads for line in paragraph(what + ".", head, " " * len(head))]
