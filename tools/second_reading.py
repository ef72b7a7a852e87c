"""A second reading of the definitions, in plain Python: unproved, slow, and written from docs/FORMATS.md and
docs/THEOREMS.md and not from the program.

It reads documents of both versions by the grammar, and works out the answers of `solo`, `run`, `check` and `locals` straight from
the definitions: languages by words, views by positions, labels by tertiary entries. It reads audited texts, a job and a claim about
a run of it, and works out what `audit` says of them; documents with an expression, and what `build` makes of them (by
tools/expressions.py); jobs with readings, and their `news`; and what `freeze K` and `thaw` write. The repository's checks compare
the program with it, `gen` included, and tools/draw, tools/explain and tools/product are made from it.
"""
import itertools
import re
from collections import deque

import expressions

MOST_BYTES = 1048576
MOST_PROCESSES, MOST_LETTERS, MOST_STATES = {1: 6, 2: 10}, {1: 32, 2: 128}, {1: 32, 2: 128}  # by version
MOST_SCRIPT_LETTERS = MOST_EVENTS = 65536
MOST_SIGNS = 64  # of an expression
ANSWERS = [b"accept", b"reject", b"stuck"]
NAME = re.compile(rb"[A-Za-z_][A-Za-z0-9_]{0,31}\Z")
NUMBER = re.compile(rb"(0|[1-9][0-9]{0,9})\Z")
USAGE = b"usage: zla solo|run|check|locals|journal [--cache C], zla audit|build|news|thaw, zla gen N, zla freeze K\n"


class Token(bytes):
    """A token of a line, with the column at which it begins."""

    column = 0

    def part(self, first, last=None):
        """A part of it."""
        part = Token(self[first:last])
        part.column = self.column + first
        return part


class Wrong(Exception):
    """The first failing test of a line, and the token that fails it, where it is one; what may stand in its place, where the
    test finds that out."""

    def __init__(self, kind, token=None, may=None):
        super().__init__(kind)
        self.kind, self.token, self.may = kind, token, may


class Refused(Exception):
    """The first wrong line of a text, and its first failing test; what was read before it, and the place there."""

    def __init__(self, line, wrong, job, place):
        super().__init__("refused line %d: %s" % (line, wrong.kind))
        self.line, self.kind, self.token, self.job, self.place = line, wrong.kind, wrong.token, job, place
        self.may = wrong.may


def want(condition, kind, token=None):
    if not condition:
        raise Wrong(kind, token)


def number(word):
    want(NUMBER.match(word) and int(word) < 2**32, "bad number", word)
    return int(word)


class Job:
    """What the lines of a document say, gathered line by line, and at which lines it stands."""

    def __init__(self):
        self.version = 1
        self.places = PLACES
        self.processes = self.states = self.start = 0
        self.names = []  # of the processes, as bytes; in version 1 their numbers
        self.letters = []  # (name, processes in rising order)
        self.accepting = set()
        self.targets = {}  # (state, letter) to state
        self.scripts = []
        self.line = 0  # the one that is read
        self.lines = {}  # first token to the line; letters and rows by themselves
        self.letter_lines = []
        self.row_lines = {}
        self.script_lines = []  # for each process the line of each letter of its script
        self.claimed = None  # in an audited text: the answer that is claimed, and the events, as letters with labels
        self.events = []
        self.event_lines = []
        self.readings = []  # in a text with readings: for each process its numbers, and the line of each
        self.reading_lines = []
        self.expression = []  # in a document with an expression: its words, and the table that it has
        self.table = None
        self.cut = 0  # in a frozen text: how many events it says that there were

    def letter_of(self, name):
        for a, (other, _) in enumerate(self.letters):
            if other == name:
                return a
        raise Wrong("no such letter", name)

    def process_of(self, word):
        if self.version == 2:
            want(word in self.names, "no such process", word)
            return self.names.index(word)
        p = number(word)
        want(p < self.processes, "no such process", word)
        return p

    def state_of(self, word):
        q = number(word)
        want(q < self.states, "no such state", word)
        return q

    def name(self, a):
        return self.letters[a][0].decode()

    def process(self, p):
        return self.names[p].decode()

    def loc(self, a):
        return self.letters[a][1]

    def independent(self, a, b):
        return not set(self.loc(a)) & set(self.loc(b))


# for each place, the first words that may stand there, and the place after each; a job ends at one, and a claim, readings or
# the lines of a frozen text after it at others
JOB_ENDS, CLAIM_ENDS = 8, 10
AT_READINGS, READINGS_END, AT_CUT, CUT_ENDS = 11, 13, 14, 15
PLACES = [
    {b"zla": 1},
    {b"processes": 2},
    {b"letter": 3},
    {b"letter": 3, b"states": 4},
    {b"start": 5},
    {b"accept": 6},
    {b"row": 6, b"script": 7, b"end": 8},
    {b"script": 7, b"end": 8},
    {b"claim": 9},
    {b"fire": 9, b"end": 10},
    {},
    {b"readings": 12},
    {b"read": 12, b"end": 13},
    {},
    {b"cut": 15},
    {},
]
# the same of a document with an expression: no table, and one line in its place
EXPRESSION_PLACES = PLACES[:3] + [{b"letter": 3, b"expr": 7}, {}, {}, {}] + PLACES[7:]
HEADERS = {(b"zla", b"1"): 1, (b"zla", b"2"): 2}  # with the version that each says
EXPRESSION_HEADERS = {(b"zla", b"expr"): 2}
# for each first word, how many words its line has: exactly, or at least
EXACTLY = {b"zla": 2, b"processes": 2, b"states": 2, b"start": 2, b"row": 4, b"end": 1, b"claim": 2, b"fire": 2, b"readings": 1, b"cut": 2}
AT_LEAST = {b"processes": 2, b"letter": 2, b"accept": 1, b"script": 2, b"expr": 2, b"read": 2}


def take_processes(job, words):
    """How many processes there are, or in version 2 their names."""
    most = MOST_PROCESSES[job.version]
    if job.version == 2:
        want(len(words) <= most, "processes not in 1 to %d" % most)
        for word in words:
            want(NAME.match(word), "bad name", word)
            want(word not in job.names, "process is repeated", word)
            job.names.append(word)
    else:
        count = number(words[0])
        want(1 <= count <= most, "processes not in 1 to %d" % most, words[0])
        job.names = [b"%d" % p for p in range(count)]
    job.processes = len(job.names)
    job.scripts = [[] for _ in range(job.processes)]
    job.script_lines = [[] for _ in range(job.processes)]


def take_item(job, p, word):
    """A letter of a script, or in version 2 so many of it."""
    star = word.find(b"*") if job.version == 2 else -1
    a = job.letter_of(word if star < 0 else word.part(0, star))
    want(p in job.loc(a), "letter not of this process", word)
    times = 1
    if star >= 0:
        count = word.part(star + 1)
        want(NUMBER.match(count) and 0 < int(count) < 2**32, "bad repeat", word)
        times = int(count)
    want(sum(map(len, job.scripts)) + times <= MOST_SCRIPT_LETTERS, "more than 65536 script letters", word)
    job.scripts[p] += [a] * times
    job.script_lines[p] += [job.line] * times


def take_event(job, word):
    """An event of a claim: a letter, a point, and a label."""
    want(len(job.events) < MOST_EVENTS, "more than 65536 events", word)
    point = word.find(b".")
    want(point >= 0, "bad event", word)
    a = job.letter_of(word.part(0, point))
    label = number(word.part(point + 1))
    want(label <= job.processes**3, "no such label", word.part(point + 1))
    job.events.append((a, label))
    job.event_lines.append(job.line)


def take_expression(job, words):
    """An expression in place of a table, whose states are the position values."""
    want(len(words) <= MOST_SIGNS, "more than 64 expression words", words[min(len(words) - 1, MOST_SIGNS)])
    letter_at = {at: job.letter_of(word) for at, word in enumerate(words) if word not in expressions.SIGNS}
    try:
        expression = expressions.parsed(words)
    except expressions.NoForm as wrong:
        raise Wrong("bad expression", words[wrong.at] if wrong.at < len(words) else None, wrong.may) from None
    table = expressions.table(expression, letter_at, len(job.letters), MOST_STATES[2])
    want(table, "more than 128 states")
    job.expression, job.table = words, table
    job.states, job.accepting = len(table.values), {q for q, is_right in enumerate(table.accepting) if is_right}
    job.targets = {(q, a): r for q, row in enumerate(table.targets) for a, r in enumerate(row)}


def take_readings(job, words):
    """Numbers that a process reads. It goes by its name, in version 1 by its number as a name."""
    want(words[0] in job.names, "no such process", words[0])
    p = job.names.index(words[0])
    for word in words[1:]:
        job.readings[p].append(number(word))
        job.reading_lines[p].append(job.line)


def take_cut(job, word):
    """After how many events a job is frozen."""
    count = number(word)
    want(count <= len(weave(job)[0]), "no such cut", word)
    job.cut = count


def take(job, first, words):
    """The line's own tests in their order; what it says is gathered."""
    if first == b"processes":
        take_processes(job, words)
    elif first == b"letter":
        most = MOST_LETTERS[job.version]
        want(len(job.letters) < most, "more than %d letters" % most)
        want(NAME.match(words[0]), "bad name", words[0])
        want(all(words[0] != name for name, _ in job.letters), "name is repeated", words[0])
        want(len(words) > 1, "letter without process", words[0])
        job.letters.append((words[0], sorted({job.process_of(word) for word in words[1:]})))
        job.letter_lines.append(job.line)
    elif first == b"states":
        job.states = number(words[0])
        most = MOST_STATES[job.version]
        want(1 <= job.states <= most, "states not in 1 to %d" % most, words[0])
    elif first == b"start":
        job.start = job.state_of(words[0])
    elif first == b"accept":
        job.accepting = {job.state_of(word) for word in words}
    elif first == b"row":
        q, a, r = job.state_of(words[0]), job.letter_of(words[1]), job.state_of(words[2])
        want(job.targets.get((q, a), r) == r, "two targets", words[2])
        job.targets[q, a] = r
        job.row_lines.setdefault((q, a), job.line)
    elif first == b"script":
        p = job.process_of(words[0])
        for word in words[1:]:
            take_item(job, p, word)
    elif first == b"claim":
        want(words[0] in ANSWERS, "no such answer", words[0])
        job.claimed = words[0].decode()
    elif first == b"fire":
        take_event(job, words[0])
    elif first == b"expr":
        take_expression(job, words)
    elif first == b"read":
        take_readings(job, words)
    elif first == b"cut":
        take_cut(job, words[0])


def tokens(text):
    """The tokens of a line."""
    found = []
    for match in re.finditer(rb"[^ \t]+", text):
        found.append(Token(match.group()))
        found[-1].column = match.start()
    return found


def take_line(job, place, ends, text, whole):
    """One line: the place after it. The text ends at a place."""
    want(whole, "line is cut")
    want(all(b == 9 or 32 <= b <= 126 for b in text), "bad byte")
    words = tokens(text)
    if not words or (job.version == 2 and words[0].startswith(b"#")):
        return place
    if place == 0:
        headers = HEADERS if job.places is PLACES else EXPRESSION_HEADERS
        said = "header is not zla 1 or 2" if headers is HEADERS else "header is not zla expr"
        want(tuple(words) in headers, said, words[0])
        job.version = headers[tuple(words)]
    want(place < ends, "text after end", words[0])
    first = words[0]
    want(first in job.places[place], "line is out of order", first)
    exactly = first in EXACTLY and (first, job.version) != (b"processes", 2)
    want(len(words) == EXACTLY[first] if exactly else len(words) >= AT_LEAST[first], "wrong number of words")
    take(job, first, words[1:])
    job.lines[bytes(first)] = job.line
    return job.places[place][first]


def lines_of(text):
    """The lines of a text, each with whether it is whole."""
    pieces = text.split(b"\n")
    return [(piece, True) for piece in pieces[:-1]] + ([(pieces[-1], False)] if pieces[-1] else [])


def read_lines(job, lines, place, ends, before=0):
    """What lines say, which come at a place after so many others, is gathered."""
    for at, (piece, whole) in enumerate(lines):
        job.line = before + at + 1
        try:
            place = take_line(job, place, ends, piece, whole)
        except Wrong as wrong:
            raise Refused(job.line, wrong, job, place) from None
    if place < ends:
        raise Refused(before + len(lines) + 1, Wrong("end is missing"), job, place)
    return job


def read(text, ends=JOB_ENDS):
    """The job that a document says, or an audited text with its claim. Refused names the first wrong line and its kind."""
    return read_lines(Job(), lines_of(text), 0, ends)


def read_expression(text):
    """The job that a document with an expression says: the expression's table, and the scripts."""
    job = Job()
    job.places = EXPRESSION_PLACES
    return read_lines(job, lines_of(text), 0, JOB_ENDS)


def read_before(lines, is_dividing, place):
    """The job that the lines before the first dividing one say, and how many they are. Without such a line the text ends
    before the place where it belongs."""
    at = next((at for at, (piece, _) in enumerate(lines) if is_dividing(tokens(piece))), len(lines))
    job = read_lines(Job(), lines[:at], 0, JOB_ENDS)
    if at == len(lines):
        raise Refused(at + 1, Wrong("end is missing"), job, place)
    return job, at


def read_news(text):
    """The job of a text with readings, and these."""
    lines = lines_of(text)
    job, at = read_before(lines, lambda words: words == [b"readings"], AT_READINGS)
    job.readings = [[] for _ in range(job.processes)]
    job.reading_lines = [[] for _ in range(job.processes)]
    return read_lines(job, lines[at:], AT_READINGS, READINGS_END, at)


def read_frozen(text):
    """The job of a frozen text, and after how many events it says that it was frozen. The lines after the cut line aren't read;
    they are those of the frozen text, or they are wrong."""
    lines = lines_of(text)
    job, at = read_before(lines, lambda words: words[:1] == [b"cut"], AT_CUT)
    return read_lines(job, lines[at : at + 1], AT_CUT, CUT_ENDS, at)


def items(job, script):
    """The items of a script: letters, or in version 2 maximal runs of one letter."""
    if job.version == 1:
        return [job.letters[a][0] for a in script]
    runs = [(job.letters[a][0], len(list(run))) for a, run in itertools.groupby(script)]
    return [name if count == 1 else b"%s*%d" % (name, count) for name, count in runs]


def printed(job):
    """The printed form of a job."""
    out = [[b"zla", job.version], [b"processes"] + (job.names if job.version == 2 else [job.processes])]
    out += [[b"letter", name] + [job.names[p] for p in procs] for name, procs in job.letters]
    out += [[b"states", job.states], [b"start", job.start], [b"accept"] + sorted(job.accepting)]
    out += [[b"row", q, job.letters[a][0], job.targets[q, a]] for q, a in sorted(job.targets)]
    out += [[b"script", job.names[p]] + items(job, script) for p, script in enumerate(job.scripts)]
    out.append([b"end"])
    return b"".join(b" ".join(w if isinstance(w, bytes) else b"%d" % w for w in words) + b"\n" for words in out)


def printed_claim(job, answer, events):
    """The printed form of a claim about a job."""
    lines = ["claim " + answer] + ["fire %s.%d" % (job.name(a), label) for a, label in events] + ["end"]
    return "".join(line + "\n" for line in lines).encode()


class Dfa:
    """A complete table."""

    def __init__(self, letters, start, accepting, targets):
        self.letters, self.start, self.accepting, self.targets = letters, start, accepting, targets

    def walk(self, q, word):
        for a in word:
            q = self.targets[q][a]
        return q

    def accepts(self, word):
        return self.accepting[self.walk(self.start, word)]


def completed(job):
    """The job's DFA: where a row is missing, one rejecting state is added, and missing rows lead to it."""
    m = len(job.letters)
    whole = all((q, a) in job.targets for q in range(job.states) for a in range(m))
    states = job.states if whole else job.states + 1
    targets = [[job.targets.get((q, a), job.states) for a in range(m)] for q in range(states)]
    return Dfa(m, job.start, [q in job.accepting for q in range(states)], targets)


def least_words(first, step, letters):
    """The shortlex-least word to each thing that is reached, in the order of these words."""
    words, queue = {first: []}, deque([first])
    while queue:
        x = queue.popleft()
        for a in range(letters):
            y = step(x, a)
            if y not in words:
                words[y] = words[x] + [a]
                queue.append(y)
    return words


def apart(dfa, q, r):
    """The shortlex-least word that is accepted from exactly one of two states, or None."""
    words = least_words((q, r), lambda x, a: (dfa.targets[x[0]][a], dfa.targets[x[1]][a]), dfa.letters)
    for (x, y), word in words.items():
        if dfa.accepting[x] != dfa.accepting[y]:
            return word
    return None


def access_words(dfa):
    """The shortlex-least word to each state that is reached, in the order of these words."""
    return least_words(dfa.start, lambda q, a: dfa.targets[q][a], dfa.letters)


def classes(dfa):
    """The states that are reached, those from which the same words are accepted together, by their least access words."""
    found = []
    for q in access_words(dfa):
        for states in found:
            if apart(dfa, q, states[0]) is None:
                states.append(q)
                break
        else:
            found.append([q])
    return found


def minimal(dfa):
    """The minimal DFA, its states numbered by their shortlex-least access words."""
    found = classes(dfa)
    number_of = {q: i for i, states in enumerate(found) for q in states}
    targets = [[number_of[dfa.targets[states[0]][a]] for a in range(dfa.letters)] for states in found]
    return Dfa(dfa.letters, 0, [dfa.accepting[states[0]] for states in found], targets)


def accepted_from(dfa, q):
    """The shortlex-least word that is accepted from a state, or None where there is none."""
    words = least_words(q, lambda r, a: dfa.targets[r][a], dfa.letters)
    return next((word for r, word in words.items() if dfa.accepting[r]), None)


class Break:
    """u a b v and u b a v, of which one is accepted, with a and b independent."""

    def __init__(self, before, a, b, after):
        self.before, self.a, self.b, self.after = before, a, b, after
        self.left, self.right = before + [a, b] + after, before + [b, a] + after


def least_break(job, dfa):
    """The least break of the language, or None where it is trace-closed."""
    for q, u in access_words(dfa).items():
        for a in range(dfa.letters):
            for b in range(a + 1, dfa.letters):
                if job.independent(a, b):
                    v = apart(dfa, dfa.walk(q, [a, b]), dfa.walk(q, [b, a]))
                    if v is not None:
                        return Break(u, a, b, v)
    return None


def can_fire(job, done, a):
    """Whether a letter is the next one of each of its processes, of which so many events are done."""
    return all(job.scripts[p][done[p] : done[p] + 1] == [a] for p in job.loc(a))


def least_enabled(job, done):
    """The least letter that can fire, or None."""
    return next((a for a in range(len(job.letters)) if can_fire(job, done, a)), None)


def weave(job):
    """The greedy word, and how many events of each process it has."""
    done, word = [0] * job.processes, []
    while True:
        a = least_enabled(job, done)
        if a is None:
            return word, done
        word.append(a)
        for p in job.loc(a):
            done[p] += 1


class Order:
    """Pasts, entries and labels of the events of a word, by positions."""

    def __init__(self, job, word):
        self.job, self.word = job, word
        self.pasts = []  # the past of each event
        for i, a in enumerate(word):
            past = {i}
            for j in range(i - 1, -1, -1):
                if any(set(job.loc(word[j])) & set(job.loc(word[k])) for k in past):
                    past.add(j)
            self.pasts.append(past)
        self.labels = []
        for i in range(len(word)):
            self.labels.append(self.label(i))

    def view(self, n, p):
        mine = [i for i in range(n) if p in self.job.loc(self.word[i])]
        return self.pasts[mine[-1]] if mine else set()

    def latest(self, events, q):
        return max((i for i in events if q in self.job.loc(self.word[i])), default=None)

    def primary(self, n, p, q):
        return self.latest(self.view(n, p), q)

    def in_past(self, e, q):
        return None if e is None else self.latest(self.pasts[e], q)

    def label(self, i):
        """The least that no tertiary entry with the letter has, at the least participant just before."""
        processes = range(self.job.processes)
        x = self.job.loc(self.word[i])[0]
        taken = set()
        for q in processes:
            for r in processes:
                e = self.in_past(self.primary(i, x, q), r)
                for s in processes:
                    f = self.in_past(e, s)
                    if f is not None and self.word[f] == self.word[i]:
                        taken.add(self.labels[f])
        return min(k for k in range(len(taken) + 1) if k not in taken)

    def shown(self, e):
        return "-" if e is None else "%s.%d" % (self.job.name(self.word[e]), self.labels[e])


class Marks:
    """The labels and the views of a word that grows, in the time that long words allow. Of a past the last event of each
    process is kept, which says what it is: a past holds each event that comes before one of its events at a process."""

    def __init__(self, job):
        self.job, self.word, self.labels = job, [], []
        self.pasts = []  # of each event: for each process the position of its last event in the past, and -1 for none
        self.latest = [-1] * job.processes  # of each process its last event

    def heard(self, events):
        """The last events of all processes in the pasts of events."""
        return {f for e in events for f in self.pasts[e]} - {-1}

    def taken(self, a):
        """The events of a letter that the tertiary entries of its least process have."""
        mine = {self.latest[self.job.loc(a)[0]]} - {-1}
        return {e for e in self.heard(self.heard(self.heard(mine))) if self.word[e] == a}

    def label(self, a):
        """The label that the letter gets as the next event."""
        taken = {self.labels[e] for e in self.taken(a)}
        return next(k for k in range(len(taken) + 1) if k not in taken)

    def push(self, a):
        """The letter is the next event; its label."""
        at, loc = len(self.word), self.job.loc(a)
        self.labels.append(self.label(a))
        before = [self.pasts[self.latest[p]] for p in loc if self.latest[p] >= 0]
        past = [max(entries) for entries in zip(*before)] if before else [-1] * self.job.processes
        for p in loc:
            past[p] = self.latest[p] = at
        self.word.append(a)
        self.pasts.append(past)
        return self.labels[at]

    def known(self, p, q):
        """The position of the latest event of a process that another knows, or None."""
        at = self.pasts[self.latest[p]][q] if self.latest[p] >= 0 else -1
        return at if at >= 0 else None

    def view(self, p):
        """The positions of the events that a process knows."""
        last = self.pasts[self.latest[p]] if self.latest[p] >= 0 else [-1] * self.job.processes
        return [i for i, a in enumerate(self.word) if any(i <= last[q] for q in self.job.loc(a))]


def marked(job, word):
    """A word with its labels and views."""
    marks = Marks(job)
    for a in word:
        marks.push(a)
    return marks


def bound(job):
    n = job.processes
    return "bound labels %d records %d" % (len(job.letters) * (n**3 + 1), n + 1)


def solo(job, dfa):
    word, done = weave(job)
    whole = all(done[p] == len(job.scripts[p]) for p in range(job.processes))
    status = 3 if not whole else 0 if dfa.accepts(word) else 1
    lines = [{0: "accept", 1: "reject", 3: "stuck"}[status], "fired %d" % len(word), bound(job)]
    if not whole:
        for p, script in enumerate(job.scripts):
            rest = "ended" if done[p] == len(script) else "waits " + job.name(script[done[p]])
            lines.append("process %s fired %d %s" % (job.process(p), done[p], rest))
        lines.append(" ".join(["trace"] + [job.name(a) for a in word]))
        lines.append(hope_after(dfa, word))
    return status, lines


def check(job, dfa):
    return 0, ["closed", "states %d" % len(dfa.targets), bound(job)]


def known(job, dfa, order):
    """What each process knows after the whole word, a line each."""
    word, n, lines = order.word, len(order.word), []
    for p in range(job.processes):
        entries = [order.shown(order.primary(n, p, q)) for q in range(job.processes)]
        view = dfa.walk(dfa.start, [word[i] for i in sorted(order.view(n, p))])
        lines.append(" ".join(["p%d" % p] + entries + ["view %d" % view]))
    return lines


def local_states(job, dfa):
    return 0, known(job, dfa, Order(job, weave(job)[0]))


def frozen(job, dfa, cut):
    """The frozen text of a job after so many events of its weave, or after all."""
    marks = marked(job, weave(job)[0][:cut])
    lines = ["cut %d" % len(marks.word)]
    for p in range(job.processes):
        known = [marks.known(p, q) for q in range(job.processes)]
        entries = ["-" if e is None else "%s.%d" % (job.name(marks.word[e]), marks.labels[e]) for e in known]
        view = dfa.walk(dfa.start, [marks.word[i] for i in marks.view(p)])
        count = sum(1 for a in marks.word if p in job.loc(a))
        lines.append(" ".join(["at", job.process(p), "%d" % count] + entries + ["view %d" % view]))
    return printed(job) + "".join(line + "\n" for line in lines + ["end"]).encode()


def first_other(text, own):
    """The number of the first line at which two texts differ, a line that one of them lacks among them, or None."""
    pairs = itertools.zip_longest(lines_of(text), lines_of(own))
    return next((at + 1 for at, (line, other) in enumerate(pairs) if line != other), None)


def want_own(job, dfa, text):
    """A frozen text is the one of its job and its cut."""
    own = frozen(job, dfa, job.cut)
    at = first_other(text, own)
    if at is not None:
        lines = lines_of(own)
        may = [lines[at - 1][0].decode()] if at <= len(lines) else []
        raise Refused(at, Wrong("not the frozen text", None, may), job, CUT_ENDS)


def written(job, word):
    """The number that each event of a word writes: the next reading of its least participant, and 0 past the last."""
    done, numbers = [0] * job.processes, []
    for a in word:
        p = job.loc(a)[0]
        numbers.append(job.readings[p][done[p]] if done[p] < len(job.readings[p]) else 0)
        for q in job.loc(a):
            done[q] += 1
    return numbers


def news(job):
    """What each process knows of each after the weave, a line each."""
    word, _ = weave(job)
    marks, numbers, lines = marked(job, word), written(job, word), []
    for p in range(job.processes):
        known = [marks.known(p, q) for q in range(job.processes)]
        lines.append(" ".join(["known", job.process(p)] + ["-" if e is None else "%d" % numbers[e] for e in known]))
    return lines


def answer_after(job, dfa, word, done):
    """The answer where the events are those of a word that fits the scripts maximally."""
    if any(done[p] < len(script) for p, script in enumerate(job.scripts)):
        return "stuck"
    return "accept" if dfa.accepts(word) else "reject"


def hope_after(dfa, word):
    """Whether a word can be lengthened to an accepted one."""
    return "dead" if accepted_from(dfa, dfa.walk(dfa.start, word)) is None else "alive"


class Verdict:
    """What an audit says of a claim, and what stood before the event that it names: how many events of each process, and
    the labels."""

    def __init__(self, said, done, marks, at=None):
        self.said, self.done, self.marks, self.at = said, done, marks, at


def verdict(job, dfa):
    """The verdict on the claim of an audited text, by its definition."""
    done, marks = [0] * job.processes, Marks(job)
    for at, (a, label) in enumerate(job.events):
        if not can_fire(job, done, a):
            return Verdict("bad letter %d" % at, done, marks, at)
        if label != marks.label(a):
            return Verdict("bad label %d" % at, done, marks, at)
        marks.push(a)
        for p in job.loc(a):
            done[p] += 1
    left = least_enabled(job, done)
    if left is not None:
        return Verdict("not maximal " + job.name(left), done, marks)
    defined = answer_after(job, dfa, marks.word, done)
    if job.claimed != defined:
        return Verdict("wrong answer " + defined, done, marks)
    hope = " " + hope_after(dfa, marks.word) if defined == "stuck" else ""
    return Verdict("yes" + hope, done, marks)


def audit(job, dfa):
    said = verdict(job, dfa).said
    return 0 if said.startswith("yes") else 1, ["audit " + said]


def journal(job, dfa, choose):
    """The answer and the events of a journal, where `choose` takes the next letter of those that can fire."""
    done, marks = [0] * job.processes, Marks(job)
    while True:
        ready = [a for a in range(len(job.letters)) if can_fire(job, done, a)]
        if not ready:
            events = list(zip(marks.word, marks.labels))
            return answer_after(job, dfa, marks.word, done), events
        a = choose(ready)
        marks.push(a)
        for p in job.loc(a):
            done[p] += 1


GENERATED_LETTERS = [(b"a", [0]), (b"b", [1]), (b"c", [2]), (b"d", [3])]
GENERATED_LETTERS += [(b"e", [0, 1]), (b"f", [1, 2]), (b"g", [2, 3]), (b"h", [0, 3])]
GENERATED_EVENTS = 20000


def generated_step(q, name):
    """Where a letter leads in the table of generated jobs: state 4u + v."""
    u, v = divmod(q, 4)
    v = {b"a": (v + 1) % 4, b"b": (v + 3) % 4, b"e": 0}.get(name, v)
    u = {b"c": 1 - u, b"d": 1 - u, b"g": 0}.get(name, u)
    return 4 * u + v


def generated(number):
    """The job that a number determines."""
    job, register = Job(), number
    job.processes, job.letters, job.states = 4, GENERATED_LETTERS, 8
    job.names = [b"%d" % p for p in range(job.processes)]
    job.scripts = [[] for _ in range(job.processes)]
    job.targets = {(q, a): generated_step(q, name) for q in range(8) for a, (name, _) in enumerate(job.letters)}
    q = job.start
    for _ in range(GENERATED_EVENTS):
        register = (register * 6364136223846793005 + 1442695040888963407) % 2**64
        a = (register >> 33) % 8
        q = job.targets[q, a]
        for p in job.loc(a):
            job.scripts[p].append(a)
    job.accepting = {q}
    return job


COMMANDS = {"solo": solo, "check": check, "locals": local_states}  # of a document alone
# of other texts, and those of a document with a number
READERS = {"audit": lambda text: read(text, CLAIM_ENDS), "build": read_expression, "news": read_news, "thaw": read_frozen}


def said(job, dfa, command, count, text):
    """The status and the lines of a command on what was read, whose language is closed."""
    if command == "audit":
        return audit(job, dfa)
    if command == "news":
        return 0, news(job)
    if command == "freeze":
        return 0, frozen(job, dfa, int(count)).decode().splitlines()
    if command == "thaw":
        want_own(job, dfa, text)
    if command in ("thaw", "run"):
        return solo(job, dfa)
    return COMMANDS[command](job, dfa)


def answer(words, text):
    """The status and the text of a command on what it reads: `solo`, `freeze 2`."""
    command, _, count = words.partition(" ")
    if len(text) > MOST_BYTES:
        return 9, b"refused: more than 1048576 bytes\n"
    try:
        job = READERS.get(command, read)(text)
        if command == "build":
            return 0, printed(job)
        dfa = minimal(completed(job))
        two = least_break(job, dfa)
        if two is None:
            status, lines = said(job, dfa, command, count, text)
        else:
            left, right = (" ".join(job.name(a) for a in word) for word in (two.left, two.right))
            status, lines = 5, ["not closed", "left " + left, "right " + right]
    except Refused as refused:
        return 4, ("%s\n" % refused).encode()
    return status, "".join(line + "\n" for line in lines).encode()
