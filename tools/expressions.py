"""Expressions, for tools/second_reading.py: read by the grammar of docs/FORMATS.md, and made into a table by position values.
Unproved, and written from the definitions in words: what may follow an occurrence of a letter is kept as the expressions that
are left to be done (the partial derivatives of Antimirov 1996), and no first, last or following occurrences are computed.

An occurrence is the place of a letter among the words of the expression, from 0 on.
"""
from typing import Dict, FrozenSet, Iterator, List, NamedTuple, Optional, Tuple

SIGNS = [b"1", b"(", b")", b"{", b"}", b"|", b"*", b"&", b"!"]
Tree = tuple  # ("one",), ("letter", place), ("cat", tree..), ("bar", tree..), ("star", tree)
Rests = FrozenSet[Tuple[Optional[int], Tree]]  # the last occurrence, and what is left after it
ONE: Tree = ("one",)


class NoForm(Exception):
    """The words up to a place begin a form, and those up to the next one don't; what may stand there instead."""

    def __init__(self, at: int, may: List[str]):
        super().__init__("word %d" % at)
        self.at, self.may = at, may


class Expression(NamedTuple):
    """A form over its maximal plain parts: ("plain", number), ("not", form) or ("and", form..)."""

    form: tuple
    parts: List[Tree]


class Reader:
    """Reads words from left to right by the grammar."""

    def __init__(self, words: List[bytes]):
        self.words, self.at = words, 0
        self.opened: List[bytes] = []  # the parentheses and braces that aren't closed
        self.parts: List[Tree] = []

    def next(self) -> Optional[bytes]:
        return self.words[self.at] if self.at < len(self.words) else None

    def takes(self, sign: bytes) -> bool:
        """Whether this sign is the next word, which is then read."""
        if self.next() != sign:
            return False
        self.at += 1
        return True

    def begins_atom(self) -> bool:
        word = self.next()
        return word is not None and (word in (b"1", b"(") or word not in SIGNS)

    def after_whole(self) -> List[str]:
        """What may follow what was read, which is whole but for what is still open."""
        inside = self.opened[-1] if self.opened else None
        ends = {b"(": ["`)`"], b"{": ["`&`", "`}`"], None: ["`&`", "the end of the line"]}[inside]
        if self.words[self.at - 1] == b"}":
            return ends
        return ["a letter", "`1`", "`(`", "`*`", "`|`"] + ends

    def closes(self, sign: bytes) -> None:
        if not self.takes(sign):
            raise NoForm(self.at, self.after_whole())
        self.opened.pop()

    def form(self) -> tuple:
        forms = [self.unary()]
        while self.takes(b"&"):
            forms.append(self.unary())
        return forms[0] if len(forms) == 1 else ("and", *forms)

    def unary(self) -> tuple:
        if self.takes(b"!"):
            return ("not", self.unary())
        if self.takes(b"{"):
            self.opened.append(b"{")
            form = self.form()
            self.closes(b"}")
            return form
        if not self.begins_atom():
            raise NoForm(self.at, ["a letter", "`1`", "`(`", "`!`", "`{`"])
        self.parts.append(self.plain())
        return ("plain", len(self.parts) - 1)

    def plain(self) -> Tree:
        cats = [self.cat()]
        while self.takes(b"|"):
            cats.append(self.cat())
        return cats[0] if len(cats) == 1 else ("bar", *cats)

    def cat(self) -> Tree:
        items = [self.item()]
        while self.begins_atom():
            items.append(self.item())
        return joined(items)

    def item(self) -> Tree:
        tree = self.atom()
        while self.takes(b"*"):
            tree = ("star", tree)
        return tree

    def atom(self) -> Tree:
        if self.takes(b"1"):
            return ONE
        if self.takes(b"("):
            self.opened.append(b"(")
            tree = self.plain()
            self.closes(b")")
            return tree
        if not self.begins_atom():
            raise NoForm(self.at, ["a letter", "`1`", "`(`"])
        self.at += 1
        return ("letter", self.at - 1)


def joined(trees: List[Tree]) -> Tree:
    """One after the other."""
    parts: List[Tree] = []
    for tree in trees:
        parts += tree[1:] if tree[0] == "cat" else [] if tree == ONE else [tree]
    return ONE if not parts else parts[0] if len(parts) == 1 else ("cat", *parts)


def parsed(words: List[bytes]) -> Expression:
    reader = Reader(words)
    form = reader.form()
    if reader.next() is not None:
        raise NoForm(reader.at, reader.after_whole())
    return Expression(form, reader.parts)


def may_be_over(tree: Tree) -> bool:
    """Whether the empty word is one of the tree's words."""
    kind = tree[0]
    if kind in ("one", "star"):
        return True
    if kind == "letter":
        return False
    return (all if kind == "cat" else any)(may_be_over(part) for part in tree[1:])


def beginnings(tree: Tree) -> Iterator[Tuple[int, Tree]]:
    """Each occurrence that a marked word of the tree may begin with, with a tree of what is left after it."""
    kind = tree[0]
    if kind == "letter":
        yield tree[1], ONE
    elif kind == "bar":
        for part in tree[1:]:
            yield from beginnings(part)
    elif kind == "star":
        for place, rest in beginnings(tree[1]):
            yield place, joined([rest, tree])
    elif kind == "cat":
        after = joined(list(tree[2:]))
        for place, rest in beginnings(tree[1]):
            yield place, joined([rest, after])
        if may_be_over(tree[1]):
            yield from beginnings(after)


class Table(NamedTuple):
    """The states are the position values: of each its occurrences, none for the first, which is the start."""

    values: List[Optional[FrozenSet[int]]]
    accepting: List[bool]
    targets: List[List[int]]


def is_in(form: tuple, rests: Tuple[Rests, ...]) -> bool:
    """Whether a word is in the form's meaning, by what is left of each plain part after it."""
    if form[0] == "plain":
        return any(may_be_over(rest) for _, rest in rests[form[1]])
    if form[0] == "not":
        return not is_in(form[1], rests)
    return all(is_in(part, rests) for part in form[1:])


def table(expression: Expression, letter_at: Dict[int, int], letters: int, most: int) -> Optional[Table]:
    """The table over so many letters, where each occurrence is one of them; none where there are more values than these."""
    start = tuple(frozenset([(None, part)]) for part in expression.parts)
    queue: List[Tuple[Rests, ...]] = [start]
    values: List[Optional[FrozenSet[int]]] = [None]
    numbers: Dict[FrozenSet[int], int] = {}
    targets: List[List[int]] = []
    for rests in queue:  # which grows: so the states come by their shortlex-least words
        after: List[List[set]] = [[set() for _ in rests] for _ in range(letters)]
        for i, part in enumerate(rests):
            for _, rest in part:
                for place, left in beginnings(rest):
                    after[letter_at[place]][i].add((place, left))
        targets.append([])
        for parts in after:
            value = frozenset(place for part in parts for place, _ in part)
            if value not in numbers:
                if len(queue) == most:
                    return None
                numbers[value] = len(queue)
                queue.append(tuple(map(frozenset, parts)))
                values.append(value)
            targets[-1].append(numbers[value])
    return Table(values, [is_in(expression.form, rests) for rests in queue], targets)
