#!/usr/bin/env python3
"""Links and names in documents: each link leads to a file and a heading that are there, and each file that a document
names, as `docs/..`, `tools/..`, `examples/..`, `checks/..` or `crates/..`, is there too.
"""
import glob
import os
import re
import sys

TOP = os.path.dirname(os.path.dirname(os.path.abspath(__file__)))
LINK = re.compile(r"\]\(([^)#\s]*)(#[^)\s]*)?\)")
NAMED = re.compile(r"`((?:docs|tools|examples|checks|crates)/[\w./-]*[\w/])(?=[` ])")
CODE = re.compile(r"^```.*?^```$", re.M | re.S)
# names that stand for others, and the crate that docs/LIBRARY.md makes
STAND_INS = re.compile(r"[A-Z]{4,}$|crates/(NAME|runs)\b")


def anchors(text):
    """The anchors of a document's headings."""
    heads = re.findall(r"^#+ (.*)$", CODE.sub("", text), re.M)
    return {"#" + re.sub(r"[^\w\- ]", "", head.lower()).replace(" ", "-") for head in heads}


def wrong_in(name):
    """What is wrong in a document."""
    with open(os.path.join(TOP, name), encoding="utf-8") as file:
        text = file.read()
    prose = CODE.sub("", text)
    for to, anchor in LINK.findall(prose):
        if "://" in to:
            continue
        path = os.path.normpath(os.path.join(TOP, os.path.dirname(name), to)) if to else os.path.join(TOP, name)
        if not os.path.exists(path):
            yield "it links to %s, which isn't there" % to
        elif anchor:
            with open(path, encoding="utf-8") as file:
                if anchor not in anchors(file.read()):
                    yield "it links to %s%s, and there is no such heading" % (to, anchor)
    for path in NAMED.findall(prose):
        if not STAND_INS.search(path) and not os.path.exists(os.path.join(TOP, path)):
            yield "it names %s, which isn't there" % path


def main():
    pages = sorted(glob.glob(os.path.join(TOP, "docs", "*.md")) + glob.glob(os.path.join(TOP, "examples", "*.md")))
    names = ["README.md"] + [os.path.relpath(page, TOP) for page in pages]
    wrong = ["%s: %s" % (name, what) for name in names for what in wrong_in(name)]
    for line in wrong:
        print("links: " + line)
    print("links: %d documents, %d wrong" % (len(names), len(wrong)))
    return 1 if wrong else 0


if __name__ == "__main__":
    sys.exit(main())
