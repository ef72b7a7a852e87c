#!/usr/bin/env python3
"""The pages of tools/replay: made again and compared, and opened in a browser without a window where there is one.

    checks/replay.py [--long]       --long makes pages of 300 jobs drawn at random too, for 10
    checks/replay.py --pictures DIR writes pictures of two pages at two widths, light and dark, to be looked at

In the browser keys are pressed. At each step the tables have to say of each process what `zla freeze K` writes, the text has to
name the event and its processes, and the names beside the automaton have to stand at the states of the views; the answer has
to be that of `zla solo`. Which events are thick, crossed out or marked `again`, and who hears of an event, has to be what
tools/second_reading.py says, by positions where the run is short. No page may fetch anything, fail in its script, or be wider than a
telephone. Pages of ten processes with some hundred events, one of them with more than a page shows, are made too, and stepped
through in parts; a step may not take long.
"""
import functools
import glob
import html
import json
import os
import random
import re
import statistics
import sys
import tempfile

TOP = os.path.dirname(os.path.dirname(os.path.abspath(__file__)))
sys.path[:0] = [os.path.join(TOP, "tools"), os.path.join(TOP, "checks")]
sys.dont_write_bytecode = True
import compare  # noqa: E402
from browser import Browser, found  # noqa: E402
from tools import script  # noqa: E402

os.environ.setdefault("ZLA", compare.PROGRAM)
replay = script("replay")
ask = functools.lru_cache(None)(replay.zla)


def zla(words, text):
    """The status of the program and what it writes; it is asked once."""
    return ask(tuple(words), text)


replay.zla = zla
DRAWN, DRAWN_LONG = 10, 300
MOST_BY_POSITIONS = 60  # events of a run whose pasts are found by their definition, which is slow
NARROW, WIDE = 320, 1200
MOST_MILLISECONDS = 250  # of a step, in the middle
PICTURED = ["lock", "philosophers_stuck"]
wrong = []

# what a page shows: of each process the entries and the state of its view, where its name stands beside the automaton, the text
SHOWN = """(() => {
  const bare = (cell) => cell.firstChild ? cell.firstChild.textContent.trim() : "";
  const rows = (table) => [...table.querySelectorAll("tbody tr")].map((row) => [...row.querySelectorAll("td")].map(bare));
  const rings = [...document.querySelectorAll("#rule .ring")].map((ring) => Number(ring.dataset.y));
  const nearest = (y) => rings.indexOf(rings.reduce((best, ring) => (Math.abs(ring - y) < Math.abs(best - y) ? ring : best)));
  const events = (test) => [...document.querySelectorAll(".event")].filter(test).map((group) => Number(group.dataset.step));
  const style = (group, part) => getComputedStyle(group.querySelector(part));
  return JSON.stringify({
    said: document.querySelector("#said").innerText,
    where: document.querySelector("#where").textContent,
    slider: Number(document.querySelector("#step").value),
    everyone: [...document.querySelectorAll("#everyone")].map(rows)[0] || null,
    meant: [...document.querySelectorAll("#everyone td, #participants td")].filter((cell) => cell.querySelector("small"))
      .map((cell) => [bare(cell), Number(cell.querySelector("small").textContent.replace("event ", ""))]),
    change: [...document.querySelectorAll("#participants table")].map((table) => [table.caption.textContent, rows(table)]),
    views: [...document.querySelectorAll("#rule .view")].map((name) => nearest(Number(name.getAttribute("y")))),
    later: document.querySelectorAll(".event.later").length,
    heard: events((group) => style(group, "circle").strokeWidth === "4px"),
    gone: events((group) => style(group, ".name").textDecorationLine === "line-through"),
    again: events((group) => group.querySelector(".again")?.textContent === " again"),
    who: [...document.querySelectorAll("#who li")].map((line) => line.textContent),
    answer: document.querySelector("#answer").textContent,
    scrolls: document.documentElement.scrollWidth > document.documentElement.clientWidth,
  });
})()"""
# moves the slider
SLIDE = """(() => {
  const slider = document.querySelector("#step");
  slider.value = %d;
  slider.dispatchEvent(new Event("input"));
})()"""
# how long a step takes
STEP = """(() => {
  const begin = performance.now();
  document.body.dispatchEvent(new KeyboardEvent("keydown", { key: "%s", bubbles: true }));
  document.body.getBoundingClientRect();
  return performance.now() - begin;
})()"""


def want(is_right, what):
    if not is_right:
        wrong.append(what)
    return is_right


def frozen(job, text, k):
    """Of each process its name, its entries, and the state of its view, as the program writes them."""
    lines = zla(["freeze", str(k)], text)[1].splitlines()[-job.processes - 1 : -1]
    return [(line.split()[2], line.split()[3:-2], int(line.split()[-1])) for line in lines]


def cells(entries, view):
    return ["nothing" if entry == "-" else entry for entry in entries] + ["state %d" % view]


def step_is_right(page, job, text, k, shown):
    """The step of a run against frozen texts."""
    here = "%s, step %d: " % (page, k)
    names = replay.draw.heads_of(job)
    after = frozen(job, text, k)
    before = frozen(job, text, k - 1) if k else after
    want(shown["everyone"] == [cells(entries, view) for _, entries, view in after], here + "the table is another")
    want(shown["views"][: job.processes] in ([view for _, _, view in after], []), here + "the views stand at other states")
    loc = [p for p in range(job.processes) if before[p][0] != after[p][0]]
    wanted = []
    for p in loc:
        rows = zip(cells(*before[p][1:]), cells(*after[p][1:]))
        wanted.append(["What %s knows, before and after" % names[p], [list(row) for row in rows]])
    got = [[caption, [row[:2] for row in rows]] for caption, rows in shown["change"]]
    want(got == wanted, here + "the tables of the participants are others")
    for name, number in shown["meant"]:
        at, was = ([known[1] for known in frozen(job, text, i)] for i in (number, number - 1))
        fired = [at[p][p] for p in range(job.processes) if at[p] != was[p]]
        want(number <= k and fired[:1] == [name], here + "%s isn't event %d" % (name, number))
    if k == 0:
        want(shown["said"].startswith("Before the first event"), here + "the text is of another step")
    else:
        told = shown["said"].splitlines()[0]
        own = after[loc[0]][1][loc[0]]
        want(told.startswith("Event %d of " % k) and ": %s, " % own in told, here + "the text is of another event: " + told)
        want(all(names[p] in told for p in loc), here + "the text doesn't name the participants: " + told)
        now = shown["said"].split("\n\n")
        want(any("state %d" % after[loc[0]][2] in line for line in now), here + "the text doesn't say the state of the view")


class Story:
    """What the second reading says of a run: its events, counted from 1, with their names and pasts."""

    def __init__(self, job):
        self.job = job
        word, second = replay.second_reading.weave(job)[0], replay.second_reading
        self.locs = [[]] + [job.loc(a) for a in word]
        if len(word) <= MOST_BY_POSITIONS:
            order = second.Order(job, word)
            labels, pasts = order.labels, order.pasts
        else:
            marks = second.marked(job, word)
            labels = marks.labels
            pasts = [{i for i, a in enumerate(word) if past[job.loc(a)[0]] >= i} for past in marks.pasts]
        self.names = [""] + ["%s.%d" % (job.name(a), label) for a, label in zip(word, labels)]
        self.pasts = [set()] + [{i + 1 for i in past} for past in pasts]

    def last(self, p, k):
        """The last event of a process among the first k, or 0."""
        return max((e for e in range(1, k + 1) if p in self.locs[e]), default=0)

    @functools.lru_cache(None)
    def latest(self, e):
        """The latest event of each process in the past of an event."""
        return {max((f for f in self.pasts[e] if q in self.locs[f]), default=0) for q in range(self.job.processes)} - {0}

    @functools.lru_cache(None)
    def gone(self, k):
        """The events among the first k that nobody has as latest news of a process, at first or second hand."""
        first = {e for p in range(self.job.processes) for e in self.latest(self.last(p, k))}
        return [e for e in range(1, k + 1) if not any(e in self.latest(f) for f in first)]

    def earlier(self, e):
        """The last event before one that has its name, or 0."""
        return max((f for f in range(1, e) if self.names[f] == self.names[e]), default=0)

    def hears(self, p, e, last):
        """How a process hears of an event in the first so many: where, at which event, and from whom; or never."""
        if p in self.locs[e]:
            return "at event %d itself" % e
        later = [f for f in range(e + 1, last + 1) if p in self.locs[f]]
        first = next((f for f in later if e in self.pasts[f]), None)
        if first is None and last < len(self.names) - 1:
            return "not yet where this page ends"
        if first is None:
            return "never; nobody met later has heard of it" if later else "never; no later event is theirs"
        tellers = [q for q in self.locs[first] if e in self.pasts[self.last(q, first - 1)]]
        names = replay.listed((replay.draw.heads_of(self.job)[q] for q in tellers), "or")
        return "at event %d, %s, from %s" % (first, self.names[first], names)


def who_is_right(here, story, e, last, lines):
    """The lines that say who hears of an event."""
    told = {}
    for line in lines:
        who, _, how = line.rstrip(".").partition(": ")
        for name in re.split(", | and ", who):
            told.setdefault(name.replace("Process ", "process "), []).append(re.sub("(?<= itself),.*", "", how))
    heads = replay.draw.heads_of(story.job) if e else []
    want(told == {head: [story.hears(p, e, last)] for p, head in enumerate(heads)}, here + "others hear of it: %s" % lines)


def marks_are_right(page, story, k, last, shown):
    """The marks of a step, and who hears of its event."""
    here = "%s, step %d: " % (page, k)
    want(shown["heard"] == sorted(story.pasts[k]), here + "other events are heard of: %s" % shown["heard"])
    want(shown["gone"] == story.gone(k), here + "other events are crossed out: %s" % shown["gone"])
    want(shown["again"] == [e for e in range(1, last + 1) if story.earlier(e)], here + "others are marked: %s" % shown["again"])
    who_is_right(here, story, k, last, shown["who"])
    earlier, again = story.earlier(k), []
    if earlier:
        left = next(i for i in range(earlier, k) if earlier in story.gone(i))
        again = [(str(earlier), story.names[k], str(left))]
    said = re.findall(r"used again: event (\d+) was (\S+) too, and left circulation at event (\d+)\.", shown["said"])
    want(said == again, here + "the text has another label that is used again: %s" % said)


def words_are_right(page, words, k, last, shown):
    """The step of two words that nobody can tell apart, of which one is accepted."""
    here = "%s, step %d: " % (page, k)
    said = shown["said"].split("\n\n")[1:]
    for side, word, view, told in zip(["left word", "right word"], words, shown["views"], said):
        begin = "%s: %s state %d" % (side, word[k - 1] + " leads to" if k else "begins in", view)
        want(told.startswith(begin), here + "the text of the %s is another: %s" % (side, told))
    if k == last:
        want(len(said) == 2 and sum("not accepted" in told for told in said) == 1, here + "not one of the words is accepted")


def step_through(browser, page, text, parts=()):
    """A page by keys, forward to its end, and back; how many steps were compared. Of a long run parts are stepped through, from one step
    to another; the slider leads to where a part begins."""
    job = replay.second_reading.read(text)
    status, answer = zla(["solo"], text)
    words = [line.split()[1:] for line in answer.splitlines()[1:]] if status == replay.NOT_CLOSED else None
    last = len(words[0]) if words else int(answer.splitlines()[1].split()[1])
    last = min(last, replay.MOST_EVENTS)
    story, count = None if words else Story(job), 0

    def look():
        return json.loads(browser.value(SHOWN))

    for first, end in parts or [(0, last)]:
        browser.value(SLIDE % first) if first else browser.press("Home")
        for k in range(first, end + 1):
            shown = look()
            is_here = shown["where"] == "step %d of %d" % (k, last) and shown["slider"] == k
            want(is_here, "%s: keys lead to %s, and not to step %d" % (page, shown["where"], k))
            want(shown["later"] == (2 if words else 1) * (last - k), "%s, step %d: other events are still to come" % (page, k))
            if words:
                words_are_right(page, words, k, last, shown)
            else:
                step_is_right(page, job, text, k, shown)
                marks_are_right(page, story, k, last, shown)
            browser.press("ArrowRight")
            count += 1
    shown = look()
    want(shown["slider"] == last, page + ": the last step isn't the last")
    want(shown["answer"] == answer, page + ": the answer is another")
    browser.press("ArrowLeft")
    want(look()["slider"] == max(0, last - 1), page + ": there is no way back by keys")
    browser.press("End")
    want(look()["slider"] == last, page + ": there is no way to the end by keys")
    browser.value("document.querySelector('#step').focus()")
    browser.press("Home")
    browser.press("ArrowRight")
    want(look()["slider"] == min(1, last) and look()["where"].startswith("step %d of" % min(1, last)), page + ": the slider isn't followed")
    want(not browser.faults, "%s: the script fails: %s" % (page, browser.faults))
    return count


def linked():
    """The gallery and the page of a job link the page on which its run can be watched."""
    for path in glob.glob(os.path.join(TOP, "examples", "*.html")):
        name = os.path.basename(path)
        for document in ("README.md", name[: -len(".html")] + ".md"):
            with open(os.path.join(TOP, "examples", document), encoding="utf-8") as file:
                want("](%s)" % name in file.read(), "examples/%s doesn't link %s" % (document, name))


def jobs():
    for path in sorted(glob.glob(os.path.join(TOP, "examples", "*.html"))):
        with open(path[: -len(".html")] + ".zla", "rb") as file:
            yield path, file.read()


def crowd(events):
    """A job of ten processes with so many events, drawn by their number: each letter has one to three processes and turns a counter."""
    draw = random.Random(events)
    names = ["p%d" % p for p in range(10)]
    locs = [sorted(draw.sample(range(10), draw.choice([1, 2, 2, 3]))) for _ in range(14)]
    word = [draw.randrange(len(locs)) for _ in range(events)]
    lines = ["zla 2", "processes " + " ".join(names)]
    lines += ["letter l%d %s" % (a, " ".join(names[p] for p in loc)) for a, loc in enumerate(locs)]
    lines += ["states 5", "start 0", "accept 0 1 2"]
    lines += ["row %d l%d %d" % (q, a, (q + a) % 5) for q in range(5) for a in range(len(locs))]
    scripts = [[a for a in word if p in locs[a]] for p in range(10)]
    lines += ["script p%d %s" % (p, " ".join("l%d" % a for a in script)) for p, script in enumerate(scripts) if script]
    return "\n".join(lines + ["end", ""]).encode()


# how many events, and the steps that are looked at in a browser
CROWDS = [(300, [(0, 15), (140, 150), (280, 300)]), (600, [(0, 10), (245, 260), (480, 500)])]


def long_pages():
    """Pages of ten processes and long runs: the name, the page, the job, and the steps to look at."""
    for events, parts in CROWDS:
        text = crowd(events)
        name, made = "crowd of %d events" % events, replay.page(text, "crowd")
        job, last = replay.second_reading.read(text), min(events, replay.MOST_EVENTS)
        cut = "The run has %d events: the page shows the first %d." % (events, replay.MOST_EVENTS)
        want((cut in made) == (events > last), name + ": the page doesn't say how many events it shows")
        want(made.count('<g class="event"') == last, name + ": the chart has other events")
        texts_are_right(name, job, made, last)
        yield name, made, text, parts


def texts_are_right(name, job, made, last):
    """Who hears of each event, as the text of a page says it."""
    story, steps = Story(job), re.findall(r'<ul class="who">(.*?)</ul>', made)
    want(len(steps) == last + 1, name + ": there are other steps")
    for e, step in enumerate(steps):
        lines = [html.unescape(re.sub("<[^>]*>", "", line)) for line in re.findall("<li>(.*?)</li>", step)]
        who_is_right("%s, step %d: " % (name, e), story, e, last, lines)


def opened_long(browser, made):
    """The long pages in a browser; how many steps were compared."""
    steps = 0
    for name, source, text, parts in made:
        with tempfile.NamedTemporaryFile("w", suffix=".html", encoding="utf-8") as file:
            file.write(source)
            file.flush()
            browser.open("file://" + file.name, WIDE)
            steps += step_through(browser, name, text, parts)
            browser.value(SLIDE % 200)
            spent = statistics.median(browser.value(STEP % key) for key in ["ArrowRight", "ArrowLeft"] * 10)
            want(spent < MOST_MILLISECONDS, "%s: a step takes %d milliseconds" % (name, spent))
            browser.open("file://" + file.name + "#200", NARROW, 640)
            want(not json.loads(browser.value(SHOWN))["scrolls"], name + ": it is wider than a telephone")
    return steps


def opened(program, long):
    """Every page of the gallery in a browser, and the long ones."""
    browser, pages, steps = Browser(program), 0, 0
    try:
        for path, text in jobs():
            page = os.path.basename(path)
            browser.open("file://" + path, WIDE)
            steps += step_through(browser, page, text)
            want(not browser.value("performance.getEntriesByType('resource').length"), page + ": something is fetched")
            browser.open("file://" + path + "#1", NARROW, 640)
            shown = json.loads(browser.value(SHOWN))
            want(not shown["scrolls"], page + ": it is wider than a telephone")
            want(shown["where"].startswith("step 1 "), page + ": its address doesn't name the step")
            pages += 1
        steps += opened_long(browser, long)
        pages += len(long)
    finally:
        browser.close()
    return "%d opened in a browser, with %d steps" % (pages, steps)


def drawn(count):
    """Pages of jobs drawn at random are made."""
    made = 0
    for number in range(count):
        text = compare.drawn(number)
        text = text if number % 2 else compare.named(text)
        try:
            page = replay.page(text, "drawn")
            made += 1
        except replay.Unfit as fault:
            want(False, "the job drawn by %d has no page: %s" % (number, fault))
            continue
        status, answer = zla(["solo"], text)
        if status != replay.NOT_CLOSED:
            last = int(answer.splitlines()[1].split()[1])
            texts_are_right("the job drawn by %d" % number, replay.second_reading.read(text), page, last)
    return "%d of drawn jobs made" % made


def pictures(folder):
    browser = Browser(found())
    for name in PICTURED:
        for width in (NARROW, WIDE):
            for is_dark in (False, True):
                browser.open("file://%s#%d" % (os.path.join(TOP, "examples", name + ".html"), 4), width, 900, is_dark)
                browser.picture(os.path.join(folder, "%s.%d.%s.png" % (name, width, "dark" if is_dark else "light")))
    browser.close()


def main():
    if sys.argv[1:2] == ["--pictures"]:
        return pictures(sys.argv[2])
    if not os.access(os.environ["ZLA"], os.X_OK):
        sys.exit("replay: there is no program; ./zla builds it")
    try:
        failed = replay.keep_gallery(True)
    except replay.Unfit as fault:
        print("replay: %s" % fault)
        return 1
    linked()
    told = [drawn(DRAWN_LONG if sys.argv[1:] == ["--long"] else DRAWN)]
    long = list(long_pages())
    told.append("%d of long runs" % len(long))
    program = found()
    told.append(opened(program, long) if program else "not opened: no chromium")
    for line in wrong[:20]:
        print("replay: " + line)
    print("replay: pages %s, %d wrong" % ("; ".join(told), len(wrong)))
    return 1 if failed or wrong else 0


if __name__ == "__main__":
    sys.exit(main())
