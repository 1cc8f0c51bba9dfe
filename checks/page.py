#!/usr/bin/env python3
"""Tries contrib/m17-page on what a reflector would write.

usage: page.py scene SCRIPT README   what the page says of modules, members, talkers, ends and restarts
       page.py board SCRIPT README   the same by a board, with books and without
       page.py forms SCRIPT README   /, /status.json and /metrics by their forms, and the table of README
       page.py shows PORT TEXT       waits until a line of the status is TEXT
"""

import fcntl
import html.parser
import os
import re
import sys
import time

sys.dont_write_bytecode = True
from page_scene import BUSY, STOPPED, TIMED_OUT, Page, Scene, Talker  # noqa: E402
from starved import tried  # noqa: E402

# What may stand in a page that needs nothing else, and has no script and no style in itself.
TAGS = set(
    "html head meta noscript title link script body a header div img p h1 h2 h3 h4 span time main section dl dt dd ul li article "
    "strong b table caption thead tbody tr th td abbr footer nav".split()
)
ATTRIBUTES = set(
    "lang data-still charset name content http-equiv href rel type src defer alt width height class id role aria-labelledby "
    "aria-label datetime data-old hidden scope title colspan tabindex".split()
)
VOID = {"meta", "link", "img"}
# So often what a slow page can miss is tried.
TRIES = 5
SAMPLE = re.compile(r'(m17_[a-z_]+)(?:\{((?:[a-z_]+="[^"\\\n]*",?)+)\})? (-?[0-9.]+(?:e[+-]?[0-9]+)?)')


class Strict(html.parser.HTMLParser):
    """Holds a page to what may stand in it, and keeps its text and ids."""

    def __init__(self, text):
        super().__init__()
        self.open, self.wrong, self.text, self.ids, self.named = [], [], [], [], []
        self.feed(text)
        self.close()
        self.wrong += self.open + [each for each in self.named if each not in self.ids]
        if len(set(self.ids)) != len(self.ids):
            self.wrong.append("ids that stand twice")

    def handle_starttag(self, tag, attrs):
        told = dict(attrs)
        if tag not in TAGS or set(told) - ATTRIBUTES or re.match("[a-z]*:|//", told.get("href", told.get("src", "")) or ""):
            self.wrong.append((tag, attrs))
        self.ids += [told["id"]] if "id" in told else []
        self.named += told.get("aria-labelledby", "").split()
        if tag not in VOID:
            self.open.append(tag)

    def handle_endtag(self, tag):
        if not self.open or self.open.pop() != tag:
            self.wrong.append(("end", tag))

    def handle_data(self, data):
        self.text.append(data)
        if self.open[-1:] == ["script"] and data.strip():
            self.wrong.append(data)


def lines_of(status):
    """What a status says, as lines."""
    yield f"run {status['run']['state']}"
    yield f"data {status['data']['state']}"
    for module in status["modules"]:
        letter, by = module["module"], module["by"]
        yield " ".join(filter(None, (letter, module["state"], module["talker"], by and f"by {by}")))
        for member in module["members"] or ():
            yield f"{letter} member {member['callsign']}" + " listens" * member["listens"]
    for each in status["heard"]:
        yield f"heard {each['callsign']} {each['module']} {each['ended']}"


def awaits(page, *texts):
    """Waits until all these lines stand in the status."""
    last = []

    def is_so():
        last[:] = lines_of(page.status())
        return all(any(line == text or line.startswith(f"{text} by ") for line in last) for text in texts)

    try:
        page.awaits(is_so, texts)
    except AssertionError:
        print("\n".join(last))
        raise


def talks(page, scene, letter, place, call, *texts, stream=0x1234):
    """Somebody talks until the status has these lines. It says the number of the next frame."""
    with Talker(lambda number: scene.say(letter, place, call, number % 0x7FFF, stream)) as talker:
        awaits(page, *texts)
    return talker.number


def falls_silent(page, say, talking, silent, quiet):
    """Somebody talks and stops without an end, until both lines have stood there: once more where the page was asked so late that
    it had the second one no more."""
    for _ in range(TRIES):
        with Talker(say):
            awaits(page, talking)
        if silent in page.awaits(lambda: {silent, quiet} & set(lines_of(page.status())), f"{silent} or {quiet}"):
            return
    raise AssertionError(f"there never was {silent}")


def is_lockable(path):
    with open(path, "a", encoding="ascii") as file:
        try:
            fcntl.flock(file, fcntl.LOCK_EX | fcntl.LOCK_NB)
            return True
        except OSError:
            return False


def talk_scene(page, first):
    """Each end of an over: let go, silent, timed out, left; and who is in."""
    first.join("A", 0, "AB1CD")
    first.join("A", 1, "N0CALL", 1)
    first.join("B", 2, "HOTSPOT")
    awaits(page, "run runs", "data whole", "A quiet", "A member AB1CD", "A member N0CALL listens", "B member HOTSPOT")
    number = talks(page, first, "A", 0, "AB1CD", "A talks AB1CD by AB1CD", "B quiet", "heard AB1CD A None")
    first.say("A", 0, "AB1CD", number, is_last=True)
    awaits(page, "A quiet", "heard AB1CD A let go")
    falls_silent(page, lambda number: first.say("B", 2, "W1XYZ", number), "B talks W1XYZ by HOTSPOT", "B silent W1XYZ by HOTSPOT",
                 "B quiet")
    awaits(page, "heard W1XYZ B silent")
    number = talks(page, first, "A", 0, "AB1CD", "A talks AB1CD by AB1CD", stream=2)
    first.say("A", 0, "AB1CD", number, 2, verdict=TIMED_OUT)
    awaits(page, "A quiet", "heard AB1CD A timed out")
    talks(page, first, "B", 2, "HOTSPOT", "B talks HOTSPOT by HOTSPOT", stream=3)
    first.leave("B", 2)
    awaits(page, "B quiet", "heard HOTSPOT B left")
    told = page.status()
    assert [module["parrot"] for module in told["modules"]] == [False, True] and told["name"] == "M17-TST", told
    assert "B member HOTSPOT" not in list(lines_of(told)), told


def told_of(page, name):
    return [module[name] for module in page.status()["modules"]]


def says_missed():
    with open("said", "w", encoding="ascii") as said:
        said.write("A admitted 3 missed 7\nB admitted 3 missed 0\n")


def stop_scene(page, folder):
    """One that is stopped lets all go before it ends."""
    stopped = Scene(folder, "AB")
    os.symlink(folder, "next")
    os.rename("next", "now")
    stopped.join("B", 7, "OE1ZZZ")
    talks(page, stopped, "B", 7, "OE1ZZZ", "run runs", "B talks OE1ZZZ by OE1ZZZ")
    stopped.leave("B", 7, STOPPED)
    stopped.end()
    awaits(page, "run ended", "B quiet", "heard OE1ZZZ B stopped")


def restart_scene(page, first):
    """The lock is read and never taken; the run ends; another one begins where the link leads to then."""
    assert not is_lockable("one/lock")
    started = page.status()["run"]["start"]
    talks(page, first, "A", 0, "AB1CD", "A talks AB1CD by AB1CD", stream=4)
    assert told_of(page, "missed") == [None, None]
    first.end()
    awaits(page, "run ended", "A quiet", "heard AB1CD A silent")
    # What stands there yet is said by a run before.
    assert told_of(page, "missed") == [None, None] and told_of(page, "members") == [[], []]
    says_missed()
    page.awaits(lambda: told_of(page, "missed") == [7, 0], "word of the frames that it missed")
    for _ in range(150):
        assert is_lockable("one/lock"), "the page has the lock"
        time.sleep(0.01)
    second = Scene("two", "AC")
    os.symlink("two", "next")
    os.rename("next", "now")
    awaits(page, "run runs", "C quiet", "heard AB1CD A silent", "heard W1XYZ B silent")
    told = page.status()
    assert [module["module"] for module in told["modules"]] == ["A", "C"] and told["run"]["start"] > started, told
    anew_in_talk(page, second)


def anew_in_talk(page, run):
    """In the same folder, while somebody talks, and by a program that locks nothing, of which the records tell; a page that hears
    of it seconds later has the talk as silent."""
    for _ in range(TRIES):
        run.join("C", 5, "PA3GHI")
        talks(page, run, "C", 5, "PA3GHI", "C talks PA3GHI by PA3GHI")
        run.end()
        os.remove("two/lock")
        again = Scene("two", "AC", is_locked=False)
        awaits(page, "run ended", "C quiet", "A quiet")
        again.join("C", 5, "PA3GHI")
        awaits(page, "run unknown", "C member PA3GHI")
        ended = page.awaits(lambda: page.status()["heard"][0]["ended"], "an end of the talk")
        if ended == "restart":
            return
        assert ended == "silent", ended
        run = Scene("two", "AC")
        awaits(page, "run runs")
    raise AssertionError("no talk ended by a restart")


def scene(script, _readme):
    says_missed()
    os.utime("said", (1000, 1000))
    page = Page(script, "now", "--call", "M17-TST", "--parrots", "BC", "--said", "said")
    awaits(page, "run unknown", "data no folder")
    first = Scene("one", "AB")
    os.symlink("one", "now")
    talk_scene(page, first)
    restart_scene(page, first)
    stop_scene(page, "three")
    # By another name for the folder that goes away.
    os.remove("now")
    awaits(page, "data no folder")
    page.close()


def tells(scene, call):
    """Says on the board that this one talks, each time with one packet more than ever before."""
    def tell(_number):
        scene.told += 1
        scene.tell("A", scene.told, scene.told, call)

    return tell


def board(script, _readme):
    """A board tells of a talker before the books do; alone it tells who talks."""
    first = Scene("kept", "A", has_board=True)
    page = Page(script, "kept")
    first.join("A", 0, "AB1CD")
    awaits(page, "A quiet", "A member AB1CD")
    falls_silent(page, tells(first, "N0CALL"), "A talks N0CALL", "A silent N0CALL", "A quiet")
    # The book has records as well, and its word counts of those who were heard.
    for number in range(60):
        first.say("A", 0, "AB1CD", number)
    awaits(page, "heard AB1CD A silent")
    page.close()
    os.mkdir("alone")
    lone = Scene("alone", "", is_locked=False, has_board=True)
    page = Page(script, "alone")
    awaits(page, "data empty")
    falls_silent(page, tells(lone, "N0CALL"), "A talks N0CALL", "A silent N0CALL", "A quiet")
    assert page.module("A")["members"] is None and page.module("A")["records"] > 1
    assert "The board doesn’t tell who was heard." in page.asks("/")[2].decode("utf-8")
    with Talker(tells(lone, '<b>&"')):
        awaits(page, 'A talks <b>&"')
        text = page.asks("/")[2].decode("utf-8")
    assert "&lt;b&gt;&amp;&quot;" in text and "<b>&" not in text
    page.close()


def keys_of(value, path=""):
    """The names in a status, as `modules[].members[].since`."""
    if isinstance(value, list):
        for each in value:
            yield from keys_of(each, path + "[]")
    elif isinstance(value, dict):
        for key, each in value.items():
            name = f"{path}.{key}" if path else key
            yield name
            if key != "verdicts":
                yield from keys_of(each, name)


def samples_of(text):
    """The samples of figures in the text form of Prometheus, each of a name that has a HELP and a TYPE before it."""
    helped, typed, found = set(), {}, {}
    assert text.endswith("\n")
    for line in text.splitlines():
        words = line.split(" ", 3)
        if line.startswith("# HELP "):
            assert words[2] not in helped and len(words) == 4, line
            helped.add(words[2])
        elif line.startswith("# TYPE "):
            assert words[2] in helped and words[2] not in typed and words[3] in ("gauge", "counter"), line
            assert words[2].endswith("_total") == (words[3] == "counter"), line
            typed[words[2]] = words[3]
        else:
            told = SAMPLE.fullmatch(line)
            assert told and told[1] == list(typed)[-1] and (told[1], told[2]) not in found, line
            found[told[1], told[2]] = float(told[3])
    return found


def forms(script, readme):
    kept = Scene("kept", "AB", ago=100)
    kept.join("A", 0, "AB1CD", moment=10)
    kept.join("A", 1, "N0CALL", 1, moment=20)
    kept.talk("A", 0, "AB1CD", 1000, 25)
    kept.say("A", 1, "N0CALL", 1, moment=90_000, verdict=BUSY)
    page = Page(script, "kept", "--call", "<i>&", "--name", "m17.example")
    awaits(page, "run runs", "heard AB1CD A let go")
    code, fields, body = page.asks("/", "m17.example:8443")
    strict = Strict(body.decode("utf-8"))
    assert code == 200 and not strict.wrong, strict.wrong
    refresh = b'http-equiv="refresh"'
    policy = fields["Content-Security-Policy"]
    assert "default-src 'none'" in policy and "unsafe" not in policy, policy
    assert fields["Cache-Control"] == "no-store" and "<i>&" in strict.text and "N0CALL" in strict.text
    assert refresh in body and refresh not in page.asks("/?still")[2]
    for asset in ("page.css", "page.js", "icon.svg"):
        assert page.asks(f"/{asset}")[0] == 200, asset
    assert page.asks("/", method="HEAD")[2] == b""
    length = "Content-Length"
    page.awaits(lambda: page.asks("/", method="HEAD")[1][length] == str(len(page.asks("/")[2])), "a head of that length")
    told = page.status()
    with open(readme, encoding="utf-8") as text:
        table = text.read().split("## Data and figures")[1].split("`/metrics` has")[0]
    table = set(re.findall(r"^\| `([a-z_.\[\]]+)` \|", table, re.M))
    keys = set(keys_of(told))
    assert keys == table, (keys - table, table - keys)
    assert told["form"] == 1 and told["modules"][0]["verdicts"]["busy"] == 1 and told["modules"][0]["admitted"] == 25, told
    assert 99 <= told["run"]["seconds"] <= kept.moment() / 1000 + 1 and told["heard"][0]["seconds"] == 1.0, told
    figures(page, told, kept)
    page.close()


def figures(page, told, kept):
    """The figures are those of the status."""
    code, fields, body = page.asks("/metrics")
    assert code == 200 and fields["Content-Type"].startswith("text/plain; version=0.0.4"), fields
    found = samples_of(body.decode("ascii"))
    assert found["m17_up", None] == 1 and found["m17_members", 'module="A",listens_only="yes"'] == 1, found
    assert found["m17_packets_total", 'module="A",verdict="opened"'] == 1, found
    assert found["m17_admitted_total", 'module="A"'] == 25, found
    assert found["m17_book_bytes", 'module="A"'] == told["modules"][0]["bytes"] == os.path.getsize("kept/A.book"), found
    assert found["m17_talkers", 'module="B"'] == 0 and 99 <= found["m17_run_seconds", None] <= kept.moment() / 1000 + 1, found
    with open("figures", "wb") as out:
        out.write(body)


def shows(port, text):
    """Waits until a line of the status is so, of a page that somebody else serves."""
    page = Page.at(int(port))
    page.awaits(lambda: page.asks("/status.json")[0] == 200, "an answer")
    awaits(page, text)


if __name__ == "__main__":
    tried({"scene": scene, "board": board, "forms": forms, "shows": shows}[sys.argv[1]], *sys.argv[2:])
