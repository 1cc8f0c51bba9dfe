"""What `m17-page` serves of a status: a page for people, in parts that change by themselves, and figures for monitors. It lies
where that lies, or in ../lib/m17 from there. All that comes from files is escaped here, and nowhere else.
"""

import html
import json
import os
import time

from m17_books import LAST_TIME
from m17_status import ENDED, IS_SILENT, QUIET, RUNS, TALKS, UNKNOWN, run_seconds

FOLDER = os.path.dirname(os.path.abspath(__file__))
# Files of their own, so that the page's policy can forbid all that stands in the page itself.
ASSETS = {
    "page.css": ("m17_page.css", "text/css; charset=utf-8"),
    "page.js": ("m17_page.js", "text/javascript; charset=utf-8"),
    "icon.svg": ("m17_page.svg", "image/svg+xml"),
}
# So many modules stand in one column, beside a wide list.
FEW = 3
# Behind so many seconds without a read the page says that it is not up to date.
OLD = 5
STATES = {RUNS: "Running", ENDED: "Not running", UNKNOWN: "Not known whether it runs"}
MARKS = {TALKS: "Talks", IS_SILENT: "Silent", QUIET: "Quiet"}
UNTOLD = "The board doesn’t tell who was heard."
DATA_STATES = {
    "reading": "The books are still being read ({percent} %): what stands here is not whole yet.",
    "no folder": "The folder of the reflector isn’t there, or can’t be looked into.",
    "empty": "No books and no board are in the folder yet.",
}


def told(text):
    return html.escape(str(text))


def span(seconds):
    """How long, in words: `4 s`, `3 min 20 s`, `2 h 5 min`, `3 d 2 h`."""
    seconds = max(0, int(seconds))
    for size, name, part, small in ((86400, "d", 3600, "h"), (3600, "h", 60, "min"), (60, "min", 1, "s")):
        if seconds >= size:
            return f"{seconds // size} {name} {seconds % size // part} {small}"
    return f"{seconds} s"


def count(number, what):
    return f"{number:,} {what}" if number == 1 else f"{number:,} {what}s"


def utc_of(moment):
    """A moment in milliseconds since 1970, whatever it is."""
    return time.gmtime(min(max(0, moment), LAST_TIME) // 1000)


def clock(moment, now):
    """The time of day in UTC, with the day where that is another one than now; moments are in milliseconds since 1970."""
    at, today = utc_of(moment), utc_of(now)
    day = f'<span class="day">{at.tm_mday}\u00a0{time.strftime("%b", at)}</span> '
    text = time.strftime("%H:%M:%S", at) if at[:3] == today[:3] else day + time.strftime("%H:%M", at)
    return f'<time datetime="{time.strftime("%Y-%m-%dT%H:%M:%SZ", at)}">{text}</time>'


def day_and_time(moment):
    at = utc_of(moment)
    text = f'{at.tm_mday}{time.strftime(" %b %Y, %H:%M:%S", at)} UTC'
    return f'<time datetime="{time.strftime("%Y-%m-%dT%H:%M:%SZ", at)}">{text}</time>'


def state_part(status, now):
    state, start, length = status["run"]["state"], status["run"]["start"], run_seconds(status, now)
    mark = f'<span class="pill {told(state)}">{STATES[state]}</span>'
    if start is None:
        return mark
    if state == ENDED:
        words = f"it began {day_and_time(start)}", f"last change {span(length)} later"
    else:
        words = f"since {day_and_time(start)}", span(length)
    return f'{mark} <span class="since">{words[0]} <span class="small">({words[1]})</span></span>'


def figures_part(status):
    modules = status["modules"]
    members = [module["members"] for module in modules]
    known = sum(len(each) for each in members if each is not None)
    talking = [told(module["module"]) for module in modules if module["state"] == TALKS]
    where = f' <span class="where">in {", ".join(talking)}</span>' if talking else ""
    figures = (
        ("Members", "–" if modules and all(each is None for each in members) else f"{known:,}"),
        ("Modules", len(modules)),
        ("Talking now", f"{len(talking)}{where}"),
        ("Packets admitted", f"{sum(module['admitted'] for module in modules):,}"),
    )
    return "".join(f"<div><dt>{name}</dt><dd>{value}</dd></div>" for name, value in figures)


def talk_lines(module, latest, now):
    """Two lines of a module: who talks there, and since when."""
    state, by = module["state"], module["by"]
    mark = f'<span class="mark">{MARKS[state]}</span>'
    via = f' · by {call(by, "b")}' if by not in (None, module["talker"]) else ""
    if state == TALKS:
        when = f"since {clock(module['since'], now)} · {span(module['milliseconds'] / 1000)}{via}"
        return f'<p class="talk">{mark} {call(module["talker"], "strong")}</p><p class="small">{when}</p>'
    if state == IS_SILENT:
        when = f"no packet since {clock(module['since'], now)} · {span(module['milliseconds'] / 1000)}{via}"
        return f'<p class="talk">{mark} {call(module["talker"], "strong")}</p><p class="small">{when}</p>'
    when = UNTOLD if module["members"] is None else "nobody was heard lately"
    if latest:
        when = f"last heard: {call(latest['callsign'], 'b')}, {clock(latest['begin'], now)}"
    return f'<p class="talk">{mark} <span>Nobody talks</span></p><p class="small">{when}</p>'


def call(text, tag):
    return f'<{tag} class="call">{told(text)}</{tag}>'


def member_item(member, module):
    names = (["listens"] if member["listens"] else []) + (["on"] if member["callsign"] in talking_of(module) else [])
    tag = ' <span class="tag">listens only</span>' if member["listens"] else ""
    return f'<li class="{" ".join(names)}">{call(member["callsign"], "span")}{tag}</li>'


def talking_of(module):
    return (module["by"] or module["talker"],) if module["state"] == TALKS else ()


def module_part(module, latest, now):
    letter, members = told(module["module"]), module["members"]
    parrot = ' <span class="tag">parrot</span>' if module["parrot"] else ""
    if members is None:
        inside = '<p class="small">The board doesn’t tell who is in.</p>'
    elif not members:
        inside = '<p class="small">Nobody is in.</p>'
    else:
        items = "".join(member_item(member, module) for member in members)
        inside = f'<h4>{count(len(members), "member")}</h4><ul class="members">{items}</ul>'
    missed = f" · {count(module['missed'], 'frame')} missed" if module["missed"] is not None else ""
    return (
        f'<article class="card {module["state"]}" aria-labelledby="name-{letter}">'
        f'<h3 id="name-{letter}"><span class="unseen">Module </span><span class="letter">{letter}</span>{parrot}</h3>'
        f'<div class="state">{talk_lines(module, latest, now)}</div><div class="inside">{inside}</div>'
        f'<p class="foot small">{count(module["admitted"], "packet")} admitted{missed}</p></article>'
    )


def heard_row(each, now):
    via = f' <span class="small via">by {call(each["by"], "span")}</span>' if each["by"] != each["callsign"] else ""
    ended = each["ended"] or "talks"
    return (
        f'<tr class="{ended.replace(" ", "-")}"><th scope="row">{call(each["callsign"], "span")}{via}</th>'
        f'<td>{told(each["module"])}</td>'
        f'<td>{clock(each["begin"], now)}</td><td class="number">{each["milliseconds"] / 1000:.1f} s</td>'
        f'<td><span class="end">{ended}</span></td></tr>'
    )


def heard_part(status, now):
    if not status["heard"]:
        has_books = not status["modules"] or any(module["members"] is not None for module in status["modules"])
        return f'<tr><td colspan="5" class="none">{"Nobody was heard yet." if has_books else UNTOLD}</td></tr>'
    return "".join(heard_row(each, now) for each in status["heard"])


def notes_part(status, age):
    state, share = status["data"]["state"], status["data"]["share"]
    notes = [DATA_STATES[state].format(percent=int(100 * (share or 0)))] if state in DATA_STATES else []
    if status["run"]["state"] == ENDED:
        notes.append("The reflector doesn’t run: nobody is in, and what stands here is how it ended.")
    if age > OLD:
        notes.append(f"What the reflector writes could not be read for {span(age)}.")
    notes += [told(problem) for problem in status["data"]["problems"]]
    return "".join(f'<p class="note">{note}</p>' for note in notes)


def spoken_part(status):
    """What a screen reader says of itself, where it changes."""
    talking = [f"{told(m['talker'])} talks in module {told(m['module'])}." for m in status["modules"] if m["state"] == TALKS]
    return " ".join(talking) or "Nobody talks."


def age_part(status, age, now):
    read, changed = clock(status["data"]["read"], now), status["data"]["changed"]
    last = f" · last change {clock(changed, now)}" if changed is not None else ""
    return f'Read {read} UTC, <span id="old" data-old="{int(age)}">{span(age)}</span> ago{last}'


def parts_of(status, age):
    """The parts of the page that change, by their ids."""
    now = int(1000 * time.time())
    latest = {}
    for each in status["heard"]:
        latest.setdefault(each["module"], each)
    modules = {f"module-{told(m['module'])}": module_part(m, latest.get(m["module"]), now) for m in status["modules"]}
    return {
        "state": state_part(status, now),
        "age": age_part(status, age, now),
        "spoken": spoken_part(status),
        "notes": notes_part(status, age),
        "figures": figures_part(status),
        "heard": heard_part(status, now),
        **modules,
    }


def module_ids(parts):
    return [id for id in parts if id.startswith("module-")]


class News:
    """The parts of the newest view as those who listen are told of them, each with the number of its last change. Who listens
    keeps those numbers alone, so that nobody who is slow holds what was; what it is told next is always of the newest."""

    def __init__(self):
        self.number, self.parts = 0, {}

    def take(self, parts):
        ids = module_ids(parts)
        shown = {"modules": {"ids": ids, "few": len(ids) <= FEW}, **parts}
        self.parts = {id: self.numbered(id, json.dumps({id: what})[1:-1].encode("ascii")) for id, what in shown.items()}

    def numbered(self, id, text):
        before = self.parts.get(id)
        if before and before[1] == text:
            return before
        self.number += 1
        return self.number, text

    def since(self, seen, most):
        """An event with parts that are other ones than was seen, the oldest change first, until it has so many bytes; and
        takes them as seen. Where nothing has changed there is none."""
        texts, size = [], 0
        for id, (number, text) in sorted(self.parts.items(), key=lambda part: part[1][0]):
            if seen.get(id) != number and size < most:
                seen[id] = number
                texts.append(text)
                size += len(text)
        return b"data: {" + b", ".join(texts) + b"}\n\n" if texts else b""


def head_of(name, refresh):
    return f"""<head>
<meta charset="utf-8">
<meta name="viewport" content="width=device-width, initial-scale=1">
<meta name="color-scheme" content="light dark">
{refresh}
<title>{name}: who is in, and who talks</title>
<link rel="icon" href="icon.svg" type="image/svg+xml">
<link rel="stylesheet" href="page.css">
<script src="page.js" defer></script>
</head>"""


def top_of(name, is_named, parts):
    kind = '<p class="kind">M17 reflector</p>' if is_named else ""
    return f"""<a class="skip" href="#heard-name">Skip to who was heard last</a>
<header class="top"><div class="wide">
<img src="icon.svg" alt="" width="56" height="56">
<div class="name">{kind}<h1>{name}</h1></div>
<p id="state" class="run">{parts["state"]}</p>
</div></header>"""


def bar_of(parts, is_still):
    """How old the page is, and what holds it still."""
    hold = '<a id="hold" href="./">Go on</a>' if is_still else '<a id="hold" href="./?still">Hold still</a>'
    held = '<span class="held">Held still.</span> ' if is_still else ""
    return f"""<div class="bar"><p>{held}<span id="age">{parts["age"]}</span></p><p><a class="jump" href="#heard-name">Last heard</a> {hold}</p></div>
<p id="lost" class="note" hidden>No news from the server of this page: what stands here gets older.</p>
<p id="spoken" role="status" class="unseen">{parts["spoken"]}</p>
<div id="notes">{parts["notes"]}</div>"""


def columns_of(parts, is_few):
    modules = "".join(f'<li id="{id}">{parts[id]}</li>' for id in module_ids(parts))
    hidden = " hidden" if modules else ""
    few = " few" if is_few else ""
    return f"""<div class="columns{few}">
<section aria-labelledby="modules-name"><h2 id="modules-name">Modules</h2>
<p id="no-module" class="small"{hidden}>No module is known yet.</p><ul class="modules">{modules}</ul></section>
<section aria-labelledby="heard-name"><h2 id="heard-name" tabindex="-1">Last heard</h2>
<table><caption class="unseen">Who was heard last, the newest first; times in UTC</caption>
<thead><tr><th scope="col">Callsign</th><th scope="col"><abbr title="Module">Mod.</abbr></th><th scope="col">When (UTC)</th>
<th scope="col" class="number">How long</th><th scope="col">End</th></tr></thead>
<tbody id="heard">{parts["heard"]}</tbody></table></section>
</div>"""


def page_of(status, parts, every, is_still):
    name, still = told(status["name"] or "M17 reflector"), " data-still" if is_still else ""
    refresh = "" if is_still else f'<noscript><meta http-equiv="refresh" content="{every}"></noscript>'
    text = f"""<!DOCTYPE html>
<html lang="en"{still}>
{head_of(name, refresh)}
<body>
{top_of(name, status["name"], parts)}
<main class="wide">
{bar_of(parts, is_still)}
<section aria-labelledby="figures-name"><h2 id="figures-name" class="unseen">At a glance</h2>
<dl id="figures">{parts["figures"]}</dl></section>
{columns_of(parts, len(module_ids(parts)) <= FEW)}
</main>
<footer><div class="wide"><p>All times are in UTC.</p>
<nav aria-label="The same as data"><a href="status.json">status.json</a> <a href="metrics">metrics</a></nav></div></footer>
</body>
</html>
"""
    return text.encode("utf-8")


def metrics_of(status, age):
    """The figures in the text form of Prometheus. Of books that are half read there are none: who adds up how a figure rises would
    take it for one that began anew."""
    now, lines = int(1000 * time.time()), []
    modules = [] if status["data"]["state"] == "reading" else status["modules"]

    def put(name, kind, what, samples):
        lines.extend((f"# HELP m17_{name} {what}", f"# TYPE m17_{name} {kind}"))
        lines.extend(f"m17_{name}{labels_of(labels)} {value}" for labels, value in samples if value is not None)

    def of_modules(value):
        return [({"module": module["module"]}, value(module)) for module in modules]

    run, start = status["run"]["state"], status["run"]["start"]
    put("up", "gauge", "Whether the reflector runs (1) or not (0), by the lock of its folder; missing where that is not known.",
        [({}, {RUNS: 1, ENDED: 0}.get(run))])
    put("start_time_seconds", "gauge", "When the run began, in seconds since 1970.", [({}, start and start / 1000)])
    put("run_seconds", "gauge", "How long the run has gone on, or went on until its last change.",
        [({}, run_seconds(status, now))])
    put("data_age_seconds", "gauge", "How long ago the folder was read.", [({}, round(age, 3))])
    put("members", "gauge", "Who is in the module, to talk or to listen only.", [
        ({"module": module["module"], "listens_only": text}, sum(member["listens"] is listens for member in module["members"]))
        for module in modules if module["members"] is not None for text, listens in (("no", False), ("yes", True))])
    put("talkers", "gauge", "Whether somebody talks in the module.", of_modules(lambda module: int(module["state"] == TALKS)))
    put("packets_total", "counter", "Stream packets of members, by verdict.", [
        ({"module": module["module"], "verdict": verdict}, value)
        for module in modules for verdict, value in (module["verdicts"] or {}).items()])
    put("admitted_total", "counter", "Stream packets that were let through.", of_modules(lambda module: module["admitted"]))
    put("records_total", "counter", "Records of the module: joins, leaves and packets.",
        of_modules(lambda module: module["records"]))
    put("missed_total", "counter", "Frames that were left out for members behind, where the run ended.",
        of_modules(lambda module: module["missed"]))
    put("book_bytes", "gauge", "Bytes of the module's book that were read.", of_modules(lambda module: module["bytes"]))
    return ("\n".join(lines) + "\n").encode("ascii")


def labels_of(labels):
    return "{" + ",".join(f'{name}="{value}"' for name, value in labels.items()) + "}" if labels else ""
