"""What the probe says at its end: a line for each scene, with what was sent and came where it matters, or all of it as JSON."""

import json

from probe_run import DIFFERS, KEEPS, UNKNOWN
from probe_wire import words

MOST_LINES = 60  # of what was sent and came, of one scene in the text
PROFILE = "this profile"  # whose rules all of these are: the M17 Protocol Specification leaves open what a reflector does


def counts(results):
    return {verdict: sum(result.verdict == verdict for result in results) for verdict in (KEEPS, DIFFERS, UNKNOWN)}


def last_line(results):
    count = counts(results)
    return "%d keep, %d differ, %d not known" % (count[KEEPS], count[DIFFERS], count[UNKNOWN])


def pages(scene):
    return ", ".join("docs/" + page for page in scene.pages)


def wire(result):
    """What was sent (>) and came (<) in the last try, by milliseconds from its beginning."""
    lines = sorted(result.log, key=lambda line: line.at)
    began = lines[0].at if lines else 0
    for line in lines:
        yield round(1000 * (line.at - began)), line.who, line.way, line.data


def as_text(run, results, with_wire):
    for result in results:
        scene = result.scene
        told = ", by %d tries" % result.tries if result.tries > 1 else ""
        yield "%-9s %-26s %s (%s)%s" % (result.verdict, scene.name, pages(scene), PROFILE, told)
        if result.verdict != KEEPS or with_wire:
            yield "    rule: %s" % scene.rule
        if result.how:
            yield "    %s: %s" % ("differs from " + PROFILE if result.verdict == DIFFERS else result.verdict, result.how)
        if result.verdict != KEEPS or with_wire:
            lines = list(wire(result))
            shown = lines if with_wire else lines[-MOST_LINES:]
            if len(shown) < len(lines):
                yield "    (the last %d of %d datagrams)" % (len(shown), len(lines))
            for at, who, way, data in shown:
                yield "    %6d ms %-12s %s %s %s" % (at, who, way, data.hex().upper(), words(data))
    for name, why in run.left_out:
        yield "left out  %-26s %s" % (name, why)
    yield last_line(results)


def as_json(run, results):
    scenes = [
        {
            "name": result.scene.name,
            "pages": ["docs/" + page for page in result.scene.pages],
            "rule": result.scene.rule,
            "of": PROFILE,
            "verdict": result.verdict,
            "how": result.how,
            "tries": result.tries,
            "wire": [
                {"ms": at, "who": who, "way": "sent" if way == ">" else "came", "hex": data.hex().upper(), "words": words(data)}
                for at, who, way, data in wire(result)
            ],
        }
        for result in results
    ]
    count = counts(results)
    return json.dumps(
        {
            "reflector": ["%s:%d" % (address[0], address[1]) for address in run.addresses],
            "modules": run.modules,
            "parrots": run.parrots,
            "scenes": scenes,
            "left_out": dict(run.left_out),
            "keep": count[KEEPS],
            "differ": count[DIFFERS],
            "not_known": count[UNKNOWN],
        },
        indent=1,
    )
