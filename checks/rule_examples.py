"""Runs `serve --rules` by each of the ten examples of docs/rules.md, and by those against callsigns that look alike, and asks it
over UDP: rule_examples.py PROGRAM.

What is heard stands in its trace. An example without a line of probes here, or the other way round, is a failure too.
"""

import concurrent.futures
import os
import re
import shlex
import sys

TOP = os.path.dirname(os.path.dirname(os.path.abspath(__file__)))
sys.path.insert(0, os.path.join(TOP, "conformance"))

import gates
from draws import stream
from packets import BROADCAST, LETTERS, encode

# For each example who is heard, and who is not: `conn A AB1CD` asks for A, `lstn` to listen there, `talk * AB1CD` speaks.
PROBES = (
    ("conn A AB1CD, talk * AB1CD, conn A N0CALL-9", "conn A N0CALL, lstn B N0CALL, talk * N0CALL"),
    ("conn A AB1CD, lstn B AB1, talk * AB1XYZ, conn A #CLUB, talk * #CLUB", "conn A AB2CD, lstn A N0CALL, talk * AB2CD, conn A CLUB"),
    ("lstn A GUEST, lstn B N1CALL, conn A AB1CD, talk * N0CALL", "conn A GUEST, talk * GUEST"),
    ("conn C AB1CD, lstn C AB1, conn A GUEST, lstn B GUEST, talk * GUEST", "conn C GUEST, lstn C N0CALL"),
    ("conn N M17-NEWS, lstn N GUEST, conn A GUEST", "conn N GUEST, conn N M17-NEW"),
    ("conn A N0CALX, talk * N0", "conn A N0CALL, talk * N0CALL, conn A AB1CD"),
    ("talk * AB1CD/P, talk * AB1CDE, conn A AB1CD", "talk * AB1CD, talk * AB1CD-9, talk * AB1CD-"),
    ("conn A N0CALL, lstn A N0CALL, talk * AB1CD", "talk * N0CALL"),
    ("conn A CLUB, talk * CLUB", "conn A #CLUB, lstn A #CLUB, talk * #CLUB"),
    ("talk * AB1CD, talk * #CLUB, talk *  A, talk * .A", "talk * broadcast, talk * none"),
    ("conn A AB1CD, talk * AB1CD-9, talk * AB1/P", "conn A  N0CALL, talk *  N0CALL, lstn A .N0CALL, talk * .N0CALL,"
     " conn A -N0CALL, talk * -N0CALL, conn A /N0CALL, talk * /N0CALL, conn A #N0CALL, talk * #N0CALL"),
)

WORDS = {"broadcast": BROADCAST, "none": 0}


def examples():
    """The rules of each example: those that stand in the last field of its row."""
    with open(os.path.join(TOP, "docs", "rules.md"), encoding="utf-8") as page:
        section = page.read().split("## Ten examples")[1].split("\n## ")[0]
    rows = re.findall(r"(?m)^\| .* \| (`(?:allow|deny) .*) \|$", section)
    return ["".join(rule + "\n" for rule in re.findall(r"`((?:allow|deny) [^`]*)`", row)) for row in rows]


def against_look_alikes():
    """The block of rules against callsigns that look like others."""
    with open(os.path.join(TOP, "docs", "rules.md"), encoding="utf-8") as page:
        section = page.read().split("## Callsigns that look alike")[1].split("\n## ")[0]
    return section.split("```\n")[1]


def whole(number, text):
    """The tenth says of its first rules that there is one for every letter of the alphabet and for `#*`."""
    if number != 9:
        return text
    return "".join("allow talk * %s*\n" % letter for letter in LETTERS + "#") + text.splitlines(True)[-1]


def datagram(probe):
    kind, module, call = probe.split(" ", 2)
    address = WORDS[call] if call in WORDS else encode(call)
    if kind == "talk":
        return stream(1, 0, source=address)
    return kind.upper().encode() + address.to_bytes(6, "big") + module.encode()


def failures(program, number, text):
    heard, unheard = (part.split(", ") for part in PROBES[number])
    datagrams = [datagram(probe) for probe in heard + unheard]
    run = gates.served(shlex.quote(program), whole(number, text).encode(), datagrams)
    told = set(run.heard or [])
    for probe, data in zip(heard + unheard, datagrams):
        if (data in told) != (probe in heard):
            yield "example %d: %s is %s" % (number + 1, probe, "heard" if data in told else "not heard")
    for probe, answer in zip(heard + unheard, run.answers):
        if probe in unheard and answer:
            yield "example %d: %s was sent %s" % (number + 1, probe, answer.hex())


def main(program):
    texts = examples() + [against_look_alikes()]
    if len(texts) != len(PROBES) or not all(texts):
        return "%d examples, %d of probes" % (len(texts), len(PROBES))
    with concurrent.futures.ThreadPoolExecutor(len(texts)) as runs:
        found = runs.map(lambda number: list(failures(program, number, texts[number])), range(len(texts)))
        wrong = [line for lines in found for line in lines]
    return "\n".join(wrong) or 0


if __name__ == "__main__":
    sys.exit(main(sys.argv[1]))
