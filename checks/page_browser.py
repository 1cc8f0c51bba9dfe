#!/usr/bin/env python3
"""Looks at the page of contrib/m17-page in Chromium: on a narrow and on a wide screen, in light and in dark colours, as a screen
reader is told of it, by keyboard, held still, and without scripts.

usage: page_browser.py SCRIPT [FOLDER]      with FOLDER it leaves pictures there
"""

import os
import sys
import time

sys.dont_write_bytecode = True
from browser import PATIENCE, Browser  # noqa: E402
from page_scene import TIMED_OUT, Page, Scene, Talker  # noqa: E402
from starved import SKIPPED, Starved, tried  # noqa: E402

SCREENS = [(width, scheme) for width in (390, 1280) for scheme in ("light", "dark")]
NARROWEST = 320
# Each text that is seen, with its contrast to what is behind it; the colours are as the page is drawn.
CONTRASTS = """(() => {
  const numbers = text => text.match(/[0-9.]+/g).map(Number);
  const light = ([r, g, b]) => [r, g, b].map(v => v / 255).map(v => v <= 0.03928 ? v / 12.92 : ((v + 0.055) / 1.055) ** 2.4)
    .reduce((sum, v, at) => sum + v * [0.2126, 0.7152, 0.0722][at], 0);
  const ground = at => {
    for (; at; at = at.parentElement) {
      const colour = numbers(getComputedStyle(at).backgroundColor);
      if (colour.length === 3 || colour[3] === 1) return colour;
      if (colour[3] !== 0) return null;
    }
    return [255, 255, 255];
  };
  const all = document.createTreeWalker(document.body, NodeFilter.SHOW_TEXT), found = [];
  for (let node; (node = all.nextNode());) {
    const of = node.parentElement;
    if (!node.data.trim() || !of.getClientRects().length || of.closest(".unseen, .skip")) continue;
    const behind = ground(of), style = getComputedStyle(of);
    const pair = behind && [light(numbers(style.color)), light(behind)].sort((a, b) => b - a);
    found.push([node.data.trim(), pair && style.opacity === "1" ? (pair[0] + 0.05) / (pair[1] + 0.05) : 0]);
  }
  return found;
})()"""
LETTERS = "[...document.querySelectorAll('.modules > li')].map(each => each.id.slice(-1)).join('')"
FOCUS = "(e => `${e.tagName} ${e.id} ${e.textContent}|${getComputedStyle(e).outlineStyle}`)(document.activeElement)"


def evening(folder):
    """What is shown: two who talk, one of them soon silent, a parrot, and who was heard the day before, some with long callsigns."""
    run = Scene(folder, "ABC", ago=100_000)
    for place, (letter, call, listens) in enumerate((
            ("A", "AB1CD", 0), ("A", "W1XYZ", 0), ("A", "N0CALL", 1), ("A", "HOTSPOT-1", 0), ("A", "DL9ABC", 0),
            ("A", "F4XYZ/P", 1), ("B", "K2DEF", 0), ("B", "OE1ZZZ", 0), ("C", "PA3GHI", 0))):
        run.join(letter, place, call, listens, 1000 + place)
    talkers = {"A": ((0, "AB1CD"), (1, "W1XYZ"), (3, "M7QRS/P12"), (4, "DL9ABC/P9")), "B": ((6, "K2DEF"),), "C": ((8, "PA3GHI"),)}
    for number in range(24):
        letter = "AABAC"[number % 5]
        place, call = talkers[letter][number % len(talkers[letter])]
        run.talk(letter, place, call, 20_000 + 360_000 * number, 30 + 37 * number % 200, number % 6 != 3, 100 + number)
    run.talk("B", 6, "K2DEF", 9_000_000, 50, False, 200)
    run.say("B", 6, "K2DEF", 50, 200, moment=9_002_000, verdict=TIMED_OUT)
    return run


def is_so(letter, state, call):
    card = f"document.querySelector('#module-{letter} .card.{state}')"
    return f"!!{card} && {card}.textContent.includes({call!r})"


def keeps_silent(run):
    """Says a frame in module B each twenty seconds: so it is told as silent for as long as somebody looks."""
    told_at = [None]

    def say(number):
        run.say("A", 3, "M7QRS", number % 0x7FFF, 9)
        if told_at[0] is None or time.monotonic() - told_at[0] > 20:
            run.say("B", 6, "K2DEF", 0, 7)
            told_at[0] = time.monotonic()

    return say


def looks(browser, pictures):
    """At each width and colour all fits, and all texts can be told from what is behind them."""
    browser.look(NARROWEST, "dark")
    browser.awaits(is_so("A", "talks", "M7QRS"))
    wide = browser.value("document.documentElement.scrollWidth")
    assert wide <= NARROWEST, f"{wide} points on the narrowest screen"
    for width, scheme in SCREENS:
        browser.look(width, scheme)
        browser.awaits(f"{is_so('A', 'talks', 'M7QRS')} && {is_so('B', 'silent', 'K2DEF')}")
        if pictures:
            browser.picture(os.path.join(pictures, f"page-{width}-{scheme}.png"))
        wide = browser.value("document.documentElement.scrollWidth")
        assert wide <= width, f"{wide} points on a screen of {width}"
        texts = browser.value(CONTRASTS)
        faint = [each for each in texts if each[1] < 4.5]
        assert len(texts) > 100 and not faint, (width, scheme, faint)
        assert browser.value("document.getElementById('hold').getBoundingClientRect().height") >= 24


def told_of_talk(browser):
    """What a screen reader is told while one talks and another one is silent."""
    wait, told = browser.wait(), []
    while time.monotonic() < wait.began + PATIENCE:
        told = browser.tree()
        texts = " ".join(name for role, name, _ in told if role == "StaticText")
        if all(word in texts for word in ("Talks", "Silent", "M7QRS talks in module A.")):
            return told
        time.sleep(0.1)
    raise wait.fault("a tree in which one talks and one is silent")


def reads(browser):
    """Roles and names as a screen reader is told of them."""
    told = told_of_talk(browser)
    pairs = [(role, name) for role, name, _ in told]
    for role in ("banner", "main", "contentinfo", "navigation", "table", "status", "time"):
        assert role in [each[0] for each in pairs], role
    for pair in (("heading", "M17-TST"), ("heading", "Modules"), ("heading", "Last heard"), ("heading", "Module A"),
                 ("article", "Module C parrot"), ("region", "Modules"), ("region", "Last heard"), ("link", "Hold still"),
                 ("columnheader", "Callsign"), ("columnheader", "How long"), ("rowheader", "M7QRS by HOTSPOT-1")):
        assert pair in pairs, (pair, pairs)
    texts = " ".join(name for role, name in pairs if role == "StaticText")
    for word in ("Running", "Talks", "Silent", "listens only", "let go", "silent", "M7QRS talks in module A."):
        assert word in texts, word
    levels = [prop["value"]["value"] for role, _, node in told if role == "heading"
              for prop in node["properties"] if prop["name"] == "level"]
    assert levels.count(1) == 1, levels
    unnamed = {role for role, name in pairs if not name} & {"link", "button", "article", "region", "navigation", "heading"}
    assert not unnamed, unnamed


def by_keyboard(browser):
    """Tab leads to each link in turn, and what has it is marked."""
    browser.value("document.activeElement.blur()")
    found = []
    for _ in range(4):
        for kind in ("rawKeyDown", "keyUp"):
            browser.ask("Input.dispatchKeyEvent", type=kind, key="Tab", code="Tab", windowsVirtualKeyCode=9)
        found.append(browser.value(FOCUS))
    names = ("Skip to who was heard last|", "A hold Hold still|", "status.json|", "metrics|")
    assert all(name in each and not each.endswith("|none") for name, each in zip(names, found)), found


def held_still(browser, page, run):
    """Held still it shows what was, and how old that is."""
    browser.go(f"http://127.0.0.1:{page.port}/?still")
    browser.awaits("document.getElementById('old').textContent !== '0 s'")
    before = browser.value("document.getElementById('heard').textContent")
    run.join("B", 9, "LATE")
    page.awaits(lambda: "LATE" in str(page.status()), "the one who came late")
    assert browser.value("document.getElementById('heard').textContent") == before
    assert not browser.value("document.body.textContent.includes('LATE')") and browser.value("!!document.querySelector('.held')")
    browser.value("document.getElementById('hold').click()")
    browser.awaits("document.readyState == 'complete' && location.search == '' && document.body.textContent.includes('LATE')")


def without_scripts(browser, page):
    """It loads itself anew, by nothing but its own head."""
    browser.ask("Emulation.setScriptExecutionDisabled", value=True)
    browser.events.clear()
    browser.ask("Page.navigate", url=f"http://127.0.0.1:{page.port}/")
    wait = browser.wait()
    while sum(event["method"] == "Page.frameNavigated" for event in browser.events) < 3:
        if time.monotonic() > wait.began + PATIENCE:
            raise wait.fault("a page that loads itself anew")
        browser.read(0.2)
    browser.ask("Emulation.setScriptExecutionDisabled", value=False)


def restart(browser, page, run):
    """A page that is looked at goes on behind a restart, with other modules, and is not loaded anew for that."""
    browser.go(f"http://127.0.0.1:{page.port}/")
    browser.value("window.isSame = true")
    run.end()
    browser.awaits("document.getElementById('state').textContent.startsWith('Not running')")
    again = Scene("kept", "AD")
    again.join("D", 0, "PA3GHI")
    browser.awaits(f"{LETTERS} === 'AD'")
    browser.awaits("document.getElementById('state').textContent.startsWith('Running')")
    assert browser.value("window.isSame"), "the page was loaded anew where the reflector began anew"
    return again


def comes_later(browser, page):
    """A page that is asked for before there is a folder: all that comes then is put in, and it is not loaded anew."""
    browser.look(1280, "light")
    browser.go(f"http://127.0.0.1:{page.port}/")
    browser.value("window.isSame = true")
    assert browser.value(LETTERS) == "" and browser.value("!document.getElementById('no-module').hidden")
    run = evening("made")
    os.rename("made", "kept")
    run.folder = "kept"
    browser.awaits(f"{LETTERS} === 'ABC' && document.getElementById('no-module').hidden")
    return run


def shown(browser, page, pictures):
    run = comes_later(browser, page)
    with Talker(keeps_silent(run)):
        looks(browser, pictures)
        reads(browser)
        by_keyboard(browser)
    browser.awaits("!document.querySelector('#module-A .card.talks')")
    assert browser.value("window.isSame"), "the page was loaded anew"
    bad = [event for event in browser.events if event["method"] in ("Log.entryAdded", "Runtime.exceptionThrown")]
    assert not bad, bad
    held_still(browser, page, run)
    without_scripts(browser, page)
    again = restart(browser, page, run)
    page.close()
    browser.awaits("!document.getElementById('lost').hidden")
    again.end()


def main(script, pictures=None):
    page = Page(script, "kept", "--call", "M17-TST", "--parrots", "C", "--every", "1")
    try:
        browser = Browser()
    except (Starved, AssertionError) as fault:
        print(f"the browser does not start here: {fault}")
        sys.exit(SKIPPED)
    try:
        shown(browser, page, pictures)
    finally:
        browser.close()


if __name__ == "__main__":
    tried(main, *sys.argv[1:])
