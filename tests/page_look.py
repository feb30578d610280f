"""How the page looks once a file is chosen: one line with its name, and the answer on the first screen, on a desktop and
on a telephone; and who speaks in the list of what was said, in words and colours. tests/page calls `try_look`."""

import json
import pathlib
import re
import time

from browser import Browser
from programs import PAGE

TOP = pathlib.Path(__file__).resolve().parent.parent
SIZES = ((1280, 800), (390, 844))
# Where things stand, in pixels from the top of the window; null where they aren't seen.
PLACES = """JSON.stringify((() => {
  const box = (it) => { if (!it || !it.checkVisibility()) return null; const {left, top, right, bottom} = it.getBoundingClientRect();
    return right <= 0 || right - left < 2 ? null : [left, top, right, bottom]; };
  const q = (it) => box(document.querySelector(it));
  return {title: q("h1"), intro: q("header p"), name: q("#open-name"), choose: q("#drop .choose"), zone: q("#drop"), dropping: q(".dropping"), ways: q("#ways"),
    settings: q("#again"), card: q("#verdict"), word: q("#verdict .word"), lead: q("#lead"), story: q("#story li"),
    chosen: document.getElementById("open-name").textContent, button: document.querySelector("#drop .choose").innerText.trim(),
    wide: document.documentElement.scrollWidth, inner: innerWidth};
})())"""


class Wrong(Exception):
    """Something stands elsewhere than it should."""


def want(is_so, words):
    if not is_so:
        raise Wrong(words)


def resize(page, wide, high):
    if isinstance(page.browser, Browser):
        page.browser.ask("Emulation.setDeviceMetricsOverride", width=wide, height=high, deviceScaleFactor=1, mobile=wide < 500)
    else:
        page.browser.ask("browsingContext.setViewport", context=page.browser.context, viewport={"width": wide, "height": high})


def size_again(page):
    if isinstance(page.browser, Browser):
        page.browser.ask("Emulation.clearDeviceMetricsOverride")
    else:
        page.browser.ask("browsingContext.setViewport", context=page.browser.context, viewport=None)


def places(page):
    time.sleep(0.2)
    return json.loads(page.browser.value(PLACES))


def try_first_screen(page):
    """Before a file is chosen the page says what it is for. After that one line stands above the answer."""
    page.browser.open(PAGE.as_uri())
    for wide, high in SIZES:
        resize(page, wide, high)
        came = places(page)
        want(came["title"] and came["intro"] and came["zone"] and not came["name"], f"{wide}: {came}")
        want((came["dropping"] is None) == (wide < 500), f"{wide}: drop them here: {came['dropping']}")
        want(came["button"] == "Choose recordings", came["button"])
    for example in ("coin-told-twice", "sale-never-approved", "sale-by-card", "coins-beside-a-level-3-reader", "a-days-recording"):
        for wide, high in SIZES:
            resize(page, wide, high)
            page.take(TOP / "examples" / f"{example}.csv")
            page.browser.value("scrollTo(0, 0); 1")
            came, where = places(page), f"{example}, {wide} pixels"
            want(came["chosen"] == f"{example}.csv" and came["name"] and came["button"] == "Choose another", f"{where}: {came}")
            want(not came["intro"] and not came["dropping"] and not came["settings"] and came["ways"], f"{where}: {came}")
            want(abs(came["name"][1] - came["choose"][1]) < 20, f"{where}: the name and the button aren't on one line: {came}")
            want(came["card"][1] < (90 if wide > 500 else 100), f"{where}: the card begins at {came['card'][1]}")
            for part in ("word", "lead", "story"):
                want(came[part] is None or came[part][3] <= high, f"{where}: {part} isn't on the first screen: {came[part]}")
            want(came["wide"] <= came["inner"], f"{where}: it scrolls sideways")


# What stands in the list of what was said: who speaks, in words and in which colour, and how wide the words are.
ACTS = """JSON.stringify([...document.querySelectorAll('#act-rows tr:not(.gap)')].map((it) => {
  const who = [...it.querySelectorAll('.who')].find((one) => one.checkVisibility() && one.getBoundingClientRect().width > 1);
  const said = it.querySelector('.said').getBoundingClientRect();
  return [who.textContent, getComputedStyle(who).color, said.width, it.getBoundingClientRect().width, getComputedStyle(it).backgroundColor];
}))"""
# The page's colours behind a line: of the page, of a fault, and of what was jumped to.
BEHIND = "JSON.stringify(['--paper', '--mark', '--here'].map((it) => getComputedStyle(document.documentElement).getPropertyValue(it).trim()))"


def light(color):
    """The luminance of a colour, as WCAG has it."""
    parts = [int(color[i:i + 2], 16) for i in (1, 3, 5)] if color[0] == "#" else [int(it) for it in re.findall(r"\d+", color)[:3]]
    red, green, blue = (it / 255 / 12.92 if it / 255 <= 0.03928 else ((it / 255 + 0.055) / 1.055) ** 2.4 for it in parts)
    return 0.2126 * red + 0.7152 * green + 0.0722 * blue


def contrast(one, other):
    high, low = sorted((light(one), light(other)), reverse=True)
    return (high + 0.05) / (low + 0.05)


def speaks(words):
    """Who speaks, by the words of a line."""
    words = words.rstrip(": ")
    if words.startswith(("controller", "VMC")):
        return "controller"
    return next((name for name in ("changer", "validator", "reader") if name in words), None)


def try_colours(page):
    """Each speaker has a colour of its own, beside the words, which stands out from what is behind it."""
    for wide, high in SIZES:
        for scheme in ("light", "dark"):
            resize(page, wide, high)
            if isinstance(page.browser, Browser):
                page.browser.ask("Emulation.setEmulatedMedia", features=[{"name": "prefers-color-scheme", "value": scheme}])
            elif scheme == "dark":
                continue
            page.take(TOP / "examples" / "four-devices-on-a-bus.csv")
            time.sleep(0.3)
            lines, behind = json.loads(page.browser.value(ACTS)), json.loads(page.browser.value(BEHIND))
            colours = {}
            for words, colour, said, whole, _ in lines:
                if speaks(words):
                    colours.setdefault(speaks(words), set()).add(colour)
                want(said > 0.9 * whole if wide < 500 else said > 0.25 * whole, f"{wide}: {said} of {whole} pixels for the words")
            want(set(colours) == {"controller", "changer", "validator", "reader"}, f"{colours}")
            want(all(len(it) == 1 for it in colours.values()) and len(set.union(*colours.values())) == 4, f"{scheme}: {colours}")
            for colour in set.union(*colours.values()):
                least = min(contrast(colour, it) for it in behind)
                want(least >= 4.5, f"{scheme}: {colour} on {behind} has {least:.2f}")
    if isinstance(page.browser, Browser):
        page.browser.ask("Emulation.setEmulatedMedia", features=[])


def try_printed(page):
    """Printed, also from a dark screen, the title stands above the card, and the names of speakers on white."""
    if not isinstance(page.browser, Browser):
        return
    resize(page, 794, 1123)
    page.take(TOP / "examples" / "four-devices-on-a-bus.csv")
    page.browser.ask("Emulation.setEmulatedMedia", media="print", features=[{"name": "prefers-color-scheme", "value": "dark"}])
    came = places(page)
    want(came["title"][3] <= came["card"][1], f"printed: the title is over the card: {came['title']}, {came['card']}")
    faint = [it for _, it, *_ in json.loads(page.browser.value(ACTS)) if contrast(it, "#ffffff") < 4.5]
    want(not faint, f"printed: {faint}")
    page.browser.ask("Emulation.setEmulatedMedia", media="", features=[])


def try_look(page):
    try:
        try_first_screen(page)
        try_colours(page)
        try_printed(page)
    finally:
        size_again(page)
    print("once a file is chosen one line stands above the answer, which is on the first screen, also on a telephone; "
          "who speaks has a colour and words")
