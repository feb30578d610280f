"""What leads where on the page: links and the way back, searches, polls without news, the time line, the statement,
several files, the examples. tests/page calls `try_links`. What is wanted is made here from what `mdbcheck show` prints
of a recording, and from its rows."""

import json
import pathlib
import subprocess
import time

from programs import MDBCHECK, Runs

TOP = pathlib.Path(__file__).resolve().parent.parent
NAMES = {"changer": "changer", "bill": "validator", "cashless": "card reader 1", "cashless-2": "card reader 2"}
NUMBERS = {"changer": 1, "bill": 2, "cashless": 3, "cashless-2": 4}
KINDS = "ask ack nak reply vmc-ack vmc-nak vmc-ret repeat foreign break cut".split()
SIZES = [1, 8, 99, 3, 1, 3, 1, 1, 1, 30, 2, 1]

# What the table of several files calls those whom the program blames.
SENDERS = {"controller": "the controller (VMC)", "changer": "the coin changer", "bill": "the bill validator",
           "cashless": "card reader 1", "cashless-2": "card reader 2", "other": "a device that nobody had asked"}


class Act:
    """An act as `show` prints it, with the times of its rows."""

    def __init__(self, line, times):
        words = line.split(" ")
        self.first, self.last = map(int, words[0].split("-"))
        self.kind = words[1]
        rest = words[3:] if self.kind == "break" else words[2:]
        self.device = rest[0] if rest else ""
        self.bytes = bytes(int(it, 16) for it in rest[1:])
        self.start, self.end = times[self.first - 1], times[self.last - 1]

    def rows(self):
        return str(self.first) if self.first == self.last else f"{self.first}–{self.last}"


def acts_of(path):
    """The acts of a recording, and the row that cannot be."""
    times = [int(line.split(",")[0]) for line in path.read_text().splitlines()]
    ran = subprocess.run([MDBCHECK, "show"], input=path.read_bytes(), capture_output=True)
    lines = ran.stdout.decode().splitlines()
    checked = subprocess.run([MDBCHECK, "check"], input=path.read_bytes(), capture_output=True).stdout.decode()
    told = dict(line.split(" ", 1) for line in checked.splitlines())
    bad = int(told["row"]) if told["verdict"] == "no" else None
    return [Act(it, times) for it in lines if not it.startswith("fault")], bad


def amount(units, places):
    if units is None:
        return "value not known"
    sign, digits = ("−", str(-units)) if units < 0 else ("", str(units))
    if not places:
        return sign + digits
    digits = digits.rjust(places + 1, "0")
    return f"{sign}{digits[:-places]}.{digits[-places:]}"


def reader_messages(data):
    at, found = 0, []
    while at < len(data) - 1:
        size = SIZES[data[at]] if data[at] < len(SIZES) else 1
        found.append(data[at:min(len(data) - 1, at + size)])
        at += size
    return found


def setup_of(device, ask, data):
    """Scale, decimals and credits, where an answer has them."""
    if device == "changer" and ask[0] == 0x09 and len(data) >= 8:
        return data[3], data[4], data[7:-1]
    if device == "bill" and ask[0] == 0x31 and len(data) >= 12:
        return data[3] * 256 + data[4], data[5], data[11:-1]
    for message in reader_messages(data) if device.startswith("cashless") else ():
        if message[0] == 1 and len(message) == 8:
            return message[4], message[5], b""
    return None


def worth(setup, kind, count=1):
    if setup is None:
        return None
    credit = setup[2][kind] if kind < len(setup[2]) else 0
    return 0 if credit == 255 else credit * setup[0] * count


class Walk:
    """The lines of the statement, from the acts: rows, item, amount, outcome, and sums so far."""

    def __init__(self, acts):
        self.acts, self.lines, self.sums = acts, [], {}
        self.setups, self.open, self.ask, self.money, self.approved = {}, {}, None, [], {}
        for index, act in enumerate(acts):
            self.index = index
            self.take(act)

    def heard(self):
        """Whether the act after this one is an answer."""
        after = self.acts[self.index + 1:self.index + 2]
        return bool(after) and after[0].kind in ("ack", "reply")

    def acknowledged(self):
        for act in self.acts[self.index + 1:self.index + 12]:
            if act.kind == "vmc-ack":
                return True
            if act.kind not in ("vmc-ret", "repeat", "vmc-nak"):
                return False
        return False

    def take(self, act):
        if act.kind in ("foreign", "break", "cut"):
            self.ask = None
        if act.kind == "ask":
            self.ask = act
            self.take_ask(act, act.bytes, self.setups.get(act.device))
        if act.kind == "reply":
            ask = self.ask.bytes if self.ask else b"\0\0"
            setup = setup_of(act.device, ask, act.bytes)
            if setup:
                self.setups[act.device] = setup
            self.take_reply(act, ask, act.bytes, self.setups.get(act.device))

    def take_ask(self, act, data, setup):
        if data[0] == 0x0D:
            units = worth(setup, data[1] & 15, data[1] >> 4)
            self.pay(act, "paid out", units, setup, "controller", self.heard())
        if data[0] in (0x13, 0x63):
            if data[1] == 4:
                self.open.pop(act.device, None)
            else:
                self.take_vend(act, data, setup)

    def take_vend(self, act, data, setup):
        price = (data[2] * 256 + data[3]) * setup[0] if data[1] in (0, 5) and setup else None
        if data[1] == 5:
            self.pay(act, "sold for cash", price, setup, "controller", self.heard(), str(data[4] * 256 + data[5]))
            return
        part = ["request", "cancelled", "sold", "failed"][data[1]]
        item = str(data[4] * 256 + data[5]) if part == "request" else str(data[2] * 256 + data[3]) if part == "sold" else ""
        self.sale(act, part, setup, item, price, self.heard())

    def take_reply(self, act, ask, data, setup):
        if act.device.startswith("cashless"):
            for message in reader_messages(data):
                if message[0] == 5:
                    self.approved[act.device] = (message[1] * 256 + message[2]) * setup[0] if setup else None
                if message[0] in (5, 6):
                    self.sale(act, "approved" if message[0] == 5 else "denied", setup, "", None, self.acknowledged())
            # (A session that begins or ends here ends the sale for what comes after this act.)
            if any(message[0] in (3, 7) for message in reader_messages(data)):
                self.open.pop(act.device, None)
        elif (act.device, ask[0]) == ("changer", 0x0B):
            self.take_coins(act, data, setup)
        elif (act.device, ask[0]) == ("bill", 0x33):
            for byte in data[:-1]:
                if 0x80 <= byte <= 0xBF and byte < 0xB0:
                    kind = "bills in" if byte < 0x90 else None
                    self.pay(act, kind, worth(setup, byte & 15), setup, "device", self.acknowledged())

    def take_coins(self, act, data, setup):
        at = 0
        while at < len(data) - 1:
            byte = data[at]
            at += 2 if byte >= 0x40 and not 0x60 <= byte < 0x70 else 1
            if byte >= 0x80 and byte >> 4 & 7:
                self.pay(act, "paid out", worth(setup, byte & 15, byte >> 4 & 7), setup, "device", self.acknowledged())
            elif 0x40 <= byte < 0x60:
                self.pay(act, "coins in", worth(setup, byte & 15), setup, "device", self.acknowledged())

    def add(self, act, name, units, by, heard, counted=()):
        """Adds an amount for the side that tells it, and where it is heard for the other one; for none that counted it."""
        sums = self.sums.setdefault((name, act.device), {"device": [0, 0, 0], "controller": [0, 0, 0]})
        for side, it in sums.items():
            if (side == by or heard) and side not in counted:
                it[0] += units or 0
                it[1] += units is not None
                it[2] += units is None
        return {side: tuple(it) for side, it in sums.items()}

    def pay(self, act, name, units, setup, by, heard, item=""):
        """A payment: a line of its own."""
        sums = self.add(act, name, units, by, heard) if name else None
        self.money.append(self.index)
        self.lines.append({"rows": [act.rows()], "device": act.device, "item": item, "units": units, "setup": setup,
                           "outcome": "acknowledged" if heard else "not acknowledged", "name": name, "sums": sums})

    def sale(self, act, part, setup, item, price, heard):
        self.money.append(self.index)
        line = self.open.get(act.device)
        if line is None or not self.goes_on(line, part, item, price):
            line = {"rows": [], "parts": [], "device": act.device, "item": item, "setup": setup, "name": None, "sums": None}
            self.lines.append(line)
            self.open[act.device] = line
            if part == "request":
                line["units"] = price
        line["item"] = line["item"] or item
        line["rows"].append(act.rows())
        line["parts"].append(part)
        line["outcome"] = self.outcome(line["parts"])
        if part == "sold":
            # (The same sale again is no other sale.)
            counted = line.setdefault("counted", set())
            line["name"], line["sums"] = "sold", self.add(act, "sold", self.approved.get(act.device), "controller", heard, counted)
            counted |= {"controller"} | ({"device"} if heard else set())

    def goes_on(self, line, part, item, price):
        parts = line["parts"]
        ends = [it for it in parts if it in ("sold", "failed", "cancelled")]
        if part == "request":
            return set(parts) == {"request"} and (line["item"], line["units"]) == (item, price)
        if part in ("approved", "denied"):
            return not ends or part == "denied" and parts[-1] == "cancelled"
        return not ends or ends[-1] == part and item in ("", line["item"])

    def outcome(self, parts):
        ends = [it for it in parts if it in ("sold", "failed", "cancelled")]
        if not ends:
            return "denied" if "denied" in parts else "no outcome reported"
        if ends[-1] != "sold":
            return ends[-1]
        if "denied" in parts:
            return "sold although denied"
        return "sold" if {"request", "approved"} <= set(parts) else \
            "sold, with no request reported" if "request" not in parts else "sold, with no approval reported"

    def shown(self):
        """The lines as the page has them."""
        for line in self.lines:
            places = line["setup"][1] if line["setup"] else 0
            words = []
            if line["sums"]:
                words.append(line["name"])
                for side, name in (("device", NAMES[line["device"]]), ("controller", "controller")):
                    units, known, unknown = line["sums"][side]
                    words.append(f"{name} " + " and ".join(
                        ([amount(units, places)] if known or not unknown else []) +
                        ([f"{unknown:,} of unknown value"] if unknown else [])))
            has_amount = "units" in line
            yield [NAMES[line["device"]], line["rows"], line["item"], amount(line["units"], places) if has_amount else "",
                   line["outcome"], words]


# All lines of the statement, page by page.
LINES = """(() => {
  const found = [], text = (it) => it.textContent;
  if (!by("statement-rows")) return "[]";
  while (!by("statement-back").disabled) by("statement-back").click();
  for (;;) {
    for (const line of by("statement-rows").children) {
      const [at, told, item, amount, outcome, sums] = line.children;
      found.push([text(at.lastChild), [...told.querySelectorAll("[data-row]")].map(text), text(item), text(amount),
        outcome.firstChild.textContent, [...sums.children].map(text), text(told)]);
    }
    if (by("statement-more").disabled) return JSON.stringify(found);
    by("statement-more").click();
  }
})()"""

# Follows each link of the report and comes back. Answers how many there were of each sort, and what is wrong.
FOLLOW = """(() => {
  const wrong = [], counts = {}, all = (q) => [...document.querySelectorAll(q)];
  const name = (it) => it.closest("section, nav").id + " " + JSON.stringify(it.dataset) + " " + it.textContent;
  const inSight = (it) => { const box = it.getBoundingClientRect(); return box.bottom > 0 && box.top < innerHeight; };
  const marked = (id) => all(`#${id} [aria-current]`);
  const landed = {
    row(value, link) {
      const [line, ...more] = marked("acts"), inFile = document.activeElement.matches("#fault tr.here[aria-current]") ? Number(document.activeElement.querySelector("th").textContent) : 0;
      if (!line && inFile >= value && inFile <= Number(link.dataset.last)) return !state.list.count || !hasRow(state.list, actAtRow(state, value), value);
      const rows = line?.querySelector(".rows").textContent.split("–").map(Number);
      return !more.length && rows[0] <= value && rows.at(-1) >= value && line.classList.contains("here") && document.activeElement === line;
    },
    entry(value) {
      const lines = marked("told-money"), m = state.found.money[value];
      return lines.length && lines.includes(document.activeElement) &&
        lines.every((it) => it.classList.contains("here") && it.querySelector(`[data-row="${m.first}"]`));
    },
    at(value) {
      const [mark, ...more] = marked("line"), svg = document.activeElement, {from, to} = svg.dataset;
      const x = Number(mark?.getAttribute("x1"));
      return svg.matches("#line svg") && !more.length && Math.abs(state.line.room.at(x) - value) <= (to - from) / 500 && from - 1 <= value && value <= Number(to) + 1;
    },
    part: (value) => by(value).contains(document.activeElement) || by(value) === document.activeElement,
  };
  const links = () => all("#verdict [data-row], #told [data-row], #told [data-entry], #told [data-at], #told [data-part]").filter((it) => it.checkVisibility());
  for (let i = 0; i < links().length; i++) {
    const link = links()[i], key = ["row", "entry", "at", "part"].find((it) => it in link.dataset), told = name(link);
    const value = key === "part" ? link.dataset.part : Number(link.dataset[key]), where = link.closest("section, nav").id;
    if (where === "jumps") continue;
    link.focus();
    link.scrollIntoView({block: "center"});
    const y = scrollY, count = links().length;
    link.click();
    if (!landed[key](value, link)) wrong.push(`${told} doesn't lead there, but to ${document.activeElement.outerHTML.slice(0, 200)}`);
    else if (!inSight(document.activeElement)) wrong.push(`${told} leads out of sight`);
    by("back").click();
    if (name(document.activeElement) !== told) wrong.push(`${told}: back leads to ${document.activeElement.outerHTML.slice(0, 200)}`);
    if (Math.abs(scrollY - y) > 1) wrong.push(`${told}: back leads to ${scrollY}, not to ${y}`);
    if (links().length !== count && Math.abs(links().length - count) > 1) wrong.push(`${told}: ${links().length} links after it, ${count} before`);
    counts[`${where} ${key}`] = (counts[`${where} ${key}`] ?? 0) + 1;
  }
  return JSON.stringify({wrong, counts});
})()"""

SEARCH = """(async () => {
  const set = %s;
  for (const [id, value] of Object.entries(set)) typeof value === "boolean" ? by(id).checked = value : by(id).value = value;
  await find(state);
  return JSON.stringify({hits: state.hits.map((i) => state.list.first(i)), hidden: state.hidden, told: by("act-count").textContent});
})()"""
NO_SEARCH = {"act-device": "", "act-kind": "", "act-text": "", "act-money": False, "act-polls": False}


def search(page, **fields):
    values = {**NO_SEARCH, **{f"act-{key}": value for key, value in fields.items()}}
    return json.loads(page.browser.value(SEARCH % json.dumps(values)))


def quiet_polls(acts, bad):
    """The first rows of the acts of polls without news."""
    polls = {"changer": 0x0B, "bill": 0x33, "cashless": 0x12, "cashless-2": 0x62}
    quiet = set()
    for ask, answer in zip(acts, acts[1:]):
        if ask.kind == "ask" and answer.kind == "ack" and ask.device == answer.device and ask.bytes[0] == polls[ask.device]:
            if bad is None or not ask.first <= bad <= answer.last:
                quiet |= {ask.first, answer.first}
    return quiet


def compare_search(page, want, acts, bad, fields, wanted):
    """Compares what is found with the acts that are wanted; those of polls without news are hidden, and counted."""
    quiet, rows = quiet_polls(acts, bad), [act.first for act in acts if wanted(act)]
    for is_shown in (False, True):
        came = search(page, **fields, polls=is_shown)
        seen = [row for row in rows if is_shown or row not in quiet]
        want(came["hits"] == seen, f"search {fields}: found {came['hits'][:20]}, wanted {seen[:20]}; {came['told']}")
        hidden = len(rows) - len(seen)
        want(came["hidden"] == hidden, f"search {fields}: {came['hidden']} hidden, wanted {hidden}")
        want((f"{hidden:,} acts of polls without news are hidden" in came["told"]) == (hidden > 0), came["told"])
    return len(rows)


def try_searches(page, want, path, name):
    acts, bad = acts_of(path)
    money = {acts[index].first for index in Walk(acts).money}
    middle = acts[len(acts) // 2]
    low = middle.start // 1000 * 1000
    found = compare_search(page, want, acts, bad, {}, lambda act: True)
    found += compare_search(page, want, acts, bad, {"money": True}, lambda act: act.first in money)
    for device, index in NUMBERS.items():
        compare_search(page, want, acts, bad, {"device": str(index)}, lambda act: act.device == device)
    for index, kind in enumerate(KINDS):
        compare_search(page, want, acts, bad, {"kind": str(index)}, lambda act: act.kind == kind)
    for text in ("1302", "13 02", "13 02 00", "0b0b", "0B 0B"):
        data = bytes.fromhex(text)
        found += compare_search(page, want, acts, bad, {"text": text}, lambda act: data in act.bytes)
    found += compare_search(page, want, acts, bad, {"text": "FOR item"},
                            lambda act: act.kind == "ask" and act.bytes[0] in (0x13, 0x63) and act.bytes[1] in (0, 5))
    digits = f"{low // 1000000}.{low % 1000000 // 1000:03}"
    found += compare_search(page, want, acts, bad, {"text": digits}, lambda act: act.start < low + 1000 and act.end >= low)
    if middle.start >= 10000:
        data = bytes.fromhex(str(middle.start)) if len(str(middle.start)) % 2 == 0 else None
        found += compare_search(page, want, acts, bad, {"text": str(middle.start)},
                                lambda act: act.start <= middle.start <= act.end or data is not None and data in act.bytes)
    if middle.start >= 60000000:
        tenth = middle.start // 100000 * 100000
        text = f"{tenth // 60000000}:{tenth % 60000000 // 1000000:02}.{tenth % 1000000 // 100000}"
        found += compare_search(page, want, acts, bad, {"text": text}, lambda act: act.start < tenth + 100000 and act.end >= tenth)
    want(found > 0, f"{name}: nothing was found")
    return found


def try_statement(page, want, path, name):
    acts, _ = acts_of(path)
    wanted = list(Walk(acts).shown())
    came = [line for line in json.loads(page.browser.value(LINES)) if "session" not in line[-1]]
    want(len(came) == len(wanted), f"{name}: {len(came)} lines, wanted {len(wanted)}")
    for line, shown in zip(wanted, came):
        want(line == shown[:-1], f"{name}: the statement has {shown}, wanted {line}")
    return len(wanted)


def try_rows(page, want):
    """Rows that aren't listed are said so, and nothing else is shown."""
    code = """(() => {
      const before = by("act-rows").textContent, y = scrollY;
      by("act-row").value = "%s";
      by("act-row").dispatchEvent(new KeyboardEvent("keydown", {key: "Enter", bubbles: true}));
      return JSON.stringify([by("act-row-told").textContent, by("act-rows").textContent === before && Math.abs(scrollY - y) < 200]);
    })()"""
    for row, words in (("99999", "Row 99,999 isn't listed: the list ends with row 85."), ("0", "from 1 on"), ("1.5", "from 1 on")):
        told, is_same = json.loads(page.browser.value(code % row))
        want(words in told and is_same, f"row {row}: {told}, {is_same}")
    told, is_same = json.loads(page.browser.value(code % "45"))
    here = page.browser.value("document.querySelector('#acts [aria-current] .rows')?.textContent")
    want(told == "" and here == "45–46", f"row 45: {told}, {here}")
    # (A long recording, played: ten acts in the middle aren't listed.)
    page.browser.value("""(() => {
      const {index, ...acts} = state.acts, rest = Array.from(new Uint32Array(index));
      rest.splice(10, 10);
      const list = new Acts({...acts, index: Uint32Array.from(rest).buffer}, state.listed - 10);
      list.setups = state.list.setups;
      Object.assign(state, {list, hole: 10, all: state.listed, listed: state.listed - 10, quiet: undefined});
      listAll(state, true);
      drawActs(state);
      return 1;
    })()""")
    told, is_same = json.loads(page.browser.value(code % "40"))
    want("isn't listed: of so long a recording the rows" in told and is_same, f"a row in the hole: {told}, {is_same}")
    print("rows that aren't listed are said so, and nothing is shown in their place")


RANGE = "JSON.stringify([Number(by('line').querySelector('svg').dataset.from), Number(by('line').querySelector('svg').dataset.to)])"


def shown_range(page):
    return json.loads(page.browser.value(RANGE))


def mouse(page, *steps):
    """Moves the mouse over the page: (x, y, what), where `what` is down, up or None."""
    if hasattr(page.browser, "context"):
        actions = []
        for x, y, what in steps:
            actions.append({"type": "pointerMove", "x": round(x), "y": round(y)})
            if what:
                actions.append({"type": "pointerDown" if what == "down" else "pointerUp", "button": 0})
        page.browser.ask("input.performActions", context=page.browser.context,
                         actions=[{"type": "pointer", "id": "mouse", "actions": actions}])
        return
    is_down = False
    for x, y, what in steps:
        page.browser.ask("Input.dispatchMouseEvent", type="mouseMoved", x=x, y=y, buttons=int(is_down), button="left" if is_down else "none")
        if what:
            is_down = what == "down"
            page.browser.ask("Input.dispatchMouseEvent", type="mousePressed" if is_down else "mouseReleased", x=x, y=y,
                             button="left", buttons=int(is_down), clickCount=1)


def key(page, name, shift=False):
    page.browser.value(f"by('line').querySelector('svg').dispatchEvent(new KeyboardEvent('keydown', "
                       f"{{key: {json.dumps(name)}, shiftKey: {json.dumps(shift)}, bubbles: true, cancelable: true}})); 1")


def is_near(came, wanted, slack):
    return all(abs(a - b) <= slack for a, b in zip(came, wanted))


def try_zoom(page, want):
    """Buttons, keys, the wheel and dragging show the range that they say."""
    begin, end = shown_range(page)
    span, middle = end - begin, (begin + end) / 2
    page.browser.value("by('line-in').click(); 1")
    want(is_near(shown_range(page), [middle - span / 4, middle + span / 4], 2), f"zoomed in: {shown_range(page)}")
    page.browser.value("by('line-right').click(); 1")
    want(is_near(shown_range(page), [middle, middle + span / 2], 2), f"moved: {shown_range(page)}")
    page.browser.value("by('line-out').click(); 1")
    want(is_near(shown_range(page), [begin, end], 2), f"zoomed out: {shown_range(page)}")
    key(page, "+")
    want(is_near(shown_range(page), [middle - span / 4, middle + span / 4], 2), f"+: {shown_range(page)}")
    key(page, "ArrowLeft", shift=True)
    want(is_near(shown_range(page), [begin, middle], 2), f"Shift and left: {shown_range(page)}")
    key(page, "0")
    want(shown_range(page) == [begin, end], f"0: {shown_range(page)}")
    page.browser.value("by('line').scrollIntoView({block: 'center'}); 1")
    time.sleep(0.1)
    left, top, wide, inner, right = json.loads(page.browser.value(
        "(() => { const b = by('line').querySelector('svg').getBoundingClientRect(), r = state.line.room;"
        " return JSON.stringify([b.left, b.top, b.width, r.left, r.right]); })()"))
    place = lambda at: left + inner + (at - begin) / span * (right - inner)
    low, high = begin + span * 0.25, begin + span * 0.75
    mouse(page, (place(low), top + 12, "down"), (place(middle), top + 14, None), (place(high), top + 12, "up"))
    want(is_near(shown_range(page), [low, high], span / 200), f"dragged from {low} to {high}: {shown_range(page)}")
    key(page, "0")
    page.browser.value(f"by('line').querySelector('svg').dispatchEvent(new WheelEvent('wheel', {{deltaY: -100, clientX: {place(low)}, ctrlKey: true, bubbles: true, cancelable: true}})); 1")
    came, part = shown_range(page), 2.718281828 ** -0.4
    want(is_near(came, [low - (low - begin) * part, low + (end - low) * part], span / 200), f"the wheel: {came}")
    key(page, "0")
    page.browser.value("by('line').querySelector('svg').dispatchEvent(new WheelEvent('wheel', {deltaY: -100, bubbles: true})); 1")
    want(shown_range(page) == [begin, end], "the wheel alone zooms")
    return left, top, place


def try_marks(page, want):
    """A mark is named when the pointer or a key is at it, and leads to what it is."""
    left, top, place = try_zoom(page, want)
    at = page.browser.value("state.found.money[2].begin")
    row = page.browser.value("state.line.lanes.findIndex((it) => it.name === 'card reader 1')")
    y = top + page.browser.value(f"state.line.room.top({row})") + 12
    mouse(page, (place(at), y, None))
    told = page.browser.value("by('line-told').textContent")
    want("vend success" in told and "0.202 s" in told, f"over a mark: {told}")
    mouse(page, (place(at), y, "down"), (place(at), y, "up"))
    want("52–56" in page.browser.value("document.querySelector('#told-money [aria-current]').textContent"), "a click on a mark")
    want(page.browser.value("document.activeElement.closest('#told-money') !== null"), "a click on a mark has the focus")
    page.browser.value("by('back').click(); 1")
    key(page, "Home")
    for name in ("ArrowDown", "Home", "ArrowRight", "ArrowRight"):
        key(page, name)
    told = page.browser.value("by('line-told').textContent")
    want("vend success" in told and "0.202 s" in told, f"keys: {told}")
    key(page, "Enter")
    want("52–56" in page.browser.value("document.querySelector('#told-money [aria-current]').textContent"), "Enter on a mark")
    page.browser.value("by('back').click(); setRange(state, 1000, 100000); 1")
    text = page.browser.value("by('line').querySelector('svg').textContent")
    want("row 75 ▸" in text, f"the fault is out of sight: {text}")
    page.browser.value("state.line.drawn.find((it) => it.words.includes('breaks the rule')).go(document.body); 1")
    begin, end = shown_range(page)
    want(begin <= 289800 <= end, f"the fault's mark leads to {begin} to {end}")
    print("the time line: buttons, keys, wheel and dragging show their ranges; marks are named and lead to what they are")


def try_narrow(page, want):
    """On 400 px nothing is out of sight sideways, and the fault's mark is in sight."""
    if hasattr(page.browser, "context"):
        page.browser.ask("browsingContext.setViewport", context=page.browser.context, viewport={"width": 400, "height": 800})
    else:
        page.browser.ask("Emulation.setDeviceMetricsOverride", width=400, height=800, deviceScaleFactor=1, mobile=True)
    try:
        page.give(TOP / "examples" / "sale-never-approved.csv")
        time.sleep(0.3)
        wide = page.browser.value("document.documentElement.scrollWidth")
        want(wide <= 400, f"the page is {wide} px wide on 400 px")
        box = json.loads(page.browser.value("JSON.stringify(document.querySelector('#line .bad').getBoundingClientRect())"))
        want(0 <= box["left"] and box["right"] <= 400, f"the fault's mark: {box}")
        for part in ("line", "told-money"):
            inner = page.browser.value(f"Math.max(...[...document.querySelectorAll('#{part} .scroll, #{part}')].map((it) => it.scrollWidth - it.clientWidth))")
            want(inner <= 1, f"{part} scrolls sideways by {inner} px")
    finally:
        if hasattr(page.browser, "context"):
            page.browser.ask("browsingContext.setViewport", context=page.browser.context, viewport=None)
        else:
            page.browser.ask("Emulation.clearDeviceMetricsOverride")
    print("on 400 px: nothing scrolls sideways, and the fault's mark is in sight")


def try_counts(page, want, path):
    """Where marks would cover each other, bars count them: each entry is in one."""
    counts = json.loads(page.browser.value(
        "JSON.stringify(state.line.lanes.map((lane) => [lane.name, barsOf(lane, state.line, state.line.room).reduce((sum, bar) => sum + bar.count, 0), lane.begin.length]))"))
    acts, _ = acts_of(path)
    devices = [acts[index].device for index in Walk(acts).money]
    for name, drawn, there in counts:
        want(drawn == there, f"{name}: {drawn} of {there} are drawn")
    names = {"coin changer": "changer", "bill validator": "bill", "card reader 1": "cashless", "card reader 2": "cashless-2"}
    for name, drawn, _ in counts:
        if name in names and not page.browser.value("state.found.money.some((m) => /session/.test(m.what))"):
            want(drawn == devices.count(names[name]), f"{name}: {drawn} drawn, wanted {devices.count(names[name])}")
    bars = page.browser.value("document.querySelectorAll('#line rect.device').length")
    want(0 < bars < len(devices), f"{bars} bars for {len(devices)} entries")


def try_examples_offered(page, want, address):
    """An example can be tried while nothing is chosen."""
    want(not page.browser.complaints(), f"the console has {page.browser.complaints()[:2]}")
    page.browser.open(address)
    names = json.loads(page.browser.value("JSON.stringify([...document.querySelectorAll('[data-example]')].map((it) => it.dataset.example))"))
    want(len(names) == 2, f"examples: {names}")
    for name in names:
        page.browser.open(address)
        before = page.shown()
        page.browser.value(f"document.querySelector('[data-example={json.dumps(name)}]').click(); 1")
        page.wait(before)
        text = page.browser.value("by('text').textContent")
        want(text == Runs(MDBCHECK).run((TOP / "examples" / name).read_bytes(), "check", "--extended")[1], f"the example {name}: {text}")
    print(f"{len(names)} examples can be tried while nothing is chosen")


def verdict_of(path):
    """What the table has of a file, from what the program prints."""
    status, out, err = Runs(MDBCHECK).run(path.read_bytes(), "check", "--extended")
    if status == 2:
        row = err.split("row ")[1].split(":")[0]
        return ["no verdict", f"{int(row):,}", "", ""]
    told = dict(line.split(" ", 1) for line in out.splitlines())
    if status == 0:
        return ["yes", "", "", ""]
    row, rule = f"{int(told['row']):,}", told["rule"]
    return ["not followed", row, rule, "nobody"] if rule == "Profile" else ["no", row, rule, SENDERS[told["blame"]]]


def try_several(page, want):
    """Several files give a table of their verdicts, and each can be opened."""
    bad = page.work / "no-row.csv"
    bad.write_bytes(b"0,B,102400\n1,2,3\n")
    late = page.work / "late.csv"
    late.write_bytes(b"".join((TOP / "examples" / "coin-told-twice.csv").read_bytes().splitlines(True)[1:]))
    paths = [*sorted((TOP / "examples").glob("*.csv")), bad, late]
    page.options(["--extended"])
    page.browser.choose("#file", *paths)
    for _ in range(2000):
        if page.browser.value("document.getElementById('files')?.dataset.done"):
            break
        time.sleep(0.03)
    came = json.loads(page.browser.value(
        "JSON.stringify([...document.querySelectorAll('#files tbody tr')].map((it) => [...it.children].slice(0, 5).map((c) => c.textContent)))"))
    want([it[0] for it in came] == [it.name for it in paths], f"the files are {[it[0] for it in came]}")
    for path, line in zip(paths, came):
        wanted = verdict_of(path)
        want([line[1] if line[1].startswith("yes") else line[1].split(":")[0], *line[2:]] == wanted, f"{path.name}: the table has {line[1:]}, wanted {wanted}")
    asked = [it[0] for it in came if "already running" in it[1]]
    want(asked[-1:] == ["late.csv"] and "sale-never-approved.csv" not in asked, f"a late beginning is asked of {asked}")
    index = [it.name for it in paths].index("sale-never-approved.csv")
    before = page.shown()
    page.browser.value(f"document.querySelectorAll('#files tbody button')[{index}].click(); 1")
    page.wait(before)
    text = page.browser.value("by('text').textContent")
    want(text == Runs(MDBCHECK).run(paths[index].read_bytes(), "check", "--extended")[1], f"opened: {text}")
    want(page.browser.value("document.querySelector('#files [aria-current]').textContent").startswith("sale-never-approved"), "the opened file isn't marked")
    page.browser.choose("#file", *paths)
    page.browser.value("by('files-stop').click(); 1")
    for _ in range(200):
        if page.browser.value("document.getElementById('files')?.dataset.done"):
            break
        time.sleep(0.03)
    told = page.browser.value("by('files').dataset.done + ': ' + by('files-told').textContent + by('files').querySelector('tbody').lastChild.textContent")
    want(told.startswith("stopped: Stopped") and "not checked" in told, f"stopped: {told}")
    page.give(TOP / "examples" / "coin-told-twice.csv")
    want(page.browser.value("document.getElementById('files') === null"), "the table stays when one file is chosen")
    print(f"several files: the verdicts of {len(paths)} as the program has them, and one opened")


def try_links(page, want, address):
    """All of it."""
    counts, lines, found = {}, 0, 0
    for path in sorted((TOP / "examples").glob("*.csv")):
        page.give(path)
        came = json.loads(page.browser.value(FOLLOW))
        want(not came["wrong"], f"{path.name}: {came['wrong'][:3]}")
        for what, count in came["counts"].items():
            counts[what] = counts.get(what, 0) + count
        lines += try_statement(page, want, path, path.name)
        found += try_searches(page, want, path, path.name)
    for data in (b"0,B,102400\n1,2,3\n", b"1,2,3\n", b""):
        page.give(data)
        came = json.loads(page.browser.value(FOLLOW))
        want(not came["wrong"], f"{data}: {came['wrong'][:3]}")
    print("links followed and back: " + ", ".join(f"{what} {count}" for what, count in sorted(counts.items())))
    # A sale is worth what the reader approved, and not what was asked for.
    less = page.work / "less.csv"
    less.write_text((TOP / "examples" / "sale-by-card.csv").read_text().replace("179400,S,064\n180600,S,169", "179400,S,032\n180600,S,137"))
    page.give(less)
    lines += try_statement(page, want, less, "less is approved than was asked for")
    shown = json.loads(page.browser.value(LINES))
    want(any("card reader 1 0.50" in line[5] and "controller 0.50" in line[5] for line in shown), f"less is approved: {shown}")
    long = page.work / "mixed.csv"
    with long.open("wb") as file:
        subprocess.run([TOP / "bench" / "generate", "mixed", "20000"], stdout=file, check=True)
    page.give(long)
    lines += try_statement(page, want, long, "mixed")
    found += try_searches(page, want, long, "mixed")
    try_counts(page, want, long)
    print(f"the statement: {lines} lines with their sums; searches: {found} acts found, as `show` has them")
    page.give(TOP / "examples" / "sale-never-approved.csv")
    try_marks(page, want)
    try_rows(page, want)
    try_narrow(page, want)
    try_several(page, want)
    try_examples_offered(page, want, address)
