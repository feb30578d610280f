"""Makes tables of edges by docs/bench/edges.md, and others that are nearly so."""

import scenes
from export_parts import (FLAGS, Export, around, choose, damage_bytes, damage_lines, disturbed, padded, part_of,
                          part_words, ties, wanted_of, with_comments, wrong_words)

# In microseconds from where a line falls: middles of bits that decimals can tell exactly.
MIDDLES = [156.25, 468.75, 781.25, 1093.75]
OTHER_TABLES = [
    "",
    " ",
    ",",
    "0,1,1",
    "0.0,1,1",
    "1e-3,1,1",
    "-0.001,1,1",
    "0.001,1",
    "0.001,1,1,1",
    "0.001,2,1",
    "0.001,1,x",
    "Time,M,S",
    "Time,M,M,S",
    "Time [s],Channel 0,Channel 1",
    "999999999999.9999994,1,1",
    "999999999999.9999995,1,1",
    "999999999999999999999,1,1",
    "2026-11-30 09:14:22,1,1",
    "0.001;1;1",
]
TABLE_BYTES = b'0101010123456789.,;:"\t \r\n-+eMSms'
COLUMNS = [("M", "S"), ("m", "s"), ("M", "s"), ("Channel 0", "Channel 1"), ("D0", "D1"), ("0", "1"),
           ("VMC TX", "VMC RX"), ("M", "Channel 7"), ("Gerät", "Münzprüfer")]


def damage_changes(rng, changes, places):
    """A change that is missing or elsewhere, or a pulse more, or an end or a begin less."""
    micro = 10 ** (places - 6)
    times = sorted(changes)
    at = rng.randrange(len(times))
    time = times[at]
    what = choose(rng, (2, "missing"), (3, "moved"), (3, "pulse"), (2, "begin"), (2, "end"),
                  (1, "low"))
    if what == "missing":
        changes[time].pop(rng.choice(sorted(changes[time]) or ["M"]), None)
    elif what == "moved":
        off = choose(rng, (1, rng.uniform(-110, 110)), (3, rng.choice(MIDDLES)))
        base = times[max(0, at - rng.choice([0, 1, 1, 2, 3]))]
        new = base + int(off * micro) + rng.choice([0, 0, 1, -1])
        if new > 0:
            changes.setdefault(new, {}).update(changes.pop(time))
    elif what == "pulse":
        begin = time + int(rng.choice([2000, rng.uniform(-2000, 2000)]) * micro)
        length = rng.choice([1, 10, 52, 53, 100, 1000, 1100, 94_999, 95_000, 100_000, 150_000])
        length = rng.choice([length, rng.uniform(0, 200), rng.choice(MIDDLES) / 3])
        wire, level = rng.choice("MS"), rng.choice([0, 0, 1])
        if begin > 0:
            changes.setdefault(begin, {})[wire] = level
            end = begin + max(1, int(length * micro))
            changes.setdefault(end, {})[wire] = 1 - level
    elif what == "begin":
        for one in times[: rng.choice([1, 2, rng.randrange(len(times))])]:
            del changes[one]
    elif what == "end":
        for one in times[len(times) - rng.choice([1, 1, 2, 5]) :]:
            changes.pop(one, None)
    else:
        changes[times[-1] + 2000 * micro] = {rng.choice("MS"): 0}


def edges_export(rng, recordings):
    rows = part_of(rng, recordings, 95_000)
    lead = rng.choice([2000, 5000, rng.randrange(2000, 10**6), rng.randrange(2000, 10 ** rng.choice([9, 9, 17]))])
    rows = [(time - rows[0][0] + lead, line, value) for time, line, value in rows]
    rows = ties(rng, rows, rng.choice([0, 0, 0.2]))
    unit = choose(rng, (5, "s"), (1, "ms"), (1, "us"), (1, "ns"))
    places = rng.choice([6, 7, 9, 9, 9, 12, 15])
    digits = {"s": 0, "ms": 3, "us": 6, "ns": 9}[unit]
    words = ["edges"]
    scene = scene_of(rng, rows, places, words)
    changes = scene.changes()
    damage = choose(rng, (3, 1), (2, 2), (1, 3)) if rng.random() < 0.6 else 0
    in_edges = sum(rng.random() < 0.5 for _ in range(damage))
    for _ in range(in_edges):
        if changes:
            damage_changes(rng, changes, places)

    def time_in(time):
        behind = max(0, places - digits)
        time *= 10 ** max(0, digits - places)
        whole, rest = divmod(time, 10**behind)
        decimals = f"{rest:0{behind}}" if behind else ""
        if rng.random() < 0.3:
            decimals = decimals.rstrip("0")
        elif len(decimals) < 15 and rng.random() < 0.1:
            decimals += "0" * rng.randint(1, 15 - len(decimals))
        return f"{whole}.{decimals}" if decimals else f"{whole}"

    controller, peripheral = rng.choice(COLUMNS)
    swap, more = rng.random() < 0.3, rng.choice([0, 0, 0, 1, 3])
    blanks, quotes = rng.choice([0, 0, 0.3]), rng.choice([0, 0, 0.3])
    names = [("M", controller), ("S", peripheral)]
    turned, told, known = upside_down(rng, dict(names))
    names += [("x", f"other {one}") for one in range(more)]
    if swap:
        rng.shuffle(names)
    levels = {"M": 1, "S": 1}
    # A line that is low at first isn't read until it is high.
    first = min(changes, default=1)
    low = rng.choice("MS") if first > 1 and rng.random() < 0.1 else None
    records = [(0, {low: 0} if low else {})]
    if low:
        records.append((rng.randrange(1, first), {low: 1}))
    times = sorted(changes)
    for time in times:
        records.append((time, changes[time]))
        if rng.random() < 0.02 and time + 1 not in changes:
            records.append((time + 1, {}))  # nothing changes
    records = [one for at, one in enumerate(records) if at == 0 or one[0] > records[at - 1][0]]
    lines = [",".join(around(rng, name, quotes, blanks)
                      for name in [rng.choice(["Time [s]", "Time", "t", "", "# Time"])]
                      + [name for _, name in names])]
    for time, new in records:
        levels.update(new)
        fields = [time_in(time)]
        for wire, _ in names:
            level = levels[wire] if wire in levels else rng.choice([0, 1, "", "x", 3.5])
            fields.append(str(1 - level if wire in turned else level))
        lines.append(",".join(around(rng, field, quotes, blanks) for field in fields))

    if controller not in "Mm":
        words += ["--controller", controller]
    if peripheral not in "Ss":
        words += ["--peripheral", peripheral]
    if unit != "s" or rng.random() < 0.1:
        words += ["--unit", unit]
    words += part_words(rng, [time for time, _, _ in rows], 0.2)
    for _ in range(in_edges, damage):
        what = rng.random()
        if what < 0.4:
            damage_lines(rng, lines, edges_field_emptied, OTHER_TABLES)
        elif what < 0.5:
            flags = [words.pop(words.index(flag)) for flag in list(words) if flag in FLAGS]
            wrong_words(rng, words)
            words += flags
    words += told if set(told[1:2]) <= {"M", "m", "S", "s", "--invert", *words} else []
    lines, _ = with_comments(rng, lines, 0.1)
    for _ in range(choose(rng, (6, 0), (1, 1), (1, 5))):
        lines.insert(rng.randint(0, len(lines)), "")
    ends = rng.choice([["\n"], ["\r\n"], ["\r"], ["\n", "\r\n", "\r"]])
    text = "".join(line + rng.choice(ends) for line in lines)
    if rng.random() < 0.2:
        text = text.rstrip("\r\n")
    encoding, mark = choose(rng, (6, ("utf-8", b"")), (1, ("utf-8", b"\xef\xbb\xbf")),
                            (1, ("utf-16-le", b"\xff\xfe")), (1, ("utf-16-be", b"\xfe\xff")))
    text = mark + padded(rng, text.encode(encoding), rng.choice("\n\r").encode(encoding))
    if damage and in_edges < damage and rng.random() < 0.4:
        text = damage_bytes(rng, text, TABLE_BYTES)
    truth = scene.truth("--skip-damaged" in words)
    truth = None if damage else known_truth(turned, known, changes, places, truth)
    return Export(text, words, **wanted_of(truth, words))


def upside_down(rng, names):
    """The lines that are written upside down, the words that are given, and whether these say which; None without words."""
    line = rng.choice("MS")
    words = ["--invert-line", rng.choice([line, line.lower(), names[line]])]
    return choose(rng, (28, ("", [], None)), (4, ("MS", ["--invert"], True)), (3, (line, words, True)),
                  (1, ("MS", words + ["--invert"], True)), (4, (line, [], None)), (1, ("MS", [], False)),
                  (1, ("", words, False)), (1, (line, ["--invert"], False)))


def known_truth(turned, known, changes, places, truth):
    """What is read of lines of which some are written upside down; None where that isn't sure."""
    if known is not None:
        return truth if known else None
    without = truth.rows is not None and not any(line in (turned or "MS") for _, line in truth.damaged)
    if not turned:
        return truth if without or not any(low > max(high, 1) for low, high in (long(changes, places, it) for it in "MS")) else None
    low, high = long(changes, places, turned)
    seen = without and high > max(low + 1, 1) and any(row[1] == turned for row in truth.rows)
    return truth if seen else None


def long(changes, places, line):
    """How many low levels and high ones of a line are longer than 11 bits, from its first fall to its last change."""
    level, since, found = 1, None, [0, 0]
    for time in sorted(changes):
        if changes[time].get(line, level) != level:
            found[level] += since is not None and (time - since) * 9600 > 11 * 10**places
            since, level = time, 1 - level
    return found


def scene_of(rng, rows, places, words):
    """What both lines do, in 10**-places seconds, by senders that are a little fast or slow."""
    bit = 10**places / 9600 * rng.choice([1, 1, rng.uniform(0.97, 1.03)])
    scene = scenes.Scene(rng, rows, 10**places, bit)
    disturbed(rng, scene, words)
    return scene


def edges_field_emptied(rng, line):
    """A field that is empty, or at an edge of what may stand there."""
    fields = line.split(",")
    at = rng.randrange(len(fields))
    field = fields[at]
    if at == 0:
        more = rng.choice(["0", ".5", "e3", "h", '"', ".000000000000000", "0000000"])
        fields[at] = rng.choice(["", field + more, "0" + field, field.zfill(15), "0" * 9 + field, "-" + field,
                                 f'"{field.replace(".", ",")}"', "9" * 21, "1" + "0" * 12, "1" + "0" * 21])
    else:
        fields[at] = rng.choice(["", "2", "01", "1.0", " ", '"1"', "true", "0", "1", field * 2])
    return ",".join(fields)
