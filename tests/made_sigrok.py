"""Makes traces of sigrok-cli by docs/bench/sigrok-trace.md, and others that are nearly so."""

import re

import scenes
from export_parts import (Export, choose, damage_bytes, damage_lines, disturbed, maybe_skip, part_of, part_words,
                          ties, wanted_of)

OTHER_RECORDS = [
    "",
    " ",
    "{}",
    '{"traceEvents": [',
    "]}",
    "],",
    '{"ph": "B", "ts": 1.000000, "pid": "uart-1", "tid": "TX", "name": "0"},',
    '{"ph": "E", "ts": 1.000000, "pid": "uart-2", "tid": "TX", "name": "108"},',
    '{"ph": "B", "ts": 1.000000, "pid": "uart-1", "tid": "TX", "name": "Start bit"},',
    '{"ph": "X", "ts": 1.000000, "pid": "uart-1", "tid": "TX", "name": "Start bit"}',
]
KINDS = [
    ("", "Start bit"),
    ("", "000"),
    ("", "1FF"),
    ("", "200"),
    ("", "1ff"),
    ("", "08"),
    ("", "1000"),
    ("", "Parity error"),
    ("", "Stop bit"),
    (" warnings", "Frame error"),
    (" break", "Break condition"),
    ("", "Frame error"),
    (" warnings", "Break condition"),
]


def pair(tid, name, begin, end):
    """The two records of a thing, times in millionths of a microsecond."""
    return [
        f'{{"ph": "{ph}", "ts": {ts // 10**6}.{ts % 10**6:06}, "pid": "uart-1", '
        f'"tid": "{tid}", "name": "{name}"}},'
        for ph, ts in (("B", begin), ("E", end))
    ]


def trace_of(rng, scene, swapped, words):
    """The pairs of a trace as sigrok-cli writes them of a scene in samples, and what it has to give."""
    tids = {"TX": "M", "RX": "S"}
    pairs, found = scenes.trace(scene.changes(), scene.units, tids)

    def at(sample):
        return (sample * 10**12 * 2 + scene.units) // (2 * scene.units)

    read = {"MS"[(tid == "RX") != swapped]: things for tid, things in found.items()}
    truth = scenes.trace_truth(read, at, "--skip-damaged" in words)
    return [pair(tid, name, at(begin), at(end)) for tid, name, begin, end in pairs], truth


def sigrok_export(rng, recordings, traces=None):
    words = ["sigrok"] + ["--swap"] * (rng.random() < 0.1)
    swapped = len(words) > 1
    truth = None
    if traces:
        pairs = rng.choice(traces)
        begin = choose(rng, (4, 0), (1, rng.randrange(len(pairs))))
        pairs = pairs[begin : begin + rng.choice([4, 20, 80, 1000, 1000])]
        pairs = [list(two) for two in pairs]
        maybe_skip(rng, words, 0.3)
    else:
        rows = part_of(rng, recordings, 1200)
        rows = ties(rng, rows, 0.02)
        shift = rng.choice([0, 0, -rows[0][0], rng.randrange(10**12), rng.randrange(10**17)])
        rows = [(time + shift, line, value) for time, line, value in rows]
        scene = scenes.Scene(rng, rows, rng.choice([1_000_000, 4_000_000, 24_000_000]))
        disturbed(rng, scene, words)
        pairs, truth = trace_of(rng, scene, swapped, words)
        if rng.random() < 0.1:  # the capture ends earlier
            del pairs[rng.randint(1, len(pairs)) :]
            truth = None
        words += part_words(rng, [time for time, _, _ in rows], 0.2)

    damage = choose(rng, (3, 1), (2, 2), (1, 3)) if rng.random() < 0.6 else 0
    in_pairs = sum(rng.random() < 0.6 for _ in range(damage))
    for _ in range(in_pairs):
        damage_pairs(rng, pairs)
    lines = ['{"traceEvents": ['] + [record for two in pairs for record in two] + ["]}"]
    lines[-2] = lines[-2].removesuffix(",")
    in_lines = sum(rng.random() < 0.4 for _ in range(damage - in_pairs))
    for _ in range(in_lines):
        damage_lines(rng, lines, sigrok_field_emptied, OTHER_RECORDS)
    if rng.random() < 0.2:
        lines = [re.sub('"ts": ', lambda ts: ts[0] + "0" * rng.randint(0, 16), one) for one in lines]
    if rng.random() < 0.02:  # the end of a block of a read lies in the text
        at = rng.randrange(len(lines))
        zeros = "0" * (rng.choice([8192, 65536]) - sum(map(len, lines[:at])) % 8192)
        lines[at] = lines[at].replace('"ts": ', f'"ts": {zeros}')
    ends = rng.choice([["\n"], ["\n"], ["\r\n"], ["\n", "\r\n"]])
    text = "".join(line + rng.choice(ends) for line in lines)
    if rng.random() < 0.2:
        text = text.rstrip("\r\n")
    text = text.encode()
    for _ in range(damage - in_pairs - in_lines):
        text = damage_bytes(rng, text, b'0123456789.ABEFTRX"{},:\r\n -\x00\xff', b"0123456789")
    return Export(text, words, **wanted_of(None if damage else truth, words))


def damage_pairs(rng, pairs):
    """A pair that says something else, or stands elsewhere."""
    at = rng.randrange(len(pairs))
    breaks = [at for at, two in enumerate(pairs) if "warnings" in two[0] or "break" in two[0]]
    if breaks and rng.random() < 0.2:
        at = min(len(pairs) - 1, rng.choice(breaks) + rng.choice([0, 0, 1]))
    what = rng.randrange(12)
    if what == 0 and len(pairs) > 1:
        del pairs[at]
    elif what == 1:
        pairs.insert(at, list(pairs[at]))
    elif what == 2:
        pairs.insert(rng.randrange(len(pairs)), pairs.pop(at))
    elif what == 3 and len(pairs) > 1:
        at = rng.randrange(len(pairs) - 1)
        pairs[at], pairs[at + 1] = pairs[at + 1], pairs[at]
    elif what == 4:  # another line
        other = {"T": "R", "R": "T"}
        pairs[at] = [re.sub('(?<="tid": ")[TR]', lambda line: other[line[0]], one)
                     for one in pairs[at]]
    elif what == 5:  # another kind
        tid, name = rng.choice(KINDS)
        tid = rng.choice(["TX", "RX"]) + tid
        rest = f'"tid": "{tid}", "name": "{name}"'
        pairs[at] = [re.sub('"tid": .*?, "name": "[^"]*"', rest, one) for one in pairs[at]]
    elif what in (6, 7) and 0 < at < len(pairs) - 1:  # a word is missing
        starts = [at for at, two in enumerate(pairs[:-1]) if '"Start bit"' in two[0]]
        at = rng.choice(starts or [0])
        del pairs[at : at + 2]
    elif what == 8 and any("break" in pairs[at][0] for at in breaks):  # another time of a break
        at = rng.choice([at for at in breaks if "break" in pairs[at][0]])
        starts = [two[0] for two in pairs[:at] if '"Start bit"' in two[0] and '"TX"' in two[0]]
        begin = re.search(r"([0-9]+)\.([0-9]{6})", rng.choice([pairs[at][0]] + starts[-2:]))
        begin = int(begin[1] + begin[2])
        end = begin + choose(rng, (1, 10**15 - 500_001), (1, 10**15 - 500_000), (1, 10**18), (1, 10**11), (1, -1))
        tid = re.search('"tid": "(.*?)"', pairs[at][0])[1]
        pairs[at] = pair(tid, "Break condition", begin, max(0, end))
    else:  # another time
        ts = rng.choice(
            [
                f"{rng.choice([0, 1000, 99999, 10**12, 10**18 - 1, 10**18])}.000000",
                f"{10**18 - 1}.{rng.choice(['499999', '500000'])}",
                f"{rng.randrange(10**9)}.{rng.randrange(10**6):06}",
                "+", "+", "-", "-", "copy", "copy",
            ]
        )
        other = pairs[max(0, at - rng.randint(1, 4))][0]
        which = rng.choice([(0,), (1,), (1,), (0, 1)])
        for one in which:
            found = re.search(r'"ts": ([0-9]+)\.([0-9]{6})', pairs[at][one])
            if ts in "+-":
                much = rng.choice([1, 499_999, 500_000, 10**6, 10**8, 10**9, 10**18])
                now = int(found[1] + found[2]) + (much if ts == "+" else -much)
                new = f"{max(0, now) // 10**6}.{max(0, now) % 10**6:06}"
            elif ts == "copy":
                new = re.search(r'"ts": ([0-9.]+)', other)[1]
            else:
                new = ts
            pairs[at][one] = re.sub(r'"ts": [0-9.]+', f'"ts": {new}', pairs[at][one])


def sigrok_field_emptied(rng, line):
    fields = list(re.finditer(r': "([^"]*)"|: ([0-9.]+)', line))
    if not fields:
        return ""
    field = rng.choice(fields)
    span = field.span(1) if field[1] is not None else field.span(2)
    return line[: span[0]] + line[span[1] :]
