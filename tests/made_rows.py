"""Makes exports of rows in the forms that docs/bench/importing.md allows, and others that are nearly so."""

import made_times
from export_parts import (Export, around, choose, damage_bytes, damage_lines, options_of, padded, part_of, part_words,
                          with_comments, wrong_words)
from made_times import UNITS, number

NAMES = [
    ("TX", "RX"),
    ("0", "1"),
    ("VMC", "Slave"),
    ("Master", "m1"),
    ("Channel 1", "Channel 2"),
    ("D", "d"),
    ("Gerät", "Münzprüfer"),
    ("контроллер", "монетник"),
    ("→", "½"),
    ("🪙", "🏧 1"),
    ("𝄞", "\ud7ff\ue000"),
]
HEADERS = [
    ["Time", "Line", "Value"],
    ["Time [s]", "Channel", "Value (hex)"],
    ["Zeit (µs)", "Kanal", "Wert"],
    ["Name", "Type", "Start", "Duration", "Data"],
    ["Time [s]", "Ch", "Hex"],
    ["time", "line", "word"],
    ["Time[s]", "Channel 7", "Value"],
    ["T", "L", "D"],
    ["t", "ch", "Ch"],
    ["s", "line", "m"],
    ["Time, s", "Line", "Word"],
    ["name", "type", "start_time", "duration", "data"],
]
# First records that are no header, though none of their fields is that of a row.
NO_HEADERS = [
    ["", "", ""],
    ["Time", "", "Value"],
    ["Time", "Line", "Value", ""],
    ["start_time", "data"],
    ["Time", "M", "Value"],
    ["Time", "b", "Value"],
    ["Time", "1", "Value"],
    ["Time", "Line", "Value", "12:00:00", "x"],
    ["Time [10^-6 s]", "Line", "Value"],
    ["Time", "Line", "Data [0x]"],
    ["Time", "Line", "D0"],
    ["2024-01-02T10:00", "BREAK", "100us"],
    ["l000", "TX", "0x308"],
    ["l000", "X", ""],
    ["?", "TX", "0x308"],
    ["", "TX", "FF"],
    ["TX", "FF"],
    ["xFF"],
]
OTHER_LINES = [
    "# a remark",
    "-----",
    "Time,Line,Value",
    "0,M,108",
    "1;B;100",
    "0:00:01\tS\t0x100",
    "1,2,3,4",
    ",,",
    ";",
    " ",
    '""',
    '"',
    '","',
    "12:60:00,M,108",
    "99:59:59,M,108",
    "23:59:60,S,1",
    "7:5:3,B,0.1",
    "999999999999999999,M,1ff",
    "9999999999999999999999,M,1ff",
    "999999999999999999.5;S;0",
    "2026-11-30 09:14:22;M;108",
    "2026-11-30,09:14:22,M,108",
    "30.11.2026T9:14:22,5\tS\t0",
    "2026-11-30T10:14:22+01:00,M,8",
    "2026-11-30T10:14:22Z;B;100",
    "2026-02-29 00:00:00,M,108",
    "1e9,M,108",
    "-1,M,108",
    "999999999,B,999.9999995",
    "999999999;B;999,9999994",
]
BYTES = b'0123456789ABCDEFabcdefMmSsBbXxHhTRZ*#.,;:\t "\r\n-+\x00\xa0'


def word(rng, value, form):
    star = value > 0xFF and "star" in form and rng.random() < 0.7
    value -= 0x100 * star
    stars = rng.choice([("*", ""), ("", "*")]) if star else ("", "")
    return word_itself(rng, value, form).join(stars)


def word_itself(rng, value, form):
    if "decimal" in form:
        return f"{value:0{rng.choice([1, 1, 2, 3])}}"
    digits = f"{value:0{rng.choice([1, 2, 3, 4]) if 'few' in form else 3}X}"
    digits = rng.choice([digits.lower(), digits]) if "mixed" in form else digits
    digits = digits.lower() if "lower" in form else digits
    front = rng.choice(["0x", "0x", "0X"]) if "0x" in form else ""
    behind = rng.choice(["h", "H"]) if "h" in form and not front else ""
    return front + digits + behind


def rows_export(rng, recordings):
    rows = part_of(rng, recordings, 0)
    kind = rng.choice(made_times.FORMS)
    shift = made_times.shift_of(rng, kind, rows[-1][0] - rows[0][0])
    shift -= rows[0][0] if kind == "day" else rng.choice([rows[0][0], 0])
    rows = [(max(0, time + shift), line, value) for time, line, value in rows]
    unit = kind if kind in UNITS else "s"
    if kind not in UNITS and rng.random() < 0.2:
        unit = rng.choice(list(UNITS))  # of the breaks
    told_unit = None if kind not in UNITS and unit == "s" and rng.random() < 0.8 else unit

    separators = rng.choice([",", ";", "\t", ";\t", ",;\t"])
    comma = rng.random() < 0.5
    exact = rng.random() < 0.5
    writer = made_times.Written(rng, kind, exact)
    quotes, blanks = rng.choice([0, 0, 0.2, 1]), rng.choice([0, 0, 0.2, 1])
    form = [one for one in ("few", "mixed", "lower", "0x", "h") if rng.random() < 0.4]
    form += [one for one in ("star", "decimal") if rng.random() < 0.1]
    controller, peripheral = rng.choice(NAMES)
    if rng.random() < 0.3:
        controller, peripheral = peripheral, controller
    controller = controller if rng.random() < 0.6 else None
    peripheral = peripheral if rng.random() < 0.6 else None
    names = {"M": ["M", "m"], "S": ["S", "s"], "B": ["B", "b"]}
    if rng.random() < 0.4:
        names = {line: two[:1] for line, two in names.items()}
    for line, name in (("M", controller), ("S", peripheral)):
        if name is not None:
            names[line] = rng.choice([[name], [name], names[line] + [name]])

    lines, header = [], rng.random() < 0.4
    nearly = not header and rng.random() < 0.15
    no_header = not header and not nearly and rng.random() < 0.1
    if header or no_header:
        separator = rng.choice(separators)
        titles = rng.choice(HEADERS if header else NO_HEADERS)
        lines.append(separator.join(around(rng, one, quotes, blanks) for one in titles))
    for time, line, value in rows:
        separator = rng.choice(separators)
        with_comma = comma and separator != ","
        time = writer.time(time, with_comma, "\t;,"[: "\t;,".index(separator) + 1])
        if line == "B":
            value = number(rng, int(value), unit, with_comma, exact)
        else:
            value = word(rng, int(value, 16), form)
        fields = [time, rng.choice(names[line]), value]
        if None in fields:
            return rows_export(rng, recordings)
        if nearly and not lines:
            fields = nearly_first(rng, *fields)
        fields = [around(rng, field, quotes, blanks) for field in fields]
        lines.append(separator.join(fields))

    if rng.random() < 0.01:  # no row at all
        del lines[header or no_header:]
        rows, nearly = [], False
    words = ["rows"]
    if told_unit is not None:
        words += ["--unit", told_unit]
    if controller is not None:
        words += ["--controller", controller]
    if peripheral is not None:
        words += ["--peripheral", peripheral]
    words += part_words(rng, [time for time, _, _ in rows], 0.2)
    options, _ = options_of(words)
    first, last = options.get("--from"), options.get("--until")
    wanted = [
        f"{time},{line},{int(value) if line == 'B' else value.upper()}"
        for time, line, value in rows
        if (first is None or first <= time) and (last is None or time <= last)
    ]

    lines, comments = with_comments(rng, lines, 0.1 if lines else 0)
    whole = nearly or no_header or rng.random() < 0.4
    damage = 0 if whole or not lines else choose(rng, (3, 1), (2, 2), (1, 3))
    in_lines = sum(rng.random() < 0.5 for _ in range(damage))
    for _ in range(in_lines):
        damage_lines(rng, lines, rows_field_emptied, OTHER_LINES)
    in_words = damage and rng.random() < 0.1
    if in_words:
        wrong_words(rng, words)
    if "decimal" in form and not (in_words and rng.random() < 0.5):
        words.insert(rng.choice([1, len(words)]), "--decimal")
    for _ in range(choose(rng, (4, 0), (1, 1), (1, 5))):
        lines.insert(rng.randint(0, len(lines)), "")
    ends = rng.choice([["\n"], ["\r\n"], ["\r"], ["\n", "\r\n", "\r"]])
    text = "".join(line + rng.choice(ends) for line in lines)
    if rng.random() < 0.2:
        text = text.rstrip("\r\n")
    encoding, mark = choose(
        rng,
        (4, ("utf-8", b"")),
        (1, ("utf-8", b"\xef\xbb\xbf")),
        (1, ("utf-16-le", b"\xff\xfe")),
        (1, ("utf-16-be", b"\xfe\xff")),
        (1, ("latin-1", b"")),
    )
    if encoding == "latin-1" and not ((controller or "") + (peripheral or "")).isascii():
        encoding = "utf-8"
    text = mark + padded(rng, text.encode(encoding), rng.choice("\n\r").encode(encoding))
    for _ in range(damage - in_lines):
        text = damage_bytes(rng, text, BYTES)
    if nearly or no_header:
        # (in a part its own time may be outside)
        return Export(text, words, None, refused=comments + 1 if first is last is None else None)
    return Export(text, words, None if damage else wanted)


def nearly_first(rng, time, line, value):
    """The fields of a row whose time has no form of one: it is misspelt, or has grown together with
    the line's name. Perhaps the other fields are misspelt too."""
    if rng.random() < 0.3:
        return [time + rng.choice([".", " ", "/"]) + line, value]
    if rng.random() < 0.5:
        line = rng.choice([line + "?", "BREAK", "TX ", "", "x", "-", line])
        value = rng.choice(["0x308", "xx", "", "-", "FFF", value + "?", "100us", "FF", value])
    more = rng.choice(["s", " ms", "Z+", "e0", "O", ":", ".", "\xb5s"])
    lead = rng.choice(["l", "O", "-", "+", "t=", "26-11-26 ", "11/26/2026 "])
    return [rng.choice([lead + time, time + more, lead + time + more]), line, value]


def rows_field_emptied(rng, line):
    """A field that is empty, or at an edge of what may stand there."""
    separator = next((one for one in "\t;" if one in line), ",")
    fields = line.split(separator)
    at = rng.randrange(len(fields))
    field = fields[at]
    if rng.random() < 0.3 or at == 1:
        fields[at] = rng.choice(["", "", " ", '""', field.swapcase(), f'"{field}', f'{field}"'])
    elif at == 0:
        more = rng.choice(["0", ".5", ",5", ":00", "h", "\xa0", " ", '"', '""', ".000000000000000", "Z", "-01", "+0100"])
        lead = rng.choice(["0", "0" * 8, "0:", "24:", '"', '""', "-", " ", "\xa0", "2026-11-30 ", "1.1.1970T"])
        fields[at] = rng.choice([field + more, lead + field, field.zfill(21), field.zfill(22),
                                 made_times.at_an_edge(rng, field), made_times.at_an_edge(rng, field)])
    else:
        fields[at] = rng.choice(
            [f"0{field}", f"0x{field}", f"{field}h", f"0x{field}h", f'{field}""', f'"{field}""',
             "1FF", "0x1ff", "01FFh", "200", "0x0200", "00108", "0x00108", "00108h", "h", "0x", "x8",
             f"*{field}", f"{field}*", f"*{field}*", "FF*", "*FF", "100*", "0x0B*", "*0Bh", "0Bh*", "*", "**8", "256", "511",
             "512", "255*", "*256", "00000000000264", "199", "200", "1_0", "1e2", "264", "999,9999994", "999.9999995", "1000", "999999999.5"]
        )
    return separator.join(fields)
