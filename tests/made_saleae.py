"""Makes tables of an asynchronous serial analyser by docs/bench/saleae.md, and others that are nearly so."""

import scenes
from export_parts import (Export, choose, damage_bytes, damage_lines, maybe_skip, options_of, padded, part_of,
                          part_words, wanted_of, with_comments, wrong_words)

ANALYSERS = [
    ("MDB master", "MDB slave"),
    ("Async Serial", "Async Serial [2]"),
    ("Bus, M", "Bus, S"),
    ('the "M" line', 'the "S" line'),
    ("0", "1"),
    ("m ", "VMC"),
    ("контроллер", "монетник"),
]
TITLES = [
    ("time", ["start_time", "Time [s]"]),
    ("name", ["name", "Analyzer Name"]),
    ("data", ["data", "Value"]),
    ("error", ["error"]),
    ("parity", ["Parity Error"]),
    ("framing", ["Framing Error"]),
    ("type", ["type"]),
    ("address", ["address"]),
    (None, ["duration", "Packet ID", "Address", "Data", "Start_time", ""]),
]
EDGES = {
    "time": ["-0.001", "-", "", "1", "0,5", "1e-05", "0:00:01", "+1", ".5", "1.", "999999999999.9999994",
             "999999999999.9999995", "0.0000005", "0.0000004999", "1234567890123456789012", "0.1234567890123456",
             "999999999999.999999500000000", "000000000000000000001", "0.000000000000000", "2026-11-30T09:14:22.447Z",
             "0.00000049999999999999999999", "0.12345678901234567e", "0.1234567890123456.7"],
    "name": ["M", "m", "S", "s", "B", "", "MM", "Async Serial", " M "],
    "data": ["0x000", "0", "0x", "0x1FF", "0x200", "0xFF", "0x100", "0XFF", "108", "0x0108h", "108h",
             "0x00108", "0b1000", "264", "'H'", "0x1ff", "", "0x01 0x0B", "0x0"],
    "error": ["parity", "framing", "Framing", "overrun", "", "parity framing", " framing "],
    "parity": ["Error", "", " ", "0"],
    "framing": ["Error", "", " ", "x"],
    "type": ["data", "", "Data", "error", "packet", ' "data" '],
    "address": ["true", "false", "", "True", "1", "0x08", " true"],
    None: ["", "x", "1,2", '"'],
}
OTHER_ROWS = [
    "",
    ",",
    '"',
    '""',
    ",,,,,",
    "# a remark",
    'name,type,start_time,duration,"data","error"',
    "M,data,0.001,0.001,0x108,",
    "Time [s],Value,Parity Error,Framing Error",
    "0.001,0x108,,",
]


def field_text(rng, field, quotes, blanks):
    """A field as it stands in CSV."""
    if rng.random() < blanks:
        field = " " * rng.randint(0, 2) + field + " " * rng.randint(0, 2)
    if "," in field or rng.random() < quotes:
        field = '"' + field.replace('"', '""') + '"'
        if rng.random() < blanks:
            field += " " * rng.randint(0, 2)
    return field


def saleae_time(rng, micros, exact):
    """Seconds that are nearest to these microseconds."""
    places = rng.choice([9, 12, 15, 16, 17, 20, 25])
    parts = micros * 10 ** (places - 6)
    if not exact:
        tenth = 10 ** (places - 7)  # of a microsecond
        off = choose(rng, (1, -5), (1, 4), (2, rng.randint(-5, 4))) * tenth
        parts = max(0, parts + off + rng.choice([0, tenth - 1, rng.randrange(tenth)]))
    whole, decimals = divmod(parts, 10**places)
    decimals = f"{decimals:0{places}}"
    if rng.random() < 0.8:
        decimals = decimals.rstrip("0")
    whole = str(whole)
    if rng.random() < 0.05:
        whole = whole.zfill(rng.randint(len(whole), 21))
    return f"{whole}.{decimals}" if decimals else whole


def saleae_export(rng, recordings):
    rows = part_of(rng, recordings, 0)
    length = rng.choice([0, 100_500, 150_000, 999_999_999, rng.randrange(10**6)])
    shift = choose(rng, (3, 0), (1, rng.randrange(10**6)), (1, rng.randrange(10**14)), (1, rng.randrange(10**17)))
    shift -= rng.choice([rows[0][0], 0])
    rows = [(max(0, time + shift), line, value) for time, line, value in rows]

    controller, peripheral = rng.choice(ANALYSERS)
    if rng.random() < 0.3:
        controller, peripheral = peripheral, controller
    controller = controller if rng.random() < 0.6 else None
    peripheral = peripheral if rng.random() < 0.6 else None
    names = {"M": ["M", "m"], "S": ["S", "s"]}
    for line, name in (("M", controller), ("S", peripheral)):
        if name is not None:
            names[line] = rng.choice([[name], [name], names[line] + [name]])

    errors = rng.choice([["error"], ["error"], ["parity", "framing"], ["error", "parity", "framing"],
                         ["error", "framing"]])
    columns = ["name", "time", "data"] + errors
    columns += ["type"] * (rng.random() < 0.7) + ["address"] * (rng.random() < 0.3)
    columns += [None] * rng.choice([0, 1, 1, 2])
    if rng.random() < 0.7:
        rng.shuffle(columns)
    titles = [rng.choice(dict(TITLES)[column]) for column in columns]
    if columns[0] is None and rng.random() < 0.3:
        titles[0] = rng.choice(["#", "# id"])  # no comment, since it has the columns
    quotes, blanks = rng.choice([0, 0, 0.2, 1]), rng.choice([0, 0, 0.2, 1])
    exact, digits = rng.random() < 0.5, rng.choice([1, 2, 3, 4, 4, 4])
    lower = rng.random() < 0.3

    kinds = rows_with_damage(rng, rows)
    lines = [",".join(field_text(rng, title, quotes, blanks) for title in titles)]
    for time, line, value, is_damaged in kinds:
        word = 0 if line == "B" else int(value, 16)
        fields = {
            "time": saleae_time(rng, time, exact),
            "name": rng.choice(names["M" if line == "B" else line]),
            "data": f"{word:0{digits}X}",
            "type": "data",
            "error": "framing" if line == "B" or is_damaged else "",
            "framing": "Error" if line == "B" or is_damaged else "",
            "parity": "",
            "address": "",
            None: rng.choice(["", "0.001041625", "1e-05", "x, y"]),
        }
        if (line == "B" or is_damaged) and "error" in errors and "framing" in errors:
            fields[rng.choice(["error", "framing", None])] = ""
        if "address" in columns:
            fields["data"] = f"{word % 256:0{digits}X}"
            fields["address"] = "true" if word > 255 else rng.choice(["false", "false", ""])
        fields["data"] = "0x" + (fields["data"].lower() if lower else fields["data"])
        lines.append(",".join(field_text(rng, fields[column], quotes, blanks) for column in columns))

    words = ["saleae"]
    if controller is not None:
        words += ["--controller", controller]
    if peripheral is not None:
        words += ["--peripheral", peripheral]
    has_break = any(line == "B" for _, line, _ in rows)
    if has_break and rng.random() < 0.97 or rng.random() < 0.2:
        words += ["--break", str(length)]
    words += part_words(rng, [time for time, _, _ in rows], 0.2)

    damage = choose(rng, (3, 1), (2, 2), (1, 3)) if rng.random() < 0.55 else 0
    in_lines = sum(rng.random() < 0.6 for _ in range(damage))
    for _ in range(in_lines):
        damage_lines(rng, lines, lambda rng, line: saleae_field_at_edge(rng, line, columns), OTHER_ROWS)
    if damage and rng.random() < 0.1:
        wrong_words(rng, words)
    if damage and rng.random() < 0.15:
        saleae_header_damaged(rng, lines)
    maybe_skip(rng, words, 0.75 if len(kinds) > len(rows) else 0.2)
    wanted = saleae_wanted(kinds, words, length)
    if any(name and name != name.strip(' "') for name in (controller, peripheral)):
        wanted = {"rows": None}  # such a name is never found
    lines, comments = with_comments(rng, lines, 0.1)
    if wanted.get("refused"):
        wanted["refused"] += comments
    for _ in range(choose(rng, (4, 0), (1, 1), (1, 5))):
        lines.insert(rng.randint(0, len(lines)), "")
    ends = rng.choice([["\n"], ["\r\n"], ["\r"], ["\n", "\r\n", "\r"]])
    text = "".join(line + rng.choice(ends) for line in lines)
    if rng.random() < 0.2:
        text = text.rstrip("\r\n")
    encoding, mark = choose(
        rng,
        (4, ("utf-8", b"")),
        (1, ("utf-8", b"\xef\xbb\xbf")),
        (1, ("utf-16-le", b"\xff\xfe")),
        (1, ("utf-16-be", b"\xfe\xff")),
    )
    text = mark + padded(rng, text.encode(encoding), rng.choice("\n\r").encode(encoding))
    for _ in range(damage - in_lines):
        text = damage_bytes(rng, text, b'0123456789ABCDEFabcdefxXMmSstruegnid.,"\r\n -', b"0123456789")
    return Export(text, words, **{"rows": None} if damage else wanted)


def rows_with_damage(rng, rows):
    """The rows, with words among them that have no stop bit, in nearly half: (.., whether it is such)."""
    found = [(*row, False) for row in rows]
    for _ in range(choose(rng, (11, 0), (4, 1), (2, 2), (2, rng.randint(3, 9)))):
        at = rng.randint(0, len(found))
        time = found[rng.choice([at - 1, min(at, len(found) - 1)])][0]
        time = max(0, time + rng.choice([0, 1, -1, rng.randint(-10**4, 10**4)]))
        time = rng.choice([time, time, time, found[0][0], rng.randrange(10**9)])
        line, value = rng.choice([("M", rng.randrange(1, 512)), ("S", rng.randrange(512)), ("S", 0)])
        found.insert(at, (time, line, f"{value:03X}", True))
    return found


def saleae_wanted(kinds, words, length):
    """What a table has to give of these rows and damaged words."""
    options, flags = options_of(words)
    for number, (_, line, _, is_damaged) in enumerate(kinds, 2):
        if is_damaged and not flags or line == "B" and "--break" not in options:
            return {"rows": None, "refused": number}
    rows = [(time, line, str(length) if line == "B" else value.upper())
            for time, line, value, is_damaged in kinds if not is_damaged]
    damaged = [(time, line) for time, line, _, is_damaged in kinds if is_damaged]
    return wanted_of(scenes.Truth(rows, [], damaged), words)


def saleae_field_at_edge(rng, line, columns):
    """A field at an edge of what may stand there; or one field more, or fewer."""
    fields = line.split(",")
    at = rng.randrange(len(fields))
    if rng.random() < 0.1:
        return rng.choice([line + ",", line.rpartition(",")[0]])
    column = columns[at] if len(fields) == len(columns) else None
    fields[at] = rng.choice(EDGES[column])
    return ",".join(fields)


def saleae_header_damaged(rng, lines):
    """A column of another name, or one more; or a missing one."""
    titles = lines[0].split(",") if lines else [""]
    new = rng.choice([title for _, titles in TITLES for title in titles])
    what, at = rng.randrange(3), rng.randrange(len(titles))
    if what == 0:
        titles[at] = new
    elif what == 1:
        titles.insert(at, new)
    else:
        del titles[at]
    lines[:1] = [",".join(titles)]
    if what == 1 and rng.random() < 0.8:  # the column is there in the other lines too
        lines[1:] = [line.replace(",", ",,", 1) if at else "," + line for line in lines[1:]]
