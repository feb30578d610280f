"""What makers of exports share (made_rows.py, made_saleae.py, made_sigrok.py, made_edges.py, made_vcd.py):
parts of recordings, options, and damage done to a text.
"""

import scenes
from made_times import part_end
from second_clock import end_of


class Export:
    """An export, and what it was made from."""

    def __init__(self, text, words, rows, refused=None, pulses=(), damaged=()):
        self.text = text  # its bytes
        self.words = words  # the program's words
        self.rows = rows  # the rows that it has to give, or None where that isn't known
        self.refused = refused  # the record that has to be refused, where one has to: its number or True
        self.pulses = list(pulses)  # (time, line) of those that have to be told, next to the rows
        self.damaged = list(damaged)


FLAGS = ("--decimal", "--swap", "--invert", "--skip-damaged")


def options_of(words):
    """The options of the words after a command, and the flags among them."""
    options, words = {}, list(words[1:])
    flags = {word for word in words if word in FLAGS}
    words = [word for word in words if word not in FLAGS]
    options.update(zip(words[::2], words[1::2]))
    for option in ("--from", "--until", "--break"):
        if option in options:
            options[option] = end_of(options[option])
    return options, flags


def maybe_skip(rng, words, much):
    """The flag --skip-damaged, in so many of all, in some place of the words; rarely twice."""
    if rng.random() < much:
        for _ in range(choose(rng, (9, 1), (1, 2))):
            words.insert(1 if rng.random() < 0.5 else len(words), "--skip-damaged")


def disturbed(rng, scene, words):
    """Puts pulses and damaged words into a scene, in half of them; mostly with the option then."""
    kinds = choose(rng, (10, []), (5, scenes.PULSES), (3, scenes.DAMAGE),
                   (3, scenes.PULSES + scenes.DAMAGE))
    for _ in range(choose(rng, (4, 1), (3, 2), (2, 4), (1, 8)) if kinds else 0):
        scene.put(rng.choice(kinds))
    maybe_skip(rng, words, 0.75 if scenes.DAMAGE[0] in kinds else 0.2)


def wanted_of(truth, words):
    """What an export has to give that holds this: the keywords of an Export."""
    if truth is None:
        return {"rows": None}
    if truth.rows is None:
        return {"rows": None, "refused": True}
    options, _ = options_of(words)
    first, last = options.get("--from", 0), options.get("--until", 10**18)
    rows = [f"{time},{line},{value}" for time, line, value in truth.rows if first <= time <= last]
    return {"rows": rows, "pulses": truth.pulses, "damaged": truth.damaged}


def part_words(rng, times, share):
    """The words that ask for a part, in some, with a begin and an end near such times."""
    words = []
    for option in ("--from", "--until"):
        if times and rng.random() < share:
            far = choose(rng, (60, 0), (1, 10**9), (1, -10**9), (1, 10**15))
            words += [option, part_end(rng, max(0, rng.choice(times) + rng.choice([-1, 0, 1]) + far))]
    return words


# How many rows an export has, and how often; and the share of those with thousands.
LENGTHS = [(4, 1), (4, 3), (5, 10), (4, 40), (2, 300)]
BIG = 1 / 250


def repeated(rows, number):
    """So many rows: the recording again and again."""
    whole = []
    while len(whole) < number:
        shift = whole[-1][0] + 10**6 if whole else 0
        whole += [(time + shift, *rest) for time, *rest in rows]
    return whole[:number]


def ties(rng, rows, share):
    """The rows, of which some answers have the time of what they answer; then both lines speak at once."""
    return [(rows[at - 1][0], *row[1:]) if at and (rows[at - 1][1], row[1]) == ("M", "S") and rng.random() < share
            else row for at, row in enumerate(rows)]


def padded(rng, text, blank):
    """The text with so many blanks in front that it lies across the end of a block of a read."""
    if rng.random() >= 0.02 or len(text) < 2 or not blank:
        return text
    block = rng.choice([8192, 65536, 65536])
    return blank * ((block - rng.randrange(1, min(len(text), 400))) // len(blank)) + text


def part_of(rng, recordings, shortest):
    """Some rows of a recording, perhaps with a break more, of this length or longer."""
    rows = rng.choice(recordings)
    if rng.random() < BIG:
        rows = repeated(rows, rng.choice([1000, 2000, 4000]))
    else:
        begin = rng.choice([0, rng.randrange(len(rows))])
        rows = rows[begin : begin + choose(rng, *LENGTHS)]
    if rng.random() < 0.25:
        at = rng.randint(0, len(rows))
        length = rng.choice([shortest, 100_000, 999_999_999, rng.randint(shortest, 10**6)])
        time = max(0, rows[0][0] - 2000)
        if at:
            time = rows[at - 1][0] + 2000
            time += int(rows[at - 1][2]) if rows[at - 1][1] == "B" else 0
        after = [(one[0] + length + 4000, *one[1:]) for one in rows[at:]]
        rows = rows[:at] + [(time, "B", str(length))] + after
    return rows


def choose(rng, *weighted):
    """One of the pairs (weight, what)."""
    return rng.choices([what for _, what in weighted], [weight for weight, _ in weighted])[0]


def around(rng, field, quotes, blanks):
    if rng.random() < blanks:
        field = " " * rng.randint(0, 3) + field + " " * rng.randint(0, 3)
    if rng.random() < quotes:
        field = f'"{field}"'
        if rng.random() < blanks:
            field = field + " " * rng.randint(0, 2)
    return field


# Records that are comments above a header, with whatever columns.
COMMENTS = ["#", "# saved by a recorder", "; saved", ";", " # 1,2,3", '"#", "x"', "#\t5", "#;M;108", "; 0,M,108", "\"; a, b\"", "##"]


def with_comments(rng, lines, share):
    """The lines, in some with comments above them; and how many."""
    comments = rng.choices(COMMENTS, k=rng.choice([1, 1, 2, 5])) if rng.random() < share else []
    return comments + lines, len(comments)


def wrong_words(rng, words):
    """Another unit, or one option fewer."""
    options = range(1, len(words), 2)
    if options:
        at = rng.choice(options)
        if words[at] == "--unit" and rng.random() < 0.7:
            words[at + 1] = rng.choice(["s", "ms", "us", "ns"])
        else:
            del words[at : at + 2]


def damage_lines(rng, lines, field_emptied, others):
    at = choose(rng, (1, 0), (1, len(lines) - 1), (8, rng.randrange(len(lines))))
    what = rng.randrange(5)
    if what == 0 and len(lines) > 1:
        del lines[at]
    elif what == 1:
        lines.insert(at, lines[at])
    elif what == 2:
        other = rng.choice([at - 1, rng.randrange(len(lines))])
        lines[at], lines[other] = lines[other], lines[at]
    elif what == 3:
        lines[at] = field_emptied(rng, lines[at])
    else:
        lines.insert(rng.choice([at, at, len(lines)]), rng.choice(others))


def damage_bytes(rng, text, likely, alike=None):
    """A byte that is another one, or is missing, or doubled; or the end is missing."""
    if not text:
        return text
    at = choose(rng, (6, rng.randrange(len(text))), (1, 0), (1, len(text) - 1),
                (1, rng.randrange(min(30, len(text)))), (1, max(0, len(text) - rng.randint(1, 30))))
    what = choose(rng, (4, "other"), (2, "missing"), (2, "doubled"), (1, "cut"))
    if what == "other":
        new = rng.choice([rng.randrange(256), rng.choice(likely), rng.choice(likely)])
        if alike and text[at] in alike and rng.random() < 0.7:
            new = rng.choice(alike)
        return text[:at] + bytes([new]) + text[at + 1 :]
    if what == "missing":
        return text[:at] + text[at + 1 :]
    if what == "doubled":
        return text[:at] + text[at : at + 1] + text[at:]
    return text[:at]
