"""Makes value change dumps by docs/bench/vcd.md, and others that are nearly so."""

from export_parts import (FLAGS, Export, choose, damage_bytes, damage_lines, padded, part_of, part_words, ties,
                          wanted_of, wrong_words)
from made_edges import damage_changes, known_truth, scene_of, upside_down

TIMESCALES = {6: ("1", "us"), 7: ("100", "ns"), 8: ("10", "ns"), 9: ("1", "ns"), 10: ("100", "ps"),
              12: ("1", "ps"), 13: ("100", "fs"), 15: ("1", "fs")}
CODES = ["!", '"', "#", "$", "%", "a", "b", "0", "1", "x", "z", "0x", "#5", "aa", "!!", "b1", "$dump", "~",
         "\xe4", "1!"]
OTHER_COMMANDS = [
    "$date Sat Nov 28 10:00:00 2026 $end",
    "$version a recorder\n  of lines $end",
    "$comment #5 0! $enddefinitions $timescale $end",
    "$attrbegin misc 02 x 1 $end",
    "$comment\n$end",
    "$other$end $end",
]
OTHER_TOKENS = [
    "", "#", "#-1", "#1.5", "#1e3", "#0", "#5", "#999999999999999999", "#1000000000000000000000000000000000000",
    "0", "1", "x", "b", "b1", "b10", "r1.5", "sHigh", "$end", "$comment", "$dumpvars", "$dumpoff",
    "$dumpports", "$", "$var wire 1 ! M $end", "$enddefinitions $end", "$timescale 1 us $end",
    "$scope module m $end", "$upscope $end", "$comment 1 $end", "2!", "Z?", "-", "1 !", "hello", "1,M,108",
    "\xa0", "\x0b", "\ufeff", "\x00", "#7#8",
]
OTHER_IN_VAR = ["", "wire", "1", "2", "01", "!", '"', "M", "S", "m", "$end", "M $end", "[0]", "$var", "1 !"]
DUMP_BYTES = b'0101#!"xzb$ \t\r\n$endMSms123456789.'


def vcd_export(rng, recordings):
    rows = part_of(rng, recordings, 95_000)
    lead = rng.choice([2000, 5000, rng.randrange(2000, 10**6), rng.randrange(2000, 10 ** rng.choice([9, 9, 17]))])
    rows = [(time - rows[0][0] + lead, line, value) for time, line, value in rows]
    rows = ties(rng, rows, rng.choice([0, 0, 0.2]))
    places, words = rng.choice(list(TIMESCALES)), ["vcd"]
    scene = scene_of(rng, rows, places, words)
    changes = scene.changes()
    damage = choose(rng, (3, 1), (2, 2), (1, 3)) if rng.random() < 0.66 else 0
    in_edges = sum(rng.random() < 0.4 for _ in range(damage))
    for _ in range(in_edges):
        if changes:
            damage_changes(rng, changes, places)

    header, codes, others, options = vcd_header(rng, TIMESCALES[places])
    called = dict(zip(options[::2], options[1::2]))
    turned, told, known = upside_down(rng, {"M": called.get("--controller", "M"), "S": called.get("--peripheral", "S")})
    words += options + part_words(rng, [time for time, _, _ in rows], 0.2)
    body = vcd_body(rng, changes, codes, others, turned)
    for _ in range(in_edges, damage):
        what = rng.random()
        if what < 0.25:
            damage_lines(rng, header, vcd_token_emptied, OTHER_TOKENS)
        elif what < 0.7:
            code = codes[rng.choice("MS")]
            of_line = [f"{rng.choice('xXzZbB01')}{code}", f"{rng.choice('xz')}{code}",
                       f"{rng.choice(['b', 'bx', 'Bz', 'b01', 'b2', 'r1', 'sx'])} {code}"]
            damage_lines(rng, body, vcd_token_emptied, OTHER_TOKENS if rng.random() < 0.5 else of_line)
        elif what < 0.8:
            flags = [words.pop(words.index(flag)) for flag in list(words) if flag in FLAGS]
            wrong_words(rng, words)
            words += flags
    words += told if set(told[1:2]) <= {"M", "m", "S", "s", "--invert", *words} else []
    blanks = rng.random() < 0.2
    ends = rng.choice([["\n"], ["\n"], ["\r\n"], ["\n", "\r\n", "\n\n"]])
    text = ""
    for line in header + body:
        if blanks:
            line = line.replace(" ", rng.choice([" ", "  ", "\t", "\n", " \r\n\t"]))
            line = " " * rng.randrange(2) + line
        text += line + (" " if blanks and rng.random() < 0.1 else rng.choice(ends))
    if rng.random() < 0.2:
        text = text.rstrip("\r\n")
    text = padded(rng, text.encode(), rng.choice([b" ", b"\n", b"\t", b"\r\n"]))
    if damage > in_edges and rng.random() < 0.4:
        text = damage_bytes(rng, text, DUMP_BYTES)
    truth = scene.truth("--skip-damaged" in words)
    truth = None if damage else known_truth(turned, known, changes, places, truth)
    return Export(text, words, **wanted_of(truth, words))


def vcd_header(rng, timescale):
    """The lines of a header; the codes of M and S; those of others, with their sizes; and the words that
    name the lines."""
    number, unit = timescale
    commands = [f"$timescale {number}{rng.choice(['', ' '])}{unit} $end"]
    commands += rng.sample(OTHER_COMMANDS, rng.choice([0, 0, 1, 3]))
    rng.shuffle(commands)
    codes = rng.sample(CODES, 2 + rng.choice([0, 0, 1, 3]))
    others = {code: rng.choice([1, 1, 8, 64]) for code in codes[2:]}
    codes = dict(zip("MS", codes))
    scopes = [rng.choice(["bus", "top", "M", "a.b", "libsigrok"]) for _ in range(rng.choice([0, 1, 1, 2, 3]))]
    commands += [f"$scope {rng.choice(['module', 'begin', 'x'])} {scope} $end" for scope in scopes]
    variables, words = [], []
    for line, option in (("M", "--controller"), ("S", "--peripheral")):
        name = rng.choice([line, line.lower(), "TX" + line, f"D [{codes[line]}]", f"data{line} [0]", "\xb5" + line])
        called = name.replace(" ", "")
        if called.upper() != line or len(scopes) > 0 and rng.random() < 0.2:
            path = rng.random() < 0.3 and scopes or called.upper() == line
            words += [option, ".".join(scopes + [called]) if path else called]
        kind = rng.choice(["wire", "reg", "wire"])
        variables.append(f"$var {kind} 1 {codes[line]} {name} $end")
        if rng.random() < 0.1:  # the same signal again
            variables.append(f"$var {kind} 1 {codes[line]} {rng.choice([name, 'again'])} $end")
    variables += [f"$var wire {size} {code} other{place} [{size - 1}:0] $end"
                  for place, (code, size) in enumerate(others.items())]
    rng.shuffle(variables)
    closed = ["$upscope $end" for _ in scopes]
    if rng.random() < 0.2:
        variables = ["$scope module inner $end", "$upscope $end", *variables]
        closed += ["$scope module M $end", "$var wire 1 ? other $end", "$upscope $end"]
    if rng.random() < 0.2:  # scopes that stay open
        closed = closed[: rng.randrange(len(closed) + 1)]
    end = rng.choice(["$enddefinitions $end", "$enddefinitions $end", "$enddefinitions here $end"])
    return commands + variables + closed + [end], codes, others, words


def vcd_body(rng, changes, codes, others, turned):
    """The lines of a body, each a token or two."""
    vectors, twice, more = (rng.choice([0, 0, 0.1]) for _ in range(3))
    levels = {"M": 1, "S": 1}

    def change(line, level):
        level = 1 - level if line in turned else level
        if rng.random() < vectors:
            return f"{rng.choice('bB')}{level} {codes[line]}"
        return f"{level}{codes[line]}"

    def all_of(levels):
        return [change(line, level) for line, level in levels.items()]

    first = min(changes, default=10)
    begin = [f"{rng.choice('xXzZ')}{code}" for code in codes.values()] if rng.random() < 0.3 else []
    dump = rng.choice([None, "$dumpvars", "$dumpall"])
    lines = ["#0"] * (rng.random() < 0.8) + begin
    if first > 2 and rng.random() < 0.2:  # the lines have no level at first, or are low
        early, late = sorted(rng.sample(range(1, min(first, 10**18)), 2))
        if rng.random() < 0.5:
            lines += ([f"#{early}"] if rng.random() < 0.5 else []) + all_of({rng.choice("MS"): 0})
        lines.append(f"#{late}")
    lines += ([dump] if dump else []) + all_of(levels) + (["$end"] if dump else [])
    for time in sorted(changes):
        lines.append(f"#{time}" if rng.random() < 0.98 else f"#{'0' * rng.randint(1, 20)}{time}")
        for line, level in changes[time].items():
            if rng.random() < twice:  # the last of several counts
                lines += [change(line, rng.choice([0, 1])) for _ in range(rng.choice([1, 2]))]
            if rng.random() < twice:
                lines.append(f"#{time}")
            lines.append(change(line, level))
            levels[line] = level
        if others and rng.random() < 0.2:
            code, size = rng.choice(list(others.items()))
            lines.append(rng.choice([f"{rng.choice('01xzXZ')}{code}", f"b{rng.randrange(2**size):b} {code}",
                                     f"bxz01 {code}", f"r-1.5e3 {code}", f"sText {code}", f"B1 {code}"]))
        if rng.random() < more:
            lines += rng.choice([["$comment", "#1 0! 2", "$end"], ["$dumpon", *all_of(levels), "$end"],
                                 ["$dumpoff", "$end"], ["$end"], [f"#{time + 1}"] if time + 1 not in changes else [],
                                 all_of(levels)])
    if lines and rng.random() < 0.5:
        lines.append(f"#{max([10, *changes]) + rng.choice([1, 10**6, 10**9])}")
    return lines


def vcd_token_emptied(rng, line):
    """A token that is missing, or at an edge of what may stand there."""
    tokens = line.split(" ")
    at = rng.randrange(len(tokens))
    token = tokens[at]
    if token.startswith("#"):
        digits = token[1:]
        tokens[at] = rng.choice(["#", digits, "#0" + digits, f"#{digits}0", f"#{digits}0000", f"#{digits[:-1]}",
                                 f"#{digits}.0", f"#-{digits}", f"# {digits}", "#" + "9" * 24])
    elif token.startswith("$") or len(tokens) > 2:
        tokens[at] = rng.choice(OTHER_IN_VAR + [token.upper(), token + token, token[:-1], "10", "ms", "1ms",
                                                "fs", "1000", "s"])
    else:
        tokens[at] = rng.choice(["", token[:1], token[1:], "x" + token[1:], "b" + token, f"b{token[:1]} {token[1:]}",
                                 f"r{token[:1]} {token[1:]}", f"{token[:1]} {token[1:]}", token * 2, "2" + token[1:]])
    return " ".join(tokens)
