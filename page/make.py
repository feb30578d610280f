#!/usr/bin/env python3
"""make.py MODULE.wasm PAGE.html: puts the page's sources and the module into one file.

esbuild makes one script of main.js and all that it imports. What no file of this folder has, scripts
import as "built": the module, the scripts of both workers, the rules' texts (those of docs/bench/rules.md)
and the examples. Scripts and styles are named by their checksums in the page's Content-Security-Policy, so
that the browser runs nothing else. The same input gives the same bytes, where zlib and esbuild are the same.
"""

import base64
import hashlib
import json
import pathlib
import re
import subprocess
import sys
import tempfile
import zlib

HERE = pathlib.Path(__file__).resolve().parent
RULES = "Order Speaker Mode Early Late Spacing Length Sum Break Answer Message Same Profile Changer Bill Cashless".split()
# Recordings of examples/ that the page has for those who want to try it, each with what it is.
EXAMPLES = {
    "coin-told-twice": "A coin that was reported twice: was it one or two?",
    "sale-never-approved": "A sale by card that was never approved: who broke the protocol?",
}
# The leading words of a rule's paragraphs. What to look at is for either side, or for the one that sent the row.
LEADS = {"At the bench": "bench", "The row": "row", "Blame": "blame", "Look at": "look",
         "Look at the controller": "controller", "Look at the device": "device"}
NEEDED = {"bench", "row", "blame"}


def in_seconds(found):
    """A length of time as the page writes it: in seconds, and below a tenth of one in milliseconds."""
    micros = int(found[1].replace(",", ""))
    return f"{micros / 1e3:g} ms" if micros < 100_000 else f"{micros / 1e6:g} s"


def plain(text):
    """Words without the marks of Markdown, its links too, without the sentences that name another page, without the program's words
    between brackets, and with times in seconds."""
    text = re.sub(r"\[(`[^`]+`)\]\([^)]*\)", r"\1", text)
    text = re.sub(r",? `[a-z/.-]+\.md`(?=\))", "", text)
    text = re.sub(r" \((?:(?:, )?`[^`]*`)+\)", "", text)
    text = re.sub(r"(\d[\d,]*) microseconds", in_seconds, text)
    text = re.sub(r"(?:^|(?<=\. ))(?:[^.]|\.\./)*\.md`[^.]*\. ?", "", text)
    return text.replace("`", "").replace("**", "").replace("*", "").strip()


def rule_texts():
    """The paragraphs of each rule in docs/bench/rules.md, by their leading words."""
    text = (HERE.parent / "docs" / "bench" / "rules.md").read_text()
    rules = {}
    for section in re.split(r"^## ", text, flags=re.M)[1:]:
        name, _, body = section.partition("\n")
        if name.strip() not in RULES:
            continue
        rule, last = {}, None
        for part in body.strip().split("\n\n"):
            lead = re.match(r"\*\*([^*]+?)\.?\*\*,? ?", part)
            key = LEADS.get(lead.group(1)) if lead else None
            if key:
                last = rule.setdefault(key, [])
                words = part[lead.end():] if key == "bench" else part
                last.append(plain(words))
            elif part.startswith("- ") and last is not None:
                last.extend("• " + plain(item) for item in re.split(r"\n?^- ", part, flags=re.M) if item)
        missing = NEEDED - set(rule) if set(rule) & {"look", "controller", "device"} else {"look"}
        if missing:
            sys.exit(f"docs/bench/rules.md: the rule {name} has no {sorted(missing)}")
        rules[name.strip()] = rule
    if list(rules) != RULES:
        sys.exit(f"docs/bench/rules.md: the rules are {list(rules)}")
    return rules


def version():
    """The program's version."""
    text = (HERE.parent / "crates" / "mdbcheck_run" / "src" / "command_line.rt").read_text()
    found = re.search(r'const VERSION: &str = "([^"]+)";', text)
    if not found:
        sys.exit("crates/mdbcheck_run/src/command_line.rt: no VERSION")
    return found[1]


def examples():
    """The recordings to try, as the page has them."""
    folder = HERE.parent / "examples"
    texts = {name: (folder / f"{name}.csv").read_text() for name in EXAMPLES}
    return [{"name": f"{name}.csv", "words": words, "text": texts[name]} for name, words in EXAMPLES.items()]


def bundled(entry, built=""):
    """A script with all that it imports, on few lines. It is flat: what it declares is global, as tests want it."""
    with tempfile.TemporaryDirectory() as folder:
        path = pathlib.Path(folder) / "built.js"
        path.write_text(built)
        words = ["--bundle", "--format=esm", "--minify-whitespace", "--charset=utf8", '--banner:js="use strict";']
        ran = subprocess.run(["esbuild", *words, f"--alias:built={path}", entry], cwd=HERE, stdout=subprocess.PIPE)
    if ran.returncode:
        sys.exit(f"{entry}: esbuild makes no script of it")
    return ran.stdout.decode()


def deflated(module):
    """The module's bytes, packed as DecompressionStream("deflate-raw") unpacks them."""
    packer = zlib.compressobj(9, zlib.DEFLATED, -15)
    return packer.compress(module) + packer.flush()


def digest(text):
    return "'sha256-" + base64.b64encode(hashlib.sha256(text.encode()).digest()).decode() + "'"


def main():
    module, page = map(pathlib.Path, sys.argv[1:])
    wasm = module.read_bytes()
    style = (HERE / "page.css").read_text()
    built = {
        "RULES": rule_texts(),
        "EXAMPLES": examples(),
        "WORKER": bundled("checker/worker.js"),
        "IMPORTER": bundled("import/worker.js"),
        "MODULE": base64.b64encode(deflated(wasm)).decode(),
    }
    script = bundled("main.js", "".join(f"export const {name} = {json.dumps(value)};\n" for name, value in built.items()))
    if re.search("</script|<!--", script, re.I):
        sys.exit("the page's scripts have what ends a script in a page")
    policy = "; ".join(
        [
            "default-src 'none'",
            f"script-src {digest(script)} 'wasm-unsafe-eval'",
            f"style-src {digest(style)}",
            "worker-src blob:",
            "base-uri 'none'",
            "form-action 'none'",
        ]
    )
    made = f"mdbcheck {version()}. The module has {len(wasm):,} bytes, SHA-256 {hashlib.sha256(wasm).hexdigest()}."
    text = (HERE / "page.html").read_text()
    for mark, value in (("POLICY", policy), ("STYLE", style), ("MADE", made), ("SCRIPT", script)):
        if text.count(f"@{mark}@") != 1:
            sys.exit(f"page.html: @{mark}@ doesn't stand there once")
        text = text.replace(f"@{mark}@", value)
    page.parent.mkdir(parents=True, exist_ok=True)
    page.write_text(text)
    print(f"{page}: {len(text.encode()):,} bytes")


if __name__ == "__main__":
    main()
