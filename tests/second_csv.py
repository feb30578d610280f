"""Reads a text as CSV: what the second readers of rows and tables share. Written from docs/bench/importing.md
(*Texts*) and docs/bench/rows-and-command-line.md, and not from a program's code.

What the pages leave open was tried: half of a pair of UTF-16 stands in UTF-8 by itself, a byte left over is
U+FFFD, and after the mark of UTF-16 one more mark is dropped.
"""

SHOWN = 48  # how many characters of a record are shown before it is cut


def plain(text):
    """The bytes without their byte order mark, those of UTF-16 as UTF-8."""
    for mark, order in ((b"\xff\xfe", "little"), (b"\xfe\xff", "big")):
        if text.startswith(mark):
            text = utf_16(text[2:], order)
            break
    return text.removeprefix(b"\xef\xbb\xbf")


def utf_16(text, order):
    """The text in UTF-8."""
    encoding = "utf-16-le" if order == "little" else "utf-16-be"
    even = text[: len(text) // 2 * 2].decode(encoding, "surrogatepass")
    return (even + "\ufffd" * (len(text) % 2)).encode("utf-8", "surrogatepass")


def records_of(text):
    """The records that a csv reader finds, each as a list of its fields, without the quotes that it takes."""
    record, field, at = [], bytearray(), 0
    begun = False  # the record has a byte, or a quote that was opened
    fresh = True  # the next byte is the first of a field
    quoted = False
    while at < len(text):
        byte = text[at : at + 1]
        at += 1
        if quoted:
            if byte != b'"':
                field += byte
            elif text[at : at + 1] == b'"':
                field += byte
                at += 1
            else:
                quoted = False
        elif byte in b"\r\n":
            if begun:
                yield record + [bytes(field)]
            record, field, begun, fresh = [], bytearray(), False, True
        elif byte == b",":
            record.append(bytes(field))
            field, begun, fresh = bytearray(), True, True
        elif byte == b'"' and fresh:
            quoted, begun, fresh = True, True, False
        else:
            field += byte
            begun, fresh = True, False
    if begun:
        yield record + [bytes(field)]


def trimmed(field):
    """A field without blanks and quotation marks at both ends."""
    return field.strip(b' "')


def fields_of(record):
    """The fields of a record of rows, which tabs, semicolons or commas separate."""
    record = b",".join(record)
    separator = next((one for one in (b"\t", b";") if one in record), b",")
    return [trimmed(field) for field in record.split(separator)]


def is_comment(record):
    """Whether a record is a comment, where comments may stand."""
    mark = trimmed(record[0])[:1]
    return mark == b"#" or mark == b";" and b",".join(record).count(b";") == 1


def found(record):
    """What a line shows of a record that is refused."""
    shown = ""
    for byte in b",".join(record):
        if len(shown) >= SHOWN:
            return f'; found "{shown}.."'
        printable = 0x20 <= byte <= 0x7E
        shown += ("\\" if byte in b'"\\' else "") + chr(byte) if printable else f"\\x{byte:02X}"
    return f'; found "{shown}"'
