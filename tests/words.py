#!/usr/bin/env python3
"""The words of the examples and of the test vectors as bytes, for the tests: a reader of their own, which shares nothing with the product's
(replay/words.py) and is looser, since vectors also say what words cannot: openings and events cut anywhere (`bytes HEX ..`).

    tests/words.py TEXT     writes the bytes of a text to standard output
"""

import re
import struct
import sys

# The words of an event's line, a field of the event in angle brackets; the event's kind; fields that the words themselves fill.
EVENTS = [
    ("start-from <purse> to <counterparty> number <number> amount <amount>", 1, {}),
    ("start-to <purse> from <counterparty> number <number> amount <amount>", 2, {}),
    ("deliver <number> to <purse>", 3, {}),
    ("abort <purse>", 4, {}),
    ("lose <number>", 5, {}),
    ("collect <purse>", 6, {}),
    ("issue person <amount>", 7, {"counterparty": 0}),
    ("issue shop <amount>", 7, {"counterparty": 1}),
    ("load <purse> <amount>", 8, {}),
]
FORMS = [
    (re.compile(re.sub(r"<(\w+)>", r"(?P<\1>[0-9]+)", form)), kind, filled)
    for form, kind, filled in EVENTS
]


def event_bytes(kind, purse=0, counterparty=0, number=0, amount=0):
    return struct.pack(">BBBBII", kind, purse, counterparty, 0, number, amount)


def line_bytes(line):
    """The bytes of one line, comments taken off; ValueError where it is not in the grammar."""
    words = line.split()
    if not words:
        return b""
    if words[0] == "bytes":
        return bytes.fromhex("".join(words[1:]))
    if words[0] == "open":
        balances = [int(word) for word in words[1:]]
        return struct.pack(f">B{len(balances)}I", len(balances), *balances)
    for form, kind, filled in FORMS:
        match = form.fullmatch(" ".join(words))
        if match:
            fields = {field: int(number) for field, number in match.groupdict().items()}
            return event_bytes(kind, **filled, **fields)
    raise ValueError("no such event")


def text_bytes(text):
    """The bytes of a whole text."""
    made = []
    for place, line in enumerate(text.split("\n"), 1):
        try:
            made.append(line_bytes(line.split("#")[0]))
        except (ValueError, struct.error) as wrong:
            raise ValueError(f"line {place}: {line.strip()}: {wrong}") from None
    return b"".join(made)


def main():
    with open(sys.argv[1]) as source:
        sys.stdout.buffer.write(text_bytes(source.read()))


if __name__ == "__main__":
    main()
