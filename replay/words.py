"""The words of a text, read strictly: an opening first and once, then one event a line. Whatever
else stands in a text is refused with its line and what was expected there; nothing is guessed.
docs/REPLAY.md has the grammar."""

import os
import re
import select
import struct
from typing import NamedTuple

from .events import BY_WORD, EVENT_SIZE, KINDS, SLOTS, WORD, packed, unpacked
from .failure import WRONG, Failure, reason, shown

OPEN = "open BALANCE BALANCE .."
BYTES = "bytes HEX HEX .."
MOST_PURSES = 255  # the purse count is one byte
DIGITS = re.compile(r"[0-9]+", re.ASCII)
HEX = re.compile(r"(?:[0-9a-fA-F]{2})+", re.ASCII)
# control characters: those of ASCII but the tab, and those of Unicode's second row
CONTROL = re.compile(r"[\x00-\x08\x0a-\x1f\x7f-\x9f]")


class Event(NamedTuple):
    line: int
    text: str  # its words, comments and spaces taken off
    data: bytes
    kind: object  # its entry in the table of kinds; None where the bytes are no event of it
    fields: dict


class Text(NamedTuple):
    name: str
    about: str  # the comment that stands above the opening
    balances: tuple
    events: tuple

    @property
    def data(self):
        """The input of the bench program."""
        count = len(self.balances)
        return struct.pack(f">B{count}I", count, *self.balances) + b"".join(
            event.data for event in self.events
        )


class Wrong(Exception):
    """What is wrong with a line."""


def number(word, name, most):
    """A number in plain digits, from 0 to the most that its field holds."""
    if not DIGITS.fullmatch(word):
        raise Wrong(f'{name} "{shown(word)}" is not a number in plain digits')
    digits = word.lstrip("0") or "0"
    if len(digits) > len(str(most)) or int(digits) > most:
        raise Wrong(f"{name} {shown(digits)} is out of range: 0 to {most}")
    return int(digits)


def opening(words):
    if len(words) == 1:
        raise Wrong(f"expected {OPEN}, and no balance stands there")
    if len(words) - 1 > MOST_PURSES:
        raise Wrong(f"{len(words) - 1} balances are out of range: 1 to {MOST_PURSES}")
    return tuple(number(word, "balance", WORD) for word in words[1:])


def raw_event(words):
    """The bytes of a `bytes` line: one event, or what is left of one."""
    if len(words) == 1 or not all(HEX.fullmatch(word) for word in words[1:]):
        raise Wrong(f"expected {BYTES}, two hexadecimal digits a byte")
    data = bytes.fromhex("".join(words[1:]))
    if len(data) > EVENT_SIZE:
        raise Wrong(f"{len(data)} bytes: an event has {EVENT_SIZE}, and a line says one event")
    return data


def slot_value(kind, name, word):
    """What a word says in a slot of the kind's form."""
    slot = SLOTS[name]
    if not slot.words:
        return number(word, name, slot.most)
    if word not in slot.words:
        known = " or ".join(slot.words)
        raise Wrong(f'expected {kind.form}, found "{shown(word)}" for {name} ({known})')
    return slot.words[word]


def worded_event(words):
    """Kind and fields of a line in the words of the table."""
    kind = BY_WORD.get(words[0])
    if kind is None:
        known = ", ".join([each.word for each in KINDS] + ["bytes"])
        raise Wrong(f'"{shown(words[0])}" is no event: expected one of {known}')
    form = kind.form.split()
    fields = {}
    for want, word in zip(form, words):
        if want in SLOTS:
            fields[SLOTS[want].field] = slot_value(kind, want, word)
        elif want != word:
            raise Wrong(f'expected {kind.form}, found "{shown(word)}" for "{want}"')
    if len(words) < len(form):
        raise Wrong(f"expected {kind.form}, and the line ends early")
    if len(words) > len(form):
        raise Wrong(f'expected {kind.form} and no more, found "{shown(words[len(form)])}"')
    return kind, fields


def said(text):
    """Each line's number, words and comment. CRLF ends a line as LF does, and tabs part words as
    spaces do."""
    lines = text.split("\n")
    for place, line in enumerate(lines, 1):
        if line.endswith("\r") and place < len(lines):
            line = line[:-1]
        control = CONTROL.search(line)
        if control:
            raise Failure(f"{place}: control character {ord(control.group()):02x} hex", WRONG)
        words, _, comment = line.partition("#")
        yield place, [word for word in re.split("[ \t]+", words) if word], comment.strip()


def parsed(text, name):
    """A text's opening and events; a Failure that begins with the line's number where it is not
    in the grammar."""
    balances, events, about, last = None, [], [], 1
    for place, words, comment in said(text):
        last = place
        if not words:
            if balances is None and comment:
                about.append(comment)
            continue
        try:
            if events and len(events[-1].data) < EVENT_SIZE:
                raise Wrong(
                    f"line {events[-1].line} has fewer than {EVENT_SIZE} bytes, so it must be the last"
                )
            if words[0] == "open":
                if balances is not None:
                    raise Wrong("open stands once, on the first line that says anything")
                balances = opening(words)
                continue
            if balances is None:
                raise Wrong(f'expected {OPEN} before any event, found "{shown(words[0])}"')
            if words[0] == "bytes":
                data = raw_event(words)
                kind, fields = unpacked(data)
            else:
                kind, fields = worded_event(words)
                data = packed(kind, fields)
            events.append(Event(place, " ".join(words), data, kind, fields))
        except Wrong as wrong:
            raise Failure(f"{place}: {wrong}", WRONG) from None
    if balances is None:
        raise Failure(f"{last}: expected {OPEN}, and the text ends", WRONG)
    return Text(name, " ".join(about), balances, tuple(events))


def decoded(data):
    """The text of a file's bytes: UTF-8, with or without a byte order mark."""
    data = data.removeprefix(b"\xef\xbb\xbf")
    try:
        return data.decode("utf-8")
    except UnicodeDecodeError as error:
        line = data.count(b"\n", 0, error.start) + 1
        raise Failure(
            f"{line}: byte {data[error.start]:02x} hex is not UTF-8 text", WRONG
        ) from None


def whole(source):
    """All the bytes of a descriptor; one that is merely not ready is waited for."""
    pieces = []
    while True:
        try:
            piece = os.read(source, 65536)
        except BlockingIOError:
            select.select([source], [], [])
            continue
        if not piece:
            return b"".join(pieces)
        pieces.append(piece)


def read(path):
    """The text of a file, `-` for standard input."""
    name = "standard input" if path == "-" else shown(path)
    try:
        if path == "-":
            source = os.environ.get("PRS_INPUT", "0")  # the number under which ./prs hands it on
            if source == "closed":
                raise Failure("standard input is closed")
            data = whole(int(source))
        else:
            with open(path, "rb") as source:
                data = whole(source.fileno())
    except (OSError, ValueError) as error:
        why = reason(error) if isinstance(error, OSError) else "not a file's name"
        raise Failure(f"{name} cannot be read: {why}") from None
    try:
        return parsed(decoded(data), name)
    except Failure as failure:
        raise Failure(f"{name}:{failure.says}", failure.status) from None
