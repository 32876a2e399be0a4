"""A bench's state, from the bytes that the probe takes and gives: the one place that knows their
layout. All numbers are big-endian."""

import struct
from typing import NamedTuple

from .answers import VALUE

PURSES, LOG_PLACES, MESSAGES, ENTRIES = 32, 8, 256, 256

DETAILS = struct.Struct(">BIBII")
HEAD = struct.Struct(">IIBB")  # balance, next, status, log count
RECORD_SIZE = HEAD.size + DETAILS.size * (1 + LOG_PLACES)
MARKED_SIZE = 1 + DETAILS.size  # a message with its kind, an archive entry with its logging purse
COUNT = struct.Struct(">H")
MESSAGES_AT = 1 + PURSES * RECORD_SIZE
ARCHIVE_AT = MESSAGES_AT + COUNT.size + MESSAGES * MARKED_SIZE
STATE_SIZE = ARCHIVE_AT + COUNT.size + ENTRIES * MARKED_SIZE


class Details(NamedTuple):
    payer: int
    payer_number: int
    payee: int
    payee_number: int
    amount: int


class Message(NamedTuple):
    kind: int
    details: Details

    @property
    def sender(self):
        """The payee sends requests and acknowledges, the payer the value."""
        return self.details.payer if self.kind == VALUE else self.details.payee

    @property
    def receiver(self):
        return self.details.payee if self.kind == VALUE else self.details.payer


class Entry(NamedTuple):
    logger: int
    details: Details


class Purse(NamedTuple):
    balance: int
    next: int
    status: int
    details: Details
    log: tuple


class State(NamedTuple):
    purses: tuple
    messages: tuple
    archive: tuple


def record(raw, at):
    balance, following, status, logged = HEAD.unpack_from(raw, at)
    at += HEAD.size
    places = [
        Details(*DETAILS.unpack_from(raw, at + DETAILS.size * place))
        for place in range(1 + min(logged, LOG_PLACES))
    ]
    return Purse(balance, following, status, places[0], tuple(places[1:]))


def marked(raw, at, most, made, known={}):
    """The messages or archive entries from a count on. Equal ones are one object: a long run
    keeps many states."""
    count = min(COUNT.unpack_from(raw, at)[0], most)
    at += COUNT.size
    found = []
    for place in range(count):
        data = raw[at + MARKED_SIZE * place : at + MARKED_SIZE * (place + 1)]
        key = (made, data)
        if key not in known:
            known[key] = made(data[0], Details(*DETAILS.unpack_from(data, 1)))
        found.append(known[key])
    return tuple(found)


def state(raw):
    count = min(raw[0], PURSES)
    return State(
        tuple(record(raw, 1 + RECORD_SIZE * name) for name in range(count)),
        marked(raw, MESSAGES_AT, MESSAGES, Message),
        marked(raw, ARCHIVE_AT, ENTRIES, Entry),
    )
