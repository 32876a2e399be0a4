"""The kinds of events in one table: the words that say one, the fields they fill, how a done one is
told, and its mark in the chart.

An event is 12 bytes, numbers big-endian: kind, purse, counterparty, spare (0), number (4),
amount (4). A later kind is one entry more in KINDS, with its two functions; a later word for a
field is one entry more in SLOTS. A function of the table is given a step of a run (run.py) that
was done, and looks at the states before and after it; only the class of an issued purse is taken
from the event, since the states do not have it.
"""

import struct
from typing import Callable, NamedTuple

from .answers import (
    ACKNOWLEDGE,
    CLASSES,
    EPR,
    IDLE,
    REQUEST,
    SENT_LOST,
    VALUE,
    class_name,
    counted,
    message_name,
)

LAYOUT = struct.Struct(">BBBBII")
EVENT_SIZE = LAYOUT.size
BYTE, WORD = 2**8 - 1, 2**32 - 1


class Slot(NamedTuple):
    """A number in the words of an event: the field it fills and the largest value that the field
    holds; where it is said by words in place of digits, the number of each."""

    field: str
    most: int
    words: dict = {}


SLOTS = {
    "PURSE": Slot("purse", BYTE),
    "COUNTERPARTY": Slot("counterparty", BYTE),
    "NUMBER": Slot("number", WORD),
    "PLACE": Slot("number", WORD),
    "AMOUNT": Slot("amount", WORD),
    "CLASS": Slot("counterparty", BYTE, {name: number for number, name in CLASSES.items()}),
    "BALANCE": Slot("amount", WORD),
}

ISSUED, LOADED = "issued", "loaded"


class Kind(NamedTuple):
    number: int
    form: str  # the words of its line, each number as a slot's name
    told: Callable  # of a done step: what it did, a sentence
    mark: Callable  # of a done step: the lines of its box in the chart, at most three short ones
    brings: str = ""  # how its amount comes in from outside: ISSUED, LOADED or not at all

    @property
    def word(self):
        return self.form.split()[0]

    @property
    def slots(self):
        return [word for word in self.form.split() if word in SLOTS]

    @property
    def fields(self):
        return {SLOTS[slot].field for slot in self.slots}


def sending(step):
    """What the step sent, where it sent anything: `, and sends ..`."""
    if step.sent is None:
        return ""
    name = message_name(step.sent.kind)
    if step.answer == SENT_LOST:
        return f"; the {name} it sends is lost, since 256 messages stand"
    return f" and sends the {name} (place {len(step.after.messages) - 1})"


def mark_sending(step):
    """A line of the box for a message that was lost as it was sent."""
    return (
        [f"{message_name(step.sent.kind)} lost at once"]
        if step.sent and step.answer == SENT_LOST
        else []
    )


def money(step):
    """A line of the box for what the purse has after its balance changed."""
    change = step.moved.get(step.purse, 0)
    return f"{change:+d}".replace("-", "−") + f", has {step.after.purses[step.purse].balance}"


def told_start_from(step):
    d = step.details
    return (
        f"purse {d.payer} is to pay {d.amount} to purse {d.payee} and waits for the request (epr)"
    )


def mark_start_from(step):
    return [f"is to pay {step.details.amount} to {step.details.payee}", "waits for the request"]


def told_start_to(step):
    d = step.details
    told = f"purse {d.payee} is to take {d.amount} from purse {d.payer}, waits for the value (epv)"
    return told + sending(step)


def mark_start_to(step):
    return [
        f"is to take {step.details.amount} from {step.details.payer}",
        "sends the request",
        *mark_sending(step),
    ]


DELIVERIES = {
    REQUEST: "takes the request, pays {amount}{sending}",
    VALUE: "takes the value: {amount} arrives; it is idle{sending}",
    ACKNOWLEDGE: "takes the acknowledge and is idle: its payment of {amount} has arrived",
}


def told_delivery(step):
    """A delivery that was done; by what its message was."""
    said = DELIVERIES.get(
        step.message.kind, "takes the " + message_name(step.message.kind) + "{sending}"
    )
    return f"purse {step.purse} " + said.format(amount=step.details.amount, sending=sending(step))


def mark_delivery(step):
    taken = f"takes the {message_name(step.message.kind)}"
    return [taken, money(step) if step.moved else "is idle", *mark_sending(step)]


def told_abort(step):
    before, after = step.before.purses[step.purse], step.after.purses[step.purse]
    if before.status == IDLE:
        return f"purse {step.purse} is stopped; it was idle and stays as it is"
    if len(after.log) > len(before.log):
        entry = f"entry {len(after.log)} of 8 in its log"
        return f"purse {step.purse} is stopped and logs the transfer ({entry})"
    why = ": it had paid nothing" if before.status == EPR else ""
    return f"purse {step.purse} is stopped and logs nothing{why}"


def mark_abort(step):
    before, after = step.before.purses[step.purse], step.after.purses[step.purse]
    if len(after.log) > len(before.log):
        return [f"stopped, logs {step.details.amount}", f"{len(after.log)} in its log"]
    return ["stopped", "was idle" if before.status == IDLE else "logs nothing"]


def told_loss(step):
    left = counted(len(step.after.messages), "message")
    return f"the {message_name(step.message.kind)} is lost; {left} left"


def mark_loss(step):
    return [f"{message_name(step.message.kind)} of {step.details.amount} lost"]


def told_collect(step):
    place = len(step.after.archive) - 1
    return f"the oldest entry of purse {step.purse} goes to the archive (place {place})"


def mark_collect(step):
    return [
        f"entry of {step.details.amount} collected",
        f"to archive place {len(step.after.archive) - 1}",
    ]


def mark_outside(step):
    """Lines of the box for what came in from outside, if anything did, and what the purse has."""
    change = step.moved.get(step.purse, 0)
    came = [f"+{change} from outside"] if change else []
    return [*came, f"has {step.after.purses[step.purse].balance}"]


def issued(step):
    return f"issued to a {class_name(step.event.fields['counterparty'])}"


def told_issue(step):
    purse = step.after.purses[step.purse]
    first = f"first balance {purse.balance}, next number {purse.next}"
    return f"purse {step.purse} is {issued(step)}: {first}"


def mark_issue(step):
    return [issued(step), *mark_outside(step)]


def told_load(step):
    return f"purse {step.purse} is loaded with {step.moved.get(step.purse, 0)}"


def mark_load(step):
    return ["loaded", *mark_outside(step)]


KINDS = [
    Kind(
        1,
        "start-from PURSE to COUNTERPARTY number NUMBER amount AMOUNT",
        told_start_from,
        mark_start_from,
    ),
    Kind(
        2,
        "start-to PURSE from COUNTERPARTY number NUMBER amount AMOUNT",
        told_start_to,
        mark_start_to,
    ),
    Kind(3, "deliver PLACE to PURSE", told_delivery, mark_delivery),
    Kind(4, "abort PURSE", told_abort, mark_abort),
    Kind(5, "lose PLACE", told_loss, mark_loss),
    Kind(6, "collect PURSE", told_collect, mark_collect),
    Kind(7, "issue CLASS BALANCE", told_issue, mark_issue, ISSUED),
    Kind(8, "load PURSE AMOUNT", told_load, mark_load, LOADED),
]
BY_NUMBER = {kind.number: kind for kind in KINDS}
BY_WORD = {kind.word: kind for kind in KINDS}


def packed(kind, fields):
    """An event's bytes; a field that its kind does not use is 0."""
    return LAYOUT.pack(
        kind.number,
        fields.get("purse", 0),
        fields.get("counterparty", 0),
        0,
        fields.get("number", 0),
        fields.get("amount", 0),
    )


def unpacked(data):
    """Kind and fields of an event of the table, in a class without a name too; no kind and no
    field for any other bytes."""
    if len(data) != EVENT_SIZE:
        return None, {}
    number, purse, counterparty, spare, place, amount = LAYOUT.unpack(data)
    kind = BY_NUMBER.get(number)
    fields = {"purse": purse, "counterparty": counterparty, "number": place, "amount": amount}
    if (
        kind is None
        or spare
        or any(value for field, value in fields.items() if field not in kind.fields)
    ):
        return None, {}
    return kind, {field: fields[field] for field in kind.fields}
