"""A model of the transfer rules (document 01, and what document 02 changes of it) in plain Python.

It was written from the documents alone and shares no code with the product, so that the two can
be run side by side and compared byte by byte. It answers for any raw state, damaged ones too:
a `Bench` holds exactly what the product's bench holds, unused places included.

Quoted sentences are document 01's where no request of 02 is named.
"""

import struct
from typing import NamedTuple

# "Ceilings that belong to the purse record itself"
CEILING = 5_000_000
LOG_PLACES = 8
LAST_NUMBER = 4_294_967_295
PURSES, MESSAGES, ENTRIES = 32, 256, 256

IDLE, EPR, EPV, EPA = range(4)
REQUEST, VALUE, ACKNOWLEDGE = 1, 2, 3
START_FROM, START_TO, DELIVER, ABORT, LOSE, COLLECT, ISSUE, LOAD = range(1, 9)
PERSON = 0  # the one class until A2
ANSWERS = [*range(0, 23), 24]  # those of document 01, and A5's 22 and 24


class Details(NamedTuple):
    payer: int
    payer_number: int
    payee: int
    payee_number: int
    amount: int


class Message(NamedTuple):
    kind: int
    details: Details


class Entry(NamedTuple):
    by: int
    details: Details


class Purse(NamedTuple):
    balance: int
    next: int
    status: int
    logged: int
    details: Details
    log: tuple  # of eight details


NO_DETAILS = Details(0, 0, 0, 0, 0)
NO_MESSAGE = Message(0, NO_DETAILS)
NO_ENTRY = Entry(0, NO_DETAILS)
NO_PURSE = Purse(0, 0, 0, 0, NO_DETAILS, (NO_DETAILS,) * LOG_PLACES)


class Bench:
    """Purse count and 32 records, message count and 256 places, archive count and 256 places."""

    __slots__ = ("count", "table", "message_count", "messages", "archive_count", "archive")

    def __init__(self):
        self.count = 0
        self.table = [NO_PURSE] * PURSES
        self.message_count = 0
        self.messages = [NO_MESSAGE] * MESSAGES
        self.archive_count = 0
        self.archive = [NO_ENTRY] * ENTRIES

    def copy(self):
        other = Bench()
        other.count, other.table = self.count, self.table[:]
        other.message_count, other.messages = self.message_count, self.messages[:]
        other.archive_count, other.archive = self.archive_count, self.archive[:]
        return other

    def __eq__(self, other):
        return all(getattr(self, part) == getattr(other, part) for part in self.__slots__)

    def replace(self, other):
        """Takes over everything the other bench holds."""
        for part in self.__slots__:
            setattr(self, part, getattr(other, part))


# ---- The rules: "A table is well formed when all of these hold"


def legal(details, names):
    """ "name two different purses of the table and a legal amount" """
    return (
        details.payer < names
        and details.payee < names
        and details.payer != details.payee
        and 1 <= details.amount <= CEILING
    )


def own_number(name, details):
    """The number of the purse's own side; None where it is on neither."""
    if details.payer == name:
        return details.payer_number
    if details.payee == name:
        return details.payee_number
    return None


def used(number, next_number):
    """ "at least 1 and below its next one" """
    return 1 <= number < next_number


def logged_faults(name, purse, details, names, where):
    """The rules about one entry in a log or the archive, logged by the purse of that name."""
    if not legal(details, names):
        yield where + " names two purses and a legal amount"
    number = own_number(name, details)
    if number is None:
        yield where + " names its own purse"
    elif not used(number, purse.next):
        yield where + " own number below next"


def purse_faults(name, purse, names):
    """The rules about one purse alone that do not hold, in words; names are those below `names`."""
    if purse.balance > CEILING:
        yield "balance ceiling"
    if purse.next < 1:
        yield "next at least 1"
    if purse.status > EPA:
        yield "status 0 to 3"
    if purse.logged > LOG_PLACES:
        yield "at most 8 log entries"
        return
    log, unused = purse.log[: purse.logged], purse.log[purse.logged :]
    for details in log:
        yield from logged_faults(name, purse, details, names, "log entry")
    if any(details != NO_DETAILS for details in unused):
        yield "unused log places zero"
    held = list(log)
    if purse.status == IDLE:
        if purse.details != NO_DETAILS:
            yield "idle details zero"
    else:
        details = purse.details
        held.append(details)
        if not legal(details, names):
            yield "running details name two purses and a legal amount"
        own = details.payee if purse.status == EPV else details.payer
        number = details.payee_number if purse.status == EPV else details.payer_number
        if own != name:
            yield "role of the status"
        if not used(number, purse.next):
            yield "running details own number below next"
        if purse.logged > LOG_PLACES - 1:
            yield "busy purse at most 7 entries"
        if purse.status == EPR and details.amount > purse.balance:
            yield "epr amount at most balance"
        if purse.status == EPV and purse.balance + details.amount > CEILING:
            yield "epv balance plus amount at most ceiling"
    if len(set(held)) != len(held):
        yield "same details twice in a purse"


def message_faults(bench, message):
    details = message.details
    if not REQUEST <= message.kind <= ACKNOWLEDGE:
        yield "message kind 1 to 3"
    if not legal(details, bench.count):
        yield "message names two purses and a legal amount"
        return
    payer, payee = bench.table[details.payer], bench.table[details.payee]
    if not used(details.payee_number, payee.next):
        yield "message payee's number below next"
    if message.kind in (VALUE, ACKNOWLEDGE):
        if not used(details.payer_number, payer.next):
            yield "value or acknowledge payer's number below next"
        if payer.status == EPR and payer.details == details:
            yield "value or acknowledge for a payer in epr"
    if message.kind == ACKNOWLEDGE and payee.status == EPV and payee.details == details:
        yield "acknowledge for a payee in epv"


def faults(bench):
    """Every rule that does not hold, in words. Past a count out of range nothing is looked at."""
    if not 1 <= bench.count <= PURSES:
        yield "1 to 32 purses"
        return
    if bench.message_count > MESSAGES:
        yield "at most 256 messages"
        return
    if bench.archive_count > ENTRIES:
        yield "at most 256 archive entries"
        return
    messages = bench.messages[: bench.message_count]
    archive = bench.archive[: bench.archive_count]
    for name in range(bench.count):
        yield from purse_faults(name, bench.table[name], bench.count)
    for message in messages:
        yield from message_faults(bench, message)
    for by, details in archive:
        if by >= bench.count:
            yield "archive entry logged by a purse of the table"
        else:
            yield from logged_faults(by, bench.table[by], details, bench.count, "archive entry")
    if len(set(messages)) != len(messages):
        yield "no two messages equal"
    if len(set(archive)) != len(archive):
        yield "same details twice in the archive"
    archived = set(archive)
    for name in range(bench.count):
        purse = bench.table[name]
        if any((name, details) in archived for details in purse.log[: purse.logged]):
            yield "same details in log and archive"
        if purse.status != IDLE and (name, purse.details) in archived:
            yield "same details running and in the archive"
    if any(purse != NO_PURSE for purse in bench.table[bench.count :]):
        yield "records past the count zero"
    if any(message != NO_MESSAGE for message in bench.messages[bench.message_count :]):
        yield "unused message places zero"
    if any(entry != NO_ENTRY for entry in bench.archive[bench.archive_count :]):
        yield "unused archive places zero"


def well_formed(bench):
    return next(faults(bench), None) is None


# ---- The steps of one purse, the same at a bench and at a card.
# Each gives the answer, the purse after it, the message to send and the details collected.


def refused(answer, purse):
    return answer, purse, None, None


def start(kind, name, names, purse, counterparty, number, amount):
    if counterparty >= names or counterparty == name:
        return refused(6, purse)
    if amount == 0 or amount > CEILING:
        return refused(7, purse)
    if purse.status != IDLE:
        return refused(8, purse)
    if purse.next == LAST_NUMBER:
        return refused(9, purse)
    if purse.logged == LOG_PLACES:
        return refused(10, purse)
    if kind == START_FROM:
        if amount > purse.balance:
            return refused(11, purse)
        details = Details(name, purse.next, counterparty, number, amount)
        return 0, purse._replace(next=purse.next + 1, status=EPR, details=details), None, None
    if purse.balance + amount > CEILING:
        return refused(12, purse)
    details = Details(counterparty, number, name, purse.next, amount)
    after = purse._replace(next=purse.next + 1, status=EPV, details=details)
    return 0, after, Message(REQUEST, details), None


def receive(purse, message):
    kind, details = message
    if details == purse.details:
        if kind == REQUEST and purse.status == EPR:
            after = purse._replace(balance=purse.balance - details.amount, status=EPA)
            return 0, after, Message(VALUE, details), None
        if kind == VALUE and purse.status == EPV:
            balance = purse.balance + details.amount
            after = purse._replace(balance=balance, status=IDLE, details=NO_DETAILS)
            return 0, after, Message(ACKNOWLEDGE, details), None
        if kind == ACKNOWLEDGE and purse.status == EPA:
            return 0, purse._replace(status=IDLE, details=NO_DETAILS), None, None
    return refused(13, purse)


def abort(purse):
    if purse.status in (EPA, EPV):
        log = purse.log[: purse.logged] + (purse.details,) + purse.log[purse.logged + 1 :]
        purse = purse._replace(log=log, logged=purse.logged + 1)
    return 0, purse._replace(status=IDLE, details=NO_DETAILS), None, None


def collect(purse):
    if purse.logged == 0:
        return refused(14, purse)
    oldest, *others = purse.log
    return 0, purse._replace(log=(*others, NO_DETAILS), logged=purse.logged - 1), None, oldest


def load(purse, amount):
    """A5: "Kind 8 loads an idle purse with an amount. [..] load 2, 3, 4, 7, 8, 12" """
    if amount == 0 or amount > CEILING:
        return refused(7, purse)
    if purse.status != IDLE:
        return refused(8, purse)
    if purse.balance + amount > CEILING:
        return refused(12, purse)
    return 0, purse._replace(balance=purse.balance + amount), None, None


# ---- The card alone


def card(name, purse, kind, counterparty, number, amount, message):
    """The card's step: answer, record, message handed out, details handed out."""
    if next(purse_faults(name, purse, PURSES), None) is not None:
        answer, after, sent, collected = refused(2, purse)
    elif name >= PURSES:
        answer, after, sent, collected = refused(4, purse)
    elif kind in (START_FROM, START_TO):
        answer, after, sent, collected = start(
            kind, name, PURSES, purse, counterparty, number, amount
        )
    elif kind == DELIVER:
        answer, after, sent, collected = receive(purse, message)
    elif kind == ABORT:
        answer, after, sent, collected = abort(purse)
    elif kind == COLLECT:
        answer, after, sent, collected = collect(purse)
    elif kind == LOAD:
        answer, after, sent, collected = load(purse, amount)
    else:
        raise ValueError(f"a card takes no kind {kind}")
    return answer, after, sent or NO_MESSAGE, collected or NO_DETAILS


# ---- Events at the bench

EVENT = struct.Struct(">BBBBII")

# The fields that a kind uses: "Fields a kind doesn't use are 0". Every other kind is malformed.
USED = {
    START_FROM: ("purse", "counterparty", "number", "amount"),
    START_TO: ("purse", "counterparty", "number", "amount"),
    DELIVER: ("purse", "number"),
    ABORT: ("purse",),
    LOSE: ("number",),
    COLLECT: ("purse",),
    ISSUE: ("counterparty", "amount"),  # the class and the first balance
    LOAD: ("purse", "amount"),
}


def event(bench, data):
    """The answer to one event at any bench, which is changed where the answer is 0 or 1."""
    if not well_formed(bench):
        return 2
    return step(bench, data)


def step(bench, data):
    """As `event`, at a bench known to be well formed."""
    if len(data) != EVENT.size:
        return 3
    kind, name, counterparty, spare, number, amount = EVENT.unpack(data)
    fields = {"purse": name, "counterparty": counterparty, "number": number, "amount": amount}
    if kind not in USED or spare != 0:
        return 3
    if any(value != 0 for field, value in fields.items() if field not in USED[kind]):
        return 3
    if kind == LOSE:
        return lose(bench, number)
    if kind == ISSUE:
        return issue(bench, counterparty, amount)
    if name >= bench.count:
        return 4
    purse = bench.table[name]
    if kind == DELIVER:
        if number >= bench.message_count:
            return 5
        answer, after, sent, collected = receive(purse, bench.messages[number])
    elif kind == ABORT:
        answer, after, sent, collected = abort(purse)
    elif kind == COLLECT:
        answer, after, sent, collected = collect(purse)
        if answer == 0 and bench.archive_count == ENTRIES:
            answer = 15
    elif kind == LOAD:
        answer, after, sent, collected = load(purse, amount)
    else:
        answer, after, sent, collected = start(
            kind, name, bench.count, purse, counterparty, number, amount
        )
    if answer != 0:
        return answer
    bench.table[name] = after
    if collected is not None:
        bench.archive[bench.archive_count] = Entry(name, collected)
        bench.archive_count += 1
    return 0 if sent is None else send(bench, sent)


def send(bench, message):
    """ "If 256 messages stand, the sent one is lost, ... and the answer is 1." """
    if bench.message_count == MESSAGES:
        return 1
    bench.messages[bench.message_count] = message
    bench.message_count += 1
    return 0


def lose(bench, place):
    if place >= bench.message_count:
        return 5
    del bench.messages[place]
    bench.messages.append(NO_MESSAGE)
    bench.message_count -= 1
    return 0


def issue(bench, purse_class, balance):
    """A5: "Kind 7 issues a purse at the next free place: [..] issue 2, 3, 24 [..], 22, 21" """
    if bench.count == PURSES:
        return 24
    if purse_class != PERSON:
        return 22
    if balance > CEILING:
        return 21
    bench.table[bench.count] = opened_purse(balance)
    bench.count += 1
    return 0


def brought_in(count, data, answer):
    """A5: "In demand 3 the opening balance, and the opening sum, take in issue balances and loads so
    far": the purse and the money that an event so answered, at a bench of so many purses, brought in
    from outside; None where it brought in none."""
    if answer != 0 or len(data) != EVENT.size:
        return None
    kind, name, _, _, _, amount = EVENT.unpack(data)
    return {ISSUE: (count, amount), LOAD: (name, amount)}.get(kind)


def cut(data):
    """A list of events: 12 bytes each, a last one cut short is one too."""
    return [data[at : at + EVENT.size] for at in range(0, len(data), EVENT.size)]


# ---- Opening and claims


def opened_purse(balance):
    """ "given balances, next sequence number 1, all idle, no entries" """
    return NO_PURSE._replace(balance=balance, next=1)


def opening(bench, balances):
    if not 1 <= len(balances) <= PURSES:
        return 20
    if any(balance > CEILING for balance in balances):
        return 21
    opened = Bench()
    opened.count = len(balances)
    for name, balance in enumerate(balances):
        opened.table[name] = opened_purse(balance)
    bench.replace(opened)
    return 0


def entries(bench):
    """Every entry with the purse that logged it, "in the purse or in the archive"."""
    logged = set(bench.archive[: bench.archive_count])
    for by, purse in enumerate(bench.table[: bench.count]):
        logged.update(Entry(by, details) for details in purse.log[: purse.logged])
    return logged


def matched(bench):
    """ "the payer and the payee have each logged the same details": those details, each once """
    logged = entries(bench)
    return [d for by, d in logged if by == d.payer and (d.payee, d) in logged]


def claims(bench):
    """A1: "every matched pair, wherever the two entries stand" """
    return sum(d.amount for d in matched(bench))


# ---- Bytes: details, records, messages and entries as in an image

DETAILS = struct.Struct(">BIBII")
MARKED = struct.Struct(">BBIBII")  # a message or an archive entry
HEAD = struct.Struct(">IIBB")
RECORD_SIZE = HEAD.size + DETAILS.size * (1 + LOG_PLACES)
IMAGE_HEAD = struct.Struct(">3sHBHH")
MARK, VERSION = b"PRS", 1


def details_bytes(details):
    return DETAILS.pack(*details)


def record_bytes(purse):
    head = HEAD.pack(purse.balance, purse.next, purse.status, purse.logged)
    return head + b"".join(DETAILS.pack(*d) for d in (purse.details, *purse.log))


def marked_bytes(things):
    return b"".join(MARKED.pack(mark, *details) for mark, details in things)


def record_of(data):
    balance, next_number, status, logged = HEAD.unpack_from(data)
    details, *log = map(Details._make, DETAILS.iter_unpack(data[HEAD.size : RECORD_SIZE]))
    return Purse(balance, next_number, status, logged, details, tuple(log))


def records_of(data):
    return [record_of(data[at : at + RECORD_SIZE]) for at in range(0, len(data), RECORD_SIZE)]


def marked_of(data, made):
    return [made(mark, Details(*details)) for mark, *details in MARKED.iter_unpack(data)]


# ---- Stored images


def image_length(count, messages, entries):
    return IMAGE_HEAD.size + RECORD_SIZE * count + MARKED.size * (messages + entries)


def write(bench, buffer):
    """Answer and image length; the image is put into the buffer, a bytearray."""
    if not well_formed(bench):
        return 2, 0
    length = image_length(bench.count, bench.message_count, bench.archive_count)
    if len(buffer) < length:
        return 19, 0
    buffer[:length] = image(bench)
    return 0, length


def image(bench):
    """The bytes of the image, whatever the bench's rules."""
    return (
        IMAGE_HEAD.pack(MARK, VERSION, bench.count, bench.message_count, bench.archive_count)
        + b"".join(map(record_bytes, bench.table[: bench.count]))
        + marked_bytes(bench.messages[: bench.message_count])
        + marked_bytes(bench.archive[: bench.archive_count])
    )


def read(bench, data):
    if len(data) < IMAGE_HEAD.size:
        return 16
    mark, version, count, messages, entries = IMAGE_HEAD.unpack_from(data)
    if mark != MARK:
        return 17
    if version != VERSION:
        return 18
    if not 1 <= count <= PURSES or messages > MESSAGES or entries > ENTRIES:
        return 2
    if len(data) != image_length(count, messages, entries):
        return 16
    after_records = IMAGE_HEAD.size + RECORD_SIZE * count
    after_messages = after_records + MARKED.size * messages
    stored = Bench()
    stored.count, stored.message_count, stored.archive_count = count, messages, entries
    stored.table[:count] = records_of(data[IMAGE_HEAD.size : after_records])
    stored.messages[:messages] = marked_of(data[after_records:after_messages], Message)
    stored.archive[:entries] = marked_of(data[after_messages:], Entry)
    if not well_formed(stored):
        return 2
    bench.replace(stored)
    return 0


# ---- The program's listing


def program(data):
    """What the bench program prints for this standard input."""
    bench = Bench()
    count = data[0] if data else 0
    events_at = 1 + 4 * count
    if not data or len(data) < events_at:
        answer = 20
    else:
        answer = opening(bench, list(struct.unpack_from(f">{count}I", data, 1)))
    lines = ["PRS 1"]
    if answer != 0:
        lines.append(f"opening {answer}")
    else:
        for place, one in enumerate(cut(data[events_at:]), 1):
            lines.append(f"{place} {step(bench, one)}")
        lines += last_lines(bench)
    return "".join(line + "\n" for line in lines).encode()


def last_lines(bench):
    lines = []
    for name, purse in enumerate(bench.table[: bench.count]):
        figures = (name, purse.balance, purse.next, purse.status, purse.logged)
        lines.append("purse " + " ".join(map(str, figures)))
    counts = f"messages {bench.message_count} archive {bench.archive_count}"
    return lines + [f"{counts} claims {claims(bench)}"]
