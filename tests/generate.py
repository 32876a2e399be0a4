"""Benches, events, images and records for the rig: random, but led to where the rules bite.

Everything is drawn from a `random.Random` that the caller gives, so a seed gives the same cases.
"""

import struct

import model
from common import words
from model import (
    ABORT,
    ACKNOWLEDGE,
    CEILING,
    COLLECT,
    DELIVER,
    EPA,
    EPR,
    EPV,
    IDLE,
    ISSUE,
    LAST_NUMBER,
    LOAD,
    LOG_PLACES,
    LOSE,
    NO_DETAILS,
    NO_MESSAGE,
    NO_PURSE,
    REQUEST,
    START_FROM,
    START_TO,
    VALUE,
    Bench,
    Details,
    Entry,
    Message,
)

AMOUNTS = [0, 1, 2, CEILING - 1, CEILING, CEILING + 1, 2**31, LAST_NUMBER]
NUMBERS = [0, 1, 2, 255, 256, 65535, 65536, 2**31, LAST_NUMBER - 1, LAST_NUMBER]
EXPECTED = {EPR: REQUEST, EPV: VALUE, EPA: ACKNOWLEDGE}

# ---- Openings


def balances(rng, count):
    rich = rng.random() < 0.2
    drawn = [rng.choice([0, 1, 300, 1000, CEILING - 1, CEILING]) for _ in range(count)]
    return [CEILING // 2 for _ in drawn] if rich else drawn


def opened(rng, count=None):
    bench = Bench()
    count = count or rng.choice([1, 2, 2, 2, 3, 5, 31, 32, rng.randint(1, 32)])
    model.opening(bench, balances(rng, count))
    return bench


def bad_balances(rng):
    """Balances of an opening that may be refused, and may not."""
    count = rng.choice([0, 1, 2, 31, 32, 33, 34, 127, 128, 160, 255, rng.randint(0, 255)])
    drawn = balances(rng, count)
    for _ in range(rng.choice([0, 0, 1, 2])):
        if drawn:
            drawn[rng.randrange(count)] = rng.choice([CEILING, CEILING + 1, 2**31, LAST_NUMBER])
    return drawn


# ---- Events, chosen with an eye on the bench


def start_amount(rng, purse):
    near = [purse.balance, purse.balance + 1, CEILING - purse.balance, CEILING - purse.balance + 1]
    return rng.choice(near + AMOUNTS) & LAST_NUMBER


def honest(rng, bench):
    """A step that brings some payment on; None where there is none."""
    name = rng.randrange(bench.count)
    purse = bench.table[name]
    if purse.status != IDLE:
        wanted = Message(EXPECTED[purse.status], purse.details)
        if wanted in bench.messages:
            return words.event_bytes(DELIVER, name, number=bench.messages.index(wanted))
        details = purse.details
        payee = bench.table[details.payee]
        if purse.status == EPR and payee.status == IDLE and payee.next == details.payee_number:
            return words.event_bytes(
                START_TO, details.payee, details.payer, details.payer_number, details.amount
            )
        return None
    other = rng.randrange(bench.count)
    if other == name or bench.table[other].status != IDLE or purse.balance == 0:
        return None
    amount = rng.randint(1, min(purse.balance, rng.choice([3, 100, CEILING])))
    return words.event_bytes(START_FROM, name, other, bench.table[other].next, amount)


def forged(rng, bench):
    """A start with any counterparty, number and amount."""
    name = rng.randrange(bench.count + 1) if rng.random() < 0.9 else rng.randrange(256)
    purse = bench.table[name % bench.count]
    other = rng.randrange(bench.count + 1) if rng.random() < 0.9 else rng.randrange(256)
    number = rng.choice(NUMBERS + [bench.table[other % bench.count].next] * 5)
    amount = rng.randint(1, 9) if rng.random() < 0.5 else start_amount(rng, purse)
    return words.event_bytes(rng.choice([START_FROM, START_TO]), name, other, number, amount)


def named(rng, bench, names=()):
    """One of these purses, of all where these are none; now and then no purse of the table."""
    if rng.random() < 0.05:
        return rng.choice([bench.count, 32, 255])
    return rng.choice(names or range(bench.count))


def replay(rng, bench):
    """A message that stands, to a purse that it names or to any."""
    if bench.message_count == 0:
        return words.event_bytes(DELIVER, named(rng, bench), number=rng.choice(NUMBERS))
    place = rng.randrange(bench.message_count)
    details = bench.messages[place].details
    name = named(rng, bench, [details.payer, details.payee, rng.randrange(bench.count)])
    return words.event_bytes(DELIVER, name, number=place)


def awaited(rng, bench):
    """What some busy purse waits for, delivered to it; None where no such message stands."""
    busy = [name for name in range(bench.count) if bench.table[name].status != IDLE]
    rng.shuffle(busy)
    for name in busy:
        wanted = Message(EXPECTED[bench.table[name].status], bench.table[name].details)
        if wanted in bench.messages:
            return words.event_bytes(DELIVER, name, number=bench.messages.index(wanted))
    return None


def broken(rng, bench):
    busy = [name for name in range(bench.count) if bench.table[name].status != IDLE]
    return words.event_bytes(ABORT, named(rng, bench, busy))


def collected(rng, bench):
    logged = [name for name in range(bench.count) if bench.table[name].logged]
    return words.event_bytes(COLLECT, named(rng, bench, logged))


def lost(rng, bench):
    place = rng.randrange(bench.message_count + 1) if rng.random() < 0.9 else rng.choice(NUMBERS)
    return words.event_bytes(LOSE, number=place)


def logging(rng, bench):
    """A start-to at an idle purse, or the abort of a busy one: fills logs and the ether."""
    name = rng.randrange(bench.count)
    purse = bench.table[name]
    if purse.status != IDLE or bench.count == 1:
        return words.event_bytes(ABORT, name)
    other = rng.choice([place for place in range(bench.count) if place != name])
    return words.event_bytes(START_TO, name, other, rng.randint(0, 3), rng.randint(1, 2))


def issued(rng, bench):
    """A new purse: mostly a person with a legal first balance, at times both are not."""
    purse_class = 0 if rng.random() < 0.85 else rng.choice([1, 2, 9, 128, 255])
    balance = rng.choice([0, 1, 300, 1000, CEILING - 1, CEILING])
    if rng.random() < 0.2:
        balance = rng.choice([CEILING + 1, 50_000_000, 50_000_001, 2**31, LAST_NUMBER])
    return words.event_bytes(ISSUE, counterparty=purse_class, amount=balance)


def loaded(rng, bench):
    """Money for a purse, at times one that is busy or not there: about its room, or any."""
    name = rng.randrange(bench.count + 1) if rng.random() < 0.95 else rng.randrange(256)
    room = CEILING - bench.table[name % bench.count].balance
    about = [max(0, room - 1), room, room + 1]
    amount = rng.randint(1, 100) if rng.random() < 0.5 else rng.choice(about + AMOUNTS)
    return words.event_bytes(LOAD, name, amount=amount)


def odd(rng, bench):
    """An event with one field changed, or any bytes."""
    if rng.random() < 0.1:
        return rng.randbytes(12)
    step = rng.choice([honest, forged, replay, broken, collected, lost, issued, loaded])
    data = bytearray(step(rng, bench) or bytes(12))
    edges = [0, 1, 6, 7, 8, 9, 32, 128, 255, rng.randrange(256)]
    data[rng.choice([0, 0, 1, 2, 3, 4, 7, 8, 11])] = rng.choice(edges)
    return bytes(data)


# Moods of a walk: how often each kind of step is taken.
MOODS = {
    "calm": [(honest, 90), (replay, 3), (broken, 1), (collected, 1), (lost, 3), (odd, 2)],
    "rough": [(honest, 50), (replay, 10), (broken, 12), (collected, 8), (lost, 10), (forged, 10)],
    "forging": [(honest, 20), (forged, 40), (replay, 10), (broken, 15), (collected, 10), (lost, 5)],
    "filling": [(honest, 75), (logging, 15), (replay, 4), (collected, 3), (forged, 3)],
    "logging": [(logging, 80), (honest, 12), (forged, 5), (collected, 3)],
    "archiving": [(logging, 55), (collected, 35), (honest, 5), (lost, 5)],
    "archiving-pairs": [(honest, 60), (broken, 20), (collected, 20)],
    "issuing": [(issued, 15), (loaded, 30), (honest, 40), (broken, 8), (collected, 2), (forged, 5)],
    "noise": [(odd, 70), (honest, 20), (forged, 10)],
}
# Money from outside comes seldom into a walk about payments, since 32 full purses pay little.
for about_payments in ("calm", "rough", "forging", "archiving-pairs"):
    MOODS[about_payments] += [(issued, 0.2), (loaded, 0.8)]


def walk_event(rng, bench, mood):
    """The next event of a walk in that mood."""
    while True:
        steps, weights = zip(*MOODS[mood])
        data = rng.choices(steps, weights)[0](rng, bench)
        if data is not None:
            return data
        if rng.random() < 0.2:
            return forged(rng, bench)


def walk(rng, bench, mood, length):
    """The events of a walk; the bench is left where they lead."""
    made = []
    for _ in range(length):
        data = walk_event(rng, bench, mood)
        model.step(bench, data)
        made.append(data)
    return made


def event_of(rng, bench):
    """One event in any mood, now and then cut or with bytes behind it."""
    data = None
    if bench.message_count == model.MESSAGES and rng.random() < 0.5:  # what is sent now is lost
        data = rng.choice([awaited, logging])(rng, bench)
    data = data or walk_event(rng, bench, rng.choice(list(MOODS)))
    if rng.random() < 0.05:
        return (data + data + bytes(255))[: rng.choice([0, 1, 11, 13, 24, 255])]
    return data


# ---- Program inputs


def opening_bytes(bench):
    drawn = [purse.balance for purse in bench.table[: bench.count]]
    return struct.pack(f">B{bench.count}I", bench.count, *drawn)


def long_input(rng, length):
    """One long list of events, mostly accepted."""
    bench = opened(rng, 32)
    return opening_bytes(bench) + b"".join(walk(rng, bench, "rough", length))


def program_input(rng, longest):
    """Standard input for the bench program."""
    if rng.random() < 0.1:
        drawn = bad_balances(rng)
        data = struct.pack(f">B{len(drawn)}I", len(drawn), *drawn)
        data += rng.randbytes(rng.choice([0, 12, 30]))
        return data[: rng.choice([len(data), rng.randint(0, len(data))])]
    bench = opened(rng)
    data = opening_bytes(bench)
    made = []
    while len(made) < longest and rng.random() < 0.8:
        length = rng.randint(0, rng.choice([20, 300, longest]))
        made += walk(rng, bench, rng.choice(list(MOODS)), min(length, longest - len(made)))
    tail = rng.randbytes(rng.randint(1, 11)) if rng.random() < 0.2 else b""
    return data + b"".join(made) + tail


# ---- Benches that keep the rules


def changed_field(rng, details, names):
    """Details that differ in one field and stay legal where that is easy."""
    field = rng.choice(Details._fields)
    if field in ("payer", "payee"):
        return details._replace(**{field: rng.randrange(names)})
    if field == "amount":
        return details._replace(amount=rng.choice([1, CEILING, max(1, details.amount - 1)]))
    number = getattr(details, field)
    return details._replace(**{field: rng.choice([number ^ 1, (number + 256) & LAST_NUMBER, 1, 0])})


def any_details(rng, bench, name):
    """Legal details with the purse on one side, its own number used; None for next number 1."""
    purse = bench.table[name]
    if bench.count == 1 or purse.next == 1:
        return None
    other = rng.choice([place for place in range(bench.count) if place != name])
    own = rng.choice([1, purse.next - 1, rng.randrange(1, purse.next)])
    theirs = rng.choice(NUMBERS + [rng.randrange(max(1, bench.table[other].next))] * 10)
    amount = rng.choice([1, CEILING, rng.randint(1, CEILING), rng.randint(1, 3)])
    if rng.random() < 0.5:
        return Details(name, own, other, theirs, amount)
    return Details(other, theirs, name, own, amount)


def partner(rng, details):
    """The details that the other purse logged too, or those of another payment of one price."""
    if rng.random() < 0.7:
        return details
    field = rng.choice(["payer_number", "payee_number"])
    return details._replace(**{field: rng.choice([1, getattr(details, field) ^ 1])})


def drawn_purse(rng, bench, name):
    """The purse with running details drawn for it, where they keep the rules."""
    purse = bench.table[name]
    details = any_details(rng, bench, name)
    if details is None or rng.random() < 0.3:
        return purse
    if details.payee == name:
        room = CEILING - purse.balance
        if room == 0:
            return purse
        amount = rng.choice([room, rng.randint(1, room)])
        return purse._replace(status=EPV, details=details._replace(amount=amount))
    if rng.random() < 0.5:
        return purse._replace(status=EPA, details=details)
    if purse.balance == 0:
        return purse
    amount = rng.choice([purse.balance, rng.randint(1, purse.balance)])
    return purse._replace(status=EPR, details=details._replace(amount=amount))


def drawn_message(rng, bench):
    """A message for what some purse runs, logged or archived, or near to it."""
    name = rng.randrange(bench.count)
    purse = bench.table[name]
    held = [purse.details, *purse.log[: purse.logged], any_details(rng, bench, name) or NO_DETAILS]
    details = rng.choice(held)
    if rng.random() < 0.4:
        details = changed_field(rng, details, bench.count)
    kind = rng.choice([REQUEST, VALUE, ACKNOWLEDGE, EXPECTED.get(purse.status, REQUEST)])
    return Message(kind, details)


def built(rng):
    """A bench drawn by the rules, field by field, also such as no events lead to."""
    bench = opened(rng)
    for name in range(bench.count):
        next_number = rng.choice([1, 2, 9, 40, 300, 2**31, LAST_NUMBER - 1, LAST_NUMBER])
        bench.table[name] = bench.table[name]._replace(next=next_number)
    seen = set()
    for name in range(bench.count):
        purse = drawn_purse(rng, bench, name)
        entries = []
        wanted = rng.choice([0, 0, 1, 2, 6, 7, 8])
        last = None if purse.status == IDLE else purse.details
        seen.add((name, last))
        for _ in range(min(wanted, LOG_PLACES if purse.status == IDLE else LOG_PLACES - 1)):
            chance = rng.random()
            theirs = sorted(d for by, d in seen if d and by != name and name in (d.payer, d.payee))
            if theirs and chance < 0.4:
                last = partner(rng, rng.choice(theirs))
            elif last is not None and chance < 0.6:
                last = changed_field(rng, last, bench.count)
            else:
                last = any_details(rng, bench, name)
            if last is None or list(model.logged_faults(name, purse, last, bench.count, "")):
                continue
            if (name, last) not in seen:
                seen.add((name, last))
                entries.append(last)
        log = tuple(entries) + (NO_DETAILS,) * (LOG_PLACES - len(entries))
        bench.table[name] = purse._replace(log=log, logged=len(entries))
    fill_archive(rng, bench, seen)
    fill_messages(rng, bench)
    return bench


def fill_archive(rng, bench, seen):
    last = None
    on_cards = sorted(model.entries(bench))
    for _ in range(rng.choice([0, 1, 4, 30, 256, 600])):
        if last is not None and rng.random() < 0.5:
            by = rng.choice([last.details.payer, last.details.payee])
            details = rng.choice([last.details, changed_field(rng, last.details, bench.count)])
        elif on_cards and rng.random() < 0.3:
            logger, details = rng.choice(on_cards)
            by = details.payee if logger == details.payer else details.payer
            details = partner(rng, details)
        else:
            by = rng.randrange(bench.count)
            details = any_details(rng, bench, by)
        if details is None or (by, details) in seen:
            continue
        if list(model.logged_faults(by, bench.table[by], details, bench.count, "")):
            continue
        if bench.archive_count == model.ENTRIES:
            break
        last = Entry(by, details)
        seen.add(last)
        bench.archive[bench.archive_count] = last
        bench.archive_count += 1


def fill_messages(rng, bench):
    wanted = rng.choice([0, 1, 3, 30, 255, 256])
    stands = set()
    for _ in range(wanted * 3):
        message = drawn_message(rng, bench)
        if len(stands) == wanted:
            break
        if message not in stands and not list(model.message_faults(bench, message)):
            stands.add(message)
            bench.messages[bench.message_count] = message
            bench.message_count += 1


def lifted(rng, bench):
    """The bench with one purse's numbers moved up to the last ones, everywhere at once."""
    name = rng.randrange(bench.count)
    before = bench.table[name].next
    lift = rng.choice([LAST_NUMBER - 1, LAST_NUMBER, 65536, 256]) - before
    if lift <= 0:
        return bench

    def moved(details):
        changes = {}
        if details.payer == name and model.used(details.payer_number, before):
            changes["payer_number"] = details.payer_number + lift
        if details.payee == name and model.used(details.payee_number, before):
            changes["payee_number"] = details.payee_number + lift
        return details._replace(**changes)

    other = bench.copy()
    for place in range(bench.count):
        purse = bench.table[place]
        other.table[place] = purse._replace(
            next=purse.next + (lift if place == name else 0),
            details=moved(purse.details) if purse.status != IDLE else NO_DETAILS,
            log=tuple(moved(d) for d in purse.log[: purse.logged]) + purse.log[purse.logged :],
        )
    for place in range(bench.message_count):
        kind, details = bench.messages[place]
        other.messages[place] = Message(kind, moved(details))
    for place in range(bench.archive_count):
        by, details = bench.archive[place]
        other.archive[place] = Entry(by, moved(details))
    return other if model.well_formed(other) else bench


class Pool:
    """Benches that keep the rules: some reached by walks that go on, some built."""

    def __init__(self, rng):
        self.walks = [self.begun(rng, mood) for mood in MOODS for _ in range(3)]
        self.built = [built(rng) for _ in range(30)]

    def begun(self, rng, mood):
        bench = opened(rng, rng.choice([2, 3, 4, 32]))
        walk(rng, bench, mood, rng.choice([0, 40, 1500]))
        return mood, bench

    def bench(self, rng):
        """A bench of the caller's own and where it comes from, in words."""
        if rng.random() < 0.4:
            place = rng.randrange(len(self.built))
            if rng.random() < 0.1:
                self.built[place] = built(rng)
            return self.built[place].copy(), "built"
        place = rng.randrange(len(self.walks))
        mood, bench = self.walks[place]
        if rng.random() < 0.02:
            self.walks[place] = self.begun(rng, mood)
        walk(rng, bench, mood, rng.randint(0, 8))
        if rng.random() < 0.2:
            return lifted(rng, bench).copy(), f"{mood} walk, numbers lifted"
        return bench.copy(), f"{mood} walk"


# ---- Damage


def damaged_details(rng, details, names):
    """One field of the details at an edge, and the change in words."""
    field = rng.choice(Details._fields)
    if field in ("payer", "payee"):
        edges = [0, 1, names - 1, names, 31, 32, 255]
    elif field == "amount":
        edges = AMOUNTS
    else:
        number = getattr(details, field)
        edges = NUMBERS + [number + 1, number - 1]
    to = rng.choice(edges) % (256 if field in ("payer", "payee") else 2**32)
    return details._replace(**{field: to}), f"{field.replace('_', ' ')} set to {to}"


def damaged_purse(rng, purse, names):
    """One field of a record at an edge, or one thing copied over another."""
    part = rng.choice(["balance", "next", "status", "logged", "details", "log", "twice", "money"])
    if part == "money" and purse.status in (EPR, EPV):
        amount = purse.details.amount
        balance = (amount - 1 if purse.status == EPR else CEILING + 1 - amount) % 2**32
        return purse._replace(balance=balance), f"balance set to {balance} beside its amount"
    if part in ("balance", "money"):
        to = rng.choice(AMOUNTS + [purse.balance + 1, purse.balance - 1]) % 2**32
        return purse._replace(balance=to), f"balance set to {to}"
    if part == "next":
        held = [purse.details, *purse.log]
        numbers = [number for d in held for number in (d.payer_number, d.payee_number)]
        to = rng.choice(NUMBERS + numbers)
        return purse._replace(next=to), f"next set to {to}"
    if part == "status":
        to = rng.choice([0, 1, 2, 3, 4, 255])
        return purse._replace(status=to), f"status set to {to}"
    if part == "logged":
        to = rng.choice([0, 1, 7, 8, 9, 255, (purse.logged + 1) % 256, max(0, purse.logged - 1)])
        return purse._replace(logged=to), f"log count set to {to}"
    if part == "details":
        details, says = damaged_details(rng, purse.details, names)
        return purse._replace(details=details), "running " + says
    log = list(purse.log)
    place = rng.randrange(min(LOG_PLACES, purse.logged + 1))
    if part == "log":
        log[place], says = damaged_details(rng, log[place], names)
        return purse._replace(log=tuple(log)), f"log place {place} {says}"
    log[place] = rng.choice([purse.details, *purse.log])
    logged = max(purse.logged, place + 1) if rng.random() < 0.5 else purse.logged
    return purse._replace(log=tuple(log), logged=logged), f"log place {place} made a copy"


def full_log(purse, name, names):
    """The purse with a log of eight entries, each with the purse's own number."""
    entries = []
    for number in range(1, LOG_PLACES + 1):
        other = (name + 1) % names
        entries.append(Details(name, min(number, max(0, purse.next - 1)), other, number, 1))
    return purse._replace(log=tuple(entries), logged=LOG_PLACES)


def turned(purse):
    """The purse's running details with the other side as its own."""
    d = purse.details
    other = Details(d.payee, d.payee_number, d.payer, d.payer_number, d.amount)
    return purse._replace(details=other)


def damaged_place(rng, bench, places, count, what):
    """One message or archive place changed, in place; words for it."""
    place = rng.choice([0, max(0, count - 1), min(255, count), 255, rng.randrange(256)])
    chance = rng.random()
    if chance < 0.3:
        marks = [0, 1, 2, 3, 4, bench.count - 1, bench.count, 31, 32, 255]
        to = rng.choice(marks) % 256
        places[place] = places[place]._replace(**{places[place]._fields[0]: to})
        return f"{what} {place} {places[place]._fields[0]} set to {to}"
    if chance < 0.8:
        details, says = damaged_details(rng, places[place].details, bench.count)
        places[place] = places[place]._replace(details=details)
        return f"{what} {place} {says}"
    other = rng.randrange(max(1, count))
    places[place] = places[other]
    return f"{what} {place} made a copy of {other}"


def append_message(rng, bench):
    """A message that the rules may forbid beside a running payment."""
    busy = [name for name in range(bench.count) if bench.table[name].status != IDLE]
    if not busy or bench.message_count == model.MESSAGES:
        return None
    name = rng.choice(busy)
    message = Message(rng.choice([REQUEST, VALUE, ACKNOWLEDGE]), bench.table[name].details)
    bench.messages[bench.message_count] = message
    bench.message_count += 1
    return f"message appended: kind {message.kind} for what purse {name} runs"


def append_entry(rng, bench):
    """An archive entry for what a purse runs or has logged."""
    name = rng.randrange(bench.count)
    purse = bench.table[name]
    held = [purse.details] * (purse.status != IDLE) + list(purse.log[: purse.logged])
    if not held or bench.archive_count == model.ENTRIES:
        return None
    bench.archive[bench.archive_count] = Entry(name, rng.choice(held))
    bench.archive_count += 1
    return f"archive entry appended for what purse {name} holds"


def foreign_entry(rng, bench):
    """A log entry of one purse in another's log, as its last entry."""
    logged = [name for name in range(bench.count) if 1 <= bench.table[name].logged <= LOG_PLACES]
    if not logged or bench.count == 1:
        return None
    name, other = rng.choice(logged), rng.randrange(bench.count)
    purse, count = bench.table[name], bench.table[name].logged
    near = purse.log[0]._replace(payer=other, payee=other ^ 1)
    entry = rng.choice([bench.table[other].log[0], near])
    bench.table[name] = purse._replace(log=purse.log[: count - 1] + (entry,) + purse.log[count:])
    return f"last log entry of purse {name} made one of purse {other}"


def unused_place(rng, bench):
    """Something in a place that no count covers."""
    part = rng.choice(["purse", "message", "entry", "log"])
    if part == "purse" and bench.count < model.PURSES:
        # half of them at the next free place, where an issue would stand
        place = rng.choice([bench.count, rng.randrange(bench.count, model.PURSES)])
        field = rng.choice(["balance", "next", "status", "logged", "details", "log"])
        one = Details(0, 0, 0, 0, 1)
        to = {"details": one, "log": NO_PURSE.log[1:] + (one,)}.get(field, 1)
        bench.table[place] = NO_PURSE._replace(**{field: to})
        return f"unused record {place} {field} not zero"
    details = NO_DETAILS._replace(**{rng.choice(Details._fields): rng.choice([1, 255])})
    if part == "message" and bench.message_count < model.MESSAGES:
        place = rng.randrange(bench.message_count, model.MESSAGES)
        bench.messages[place] = rng.choice([Message(1, NO_DETAILS), Message(0, details)])
        return f"unused message place {place} not zero"
    if part == "entry" and bench.archive_count < model.ENTRIES:
        place = rng.randrange(bench.archive_count, model.ENTRIES)
        bench.archive[place] = rng.choice([Entry(1, NO_DETAILS), Entry(0, details)])
        return f"unused archive place {place} not zero"
    name = rng.randrange(bench.count)
    purse = bench.table[name]
    if purse.logged >= LOG_PLACES:
        return None
    place = rng.randrange(purse.logged, LOG_PLACES)
    log = purse.log[:place] + (details,) + purse.log[place + 1 :]
    bench.table[name] = purse._replace(log=log)
    return f"unused log place {place} of purse {name} not zero"


def damaged_counts(rng, bench):
    part, edges = rng.choice(
        [
            ("count", [0, 1, 2, 31, 32, 33, 255, bench.count + 1, bench.count - 1]),
            ("message_count", [0, 1, 255, 256, 257, 65535, bench.message_count + 1]),
            ("archive_count", [0, 1, 255, 256, 257, 65535, bench.archive_count + 1]),
        ]
    )
    to = rng.choice(edges) % (256 if part == "count" else 65536)
    setattr(bench, part, to)
    return f"{part.replace('_', ' ')} set to {to}"


def damage(rng, bench):
    """One change to the bench, in place; the words for it. It may keep the rules."""
    parts = ["counts", "purse", "purse", "purse", "busy", "messages", "archive", "append", "unused"]
    part = rng.choice(parts)
    says = None
    if part == "counts":
        return damaged_counts(rng, bench)
    if part == "append":
        says = rng.choice([append_message, append_entry, foreign_entry])(rng, bench)
    elif part == "unused":
        says = unused_place(rng, bench)
    elif part == "messages":
        return damaged_place(rng, bench, bench.messages, bench.message_count, "message")
    elif part == "archive":
        return damaged_place(rng, bench, bench.archive, bench.archive_count, "archive entry")
    elif part == "busy":
        busy = [name for name in range(bench.count) if bench.table[name].status != IDLE]
        if busy:
            name = rng.choice(busy)
            if rng.random() < 0.5:
                bench.table[name] = full_log(bench.table[name], name, bench.count)
                return f"busy purse {name} given eight log entries"
            bench.table[name] = turned(bench.table[name])
            return f"busy purse {name} put on the other side"
    if says is not None:
        return says
    names = range(bench.count)
    telling = [name for name in names if bench.table[name].logged or bench.table[name].status]
    name = rng.choice([0, bench.count - 1, rng.choice(names)] + telling)
    bench.table[name], says = damaged_purse(rng, bench.table[name], bench.count)
    return f"purse {name} {says}"


# ---- Images


def image_input(rng, bench):
    """Bytes to read as an image, made from the bench's, and what was done to them."""
    data = bytearray(model.image(bench))
    kinds = ["none", "none", "length", "mark", "version", "counts", "bytes", "two", "head", "any"]
    kind = rng.choice(kinds)
    if kind == "length":
        near = [len(data) - 1, len(data) + 1, len(data) + 15, rng.randint(0, len(data))]
        size = rng.choice([0, 1, 9, 10, 11, 65535] + near * 3)
        data = (data + rng.randbytes(max(0, size - len(data))))[:size]
    elif kind == "mark":
        data[rng.randrange(3)] ^= 1 << rng.randrange(8)
    elif kind == "version":
        data[3:5] = rng.choice([b"\0\0", b"\0\2", b"\1\1", b"\1\0", b"\xff\xff"])
    elif kind == "counts":
        image_counts(rng, data)
    elif kind == "bytes":
        data[rng.randrange(10, len(data))] = rng.choice([0, 1, 2, 3, 4, 8, 9, 31, 32, 127, 255])
    elif kind == "two":
        data[rng.randrange(3)] ^= rng.choice([0, 1])
        data[4] = rng.choice([1, 2])
        image_counts(rng, data)
        data = data[: rng.choice([9, 10, 12, len(data)])]
    elif kind == "head":
        data = data[:10]
        data[5] = rng.choice([0, 1, 32, 33])
    elif kind == "any":
        data = bytearray(rng.randbytes(rng.choice([0, 5, 10, 146, 300])))
        if rng.random() < 0.5:
            data[:5] = b"PRS\0\1"
    return bytes(data), f"image {kind}"


def image_counts(rng, data):
    where, edges = rng.choice(
        [
            (5, [b"\0", b"\1", b"\x20", b"\x21", b"\xff"]),
            (6, [b"\0\0", b"\0\1", b"\1\0", b"\1\1", b"\xff\xff"]),
            (8, [b"\0\0", b"\0\1", b"\1\0", b"\1\1", b"\xff\xff"]),
        ]
    )
    to = rng.choice(edges)
    data[where : where + len(to)] = to


# ---- Card steps


def card_message(rng, purse, name):
    """The expected message, one near to it, or any."""
    kind = EXPECTED.get(purse.status, rng.randrange(5))
    details = purse.details
    chance = rng.random()
    if chance < 0.2:
        details = changed_field(rng, details, model.PURSES)
    elif chance < 0.3:
        details, _ = damaged_details(rng, details, model.PURSES)
    elif chance < 0.4:
        kind = rng.choice([0, 1, 2, 3, 4, 255])
    elif chance < 0.45:
        return NO_MESSAGE
    elif chance < 0.5:
        details = Details(name, 1, (name + 1) % 256, 1, 5)
    return Message(kind, details)


def card_input(rng, bench):
    """Own name, record, kind, counterparty, number, amount and message of a card step."""
    name = rng.randrange(bench.count)
    purse = bench.table[name]
    says = "right record"
    if rng.random() < 0.4:
        purse, says = damaged_purse(rng, purse, rng.choice([bench.count, model.PURSES]))
    elif purse.status != IDLE and rng.random() < 0.1:
        purse, says = full_log(purse, name, model.PURSES), "busy with eight log entries"
    chance = rng.random()
    if chance < 0.06:
        name = rng.choice([31, 32, 40, 127, 128, 255])
        if rng.random() < 0.6:
            purse = NO_PURSE._replace(balance=purse.balance, next=rng.choice([1, 7, LAST_NUMBER]))
    elif chance < 0.1:
        name = rng.randrange(model.PURSES)
    elif chance < 0.2:
        purse, says = purse._replace(next=LAST_NUMBER), says + ", the last number"
    elif chance < 0.25 and purse.status == IDLE:
        purse, says = full_log(purse, name, model.PURSES), says + ", eight log entries"
    kind = rng.choice([START_FROM, START_TO, DELIVER, DELIVER, ABORT, COLLECT, LOAD])
    if rng.random() < 0.3:
        purse = purse._replace(status=IDLE, details=NO_DETAILS)
    other = rng.choice([0, 1, 31, 32, 33, 128, 255, name, *rng.choices(range(32), k=3)])
    number = rng.choice(NUMBERS)
    amount = rng.choice([start_amount(rng, purse), rng.randint(1, 9)])
    return (name, purse, kind, other, number, amount, card_message(rng, purse, name)), says
