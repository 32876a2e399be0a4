#!/usr/bin/env python3
"""Document 01's lines "At the edges", each with the answer that the document gives; the edges of A5's
issue and load, with answers and what they leave worked out by hand; and claims figures by A1 worked
out by hand.

Every edge is a bench made by hand, events, and their answers, so that the lines which no list of
events reaches (next number 4,294,967,294) stand beside the others. Run alone, the script checks the
model; the rig sends the same edges to the probe.
"""

from typing import NamedTuple

from common import finish, words
import model
from model import NO_DETAILS, NO_PURSE, Bench, Details, Entry, Message


class Edge(NamedTuple):
    says: str
    bench: Bench
    events: list
    answers: list
    after: Bench = None  # all that the bench then holds, where that is worked out by hand


def bench_of(*purses):
    bench = Bench()
    bench.count = len(purses)
    bench.table[: len(purses)] = purses
    return bench


def purse(balance=1000, next_number=1):
    return NO_PURSE._replace(balance=balance, next=next_number)


def with_log(name, entries):
    """A purse that stopped as payee of purse `1 - name` so many times."""
    log = tuple(Details(1 - name, 7, name, number, 5) for number in range(1, entries + 1))
    log += (NO_DETAILS,) * (model.LOG_PLACES - entries)
    return purse(next_number=entries + 1)._replace(logged=entries, log=log)


def with_messages(bench, count):
    """So many requests that purse 1 sent and nobody answered."""
    bench.table[1] = bench.table[1]._replace(next=count + 1)
    sent = [Message(model.REQUEST, Details(0, 7, 1, number, 5)) for number in range(1, count + 1)]
    bench.messages[:count], bench.message_count = sent, count
    return bench


def starts(amount, purse_name=0, other=1):
    """A start-from and a start-to of one amount."""
    return [
        words.event_bytes(kind, purse_name, other, 1, amount)
        for kind in (model.START_FROM, model.START_TO)
    ]


def event(text):
    return words.line_bytes(text)


def edges():
    two = bench_of(purse(), purse())
    full = with_messages(bench_of(purse(), purse()), model.MESSAGES)
    some = with_messages(bench_of(purse(), purse()), 3)
    for says, amount, answer in [
        ("amount 0", 0, 7),
        ("amount 1", 1, 0),
        ("amount 5,000,001", 5_000_001, 7),
    ]:
        for one in starts(amount):
            yield Edge(says, two, [one], [answer])
    rich = bench_of(purse(300), purse())
    yield Edge("balance 300, start-from 300", rich, [starts(300)[0]], [0])
    yield Edge("balance 300, start-from 301", rich, [starts(301)[0]], [11])
    near = bench_of(purse(4_999_700), purse())
    yield Edge("payee balance 4,999,700, start-to 300", near, [starts(300)[1]], [0])
    yield Edge("payee balance 4,999,700, start-to 301", near, [starts(301)[1]], [12])
    for next_number, answer in [(4_294_967_294, 0), (4_294_967_295, 9)]:
        for one in starts(1):
            late = bench_of(purse(next_number=next_number), purse())
            yield Edge(f"next {next_number}", late, [one], [answer])
    for entries, answer in [(7, 0), (8, 10)]:
        for one in starts(1):
            logged = bench_of(with_log(0, entries), purse())
            yield Edge(f"{entries} log entries", logged, [one], [answer])
    for one in starts(0, other=0):
        yield Edge("start with itself and amount 0", two, [one], [6])
    payment = [
        event("start-from 0 to 1 number 1 amount 300"),
        event("start-to 1 from 0 number 1 amount 300"),
        event("deliver 0 to 0"),
        event("deliver 1 to 1"),
        event("deliver 1 to 1"),
    ]
    yield Edge("the same value delivered again", two, payment, [0, 0, 0, 0, 13])
    yield Edge("256 messages, start-to", full, [starts(1)[1]], [1])
    for text in ["deliver 3 to 0", "lose 3"]:
        yield Edge("place equal to the message count", some, [event(text)], [5])
    yield Edge("event of 11 bytes", two, [starts(1)[0][:11]], [3])


# ---- A5: issue and load

LARGEST = 4_294_967_295
UNUSED_NUMBERS = [{"number": number} for number in (1, 256, 65536, 16_777_216, LARGEST)]


def issue(balance=0, purse_class=0, name=0, number=0):
    return words.event_bytes(model.ISSUE, name, purse_class, number, balance)


def load(name, amount, counterparty=0, number=0):
    return words.event_bytes(model.LOAD, name, counterparty, number, amount)


def busy(status):
    """A purse 0 in that status, and its partner."""
    details = Details(1, 1, 0, 1, 5) if status == model.EPV else Details(0, 1, 1, 1, 5)
    return bench_of(purse(next_number=2)._replace(status=status, details=details), purse())


def with_archive(bench, count):
    """So many entries of purse 1, which stopped as a payer."""
    bench.table[1] = bench.table[1]._replace(next=count + 1)
    kept = [Entry(1, Details(1, number, 0, 7, 5)) for number in range(1, count + 1)]
    bench.archive[:count], bench.archive_count = kept, count
    return bench


def with_purse(bench, name, record):
    """The bench with this record at that place, which may be the next free one."""
    other = bench.copy()
    other.table[name] = record
    other.count = max(bench.count, name + 1)
    return other


def issues():
    """ "issue 2, 3, 24 (32 purses stand already), 22, 21"; class in the counterparty field """
    two = bench_of(purse(), purse())
    nearly, full = bench_of(*[purse()] * 31), bench_of(*[purse()] * 32)
    yield Edge("31 purses stand, issue", nearly, [issue(7)], [0], with_purse(nearly, 31, purse(7)))
    yield Edge("32 purses stand, issue", full, [issue(7)], [24], full)
    yield Edge("32 purses stand, the last of them issued", nearly, [issue(), issue()], [0, 24])
    for balance in (0, 1, 5_000_000):
        after = with_purse(two, 2, purse(balance))
        yield Edge(f"issue {balance:,}", two, [issue(balance)], [0], after)
    for balance in (5_000_001, 50_000_000, LARGEST):
        yield Edge(f"issue {balance:,}", two, [issue(balance)], [21], two)
    for purse_class in (1, 2, 128, 255):
        yield Edge(f"issue class {purse_class}", two, [issue(7, purse_class)], [22], two)
        both = [issue(LARGEST, purse_class)]
        yield Edge(f"issue class {purse_class}, balance too high", two, both, [22], two)
        yield Edge(f"issue class {purse_class}, 31 purses stand", nearly, both, [22], nearly)
        yield Edge(f"issue class {purse_class}, 32 purses stand", full, both, [24], full)
    yield Edge("issue too high, 31 purses stand", nearly, [issue(5_000_001)], [21], nearly)
    yield Edge("issue too high, 32 purses stand", full, [issue(5_000_001)], [24], full)
    for bench in (two, full):
        for unused in [{"name": 1}, {"name": 255}] + UNUSED_NUMBERS:
            for one in (issue(7, **unused), issue(LARGEST, 9, **unused)):
                yield Edge(f"issue with {unused}", bench, [one], [3], bench)


def loads():
    """ "load 2, 3, 4, 7, 8, 12" """
    two = bench_of(purse(), purse(4_999_700))
    for amount, answer, balance in [
        (300, 0, 5_000_000),
        (301, 12, 4_999_700),
        (299, 0, 4_999_999),
        (0, 7, 4_999_700),
        (1, 0, 4_999_701),
        (5_000_000, 12, 4_999_700),
        (5_000_001, 7, 4_999_700),
        (LARGEST, 7, 4_999_700),
    ]:
        after = with_purse(two, 1, purse(balance))
        yield Edge(f"balance 4,999,700, load {amount:,}", two, [load(1, amount)], [answer], after)
    for balance, amount, answer in [(0, 5_000_000, 0), (1, 5_000_000, 12), (5_000_000, 1, 12)]:
        alone = bench_of(purse(balance))
        after = bench_of(purse(5_000_000)) if answer == 0 else alone
        yield Edge(f"balance {balance:,}, load {amount:,}", alone, [load(0, amount)], [answer], after)
    for status in (model.EPR, model.EPV, model.EPA):
        for amount, answer in [(1, 8), (5_000_000, 8), (0, 7), (5_000_001, 7)]:
            bench = busy(status)
            yield Edge(f"status {status}, load {amount:,}", bench, [load(0, amount)], [answer], bench)
            after = with_purse(bench, 1, purse(1000 + amount))
            if amount == 1:
                yield Edge(f"the other in {status}, load", bench, [load(1, 1)], [0], after)
    # no 9 and no 10: next number and log are not looked at
    late = purse(next_number=LARGEST)
    logged = with_log(0, 8)
    for says, record in [
        ("next 4,294,967,295", late),
        ("8 log entries", logged),
        ("next 4,294,967,295 and 8 log entries", logged._replace(next=LARGEST)),
    ]:
        bench = bench_of(record, purse())
        after = with_purse(bench, 0, record._replace(balance=1001))
        yield Edge(f"{says}, load", bench, [load(0, 1)], [0], after)
    # neither sends, so neither answers 1, and neither looks at the archive
    for says, bench in [
        ("256 messages", with_messages(bench_of(purse(), purse()), model.MESSAGES)),
        ("256 archive entries", with_archive(bench_of(purse(), purse()), model.ENTRIES)),
    ]:
        after = with_purse(with_purse(bench, 0, purse(1001)), 2, purse(7))
        yield Edge(f"{says}, load and issue", bench, [load(0, 1), issue(7)], [0, 0], after)
    for name in (2, 31, 32, 255):
        for amount in (0, 1, LARGEST):
            yield Edge(f"load at purse {name}", two, [load(name, amount)], [4], two)
    for unused in [{"counterparty": 1}, {"counterparty": 255}] + UNUSED_NUMBERS:
        for name, amount in [(0, 1), (0, 0), (255, 1)]:
            yield Edge(f"load with {unused}", two, [load(name, amount, **unused)], [3], two)
    # an issued purse is loaded, and not before it is issued
    after = with_purse(two, 2, purse(12))
    chain = [load(2, 5), issue(7), load(2, 5), load(3, 5)]
    yield Edge("load before and after the issue", two, chain, [4, 0, 0, 4], after)


def malformed():
    """ "0 and 7 to 255 are malformed", of which A5 takes 7 and 8 """
    two = bench_of(purse(), purse())
    for kind in (0, *range(9, 256)):  # with all else 0, which is no 3 in any kind that is one
        yield Edge(f"kind {kind}", two, [words.event_bytes(kind)], [3], two)
    for kind in (model.ISSUE, model.LOAD):
        one = words.event_bytes(kind, amount=5)
        spare = one[:3] + b"\1" + one[4:]
        for wrong in (one[:11], one + b"\0", spare):
            yield Edge(f"kind {kind}: {wrong.hex()}", two, [wrong], [3], two)


def all_edges():
    yield from edges()
    yield from issues()
    yield from loads()
    yield from malformed()


class Figure(NamedTuple):
    says: str
    bench: Bench
    claims: int


def full_of_pairs(payers_on_cards):
    """32 full logs and a full archive: each purse has 8 payments of 5,000,000 to the next one, one
    side's entry on its card and the other's in the archive, the last first."""
    bench = bench_of(*[purse(next_number=17)] * model.PURSES)
    entries = []
    for name in range(model.PURSES):
        other = (name + (1 if payers_on_cards else model.PURSES - 1)) % model.PURSES
        payer, payee = (name, other) if payers_on_cards else (other, name)
        log = tuple(Details(payer, k, payee, 8 + k, model.CEILING) for k in range(1, 9))
        bench.table[name] = bench.table[name]._replace(logged=model.LOG_PLACES, log=log)
        entries += [Entry(other, details) for details in log]
    bench.archive, bench.archive_count = entries[::-1], len(entries)
    return bench


def figures():
    """Claims: "every matched pair, wherever the two entries stand"."""
    listed = bench_of(purse(1000), purse(200))
    for text, claims in [
        ("start-from 0 to 1 number 1 amount 300", 0),
        ("start-to 1 from 0 number 1 amount 300", 0),
        ("deliver 0 to 0", 0),
        ("abort 1", 0),
        ("deliver 1 to 1", 0),
        ("abort 0", 300),
        ("collect 0", 300),
        ("collect 1", 300),
    ]:
        model.event(listed, event(text))
        yield Figure(f"the listing after {text}", listed.copy(), claims)
    for side, on_cards in [("payers'", True), ("payees'", False)]:
        says = f"256 pairs, the {side} entries on the cards"
        yield Figure(says, full_of_pairs(on_cards), 1_280_000_000)


def main():
    passed = failed = 0
    for edge in all_edges():
        bench = edge.bench.copy()
        got = [model.event(bench, data) for data in edge.events]
        left = edge.after is None or edge.after == bench
        if got == edge.answers and left and model.well_formed(bench):
            passed += 1
        else:
            failed += 1
            says = f"expected {edge.answers}, got {got}" if left else "the bench is left otherwise"
            print(f"{edge.says}: {says}")
    for figure in figures():
        got = model.claims(figure.bench)
        if got == figure.claims and model.well_formed(figure.bench):
            passed += 1
        else:
            failed += 1
            print(f"{figure.says}: expected claims {figure.claims}, got {got}")
    finish(passed, failed)


if __name__ == "__main__":
    main()
