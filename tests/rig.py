#!/usr/bin/env python3
"""The differential rig: drives the bench program and the probe beside the model of the documents and
compares every byte that they give.

    rig.py                          both programs, where rt leaves them
    rig.py --short                  about half a minute
    rig.py --seed 7 --events 1000000 --requests 100000
    rig.py --prs PATH --probe PATH  other programs
    rig.py --drawn                  the drawn requests and lists alone, not the worked cases

Parts: the edges of document 01 and A5 and claims figures of A1; a bench filled by issues and loads of
purses in every status (A5); requests to the probe on right and damaged benches, images and records;
each field of a state and of a record at each of its edges; the ends of the probe's stream; lists of
events through the program (accepted and refused ones, replays, losses, full logs, archive, ether and
table, bad openings, cut events). vectors.py and examples.sh run the vectors.

A failure says the seed, the case and the first difference, and keeps the input under target/rig.
The last line is 'N passed, M failed'; the exit status is 1 on any failure.
"""

import argparse
import random
import signal
import struct
import subprocess
import sys
import tempfile
import time
from bisect import bisect_right
from collections import Counter
from pathlib import Path

from common import PROBE, PRS, ROOT, finish, words
from edges import all_edges, figures
import generate
import model
from model import ENTRIES, LOG_PLACES, MESSAGES, PURSES, RECORD_SIZE

KEPT = ROOT / "target" / "rig"
PATIENCE = 20  # seconds for one reply
LISTING_PATIENCE = 120  # seconds for one listing, or all replies to one stream
ENOUGH = 25  # failures, after which the rig stops
REACHING = 10_000  # so many requests must reach every answer and every rule

# ---- Replies in words: the fields of a reply and where they stand


def details_layout(where):
    names = ["payer", "payer's number", "payee", "payee's number", "amount"]
    return [(f"{where} {name}", size) for name, size in zip(names, [1, 4, 1, 4, 4])]


def record_layout(where):
    fields = [(f"{where} balance", 4), (f"{where} next number", 4)]
    fields += [(f"{where} status", 1), (f"{where} log count", 1)]
    fields += details_layout(f"{where} running details")
    for place in range(LOG_PLACES):
        fields += details_layout(f"{where} log place {place}")
    return fields


def marked_layout(where, mark):
    return [(f"{where} {mark}", 1)] + details_layout(where)


def state_layout():
    fields = [("purse count", 1)]
    for name in range(PURSES):
        fields += record_layout(f"purse {name}")
    fields.append(("message count", 2))
    for place in range(MESSAGES):
        fields += marked_layout(f"message {place}", "kind")
    fields.append(("archive count", 2))
    for place in range(ENTRIES):
        fields += marked_layout(f"archive entry {place}", "logging purse")
    return fields


def image_layout(bench):
    fields = [("mark", 3), ("version", 2), ("purse count", 1)]
    fields += [("message count", 2), ("archive count", 2)]
    for name in range(bench.count):
        fields += record_layout(f"purse {name}")
    for place in range(bench.message_count):
        fields += marked_layout(f"message {place}", "kind")
    for place in range(bench.archive_count):
        fields += marked_layout(f"archive entry {place}", "logging purse")
    return [(f"image {name}", size) for name, size in fields]


def reply_layout(letter, bench):
    answer = [("answer", 1)]
    if letter in "EOR":
        return answer + state_layout()
    if letter == "W":
        image = image_layout(bench) if model.well_formed(bench) else []
        return answer + [("image length", 2)] + image
    if letter == "C":
        return answer + [("claims", 4)]
    handed = marked_layout("message handed out", "kind") + details_layout("details handed out")
    return answer + record_layout("record") + handed


def difference(want, got, layout):
    """The first difference of two replies that are not equal, in words."""
    at = next((i for i, (a, b) in enumerate(zip(want, got)) if a != b), min(len(want), len(got)))
    if at == len(got):
        return f"the reply ends after {len(got)} of {len(want)} bytes"
    starts = [0]
    for _, size in layout:
        starts.append(starts[-1] + size)
    field = bisect_right(starts, at) - 1
    if field >= len(layout):
        return f"byte {at} of the reply: expected {want[at]}, got {got[at]}"
    name, size = layout[field]
    begins = starts[field]
    numbers = [int.from_bytes(reply[begins : begins + size], "big") for reply in (want, got)]
    return f"{name}: expected {numbers[0]}, got {numbers[1]}"


# ---- Events in words

NAMES = ["start-from", "start-to", "deliver", "abort", "lose", "collect", "issue", "load"]
KINDS = dict(enumerate(NAMES, 1))
CARD_KINDS = [1, 2, 3, 4, 6, 8]


def told(data):
    """An event in words, for a person who looks at a failure."""
    if len(data) != model.EVENT.size:
        return f"event of {len(data)} bytes {data.hex()}"
    kind, purse, counterparty, spare, number, amount = model.EVENT.unpack(data)
    fields = f"purse {purse} counterparty {counterparty} spare {spare}"
    return f"{KINDS.get(kind, f'kind {kind}')} {fields} number {number} amount {amount}"


# ---- States and requests as bytes


def state_bytes(bench):
    return b"".join(
        [
            bytes([bench.count]),
            *map(model.record_bytes, bench.table),
            struct.pack(">H", bench.message_count),
            model.marked_bytes(bench.messages),
            struct.pack(">H", bench.archive_count),
            model.marked_bytes(bench.archive),
        ]
    )


class Request:
    """One request to the probe with the reply that the model expects, and words about it. `faults`
    gives the rules that the bench, stored bench or record does not keep, `kind` that of the event or
    of the card's step."""

    def __init__(self, letter, bench, body, reply, says, faults=(), kind=None):
        self.letter, self.bench, self.says, self.kind = letter, bench, says, kind
        self.bytes = letter.encode() + body
        self.reply = reply
        self.faults = faults

    def broken_alone(self):
        """The rule for which alone the answer is 2; None where there is no such."""
        broken = set(self.faults) if self.reply[0] == 2 else ()
        return next(iter(broken)) if len(broken) == 1 else None

    def difference(self, got):
        """What differs in a reply, in words; None where nothing does."""
        if got == self.reply:
            return None
        return difference(self.reply, got, reply_layout(self.letter, self.bench))


def event_request(bench, data, says):
    after = bench.copy()
    answer = model.event(after, data)
    body = state_bytes(bench) + bytes([len(data)]) + data
    reply = bytes([answer]) + state_bytes(after)
    kind = data[0] if data else None
    return Request("E", bench, body, reply, f"{told(data)}, {says}", model.faults(bench), kind)


def opening_request(bench, balances, says):
    after = bench.copy()
    answer = model.opening(after, balances)
    body = state_bytes(bench) + struct.pack(f">B{len(balances)}I", len(balances), *balances)
    reply = bytes([answer]) + state_bytes(after)
    return Request("O", bench, body, reply, f"balances {balances}, {says}")


def read_request(bench, image, says, stored=None):
    """Reading an image; `stored` is the bench whose image it is, if it is that and no more."""
    after = bench.copy()
    answer = model.read(after, image)
    body = state_bytes(bench) + struct.pack(">H", len(image)) + image
    reply = bytes([answer]) + state_bytes(after)
    faults = model.faults(stored) if stored else ()
    return Request("R", bench, body, reply, f"{len(image)} bytes, {says}", faults)


def write_request(bench, size, says):
    buffer = bytearray(b"\xaa" * size)
    answer, length = model.write(bench, buffer)
    body = state_bytes(bench) + struct.pack(">H", size)
    reply = struct.pack(">BH", answer, length) + buffer
    return Request("W", bench, body, reply, f"buffer of {size} bytes, {says}", model.faults(bench))


def pair_places(bench):
    """The ways in which matched pairs stand, the payer's entry first, and "one price" where entries
    of two payments would pair but for their numbers."""
    archive = set(bench.archive[: bench.archive_count])
    for d in model.matched(bench):
        sides = [(d.payer, d), (d.payee, d)]
        yield " and ".join("archive" if side in archive else "card" for side in sides)
    logged = model.entries(bench)
    prices = {(by, d.payer, d.payee, d.amount) for by, d in logged if by == d.payee}
    for by, d in logged:
        price = (d.payee, d.payer, d.payee, d.amount)
        if by == d.payer and price in prices and (d.payee, d) not in logged:
            yield "one price"


def claims_request(bench, says):
    right = model.well_formed(bench)
    reply = struct.pack(">BI", 0 if right else 2, model.claims(bench) if right else 0)
    return Request("C", bench, state_bytes(bench), reply, says, model.faults(bench))


def card_request(told_to_card, says):
    name, purse, kind, counterparty, number, amount, message = told_to_card
    answer, after, sent, collected = model.card(*told_to_card)
    body = bytes([name]) + model.record_bytes(purse)
    body += struct.pack(">BBII", kind, counterparty, number, amount) + model.marked_bytes([message])
    reply = bytes([answer]) + model.record_bytes(after)
    reply += model.marked_bytes([sent]) + model.details_bytes(collected)
    about = f"own name {name}, {KINDS[kind]}, counterparty {counterparty}, number {number}"
    faults = model.purse_faults(name, purse, PURSES)
    about += f", amount {amount}, {message}, {says}"
    return Request("P", None, body, reply, about, faults, kind)


def counts_kept(bench):
    """Whether purse, message and archive count are in their range."""
    return (
        1 <= bench.count <= PURSES
        and bench.message_count <= MESSAGES
        and bench.archive_count <= ENTRIES
    )


def write_size(rng, bench):
    """A buffer length about the image's own."""
    needed = model.image_length(bench.count, bench.message_count, bench.archive_count)
    near = [needed, needed, needed - 1, needed + 1, 0, 9, 10, 12042, 12041, rng.randint(0, 12100)]
    return min(65535, rng.choice(near + [65535] * (rng.random() < 0.1)))


def drawn_request(rng, pool):
    """One request of any kind."""
    bench, says = pool.bench(rng)
    letter = rng.choices("EORWCP", [36, 5, 18, 13, 9, 19])[0]
    if letter == "P":
        return card_request(*generate.card_input(rng, bench))
    event = generate.event_of(rng, bench)  # drawn before the damage, so it may be a right one
    harm = rng.random()
    if harm < 0.5:
        says += ", " + generate.damage(rng, bench)
        if harm < 0.05 and counts_kept(bench):
            says += ", " + generate.damage(rng, bench)
    if letter == "E":
        return event_request(bench, event, says)
    if letter == "O":
        return opening_request(bench, generate.bad_balances(rng), says)
    if letter == "R":
        image, kind = stored_image(rng, bench)
        before, _ = pool.bench(rng)
        if rng.random() < 0.3:
            generate.damage(rng, before)
        return read_request(before, image, f"{says}, {kind}")
    if letter == "W":
        return write_request(bench, write_size(rng, bench), says)
    return claims_request(bench, says)


def stored_image(rng, bench):
    """An image of the bench, as it is or damaged once more; of a new one where counts are wrong."""
    if not counts_kept(bench):
        bench = generate.built(rng)
    if model.well_formed(bench) or rng.random() < 0.2:
        return generate.image_input(rng, bench)
    return model.image(bench), "image of it"


# ---- The programs


class TooSlow(Exception):
    pass


def out_of_time(_signal, _frame):
    raise TooSlow()


class Probe:
    """The probe as a running program, one request and one reply at a time."""

    def __init__(self, path):
        self.path = path
        self.start()

    def start(self):
        self.running = subprocess.Popen([self.path], stdin=subprocess.PIPE, stdout=subprocess.PIPE)

    def ask(self, request):
        """The reply, no longer than the model's; the program is started anew after a wrong one."""
        got = b""
        signal.setitimer(signal.ITIMER_REAL, PATIENCE)
        try:
            self.running.stdin.write(request.bytes)
            self.running.stdin.flush()
            got = self.running.stdout.read(len(request.reply))
        except (BrokenPipeError, TooSlow):
            pass
        signal.setitimer(signal.ITIMER_REAL, 0)
        if got != request.reply:
            self.running.kill()
            self.running.wait()
            self.start()
        return got

    def end(self):
        """What it still writes once the input ends, and its exit status."""
        try:
            left, _ = self.running.communicate(timeout=PATIENCE)
        except subprocess.TimeoutExpired:
            self.running.kill()
            return b"", "no end"
        return left, self.running.returncode


def output_of(path, data):
    """Everything a program writes for an input, and its exit status."""
    try:
        run = subprocess.run([path], input=data, stdout=subprocess.PIPE, timeout=LISTING_PATIENCE)
    except subprocess.TimeoutExpired as late:
        return late.stdout or b"", "no end"
    return run.stdout, run.returncode


def output_in_pieces(path, data, rng):
    """The same, where the input comes in small pieces with pauses between."""
    with tempfile.TemporaryFile() as output:
        running = subprocess.Popen([path], stdin=subprocess.PIPE, stdout=output, bufsize=0)
        at = 0
        try:
            while at < len(data):
                size = rng.choice([1, 2, 11, 12, 13, 4096, len(data) // 8 + 1])
                at += running.stdin.write(data[at : at + size])
                time.sleep(0.001)
        except BrokenPipeError:
            pass  # it ended before its input, which a request that is none may make it do
        running.stdin.close()
        try:
            status = running.wait(timeout=LISTING_PATIENCE)
        except subprocess.TimeoutExpired:
            running.kill()
            running.wait()
            status = "no end"
        output.seek(0)
        return output.read(), status


# ---- The tally


class Tally:
    def __init__(self, seed, stop):
        self.seed, self.stop = seed, stop
        self.passed = self.failed = 0

    def count(self, case, fault, data=None):
        """Counts one case; a fault is told with its seed and its input kept."""
        if fault is None:
            self.passed += 1
            return
        self.failed += 1
        print(f"FAILED seed {self.seed}, {case}: {fault}")
        if data is not None:
            KEPT.mkdir(parents=True, exist_ok=True)
            kept = KEPT / (case.replace(" ", "-") + ".in")
            kept.write_bytes(data)
            print(f"       input kept as {kept.relative_to(ROOT)}")
        if self.stop or self.failed == ENOUGH:
            finish(self.passed, self.failed)


# ---- The parts of the rig


def listing_fault(want, got, status, data):
    """What is wrong with a listing, in words."""
    if want == got:
        return None if status == 0 else f"exit status {status}"
    wanted, given = want.decode().split("\n"), got.decode(errors="replace").split("\n")
    for place, (a, b) in enumerate(zip(wanted, given)):
        if a != b:
            count = data[0] if data else 0
            at = 1 + 4 * count + model.EVENT.size * (place - 1)
            one = data[at : at + model.EVENT.size]
            event = told(one) if 0 < place and one else "the end"
            return f"line {place + 1} ({event}): expected '{a}', got '{b}'"
    return f"expected {len(wanted) - 1} lines, got {len(given) - 1}, exit status {status}"


def run_programs(prs, events, tally, answers):
    """Lists of events through the program, together at least so many events. The first is one long
    list; every tenth comes in small pieces."""
    done = case = 0
    longest = min(5000, max(50, events // 20))
    while done < events:
        case += 1
        rng = random.Random(f"{tally.seed} program {case}")
        if case == 1:
            data = generate.long_input(rng, events // 4)
        else:
            data = generate.program_input(rng, longest)
        want = model.program(data)
        in_pieces = case % 10 == 0
        got, status = output_in_pieces(prs, data, rng) if in_pieces else output_of(prs, data)
        tally.count(f"program {case}", listing_fault(want, got, status, data), data)
        lines = [line.split() for line in want.decode().splitlines()[1:]]
        numbered = [int(line[1]) for line in lines if line[0].isdigit()]
        answers.update(numbered or [int(line[1]) for line in lines if line[0] == "opening"])
        done += len(numbered)
    return done, case


def ask_event(probe, tally, case, bench, data, answer, says, after=None):
    """One event with the answer worked out by hand, and what the bench holds after it where that is
    too; the bench takes it."""
    request = event_request(bench, data, says)
    got = probe.ask(request)
    fault = request.difference(got)
    if fault is None and got[0] != answer:
        fault = f"the documents say {answer}, got {got[0]}"
    if fault is None and after is not None and got[1:] != state_bytes(after):
        fault = "the documents leave another bench"
    tally.count(case, fault and f"{request.says}: {fault}", request.bytes)
    model.event(bench, data)


def run_edges(probe, tally):
    for place, edge in enumerate(all_edges(), 1):
        bench = edge.bench.copy()
        for data, answer in zip(edge.events[:-1], edge.answers):
            ask_event(probe, tally, f"edge {place}", bench, data, answer, edge.says)
        last, answer = edge.events[-1], edge.answers[-1]
        ask_event(probe, tally, f"edge {place}", bench, last, answer, edge.says, edge.after)
    for place, figure in enumerate(figures(), 1):
        request = claims_request(figure.bench, figure.says)
        got = probe.ask(request)
        fault = request.difference(got)
        if fault is None and got != struct.pack(">BI", 0, figure.claims):
            fault = f"A1 says {figure.claims}, got {got.hex()}"
        tally.count(f"figure {place}", fault and f"{figure.says}: {fault}", request.bytes)


def run_filling(probe, tally):
    """A5: from one purse to 32 by issues, at every number of purses with the refusals of an issue and
    a load of the purse that was issued last, of the next free place and of the first purse."""
    bench = model.Bench()
    model.opening(bench, [1000])
    event = words.event_bytes
    for purses in range(1, PURSES + 1):
        full = purses == PURSES
        asked = [
            (event(7, 0, 9, 0, model.LAST_NUMBER), 24 if full else 22),
            (event(7, 0, 1, 0, 50_000_000), 24 if full else 22),
            (event(7, 0, 0, 0, 5_000_001), 24 if full else 21),
            (event(7, 0, 0, 1, 0), 3),
            (event(7, purses, 0, 0, 0), 3),
            (event(8, purses, 0, 0, 0), 4),
            (event(8, purses - 1, 0, 0, 3), 0),
            (event(8, 0, 0, 0, 5_000_000), 12),
            (event(7, 0, 0, 0, purses), 24 if full else 0),
        ]
        for place, (data, answer) in enumerate(asked, 1):
            case = f"filling {purses} {place}"
            ask_event(probe, tally, case, bench, data, answer, f"{purses} purses")
    balances = [purse.balance for purse in bench.table]
    wanted = [1003] + [name + 3 for name in range(1, PURSES)]
    tally.count("filling", None if balances == wanted else f"the model leaves {balances}")


def run_loads(probe, tally):
    """A5: loads of each purse of the swept bench, in every status, about its room and the ceiling, as
    events and at its card."""
    bench = swept_bench()
    for name in range(bench.count):
        purse = bench.table[name]
        room = model.CEILING - purse.balance
        amounts = {0, 1, room - 1, room, room + 1, *generate.AMOUNTS}
        for amount in sorted(amount for amount in amounts if amount >= 0):
            data = words.event_bytes(model.LOAD, name, amount=amount)
            message = model.Message(generate.EXPECTED.get(purse.status, 1), purse.details)
            says = f"status {purse.status}, room {room}"
            for request in (
                event_request(bench, data, says),
                card_request((name, purse, model.LOAD, 255, 7, amount, message), says),
            ):
                fault = request.difference(probe.ask(request))
                case = f"load {name} {amount} {request.letter}"
                tally.count(case, fault and f"{request.says}: {fault}", request.bytes)


def state_of(data):
    """The bench that these bytes of a state say."""
    bench = model.Bench()
    bench.count = data[0]
    messages_at = 1 + PURSES * RECORD_SIZE
    archive_at = messages_at + 2 + MESSAGES * model.MARKED.size
    bench.table = model.records_of(data[1:messages_at])
    bench.message_count = int.from_bytes(data[messages_at : messages_at + 2], "big")
    bench.messages = model.marked_of(data[messages_at + 2 : archive_at], model.Message)
    bench.archive_count = int.from_bytes(data[archive_at : archive_at + 2], "big")
    bench.archive = model.marked_of(data[archive_at + 2 :], model.Entry)
    return bench


def changed_at_edges(data, layout, chosen):
    """The bytes with each chosen field in turn at 0, 1, its limits, next to them and the largest,
    and next to what it was; words for the change."""
    at = 0
    for name, size in layout:
        if chosen(name):
            now = int.from_bytes(data[at : at + size], "big")
            near = [0, 1, now - 1, now + 1, 256**size - 2, 256**size - 1]
            limits = {
                1: [2, 3, 4, 7, 8, 9, 31, 32, 33],
                2: [255, 256, 257],
                4: [2**31, model.CEILING - 1, model.CEILING, model.CEILING + 1],
            }[size]
            for to in sorted({number % 256**size for number in near + limits} - {now}):
                changed = data[:at] + to.to_bytes(size, "big") + data[at + size :]
                yield changed, f"{name} set to {to}"
        at += size


SWEPT = """
start-from 1 to 4 number 1 amount 7
start-to 4 from 1 number 1 amount 7
deliver 9 to 1
deliver 10 to 4
abort 1
start-from 3 to 2 number 1 amount 7
start-to 2 from 3 number 1 amount 7
deliver 12 to 3
abort 3
abort 2
collect 3
collect 2
start-from 1 to 2 number 2 amount 293
start-to 2 from 1 number 2 amount 1000
start-from 3 to 4 number 2 amount 7
start-to 4 from 3 number 2 amount 7
deliver 15 to 3
abort 4
"""


def swept_bench():
    """Six purses: idle with a full log; epr with its whole balance; epv up to the ceiling; epa;
    idle; new. Messages of each kind, archive entries, a pair among them."""
    bench = model.Bench()
    model.opening(bench, [1000, 300, 4_999_000, 1000, 0, 5])
    logged = "start-to 0 from 4 number 9 amount 2\nabort 0\n"
    text = logged + "collect 0\n" + logged * 8 + SWEPT
    if any(model.event(bench, data) for data in model.cut(words.text_bytes(text))):
        raise ValueError("an event of the swept bench is refused")
    return bench


def run_sweep(probe, tally, alone):
    """Each field of a state and of a record at each of its edges, through every entry in turn."""
    bench = swept_bench()
    last_message, last_entry = bench.message_count - 1, bench.archive_count - 1
    parts = [f"purse {name} " for name in range(bench.count + 1)]
    for place in {0, last_message, last_message + 1, MESSAGES - 1}:
        parts.append(f"message {place} ")
    for place in {0, last_entry, last_entry + 1, ENTRIES - 1}:
        parts.append(f"archive entry {place} ")
    parts += ["purse count", "message count", "archive count"]
    changes = changed_at_edges(
        state_bytes(bench), state_layout(), lambda name: name.startswith(tuple(parts))
    )
    for case, (data, says) in enumerate(changes, 1):
        request = plain_request("ECWR"[case % 4], state_of(data), says)
        fault = request.difference(probe.ask(request))
        tally.count(f"sweep {case}", fault and f"{request.letter} ({says}): {fault}", request.bytes)
        alone[request.letter, request.broken_alone()] += 1
    for name in range(bench.count):
        purse = bench.table[name]
        expected = model.Message(generate.EXPECTED.get(purse.status, 1), purse.details)
        changes = changed_at_edges(model.record_bytes(purse), record_layout("record"), bool)
        for case, (data, says) in enumerate(changes, 1):
            kind = CARD_KINDS[case % len(CARD_KINDS)]
            record = model.record_of(data)
            request = card_request((name, record, kind, 5 - name, 1, 1, expected), says)
            fault = request.difference(probe.ask(request))
            fault = fault and f"{request.says}: {fault}"
            tally.count(f"card sweep {name} {case}", fault, request.bytes)
            alone["P", request.broken_alone()] += 1


def plain_request(letter, bench, says):
    """A request that is answered with 0 unless the bench breaks a rule."""
    if letter == "R" and counts_kept(bench):
        return read_request(model.Bench(), model.image(bench), says, bench)
    if letter == "W":
        return write_request(bench, 12042, says)
    if letter == "C":
        return claims_request(bench, says)
    return event_request(bench, words.event_bytes(model.ABORT), says)


def run_requests(probe, requests, tally, seen, alone, pairs):
    """Drawn requests; notes the answers given, the rules that were broken alone and how the pairs of
    claims stand. A bench that breaks one rule alone goes to the other entries too, until each has
    seen that rule thrice."""
    pool = generate.Pool(random.Random(f"{tally.seed} pool"))
    rng = random.Random(f"{tally.seed} requests")

    def ask(case, request):
        fault = request.difference(probe.ask(request))
        if fault is not None:
            fault = f"{request.letter} ({request.says}): {fault}"
        tally.count(case, fault, request.bytes)
        seen[request.letter, request.reply[0]] += 1
        if request.kind is not None:
            seen[request.letter, request.kind, request.reply[0]] += 1
        if request.letter == "C" and request.reply[0] == 0:
            pairs.update(set(pair_places(request.bench)))
        rule = request.broken_alone()
        alone[request.letter, rule] += 1
        return rule

    for case in range(1, requests + 1):
        request = drawn_request(rng, pool)
        rule = ask(f"request {case}", request)
        if rule is not None and request.letter in "EWC":
            for letter in "EWC" if rule in STATE_RULES else "EWCR":
                if alone[letter, rule] < 3:
                    again = plain_request(letter, request.bench, request.says)
                    ask(f"request {case} {letter}", again)


def run_ends(path, tally):
    """Streams of several requests at once, whole and with a last one that is none or cut short."""
    rng = random.Random(f"{tally.seed} ends")
    pool = generate.Pool(rng)
    for case in range(1, 21):
        requests = [drawn_request(rng, pool) for _ in range(rng.choice([0, 1, 2, 12]))]
        last = drawn_request(rng, pool).bytes
        tails = [b"", b"X", b"e", b"\0", last[: rng.randrange(1, len(last))], last[:-1]]
        card = card_request(*generate.card_input(rng, pool.bench(rng)[0])).bytes
        for kind in (0, 5, 7, 9, 255):
            tails.append(card[: 2 + RECORD_SIZE] + bytes([kind]) + card[3 + RECORD_SIZE :])
        tail = tails[case % len(tails)]
        data = b"".join(request.bytes for request in requests) + tail
        want = b"".join(request.reply for request in requests)
        in_pieces = case % 3 == 0
        got, status = output_in_pieces(path, data, rng) if in_pieces else output_of(path, data)
        fault = None
        if got != want:
            fault = f"{len(requests)} requests and a tail of {len(tail)} bytes: "
            fault += f"expected {len(want)} bytes, got {len(got)}"
        elif status == "no end" or status < 0:
            fault = f"a tail of {len(tail)} bytes: ended with {status}"
        tally.count(f"end {case}", fault, data)


# Every answer number that each entry can give.
ANSWERS = {
    "E": [*range(0, 16), 21, 22, 24],
    "O": [0, 20, 21],
    "R": [0, 2, 16, 17, 18],
    "W": [0, 2, 19],
    "C": [0, 2],
    "P": [0, 2, 4, 6, 7, 8, 9, 10, 11, 12, 13, 14],
}

# Every answer number that each kind of event, and of card step, can give.
STARTS = [3, 4, 6, 7, 8, 9, 10]
KIND_ANSWERS = {
    ("E", 1): [0, *STARTS, 11],
    ("E", 2): [0, 1, *STARTS, 12],
    ("E", 3): [0, 1, 3, 4, 5, 13],
    ("E", 4): [0, 3, 4],
    ("E", 5): [0, 3, 5],
    ("E", 6): [0, 3, 4, 14, 15],
    ("E", 7): [0, 3, 21, 22, 24],
    ("E", 8): [0, 3, 4, 7, 8, 12],
    ("P", 1): [0, 2, 4, 6, 7, 8, 9, 10, 11],
    ("P", 2): [0, 2, 4, 6, 7, 8, 9, 10, 12],
    ("P", 3): [0, 2, 4, 13],
    ("P", 4): [0, 2, 4],
    ("P", 6): [0, 2, 4, 14],
    ("P", 8): [0, 2, 4, 7, 8, 12],
}

# Every rule, in the model's words: about one purse alone; about what an image holds beside the
# purses; about what an image cannot say.
PURSE_RULES = [
    "balance ceiling",
    "next at least 1",
    "status 0 to 3",
    "at most 8 log entries",
    "log entry names two purses and a legal amount",
    "log entry names its own purse",
    "log entry own number below next",
    "unused log places zero",
    "idle details zero",
    "running details name two purses and a legal amount",
    "role of the status",
    "running details own number below next",
    "busy purse at most 7 entries",
    "epr amount at most balance",
    "epv balance plus amount at most ceiling",
    "same details twice in a purse",
]
IMAGE_RULES = [
    "message kind 1 to 3",
    "message names two purses and a legal amount",
    "message payee's number below next",
    "value or acknowledge payer's number below next",
    "value or acknowledge for a payer in epr",
    "acknowledge for a payee in epv",
    "archive entry logged by a purse of the table",
    "archive entry names two purses and a legal amount",
    "archive entry names its own purse",
    "archive entry own number below next",
    "no two messages equal",
    "same details twice in the archive",
    "same details in log and archive",
    "same details running and in the archive",
]
STATE_RULES = [
    "1 to 32 purses",
    "at most 256 messages",
    "at most 256 archive entries",
    "records past the count zero",
    "unused message places zero",
    "unused archive places zero",
]


# How a matched pair can stand, the payer's entry first; and what is none.
PAIRS = ["card and card", "card and archive", "archive and card", "archive and archive", "one price"]


def check_reach(tally, seen, alone, pairs):
    """The rig's own reach: every answer was given, of every kind of event and of card step too, every
    rule was broken alone, and claims were asked for with pairs that stand in every way."""
    missed = [way for way in PAIRS if not pairs[way]]
    tally.count("reach pairs", f"no claims were asked for with {missed}" if missed else None)
    for letter, numbers in ANSWERS.items():
        missed = [number for number in numbers if not seen[letter, number]]
        fault = f"no request {letter} was drawn with the answers {missed}" if missed else None
        tally.count(f"reach {letter}", fault)
    for (letter, kind), numbers in KIND_ANSWERS.items():
        missed = [number for number in numbers if not seen[letter, kind, number]]
        fault = f"no {KINDS[kind]} drawn at {letter} was answered {missed}" if missed else None
        tally.count(f"reach {letter} {kind}", fault)
    every = PURSE_RULES + IMAGE_RULES + STATE_RULES
    rules = {"E": every, "W": every, "C": every, "R": PURSE_RULES + IMAGE_RULES, "P": PURSE_RULES}
    for letter, listed in rules.items():
        missed = [rule for rule in listed if not alone[letter, rule]]
        fault = f"no request {letter} broke alone: {missed}" if missed else None
        tally.count(f"reach rules {letter}", fault)
    unknown = {rule for _, rule in alone} - {None, *every}
    tally.count("reach names", f"rules not listed: {unknown}" if unknown else None)


def main():
    options = argparse.ArgumentParser(description=__doc__.splitlines()[0])
    options.add_argument("--seed", default="1", help="another seed, other cases")
    options.add_argument("--events", type=int, default=300_000, help="events through the program")
    options.add_argument("--requests", type=int, default=40_000, help="requests to the probe")
    options.add_argument("--short", action="store_true", help="fewer of both")
    options.add_argument("--drawn", action="store_true", help="the drawn cases alone")
    options.add_argument("--stop", action="store_true", help="stop at the first failure")
    options.add_argument("--prs", default=PRS, help="the bench program")
    options.add_argument("--probe", default=PROBE, help="the probe")
    asked = options.parse_args()
    if asked.short:
        asked.events, asked.requests = 60_000, 10_000
    for program in (asked.prs, asked.probe):
        if not Path(program).is_file():
            sys.exit(f"no program {program}")
    signal.signal(signal.SIGALRM, out_of_time)
    tally = Tally(asked.seed, asked.stop)
    answers, seen, alone, pairs = Counter(), Counter(), Counter(), Counter()
    print(f"seed {asked.seed}")
    probe = Probe(asked.probe)
    if not asked.drawn:
        run_edges(probe, tally)
        run_filling(probe, tally)
        run_loads(probe, tally)
    run_requests(probe, asked.requests, tally, seen, alone, pairs)
    if not asked.drawn:
        run_sweep(probe, tally, alone)
    left, status = probe.end()
    ended = f"wrote {len(left)} bytes more and ended with {status}" if left or status != 0 else None
    tally.count("end of the requests", ended)
    run_ends(asked.probe, tally)
    print(f"{asked.requests} requests to the probe; rules broken alone at E, W, C, R and P:")
    for rule in sorted({rule for _, rule in alone} - {None}):
        print("".join(f"{alone[letter, rule]:6}" for letter in "EWCRP"), rule)
    print("claims with pairs: " + ", ".join(f"{way}: {pairs[way]}" for way in PAIRS))
    done, lists = run_programs(asked.prs, asked.events, tally, answers)
    print(f"{done} events in {lists} inputs through the program; answers:")
    print("  " + ", ".join(f"{answer}: {count}" for answer, count in sorted(answers.items())))
    if asked.requests >= REACHING and not asked.drawn:
        check_reach(tally, seen, alone, pairs)
    finish(tally.passed, tally.failed)


if __name__ == "__main__":
    main()
