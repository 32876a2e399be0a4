#!/usr/bin/env python3
"""The report itself (source document 000) as a second source: random lists of events are replayed
on its nine transitions (report.maude) beside the model of document 01, and what both hold is
compared after every event.

    report.py [--seed S] [--lists N]

Skipped with a line where maude is not installed. The last line is 'N passed, M failed'.

What is compared: each purse's balance, status, details while busy, next number and log, and which
requests, values and acknowledges stand. Differences between 000 and 01 that are allowed for:

 - 000 keeps the previous balance and an idle purse's details: not compared.
 - In 000 a start is a message: an honest start is said by startpay, any other is put into the ether
   first; starts do not count as messages that stand.
 - 000 raises the sequence number at every abort, 01 never: numbers are compared by the start that
   used them up. A number that no start of the list uses is one that 000 never reaches either.
 - 000's log is newest first and never collected: compared with the purse's archive entries and then
   its log, oldest first.
 - 000's ether is a bag with duplicate: copies of a message count once, and lose drops them all.
   Delivering a message that stays is 01's replay; here copies are made by duplicate too.
 - 000 has no limits and takes amount 0: a start that 01 refuses by 4, 6 (no such purse), 7, 9, 10
   or 12, and events refused by 3, 5, 14 or 15, are no steps there. Starts refused by 6 (itself), 8
   and 11 and deliveries refused by 13 are taken as steps, which must change nothing.
 - With 256 messages the sent one is dropped at once.
 - 000 has no issue and no load (02, A5): an accepted one is done to the report's state from outside,
   between its transitions: a purse as at the beginning is put beside the others, or the balance of an
   idle purse is raised. So of the two steps themselves nothing is compared; what is compared is that
   the report's transitions and 01's go on alike with purses issued and loaded. Refused ones are no
   steps there.
"""

import argparse
import random
import re
import shutil
import subprocess
from collections import Counter
from pathlib import Path

from common import finish
import generate
import model
from model import ABORT, DELIVER, IDLE, ISSUE, LOAD, LOSE, START_FROM, START_TO

STATUS = {0: "idle", 1: "epr", 2: "epv", 3: "epa"}
KIND = {1: "req", 2: "val", 3: "ack"}
RECEIVE = ["recreq", "recval", "recack"]
NEVER_USED = 10**12  # report numbers from here up stand for numbers that no start uses


def report_purse(name, balance):
    """A purse as it begins, in the report's words."""
    return f"mk-purse(p({name}), {balance}, {balance}, 1, idle, none, emptyexlog)"


class Replay:
    """One list of events turned into the report's steps, with what 01's model holds after each."""

    def __init__(self, rng, bench, events):
        self.rng = rng
        self.bench = bench
        self.first = [purse.balance for purse in bench.table[: bench.count]]
        self.numbers = self.numbers_used(bench.copy(), events)
        self.report_next = [1] * bench.count
        self.starts_said = Counter()  # start messages that stand in the report's ether
        self.copies = Counter()  # what duplicate added to a message
        self.steps, self.expected = [], []
        for data in events:
            self.event(data)
            self.steps.append("look")
            self.expected.append(self.seen())

    def numbers_used(self, bench, events):
        """The report's number for each number that a start uses: one more for each abort before."""
        numbers, aborts = {}, Counter()
        for data in events:
            name = data[1] if len(data) == 12 else 0
            before = bench.table[name].next if name < bench.count else 0
            answer = model.step(bench, data)
            if answer in (0, 1) and data[0] in (START_FROM, START_TO):
                numbers[name, before] = before + aborts[name]
            elif answer == 0 and data[0] == ABORT:
                aborts[name] += 1
        return numbers

    def number(self, name, number):
        return self.numbers.get((name, number), NEVER_USED + number)

    def pay(self, d):
        payer_number = self.number(d.payer, d.payer_number)
        payee_number = self.number(d.payee, d.payee_number)
        return f"mk-pay(p({d.payer}), {payer_number}, p({d.payee}), {payee_number}, {d.amount})"

    def message(self, message):
        return f"{KIND[message.kind]}({self.pay(message.details)})"

    def event(self, data):
        """One event: the report's steps for it, and the model's."""
        bench = self.bench
        kind, name, other, _, number, amount = model.EVENT.unpack(data)
        stood = bench.messages[: bench.message_count]
        idle = [purse.status == IDLE for purse in bench.table]
        answer = model.step(bench, data)
        if kind in (START_FROM, START_TO):
            if answer in (0, 1, 8, 11) or (answer == 6 and name == other):
                self.start(kind, name, other, number, amount, idle)
            if answer in (0, 1):
                self.report_next[name] += 1
            if answer == 1:
                lost = model.Message(model.REQUEST, bench.table[name].details)
                self.steps.append(f"drop({self.message(lost)})")
        elif kind == DELIVER and answer in (0, 1, 13):
            self.deliver(name, stood[number], answer)
        elif kind == ABORT and answer == 0:
            self.steps.append(f"abort(p({name}))")
            self.report_next[name] += 1
        elif kind == LOSE and answer == 0:
            told = self.message(stood[number])
            self.steps += [f"drop({told})"] * (1 + self.copies.pop(told, 0))
        elif kind == ISSUE and answer == 0:
            self.steps.append(f"issue({report_purse(len(self.report_next), amount)})")
            self.report_next.append(1)
        elif kind == LOAD and answer == 0:
            self.steps.append(f"load(p({name}), {amount})")

    def start(self, kind, name, other, number, amount, idle):
        word = "startfrom" if kind == START_FROM else "startto"
        theirs = self.number(other, number)
        said = f"{word}(p({other}), {amount}, {theirs})"
        honest = theirs == self.report_next[other] and name != other and idle[name] and idle[other]
        if honest and not self.starts_said[said]:
            payer, payee = (name, other) if kind == START_FROM else (other, name)
            self.steps.append(f"startpay(p({payer}), p({payee}), {amount})")
            self.starts_said[f"startfrom(p({payee}), {amount}, {self.report_next[payee]})"] += 1
            self.starts_said[f"startto(p({payer}), {amount}, {self.report_next[payer]})"] += 1
        elif not self.starts_said[said]:
            self.steps.append(f"say({said})")
            self.starts_said[said] += 1
        self.steps.append(f"rec{word}(p({name}), {said})")
        self.steps.append(f"drop({said})")
        self.starts_said[said] -= 1

    def deliver(self, name, message, answer):
        told = self.message(message)
        if self.rng.random() < 0.1:
            self.steps.append(f"duplicate({told})")
            self.copies[told] += 1
        if answer == 13:
            self.steps += [f"{step}(p({name}), {told})" for step in RECEIVE]
        else:
            self.steps.append(f"{RECEIVE[message.kind - 1]}(p({name}), {told})")
        if answer == 1:
            lost = model.Message(message.kind + 1, message.details)
            self.steps.append(f"drop({self.message(lost)})")

    def seen(self):
        """What the report should hold now, in its words."""
        bench = self.bench
        purses = {}
        archive = bench.archive[: bench.archive_count]
        for name in range(bench.count):
            purse = bench.table[name]
            logged = [d for by, d in archive if by == name] + list(purse.log[: purse.logged])
            purses[name] = (
                purse.balance,
                self.report_next[name],
                STATUS[purse.status],
                None if purse.status == IDLE else self.pay(purse.details),
                [self.pay(d) for d in logged],
            )
        return purses, {self.message(m) for m in bench.messages[: bench.message_count]}

    def command(self):
        purses = " ; ".join(report_purse(name, balance) for name, balance in enumerate(self.first))
        steps = " then ".join(self.steps + ["done"])
        return f"red in REPLAY : replay(sys({purses}, nil), {steps}) .\n"


# ---- What Maude prints

PAY = r"mk-pay\(p\(\d+\), \d+, p\(\d+\), \d+, \d+\)"
LOG = rf"(?:{PAY} @ \(?)*emptyexlog\)*"
PURSE = re.compile(
    rf"mk-purse\(p\((\d+)\), -?\d+, (-?\d+), (\d+), (\w+), ({PAY}|none), ({LOG})\)"
)
MESSAGE = re.compile(rf"(?:req|val|ack)\({PAY}\)")


def printed(text):
    """One state as `Replay.seen` gives it."""
    purses = {}
    for name, balance, number, status, pay, log in PURSE.findall(text):
        running = None if status == "idle" else pay
        logged = re.findall(PAY, log)[::-1]
        purses[int(name)] = (int(balance), int(number), status, running, logged)
    return purses, set(MESSAGE.findall(text))


def results(commands):
    """The states that Maude shows for each command."""
    source = Path(__file__).with_name("report.maude")
    run = subprocess.run(
        ["maude", "-no-banner", "-no-wrap", "-no-advise", "-batch", str(source)],
        input="set show command off .\n" + "".join(commands) + "quit\n",
        stdout=subprocess.PIPE,
        stderr=subprocess.STDOUT,
        text=True,
    )
    if "Warning" in run.stdout or "Error" in run.stdout:
        raise RuntimeError(run.stdout[:2000])
    for line in run.stdout.splitlines():
        if line.startswith("result Seen: "):
            yield [printed(state) for state in line.removeprefix("result Seen: ").split(" | ")[:-1]]


def difference(want, got):
    """The first difference of two states, in words."""
    fields = ["balance", "next number", "status", "details", "log"]
    if want[0].keys() != got[0].keys():
        return f"purses: the documents give {sorted(want[0])}, the report {sorted(got[0])}"
    for name, purse in want[0].items():
        for field, a, b in zip(fields, purse, got[0][name]):
            if a != b:
                return f"purse {name} {field}: document 01 gives {a}, the report {b}"
    if want[1] != got[1]:
        return f"messages: only in 01 {want[1] - got[1]}, only in the report {got[1] - want[1]}"
    return None


def drawn(rng):
    bench = generate.opened(rng, rng.choice([2, 2, 3, 4]))
    long = rng.random() < 0.05
    mood = rng.choice(["calm", "filling"]) if long else rng.choice([m for m in generate.MOODS])
    events = generate.walk(rng, bench.copy(), mood, 700 if long else rng.randint(1, 150))
    return Replay(rng, bench, events)


def main():
    options = argparse.ArgumentParser(description=__doc__.splitlines()[0])
    options.add_argument("--seed", default="1")
    options.add_argument("--lists", type=int, default=100)
    asked = options.parse_args()
    if shutil.which("maude") is None:
        print("skipped: maude is not installed")
        return
    replays = [drawn(random.Random(f"{asked.seed} report {case}")) for case in range(asked.lists)]
    passed = failed = events = 0
    steps = Counter(step.split("(")[0] for replay in replays for step in replay.steps)
    shown = list(results(replay.command() for replay in replays))
    for case, replay in enumerate(replays):
        states = shown[case] if case < len(shown) else []
        fault = None
        if len(states) != len(replay.expected):
            fault = f"the report shows {len(states)} states of {len(replay.expected)}"
        for place, (want, got) in enumerate(zip(replay.expected, states), 1):
            fault = fault or difference(want, got)
            if fault:
                print(f"FAILED seed {asked.seed}, list {case}, event {place}: {fault}")
                break
        passed, failed = passed + (fault is None), failed + (fault is not None)
        events += len(states)
    print(f"{events} events in {len(replays)} lists; the report's steps:")
    print("  " + ", ".join(f"{step} {count}" for step, count in sorted(steps.items())))
    finish(passed, failed)


if __name__ == "__main__":
    main()
