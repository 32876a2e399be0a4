#!/usr/bin/env python3
"""What becomes of the money, asked of the model: the rules of documents 01 and 02 as the model reads
them, run on random lists of events from an opening.

After every event the table is well formed and, for each of the 32 places, balance and what was paid
from it make up its opening balance and what arrived; the sum of all balances is at most the opening
sum. Opening balance and opening sum take in issue balances and loads so far (A5); a purse not yet
issued counts 0. The number of purses grows by one with an accepted issue and never otherwise.
Once every purse is stopped, what a payer paid and did not arrive is exactly its matched pairs, in the
purse or in the archive; and all balances with the claims figure make up the opening sum, which is
what a help desk can check.

    money.py [--seed S] [--lists N]
"""

import argparse
import random
from collections import Counter

from common import finish, words
import generate
import model
from model import ABORT, DELIVER, ISSUE, LOAD, PURSES, REQUEST, VALUE


def matched(bench, name):
    """The sum over payments from this purse that it and the payee have each logged."""
    return sum(d.amount for d in model.matched(bench) if d.payer == name)


class Ledger:
    """Payments paid and arrived, read off the message that stood at the place before the event, and
    the money that came in from outside, read off the events."""

    def __init__(self, bench):
        self.bench = bench
        self.opening = Counter({name: bench.table[name].balance for name in range(bench.count)})
        self.paid, self.arrived = [], []
        self.paid_by, self.arrived_in = Counter(), Counter()
        self.took = Counter()  # events of each kind that were accepted

    def take(self, data):
        """One event; what is wrong after it, in words, or None."""
        kind, _, _, _, number, _ = model.EVENT.unpack(data)
        stood = self.bench.messages[number] if number < self.bench.message_count else None
        before = self.bench.count
        answer = model.event(self.bench, data)
        if answer in (0, 1):
            self.took[kind] += 1
        if kind == DELIVER and answer in (0, 1):
            details = stood.details
            if stood.kind == REQUEST:
                self.paid.append(details)
                self.paid_by[details.payer] += details.amount
            elif stood.kind == VALUE:
                self.arrived.append(details)
                self.arrived_in[details.payee] += details.amount
        if answer == 2:
            return "answer 2 at a bench opened by the rules"
        purses = before + 1 if kind == ISSUE and answer == 0 else before
        if self.bench.count != purses:
            return f"{self.bench.count} purses stand, not {purses}"
        brought = model.brought_in(before, data, answer)
        if brought is not None:
            name, money = brought
            self.opening[name] += money
        for name in range(PURSES):
            paid, arrived = self.paid_by[name], self.arrived_in[name]
            if self.bench.table[name].balance + paid != self.opening[name] + arrived:
                return f"purse {name}: balance, paid {paid} and arrived {arrived} do not add up"
        if self.balances() > sum(self.opening.values()):
            return "the balances are more than the opening sum"
        return None

    def balances(self):
        return sum(purse.balance for purse in self.bench.table)

    def stopped(self):
        """What is wrong once every purse is stopped."""
        for name in range(self.bench.count):
            fault = self.take(words.event_bytes(ABORT, name))
            if fault:
                return fault
        for name in range(self.bench.count):
            missing = [d for d in self.paid if d.payer == name and d not in self.arrived]
            if sum(d.amount for d in missing) != matched(self.bench, name):
                return f"purse {name}: {missing} missing, matched {matched(self.bench, name)}"
        balances, claims = self.balances(), model.claims(self.bench)
        opening = sum(self.opening.values())
        if balances + claims != opening:
            return f"balances {balances} and claims {claims} are not {opening}"
        return None


def fault_of(rng, took):
    """What is wrong with a list drawn, in words; the events it accepted are added to `took`."""
    bench = generate.opened(rng, rng.choice([2, 3, 4]))
    mood = rng.choice(list(generate.MOODS))
    events = generate.walk(rng, bench.copy(), mood, rng.randint(1, 300))
    ledger = Ledger(bench)
    for place, data in enumerate(events, 1):
        fault = ledger.take(data)
        if fault:
            return f"event {place}: {fault}"
    took.update(ledger.took)
    return ledger.stopped()


def main():
    options = argparse.ArgumentParser(description=__doc__.splitlines()[0])
    options.add_argument("--seed", default="1")
    options.add_argument("--lists", type=int, default=100)
    asked = options.parse_args()
    passed = failed = 0
    took = Counter()
    for case in range(asked.lists):
        fault = fault_of(random.Random(f"{asked.seed} money {case}"), took)
        if fault is None:
            passed += 1
        else:
            failed += 1
            print(f"FAILED seed {asked.seed}, list {case}: {fault}")
    rare = [kind for kind in model.USED if took[kind] < asked.lists // 5]
    if rare:
        failed += 1
        print(f"FAILED seed {asked.seed}: hardly an event of the kinds {rare} was accepted")
    else:
        passed += 1
    print(f"accepted: {took[ISSUE]} issues, {took[LOAD]} loads in {sum(took.values())} events")
    finish(passed, failed)


if __name__ == "__main__":
    main()
