#!/usr/bin/env python3
"""What ./prs tell, chart and page say of a run: held to document 01's worked input, to the
cashiers' cases, and on random lists to the model. In a picture no text stands over another; a page
needs nothing from outside. With a Chromium on this machine the pages are opened at a phone's width
and a desk's, and the letters measured as they are drawn; without one that part is skipped by name.

    pictures.py [--seed S] [--lists N]

Last line 'N passed, M failed'; the exit status is 1 on any failure.
"""

import argparse
import html
import html.parser
import json
import os
import random
import re
import shutil
import signal
import subprocess
import sys
import tempfile
import xml.etree.ElementTree as xml
from collections import Counter
from pathlib import Path

import generate
import model
from common import EXAMPLES, ROOT, finish
from money import Ledger, matched
from shell import one_line, slow_reader
from words import event_bytes

sys.path.insert(0, str(ROOT))
from replay import chart, events, run, telling, words  # noqa: E402
from replay.failure import Failure  # noqa: E402

SVG = "{http://www.w3.org/2000/svg}"
PATIENCE = 120
PARTS = {
    "full-ether": ["--purses", "0,2", "--events", "427-438"]
}  # of the pictures in docs/ that show a part
BROWSERS = ["chromium", "chromium-browser", "google-chrome"]

passed, failed = 0, 0


def hold(name, *facts):
    global passed, failed
    wrong = [said for holds, said in facts if not holds]
    if wrong:
        failed += 1
        print(f"FAILED {name}: {'; '.join(str(said)[:500] for said in wrong)}")
    else:
        passed += 1


def prs(*arguments, **options):
    options = {"capture_output": True, "stdin": subprocess.DEVNULL, "timeout": PATIENCE, **options}
    return subprocess.run([ROOT / "prs", *map(str, arguments)], **options)


def run_of(text, name="text"):
    return run.Run(words.parsed(text, name))


def says(name, text, *lines):
    """Whether a telling has each of those lines, in this order."""
    at = 0
    for line in lines:
        found = text.find(line, at)
        hold(
            f"{name}: {line}",
            (
                found >= 0,
                f"not said, or not after what comes before it; the telling ends {text[-900:]!r}",
            ),
        )
        at = max(found, at)


# ---- Tellings


def tellings():
    told = prs("tell", EXAMPLES / "pulled-out.txt").stdout.decode()
    says(
        "pulled-out",
        told,
        "2 purses, 8 events",
        "opened: purse 0 with 1000, purse 1 with 200",
        "1  start-from 0 to 1 number 1 amount 300",
        "0, done: purse 0 is to pay 300 to purse 1",
        "no money moved; purse 0 has 1000, purse 1 has 200",
        "3  deliver 0 to 0",
        "0, done: purse 0 takes the request, pays 300 and sends the value (place 1)",
        "300 left purse 0; purse 0 has 700, purse 1 has 200",
        "4  abort 1",
        "logs the transfer (entry 1 of 8 in its log)",
        "13, refused: not the message that the purse expects; nothing changed. It was the value of 300",
        "the oldest entry of purse 1 goes to the archive (place 1)",
        "Broken transfers: 1",
        "300 from purse 0 (its number 1) to purse 1 (its number 1)",
        "payer, purse 0: logged, the entry is in the archive (place 0)",
        "payee, purse 1: logged, the entry is in the archive (place 1)",
        "matched: 300 is owed to purse 0; both entries are in the archive\n",
        "paid and on no card: 300",
        "owed: 300 to purse 0\n  money paid and on no card: 300",
        "all balances: 1200 at opening, 900 now",
        "Demand 3: opening or issue balance + loads - its payments that arrived - its matched pairs + what arrived in it = balance\n",
        "purse 0: 1000 + 0 - 0 - 300 + 0 = 700, and it has 700: right",
        "purse 1: 200 + 0 - 0 - 0 + 0 = 200, and it has 200: right",
        "all purses: 900 + 300 owed = 1200, and they opened with 1200: right",
    )
    told = prs("tell", EXAMPLES / "still-on-cards.txt").stdout.decode()
    says(
        "still-on-cards",
        told,
        "2 messages stand, 0 archive entries, claims 300",
        "payer, purse 0: logged, the entry is on its card (place 0)",
        "payee, purse 1: logged, the entry is on its card (place 0)",
        "matched: 300 is owed to purse 0; both entries are still on the cards\n",
        "owed: 300 to purse 0\n    of it 300 with entries still on cards: purse 0, purse 1\n",
        "all purses: 900 + 300 owed = 1200, and they opened with 1200: right",
    )
    told = prs("tell", EXAMPLES / "two-of-one-price.txt").stdout.decode()
    says(
        "two-of-one-price",
        told,
        "the value is lost; 1 message left",
        "300 came to purse 1; purse 1 has 500, purse 0 has 400",
        "Broken transfers: 3",
        "300 from purse 0 (its number 1) to purse 1 (its number 1)",
        "matched: 300 is owed to purse 0; both entries are in the archive\n",
        "300 from purse 0 (its number 2) to purse 1 (its number 2)",
        "payee, purse 1: logged nothing",
        "not matched: nothing is owed, the money arrived",
        "300 from purse 0 (its number 3) to purse 1 (its number 3)",
        "payer, purse 0: logged nothing",
        "not matched: nothing is owed, the payer never paid",
        "owed: 300 to purse 0",
        "purse 0: 1000 + 0 - 300 - 300 + 0 = 400, and it has 400: right",
        "purse 1: 200 + 0 - 0 - 0 + 300 = 500, and it has 500: right",
    )
    paid = "open 1000 200\nstart-from 0 to 1 number 1 amount 300\nstart-to 1 from 0 number 1 amount 300\ndeliver 0 to 0\n"
    says(
        "paid, and both still busy",
        telling.told(run_of(paid)),
        "Broken transfers: none",
        "owed: nothing",
        "money paid and on no card: 300",
        "which no card has logged yet",
        "purse 0 is still busy",
        "purse 0: 1000 + 0 - 0 - 300 + 0 = 700",
        "all purses: 900 + 300 owed = 1200, and they opened with 1200: right",
    )
    says(
        "the payee alone has logged",
        telling.told(run_of(paid + "abort 1")),
        "payee, purse 1: logged, the entry is on its card (place 0)",
        "not matched: purse 0 still runs it (epa); nothing is owed yet",
        "paid and on no card: 300",
    )
    for collected, other, sides in [(0, 1, ("payee", "payer")), (1, 0, ("payer", "payee"))]:
        says(
            f"purse {collected} alone is collected",
            telling.told(run_of(paid + f"abort 1\nabort 0\ncollect {collected}")),
            "1 archive entry, claims 300",
            f"matched: 300 is owed to purse 0; the {sides[0]}'s entry is still on its card, the {sides[1]}'s is in the archive\n",
            f"owed: 300 to purse 0\n    of it 300 with entries still on cards: purse {other}\n",
        )
    says(
        "bytes",
        telling.told(
            run_of(
                "open 5 5\nbytes 04 01 00 00 00000000 00000000\nbytes 09 00 00 00 00000000 00000000\nbytes 04"
            )
        ),
        "bytes 04 01",
        "0, done: purse 1 is stopped; it was idle",
        "3, refused: malformed",
        "bytes 04\n",
        "3, refused: malformed",
    )
    says(
        "a refused opening",
        telling.told(run_of("open 5000001\nabort 0")),
        "opening refused, 21: a first balance above 5,000,000; no event is run",
    )
    says(
        "33 purses",
        telling.told(run_of("open" + " 1" * 33)),
        "opening refused, 20: not 1 to 32 purses",
    )
    says(
        "a full ether",
        prs("tell", EXAMPLES / "full-ether.txt").stdout.decode(),
        "1, done, and the message it sent was lost: purse 0 takes the request, pays 100; the value it sends is lost, since 256 messages stand",
        "100 left purse 0",
    )
    from_outside()


def from_outside():
    """What a telling says of purses that are issued and loaded, and of what refuses that."""
    says(
        "issued-and-loaded",
        prs("tell", EXAMPLES / "issued-and-loaded.txt").stdout.decode(),
        "2 purses opened, 1 issued, 15 events\n",
        "opened: purse 0 with 1000, purse 1 with 200\n",
        "6  issue person 5000001",
        "21, refused: a first balance above 5,000,000; nothing changed.",
        "no money moved\n",
        "7  issue person 500",
        "0, done: purse 2 is issued to a person: first balance 500, next number 1\n",
        "500 came to purse 2 from outside; purse 2 has 500\n",
        "8  load 2 120",
        "0, done: purse 2 is loaded with 120\n",
        "120 came to purse 2 from outside; purse 2 has 620\n",
        "10  load 2 7",
        "8, refused: the purse is busy; nothing changed.",
        "600 left purse 2; purse 2 has 20, purse 1 has 500\n",
        "600 came to purse 1; purse 1 has 1100, purse 2 has 20\n",
        "7 came to purse 2 from outside; purse 2 has 27\n",
        "purse 2: balance 27, next number 2, idle, 0 entries in its log",
        "money that came in from outside: 500 issued, 127 loaded\n",
        "all balances: 1200 at opening, 1827 now\n",
        "purse 0: 1000 + 0 - 300 - 0 + 0 = 700, and it has 700: right",
        "purse 1: 200 + 0 - 0 - 0 + 900 = 1100, and it has 1100: right",
        "purse 2: 500 + 127 - 600 - 0 + 0 = 27, and it has 27: right",
        "all purses: 1827 + 0 owed = 1827, and they opened with 1200 + 500 issued + 127 loaded = 1827: right",
    )
    refusals = [
        ("bytes 07 00 02 00 00000000 ffffffff", "22, refused: the class is not known"),
        ("issue person 5000001", "21, refused: a first balance above 5,000,000"),
        ("bytes 07 01 00 00 00000000 00000001", "3, refused: malformed"),
        ("bytes 07 00 00 00 00000001 00000001", "3, refused: malformed"),
        ("load 9 0", "4, refused: no such purse"),
        ("load 1 0", "7, refused: the amount is 0 or above 5,000,000"),
        ("load 1 5000001", "7, refused: the amount is 0 or above 5,000,000"),
        ("load 0 1", "8, refused: the purse is busy"),
        ("load 1 4999991", "12, refused: the balance with the amount would be above 5,000,000"),
        ("bytes 08 01 01 00 00000000 00000001", "3, refused: malformed"),
        ("bytes 08 01 00 00 00000001 00000001", "3, refused: malformed"),
    ]
    lines = "\n".join(line for line, _ in refusals)
    told = telling.told(run_of(f"open 10 10\nstart-from 0 to 1 number 1 amount 5\n{lines}"))
    says(
        "refused issues and loads",
        told,
        *[f"{place:>2}  {line}\n    {said}" for place, (line, said) in enumerate(refusals, 2)],
        "all balances: 20 at opening, 20 now",
        "and they opened with 20: right",
    )
    hold("refused issues and loads: nothing came in", ("from outside" not in told, told))
    says(
        "a shop, of which this bench knows nothing",
        telling.told(run_of("open 1\nissue shop 500")),
        "22, refused: the class is not known to this bench, which has persons only; nothing changed.",
        "no money moved\n",
    )
    says(
        "no place for another purse",
        telling.told(run_of("open" + " 1" * 32 + "\nissue shop 4294967295\nissue person 0")),
        "32 purses, 2 events",
        "24, refused: 32 purses stand already: no place for another; nothing changed.",
        "24, refused",
    )
    says(
        "a first balance of 0",
        telling.told(run_of("open 1\nissue person 0\nload 1 3")),
        "1 purse opened, 1 issued, 2 events",
        "0, done: purse 1 is issued to a person: first balance 0, next number 1\n",
        "no money moved; purse 1 has 0\n",
        "3 came to purse 1 from outside; purse 1 has 3\n",
        "money that came in from outside: 3 loaded\n",
        "purse 1: 0 + 3 - 0 - 0 + 0 = 3, and it has 3: right",
        "all purses: 4 + 0 owed = 4, and they opened with 1 + 3 loaded = 4: right",
    )
    says(
        "an issued purse is owed",
        telling.told(
            run_of(
                "open 1\nissue person 9\nstart-from 1 to 0 number 1 amount 9\nstart-to 0 from 1 number 1 amount 9\n"
                "deliver 0 to 1\nabort 0\nabort 1\nload 1 2"
            )
        ),
        "owed: 9 to purse 1",
        "purse 1: 9 + 2 - 0 - 9 + 0 = 2, and it has 2: right",
        "all purses: 3 + 9 owed = 12, and they opened with 1 + 9 issued + 2 loaded = 12: right",
    )
    bytes_say = "open 5\nbytes 07 00 00 00 00000000 00000003\nbytes 08 01 00 00 00000000 00000004"
    says(
        "an issue and a load in bytes",
        telling.told(run_of(bytes_say)),
        "0, done: purse 1 is issued to a person: first balance 3, next number 1",
        "0, done: purse 1 is loaded with 4",
    )
    forged = run_of("open 5\nissue person 3\nload 1 4")
    step = forged.steps[1]
    step.event.fields["amount"] = 5  # as if the program had loaded less than it was told
    hold(
        "a load that is not what the event says is found",
        (
            "purse 1: 3 + 5 - 0 - 0 + 0 = 8, and it has 7: WRONG" in telling.told(forged)
            and not telling.demand(forged)[1],
            telling.demand(forged),
        ),
    )


def words_of(events):
    """A list of events as a text: in words where words can say it, else in bytes."""
    for data in events:
        kind, purse, other, spare, number, amount = model.EVENT.unpack(data)
        line = {
            (1, 0): f"start-from {purse} to {other} number {number} amount {amount}",
            (2, 0): f"start-to {purse} from {other} number {number} amount {amount}",
            (3, 0): f"deliver {number} to {purse}",
            (4, 0): f"abort {purse}",
            (5, 0): f"lose {number}",
            (6, 0): f"collect {purse}",
            (7, 0): f"issue {['person', 'shop'][other]} {amount}" if other < 2 else None,
            (8, 0): f"load {purse} {amount}",
        }.get((kind, spare))
        used = {
            1: (purse, other, number, amount),
            2: (purse, other, number, amount),
            3: (purse, 0, number, 0),
            4: (purse, 0, 0, 0),
            5: (0, 0, number, 0),
            6: (purse, 0, 0, 0),
            7: (0, other, 0, amount),
            8: (purse, 0, 0, amount),
        }
        yield line if used.get(kind) == (
            purse,
            other,
            number,
            amount,
        ) and line else f"bytes {data.hex(' ')}"


def on_cards(bench):
    """The line about the pairs of which an entry is still on a card, by the model; None without."""
    archive = set(bench.archive[: bench.archive_count])
    left = [(name, d) for d in model.matched(bench) for name in (d.payer, d.payee)]
    left = [(name, d) for name, d in left if (name, d) not in archive]
    if not left:
        return None
    amount = sum(d.amount for d in {d for _, d in left})
    cards = ", ".join(f"purse {name}" for name in sorted({name for name, _ in left}))
    return f"of it {amount} with entries still on cards: {cards}"


def with_outside(rng, events):
    """A list with issues and loads put in between, some of them refused."""
    events = list(events)
    for _ in range(rng.choice([0, 2, 6])):
        amount = rng.choice([0, 1, 300, 300, 5_000_000])
        data = rng.choice(
            [
                event_bytes(7, counterparty=rng.choice([0, 0, 0, 1]), amount=amount),
                event_bytes(8, purse=rng.randrange(5), amount=amount),
            ]
        )
        events.insert(rng.randrange(len(events) + 1), data)
    return events


def against_model(seed, lists):
    """Each telling of a random list says what the model says: answers, balances, what was paid,
    owed, and claimed, and what of it is still on cards, which the chart says too."""
    rng = random.Random(seed)
    ways, brought = set(), set()
    for place in range(lists):
        bench = generate.opened(rng, rng.choice([2, 2, 3, 5]))
        balances = [purse.balance for purse in bench.table[: bench.count]]
        events = generate.walk(
            rng,
            bench,
            rng.choice(["calm", "rough", "forging", "filling", "archiving-pairs"]),
            rng.choice([10, 60, 120]),
        )
        events = with_outside(rng, events)
        text = "open " + " ".join(map(str, balances)) + "\n" + "\n".join(words_of(events))
        done = run_of(text)
        told = telling.told(done)
        again = model.Bench()
        model.opening(again, balances)
        ledger, wrong = Ledger(again), []
        first, loads = dict(enumerate(balances)), Counter()
        for step, data in zip(done.steps, events):
            stood = [m for m in again.messages[: again.message_count]]
            had = [purse.balance for purse in again.table[: again.count]]
            kind, purse, _, _, number, amount = model.EVENT.unpack(data)
            message = stood[number] if number < len(stood) else None
            fault = ledger.take(data)
            if fault:
                wrong.append(fault)
            has = [purse.balance for purse in again.table[: again.count]]
            if step.done and kind in (7, 8):
                brought.add(kind)
            if step.done and kind == 7:
                first[len(had)] = amount
                had.append(0)
            elif step.done and kind == 8:
                loads[purse] += amount
            moved = {name: b - a for name, (a, b) in enumerate(zip(had, has)) if a != b}
            outside = " from outside" if kind in (7, 8) else ""
            if step.moved != moved or [purse.balance for purse in step.after.purses] != has:
                wrong.append(f"event {step.place}: other balances")
            said = telling.moved(step)
            for name, change in moved.items():
                if (
                    f"{change} came to purse {name}{outside};"
                    if change > 0
                    else f"{-change} left purse {name};"
                ) not in said or f"purse {name} has {has[name]}" not in said:
                    wrong.append(f"event {step.place}: {said}")
            if (
                message
                and kind == 3
                and step.purse is not None
                and not step.done
                and f"the {telling.message_name(message.kind)} of {message.details.amount} from"
                not in telling.answered(step)
            ):
                wrong.append(f"event {step.place}: {telling.answered(step)}")
        sums = {name: matched(again, name) for name in range(again.count)}
        want = (
            ", ".join(f"{amount} to purse {name}" for name, amount in sums.items() if amount)
            or "nothing"
        )
        lost = sum(d.amount for d in ledger.paid) - sum(d.amount for d in ledger.arrived)
        entries = {d for _, d in again.archive[: again.archive_count]} | {
            d for p in again.table[: again.count] for d in p.log[: p.logged]
        }
        for line in [
            f"  owed: {want}\n",
            f"money paid and on no card: {lost}\n",
            f"claims {model.claims(again)}\n",
            f"Broken transfers: {len(entries) or 'none'}\n",
        ]:
            if line not in told:
                wrong.append(f"not said: {line!r}")
        line = on_cards(again)
        ways.add(line is not None)
        drawn = chart.drawn(done)
        foot = [text for text, _ in texts_of(drawn) if text.startswith("of it ")]
        if (f"    {line}\n" in told) != bool(line) or "".join(foot[:1]) != (line or ""):
            wrong.append(f"not said, or not drawn: {line!r}, drawn {foot}")
        ledger.stopped()
        issued, has = sum(first.values()) - sum(balances), sum(p.balance for p in again.table)
        came = {"issued": issued, "loaded": sum(loads.values())}
        whole = sum(balances) + sum(came.values())
        began = f"they opened with {sum(balances)}"
        began += "".join(f" + {amount} {way}" for way, amount in came.items() if amount)
        began += f" = {whole}" if any(came.values()) else ""
        line = f"all purses: {has} + {whole - has} owed = {whole}, and {began}: right"
        if line not in told:
            wrong.append(f"not said: {line!r}")
        for name in range(again.count):
            arrived = sum(d.amount for d in ledger.arrived if d.payer == name), sum(
                d.amount for d in ledger.arrived if d.payee == name
            )
            line = f"purse {name}: {first[name]} + {loads[name]} - {arrived[0]} - {matched(again, name)} + {arrived[1]} = {again.table[name].balance}, and it has {again.table[name].balance}: right"
            if line not in told:
                wrong.append(f"not said: {line!r}")
        hold(f"seed {seed}, list {place}", (not wrong, wrong[:3]))
        overlaps(f"seed {seed}, list {place}", drawn)
    hold("lists with entries of pairs on cards, and without", (ways == {True, False}, ways))
    hold("lists in which purses are issued, and loaded", (brought == {7, 8}, brought))


def disagreeing():
    """Another input's listing is never shown beside a run."""
    kept = run.listing
    for name, listing in [
        ("another input's", (EXAMPLES / "undisturbed.out").read_text()),
        ("none", ""),
        ("a cut one", "PRS 1\n1 0\n"),
        (
            "another figure's",
            (EXAMPLES / "pulled-out.out").read_text().replace("claims 300", "claims 3"),
        ),
    ]:
        run.listing = lambda data: listing
        try:
            run_of((EXAMPLES / "pulled-out.txt").read_text())
            hold(f"{name} listing", (False, "it was taken"))
        except Failure as failure:
            hold(f"{name} listing", ("do not agree" in failure.says, failure.says))
        finally:
            run.listing = kept


# ---- Pictures


def texts_of(picture):
    """Each text of a picture with its box: left, top, right, bottom. Letters are taken as 0.6 of
    their size wide, as most are at the most."""
    for text in xml.fromstring(picture).iter(f"{SVG}text"):
        size, x, y = float(text.get("font-size")), float(text.get("x")), float(text.get("y"))
        width = len(text.text or "") * size * 0.6
        left = {"middle": x - width / 2, "end": x - width}.get(text.get("text-anchor"), x)
        yield text.text or "", (left, y - size * 0.75, left + width, y + size * 0.2)


def overlaps(name, picture):
    """No text over another, and none outside the picture."""
    root = xml.fromstring(picture)
    width, height = float(root.get("width")), float(root.get("height"))
    found = sorted(texts_of(picture), key=lambda each: each[1][1])
    wrong = []
    for place, (text, (left, top, right, bottom)) in enumerate(found):
        if left < 0 or right > width or top < 0 or bottom > height:
            wrong.append(f"{text!r} leaves the picture")
        for other, (left2, top2, right2, bottom2) in found[place + 1 :]:
            if top2 >= bottom:
                break
            if left < right2 and left2 < right:
                wrong.append(f"{text!r} over {other!r}")
    hold(f"{name}: no text over text", (not wrong, wrong[:3]))


def lane_of(picture, purse):
    """Where a purse's lane stands, and where its line begins, None where it has no line."""
    root = xml.fromstring(picture)
    heads = [text for text in root.iter(f"{SVG}text") if text.text == f"purse {purse}"]
    x = float(heads[0].get("x"))
    lives = [line for line in root.iter(f"{SVG}line") if line.get("class") == "life"]
    tops = [float(line.get("y1")) for line in lives if float(line.get("x1")) == x]
    return x, min(tops, default=None)


def frames_of(picture, colour):
    """The frames of a colour, each by its left, top, right and bottom, without the legend's."""
    for frame in xml.fromstring(picture).iter(f"{SVG}rect"):
        if frame.get("class") == f"box {colour}" and float(frame.get("width")) > 100:
            x, y, width, height = (float(frame.get(of)) for of in ("x", "y", "width", "height"))
            yield x, y, x + width, y + height


def is_around(outer, inner):
    """Whether a frame stands within another."""
    left, top, right, bottom = inner
    return outer[0] < left and outer[1] < top and right < outer[2] and bottom < outer[3]


def pictures_from_outside():
    """A purse's line begins where it is issued; what comes from outside has a colour, a double
    frame and words of its own, and the legend says so."""
    picture = prs("chart", EXAMPLES / "issued-and-loaded.txt").stdout.decode()
    texts = [text for text, _ in texts_of(picture)]
    for want in [
        "not issued yet",
        "issued to a person",
        "+500 from outside",
        "has 500",
        "loaded",
        "+120 from outside",
        "has 620",
        "load refused",
        "money that came in from outside: 500 issued, 127 loaded",
        "money left the purse",
        "money came by a transfer",
        "money came in from outside",
        "refused",
    ]:
        hold(f"from outside: {want}", (want in texts, texts))
    absent = "an entry was logged or collected"
    hold("no legend for what is not there", (absent not in texts, texts))
    frames = sorted(frames_of(picture, "outside"), key=lambda frame: frame[1])
    doubles = list(zip(frames[0::2], frames[1::2]))
    hold(
        "a double frame for each of the three that came from outside",
        (len(frames) == 6 and all(is_around(*double) for double in doubles), frames),
    )
    colours = ["paid", "came", "refused"]
    others = [frame for colour in colours for frame in frames_of(picture, colour)]
    hold("single frames for all others", (len(others) == 5, others))
    begins = [lane_of(picture, name)[1] for name in range(3)]
    issued = next(iter(frames), None)
    hold(
        "the line of an issued purse begins in its box",
        (issued and issued[1] < begins[2] < issued[3], (begins, issued)),
        (begins[0] == begins[1] < begins[2], begins),
    )
    later = chart.drawn(run_of("open 1\nissue person 0\nissue shop 1\nissue person 5000001"))
    texts = [text for text, _ in texts_of(later)]
    hold(
        "a purse issued with nothing brings nothing in",
        ("issued to a person" in texts and not list(frames_of(later, "outside")), texts),
        (not [text for text in texts if "from outside" in text], texts),
    )
    part = run_of("open 1 2\nissue person 7\nload 0 3\nissue person 4\nabort 2")
    for purses, events_shown, want in [
        ("0", None, "money that came in from outside: 3 loaded"),
        ("2,3", None, "money that came in from outside: 11 issued"),
        ("1", None, None),
        (None, "1", "money that came in from outside: 7 issued"),
        (None, "4", "money that came in from outside: 11 issued, 3 loaded"),
    ]:
        drawn = chart.drawn(part, chart.chosen(part, purses, events_shown))
        said = [text for text, _ in texts_of(drawn) if text.startswith("money that came in")]
        hold(f"from outside to {purses} by {events_shown}", (said == [want] * bool(want), said))
        overlaps(f"from outside to {purses} by {events_shown}", drawn)
    drawn = chart.drawn(part, chart.chosen(part, "3", "1-2"))
    texts = [text for text, _ in texts_of(drawn)]
    hold(
        "a purse that is issued after what is shown has no line",
        (lane_of(drawn, 3)[1] is None and texts.count("not issued yet") == 2, texts),
    )
    nobody = chart.drawn(run_of("open 1\nissue shop 1\nload 1 1"), with_words=False)
    texts = [text for text, _ in texts_of(nobody)]
    hold(
        "a refused issue and a load of no purse have their words on a page",
        ("issue refused, answer 22" in texts and "load refused, answer 4" in texts, texts),
    )
    most = run_of(
        "open 5000000\n"
        + "issue person 5000000\n" * 31
        + "issue person 0\nload 31 5000000\nload 255 4294967295\n"
    )
    for with_words in (True, False):
        overlaps("31 purses issued", chart.drawn(most, with_words=with_words))


def pictures():
    for path in sorted(EXAMPLES.glob("*.txt")):
        ran = prs("chart", path)
        hold(f"chart of {path.name}", (ran.returncode == 0 and not ran.stderr, ran.stderr))
        overlaps(path.name, ran.stdout.decode())
        kept = ROOT / "docs" / "pictures" / f"{path.stem}.svg"
        part = prs("chart", path, *PARTS.get(path.stem, []))
        hold(
            f"docs/pictures/{kept.name} is of today",
            (kept.read_bytes() == part.stdout, "draw it again: ./prs chart"),
        )
    texts = [text for text, _ in texts_of(prs("chart", EXAMPLES / "undisturbed.txt").stdout)]
    for want in ["−300, has 700", "+300, has 500", "takes the acknowledge", "nothing is owed"]:
        hold(f"money to be seen: {want}", (want in texts, texts))
    texts = [text for text, _ in texts_of(prs("chart", EXAMPLES / "pulled-out.txt").stdout)]
    for want in [
        "stopped, logs 300",
        "1 in its log",
        "entry of 300 collected",
        "to archive place 1",
        "owed: 300 to purse 0",
        "paid and on no card: 300",
        "value refused",
    ]:
        hold(f"entries and what is owed: {want}", (want in texts, texts))
    hold("all is collected", (not [t for t in texts if "still on cards" in t], texts))
    texts = [text for text, _ in texts_of(prs("chart", EXAMPLES / "still-on-cards.txt").stdout)]
    for want in ["owed: 300 to purse 0", "of it 300 with entries still on cards: purse 0, purse 1"]:
        hold(f"entries still on cards: {want}", (want in texts, texts))
    again = run_of(
        "open 9 9\nstart-from 0 to 1 number 1 amount 3\nstart-to 1 from 0 number 1 amount 3\n"
        + "deliver 0 to 1\n" * 2
        + "deliver 0 to 0\n" * 2
    )
    boxes = [text for text, _ in texts_of(chart.drawn(again))]
    hold(
        "again is said after a delivery that was done, not after a refused one",
        (
            boxes.count("request refused") == 2
            and boxes.count("request again refused") == 1
            and "takes the request" in boxes,
            boxes,
        ),
    )
    said = [
        text
        for text, _ in texts_of(
            chart.drawn(
                run_of(
                    "open 9 9\nbytes 02 01 00 00 00000001 00000003\nbytes 03 01 00 00 00000000 00000000\nbytes ff"
                )
            )
        )
    ]
    hold(
        "bytes are drawn as what they say",
        ("is to take 3 from 0" in said and "request refused" in said and "has 9" in said, said),
    )
    long = [text for text, _ in texts_of(prs("chart", EXAMPLES / "full-ether.txt").stdout)]
    hold(
        "heads stand again in a long picture",
        (long.count("purse 2") >= 438 // 20, long.count("purse 2")),
    )
    part = prs(
        "chart", EXAMPLES / "full-ether.txt", "--purses", "0,2", "--events", "425-438"
    ).stdout
    overlaps("a part of full-ether", part.decode())
    some = [text for text, _ in texts_of(part)]
    hold(
        "a choice of purses and events",
        ("purse 0" in some and "purse 2" in some and "purse 1" not in some, some),
        ("429" in some and "424" not in some and "425" not in some, some),
        (
            "before event 425" in some
            and "after event 438" in some
            and "has 916" in some
            and "value lost at once" in some,
            some,
        ),
    )
    one = [
        text
        for text, _ in texts_of(prs("chart", EXAMPLES / "full-ether.txt", "--events", "3").stdout)
    ]
    hold("one event", ("after event 3" in one and "−1, has 999" in one and "from 2" in one, one))
    nobody = [
        text
        for text, _ in texts_of(
            chart.drawn(run_of("open 9 9\nabort 200\nbytes ff"), with_words=False)
        )
    ]
    hold(
        "events for no purse have their words on a page",
        ("abort refused, answer 4" in nobody and "event refused, answer 3" in nobody, nobody),
    )
    refused = chart.drawn(run_of("open 5000001 1"))
    hold("a refused opening is drawn", ("opening refused, 21" in refused, refused))
    wide = run_of(
        "open"
        + " 5000000" * 32
        + "\n"
        + "".join(
            f"start-from {n} to {31 - n} number 4294967295 amount 5000000\nstart-from {n} to 255 number 4294967295 amount 4294967295\n"
            for n in range(32)
        )
        + "bytes "
        + "f" * 24
    )
    overlaps("32 purses, the largest numbers", chart.drawn(wide))
    bad = [
        ("--purses", "2"),
        ("--purses", "0;1"),
        ("--purses", ""),
        ("--purses", "-1"),
        ("--events", "0-3"),
        ("--events", "3-2"),
        ("--events", "1-9"),
        ("--events", "x"),
        ("--events", "-"),
        ("--events", "٣"),
    ]
    for option, value in bad:
        ran = prs("chart", EXAMPLES / "undisturbed.txt", f"{option}={value}")
        hold(
            f"chart {option}={value}",
            (
                ran.returncode == 2 and one_line(ran.stderr) and not ran.stdout,
                (ran.returncode, ran.stderr),
            ),
        )


def later_kind():
    """A kind of event more is one entry of the table: read, run, told and drawn with no other change."""
    text = "open 5 5\ncopy 1\nbytes 09 01 00 00 00000000 00000000"
    kind = events.Kind(9, "copy PURSE", lambda step: "", lambda step: [""])
    try:
        run_of(text)
        hold("a later kind is not there yet", (False, "it was read"))
    except Failure as failure:
        hold("a later kind is not there yet", ("is no event" in failure.says, failure.says))
    events.KINDS.append(kind)
    events.BY_NUMBER[9] = events.BY_WORD["copy"] = kind
    try:
        done = run_of(text)
        same = done.text.events[0].data == done.text.events[1].data
        told = telling.told(done)
        boxes = [words for words, _ in texts_of(chart.drawn(done))]
    finally:
        events.KINDS.pop()
        del events.BY_NUMBER[9], events.BY_WORD["copy"]
    hold("a later kind: its words", (same, "other bytes"), ("copy 1" in told, told))
    hold("a later kind: its box", (boxes.count("copy refused") == 2, boxes))


# ---- Pages


class Reading(html.parser.HTMLParser):
    """What a page reaches for, and its words."""

    def __init__(self, text):
        super().__init__()
        self.reaches, self.ids, self.seen, self.tags = [], [], [], []
        self.feed(text)

    def handle_starttag(self, tag, attributes):
        self.tags.append(tag)
        for name, value in attributes:
            if name == "id":
                self.ids.append(value)
            if name in ("src", "href", "srcset", "action", "data", "xlink:href") and not (
                value or ""
            ).startswith("#"):
                self.reaches.append(value)
            if name.startswith("on"):
                self.reaches.append(name)

    def handle_data(self, data):
        self.seen.append(data)


def pages(room):
    odd = room / "<img src=x onerror=alert(1)>&.txt"
    odd.write_text(
        "# <script>alert(1)</script> & more\n" + (EXAMPLES / "pulled-out.txt").read_text()
    )
    ran = prs("page", *sorted(EXAMPLES.glob("*.txt")), odd)
    text = ran.stdout.decode()
    reading = Reading(text)
    seen = "".join(reading.seen)
    hold("a page of every example", (ran.returncode == 0 and not ran.stderr, ran.stderr))
    hold(
        "nothing from outside",
        (not reading.reaches, reading.reaches),
        (not {"script", "link", "iframe", "object", "img"} & set(reading.tags), set(reading.tags)),
        (not re.search(r"url\(|@import", text), "a style reaches out"),
    )
    hold("names of its own", (len(reading.ids) == len(set(reading.ids)), reading.ids))
    hold(
        "a name and a comment are words",
        ("<script>alert(1)</script> & more" in seen and odd.name in seen, seen[:200]),
    )
    for path in sorted(EXAMPLES.glob("*.txt")):
        listing = path.with_suffix(".out").read_text()
        told = prs("tell", path).stdout.decode()
        hold(f"page: the listing of {path.name}", (listing in seen, "it is not there"))
        lines = [
            line.strip()
            for line in told.splitlines()[2:]
            if line.strip() and not re.match(r"\s*\d+\.? ", line)
        ]
        missing = [line for line in lines if line.removeprefix("Demand 3: ") not in seen]
        hold(f"page: the telling of {path.name}", (not missing, missing[:3]))
        hold(
            f"page: the chart of {path.name}",
            (
                chart.drawn(run.Run(words.read(str(path))), with_words=False)
                .split(">", 1)[1]
                .strip()
                in text,
                "it is not there",
            ),
        )
        overlaps(
            f"page: {path.name}", chart.drawn(run.Run(words.read(str(path))), with_words=False)
        )
    return ran.stdout


# A page's sideways reach, and the texts of its pictures that stand over one another as the browser draws them.
MEASURE = """
<script>
const wrong = [];
for (const picture of document.querySelectorAll("svg.chart")) {
  const boxes = [...picture.querySelectorAll("text")].map(t => [t.textContent, t.getBBox()]).sort((a, b) => a[1].y - b[1].y);
  const frame = picture.viewBox.baseVal;
  boxes.forEach(([words, b], place) => {
    if (b.x < 0 || b.x + b.width > frame.width) wrong.push(words + " leaves the picture");
    for (let next = place + 1; next < boxes.length && boxes[next][1].y < b.y + b.height - 3; next++) {
      const o = boxes[next][1];
      if (b.x < o.x + o.width && o.x < b.x + b.width) wrong.push(words + " over " + boxes[next][0]);
    }
  });
}
const parts = [...document.querySelectorAll(".parts")].map(p => [...p.children].map(c => Math.round(c.getBoundingClientRect().left)));
parent.document.title = "MEASURED" + JSON.stringify({wide: document.documentElement.scrollWidth, window: innerWidth, wrong: wrong.slice(0, 3), pictures: document.querySelectorAll("svg.chart").length, parts: parts[0]}) + "END";
</script>
"""


def browsed(room, data):
    browser = next((found for found in map(shutil.which, BROWSERS) if found), None)
    if not browser:
        print("pictures: no Chromium: the pages are not opened in a browser")
        return
    measured = html.escape(data.decode().replace("</body>", MEASURE + "</body>"))
    for width, what in [(390, "a phone"), (1280, "a desk")]:
        # in a frame, since a browser's own window may not become as narrow as a phone
        (room / "page.html").write_text(
            f'<!DOCTYPE html><meta charset="utf-8"><iframe style="border:0;width:{width}px;height:900px" srcdoc="{measured}"></iframe>'
        )
        command = [
            browser,
            "--headless",
            "--no-sandbox",
            "--disable-gpu",
            f"--user-data-dir={room / 'browser'}",
            "--window-size=1400,1000",
            "--dump-dom",
            f"file://{room / 'page.html'}",
        ]
        try:
            ran = subprocess.run(command, capture_output=True, timeout=PATIENCE)
        except subprocess.TimeoutExpired:
            hold(f"the page at {what}'s width", (False, "the browser does not end"))
            continue
        match = re.search(r"MEASURED(\{.*?\})END", ran.stdout.decode("utf-8", "replace"))
        if not match:
            print(f"pictures: {browser} opens nothing here: skipped at {what}'s width")
            continue
        got = json.loads(match.group(1))
        beside = len(set(got["parts"])) == 3
        hold(
            f"the page at {what}'s width",
            (got["window"] == width, f"the window is {got['window']} wide"),
            (
                got["wide"] <= got["window"],
                f"it is {got['wide']} wide in a window of {got['window']}",
            ),
            (got["pictures"] == len(list(EXAMPLES.glob("*.txt"))) + 1, got["pictures"]),
            (not got["wrong"], got["wrong"]),
            (beside == (width == 1280), f"its parts stand at {got['parts']}"),
        )


# ---- Outputs that fail


def outputs():
    for command in ["list", "tell", "chart", "page"]:
        path = EXAMPLES / "full-ether.txt"
        with open("/dev/full", "wb") as full:
            ran = subprocess.run(
                [ROOT / "prs", command, path],
                stdout=full,
                stderr=subprocess.PIPE,
                stdin=subprocess.DEVNULL,
                timeout=PATIENCE,
            )
        hold(
            f"{command} on a full device",
            (ran.returncode == 1 and one_line(ran.stderr) and b"space" in ran.stderr, ran.stderr),
        )
        ran = subprocess.run(
            ["sh", "-c", '"$0" "$1" "$2" >&-', ROOT / "prs", command, path],
            stderr=subprocess.PIPE,
            stdin=subprocess.DEVNULL,
            timeout=PATIENCE,
        )
        hold(
            f"{command} on a closed output",
            (ran.returncode == 1 and one_line(ran.stderr), ran.stderr),
        )
        for handler, what in [(signal.SIG_IGN, "ignored"), (signal.SIG_DFL, "not ignored")]:
            ours, theirs = os.pipe()
            os.close(ours)
            ran = subprocess.run(
                [ROOT / "prs", command, path],
                stdout=theirs,
                stderr=subprocess.PIPE,
                stdin=subprocess.DEVNULL,
                timeout=PATIENCE,
                preexec_fn=lambda: signal.signal(signal.SIGPIPE, handler),
            )
            os.close(theirs)
            hold(
                f"{command} on a closed pipe, the signal {what}",
                (ran.returncode == 1 and one_line(ran.stderr), (ran.returncode, ran.stderr)),
            )
    got, said, status = slow_reader([ROOT / "prs", "tell", EXAMPLES / "full-ether.txt"], b"")
    hold(
        "tell on an output that does not wait",
        (got == prs("tell", EXAMPLES / "full-ether.txt").stdout and status == 0, (len(got), said)),
    )


def main():
    options = argparse.ArgumentParser(description=__doc__.splitlines()[0])
    options.add_argument("--seed", type=int, default=1)
    options.add_argument("--lists", type=int, default=40)
    asked = options.parse_args()
    tellings()
    against_model(asked.seed, asked.lists)
    disagreeing()
    pictures()
    pictures_from_outside()
    later_kind()
    with tempfile.TemporaryDirectory() as room:
        browsed(Path(room), pages(Path(room)))
    outputs()
    finish(passed, failed)


if __name__ == "__main__":
    main()
