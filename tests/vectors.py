#!/usr/bin/env python3
"""The test vectors of the bench program: inputs named here, their listings beside them.

Each vector is an input in the words of docs/REPLAY.md and the answers that documents 01 and 02 give
it, worked out by hand; `..` at the front stands for answers not written out. Of the vectors about
claims (A1) the last line is worked out by hand too, of those about issue and load (A5) all last
lines. Issues and loads are given as bytes, whatever words there are for them. The vectors and the examples are kept as files:
tests/vectors/NAME.in and NAME.out, examples/NAME.txt and NAME.out. The program of crates/vectors runs
the same inputs in the gate: it has copies of its own (data/, args, stdout), since it is run outside
the repository.

    vectors.py             checks the files against the answers below and against the model
    vectors.py --write     writes the files anew

examples.sh runs the program on them.
"""

import argparse

from common import EXAMPLES, ROOT, VECTORS, finish, words
import model

GATE = ROOT / "crates" / "vectors"

# the listing's input cut after event 6: both cards hold their entry
UNCOLLECTED = """
open 1000 200
start-from 0 to 1 number 1 amount 300
start-to 1 from 0 number 1 amount 300
deliver 0 to 0
abort 1
deliver 1 to 1
abort 0
"""
LISTING = UNCOLLECTED + "collect 0\ncollect 1\n"

# "prints:", as document 01 gives it
LISTING_PRINTED = """\
PRS 1
1 0
2 0
3 0
4 0
5 13
6 0
7 0
8 0
purse 0 700 2 0 0
purse 1 200 2 0 0
messages 2 archive 2 claims 300
"""

TWO = "open 1000 200\n"
PAYMENT = "start-from 0 to 1 number 1 amount 300\nstart-to 1 from 0 number 1 amount 300\n"
LOGGED = "start-to 1 from 0 number 1 amount 1\nabort 1\n"
START_TO = "start-to 1 from 0 number 1 amount 1\n"
NOTHING = "messages 0 archive 0 claims 0"
# 256 requests stand; purse 1 is idle with an empty log, the archive holds 256 entries
FILLED = TWO + (LOGGED + "collect 1\n") * 256


def opened(count, balance=100):
    """The opening of `count` purses with one balance, as bytes."""
    return f"bytes {count:02x} " + f"{balance:08x} " * count + "\n"


def events(*rows):
    """Raw events as hex."""
    return "".join(f"bytes {row}\n" for row in rows)


def issue(balance, purse_class=0, purse=0, number=0):
    """A5's kind 7: class in the counterparty field, first balance in the amount."""
    return events(f"07{purse:02x}{purse_class:02x}00 {number:08x} {balance:08x}")


def load(purse, amount, counterparty=0, number=0):
    """A5's kind 8."""
    return events(f"08{purse:02x}{counterparty:02x}00 {number:08x} {amount:08x}")


def broken(payer, payer_number, payee, payee_number, amount, place):
    """A payment that both have logged; its request is the message at that place."""
    return (
        f"start-from {payer} to {payee} number {payee_number} amount {amount}\n"
        f"start-to {payee} from {payer} number {payer_number} amount {amount}\n"
        f"deliver {place} to {payer}\nabort {payer}\nabort {payee}\n"
    )


def places(*numbers):
    """A delivery and a loss at each of these places."""
    return "".join(f"deliver {place} to 0\nlose {place}\n" for place in numbers)


# payer and payee have each logged 300, of different payments: the first arrived, the second was not paid
ONE_PRICE = (
    TWO
    + PAYMENT
    + "deliver 0 to 0\nabort 0\ndeliver 1 to 1\n"
    + "start-from 0 to 1 number 2 amount 300\nstart-to 1 from 0 number 2 amount 300\n"
    + "abort 1\nabort 0\n"
)

VECTORS_MADE = {
    # the listing of document 01
    "listing": (LISTING, "0 0 0 0 13 0 0 0"),
    "no-events": (TWO, ""),
    # "At the edges", those that events can reach from an opening
    "edge-amounts": (
        TWO
        + "start-from 0 to 1 number 1 amount 0\n"
        + "start-to 1 from 0 number 1 amount 0\n"
        + "start-from 0 to 1 number 1 amount 5000001\n"
        + "start-to 1 from 0 number 1 amount 5000001\n"
        + "start-from 0 to 1 number 1 amount 1\n"
        + "start-to 1 from 0 number 1 amount 1\n",
        "7 7 7 7 0 0",
    ),
    "edge-balance-300": (
        "open 300 0\n"
        + "start-from 0 to 1 number 1 amount 301\n"
        + "start-from 0 to 1 number 1 amount 300\n",
        "11 0",
    ),
    "edge-payee-4999700": (
        "open 300 4999700\n"
        + "start-to 1 from 0 number 1 amount 301\n"
        + "start-to 1 from 0 number 1 amount 300\n"
        + "start-from 0 to 1 number 1 amount 300\n"
        + "deliver 0 to 0\ndeliver 1 to 1\n",
        "12 0 0 0 0",
    ),
    "edge-whole-balance": (
        "open 5000000 0\n"
        + "start-from 0 to 1 number 1 amount 5000000\n"
        + "start-to 1 from 0 number 1 amount 5000000\n"
        + "deliver 0 to 0\ndeliver 1 to 1\ndeliver 2 to 0\n"
        + "start-from 0 to 1 number 1 amount 1\n"
        + "start-to 1 from 0 number 1 amount 1\n",
        "0 0 0 0 0 11 12",
    ),
    "edge-7-log-entries": (TWO + LOGGED * 7 + START_TO, ".. 0"),
    "edge-8-log-entries": (
        TWO + LOGGED * 8 + START_TO + "start-from 1 to 0 number 1 amount 1\n",
        ".. 10 10",
    ),
    "edge-itself-amount-0": (
        TWO
        + "start-from 0 to 0 number 1 amount 0\n"
        + "start-to 1 from 1 number 1 amount 0\n",
        "6 6",
    ),
    "edge-value-again": (
        TWO + PAYMENT + "deliver 0 to 0\ndeliver 1 to 1\ndeliver 1 to 1\n",
        "0 0 0 0 13",
    ),
    "edge-256-messages": (
        FILLED
        + START_TO
        + "abort 1\n"
        + PAYMENT
        + "deliver 255 to 0\nlose 255\nabort 1\n"
        + "start-to 1 from 0 number 1 amount 300\n"
        + "deliver 255 to 0\ndeliver 255 to 1\n"
        + "lose 4\nabort 1\n"
        + START_TO,
        ".. 1 0 0 1 13 0 0 0 13 13 0 0 0",
    ),
    "edge-place-equal-count": (
        TWO
        + "deliver 0 to 0\nlose 0\n"
        + START_TO
        + "deliver 1 to 0\nlose 1\ndeliver 0 to 0\nlose 0\nlose 0\n",
        "5 5 0 5 5 13 0 5",
    ),
    "edge-11-bytes": (TWO + events("01000100 00000001 000001"), "3"),
    # answer 3
    "kinds-malformed": (
        TWO + events(*(f"{kind:02x}000000 00000000 00000000" for kind in (0, *range(9, 256)))),
        " ".join(["3"] * 248),
    ),
    "spare-not-zero": (
        TWO
        + events(
            "01000101 00000001 00000001",
            "02010001 00000001 00000001",
            "03000080 00000000 00000000",
            "040000ff 00000000 00000000",
            "05000001 00000000 00000000",
            "06000001 00000000 00000000",
            "07000001 00000000 00000005",
            "08000080 00000000 00000005",
            "04000000 00000000 00000000",
        ),
        "3 3 3 3 3 3 3 3 0",
    ),
    "unused-deliver": (
        TWO
        + PAYMENT
        + events(
            "03000100 00000000 00000000",
            "0300ff00 00000000 00000000",
            "03000000 00000000 00000001",
            "03000000 00000000 01000000",
            "03000000 00000000 00000000",
        ),
        "0 0 3 3 3 3 0",
    ),
    "unused-abort": (
        TWO
        + PAYMENT
        + events(
            "04010100 00000000 00000000",
            "0401ff00 00000000 00000000",
            "04010000 00000001 00000000",
            "04010000 80000000 00000000",
            "04010000 00000000 00000001",
            "04010000 00000000 80000000",
            "04010000 00000000 00000000",
        ),
        "0 0 3 3 3 3 3 3 0",
    ),
    "unused-lose": (
        TWO
        + PAYMENT
        + events(
            "05010000 00000000 00000000",
            "05ff0000 00000000 00000000",
            "05000100 00000000 00000000",
            "0500ff00 00000000 00000000",
            "05000000 00000000 00000001",
            "05000000 00000000 80000000",
            "05000000 00000000 00000000",
        ),
        "0 0 3 3 3 3 3 3 0",
    ),
    "unused-collect": (
        TWO
        + LOGGED
        + events(
            "06010100 00000000 00000000",
            "0601ff00 00000000 00000000",
            "06010000 00000001 00000000",
            "06010000 80000000 00000000",
            "06010000 00000000 00000001",
            "06010000 00000000 80000000",
            "06010000 00000000 00000000",
        ),
        "0 0 3 3 3 3 3 3 0",
    ),
    "unused-issue": (
        TWO
        + issue(5, purse=1)
        + issue(5, purse=2)
        + issue(5, purse=255)
        + issue(5, number=1)
        + issue(5, number=0x80000000)
        + issue(4294967295, 9, purse=1)
        + issue(4294967295, 9, number=1)
        + issue(5),
        "3 3 3 3 3 3 3 0",
    ),
    "unused-load": (
        TWO
        + load(0, 5, counterparty=1)
        + load(0, 5, counterparty=255)
        + load(0, 5, number=1)
        + load(0, 5, number=0x80000000)
        + load(255, 5, counterparty=1)
        + load(0, 0, number=1)
        + load(0, 5),
        "3 3 3 3 3 3 0",
    ),
    # a used field never gives 3, however large
    "used-fields-largest": (
        TWO
        + events(
            "01ffff00 ffffffff ffffffff",
            "02ffff00 ffffffff ffffffff",
            "0100ff00 ffffffff ffffffff",
            "01000100 ffffffff ffffffff",
            "02010000 ffffffff 00000001",
            "01000100 00000000 00000001",
            "03ff0000 ffffffff 00000000",
            "04ff0000 00000000 00000000",
            "06ff0000 00000000 00000000",
            "0700ff00 00000000 ffffffff",
            "08ff0000 00000000 ffffffff",
            "08000000 00000000 ffffffff",
        ),
        "4 4 6 7 0 0 4 4 4 22 4 7",
    ),
    # a place is compared with all its bits
    "places-large": (
        TWO
        + PAYMENT
        + places(1, 256, 65536, 16777216, 4294967295)
        + "deliver 0 to 0\n",
        "0 0 5 5 5 5 5 5 5 5 5 5 0",
    ),
    "places-large-full": (
        FILLED
        + places(256, 511, 65536, 4294967295)
        + "deliver 255 to 0\nlose 255\nlose 255\n",
        ".. 5 5 5 5 5 5 5 5 13 0 5",
    ),
    # the order of the refusals
    "order-starts": (
        "open 100 4999900 50\n"
        + LOGGED * 8
        + "start-from 3 to 3 number 1 amount 0\n"  # 4, 6, 7
        + "start-from 1 to 3 number 1 amount 0\n"  # 6, 7, 10
        + "start-from 1 to 0 number 1 amount 0\n"  # 7, 10
        + "start-from 1 to 0 number 1 amount 5000000\n"  # 10, 11
        + "start-to 1 from 0 number 1 amount 5000000\n"  # 10, 12
        + "start-from 0 to 2 number 1 amount 100\n"
        + "start-from 0 to 0 number 1 amount 5000001\n"  # 6, 7, 8
        + "start-from 0 to 2 number 1 amount 5000001\n"  # 7, 8
        + "start-from 0 to 2 number 1 amount 101\n"  # 8, 11
        + "start-to 0 from 2 number 1 amount 5000000\n",  # 8, 12
        ".. 4 6 7 10 10 0 6 7 8 8",
    ),
    "order-deliver": (
        TWO + "deliver 0 to 2\n" + PAYMENT + "deliver 1 to 2\ndeliver 1 to 1\ndeliver 0 to 1\n",
        "4 0 0 4 5 13",
    ),
    "order-collect": (FILLED + LOGGED + "collect 1\ncollect 0\ncollect 2\n", ".. 1 0 15 14 4"),
    "order-issue": (
        opened(31)
        + issue(4294967295, 9)  # 22, 21
        + issue(5000001, 1)  # 22, 21
        + issue(5000001)  # 21
        + issue(0, 255)  # 22
        + issue(7)
        + issue(4294967295, 9)  # 24, 22, 21
        + issue(5000001)  # 24, 21
        + issue(0, 1)  # 24, 22
        + issue(0)  # 24
        + issue(0, number=1)  # 3, 24
        + issue(4294967295, 9, purse=31),  # 3, 24, 22, 21
        "22 22 21 22 0 24 24 24 24 3 3",
    ),
    "order-load": (
        "open 1000 4999900\n"
        + LOGGED * 8
        + load(2, 0)  # 4, 7
        + load(2, 5000000)  # 4
        + load(1, 0)  # 7
        + load(1, 5000001)  # 7, 12
        + load(1, 5000000)  # 12
        + load(1, 100)
        + "start-from 0 to 1 number 1 amount 1000\n"
        + load(0, 0)  # 7, 8
        + load(0, 5000001)  # 7, 8, 12
        + load(0, 5000000)  # 8, 12
        + load(0, 1),  # 8
        ".. 4 4 7 7 12 0 0 7 7 8 8",
    ),
    # steps that are done although they look odd
    "idle-abort": (TWO + "abort 0\nabort 1\nabort 2\n", "0 0 4"),
    "epr-abort": (TWO + "start-from 0 to 1 number 1 amount 300\nabort 0\n", "0 0"),
    "busy-collect": (TWO + LOGGED + START_TO + "collect 1\ncollect 1\n", "0 0 0 0 14"),
    "wrong-messages": (
        TWO
        + PAYMENT
        + "deliver 0 to 1\ndeliver 0 to 0\ndeliver 0 to 0\ndeliver 1 to 0\ndeliver 1 to 1\n"
        + "deliver 2 to 1\ndeliver 2 to 0\ndeliver 2 to 0\n",
        "0 0 13 0 13 13 0 13 0 13",
    ),
    "crosswise": (
        TWO
        + PAYMENT
        + "abort 0\nabort 1\n"
        + "start-from 0 to 1 number 1 amount 300\n"
        + "deliver 0 to 0\nabort 0\n"
        + "start-from 0 to 1 number 2 amount 300\n"
        + "deliver 0 to 0\n",
        "0 0 0 0 0 13 0 0 13",
    ),
    # claims by A1: every matched pair, wherever its two entries stand
    "claims-on-cards": (UNCOLLECTED, "0 0 0 0 13 0"),
    "claims-payer-archived": (UNCOLLECTED + "collect 0\n", "0 0 0 0 13 0 0"),
    "claims-payee-archived": (UNCOLLECTED + "collect 1\n", "0 0 0 0 13 0 0"),
    "claims-payer-busy": (TWO + PAYMENT + "deliver 0 to 0\nabort 1\n", "0 0 0 0"),
    "claims-payee-busy": (TWO + PAYMENT + "deliver 0 to 0\nabort 0\n", "0 0 0 0"),
    "claims-one-price": (ONE_PRICE, "0 0 0 0 0 0 0 0 0"),
    "claims-one-price-archived": (ONE_PRICE + "collect 0\ncollect 1\n", ".. 0 0"),
    "claims-mixed": (
        "open 60000 60000 60000 60000\n"
        + broken(0, 1, 1, 1, 1, 0)
        + "collect 0\ncollect 1\n"  # 1: both archived
        + broken(0, 2, 1, 2, 20, 2)
        + "collect 0\n"  # 20: the payer's archived
        + broken(2, 1, 3, 1, 300, 4)
        + "collect 3\n"  # 300: the payee's archived
        + broken(2, 2, 3, 2, 4000, 6)  # 4000: both on cards
        # 50000 arrives, and the payer alone logs it
        + "start-from 1 to 2 number 3 amount 50000\nstart-to 2 from 1 number 3 amount 50000\n"
        + "deliver 8 to 1\ndeliver 9 to 2\nabort 1\n"
        # 50000 is never paid, and the payee alone logs it
        + "start-to 0 from 3 number 3 amount 50000\nabort 0\n"
        # both sides of a pair on cards are busy again
        + "start-from 2 to 3 number 3 amount 7\nstart-to 3 from 2 number 4 amount 7\n",
        " ".join(["0"] * 33),
    ),
    # A5: issue and load
    "issue-and-load": (  # 02's reading of A5 by example, with the one class that there is before A2
        "open 1000\n"
        + issue(5000000)
        + issue(50000000, 1)
        + issue(4294967295, 2)
        + issue(5000001)
        + issue(1, purse=1)
        + load(1, 1)
        + load(0, 0)
        + load(2, 0)
        + load(0, 4999000)
        + "start-from 0 to 1 number 1 amount 10\n"
        + load(0, 5000000)
        + issue(0),
        "0 22 22 21 3 12 7 4 0 0 8 0",
    ),
    "issue-32-purses": (opened(32) + issue(4294967295, 9) + issue(0, number=1) + issue(0), "24 3 24"),
    "issue-31-purses": (opened(31) + issue(7) + issue(7), "0 24"),
    "issue-to-32": (
        "open 1000\n" + "".join(issue(name) for name in range(1, 33)),
        " ".join(["0"] * 31 + ["24"]),
    ),
    "issue-balances": (
        "open 0\n"
        + "".join(issue(balance) for balance in (0, 1, 5000000, 5000001, 2147483648, 4294967295)),
        "0 0 0 21 21 21",
    ),
    "issue-classes": (
        "open 0\n" + "".join(issue(1, purse_class) for purse_class in (1, 2, 128, 255, 0)),
        "22 22 22 22 0",
    ),
    "issue-cut": (TWO + issue(7) + events("07000000 00000000 000000"), "0 3"),
    "load-cut": (TWO + load(0, 7) + events("08000000 00000000 000000"), "0 3"),
    "edge-load-4999700": (
        "open 4999700 0\n"
        + load(0, 301)
        + load(0, 300)
        + load(0, 1)
        + load(1, 0)
        + load(1, 5000001)
        + load(1, 5000000),
        "12 0 12 7 7 0",
    ),
    "load-on-load": (
        "open 0\n" + load(0, 1) + load(0, 5000000) + load(0, 4999998) + load(0, 1) + load(0, 1),
        "0 12 0 0 12",
    ),
    "load-8-log-entries": (TWO + LOGGED * 8 + load(1, 5) + START_TO, ".. 0 10"),
    "load-busy": (
        TWO
        + "start-from 0 to 1 number 1 amount 300\n"
        + load(0, 7)  # epr
        + "start-to 1 from 0 number 1 amount 300\n"
        + load(1, 7)  # epv
        + "deliver 0 to 0\n"
        + load(0, 7)  # epa
        + "deliver 1 to 1\n"
        + load(1, 20)
        + load(0, 7)
        + "deliver 2 to 0\n"
        + load(0, 4000)
        + "start-to 1 from 0 number 2 amount 1\nabort 1\n"
        + load(1, 600),
        "0 8 0 8 0 8 0 0 8 0 0 0 0 0",
    ),
    # neither sends: with 256 messages, and 256 archive entries, both are done and answer 0
    "issue-load-256-messages": (FILLED + issue(5) + load(0, 1) + load(2, 5), ".. 0 0 0"),
    "issue-whole-transfer": (
        "open 1000\n"
        + "start-from 0 to 1 number 1 amount 300\nabort 1\n"
        + issue(200)
        + PAYMENT
        + "deliver 0 to 0\ndeliver 1 to 1\ndeliver 2 to 0\n"
        + "start-to 2 from 1 number 2 amount 450\n"
        + issue(0)
        + "start-from 1 to 2 number 1 amount 450\nstart-to 2 from 1 number 2 amount 450\n"
        + "deliver 3 to 1\ndeliver 4 to 2\ndeliver 5 to 1\n",
        "6 4 0 0 0 0 0 0 4 0 0 0 0 0 0",
    ),
    "issue-broken-payee": (
        "open 1000\n"
        + issue(200)
        + PAYMENT
        + "deliver 0 to 0\nabort 1\ndeliver 1 to 1\nabort 0\n"
        + load(1, 7)
        + load(0, 30)
        + "collect 0\ncollect 1\n"
        + load(0, 1),
        "0 0 0 0 0 13 0 0 0 0 0 0",
    ),
    "issue-broken-payer": (
        "open 200\n"
        + issue(1000)
        + broken(1, 1, 0, 1, 300, 0)
        + load(1, 4)
        + "collect 1\n"
        + issue(0)
        + "collect 0\n"
        + load(2, 9)
        # the payer in epa is busy, and its payment is no pair yet
        + "start-from 1 to 2 number 1 amount 704\nstart-to 2 from 1 number 2 amount 704\n"
        + "deliver 2 to 1\n"
        + load(1, 1)
        + "abort 2\n"
        + load(2, 1),
        "0 0 0 0 0 0 0 0 0 0 0 0 0 0 8 0 0",
    ),
    # opening
    "open-empty-input": ("", "opening 20"),
    "open-0": ("bytes 00", "opening 20"),
    "open-0-and-more": ("bytes 00 00000001 04000000 00000000 00000000", "opening 20"),
    "open-1": (opened(1) + "start-from 0 to 0 number 1 amount 1\nabort 0\nabort 1\n", "6 0 4"),
    "open-32": (
        opened(32)
        + "start-from 31 to 30 number 1 amount 100\nstart-to 0 from 31 number 1 amount 1\n"
        + "start-from 1 to 32 number 1 amount 1\nabort 32\ndeliver 0 to 31\n",
        "0 0 6 4 13",
    ),
    "open-33": (opened(33), "opening 20"),
    "open-128": (opened(128), "opening 20"),
    "open-255": (opened(255), "opening 20"),
    "open-cut-0": ("bytes 02", "opening 20"),
    "open-cut-1": ("bytes 02 000003e8", "opening 20"),
    "open-cut-7": ("bytes 02 000003e8 0000c8", "opening 20"),
    "open-5000000": ("open 5000000 5000000", ""),
    "open-5000001": ("open 1000 5000001 3\nabort 0\n", "opening 21"),
    "open-largest": ("open 4294967295", "opening 21"),
    "open-21-and-20": ("bytes 02 004c4b41 000000", "opening 20"),
    "open-21-and-33": (opened(33, 5000001), "opening 20"),
    # a last event cut short
    "cut-1": (LISTING + "bytes 01", "0 0 0 0 13 0 0 0 3"),
    "cut-11": (LISTING + events("04000000 00000000 000000"), "0 0 0 0 13 0 0 0 3"),
}




def purses(*figures):
    """The lines of purses: balance, next number, status and log entries of each."""
    return "".join(f"purse {name} {line}\n" for name, line in enumerate(figures))


# The last line of the vectors about claims; purses and last line of those about issue and load.
ENDS = {
    "claims-on-cards": "messages 2 archive 0 claims 300",
    "claims-payer-archived": "messages 2 archive 1 claims 300",
    "claims-payee-archived": "messages 2 archive 1 claims 300",
    "claims-payer-busy": "messages 2 archive 0 claims 0",
    "claims-payee-busy": "messages 2 archive 0 claims 0",
    "claims-one-price": "messages 4 archive 0 claims 0",
    "claims-one-price-archived": "messages 4 archive 2 claims 0",
    "claims-mixed": "messages 13 archive 4 claims 4321",
    "unused-issue": purses("1000 1 0 0", "200 1 0 0", "5 1 0 0") + NOTHING,
    "unused-load": purses("1005 1 0 0", "200 1 0 0") + NOTHING,
    "order-issue": purses(*["100 1 0 0"] * 31, "7 1 0 0") + NOTHING,
    "order-load": purses("1000 2 1 0", "5000000 9 0 8") + "messages 8 archive 0 claims 0",
    "issue-and-load": purses("5000000 2 1 0", "5000000 1 0 0", "0 1 0 0") + NOTHING,
    "issue-32-purses": purses(*["100 1 0 0"] * 32) + NOTHING,
    "issue-31-purses": purses(*["100 1 0 0"] * 31, "7 1 0 0") + NOTHING,
    "issue-to-32": purses("1000 1 0 0", *(f"{name} 1 0 0" for name in range(1, 32))) + NOTHING,
    "issue-balances": purses("0 1 0 0", "0 1 0 0", "1 1 0 0", "5000000 1 0 0") + NOTHING,
    "issue-classes": purses("0 1 0 0", "1 1 0 0") + NOTHING,
    "issue-cut": purses("1000 1 0 0", "200 1 0 0", "7 1 0 0") + NOTHING,
    "load-cut": purses("1007 1 0 0", "200 1 0 0") + NOTHING,
    "edge-load-4999700": purses("5000000 1 0 0", "5000000 1 0 0") + NOTHING,
    "load-on-load": purses("5000000 1 0 0") + NOTHING,
    "load-8-log-entries": purses("1000 1 0 0", "205 9 0 8") + "messages 8 archive 0 claims 0",
    # purse 0: 1000 - 300 + 4000; purse 1: 200 + 300 + 20 + 600, and the abort of its second start
    "load-busy": purses("4700 2 0 0", "1120 3 0 1") + "messages 4 archive 0 claims 0",
    "issue-load-256-messages": purses("1001 1 0 0", "200 257 0 0", "10 1 0 0")
    + "messages 256 archive 256 claims 0",
    # 300 from 0 to 1, then 450 from 1 to 2, both whole
    "issue-whole-transfer": purses("700 2 0 0", "50 3 0 0", "450 2 0 0")
    + "messages 6 archive 0 claims 0",
    # 1000 - 300 + 30 + 1 and 200 + 7, with 300 owed: 1238, which is 1000 + 200 + 38
    "issue-broken-payee": purses("731 2 0 0", "207 2 0 0") + "messages 2 archive 2 claims 300",
    # 300 owed; 704 paid by purse 1, which is still in epa
    "issue-broken-payer": purses("200 2 0 0", "0 3 3 0", "10 2 0 1")
    + "messages 4 archive 2 claims 300",
}


def printed(answers, listing):
    """Whether the listing has these answers, in order."""
    lines = listing.decode().splitlines()
    if answers.startswith("opening"):
        return lines == ["PRS 1", answers]
    got = [line.split()[1] for line in lines[1:] if line[0].isdigit()]
    want = answers.split()
    if want[:1] == [".."]:
        want = want[1:]
        got = got[-len(want) :]
    return got == want


def issues_or_loads(data):
    """Whether the input has an issue or a load that is done."""
    lines = model.program(data).decode().splitlines()
    events = model.cut(data[1 + 4 * data[0] :]) if data else []
    answers = [line.split()[1] for line in lines[1:] if line[0].isdigit()]
    return any(e[0] in (7, 8) and answer == "0" for e, answer in zip(events, answers))


def all_vectors():
    """Name, input, listing file and hand-worked answers of every vector and example."""
    for name, (text, answers) in VECTORS_MADE.items():
        yield name, words.text_bytes(text), VECTORS / f"{name}.out", answers
    for path in sorted(EXAMPLES.glob("*.txt")):
        yield path.stem, words.text_bytes(path.read_text()), path.with_suffix(".out"), None


def gate_files():
    """The files of crates/vectors that the vectors give, path and content."""
    names = sorted(VECTORS_MADE)
    for name in names:
        yield GATE / "data" / name, (VECTORS / f"{name}.in").read_bytes()
    yield GATE / "args", "".join(f"{name}\n" for name in names).encode()
    yield GATE / "stdout", b"".join((VECTORS / f"{name}.out").read_bytes() for name in names)


def write_all():
    VECTORS.mkdir(exist_ok=True)
    for old in VECTORS.iterdir():
        old.unlink()
    for name, data, listing, answers in all_vectors():
        if answers is not None:
            (VECTORS / f"{name}.in").write_bytes(data)
        listing.write_bytes(model.program(data))
    for old in (GATE / "data").iterdir():
        old.unlink()
    for path, content in gate_files():
        path.write_bytes(content)


def wrong(name, data, listing, answers):
    """What is wrong with a vector, in words; None where nothing is."""
    want = listing.read_bytes()
    if answers is not None and (VECTORS / f"{name}.in").read_bytes() != data:
        return "the input file is not what the words say"
    if answers is not None and not printed(answers, want):
        return f"the listing file does not give the answers {answers}"
    if name == "listing" and want.decode() != LISTING_PRINTED:
        return "the listing file is not document 01's listing"
    if name in ENDS:
        end = ENDS[name].splitlines()
        if want.decode().splitlines()[-len(end) :] != end:
            return f"the listing file does not end with {end}"
    elif answers is not None and issues_or_loads(data):
        return "no last lines were worked out by hand"
    if model.program(data) != want:
        return "the model prints another listing"
    return None


def main():
    options = argparse.ArgumentParser(description=__doc__.splitlines()[0])
    options.add_argument("--write", action="store_true", help="write the files anew")
    asked = options.parse_args()
    if asked.write:
        write_all()
    passed = failed = 0
    for name, data, listing, answers in all_vectors():
        fault = wrong(name, data, listing, answers)
        if fault is None:
            passed += 1
        else:
            failed += 1
            print(f"{name}: {fault}")
    known = dict(gate_files())
    for path in sorted({*known, *(GATE / "data").iterdir()}):
        if path.is_file() and known.get(path) == path.read_bytes():
            passed += 1
        else:
            failed += 1
            print(f"{path.relative_to(ROOT)}: not what tests/vectors has; vectors.py --write writes it anew")
    finish(passed, failed)


if __name__ == "__main__":
    main()
