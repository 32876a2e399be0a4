#!/usr/bin/env python3
"""Writes the probe's small stream of requests and the replies that the documents ask for, by the model: crates/probe/stdin and stdout.
With --check it only compares them with what stands there. Last line 'N passed, M failed'."""
import sys

import model
from common import ROOT, finish, words
from rig import card_request, claims_request, event_request, opening_request, read_request, write_request


def stream():
    """The worked listing's transfer to its break, a purse issued and one loaded, at each step by another letter, with a refusal of each."""
    bench = model.Bench()
    yield opening_request(bench, [], "none")
    yield opening_request(bench, [1000, 5_000_001], "one too high")
    yield opening_request(bench, [1000, 200], "the listing's")
    model.opening(bench, [1000, 200])
    for line in [
        "start-from 0 to 1 number 1 amount 300",
        "start-to 1 from 0 number 1 amount 300",
        "deliver 0 to 0",
        "bytes 04 01 00 00 00 00 00 00 00 00 00",
        "abort 1",
        "abort 0",
        "collect 0",
        "collect 1",
        "bytes 07 00 00 00 00 00 00 00 00 00 00 05",
        "bytes 07 00 01 00 00 00 00 00 02 fa f0 80",
        "bytes 08 02 00 00 00 00 00 00 00 00 00 07",
        "bytes 08 02 00 00 00 00 00 00 00 4c 4b 40",
    ]:
        data = words.line_bytes(line)
        yield event_request(bench, data, line)
        model.event(bench, data)
    yield claims_request(bench, "both archived")
    image = model.image(bench)
    yield write_request(bench, len(image) + 3, "room for it and three bytes more")
    yield write_request(bench, len(image) - 1, "a byte short")
    yield read_request(model.Bench(), image, "over an unused bench")
    yield read_request(bench, b"Q" + image[1:], "another mark")
    purse = bench.table[0]
    nothing = model.Message(0, model.Details(0, 0, 0, 0, 0))
    for kind, other, name in [(2, 1, 0), (1, 0, 0), (4, 0, 0), (3, 0, 0), (6, 0, 40), (8, 1, 0), (8, 0, 40)]:
        yield card_request((name, purse, kind, other, 7, 300, nothing), "the payer's record")


def main():
    requests = list(stream())
    made = {
        "stdin": b"".join(request.bytes for request in requests) + b"X",
        "stdout": b"".join(request.reply for request in requests),
    }
    wrong = 0
    for name, data in made.items():
        path = ROOT / "crates" / "probe" / name
        if "--check" in sys.argv[1:]:
            wrong += path.read_bytes() != data
        else:
            path.write_bytes(data)
    finish(len(made) - wrong, wrong)


if __name__ == "__main__":
    main()
