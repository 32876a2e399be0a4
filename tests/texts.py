#!/usr/bin/env python3
"""The reader of the words (replay/words.py): what the grammar of docs/REPLAY.md allows is read as
the tests' own reader reads it, everything else is refused with file, line and what was expected.
Then 10,000 random texts, each of which must end in a message or a run.

    texts.py [--seed S] [--texts N]

Last line 'N passed, M failed'; the exit status is 1 on any failure.
"""

import argparse
import os
import random
import subprocess
import sys
import tempfile
import traceback
from pathlib import Path

import words as plain
from common import EXAMPLES, ROOT, finish

sys.path.insert(0, str(ROOT))
from replay import chart, page, telling  # noqa: E402
from replay import words as reader  # noqa: E402
from replay.failure import Failure  # noqa: E402
from replay.run import Run  # noqa: E402

OPEN = "open 1000 200\n"
# Texts that are allowed, each with the plain text that it must be read as.
ALLOWED = [
    ("an opening alone", OPEN, OPEN),
    ("no newline at the end", "open 1000 200", OPEN),
    ("CRLF", "open 1000 200\r\nabort 0\r\n\r\n# end\r\n", OPEN + "abort 0"),
    ("tabs", "\topen\t1000 \t 200\t\n abort\t0\t# stop\n", OPEN + "abort 0"),
    ("a byte order mark", "\ufeffopen 1000 200\nabort 1", OPEN + "abort 1"),
    ("comments, in any letters", "# žigosano\nopen 1000 200 # 千\nabort 0#1\n", OPEN + "abort 0"),
    ("empty lines", "\n\n  \n" + OPEN + "\n\nabort 0\n\n", OPEN + "abort 0"),
    ("zeros in front", "open 0001000 200\nabort 000", OPEN + "abort 0"),
    (
        "the largest numbers",
        "open 4294967295\nstart-from 255 to 255 number 4294967295 amount 4294967295",
        "bytes 01 ffffffff 01ffff00 ffffffff ffffffff",
    ),
    ("255 purses", "open" + " 0" * 255, "bytes ff " + "00" * 1020),
    (
        "a purse issued to a person, to a shop, and loaded",
        OPEN + "issue person 0\nissue\tshop 500\nload 2 7",
        OPEN
        + "bytes 07000000 00000000 00000000\nbytes 07000100 00000000 000001f4\n"
        + "bytes 08020000 00000000 00000007",
    ),
    (
        "the largest numbers of an issue and a load",
        OPEN + "issue shop 4294967295\nload 255 4294967295",
        OPEN + "bytes 07000100 00000000 ffffffff\nbytes 08ff0000 00000000 ffffffff",
    ),
    (
        "an event in bytes",
        OPEN + "bytes 04 0100 0000000000 00000000\nabort 1",
        OPEN + "abort 1\nabort 1",
    ),
    (
        "an event cut short at the end",
        OPEN + "abort 0\nbytes 04 01\n# end\n",
        OPEN + "abort 0\nbytes 0401",
    ),
]
# Texts that are refused: the line, and words of the message.
REFUSED = [
    ("nothing", "", 1, "expected open"),
    ("comments alone", "# a\n# b\n", 3, "expected open"),
    ("an event before the opening", "abort 0\n" + OPEN, 1, "expected open"),
    ("bytes before the opening", "bytes 02 000003e8 000000c8\n", 1, "expected open"),
    ("two openings", OPEN + "abort 0\nopen 1 2", 3, "once"),
    ("an opening of nobody", "open\n", 1, "no balance"),
    ("too many balances", "open" + " 1" * 256, 1, "1 to 255"),
    ("a balance out of range", "open 1 4294967296", 1, "0 to 4294967295"),
    (
        "an amount out of range",
        OPEN + "start-from 0 to 1 number 1 amount 4294967296",
        2,
        "0 to 4294967295",
    ),
    (
        "a number out of range",
        OPEN + "start-to 0 from 1 number 99999999999 amount 1",
        2,
        "0 to 4294967295",
    ),
    ("a place out of range", OPEN + "deliver 4294967296 to 0", 2, "0 to 4294967295"),
    ("a purse out of range", OPEN + "\nabort 256", 3, "0 to 255"),
    ("a counterparty out of range", OPEN + "start-from 0 to 256 number 1 amount 1", 2, "0 to 255"),
    ("a very long number", OPEN + "abort " + "9" * 100_000, 2, "0 to 255"),
    ("a sign", OPEN + "abort -1", 2, "plain digits"),
    ("a plus", OPEN + "abort +1", 2, "plain digits"),
    ("digits with _", "open 1_000 200", 1, "plain digits"),
    ("digits with a comma", "open 1,000 200", 1, "plain digits"),
    ("digits of another script", "open ١٠٠٠ 200", 1, "plain digits"),
    ("raised digits", "open 10² 200", 1, "plain digits"),
    ("a hexadecimal number", OPEN + "abort 0x1", 2, "plain digits"),
    ("a fraction", OPEN + "abort 1.0", 2, "plain digits"),
    (
        "an unknown event",
        OPEN + "\nstop 0",
        3,
        "start-from, start-to, deliver, abort, lose, collect, issue, load, bytes",
    ),
    ("no class", OPEN + "issue 500", 2, 'found "500" for CLASS (person or shop)'),
    ("another class", OPEN + "issue firm 500", 2, 'expected issue CLASS BALANCE, found "firm"'),
    ("a class by its number", OPEN + "issue 1 500", 2, "(person or shop)"),
    ("a class in capitals", OPEN + "issue Shop 500", 2, "(person or shop)"),
    ("an issue without its balance", OPEN + "issue shop", 2, "ends early"),
    ("an issue at a place", OPEN + "issue person 2 500", 2, 'found "500"'),
    ("a first balance out of range", OPEN + "issue person 4294967296", 2, "0 to 4294967295"),
    ("a load without its amount", OPEN + "load 1", 2, "expected load PURSE AMOUNT"),
    ("a load with a word too many", OPEN + "load 1 amount 7", 2, "plain digits"),
    ("a load of a purse out of range", OPEN + "load 256 7", 2, "PURSE 256 is out of range"),
    ("a load out of range", OPEN + "load 1 4294967296", 2, "0 to 4294967295"),
    ("an event in capitals", OPEN + "Abort 0", 2, "expected one of"),
    ("another word", OPEN + "deliver 0 at 0", 2, "expected deliver PLACE to PURSE"),
    ("words left out", OPEN + "start-from 0 to 1 number 1", 2, "ends early"),
    ("two events on a line", OPEN + "abort 0 abort 1", 2, 'found "abort"'),
    ("two events in bytes on a line", OPEN + "bytes " + "00" * 24, 2, "24 bytes"),
    ("an event of 13 bytes", OPEN + "bytes " + "00" * 13, 2, "13 bytes"),
    ("an event cut short in the middle", OPEN + "bytes 00\nabort 0", 3, "line 2"),
    ("no bytes", OPEN + "bytes", 2, "hexadecimal"),
    ("half a byte", OPEN + "bytes 0", 2, "hexadecimal"),
    ("bytes that are none", OPEN + "bytes 0g", 2, "hexadecimal"),
    ("a zero byte", OPEN + "abort 0\x00", 2, "control character 00"),
    ("a control character in a comment", OPEN + "# \x1b[31m", 2, "control character 1b"),
    ("a carriage return inside a line", OPEN + "abort 0\rabort 1", 2, "control character 0d"),
    ("a form feed", OPEN + "abort\x0c0", 2, "control character 0c"),
    ("a line separator", OPEN + "abort 0\u2028abort 1", 2, "plain digits"),
    ("next line", OPEN + "abort 0\x85abort 1", 2, "control character 85"),
    ("a no-break space", OPEN + "abort\u00a00", 2, "is no event"),
    ("a byte order mark inside", OPEN + "\ufeffabort 0", 2, "is no event"),
    ("delete", OPEN + "abort 0\x7f", 2, "control character 7f"),
]

passed, failed = 0, 0


def hold(name, *facts):
    global passed, failed
    wrong = [said for holds, said in facts if not holds]
    if wrong:
        failed += 1
        print(f"FAILED {name}: {'; '.join(str(said)[:400] for said in wrong)}")
    else:
        passed += 1


def read(data):
    """A text's input for the bench program, and the message where it is refused."""
    try:
        return reader.parsed(reader.decoded(data), "text").data, None
    except Failure as failure:
        return None, failure.says


def grammar():
    for name, text, want in ALLOWED:
        got, said = read(text.encode())
        hold(
            f"allowed: {name}",
            (said is None, said),
            (got == plain.text_bytes(want), got and got.hex()),
        )
    for name, text, line, says in REFUSED:
        got, said = read(text.encode())
        hold(
            f"refused: {name}",
            (got is None, "it was read"),
            (str(said).startswith(f"{line}: "), said),
            (says in str(said), said),
            ("\n" not in str(said), said),
        )
    for text in [b"\xff\xfe" + OPEN.encode("utf-16-le"), OPEN.encode() + b"# \xe9\n"]:
        got, said = read(text)
        hold("refused: not UTF-8", (got is None, "it was read"), ("UTF-8" in str(said), said))
    for path in sorted(EXAMPLES.glob("*.txt")):
        hold(
            f"{path.name} as ever",
            (reader.read(str(path)).data == plain.text_bytes(path.read_text()), "other bytes"),
        )


def files(room):
    """What ./prs says of a text that it cannot take: the file, the line, one line."""
    (room / "bad.txt").write_text(OPEN + "# fine\nabort 300\nabort x\n")
    (room / "folder.txt").mkdir()
    (room / "secret.txt").write_text(OPEN)
    (room / "<b>&.txt").write_text(OPEN + "abort\n")
    (room / os.fsdecode(b"\xff\x1b.txt")).write_text(OPEN + "abort\n")
    cases = [
        ("bad.txt", "bad.txt:3: PURSE 300 is out of range: 0 to 255"),
        ("missing.txt", "missing.txt cannot be read: No such file or directory"),
        ("folder.txt", "folder.txt cannot be read: Is a directory"),
        ("<b>&.txt", "<b>&.txt:2: expected abort PURSE, and the line ends early"),
        (
            os.fsdecode(b"\xff\x1b.txt"),
            "?\\x1b.txt:2: expected abort PURSE, and the line ends early",
        ),
        ("x" * 5000, "cannot be read: File name too long"),
    ]
    for command in ["list", "tell", "chart", "page"]:
        for name, says in cases:
            ran = subprocess.run(
                [ROOT / "prs", command, name],
                cwd=room,
                capture_output=True,
                stdin=subprocess.DEVNULL,
                timeout=60,
            )
            said = ran.stderr.decode("utf-8", "replace")
            hold(
                f"{command} {name[:40]!r}",
                (
                    said.startswith("prs: ")
                    and said.endswith(says + "\n")
                    and said.count("\n") == 1,
                    said,
                ),
                (ran.returncode in (1, 2), f"status {ran.returncode}"),
                (not ran.stdout, "something was written"),
            )
    text = (EXAMPLES / "undisturbed.txt").read_bytes()
    ran = subprocess.run([ROOT / "prs", "list", "-"], input=text, capture_output=True, timeout=60)
    hold(
        "a text from standard input",
        (ran.stdout == (EXAMPLES / "undisturbed.out").read_bytes(), ran.stdout),
        (ran.returncode == 0, ran.stderr),
    )
    ran = subprocess.run(
        [ROOT / "prs", "list", "-"],
        stdin=os.open("/", os.O_RDONLY),
        capture_output=True,
        timeout=60,
    )
    hold(
        "a text from a directory",
        (
            ran.stderr == b"prs: standard input cannot be read: Is a directory\n"
            and ran.returncode == 1,
            ran.stderr,
        ),
    )
    ran = subprocess.run(
        ["sh", "-c", '"$0" list - <&-', ROOT / "prs"], capture_output=True, timeout=60
    )
    hold(
        "a text from a closed input",
        (ran.stderr == b"prs: standard input is closed\n" and ran.returncode == 1, ran.stderr),
    )


# ---- Random texts

TOKENS = "open start-from start-to deliver abort lose collect issue load bytes person shop to from number amount # 0 1 2 3 300 1000 255 256 4294967295 4294967296 -1 ff 0x ② 00 é".split()
ODD = [
    b"\r",
    b"\n",
    b"\r\n",
    b"\t",
    b"\x00",
    b"\xef\xbb\xbf",
    b"\xff",
    b"\xc2\x85",
    b"\xe2\x80\xa8",
    b"\x1b",
    b"#",
    b" ",
    b"9" * 5000,
    b"\xf0\x9f\x92\xb3",
]
FORMS = [
    "start-from {} to {} number {} amount {}",
    "start-to {} from {} number {} amount {}",
    "deliver {} to {}",
    "abort {}",
    "lose {}",
    "collect {}",
    "issue person {}",
    "issue shop {}",
    "load {} {}",
]


def right_text(rng):
    """A text of the grammar, most often."""
    lines = [
        "open "
        + " ".join(
            str(rng.choice([0, 1000, 5000000, 5000001, 7]))
            for _ in range(rng.choice([1, 2, 2, 3, 32, 33]))
        )
    ]
    for _ in range(rng.randrange(12)):
        form = rng.choice(FORMS)
        lines.append(
            form.format(
                *[
                    rng.choice([0, 0, 1, 1, 2, 3, 300, 256])
                    if rng.random() < 0.1
                    else rng.randrange(3)
                    for _ in range(form.count("{}"))
                ]
            )
        )
        if rng.random() < 0.1:
            lines.append("bytes " + rng.randbytes(12).hex())
    if rng.random() < 0.1:
        lines.append("bytes " + rng.randbytes(rng.randint(1, 11)).hex())
    return "\n".join(lines).encode()


def random_text(rng, examples):
    kind = rng.random()
    if kind < 0.25:
        return rng.randbytes(rng.randrange(200))
    if kind < 0.45:
        lines = [" ".join(rng.choices(TOKENS, k=rng.randrange(9))) for _ in range(rng.randrange(8))]
        return ("open 1 2\n" * (rng.random() < 0.7) + "\n".join(lines)).encode()
    text = bytearray(right_text(rng) if kind < 0.8 else rng.choice(examples))
    for _ in range(rng.choice([0, 1, 1, 3])):
        place = rng.randrange(len(text) + 1)
        if rng.random() < 0.5:
            text[place : place + rng.randrange(3)] = rng.choice(ODD)
        elif text:
            text[place % len(text)] = rng.randrange(256)
    return bytes(text)


def fuzz(seed, count, runs):
    """Whether every text ends in a message or a run; those that are read are read as the tests'
    reader reads them."""
    rng = random.Random(seed)
    examples = [path.read_bytes()[:2000] for path in sorted(EXAMPLES.glob("*.txt"))]
    taken, refused, run, done_kinds = 0, 0, 0, set()
    for place in range(count):
        data = random_text(rng, examples)
        try:
            text = reader.parsed(reader.decoded(data), "text")
        except Failure as failure:
            refused += 1
            line = failure.says.split(":")[0]
            if (
                not line.isdigit()
                or "\n" in failure.says
                or not 1 <= int(line) <= data.count(b"\n") + 1
            ):
                hold(
                    f"seed {seed}, text {place}",
                    (False, f"a message without its line: {failure.says!r}"),
                )
            continue
        except Exception:
            hold(f"seed {seed}, text {place}", (False, f"{data[:200]!r}: {traceback.format_exc()}"))
            continue
        taken += 1
        if text.data != plain.text_bytes(data.decode("utf-8-sig")):
            hold(f"seed {seed}, text {place}", (False, f"{data[:200]!r} is read as other bytes"))
        if run < runs and rng.random() < 0.2:
            run += 1
            try:
                done = Run(text)
                telling.told(done), chart.drawn(done), page.page([done])
                done_kinds |= {step.event.kind.word for step in done.steps if step.done}
            except Exception:
                hold(
                    f"seed {seed}, text {place}",
                    (False, f"{data[:200]!r}: {traceback.format_exc()}"),
                )
    hold(
        f"{count} random texts",
        (taken > count // 10, f"only {taken} were read"),
        (refused > count // 10, f"only {refused} were refused"),
        (run == runs, f"{run} run"),
        ({"issue", "load"} <= done_kinds or runs < 100, f"done were only {done_kinds}"),
    )
    return rng, examples


def fuzz_commands(rng, examples, room, count):
    """The same through ./prs: a listing or one line, whatever the bytes."""
    for place in range(count):
        path = room / f"random{place}.txt"
        path.write_bytes(random_text(rng, examples))
        command = rng.choice(["list", "tell", "chart", "page"])
        ran = subprocess.run(
            [ROOT / "prs", command, path], capture_output=True, stdin=subprocess.DEVNULL, timeout=60
        )
        fine = ran.returncode == 0 and ran.stdout and not ran.stderr
        told = (
            ran.returncode in (1, 2)
            and not ran.stdout
            and ran.stderr.startswith(b"prs: ")
            and ran.stderr.count(b"\n") == 1
        )
        hold(f"{command} of random text {place}", (fine or told, ran.stderr))


def main():
    options = argparse.ArgumentParser(description=__doc__.splitlines()[0])
    options.add_argument("--seed", type=int, default=1)
    options.add_argument("--texts", type=int, default=10_000)
    asked = options.parse_args()
    grammar()
    with tempfile.TemporaryDirectory() as room:
        files(Path(room))
        rng, examples = fuzz(asked.seed, asked.texts, min(asked.texts // 50, 200))
        fuzz_commands(rng, examples, Path(room), 60)
    finish(passed, failed)


if __name__ == "__main__":
    main()
