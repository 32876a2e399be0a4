#!/usr/bin/env python3
"""What users meet at ./prs: nothing fails silently. Inputs that cannot be read, outputs that cannot
be written, programs that are older than their sources, arguments that mean nothing: each must end
in one line on standard error, a status above 0, and no listing that looks whole. Purses that are
issued and loaded in bytes are listed as document 02 has it.

The checkouts in which programs are built are toys: a copy of ./prs beside two crates, and an rt
that writes down that it was called, says what rt says, and proves nothing. Last line 'N passed, M failed'; the exit status is 1 on
any failure.
"""

import fcntl
import os
import pty
import resource
import shutil
import signal
import subprocess
import tempfile
import threading
import time
import tty
from pathlib import Path

from common import PRS, ROOT, finish

SCRIPT = ROOT / "prs"
WORKED = (ROOT / "crates/prs/stdin").read_bytes()
LISTED = (ROOT / "crates/prs/stdout").read_bytes()
# 20,000 aborts: a listing of some hundred thousand bytes, more than a pipe holds
LONG = bytes.fromhex("02 000003e8 000000c8") + bytes.fromhex("040000000000000000000000") * 20_000
PATIENCE = 60

passed, failed = 0, 0


def hold(name, *facts):
    """Counts a case; each fact is (whether it holds, what is said where it does not)."""
    global passed, failed
    wrong = [said for holds, said in facts if not holds]
    if wrong:
        failed += 1
        print(f"FAILED {name}: {'; '.join(map(str, wrong))}")
    else:
        passed += 1


def run(command, **options):
    options = {
        "stdin": subprocess.DEVNULL,
        "stdout": subprocess.PIPE,
        "stderr": subprocess.PIPE,
        "timeout": PATIENCE,
        **options,
    }
    if "input" in options:
        del options["stdin"]
    return subprocess.run([str(word) for word in command], **options)


def looks_whole(listing):
    last = (listing or b"").rstrip(b"\n").split(b"\n")[-1]
    return last.startswith((b"messages ", b"opening "))


def one_line(said):
    return said.count(b"\n") == 1 and said.startswith(b"prs: ") and len(said) > 10


def loud(name, ran, says=b"", status=None):
    """One line, a status above 0, no listing that looks whole."""
    hold(
        name,
        (one_line(ran.stderr), f"said {ran.stderr[:300]!r}"),
        (says in ran.stderr, f"{says!r} is not in {ran.stderr[:300]!r}"),
        (
            ran.returncode == status if status else 0 < ran.returncode < 126,
            f"status {ran.returncode}",
        ),
        (not looks_whole(ran.stdout), f"listed {ran.stdout[-60:] if ran.stdout else b''!r}"),
    )


# ---- Inputs and outputs that fail


def from_terminal(data):
    """A descriptor that gives the data and then fails: a terminal's other side, whose user has
    hung up."""
    ours, theirs = pty.openpty()
    tty.setraw(theirs)
    os.write(theirs, data)
    os.close(theirs)
    return ours


def inputs():
    for command, name in [(SCRIPT, "./prs"), (PRS, "the program")]:
        folder = os.open("/", os.O_RDONLY)
        loud(f"{name}: a directory as input", run([command], stdin=folder), b"directory")
        os.close(folder)
        loud(f"{name}: a closed input", run(["sh", "-c", '"$0" <&-', command]), b"")
        written = os.open(os.devnull, os.O_WRONLY)
        loud(
            f"{name}: an input that is open for writing alone", run([command], stdin=written), b""
        )
        os.close(written)
        for length, what in [
            (0, "at once"),
            (1, "in the opening"),
            (9, "after the opening"),
            (9 + 36, "after three events"),
            (9 + 40, "inside an event"),
        ]:
            try:
                broken = from_terminal(WORKED[:length])
            except OSError as error:
                print(
                    f"shell: no terminal to be had ({error}): an input that fails {what} is skipped"
                )
                continue
            ran = run([command], stdin=broken)
            loud(f"{name}: an input that fails {what}", ran, b"Input/output error")
            os.close(broken)
    # what is merely not ready is waited for
    ours, theirs = os.pipe()
    fcntl.fcntl(ours, fcntl.F_SETFL, os.O_NONBLOCK)
    with subprocess.Popen(
        [SCRIPT], stdin=ours, stdout=subprocess.PIPE, stderr=subprocess.PIPE
    ) as program:
        os.close(ours)
        for start in range(0, len(WORKED), 7):
            os.write(theirs, WORKED[start : start + 7])
            time.sleep(0.01)
        os.close(theirs)
        out, said = program.communicate(timeout=PATIENCE)
        hold(
            "an input that is not ready yet",
            (out == LISTED, f"listed {out[-60:]!r}"),
            (not said, said),
            (program.returncode == 0, program.returncode),
        )


def slow_reader(command, data, **options):
    """Standard output as a pipe that does not wait, read only after a while."""
    ours, theirs = os.pipe()
    fcntl.fcntl(theirs, fcntl.F_SETFL, os.O_NONBLOCK)
    with subprocess.Popen(
        [str(word) for word in command],
        stdin=subprocess.PIPE,
        stdout=theirs,
        stderr=subprocess.PIPE,
        **options,
    ) as program:
        os.close(theirs)
        feeding = threading.Thread(
            target=lambda: (program.stdin.write(data), program.stdin.close())
        )
        feeding.start()
        time.sleep(0.3)
        got = b""
        while piece := os.read(ours, 4096):
            got += piece
        feeding.join()
        said = program.stderr.read()
        os.close(ours)
        return got, said, program.wait(PATIENCE)


def small_files():
    """For a child: files grow to 2,000 bytes, and a write past that fails instead of ending the
    program."""
    signal.signal(signal.SIGXFSZ, signal.SIG_IGN)
    resource.setrlimit(resource.RLIMIT_FSIZE, (2000, 2000))


def outputs():
    for command, name in [(SCRIPT, "./prs"), (PRS, "the program")]:
        for data, what in [
            (WORKED, "a short listing"),
            (LONG, "a long listing"),
            (b"", "a refused opening"),
        ]:
            with open("/dev/full", "wb") as full:
                loud(
                    f"{name}: {what} on a full device",
                    run([command], input=data, stdout=full),
                    b"space",
                )
            loud(
                f"{name}: {what} on a closed output",
                run(["sh", "-c", '"$0" >&-', command], input=data),
                b"",
            )
            ours, theirs = os.pipe()
            os.close(ours)
            ran = run(
                [command],
                input=data,
                stdout=theirs,
                preexec_fn=lambda: signal.signal(signal.SIGPIPE, signal.SIG_IGN),
            )
            loud(f"{name}: {what} on a closed pipe, the signal ignored", ran, b"")
            ran = run([command], input=data, stdout=theirs)
            says = b"its reader has gone" if command == SCRIPT else b"Broken pipe"
            loud(f"{name}: {what} on a closed pipe", ran, says)
            os.close(theirs)
    whole = run([PRS], input=LONG).stdout
    with tempfile.TemporaryFile() as small:
        ran = run([SCRIPT], input=LONG, stdout=small, preexec_fn=small_files)
        small.seek(0)
        got = small.read()
        loud("a file that may not grow", ran, b"File too large")
        hold(
            "a file that may not grow has the listing's start",
            (got == whole[: len(got)] and len(got) == 2000, f"{len(got)} bytes"),
        )
    got, said, status = slow_reader([SCRIPT], LONG)
    hold(
        "an output that does not wait loses nothing",
        (got == whole and looks_whole(whole), f"{len(got)} of {len(whole)} bytes"),
        (not said, said),
        (status == 0, f"status {status}"),
    )
    reader = subprocess.run(
        f"'{SCRIPT}' | head -n 1", shell=True, input=LONG, capture_output=True, timeout=PATIENCE
    )
    hold(
        "a reader that leaves",
        (reader.stdout == b"PRS 1\n", reader.stdout),
        (one_line(reader.stderr), reader.stderr),
    )
    ran = run([SCRIPT], input=WORKED)
    hold(
        "the worked listing",
        (ran.stdout == LISTED, ran.stdout),
        (not ran.stderr, ran.stderr),
        (ran.returncode == 0, ran.returncode),
    )


# ---- Purses that are issued and loaded

# an opening with 1000; then events with the answers that document 02 gives them
ISSUED = [
    ("07000000 00000000 000001f4", 0),  # purse 1, with 500
    ("08010000 00000000 00000007", 0),
    ("07000200 00000000 ffffffff", 22),  # a class that no bench knows, before the balance
    ("07000000 00000000 004c4b41", 21),  # 5,000,001
    ("07010000 00000000 00000001", 3),  # an issue names no purse
    ("07000000 00000001 00000001", 3),  # and has no number
    ("08000100 00000000 00000001", 3),  # a load has no counterparty
    ("08000000 00000001 00000001", 3),  # and no number
    ("08020000 00000000 00000000", 4),
    ("08000000 00000000 00000000", 7),
    ("08000000 00000000 004c4b41", 7),
    ("01000100 00000001 0000000a", 0),  # purse 0 is to pay
    ("08000000 00000000 00000001", 8),
    ("08010000 00000000 004c4946", 12),  # 4,999,494: one above what purse 1 has room for
    ("08010000 00000000 004c4945", 0),
    ("07000000 00000000 00000000", 0),  # purse 2, with nothing
    ("00000000 00000000 00000000", 3),  # kinds that are none
    ("09000000 00000000 00000000", 3),
    ("ff000000 00000000 00000000", 3),
]
ISSUED_END = b"""purse 0 1000 2 1 0
purse 1 5000000 1 0 0
purse 2 0 1 0 0
messages 0 archive 0 claims 0
"""


def issued():
    data = bytes.fromhex("01 000003e8" + "".join(event for event, _ in ISSUED))
    lines = "".join(f"{place} {answer}\n" for place, (_, answer) in enumerate(ISSUED, 1))
    ran = run([SCRIPT], input=data)
    hold(
        "purses issued and loaded",
        (ran.stdout == b"PRS 1\n" + lines.encode() + ISSUED_END, ran.stdout),
        (ran.returncode == 0 and not ran.stderr, ran.stderr),
    )
    full = bytes([32]) + bytes(4 * 32)
    for event, answer in [
        ("07000900 00000000 ffffffff", 24),  # before the class and the balance
        ("07000000 00000001 00000000", 3),
    ]:
        ran = run([SCRIPT], input=full + bytes.fromhex(event))
        hold(
            f"32 purses, answer {answer}",
            (ran.stdout.startswith(b"PRS 1\n1 %d\npurse 0 0 1 0 0\n" % answer), ran.stdout[:60]),
            (ran.stdout.count(b"purse ") == 32, ran.stdout[-60:]),
        )
    words = "open 1000\n" + "".join(f"bytes {event}\n" for event, _ in ISSUED)
    ran = run([SCRIPT, "list", "-"], input=words.encode())
    hold(
        "purses issued and loaded, as words",
        (ran.stdout == run([SCRIPT], input=data).stdout, ran.stdout),
        (ran.returncode == 0 and not ran.stderr, ran.stderr),
    )


# ---- Arguments


def arguments():
    cases = [
        (["README.md"], b"./prs list README.md"),
        (["crates/prs/stdin"], b"./prs <crates/prs/stdin"),
        (["--unknown"], b"--unknown"),
        (["-x"], b"-x"),
        (["lists"], b"lists"),
        ([""], b"no command"),
        (["list"], b"FILE.txt"),
        (["list", "--purses", "0", "examples/undisturbed.txt"], b"--purses"),
        (["tell", "examples/undisturbed.txt", "more"], b"more"),
        (["page"], b"FILE.txt"),
        (["chart", "examples/undisturbed.txt", "--colour"], b"--colour"),
    ]
    for words, says in cases:
        loud(f"./prs {' '.join(words)}", run([SCRIPT, *words], cwd=ROOT, input=WORKED), says, 2)
    for words in [["--help"], ["-h"]]:
        ran = run([SCRIPT, *words])
        hold(
            f"./prs {words[0]}",
            (ran.returncode == 0, ran.returncode),
            (b"tell FILE.txt" in ran.stdout, ran.stdout),
            (b"7 issue" in ran.stdout and b"8 load" in ran.stdout, ran.stdout),
            (not ran.stderr, ran.stderr),
        )
    ran = run([SCRIPT, "--version"])
    hold(
        "./prs --version",
        (ran.stdout == b"PRS 1\n", ran.stdout),
        (ran.returncode == 0, ran.returncode),
    )
    with open("/dev/full", "wb") as full:
        hold(
            "--help on a full device",
            (run([SCRIPT, "--help"], stdout=full).returncode != 0, "status 0"),
        )


def links(room):
    """./prs by a link, a relative one, one to a link, from another folder."""
    (room / "far").symlink_to(SCRIPT)
    (room / "near").symlink_to("far")
    (room / "in").mkdir()
    (room / "in" / "up").symlink_to("../near")
    for name in ["far", "near", "in/up"]:
        ran = run([room / name], input=WORKED, cwd="/")
        hold(
            f"a link: {name}", (ran.stdout == LISTED, ran.stdout[:80]), (not ran.stderr, ran.stderr)
        )
        ran = run([room / name, "list", ROOT / "examples/undisturbed.txt"], cwd=room)
        hold(
            f"a link: {name} list",
            (looks_whole(ran.stdout), ran.stdout[:80]),
            (not ran.stderr, ran.stderr),
        )
    shutil.copy(SCRIPT, room / "alone")
    loud("a copy of ./prs alone", run([room / "alone"], input=WORKED), b"crates.txt", 2)
    # python takes nothing from the folder it is started in
    for name in ["argparse", "html", "select", "struct"]:
        (room / f"{name}.py").write_text("raise SystemExit('taken from here')\n")
    (room / "replay").mkdir()
    (room / "replay" / "__init__.py").write_text("raise SystemExit('taken from here')\n")
    ran = run([SCRIPT, "list", ROOT / "examples/undisturbed.txt"], cwd=room)
    hold(
        "files of the folder it is started in",
        (looks_whole(ran.stdout), ran.stdout[:80]),
        (ran.returncode == 0, ran.stderr),
    )


# ---- Programs that are older than their sources

BUILDS = """#!/bin/sh
# stands for rt run in a crate's folder: writes down that it was called, builds a program that says how often, and runs it
name=$(basename "$PWD")
echo "$* $name" >>"{room}/calls"
mkdir -p ../base/out/incremental out/incremental
[ ! -e "{room}/slow" ] || {{ touch "{room}/started"; mktemp >/dev/null; sleep 30; }}
[ ! -e "{room}/edit" ] || {{ sleep 0.05; rm "{room}/edit"; touch "{room}/it/crates/base/src/lib.rt"; sleep 0.05; }}
echo "rt: chose --jobs 2 for base" >&2
echo "rt: base: begins with what a check kept in ../elsewhere" >&2
echo "crate base: modules loaded=1 checked=2" >&2
if [ -e "{room}/refuse" ]; then
    echo "a line of the prover" >&2
    echo "logic=not-proved" >&2
    echo "rt: the library base did not build, so nothing above it was checked" >&2
    exit 1
fi
echo "logic=proved functions=1 sum=0" >&2
echo "crate $name: modules loaded=1 checked=2" >&2
echo "logic=proved functions=1 sum=0" >&2
printf '#!/bin/sh\\necho build %s\\n' "$(wc -l <"{room}/calls")" >"out/$name"
chmod +x "out/$name"
echo "rt: running out/$name; to give it other input, run that file yourself" >&2
"out/$name"
"""


class Toy:
    """A checkout of two crates, and two that nothing needs."""

    def __init__(self, room):
        self.room, self.it = room, room / "it"
        for name in ["base", "prs", "other", "door"]:
            (self.it / "crates" / name / "src").mkdir(parents=True)
            (self.it / "crates" / name / "must-fail").mkdir()
            (self.it / "crates" / name / "must-fail" / "wrong.edit").write_text("")
            (self.it / "crates" / name / "src" / "lib.rt").write_text("")
        (self.it / "crates/base/src/more.rt").write_text("")
        (self.it / "crates.txt").write_text(
            "# two crates\nbase:\nother: base\ndoor staticlib: base\nprs: base io  # io is the kit's\n"
        )
        shutil.copy(SCRIPT, self.it / "prs")
        (room / "bin").mkdir()
        (room / "bin" / "rt").write_text(BUILDS.format(room=room))
        (room / "bin" / "rt").chmod(0o755)
        (room / "KIT-ID").write_text("a kit\n")
        (room / "tmp").mkdir()
        room.chmod(0o755)
        self.path = f"{room / 'bin'}:{os.environ['PATH']}"

    def run(self, *words, **options):
        environment = {
            **os.environ,
            "PATH": self.path,
            "TMPDIR": str(self.room / "tmp"),
            **options.pop("env", {}),
        }
        return run([self.it / "prs", *words], env=environment, input=b"", **options)

    @property
    def calls(self):
        calls = self.room / "calls"
        return len(calls.read_text().splitlines()) if calls.exists() else 0

    def left(self):
        return [path.name for path in (self.room / "tmp").iterdir()]

    def outs(self):
        """The folders that a program's crates are built in."""
        return [self.it / "crates" / name / "out" for name in ["base", "prs"]]

    def forget(self):
        """Removes what was built."""
        for out in self.outs():
            shutil.rmtree(out, ignore_errors=True)


def later(path):
    """A file as if it had been changed just now, for certain after what was built."""
    time.sleep(0.02)
    os.utime(path)


def stale(room):
    toy = Toy(room)
    ran = toy.run()
    hold(
        "built on first use",
        (ran.stdout == b"build 1\n", ran.stdout),
        (toy.calls == 1, toy.calls),
        (ran.returncode == 0, ran.stderr),
        (
            ran.stderr.splitlines()
            == [
                b"prs: proving and building prs, which is missing or older than its sources",
                b"prs: base proved",
                b"prs: prs proved",
                b"prs: built",
            ],
            ran.stderr,
        ),
        (not toy.left(), toy.left()),
    )
    ran = toy.run()
    hold(
        "not built again",
        (ran.stdout == b"build 1\n", ran.stdout),
        (toy.calls == 1, toy.calls),
        (not ran.stderr, ran.stderr),
    )
    changes = [
        ("a source of its own", lambda: later(toy.it / "crates/prs/src/lib.rt"), True),
        ("a source of a crate it needs", lambda: later(toy.it / "crates/base/src/lib.rt"), True),
        ("crates.txt", lambda: later(toy.it / "crates.txt"), True),
        (
            "a source that went",
            lambda: (time.sleep(0.02), (toy.it / "crates/base/src/more.rt").unlink()),
            True,
        ),
        (
            "a source that came",
            lambda: (time.sleep(0.02), (toy.it / "crates/base/src/new.rt").write_text("")),
            True,
        ),
        ("a crate it does not need", lambda: later(toy.it / "crates/other/src/lib.rt"), False),
        (
            "an edit that must fail",
            lambda: later(toy.it / "crates/base/must-fail/wrong.edit"),
            False,
        ),
        (
            "what a check keeps",
            lambda: (time.sleep(0.02), (toy.it / "crates/base/out/incremental/kept").write_text("")),
            False,
        ),
        ("the kit", lambda: later(toy.room / "KIT-ID"), True),
        ("a program that went", lambda: (toy.it / "crates/prs/out/prs").unlink(), True),
        (
            "a program that went, and all that was built with it",
            lambda: (time.sleep(0.02), toy.forget()),
            True,
        ),
        ("a program that rt ci built anew", lambda: later(toy.it / "crates/prs/out/prs"), False),
    ]
    for what, change, again in changes:
        before = toy.calls
        change()
        ran = toy.run()
        want = before + again
        hold(
            f"after a change of {what}",
            (toy.calls == want, f"{toy.calls - before} builds"),
            (ran.stdout == f"build {want}\n".encode() or not again, ran.stdout),
        )
        toy.run()
        hold(
            f"once after a change of {what}", (toy.calls == want, f"{toy.calls - want} builds more")
        )
    (toy.room / "edit").touch()
    later(toy.it / "crates/prs/src/lib.rt")
    before = toy.calls
    toy.run()
    toy.run()
    hold(
        "a source that changed while it was built",
        (toy.calls == before + 2, f"{toy.calls - before} builds"),
    )
    refused_builds(toy)


def refused_builds(toy):
    later(toy.it / "crates/base/src/lib.rt")
    (toy.room / "refuse").touch()
    ran = toy.run()
    hold(
        "sources that are refused",
        (ran.returncode == 1, ran.returncode),
        (b"build" not in ran.stdout, f"the old program was run: {ran.stdout!r}"),
        (b"a line of the prover" in ran.stderr and b"not-proved" in ran.stderr, ran.stderr),
        (b"prs: the library base did not build" in ran.stderr, ran.stderr),
        (b"prs: prs could not be proved and built" in ran.stderr, ran.stderr),
        (b"base proved" not in ran.stderr, ran.stderr),
        (not toy.left(), toy.left()),
    )
    (toy.room / "refuse").unlink()
    without = os.pathsep.join(
        folder
        for folder in os.environ["PATH"].split(os.pathsep)
        if not os.path.exists(f"{folder}/rt")
    )
    if shutil.which("awk", path=without) and shutil.which("find", path=without):
        loud("out of date, and no rt", toy.run(env={"PATH": without}), b"rt is missing", 2)
        toy.forget()
        loud("never built, and no rt", toy.run(env={"PATH": without}), b"rt is missing", 2)
    else:
        print("no rt: skipped, it stands beside the system's own tools here")
    toy.forget()
    read_only(toy)
    interrupted(toy)
    no_python(toy)


def read_only(toy):
    """A checkout that cannot be written: for root too, by being another user."""
    nobody = {"user": 65534, "group": 65534, "extra_groups": []} if os.getuid() == 0 else {}
    folders = [toy.it, *(out.parent for out in toy.outs())]
    for folder in folders:
        folder.chmod(0o555)
    try:
        loud("never built, and not to be written", toy.run(**nobody), b"cannot be written", 2)
        for folder in folders:
            folder.chmod(0o755)
        toy.run()
        later(toy.it / "crates/base/src/lib.rt")
        folders = [*toy.outs(), *folders]
        for folder in folders:
            folder.chmod(0o555)
        loud("out of date, and not to be written", toy.run(**nobody), b"cannot be written", 2)
    except PermissionError:
        print(
            "shell: another user cannot reach a folder made here: a checkout that cannot be written is skipped"
        )
    finally:
        for folder in reversed(folders):
            folder.chmod(0o755)


def interrupted(toy):
    """Ctrl-C and other signals in a build: it ends soon, and leaves no temporary file, rt's own
    ones neither."""
    (toy.room / "slow").touch()
    for sign in [signal.SIGINT, signal.SIGTERM, signal.SIGHUP]:
        toy.forget()
        (toy.room / "started").unlink(missing_ok=True)
        environment = {**os.environ, "PATH": toy.path, "TMPDIR": str(toy.room / "tmp")}
        began = time.monotonic()
        program = subprocess.Popen(
            [toy.it / "prs"],
            stdin=subprocess.DEVNULL,
            stdout=subprocess.PIPE,
            stderr=subprocess.PIPE,
            env=environment,
            start_new_session=True,
            # a test that itself runs in the background may ignore the signal, and hand that on
            preexec_fn=lambda: signal.signal(sign, signal.SIG_DFL),
        )
        while not (toy.room / "started").exists() and time.monotonic() - began < PATIENCE:
            time.sleep(0.01)
        time.sleep(0.1)
        os.killpg(program.pid, sign)
        program.communicate(timeout=PATIENCE)
        took = time.monotonic() - began
        hold(
            f"{sign.name} in a build",
            (program.returncode != 0, "status 0"),
            (not toy.left(), f"left {toy.left()}"),
            (took < 20, f"{took:.0f} s"),
        )
    (toy.room / "slow").unlink()


def no_python(toy):
    """Without python3 bytes are listed all the same, and words get their one line."""
    tools = toy.room / "tools"
    tools.mkdir()
    for (
        tool
    ) in "awk basename cat chmod dirname find grep head mkdir mktemp readlink rm sed sh sleep tail tee touch tr uname wc".split():
        found = shutil.which(tool)
        if found:
            (tools / tool).symlink_to(found)
    (tools / "rt").symlink_to(toy.room / "bin" / "rt")
    ran = toy.run(env={"PATH": str(tools)})
    hold(
        "bytes without python3",
        (ran.stdout.startswith(b"build"), ran.stdout),
        (ran.returncode == 0, ran.stderr),
    )
    loud(
        "words without python3",
        toy.run("tell", "x.txt", env={"PATH": str(tools)}),
        b"python3 is missing",
        2,
    )


def main():
    with tempfile.TemporaryDirectory() as room:
        room = Path(room)
        room.chmod(0o755)
        for name in ["links", "stale"]:
            (room / name).mkdir()
        inputs()
        outputs()
        issued()
        arguments()
        links(room / "links")
        stale(room / "stale")
    finish(passed, failed)


if __name__ == "__main__":
    main()
