"""The proved programs, run: the bench program for a listing, the probe for states. A program
that fails is told, never guessed around."""

import os
import pathlib
import struct
import subprocess

from .failure import Failure, reason
from .state import STATE_SIZE, state

ROOT = pathlib.Path(__file__).resolve().parent.parent


def built(name):
    """Where rt leaves a program."""
    return f"crates/{name}/out/{name}"


def command(name):
    """The words that start a program; on another processor than the program's, ./prs names the
    kit's emulator."""
    program = str(ROOT / built(name))
    tools = os.environ.get("PRS_TOOLS")
    if tools:
        return [
            f"{tools}/bin/qemu-x86_64",
            f"{tools}/lib/ld-linux-x86-64.so.2",
            "--library-path",
            f"{tools}/lib",
            program,
        ]
    return [program]


def no_program(name, error):
    return Failure(f"{built(name)} cannot be run: {reason(error)}")


def listing(data):
    """What the bench program lists for an input."""
    try:
        ran = subprocess.run(command("prs"), input=data, capture_output=True)
    except OSError as error:
        raise no_program("prs", error) from None
    if ran.stderr or ran.returncode:
        said = ran.stderr.decode("utf-8", "replace").strip().splitlines()
        raise Failure(
            said[0].removeprefix("prs: ")
            if said
            else f"the bench program ended with status {ran.returncode}"
        )
    return ran.stdout.decode("ascii", "replace")


class Probe:
    """The probe, asked for an opening and then for events, each on the state that the last reply
    left; a reply is an answer and the state after it. The bytes of a state are kept only until
    the next."""

    def __enter__(self):
        try:
            self.program = subprocess.Popen(
                command("probe"), stdin=subprocess.PIPE, stdout=subprocess.PIPE, bufsize=0
            )
        except OSError as error:
            raise no_program("probe", error) from None
        return self

    def __exit__(self, *_):
        for pipe in (self.program.stdin, self.program.stdout):
            try:
                pipe.close()
            except OSError:
                pass
        self.program.wait()

    def ask(self, request):
        reply = b""
        try:
            while request:
                request = request[self.program.stdin.write(request) :]
            while len(reply) < 1 + STATE_SIZE:
                more = self.program.stdout.read(1 + STATE_SIZE - len(reply))
                if not more:
                    break
                reply += more
        except OSError:
            pass
        if len(reply) < 1 + STATE_SIZE:
            raise Failure("the probe ended before its reply")
        self.now = reply[1:]
        return reply[0], state(self.now)

    def opening(self, balances):
        return self.ask(
            b"O" + bytes(STATE_SIZE) + struct.pack(f">B{len(balances)}I", len(balances), *balances)
        )

    def event(self, data):
        return self.ask(b"E" + self.now + bytes([len(data)]) + data)
