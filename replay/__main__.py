"""The commands of ./prs over words: list, tell, chart, page. Whatever ends one early is one line
on standard error and a status above 0."""

import argparse
import os
import select
import sys

from . import chart, page, programs, telling, words
from .answers import DONE
from .failure import FAILED, WRONG, Failure, reason
from .run import Run


def write(text):
    """All of a text on standard output; an output that is merely not ready is waited for."""
    data = text.encode("utf-8", "replace")
    while data:
        try:
            data = data[os.write(1, data) :]
        except BlockingIOError:
            select.select([], [1], [])
        except OSError as error:
            raise Failure(f"standard output cannot be written: {reason(error)}") from None


def listed(asked):
    write(programs.listing(words.read(asked.text).data))


def told(asked):
    run = Run(words.read(asked.text))
    write(telling.told(run))
    if run.opening in DONE and not telling.demand(run)[1]:
        raise Failure(f"{run.text.name}: the check of demand 3 does not come out")


def drawn(asked):
    run = Run(words.read(asked.text))
    choice = chart.chosen(run, asked.purses, asked.events) if run.opening in DONE else None
    write(chart.drawn(run, choice))


def paged(asked):
    write(page.page([Run(text) for text in [words.read(path) for path in asked.texts]]))


class Commands(argparse.ArgumentParser):
    def error(self, message):
        raise Failure(f"{message} (./prs --help)", WRONG)


def commands():
    every = Commands(prog="./prs", add_help=False, allow_abbrev=False)
    kinds = every.add_subparsers(dest="command", required=True, parser_class=Commands)
    for name, does in [("list", listed), ("tell", told), ("chart", drawn), ("page", paged)]:
        command = kinds.add_parser(name, add_help=False, allow_abbrev=False)
        command.set_defaults(does=does)
        if name == "page":
            command.add_argument("texts", nargs="+", metavar="FILE.txt")
        else:
            command.add_argument("text", metavar="FILE.txt")
        if name == "chart":
            command.add_argument("--purses")
            command.add_argument("--events")
    return every


def main():
    try:
        asked = commands().parse_args()
        asked.does(asked)
    except Failure as failure:
        status = failure.status
        says = failure.says
    except KeyboardInterrupt:
        status, says = 130, "stopped"
    except (MemoryError, RecursionError):
        status, says = FAILED, "the text is too large for this machine"
    else:
        return 0
    try:
        os.write(2, f"prs: {says}\n".encode("utf-8", "replace"))
    except OSError:
        pass
    return status


if __name__ == "__main__":
    sys.exit(main())
