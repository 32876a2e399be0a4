"""What the test scripts share: where things stand, and the words of the examples as bytes."""

import sys
from pathlib import Path

import words

ROOT = Path(__file__).resolve().parent.parent
VECTORS = ROOT / "tests" / "vectors"
EXAMPLES = ROOT / "examples"
PRS = ROOT / "crates" / "prs" / "out" / "prs"
PROBE = ROOT / "crates" / "probe" / "out" / "probe"


def finish(passed, failed):
    """The last line of every test script, and its exit status."""
    print(f"{passed} passed, {failed} failed")
    sys.exit(1 if failed else 0)
