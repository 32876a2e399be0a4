"""What ends a command: one line on standard error and an exit status."""

WRONG = 2  # the command or its text is not as it should be
FAILED = 1  # something could not be read, written or run


class Failure(Exception):
    def __init__(self, says, status=FAILED):
        super().__init__(says)
        self.says = says
        self.status = status


def shown(text):
    """A name or a word of the user's as one line can show it: nothing that a terminal obeys,
    nothing long."""
    text = text.encode("utf-8", "replace").decode("utf-8")
    plain = "".join(c if c.isprintable() else "\\x%02x" % ord(c) for c in text)
    return plain if len(plain) <= 60 else plain[:57] + "..."


def reason(error):
    """Why the system refused, in its words."""
    return error.strerror or type(error).__name__
