"""What the documents' numbers mean: answers, statuses and classes of a purse, kinds of messages. A
later answer is one line more."""

ANSWERS = {
    0: "done",
    1: "done, and the message it sent was lost",
    2: "the table is not well formed",
    3: "malformed: not 12 bytes, a bad kind, or an unused field that is not 0",
    4: "no such purse",
    5: "no message at that place",
    6: "the counterparty is not in the table, or is the purse itself",
    7: "the amount is 0 or above 5,000,000",
    8: "the purse is busy",
    9: "the purse's next number is the last one, 4,294,967,295",
    10: "8 entries stand in the log: no room for another",
    11: "the amount is above the balance",
    12: "the balance with the amount would be above 5,000,000",
    13: "not the message that the purse expects",
    14: "the log is empty",
    15: "the archive is full",
    20: "not 1 to 32 purses",
    21: "a first balance above 5,000,000",
    22: "the class is not known to this bench, which has persons only",
    24: "32 purses stand already: no place for another",
}

DONE = (0, 1)
SENT_LOST = 1

IDLE, EPR, EPV, EPA = 0, 1, 2, 3
STATUSES = {IDLE: "idle", EPR: "epr", EPV: "epv", EPA: "epa"}
WAITS = {EPR: "waits for the request", EPV: "waits for the value", EPA: "waits for the acknowledge"}

CLASSES = {0: "person", 1: "shop"}

REQUEST, VALUE, ACKNOWLEDGE = 1, 2, 3
MESSAGES = {REQUEST: "request", VALUE: "value", ACKNOWLEDGE: "acknowledge"}


def meaning(answer):
    return ANSWERS.get(answer, "an answer that this program does not know")


def status_name(status):
    return STATUSES.get(status, f"status {status}")


def class_name(number):
    return CLASSES.get(number, f"holder of class {number}")


def message_name(kind):
    return MESSAGES.get(kind, f"message of kind {kind}")


def counted(number, what):
    """So many of a thing."""
    plural = what[:-1] + "ies" if what.endswith("y") else what + "s"
    return f"{number} {what if number == 1 else plural}"
