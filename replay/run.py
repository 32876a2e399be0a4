"""A text run through the proved programs: its listing, and each event with its answer and the
states before and after it. Everything that is told or drawn is read off these states; nothing
here knows what an event does."""

from functools import cached_property

from .answers import ACKNOWLEDGE, DONE, REQUEST, SENT_LOST, VALUE
from .events import BY_WORD, SLOTS, packed
from .failure import Failure
from .programs import Probe, listing
from .state import Message
from .transfers import owed, transfers
from .words import Event

# What a delivered message makes the purse send, to name a message that was lost as it was sent; a
# start-to sends a request.
SENDS = {REQUEST: VALUE, VALUE: ACKNOWLEDGE}


class Step:
    """One event of a run."""

    def __init__(self, place, event, answer, before, after):
        self.place, self.event, self.answer = place, event, answer
        self.before, self.after = before, after

    @property
    def done(self):
        return self.answer in DONE

    def said(self, slot):
        """The number that the event says in a slot of its words; None where they have no such
        slot."""
        kind = self.event.kind
        return self.event.fields[SLOTS[slot].field] if kind and slot in kind.slots else None

    @property
    def issues(self):
        return len(self.after.purses) > len(self.before.purses)

    @cached_property
    def purse(self):
        """The purse that the event is for, an issued one too; None where it names none of the
        table."""
        if self.issues:
            return len(self.before.purses)
        name = self.said("PURSE")
        return name if name is not None and name < len(self.before.purses) else None

    @cached_property
    def message(self):
        """The message delivered or lost."""
        place = self.said("PLACE")
        if place is not None and place < len(self.before.messages):
            return self.before.messages[place]
        return None

    @property
    def from_outside(self):
        """How money came in from outside, if it did: ISSUED or LOADED. How much did is the event's
        own amount, never what the balance changed by, which demand 3 holds to it."""
        return self.event.kind.brings if self.done and self.event.kind else ""

    @cached_property
    def sent(self):
        """The message that the step sent, lost at once where the answer is 1."""
        if len(self.after.messages) > len(self.before.messages):
            return self.after.messages[-1]
        if self.answer == SENT_LOST:
            return Message(SENDS[self.message.kind] if self.message else REQUEST, self.details)
        return None

    @cached_property
    def details(self):
        """The payment that the event is about, where it is about one."""
        if self.message:
            return self.message.details
        if self.purse is None or self.issues:
            return None
        before, after = self.before.purses[self.purse], self.after.purses[self.purse]
        if len(self.after.archive) > len(self.before.archive):
            return self.after.archive[-1].details
        if after.status and not before.status:
            return after.details
        return before.details if before.status else None

    @cached_property
    def moved(self):
        """What each purse's balance changed by, where it changed."""
        changes = {}
        for name, purse in enumerate(self.after.purses):
            was = self.before.purses[name].balance if name < len(self.before.purses) else 0
            if purse.balance != was:
                changes[name] = purse.balance - was
        return changes

    @cached_property
    def concerns(self):
        """The purses whose balances are told: the event's own first, then its counterparty."""
        names = [self.purse]
        names += (
            [self.details.payer, self.details.payee]
            if self.details
            else [self.said("COUNTERPARTY")]
        )
        names += self.moved
        return [
            name
            for name in dict.fromkeys(names)
            if name is not None and name < len(self.after.purses)
        ]


class Run:
    """A text, its listing and its steps; no steps where the opening was refused."""

    def __init__(self, text):
        self.text = text
        self.listing = listing(text.data)
        self.steps, self.stops = [], []
        with Probe() as probe:
            self.opening, self.opened = probe.opening(text.balances)
            if self.opening not in DONE:
                self.hold()
                return
            now = self.opened
            for place, event in enumerate(text.events, 1):
                answer, after = probe.event(event.data)
                self.steps.append(Step(place, event, answer, now, after))
                now = after
            self.stops = list(self.stopping(probe, now))
        self.hold()

    def stopping(self, probe, now):
        """Each busy purse stopped, after the run: demand 3 speaks of a bench whose purses are
        all stopped."""
        abort = BY_WORD["abort"]
        for name, purse in enumerate(now.purses):
            if purse.status:
                fields = {"purse": name}
                answer, after = probe.event(packed(abort, fields))
                yield Step(
                    len(self.steps) + 1,
                    Event(0, f"abort {name}", packed(abort, fields), abort, fields),
                    answer,
                    now,
                    after,
                )
                now = after

    @property
    def end(self):
        return self.steps[-1].after if self.steps else self.opened

    def state_after(self, place):
        return self.steps[place - 1].after if place else self.opened

    def lines(self):
        """The listing as the probe's answers and states have it, and the entries in them."""
        yield "PRS 1"
        if self.opening not in DONE:
            yield f"opening {self.opening}"
            return
        for step in self.steps:
            yield f"{step.place} {step.answer}"
        for name, p in enumerate(self.end.purses):
            yield f"purse {name} {p.balance} {p.next} {p.status} {len(p.log)}"
        claims = sum(owed(transfers(self.steps, self.end)).values())
        messages, entries = len(self.end.messages), len(self.end.archive)
        yield f"messages {messages} archive {entries} claims {claims}"

    def hold(self):
        """The two programs must say the same, or nothing of the run is shown."""
        if self.listing.splitlines() != list(self.lines()):
            raise Failure(
                f"{self.text.name}: the bench program and the probe do not agree;"
                " rm -r crates/*/out builds both anew"
            )

    @cached_property
    def claims(self):
        return int(self.listing.split()[-1])
