"""What became of each payment of a run: paid, arrived, logged, matched, owed; and the check of
demand 3. The documents' words:

A payment is paid at the delivery of its request that answers 0 or 1, and arrives at the delivery
of its value that answers 0 or 1. Matched: the payer and the payee have each logged the same
details, in the purse or in the archive. Claims, the figure printed as owed to payers, counts every
matched pair, wherever the two entries stand. Demand 3: once every purse is stopped, each has its
opening balance, less its payments that arrived, less what its matched log pairs record, plus
what arrived in it. The opening balance, and the opening sum, take in issue balances and loads so
far. So all balances and the claims then make up what the purses opened with, were issued with and
were loaded with.
"""

from typing import NamedTuple

from .answers import REQUEST, VALUE
from .events import ISSUED, LOADED
from .state import Details

CARD, ARCHIVE = "on its card", "in the archive"


class Place(NamedTuple):
    """Where an entry stands."""

    where: str
    place: int

    def __str__(self):
        return f"{self.where} (place {self.place})"

    @property
    def short(self):
        return f"{'card' if self.where == CARD else 'archive'} {self.place}"


class Transfer(NamedTuple):
    details: Details
    payer_entry: object  # a Place, or None where the payer logged nothing
    payee_entry: object
    paid: bool
    arrived: bool

    @property
    def matched(self):
        return self.payer_entry is not None and self.payee_entry is not None

    @property
    def on_cards(self):
        """The purses of a matched pair whose entry is still on the card."""
        sides = [(self.details.payer, self.payer_entry), (self.details.payee, self.payee_entry)]
        return [name for name, entry in sides if self.matched and entry.where == CARD]

    @property
    def broken(self):
        return self.payer_entry is not None or self.payee_entry is not None

    @property
    def on_no_card(self):
        """What was paid and has not arrived."""
        return self.details.amount if self.paid and not self.arrived else 0


def taken(steps, kind):
    """The payments whose message of that kind was taken."""
    return {
        step.details
        for step in steps
        if step.done and step.message and step.purse is not None and step.message.kind == kind
    }


def entries(state):
    """Each entry of a state: who logged it, its details, and where it stands."""
    for name, purse in enumerate(state.purses):
        for place, details in enumerate(purse.log):
            yield name, details, Place(CARD, place)
    for place, entry in enumerate(state.archive):
        yield entry.logger, entry.details, Place(ARCHIVE, place)


def transfers(steps, state):
    """Every payment that was paid or logged, in the order of its numbers, as it stands after
    those steps."""
    paid, arrived = taken(steps, REQUEST), taken(steps, VALUE)
    logged = {}
    for name, details, place in entries(state):
        logged[(name, details)] = place
    every = paid | arrived | {details for _, details in logged}
    return [
        Transfer(d, logged.get((d.payer, d)), logged.get((d.payee, d)), d in paid, d in arrived)
        for d in sorted(every, key=lambda d: (d.payer_number, d))
    ]


def owed(found):
    """What is owed to each payer: its matched pairs."""
    sums = {}
    for transfer in found:
        if transfer.matched:
            payer = transfer.details.payer
            sums[payer] = sums.get(payer, 0) + transfer.details.amount
    return dict(sorted(sums.items()))


def still_on_cards(found):
    """How much of what is owed has an entry still on a card, and on which cards, in words; None
    where every pair is archived."""
    pairs = [transfer for transfer in found if transfer.on_cards]
    if not pairs:
        return None
    amount = sum(transfer.details.amount for transfer in pairs)
    names = sorted({name for transfer in pairs for name in transfer.on_cards})
    cards = ", ".join(f"purse {name}" for name in names)
    return f"of it {amount} with entries still on cards: {cards}"


def from_outside(steps, way):
    """What each purse was issued with, or was loaded with in all."""
    sums = {}
    for step in steps:
        if step.from_outside == way:
            sums[step.purse] = sums.get(step.purse, 0) + step.event.fields["amount"]
    return sums


def sums_from_outside(steps, names):
    """How much came in from outside to those purses, in each way; a way in which nothing came is
    left out."""
    sums = {}
    for way in (ISSUED, LOADED):
        came = from_outside(steps, way)
        amount = sum(came[name] for name in came if name in names)
        if amount:
            sums[way] = amount
    return sums


def came_in(steps, names):
    """What came in from outside to those purses, in words; None where nothing did."""
    sums = sums_from_outside(steps, names)
    ways = ", ".join(f"{amount} {way}" for way, amount in sums.items())
    return f"money that came in from outside: {ways}" if sums else None


class Check(NamedTuple):
    """Demand 3 for one purse, with its numbers."""

    purse: int
    first: int  # its opening or issue balance
    loaded: int
    arrived_elsewhere: int
    matched: int
    arrived_here: int
    balance: int

    @property
    def should(self):
        kept = self.first + self.loaded - self.arrived_elsewhere - self.matched
        return kept + self.arrived_here

    @property
    def right(self):
        return self.should == self.balance


def stopped(run):
    """The state once the purses still busy are stopped, and the payments as they then stand."""
    steps = [*run.steps, *run.stops]
    last = steps[-1].after if steps else run.opened
    return last, transfers(steps, last)


def checks(run):
    """Demand 3 for each purse, once those still busy are stopped."""
    last, found = stopped(run)
    arrived = [t.details for t in found if t.arrived]
    first = dict(enumerate(run.text.balances)) | from_outside(run.steps, ISSUED)
    loaded = from_outside(run.steps, LOADED)
    for name, purse in enumerate(last.purses):
        yield Check(
            name,
            first.get(name, 0),
            loaded.get(name, 0),
            sum(d.amount for d in arrived if d.payer == name),
            sum(t.details.amount for t in found if t.matched and t.details.payer == name),
            sum(d.amount for d in arrived if d.payee == name),
            purse.balance,
        )
