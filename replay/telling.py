"""A run told in words, for a help desk: each event with its answer's meaning, the money that
moved and the balances; then what broke, who is owed, what came in from outside, and the check of
demand 3. The page shows the same sentences."""

from .answers import DONE, WAITS, counted, meaning, message_name, status_name
from .transfers import (
    came_in,
    checks,
    owed,
    still_on_cards,
    stopped,
    sums_from_outside,
    transfers,
)


def payment(details):
    return (
        f"{details.amount} from purse {details.payer} (its number {details.payer_number})"
        f" to purse {details.payee} (its number {details.payee_number})"
    )


def counts(run):
    """How many purses and events a run has."""
    opened = counted(len(run.text.balances), "purse")
    issued = len(run.end.purses) - len(run.opened.purses)
    purses = f"{opened} opened, {issued} issued" if issued else opened
    return f"{purses}, {counted(len(run.text.events), 'event')}"


def answered(step):
    """The answer, its meaning and what the event did."""
    if step.done and step.event.kind:
        said = "done" if step.answer == 0 else meaning(step.answer)
        return f"{step.answer}, {said}: {step.event.kind.told(step)}"
    about = (
        f" It was the {message_name(step.message.kind)} of {payment(step.message.details)}."
        if step.message
        else ""
    )
    return f"{step.answer}, refused: {meaning(step.answer)}; nothing changed.{about}"


def moved(step):
    """The money that moved, and the balances of the purses concerned."""
    outside = " from outside" if step.from_outside else ""
    changes = [
        f"{amount} came to purse {name}{outside}" if amount > 0 else f"{-amount} left purse {name}"
        for name, amount in step.moved.items()
    ]
    has = ", ".join(f"purse {name} has {step.after.purses[name].balance}" for name in step.concerns)
    said = " and ".join(changes) if changes else "no money moved"
    return f"{said}; {has}" if has else said


def standing(run):
    """Each purse after the last event, and what stands between them."""
    for name, purse in enumerate(run.end.purses):
        waits = f", {WAITS[purse.status]}" if purse.status in WAITS else ""
        logged = counted(len(purse.log), "entry")
        status = f"{status_name(purse.status)}{waits}"
        has = f"balance {purse.balance}, next number {purse.next}"
        yield f"purse {name}: {has}, {status}, {logged} in its log"
    end = run.end
    stand = "stands" if len(end.messages) == 1 else "stand"
    archived = counted(len(end.archive), "archive entry")
    yield f"{counted(len(end.messages), 'message')} {stand}, {archived}, claims {run.claims}"


def where(transfer):
    """Where the two entries of a matched pair stand."""
    if not transfer.on_cards:
        return "both entries are in the archive"
    if len(transfer.on_cards) == 2:
        return "both entries are still on the cards"
    sides = ["payer", "payee"]
    card, archived = sides if transfer.on_cards == [transfer.details.payer] else sides[::-1]
    return f"the {card}'s entry is still on its card, the {archived}'s is in the archive"


def outcome(transfer, state):
    """What is owed of a transfer, or why nothing is."""
    d = transfer.details
    if transfer.matched:
        return f"matched: {d.amount} is owed to purse {d.payer}; {where(transfer)}"
    if transfer.arrived:
        return "not matched: nothing is owed, the money arrived"
    if not transfer.paid:
        return "not matched: nothing is owed, the payer never paid"
    other = d.payee if transfer.payer_entry else d.payer
    running = state.purses[other].status and state.purses[other].details == d
    if running:
        status = status_name(state.purses[other].status)
        return f"not matched: purse {other} still runs it ({status}); nothing is owed yet"
    return "not matched: nothing is owed"


def side(role, name, entry):
    return f"{role}, purse {name}: " + (
        f"logged, the entry is {entry}" if entry else "logged nothing"
    )


def broken(run):
    """Each broken transfer as a list of lines, the first its details."""
    for transfer in transfers(run.steps, run.end):
        if transfer.broken:
            d = transfer.details
            yield [
                payment(d),
                side("payer", d.payer, transfer.payer_entry),
                side("payee", d.payee, transfer.payee_entry),
                outcome(transfer, run.end),
                f"paid and on no card: {transfer.on_no_card}",
            ]


def sums(run):
    """What is owed to whom, all the money that was paid and is on no card, and what came in from
    outside."""
    found = transfers(run.steps, run.end)
    said = [f"{amount} to purse {name}" for name, amount in owed(found).items()]
    yield "owed: " + (", ".join(said) if said else "nothing")
    on_cards = still_on_cards(found)
    if on_cards:
        yield f"  {on_cards}"
    unarrived = [t for t in found if t.on_no_card]
    yield f"money paid and on no card: {sum(t.on_no_card for t in unarrived)}"
    for transfer in unarrived:
        if not transfer.broken:
            yield f"  of it {payment(transfer.details)}, which no card has logged yet"
    outside = came_in(run.steps, range(len(run.end.purses)))
    if outside:
        yield outside
    opened = sum(purse.balance for purse in run.opened.purses)
    yield f"all balances: {opened} at opening, {sum(purse.balance for purse in run.end.purses)} now"


def demand(run):
    """The check of demand 3 for each purse and for all together, with its numbers; whether all come
    out."""
    lines, right = [], True
    for step in run.stops:
        lines.append(
            f"purse {step.purse} is still busy; for this check it is stopped ({step.event.text})"
        )
    for check in checks(run):
        right = right and check.right
        less = f"{check.first} + {check.loaded} - {check.arrived_elsewhere} - {check.matched}"
        lines.append(
            f"purse {check.purse}: {less} + {check.arrived_here} = {check.should},"
            f" and it has {check.balance}: {'right' if check.right else 'WRONG'}"
        )
    last, found = stopped(run)
    opening = sum(purse.balance for purse in run.opened.purses)
    outside = sums_from_outside(run.steps, range(len(last.purses)))
    whole = opening + sum(outside.values())
    began = f"they opened with {opening}"
    if outside:
        began += "".join(f" + {amount} {way}" for way, amount in outside.items()) + f" = {whole}"
    balances, claims = sum(purse.balance for purse in last.purses), sum(owed(found).values())
    is_whole = balances + claims == whole
    lines.append(
        f"all purses: {balances} + {claims} owed = {balances + claims},"
        f" and {began}: {'right' if is_whole else 'WRONG'}"
    )
    return lines, right and is_whole


FORMULA = (
    "opening or issue balance + loads - its payments that arrived - its matched pairs"
    " + what arrived in it = balance"
)


def told(run):
    """The whole telling as text."""
    text = run.text
    out = [f"{text.name}: {counts(run)}", ""]
    if run.opening not in DONE:
        out.append(f"opening refused, {run.opening}: {meaning(run.opening)}; no event is run")
        return "\n".join(out) + "\n"
    out += [
        "opened: "
        + ", ".join(f"purse {n} with {balance}" for n, balance in enumerate(text.balances)),
        "",
    ]
    wide = len(str(len(run.steps)))
    for step in run.steps:
        out.append(f"{step.place:>{wide}}  {step.event.text}")
        out.append(f"{'':{wide}}  {answered(step)}")
        out.append(f"{'':{wide}}  {moved(step)}")
    out += ["", "After the last event"] + [f"  {line}" for line in standing(run)]
    found = list(broken(run))
    out += ["", f"Broken transfers: {len(found) or 'none'}"]
    for place, lines in enumerate(found, 1):
        out.append(f"  {place}. {lines[0]}")
        out += [f"     {line}" for line in lines[1:]]
    out += [f"  {line}" for line in sums(run)]
    lines, _ = demand(run)
    out += ["", f"Demand 3: {FORMULA}"] + [f"  {line}" for line in lines]
    return "\n".join(out) + "\n"
