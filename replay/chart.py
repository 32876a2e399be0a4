"""A run as a picture: purses are lanes and time runs down, a row an event. In a row the purse that
the event is for has a box with what it did: money that left or came, by a transfer or from outside,
with the balance after it; entries as they are logged and collected. A purse's lane begins where it
is issued. A message is an arrow from the row where it was sent to each row where it was delivered;
from far off, a short one with the number of the event that sent it.

Every text has a place of its own (the row's words, one box, one answer, one note in a gap), and
each place is as wide as its text, so no text stands over another.
"""

import re
from typing import NamedTuple

from .answers import DONE, IDLE, SENT_LOST, counted, meaning, message_name, status_name
from .drawing import BOLD, LARGE, LEADING, NOTE, PLAIN, SMALL, Drawing, clipped, wide, wrapped
from .failure import WRONG, Failure
from .transfers import came_in, owed, still_on_cards, transfers

PAD = 16
BOX, GAP = 188, 66
LANE = BOX + GAP
PLACE_WIDTH, WORDS_WIDTH, ANSWER_WIDTH = 34, 258, 190
HEAD, ROW = 44, 46
FAR = 5  # rows, over which an arrow would cross too much
SECTION = 15  # rows, after which the heads stand again
SAMPLE = 26  # the width of a colour's sample in the legend

# The colours of the boxes, with the legend's words for them.
PAID, CAME, OUTSIDE, LOGGED, REFUSED = "paid", "came", "outside", "logged", "refused"
LEGEND = {
    PAID: "money left the purse",
    CAME: "money came by a transfer",
    OUTSIDE: "money came in from outside",
    LOGGED: "an entry was logged or collected",
    REFUSED: "refused",
}


# ---- What is shown


class Choice(NamedTuple):
    purses: tuple
    first: int
    last: int


def chosen_purses(asked, count):
    if not re.fullmatch(r"[0-9]{1,3}(,[0-9]{1,3})*", asked, re.ASCII):
        raise Failure("--purses takes names with commas between, as --purses 0,3", WRONG)
    names = tuple(dict.fromkeys(int(name) for name in asked.split(",")))
    for name in names:
        if name >= count:
            raise Failure(f"--purses: purse {name} is out of range: 0 to {count - 1}", WRONG)
    return names


def chosen_events(asked, most):
    match = re.fullmatch(r"([0-9]{1,9})?(-)?([0-9]{1,9})?", asked, re.ASCII)
    if not match or not (match.group(1) or match.group(3)):
        raise Failure(
            "--events takes a first and a last event, as --events 10-60, 10- or -60", WRONG
        )
    first = int(match.group(1) or 1)
    last = int(match.group(3) or (most if match.group(2) else first))
    if not 1 <= first <= last <= most:
        raise Failure(
            f"--events: {first}-{last} is out of range: the text has events 1 to {most}", WRONG
        )
    return first, last


def chosen(run, purses=None, events=None):
    """The purses and events asked for; all of them where nothing is."""
    count, most = len(run.end.purses), len(run.steps)
    names = tuple(range(count)) if purses is None else chosen_purses(purses, count)
    first, last = (1, most) if events is None else chosen_events(events, most)
    return Choice(names, first, last)


def rows_of(run, choice):
    """The steps that have a row: with all purses chosen all of them, else those at a purse of the
    choice, and losses of messages of such a purse."""
    everyone = len(choice.purses) == len(run.end.purses)
    for step in run.steps[choice.first - 1 : choice.last]:
        names = {step.purse}
        if step.purse is None and step.message:
            names = {step.details.payer, step.details.payee}
        if everyone or names & set(choice.purses):
            yield step


# ---- What the boxes and the foot say


def mark(step, is_again):
    """The lines of a step's box and its colour."""
    kind = step.event.kind
    if kind is None or not step.done:
        what = kind.word if kind else "event"
        if step.message:
            what = message_name(step.message.kind) + (" again" if is_again else "")
        return [f"{what} refused", f"answer {step.answer}"], REFUSED
    change = step.moved.get(step.purse, 0)
    if change < 0:
        return kind.mark(step), PAID
    if change:
        return kind.mark(step), OUTSIDE if step.from_outside else CAME
    entries = [sum(len(p.log) for p in state.purses) for state in (step.before, step.after)]
    return kind.mark(step), LOGGED if entries[0] != entries[1] else ""


NOT_ISSUED = "not issued yet"


def purse_of(state, name):
    """A purse of a state; None where it is issued only later in the run."""
    return state.purses[name] if name < len(state.purses) else None


def is_busy(state, name):
    purse = purse_of(state, name)
    return purse is not None and purse.status != IDLE


def purse_lines(state, name):
    """A purse at the foot."""
    purse = purse_of(state, name)
    if purse is None:
        return [NOT_ISSUED]
    lines = [f"has {purse.balance}", f"{status_name(purse.status)}, next {purse.next}"]
    lines.append(f"{counted(len(purse.log), 'entry')} in its log")
    for d in purse.log:
        payer, payee = f"{d.payer} ({d.payer_number})", f"{d.payee} ({d.payee_number})"
        lines.append(f"{d.amount} from {payer} to {payee}")
    return lines


def broken_line(transfer):
    d = transfer.details
    sides = [("payer", transfer.payer_entry), ("payee", transfer.payee_entry)]
    places = ", ".join(
        f"{side}'s entry {entry.short if entry else 'none'}" for side, entry in sides
    )
    end = "matched" if transfer.matched else "not matched"
    if transfer.arrived:
        end += ", it arrived"
    elif not transfer.paid:
        end += ", never paid"
    payer, payee = f"{d.payer} (number {d.payer_number})", f"{d.payee} (number {d.payee_number})"
    return f"broken: {d.amount} from {payer} to {payee}: {places}; {end}"


def foot_lines(steps, state, names):
    """The foot's sentences with their colours: of payments in which one of those purses has a
    part."""
    found = [t for t in transfers(steps, state) if {t.details.payer, t.details.payee} & set(names)]
    messages, entries = len(state.messages), len(state.archive)
    yield f"{counted(messages, 'message')}, {counted(entries, 'archive entry')}", "quiet"
    for transfer in found:
        if transfer.broken:
            yield broken_line(transfer), ""
    sums = [f"{amount} to purse {name}" for name, amount in owed(found).items()]
    if sums:
        yield "owed: " + ", ".join(sums), "strong good"
        on_cards = still_on_cards(found)
        if on_cards:
            yield on_cards, "good"
    else:
        yield "nothing is owed", "strong"
    yield f"paid and on no card: {sum(t.on_no_card for t in found)}", ""
    outside = came_in(steps, names)
    if outside:
        yield outside, ""


# ---- The picture


class Sent(NamedTuple):
    """Where a message was sent."""

    place: int  # the event's number
    lane: object  # None where the purse is not shown
    y: float
    section: int
    row: int


class Chart(Drawing):
    def __init__(self, run, choice, with_words):
        self.run, self.choice, self.with_words = run, choice, with_words
        self.left = PAD + PLACE_WIDTH + (WORDS_WIDTH if with_words else 0) + GAP // 2
        self.right = self.left + LANE * len(choice.purses) + GAP // 2
        super().__init__(self.right + (ANSWER_WIDTH + PAD if with_words else 0) + PAD)
        self.y = PAD
        self.lanes = {}
        for place, name in enumerate(choice.purses):
            self.lanes[name] = self.left + LANE * place + LANE // 2
        self.rows, self.sections = 0, 0  # so many are drawn
        self.sent = {}  # of each message, where it was sent
        self.given = set()  # messages that were delivered or lost
        self.taken = set()  # messages that a purse has taken
        self.colours = set()  # those of the boxes drawn

    def draw(self):
        self.head(self.choice.first)
        for step in rows_of(self.run, self.choice):
            if self.rows and self.rows % SECTION == 0:
                self.head(step.place)
            self.row(step)
        self.standing()
        self.foot()
        self.legend()
        self.y += PAD

    def title(self, words):
        for line in wrapped(words, LARGE * BOLD, self.width - 2 * PAD):
            self.text(PAD, self.y + LARGE, line, LARGE, "strong")
            self.y += LARGE + 6
        self.y += 6

    def head(self, place):
        """The purses' names, each with what it has before that event."""
        state = self.run.state_after(place - 1)
        self.band(HEAD)
        if self.with_words:
            said = "opened" if place == 1 else f"before event {place}"
            self.text(PAD, self.y + 27, said, SMALL, "quiet")
        for name, lane in self.lanes.items():
            self.text(lane, self.y + 18, f"purse {name}", PLAIN, "strong", "middle")
            purse = purse_of(state, name)
            said = f"has {purse.balance}" if purse else NOT_ISSUED
            if is_busy(state, name):
                said += f", {status_name(purse.status)}"
            self.text(lane, self.y + 35, said, SMALL, "", "middle")
        self.y += HEAD
        self.sections += 1

    def row(self, step):
        lines, colour = mark(step, step.message in self.taken)
        said, answer = [], []
        if self.with_words:
            said = wrapped(step.event.text, SMALL, WORDS_WIDTH)
            answer = wrapped(f"{step.answer}: {meaning(step.answer)}", SMALL, ANSWER_WIDTH)
        height = max(LEADING * max(len(lines), len(said), len(answer)) + 20, ROW)
        middle = self.y + height / 2
        self.line(0, self.y, self.width, self.y, "rule")
        self.text(PAD, middle + 4, str(step.place), SMALL, "quiet")
        self.lines(PAD + PLACE_WIDTH, middle, said, SMALL)
        self.lines(self.right, middle, answer, SMALL, "bad" if step.answer else "quiet")
        self.lives(step, height)
        lane = self.lanes.get(step.purse)
        if step.purse is None and step.message:
            # a loss has no purse: it is shown where the message came from
            lane = self.lanes.get(step.message.sender, self.lanes.get(step.message.receiver))
        if lane is not None:
            self.box(lane, middle, BOX, lines, colour, colour == OUTSIDE)
            self.colours.add(colour)
        elif not self.with_words:  # it is for no purse shown, and nothing else in its row says so
            self.text(self.left, middle + 4, ", ".join(lines), SMALL, "bad halo")
        if step.message:
            self.message(step, lane, middle)
        if step.sent:
            self.sends(step, lane, middle)
        self.y += height
        self.rows += 1

    def lives(self, step, height):
        """The lanes' lines along a row, from where a purse is issued on, broad while it is busy."""
        top, middle, bottom = self.y, self.y + height / 2, self.y + height
        for name, lane in self.lanes.items():
            if purse_of(step.after, name):
                start = top if purse_of(step.before, name) else middle
                self.line(lane, start, lane, bottom, "life")
            for state, start, end in [(step.before, top, middle), (step.after, middle, bottom)]:
                if is_busy(state, name):
                    self.line(lane, start, lane, end, "busy")

    def side(self, lane, other):
        """On which side of a lane a purse stands; one that is not shown, or the lane's own, on the
        side with more room."""
        if self.lanes.get(other, lane) != lane:
            return 1 if self.lanes[other] > lane else -1
        return 1 if lane < (self.left + self.right) / 2 else -1

    def stub(self, lane, y, other, length, kind):
        """A short line out of a lane's box towards a purse; where it ends."""
        towards = self.side(lane, other)
        x = lane + towards * BOX / 2
        self.line(x, y, x + towards * length, y, kind)
        return x + towards * length

    def sends(self, step, lane, middle):
        if step.answer != SENT_LOST:
            where = Sent(step.place, lane, middle + 7, self.sections, self.rows)
            self.sent[step.sent] = where
        elif lane is not None:
            x = self.stub(lane, middle + 7, step.sent.receiver, GAP / 3, "lost")
            self.cross(x, middle + 7)

    def message(self, step, lane, middle):
        """The message of a delivery or a loss."""
        message = step.message
        self.given.add(message)
        if lane is None:
            return
        if step.purse is not None:
            self.delivery(step, lane, middle - 7)
        elif step.done:
            self.cross(self.stub(lane, middle, message.receiver, GAP / 2, "lost"), middle)

    def delivery(self, step, lane, y):
        """A message that comes in: from the box that sent it, or from far off."""
        if step.done:
            self.taken.add(step.message)
        sent = self.sent.get(step.message)
        near = sent and sent.lane not in (None, lane) and sent.section == self.sections
        near = near and self.rows - sent.row <= FAR
        towards = self.side(lane, step.message.sender)
        edge = lane + towards * BOX / 2
        start = (sent.lane - towards * BOX / 2, sent.y) if near else (edge + towards * (GAP - 8), y)
        if step.done:
            self.arrow(*start, edge, y, "go")
        else:
            self.line(*start, edge + towards * 7, y, "no")
            self.cross(edge + towards * 7, y)
        if not near:
            place = sent.place if sent else self.sender_of(step.message)
            note = f"from {place}"
            self.text(edge + towards * GAP / 2, y - 7, note, NOTE, "quiet halo", "middle")

    def sender_of(self, message):
        """The number of the event that sent a message, where it has no row."""
        return next((step.place for step in self.run.steps if step.sent == message), "?")

    def standing(self):
        """Messages that were sent in a row shown, and given to nobody in one."""
        for message, sent in self.sent.items():
            if sent.lane is not None and message not in self.given:
                self.dot(self.stub(sent.lane, sent.y, message.receiver, GAP / 3, "stands"), sent.y)

    def foot(self):
        """Each purse at the end of what is shown, then the broken transfers, and who is owed."""
        last = self.choice.last
        state = self.run.state_after(last)
        columns = {lane: purse_lines(state, name) for name, lane in self.lanes.items()}
        height = LEADING * max(map(len, columns.values())) + 20
        self.band(height)
        if self.with_words:
            said = f"after event {last}" if last else "no event"
            self.text(PAD, self.y + 20, said, SMALL, "quiet")
        for lane, lines in columns.items():
            for place, line in enumerate(lines):
                y = self.y + 20 + LEADING * place
                kind = "" if place else "strong"
                self.text(lane, y, clipped(line, SMALL, BOX), SMALL, kind, "middle")
        self.y += height + 12
        for words, kind in foot_lines(self.run.steps[:last], state, self.lanes):
            for line in wrapped(words, PLAIN * BOLD, self.width - 2 * PAD):
                self.text(PAD, self.y + PLAIN, line, PLAIN, kind)
                self.y += LEADING + 2

    def legend(self):
        """A sample of each colour that the boxes have, with its meaning."""
        shown = [colour for colour in LEGEND if colour in self.colours]
        x, self.y = PAD, self.y + (LEADING if shown else 0)
        for colour in shown:
            words = LEGEND[colour]
            width = SAMPLE + 6 + wide(words, SMALL)
            if x > PAD and x + width > self.width - PAD:
                x, self.y = PAD, self.y + LEADING + 6
            self.frame(x + SAMPLE / 2, self.y, SAMPLE, 14, colour, colour == OUTSIDE)
            self.text(x + SAMPLE + 6, self.y + 4, words, SMALL, "quiet")
            x += width + 18
        self.y += LEADING / 2 if shown else 0


def title(run, choice):
    """The file's name without its folders, and which part of it is shown."""
    said = run.text.name.rsplit("/", 1)[-1]
    if (choice.first, choice.last) != (1, len(run.steps)):
        said += f", events {choice.first} to {choice.last} of {len(run.steps)}"
    if len(choice.purses) != len(run.end.purses):
        said += f", purses {', '.join(map(str, choice.purses))} of {len(run.end.purses)}"
    return said


def drawn(run, choice=None, with_words=True):
    """The whole picture; without words for a page that tells the events beside it."""
    if run.opening not in DONE:
        refused = Drawing(560)
        said = f"opening refused, {run.opening}: {meaning(run.opening)}"
        refused.text(PAD, 2 * PAD, said, PLAIN, "bad")
        refused.y = 3 * PAD
        return refused.svg(run.text.name.rsplit("/", 1)[-1])
    choice = choice or chosen(run)
    chart = Chart(run, choice, with_words)
    if with_words:
        chart.title(title(run, choice))
    chart.draw()
    return chart.svg(title(run, choice))
