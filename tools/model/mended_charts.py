"""Races that go by one message more, by the definitions of crates/repair/specs, and a plain search for such messages."""

from charts import events_before, places, sends_of_receives
from chart_texts import Chart, Event
from names import Refused

NEW = b"new"


def with_message(chart, sender, sent, receiver, received, coregion=0, name=NEW):
    """The chart with a message more: its send behind so many events of the sender's line, its receive behind so many."""
    lines = [list(line) for line in chart.lines]
    lines[sender].insert(sent, Event("out", name, receiver, 0))
    lines[receiver].insert(received, Event("in", name, sender, coregion))
    return Chart(chart.names, lines)


def moved(place, sender, sent, receiver, received):
    """Where an old event is in the chart with the message."""
    p, i = place
    return p, i + int((p == sender and i >= sent) or (p == receiver and i >= received))


def end_behind(line, i):
    """Behind how many events the coregion of an event ends; just behind it where it is in none."""
    end = i + 1
    while line[i].coregion and end < len(line) and line[end].coregion == line[i].coregion:
        end += 1
    return end


def is_before(found, e, f):
    before, numbers = found
    return bool(before[f] >> numbers[e] & 1)


def has_lines(chart):
    """Whether each coregion's receives are neighbours, and coregions are numbered along the line."""
    for line in chart.lines:
        last = greatest = 0
        for event in line:
            if event.coregion and event.coregion != greatest + 1 and not (event.coregion == greatest == last):
                return False
            greatest = max(greatest, event.coregion)
            last = event.coregion
    return True


def mended(chart, found, sends, e, r):
    """Of a race the message that makes it enforced, or the word and the event's number for which there is none."""
    p, q = e[0], sends[r][0]
    s = sends[r]
    sent = end_behind(chart.lines[p], e[1])
    for i in range(sent):
        if is_before(found, s, (p, i)):
            return "crossed", i + 1
    passed = sum(event.kind == "in" and event.partner == p for event in chart.lines[q][: s[1]])
    its = [i for i, event in enumerate(chart.lines[p][:sent]) if event.kind == "out" and event.partner == q]
    if len(its) > passed:
        return "on its way", its[passed] + 1
    return "message", (p, sent, q, s[1])


def is_mended(chart, old_races, message, e, r):
    """Whether the chart with the message is right: possible, each receive with its send, the pair enforced, no new race."""
    new = with_message(chart, *message)
    try:
        found, sends = events_before(new), sends_of_receives(new)
    except Refused:
        return False
    def there(place):
        return moved(place, *message[:4])
    kept = all(sends[there(f)] == there(g) for f, g in sends_of_receives(chart).items())
    own = sends.get((message[2], message[3])) == (message[0], message[1])
    races = {(there(f), there(g)) for f, g in old_races}
    olds = {there(place) for place in places(chart)}
    comes = [pair for pair in race_pairs(new, found) if set(pair) <= olds and pair not in races]
    return has_lines(new) and kept and own and not comes and is_before(found, there(e), there(r))


def race_pairs(chart, found):
    """The pairs of places that race."""
    pairs = set()
    for p, line in enumerate(chart.lines):
        for i, receive in enumerate(line):
            if receive.kind == "in":
                for j in range(i):
                    if not (receive.coregion and line[j].coregion == receive.coregion) and not is_before(found, (p, j), (p, i)):
                        pairs.add(((p, j), (p, i)))
    return pairs


def searched(chart, e, r, sends):
    """A message from e's line to that of r's sender that makes the pair enforced, found by trying each place."""
    p, q = e[0], sends[r][0]
    for sent in range(len(chart.lines[p]) + 1):
        for received in range(len(chart.lines[q]) + 1):
            around = {event.coregion for event in chart.lines[q][max(received - 1, 0) : received + 1]}
            for coregion in {0} | around:
                message = (p, sent, q, received, coregion)
                new = with_message(chart, *message)
                if not has_lines(new):
                    continue
                try:
                    found, of = events_before(new), sends_of_receives(new)
                except Refused:
                    continue
                if of.get((q, received)) == (p, sent) and is_before(found, moved(e, *message[:4]), moved(r, *message[:4])):
                    return message
    return None
