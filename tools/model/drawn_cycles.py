"""Charts with cycles, drawn by chance, and their shortest cycles by a plain search over all direct pairs."""

from collections import deque
from random import Random

from chart_texts import Chart, Event
from charts import direct_pairs, in_order, sends_of_receives

SEND_RULE = b"earlier event of a line, before a send"


def drawn_lines(draw, count, messages):
    """Lines with so many messages, in an order that a run has."""
    lines = [[] for _ in range(count)]
    waiting = {}
    for _ in range(messages):
        q, p = draw.sample(range(count), 2)
        message = draw.choice([b"m", b"ask", b"answer"])
        lines[q].append(Event("out", message, p, 0))
        waiting.setdefault((q, p), deque()).append(message)
        for lane in draw.sample(sorted(waiting), min(len(waiting), draw.randrange(3))):
            sender, receiver = lane
            if waiting[lane]:
                lines[receiver].append(Event("in", waiting[lane].popleft(), sender, 0))
    return lines


def moved(draw, line, most):
    """The line, with some of its events elsewhere; the events of each lane keep their order."""
    line = list(line)
    for _ in range(draw.randrange(most + 1)):
        if len(line) < 2:
            break
        i = draw.randrange(len(line) - 1)
        one, other = line[i], line[i + 1]
        if (one.kind, one.partner) != (other.kind, other.partner):
            line[i], line[i + 1] = other, one
    return line


def in_coregions(draw, line):
    """The line, with coregions round some neighbouring receives."""
    found = []
    coregion = 0
    is_open = False
    for event in line:
        is_open = event.kind == "in" and draw.random() < (0.8 if is_open else 0.2)
        if is_open and not (found and found[-1].coregion):
            coregion += 1
        found.append(event._replace(coregion=coregion if is_open else 0))
    return found


def with_ring(draw, lines):
    """The lines, with a message from each of some of them to the next one, which they receive before they send."""
    ring = draw.sample(range(len(lines)), draw.randrange(2, len(lines) + 1))
    for place, p in enumerate(ring):
        line = lines[p]
        i, j = sorted(draw.randrange(len(line) + 1) for _ in range(2))
        line.insert(j, Event("out", b"m", ring[(place + 1) % len(ring)], 0))
        line.insert(i, Event("in", b"m", ring[place - 1], 0))
    return [[event._replace(message=b"m") for event in line] for line in lines]


def cyclic_chart(seed):
    """A chart whose receives all have their sends, and in which an event comes before itself."""
    draw = Random(seed)
    while True:
        count = draw.choice([2, 3, 4, 5, 8, 12])
        lines = drawn_lines(draw, count, draw.choice([0, 1, 3, 6, 12, 30, 80]))
        most = draw.choice([0, 2, 10, 60])
        if draw.randrange(2):
            lines = with_ring(draw, lines)
        names = [b"p%d" % (p + 1) for p in range(count)]
        chart = Chart(names, [in_coregions(draw, moved(draw, line, most)) for line in lines])
        pairs = direct_pairs(chart, sends_of_receives(chart))
        if len(in_order(pairs)) < len(pairs):
            return chart


def rule_of(chart, sends, earlier, later):
    """Why the one event comes directly before the other, or None where it doesn't."""
    (q, j), (p, i) = earlier, later
    event = chart.lines[p][i]
    if event.kind == "in" and sends[p, i] == earlier:
        return b"message"
    if q != p or j >= i:
        return None
    if event.kind == "out":
        return SEND_RULE
    other = chart.lines[q][j]
    return b"same sender" if other.kind == "in" and other.partner == event.partner else None


def events_behind(chart, sends):
    """For each event those that it comes directly before."""
    behind = {(p, i): [] for p, line in enumerate(chart.lines) for i in range(len(line))}
    for p, line in enumerate(chart.lines):
        for i in range(len(line)):
            for j in range(i):
                if rule_of(chart, sends, (p, j), (p, i)):
                    behind[p, j].append((p, i))
    for receive, send in sends.items():
        behind[send].append(receive)
    return behind


def way_around(behind, begin, most):
    """The fewest steps from an event around to itself, if they are fewer than so many, or None."""
    steps = {begin: 0}
    found = deque([begin])
    while found:
        at = found.popleft()
        if most is not None and steps[at] + 1 >= most:
            return None
        for later in behind[at]:
            if later == begin:
                return steps[at] + 1
            if later not in steps:
                steps[later] = steps[at] + 1
                found.append(later)
    return None


def shortest_way_around(chart, sends):
    """How many steps a shortest cycle of the chart has."""
    behind = events_behind(chart, sends)
    best = None
    for begin in behind:
        best = way_around(behind, begin, best) or best
    return best
