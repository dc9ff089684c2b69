"""The enforced order of a chart, and its races, by the definitions of docs/reference/specification.md."""

from collections import deque

from names import Refused


def places(chart):
    """Each event's place: its line and its number on the line, both from 0."""
    return [(p, i) for p, line in enumerate(chart.lines) for i in range(len(line))]


def sends_of_receives(chart):
    """The place of the send that each receive belongs to: the n-th of the lane. F16 and F17 by instance and index."""
    sends = {}
    for p, i in places(chart):
        event = chart.lines[p][i]
        if event.kind == "out":
            sends.setdefault((p, event.partner), []).append((p, i))
    counts = {}
    found = {}
    for p, i in places(chart):
        event = chart.lines[p][i]
        if event.kind == "out":
            continue
        lane = (event.partner, p)
        count = counts.get(lane, 0)
        counts[lane] = count + 1
        if count >= len(sends.get(lane, [])):
            raise Refused("F16", chart.names[p], i + 1)
        q, j = sends[lane][count]
        if chart.lines[q][j].message != event.message:
            raise Refused("F17", chart.names[p], i + 1)
        found[p, i] = (q, j)
    return found


def direct_pairs(chart, sends):
    """
    What stands directly before each event. Of rule 2 only the events from the send before on, which has all earlier
    ones before it by the same rule; of rule 3 only the last receive from this sender.
    """
    pairs = {}
    for p, line in enumerate(chart.lines):
        since_send = []
        last_from = {}
        for i, event in enumerate(line):
            if event.kind == "out":
                pairs[p, i] = since_send
                since_send = [(p, i)]
            else:
                earlier = last_from.get(event.partner)
                pairs[p, i] = [sends[p, i]] + ([earlier] if earlier else [])
                last_from[event.partner] = (p, i)
                since_send = since_send + [(p, i)]
    return pairs


def in_order(pairs):
    """The events one after the other, none before its direct pairs; without those that a cycle holds back."""
    later = {place: [] for place in pairs}
    missing = {}
    for place, earlier in pairs.items():
        missing[place] = len(earlier)
        for other in earlier:
            later[other].append(place)
    ready = deque(place for place, count in missing.items() if count == 0)
    order = []
    while ready:
        place = ready.popleft()
        order.append(place)
        for other in later[place]:
            missing[other] -= 1
            if missing[other] == 0:
                ready.append(other)
    return order


def events_before(chart):
    """For each event the set of those before it, as bits by `numbers`. F16 to F18 where the chart isn't possible."""
    pairs = direct_pairs(chart, sends_of_receives(chart))
    order = in_order(pairs)
    if len(order) < len(pairs):
        raise Refused("F18")
    numbers = {place: number for number, place in enumerate(places(chart))}
    before = {}
    for place in order:
        bits = 0
        for other in pairs[place]:
            bits |= before[other] | 1 << numbers[other]
        before[place] = bits
    return before, numbers


def races(chart):
    """Each race: the instance, and the numbers of the earlier event and of the receive, from 1."""
    before, numbers = events_before(chart)
    found = []
    for p, line in enumerate(chart.lines):
        for i, receive in enumerate(line):
            if receive.kind == "out":
                continue
            for j, event in enumerate(line[:i]):
                is_enforced = before[p, i] >> numbers[p, j] & 1
                in_one_coregion = receive.coregion and event.coregion == receive.coregion
                if not is_enforced and not in_one_coregion:
                    found.append((chart.names[p], j + 1, i + 1))
    return found


def race_text(found):
    return b"".join(b"race %s %d %d\n" % race for race in found)
