"""What two recordings of one system differ in, by the definitions of docs/reference/comparisons.md."""

import json

from charts import events_before


def turns(chart, line):
    """The events of a line by their end of a lane, its other end by name: of each end the numbers and the messages."""
    ends = {}
    for number, event in enumerate(line, 1):
        ends.setdefault((event.kind, chart.names[event.partner]), []).append((number, event.message))
    return ends


def numbers_there(a, b, name):
    """The numbers in b of those events of an instance of a that b has too."""
    here = turns(a, a.lines[a.names.index(name)])
    there = turns(b, b.lines[b.names.index(name)])
    found = {}
    for end, events in here.items():
        for (number, message), (other, called) in zip(events, there.get(end, [])):
            if message != called:
                break
            found[number] = other
    return found


class Order:
    """The enforced order of a chart."""

    def __init__(self, chart):
        self.chart = chart
        self.before, self.numbers = events_before(chart)

    def verdict(self, name, first, second):
        """What the event with the first of these numbers of an instance is to the one with the second, a later one."""
        p = self.chart.names.index(name)
        if self.before[p, second - 1] >> self.numbers[p, first - 1] & 1:
            return "enforced"
        coregion = self.chart.lines[p][second - 1].coregion
        is_in = coregion and self.chart.lines[p][first - 1].coregion == coregion
        return "unclaimed" if is_in else "race"


def differences(a, b):
    """The pairs that stand the other way round: instance, the numbers in a and in b, and both verdicts."""
    in_a, in_b = Order(a), Order(b)
    found = []
    for name in a.names:
        there = numbers_there(a, b, name)
        for later in sorted(there):
            for earlier in sorted(there):
                if earlier < later and there[later] < there[earlier]:
                    verdicts = (
                        in_a.verdict(name, earlier, later),
                        in_b.verdict(name, there[later], there[earlier]),
                    )
                    found.append((name, earlier, later, there[earlier], there[later], *verdicts))
    return found


def only_in(a, b, name):
    """The numbers of the events of an instance that a alone has."""
    there = numbers_there(a, b, name)
    return [number for number in range(1, len(a.lines[a.names.index(name)]) + 1) if number not in there]


def event_named(chart, name, number):
    event = chart.lines[chart.names.index(name)][number - 1]
    side = "to" if event.kind == "out" else "from"
    return event.message.decode(), f"{side} {chart.names[event.partner].decode()}"


def plain_lines(a, b):
    """What `mscview compare` prints."""
    pairs = differences(a, b)
    for name in a.names:
        called = name.decode()
        for pair in pairs:
            if pair[0] == name:
                _, earlier, later, earlier_there, later_there, here, there = pair
                message, side = event_named(a, name, later)
                other, other_side = event_named(a, name, earlier)
                yield (
                    f"{called}: {message} ({later}, {side}; {later_there} in B) comes before "
                    f"{other} ({earlier}, {other_side}; {earlier_there} in B) in B: {here} in A, {there} in B\n"
                )
        for word, chart, against in (("A", a, b), ("B", b, a)):
            for number in only_in(chart, against, name):
                message, side = event_named(chart, name, number)
                yield f"{called}: only {word} has {message} ({number}, {side})\n"


def json_lines(a, b):
    """What `mscview compare --json` prints."""
    pairs = differences(a, b)
    for name in a.names:
        called = name.decode()
        for pair in pairs:
            if pair[0] == name:
                _, earlier, later, earlier_there, later_there, here, there = pair
                yield json.dumps(
                    {
                        "instance": called,
                        "earlier": earlier,
                        "earlier_in_b": earlier_there,
                        "earlier_message": event_named(a, name, earlier)[0],
                        "later": later,
                        "later_in_b": later_there,
                        "later_message": event_named(a, name, later)[0],
                        "a": here,
                        "b": there,
                    },
                    separators=(",", ":"),
                ) + "\n"
        for word, chart, against in (("a", a, b), ("b", b, a)):
            for number in only_in(chart, against, name):
                only = {"only": word, "instance": called, "event": number, "message": event_named(chart, name, number)[0]}
                yield json.dumps(only, separators=(",", ":")) + "\n"


def comparison(a, b, is_json):
    """The status and the output of a comparison."""
    lines = json_lines(a, b) if is_json else plain_lines(a, b)
    return int(bool(differences(a, b))), "".join(lines).encode()
