"""The chart that a diagram's messages come to."""

from collections import Counter
from collections.abc import Iterator

from chart_texts import MOST_EVENTS, Chart, Event
from diagram_messages import Message
from given_names import GivenNames
from names import Refused

Lane = tuple[int, int]


def lane_of(message: Message, instances: list[int]) -> Lane:
    """The lane of a message. `instances` has the instance of each line of the diagram."""
    return instances[message.sender], instances[message.receiver]


def without_lost(messages: list[Message], instances: list[int]) -> tuple[list[Message], list[Message]]:
    """The messages without the lost ones behind which one of their lane is received, and those."""
    received: set[Lane] = set()
    kept, lost = [], []
    for message in reversed(messages):
        if message.is_lost and lane_of(message, instances) in received:
            lost.append(message)
        else:
            kept.append(message)
            if not message.is_lost:
                received.add(lane_of(message, instances))
    return kept[::-1], lost[::-1]


def all_overtaken(earlier: list[Message], message: Message, instances: list[int]) -> Iterator[Message]:
    """Those of earlier messages that a message overtakes: they are of the same lane, and received further down."""
    if not message.is_lost:
        lane = lane_of(message, instances)
        for m in earlier:
            if lane_of(m, instances) == lane and not m.is_lost and m.ends > message.ends:
                yield m


def overtaken(earlier: list[Message], message: Message, instances: list[int]) -> Message | None:
    """The first of earlier messages that a message overtakes."""
    return next(all_overtaken(earlier, message, instances), None)


def refuse_full_lines(messages: list[Message], instances: list[int]) -> None:
    """F7, with the line of the first message with which an instance has too many events."""
    counts: Counter[int] = Counter()
    for message in messages:
        sender, receiver = lane_of(message, instances)
        counts[sender] += 1
        if not message.is_lost:
            counts[receiver] += 1
        if max(counts[sender], counts[receiver]) > MOST_EVENTS:
            raise Refused("F7", message.place.number)


def refuse_impossible(messages: list[Message], receives_without_send: list[int], lines: list[int]) -> None:
    """F37, with the line of the first arrow or note with which no chart is possible. `lines` are those of the diagram."""
    crossing = [
        max(message.whole.number, other.whole.number)
        for i, message in enumerate(messages)
        for other in all_overtaken(messages[:i], message, lines)
    ]
    if faulty := crossing + receives_without_send:
        raise Refused("F37", min(faulty))


def coregions(received: list[Message], last: int) -> list[int]:
    """
    The coregion of each receive of a row, 0 for none, numbered on from the last one. Several receives of one line of
    the diagram are a coregion, unless one of another line that is joined with it stands between them.
    """
    numbers = [0] * len(received)
    for receiver in dict.fromkeys(message.receiver for message in received):
        places = [i for i, message in enumerate(received) if message.receiver == receiver]
        if len(places) > 1 and places[-1] - places[0] == len(places) - 1:
            last += 1
            for i in places:
                numbers[i] = last
    return numbers


def line_of(at: int, messages: list[Message], instances: list[int], labels: GivenNames) -> list[Event]:
    """
    The events of an instance, row by row: in each its sends in the order of the text, and then its receives.
    """
    ends: dict[int, tuple[list[Message], list[Message]]] = {}
    for message in messages:
        if instances[message.sender] == at:
            ends.setdefault(message.begins, ([], []))[0].append(message)
        if instances[message.receiver] == at and not message.is_lost:
            ends.setdefault(message.ends, ([], []))[1].append(message)
    events: list[Event] = []
    last = 0
    for _, (sent, received) in sorted(ends.items()):
        events += [Event("out", labels.name(m.label), instances[m.receiver], 0) for m in sent]
        numbers = coregions(received, last)
        last = max([last, *numbers])
        events += [Event("in", labels.name(m.label), instances[m.sender], c) for m, c in zip(received, numbers)]
    return events


def chart_of(names: list[bytes], messages: list[Message], instances: list[int], labels: GivenNames) -> Chart:
    return Chart(names, [line_of(at, messages, instances, labels) for at in range(len(names))])


def named(labels: GivenNames, messages: list[Message]) -> None:
    """Gives the messages' labels their names, from the top of the text."""
    for message in messages:
        labels.name(message.label)
