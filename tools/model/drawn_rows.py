"""The order in which the events of a diagram stand from the top on, and whether a picture has it."""

import re
from collections import Counter
from typing import NamedTuple

from diagram_messages import Message

POINT = re.compile(rb"<g id='e(\d+)-(\d+)'><circle class='p' cx='\d+' cy='(\d+)'")


class End(NamedTuple):
    """An end of a message: when it comes, the message by its place, the instance from 0, and whether it is the send."""

    when: tuple[int, bool]
    message: int
    instance: int
    sends: bool


class Stand(NamedTuple):
    """An event: its instance and its number, both from 1, and whether it stands beside the event before it."""

    instance: int
    number: int
    is_level: bool


def ends_of(messages: list[Message], instances: list[int]) -> list[End]:
    """
    The ends by the rows of the diagram, and in a row in the order of the text. What an instance receives in a row in
    which it sends comes behind the sends of the row. `instances` has the instance of each line of the diagram.
    """
    sending = {(message.begins, instances[message.sender]) for message in messages}
    ends = []
    for place, message in enumerate(messages):
        sender, receiver = instances[message.sender], instances[message.receiver]
        ends.append(End((message.begins, False), place, sender, True))
        if not message.is_lost:
            ends.append(End((message.ends, (message.ends, receiver) in sending), place, receiver, False))
    return sorted(ends, key=lambda end: end.when)


def stands_of(messages: list[Message], instances: list[int]) -> list[Stand]:
    """The events, from the top on. A receive right behind its send stands beside it."""
    ends = ends_of(messages, instances)
    counts: Counter[int] = Counter()
    stands = []
    for above, end in zip([None, *ends], ends):
        counts[end.instance] += 1
        is_level = above is not None and above.sends and above.message == end.message
        stands.append(Stand(end.instance + 1, counts[end.instance], is_level))
    return stands


def has_rows(picture: bytes, stands: list[Stand]) -> bool:
    """Whether a picture draws these events, and no others, in rows in this order."""
    heights = {(int(p), int(number)): int(y) for p, number, y in POINT.findall(picture)}
    if heights.keys() != {(stand.instance, stand.number) for stand in stands}:
        return False
    ys = [heights[stand.instance, stand.number] for stand in stands]
    return all((y == above) if stand.is_level else (y > above) for stand, y, above in zip(stands, ys, [0, *ys]))
