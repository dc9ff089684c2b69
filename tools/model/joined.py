"""Lines of a diagram that are one instance, by the words of `--join NAME=a,b,c`."""

from typing import NamedTuple

from diagram_charts import overtaken
from diagram_messages import Message
from names import Refused


class Join(NamedTuple):
    """The name of an instance, and the names of the lines that it stands for."""

    name: bytes
    parts: list[bytes]


class Instances(NamedTuple):
    """The instances' names, and the instance of each line of the diagram."""

    names: list[bytes]
    of_lines: list[int]


class Joined(NamedTuple):
    """
    The messages that stay, those between lines that are joined, and those that overtake another one, each with it.
    """

    messages: list[Message]
    within: list[Message]
    overtaking: list[tuple[Message, Message]]


def joined_instances(names: list[bytes], first_lines: list[int], joins: list[Join]) -> Instances:
    """
    The instances behind the joins. A joined one stands at the place of the first of its lines. F34 for a part that is
    no instance, or stands twice; F22 for a name that another instance has, with the line that names that one first.
    """
    parts = [part for join in joins for part in join.parts]
    if any(part not in names for part in parts) or len(set(parts)) < len(parts):
        raise Refused("F34")
    called = {part: join.name for join in joins for part in join.parts}
    for join in joins:
        others = (i for i, name in enumerate(names) if called.get(name, name) == join.name and name not in join.parts)
        if (other := next(others, None)) is not None:
            raise Refused("F22", first_lines[other])
    instances = [called.get(name, name) for name in names]
    found = list(dict.fromkeys(instances))
    return Instances(found, [found.index(name) for name in instances])


def joined(messages: list[Message], instances: list[int]) -> Joined:
    """
    The messages on the lanes between the instances. One that is sent below another of its new lane, and received above
    it, is left out.
    """
    within = [m for m in messages if instances[m.sender] == instances[m.receiver]]
    across = [m for m in messages if instances[m.sender] != instances[m.receiver]]
    others = [overtaken(across[:i], message, instances) for i, message in enumerate(across)]
    kept = [message for message, other in zip(across, others) if other is None]
    return Joined(kept, within, [(message, other) for message, other in zip(across, others) if other is not None])
