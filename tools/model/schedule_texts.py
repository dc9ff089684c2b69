"""A schedule's text, read line by line as docs/reference/schedules.md says."""

import re
from collections import namedtuple

from chart_texts import MOST_INSTANCES
from names import Refused, check_name, whole_lines

MOST_SLOTS = 64

# `actor` and `partner` are instances' numbers from 0; `line` is the command's line in the text, from 1.
Command = namedtuple("Command", "line verb actor partner message")
Schedule = namedtuple("Schedule", "names capacity commands")

WORD = rb"([^ \n]+)"
INSTANCES = re.compile(rb"instances((?: [^ \n]+)+)")
CAPACITY = re.compile(rb"capacity (0|[1-9][0-9]*)")
COMMANDS = [
    re.compile(WORD + rb" (send) " + WORD + rb" " + WORD),
    re.compile(WORD + rb" (receive|close) " + WORD),
    re.compile(WORD + rb" (any|concurrent|endconcurrent)"),
]


def read_instances(line):
    stated = INSTANCES.fullmatch(line)
    if not stated:
        raise Refused("F20", 1)
    names = []
    for name in stated[1].split(b" ")[1:]:
        check_name(name, 1)
        if name in names:
            raise Refused("F22", 1)
        if len(names) == MOST_INSTANCES:
            raise Refused("F8")
        names.append(name)
    if len(names) == 1:
        raise Refused("F8")
    return names


def read_capacity(line):
    stated = CAPACITY.fullmatch(line)
    if not stated:
        raise Refused("F20", 2)
    # (a number of several digits is above 64 already where it has three)
    if len(stated[1]) > 2 or not 1 <= int(stated[1]) <= MOST_SLOTS:
        raise Refused("F9")
    return int(stated[1])


def read_command(line, number, names):
    stated = next((found for found in (form.fullmatch(line) for form in COMMANDS) if found), None)
    if not stated:
        raise Refused("F20", number)
    actor, verb, *others = stated.groups()
    for name in [actor, *others]:
        check_name(name, number)
    instances = [actor, *others[:1]]
    for name in instances:
        if name not in names:
            raise Refused("F23", number)
    if len(instances) == 2 and instances[0] == instances[1]:
        raise Refused("F13", number)
    numbers = [names.index(name) for name in instances] + [None]
    return Command(number, verb.decode(), numbers[0], numbers[1], others[1] if verb == b"send" else None)


def read_schedule(text):
    """The schedule of a text, or `Refused`."""
    lines, rest = whole_lines(text)
    names = read_instances(lines[0]) if lines else None
    capacity = read_capacity(lines[1]) if len(lines) > 1 else None
    commands = [read_command(line, number, names) for number, line in enumerate(lines[2:], 3)]
    if len(lines) < 2 or rest:
        raise Refused("F21")
    return Schedule(names, capacity, commands)


def command_text(schedule, command):
    words = [schedule.names[command.actor], command.verb.encode()]
    if command.partner is not None:
        words.append(schedule.names[command.partner])
    if command.message is not None:
        words.append(command.message)
    return b" ".join(words) + b"\n"


def schedule_text(schedule):
    """The text of a schedule whose commands stand in the order of their lines."""
    first = b"instances " + b" ".join(schedule.names) + b"\ncapacity %d\n" % schedule.capacity
    return first + b"".join(command_text(schedule, command) for command in schedule.commands)
