"""Schedules that are made from a seed, to compare programs by."""

from drawn_orders import words
from replays import World
from schedule_texts import Command, Schedule

FEW_SLOTS = [1, 1, 2, 3, 8, 64]
MESSAGES = [b"m", b"x", b"ask", b"Answer_2", b"long_name_of_a_message_with_32_b"]
VERBS = ["send"] * 9 + ["receive"] * 7 + ["any"] * 4 + ["close", "concurrent", "endconcurrent"]
PASSING = {"full", "nothing"}


class Draw:
    def __init__(self, seed):
        self.words = words(seed)

    def below(self, count):
        return next(self.words) % count

    def one_of(self, choices):
        return choices[self.below(len(choices))]


def names(draw, count):
    kind = draw.below(3)
    if kind == 0:
        return [bytes([97 + p]) for p in range(count)]
    if kind == 1:
        return [b"Instance_%d" % (count - p) for p in range(count)]
    return [b"m" * (p + 1) for p in range(count)]


def command(draw, line, count):
    actor = draw.below(count)
    verb = draw.one_of(VERBS)
    partner = (actor + 1 + draw.below(count - 1)) % count if verb in ("send", "receive", "close") else None
    return Command(line, verb, actor, partner, draw.one_of(MESSAGES) if verb == "send" else None)


def is_left_out(draw, kind, verb):
    """Whether a command isn't tried: most closes and coregions, after which little goes on; and `any` in a sure one."""
    if verb in ("close", "concurrent") and draw.below(8):
        return True
    return kind == "sure" and verb == "any"


def made_schedule(seed):
    """
    A schedule of 2 to 8 instances. The commands of a wild one are drawn as it comes. In the other kinds no command is
    full or finds nothing where it stands, few leave a note, and what waits in the end is received; a sure one has no
    `any`, so that threads too come to its end, in whatever order they go on.
    """
    draw = Draw(seed)
    count = 2 + draw.below(7)
    kind = draw.one_of(["wild", "made in order", "sure"])
    schedule = Schedule(names(draw, count), draw.one_of(FEW_SLOTS + [1 + draw.below(64)]), [])
    world = World(schedule)
    for _ in range(draw.one_of([0, 10, 100, 400, 1500])):
        next_one = command(draw, 3 + len(schedule.commands), count)
        if is_left_out(draw, kind, next_one.verb):
            continue
        word = getattr(world, next_one.verb)(next_one)
        if kind == "wild" or word is None or (word not in PASSING and draw.below(6) == 0):
            schedule.commands.append(next_one)
    if kind != "wild":
        for (q, p), lane in world.lanes.items():
            for _ in lane:
                schedule.commands.append(Command(3 + len(schedule.commands), "receive", p, q, None))
    return schedule
