"""The drawn order of a schedule's commands, by docs/reference/schedules.md."""

MASK = 2**64 - 1
FACTOR = 6364136223846793005
SEED_STEP = 11634580027462260723


def word_of(state):
    """The word of 32 bits of a state."""
    word = ((state >> 18 ^ state) >> 27) & 0xFFFFFFFF
    turns = state >> 59
    return (word >> turns | word << (32 - turns) % 32) & 0xFFFFFFFF


def words(seed):
    """The generator's words, one after the other."""
    made = []
    state = seed
    for _ in range(4):
        state = (state * FACTOR + SEED_STEP) & MASK
        made.append(word_of(state))
    begin = made[0] | made[1] << 32
    increment = made[2] | made[3] << 32 | 1
    state = ((begin + increment) * FACTOR + increment) & MASK
    while True:
        yield word_of(state)
        state = (state * FACTOR + increment) & MASK


def drawn(schedule, seed):
    """The schedule with its commands in the drawn order."""
    left = [[c for c in schedule.commands if c.actor == p] for p in range(len(schedule.names))]
    order = []
    generator = words(seed)
    while any(left):
        instances = [p for p, commands in enumerate(left) if commands]
        p = instances[next(generator) % len(instances)]
        order.append(left[p].pop(0))
    return schedule._replace(commands=order)
