"""What is on a cycle of direct pairs: the events that come before themselves."""

from collections.abc import Iterable

Place = tuple[int, int]
Pairs = dict[Place, Iterable[Place]]


def finished(steps: Pairs) -> list[Place]:
    """The events in the order in which a search in depth leaves them."""
    order: list[Place] = []
    seen: set[Place] = set()
    for begin in steps:
        if begin in seen:
            continue
        seen.add(begin)
        path = [(begin, iter(steps[begin]))]
        while path:
            at, left = path[-1]
            later = next((other for other in left if other not in seen), None)
            if later is None:
                order.append(at)
                path.pop()
            else:
                seen.add(later)
                path.append((later, iter(steps[later])))
    return order


def reversed_pairs(pairs: Pairs) -> Pairs:
    """The same pairs the other way round."""
    back: dict[Place, list[Place]] = {place: [] for place in pairs}
    for place, others in pairs.items():
        for other in others:
            back[other].append(place)
    return back


def on_cycles(pairs: Pairs) -> set[Place]:
    """The events that lead to themselves."""
    back = reversed_pairs(pairs)
    found: set[Place] = set()
    seen: set[Place] = set()
    for begin in reversed(finished(pairs)):
        if begin in seen:
            continue
        seen.add(begin)
        together = [begin]
        for at in together:
            for other in back[at]:
                if other not in seen:
                    seen.add(other)
                    together.append(other)
        if len(together) > 1:
            found.update(together)
    return found
