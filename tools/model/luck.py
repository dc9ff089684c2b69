"""
Which races of a recording were luck: the program didn't choose, and the other message was the next it would have had.
A race that was none has the first word that applies.
"""

from collections import defaultdict

from charts import events_before
from log_charts import LogChart
from logs import Entry, Message

LUCK = "luck"
BEGUN = "begun in the middle"
Place = tuple[int, int]
Race = tuple[int, int, int]


class WholeLog:
    """
    What is before what in the whole log: a host's earlier events before its later sends, its earlier receives before
    later ones from the same sender, each logged send before its receive. It may have cycles.
    """

    def __init__(self, made: LogChart):
        self.steps: dict[int, list[int]] = defaultdict(list)
        for line in made.log.lines().values():
            self.add_line(line)
        for message in made.messages:
            if message.send and message.receive:
                self.steps[message.receive.number].append(message.send.number)
        self.known: dict[int, set[int]] = {}

    def add_line(self, line: list[Entry]) -> None:
        since_send: list[int] = []
        last_from: dict[str, int] = {}
        for entry in line:
            if entry.kind == "send":
                self.steps[entry.number] += since_send
                since_send = [entry.number]
            else:
                if entry.peer in last_from:
                    self.steps[entry.number].append(last_from[entry.peer])
                last_from[entry.peer] = entry.number
                since_send = since_send + [entry.number]

    def before(self, number: int) -> set[int]:
        """The lines that come before this one, by at least one step."""
        if number not in self.known:
            found: set[int] = set()
            left = [number]
            while left:
                for other in self.steps[left.pop()]:
                    if other not in found:
                        found.add(other)
                        left.append(other)
            self.known = {number: found}
        return self.known[number]


class Words:
    """The words for the races of a chart."""

    def __init__(self, made: LogChart):
        self.made = made
        self.log = WholeLog(made)
        self.before, self.numbers = events_before(made.chart)
        self.invented = 0
        for place, number in self.numbers.items():
            if made.is_invented(place):
                self.invented |= 1 << number
        self.of_lane: dict[tuple[str, str], list[Message]] = defaultdict(list)
        for message in made.messages:
            if message.send:
                self.of_lane[message.lane].append(message)
        for lane in self.of_lane.values():
            lane.sort(key=lambda message: message.send.number)

    def word(self, race: Race) -> str:
        p, e, r = race
        kind, earlier = self.made.lines[p][e]
        message = self.made.lines[p][r][1]
        if self.made.is_invented((p, e)) or message.send is None or self.before[p, r] & self.invented:
            return BEGUN
        if kind == "out":
            return "the earlier is a send"
        if earlier.receive.number in self.log.before(message.send.number):
            return "ordered by what is left out"
        if not fits(earlier, message):
            return "it would not take it"
        if is_passed_over(earlier, message):
            return "passed over"
        return "behind another" if self.is_behind_another(earlier, message) else LUCK

    def is_behind_another(self, earlier: Message, message: Message) -> bool:
        """
        Whether the sender sent another, before this one, that the earlier receive would have taken first. None is lost.
        """
        return any(
            other.send.number < message.send.number
            and other.receive is not None
            and other.receive.number >= earlier.receive.number
            and fits(earlier, other)
            and not is_passed_over(earlier, other)
            for other in self.of_lane[message.lane]
        )


def fits(earlier: Message, message: Message) -> bool:
    """Whether sender and name fit what is known of the earlier message's receive. Nothing known is anything."""
    takes = earlier.receive.takes
    return not takes or any(pattern.fits(message.lane[0], message.name) for pattern in takes)


def is_passed_over(earlier: Message, message: Message) -> bool:
    """Whether the message had arrived before the one that was received, so that the program chose."""
    both = message.arrival is not None and earlier.arrival is not None
    return both and message.arrival.number < earlier.arrival.number


def plain_races(made: LogChart, words: Words) -> list[Race]:
    """The races of the chart, by numbers from 0."""
    races = []
    for p, line in enumerate(made.lines):
        for r, (kind, _) in enumerate(line):
            if kind == "in":
                bits = words.before[p, r]
                races += [(p, e, r) for e in range(r) if not bits >> words.numbers[p, e] & 1]
    return races


def words_of_races(made: LogChart) -> dict[Race, str]:
    """Each race of the log's chart with its word, by instance, receive and earlier event."""
    words = Words(made)
    return {race: words.word(race) for race in plain_races(made, words)}


def event_words(made: LogChart, p: int, i: int) -> str:
    event = made.chart.lines[p][i]
    side = "to" if event.kind == "out" else "from"
    partner = made.chart.names[event.partner].decode()
    return f"{event.message.decode()} ({i + 1}, {side} {partner})"


def race_lines(made: LogChart, races: dict[Race, str]) -> list[str]:
    """A line for each race: `x: A (5, from y) may come before B (3, from z); luck`."""
    return [
        f"{made.chart.names[p].decode()}: {event_words(made, p, r)} may come before {event_words(made, p, e)}; {word}"
        for (p, e, r), word in races.items()
    ]
