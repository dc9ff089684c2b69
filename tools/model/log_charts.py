"""
The chart of a log. So that one always comes out: lost messages and those that overtake are left out, a receive without
a send gives its peer one, and receives on a cycle are freed of their sends, one by one.
"""

from collections import defaultdict
from collections.abc import Iterable
from dataclasses import dataclass, field

from chart_texts import MOST_EVENTS, MOST_INSTANCES, Chart, Event
from charts import direct_pairs, sends_of_receives
from cycles import on_cycles
from given_names import GivenNames, shown
from logs import Entry, Log, Message, messages_of
from names import Refused

ONE_ENDED = "no race is claimed: the log has one end of each message"

# An event of a line: "out" or "in", and its message.
Item = tuple[str, Message]


@dataclass
class LogChart:
    """A chart with the messages of its events, and what was done to come to it."""

    log: Log
    hosts: list[str]
    lines: list[list[Item]]
    messages: list[Message]
    lost: list[Message]
    overtaking: list[tuple[Message, Message]]
    freed: list[Entry]
    names: dict[str, str] = field(default_factory=dict)
    message_names: dict[str, str] = field(default_factory=dict)
    chart: Chart = Chart([], [])

    def is_invented(self, place: tuple[int, int]) -> bool:
        kind, message = self.lines[place[0]][place[1]]
        return kind == "out" and message.send is None


def lost_messages(messages: list[Message]) -> list[Message]:
    """The sends without a receive where a later send of their lane was received."""
    last: dict[object, int] = {}
    for message in messages:
        if message.send and message.receive:
            last[message.lane] = max(last.get(message.lane, -1), message.send.number)
    return [m for m in messages if m.send and not m.receive and m.send.number < last.get(m.lane, -1)]


def overtaking_messages(messages: list[Message]) -> list[tuple[Message, Message]]:
    """Each received message that overtakes, with the first sent one of those sent before it and received behind it."""
    lanes: dict[object, list[Message]] = defaultdict(list)
    for message in messages:
        if message.send and message.receive:
            lanes[message.lane].append(message)
    found = []
    for lane in lanes.values():
        lane.sort(key=lambda m: m.send.number)
        for at, message in enumerate(lane):
            other = next((m for m in lane[:at] if m.receive.number > message.receive.number), None)
            if other:
                found.append((message, other))
    return sorted(found, key=lambda pair: pair[0].send.number)


def logged_lines(log: Log, messages: list[Message], left_out: set[Message]) -> dict[str, list[Item]]:
    """The lines of the hosts without what is left out."""
    of_entry: dict[int, Item] = {}
    for message in messages:
        if message not in left_out:
            if message.send:
                of_entry[message.send.number] = ("out", message)
            if message.receive:
                of_entry[message.receive.number] = ("in", message)
    return {
        host: [of_entry[e.number] for e in line if e.number in of_entry] for host, line in log.lines().items()
    }


def invented_sends(hosts: list[str], lines: dict[str, list[Item]]) -> tuple[dict, dict]:
    """
    The messages whose sends are invented: for each peer those at its head, by the names of their receivers, and those
    behind another's send.
    """
    heads: dict[str, list[Message]] = defaultdict(list)
    behind: dict[Message, list[Message]] = defaultdict(list)
    names = names_of(hosts)
    for host in sorted(hosts, key=lambda host: names[host].encode()):
        last: dict[str, Message] = {}
        for kind, message in lines[host]:
            if kind == "out":
                continue
            peer = message.lane[0]
            if message.send is not None:
                last[peer] = message
            elif peer in last:
                behind[last[peer]].append(message)
            else:
                heads[peer].append(message)
    return heads, behind


def whole_lines_of(hosts: list[str], lines: dict[str, list[Item]]) -> list[list[Item]]:
    """The lines with the sends that are invented."""
    heads, behind = invented_sends(hosts, lines)
    whole = []
    for host in hosts:
        line: list[Item] = [("out", message) for message in heads[host]]
        for kind, message in lines[host]:
            line.append((kind, message))
            if kind == "out":
                line += [("out", other) for other in behind[message]]
        whole.append(line)
    return whole


def first_on_a_cycle(made: LogChart) -> Entry | None:
    """
    Of the receives on a cycle whose sends are logged the one of the host whose name is the least by its bytes, and of
    this host the first.
    """
    on_cycle = on_cycles(direct_pairs(made.chart, sends_of_receives(made.chart)))
    receives = [
        message.receive
        for p, i in on_cycle
        for kind, message in [made.lines[p][i]]
        if kind == "in" and message.send is not None
    ]
    return min(receives, key=lambda entry: (made.names[entry.host].encode(), entry.number), default=None)


def chart_of_log(log: Log) -> LogChart:
    """The chart of a log, or `Refused`: F7 and F8."""
    hosts = list(log.lines())
    if not 2 <= len(hosts) <= MOST_INSTANCES:
        raise Refused("F8")
    freed: list[Entry] = []
    while True:
        made = paired(log, hosts, freed)
        on_cycle = first_on_a_cycle(made)
        if on_cycle is None:
            break
        freed.append(on_cycle)
    for name, line in zip(made.chart.names, made.lines):
        if len(line) > MOST_EVENTS:
            raise Refused("F7", name)
    return made


def paired(log: Log, hosts: list[str], freed: list[Entry]) -> LogChart:
    """The chart with these receives freed. It may have cycles."""
    messages = messages_of(log, {entry.number for entry in freed})
    lost = lost_messages(messages)
    overtaking = overtaking_messages(messages)
    left_out = set(lost) | {message for message, _ in overtaking}
    lines = whole_lines_of(hosts, logged_lines(log, messages, left_out))
    made = LogChart(log, hosts, lines, messages, lost, overtaking, list(freed))
    host_names, message_names = names_of(hosts), names_of(entry.name for entry in log.passed())
    made.names, made.message_names = host_names, message_names
    numbers = {host: number for number, host in enumerate(hosts)}
    events = [
        [
            Event(kind, message_names[message.name].encode(), numbers[message.lane[kind == "out"]], 0)
            for kind, message in line
        ]
        for line in lines
    ]
    made.chart = Chart([host_names[host].encode() for host in hosts], events)
    return made


def label_of(word: str) -> bytes:
    """A word's bytes."""
    return word.encode("utf-8", "surrogateescape")


def names_of(words: Iterable[str]) -> dict[str, str]:
    """A name for each word, no two alike."""
    given = GivenNames()
    return {word: given.name(label_of(word)).decode() for word in words}


def name_diagnostics(names: dict[str, str]) -> list[str]:
    """The names that aren't their words."""
    return [
        f'name {name} is "{shown(label_of(word)).decode()}"'
        for word, name in names.items()
        if label_of(word).replace(b" ", b"_") != name.encode()
    ]


def counted(places: list[str], one: str, several: str) -> list[str]:
    """One line for things of a kind, with the place of the first."""
    if not places:
        return []
    return [f"1 {one}, {places[0]}"] if len(places) == 1 else [f"{len(places)} {several}, the first is {places[0]}"]


def unmatched_diagnostics(places: list[str], lines: int) -> list[str]:
    """What is reported of lines that don't match, among so many."""
    if not places:
        return []
    first = f"1 of {lines} lines doesn't match, " if len(places) == 1 else f"{len(places)} of {lines} lines don't match, the first is "
    return [first + places[0]]


def read_diagnostics(made: LogChart) -> list[str]:
    """How many events are read, and which hosts have no line of their own."""
    passed = [entry for entry in made.log.passed() if entry.host != entry.peer]
    hosts = len(made.hosts)
    several = f"{len(passed)} events of {hosts} hosts are read"
    first = f"1 event of {hosts} hosts is read" if len(passed) == 1 else several
    return [first, *lineless_diagnostics(made)]


def with_lines_in(made: LogChart) -> set[str]:
    """The hosts with lines of their own."""
    return {entry.host for entry in made.log.passed() if entry.host != entry.peer}


def lineless_diagnostics(made: LogChart) -> list[str]:
    """The hosts without a line of their own, and those that the log may call by two words."""
    with_lines = with_lines_in(made)
    peers = {entry.peer for entry in made.log.passed() if entry.host != entry.peer}
    lineless = [host for host in made.hosts if host not in with_lines]
    lines = [f"{made.names[host]} has no line of its own" for host in lineless]
    for host, peer in alike_hosts(made, lineless, with_lines, peers):
        one, other = made.names[host], made.names[peer]
        lines.append(f"{other} may be {one}, which no line names as a peer: --peer {one}={other}?")
    return lines


def host_diagnostics(made: LogChart) -> list[str]:
    """The hosts with lines of their own, those without, and those that the log may call by two words."""
    with_lines = with_lines_in(made)
    lined = [f"{made.names[host]} has lines of its own" for host in made.hosts if host in with_lines]
    return lined + lineless_diagnostics(made)


def is_short_for(short: str, word: str) -> bool:
    """Whether both begin with the same letter, and the others of the first come in the second, in their order."""
    letters = iter(word)
    return short[0] == word[0] and all(letter in letters for letter in short)


def alike_hosts(made: LogChart, lineless: list[str], with_lines: set[str], peers: set[str]) -> list[tuple[str, str]]:
    """The hosts that are peers alone, each with the first host of lines alone that it may be."""
    found = []
    for peer in (host for host in lineless if host in peers):
        for host in (host for host in made.hosts if host in with_lines and host not in peers):
            one, other = made.names[peer], made.names[host]
            if is_short_for(one, other) or is_short_for(other, one):
                found.append((host, peer))
                break
    return found


def is_one_ended(made: LogChart) -> bool:
    """Whether there are messages, no receive takes a send of the log, and none is freed of one."""
    pairs = [message for message in made.messages if message.send is not None and message.receive is not None]
    return bool(made.messages) and not made.freed and not pairs


def overtakings_text(count: int) -> list[str]:
    """How many messages overtake, if some do, and which of two messages is skipped."""
    if count == 1:
        return ["1 message overtakes another: it is skipped, and the message that it overtakes stays"]
    several = f"{count} messages overtake others: each is skipped, and the first message that it overtakes stays"
    return [several] if count else []


def diagnostics(made: LogChart, takes: bool = False) -> list[str]:
    """What was done to come to the chart, and where it counts which receives would have taken what in other words."""
    own = [entry.place for entry in made.log.entries if entry.kind != "arrive" and entry.host == entry.peer]
    lines = read_diagnostics(made)
    lines += unmatched_diagnostics(made.log.unmatched, made.log.line_count)
    lines += counted(own, "event of a message to oneself is left out", "events of messages to oneself are left out")
    one = "receive has a word takes= that isn't PEER:NAMES"
    several = "receives have words takes= that aren't PEER:NAMES"
    lines += counted(made.log.misspelled, one, several) if takes else []
    lines += ["only the order at the tap is known"] if made.log.is_captured else []
    lines += ["a receive at which no entry of the clock grew isn't seen"] if made.log.is_timed else []
    lines += [ONE_ENDED] if is_one_ended(made) else []
    lines += [f"{message.send.place} is lost" for message in made.lost]
    for message, other in made.overtaking:
        lines.append(f"{message.send.place} overtakes {other.send.place}: this lane isn't first in, first out")
    lines += overtakings_text(len(made.overtaking))
    if made.lost or made.overtaking:
        lines.append("races may be shown that a message which is left out enforced")
    freed = sorted(made.freed, key=lambda entry: entry.number)
    lines += [f"{entry.place} takes no send of the log, for it would close a cycle" for entry in freed]
    invented = [(p, i) for p, line in enumerate(made.lines) for i in range(len(line)) if made.is_invented((p, i))]
    lines += [f"{made.names[made.hosts[p]]} {i + 1} is invented: the log begins in the middle" for p, i in invented]
    if invented:
        lines.append("a race whose earlier event is invented, or whose receive comes behind an invented event, isn't claimed")
    return lines + name_diagnostics(made.names) + name_diagnostics(made.message_names)
