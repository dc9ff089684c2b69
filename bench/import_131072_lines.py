"""Times `mscview import` of logs of 131,072 lines, and reports its peak memory: 32 hosts have 4,096 events each, so that all
lines of the chart are full. Each time is the median of five runs, with what is written thrown away. With the path of
another mscview both take turns, and the ratios of each turn's times are reported by their median.

A token is passed round the hosts. The log says it in plain words, with an id for each message; by an expression; in the
words of a log for ShiViz, with a clock of three hosts in each line; and in a file for each host. In the log that begins
in the middle, of four rounds less, the first host begins later than the others: there are cycles, and sends are invented.
Last come logs for ShiViz whose clocks alone say what is a message: 8,192 lines of the token, and drawn ones of five
hosts, in which 5,000 events of 10,000, or 8,000 of 100,000, send to another host."""

import os
import random
import sys
import tempfile

from timing import timed_beside

HOSTS = 32
ROUNDS = 2048
PATTERN = r"^\S+ (?<host>\w+) \w+: (?<dir>sent|received) (?<name>\w+) (?:to|from) (?<peer>\w+), message (?<id>\d+)"


def events(rounds=ROUNDS):
    """Each event of the token: its host, whether it is a send, the peer, and the message's number."""
    for turn in range(HOSTS * rounds):
        sender, receiver = turn % HOSTS, (turn + 1) % HOSTS
        yield sender, True, receiver, turn
        yield receiver, False, sender, turn


def plain_line(host, is_send, peer, turn):
    return f"host{host} {'send to' if is_send else 'receive from'} host{peer} token {turn}\n"


def pattern_line(host, is_send, peer, turn):
    words = f"sent token to host{peer}" if is_send else f"received token from host{peer}"
    time_of_day = f"10:{turn // 60000 % 60:02}:{turn // 1000 % 60:02}.{turn % 1000:03}"
    return f"2026-03-02T{time_of_day} host{host} INFO: {words}, message {turn}\n"


def timed_lines(rounds):
    """The token by clocks: a host has heard of the events of those before it."""
    known = [{} for _ in range(HOSTS)]
    for host, is_send, peer, turn in events(rounds):
        clock = known[host]
        if not is_send:
            clock |= {p: max(count, clock.get(p, 0)) for p, count in known[peer].items()}
        clock[host] = clock.get(host, 0) + 1
        shown = ", ".join(f'"host{p}":{count}' for p, count in clock.items())
        yield f"host{host} {{{shown}}} {'token ' + str(turn) if is_send else 'takes it'}\n"


def drawn_lines(count, hosts, messages):
    """So many events of these hosts, by clocks: so many of them send to another host, which takes the message later."""
    draw = random.Random(1)
    known = [{} for _ in range(hosts)]
    waiting = [[] for _ in range(hosts)]
    sends = set(draw.sample(range(count), messages))
    for number in range(count):
        host = draw.randrange(hosts)
        clock = known[host]
        if waiting[host] and number not in sends:
            clock |= {p: max(n, clock.get(p, 0)) for p, n in waiting[host].pop(0).items()}
        clock[host] = clock.get(host, 0) + 1
        if number in sends:
            waiting[(host + draw.randrange(1, hosts)) % hosts].append(dict(clock))
        shown = ", ".join(f'"host{p}":{n}' for p, n in clock.items())
        yield f"host{host} {{{shown}}} step {number}\n"


def clocked_line(host, is_send, peer, turn):
    words = f"out token to host{peer}" if is_send else f"in token from host{peer}"
    clock = ", ".join(f'"host{(host - k) % HOSTS}":{2 * (turn // HOSTS) + 1}' for k in range(3))
    return f"host{host} {{{clock}}} {words}\n"


def in_one(folder, name, line):
    path = os.path.join(folder, name)
    with open(path, "w", encoding="ascii") as file:
        file.writelines(line(*event) for event in events())
    return [path]


def in_clocks(folder, name, lines):
    path = os.path.join(folder, name)
    with open(path, "w", encoding="ascii") as file:
        file.writelines(lines)
    return [path]


def by_clocks(folder, count, messages):
    return ["--from", "shiviz"], in_clocks(folder, f"drawn{count}", drawn_lines(count, 5, messages))


def by_host(folder, name, rounds, missing):
    """A file for each host, without so many first lines of the first one."""
    lines = [[] for _ in range(HOSTS)]
    for event in events(rounds):
        lines[event[0]].append(plain_line(*event).rsplit(" ", 1)[0] + "\n")
    paths = []
    for host, own in enumerate(lines):
        paths.append(os.path.join(folder, f"{name}{host}"))
        with open(paths[-1], "w", encoding="ascii") as file:
            file.writelines(own if host else own[missing:])
    return paths


def main(mscview, other=None):
    with tempfile.TemporaryDirectory() as folder:
        logs = {
            "plain words": (["--from", "log"], in_one(folder, "plain", plain_line)),
            "an expression": (["--from", "log", "--pattern", PATTERN], in_one(folder, "pattern", pattern_line)),
            "for ShiViz": (["--from", "shiviz"], in_one(folder, "clocked", clocked_line)),
            "a file for each host": (["--from", "log"], by_host(folder, "host", ROUNDS, 0)),
            "begun in the middle": (["--from", "log"], by_host(folder, "later", ROUNDS - 4, 3)),
            "8,192 lines by clocks": (["--from", "shiviz"], in_clocks(folder, "timed", timed_lines(128))),
            "10,000 lines by clocks": by_clocks(folder, 10_000, 5_000),
            "100,000 lines by clocks": by_clocks(folder, 100_000, 8_000),
        }
        for name, (words, paths) in logs.items():
            seen, beside = timed_beside(mscview, other, "import", *words, *paths)
            size = sum(map(os.path.getsize, paths)) / 1e6
            took = f"{seen.seconds:.3f} s, at most {seen.megabytes:.0f} MB, status {seen.status}"
            print(f"{name}, {size:.1f} MB: {took}{beside}", flush=True)


if __name__ == "__main__":
    main(*sys.argv[1:])
