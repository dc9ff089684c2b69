#!/usr/bin/env python3
"""
A desk takes orders, a worker makes them and a store sends them out: three processes that pass messages over TCP.

  jobs.py [--repaired] FOLDER

Each process writes a log of its own into FOLDER: desk.log, worker.log and store.log. The desk informs the store the
price of a job, and then hands the job to the worker, whose result goes to the store. So the price is there when the
result comes, in each run that anybody has seen. But nothing makes it so: the two take different ways to the store.
With --repaired the store says that it has the price, and only then does the desk hand out the job.

The ports are of the loopback, and the system chooses them. All of it takes about a second, and ends after ten in any
case. The exit status is 0 if all orders are out, 3 where the loopback can't be had, 4 where ten seconds weren't enough,
and else 1.
"""

import os
import select
import signal
import socket
import subprocess
import sys
import time
from datetime import datetime, timezone

SECONDS = 10
WORK_SECONDS = 0.2
# Who sends to whom, each on a connection of its own.
LANES = {"desk": ("worker", "store"), "worker": ("store",), "store": ("desk",)}
ORDERS = ((17, "3 boxes of tea", "18.40 EUR"), (18, "a kettle", "31.00 EUR"), (19, "6 cups", "24.60 EUR"))


class Failed(Exception):
    """Why a process can't go on."""


class Late(Exception):
    """The time is over."""


class Process:
    """One of the three: its log, and its connections to and from the others."""

    def __init__(self, name, folder):
        self.name = name
        self.log = open(os.path.join(folder, name + ".log"), "w", encoding="utf-8", buffering=1)
        self.server = socket.create_server(("127.0.0.1", 0))
        self.server.settimeout(SECONDS)
        self.to = {}
        self.connections = {}
        self.read = {}

    def note(self, words):
        moment = datetime.now(timezone.utc).isoformat(timespec="milliseconds").replace("+00:00", "Z")
        self.log.write(f"{moment} INFO {self.name}: {words}\n")

    def connect(self, ports):
        """Opens the lanes to others, and takes those from others, whose first line says who sends there."""
        for other in LANES[self.name]:
            self.to[other] = socket.create_connection(("127.0.0.1", ports[other]), SECONDS)
            self.to[other].sendall(f"{self.name}\n".encode())
        senders = [other for other in LANES if self.name in LANES[other]]
        while len(self.connections) < len(senders):
            connection = self.server.accept()[0]
            connection.settimeout(SECONDS)
            line = b""
            while not line.endswith(b"\n"):
                byte = connection.recv(1)
                if not byte:
                    raise Failed("a connection ended at once")
                line += byte
            self.connections[line.decode().strip()] = connection
            self.read[line.decode().strip()] = b""
        self.server.close()
        self.note("is ready")

    def send(self, other, message, job, more=""):
        self.note(f"{message} {job} -> {other}" + (f" ({more})" if more else ""))
        self.to[other].sendall(f"{message} {job} {more}\n".encode())

    def receive(self):
        """The next message, from whoever has sent one: its sender, name, job and the rest. None at the end."""
        while True:
            for sender in ("desk", "worker", "store"):
                line, ended, rest = self.read.get(sender, b"").partition(b"\n")
                if ended:
                    self.read[sender] = rest
                    message, job, more = line.decode().split(" ", 2)
                    self.note(f"{message} {job} <- {sender}")
                    return sender, message, int(job), more
            if not self.connections:
                return None
            ready = select.select(list(self.connections.values()), [], [], SECONDS)[0]
            if not ready:
                raise Failed("nothing has come")
            for sender, connection in list(self.connections.items()):
                if connection in ready:
                    part = connection.recv(4096)
                    self.read[sender] += part
                    if not part:
                        del self.connections[sender]


def desk(process, is_repaired):
    for job, what, price in ORDERS:
        process.send("store", "PRICE", job, price)
        if is_repaired and process.receive()[1:3] != ("PRICED", job):
            raise Failed(f"the store has no price of job {job}")
        process.send("worker", "JOB", job, what)
        answer = process.receive()
        if answer is None or answer[1:3] != ("SHIPPED", job):
            raise Failed(f"job {job} isn't out")
        process.note(f"job {job} is out, for {answer[3]}")


def worker(process, _):
    while True:
        taken = process.receive()
        if taken is None:
            return
        _, _, job, what = taken
        time.sleep(WORK_SECONDS)
        process.send("store", "RESULT", job, what)


def store(process, is_repaired):
    prices = {}
    while True:
        taken = process.receive()
        if taken is None:
            return
        _, message, job, more = taken
        if message == "PRICE":
            prices[job] = more
            if is_repaired:
                process.send("desk", "PRICED", job)
        elif job in prices:
            process.send("desk", "SHIPPED", job, prices.pop(job))
        else:
            raise Failed(f"job {job} is done, and has no price")


def run_process(name, folder, is_repaired):
    """Runs one of the three: its port goes to standard output, and the ports of all come by standard input."""
    process = Process(name, folder)
    print(process.server.getsockname()[1], flush=True)
    line = sys.stdin.readline().split()
    if len(line) != len(LANES):
        raise Failed("the ports of the others haven't come")
    process.connect(dict(zip(LANES, map(int, line))))
    {"desk": desk, "worker": worker, "store": store}[name](process, is_repaired)


def is_loopback_there():
    try:
        with socket.create_server(("127.0.0.1", 0)) as server:
            socket.create_connection(server.getsockname(), SECONDS).close()
    except OSError as error:
        print(f"jobs.py: the loopback can't be had: {error}", file=sys.stderr)
        return False
    return True


def started(name, folder, options):
    return subprocess.Popen(
        [sys.executable, "-B", os.path.abspath(__file__), *options, "--as", name, folder],
        stdin=subprocess.PIPE, stdout=subprocess.PIPE, universal_newlines=True,
    )


def stop(processes):
    for process in processes:
        if process.poll() is None:
            process.kill()
    for process in processes:
        process.wait()
        process.stdout.close()
        try:
            process.stdin.close()
        except OSError:
            # (what it hasn't read can't be passed on any more)
            pass


def run_all(folder, options):
    """Starts the three, gives each the ports of all, and waits. If one fails or is late, the others are stopped."""
    end = time.monotonic() + SECONDS
    processes = []
    try:
        for name in LANES:
            processes.append(started(name, folder, options))
        ports = [process.stdout.readline().strip() for process in processes]
        for process in processes:
            process.stdin.write(" ".join(ports) + "\n")
            process.stdin.flush()
        while any(process.poll() is None for process in processes):
            if any(process.poll() for process in processes):
                return 1
            if time.monotonic() > end:
                raise Late
            time.sleep(0.02)
        return int(any(process.returncode for process in processes))
    finally:
        stop(processes)


def late(*_):
    raise Late


def run_one(name, folder, is_repaired):
    try:
        run_process(name, folder, is_repaired)
    except (Failed, OSError) as error:
        print(f"{name}: {error}", file=sys.stderr)
        return 1
    return 0


def main(words):
    options = [word for word in words if word == "--repaired"]
    words = [word for word in words if word != "--repaired"]
    # (whatever goes wrong, no process stays: one of the three is ended by the alarm itself)
    if hasattr(signal, "alarm"):
        signal.alarm(SECONDS)
    if len(words) == 3 and words[0] == "--as" and words[1] in LANES:
        return run_one(words[1], words[2], bool(options))
    if len(words) != 1 or words[0].startswith("-"):
        print(__doc__.strip(), file=sys.stderr)
        return 1
    if not is_loopback_there():
        return 3
    if hasattr(signal, "alarm"):
        signal.signal(signal.SIGALRM, late)
    try:
        os.makedirs(words[0], exist_ok=True)
        return run_all(words[0], options)
    except Late:
        print(f"jobs.py: {SECONDS} seconds weren't enough", file=sys.stderr)
        return 4
    except OSError as error:
        print(f"jobs.py: {error}", file=sys.stderr)
        return 1


if __name__ == "__main__":
    sys.exit(main(sys.argv[1:]))
