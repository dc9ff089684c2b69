"""Message passing between threads that reports message races as they happen, for programs in Python.

A board has 2 to 32 instances, with a lane from each to every other. A lane is first in, first out, and has 1 to 64
slots. An instance acts through its post, in any thread: it sends, receives and closes lanes. Each received message
comes with the races of its receive: the earlier events of this instance that came before it only by luck. In another
run they may come after it.

    import threading, msc

    board = msc.Board(3, 4)                      # three instances, lanes of four slots
    first, second, server = board.posts

    def order(post, what):
        post.send(3, "order", what)              # to the third instance
        post.close(3)

    for post, what in (first, b"tea"), (second, b"ale"):
        threading.Thread(target=order, args=(post, what)).start()
    for message in server.messages():            # until both have closed their lanes
        for number in message.races:
            earlier = server.event(number)
            print(f"{message.name} may come before {earlier.name} (event {number})")
    print(board.gather().text(["first", "second", "server"]))

It prints `order may come before order (event 1)`, and the chart of the run.

`check`, `replay` and `random` do with bytes what the program mscrun does with a file, and `view` what mscview does.

The library is libmsc.so.1: the one that the variable MSC_LIB names, the one installed with this file, or the one that
the system finds. Several threads can use it at once. A call that finds a post in use by another thread waits for that
thread.
"""

from __future__ import annotations

import ctypes
import itertools
import os
import threading
import time
from ctypes import POINTER, byref, c_int32, c_size_t, c_uint32, c_uint64, c_void_p
from dataclasses import dataclass
from pathlib import Path
from typing import Any, Callable, Dict, Iterator, List, NoReturn, Optional, Sequence, Tuple, Union

__all__ = [
    "Answer", "BadText", "Board", "Ended", "Event", "Full", "Gathered", "Left", "LineFull", "Message", "OutOfMemory",
    "Post", "Refused", "Report", "check", "random", "replay", "version", "view",
]  # fmt: skip

#: The words of each refusal, by its answer: -N for the refusal FN, -100 or less for a misuse.
WORDS = {
    -1: "the name is empty",
    -2: "the name is longer than 32 bytes",
    -3: "a byte doesn't belong in a name",
    -4: "the name is a reserved word",
    -5: "the body is longer than 4096 bytes",
    -6: "out of memory",
    -7: "the line is full",
    -8: "a board has 2 to 32 instances",
    -9: "a lane has 1 to 64 slots",
    -11: "the lane is full",
    -12: "the lane is closed",
    -13: "an instance has no lane to itself",
    -14: "the board has no such instance",
    -15: "not all posts of the board",
    -22: "two instances have one name",
    -27: "more messages than the lane has slots",
    -28: "a coregion is open",
    -29: "no coregion is open",
    -30: "nothing is sent in a coregion",
    -31: "the line has no event of this number",
    -100: "misuse: no pointer, an empty handle, or what doesn't belong together",
    -101: "misuse: a handle is empty",
    -103: "misuse: a handle is in use",
    -104: "misuse: a number doesn't fit the call",
    -105: "misuse: the posts are of two boards",
}


class Refused(Exception):
    """A call was refused. It changed nothing, except that a post may have seen more.

    `answer` is that of the C library: -N for the refusal FN, -100 or less for a misuse, such as using a gathered board.
    """

    def __init__(self, answer: int) -> None:
        super().__init__(WORDS.get(answer, "no answer of this library"))
        self.answer = answer


class Full(Refused):
    """As many messages wait as the lane has slots: try again later."""


class LineFull(Refused):
    """The instance has 4,096 events: gather the board, and go on with the next one (`Gathered.carry_over`)."""


class OutOfMemory(Refused, MemoryError):
    """An allocation was refused."""


class Ended(Exception):
    """No message waits, and none will come: the lane is closed, or for `any` all lanes are."""


class BadText(ValueError):
    """A text was refused. The words are the line that the program writes, such as `refused: F20 Syntax`."""


def _refuse(answer: int) -> NoReturn:
    kinds = {-6: OutOfMemory, -7: LineFull, -11: Full}
    raise kinds.get(answer, Refused)(answer)


def _done(answer: int) -> int:
    if answer < 0:
        _refuse(answer)
    return answer


class _Handle(ctypes.Structure):
    _fields_ = [("state", c_uint64), ("at", c_void_p)]


class _Lengths(ctypes.Structure):
    _fields_ = [("first", c_size_t), ("second", c_size_t)]


class _Bytes(ctypes.Structure):
    _fields_ = [("at", ctypes.c_char_p), ("length", c_size_t)]


class _Arrival(ctypes.Structure):
    _fields_ = [
        ("sender", c_uint32), ("event", c_uint32), ("name", c_size_t), ("body", c_size_t), ("races", c_size_t),
    ]  # fmt: skip


class _Event(ctypes.Structure):
    _fields_ = [("receives", c_uint32), ("partner", c_uint32), ("region", c_uint32), ("name", c_size_t)]


class _Report(ctypes.Structure):
    _fields_ = [("instance", c_uint32), ("event", c_uint32), ("races", c_size_t)]


class _Place(ctypes.Structure):
    _fields_ = [("sender", c_uint32), ("receiver", c_uint32), ("number", c_size_t)]


def _load() -> ctypes.CDLL:
    here = Path(__file__).resolve()
    beside = [top / "lib" / "libmsc.so.1" for top in list(here.parents)[3:4]]
    chosen = os.environ.get("MSC_LIB") or next((str(file) for file in beside if file.exists()), "libmsc.so.1")
    try:
        library = ctypes.CDLL(chosen)
    except OSError as error:
        raise ImportError(f"{error}: let MSC_LIB be the path of libmsc.so.1") from error
    handle, lengths, number = POINTER(_Handle), POINTER(_Lengths), POINTER(c_uint32)
    buffer, size, sizes = c_void_p, c_size_t, POINTER(c_size_t)
    kinds: Dict[str, List[Any]] = {
        "msc_open_numbered_": [handle, size, c_uint32, c_uint64, c_uint64],
        "msc_send_": [handle, c_uint32, buffer, size, buffer, size, number],
        "msc_send_all_": [handle, c_uint32, buffer, size, lengths, size, number],
        "msc_receive_": [handle, c_uint32, POINTER(_Arrival)],
        "msc_any_": [handle, POINTER(_Arrival)],
        "msc_receive_up_to_": [handle, c_uint32, POINTER(_Arrival), size, sizes],
        "msc_name_of_": [handle, size, buffer, size, sizes],
        "msc_body_of_": [handle, size, buffer, size, sizes],
        "msc_races_of_": [handle, size, number, size, sizes],
        "msc_close_": [handle, c_uint32],
        "msc_open_coregion_": [handle],
        "msc_close_coregion_": [handle],
        "msc_reserve_": [handle, c_uint32],
        "msc_event_": [handle, c_uint32, POINTER(_Event), buffer, size],
        "msc_gather_": [handle, size, handle],
        "msc_meet_": [handle, size],
        "msc_carry_over_": [handle, handle, size, sizes, size, sizes],
        "msc_board_text_": [handle, buffer, size, sizes, size, buffer, size, sizes],
        "msc_board_report_": [handle, size, POINTER(_Report), number, size],
        "msc_board_left_": [handle, POINTER(_Place), lengths, buffer, size, buffer, size],
        "msc_view_": [POINTER(_Bytes), size, POINTER(_Bytes), size, buffer, size, buffer, size, lengths],
        "msc_perform_": [c_uint32, c_uint64, buffer, size, buffer, size, buffer, size, lengths],
    }
    for name, words in kinds.items():
        function = getattr(library, name)
        function.argtypes, function.restype = words, c_int32
    library.msc_free_.argtypes, library.msc_free_.restype = [handle], None
    library.msc_version.argtypes, library.msc_version.restype = [], c_uint32
    return library


_library = _load()


def version() -> int:
    """The version of the library: major × 10,000 + minor × 100 + patch."""
    return int(_library.msc_version())


@dataclass(frozen=True)
class Message:
    """A message that was received, with the races of its receive."""

    sender: int  #: the number of its sender, from 1
    event: int  #: the number of its receive among the receiving instance's events, from 1
    name: str
    body: bytes
    races: Tuple[int, ...]  #: the instance's earlier events that came before this receive only by luck


@dataclass(frozen=True)
class Event:
    """An event of an instance."""

    number: int  #: its number among the instance's events, from 1
    receives: bool  #: whether it receives; otherwise it sends
    partner: int  #: the number of the instance at the other end of the message
    name: str  #: the message's name
    region: Optional[int]  #: the number of its coregion, from 1


@dataclass(frozen=True)
class Report:
    """The races of a receive."""

    instance: int  #: the number of the instance that received, from 1
    event: int  #: the number of the receive among its events, from 1
    races: Tuple[int, ...]  #: the instance's earlier events that came before it only by luck


@dataclass(frozen=True)
class Left:
    """A message that still waits on a gathered board."""

    sender: int
    receiver: int
    name: str
    body: bytes


@dataclass(frozen=True)
class Answer:
    """What a program answers for a text that it doesn't refuse."""
    has_races: bool  #: whether its exit status is 1
    out: bytes  #: what it writes to standard output
    notes: bytes  #: what it writes to standard error
    is_known: bool = True  #: whether its exit status isn't 3: if it is, notes says why this isn't known

    @property
    def text(self) -> str:
        """What it writes to standard output, as text."""
        return self.out.decode(errors="replace")


def _number(number: int) -> int:
    """A number as the library takes it. If it is too large, 0, which no instance and no event has."""
    return number if 0 <= number < 2**32 else 0


def _name(name: str) -> bytes:
    # (the library refuses what isn't ASCII, as a byte that doesn't belong in a name)
    return name.encode(errors="surrogateescape")


class Post:
    """The post of an instance, through which it sends, receives and closes lanes. Its board has it (`Board.posts`).

    No call waits, except for another thread that uses the same post.
    """

    def __init__(self, board: Board, handle: _Handle, number: int) -> None:
        self._board = board  # (which owns the handle)
        self._handle = byref(handle)
        self._lock = threading.Lock()
        self.number = number  #: the number of its instance, from 1

    def __repr__(self) -> str:
        return f"<msc.Post {self.number}>"

    def send(self, to: int, name: str, body: bytes = b"") -> int:
        """Sends a message to the instance `to`, and returns the number of the send among this instance's events.

        Raises `Full` if the lane has no free slot: try again later. A name is a letter followed by letters, digits and
        `_`, 1 to 32 bytes in all. A body has at most 4,096 bytes.
        """
        event, text, data = c_uint32(), _name(name), bytes(memoryview(body))
        with self._lock:
            _done(_library.msc_send_(self._handle, _number(to), text, len(text), data, len(data), byref(event)))
        return event.value

    def send_all(self, to: int, messages: Sequence[Tuple[str, bytes]]) -> List[int]:
        """Sends these messages, each a name and a body, to the instance `to` with one store: all or none. Returns the
        numbers of the sends. Raises `Full` if fewer slots are free."""
        pairs = [(_name(name), bytes(memoryview(body))) for name, body in messages]
        joined = b"".join(name + body for name, body in pairs)
        lengths = (_Lengths * max(1, len(pairs)))(*(_Lengths(len(name), len(body)) for name, body in pairs))
        event = c_uint32()
        with self._lock:
            _done(
                _library.msc_send_all_(
                    self._handle, _number(to), joined, len(joined), lengths, len(pairs), byref(event)
                )
            )
        return list(range(event.value, event.value + len(pairs)))

    def receive(self, sender: int) -> Optional[Message]:
        """Receives the first message that waits on the lane from the instance `sender`. Returns None if none waits, and
        raises `Ended` if none will come."""
        arrival = _Arrival()
        with self._lock:
            return self._taken(_library.msc_receive_(self._handle, _number(sender), byref(arrival)), arrival)

    def any(self) -> Optional[Message]:
        """Receives the first message that it finds on the lanes from all other instances, which it looks at in turn.
        Returns None if none waits, and raises `Ended` if all lanes are closed and empty."""
        arrival = _Arrival()
        with self._lock:
            return self._taken(_library.msc_any_(self._handle, byref(arrival)), arrival)

    def receive_up_to(self, sender: int, most: int) -> List[Message]:
        """Receives the first messages that wait on the lane from the instance `sender` by one call, at most `most` of
        them. The list is empty if none waits. Raises `Ended` if none will come. If a message after the first is
        refused, the next call raises it."""
        # (a line has no more events)
        most = min(max(0, most), 4096)
        arrivals, count = (_Arrival * max(1, most))(), c_size_t()
        with self._lock:
            answer = _library.msc_receive_up_to_(self._handle, _number(sender), arrivals, most, byref(count))
            messages = [self._copied(which, arrivals[which]) for which in range(count.value)]
        if not messages:
            self._found(answer)
        return messages

    def messages(self, sender: Optional[int] = None, timeout: Optional[float] = None) -> Iterator[Message]:
        """The messages of one instance or of all, as they come, until the lanes end. Between tries it pauses, up to a
        millisecond. Raises TimeoutError if none has come for `timeout` seconds."""
        last, pause = time.monotonic(), 1e-6
        while True:
            try:
                message = self.any() if sender is None else self.receive(sender)
            except Ended:
                return
            if message is not None:
                yield message
                last, pause = time.monotonic(), 1e-6
            elif timeout is not None and time.monotonic() - last > timeout:
                raise TimeoutError(f"no message for {timeout} seconds")
            else:
                time.sleep(pause)
                pause = min(2 * pause, 1e-3)

    def close(self, to: int) -> None:
        """Closes the lane to the instance `to`. Messages that wait on it can still be received; then it has ended."""
        with self._lock:
            _done(_library.msc_close_(self._handle, _number(to)))

    def open_coregion(self) -> None:
        """Opens a coregion: the order of the receives in it isn't claimed, and is no race. Nothing is sent in it."""
        with self._lock:
            _done(_library.msc_open_coregion_(self._handle))

    def close_coregion(self) -> None:
        """Closes the coregion."""
        with self._lock:
            _done(_library.msc_close_coregion_(self._handle))

    def reserve(self, events: int) -> None:
        """Allocates room for the next `events` events."""
        with self._lock:
            _done(_library.msc_reserve_(self._handle, min(max(0, events), 4096)))

    def event(self, number: int) -> Event:
        """The event with this number, from 1, that this post has sent or received. Raises `IndexError` without one."""
        info, name = _Event(), ctypes.create_string_buffer(32)
        with self._lock:
            answer = _library.msc_event_(self._handle, _number(number), byref(info), name, 32)
        if answer == -31:
            raise IndexError(f"no event {number}")
        _done(answer)
        return Event(number, info.receives == 1, info.partner, name.raw[: info.name].decode(), info.region or None)

    def events(self) -> Iterator[Event]:
        """What this post has sent and received so far, event by event."""
        number = 1
        while True:
            try:
                event = self.event(number)
            except IndexError:
                return
            yield event
            number += 1

    def _taken(self, answer: int, arrival: _Arrival) -> Optional[Message]:
        return self._copied(0, arrival) if self._found(answer) else None

    def _found(self, answer: int) -> bool:
        """Whether a call that receives found a message, by its answer."""
        if answer == 2:
            raise Ended("no message waits, and none will come")
        return _done(answer) == 0

    def _copied(self, which: int, arrival: _Arrival) -> Message:
        """One of the messages that the post has kept since its last receive."""
        name, body = ctypes.create_string_buffer(32), ctypes.create_string_buffer(arrival.body or 1)
        races, length = (c_uint32 * max(1, arrival.races))(), c_size_t()
        _done(_library.msc_name_of_(self._handle, which, name, 32, byref(length)))
        _done(_library.msc_body_of_(self._handle, which, body, arrival.body, byref(length)))
        _done(_library.msc_races_of_(self._handle, which, races, arrival.races, byref(length)))
        return Message(
            arrival.sender,
            arrival.event,
            name.raw[: arrival.name].decode(),
            body.raw[: arrival.body],
            tuple(races[: arrival.races]),
        )


class Board:
    """A board of 2 to 32 instances whose lanes have 1 to 64 slots. `posts` has their posts, in order: instance 1 has
    `posts[0]`."""
    _numbers = itertools.count(1)  # (its address and count number a board, by which posts of two boards are refused)
    def __init__(self, instances: int, capacity: int) -> None:
        # (a number that no memory is enough for is an invalid size too)
        count = instances if 0 <= instances <= 32 else 33
        self._handles = (_Handle * max(1, count))()
        self._count = count
        self.capacity = capacity
        slots, given = capacity if 0 <= capacity <= 64 else 65, (id(self._numbers), next(self._numbers))
        _done(_library.msc_open_numbered_(self._handles, count, slots, *given))
        self.posts: Tuple[Post, ...] = tuple(
            Post(self, handle, number) for number, handle in enumerate(self._handles, 1)
        )

    def __len__(self) -> int:
        return self._count

    def __del__(self, free: Callable[..., None] = _library.msc_free_) -> None:
        for handle in getattr(self, "_handles", ()):
            free(byref(handle))

    def meet(self) -> None:
        """All posts meet: then each has seen all that any of them did. This removes no race."""
        with _Holding(self.posts):
            _done(_library.msc_meet_(self._handles, self._count))

    def gather(self) -> Gathered:
        """Gathers the board and returns the result. Its posts are then empty, and refuse each call. It waits
        for calls that other threads are making with them."""
        handle = _Handle()
        with _Holding(self.posts):
            _done(_library.msc_gather_(self._handles, self._count, byref(handle)))
        return Gathered(handle, self._count, self.capacity)


class _Holding:
    """Holds all posts of a board, in their order."""

    def __init__(self, posts: Sequence[Post]) -> None:
        self._posts = posts

    def __enter__(self) -> None:
        for post in self._posts:
            post._lock.acquire()

    def __exit__(self, *_: object) -> None:
        for post in self._posts:
            post._lock.release()


class Gathered:
    """The result of gathering a board: its chart, the races of each receive, and the messages that still wait."""

    def __init__(self, handle: _Handle, count: int, capacity: int) -> None:
        self._owned = handle
        self._handle = byref(handle)
        self._lock = threading.Lock()
        self._count = count
        self._capacity = capacity

    def __del__(self, free: Callable[..., None] = _library.msc_free_) -> None:
        free(self._handle)

    def text(self, names: Sequence[str]) -> str:
        """The text of its chart, with these names of its instances. `check`, mscrun and mscview read it."""
        words = [_name(name) for name in names]
        joined, sizes = b"".join(words), (c_size_t * max(1, len(words)))(*map(len, words))
        length, room = c_size_t(), 0
        while True:
            buffer = ctypes.create_string_buffer(max(1, room))
            with self._lock:
                _done(
                    _library.msc_board_text_(
                        self._handle, joined, len(joined), sizes, len(words), buffer, room, byref(length)
                    )
                )
            if length.value <= room:
                return buffer.raw[: length.value].decode()
            room = length.value

    def reports(self) -> Iterator[Report]:
        """The report of each receive, ordered by instance and event."""
        number = 1
        while True:
            report = self._report(number)
            if report is None:
                return
            yield report
            number += 1

    def _report(self, number: int) -> Optional[Report]:
        info, room = _Report(), 0
        while True:
            races = (c_uint32 * max(1, room))()
            with self._lock:
                answer = _library.msc_board_report_(self._handle, number, byref(info), races, room)
            if answer == -31:
                return None
            _done(answer)
            if info.races <= room:
                return Report(info.instance, info.event, tuple(races[: info.races]))
            room = info.races

    def left(self) -> Iterator[Left]:
        """The messages that still wait, lane by lane, in the order in which they were sent."""
        info, name, body = _Lengths(), ctypes.create_string_buffer(32), ctypes.create_string_buffer(4096)
        for sender in range(1, self._count + 1):
            for receiver in range(1, self._count + 1):
                number = 1
                while True:
                    place = _Place(sender, receiver, number)
                    with self._lock:
                        answer = _library.msc_board_left_(
                            self._handle, byref(place), byref(info), name, 32, body, 4096
                        )
                    if _done(answer) == 1:
                        break
                    yield Left(sender, receiver, name.raw[: info.first].decode(), body.raw[: info.second])
                    number += 1

    def carry_over(self, capacity: Optional[int] = None) -> Tuple[Board, List[int]]:
        """Opens the next board of a run with full lines, and carries over to it what still waits here. It has as many
        instances, and as many slots or more. Also returns how many sends each instance carried: the first events of
        its line there. Leave out races whose earlier event is one of them: the earlier board may have had them in
        order. Races between the two boards are not reported."""
        capacity = self._capacity if capacity is None else capacity
        board = Board(self._count, capacity)
        carried, total = (c_size_t * self._count)(), c_size_t()
        with self._lock:
            _done(
                _library.msc_carry_over_(
                    self._handle, board._handles, self._count, carried, self._count, byref(total)
                )
            )
        return board, list(carried)


def check(chart: Union[bytes, str]) -> Answer:
    """Checks a chart, as `mscrun check` does: one line for each of its races."""
    return _perform(2, 0, chart)


def replay(schedule: Union[bytes, str]) -> Answer:
    """Replays a schedule, as `mscrun replay` does: its chart, its races and its notes."""
    return _perform(0, 0, schedule)


def random(schedule: Union[bytes, str], seed: int) -> Answer:
    """Replays a schedule in an order that the seed draws (0 to 2**64 - 1), as `mscrun random` does."""
    if not 0 <= seed < 2**64:
        raise ValueError("a seed is 0 to 2**64 - 1")
    return _perform(1, seed, schedule)


def view(words: Sequence[str], *texts: Union[bytes, str]) -> Answer:
    """Does what `mscview` does for these words of a command line, whose files are in memory. The texts are what the
    words read, in the order in which they name them. So `view(["races", "run.msc"], chart)` lists the races of a chart
    by the names of their messages, and `view(["draw", "run.msc"], chart)` is its picture, as SVG. Raises `Refused` if
    the words read another number of texts."""
    data = [text.encode() if isinstance(text, str) else bytes(text) for text in texts]
    encoded = [os.fsencode(word) for word in words]
    names = (_Bytes * max(1, len(encoded)))(*(_Bytes(word, len(word)) for word in encoded))
    files = (_Bytes * max(1, len(data)))(*(_Bytes(text, len(text)) for text in data))
    length = sum(map(len, data))
    return _whole(length, lambda *room: _library.msc_view_(names, len(encoded), files, len(data), *room))


def _perform(task: int, seed: int, text: Union[bytes, str]) -> Answer:
    data = text.encode() if isinstance(text, str) else bytes(text)
    return _whole(len(data), lambda *room: _library.msc_perform_(task, seed, data, len(data), *room))


def _whole(length: int, call: Callable[..., int]) -> Answer:
    """The whole answer of a call that writes as much as fits. If there was too little room, the call is made again."""
    out_room, err_room, written = 4096 + 4 * length, 4096, _Lengths()
    while True:
        out, err = ctypes.create_string_buffer(out_room), ctypes.create_string_buffer(err_room)
        status = _done(call(out, out_room, err, err_room, byref(written)))
        if written.first <= out_room and written.second <= err_room:
            break
        out_room, err_room = max(out_room, written.first), max(err_room, written.second)
    if status == 2:
        raise BadText(err.raw[: written.second].decode(errors="replace").rstrip("\n"))
    return Answer(status == 1, out.raw[: written.first], err.raw[: written.second], status != 3)
