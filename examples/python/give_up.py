"""A client asks a server, which gives up when nothing comes for a while, and informs a logger. Three threads, a post
each. Each race is printed as it comes. At the end the board is gathered, and its chart is printed. mscrun check and
mscview read it.

    python3 give_up.py
"""

import threading
import time

import msc

NAMES = ["client", "server", "logger"]
CLIENT, SERVER, LOGGER = 1, 2, 3


def send(post: msc.Post, to: int, name: str, body: bytes = b"") -> None:
    """Sends as soon as the lane has room."""
    while True:
        try:
            post.send(to, name, body)
            return
        except msc.Full:
            time.sleep(0.001)


def report(line: str) -> None:
    """Prints a line by one write, so that lines of two threads don't run into each other."""
    print(f"{line}\n", end="")


def show(post: msc.Post, message: msc.Message) -> None:
    """Reports a message, and its races by the names of the two messages."""
    me = NAMES[post.number - 1]
    report(f"{me}: event {message.event} is {message.name} from {NAMES[message.sender - 1]}")
    for number in message.races:
        report(f"{me}: {message.name} may come before {post.event(number).name} (event {number})")


def client(post: msc.Post) -> None:
    send(post, LOGGER, "begins")
    send(post, SERVER, "ask", b"what time is it?")
    for message in post.messages(SERVER):
        show(post, message)
    post.close(SERVER)
    post.close(LOGGER)


def server(post: msc.Post) -> None:
    try:
        show(post, next(post.messages(CLIENT, timeout=0.02)))
        answer, notice = ("answer", b"late"), "answered"
    except TimeoutError:
        answer, notice = ("gives_up", b""), "gave_up"
    send(post, CLIENT, *answer)
    send(post, LOGGER, notice)
    post.close(CLIENT)
    post.close(LOGGER)


def logger(post: msc.Post) -> None:
    for message in post.messages():
        show(post, message)


def main() -> None:
    board = msc.Board(3, 8)
    threads = [threading.Thread(target=run, args=(post,)) for run, post in zip((client, server, logger), board.posts)]
    for thread in threads:
        thread.start()
    for thread in threads:
        thread.join()
    gathered = board.gather()
    print(gathered.text(NAMES), end="")
    for left in gathered.left():
        print(f"{left.name} waits from {NAMES[left.sender - 1]} to {NAMES[left.receiver - 1]}")


if __name__ == "__main__":
    main()
