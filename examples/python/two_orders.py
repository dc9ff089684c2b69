import threading

import msc


def order(post: msc.Post, what: bytes) -> None:
    post.send(3, "order", what)  # to the third instance
    post.close(3)


board = msc.Board(3, 4)  # three instances, lanes of four slots
first, second, server = board.posts
threads = [threading.Thread(target=order, args=words) for words in ((first, b"tea"), (second, b"ale"))]
for thread in threads:
    thread.start()
for message in server.messages():  # until both have closed their lanes
    for number in message.races:
        print(f"{message.name} may come before {server.event(number).name} (event {number})")
for thread in threads:
    thread.join()
print(board.gather().text(["first", "second", "server"]), end="")
