"""The stories of the bindings of all languages, in Python: each answer by its value, and each mistake by its
number.

    stories.py HEADER     the words of refusals are those of this msc.h
"""

import gc
import re
import sys
import threading
import unittest
from pathlib import Path

import msc

CHART = """\
msc run;
instance client;
out order to server;
out more to server;
endinstance;
instance server;
out hello to client;
in order from client;
endinstance;
instance logger;
endinstance;
endmsc;
"""


def whole_board() -> msc.Board:
    """Two messages to the server, of which one is received, and one that waits."""
    board = msc.Board(3, 4)
    client, server, _ = board.posts
    server.send(1, "hello", b"h")
    assert client.send_all(2, [("order", b"tea"), ("more", b"milk")]) == [1, 2]
    assert server.receive(1) == msc.Message(1, 2, "order", b"tea", (1,))
    board.meet()
    return board


class Stories(unittest.TestCase):
    def refused(self, answer, call, *words):
        with self.assertRaises(msc.Refused) as reported:
            call(*words)
        self.assertEqual(reported.exception.answer, answer)

    def test_a_race_is_reported(self):
        board = msc.Board(3, 4)
        one, two, server = board.posts
        self.assertEqual(one.send(3, "order", b"tea"), 1)
        self.assertEqual(two.send(3, "question"), 1)
        self.assertEqual(server.any(), msc.Message(1, 1, "order", b"tea", ()))
        self.assertEqual(server.any(), msc.Message(2, 2, "question", b"", (1,)))
        self.assertEqual(server.event(1), msc.Event(1, True, 1, "order", None))
        self.assertIsNone(server.any())

    def test_messages_cross(self):
        client, server = msc.Board(2, 1).posts
        client.send(2, "cancel")
        server.send(1, "question")
        self.assertEqual(client.receive(2).races, (1,))
        self.assertEqual(server.receive(1).races, (1,))
        self.assertEqual([(event.receives, event.name) for event in client.events()], [(False, "cancel"), (True, "question")])
        self.assertRaises(IndexError, client.event, 3)
        self.assertRaises(IndexError, client.event, 2**32 + 1)

    def test_several_at_once(self):
        one, two = msc.Board(2, 4).posts
        self.assertEqual(two.receive_up_to(1, 4), [])
        one.send_all(2, [("a", b"1"), ("b", b"22"), ("c", b"")])
        self.assertEqual(two.receive_up_to(1, 2), [msc.Message(1, 1, "a", b"1", ()), msc.Message(1, 2, "b", b"22", ())])
        one.close(2)
        self.assertEqual(two.receive_up_to(1, 2**70), [msc.Message(1, 3, "c", b"", ())])
        self.assertRaises(msc.Ended, two.receive_up_to, 1, 2)
        self.refused(-100, two.receive_up_to, 1, 0)
        self.refused(-13, two.receive_up_to, 2, 1)

    def test_a_full_lane(self):
        one, two = msc.Board(2, 1).posts
        one.send(2, "first")
        self.assertRaises(msc.Full, one.send, 2, "second")
        self.refused(-27, one.send_all, 2, [("a", b"1"), ("b", b"2")])
        self.assertEqual(two.receive(1).name, "first")
        self.assertEqual(one.send(2, "second"), 2)

    def test_a_closed_lane(self):
        one, two, three = msc.Board(3, 2).posts
        one.send(2, "last")
        one.close(2)
        self.refused(-12, one.close, 2)
        self.refused(-12, one.send, 2, "more")
        self.assertEqual(two.receive(1).name, "last")
        self.assertRaises(msc.Ended, two.receive, 1)
        self.assertIsNone(two.any())
        three.close(2)
        self.assertRaises(msc.Ended, two.any)
        self.assertEqual(list(two.messages()), [])

    def test_a_gathered_board(self):
        board = whole_board()
        gathered = board.gather()
        self.refused(-100, board.gather)
        self.refused(-100, board.posts[0].send, 2, "m")
        self.assertEqual(gathered.text(["client", "server", "logger"]), CHART)
        self.refused(-100, gathered.text, ["client", "server"])
        self.refused(-100, gathered.text, [])
        self.refused(-22, gathered.text, ["client", "server", "client"])
        self.assertEqual(list(gathered.reports()), [msc.Report(2, 2, (1,))])
        self.assertEqual(list(gathered.left()), [msc.Left(1, 2, "more", b"milk"), msc.Left(2, 1, "hello", b"h")])

    def test_a_board_after_a_board(self):
        board = whole_board()
        board.posts[1].close(3)
        gathered = board.gather()
        self.refused(-100, gathered.carry_over, 3)
        board, carried = gathered.carry_over()
        self.assertEqual(carried, [1, 1, 0])
        self.assertEqual(list(gathered.left()), [])
        client, server, logger = board.posts
        self.assertEqual(client.receive(2).body, b"h")
        self.assertEqual(server.receive(1).body, b"milk")
        self.assertRaises(msc.Ended, logger.receive, 2)
        self.refused(-12, server.send, 3, "m")

    def test_mistakes(self):
        for size in (-1, 0, 1, 33, 2**32 + 2, 2**64 + 2):
            self.refused(-8, msc.Board, size, 1)
        for capacity in (-1, 0, 65, 2**32 + 1):
            self.refused(-9, msc.Board, 2, capacity)
        post = msc.Board(2, 1).posts[0]
        for to in (0, 3, -1, 2**32 + 2):
            self.refused(-14, post.send, to, "m")
            self.refused(-14, post.close, to)
            self.refused(-14, post.receive, to)
        self.refused(-13, post.send, 1, "m")
        self.refused(-1, post.send, 2, "")
        self.refused(-2, post.send, 2, "a" * 33)
        self.refused(-3, post.send, 2, "a\0b")
        self.refused(-3, post.send, 2, "caf\u00e9")
        self.refused(-4, post.send, 2, "in")
        self.refused(-5, post.send, 2, "m", bytes(4097))
        self.assertRaises(TypeError, post.send, 2, "m", "text")
        self.assertRaises(TypeError, post.send, 2, "m", 7)
        self.refused(-29, post.close_coregion)
        post.open_coregion()
        self.refused(-28, post.open_coregion)
        self.refused(-30, post.send, 2, "m")
        post.close_coregion()
        post.reserve(10)

    def test_a_full_line(self):
        one, two = msc.Board(2, 64).posts
        for _ in range(4096):
            one.send(2, "m")
            two.receive(1)
        self.assertRaises(msc.LineFull, one.send, 2, "m")

    def test_texts(self):
        answer = msc.check(CHART)
        self.assertEqual((answer.has_races, answer.text), (True, "race server 1 2\n"))
        for call in (msc.check, msc.replay, lambda text: msc.random(text, 7)):
            with self.assertRaises(msc.BadText) as reported:
                call(b"no text of these")
            self.assertRegex(str(reported.exception), r"^refused: F\d+ ")
        self.assertRaises(ValueError, msc.random, b"", -1)

    def test_views(self):
        answer = msc.view(["races", "run.msc"], CHART)
        self.assertTrue(answer.has_races)
        self.assertRegex(answer.text, r"^server: order \(2, from client\) may come before ")
        self.assertRaisesRegex(msc.BadText, "^refused: F", msc.view, ["races", "run.msc"], b"no chart")
        self.assertRaisesRegex(msc.BadText, "^refused: G1 Usage", msc.view, [])
        self.refused(-100, msc.view, ["races", "run.msc"], CHART, CHART)

    def test_two_threads(self):
        board = msc.Board(2, 4)
        one, two = board.posts

        def send_all():
            for number in range(1000):
                while True:
                    try:
                        one.send(2, "item", b"%d" % number)
                        break
                    except msc.Full:
                        pass
            one.close(2)

        thread = threading.Thread(target=send_all)
        thread.start()
        bodies = [int(message.body) for message in two.messages(1)]
        thread.join()
        self.assertEqual(bodies, list(range(1000)))

    def test_two_threads_with_one_post(self):
        board = msc.Board(2, 64)
        one, two = board.posts
        threads = [threading.Thread(target=lambda: [one.send(2, "item") for _ in range(16)]) for _ in range(4)]
        for thread in threads:
            thread.start()
        for thread in threads:
            thread.join()
        one.close(2)
        self.assertEqual([message.event for message in two.messages()], list(range(1, 65)))

    def test_a_timeout(self):
        one, _ = msc.Board(2, 1).posts
        self.assertRaises(TimeoutError, next, one.messages(timeout=0))

    def test_a_post_keeps_its_board(self):
        one = msc.Board(2, 1).posts[0]
        gc.collect()
        self.assertEqual(one.send(2, "m"), 1)

    def test_words_are_those_of_the_header(self):
        header = Path(HEADER).read_text()
        numbers = {name: int(number) for name, number in re.findall(r"(MSC_[A-Z_0-9]+) = (-?\d+)", header)}
        words = {numbers[name]: text for name, text in re.findall(r'case (MSC_[A-Z_0-9]+): return "(.*)";', header)}
        self.assertEqual({answer: text for answer, text in words.items() if answer < 0}, msc.WORDS)
        self.assertEqual(msc.version(), int(re.search(r"#define MSC_VERSION (\d+)", header)[1]))


if __name__ == "__main__":
    HEADER = sys.argv.pop()
    unittest.main()
