"""
Prints crates/test_replay/src/stored.rt, in which tests find what the plain model says that schedules come to:

    tools/lib/with_python tools/model/stored_replays.py >crates/test_replay/src/stored.rt
"""

import hashlib
import pathlib
import sys

TOP = pathlib.Path(__file__).resolve().parents[2]
sys.path.insert(0, str(TOP / "tools/lib"))
from case_texts import read_case
from replays import random, replay
from schedule_texts import read_schedule

# The cases whose schedules are replayed, and a schedule that is none of them.
WORKED = """
one_message two_from_one_sender full_lane nothing_waits no_commands ended_after_drain send_after_close coregion_notes
open_within_a_coregion thirty_two_instances crossing_messages_race two_senders_race no_race_through_a_reply
overtaken_by_a_third clock_of_this_message any_takes_turns coregion_hides_a_race coregion_round_two nine_instances
drawn_seed_0 drawn_notes_stand_by_line any_finds_nothing deeds_of_three
""".split()
CROSSING_AND_ANY = b"instances a b\ncapacity 1\na send b q\nb send a p\na receive b\nb receive a\nb any\n"

# The schedule whose commands are drawn, and by how many seeds.
ROUNDS = b"instances a b c\ncapacity 2\n" + b"a send b x\nb send c y\nc send a z\na any\nb any\nc any\n" * 20
SEEDS = 1000

STORED = """\
//! What the plain model in Python says that schedules come to. `tools/model/stored_replays.py` prints this file.

/// A schedule, and what it comes to: its chart, its races and its notes.
pub type StoredReplay = (&'static [u8], &'static [u8]);

/// Schedules of `cases/`, and one more.
pub static WORKED: [StoredReplay; %d] = [
%s];

/// The SHA-256 digest of what the orders that the seeds 0 to 999 draw of twenty rounds come to, text behind text.
pub static DRAWN: &[u8] =
    b"%s";
"""


def input_of(case):
    (path,) = TOP.glob(f"cases/mscrun/*/{case}.case")
    sections, _ = read_case(path, TOP)
    return sections["input"]


def literal(text):
    """The inner of a byte string: these texts have no quote and no backslash."""
    return text.decode("ascii").replace("\n", "\\n")


def stored(text):
    """A schedule with what it comes to, as an entry of the table."""
    _, written = replay(read_schedule(text))
    return f'    (\n        b"{literal(text)}",\n        b"{literal(written)}",\n    ),\n'


def drawn_digest():
    schedule = read_schedule(ROUNDS)
    digest = hashlib.sha256()
    for seed in range(SEEDS):
        _, written = random(schedule, seed)
        digest.update(written)
    return digest.digest()


def main():
    texts = [input_of(case) for case in WORKED] + [CROSSING_AND_ANY]
    digits = "".join(f"\\x{byte:02x}" for byte in drawn_digest())
    print(STORED % (len(texts), "".join(map(stored, texts)), digits), end="")


if __name__ == "__main__":
    main()
