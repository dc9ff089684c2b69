"""What is kept of edits that were refused, for tools/check/refused_edits: in a checkout, on the machine for others, and
in the repository."""
import hashlib
import os

CHECKS = os.path.dirname(os.path.abspath(__file__))
# What the machine keeps, and of how many crates at most.
MACHINE = os.path.join(os.environ.get("XDG_CACHE_HOME") or os.path.expanduser("~/.cache"), "mscrun", "edits")
MOST_KEPT = 500
# Of how many crates that are as they were one is tried.
TURNS = 4


class Kept:
    """What is kept of a crate whose edits were all refused: a sum of all that this rests on, and what was reported."""

    def __init__(self, root, crate, edits):
        rests_on = [crate.stamp(), *[(edit.name, edit.pairs) for edit in edits]]
        for name in ("refused_edits", "crate_functions.py"):
            with open(os.path.join(CHECKS, name), "rb") as tool:
                rests_on.append(tool.read())
        self.name = crate.name
        self.sum = hashlib.sha256(repr(rests_on).encode()).hexdigest()
        self.files = (f"{root}/out/edits/{crate.name}", f"{MACHINE}/{crate.name}-{self.sum}")

    def read(self):
        """What was reported, or nothing where something has changed since, or no such thing is kept."""
        for path in self.files:
            try:
                with open(path, encoding="utf-8") as file:
                    made_of, *reported = file.read().splitlines()
            except (OSError, ValueError):
                continue
            if made_of == self.sum:
                return reported
        return []

    def write(self, reported):
        for path in self.files:
            try:
                os.makedirs(os.path.dirname(path), exist_ok=True)
                with open(f"{path}.{os.getpid()}", "w", encoding="utf-8") as file:
                    print(self.sum, *reported, sep="\n", file=file)
                os.replace(f"{path}.{os.getpid()}", path)
            except OSError:
                # (it is tried again then)
                continue


class Noted:
    """The crates whose edits were all refused when last tried, each with its sum, as the repository has them."""

    ABOUT = """# Crates whose edits were all refused as they are now, each with a sum of all that this rests on. ./test
# tries one of four of them, by the commit's number; those that have changed since, and ./test all, are tried
# always. It is written by tools/check/refused_edits --note, over proved libraries.
"""

    def __init__(self, root):
        self.path = f"{root}/tools/check/edits_refused.txt"
        self.sums = {}
        try:
            with open(self.path, encoding="utf-8") as file:
                self.sums = dict(line.split() for line in file if line.strip() and not line.startswith("#"))
        except OSError:
            return

    def has(self, kept):
        return self.sums.get(kept.name) == kept.sum

    def write(self, crates):
        """Notes of these crates those of which it is kept that all was refused. The others' notes stay."""
        for kept in crates:
            if kept.read():
                self.sums[kept.name] = kept.sum
            else:
                self.sums.pop(kept.name, None)
        with open(self.path, "w", encoding="utf-8") as file:
            file.write(self.ABOUT + "".join(f"{name} {self.sums[name]}\n" for name in sorted(self.sums)))


def by_turns(root, tasks, turn):
    """Of these crates, with their edits, those that are tried this time, and the others, which are as they were."""
    noted, tried, resting, turns = Noted(root), [], [], turn
    for task in tasks:
        is_resting = noted.has(Kept(root, *task))
        turns += is_resting
        (resting if is_resting and turns % TURNS else tried).append(task)
    return tried, resting


def forget_oldest():
    """Leaves the machine what was kept last."""
    try:
        kept = sorted(os.scandir(MACHINE), key=lambda file: file.stat().st_mtime)
        for file in kept[:-MOST_KEPT]:
            os.remove(file.path)
    except OSError:
        return
