"""What bench/run measured, and the targets."""

import pathlib
import re
import statistics

ROOT = pathlib.Path(__file__).resolve().parent.parent
MEASURED = ROOT / "target/bench"
SIDES = ["port", "rust", "copies"]
TAPE_SIDES = ["tape", "calls", "lines", "reading"]


class Row:
    """Of each side: nanoseconds of one operation, the median and the quickest turn; the first side's time by it; instructions.
    Each process has a line of them. The sides of a tape are the program, the calls from C, these with their lines, and reading alone."""

    def __init__(self, table, name, lines):
        self.table, self.name = table, name
        self.sides = TAPE_SIDES if table == "tapes" else SIDES
        told = list(zip(*lines))
        self.median, self.quickest, self.by = (
            dict(zip(self.sides, map(of, told[k::3]))) for k, of in enumerate([statistics.median, min, statistics.median])
        )
        self.count = {}

    def label(self):
        return re.sub(r"\d{4,}", lambda m: f"{int(m.group()):,}", self.name)

    def ratio(self):
        return self.by["rust"]

    def quickest_ratio(self, side="rust"):
        return self.quickest[self.sides[0]] / self.quickest[side]

    def count_ratio(self):
        return self.count["port"] / self.count["rust"] if self.count else None

    def copies_ratio(self):
        return self.by.get("copies")

    def copy_rate(self):
        """How fast the port goes through a file, as a share of the rate of one copy of it."""
        return 1 / self.by["copies"] if self.table == "files" else None

    def tape_rate(self):
        """How many megabytes of a tape the program plays in a second."""
        return int(self.name.split()[0]) / self.median["tape"] * 1e9

    def limit(self):
        """The limit at which a body of 65,536 bytes is cut, if it is."""
        cut = re.search(r"65536 bytes at (\d+)", self.name)
        return int(cut.group(1)) if cut else None

    def target(self):
        """The most that port / Rust may be, if anything."""
        if self.table in ("chunk by chunk", "open lists", "turns", "tapes"):
            return None
        if self.table == "split" and self.limit() in (128, 256, 4096):
            return 0.5
        return 0.6 if self.limit() == 128 else 1.0

    def copies_target(self):
        """The most that port / two copies may be, if anything."""
        return 1.5 if self.limit() in (4096, 16384) and self.target() else None

    def time_target(self):
        """The most nanoseconds that the port may take."""
        return 5_000_000 if self.table == "headers" else None

    def misses(self):
        slower = self.target() and self.ratio() > self.target()
        over = self.copies_target() and self.copies_ratio() > self.copies_target()
        slow = self.time_target() and self.median["port"] > self.time_target()
        return bool(slower or over or slow)


def rows():
    lines = {}
    for process in sorted(MEASURED.glob("times.*")):
        for line in process.read_text().splitlines():
            table, name, *numbers = line.split("\t")
            lines.setdefault((table, name), []).append([float(number) for number in numbers])
    found = [Row(table, name, of_all) for (table, name), of_all in lines.items()]
    counts = read_counts()
    for one in found:
        one.count = counts.get((one.table, one.name), {})
    return found


def read_counts():
    """Instructions of one operation, for each row and side, from callgrind's dumps."""
    counts = {}
    for dump in (MEASURED / "counts").glob("of.*"):
        text = dump.read_text()
        of = re.search(r"^desc: Trigger: Client Request: (.*)$", text, re.M)
        if of:
            table, name, operations, side = of.group(1).split("\t")
            total = int(re.search(r"^summary: (\d+)$", text, re.M).group(1))
            counts.setdefault((table, name), {})[side] = total / int(operations)
    return counts
