#!/usr/bin/env python3
"""A second reader of the day's sheet, in Python, which shares no code with the program.

    tools/day.py SHEET < PLANT    what trayplan prints of a plant file where today.bin is the file SHEET
    tools/day.py --try N          makes N floors with sheets, some of them spoiled, and compares crates/trayplan/out/trayplan with this

The plan comes from tools/planner.py, on the caps that the sheet leaves.
"""

import random
import subprocess
import sys
import tempfile
from pathlib import Path

from judge import MOST_BYTES, Refused, judge, number
from planner import told

MOST_SHEET_BYTES = 4096
TOP_CAP = 1_000_000
LAYERS = {1: "framing", 2: "framing", 4: "record", 7: "floor", 10: "pile", 11: "pile"}


class RefusedSheet(Exception):
    def __init__(self, reason, place):
        self.reason, self.place = reason, place

    def line(self):
        return f"refused sheet {self.reason} {LAYERS[self.reason]} at {self.place} law 0\n"


class Day:
    """A plant on a day: some positions closed, and some sides with a ceiling."""

    def __init__(self, plant):
        self.plant = plant
        self.stations, self.stock, self.despatch = plant.stations, plant.stock, plant.despatch
        self.lanes, self.lanes_on = plant.lanes, plant.lanes_on
        self.closed = {}
        self.ceilings = {}

    def cap(self, side, code):
        for position in self.closed.get(side, ()):
            if code >> position & 1:
                code -= 2**position
        return min(self.plant.cap(side, code), self.ceilings.get(side, TOP_CAP))

    def take(self, kind, body, at):
        if kind not in (20, 21):
            raise RefusedSheet(2, at)
        if len(body) != {20: 4, 21: 6}[kind]:
            raise RefusedSheet(4, at)
        side = number(body, 0, 2)
        if side >= 2 * self.stations:
            raise RefusedSheet(11, at)
        if kind == 20:
            position = number(body, 2, 2)
            if position >= len(self.lanes_on(side)):
                raise RefusedSheet(11, at)
            self.closed.setdefault(side, set()).add(position)
        else:
            ceiling = number(body, 2, 4)
            if ceiling > TOP_CAP:
                raise RefusedSheet(10, at)
            self.ceilings[side] = ceiling


def day(plant, sheet):
    made = Day(plant)
    if len(sheet) > MOST_SHEET_BYTES:
        raise RefusedSheet(7, 0)
    at = 0
    while at < len(sheet):
        left = sheet[at:]
        if len(left) < 4 or not 4 <= number(left, 0, 2) <= len(left):
            raise RefusedSheet(1, at)
        length = number(left, 0, 2)
        made.take(number(left, 2, 2), left[4:length], at)
        at += length
    return made


def answer(file, sheet):
    """What is printed, and the status."""
    try:
        return told(day(judge(file), sheet)).lines(), 0
    except (Refused, RefusedSheet) as refused:
        return refused.line(), 1


# ---- sheets at random


def record(kind, *numbers):
    body = b"".join(n.to_bytes(size, "little") for n, size in numbers)
    return (4 + len(body)).to_bytes(2, "little") + kind.to_bytes(2, "little") + body


def drawn_sheet(draw, plant):
    rows = []
    for _ in range(draw.randint(0, 5)):
        side = draw.randrange(2 * plant.stations + (draw.random() < 0.05))
        width = len(plant.lanes_on(side)) if side < 2 * plant.stations else 1
        if draw.random() < 0.5 and width:
            rows.append(record(20, (side, 2), (draw.randrange(width + (draw.random() < 0.05)), 2)))
        else:
            rows.append(record(21, (side, 2), (draw.choice([0, 1, 2, 3, 5, 9, 1000, 1_000_000, 1_000_001]), 4)))
    if draw.random() < 0.1:
        rows.insert(draw.randint(0, len(rows)), record(draw.choice([1, 19, 20, 21, 22]), (draw.randrange(4), draw.choice([1, 2, 3]))))
    sheet = b"".join(rows)
    if draw.random() < 0.1 and sheet:
        sheet = sheet[: draw.randrange(len(sheet))]
    if draw.random() < 0.02:
        sheet = record(20, (0, 2), (0, 2)) * 513
    return sheet


def try_days(count):
    top = Path(__file__).resolve().parent.parent
    files = [bytes.fromhex(line.split()[0]) for line in (top / "crates/acceptance/stdin").read_text().splitlines()]
    draw = random.Random(20)
    agreed, refused = 0, 0
    with tempfile.TemporaryDirectory() as folder:
        for _ in range(count):
            file = draw.choice(files)
            sheet = drawn_sheet(draw, judge(file))
            (Path(folder) / "today.bin").write_bytes(sheet)
            expected = answer(file, sheet)
            done = subprocess.run([str(top / "crates/trayplan/out/trayplan")], input=file, capture_output=True, cwd=folder)
            if (done.stdout.decode(), done.returncode) != expected:
                print(f"differs: plant {file.hex()} sheet {sheet.hex()[:80]}")
            else:
                agreed += 1
                refused += expected[1]
    print(f"{count} days, {agreed} agreed, {refused} of them refused sheets")
    return agreed == count


def main():
    if sys.argv[1] == "--try":
        sys.exit(0 if try_days(int(sys.argv[2])) else 1)
    text, status = answer(sys.stdin.buffer.read(MOST_BYTES + 1), Path(sys.argv[1]).read_bytes())
    sys.stdout.write(text)
    sys.exit(status)


if __name__ == "__main__":
    main()
