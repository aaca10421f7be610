#!/usr/bin/env python3
"""A second judge of plant files, in Python. It shares no code with the program; docs/FORMAT.md and docs/REFUSALS.md have the rules.

It reads a plant file on standard input and prints exactly what plantcheck prints: the listing of the plant, with status 0, or
the line of the refusal, with status 1. tools/make_cases.py takes from it what the programs must print. Nothing here is proved,
and no proof leans on it; it is plain on purpose, and tests the laws of the caps on every pair of sets.
"""

import sys
from dataclasses import dataclass, field

MOST_BYTES = 60_000
MOST_STATIONS = 32
MOST_LANES = 64
MOST_ON_SIDE = 8
MOST_GROUPS = 16
TOP_LANE = 100_000
TOP_CAP = 1_000_000

HEAD, LANE, TABLE, GROUPS, GRADES = 1, 2, 3, 4, 5
KINDS = (HEAD, LANE, TABLE, GROUPS, GRADES)

FRAMING, KIND, ORDER, SIZE, RANGE, ENDS, TOO_MANY, SECOND_LIMIT, LAW = range(1, 10)
LAYERS = {
    FRAMING: "framing",
    KIND: "framing",
    ORDER: "record",
    SIZE: "record",
    RANGE: "record",
    ENDS: "floor",
    TOO_MANY: "floor",
    SECOND_LIMIT: "floor",
    LAW: "limit",
}


class Refused(Exception):
    """The first fault of a file: its number, the first byte of its record, and the law that is broken, or 0."""

    def __init__(self, number, place, law=0):
        super().__init__(number, place, law)
        self.number, self.place, self.law = number, place, law

    def line(self):
        return f"refused file {self.number} {LAYERS[self.number]} at {self.place} law {self.law}\n"


@dataclass
class Lane:
    start: int
    end: int
    cap: int


@dataclass
class Plant:
    stations: int
    stock: int
    despatch: int
    lanes: list = field(default_factory=list)
    # the limit of a side: a function from the positions of a set to its cap
    limits: dict = field(default_factory=dict)

    def lanes_on(self, side):
        """The numbers of a side's lanes, by position."""
        station, entering = divmod(side, 2)
        return [j for j, lane in enumerate(self.lanes) if (lane.end if entering else lane.start) == station]

    def own_caps(self, side):
        return [self.lanes[j].cap for j in self.lanes_on(side)]

    def cap(self, side, code):
        members = [p for p in range(len(self.lanes_on(side))) if code >> p & 1]
        if side in self.limits:
            return self.limits[side](members)
        own = self.own_caps(side)
        return sum(own[p] for p in members)

    def listing(self):
        lines = [f"stations {self.stations} lanes {len(self.lanes)} stock {self.stock} despatch {self.despatch}"]
        for j, lane in enumerate(self.lanes):
            lines.append(f"lane {j} from {lane.start} to {lane.end}")
        for side in range(2 * self.stations):
            on = self.lanes_on(side)
            if on:
                lanes = " ".join(str(j) for j in on)
                caps = " ".join(str(self.cap(side, code)) for code in range(2 ** len(on)))
                lines.append(f"side {side} lanes {lanes} caps {caps}")
        return "".join(line + "\n" for line in lines)


def number(data, at, size):
    return int.from_bytes(data[at : at + size], "little")


def numbers(data, size):
    return [number(data, at, size) for at in range(0, len(data), size)]


# ---- a head and a lane: the checks in the order of their numbers


def read_head(body, at):
    if len(body) != 6:
        raise Refused(SIZE, at)
    stations, stock, despatch = numbers(body, 2)
    if not 2 <= stations <= MOST_STATIONS or stock >= stations or despatch >= stations or stock == despatch:
        raise Refused(RANGE, at)
    return Plant(stations, stock, despatch)


def read_lane(plant, body, at):
    if plant.limits:
        raise Refused(ORDER, at)
    if len(body) != 8:
        raise Refused(SIZE, at)
    start, end, cap = number(body, 0, 2), number(body, 2, 2), number(body, 4, 4)
    if start >= plant.stations or end >= plant.stations or cap > TOP_LANE:
        raise Refused(RANGE, at)
    if start == end or end == plant.stock or start == plant.despatch:
        raise Refused(ENDS, at)
    out_side, in_side = 2 * start, 2 * end + 1
    if (
        len(plant.lanes) == MOST_LANES
        or len(plant.lanes_on(out_side)) == MOST_ON_SIDE
        or len(plant.lanes_on(in_side)) == MOST_ON_SIDE
    ):
        raise Refused(TOO_MANY, at)
    plant.lanes.append(Lane(start, end, cap))


# ---- the limits: the fixed part's size, the side, a second limit, the number of groups, the whole size, the other numbers, the laws


def read_limit(plant, kind, body, at):
    if len(body) < (4 if kind == GROUPS else 2):
        raise Refused(SIZE, at)
    side = number(body, 0, 2)
    if side >= 2 * plant.stations:
        raise Refused(RANGE, at)
    if side in plant.limits:
        raise Refused(SECOND_LIMIT, at)
    width = len(plant.lanes_on(side))
    if kind == TABLE:
        plant.limits[side] = read_table(width, body[2:], at)
    elif kind == GROUPS:
        plant.limits[side] = read_groups(plant.own_caps(side), number(body, 2, 2), body[4:], at)
    else:
        plant.limits[side] = read_grades(width, body[2:], at)


def read_table(width, body, at):
    if len(body) != 4 * 2**width:
        raise Refused(SIZE, at)
    caps = numbers(body, 4)
    if any(cap > TOP_CAP for cap in caps):
        raise Refused(RANGE, at)
    law = broken_law(caps)
    if law:
        raise Refused(LAW, at, law)
    return lambda members: caps[sum(2**p for p in members)]


def broken_law(caps):
    """The lowest law that a table breaks, or 0."""
    codes = range(len(caps))
    if caps[0] != 0:
        return 1
    if any(x & y == x and caps[x] > caps[y] for x in codes for y in codes):
        return 2
    if any(caps[x | y] + caps[x & y] > caps[x] + caps[y] for x in codes for y in codes):
        return 3
    return 0


def read_groups(own, count, body, at):
    if not 1 <= count <= MOST_GROUPS:
        raise Refused(RANGE, at)
    if len(body) != 6 * count + 2 * len(own):
        raise Refused(SIZE, at)
    parents = [number(body, 6 * j, 2) for j in range(count)]
    bounds = [number(body, 6 * j + 2, 4) for j in range(count)]
    groups = numbers(body[6 * count :], 2)
    parents_stand = parents[0] == 0 and all(parents[j] < j for j in range(1, count))
    if not parents_stand or any(bound > TOP_CAP for bound in bounds) or any(group >= count for group in groups):
        raise Refused(RANGE, at)

    def worth(group, members):
        lanes = sum(own[p] for p in members if groups[p] == group)
        below = sum(worth(j, members) for j in range(1, count) if parents[j] == group)
        return min(bounds[group], lanes + below)

    return lambda members: worth(0, members)


def read_grades(width, body, at):
    if len(body) != 4 * width:
        raise Refused(SIZE, at)
    grades = numbers(body, 4)
    if any(grade > TOP_LANE for grade in grades):
        raise Refused(RANGE, at)
    if any(after > before for before, after in zip(grades, grades[1:])):
        raise Refused(LAW, at, 3)
    return lambda members: sum(grades[: len(members)])


# ---- a file


def judge(data):
    """The plant that a file holds; a refused file raises Refused."""
    if len(data) > MOST_BYTES:
        raise Refused(TOO_MANY, 0)
    plant = None
    at = 0
    while at < len(data):
        left = len(data) - at
        if left < 4 or not 4 <= number(data, at, 2) <= left:
            raise Refused(FRAMING, at)
        length, kind = number(data, at, 2), number(data, at + 2, 2)
        body = data[at + 4 : at + length]
        if kind not in KINDS:
            raise Refused(KIND, at)
        if (plant is None) != (kind == HEAD):
            raise Refused(ORDER, at)
        if kind == HEAD:
            plant = read_head(body, at)
        elif kind == LANE:
            read_lane(plant, body, at)
        else:
            read_limit(plant, kind, body, at)
        at += length
    if plant is None:
        raise Refused(ORDER, len(data))
    return plant


def main():
    try:
        sys.stdout.write(judge(sys.stdin.buffer.read(MOST_BYTES + 1)).listing())
    except Refused as refused:
        sys.stdout.write(refused.line())
        sys.exit(1)


if __name__ == "__main__":
    main()
