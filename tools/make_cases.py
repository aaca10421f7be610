#!/usr/bin/env python3
"""Writes the sample plant files, and the files that the programs are tried on with what they must print.

    samples/*.plant               plant files to try plantcheck on
    samples/short-day/today.bin   a day's sheet for one of them
    crates/plantcheck/stdin       a sample, and crates/plantcheck/stdout its listing
    crates/trayplan/stdin         the same with that sheet, in data/, and crates/trayplan/stdout its plan
    crates/verdicts/stdin         small plant files, each a line of hex digits (an empty line is the empty file)
    crates/verdicts/stdout        the verdict of each: `accepted`, or the line of its refusal

What must be printed comes from tools/judge.py. The cases that are written out here have their verdict beside them as well, and
the two must agree. The same files come out at every run.
"""

import random
from pathlib import Path

from day import answer
from judge import Refused, judge

TOP = Path(__file__).resolve().parent.parent

# ---- records as bytes


def word(n):
    return n.to_bytes(2, "little")


def long(n):
    return n.to_bytes(4, "little")


def longs(values):
    return b"".join(long(n) for n in values)


def record(kind, body=b"", length=None):
    return word(4 + len(body) if length is None else length) + word(kind) + body


def head(stations, stock, despatch):
    return record(1, word(stations) + word(stock) + word(despatch))


def lane(start, end, cap=1):
    return record(2, word(start) + word(end) + long(cap))


def table(side, caps):
    return record(3, word(side) + longs(caps))


def groups(side, pairs, members, count=None):
    """Groups with (parent, bound) each, and the group of each position."""
    number = len(pairs) if count is None else count
    rows = b"".join(word(parent) + long(bound) for parent, bound in pairs)
    return record(4, word(side) + word(number) + rows + b"".join(word(group) for group in members))


def grades(side, values):
    return record(5, word(side) + longs(values))


# ---- the samples

TWO_LANES = head(2, 0, 1) + lane(0, 1, 3) + lane(0, 1, 4)

# An old floor. Stock 0, two encoders 1 and 2, laser 3, printer 4, packing 5, despatch 6. Every lane is limited by itself alone.
OLD_LANES = [
    (0, 1, 1500),
    (0, 1, 900),
    (0, 2, 2200),
    (1, 3, 1300),
    (1, 4, 1200),
    (2, 3, 1000),
    (2, 4, 1100),
    (2, 5, 400),
    (3, 5, 1900),
    (4, 5, 1800),
    (5, 6, 2500),
    (5, 6, 2000),
]
OLD_FLOOR = head(7, 0, 6) + b"".join(lane(*row) for row in OLD_LANES)

# A new floor. Stock 0, two encoders 1 and 2, laser hall 3, print hall 4, despatch 5.
NEW_FLOOR = (
    head(6, 0, 5)
    + lane(0, 1, 1500)
    + lane(0, 1, 900)
    + lane(0, 2, 2200)
    + lane(1, 3, 1300)
    + lane(1, 4, 1200)
    + lane(2, 3, 1000)
    + lane(2, 4, 1100)
    + lane(3, 5, 2000)
    + lane(4, 5, 1900)
    + lane(4, 5, 700)
    # three lanes leave the stock over two grippers: measured, a cap for each set of them
    + table(0, [0, 1500, 900, 2000, 2200, 3200, 2800, 3600])
    # the lasers: the first lane in use gets 1300, the second 700 more
    + grades(7, [1300, 700])
    # the printers: the lane from the first encoder has a printer of 800 inside a row of printers of 1800
    + groups(9, [(0, 1_000_000), (0, 1800), (1, 800)], [2, 1])
    # lanes 8 and 9 end at one packing table of 2300, and despatch takes 4000 in all
    + groups(11, [(0, 4000), (0, 2300)], [0, 1, 1])
)

# A day on the new floor: the first lane into the printer is closed, and the laser takes 1,500 trays at most.
SHORT_DAY = record(20, word(9) + word(0)) + record(21, word(7) + long(1500))

SAMPLES = {
    "old-floor": OLD_FLOOR,
    "new-floor": NEW_FLOOR,
    "two-lanes": TWO_LANES + table(0, [0, 3, 4, 5]),
    "refused": TWO_LANES + table(0, [0, 3, 4, 8]),
}


def most_trays(rows, stock, despatch):
    """How many trays plain lanes carry at most: the largest flow, by paths that still have room."""
    room = {}
    for start, end, cap in rows:
        room[start, end] = room.get((start, end), 0) + cap
        room.setdefault((end, start), 0)
    total = 0
    while True:
        came_from, open_stations = {stock: None}, [stock]
        for station in open_stations:
            for (start, end), left in room.items():
                if start == station and left and end not in came_from:
                    came_from[end] = start
                    open_stations.append(end)
        if despatch not in came_from:
            return total
        path, end = [], despatch
        while came_from[end] is not None:
            path.append((came_from[end], end))
            end = came_from[end]
        amount = min(room[step] for step in path)
        for start, end in path:
            room[start, end] -= amount
            room[end, start] += amount
        total += amount


# ---- cases with their verdicts: `accepted`, or number and place, and the law of a number 9

CASES = []


def case(verdict, data):
    CASES.append((verdict, data))


HEAD = head(2, 0, 1)
THREE = head(3, 0, 2)  # one station, 1, between stock and despatch


def framing_cases():
    case("3 at 0", b"")
    for size in (1, 2, 3):
        case("1 at 0", HEAD[:size])
        case("1 at 10", HEAD + HEAD[:size])
        case("1 at 10", HEAD + bytes(size))
        case("1 at 22", HEAD + lane(0, 1) + lane(0, 1)[:size])
    for length in (0, 1, 2, 3, 11, 65535):
        case("1 at 0", record(1, HEAD[4:], length))
        case("1 at 10", HEAD + record(2, lane(0, 1)[4:], length if length != 11 else 13))
    case("1 at 34", TWO_LANES + record(3, word(0) + longs([0, 3, 4, 5]), 23))
    # a length that stops short of the record's end: the size is wrong first, and the rest is never looked at
    case("4 at 0", record(1, HEAD[4:], 9))
    case("4 at 10", HEAD + record(2, lane(0, 1)[4:], 11))
    # the framing is judged before the kind
    case("1 at 0", record(9, b"", 3))
    case("1 at 0", record(9, b"", 5))
    case("1 at 10", HEAD + record(0, b"", 0))
    for kind in (0, 6, 7, 20, 21, 255, 256, 257, 258, 513, 65535):
        case("2 at 0", record(kind, HEAD[4:]))
        case("2 at 10", HEAD + record(kind, lane(0, 1)[4:]))
    case("2 at 0", record(6))
    case("2 at 34", TWO_LANES + record(6))
    case("2 at 56", TWO_LANES + table(0, [0, 3, 4, 5]) + record(6, word(0)))


def order_cases():
    case("3 at 0", lane(0, 1))
    case("3 at 0", table(0, [0]))
    case("3 at 0", groups(0, [(0, 1)], []))
    case("3 at 0", grades(0, []))
    case("3 at 0", lane(0, 1) + HEAD)
    # the order is judged before the size
    for kind in (2, 3, 4, 5):
        case("3 at 0", record(kind))
    case("3 at 10", HEAD + HEAD)
    case("3 at 10", HEAD + head(3, 0, 2))
    case("3 at 10", HEAD + record(1))
    case("3 at 10", HEAD + head(99, 0, 0))
    case("3 at 22", HEAD + lane(0, 1) + HEAD)
    case("3 at 34", TWO_LANES + HEAD)
    case("3 at 56", TWO_LANES + table(0, [0, 3, 4, 5]) + HEAD)
    for limit in (table(0, [0, 3, 4, 5]), groups(3, [(0, 9)], [0, 0]), grades(0, [3, 2])):
        after = TWO_LANES + limit
        place = f"3 at {len(after)}"
        case("accepted", after)
        case(place, after + lane(0, 1))
        # a lane after a limit is out of order whatever it holds
        case(place, after + record(2))
        case(place, after + lane(0, 9))
        case(place, after + lane(0, 0))
        case(place, after + lane(1, 0, 100_001))
    case("3 at 16", HEAD + grades(0, []) + lane(0, 1))


def size_cases():
    for size in (0, 1, 2, 3, 4, 5, 7, 8, 12):
        case("4 at 0", record(1, bytes(size)))
    case("4 at 0", record(1, HEAD[4:] + b"\0"))
    for size in (0, 1, 2, 4, 7, 9, 10, 16):
        case("4 at 10", HEAD + record(2, bytes(size)))
    # the size is judged before the range: these bodies would be out of range too
    case("4 at 0", record(1, b"\xff" * 5))
    case("4 at 10", HEAD + record(2, b"\xff" * 7))
    case("4 at 10", HEAD + record(2, b"\xff" * 9))
    # the fixed part of a limit: its side, and for groups their number too
    for kind in (3, 5):
        for size in (0, 1):
            case("4 at 34", TWO_LANES + record(kind, b"\xff" * size))
    for size in (0, 1, 2, 3):
        case("4 at 34", TWO_LANES + record(4, b"\xff" * size))
        case("4 at 34", TWO_LANES + record(4, bytes(size)))
    for caps in ([], [0], [0, 3], [0, 3, 4], [0, 3, 4, 5, 5], [0, 3, 4, 5, 5, 5, 5, 5]):
        case("4 at 34", TWO_LANES + table(0, caps))
    for size in (15, 17, 18):
        case("4 at 34", TWO_LANES + record(3, word(0) + bytes(size)))
    for values in ([], [3], [3, 2, 1]):
        case("4 at 34", TWO_LANES + grades(0, values))
    for size in (7, 9):
        case("4 at 34", TWO_LANES + record(5, word(0) + bytes(size)))
    case("4 at 34", TWO_LANES + groups(0, [(0, 9)], []))
    case("4 at 34", TWO_LANES + groups(0, [(0, 9)], [0]))
    case("4 at 34", TWO_LANES + groups(0, [(0, 9)], [0, 0, 0]))
    case("4 at 34", TWO_LANES + groups(0, [(0, 9)], [0, 0], count=2))
    case("4 at 34", TWO_LANES + groups(0, [(0, 9), (0, 9)], [0, 0], count=1))
    case("4 at 34", TWO_LANES + record(4, word(0) + word(1) + bytes(9)))
    # the whole size is judged before the numbers and the laws
    case("4 at 34", TWO_LANES + table(0, [1, 3, 4]))
    case("4 at 34", TWO_LANES + table(0, [0, 1_000_001, 4]))
    case("4 at 34", TWO_LANES + grades(0, [1, 2, 3]))
    case("4 at 34", TWO_LANES + grades(0, [100_001]))
    case("4 at 34", TWO_LANES + groups(0, [(1, 1_000_001)], [7]))


def range_cases():
    for stations in (0, 1, 33, 34, 256, 65535):
        case("5 at 0", head(stations, 0, 1))
    for stations in (2, 3, 31, 32):
        case("accepted", head(stations, 0, 1))
        case("accepted", head(stations, stations - 1, 0))
        case("5 at 0", head(stations, stations, 1))
        case("5 at 0", head(stations, 0, stations))
        case("5 at 0", head(stations, 1, 1))
    case("5 at 0", head(2, 0, 65535))
    for start, end in ((3, 1), (0, 3), (65535, 1), (0, 65535), (3, 3)):
        case("5 at 10", THREE + lane(start, end))
    for cap in (0, 1, 99_999, 100_000):
        case("accepted", HEAD + lane(0, 1, cap))
    for cap in (100_001, 1_000_000, 2**31, 2**32 - 1):
        case("5 at 10", HEAD + lane(0, 1, cap))
        case("5 at 22", HEAD + lane(0, 1) + lane(0, 1, cap))
    # the range is judged before the ends
    case("5 at 10", HEAD + lane(0, 0, 100_001))
    case("5 at 10", HEAD + lane(1, 0, 100_001))
    case("5 at 10", HEAD + lane(2, 2))
    for side in (4, 5, 65535):
        case("5 at 34", TWO_LANES + table(side, [0]))
        case("5 at 34", TWO_LANES + groups(side, [(0, 1)], []))
        case("5 at 34", TWO_LANES + grades(side, []))
        # the side is judged before the number of groups and before the whole size
        case("5 at 34", TWO_LANES + table(side, []))
        case("5 at 34", TWO_LANES + grades(side, [1, 2]))
        case("5 at 34", TWO_LANES + groups(side, [], [], count=0))
    case("accepted", TWO_LANES + table(3, [0, 3, 4, 5]))
    case("accepted", TWO_LANES + table(0, [0, 1_000_000, 1_000_000, 1_000_000]))
    for caps in ([0, 0, 0, 1_000_001], [0, 1_000_001, 0, 0], [1_000_001, 0, 0, 0], [0, 3, 4, 2**32 - 1]):
        # the numbers are judged before the laws
        case("5 at 34", TWO_LANES + table(0, caps))
    case("accepted", TWO_LANES + grades(0, [100_000, 100_000]))
    for values in ([100_001, 0], [0, 100_001], [100_001, 100_002], [2**32 - 1, 0]):
        case("5 at 34", TWO_LANES + grades(0, values))


def groups_cases():
    def on_two(pairs, members, count=None):
        return TWO_LANES + groups(0, pairs, members, count)

    case("accepted", on_two([(0, 5)], [0, 0]))
    case("accepted", on_two([(0, 0)], [0, 0]))
    case("accepted", on_two([(0, 1_000_000), (0, 1_000_000)], [0, 1]))
    case("accepted", on_two([(0, 9), (0, 3), (1, 2)], [2, 1]))
    case("accepted", on_two([(0, 9)] + [(j, 9) for j in range(15)], [15, 0]))
    case("accepted", on_two([(0, 9)] * 16, [15, 15]))
    # the number of groups is judged before the whole size
    for count in (0, 17, 256, 65535):
        case("5 at 34", on_two([(0, 9)], [0, 0], count))
        case("5 at 34", on_two([], [], count))
    case("5 at 34", on_two([(0, 9)] * 17, [0, 0]))
    # parents
    case("5 at 34", on_two([(1, 9)], [0, 0]))
    case("5 at 34", on_two([(1, 9), (0, 9)], [0, 0]))
    case("5 at 34", on_two([(0, 9), (1, 9)], [0, 0]))
    case("5 at 34", on_two([(0, 9), (2, 9), (0, 9)], [0, 0]))
    case("5 at 34", on_two([(0, 9), (0, 9), (2, 9)], [0, 0]))
    case("5 at 34", on_two([(0, 9), (0, 9), (3, 9)], [0, 0]))
    case("5 at 34", on_two([(0, 9), (65535, 9)], [0, 0]))
    # bounds
    case("5 at 34", on_two([(0, 1_000_001)], [0, 0]))
    case("5 at 34", on_two([(0, 9), (0, 1_000_001)], [0, 0]))
    case("5 at 34", on_two([(0, 9), (0, 2**32 - 1)], [0, 0]))
    # members
    case("5 at 34", on_two([(0, 9)], [1, 0]))
    case("5 at 34", on_two([(0, 9)], [0, 1]))
    case("5 at 34", on_two([(0, 9), (0, 9)], [1, 2]))
    case("5 at 34", on_two([(0, 9), (0, 9)], [65535, 0]))
    # a side with no lane: groups with no member
    case("accepted", TWO_LANES + groups(1, [(0, 9)], []))
    case("accepted", TWO_LANES + groups(2, [(0, 9), (0, 9)], []))
    case("4 at 34", TWO_LANES + groups(1, [(0, 9)], [0]))


def ends_cases():
    case("6 at 10", HEAD + lane(0, 0))
    case("6 at 10", HEAD + lane(1, 1))
    case("6 at 10", HEAD + lane(1, 0))
    case("6 at 10", THREE + lane(1, 1))
    case("6 at 10", THREE + lane(1, 0))
    case("6 at 10", THREE + lane(2, 1))
    case("6 at 22", THREE + lane(0, 1) + lane(2, 0))
    case("accepted", THREE + lane(0, 2))
    case("accepted", head(3, 2, 0) + lane(2, 1) + lane(1, 0) + lane(2, 0))
    case("6 at 10", head(3, 2, 0) + lane(0, 2))
    case("6 at 10", head(3, 2, 0) + lane(1, 2))
    case("6 at 10", head(3, 2, 0) + lane(0, 1))


def too_many_cases():
    eight = HEAD + lane(0, 1) * 8
    case("accepted", eight)
    case("7 at 106", eight + lane(0, 1))
    # a ninth lane out of one station, and a ninth into another
    fan = head(4, 0, 3)
    out = fan + lane(0, 1) * 4 + lane(0, 2) * 4
    case("accepted", out)
    case("7 at 106", out + lane(0, 3))
    into = fan + lane(1, 3) * 4 + lane(2, 3) * 4
    case("accepted", into)
    case("7 at 106", into + lane(0, 3))
    middle = fan + lane(1, 2) * 8
    case("accepted", middle)
    case("7 at 106", middle + lane(1, 2))
    case("7 at 106", middle + lane(1, 3))
    case("7 at 106", middle + lane(0, 2))
    case("accepted", middle + lane(0, 1) * 8 + lane(2, 3) * 8)
    case("7 at 202", middle + lane(0, 1) * 8 + lane(0, 3))
    case("7 at 202", middle + lane(2, 3) * 8 + lane(0, 3))
    # the ends are judged before the count, and the range before both
    case("6 at 106", eight + lane(0, 0))
    case("6 at 106", out + lane(0, 0))
    case("5 at 106", eight + lane(0, 1, 100_001))
    case("5 at 106", eight + lane(0, 2))
    case("4 at 106", eight + record(2, bytes(9)))
    # 64 lanes on a floor where no side is full
    wide = head(32, 0, 31) + b"".join(lane(i, i + 1) * 2 for i in range(31)) + lane(0, 2) + lane(1, 3)
    case("accepted", wide)
    case("7 at 778", wide + lane(2, 4))
    case("6 at 778", wide + lane(2, 2))
    case("6 at 778", wide + lane(2, 0))
    case("5 at 778", wide + lane(2, 32))
    case("accepted", wide + grades(63, [2, 1]))
    # 64 lanes on full sides: eight between neighbours, nine stations
    row = head(9, 0, 8) + b"".join(lane(i, i + 1) * 8 for i in range(8))
    case("accepted", row)
    case("7 at 778", row + lane(0, 8))
    case("7 at 778", row + lane(3, 4))
    # a head of 32 stations with a lane between the last two
    case("accepted", head(32, 30, 31) + lane(30, 31))


def second_limit_cases():
    first = {
        "table": table(0, [0, 3, 4, 5]),
        "groups": groups(0, [(0, 5)], [0, 0]),
        "grades": grades(0, [3, 2]),
    }
    for one in first.values():
        for two in first.values():
            case(f"8 at {34 + len(one)}", TWO_LANES + one + two)
    limited = TWO_LANES + first["table"]
    # a second limit is refused before its number of groups, its whole size, its numbers and its laws
    case("8 at 56", limited + table(0, []))
    case("8 at 56", limited + table(0, [1, 2, 3, 9]))
    case("8 at 56", limited + table(0, [1_000_001] * 4))
    case("8 at 56", limited + grades(0, [1, 2]))
    case("8 at 56", limited + groups(0, [], [], count=0))
    case("8 at 56", limited + groups(0, [(7, 2**32 - 1)], [9, 9, 9]))
    # and after the size of its fixed part, and its side
    case("4 at 56", limited + record(3))
    case("4 at 56", limited + record(4, word(0)))
    case("4 at 56", limited + record(5, b"\0"))
    case("5 at 56", limited + grades(4, []))
    # limits for other sides
    case("accepted", limited + groups(3, [(0, 5)], [0, 0]) + grades(1, []) + table(2, [0]))
    case("8 at 62", limited + grades(1, []) + table(1, [0]))
    case("8 at 68", limited + grades(1, []) + grades(2, []) + table(0, [0, 3, 4, 5]))


def law_cases():
    case("accepted", TWO_LANES + table(0, [0, 3, 4, 5]))
    case("accepted", TWO_LANES + table(0, [0, 3, 4, 7]))
    case("accepted", TWO_LANES + table(0, [0, 0, 0, 0]))
    case("accepted", TWO_LANES + table(0, [0, 3, 4, 4]))
    case("9 at 34 law 1", TWO_LANES + table(0, [1, 3, 4, 5]))
    case("9 at 34 law 1", TWO_LANES + table(0, [1, 1, 1, 1]))
    case("9 at 34 law 2", TWO_LANES + table(0, [0, 3, 4, 3]))
    case("9 at 34 law 2", TWO_LANES + table(0, [0, 4, 3, 3]))
    case("9 at 34 law 3", TWO_LANES + table(0, [0, 3, 4, 8]))
    case("9 at 34 law 3", TWO_LANES + table(3, [0, 0, 0, 1]))
    # the lowest law is named
    case("9 at 34 law 1", TWO_LANES + table(0, [1, 3, 4, 8]))
    case("9 at 34 law 1", TWO_LANES + table(0, [5, 3, 4, 3]))
    case("9 at 34 law 1", TWO_LANES + table(0, [1_000_000, 0, 0, 1_000_000]))
    one = HEAD + lane(0, 1)
    case("accepted", one + table(0, [0, 0]))
    case("accepted", one + table(0, [0, 1_000_000]))
    case("9 at 22 law 1", one + table(0, [2, 1]))
    three = HEAD + lane(0, 1) * 3
    case("accepted", three + table(0, [0, 2, 2, 3, 2, 3, 3, 3]))
    case("9 at 46 law 2", three + table(0, [0, 2, 2, 3, 5, 4, 5, 5]))
    case("9 at 46 law 2", three + table(0, [0, 2, 2, 3, 2, 3, 3, 2]))
    case("9 at 46 law 2", three + table(0, [0, 1, 1, 9, 1, 1, 1, 8]))
    # law 3 is broken only beside a third lane
    case("9 at 46 law 3", three + table(0, [0, 1, 1, 2, 1, 1, 1, 2]))
    case("9 at 46 law 3", three + table(0, [0, 2, 2, 3, 2, 3, 3, 5]))
    case("9 at 46 law 3", three + table(0, [0, 1, 1, 1, 1, 1, 3, 3]))
    eight = HEAD + lane(0, 1) * 8
    sizes = [bin(code).count("1") for code in range(256)]
    case("accepted", eight + table(0, sizes))
    case("accepted", eight + table(3, [min(size, 5) for size in sizes]))
    case("9 at 106 law 2", eight + table(0, sizes[:255] + [6]))
    case("9 at 106 law 3", eight + table(0, sizes[:255] + [9]))
    case("9 at 106 law 3", eight + table(0, [size * size for size in sizes]))
    case("accepted", eight + grades(0, [8, 7, 6, 5, 4, 3, 2, 1]))
    case("9 at 106 law 3", eight + grades(0, [8, 7, 6, 5, 4, 3, 1, 2]))
    case("accepted", three + grades(0, [5, 5, 2]))
    case("accepted", three + grades(0, [0, 0, 0]))
    case("9 at 34 law 3", TWO_LANES + grades(0, [2, 5]))
    case("9 at 34 law 3", TWO_LANES + grades(3, [0, 1]))
    case("9 at 46 law 3", three + grades(0, [5, 2, 3]))
    case("9 at 46 law 3", three + grades(0, [4, 5, 5]))
    # sides with no lane
    case("accepted", HEAD + table(0, [0]))
    case("9 at 10 law 1", HEAD + table(0, [1]))
    case("9 at 10 law 1", HEAD + table(3, [1_000_000]))
    case("5 at 10", HEAD + table(0, [1_000_001]))
    case("4 at 10", HEAD + table(0, []))
    case("4 at 10", HEAD + table(0, [0, 0]))
    case("accepted", HEAD + grades(0, []))
    case("4 at 10", HEAD + grades(0, [0]))
    case("accepted", TWO_LANES + table(1, [0]) + grades(2, []))
    case("9 at 44 law 1", TWO_LANES + table(1, [0]) + table(2, [1]))


def first_fault_cases():
    """Two records at fault: the earlier decides, whatever its number."""
    case("9 at 34 law 3", TWO_LANES + table(0, [0, 3, 4, 8]) + b"\1")
    case("9 at 34 law 2", TWO_LANES + table(0, [0, 3, 4, 3]) + record(6))
    case("8 at 56", TWO_LANES + table(0, [0, 3, 4, 5]) + table(0, [0, 3, 4, 5]) + HEAD)
    case("7 at 106", HEAD + lane(0, 1) * 9 + record(6))
    case("6 at 10", HEAD + lane(1, 0) + b"\0\0\0")
    case("5 at 10", HEAD + lane(0, 1, 100_001) + lane(0, 1)[:7])
    case("5 at 0", head(1, 0, 0) + b"\0")
    case("4 at 0", record(1) + record(9))
    case("4 at 10", HEAD + record(2) + HEAD)
    case("3 at 10", HEAD + HEAD + record(9))
    case("2 at 10", HEAD + record(9) + b"\0")
    case("5 at 34", TWO_LANES + grades(0, [100_001, 0]) + table(3, [0, 3, 4, 8]))
    case("9 at 34 law 3", TWO_LANES + grades(0, [0, 1]) + grades(3, [100_001, 0]))


# ---- files that are cut off: a record that is not whole is a fault of framing at its first byte


def cut_cases():
    parts = [
        head(3, 0, 2),
        lane(0, 1, 6),
        lane(1, 2, 3),
        lane(1, 2, 4),
        table(0, [0, 6]),
        groups(2, [(0, 5), (0, 3)], [1, 0]),
        grades(5, [3, 2]),
    ]
    whole = b"".join(parts)
    starts = [sum(map(len, parts[:i])) for i in range(len(parts) + 1)]
    for size in range(1, len(whole) + 1):
        begun = max(start for start in starts if start <= size)
        case("accepted" if begun == size else f"1 at {begun}", whole[:size])


# ---- files drawn at random, whole and spoiled; their verdicts are the judge's alone


def lawful_table(draw, own):
    """The caps of a side where each lane takes its own, some lanes share a machine, and the side has a bound."""
    shared = draw.randrange(2 ** len(own))
    machine = draw.randint(0, 8)
    bound = draw.randint(0, 20)

    def cap(code):
        inside = sum(n for p, n in enumerate(own) if code & shared & 2**p)
        outside = sum(n for p, n in enumerate(own) if code & ~shared & 2**p)
        return min(bound, min(machine, inside) + outside)

    return [cap(code) for code in range(2 ** len(own))]


def drawn_limit(draw, side, own):
    kind = draw.choice(("table", "groups", "grades"))
    if kind == "table":
        return table(side, lawful_table(draw, own))
    if kind == "grades":
        return grades(side, sorted((draw.randint(0, 9) for _ in own), reverse=True))
    count = draw.randint(1, 4)
    pairs = [(draw.randrange(j) if j else 0, draw.randint(0, 12)) for j in range(count)]
    return groups(side, pairs, [draw.randrange(count) for _ in own])


def drawn_records(draw):
    stations = draw.randint(2, 5)
    stock, despatch = draw.sample(range(stations), 2)
    records, own = [head(stations, stock, despatch)], {}
    for _ in range(draw.randint(0, 6)):
        start = draw.choice([i for i in range(stations) if i != despatch])
        ends = [i for i in range(stations) if i not in (stock, start)]
        if not ends:
            continue
        end, cap = draw.choice(ends), draw.randint(0, 9)
        records.append(lane(start, end, cap))
        own.setdefault(2 * start, []).append(cap)
        own.setdefault(2 * end + 1, []).append(cap)
    for side in draw.sample(range(2 * stations), draw.randint(0, 4)):
        if len(own.get(side, [])) <= 4:
            records.append(drawn_limit(draw, side, own.get(side, [])))
    return records


def spoiled(draw, records):
    """One or two small changes to a file."""
    records = list(records)
    for _ in range(draw.randint(1, 2)):
        at = draw.randrange(len(records))
        change = draw.choice(("byte", "byte", "byte", "low byte", "drop", "double", "swap", "cut", "more"))
        spot = draw.randrange(len(records[at])) if records[at] else 0
        if change in ("byte", "low byte") and records[at]:
            value = draw.randrange(256) if change == "byte" else draw.randrange(12)
            records[at] = records[at][:spot] + bytes([value]) + records[at][spot + 1 :]
        elif change == "drop" and len(records) > 1:
            del records[at]
        elif change == "double":
            records.insert(draw.randint(0, len(records)), records[at])
        elif change == "swap":
            other = draw.randrange(len(records))
            records[at], records[other] = records[other], records[at]
        elif change == "cut":
            records[at] = records[at][:spot]
        elif change == "more":
            records[at] = records[at] + bytes([draw.randrange(4)])
    return b"".join(records)


def drawn_files(count):
    draw = random.Random(20_240_611)
    for _ in range(count):
        records = drawn_records(draw)
        yield b"".join(records)
        for _ in range(4):
            yield spoiled(draw, records)


# ---- writing it all


def told(data):
    try:
        judge(data)
        return "accepted\n"
    except Refused as refused:
        return refused.line()


def short(line):
    """A verdict line as the cases above write it."""
    words = line.split()
    if words[0] == "accepted":
        return "accepted"
    return f"{words[2]} at {words[5]}" + (f" law {words[7]}" if words[7] != "0" else "")


def main():
    assert most_trays(OLD_LANES, 0, 6) == 4100
    for name, data in SAMPLES.items():
        write(f"samples/{name}.plant", data)
    write("crates/plantcheck/stdin", NEW_FLOOR)
    write("crates/plantcheck/stdout", judge(NEW_FLOOR).listing().encode())
    write("samples/short-day/today.bin", SHORT_DAY)
    write("crates/trayplan/data/today.bin", SHORT_DAY)
    write("crates/trayplan/stdin", NEW_FLOOR)
    write("crates/trayplan/stdout", answer(NEW_FLOOR, SHORT_DAY)[0].encode())

    for add in (
        framing_cases,
        order_cases,
        size_cases,
        range_cases,
        groups_cases,
        ends_cases,
        too_many_cases,
        second_limit_cases,
        law_cases,
        first_fault_cases,
        cut_cases,
    ):
        add()
    for verdict, data in CASES:
        assert short(told(data)) == verdict, (verdict, told(data), data.hex())
    files = list(SAMPLES.values()) + [data for _, data in CASES] + list(drawn_files(100))
    files = list(dict.fromkeys(files))
    verdicts = [told(data) for data in files]
    write("crates/verdicts/stdin", "".join(data.hex() + "\n" for data in files).encode())
    write("crates/verdicts/stdout", "".join(verdicts).encode())

    counts = {}
    for verdict in verdicts:
        kind = " ".join(verdict.split()[:3])
        counts[kind] = counts.get(kind, 0) + 1
    print(f"{len(files)} files")
    for kind, count in sorted(counts.items()):
        print(f"  {kind}: {count}")


def write(path, data):
    target = TOP / path
    target.parent.mkdir(parents=True, exist_ok=True)
    target.write_bytes(data)


if __name__ == "__main__":
    main()
