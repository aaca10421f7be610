#!/usr/bin/env python3
"""Writes the floors that crates/acceptance plans, with what each plan must answer.

    crates/acceptance/stdin       floors, one a line
    crates/acceptance/stdout      what the program must print when all of them agree

A line is the bytes of a plant file in hex digits, and after a space what is told of its plan, word by word: for each move its
amount, `/`, its number of lanes, `=`, the total after it, and then, in lane order, `+` or `-` with the number of every lane on
which the trays rose or fell by the amount; `total` and the total; `moves` and their number; `trays` and those on each lane; `cut`
and the bytes of the lanes in one word, which is empty where there is no lane; `near` and a digit for each station in one word, 1
for a near one. A floor of two lanes of 3 and 4 between stock and despatch has, after its file:

    3/1=3+0 4/1=7+1 total 7 moves 2 trays 3 4 cut UU near 10

All that is told comes from tools/planner.py. The worked floors have their moves written out here as well, and the two must agree.
The same lines come out at every run, which takes some ten seconds.
"""

import random
from pathlib import Path

from judge import judge
from make_cases import SAMPLES, TWO_LANES, grades, groups, head, lane, table, write
from planner import Floor, told

BENCH = Path(__file__).resolve().parent.parent / "bench"


def line(data):
    plan = told(judge(data))
    words, total = [], 0
    for move in plan.moves:
        total += move.amount
        changes = sorted((step.lane, "+" if step.plus else "-") for step in move.path)
        words.append(f"{move.amount}/{len(move.path)}={total}" + "".join(f"{sign}{e}" for e, sign in changes))
    words += ["total", str(plan.total), "moves", str(len(plan.moves))]
    words += ["trays"] + [str(n) for n in plan.trays]
    words += ["cut", plan.lanes, "near", "".join("1" if near else "0" for near in plan.near)]
    return data.hex() + " " + " ".join(words)


# ---- worked floors: the amount of each move, and its lanes in the order of the path

WORKED = []


def worked(moves, data):
    WORKED.append((moves, data))


def lanes(rows, cap):
    return b"".join(lane(start, end, cap) for start, end in rows)


def worked_floors():
    worked([(3, "+0"), (4, "+1")], TWO_LANES)
    worked([(3, "+0"), (2, "+1")], TWO_LANES + table(0, [0, 3, 4, 5]))
    worked([(3, "+0"), (4, "+1")], TWO_LANES + table(0, [0, 3, 4, 7]))
    three = head(2, 0, 1) + lane(0, 1, 9) * 3
    worked([(5, "+0"), (5, "+1"), (2, "+2")], three + grades(0, [5, 5, 2]))
    # a full in side: the second move passes the despatch and takes lane 2 back
    shared_in = head(4, 0, 3) + lanes([(0, 1), (0, 2), (1, 3), (2, 3), (1, 3)], 1)
    worked([(1, "+0+2"), (1, "+1+3-2+4")], shared_in + groups(7, [(0, 1_000_000), (0, 1)], [1, 1, 0]))
    # a full out side: the second move comes back to the stock
    shared_out = head(4, 0, 3) + lanes([(0, 1), (0, 2), (0, 1), (1, 3), (2, 3)], 1)
    worked([(1, "+0+3"), (1, "+2-0+1+4")], shared_out + groups(0, [(0, 1_000_000), (0, 1)], [1, 1, 0]))
    # three stations in a row, two lanes between neighbours, every side of grades 5 and 2
    row = head(3, 0, 2) + lanes([(0, 1), (0, 1), (1, 2), (1, 2)], 9)
    others = b"".join(grades(side, [5, 2]) for side in (2, 3, 5))
    worked([(5, "+0+2"), (2, "+1+3")], row + grades(0, [5, 2]) + others)
    worked([(5, "+0+2"), (1, "+1+3")], row + table(0, [0, 5, 5, 6]) + others)
    worked([(5, "+0+2")], row + table(0, [0, 5, 0, 5]) + others)
    # no lanes; a lane that takes nothing; stations that no lane joins
    worked([], head(2, 0, 1))
    worked([], head(5, 3, 1))
    worked([], head(2, 1, 0) + lane(1, 0, 0))
    worked([], head(4, 0, 3) + lane(0, 1, 2) + lane(2, 3, 2))
    worked([], head(3, 0, 2) + lane(0, 1, 2))


def check_worked():
    for moves, data in WORKED:
        found = [
            (move.amount, "".join(("+" if step.plus else "-") + str(step.lane) for step in move.path))
            for move in told(judge(data)).moves
        ]
        assert found == moves, (found, moves)


# ---- floors drawn at random


def drawn_table(draw, width, top):
    """Lawful caps of a side: each machine passes what the lanes that it serves bring, up to its bound, and the caps are their sums."""
    machines = []
    for _ in range(draw.randint(1, 3)):
        brought = [draw.choice((0, 1, 1, top)) for _ in range(width)]
        machines.append((draw.randint(1, 2 * top), brought))

    def cap(code):
        return sum(min(bound, sum(n for p, n in enumerate(brought) if code >> p & 1)) for bound, brought in machines)

    return [cap(code) for code in range(2**width)]


def drawn_limit(draw, side, width, top):
    kind = draw.choice(("table", "groups", "grades", "shared"))
    if kind == "table":
        return table(side, drawn_table(draw, width, top))
    if kind == "grades":
        return grades(side, sorted((draw.randint(0, top) for _ in range(width)), reverse=True))
    if kind == "shared":
        return shared(side, draw.randint(1, top), [draw.randrange(2) for _ in range(width)])
    count = draw.randint(1, 4)
    pairs = [(draw.randrange(j) if j else 0, draw.randint(1, 2 * top)) for j in range(count)]
    return groups(side, pairs, [draw.randrange(count) for _ in range(width)])


def shared(side, bound, members):
    """The lanes marked 1 share a machine, and the others are free."""
    return groups(side, [(0, 1_000_000), (0, bound)], members)


def loose_rows(draw, stations, count):
    """The ends of lanes from station 0 to the last, by way of any others, a few of them beside another or against the order."""
    rows = []
    while len(rows) < count:
        start, end = sorted(draw.sample(range(stations), 2))
        if rows and draw.random() < 0.15:
            start, end = draw.choice(rows)
        elif start > 0 and end < stations - 1 and draw.random() < 0.2:
            start, end = end, start
        rows.append((start, end))
    return rows


def layered_rows(draw, stations, count):
    """The ends of lanes that mostly lead from one layer of stations to the next."""
    between = range(1, stations - 1)
    depth = draw.randint(2, 5)
    layers = [[0]] + [[station for station in between if station % depth == part] for part in range(depth)] + [[stations - 1]]
    layers = [layer for layer in layers if layer]
    rows = [(0, station) for station in layers[1]] + [(station, stations - 1) for station in layers[-2]]
    while len(rows) < count:
        at = draw.randrange(len(layers) - 1)
        rows.append((draw.choice(layers[at]), draw.choice(layers[at + 1])))
        if draw.random() < 0.1:
            rows.append(tuple(draw.sample(between, 2)))
    return [row for row in rows if row[0] != row[1]]


# Floors from station 0 to the last where a shortest path takes what a longer one needs back, with the lanes that share a machine: the
# end of the lanes (0 where they leave a station, 1 where they enter one), the station and the lanes.
CROSSED = [
    ([(0, 1), (0, 2), (1, 3), (2, 3), (1, 3)], (1, 3, [2, 3])),
    ([(0, 1), (0, 2), (0, 1), (1, 3), (2, 3)], (0, 0, [0, 1])),
    ([(0, 1), (0, 2), (1, 3), (2, 3), (3, 5), (1, 4), (4, 5)], (1, 3, [2, 3])),
    ([(0, 1), (0, 2), (1, 3), (1, 4), (2, 3), (3, 5), (4, 5)], (0, 1, [2, 3])),
    ([(0, 1), (1, 2), (2, 5), (0, 3), (3, 2), (1, 4), (4, 5)], None),
]


def crossed_floor(draw):
    """One of the floors above with its stations and lanes in another order, perhaps with a lane or a limit more."""
    rows, sharing = draw.choice(CROSSED)
    stations = 1 + max(end for _, end in rows)
    rows = [(row, kept) for kept, row in enumerate(rows)]
    rows += [(row, None) for row in loose_rows(draw, stations, draw.randint(0, 8 - len(rows)) // 2)]
    draw.shuffle(rows)
    names = draw.sample(range(stations), stations)
    data = head(stations, names[0], names[-1])
    top = draw.choice((1, 1, 1, 2, 3))
    for (start, end), _ in rows:
        data += lane(names[start], names[end], top if draw.random() < 0.8 else draw.randint(1, 3))
    taken = None
    if sharing:
        end, station, lanes_sharing = sharing
        taken = 2 * names[station] + end
        data += shared(taken, top, [int(kept in lanes_sharing) for row, kept in rows if row[end] == station])
    return data + drawn_limits(draw, [(names[start], names[end]) for (start, end), _ in rows], draw.choice((0, 0, 0.2)), top, taken)


def drawn_limits(draw, rows, share, top, taken=None):
    """Limits on a share of the sides that have lanes, and on none that is taken."""
    data = b""
    for side in sorted({2 * start for start, _ in rows} | {2 * end + 1 for _, end in rows}):
        if side != taken and draw.random() < share:
            width = sum(row[side % 2] == side // 2 for row in rows)
            data += drawn_limit(draw, side, width, top)
    return data


def drawn_floor(draw, make_rows, stations, most_lanes, top):
    """A floor with lanes from `make_rows`, at most eight on a side, and limits on some of the sides."""
    count = draw.randint(0, 1) if draw.random() < 0.05 else draw.randint(most_lanes // 2, most_lanes)
    names = draw.sample(range(stations), stations)
    rows = []
    for start, end in make_rows(draw, stations, count)[:most_lanes]:
        leaving, entering = sum(row[0] == names[start] for row in rows), sum(row[1] == names[end] for row in rows)
        if leaving < 8 and entering < 8:
            rows.append((names[start], names[end]))
    draw.shuffle(rows)
    data = head(stations, names[0], names[-1])
    data += b"".join(lane(*row, draw.randint(0 if draw.random() < 0.1 else 1, top)) for row in rows)
    # a limit on a side without lanes, now and then
    bare = draw.choice([side for side in range(2 * stations) if all(side // 2 != row[side % 2] for row in rows)])
    if draw.random() < 0.1:
        data += drawn_limit(draw, bare, 0, top)
    return data + drawn_limits(draw, rows, draw.choice((0, 0.3, 0.6, 0.9)), top)


def goes_back(text):
    """Whether a move of a line takes trays off a lane."""
    return "-" in text.split(" total ")[0]


SMALL = [(2, 4, 3), (3, 6, 3), (4, 7, 1), (4, 7, 2), (4, 8, 4), (5, 7, 9), (5, 8, 2), (6, 8, 2)]
LARGE = [(6, 20, 5), (8, 30, 9), (10, 40, 3), (12, 50, 100), (16, 64, 3), (24, 64, 20), (32, 64, 6)]


def main():
    worked_floors()
    check_worked()
    draw = random.Random(20_250_317)
    found = [line(data) for _, data in WORKED]
    found += [line(data) for name, data in SAMPLES.items() if name != "refused"]
    found += [line(drawn_floor(draw, loose_rows, *draw.choice(SMALL))) for _ in range(300)]
    found += [line(crossed_floor(draw)) for _ in range(400)]
    found += [line(drawn_floor(draw, layered_rows, *draw.choice(LARGE))) for _ in range(60)]
    found += [line(path.read_bytes()) for path in sorted(BENCH.glob("*.plant"))]
    found = list(dict.fromkeys(found))
    write("crates/acceptance/stdin", "".join(text + "\n" for text in found).encode())
    write("crates/acceptance/stdout", f"{len(found)} floors, {len(found)} agreed\n".encode())

    few = sum(Floor(judge(bytes.fromhex(text.split()[0]))).few() for text in found)
    moves = sum(text.split(" total ")[0].count("/") for text in found)
    print(f"{len(found)} floors, {few} of them small enough to try every path and cut; {moves} moves in all")
    print(f"{sum(goes_back(text) for text in found)} floors with a move that takes trays off a lane")


if __name__ == "__main__":
    main()
