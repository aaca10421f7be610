#!/usr/bin/env python3
"""A second planner, in Python. It shares no code with the program; docs/PROOF.md names the definitions that hold the rules it follows.

It reads a plant file on standard input and prints what trayplan prints for it without a day's sheet: the totals, the lanes and
the stations, with status 0, or the line of the refusal, with status 1. tools/make_plans.py takes from it what a plan must answer.

On a small floor a plan is worked out from the wording of the rules alone: every augmenting path is listed, and the first of the
shortest is taken; the room of a lane, its tight set and the amount of a move come from all the sets of a side; and at the end
every cut is tried, of which the least must have the trays carried as its capacity. On every floor the path is also found by
labels, and the two ways must agree. Where anything differs, the planner stops with an error. Nothing here is proved, and no proof
leans on it; it is plain on purpose.
"""

import sys
from dataclasses import dataclass
from itertools import combinations

from judge import MOST_BYTES, Refused, judge

# A floor with more lanes or stations than this is planned by labels alone, since it has too many rows of lanes and cuts to try.
FEW_LANES = 8
FEW_STATIONS = 8

OUT, IN = 0, 1


class Differs(Exception):
    """Two ways to the same answer differ, or an answer breaks a rule."""


def insist(holds, what):
    if not holds:
        raise Differs(what)


def subsets(items):
    return [frozenset(chosen) for size in range(len(items) + 1) for chosen in combinations(items, size)]


@dataclass(frozen=True)
class Step:
    """A lane of a path with its sign."""

    lane: int
    plus: bool


@dataclass
class Move:
    amount: int
    path: list


class Floor:
    """A plant's floor, with the cap of each set of lanes of each side. Sets are sets of lane numbers."""

    def __init__(self, plant):
        self.stations = plant.stations
        self.stock, self.despatch = plant.stock, plant.despatch
        self.ends = [(lane.start, lane.end) for lane in plant.lanes]
        self.lanes = range(len(self.ends))
        self.caps = {}
        for station in range(plant.stations):
            for end in (OUT, IN):
                side = 2 * station + end
                on = plant.lanes_on(side)
                self.caps[side] = {
                    chosen: plant.cap(side, sum(2**p for p, lane in enumerate(on) if lane in chosen)) for chosen in subsets(on)
                }

    def side(self, lane, end):
        """The side where a lane leaves a station (OUT) or enters one (IN)."""
        return 2 * self.ends[lane][end] + end

    def lies_on(self, lane, side):
        return self.side(lane, side % 2) == side

    def few(self):
        return len(self.lanes) <= FEW_LANES and self.stations <= FEW_STATIONS


# ---- trays on a floor


class Trays:
    """Trays on the lanes of a floor, with each lane's room and tight set at both of its sides."""

    def __init__(self, floor, on):
        self.floor, self.on = floor, list(on)
        left = {side: {x: cap - sum(self.on[e] for e in x) for x, cap in sets.items()} for side, sets in floor.caps.items()}
        self.left = left
        self.rooms, self.tights = {}, {}
        for lane in floor.lanes:
            for end in (OUT, IN):
                holding = [x for x in left[floor.side(lane, end)] if lane in x]
                self.rooms[lane, end] = min(left[floor.side(lane, end)][x] for x in holding)
                full_sets = [x for x in holding if left[floor.side(lane, end)][x] == 0]
                if full_sets:
                    smallest = min(full_sets, key=len)
                    insist(all(smallest <= x for x in full_sets), "a lane has no smallest tight set")
                    self.tights[lane, end] = smallest

    def full(self, lane, end):
        return self.rooms[lane, end] == 0

    def tight(self, lane, end):
        return self.tights[lane, end]

    def total(self):
        return sum(self.on[lane] for lane in self.floor.lanes if self.floor.ends[lane][OUT] == self.floor.stock)

    def is_plan(self):
        """No set of lanes carries more than its cap, and what enters a station between stock and despatch leaves it."""
        floor = self.floor
        if any(left < 0 for sets in self.left.values() for left in sets.values()):
            return False
        for station in range(floor.stations):
            if station not in (floor.stock, floor.despatch):
                leaving = sum(self.on[lane] for lane in floor.lanes if floor.ends[lane][OUT] == station)
                entering = sum(self.on[lane] for lane in floor.lanes if floor.ends[lane][IN] == station)
                if leaving != entering:
                    return False
        return True

    def moved(self, move):
        on = list(self.on)
        for step in move.path:
            on[step.lane] += move.amount if step.plus else -move.amount
        insist(all(n >= 0 for n in on), "a move takes away trays that are not there")
        return Trays(self.floor, on)


# ---- augmenting paths, all of them


def fits_after(trays, before, step):
    """Whether a step of a path may stand after another, or first where `before` is None."""
    floor = trays.floor
    start, end = floor.ends[step.lane]
    if before is None:
        at = floor.stock
    else:
        at = floor.ends[before.lane][IN if before.plus else OUT]
    if at != (start if step.plus else end):
        return False
    if not step.plus and trays.on[step.lane] == 0:
        return False
    if before is not None and before.plus and trays.full(before.lane, IN):
        if step.plus or step.lane not in trays.tight(before.lane, IN):
            return False
    if step.plus and trays.full(step.lane, OUT):
        if before is None or before.plus or before.lane not in trays.tight(step.lane, OUT):
            return False
    return True


def arrives(trays, step):
    """Whether a path may end with a step."""
    floor = trays.floor
    if step.plus:
        return floor.ends[step.lane][IN] == floor.despatch and not trays.full(step.lane, IN)
    return floor.ends[step.lane][OUT] == floor.despatch


def all_paths(trays):
    paths = []

    def extend(row):
        before = row[-1] if row else None
        if row and arrives(trays, before):
            paths.append(row)
        used = {step.lane for step in row}
        for lane in trays.floor.lanes:
            if lane not in used:
                for plus in (True, False):
                    if fits_after(trays, before, Step(lane, plus)):
                        extend(row + [Step(lane, plus)])

    extend([])
    return paths


def first_shortest(trays):
    """The first of the shortest augmenting paths: lanes are compared from the despatch back. None where there is no path."""
    paths = all_paths(trays)
    if not paths:
        return None
    shortest = min(len(path) for path in paths)
    found = sorted((path for path in paths if len(path) == shortest), key=lambda path: [step.lane for step in reversed(path)])
    rows = [[step.lane for step in path] for path in found]
    insist(all(rows[0] != row for row in rows[1:]), "two paths take the same lanes")
    return found[0]


# ---- the path by labels


def labelling(trays):
    """The labels of a step, lane by lane: its sign and the lane it names, or None; and the path, or None where there is none."""
    floor = trays.floor
    labels = {}
    level = [lane for lane in floor.lanes if floor.ends[lane][OUT] == floor.stock and not trays.full(lane, OUT)]
    for lane in level:
        labels[lane] = (True, None)
    while level:
        for lane in level:
            if labels[lane][0] and floor.ends[lane][IN] == floor.despatch and not trays.full(lane, IN):
                return labels, read_back(labels, lane)
        given = []
        for lane in level:
            for to, plus in gives(trays, lane, labels[lane][0]):
                if to not in labels:
                    labels[to] = (plus, lane)
                    given.append(to)
        level = sorted(given)
    return labels, None


def gives(trays, lane, plus):
    """The labels that a labelled lane gives when it is scanned."""
    floor = trays.floor
    start, end = floor.ends[lane]
    if plus and trays.full(lane, IN):
        return [(to, False) for to in sorted(trays.tight(lane, IN))]
    if plus:
        return opening(trays, end)
    to_lanes = [to for to in floor.lanes if floor.ends[to][OUT] == start]
    given = opening(trays, start)
    if trays.full(lane, OUT):
        given += [(to, True) for to in to_lanes if trays.full(to, OUT) and lane in trays.tight(to, OUT)]
    return given


def opening(trays, station):
    floor = trays.floor
    out = [(to, True) for to in floor.lanes if floor.ends[to][OUT] == station and not trays.full(to, OUT)]
    back = [(to, False) for to in floor.lanes if floor.ends[to][IN] == station and trays.on[to] > 0]
    return out + back


def read_back(labels, lane):
    path = []
    while lane is not None:
        plus, named = labels[lane]
        path.insert(0, Step(lane, plus))
        lane = named
    return path


# ---- moves


def amount(trays, path):
    floor = trays.floor
    bounds = []
    for at, step in enumerate(path):
        if not step.plus:
            bounds.append(trays.on[step.lane])
            continue
        before = path[at - 1].lane if at > 0 else None
        after = path[at + 1].lane if at + 1 < len(path) else None
        for end, neighbour in ((OUT, before), (IN, after)):
            left = trays.left[floor.side(step.lane, end)]
            bounds.append(min(left[x] for x in left if step.lane in x and neighbour not in x))
    return min(bounds)


def plan(plant):
    """The moves from no trays until no path is left, and the trays then."""
    floor = Floor(plant)
    trays = Trays(floor, [0 for _ in floor.lanes])
    moves = []
    while True:
        labels, path = labelling(trays)
        if floor.few():
            insist(path == first_shortest(trays), "the path by labels is not the first of the shortest")
        if path is None:
            return floor, moves, trays, labels
        insist(not moves or len(moves[-1].path) <= len(path), "a path is shorter than the one before")
        move = Move(amount(trays, path), path)
        insist(move.amount > 0, "a move carries nothing")
        after = trays.moved(move)
        insist(after.is_plan(), "a move leaves no plan")
        insist(after.total() == trays.total() + move.amount, "a move does not add its amount")
        trays = after
        moves.append(move)
        insist(len(moves) <= 2 * len(floor.lanes) ** 3, "too many moves")


# ---- cuts


def near_stations(trays, labels):
    floor = trays.floor
    near = {floor.stock}
    for lane, (plus, _) in labels.items():
        if not plus:
            near.add(floor.ends[lane][OUT])
        elif not trays.full(lane, IN):
            near.add(floor.ends[lane][IN])
    return near


def crossing(floor, near):
    return [lane for lane in floor.lanes if floor.ends[lane][OUT] in near and floor.ends[lane][IN] not in near]


def capacity(floor, near, upper, lower):
    """The caps of the lanes of `upper` where they leave near stations, and of those of `lower` where they enter far ones."""
    leaving = sum(
        floor.caps[2 * station + OUT][frozenset(e for e in upper if floor.ends[e][OUT] == station)] for station in near
    )
    entering = sum(
        floor.caps[2 * station + IN][frozenset(e for e in lower if floor.ends[e][IN] == station)]
        for station in range(floor.stations)
        if station not in near
    )
    return leaving + entering


def least_capacity(floor):
    """The least capacity of a cut, by trying all of them."""
    between = [station for station in range(floor.stations) if station not in (floor.stock, floor.despatch)]
    capacities = []
    for some in subsets(between):
        near = some | {floor.stock}
        lanes = crossing(floor, near)
        for upper in subsets(lanes):
            capacities.append(capacity(floor, near, upper, set(lanes) - upper))
    return min(capacities)


@dataclass
class Told:
    """All that is told of a finished plan."""

    moves: list
    total: int
    trays: list
    lanes: str
    near: list

    def lines(self):
        rows = [f"trays {self.total} moves {len(self.moves)}"]
        rows += [f"lane {e} carries {n} cut {mark}" for e, (n, mark) in enumerate(zip(self.trays, self.lanes))]
        rows += [f"station {v} {'near' if near else 'far'}" for v, near in enumerate(self.near)]
        return "".join(row + "\n" for row in rows)


def told(plant):
    floor, moves, trays, labels = plan(plant)
    near = near_stations(trays, labels)
    insist(floor.despatch not in near, "the despatch is near")
    lanes = crossing(floor, near)
    upper = [lane for lane in lanes if lane not in labels]
    lower = [lane for lane in lanes if lane in labels]
    total = trays.total()
    insist(total == sum(move.amount for move in moves), "the amounts are not the total")
    insist(capacity(floor, near, upper, lower) == total, "the cut's capacity is not the total")
    if floor.few():
        insist(least_capacity(floor) == total, "the least cut has another capacity than the total")
    marks = "".join("U" if lane in upper else "L" if lane in lower else "-" for lane in floor.lanes)
    return Told(moves, total, trays.on, marks, [station in near for station in range(floor.stations)])


def main():
    try:
        plant = judge(sys.stdin.buffer.read(MOST_BYTES + 1))
    except Refused as refused:
        sys.stdout.write(refused.line())
        sys.exit(1)
    sys.stdout.write(told(plant).lines())


if __name__ == "__main__":
    main()
