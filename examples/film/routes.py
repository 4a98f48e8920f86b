"""Which way the edges of a wide film take: down between the columns of a rank, never below a vertex.

Edges of one vertex share their way as far as they can, like the branches of a tree: all of them begin at that vertex,
or all of them end at it.
"""

from collections import Counter, defaultdict
from dataclasses import dataclass, field
from math import atan2, radians

from film.rows import GAP, RADIUS, WIDTH, spread

# Points: between edges beside each other, and from a vertex to the nearest of them.
APART, NEAREST = 8, 5
# An edge leaves a vertex within this angle from straight up or down, and this far from the next one.
WIDEST, BETWEEN = radians(50), radians(16)
# How an edge goes between two columns: down from the left one, past the whole rank, or down to the right one.
FROM_LEFT, PAST, TO_RIGHT = range(3)


@dataclass
class Lane:
    """What edges share between two columns, with what each of them wants of it: how it goes, from which height to which
    and where."""

    wants: list = field(default_factory=list)
    x: float = 0

    def order(self):
        """What comes to the left of what: each is the nearer to its column, the fewer rows it passes."""
        how, x = self.mean(0), self.mean(3)
        passed = {FROM_LEFT: -min(want[1] for want in self.wants), TO_RIGHT: -max(want[2] for want in self.wants)}
        return how, passed.get(how, x), x

    def mean(self, part):
        return sum(want[part] for want in self.wants) / len(self.wants)


@dataclass
class Route:
    """An edge from its upper end to its lower one. `bundle` says with which edges it shares its way: with those `from` a
    vertex or those `to` it. `lanes` has each lane on its way with the heights from which to which it takes it, and
    `angles` those at which it leaves both ends."""

    ends: tuple
    label: str
    bundle: tuple
    upper: object
    lower: object
    rises: bool
    lanes: list = field(default_factory=list)
    angles: list = field(default_factory=lambda: [0, 0])

    def is_alone_above(self):
        """Whether its upper end is the one near which it runs alone."""
        return (self.bundle[0] == "from") == self.rises


def routes_of(labels, missing, spots):
    """The routes of all edges, which have no lanes yet, and of the missing rights. An edge runs with those of its start or
    with those of its end, whichever are more, and a missing right alone."""
    starts, ends = Counter(start for start, _ in labels), Counter(end for _, end in labels)
    told = [((start, end), label, ("from", start) if starts[start] >= ends[end] else ("to", end)) for (start, end), label in labels.items()]
    told += [(ends, label, ("from", *ends)) for ends, label in missing.items()]
    for pair, label, bundle in told:
        start, end = (spots[serial] for serial in pair)
        rises = start.rank > end.rank
        yield Route(pair, label, bundle, *((end, start) if rises else (start, end)), rises)


def bounds(rank, gap):
    """From where to where edges may run between two columns; there is room before and behind all columns too."""
    low = rank.columns[gap - 1] + RADIUS if gap > 0 else 0
    high = rank.columns[gap] - RADIUS if gap < len(rank.columns) else WIDTH
    return low + NEAREST, high - NEAREST


def nearest_gap(rank, x):
    """The gap between columns that is nearest to this place."""

    def distance(gap):
        low, high = bounds(rank, gap)
        return max(low - x, x - high)

    return min(range(len(rank.columns) + 1), key=distance)


def ways(route, ranks):
    """What a route passes from above to below: the rank, the gap, and what it wants there. Below its upper end it keeps to
    the right and above its lower one to the left, so that edges to a column do not cross those from it."""
    upper, lower = route.upper, route.lower
    above, below = ranks[upper.rank], ranks[lower.rank]
    if above.count > 1:
        heights = (upper.y + above.reach(), above.rows[-1] + above.reach())
        yield upper.rank, upper.column + 1, (FROM_LEFT, *heights, upper.x + RADIUS + GAP / 2)
    # near the vertex whose edges it runs with
    x = lower.x if route.is_alone_above() else upper.x
    for number in range(upper.rank + 1, lower.rank):
        rank = ranks[number]
        yield number, nearest_gap(rank, x), (PAST, rank.rows[0] - rank.reach(), rank.rows[-1] + rank.reach(), x)
    if below.count > 1:
        heights = (below.rows[0] - below.reach(), lower.y - below.reach())
        yield lower.rank, lower.column, (TO_RIGHT, *heights, lower.x - RADIUS - GAP / 2)


def take_lanes(routes, ranks):
    """Each route gets its lanes."""
    gaps = defaultdict(lambda: defaultdict(Lane))
    for route in routes:
        for number, gap, want in ways(route, ranks):
            lane = gaps[number, gap][route.bundle]
            lane.wants.append(want)
            route.lanes.append((lane, *want[1:3]))
    for (number, gap), lanes in gaps.items():
        ordered = sorted(lanes.values(), key=Lane.order)
        for lane, x in zip(ordered, spread([lane.mean(3) for lane in ordered], APART, *bounds(ranks[number], gap))):
            lane.x = x


def take_angles(routes):
    """Each route gets its angles, towards where it goes; those that go there together have the same."""
    sides = defaultdict(lambda: defaultdict(list))
    for route in routes:
        for side, (spot, other) in enumerate([(route.upper, route.lower), (route.lower, route.upper)]):
            x, y = other.x, other.y
            if route.lanes:
                lane, *heights = route.lanes[-side]
                x, y = lane.x, heights[side]
            sides[spot, side][atan2(x - spot.x, abs(y - spot.y)), route.bundle].append(route)
    for (_, side), ports in sides.items():
        ordered = sorted(ports)
        angles = spread([wanted for wanted, _ in ordered], min(BETWEEN, WIDEST / len(ordered)), -WIDEST, WIDEST)
        for port, angle in zip(ordered, angles):
            for route in ports[port]:
                route.angles[side] = angle
