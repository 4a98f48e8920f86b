"""Where the vertices of a wide film stand: a rank with more of them than fit a row goes on in further rows."""

from dataclasses import dataclass

# Points. At its least letter size a page shows a point as seven tenths of a pixel, so a window of 1,600 pixels has room
# for some 1,550 points beside the words about them: twelve vertices in a row, and between them what edges need to pass.
RADIUS = 42
MOST = 12
GAP = 40
WIDTH = MOST * (2 * RADIUS + GAP) + GAP
# Between the rows of a rank; and between ranks, more if more edges turn there.
ROW_GAP = 48
RANK_GAP, RANK_GAP_PER_EDGE, MOST_RANK_GAP = 56, 3, 180


@dataclass(frozen=True)
class Spot:
    """Where a vertex stands: its rank, its column in it, and its centre."""

    rank: int
    column: int
    x: float
    y: float


@dataclass
class Rank:
    """A rank: its vertices column by column, how many rows they take, and the centres of its columns and its rows."""

    vertices: list
    count: int
    columns: list
    rows: list

    def reach(self):
        """How far above and below a row the edges are that end in it. Those of a single row have all the gap to turn."""
        return RADIUS + (ROW_GAP if self.count > 1 else 0)


def spread(wanted, apart, low, high):
    """Places in this order, as near to the wanted ones as can be and this far apart, or closer if there is no room."""
    apart = min(apart, (high - low) / max(len(wanted) - 1, 1))
    # the sum and the number of the places in each run of neighbours that are no farther apart than they have to be
    runs = []
    for number, place in enumerate(wanted):
        runs.append((place - number * apart, 1))
        while len(runs) > 1 and runs[-2][0] / runs[-2][1] > runs[-1][0] / runs[-1][1]:
            (left, some), (right, more) = runs[-2:]
            runs[-2:] = [(left + right, some + more)]
    last = high - (len(wanted) - 1) * apart
    found = [min(max(total / count, low), last) for total, count in runs for _ in range(count)]
    return [place + number * apart for number, place in enumerate(found)]


def ranks_of(vertices):
    """The vertices of each rank from left to right: Graphviz gives those of a rank the same height."""
    found = {}
    for serial, (x, y) in sorted(vertices.items(), key=lambda item: item[1]):
        found.setdefault(y, []).append(serial)
    return [found[y] for y in sorted(found)]


def arranged(serials, vertices, width):
    """A rank in as few rows as will do, from what Graphviz made this wide. It is filled column by column: neighbours stay
    together, and stay below or above what they have edges with."""
    count = -(-len(serials) // MOST)
    columns = [serials[first : first + count] for first in range(0, len(serials), count)]
    wanted = [WIDTH / width * sum(vertices[serial][0] for serial in column) / len(column) for column in columns]
    return Rank(serials, count, spread(wanted, 2 * RADIUS + GAP, GAP + RADIUS, WIDTH - GAP - RADIUS), [])


def stacked(ranks, turning):
    """The spots of all vertices, and the height of all ranks; so many edges turn below each."""
    top, spots = RADIUS, {}
    for number, rank in enumerate(ranks):
        rank.rows = [top + row * (2 * RADIUS + ROW_GAP) for row in range(rank.count)]
        for place, serial in enumerate(rank.vertices):
            column, row = divmod(place, rank.count)
            spots[serial] = Spot(number, column, rank.columns[column], rank.rows[row])
        below = ranks[number + 1].reach() if number + 1 < len(ranks) else RADIUS
        gap = min(RANK_GAP + RANK_GAP_PER_EDGE * turning[number], MOST_RANK_GAP)
        top = rank.rows[-1] + rank.reach() + gap + below
    return spots, ranks[-1].rows[-1] + RADIUS
