"""Where the letters of a wide film's edges stand: beside each edge, near the end where it runs alone."""

from collections import defaultdict

from film.curves import line, samples
from film.rows import RADIUS

# Points: half the breadth of a letter and half its height, how far beside their edge letters stand, and how far places
# that may be covered are from each other. Letters stand beside one of these places of their edge.
HALF_BREADTH, HALF_HEIGHT, BESIDE = 5, 7, 4
STEP, FIRST, LAST = 4, 5, 18
# How bad it is to cover such a place of an edge, of an arrow's head, of other letters or of a vertex; and that a place
# for letters is the next best.
EDGE, ARROW, LETTERS, VERTEX, FARTHER = 1, 6, 10, 20, 0.2
SQUARE = 20


class Clutter:
    """What letters may cover: places by the square in which they are, each as bad as that is."""

    def __init__(self):
        self.squares = defaultdict(dict)

    def add(self, places, weight):
        for x, y in places:
            square = self.squares[x // SQUARE, y // SQUARE]
            square[x, y] = max(square.get((x, y), 0), weight)

    def under(self, x, y, across, down):
        """How bad it is to cover this box."""
        left, right, top, bottom = x - across, x + across, y - down, y + down
        columns, rows = [range(int(first // SQUARE), int(last // SQUARE) + 1) for first, last in ((left, right), (top, bottom))]
        near = [self.squares[column, row] for column in columns for row in rows if (column, row) in self.squares]
        return sum(weight for square in near for (a, b), weight in square.items() if left < a < right and top < b < bottom)


def lattice(x, y, across, down):
    """Places all over a box."""
    breadth, height = round(2 * across / STEP), round(2 * down / STEP)
    return [(x - across + STEP * column, y - down + STEP * row) for column in range(breadth + 1) for row in range(height + 1)]


def candidates(label, way):
    """Where letters may stand beside an edge, the best places first: near its end, on the side to which it does not lean."""
    across, down = HALF_BREADTH * len(label) + BESIDE, HALF_HEIGHT + BESIDE
    away = across if way[FIRST][0] < way[0][0] + 1 else -across
    for x, y in way[FIRST:LAST]:
        yield from ((x + away, y), (x - away, y), (x, y - down), (x, y + down))


def letters(routes, curves, spots):
    """The places of all letters, each where they cover least."""
    clutter = Clutter()
    for spot in spots:
        places = lattice(spot.x, spot.y, RADIUS, RADIUS)
        clutter.add([(x, y) for x, y in places if (x - spot.x) ** 2 + (y - spot.y) ** 2 < (RADIUS + 2) ** 2], VERTEX)
    ways = [samples(points + line(points[-1], tip), STEP) for points, tip in curves]
    for way, (points, tip) in zip(ways, curves):
        clutter.add([(round(x), round(y)) for x, y in way], EDGE)
        clutter.add(lattice((points[-1][0] + tip[0]) / 2, (points[-1][1] + tip[1]) / 2, STEP, STEP), ARROW)
    for route, way in zip(routes, ways):
        box = HALF_BREADTH * len(route.label), HALF_HEIGHT
        places = enumerate(candidates(route.label, way[::-1] if route.bundle[0] == "from" else way))
        _, best = min((FARTHER * number + clutter.under(*at, *box), at) for number, at in places)
        clutter.add(lattice(*best, *box), LETTERS)
        yield best
