"""The curves of a wide film's edges. They turn only where no vertices are: between ranks and between rows."""

from math import cos, sin, tan

from film.rows import RADIUS

# Points: from a vertex to where its edges may turn; how far from there an edge keeps its angle; an arrow's head.
LEAD, STEADY, HEAD = 14, 40, 10


def line(start, end):
    """A straight line as a curve: its control points and its end."""
    (x, y), (a, b) = start, end
    return [(x + (a - x) * part / 3, y + (b - y) * part / 3) for part in (1, 2, 3)]


def bend(start, first, end, last):
    """A curve to a lower place, with how far it goes sideways for each point down at both ends. Its control points have
    heights between those of its ends, and so has all of it."""
    (x, y), (a, b) = start, end
    half = (b - y) / 2
    begin, finish = [min(half, STEADY) if slope else half for slope in (first, last)]
    return [(x + begin * first, y + begin), (a - finish * last, b - finish), (a, b)]


def leads(route):
    """Of both ends of a route: the place on the rim, the one where it may turn, and how it goes sideways there."""
    for spot, angle, way in zip((route.upper, route.lower), route.angles, (1, -1)):
        rim = (spot.x + RADIUS * sin(angle), spot.y + way * RADIUS * cos(angle))
        turn = (spot.x + (RADIUS + LEAD) * tan(angle), spot.y + way * (RADIUS + LEAD))
        yield rim, turn, way * tan(angle)


def downwards(route):
    """The points of a route's curves from its upper end to its lower one."""
    (rim, at, slope), (low_rim, turn, last) = leads(route)
    points = [rim, *line(rim, at)]
    for lane, top, bottom in route.lanes:
        points += bend(at, slope, (lane.x, top), 0) + line((lane.x, top), (lane.x, bottom))
        at, slope = (lane.x, bottom), 0
    return points + bend(at, slope, turn, last) + line(turn, low_rim)


def curve_along(route):
    """The start and the control points of an edge up to its arrow's head, and its tip."""
    points = downwards(route)
    points = points[::-1] if route.rises else points
    before, tip = points[-4], points[-1]
    left = HEAD / ((before[0] - tip[0]) ** 2 + (before[1] - tip[1]) ** 2) ** 0.5
    neck = tuple(end + (start - end) * left for start, end in zip(before, tip))
    return [(round(x, 1), round(y, 1)) for x, y in points[:-3] + line(before, neck)], tip


def samples(points, step):
    """Places on a curve, about this far from each other."""
    found = [points[0]]
    for first in range(0, len(points) - 1, 3):
        corners = points[first : first + 4]
        length = sum(abs(a - x) + abs(b - y) for (x, y), (a, b) in zip(corners, corners[1:]))
        count = max(int(length / step), 1)
        for number in range(1, count + 1):
            part, rest = number / count, 1 - number / count
            weights = (rest**3, 3 * part * rest**2, 3 * part**2 * rest, part**3)
            found.append(tuple(sum(weight * corner[axis] for weight, corner in zip(weights, corners)) for axis in (0, 1)))
    return found
