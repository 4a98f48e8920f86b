"""Whether rights can ever be shared, by brute force, in a small graph.

Whoever may act makes a subject and a document with all rights over them, and so do the subjects
that are made, as deep as is asked for (with a depth of 0 nobody makes anything); then every take
and every grant that the rules allow is made, with all the rights that it can bring, until nothing
changes. A remove is of no use: it allows nothing that was not allowed before.
"""

from models.graph import Graph
from models.reading import LETTERS

# The rights that a vertex has, by the vertex that they are over.
Edges = dict[int, set[str]]
Closure = dict[int, Edges]


def actors(graph: Graph) -> list[int]:
    """The subjects that have not retired."""
    subjects = [serial for serial, kind in graph.kinds.items() if kind == "subject"]
    return [serial for serial in subjects if serial not in graph.retired]


def closure(graph: Graph, depth: int) -> Closure:
    """The rights that each vertex can come to have."""
    labels: Closure = {
        serial: {end: set(label) for end, label in graph.edges(serial)} for serial in graph.kinds
    }
    acting, makers, new = actors(graph), actors(graph), max(graph.kinds) + 1
    for _ in range(depth):
        subjects: list[int] = []
        for maker in makers:
            for is_subject in (True, False):
                labels[new], labels[maker][new] = {}, set(LETTERS)
                subjects += [new] if is_subject else []
                new += 1
        acting, makers = acting + subjects, subjects
    changed = True
    while changed:
        pairs = [(actor, other) for actor in acting for other in labels[actor]]
        changed = any([goes_on(labels, actor, other) for actor, other in pairs])
    return labels


def goes_on(labels: Closure, actor: int, other: int) -> bool:
    """Whether the actor takes something from the other vertex, or grants something to it."""
    label, more = labels[actor][other], False
    if "t" in label:
        more = gains(labels[actor], labels[other], actor)
    if "g" in label:
        more = gains(labels[other], labels[actor], other) or more
    return more


def gains(edges: Edges, others: Edges, owner: int) -> bool:
    """Whether a vertex gains rights that another has, over any but itself; it does so then."""
    more = False
    for end, label in list(others.items()):
        if end != owner and not label <= edges.get(end, set()):
            edges[end] = edges.get(end, set()) | label
            more = True
    return more


def most_steps(graph: Graph, rights: str) -> tuple[int, int]:
    """The most steps that a derivation of these rights has, and the most creates among them."""
    acting = len(actors(graph))
    return len(rights) * (2 * len(graph.kinds) + 6 * acting), len(rights) * max(1, acting)
