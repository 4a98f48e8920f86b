"""What can be done about a right that is missing."""

# How many who have it are named.
MOST = 3


def ways(denial, shot, names, actor):
    """Sentences on a denial for want of rights, from the picture of the vault."""
    start, end, missing = denial["from"], denial["to"], denial["missing"]
    labels = {one: label for (one, over), label in shot.edges.items() if over == end}
    holders = [one for one, label in labels.items() if set(missing) <= set(label)]
    if end not in shot.vertices or not holders:
        yield f"Nobody has {missing} over {names.of(end)}."
    yield from (way(one, denial, shot, names, actor) for one in holders[:MOST])
    if start == actor and end in shot.vertices:
        yield f"Can it ever come about? `share {missing} {names.of(end)} {names.of(start)}` tells."


def way(one, denial, shot, names, actor):
    """How the actor could come by what one holder has."""
    start, end, missing = denial["from"], denial["to"], denial["missing"]
    who, whom, what = names.of(one), names.of(start), names.of(end)
    has = f"{who} has {missing} over {what}"
    if start == actor and "t" in shot.edges.get((actor, one), ""):
        return f"{has}, and you have t over {who}: `take {missing} {what} {who}`."
    if shot.vertices[one].kind != "subject":
        me = names.of(actor)
        return f"{has}, but is a document, so it can grant nothing, and {me} has no t over it."
    if "g" in shot.edges.get((one, start), ""):
        return f"{has}, and g over {whom}, so {who} can grant it: `grant {missing} {what} {whom}`."
    return f"{has}, and could grant it if {who} had g over {whom}."
