"""Answers in plain words."""

ERRORS = {
    "no principal": "No principal has this name. `enrol NAME RIGHTS` makes one.",
    "out of memory": "The server had no memory for this; it may have been carried out all the "
    "same.",
    "line too long": "The line is longer than 16,384 bytes.",
    "bad field": "A word is not as the protocol wants it: a text has at most 4,096 bytes, a new "
    "name 1 to 32 letters a to z.",
    "no actor": "Nobody sits here: `as NAME` first.",
}
FULL = {
    "slots": "There is no room: every slot is taken. The collector frees those of what nobody can "
    "reach; try again in a moment.",
    "cells": "There is no room: every cell, which an edge takes, is taken. Try again in a moment, "
    "or give up some rights.",
    "serials": "There is no room: all serials are given out.",
}
CAUSES = {
    "retired": "{actor} has retired",
    "empty": "no rights are named",
    "not distinct": "the vertices have to differ, and differ from {actor}",
    "not document": "{vertex} is a subject, and only documents can be read and written",
    "not subject": "{vertex} is a document, and one can act for subjects only",
    "not principal": "{actor} is no principal",
    "name taken": "a principal has this name",
    "crowded": "there are 64 principals, and there can be no more",
}


def edges_told(edges, names):
    """A list of edges, each a serial and its rights."""
    return "; ".join(f"{rights} over {names.both(serial)}" for serial, rights in edges) or "nothing"


def done_told(fields, answer, names, actor):
    """What was carried out."""
    op = fields["op"]
    over, rights, me = names.of(fields.get("over", 0)), fields.get("rights"), names.of(actor)
    made, agent = answer.get("vertex"), names.of(fields.get("agent", 0))
    return {
        "grant": lambda: f"{names.of(fields['to'])} now has {rights} over {over}.",
        "take": lambda: f"{me} now has {rights} over {over}.",
        "remove": lambda: f"{me} no longer has {rights} over {over}.",
        "create": lambda: f"{fields['kind'].capitalize()} {made}: {me} has {rights} over it.",
        "enrol": lambda: (
            f"{fields['name']} is a principal, vertex {made}; {me} has {rights} over it."
        ),
        "read": lambda: answer["text"] or "(an empty text)",
        "write": lambda: "Written.",
        "look": lambda: f"{names.of(fields['at'])} has {edges_told(answer['edges'], names)}.",
        "retire": lambda: f"{me} is a principal no longer; only `leave` and `bye` are left.",
        "assume": lambda: f"From now on the rights of {agent} count, until you `leave`.",
        "leave": lambda: "Your own rights count again.",
        "bye": lambda: "Bye.",
    }[op]()


def refusal_told(answer, names, actor):
    """What was not carried out, and why."""
    if "full" in answer:
        return FULL[answer["full"]]
    if "error" in answer:
        return ERRORS.get(answer["error"], f"The server refuses the line: {answer['error']}.")
    if "missing" in answer:
        who, what = names.of(answer["from"]), names.of(answer["to"])
        return f"Denied: {who} has no {answer['missing']} over {what}."
    vertex = names.of(answer["vertex"]) if "vertex" in answer else None
    return f"Denied: {CAUSES[answer['cause']].format(actor=names.of(actor), vertex=vertex)}."


def step_told(step, names):
    """A step of a derivation."""
    who, op = names.of(step["actor"]), step["op"]
    if op == "create":
        return f"{who} makes a {step['kind']} with {step['rights']} over it"
    what = f"{who} {op}s {step['rights']} over {names.of(step['over'])}"
    other = step.get("from", step.get("to"))
    way = "from" if op == "take" else "to"
    return what if other is None else f"{what} {way} {names.of(other)}"


def steps_told(steps, names, following):
    """Steps, a row each; `following` is the serial of the first vertex that they make."""
    for number, step in enumerate(steps, 1):
        made = ""
        if step["op"] == "create":
            made, following = f", vertex {following}", following + 1
        yield f"  {number}. {step_told(step, names)}{made}"


def listed(serials, names):
    return ", ".join(names.of(serial) for serial in serials) or "nobody"
