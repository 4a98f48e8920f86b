// How rights come about by steps: the graph after each, worked out on the page from the labels alone.

import { ordered } from "./words.js";

// The pictures after no step, one step, and so on; what a step made new is in `made`.
export function framesOf(picture, steps, next) {
  const frames = [{ picture, made: new Set() }];
  for (const step of steps) {
    const before = frames[frames.length - 1].picture;
    const now = { ...before, vertices: new Map(before.vertices), edges: new Map(before.edges) };
    const made = new Set();
    if (step.op === "create") {
      now.vertices.set(next, { serial: next, name: "", kind: step.kind, colour: "white", isCondemned: false, marks: [] });
      made.add(String(next));
    }
    const [start, end] = step.op === "create" ? [step.actor, next] : step.op === "grant" ? [step.to, step.over] : [step.actor, step.over];
    if (step.op === "create") next += 1;
    const key = start + ">" + end, had = now.edges.get(key)?.rights ?? "";
    const rights = step.op === "remove" ? [...had].filter((letter) => !step.rights.includes(letter)).join("") : ordered(had + step.rights);
    if (rights) now.edges.set(key, { start, end, rights });
    else now.edges.delete(key);
    made.add(key);
    // a vertex that has lost its slot is not drawn, and may still act
    for (const serial of [start, end]) {
      if (!now.vertices.has(serial)) now.vertices.set(serial, { serial, name: "", kind: "document", colour: "white", isCondemned: true, marks: [] });
    }
    frames.push({ picture: now, made });
  }
  return frames;
}

// The steps as lines of the run; nothing if one who acts sits nowhere and has no name to sit down by.
export function linesOf(steps, picture, seatOf) {
  const lines = [], seats = new Map();
  for (const step of steps) {
    const { actor, ...fields } = step;
    const name = picture.vertices.get(actor)?.name;
    if (!seats.has(actor)) {
      if (!name) return null;
      const { seat, isTaken } = seatOf(actor, [...seats.values()]);
      if (!isTaken) lines.push({ op: "hello", name, seat });
      seats.set(actor, seat);
    }
    lines.push({ ...fields, seat: seats.get(actor) });
    if (step.op !== "remove") lines.push({ op: "shade", seat: seats.get(actor) });
  }
  return lines;
}
