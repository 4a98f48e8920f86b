// What may be done with a vertex or an edge, as buttons below the graph.

import { rightsOver } from "./dot.js";
import { toldStep } from "./words.js";

const MOST = 14;

export function made(name, text, attributes = {}) {
  const element = document.createElement(name);
  element.textContent = text;
  for (const [key, value] of Object.entries(attributes)) element[key] = value;
  return element;
}

export function row(...children) {
  const found = made("div", "", { className: "row" });
  found.append(...children);
  return found;
}

// Commands that the actor may give about a vertex, as typed words.
function* commandsAbout(picture, actor, serial, names) {
  const vertex = picture.vertices.get(serial), mine = rightsOver(picture, actor, serial);
  if (serial === actor) {
    yield* ["look", "create document rw", "create subject tg"];
    return;
  }
  if (vertex.kind === "document" && mine.includes("r")) yield "read " + serial;
  if (vertex.kind === "document" && mine.includes("w")) yield "write " + serial + " hello";
  if (mine.includes("t")) yield "look " + names(serial);
  if (vertex.kind === "subject" && mine.includes("t") && mine.includes("g")) yield "assume " + serial;
  for (const other of picture.vertices.keys()) {
    const label = rightsOver(picture, actor, other);
    if (other === serial || other === actor) continue;
    for (const letter of mine) {
      const hasIt = rightsOver(picture, other, serial).includes(letter);
      if (label.includes("g") && !hasIt) yield "grant " + letter + " " + names(serial) + " " + names(other);
    }
    for (const letter of rightsOver(picture, other, serial)) {
      if (label.includes("t") && !mine.includes(letter)) yield "take " + letter + " " + names(serial) + " " + names(other);
    }
  }
  for (const letter of mine) yield "remove " + letter + " " + names(serial);
}

function commands(words, act) {
  const all = [...words], buttons = all.slice(0, MOST).map((text) => made("button", text, { type: "button", onclick: () => act(text) }));
  if (all.length > MOST) buttons.push(made("span", "and " + (all.length - MOST) + " more"));
  return buttons.length ? row(...buttons) : made("p", "Nothing: no right leads there.");
}

// The panel of a vertex: what the actor may do, and who has or could have rights over it.
export function vertexPanel(picture, actor, serial, names, act, askWho) {
  const vertex = picture.vertices.get(serial), waits = vertex.isCondemned ? ", condemned: it waits to be freed" : "";
  const panel = [made("h2", names(serial) + ", a " + vertex.kind + waits)];
  if (actor !== undefined) {
    panel.push(made("p", "What " + names(actor) + " may do:"), commands(commandsAbout(picture, actor, serial, names), act));
  }
  const asks = [..."rwtg"].map((letter) => made("button", letter, { type: "button", onclick: () => askWho(letter, serial) }));
  panel.push(row(made("span", "Who can ever have, over " + names(serial) + ":"), ...asks));
  return panel;
}

// The panel of an edge.
export function edgePanel(picture, edge, names, act) {
  const uses = { r: "read it", w: "write it", t: "take rights that it has", g: "grant it rights" };
  const told = [...edge.rights].map((letter) => letter + " (to " + uses[letter] + ")").join(", ");
  const start = picture.vertices.get(edge.start);
  const panel = [made("h2", names(edge.start) + " has " + edge.rights + " over " + names(edge.end)), made("p", "That is " + told + ".")];
  if (start?.kind === "subject") {
    const removes = [...edge.rights].map((letter) => "remove " + letter + " " + names(edge.end));
    panel.push(made("p", "Only " + names(edge.start) + " can give it up:"), commands(removes, (text) => act(text, edge.start)));
  }
  return panel;
}

// Who has rights now, who could come to have them, who never can; those who could are buttons that show how.
export function whoPanel(told, rights, end, names, show) {
  const list = (serials) => serials.map(names).join(", ") || "nobody";
  const could = told.could.map((serial) => made("button", names(serial), { type: "button", onclick: () => show(serial, rights, end) }));
  return [
    made("h2", rights + " over " + names(end)),
    made("p", "Now: " + list(told.have) + "."),
    could.length ? row(made("span", "Could come to have it (how?):"), ...could) : made("p", "Nobody else could come to have it."),
    made("p", "Never, whatever all of them do: " + list(told.never) + "."),
  ];
}

// The steps of a derivation, with the one that is shown.
export function stepsPanel(question, steps, at, next, names, buttons) {
  const list = made("ol", "");
  steps.forEach((step, place) => {
    const item = made("li", toldStep(step, names, next), { className: place === at - 1 ? "now" : place >= at ? "later" : "" });
    if (step.op === "create") next += 1;
    list.append(item);
  });
  return [made("h2", question), steps.length ? list : made("p", "It is there already."), row(...buttons)];
}
