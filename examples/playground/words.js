// Typed words as lines, and lines and answers as words.

const FIELDS = {
  create: ["kind", "rights"], grant: ["rights", "over", "to"], take: ["rights", "over", "from"], remove: ["rights", "over"],
  read: ["over"], write: ["over", "text"], look: ["at"], enrol: ["name", "rights"], retire: [], assume: ["agent"], leave: [],
  hello: ["name"], bye: [], shade: [], collect: [], cycle: [],
};
const VERTICES = ["over", "to", "from", "at", "agent"];
const LETTERS = "rwtg";
export const VERBS = ["create document rw", "create subject tg", ...Object.keys(FIELDS).slice(1).map((verb) => verb + " ")];
export const TARGETS = ["take", "grant", "create", "enrol", "assume"];

export const ordered = (letters) => [...LETTERS].filter((letter) => letters.includes(letter)).join("");

// What is called by a name in a picture.
export function namesOf(picture) {
  return (serial) => picture.vertices.get(serial)?.name || String(serial);
}

function serialOf(word, picture) {
  if (/^\d+$/.test(word)) return Number(word);
  for (const vertex of picture.vertices.values()) if (vertex.name === word) return vertex.serial;
  throw new Error(word + " is no principal; other vertices have numbers");
}

// The fields of a typed command; an Error says what is wrong.
export function fieldsOf(text, picture, actor) {
  const [verb, ...rest] = text.trim().split(/\s+/);
  const wanted = FIELDS[verb];
  if (!wanted) throw new Error("There is no command " + verb + ": " + Object.keys(FIELDS).join(", "));
  let words = verb === "write" ? [rest[0], text.trim().replace(/^\S+\s+\S+\s?/, "")] : rest;
  if (verb === "look" && !words.length) words = [String(actor)];
  if (words.length !== wanted.length || words.includes(undefined)) {
    throw new Error([verb, ...wanted.map((field) => field.toUpperCase())].join(" "));
  }
  const fields = { op: verb };
  wanted.forEach((field, place) => {
    fields[field] = VERTICES.includes(field) ? serialOf(words[place], picture) : words[place];
  });
  if (fields.rights && (ordered(fields.rights).length !== fields.rights.length)) throw new Error("Rights are letters, each once: r, w, t, g");
  return fields;
}

const over = (fields, names) => fields.rights + " over " + names(fields.over);

// A line in words.
export function toldLine(fields, who, names) {
  const told = {
    hello: () => fields.name + " sits down",
    bye: () => who + " leaves the seat",
    create: () => who + " makes a " + fields.kind + ", with " + fields.rights + " over it",
    grant: () => who + " grants " + over(fields, names) + " to " + names(fields.to),
    take: () => who + " takes " + over(fields, names) + " from " + names(fields.from),
    remove: () => who + " gives up " + over(fields, names),
    read: () => who + " reads " + names(fields.over),
    write: () => who + " writes " + names(fields.over),
    look: () => who + " looks at " + names(fields.at),
    enrol: () => who + " enrols " + fields.name + ", with " + fields.rights + " over it",
    retire: () => who + " retires",
    assume: () => who + " acts for " + names(fields.agent),
    leave: () => who + " acts for itself again",
    shade: () => "the target of " + who + " is finished",
    collect: () => "a step of the collector",
    cycle: () => "a cycle of the collector",
  }[fields.op];
  try {
    return told ? told() : JSON.stringify(fields);
  } catch {
    return JSON.stringify(fields);
  }
}

// An answer in words.
export function toldAnswer(answer, names) {
  if ("denied" in answer) {
    if (answer.missing) return "denied: " + names(answer.from) + " has no " + answer.missing + " over " + names(answer.to);
    return "denied: " + answer.cause + ("vertex" in answer ? " (" + names(answer.vertex) + ")" : "");
  }
  if ("full" in answer) return "no room: no " + answer.full + " left";
  if ("error" in answer) return "refused: " + answer.error;
  if ("shaded" in answer) return answer.shaded === null ? "there was none" : names(answer.shaded) + " is in place";
  if ("phase" in answer) return "phase " + answer.phase + (answer.freed ? ", a slot is freed" : "") + (answer.ended ? ", the cycle ends" : "");
  if ("steps" in answer) return answer.steps + " steps, " + answer.freed + " freed";
  if (answer.ok === "text") return JSON.stringify(answer.text);
  if (answer.ok === "edges") return answer.edges.map(([end, rights]) => rights + " over " + names(end)).join("; ") || "nothing";
  if (answer.ok === "created" || answer.ok === "hello") return "vertex " + answer.vertex;
  return "done";
}

// A step of a derivation in words.
export function toldStep(step, names, made) {
  const more = step.op === "create" ? ": vertex " + made : "";
  return toldLine(step, names(step.actor), names) + more;
}
