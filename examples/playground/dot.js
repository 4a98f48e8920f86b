// Reads the pictures that `tgdoc draw` writes: a line of DOT as vertices, edges, seats and the collector's state.

const TOKEN = /\s*(?:("(?:[^"\\]|\\.)*")|(->|[{}[\];=,])|([A-Za-z0-9_.]+))/gy;

function tokens(text) {
  const found = [];
  let end = 0;
  for (const match of text.trimEnd().matchAll(TOKEN)) {
    found.push(match[1] ?? match[2] ?? match[3]);
    end = match.index + match[0].length;
  }
  if (end !== text.trimEnd().length) throw new Error("not a picture, from " + text.slice(end, end + 20));
  return found;
}

// The rows of a quoted label, as they are shown.
function rowsOf(quoted) {
  const ends = { l: "\n", n: "\n" };
  const shown = quoted.slice(1, -1).replace(/\\(.)|&amp;/gs, (_, sign) => (sign === undefined ? "&" : ends[sign] ?? sign));
  return shown.replace(/\n$/, "").split("\n");
}

function attributes(left) {
  const found = {};
  for (left.shift(); left[0] !== "]"; ) {
    const name = left.shift();
    left.shift();
    found[name] = left.shift();
    if (left[0] === ",") left.shift();
  }
  left.shift();
  left.shift();
  return found;
}

function vertexOf(serial, look) {
  const [head, colour, ...marks] = rowsOf(look.label);
  const [kind, , condemned] = look.class.slice(1, -1).split(" ");
  const name = head.slice(String(serial).length + 1);
  return { serial, name, kind, colour, isCondemned: condemned !== undefined, marks };
}

// A picture: its vertices by serial, its edges by `start>end`, who sits at which seat, the phase and what is free.
export function pictureOf(line) {
  const left = tokens(line).slice(3);
  const picture = { vertices: new Map(), edges: new Map(), seats: new Map(), state: "" };
  for (const row of rowsOf(attributes(left).label)) {
    const seat = /^seat (\d+): (\d+)$/.exec(row);
    if (seat) picture.seats.set(Number(seat[1]), Number(seat[2]));
    if (/^phase (idle|mark|sweep), free slots \d+, free cells \d+$/.test(row)) {
      picture.state = row;
      // rows before it are a line and its answer, which may look like anything
      picture.seats.clear();
    }
  }
  left.shift();
  attributes(left);
  while (left[0] !== "}") {
    const start = Number(left.shift());
    if (left[0] === "->") {
      left.shift();
      const end = Number(left.shift());
      picture.edges.set(start + ">" + end, { start, end, rights: attributes(left).label.slice(1, -1) });
    } else {
      picture.vertices.set(start, vertexOf(start, attributes(left)));
    }
  }
  return picture;
}

export const rightsOver = (picture, start, end) => picture.edges.get(start + ">" + end)?.rights ?? "";
