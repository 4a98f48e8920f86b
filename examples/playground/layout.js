// Where the vertices stand: in rows, by how many steps they are from a principal; the same place in all pictures of a run.

export const RADIUS = 44;
const ACROSS = 150, DOWN = 150, WIDEST = 6;

// All vertices and edges that any of the pictures has.
function unionOf(pictures) {
  const vertices = new Map(), ends = new Map();
  for (const picture of pictures) {
    for (const vertex of picture.vertices.values()) {
      const known = vertices.get(vertex.serial);
      vertices.set(vertex.serial, { serial: vertex.serial, isPrincipal: Boolean(vertex.name) || Boolean(known?.isPrincipal) });
    }
    for (const { start, end } of picture.edges.values()) {
      if (!ends.has(start)) ends.set(start, new Set());
      ends.get(start).add(end);
    }
  }
  return { vertices, ends };
}

function ranksOf({ vertices, ends }) {
  const ranks = new Map();
  let now = [...vertices.values()].filter((vertex) => vertex.isPrincipal).map((vertex) => vertex.serial);
  if (!now.length) now = [...vertices.keys()].slice(0, 1);
  for (let rank = 0; now.length; rank += 1) {
    now.forEach((serial) => ranks.set(serial, rank));
    now = [...new Set(now.flatMap((serial) => [...(ends.get(serial) ?? [])]))].filter((serial) => vertices.has(serial) && !ranks.has(serial));
  }
  const last = Math.max(...ranks.values()) + 1;
  for (const serial of vertices.keys()) if (!ranks.has(serial)) ranks.set(serial, last);
  return ranks;
}

// The rows, each a list of serials; a rank that is too wide takes several.
function rowsOf(union, ranks) {
  const places = new Map(), rows = [];
  for (let rank = 0; rank <= Math.max(...ranks.values()); rank += 1) {
    const serials = [...ranks.keys()].filter((serial) => ranks.get(serial) === rank).sort((a, b) => a - b);
    const mean = (serial) => {
      const above = [...places.keys()].filter((one) => union.ends.get(one)?.has(serial)).map((one) => places.get(one));
      return above.length ? above.reduce((sum, place) => sum + place, 0) / above.length : 0;
    };
    if (rank > 0) {
      const means = new Map(serials.map((serial) => [serial, mean(serial)]));
      serials.sort((a, b) => means.get(a) - means.get(b) || a - b);
    }
    for (let first = 0; first < serials.length; first += WIDEST) {
      const row = serials.slice(first, first + WIDEST);
      row.forEach((serial, place) => places.set(serial, (place - (row.length - 1) / 2) * ACROSS));
      rows.push(row);
    }
  }
  return { rows, places };
}

// The centre of each vertex, and the size of the paper; some were moved.
export function layoutOf(pictures, moved) {
  const union = unionOf(pictures), { rows, places } = rowsOf(union, ranksOf(union));
  const widest = Math.max(...rows.map((row) => row.length), 2), points = new Map();
  const width = widest * ACROSS + 20, top = RADIUS + 66;
  rows.forEach((row, number) => {
    // every second row is a little aside, so that fewer arrows run through a vertex
    const aside = number % 2 && row.length < widest ? ACROSS / 5 : 0;
    for (const serial of row) points.set(serial, { x: width / 2 + places.get(serial) + aside, y: top + number * DOWN, row: number });
  });
  for (const [serial, point] of moved) if (points.has(serial)) points.set(serial, point);
  return { points, width, height: top + (rows.length - 1) * DOWN + RADIUS + 16 };
}

// The curve of an arrow: from rim to rim, bent to the left of its direction, and more so past others in its row. Its label
// stands where no vertex is near.
export function curveOf(from, to, points) {
  const dx = to.x - from.x, dy = to.y - from.y, length = Math.hypot(dx, dy) || 1;
  const isPast = from.row === to.row && length > ACROSS * 1.5;
  const bend = isPast ? Math.min(0.25 * length, 80) : Math.min(0.13 * length, 34);
  const middle = { x: (from.x + to.x) / 2 + (dy / length) * bend * 2, y: (from.y + to.y) / 2 - (dx / length) * bend * 2 };
  const start = onRim(from, middle, RADIUS), tip = onRim(to, middle, RADIUS + 2), neck = onRim(to, middle, RADIUS + 12);
  const places = [0.5, 0.4, 0.6, 0.3, 0.7].map((part) => between(start, middle, tip, part));
  const room = (place) => Math.min(...[...points.values()].map((point) => Math.hypot(point.x - place.x, point.y - place.y)));
  const label = places.find((place) => room(place) > RADIUS + 14) ?? places.reduce((a, b) => (room(b) > room(a) ? b : a));
  return { start, middle, tip, neck, label };
}

// A point of the curve, `part` of its way.
function between(start, middle, tip, part) {
  const at = (a, b, c) => (1 - part) ** 2 * a + 2 * part * (1 - part) * b + part ** 2 * c;
  return { x: at(start.x, middle.x, tip.x), y: at(start.y, middle.y, tip.y) };
}

function onRim(centre, towards, radius) {
  const dx = towards.x - centre.x, dy = towards.y - centre.y, length = Math.hypot(dx, dy) || 1;
  return { x: centre.x + (dx / length) * radius, y: centre.y + (dy / length) * radius };
}
