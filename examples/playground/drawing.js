// A picture as SVG.

import { curveOf, RADIUS } from "./layout.js";

const SPACE = "http://www.w3.org/2000/svg";

export function element(name, attributes, ...children) {
  const made = document.createElementNS(SPACE, name);
  for (const [key, value] of Object.entries(attributes)) made.setAttribute(key, value);
  made.append(...children);
  return made;
}

const at = ({ x, y }) => x.toFixed(1) + " " + y.toFixed(1);

function head(tip, neck) {
  const dx = tip.x - neck.x, dy = tip.y - neck.y, length = Math.hypot(dx, dy) || 1;
  const across = { x: (-dy / length) * 5, y: (dx / length) * 5 };
  return [tip, { x: neck.x + across.x, y: neck.y + across.y }, { x: neck.x - across.x, y: neck.y - across.y }].map(at).join(" ");
}

// An arrow with the letters of its rights.
function edgeOf(edge, points, name, told) {
  const { start, middle, tip, neck, label: place } = curveOf(points.get(edge.start), points.get(edge.end), points);
  const path = "M" + at(start) + "Q" + at(middle) + " " + at(neck);
  const label = element("text", { x: place.x.toFixed(1), y: (place.y + 5).toFixed(1) }, edge.rights);
  return element("g", { class: "edge " + name, tabindex: "0", role: "button", "aria-label": told, "data-edge": edge.start + ">" + edge.end },
    element("path", { class: "wide", d: path }), element("path", { d: path }), element("polygon", { points: head(tip, neck) }), label);
}

function rowsOf(vertex, showsCollector) {
  const rows = [["name", [vertex.serial, vertex.name].filter(Boolean).join(" ")]];
  if (showsCollector) rows.push(["colour", vertex.isCondemned ? "condemned" : vertex.colour]);
  const marks = showsCollector ? vertex.marks : vertex.marks.filter((mark) => mark.startsWith("agent"));
  return rows.concat(marks.flatMap((mark) => {
    const [word, seat] = mark.split(" ");
    return word === "seat" ? [["mark", mark]] : [["mark", word], ["mark", "of seat " + seat]];
  }));
}

function vertexOf(vertex, point, name, showsCollector, told) {
  const rows = rowsOf(vertex, showsCollector), circle = (kind, r) => element("circle", { class: kind, cx: point.x, cy: point.y, r });
  const texts = rows.map(([kind, text], place) => {
    const made = element("text", { class: kind, x: point.x, y: point.y + 5 + 14 * (place - (rows.length - 1) / 2) }, text);
    if (text.length > 11) made.style.fontSize = (13 * 11 / text.length).toFixed(1) + "px";
    return made;
  });
  const kinds = ["vertex", vertex.kind, vertex.colour, vertex.isCondemned ? "condemned" : "", name].join(" ");
  return element("g", { class: kinds, tabindex: "0", role: "button", "aria-label": told, "data-vertex": vertex.serial },
    circle("halo", RADIUS + 5), circle("body", RADIUS), circle("rim", RADIUS - 3.5), circle("inner", RADIUS - 7), ...texts);
}

// The whole picture. `marked` has the chosen vertex or edge, the missing rights, and what is new.
export function svgOf(picture, layout, names, marked, showsCollector) {
  const edges = [...picture.edges.values()].map((edge) => {
    const key = edge.start + ">" + edge.end;
    const name = [marked.chosen === key ? "chosen" : "", marked.made?.has(key) ? "made" : ""].join(" ");
    return edgeOf(edge, layout.points, name, names(edge.start) + " has " + edge.rights + " over " + names(edge.end));
  });
  const { missing } = marked;
  if (missing && layout.points.has(missing.start) && layout.points.has(missing.end)) {
    const rights = "no " + missing.rights, told = names(missing.start) + " has " + rights + " over " + names(missing.end);
    edges.push(edgeOf({ ...missing, rights }, layout.points, "missing", told));
  }
  const vertices = [...picture.vertices.values()].map((vertex) => {
    const name = [marked.chosen === String(vertex.serial) ? "chosen" : "", marked.made?.has(String(vertex.serial)) ? "made" : ""].join(" ");
    return vertexOf(vertex, layout.points.get(vertex.serial), name, showsCollector, names(vertex.serial) + ", a " + vertex.kind);
  });
  const { width, height } = layout, box = "0 0 " + width + " " + height;
  const drawn = element("svg", { viewBox: box, width: 1.4 * width, class: showsCollector ? "colours" : "" }, ...edges, ...vertices);
  // letters stay large enough to be read
  drawn.style.minWidth = 0.6 * width + "px";
  return drawn;
}
