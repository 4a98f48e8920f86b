// The page: a run as a list of lines, any prefix of which can be shown. The program answers every question about it.

import { framesOf, linesOf } from "./derivation.js";
import { pictureOf } from "./dot.js";
import { drags } from "./dragging.js";
import { svgOf } from "./drawing.js";
import { layoutOf } from "./layout.js";
import { edgePanel, made, stepsPanel, vertexPanel, whoPanel } from "./panels.js";
import { fieldsOf, namesOf, TARGETS, toldAnswer, toldLine, VERBS } from "./words.js";

const $ = (name) => document.getElementById(name);
const BEGINS = "This is how it begins. Step on by the buttons or the arrow keys.";
const EMPTY = {
  key: "empty",
  name: "An empty run",
  lines: ['{"principals":["alice","bob","carol","dave"],"edges":[[1,"g",2],[2,"g",3]]}'],
  begins: "Choose who acts, and type what is to be done.",
  collector: false,
};

const page = {
  lines: [], answers: [], pictures: [], layout: null,
  at: 1, chosen: null, derivation: null, before: [], timer: null, stories: [], story: null,
  // where vertices were dragged to
  moved: new Map(),
};

async function ask(path, question) {
  const reply = await fetch(path, { method: "POST", headers: { "Content-Type": "application/json" }, body: JSON.stringify(question) });
  const answer = await reply.json();
  if (!reply.ok) throw new Error("The server refuses: " + answer.refused);
  return answer;
}

function say(text) {
  $("said").textContent = text;
}

const picture = () => page.pictures[page.at - 1];
const read = (line) => {
  try {
    const value = JSON.parse(line);
    return value !== null && typeof value === "object" ? value : {};
  } catch {
    return {};
  }
};

// Takes these lines for the run, and shows as many of them; returns whether the program took them.
async function take(lines, at) {
  const told = await ask("state", { lines });
  if (told.refused) {
    say("The first line is refused: " + JSON.stringify(told.refused));
    return false;
  }
  page.lines = lines.slice(0, told.pictures.length);
  page.answers = told.answers.map((answer) => JSON.parse(answer));
  page.pictures = told.pictures.map(pictureOf);
  page.layout = layoutOf(page.pictures, page.moved);
  page.derivation = null;
  show(at ?? page.lines.length);
  return true;
}

function show(at) {
  page.at = Math.min(Math.max(at, 1), page.lines.length);
  if (page.derivation) page.derivation = null;
  if (page.chosen && !page.chosen.includes(">") && !picture().vertices.has(Number(page.chosen))) page.chosen = null;
  if (page.chosen?.includes(">") && !picture().edges.has(page.chosen)) page.chosen = null;
  drawLines();
  drawActors();
  draw();
}

// The sentence on the line that is shown, as long as the run is the story's.
function caption() {
  const { story } = page, place = page.at - 1;
  const isStory = story && page.lines.slice(0, page.at).every((line, one) => line === story.lines[one]);
  if (!isStory) return "";
  return place ? story.captions[place - 1] : story.begins;
}

// Who is meant by a line: the one who sits at its seat, or for whom that one acts.
function actorOf(fields, shot) {
  const seat = fields.seat ?? 0;
  const agent = [...shot.vertices.values()].find((vertex) => vertex.marks.includes("agent " + seat));
  return agent?.serial ?? shot.seats.get(seat);
}

function toldOf(place) {
  const fields = read(page.lines[place]);
  if (place === 0) return ["The opening: " + (fields.principals ?? []).join(", "), "", ""];
  const names = namesOf(page.pictures[place]), actor = actorOf(fields, page.pictures[place - 1]);
  const answer = page.answers[place - 1];
  const isRefused = "denied" in answer || "error" in answer || "full" in answer;
  const who = actor === undefined ? "seat " + (fields.seat ?? 0) : names(actor);
  // of a shade the answer says enough
  const text = fields.op === "shade" && answer.shaded ? "" : fields.op ? toldLine(fields, who, names) : page.lines[place];
  return [text, toldAnswer(answer, names), isRefused ? "refused" : ""];
}

function drawLines() {
  const items = page.lines.map((line, place) => {
    const [text, answer, kind] = toldOf(place), state = place + 1 === page.at ? "now" : place + 1 > page.at ? "later" : "";
    const button = made("button", text, { type: "button", title: line, className: state, onclick: () => step(place + 1) });
    if (state === "now") button.setAttribute("aria-current", "true");
    if (answer) button.append(made("small", answer, { className: kind }));
    const item = made("li", "", { className: text ? "" : "shade" });
    item.append(button);
    return item;
  });
  const list = $("lines"), hadFocus = list.contains(document.activeElement), now = items[page.at - 1];
  list.replaceChildren(...items);
  list.scrollTop = now.offsetTop - list.offsetTop - list.clientHeight / 2;
  if (hadFocus) now.firstChild.focus({ preventScroll: true });
  $("place").max = page.lines.length;
  $("place").value = page.at;
  $("place").setAttribute("aria-valuetext", "line " + page.at + " of " + page.lines.length);
  $("count").value = page.at + " / " + page.lines.length;
  $("first").disabled = $("back").disabled = page.at === 1;
  $("on").disabled = $("last").disabled = page.at === page.lines.length;
  $("undo").disabled = !page.before.length;
  $("source").value = page.lines.join("\n") + "\n";
}

// The principals, and for whom their seats act.
function drawActors() {
  const shot = picture(), names = namesOf(shot), wanted = $("who").value, options = [];
  for (const vertex of shot.vertices.values()) if (vertex.name) options.push(made("option", vertex.name, { value: String(vertex.serial) }));
  for (const [seat, serial] of shot.seats) {
    const agent = actorOf({ seat }, shot);
    if (agent !== serial) options.push(made("option", names(serial) + " for " + names(agent), { value: "seat " + seat }));
    else if (!shot.vertices.get(serial)?.name) options.push(made("option", names(serial) + ", retired", { value: "seat " + seat }));
  }
  $("who").replaceChildren(...options);
  if (options.some((option) => option.value === wanted)) $("who").value = wanted;
}

// The vertex that acts, by the choice.
function chosenActor() {
  const value = $("who").value;
  if (value.startsWith("seat ")) return actorOf({ seat: Number(value.slice(5)) }, picture());
  return value ? Number(value) : undefined;
}

// The seat at which a principal acts for itself, or the least free one.
function seatOf(serial, more = []) {
  const shot = picture();
  for (const [seat, owner] of shot.seats) if (owner === serial && actorOf({ seat }, shot) === serial) return { seat, isTaken: true };
  let seat = 0;
  while (shot.seats.has(seat) || more.includes(seat)) seat += 1;
  return { seat, isTaken: false };
}

// What an answer says is missing.
function missing() {
  const answer = page.at > 1 ? page.answers[page.at - 2] : {};
  return answer.missing ? { start: answer.from, end: answer.to, rights: answer.missing } : null;
}

function draw() {
  const { derivation } = page, shot = derivation ? derivation.frames[derivation.at].picture : picture();
  const layout = derivation ? derivation.layout : page.layout;
  const marked = derivation ? { made: derivation.frames[derivation.at].made } : { chosen: page.chosen, missing: missing() };
  $("paper").replaceChildren(svgOf(shot, layout, namesOf(shot), marked, $("colours").checked && !derivation));
  $("caption").textContent = derivation ? "" : caption();
  const state = $("colours").checked ? picture().state.replace("phase", "The collector: phase") : "";
  $("state").textContent = derivation ? "What could come about" : state;
  drawPanel();
}

function drawPanel() {
  const shot = picture(), names = namesOf(shot), panel = $("panel");
  if (page.derivation) {
    const { question, steps, at, next } = page.derivation;
    panel.replaceChildren(...stepsPanel(question, steps, at, next, names, derivationButtons()));
  } else if (page.chosen?.includes(">")) {
    panel.replaceChildren(...edgePanel(shot, shot.edges.get(page.chosen), names, act));
  } else if (page.chosen) {
    panel.replaceChildren(...vertexPanel(shot, chosenActor(), Number(page.chosen), names, act, askWho));
  } else {
    panel.replaceChildren(made("p", "Choose a vertex or an arrow to see what may be done with it."));
  }
}

function derivationButtons() {
  const { derivation } = page, button = (text, onclick, disabled = false) => made("button", text, { type: "button", onclick, disabled });
  const go = (at) => { stop(); derivation.at = at; draw(); };
  const lines = linesOf(derivation.steps, picture(), seatOf);
  const next = () => {
    if (page.derivation !== derivation || derivation.at === derivation.steps.length) return false;
    derivation.at += 1;
    draw();
    return true;
  };
  return [
    button("<", () => go(derivation.at - 1), derivation.at === 0),
    button("Play the steps", () => { go(0); run(next); }),
    button(">", () => go(derivation.at + 1), derivation.at === derivation.steps.length),
    button("Add them to the run", () => add(lines), !lines || !derivation.steps.length),
    button("Close", () => { stop(); page.derivation = null; draw(); }),
  ];
}

async function askWho(rights, end) {
  const told = await guarded(() => ask("who", { lines: page.lines.slice(0, page.at), to: end, rights }));
  if (told) $("panel").replaceChildren(...whoPanel(told, rights, end, namesOf(picture()), askHow));
}

async function askHow(start, rights, end) {
  const lines = page.lines.slice(0, page.at), told = await guarded(() => ask("share", { lines, from: start, to: end, rights }));
  if (!told) return;
  if (told.verdict) {
    say(told.verdict);
    return;
  }
  const names = namesOf(picture()), opening = read(page.lines[0]);
  const makes = page.answers.slice(0, page.at - 1).filter((answer) => answer.ok === "created").length;
  const next = (opening.next ?? opening.principals.length + 1) + makes, frames = framesOf(picture(), told.steps, next);
  const question = "How " + names(start) + " comes to have " + rights + " over " + names(end);
  const layout = layoutOf([...page.pictures, ...frames.map((frame) => frame.picture)], page.moved);
  page.derivation = { question, steps: told.steps, frames, at: frames.length - 1, next, layout };
  draw();
}

// What a call returns; what goes wrong is said.
async function guarded(call) {
  try {
    say("");
    return await call();
  } catch (error) {
    say(error.message);
    return undefined;
  }
}

// Adds lines behind the one that is shown; the later ones are dropped, and Undo brings them back.
async function add(fields) {
  stop();
  const lines = [...page.lines.slice(0, page.at), ...fields.map((one) => (typeof one === "string" ? one : JSON.stringify(one)))];
  const before = [page.lines, page.at];
  if (await guarded(() => take(lines))) {
    page.before.push(before);
    $("undo").disabled = false;
    return true;
  }
  return false;
}

// What is to be added for a typed command: who acts sits down first, and an old target is finished if that is wanted.
function linesFor(text, actor) {
  if (text.trim().startsWith("{")) return [text.trim()];
  const value = actor === undefined ? $("who").value : String(actor), lines = [];
  const serial = value.startsWith("seat ") ? chosenActor() : Number(value);
  const fields = fieldsOf(text, picture(), serial);
  if (["collect", "cycle"].includes(fields.op)) return [fields];
  if (fields.op === "hello") return [{ ...fields, seat: seatOf(-1).seat }];
  if (!value) throw new Error("There is no principal who could act.");
  const { seat, isTaken } = value.startsWith("seat ") ? { seat: Number(value.slice(5)), isTaken: true } : seatOf(serial);
  const target = [...picture().vertices.values()].some((vertex) => vertex.marks.includes("target " + seat));
  const name = picture().vertices.get(serial)?.name;
  if (!isTaken && !name) throw new Error("Nobody sits for " + serial + ", which is no principal: somebody has to assume it.");
  if (!isTaken) lines.push({ op: "hello", name, seat });
  if (target && fields.op !== "shade" && $("shades").checked) lines.push({ op: "shade", seat });
  return [...lines, { ...fields, seat }];
}

async function act(text, actor) {
  const lines = await guarded(() => linesFor(text, actor));
  if (!lines || !(await add(lines))) return false;
  const place = page.lines.length - 1, { op, seat } = read(page.lines[place]);
  if ($("shades").checked && TARGETS.includes(op) && page.answers[place - 1].ok) {
    await guarded(() => take([...page.lines, JSON.stringify({ op: "shade", seat })]));
  }
  say(toldOf(place)[1]);
  return true;
}

function stop() {
  clearInterval(page.timer);
  page.timer = null;
  $("play").textContent = "Play";
}

function run(more) {
  stop();
  page.timer = setInterval(() => { if (!more()) stop(); }, 1100);
}

function step(at) {
  stop();
  show(at);
}

function play() {
  if (page.timer !== null) {
    stop();
    return;
  }
  show(page.at === page.lines.length ? 1 : page.at);
  run(() => { show(page.at + 1); return page.at < page.lines.length; });
  $("play").textContent = "Pause";
}

async function open(key, at) {
  stop();
  const story = page.stories.find((one) => one.key === key) ?? EMPTY;
  page.before = [];
  page.chosen = null;
  page.story = story;
  page.moved.clear();
  $("colours").checked = story.collector;
  await guarded(() => take(story.lines, at ?? 1));
  for (const button of $("stories").children) button.setAttribute("aria-pressed", String(button.dataset.key === story.key));
}

function choose(target) {
  const found = target.closest?.("[data-vertex], [data-edge]");
  if (!found || page.derivation) return;
  page.chosen = found.dataset.vertex ?? found.dataset.edge;
  draw();
  $("paper").querySelector('[data-vertex="' + page.chosen + '"], [data-edge="' + page.chosen + '"]')?.focus({ preventScroll: true });
}

function onKey(event) {
  if (event.ctrlKey || event.altKey || event.metaKey || event.target.matches("input, textarea, select")) return;
  if ((event.key === "Enter" || event.key === " ") && event.target.closest("svg")) {
    choose(event.target);
    event.preventDefault();
    return;
  }
  const places = { ArrowLeft: page.at - 1, ArrowRight: page.at + 1, Home: 1, End: page.lines.length };
  if (!(event.key in places)) return;
  step(places[event.key]);
  event.preventDefault();
}

function bind() {
  $("first").onclick = () => step(1);
  $("back").onclick = () => step(page.at - 1);
  $("play").onclick = play;
  $("on").onclick = () => step(page.at + 1);
  $("last").onclick = () => step(page.lines.length);
  $("place").oninput = () => step(Number($("place").value));
  $("step").onclick = () => add([{ op: "collect" }]);
  $("cycle").onclick = () => add([{ op: "cycle" }]);
  $("undo").onclick = () => { const [lines, at] = page.before.pop(); guarded(() => take(lines, at)); };
  $("colours").onchange = draw;
  $("who").onchange = drawPanel;
  $("typing").onsubmit = async (event) => {
    event.preventDefault();
    if ($("what").value.trim() && (await act($("what").value))) $("what").value = "";
  };
  $("copy").onclick = async () => {
    $("source").select();
    try { await navigator.clipboard.writeText($("source").value); say("Copied."); } catch { say("Selected; copy with Ctrl-C."); }
  };
  $("use").onclick = () => guarded(() => take($("source").value.split("\n").filter((line) => line.trim())));
  $("paper").onclick = (event) => choose(event.target);
  drags($("paper"), page.moved, () => page.derivation?.layout ?? page.layout, draw);
  document.addEventListener("keydown", onKey);
  $("verbs").replaceChildren(...VERBS.map((verb) => made("option", "", { value: verb })));
}

async function begin() {
  bind();
  const told = await (await fetch("stories")).json();
  page.stories = [...told.map((story) => ({ ...story, begins: BEGINS })), EMPTY];
  $("stories").replaceChildren(...page.stories.map(({ key, name }) => {
    const button = made("button", name, { type: "button", onclick: () => open(key) });
    button.dataset.key = key;
    return button;
  }));
  const [key, at] = location.hash.slice(1).split("@");
  await open(key || "sharing", Number(at) || undefined);
  document.body.dataset.ready = "yes";
}

begin();
