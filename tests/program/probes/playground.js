const seen = [], $ = (name) => document.getElementById(name), wait = (time) => new Promise((done) => setTimeout(done, time));
window.onerror = (text) => { seen.push("error: " + text); };
window.onunhandledrejection = (event) => { seen.push("rejected: " + event.reason); };
async function until(what, good) {
  for (let tries = 0; tries < 400; tries += 1) { if (good()) return; await wait(25); }
  seen.push("never: " + what);
}
const press = (key, target = document.body) => target.dispatchEvent(new KeyboardEvent("keydown", { key, bubbles: true, cancelable: true }));
const count = () => document.querySelectorAll("#lines li").length, vertices = () => document.querySelectorAll("svg .vertex").length;
const note = (what, value) => seen.push(what + " " + value), panel = () => $("panel").textContent;
async function act(text) {
  $("what").value = text;
  $("said").textContent = "";
  $("typing").requestSubmit();
  await until(text, () => $("said").textContent);
}
async function probe() {
  await until("ready", () => document.body.dataset.ready === "yes");
  document.querySelector('#stories [data-key="group"]').click();
  await until("group", () => count() === 18);
  note("place", $("count").value); press("End"); note("caption", $("caption").textContent.startsWith("dave is no member")); note("vertices", vertices());
  note("missing", document.querySelector("svg .missing text").textContent);
  press("Home"); note("home", $("count").value + ", " + vertices()); press("ArrowRight"); note("right", $("count").value);
  press("End"); press("ArrowLeft"); note("left", $("count").value); press("End");
  $("play").click(); note("play", $("play").textContent); $("play").click(); note("pause", $("play").textContent); press("End");
  document.querySelector('svg [data-vertex="6"]').dispatchEvent(new MouseEvent("click", { bubbles: true }));
  note("chosen", panel().startsWith("6, a document") && panel().includes("grant r 6 carol"));
  const circle = () => document.querySelector('svg [data-vertex="6"] .body').getBoundingClientRect(), from = circle();
  const pointer = (target, type, more) => target.dispatchEvent(new PointerEvent(type, { bubbles: true, clientX: from.x + 30 + more, clientY: from.y + 30 }));
  pointer(document.querySelector('svg [data-vertex="6"]'), "pointerdown", 0); pointer(window, "pointermove", 60); pointer(window, "pointerup", 60);
  pointer(window, "pointermove", 200); note("dragged", Math.abs(circle().x - from.x - 60) < 2);
  press("Enter", document.querySelector('svg [data-edge="2>6"]'));
  note("edge", panel().startsWith("bob has r over 6"));
  document.querySelector('svg [data-vertex="6"]').dispatchEvent(new MouseEvent("click", { bubbles: true }));
  [...document.querySelectorAll("#panel button")].find((one) => one.textContent === "r").click();
  await until("who", () => panel().includes("Never"));
  note("who", panel().includes("Now: alice, bob, 5.") && panel().includes("Never, whatever all of them do: dave."));
  [...document.querySelectorAll("#panel button")].find((one) => one.textContent === "carol").click();
  await until("how", () => panel().startsWith("How carol"));
  note("steps", document.querySelectorAll("#panel li").length); note("made", document.querySelectorAll("svg .edge.made").length > 0);
  [...document.querySelectorAll("#panel button")].find((one) => one.textContent === "Add them to the run").click();
  await until("added", () => count() > 18);
  note("carol", document.querySelector('svg [data-edge="3>6"] text').textContent);
  $("undo").click(); await until("undone", () => count() === 18);
  $("who").value = "1"; await act("create document rw"); note("typed", count() + " " + $("said").textContent);
  await act("grant rw 7 dave"); note("denied", $("said").textContent);
  await act("fly"); note("confused", $("said").textContent.startsWith("There is no command fly"));
  const before = count(); $("cycle").click(); await until("cycle", () => count() === before + 1);
  note("cycle", /^\d+ steps, 0 freed$/.test(document.querySelector("#lines li:last-child small").textContent));
  $("source").value = '{"principals":["zoe"]}\n{"op":"hello","name":"zoe"}\n'; $("use").click();
  await until("lines", () => count() === 2); note("zoe", vertices());
  $("source").value = "{}\n"; $("use").click(); await until("refusal", () => $("said").textContent); note("refused", $("said").textContent.includes("missing field"));
  note("wide", document.documentElement.scrollWidth > document.documentElement.clientWidth);
}
await probe().catch((error) => seen.push("error: " + error));
await fetch("seen", { method: "POST", headers: { "Content-Type": "application/json" }, body: JSON.stringify({ seen }) });
