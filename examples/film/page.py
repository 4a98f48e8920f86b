"""The page of a film: all frames one below the other, of which a script shows one at a time."""

from html import escape

from film.svg import MARGIN, STYLE, svg_of

PAGE_STYLE = """
:root { color-scheme: light dark; --ink: #16191d; --paper: #ffffff; --soft: #eef1f4; --rule: #c9d0d7; --key: #0b57d0; }
@media (prefers-color-scheme: dark) { :root { --ink: #f1f3f5; --paper: #1b1f24; --soft: #282e35; --rule: #4a535d; --key: #8ab4f8; } }
* { box-sizing: border-box; }
body { margin: 0 auto; max-width: 76rem; padding: 1rem; color: var(--ink); background: var(--paper); font: 16px/1.45 system-ui, sans-serif; }
h1 { font-size: 1.35rem; margin: 0 0 .3rem; }
p { margin: .3rem 0; }
nav { display: flex; flex-wrap: wrap; gap: .4rem; align-items: center; margin: .8rem 0; }
button { font: inherit; color: inherit; background: var(--soft); border: 1px solid var(--rule); border-radius: .4rem; padding: .35rem .8rem; min-width: 2.8rem; cursor: pointer; }
button:disabled { opacity: .45; cursor: default; }
button:focus-visible, input:focus-visible, section:focus-visible { outline: 3px solid var(--key); outline-offset: 2px; }
input { flex: 1 1 10rem; accent-color: var(--key); }
output { min-width: 4.5rem; text-align: right; font-variant-numeric: tabular-nums; }
section { display: grid; grid-template-columns: minmax(0, 1.6fr) minmax(15rem, 1fr); gap: 1.2rem; align-items: start; border-top: 1px solid var(--rule); padding: 1rem 0; }
.paper { overflow: auto; }
.paper svg { display: block; margin: 0 auto; width: calc(var(--wide) * var(--zoom, 1)); height: auto; }
body:not(.zoomed) .paper svg { max-width: 100%; min-width: calc(var(--wide) * .7); }
.caption { font-weight: 600; margin: 0 0 .5rem; }
dl { margin: 0; }
dt { font-size: .8rem; opacity: .75; margin-top: .7rem; }
dt:first-child { margin-top: 0; }
dd { margin: 0; overflow-wrap: anywhere; }
code { font: .95rem/1.4 ui-monospace, monospace; background: var(--soft); border-radius: .3rem; padding: .1rem .3rem; box-decoration-break: clone; -webkit-box-decoration-break: clone; }
kbd { font: .85rem ui-monospace, monospace; border: 1px solid var(--rule); border-radius: .25rem; padding: 0 .3rem; }
.script section:not(.now) { display: none; }
body:not(.script) nav { display: none; }
.key { display: flex; flex-wrap: wrap; gap: .3rem 1.2rem; font-size: .9rem; margin: .6rem 0 0; padding: 0; list-style: none; }
@media (max-width: 46rem) { section { grid-template-columns: 1fr; } }
"""

# A row of twelve vertices, at its least letter size, beside the words about it in a window of 1,600 pixels, or above them
# in one that is not so wide.
WIDE_STYLE = """
.wide { max-width: 100rem; }
.wide section { grid-template-columns: minmax(0, 2.6fr) minmax(15rem, 1fr); }
@media (max-width: 97rem) { .wide section { grid-template-columns: 1fr; } }
"""

SCRIPT = """
(() => {
  const frames = [...document.querySelectorAll("section")];
  let zoom = 1;
  const [first, back, play, on, last, out, into] = document.querySelectorAll("nav button");
  const bar = document.querySelector("nav input"), count = document.querySelector("nav output");
  let now = 0, timer = null;
  function show(number) {
    const paper = () => frames[now].querySelector(".paper"), left = paper().scrollLeft;
    now = Math.min(Math.max(number, 0), frames.length - 1);
    frames.forEach((frame, place) => frame.classList.toggle("now", place === now));
    paper().scrollLeft = left;
    bar.value = now + 1;
    bar.setAttribute("aria-valuetext", "frame " + (now + 1) + " of " + frames.length);
    count.value = (now + 1) + " / " + frames.length;
    first.disabled = back.disabled = now === 0;
    on.disabled = last.disabled = now === frames.length - 1;
    // refused in some frames, and when it is called often
    try { history.replaceState(null, "", "#" + (now + 1)); } catch (_) { }
  }
  function stop() {
    clearInterval(timer);
    timer = null;
    play.textContent = "Play";
  }
  function toggle() {
    if (timer !== null) { stop(); return; }
    if (now === frames.length - 1) show(0);
    play.textContent = "Pause";
    timer = setInterval(() => { show(now + 1); if (now === frames.length - 1) stop(); }, 1600);
  }
  function step(number) { stop(); show(number); }
  first.onclick = () => step(0);
  back.onclick = () => step(now - 1);
  play.onclick = toggle;
  on.onclick = () => step(now + 1);
  last.onclick = () => step(frames.length - 1);
  bar.oninput = () => step(bar.value - 1);
  function scale(factor) {
    zoom = Math.min(Math.max(zoom * factor, .5), 4);
    document.documentElement.style.setProperty("--zoom", zoom);
    document.body.classList.toggle("zoomed", zoom !== 1);
  }
  out.onclick = () => scale(1 / 1.25);
  into.onclick = () => scale(1.25);
  document.addEventListener("keydown", (event) => {
    if (event.ctrlKey || event.altKey || event.metaKey) return;
    const keys = { ArrowLeft: () => step(now - 1), ArrowRight: () => step(now + 1), Home: () => step(0), End: () => step(frames.length - 1), "+": () => scale(1.25), "-": () => scale(1 / 1.25) };
    const key = event.key === " " && event.target.tagName !== "BUTTON" ? toggle : event.target === bar ? null : keys[event.key];
    if (key) { key(); event.preventDefault(); }
  });
  window.onhashchange = () => show((parseInt(location.hash.slice(1)) || 1) - 1);
  // where the first vertex is, if not all of the picture can be seen
  const paper = frames[0].querySelector(".paper"), vertex = paper.querySelector(".vertex");
  if (vertex) {
    const [around, box] = [paper, vertex].map((shown) => shown.getBoundingClientRect());
    paper.scrollLeft += (box.left + box.right - around.left - around.right) / 2;
  }
  show((parseInt(location.hash.slice(1)) || 1) - 1);
  document.body.classList.add("script");
})();
"""

NAV = """<nav aria-label="Frames">
<button type="button" aria-label="First frame">|&lt;</button>
<button type="button" aria-label="Frame before">&lt;</button>
<button type="button">Play</button>
<button type="button" aria-label="Next frame">&gt;</button>
<button type="button" aria-label="Last frame">&gt;|</button>
<button type="button" aria-label="Smaller">&minus;</button>
<button type="button" aria-label="Larger">+</button>
<input type="range" min="1" max="%d" value="1" aria-label="Frame">
<output aria-live="off"></output>
</nav>"""

ABOUT = """<p>Keys: <kbd>&larr;</kbd> <kbd>&rarr;</kbd> step, <kbd>space</kbd> plays, <kbd>Home</kbd> <kbd>End</kbd>, <kbd>+</kbd> <kbd>-</kbd> size.</p>
<ul class="key"><li>filled: a subject</li><li>open: a document</li><li>an arrow&rsquo;s letters, over its target: r to read it, w to write it, t to take
rights that it has, g to grant it rights</li><li>dotted: the missing right</li>%s</ul>"""
OF_THE_COLLECTOR = """<li>rim white, grey or black: the collector&rsquo;s colour</li><li>dashed: condemned, waits to be swept</li>
<li>target: the vertex that a session has just made or passed on</li>"""

OF_WIDE_FILMS = """<li>arrows that run together: all of them begin at one vertex, or all of them end at one</li>"""


def fact(name, text):
    return "<dt>%s</dt><dd>%s</dd>" % (name, text)


def code(text):
    """A line, which may be broken behind its commas."""
    return "<code>%s</code>" % escape(text).replace(",", ",<wbr>")


def section(frame, places, count, is_plain):
    """A frame beside its line and its answer."""
    shot = frame.picture
    names = {vertex.serial: vertex.name for vertex in shot.vertices.values()}
    seats = "; ".join(("seat %d: %d %s" % (seat, serial, names.get(serial, ""))).strip() for seat, serial in shot.seats.items())
    state = "%s; free slots %d, free cells %d" % (shot.phase, shot.free_slots, shot.free_cells)
    told = [
        fact("Line", code(frame.line)),
        fact("Answer", code(frame.answer)),
        fact("What changes", "; ".join(frame.changes) or ("nothing that is drawn" if frame.number > 1 else "the first frame")),
        *([] if is_plain else [fact("Collector", state)]),
        fact("Who sits where", seats or "nobody"),
    ]
    head = '<section tabindex="-1" aria-label="Frame %d of %d">' % (frame.number, count)
    caption = '<p class="caption">%s</p>' % escape(frame.caption) if frame.caption else ""
    paper = '<div class="paper" style="--wide: %dpx">%s</div>' % (places.width + 2 * MARGIN, svg_of(frame, places, is_plain))
    return "%s%s<div>%s<dl aria-live=\"polite\">%s</dl></div></section>" % (head, paper, caption, "".join(told))


def page_of(title, frames, places, is_plain=False):
    """The whole page."""
    head = '<!DOCTYPE html>\n<html lang="en"><head><meta charset="utf-8"><meta name="viewport" content="width=device-width, initial-scale=1">'
    style = PAGE_STYLE + (WIDE_STYLE if places.is_wide else "") + STYLE
    head += '<link rel="icon" href="data:,"><title>%s</title><style>%s</style></head>' % (escape(title), style)
    about = ABOUT % ((OF_WIDE_FILMS if places.is_wide else "") + ("" if is_plain else OF_THE_COLLECTOR))
    body = ["<h1>%s</h1>" % escape(title), about, NAV % len(frames), *[section(frame, places, len(frames), is_plain) for frame in frames]]
    kind = ' class="wide"' if places.is_wide else ""
    return "%s<body%s>\n%s\n<script>%s</script></body></html>\n" % (head, kind, "\n".join(body), SCRIPT)
