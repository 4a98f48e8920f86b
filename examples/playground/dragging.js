// Vertices can be dragged aside; where they were put they stay.

import { RADIUS } from "./layout.js";

// Lets the vertices of the picture on a paper be dragged. `layout` gives the layout that is shown; `draw` draws it anew.
export function drags(paper, moved, layout, draw) {
  paper.onpointerdown = (event) => {
    const found = event.target.closest("[data-vertex]");
    if (!found || event.button !== 0) return;
    const serial = Number(found.dataset.vertex), first = layout().points.get(serial);
    const onPaper = ({ clientX, clientY }) => new DOMPoint(clientX, clientY).matrixTransform(paper.querySelector("svg").getScreenCTM().inverse());
    const grip = onPaper(event);
    let isMoved = false;
    const move = (now) => {
      isMoved ||= Math.hypot(now.clientX - event.clientX, now.clientY - event.clientY) > 5;
      if (!isMoved) return;
      const box = layout(), place = onPaper(now), within = (value, end) => Math.min(Math.max(value, RADIUS), end - RADIUS);
      moved.set(serial, { x: within(first.x + place.x - grip.x, box.width), y: within(first.y + place.y - grip.y, box.height), row: NaN });
      box.points.set(serial, moved.get(serial));
      draw();
    };
    window.addEventListener("pointermove", move);
    window.addEventListener("pointerup", () => window.removeEventListener("pointermove", move), { once: true });
  };
}
