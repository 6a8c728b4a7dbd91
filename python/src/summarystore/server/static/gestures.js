// What hands do on the chart: the mouse, its wheel, fingers and keys become "pan by", "zoom at" and "read here".

const WHEEL = 0.0016;
const KEY_ZOOM = 0.6;

/** The place of a pointer in the canvas. */
function placeIn(canvas, { clientX, clientY }) {
  const box = canvas.getBoundingClientRect();
  return { x: clientX - box.left, y: clientY - box.top };
}

/**
 * Calls `pan(share)` of the view's length, `zoom(factor, pixel)`, `read(pixel)`, `leave()` and `step(rows)`,
 * `first()`, `last()`, `reset()` as hands ask.
 */
export function listen(canvas, width, hands) {
  listenToPointers(canvas, width, hands);
  listenToWheel(canvas, width, hands);
  canvas.addEventListener("keydown", (event) => pressed(event, hands));
  canvas.addEventListener("blur", () => hands.leave());
}

function listenToPointers(canvas, width, hands) {
  const held = new Map();
  const spread = () => {
    const [one, two] = [...held.values()];
    return { distance: Math.max(24, Math.abs(one.x - two.x)), middle: (one.x + two.x) / 2 };
  };
  canvas.addEventListener("pointerdown", (event) => {
    if (event.button !== 0) return;
    held.set(event.pointerId, placeIn(canvas, event));
    try {
      canvas.setPointerCapture(event.pointerId);
    } catch {
      // A pointer that is gone already has nothing to hold.
    }
    hands.read(placeIn(canvas, event).x);
  });
  canvas.addEventListener("pointermove", (event) => {
    const place = placeIn(canvas, event);
    if (!held.has(event.pointerId)) {
      hands.read(place.x);
      return;
    }
    const before = held.size === 2 ? spread() : held.get(event.pointerId);
    held.set(event.pointerId, place);
    if (held.size === 1) {
      drag(canvas, (place.x - before.x) / width(), hands);
      hands.read(place.x);
    } else if (held.size === 2) {
      pinch(before, spread(), width(), hands);
    }
  });
  for (const end of ["pointerup", "pointercancel"]) {
    canvas.addEventListener(end, (event) => {
      held.delete(event.pointerId);
      canvas.classList.remove("dragged");
    });
  }
  canvas.addEventListener("pointerleave", (event) => {
    if (event.pointerType === "mouse" && !held.size && document.activeElement !== canvas) hands.leave();
  });
  canvas.addEventListener("dblclick", (event) => {
    hands.zoom(event.shiftKey ? 2 : 0.5, placeIn(canvas, event).x);
  });
}

function drag(canvas, share, hands) {
  if (!share) return;
  canvas.classList.add("dragged");
  hands.pan(-share);
}

function pinch(before, after, width, hands) {
  hands.pan((before.middle - after.middle) / width);
  hands.zoom(before.distance / after.distance, after.middle);
}

/** The wheel zooms at the pointer; sideways, or with the shift key, it pans. */
function listenToWheel(canvas, width, hands) {
  canvas.addEventListener("wheel", (event) => {
    event.preventDefault();
    const unit = event.deltaMode === 1 ? 16 : 1;
    const across = event.shiftKey ? event.deltaY || event.deltaX : event.deltaX;
    if (event.shiftKey || Math.abs(event.deltaX) > Math.abs(event.deltaY)) {
      hands.pan((across * unit) / width());
    } else {
      hands.zoom(Math.exp(event.deltaY * unit * WHEEL), placeIn(canvas, event).x);
    }
  }, { passive: false });
}

const KEYS = {
  ArrowLeft: (hands, { shiftKey }) => (shiftKey ? hands.pan(-0.25) : hands.step(-1)),
  ArrowRight: (hands, { shiftKey }) => (shiftKey ? hands.pan(0.25) : hands.step(1)),
  ArrowUp: (hands) => hands.zoom(KEY_ZOOM),
  ArrowDown: (hands) => hands.zoom(1 / KEY_ZOOM),
  "+": (hands) => hands.zoom(KEY_ZOOM),
  "=": (hands) => hands.zoom(KEY_ZOOM),
  "-": (hands) => hands.zoom(1 / KEY_ZOOM),
  PageUp: (hands) => hands.pan(-0.9),
  PageDown: (hands) => hands.pan(0.9),
  Home: (hands) => hands.first(),
  End: (hands) => hands.last(),
  0: (hands) => hands.reset(),
  Escape: (hands) => hands.leave(),
};

function pressed(event, hands) {
  if (event.ctrlKey || event.metaKey || event.altKey || !Object.hasOwn(KEYS, event.key)) return;
  event.preventDefault();
  KEYS[event.key](hands, event);
}
