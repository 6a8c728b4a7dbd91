// What Chart.js doesn't draw: the band, row by row on each row's own times, landmarks, what is exact, and the cursor.

import { isKnown } from "./numbers.js";
import { drawBars, drawStates } from "./shapes.js";
import { now, untilOf } from "./times.js";

export const STRIP = 5;
const LEAST_EDGE = 5.5;

/** Where a row ends. The row that the present is in ends now. */
export function endOf(row, step) {
  const present = now();
  const until = untilOf(row, step);
  return row.time < present && until > present ? present : until;
}

/** The rows with a value, those beside each other together: each with its edges in pixels. */
function boxesOf(rows, step, { x, y }) {
  const runs = [];
  let before = null;
  for (const row of rows) {
    if (row.none) continue;
    if (before === null || row.time > before) runs.push([]);
    before = untilOf(row, step);
    runs.at(-1).push({
      left: x.getPixelForValue(row.time), right: x.getPixelForValue(endOf(row, step)),
      top: y.getPixelForValue(row.hi), bottom: y.getPixelForValue(row.lo), known: isKnown(row),
    });
  }
  return runs;
}

/** Fills a run of boxes as one shape, so that no seams are seen between them. */
function fillBoxes(ctx, boxes, colour) {
  ctx.beginPath();
  for (const { left, right, top } of boxes) {
    ctx.lineTo(left, top);
    ctx.lineTo(right, top);
  }
  for (const { left, right, bottom } of [...boxes].reverse()) {
    ctx.lineTo(right, bottom);
    ctx.lineTo(left, bottom);
  }
  ctx.closePath();
  ctx.fillStyle = colour;
  ctx.fill();
}

/** Draws the upper and the lower edge of the boxes that are wide enough for it. */
function edgeBoxes(ctx, boxes, colour) {
  ctx.beginPath();
  for (const { left, right, top, bottom, known } of boxes) {
    if (known || right - left < LEAST_EDGE) continue;
    for (const level of [top, bottom]) {
      ctx.moveTo(left, level);
      ctx.lineTo(right, level);
    }
  }
  ctx.strokeStyle = colour;
  ctx.lineWidth = 1;
  ctx.stroke();
}

/** Draws what the answers say: bands, and below them those of the readings; bars, or a timeline. */
export const bands = {
  id: "bands",
  beforeDatasetsDraw({ ctx, chartArea: area, scales, model }) {
    ctx.save();
    ctx.beginPath();
    ctx.rect(area.left, area.top, area.right - area.left, area.bottom - area.top);
    ctx.clip();
    ({ bands: drawBands, bars: drawBars, states: drawStates })[model.shape](ctx, model, scales);
    ctx.restore();
  },
};

function drawBands(ctx, { rows, outer, step, colours }, scales) {
  for (const boxes of boxesOf(outer, step, scales)) fillBoxes(ctx, boxes, colours.outer);
  for (const boxes of boxesOf(rows, step, scales)) {
    fillBoxes(ctx, boxes, colours.band);
    edgeBoxes(ctx, boxes, colours["band-edge"]);
  }
}

/** Draws the middle of a run of boxes as steps. */
function stepBoxes(ctx, boxes, colour) {
  ctx.beginPath();
  for (const { left, right, top, bottom } of boxes) {
    ctx.lineTo(left, (top + bottom) / 2);
    ctx.lineTo(right, (top + bottom) / 2);
  }
  ctx.strokeStyle = colour;
  ctx.lineWidth = 1.75;
  ctx.lineJoin = "round";
  ctx.stroke();
}

/** Draws further streams: of each its band and the middle of it, on its own scale. */
export const others = {
  id: "others",
  beforeDatasetsDraw({ ctx, chartArea: area, scales, model }) {
    ctx.save();
    ctx.beginPath();
    ctx.rect(area.left, area.top, area.right - area.left, area.bottom - area.top);
    ctx.clip();
    for (const { rows, step, colour, scale } of model.others) {
      for (const boxes of boxesOf(rows, step, { x: scales.x, y: scales[scale] })) {
        fillBoxes(ctx, boxes, model.colours[`other-${colour}-band`]);
        stepBoxes(ctx, boxes, model.colours[`other-${colour}`]);
      }
    }
    ctx.restore();
  },
};

/** Draws the landmarks behind all else: a wash, with an edge where it began and where it ended. */
export const landmarks = {
  id: "landmarks",
  beforeDatasetsDraw({ ctx, chartArea: area, scales: { x }, model }) {
    ctx.save();
    for (const { from, to } of model.landmarks) {
      const left = from === null ? area.left : Math.max(area.left, x.getPixelForValue(from));
      const right = Math.min(area.right, x.getPixelForValue(to ?? Math.max(now(), from ?? 0)));
      if (right < area.left || left > area.right) continue;
      ctx.fillStyle = model.colours.landmark;
      ctx.fillRect(left, area.top, Math.max(2, right - left), area.bottom - area.top);
      ctx.fillStyle = model.colours["landmark-edge"];
      ctx.fillRect(left, area.top, Math.max(2, right - left), 2);
    }
    ctx.restore();
  },
};

/** The times of rows that are known alike, those beside each other together. */
function stretches(rows, step) {
  const found = [];
  for (const row of rows) {
    if (row.none) continue;
    const known = isKnown(row);
    const last = found.at(-1);
    if (last && last.known === known && row.time <= last.to) last.to = endOf(row, step);
    else found.push({ known, from: row.time, to: endOf(row, step) });
  }
  return found;
}

/** Draws under the lower edge what is exact and what is an interval, as wide as its time. */
export const strip = {
  id: "strip",
  afterDatasetsDraw({ ctx, chartArea: area, scales: { x }, model }) {
    ctx.save();
    ctx.beginPath();
    ctx.rect(area.left, area.bottom + 1, area.right - area.left, STRIP);
    ctx.clip();
    for (const { known, from, to } of stretches(model.rows, model.step)) {
      const left = x.getPixelForValue(from);
      ctx.fillStyle = known ? model.colours.exact : model.colours.band;
      ctx.fillRect(left, area.bottom + 1, Math.max(1, x.getPixelForValue(to) - left), STRIP);
    }
    ctx.restore();
  },
};

/** Draws the cursor: a line, and a mark on the row that is read. */
export const cursor = {
  id: "cursor",
  afterDatasetsDraw({ ctx, chartArea: area, scales: { x, y }, model }) {
    const row = model.rows[model.cursor];
    if (!row) return;
    const [left, right] = [x.getPixelForValue(row.time), x.getPixelForValue(endOf(row, model.step))];
    const middle = (left + right) / 2;
    if (middle < area.left || middle > area.right) return;
    ctx.save();
    ctx.beginPath();
    ctx.rect(area.left, area.top, area.right - area.left, area.bottom - area.top);
    ctx.clip();
    ctx.fillStyle = model.colours.cursor;
    ctx.globalAlpha = 0.14;
    ctx.fillRect(Math.min(left, middle - 1), area.top, Math.max(2, right - left), area.bottom - area.top);
    ctx.globalAlpha = 1;
    ctx.fillRect(middle - 0.5, area.top, 1, area.bottom - area.top);
    if (!row.none) drawReading(ctx, model, middle, y.getPixelForValue(row.hi), y.getPixelForValue(row.lo));
    ctx.restore();
  },
};

/** The mark of a reading: a dot where it is exact, and a bracket from lo to hi where it isn't. */
function drawReading(ctx, { colours }, middle, top, bottom) {
  ctx.strokeStyle = colours.exact;
  ctx.fillStyle = colours.surface;
  ctx.lineWidth = 2;
  ctx.beginPath();
  if (bottom - top < 4) {
    ctx.arc(middle, (top + bottom) / 2, 4.5, 0, 2 * Math.PI);
    ctx.fill();
  } else {
    for (const level of [top, bottom]) {
      ctx.moveTo(middle - 5, level);
      ctx.lineTo(middle + 5, level);
    }
    ctx.moveTo(middle, top);
    ctx.lineTo(middle, bottom);
  }
  ctx.stroke();
}

/** Says at the upper end of each axis what its values are measured in. */
export const units = {
  id: "units",
  afterDatasetsDraw({ ctx, chartArea: area, model }) {
    ctx.save();
    ctx.font = model.font;
    ctx.fillStyle = model.colours.muted;
    ctx.textBaseline = "top";
    ctx.fillText(model.unit, area.left + 6, area.top + 4);
    ctx.textAlign = "right";
    ctx.fillText(model.otherUnit, area.right - 6, area.top + 4);
    ctx.restore();
  },
};
