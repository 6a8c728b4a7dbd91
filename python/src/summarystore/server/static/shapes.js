// What is drawn in the place of a band: bars for sums, and a timeline for states.

import { isKnown } from "./numbers.js";
import { endOf } from "./painting.js";

const GAP = 1;
const LEAST_BAR = 3;
const LANE = 22;
const MARGIN = 0.2;
const BARS = ["sum", "increase"];
const READINGS = ["mean", "min", "max"];

/** How rows are drawn: by their kind, and by what the mapping of their stream says that it shows. */
export function shapeOf(shows, kind) {
  if (BARS.includes(kind)) return "bars";
  return shows === "state" && READINGS.includes(kind) ? "states" : "bands";
}

/** What else has to be seen on the scale: the ground of bars, and the whole lanes of states. */
export function besides(shape, { least, greatest }) {
  if (shape === "bars") return [{ least: 0, greatest: 0 }];
  return shape === "states" && least !== undefined ? [{ least: least - MARGIN, greatest: greatest + MARGIN }] : [];
}

/** The kind that a stream is shown by, as its mapping says. */
export const kindOf = (shows) => ({ sum: "sum", increase: "increase", mean: "mean", state: "mean" })[shows] ?? null;

/** Draws a bar for each row, from 0 to what is surely there, and above it what there may be. */
export function drawBars(ctx, { rows, step, colours }, { x, y }) {
  const ground = y.getPixelForValue(0);
  for (const row of rows) {
    if (row.none) continue;
    const [left, right] = [x.getPixelForValue(row.time), x.getPixelForValue(endOf(row, step))];
    const width = Math.max(1, right - left - (right - left > LEAST_BAR ? GAP : 0));
    const [near, far] = [row.lo, row.hi].map(Number).sort((one, two) => Math.abs(one) - Math.abs(two));
    const level = near * far < 0 ? ground : y.getPixelForValue(near);
    ctx.fillStyle = colours.exact;
    ctx.fillRect(left, Math.min(ground, level), width, Math.abs(level - ground));
    if (isKnown(row)) continue;
    const ends = [y.getPixelForValue(row.hi), y.getPixelForValue(row.lo)];
    const top = near * far < 0 ? ends[0] : Math.min(level, y.getPixelForValue(far));
    const bottom = near * far < 0 ? ends[1] : Math.max(level, y.getPixelForValue(far));
    ctx.fillStyle = colours.band;
    ctx.fillRect(left, top, width, bottom - top);
  }
}

/** The least and the greatest of each row as a state: one that is known, one of several, or the one before. */
function statesOf(rows) {
  let before = null;
  return rows.map((row) => {
    if (row.none) return before === null ? null : { row, lo: before, hi: before, colour: "outer" };
    before = isKnown(row) ? row.lo : null;
    return { row, lo: row.lo, hi: row.hi, colour: isKnown(row) ? "exact" : "band" };
  }).filter(Boolean);
}

/** Draws in which state something was: a lane for each, and across them where there were several. */
export function drawStates(ctx, { rows, outer, step, colours }, { x, y }) {
  for (const { row, lo, hi, colour } of statesOf(outer.length ? outer : rows)) {
    const [left, right] = [row.time, endOf(row, step)].map((time) => Math.round(x.getPixelForValue(time)));
    const top = y.getPixelForValue(hi) - LANE / 2;
    ctx.fillStyle = colours[colour];
    ctx.fillRect(left, top, Math.max(1, right - left), y.getPixelForValue(lo) + LANE / 2 - top);
  }
}
