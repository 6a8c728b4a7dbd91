// The small picture beside a stream: the same band and middle as in the chart, without axes.

import { makeSvg } from "./dom.js";
import { isKnown } from "./numbers.js";

const WIDTH = 170;
const HEIGHT = 30;
const EDGE = 2;

/** Where the values of rows lie in the picture. */
function scaleOf(rows) {
  const low = Math.min(...rows.map((row) => Number(row.lo)));
  const high = Math.max(...rows.map((row) => Number(row.hi)));
  const height = HEIGHT - 2 * EDGE;
  return (value) => (high > low ? EDGE + (height * (high - Number(value))) / (high - low) : HEIGHT / 2);
}

/** The rows with a value, those beside each other together. */
function runsOf(rows) {
  const runs = [];
  let open = false;
  for (const [at, row] of rows.entries()) {
    if (row.none) {
      open = false;
      continue;
    }
    if (!open) runs.push([]);
    open = true;
    runs.at(-1).push({ ...row, at });
  }
  return runs;
}

const path = (points) => points.map(([x, y], at) => `${at ? "L" : "M"}${x.toFixed(1)} ${y.toFixed(1)}`).join("");

/** An SVG of rows, from the first to the last place. */
export function sparkline(rows) {
  const svg = makeSvg("svg", { class: "sparkline", viewBox: `0 0 ${WIDTH} ${HEIGHT}`, "aria-hidden": "true" });
  const full = rows.filter((row) => !row.none);
  if (!full.length) return svg;
  const y = scaleOf(full);
  const x = (at) => EDGE + ((WIDTH - 2 * EDGE) * at) / Math.max(1, rows.length - 1);
  for (const run of runsOf(rows)) {
    const upper = run.map((row) => [x(row.at), y(row.hi)]);
    const lower = run.map((row) => [x(row.at), y(row.lo)]).reverse();
    if (run.some((row) => !isKnown(row))) {
      svg.append(makeSvg("path", { class: "spark-band", d: `${path([...upper, ...lower])}Z` }));
    }
    const middles = run.map((row) => [x(row.at), y(row.mid ?? row.lo)]);
    svg.append(makeSvg("path", { class: "spark-line", d: path(middles) }));
  }
  const last = full.at(-1);
  const place = { cx: x(rows.lastIndexOf(last)), cy: y(last.mid ?? last.lo), r: 2 };
  svg.append(makeSvg("circle", { class: "spark-dot", ...place }));
  return svg;
}
