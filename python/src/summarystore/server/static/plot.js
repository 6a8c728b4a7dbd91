// The chart: Chart.js draws the axes, the middle of the band, and what is known exactly. The rest is in painting.js.

import { brief, isKnown } from "./numbers.js";
import { STRIP, bands, cursor, endOf, landmarks, others, strip, units } from "./painting.js";
import { besides } from "./shapes.js";
import { marks, untilOf } from "./times.js";

const PER_TIME_MARK = 72;
const PER_DATE = 88;
const HALF_LABEL = 24;
const EDGE = 0.01;
const COLOURS = [
  "band", "band-edge", "outer", "exact", "middle", "landmark", "landmark-edge", "grid", "muted", "surface", "cursor",
  ...["a", "b", "c", "d"].flatMap((one) => [`other-${one}`, `other-${one}-band`]),
];
const MANY = 300;
const SETS = { middle: 0, known: 1, values: 2, newest: 3 };

/** The colours of the theme, by their names in page.css. */
function palette() {
  const style = getComputedStyle(document.documentElement);
  const colour = (name) => style.getPropertyValue(`--${name}`).trim();
  return Object.fromEntries(COLOURS.map((name) => [name, colour(name)]));
}

/** What is known exactly, as steps: both edges of each row at its level, and a gap where it isn't. */
function knownSteps(rows, step) {
  const points = [];
  for (const row of rows) {
    const y = isKnown(row) ? Number(row.mid ?? row.lo) : NaN;
    if (!Number.isNaN(y)) points.push({ x: row.time, y }, { x: endOf(row, step), y });
    else if (points.length && !Number.isNaN(points.at(-1).y)) points.push({ x: row.time, y: NaN });
  }
  return points;
}

/** The middles of the rows that aren't known exactly, one beside the other. */
function middles(rows, step) {
  const level = (row) => (row.none || isKnown(row) ? NaN : Number(row.mid));
  return rows.map((row) => ({ x: (row.time + endOf(row, step)) / 2, y: level(row) }));
}

/** The least and the greatest of what is seen. */
function extentOf(rows, from, to, step) {
  const seen = rows.filter((row) => !row.none && untilOf(row, step) > from && row.time < to);
  if (!seen.length) return {};
  return {
    least: Math.min(...seen.map((row) => Number(row.lo))), greatest: Math.max(...seen.map((row) => Number(row.hi))),
  };
}

/** The ends of a scale on which some extents are seen: it begins at 0 where nothing is below. */
function suggested(extents) {
  const seen = extents.filter(({ least }) => least !== undefined);
  if (!seen.length) return { suggestedMin: undefined, suggestedMax: undefined, beginAtZero: true };
  const suggestedMin = Math.min(...seen.map(({ least }) => least));
  const suggestedMax = Math.max(...seen.map(({ greatest }) => greatest));
  return { suggestedMin, suggestedMax, beginAtZero: suggestedMin >= 0 };
}

const EMPTY = {
  rows: [], outer: [], step: 1, landmarks: [], values: [], newest: null, from: 0, to: 1, kind: "mean", cursor: -1,
  others: [], unit: "", otherUnit: "", font: "", shape: "bands", words: {},
};

/** One chart on a canvas. `draw` takes what is to be seen, `look` only other ends of the times. */
export class Plot {
  constructor(canvas) {
    this.canvas = canvas;
    this.model = { ...EMPTY, colours: palette() };
    this.chart = new window.Chart(canvas, this.configuration());
    this.chart.model = this.model;
    document.addEventListener("theme", () => this.recolour());
    this.recolour();
  }

  configuration() {
    const set = (more) => ({
      data: [], parsing: false, pointRadius: 0, pointHitRadius: 0, borderWidth: 0, ...more,
    });
    const datasets = [
      set({ order: 4, borderWidth: 1.25, borderDash: [2, 3] }),
      set({ order: 3, borderWidth: 2.5, borderCapStyle: "round", borderJoinStyle: "round" }),
      set({ order: 2, showLine: false, pointRadius: ({ dataset }) => (dataset.data.length > MANY ? 1.2 : 2.5) }),
      set({ order: 1, showLine: false, pointRadius: 5, pointBorderWidth: 2 }),
    ];
    return {
      type: "line",
      data: { datasets },
      plugins: [landmarks, bands, others, strip, units, cursor],
      options: {
        animation: false, responsive: true, maintainAspectRatio: false, normalized: true, events: [],
        layout: { autoPadding: false, padding: { top: 7, right: 7 } },
        plugins: { legend: { display: false }, tooltip: { enabled: false } },
        scales: { x: this.timeAxis(), y: this.valueAxis(), y2: this.otherAxis() },
      },
    };
  }

  timeAxis() {
    return {
      type: "linear", min: 0, max: 1, afterBuildTicks: (axis) => this.markTimes(axis),
      ticks: { autoSkip: false, maxRotation: 0, padding: STRIP + 4, callback: (_, at, all) => all[at].label ?? "" },
      grid: { drawBorder: false, drawTicks: false },
      afterFit: (axis) => { axis.paddingRight = 0; },
    };
  }

  valueAxis() {
    return {
      type: "linear", position: "left", grace: "4%",
      ticks: { maxTicksLimit: 7, padding: 8, callback: (value, _, all) => this.labelOf(value, all) },
      grid: { drawBorder: false, drawTicks: false },
      afterFit: (axis) => { axis.width = Math.max(axis.width, 46); },
    };
  }

  /** The scale on the right, for streams of another unit. */
  otherAxis() {
    const axis = this.valueAxis();
    return {
      ...axis, position: "right", display: false, grid: { ...axis.grid, drawOnChartArea: false },
      afterFit: (axis) => { axis.width = this.model.others.some(({ scale }) => scale === "y2") ? Math.max(axis.width, 46) : 0; },
    };
  }

  /** A label that would stand over the right edge is left out: else the chart were narrower at some times than at others. */
  markTimes(axis) {
    const width = axis.width || this.canvas.clientWidth;
    const pixels = (time) => (time / (axis.max - axis.min)) * width;
    const found = marks(axis.min, axis.max, Math.max(2, Math.floor(width / PER_TIME_MARK)));
    const dates = found.filter(({ label }) => label.length > 1);
    const [first, second] = dates;
    if (second && pixels(second.value - first.value) < PER_DATE) first.label.pop();
    for (const mark of found) if (pixels(axis.max - mark.value) < HALF_LABEL) mark.label = [];
    axis.ticks = found;
  }

  /** All marks of the values have as many digits as the steps between them need. */
  labelOf(value, all) {
    const { shape, words } = this.model;
    if (shape === "states" && Object.keys(words).length) return words[value] ?? "";
    const text = String(Number(value.toPrecision(12)));
    const apart = all.length > 1 ? Math.abs(all[1].value - all[0].value) : 1;
    const digits = Math.min(9, Math.max(0, Math.ceil(-Math.log10(apart) - 1e-9)));
    return /e/.test(text) ? value.toPrecision(3) : brief({ lo: text, hi: text, exact: true }, "", digits);
  }

  recolour() {
    const colours = palette();
    this.model.colours = colours;
    const sets = this.chart.data.datasets;
    sets[SETS.middle].borderColor = colours.middle;
    sets[SETS.known].borderColor = colours.exact;
    sets[SETS.values].backgroundColor = colours["landmark-edge"];
    Object.assign(sets[SETS.newest], {
      pointBackgroundColor: colours.exact, pointBorderColor: colours.surface, clip: false,
    });
    for (const axis of Object.values(this.chart.options.scales)) {
      axis.grid.color = colours.grid;
      axis.ticks.color = colours.muted;
      axis.ticks.font = { family: getComputedStyle(document.body).fontFamily, size: 12 };
    }
    this.model.font = `12px ${getComputedStyle(document.body).fontFamily}`;
    this.chart.update("none");
  }

  /** Shows a model: what isn't given stays. */
  draw(more) {
    Object.assign(this.model, more);
    const { rows, step, values, shape } = this.model;
    const lined = shape === "bands" ? rows : [];
    const data = {
      middle: middles(lined, step), known: knownSteps(lined, step),
      values: this.isOfValues ? values.map(({ time, value }) => ({ x: time, y: Number(value) })) : [],
    };
    for (const [name, points] of Object.entries(data)) this.chart.data.datasets[SETS[name]].data = points;
    this.look(this.model.from, this.model.to);
  }

  /** Shows the times from here to there, of what is drawn. */
  look(from, to) {
    Object.assign(this.model, { from, to });
    const { rows, outer, step, others: more } = this.model;
    const { x, y, y2 } = this.chart.options.scales;
    Object.assign(x, { min: from, max: to });
    const on = (scale) => more.filter((other) => other.scale === scale).map((other) => extentOf(other.rows, from, to, other.step));
    const own = extentOf([...rows, ...outer], from, to, step);
    Object.assign(y, suggested([own, ...on("y"), ...besides(this.model.shape, own)]));
    Object.assign(y2, suggested(on("y2")), { display: more.some(({ scale }) => scale === "y2") });
    this.chart.data.datasets[SETS.newest].data = this.newest();
    this.chart.update("none");
  }

  /** Whether readings themselves can be drawn among the rows. */
  get isOfValues() {
    return this.model.kind !== "sum" && this.model.kind !== "count";
  }

  /** The newest reading, where it is seen. One that came just now stands at the edge until that goes on. */
  newest() {
    const { newest, from, to } = this.model;
    if (!this.isOfValues || !newest || newest.time < from || newest.time > to + (to - from) * EDGE) return [];
    return [{ x: Math.min(newest.time, to), y: (Number(newest.lo) + Number(newest.hi)) / 2 }];
  }

  /** Puts the cursor on a row, or away (-1). */
  point(at) {
    if (at === this.model.cursor) return;
    this.model.cursor = at;
    this.chart.draw();
  }

  get area() {
    return this.chart.chartArea;
  }

  timeAt(pixel) {
    return this.chart.scales.x.getValueForPixel(pixel);
  }

  /** The row at a time: the place of the last that begins at or before it, or -1. */
  rowAt(time) {
    const { rows, step } = this.model;
    const at = rows.findLastIndex?.((row) => row.time <= time) ?? rows.filter((row) => row.time <= time).length - 1;
    return at >= 0 && time < untilOf(rows[at], step) ? at : -1;
  }

  /** Where the reading of a row stands, in pixels of the canvas. */
  placeOf(at) {
    const { rows, step } = this.model;
    const { x, y } = this.chart.scales;
    const row = rows[at];
    const middle = x.getPixelForValue((row.time + endOf(row, step)) / 2);
    return { x: middle, y: row.none ? this.area.top + 24 : y.getPixelForValue(row.hi) };
  }

  destroy() {
    this.chart.destroy();
  }
}
