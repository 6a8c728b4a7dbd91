// Asks for what a view shows: rows as fine as the chart has room for, and the answers over all of it. A newer
// question cancels an older one.

import { ask, isAborted } from "./api.js";
import { debounced } from "./dom.js";
import { Step, forgetZone, stepOf } from "./steps.js";
import { now } from "./times.js";

const PIXELS_A_ROW = 2.6;
const MOST_ROWS = 1200;
const MARGIN = 0.25;
const PAUSE = 160;
export const KINDS = ["mean", "min", "max", "sum", "count"];
/** What a meter is asked besides, by its kind. */
export const METERS = { counter: ["increase"], gauge: ["integral", "time_mean"] };
/** What a stream is asked. */
export const kindsOf = (stream) => [...KINDS, ...METERS[stream?.kind] ?? []];

/** The length of a row: as the room is, no shorter than the readings are apart, and as the stream's step has it. */
export function stepFor(view, width, readings, within = null) {
  const room = Math.min(MOST_ROWS, Math.max(20, width / PIXELS_A_ROW));
  const from = Math.max(view.from, view.limits.first ?? -Infinity);
  const to = Math.min(view.to, view.limits.newest ?? Infinity);
  const apart = readings > 1 ? (to - from) / readings : 0;
  return stepOf(Math.max(view.span / room, apart > 0 ? apart * 0.999 : 0, 1), within, view.to);
}

/** The times to ask for: some more than is seen, in whole rows, and not far past what there is. */
export function timesFor(view, step) {
  const { first, newest } = view.limits;
  const latest = Math.max(now(), newest ?? 0) + step.seconds;
  const from = Math.max(view.from - view.span * MARGIN, first ?? -Infinity);
  const to = Math.min(view.to + view.span * MARGIN, latest);
  return step.span(from, to);
}

/** Rows with those of a later answer in the place of theirs. */
export function joined(rows, later) {
  if (!later.length) return rows;
  return [...rows.filter((row) => row.time < later[0].time), ...later];
}

/** The least and the greatest of each row as one band. */
function outerOf(least, greatest) {
  return least.map((row, at) => ({
    time: row.time, until: row.until, lo: row.lo, hi: greatest[at]?.hi, none: row.none || (greatest[at]?.none ?? true),
  }));
}

/**
 * Loads for one stream at a time. `onRows`, `onAnswers` and `onError` are told, and `onBusy` whether something is under
 * way, and whether it is or is going to be.
 */
export class Loader {
  constructor({ width, onRows, onAnswers, onBusy, onError }) {
    Object.assign(this, { width, onRows, onAnswers, onBusy, onError });
    this.later = debounced(PAUSE, () => { if (this.isDue) this.load(); });
    this.clear();
  }

  /** Another stream: what was under way isn't wanted. */
  clear() {
    this.cancel();
    this.isDue = false;
    this.stream = null;
    this.rows = [];
    this.outer = [];
    this.step = new Step(1);
  }

  show(stream, view, kind, kinds = KINDS, within = null) {
    Object.assign(this, { stream, view, kind, kinds, within });
  }

  /** Asks anew for all that is seen, once hands have paused. */
  soon() {
    this.isDue = true;
    this.tellBusy();
    this.later();
  }

  tellBusy() {
    const isBusy = Boolean(this.control);
    this.onBusy(isBusy, isBusy || this.isDue);
  }

  /** Asks anew for all that is seen. */
  async load() {
    if (!this.stream) return;
    this.cancel();
    this.isDue = false;
    const control = new AbortController();
    this.control = control;
    this.tellBusy();
    try {
      await this.ask(control.signal).catch((error) => this.withoutZone(error, control.signal));
    } catch (error) {
      if (control === this.control && !isAborted(error)) this.onError(error);
    } finally {
      if (control === this.control) {
        this.control = null;
        this.tellBusy();
        if (this.isTailWanted) this.tail();
      }
    }
  }

  /** A service that doesn't know the zone of the reader is asked without it. */
  async withoutZone(error, signal) {
    if (error.status !== 400 || !/zone/.test(error.message)) throw error;
    forgetZone();
    await this.ask(signal);
  }

  /** What is under way isn't wanted any more. */
  cancel() {
    this.control?.abort();
    this.tailing?.abort();
    this.control = null;
    this.tailing = null;
  }

  query(kind, signal) {
    const { from, end: to } = this.view;
    return ask("api/query", { stream: this.stream, kind, from, to }, signal);
  }

  async ask(signal) {
    const { view, kind } = this;
    const count = await this.query("count", signal);
    const step = stepFor(view, this.width(), Number(count.mid), this.within);
    const [series, marked, ...answers] = await Promise.all([
      this.series(step, timesFor(view, step), signal),
      this.landmarks(signal),
      ...this.kinds.map((each) => (each === "count" ? count : this.query(each, signal))),
    ]);
    Object.assign(this, series);
    this.tellRows({ kind, landmarks: marked.landmarks, values: marked.values });
    this.answered(answers);
  }

  tellRows(more) {
    const { rows, outer, step } = this;
    this.onRows({ rows, outer, step: step.seconds, grid: step, ...more });
  }

  /** The landmarks about what is seen. There may be more values in them than the service tells. */
  async landmarks(signal) {
    const { stream, view } = this;
    try {
      return await ask("api/landmarks", { stream, from: view.from - view.span, to: view.to + view.span }, signal);
    } catch (error) {
      if (error.status !== 400) throw error;
      return { landmarks: [], values: [] };
    }
  }

  /** The rows of the kind, with a mean also the least and the greatest. A stream may have longer steps than asked. */
  async series(step, times, signal) {
    const of = (kind) => ask("api/series", { stream: this.stream, kind, ...times, ...step.asked }, signal);
    const kinds = this.kind === "mean" ? ["mean", "min", "max"] : [this.kind];
    const [main, least, greatest] = await Promise.all(kinds.map(of));
    return { step: step.answered(main.step), rows: main.rows, outer: least ? outerOf(least.rows, greatest.rows) : [] };
  }

  /** Asks only for the newest rows, after a reading came. */
  async tail() {
    this.isTailWanted = Boolean(this.stream && (this.control || this.tailing));
    if (!this.stream || this.isTailWanted) return;
    if (!this.rows.length || now() - this.rows.at(-1).time > MOST_ROWS * this.step.seconds) {
      this.soon();
      return;
    }
    const control = new AbortController();
    this.tailing = control;
    try {
      await this.askTail(control.signal);
    } catch (error) {
      if (control === this.tailing && !isAborted(error)) this.onError(error);
    } finally {
      if (control === this.tailing) this.tailing = null;
      if (this.isTailWanted) this.tail();
    }
  }

  async askTail(signal) {
    const { step, kind } = this;
    const { time: from } = this.rows.at(-3) ?? this.rows[0];
    const later = await this.series(step, { from, to: step.span(from, now() + 1).to }, signal);
    if (later.step !== step) throw new Error("The step of the stream has changed.");
    this.rows = joined(this.rows, later.rows);
    this.outer = joined(this.outer, later.outer);
    this.tellRows({ kind });
    this.answered(await Promise.all(this.kinds.map((each) => this.query(each, signal))));
  }

  answered(answers) {
    this.onAnswers(Object.fromEntries(answers.map((each, at) => [this.kinds[at], each])));
  }
}
