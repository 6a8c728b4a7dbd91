// Which times are seen: a range that ends at the newest, or what hands made of it.

import { DAY, HOUR, YEAR, now } from "./times.js";

export const RANGES = {
  hour: HOUR, day: DAY, week: 7 * DAY, month: 30 * DAY, year: 365 * DAY, all: null,
};
const SHORTEST = 4;
const LONGEST = 2000 * YEAR;

/** The times from `from` to `to` of a stream with its first and its newest time. */
export class View {
  constructor() {
    this.range = "day";
    this.chosen = "day";
    this.follows = true;
    this.limits = { first: null, newest: null };
    this.advance();
  }

  get span() {
    return this.to - this.from;
  }

  /** The end of what is asked: a view that follows goes on by pixels, and readings come between. */
  get end() {
    return this.follows ? Math.max(this.to, now(), this.limits.newest ?? this.to) : this.to;
  }

  /**
   * Where a view that follows ends: at the present, or where nothing came for long at the newest reading. One that lies
   * far ahead of the clock is none to go to.
   */
  edge(span) {
    const { newest } = this.limits;
    if (newest > now() + YEAR) return now();
    if (newest === null || newest > now() || now() - newest < span) return Math.max(now(), newest ?? 0);
    return newest + span / 100;
  }

  /** Shows a range by its name. */
  choose(range) {
    this.range = Object.hasOwn(RANGES, range) ? range : "day";
    this.chosen = this.range;
    this.follows = true;
    this.advance();
  }

  /** Shows these times, of no range. */
  set(from, to) {
    this.range = null;
    this.follows = false;
    this.put(from, to);
  }

  /** Goes on with the present, if it follows. */
  advance() {
    if (!this.follows) return;
    if (this.range === "all") {
      const { first, newest } = this.limits;
      const to = newest ?? now();
      const from = first ?? to - DAY;
      const margin = Math.max(1, (to - from) * 0.01);
      this.from = from - margin;
      this.to = to + margin;
      return;
    }
    const span = this.range ? RANGES[this.range] : this.span;
    this.to = this.edge(span);
    this.from = this.to - span;
  }

  /** Goes to the newest, with as long a time as is seen now. */
  follow() {
    this.follows = true;
    this.advance();
  }

  /** Moves by a share of what is seen. */
  pan(share) {
    this.range = null;
    this.follows = false;
    this.shift(this.span * share);
  }

  /** Moves by a time. */
  shift(by) {
    this.put(this.from + by, this.to + by);
  }

  /** Shows `factor` times as much, around a time. A view that follows goes on, where its end stays. */
  zoom(factor, at = this.follows ? this.to : (this.from + this.to) / 2) {
    const span = Math.min(LONGEST, Math.max(SHORTEST, this.span * factor));
    const share = (at - this.from) / this.span;
    const from = at - span * share;
    this.follows = this.follows && this.range !== "all" && at >= this.to;
    this.range = null;
    this.put(from, from + span);
  }

  /** Keeps some of what there is in sight. */
  put(from, to) {
    const span = Math.max(SHORTEST, to - from);
    const { first, newest } = this.limits;
    const latest = Math.max(now(), newest ?? -Infinity) - span / 10;
    const earliest = (first ?? -Infinity) - span * 0.9;
    const placed = Math.max(Math.min(from, latest), earliest);
    this.from = placed;
    this.to = placed + span;
  }
}
