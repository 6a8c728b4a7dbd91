// Reads the rows of a chart: one beside the cursor and aloud, and all of them as a table.

import { byId, make, say } from "./dom.js";
import { ends, isKnown, words } from "./numbers.js";
import { showOthers } from "./others.js";
import { endOf } from "./painting.js";
import * as times from "./times.js";

const MOST_TABLE_ROWS = 500;

/** Reads what `of` shows: it has a plot, a model with rows, a view, a unit and digits, and can pan. */
export class Reader {
  constructor(of) {
    this.of = of;
    this.cursor = -1;
  }

  /** The middle of the row that is read, or NaN. A row of another length that has it is read in its place. */
  get middle() {
    const row = this.of.model.rows[this.cursor];
    return row ? (row.time + endOf(row, this.of.model.step)) / 2 : NaN;
  }

  /** Keys zoom around the row that is read, where it is seen. */
  get time() {
    const { middle } = this;
    return middle > this.of.view.from && middle < this.of.view.to ? middle : undefined;
  }

  /** Reads a row aloud and beside the cursor, or none (-1). */
  readAt(at, isQuiet = false) {
    this.cursor = at;
    this.of.plot?.point(at);
    const row = this.of.model.rows[at];
    byId("tip").hidden = !row;
    if (!row) return;
    const told = words(row, this.of.unit, this.of.digits);
    const time = times.stretch(row.time, times.untilOf(row, this.of.model.step));
    say(byId("tip-value"), told);
    say(byId("tip-time"), time);
    byId("tip").classList.toggle("is-exact", isKnown(row));
    const others = showOthers(byId("tip-others"), this.of.others.toldAt(this.middle));
    this.place();
    if (!isQuiet) say(byId("reading"), `${told}, ${time}${others && `; ${others}`}`);
  }

  /** Puts the tip beside its row, within the chart. */
  place() {
    const tip = byId("tip");
    if (!this.of.plot || this.cursor < 0 || !this.of.model.rows[this.cursor]) return;
    const { left, right } = this.of.plot.area;
    const { x, y } = this.of.plot.placeOf(this.cursor);
    tip.hidden = x < left - 1 || x > right + 1;
    const half = tip.offsetWidth / 2;
    const middle = Math.min(Math.max(x, left + half), right - half);
    const above = y - tip.offsetHeight - 14;
    tip.style.transform = `translate(${Math.round(middle - half)}px, ${Math.round(above < 0 ? y + 22 : above)}px)`;
  }

  /** The places of the rows that are seen. */
  seenRows() {
    const { from, to } = this.of.view;
    const { rows, step } = this.of.model;
    return [...rows.keys()].filter((at) => {
      const half = (times.untilOf(rows[at], step) - rows[at].time) / 2;
      const middle = rows[at].time + half;
      return middle >= from && middle <= Math.min(to, times.now() + half);
    });
  }

  /** Reads the next row, or the one before. At the edge the view goes along. */
  step(by) {
    const seen = this.seenRows();
    if (!seen.length) return;
    if (this.cursor < 0) {
      this.readEnd(-1);
      return;
    }
    const next = Math.min(Math.max(this.cursor + by, 0), this.of.model.rows.length - 1);
    if (!seen.includes(next) && seen.includes(this.cursor)) this.of.pan(by * 0.25);
    this.readAt(next);
  }

  /** Reads the first (0) or the last (-1) row with a value that is seen. */
  readEnd(which) {
    const full = this.seenRows().filter((at) => !this.of.model.rows[at].none);
    if (full.length) this.readAt(full.at(which));
  }

  /** The rows of the chart, as a table. */
  table() {
    if (!byId("rows").open) return;
    const { from, to } = this.of.view;
    const { rows, step } = this.of.model;
    const seen = rows.filter((row) => times.untilOf(row, step) > from && row.time < to && !row.none);
    const shown = seen.slice(-MOST_TABLE_ROWS).reverse();
    byId("rows-body").replaceChildren(...shown.map((row) => {
      const told = ends(row, this.of.digits);
      return make("tr", {}, make("th", { scope: "row" }, times.stretch(row.time, times.untilOf(row, this.of.model.step))),
        make("td", {}, told.lo), make("td", {}, told.hi), make("td", {}, isKnown(row) ? "exactly" : "within"));
    }));
  }
}
