// The stream that is looked at: its newest value, its chart, the answers over what is seen, and its landmark.

import { ServiceError } from "./api.js";
import { byId, debounced, make, say, sayNumbers, throttled } from "./dom.js";
import { showFacts, showName, showNewest } from "./facts.js";
import { csvOf, fileName, saveFile } from "./csv.js";
import { listen } from "./gestures.js";
import { partsOf } from "./list.js";
import { Loader, kindsOf } from "./loading.js";
import { marked } from "./marking.js";
import { brief, isKnown, words } from "./numbers.js";
import { Others } from "./others.js";
import { Plot } from "./plot.js";
import { Reader } from "./reader.js";
import { kindOf, shapeOf } from "./shapes.js";
import * as times from "./times.js";
import { RANGES, View } from "./view.js";

const NAMES = {
  mean: "Mean", min: "Least", max: "Greatest", sum: "Sum", count: "Readings", increase: "Increase",
  integral: "Integral", time_mean: "Mean by time",
};
const CAPTIONS = {
  mean: "Mean of each", min: "Least of each", max: "Greatest of each", sum: "Sum of each", count: "Readings in each",
  increase: "Increase in each", integral: "Integral over each", time_mean: "Mean by time of each",
};
const RANGE_NAMES = { hour: "Hour", day: "Day", week: "Week", month: "Month", year: "Year", all: "All" };
const LONGEST_TILE = 15;
const AXIS = 48;
const PICTURE = "first picture";

/** A group of choices, of which one is taken: radio buttons, so that keys go through them. */
function choices(place, name, texts, onChoice) {
  for (const [value, text] of Object.entries(texts)) {
    const input = make("input", { type: "radio", name, value, id: `${name}-${value}`, class: "unseen" });
    const answer = make("span", { class: "answer", id: `answer-${value}` });
    input.addEventListener("change", () => onChoice(value));
    const label = make("label", { for: input.id }, make("span", { class: "choice" }, text));
    if (name === "kind") label.append(answer);
    place.append(input, label);
  }
}

/** Marks a choice, or none. */
function choose(name, value) {
  for (const input of document.getElementsByName(name)) input.checked = input.value === value;
}

export class Detail {
  constructor({ onChange, onError, streamOf, names }) {
    Object.assign(this, { onChange, onError, streamOf, names });
    this.stream = null;
    this.kind = "mean";
    this.chosenKind = "mean";
    this.view = new View();
    this.plot = window.Chart ? new Plot(byId("canvas")) : null;
    this.loader = new Loader({
      width: () => this.room, onRows: (rows) => this.rows(rows), onAnswers: (answers) => this.answers(answers),
      onBusy: (isBusy, isDue) => this.busy(isBusy, isDue), onError: (error) => this.failed(error),
    });
    this.changed = debounced(250, () => this.onChange());
    this.fresh = throttled(() => this.pause, () => this.loader.tail());
    this.model = { rows: [], outer: [], landmarks: [], values: [], step: 1 };
    this.others = new Others(this);
    this.reader = new Reader(this);
    this.listen();
  }

  /** How often newest rows are asked for: as a pixel is wide in time, within one and five seconds. */
  get pause() {
    return 1000 * Math.min(5, Math.max(1, this.view.span / this.width));
  }

  /** The unit and the digits of what is shown. Readings are counted in themselves. */
  get unit() {
    return this.unitOf(this.kind);
  }

  get digits() {
    return this.digitsOf(this.kind);
  }

  unitOf(kind) {
    const { unit, integrate } = this.stream ?? {};
    if (kind === "count" || !unit) return "";
    return kind === "integral" ? `${unit}·${integrate}` : unit;
  }

  digitsOf(kind) {
    return kind === "count" ? 0 : this.stream?.digits ?? 0;
  }

  /** How the rows are drawn, and what stands at the axis. */
  get drawn() {
    const { shows, words = {} } = this.stream;
    const shape = shapeOf(shows, this.kind);
    return { shape, words, unit: shape === "states" && Object.keys(words).length ? "" : this.unit };
  }

  /** How wide the chart is, in pixels. */
  get width() {
    const area = this.plot?.area;
    return area ? Math.max(100, area.right - area.left) : 600;
  }

  /** How wide it is going to be, where it isn't drawn yet. */
  get room() {
    return Math.max(100, (byId("plot").clientWidth || 600) - AXIS);
  }

  listen() {
    choices(byId("kinds"), "kind", NAMES, (kind) => this.chooseKind(kind));
    choices(byId("ranges"), "range", RANGE_NAMES, (range) => this.chooseRange(range));
    byId("earlier").addEventListener("click", () => this.pan(-0.5));
    byId("later").addEventListener("click", () => this.pan(0.5));
    byId("in").addEventListener("click", () => this.zoom(0.5));
    byId("out").addEventListener("click", () => this.zoom(2));
    byId("now").addEventListener("click", () => this.follow());
    byId("landmark").addEventListener("click", () => this.mark());
    byId("rows").addEventListener("toggle", () => this.reader.table());
    byId("over-act").addEventListener("click", () => this.overAct?.());
    byId("csv").addEventListener("click", () => this.save());
    setInterval(() => this.tick(), 1000);
    if (!this.plot) {
      this.withoutChart();
      return;
    }
    listen(byId("canvas"), () => this.width, {
      pan: (share) => this.pan(share), zoom: (factor, pixel) => this.zoom(factor, pixel), reset: () => this.reset(),
      read: (pixel) => this.reader.readAt(this.plot.rowAt(this.plot.timeAt(pixel))),
      leave: () => this.reader.readAt(-1), step: (by) => this.reader.step(by),
      first: () => this.reader.readEnd(0), last: () => this.reader.readEnd(-1),
    });
    new ResizeObserver(debounced(200, () => this.resized())).observe(byId("plot"));
  }

  /** Another room has rows of another length. */
  resized() {
    const before = this.loadedRoom;
    if (this.stream && before && Math.abs(this.room / before - 1) > 0.1) this.ask();
    this.reader.place();
  }

  /** Without Chart.js the rows are there as a table. */
  withoutChart() {
    byId("plot").classList.add("is-missing");
    byId("canvas").hidden = true;
    byId("rows").open = true;
    this.over("The chart needs Chart.js, which isn't installed where the service runs. On Debian: apt install "
      + "libjs-chart.js. All rows are in the table below.");
  }

  /** Shows a stream. `first` is its first time, where that is known. */
  show(stream, { kind, range, from, to, first, others = [] }) {
    const isOther = stream.name !== this.stream?.name;
    this.stream = stream;
    const kinds = kindsOf(stream);
    const shown = isOther ? kindOf(stream.shows) ?? this.chosenKind : this.kind;
    if (kinds.includes(kind)) this.chosenKind = kind;
    this.kind = [kind, shown, "mean"].find((each) => kinds.includes(each));
    byId("kinds").dataset.count = kinds.length;
    for (const each of Object.keys(NAMES)) {
      for (const part of [byId(`kind-${each}`), byId(`kind-${each}`).nextSibling]) part.hidden = !kinds.includes(each);
    }
    const knownFirst = isOther ? null : this.view.limits.first;
    this.view.limits = { first: first ?? knownFirst, newest: times.within(stream.newest?.time ?? stream.last) };
    if (Number.isFinite(from) && Number.isFinite(to) && from < to) this.view.set(from, to);
    else if (range || isOther) this.view.choose(range ?? this.view.range ?? "day");
    if (isOther) this.begin();
    this.others.set(others);
    this.head();
    this.ask();
  }

  /** The streams that can be shown beside this one. */
  offer() {
    this.others.offer(this.names());
  }

  /** What is seen of all streams, as a file. */
  save() {
    const { name, unit } = this.stream;
    const { from, to } = this.view;
    const own = { name, kind: this.kind, unit: unit ?? "", ...this.model };
    const others = this.others.drawn.map((other) => ({ ...other, unit: this.others.unitOf(other.name) }));
    const day = (seconds) => new Date(seconds * 1000).toISOString().slice(0, 10);
    saveFile(fileName(partsOf(name).last, this.kind, day(from), day(to)), csvOf([own, ...others], from, to));
  }

  /** Nothing is left of the stream before. */
  begin() {
    this.loader.clear();
    this.isFirstAsked = false;
    this.reader.readAt(-1);
    this.model = { rows: [], outer: [], landmarks: [], values: [], step: 1 };
    this.plot?.draw({ ...this.model, newest: null, from: this.view.from, to: this.view.to, kind: this.kind, ...this.drawn });
    for (const kind of kindsOf(this.stream)) byId(`answer-${kind}`).textContent = "…";
    this.over("");
  }

  /** The service told the stream's first time, or can't tell it (null). */
  knowFirst(name, first) {
    if (name !== this.stream?.name) return;
    this.view.limits.first = first;
    this.isFirstAsked = true;
    this.facts();
    if (this.view.range !== "all") return;
    this.view.advance();
    this.ask();
  }

  /** All of a stream can't be shown before it is known where it begins. */
  get waitsForFirst() {
    return this.view.range === "all" && this.view.limits.first === null && !this.isFirstAsked;
  }

  /** What the service lists of the stream has changed. */
  update(stream) {
    this.stream = stream;
    this.view.limits.newest = times.within(stream.newest?.time ?? stream.last);
    this.head();
    this.offer();
  }

  head() {
    showName(this.stream);
    byId("canvas").setAttribute("aria-label", `${partsOf(this.stream.name).last}, ${NAMES[this.kind]}`);
    choose("kind", this.kind);
    showNewest(this.stream);
    this.facts();
  }

  facts() {
    showFacts(this.stream, this.view.limits.first);
  }

  chooseKind(kind) {
    this.kind = kind;
    this.chosenKind = kind;
    this.others.rescale();
    this.head();
    this.plot?.draw({ kind, rows: [], outer: [], ...this.drawn });
    this.ask();
    this.onChange();
  }

  chooseRange(range) {
    this.view.choose(range);
    this.moved();
    this.onChange();
  }

  pan(share) {
    this.view.pan(share);
    this.moved();
  }

  zoom(factor, pixel) {
    const at = pixel === undefined ? this.reader.time : this.plot.timeAt(pixel);
    this.view.zoom(factor, at);
    if (pixel !== undefined) this.hold(at, pixel);
    this.moved();
  }

  /** Labels of other values may be wider or narrower: the time below the pointer stays there all the same. */
  hold(at, pixel) {
    if (this.view.follows) return;
    this.plot.look(this.view.from, this.view.to);
    this.view.shift(at - this.plot.timeAt(pixel));
  }

  follow() {
    this.view.follow();
    this.moved();
  }

  reset() {
    this.view.choose(this.view.chosen);
    this.moved();
  }

  /** The view is another: what is there is shown at once, and finer rows are asked for. */
  moved() {
    this.plot?.look(this.view.from, this.view.to);
    this.caption();
    this.reader.place();
    this.loader.show(this.stream.name, this.view, this.kind, kindsOf(this.stream), this.stream.within_seconds);
    if (this.waitsForFirst) this.busy(true, true);
    else this.loader.soon();
    this.changed();
  }

  ask() {
    this.plot?.look(this.view.from, this.view.to);
    this.caption();
    this.loader.show(this.stream.name, this.view, this.kind, kindsOf(this.stream), this.stream.within_seconds);
    this.loadedRoom = this.room;
    if (this.waitsForFirst) this.busy(true, true);
    else this.loader.load();
  }

  /** Rows are under way, or they are going to be: those that are seen aren't yet those of the view. */
  busy(isBusy, isDue) {
    byId("busy").hidden = !isBusy;
    byId("plot").dataset.rows = isDue ? "due" : "done";
  }

  caption() {
    const { step, grid } = this.model;
    const text = `${CAPTIONS[this.kind]} ${times.length(step)}${grid?.isUtc && step >= times.DAY ? " of UTC" : ""}`;
    say(byId("caption"), this.unit ? `${text}, ${this.unit}` : text);
    say(byId("seen"), times.stretch(this.view.from, this.view.to));
    say(byId("zone"), times.zone(this.view.to));
    choose("range", this.view.range);
    byId("now").disabled = this.view.follows;
  }

  /** Rows came. */
  rows(more) {
    const read = this.reader.middle;
    Object.assign(this.model, more);
    this.plot?.draw({ ...this.model, newest: this.stream.newest, from: this.view.from, to: this.view.to, ...this.drawn });
    if (!performance.getEntriesByName(PICTURE).length) performance.mark(PICTURE);
    byId("legend-outer").hidden = !this.model.outer.length;
    byId("legend-landmark").hidden = !this.model.landmarks.length && !this.model.values.length;
    this.reader.readAt(this.plot?.rowAt(read) ?? -1, true);
    this.caption();
    this.emptiness();
    this.reader.table();
    this.others.load(!more.landmarks);
  }

  /** The answers over all that is seen, beside the kinds. */
  answers(answers) {
    for (const [kind, answer] of Object.entries(answers)) {
      const place = byId(`answer-${kind}`);
      const given = [this.unitOf(kind), this.digitsOf(kind)];
      const text = brief(answer, ...given);
      sayNumbers(place, text.length > LONGEST_TILE ? brief(answer, "", given[1]) : text);
      place.title = words(answer, ...given);
      place.parentNode.classList.toggle("is-exact", isKnown(answer));
    }
  }

  /** Says so where nothing is seen, and how to come to what there is. */
  emptiness() {
    if (!this.plot) return;
    const { from, to } = this.view;
    const isSeen = this.model.rows.some((row) => !row.none && times.untilOf(row, this.model.step) > from && row.time < to);
    const { newest } = this.view.limits;
    if (isSeen || newest === null || newest === undefined) {
      this.over(isSeen ? "" : "No reading has come yet.");
      return;
    }
    const text = `No reading in these times. The newest is of ${times.moment(this.stream.newest?.time ?? newest)}.`;
    this.over(text, "Go to the newest", () => this.follow());
  }

  failed(error) {
    if (error.wantsToken || error.isOffline) {
      this.onError(error);
      return;
    }
    if (!(error instanceof ServiceError)) console.error(error);
    this.over(error.message, "Try again", () => this.ask());
  }

  over(text, act = "", call = null) {
    if (!text && !this.plot) return;
    byId("over").hidden = !text;
    say(byId("over-text"), text);
    byId("over-act").hidden = !act;
    say(byId("over-act"), act);
    this.overAct = call;
  }

  /** A reading of this stream came. */
  reading({ time, value }) {
    this.view.limits.newest = times.within(time);
    showNewest(this.stream);
    this.plot?.draw({ newest: { time, lo: value, hi: value } });
    if (this.view.follows || time < this.view.to) this.fresh();
  }

  /** A second has passed: a view that follows goes on by whole pixels. */
  tick() {
    if (!this.stream || document.hidden) return;
    showNewest(this.stream);
    if (!this.view.follows || this.waitsForFirst) return;
    if (this.view.range === "all" && this.view.limits.newest <= this.view.to) return;
    const before = this.view.to;
    const { from } = this.view;
    this.view.advance();
    if (this.view.to - before < this.view.span / this.width) {
      Object.assign(this.view, { from, to: before });
      return;
    }
    this.plot?.look(this.view.from, this.view.to);
    this.caption();
    this.reader.place();
    this.fresh();
  }


  /** Opens or closes a landmark. */
  async mark() {
    const { stream } = this;
    const isOpen = Boolean(stream.open_landmark);
    const learn = (more) => { if (stream.name === this.stream.name) this.update({ ...this.stream, ...more }); };
    const done = await marked(stream, (open) => learn({ open_landmark: open }));
    if (!done || stream.name !== this.stream.name) return;
    learn({ open_landmark: !isOpen, landmarks: (this.stream.landmarks ?? 0) + (isOpen ? 0 : 1) });
    this.loader.load();
    byId("landmark").focus();
  }
}

export { RANGES };
