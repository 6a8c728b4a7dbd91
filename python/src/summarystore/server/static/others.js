// Further streams in the same chart: each with rows of the same times, a colour of its own, and a scale by its unit.

import { ask, isAborted } from "./api.js";
import { byId, make, say } from "./dom.js";
import { addressOf, partsOf } from "./list.js";
import { joined, timesFor } from "./loading.js";
import { brief, words } from "./numbers.js";
import { untilOf } from "./times.js";

export const COLOURS = ["a", "b", "c", "d"];
const SCALES = ["y", "y2"];

/** One of them, with its place in the document. `leave` is called by its button. */
class Other {
  constructor(name, colour, leave) {
    Object.assign(this, { name, colour, rows: [], step: 1, scale: null, answer: null });
    const { path, last } = partsOf(name);
    const button = make("button", { class: "leave", type: "button", "aria-label": `Leave out ${name}` }, "×");
    button.addEventListener("click", leave);
    this.told = make("span", { class: "other-answer" });
    this.node = make("li", {}, make("span", { class: `key key-other-${colour}`, "aria-hidden": "true" }),
      make("a", { href: addressOf(name), title: name }, path ? `${path} / ${last}` : last), this.told, button);
  }

  /** Says what the answer over what is seen is, in its unit. */
  tell(unit, digits) {
    const told = this.answer ? brief(this.answer, unit, digits) : "…";
    const side = this.scale === "y2" ? ", on the right" : "";
    say(this.told, this.scale ? `${told}${side}` : `not drawn: ${unit || "no unit"} would be a third scale`);
  }
}

/** Those that are shown beside a stream. `of` has its stream, view, kind and plot, and a list of all streams. */
export class Others {
  constructor(of) {
    this.of = of;
    this.all = [];
    byId("other").addEventListener("change", () => this.chosen());
  }

  get names() {
    return this.all.map(({ name }) => name);
  }

  /** Those that are drawn: a chart has two scales. */
  get drawn() {
    return this.all.filter(({ scale }) => scale);
  }

  /** Shows these, in their colours as long as they are among them. What isn't a stream is passed over. */
  set(names) {
    const wanted = [...new Set(names)].filter((name) => name !== this.of.stream?.name && this.of.streamOf(name));
    const kept = this.all.filter(({ name }) => wanted.includes(name));
    const free = COLOURS.filter((colour) => !kept.some((other) => other.colour === colour));
    const made = wanted.filter((name) => !kept.some((other) => other.name === name)).slice(0, free.length)
      .map((name, at) => new Other(name, free[at], () => this.leave(name)));
    this.all = wanted.map((name) => [...kept, ...made].find((other) => other.name === name)).filter(Boolean);
    byId("others").replaceChildren(...this.all.map(({ node }) => node));
    this.rescale();
    this.of.offer();
    return made.length > 0;
  }

  digitsOf(name) {
    return this.of.kind === "count" ? 0 : this.of.streamOf(name)?.digits ?? 0;
  }

  unitOf(name) {
    return this.of.kind === "count" ? "" : this.of.streamOf(name)?.unit ?? "";
  }

  /** The scale of each unit: that of the stream itself on the left, one other on the right. */
  rescale() {
    const units = [this.of.unit];
    for (const other of this.all) {
      const unit = this.unitOf(other.name);
      if (!units.includes(unit) && units.length < SCALES.length) units.push(unit);
      other.scale = SCALES[units.indexOf(unit)] ?? null;
    }
    this.show();
  }

  /** Draws them, and says their answers. */
  show() {
    const right = this.all.find(({ scale }) => scale === "y2");
    this.of.plot?.draw({ others: this.drawn, otherUnit: right ? this.unitOf(right.name) : "" });
    for (const other of this.all) other.tell(this.unitOf(other.name), this.digitsOf(other.name));
  }

  chosen() {
    const field = byId("other");
    const name = field.value;
    if (!this.of.streamOf(name) || name === this.of.stream.name || this.names.includes(name)) return;
    field.value = "";
    if (this.set([...this.names, name])) this.load();
    this.of.onChange();
  }

  leave(name) {
    this.set(this.names.filter((each) => each !== name));
    this.of.onChange();
    byId("other").focus();
  }

  /** The names that can be added. */
  offer(names) {
    const here = [this.of.stream?.name, ...this.names];
    const options = names.filter((name) => !here.includes(name)).map((name) => make("option", { value: name }));
    byId("other-names").replaceChildren(...options);
    byId("other").disabled = !options.length || this.all.length === COLOURS.length;
  }

  /** Asks for the rows of all, of the times and the step that the stream itself has. */
  async load(isTail = false) {
    if (!this.all.length || !this.of.model.grid) return;
    this.control?.abort();
    const control = new AbortController();
    this.control = control;
    try {
      await Promise.all(this.drawn.map((other) => this.ask(other, isTail, control.signal)));
    } catch (error) {
      if (!isAborted(error)) this.of.failed(error);
    }
    if (control === this.control) this.show();
  }

  async ask(other, isTail, signal) {
    const { view, kind, model: { grid } } = this.of;
    const times = timesFor({ from: view.from, to: view.to, span: view.span, limits: { first: null, newest: null } }, grid);
    const before = isTail && other.kind === kind && other.asked === grid ? other.rows : [];
    const { time: from } = before.at(-3) ?? before[0] ?? { time: times.from };
    const of = { stream: other.name, kind };
    const [series, answer] = await Promise.all([
      ask("api/series", { ...of, from, to: times.to, ...grid.asked }, signal),
      ask("api/query", { ...of, from: view.from, to: view.end }, signal)]);
    Object.assign(other, {
      kind, asked: grid, step: grid.answered(series.step).seconds, rows: joined(before, series.rows), answer,
    });
  }

  /** What each says at a time. */
  toldAt(time) {
    return this.drawn.map(({ name, colour, rows, step }) => {
      const row = rows.filter((each) => each.time <= time && time < untilOf(each, step)).at(-1);
      const told = row ? words(row, this.unitOf(name), this.digitsOf(name)) : "no reading";
      return { colour, text: `${partsOf(name).last}: ${told}` };
    });
  }
}

/** Says what others have at a time, below the tip. */
export function showOthers(place, told) {
  place.replaceChildren(...told.map(({ colour, text }) => {
    const line = make("p", {}, make("span", { class: `key key-other-${colour}`, "aria-hidden": "true" }));
    line.append(text);
    return line;
  }));
  return told.map(({ text }) => text).join("; ");
}

