// The list of streams: each with its newest value and a small picture, found by words.

import { ask, isAborted } from "./api.js";
import { byId, make, say } from "./dom.js";
import { brief, counted, ends, fractionOf } from "./numbers.js";
import { DAY, freshness, now, roundStep, rowStart } from "./times.js";
import { sparkline } from "./sparkline.js";

const POINTS = 48;
const FEWEST = 4;
const SPANS = [DAY, 30 * DAY, 365 * DAY, 20 * 365 * DAY];
const AT_ONCE = 4;
const ORDER = new Intl.Collator(undefined, { numeric: true });

/** A long name as the path before it and its last part. */
export function partsOf(name) {
  const at = name.lastIndexOf("/");
  return { path: at < 0 ? "" : name.slice(0, at).replaceAll("/", " / "), last: name.slice(at + 1) };
}

/** The words that a search looks in. */
function textOf({ name, unit, labels }) {
  return [name, unit, ...Object.entries(labels ?? {}).flat()].join(" ").toLowerCase();
}

/** Every word of a search has to stand in the text. */
export function matches(text, search) {
  return search.toLowerCase().split(/\s+/).every((word) => text.includes(word));
}

export const addressOf = (name) => `#${new URLSearchParams({ stream: name })}`;

/** One stream of the list, with its place in the document. */
class Item {
  constructor(stream) {
    const { path, last } = partsOf(stream.name);
    this.value = make("span", { class: "item-value" });
    this.when = make("span", { class: "item-when" });
    this.picture = make("span", { class: "item-picture" });
    this.flag = make("span", { class: "item-flag", title: "A landmark is open", hidden: true }, "landmark");
    this.link = make("a", { class: "item", href: addressOf(stream.name) },
      make("span", { class: "item-name" },
        make("span", { class: "item-path" }, path), make("span", { class: "item-last" }, last)),
      this.value, this.picture, make("span", { class: "item-foot" }, this.flag, this.when));
    this.node = make("li", {}, this.link);
    this.node.item = this;
    this.rows = [];
    this.update(stream);
  }

  update(stream) {
    this.text = textOf(stream);
    const { newest, unit } = stream;
    stream.digits = Math.max(this.stream?.digits ?? 0, newest ? fractionOf(newest) : 0);
    say(this.value, newest ? brief(newest, unit, stream.digits) : "no reading");
    this.value.classList.toggle("is-interval", Boolean(newest) && !ends(newest).exact);
    this.flag.hidden = !stream.open_landmark;
    this.stream = stream;
    this.tick();
  }

  /** Says how old the newest reading is. */
  tick() {
    const { newest, last } = this.stream;
    const time = newest?.time ?? last;
    say(this.when, time === null || time === undefined ? "" : freshness(time));
  }

  draw(rows) {
    this.rows = rows;
    this.picture.replaceChildren(sparkline(rows));
  }
}

/** The streams of the service, in the side of the page. */
export class List {
  constructor() {
    this.items = new Map();
    this.waiting = [];
    this.busy = 0;
    this.search = byId("search");
    this.place = byId("streams");
    this.search.addEventListener("input", () => this.filter());
    this.seen = new IntersectionObserver((entries) => this.look(entries), { rootMargin: "200px" });
    byId("side").addEventListener("keydown", (event) => this.pressed(event));
    document.addEventListener("keydown", (event) => this.slash(event));
    setInterval(() => this.tick(), 5000);
  }

  get(name) {
    return this.items.get(name)?.stream;
  }

  get isEmpty() {
    return !this.items.size;
  }

  get inOrder() {
    return [...this.items.values()].sort((one, two) => ORDER.compare(one.stream.name, two.stream.name));
  }

  /** The first stream that has a reading, or else the first. */
  get leading() {
    return (this.inOrder.find(({ stream }) => stream.newest) ?? this.inOrder[0])?.stream;
  }

  /** Takes the streams as the service lists them. */
  take(streams) {
    const known = new Set(streams.map(({ name }) => name));
    for (const [name, item] of this.items) {
      if (known.has(name)) continue;
      this.seen.unobserve(item.node);
      item.node.remove();
      this.items.delete(name);
    }
    for (const stream of streams) this.put(stream);
    const { inOrder } = this;
    if (inOrder.some((item, at) => this.place.children[at] !== item.node)) {
      this.place.append(...inOrder.map((item) => item.node));
    }
    this.filter();
  }

  put(stream) {
    const item = this.items.get(stream.name);
    if (item) {
      item.update(stream);
      return;
    }
    const made = new Item(stream);
    this.items.set(stream.name, made);
    this.seen.observe(made.node);
  }

  /** A reading came: it is the newest, and the end of the picture. */
  reading({ stream: name, time, value }) {
    const item = this.items.get(name);
    if (!item) return false;
    const newest = { time, lo: value, hi: value, mid: value, exact: true };
    item.update({ ...item.stream, newest, last: time });
    if (item.rows.length) this.refresh(item);
    return true;
  }

  /** A picture is asked for anew when its newest row is over. */
  refresh(item) {
    const last = item.rows.at(-1);
    if (now() - last.time > item.step * 1.5) this.want(item);
  }

  current(name) {
    for (const [each, item] of this.items) {
      if (each === name) item.link.setAttribute("aria-current", "page");
      else item.link.removeAttribute("aria-current");
    }
  }

  filter() {
    const search = this.search.value.trim();
    let shown = 0;
    for (const item of this.items.values()) {
      item.node.hidden = search !== "" && !matches(item.text, search);
      shown += item.node.hidden ? 0 : 1;
    }
    const all = counted(this.items.size, "stream");
    say(byId("count"), search ? (shown ? `${shown} of ${all}` : `None of ${all} has these words`) : all);
  }

  tick() {
    for (const item of this.items.values()) if (!item.node.hidden) item.tick();
  }

  look(entries) {
    for (const { target, isIntersecting } of entries) {
      if (!isIntersecting || target.item.rows.length) continue;
      this.want(target.item);
    }
  }

  /** Asks for pictures, a few at once. */
  want(item) {
    if (!item.stream.newest || this.waiting.includes(item) || item.isAsking) return;
    this.waiting.push(item);
    this.work();
  }

  async work() {
    if (this.busy >= AT_ONCE) return;
    const item = this.waiting.shift();
    if (!item) return;
    this.busy += 1;
    item.isAsking = true;
    try {
      await this.picture(item);
    } catch (error) {
      if (!isAborted(error)) item.draw([]);
    } finally {
      item.isAsking = false;
      this.busy -= 1;
      this.work();
    }
  }

  /** The rows of the last day of a stream, or of so long a time that there are some. */
  async picture(item) {
    const { name, newest } = item.stream;
    for (const span of SPANS) {
      const step = roundStep(span / POINTS);
      const from = rowStart(newest.time - span, step);
      const to = rowStart(newest.time, step) + step - 1;
      const { rows } = await ask("api/series", { stream: name, kind: "mean", from, to, step });
      item.step = step;
      if (rows.filter((row) => !row.none).length >= FEWEST || span === SPANS.at(-1)) {
        item.draw(rows.slice(rows.findIndex((row) => !row.none)));
        return;
      }
    }
  }

  /** Up and down go through the streams. */
  pressed(event) {
    const by = { ArrowDown: 1, ArrowUp: -1 }[event.key];
    if (event.target === this.search) this.searched(event);
    if (!by || event.ctrlKey || event.metaKey || event.altKey) return;
    const links = [...this.place.children].filter((node) => !node.hidden).map((node) => node.item.link);
    const at = links.indexOf(document.activeElement);
    event.preventDefault();
    if (at + by < 0) this.search.focus();
    else links[Math.min(at + by, links.length - 1)]?.focus();
  }

  /** In the search Escape clears it, and Enter goes to the first that was found. */
  searched({ key }) {
    if (key === "Escape") {
      this.search.value = "";
      this.filter();
    }
    if (key === "Enter") [...this.place.children].find((node) => !node.hidden)?.item.link.click();
  }

  slash(event) {
    const focused = document.activeElement;
    const isTyping = focused?.tagName === "INPUT" && focused.type !== "radio";
    if (event.key !== "/" || isTyping || event.ctrlKey || event.metaKey || event.altKey) return;
    event.preventDefault();
    this.search.focus();
    this.search.select();
  }
}
