// The page: what stands in the address is shown, what happens is followed.

import { ServiceError, ask, isAborted, setToken, token } from "./api.js";
import { byId, debounced, say } from "./dom.js";
import { Detail, RANGES } from "./detail.js";
import { List, addressOf } from "./list.js";
import { Live } from "./live.js";
import { Managing } from "./managing.js";
import { hideNotice, isNoticed, showNoStreams, showToken, showTrouble, troubleOf } from "./notices.js";

const WIDE = matchMedia("(min-width: 900px)");
const STATES = { live: "Live", "catching up": "Catching up", offline: "Offline" };
const FRESHEN = 100;
const COPY = "Copy the address";
const THEMES = ["system", "light", "dark"];
const THEME_NAMES = { system: "as the system", light: "light", dark: "dark" };

/** What the address says: the stream, the kind, and a range or two times. */
function addressed() {
  const words = new URLSearchParams(location.hash.slice(1));
  const number = (name) => (words.has(name) ? Number(words.get(name)) : NaN);
  const range = words.get("range");
  return {
    stream: words.get("stream"), kind: words.get("kind"), from: number("from"), to: number("to"),
    others: words.getAll("with"),
    range: Object.hasOwn(RANGES, range ?? "") ? range : null,
  };
}

class Page {
  constructor() {
    this.list = new List();
    this.detail = new Detail({
      onChange: () => this.write(), onError: (error) => this.failed(error),
      streamOf: (name) => this.list.get(name), names: () => this.list.inOrder.map(({ stream }) => stream.name),
    });
    this.managing = new Managing({ stream: () => this.detail.stream, gone: (name) => this.gone(name) });
    this.firsts = new Map();
    this.fresh = new Map();
    this.live = new Live({
      onEvent: (event, said) => this.happened(event, said), onState: (state, detail) => this.state(state, detail),
      onOpen: () => this.catchUp(), onMistake: (error) => this.failed(error),
    });
    this.reload = debounced(300, () => this.again());
    this.listen();
  }

  listen() {
    addEventListener("hashchange", () => this.show());
    addEventListener("online", () => this.live.retry());
    document.addEventListener("visibilitychange", () => { if (!document.hidden) this.live.retry(); });
    WIDE.addEventListener("change", () => this.show());
    byId("state").addEventListener("click", () => this.live.retry());
    byId("banner-act").addEventListener("click", () => this.live.retry());
    byId("forget").addEventListener("click", () => this.forget());
    byId("skip").addEventListener("click", (event) => this.skip(event));
    byId("copy").addEventListener("click", () => this.copy());
    byId("theme").addEventListener("click", () => this.theme());
    document.addEventListener("theme", () => this.themed());
    this.themed();
    setInterval(() => this.countDown(), 1000);
  }

  start() {
    byId("forget").hidden = !token();
    this.live.start();
  }

  /** To the chart, or to what stands in its place. The address stays. */
  skip(event) {
    event.preventDefault();
    (byId("canvas").offsetParent ? byId("canvas") : byId("main")).focus();
  }

  forget() {
    setToken("");
    byId("forget").hidden = true;
    this.live.stop();
    this.start();
  }

  /** The streams as they are now: after the connection stands, nothing is missed from here on. */
  async catchUp() {
    const [{ streams }, service] = await Promise.all([ask("api/streams"), ask("healthz").catch(() => null)]);
    this.list.take(streams);
    this.managing.look();
    this.isKnown = true;
    this.service = service;
    this.show();
    if (service) this.health(service);
  }

  async again() {
    try {
      const { streams } = await ask("api/streams");
      this.list.take(streams);
      const stream = this.list.get(this.detail.stream?.name);
      if (stream && !isNoticed()) this.detail.update(stream);
      else this.show();
    } catch (error) {
      if (!isAborted(error)) this.failed(error);
    }
  }

  /** Shows the stream that the address names, or on a wide page the first. */
  show() {
    if (!this.isKnown) return;
    if (this.list.isEmpty) {
      byId("frame").dataset.shown = "none";
      showNoStreams(this.service);
      return;
    }
    const asked = addressed();
    const named = asked.stream !== null ? this.list.get(asked.stream) : null;
    if (asked.stream !== null && !named) {
      this.unknown(asked.stream);
      return;
    }
    const stream = named ?? (WIDE.matches ? this.list.leading : null);
    byId("frame").dataset.shown = stream ? "detail" : "streams";
    if (isNoticed()) hideNotice();
    byId("detail").hidden = !stream;
    this.list.current(stream?.name);
    document.title = "SummaryStore";
    if (!stream) return;
    this.detail.show(stream, { ...asked, first: this.firsts.get(stream.name) });
    this.first(stream);
  }

  /** The stream that was looked at has another name now, or none. */
  async gone(name) {
    history.replaceState(null, "", name === null ? "#" : addressOf(name));
    await this.again();
    this.show();
  }

  unknown(name) {
    byId("frame").dataset.shown = "detail";
    this.list.current(null);
    showTrouble({ message: `There is no stream “${name}”.` }, () => { location.hash = ""; });
  }

  /** Asks for the first time of a stream, once. */
  async first({ name, newest }) {
    if (!this.firsts.has(name) && newest) {
      try {
        this.firsts.set(name, firstOf(await ask("api/windows", { stream: name, limit: 1 })));
      } catch {
        // It is asked for again with the next look at the stream.
      }
    }
    if (!this.detail.isFirstAsked) this.detail.knowFirst(name, this.firsts.get(name) ?? null);
  }

  /** Writes what is seen into the address, so that it can be kept and sent. */
  write() {
    const { stream, kind, view, others } = this.detail;
    const words = new URLSearchParams({ stream: stream.name, kind });
    for (const name of others.names) words.append("with", name);
    if (view.range) words.set("range", view.range);
    else for (const end of ["from", "to"]) words.set(end, String(Math.round(view[end] * 1000) / 1000));
    history.replaceState(null, "", `#${words}`);
  }

  /** Copies the address of what is seen, so that it can be kept and sent. */
  async copy() {
    this.write();
    try {
      await navigator.clipboard.writeText(location.href);
      say(byId("copy-text"), "Copied");
    } catch {
      say(byId("copy-text"), "Copy it from the address bar");
    }
    setTimeout(() => say(byId("copy-text"), COPY), 3000);
  }

  happened(event, said) {
    if (event === "reading") this.reading(said);
    if (event === "landmark") this.landmark(said);
    if (event === "health") this.health(said);
    if (event === "lost") this.reload();
  }

  /** Readings may come by thousands: of each stream the newest is shown, some times a second. */
  reading(said) {
    if (!this.fresh.size) setTimeout(() => this.freshen(), FRESHEN);
    this.fresh.set(said.stream, said);
  }

  freshen() {
    const readings = [...this.fresh.values()];
    this.fresh.clear();
    if (readings.map((said) => this.list.reading(said)).includes(false)) this.reload();
    if (readings.some(({ stream }) => this.detail.others.names.includes(stream))) this.detail.fresh();
    const said = readings.find(({ stream }) => stream === this.detail.stream?.name);
    const stream = said && this.list.get(said.stream);
    if (!stream) return;
    this.detail.stream = stream;
    this.detail.reading(said);
  }

  async landmark({ stream }) {
    await this.again();
    if (stream === this.detail.stream?.name) this.detail.loader.load();
  }

  health(said) {
    this.trouble = troubleOf(said);
    this.banner();
  }

  state(state, { error, next } = {}) {
    byId("state").dataset.state = state;
    this.next = next;
    this.error = error;
    if (error?.wantsToken) {
      this.wantToken();
      return;
    }
    if (state === "offline" && !this.isKnown) showTrouble(error, () => this.live.retry());
    if (state === "live") byId("forget").hidden = !token();
    this.countDown();
  }

  wantToken() {
    this.tell("A token is wanted");
    byId("frame").dataset.shown = "none";
    byId("banner").hidden = true;
    showToken({ refused: Boolean(token()), accept: () => this.start() });
  }

  /** Says the state on its button, and aloud. */
  tell(text) {
    say(byId("state-text"), text);
    say(byId("state-said"), text);
  }

  /** Says the state, and when the next try is. */
  countDown() {
    const state = byId("state").dataset.state;
    if (!this.error?.wantsToken) this.tell(STATES[state]);
    byId("state").title = state === "offline" ? "Try now" : "";
    this.banner();
  }

  banner() {
    const isOffline = byId("state").dataset.state === "offline" && !this.error?.wantsToken && this.isKnown;
    const left = Math.max(1, Math.round(((this.next ?? 0) - Date.now()) / 1000));
    const text = isOffline ? "No connection to the service. What is shown may be old." : this.trouble ?? "";
    byId("banner").hidden = !text;
    say(byId("banner-text"), text);
    byId("banner-act").hidden = !isOffline;
    say(byId("banner-act"), `Try now (or in ${left} s)`);
  }

  failed(error) {
    if (error.wantsToken) {
      this.live.stop();
      this.state("offline", { error });
    } else if (error.isOffline) {
      this.live.retry();
    } else {
      if (!(error instanceof ServiceError)) console.error(error);
      showTrouble(error, () => this.again());
    }
  }

  theme() {
    const choice = document.documentElement.dataset.themeChoice;
    window.summarystoreTheme.choose(THEMES[(THEMES.indexOf(choice) + 1) % THEMES.length]);
  }

  themed() {
    const choice = document.documentElement.dataset.themeChoice;
    byId("theme-icon").setAttribute("href", `#icon-${choice}`);
    byId("theme").setAttribute("aria-label", `Colours: ${THEME_NAMES[choice]}`);
    byId("theme").title = `Colours: ${THEME_NAMES[choice]}`;
  }
}

/** The time at which the oldest window begins. */
function firstOf({ windows }) {
  const time = windows[0]?.from;
  return time === undefined ? null : Number(time);
}

new Page().start();
