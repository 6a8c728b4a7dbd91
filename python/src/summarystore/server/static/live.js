// Server-sent events, read from a fetch so that the token can be sent. It connects again by itself, later and later.

import { ServiceError, errorOf, eventsAddress, headers, isAborted } from "./api.js";
import { parseExactly } from "./numbers.js";

const FIRST_WAIT = 1;
const LONGEST_WAIT = 30;
const QUIET_SECONDS = 45;

/** Cuts the text of an event stream into events: `{event, data}`. Lines that begin with a colon keep the line warm. */
export class EventReader {
  constructor() {
    this.rest = "";
    this.clear();
  }

  clear() {
    this.event = "message";
    this.data = [];
  }

  /** The events that end within this text. */
  read(text) {
    const lines = (this.rest + text).split(/\r\n|\n|\r(?!$)/);
    this.rest = lines.pop();
    return lines.map((line) => this.take(line)).filter(Boolean);
  }

  take(line) {
    if (line === "") {
      const made = this.data.length ? { event: this.event, data: this.data.join("\n") } : null;
      this.clear();
      return made;
    }
    const [, name, value = ""] = /^([^:]*)(?::[ ]?(.*))?$/s.exec(line) ?? [null, ""];
    if (name === "event") this.event = value;
    if (name === "data") this.data.push(value);
    return null;
  }
}

/**
 * Follows the events of some streams, or of all. Tells its state: `catching up`, `live`, or `offline` with the
 * time of the next try. `onOpen` is awaited before it counts as live: there the page asks what it missed. A mistake of
 * the page there is told by `onMistake`, and the connection stands.
 */
export class Live {
  constructor({ onEvent, onState, onOpen, onMistake }) {
    Object.assign(this, { onEvent, onState, onOpen, onMistake });
    this.streams = [];
    this.running = false;
    this.wait = FIRST_WAIT;
  }

  start(streams = []) {
    this.stop();
    this.streams = streams;
    this.running = true;
    this.wait = FIRST_WAIT;
    this.connect();
  }

  stop() {
    this.running = false;
    clearTimeout(this.timer);
    clearTimeout(this.quiet);
    this.control?.abort();
  }

  /** Tries at once. */
  retry() {
    if (this.running && this.state !== "live") this.start(this.streams);
  }

  tell(state, detail = {}) {
    this.state = state;
    this.onState(state, detail);
  }

  async connect() {
    const control = new AbortController();
    this.control = control;
    this.tell("catching up");
    try {
      await this.follow(control);
      throw new ServiceError(0, "ended", "The service ended the connection.");
    } catch (error) {
      clearTimeout(this.quiet);
      if (control !== this.control || !this.running) return;
      control.abort();
      this.failed(error);
    }
  }

  failed(error) {
    if (error.wantsToken) {
      this.running = false;
      this.tell("offline", { error });
      return;
    }
    const wait = this.wait * (0.75 + Math.random() / 2);
    this.wait = Math.min(this.wait * 2, LONGEST_WAIT);
    this.tell("offline", { error, next: Date.now() + wait * 1000 });
    this.timer = setTimeout(() => this.connect(), wait * 1000);
  }

  async follow(control) {
    const reply = await this.opened(control);
    await this.catchUp();
    if (control.signal.aborted) return;
    this.wait = FIRST_WAIT;
    this.tell("live");
    const events = new EventReader();
    const text = reply.body.pipeThrough(new TextDecoderStream()).getReader();
    for (let part = await text.read(); !part.done; part = await text.read()) {
      this.watch(control, part.value);
      for (const each of events.read(part.value)) this.pass(each);
    }
  }

  async catchUp() {
    try {
      await this.onOpen();
    } catch (error) {
      if (error instanceof ServiceError || isAborted(error)) throw error;
      this.onMistake(error);
    }
  }

  async opened(control) {
    let reply;
    try {
      reply = await fetch(eventsAddress(this.streams), {
        headers: headers({ Accept: "text/event-stream" }), cache: "no-store",
        credentials: "same-origin", signal: control.signal,
      });
    } catch (error) {
      if (isAborted(error)) throw error;
      throw new ServiceError(0, "offline", "The service can't be reached.");
    }
    if (!reply.ok) throw await errorOf(reply);
    return reply;
  }

  /** A service that keeps the line warm, and then is silent for long, is gone without a word. */
  watch(control, text) {
    if (/^:/m.test(text)) this.isWarm = true;
    clearTimeout(this.quiet);
    if (this.isWarm) this.quiet = setTimeout(() => control.abort(), QUIET_SECONDS * 1000);
  }

  pass({ event, data }) {
    let said;
    try {
      said = parseExactly(data);
    } catch {
      return;
    }
    this.onEvent(event, said);
  }
}
