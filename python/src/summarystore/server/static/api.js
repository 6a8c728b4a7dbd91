// What the page asks of the service. All addresses are relative, so that the page works below any path.

import { parseExactly } from "./numbers.js";

const TOKEN = "summarystore.token";
const SECONDS = 30;

/** What went wrong, with the service's own code and sentence where it gave them. */
export class ServiceError extends Error {
  constructor(status, code, reason) {
    super(reason);
    this.status = status;
    this.code = code;
  }

  get wantsToken() {
    return this.status === 401;
  }

  get isOffline() {
    return this.status === 0;
  }
}

let held = "";

/** The token of this tab. It is kept until the tab is closed. */
export function token() {
  try {
    return sessionStorage.getItem(TOKEN) ?? held;
  } catch {
    return held;
  }
}

export function setToken(text) {
  held = text;
  try {
    if (text) sessionStorage.setItem(TOKEN, text);
    else sessionStorage.removeItem(TOKEN);
  } catch {
    // A browser that keeps nothing: the token holds for as long as the page does.
  }
}

export function headers(more = {}) {
  return token() ? { Authorization: `Bearer ${token()}`, ...more } : more;
}

const STATUS_TEXTS = {
  401: "The service wants a token.",
  403: "This token isn't allowed to do that.",
  404: "The service doesn't know that.",
  429: "The service is asked too much. Try again in a moment.",
  503: "The service is busy. Try again in a moment.",
};

/** The error of a reply that isn't good. */
export async function errorOf(reply) {
  const fallback = STATUS_TEXTS[reply.status] ?? `The service replied with status ${reply.status}.`;
  try {
    const said = JSON.parse(await reply.text());
    return new ServiceError(reply.status, said.error ?? "unknown", said.reason ?? fallback);
  } catch {
    return new ServiceError(reply.status, "unknown", fallback);
  }
}

function limited(signal) {
  const clock = AbortSignal.timeout?.(SECONDS * 1000);
  if (!signal || !clock || !AbortSignal.any) return signal ?? clock;
  return AbortSignal.any([signal, clock]);
}

const wasCancelled = (error, signal) => Boolean(signal?.aborted) && error.name !== "TimeoutError";

/** Sends a request, and reads the reply to its end: it may be cut off at any place. */
async function send(path, options) {
  let reply;
  let text;
  try {
    reply = await fetch(path, { cache: "no-store", credentials: "same-origin", ...options });
    if (reply.ok) text = await reply.text();
  } catch (error) {
    if (wasCancelled(error, options.signal)) throw error;
    throw new ServiceError(0, "offline", "The service can't be reached.");
  }
  if (!reply.ok) throw await errorOf(reply);
  return parseExactly(text);
}

/** A time has thousandths of a second at most, and no exponent. */
const written = (value) => (typeof value === "number" ? String(Math.round(value * 1000) / 1000) : value);

function address(path, parameters) {
  const query = new URLSearchParams();
  for (const [key, value] of Object.entries(parameters)) {
    for (const each of [value].flat()) if (each !== undefined && each !== null) query.append(key, written(each));
  }
  const text = String(query);
  return text ? `${path}?${text}` : path;
}

/** Asks, and reads the answer. */
export async function ask(path, parameters = {}, signal = undefined) {
  return send(address(path, parameters), { headers: headers(), signal: limited(signal) });
}

const inJson = (method, body) => ({
  method, headers: headers({ "Content-Type": "application/json" }), body: JSON.stringify(body), signal: limited(),
});

/** Tells the service something, as JSON. */
export async function tell(path, body) {
  return send(path, inJson("POST", body));
}

/** Changes what stands at an address. */
export async function change(path, body) {
  return send(path, inJson("PATCH", body));
}

/** Removes what stands at an address. */
export async function remove(path) {
  return send(path, { method: "DELETE", headers: headers(), signal: limited() });
}

export const eventsAddress = (streams) => address("api/events", { stream: streams });

/** Whether an error only says that what was asked isn't wanted any more. */
export const isAborted = (error) => error?.name === "AbortError";
