// What the page says in place of a chart: no streams yet, a token is wanted, the store can't be read.

import { byId, icon, make, say } from "./dom.js";
import { setToken, token } from "./api.js";
import { counted } from "./numbers.js";

function show(title, ...body) {
  const notice = byId("notice");
  say(byId("notice-title"), title);
  byId("notice-body").replaceChildren(...body);
  notice.hidden = false;
  byId("detail").hidden = true;
}

export function hideNotice() {
  byId("notice").hidden = true;
}

export const isNoticed = () => !byId("notice").hidden;

/** The line that writes a first reading, for a shell. */
export function firstLine(base = new URL(".", location.href)) {
  const header = token() ? " -H 'Authorization: Bearer TOKEN'" : "";
  const body = '{"stream":"home/living room/temperature","time":"now","value":21.5}';
  return `curl ${base}api/append${header} -H 'Content-Type: application/json' -d '${body}'`;
}

function copyButton(text) {
  const label = make("span", {}, "Copy");
  const button = make("button", { class: "plain", type: "button" }, icon("copy"), label);
  button.addEventListener("click", async () => {
    try {
      await navigator.clipboard.writeText(text);
      say(label, "Copied");
    } catch {
      getSelection().selectAllChildren(button.parentNode.querySelector("code"));
      say(label, "Selected: copy it by hand");
    }
  });
  return button;
}

const MAPPING = `[[mapping]]
match = "home/**"
scale = 0.1
unit = "°C"
target = "power 1 1 4 1"`;

const FIRST_TEXT = "A stream begins with its first reading. This line writes one, and it appears here by itself:";
const MAPPING_TEXT = "The service's file says which names become streams, and none are there yet. This takes all that "
  + "begin with home/:";
const OTHERS_TEXT = "Sensors can write by MQTT, by InfluxDB's line protocol and by Graphite's plain text, too.";

/** A text to be copied. */
function code(text) {
  return make("div", { class: "code" }, make("pre", { tabindex: "0" }, make("code", {}, text)), copyButton(text));
}

/** No streams yet: how a first one comes to be. `health` is what the service tells of itself, where it did. */
export function showNoStreams(health) {
  const unmatched = health?.unmatched?.readings ?? 0;
  const about = `none ${health?.mapping?.entries} ${unmatched}`;
  if (isNoticed() && byId("notice").dataset.about === about) return;
  const body = [make("p", {}, FIRST_TEXT), code(firstLine())];
  if (health?.mapping?.entries === 0) body.unshift(make("p", {}, MAPPING_TEXT), code(MAPPING));
  if (unmatched) {
    const text = `${counted(unmatched, "reading")} came under names that aren't in this file, and weren't stored: `;
    body.push(make("p", {}, text, make("a", { href: "api/unmatched" }, "which names")));
  }
  show("No streams yet", ...body, make("p", { class: "quiet" }, OTHERS_TEXT));
  byId("notice").dataset.about = about;
}

/** A token is wanted. `accept` is called with the page's new token in place. */
export function showToken({ refused, accept }) {
  const wrong = make("p", { class: "wrong", role: "alert", id: "token-wrong" });
  if (refused) wrong.textContent = "The service doesn't accept this token.";
  const field = make("input", {
    id: "token", type: "password", autocomplete: "current-password", required: true, spellcheck: "false",
    "aria-describedby": "token-wrong token-note", "aria-invalid": refused ? "true" : null,
  });
  const form = make("form", { class: "token" },
    make("label", { for: "token" }, "Token"), field,
    make("button", { class: "main-button", type: "submit" }, "Continue"));
  form.addEventListener("submit", (event) => {
    event.preventDefault();
    setToken(field.value.trim());
    accept();
  });
  show("A token is wanted",
    make("p", {}, "This service shows its streams to those who have a token. Whoever runs it can give you one."),
    form, wrong,
    make("p", { class: "quiet", id: "token-note" }, "It is kept in this tab, and forgotten when you close it."));
  byId("notice").dataset.about = "token";
  field.focus();
}

/** Something is wrong with the service or with what it holds. */
export function showTrouble(error, again) {
  const button = make("button", { class: "main-button", type: "button" }, "Try again");
  button.addEventListener("click", again);
  const title = error.isOffline ? "The service can't be reached" : "The streams can't be shown";
  const text = error.isOffline
    ? "The page tries again by itself. If it stays so, look whether the service is running."
    : error.message;
  show(title, make("p", {}, text), button);
  byId("notice").dataset.about = "trouble";
}

const STATES = {
  opening: "The store is being opened. The page goes on by itself.",
  not_answering: "The store doesn't answer. It is opened anew.",
  full: "The disk is full. Readings aren't taken until there is room; what there is can be looked at.",
  damaged: "The store is refused: the file is damaged, or is no store. Readings aren't taken, and it isn't changed.",
  locked: "Another process has the store. It is opened as soon as that lets it go.",
  gone: "The file of the store isn't there any more. Readings aren't taken.",
};

/** What is wrong with the store, in words; nothing where it is open. */
export function troubleOf(health) {
  const told = health?.store ?? health;
  const state = String(told?.state ?? told ?? "open");
  if (/^(ok|open)$/i.test(state)) return "";
  const reason = told.reason ?? health.reason ?? "";
  const known = STATES[state] ?? `The state of the store is “${state}”.`;
  return reason ? `${known} (${reason})` : known;
}
