// What is told of a stream in words and numbers: its name, its newest value, how much of it is kept.

import { byId, make, say } from "./dom.js";
import { partsOf } from "./list.js";
import { brief, counted, ends, local } from "./numbers.js";
import * as times from "./times.js";

/** The name of a stream, with what it is labelled by, and whether a landmark is open. */
export function showName({ name, labels, open_landmark: isOpen }) {
  const { path, last } = partsOf(name);
  say(byId("path"), path);
  say(byId("name"), last);
  byId("labels").replaceChildren(
    ...Object.entries(labels ?? {}).map(([key, value]) => make("span", {}, `${key}: ${value}`)),
  );
  document.title = `${last} · SummaryStore`;
  say(byId("landmark-text"), isOpen ? "End the landmark" : "Mark from now");
  byId("landmark").classList.toggle("is-open", Boolean(isOpen));
}

/** The newest value, whether it is exact, and how old it is. */
export function showNewest({ newest, last, unit, digits }) {
  say(byId("value"), newest ? brief(newest, unit, digits) : "no reading");
  const time = newest?.time ?? last;
  if (time === null || time === undefined) {
    say(byId("when"), "");
    return;
  }
  const known = newest ? `${ends(newest).exact ? "exactly" : "an interval"} · ` : "";
  say(byId("when"), `${known}${times.freshness(time)}`);
  byId("when").title = times.moment(time);
}

/** The step of a stream: in its own counts, and as long as that is. */
function stepIn(within, seconds) {
  const long = seconds ? times.length(seconds) : "";
  return long ? `${local(within, 0)}, ${/^\d/.test(long) ? long : `a whole ${long}`}` : local(within, 0);
}

/** How much there is of a stream, and since when. */
export function showFacts({ values, windows, landmarks, target, within, within_seconds: seconds, last }, first) {
  const facts = [
    ["Readings", values === undefined ? null : local(values, 0)],
    ["Kept in", windows === undefined ? null : counted(windows, "window")],
    ["Landmarks", landmarks ? local(landmarks, 0) : null],
    ["Target", target],
    ["Within", within ? stepIn(within, seconds) : null],
    ["First", first === null ? null : times.dayAndTime(first)],
    ["Newest", last === null || last === undefined ? null : times.dayAndTime(last)],
  ];
  byId("facts").replaceChildren(...facts.filter(([, text]) => text)
    .map(([name, text]) => make("div", {}, make("dt", {}, name), make("dd", {}, text))));
}
