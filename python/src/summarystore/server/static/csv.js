// What is shown as a file of CSV: a line for each row of each stream, with every digit that the service gave.

import { untilOf } from "./times.js";

const HEAD = ["stream", "kind", "unit", "from", "to", "lo", "hi", "may be none"];
const FORMULA = /^[=+\-@\t\r]/;
const SPECIAL = /[",\r\n]/;

/** A cell. A text that a spreadsheet would take for a formula gets a quote before it, as the service does it. */
export function cell(text, isText = true) {
  const safe = isText && FORMULA.test(text) ? `'${text}` : text;
  return SPECIAL.test(safe) ? `"${safe.replaceAll('"', '""')}"` : safe;
}

const moment = (seconds) => new Date(seconds * 1000).toISOString();

/** The lines of one stream: those of its rows that are seen and surely or perhaps have a value. */
function linesOf({ name, kind, unit, rows, step }, from, to) {
  const before = [name, kind, unit].map((text) => cell(text));
  return rows.filter((row) => !row.none && untilOf(row, step) > from && row.time < to)
    .map((row) => [...before, moment(row.time), moment(untilOf(row, step)), String(row.lo), String(row.hi),
      row.maybe_none ? "true" : "false"].join(","));
}

/** The file for what several streams show from one time to another. */
export function csvOf(streams, from, to) {
  return `${[HEAD.join(","), ...streams.flatMap((stream) => linesOf(stream, from, to))].join("\n")}\n`;
}

/** Gives a text to the reader as a file. */
export function saveFile(name, text) {
  const address = URL.createObjectURL(new Blob([text], { type: "text/csv;charset=utf-8" }));
  const link = Object.assign(document.createElement("a"), { href: address, download: name });
  link.click();
  setTimeout(() => URL.revokeObjectURL(address), 10_000);
}

/** A name for a file: what a path can't have is left out. */
export function fileName(...parts) {
  return `${parts.join(" ").replace(/[^\p{L}\p{N} ._-]+/gu, "-").slice(0, 120)}.csv`;
}
