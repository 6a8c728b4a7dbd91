// Times are seconds since 1970 and are told in the reader's own zone. Lengths are told in the page's language.

const LOCALES = navigator.languages?.length ? [...navigator.languages] : undefined;
export const MINUTE = 60;
export const HOUR = 3600;
export const DAY = 86400;
export const WEEK = 7 * DAY;
export const MONTH = 30.4375 * DAY;
export const YEAR = 365.25 * DAY;

/** The present, in seconds. */
export const now = () => Date.now() / 1000;

const formats = new Map();

function format(options) {
  const key = JSON.stringify(options);
  if (!formats.has(key)) formats.set(key, new Intl.DateTimeFormat(LOCALES, options));
  return formats.get(key);
}

/** The last second that a calendar has here. What lies beyond it is told as that. */
const LAST = 8.64e12;
const isBeyond = (seconds) => Math.abs(seconds) > LAST;
const BEYOND = "a time beyond the calendar";

/** A time, or the end of the calendar where it lies beyond. */
export const within = (seconds) => (isBeyond(seconds) ? Math.sign(seconds) * LAST : seconds);

/** Where a row ends: those of a calendar say so. */
export const untilOf = (row, step) => row.until ?? row.time + step;

/** The name of the reader's zone. */
export const zoneName = () => Intl.DateTimeFormat().resolvedOptions().timeZone;

const date = (seconds) => new Date(within(seconds) * 1000);

/** The zone that times are shown in, with its offset at a time: `Europe/Berlin, GMT+1`. */
export function zone(seconds = now()) {
  const name = zoneName();
  const parts = new Intl.DateTimeFormat("en-GB", { timeZoneName: "shortOffset" }).formatToParts(date(seconds));
  const offset = parts.find((part) => part.type === "timeZoneName")?.value ?? "";
  return name === offset || !offset ? name : `${name}, ${offset}`;
}

const CLOCK = { hour: "2-digit", minute: "2-digit", hourCycle: "h23" };
const THE_DAY = { day: "numeric", month: "short" };

/** The parts of a day. The year is told where it isn't the present one. */
function dayOf(...all) {
  const present = new Date().getFullYear();
  return all.every((seconds) => date(seconds).getFullYear() === present) ? THE_DAY : { ...THE_DAY, year: "numeric" };
}

/** A moment with all of its parts. */
export function moment(seconds) {
  if (isBeyond(seconds)) return BEYOND;
  return format({ weekday: "short", ...dayOf(seconds), ...CLOCK, second: "2-digit" }).format(date(seconds));
}

const isMidnight = (seconds) => date(seconds).getHours() === 0 && date(seconds).getMinutes() === 0;
const DATES_ONLY = 60 * DAY;

/** A day and a time of it. */
export function dayAndTime(seconds) {
  if (isBeyond(seconds)) return BEYOND;
  return format({ ...dayOf(seconds), ...CLOCK }).format(date(seconds));
}

/** Two times, with as many parts as their distance needs. Whole days are told as such. */
export function stretch(from, to) {
  const apart = to - from;
  if (apart >= DATES_ONLY || (apart >= DAY && isMidnight(from) && isMidnight(to))) {
    return format(dayOf(from, to)).formatRange(date(from), date(to - 1));
  }
  const seconds = apart < MINUTE || (apart < HOUR && from % MINUTE) ? { second: "2-digit" } : {};
  const weekday = apart < DAY ? { weekday: "short" } : {};
  return format({ ...weekday, ...dayOf(from, to), ...CLOCK, ...seconds }).formatRange(date(from), date(to));
}

/** The last time at or before a time at which a row begins: by the reader's clock, and weeks on Mondays. */
export function rowStart(seconds, step) {
  const offset = step < HOUR ? 0 : -60 * date(seconds).getTimezoneOffset();
  const origin = (step % WEEK ? 0 : 4 * DAY) - offset;
  return Math.floor((seconds - origin) / step) * step + origin;
}

const UNITS = [
  [YEAR, "year"], [MONTH, "month"], [DAY, "day"], [HOUR, "hour"], [MINUTE, "minute"], [1, "second"],
];

function unitOf(seconds) {
  return UNITS.find(([size]) => Math.abs(seconds) >= size) ?? UNITS.at(-1);
}

const RELATIVE = new Intl.RelativeTimeFormat("en", { numeric: "auto", style: "short" });

/** How long ago, or in how long, roughly. */
export function age(seconds, present = now()) {
  const passed = seconds - present;
  if (Math.abs(passed) < 1.5) return "just now";
  const [size, unit] = unitOf(passed);
  return RELATIVE.format(Math.trunc(passed / size), unit);
}

/** How long ago the newest reading of a stream is, and whether it lies so far ahead that right ones are late. */
export function freshness(seconds) {
  return seconds > now() + HOUR ? `${age(seconds)}, ahead of the clock` : age(seconds);
}

/** A length in words, as `5 minutes`. */
export function length(seconds) {
  if (seconds === WEEK) return "week";
  const fits = ([size]) => seconds >= size && Math.abs(seconds / size - Math.round(seconds / size)) < 1e-3;
  const [size, unit] = UNITS.find(fits) ?? unitOf(seconds);
  const many = new Intl.NumberFormat("en", { maximumFractionDigits: 1 }).format(seconds / size);
  return many === "1" ? unit : `${many} ${unit}s`;
}

const STEPS = [1, 2, 5, 10, 15, 30, 60, 120, 300, 600, 900, 1800, HOUR, 2 * HOUR, 3 * HOUR, 6 * HOUR, 12 * HOUR,
  DAY, 2 * DAY, 7 * DAY, 14 * DAY, 28 * DAY, 91 * DAY, 182 * DAY, 365 * DAY, 730 * DAY, 1825 * DAY, 3650 * DAY];

/** The least round length of a row that is at least so long. */
export function roundStep(seconds) {
  return STEPS.find((step) => step >= seconds) ?? Math.ceil(seconds / (3650 * DAY)) * 3650 * DAY;
}

const MARKS = [
  ...[1, 2, 5, 10, 15, 30].map((count) => ({ seconds: count, count, unit: "second" })),
  ...[1, 2, 5, 10, 15, 30].map((count) => ({ seconds: count * MINUTE, count, unit: "minute" })),
  ...[1, 2, 3, 6, 12].map((count) => ({ seconds: count * HOUR, count, unit: "hour" })),
  ...[1, 2, 5, 10].map((count) => ({ seconds: count * DAY, count, unit: "day" })),
  ...[1, 2, 3, 6].map((count) => ({ seconds: count * 30.4 * DAY, count, unit: "month" })),
  ...[1, 2, 5, 10, 20, 50, 100, 200, 500, 1000].map((count) => ({ seconds: count * YEAR, count, unit: "year" })),
];

/** The first time of a mark's grid at or before a time, by the reader's calendar and clock. */
function gridStart(seconds, { count, unit }) {
  const at = date(seconds);
  const down = (number) => Math.floor(number / count) * count;
  const made = new Date(2000, 0, 1);
  const [year, month, day] = [at.getFullYear(), at.getMonth(), at.getDate()];
  const [hour, minute] = [at.getHours(), at.getMinutes()];
  const parts = {
    year: [down(year), 0, 1], month: [year, down(month), 1], day: [year, month, down(day - 1) + 1],
    hour: [year, month, day, down(hour)], minute: [year, month, day, hour, down(minute)],
    second: [year, month, day, hour, minute, down(at.getSeconds())],
  }[unit];
  made.setFullYear(parts[0], parts[1], parts[2]);
  made.setHours(parts[3] ?? 0, parts[4] ?? 0, parts[5] ?? 0, 0);
  return made;
}

function advance(at, { count, unit, seconds }) {
  const next = new Date(at);
  if (unit === "year") next.setFullYear(at.getFullYear() + count);
  else if (unit === "month") next.setMonth(at.getMonth() + count);
  else if (unit === "day") nextDay(next, count);
  else next.setTime(at.getTime() + seconds * 1000);
  return unit === "hour" && count > 1 ? onTheHour(next, count) : next;
}

/** Days of a grid begin anew with each month, and none stands close to its end. */
function nextDay(at, count) {
  const month = at.getMonth();
  at.setDate(at.getDate() + count);
  const left = new Date(at.getFullYear(), at.getMonth() + 1, 0).getDate() - at.getDate() + 1;
  if (at.getMonth() !== month) at.setDate(1);
  else if (count > 1 && left < count / 2 + 0.5) at.setMonth(at.getMonth() + 1, 1);
}

/** Where the clock was put forward or back, hours go on by the clock. */
function onTheHour(at, count) {
  const off = at.getHours() % count;
  if (off) at.setHours(at.getHours() + (off > count / 2 ? count - off : -off));
  return at;
}

const LABELS = {
  second: { ...CLOCK, second: "2-digit" }, minute: CLOCK, hour: CLOCK,
  day: { day: "numeric", month: "short" }, month: { month: "short" }, year: { year: "numeric" },
};

/** What a mark says in its second line, where this differs from the mark before it. */
function context(seconds, unit) {
  if (unit === "year") return "";
  if (unit === "month" || unit === "day") return format({ year: "numeric" }).format(date(seconds));
  return format({ weekday: "short", day: "numeric", month: "short" }).format(date(seconds));
}

/** The marks of an axis of times: each with its text, and a second line where the day or the year is another. */
export function marks(from, to, most) {
  const rough = (to - from) / Math.max(1, most);
  const mark = MARKS.find(({ seconds }) => seconds >= rough) ?? MARKS.at(-1);
  const found = [];
  let before = null;
  for (let at = gridStart(from, mark); at.getTime() <= to * 1000 && found.length < 100; at = advance(at, mark)) {
    const value = at.getTime() / 1000;
    if (value < from || (found.length && value <= found.at(-1).value)) continue;
    const second = context(value, mark.unit);
    const label = format(LABELS[mark.unit]).format(at);
    found.push({ value, label: second && second !== before ? [label, second] : [label] });
    before = second;
  }
  return found;
}
