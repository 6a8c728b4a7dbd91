// Numbers as the service gives them: decimal text, exact, of any length. A float is used to draw, never to tell.

const LOCALES = navigator.languages?.length ? [...navigator.languages] : undefined;
const NBSP = "\u00a0";
const MOST_DIGITS = 9;
const QUOTIENT_DIGITS = 3;
const MEAN_DIGITS = 12;

/** A number with the text that it had. It counts as a number in arithmetic, and its text keeps every digit. */
export class Decimal {
  constructor(text) {
    this.text = text;
    this.number = Number(text);
  }

  valueOf() {
    return this.number;
  }

  toString() {
    return this.text;
  }
}

const EXACT_KEYS = new Set(["lo", "hi", "mid", "value"]);

/** Reads JSON. The numbers that are told to people keep their text. */
export function parseExactly(text) {
  return JSON.parse(text, (key, value, context) => {
    if (typeof value !== "number" || !EXACT_KEYS.has(key)) return value;
    return new Decimal(plain(context?.source ?? String(value)));
  });
}

/** Decimal text without an exponent. */
export function plain(text) {
  const parts = /^(-?)(\d+)(?:\.(\d*))?[eE]([+-]?\d+)$/.exec(text);
  if (!parts) return text;
  const [, sign, whole, fraction = "", exponent] = parts;
  const digits = whole + fraction;
  const point = whole.length + Number(exponent);
  if (point <= 0) return `${sign}0.${"0".repeat(-point)}${digits}`;
  if (point >= digits.length) return sign + digits + "0".repeat(point - digits.length);
  return `${sign}${digits.slice(0, point)}.${digits.slice(point)}`;
}

function partsOf(text) {
  const [, sign, whole, fraction = ""] = /^(-?)(\d+)(?:\.(\d*))?$/.exec(text) ?? [null, "", "0", ""];
  return { sign, whole, fraction: fraction.replace(/0+$/, "") };
}

/** How many digits stand after the point, without zeros at the end. */
export const digitsOf = (text) => partsOf(text).fraction.length;

/** Rounds decimal text downwards or upwards to so many digits, so that an interval holds what it held. */
export function rounded(text, digits, upwards) {
  const { sign, whole, fraction } = partsOf(text);
  const dropped = /[1-9]/.test(fraction.slice(digits));
  let scaled = BigInt(whole + fraction.slice(0, digits).padEnd(digits, "0"));
  if (sign) scaled = -scaled;
  if (dropped && upwards && !sign) scaled += 1n;
  if (dropped && !upwards && sign) scaled -= 1n;
  const minus = scaled < 0n ? "-" : "";
  const all = String(scaled < 0n ? -scaled : scaled).padStart(digits + 1, "0");
  return digits ? `${minus}${all.slice(0, -digits)}.${all.slice(-digits)}` : minus + all;
}

const formats = new Map();

function format(digits) {
  if (!formats.has(digits)) {
    formats.set(digits, new Intl.NumberFormat(LOCALES, {
      minimumFractionDigits: digits, maximumFractionDigits: digits,
    }));
  }
  return formats.get(digits);
}

/** A number in the reader's locale. */
export function local(text, digits = Math.min(digitsOf(String(text)), MOST_DIGITS)) {
  return format(digits).format(String(text).replace(/^-(?=[0.]*$)/, ""));
}

/** How far the ends of one number may be apart: a mean without a last digit is rounded outwards at its twelfth or a later one. */
function roundedApart({ lo, hi }) {
  const digits = Math.max(digitsOf(String(lo)), digitsOf(String(hi)));
  return digits < MEAN_DIGITS ? 0 : 1.5 * 10 ** -digits;
}

/** Whether both ends are one, as far as a picture shows. */
export function isKnown(row) {
  if (row.none || row.maybe_none || row.lo === null || row.lo === undefined) return false;
  const near = 4 * Number.EPSILON * Math.max(Math.abs(row.lo), Math.abs(row.hi));
  return Number(row.hi) - Number(row.lo) <= near + roundedApart(row);
}

/**
 * So many digits that rounding the ends outwards widens the interval little. A quotient without a last digit gets some
 * more than its stream has.
 */
function digitsFor(lo, hi, least) {
  const kept = Math.max(digitsOf(lo), digitsOf(hi));
  if (isKnown({ lo, hi })) return Math.min(kept, MOST_DIGITS, least + QUOTIENT_DIGITS);
  const width = Number(hi) - Number(lo);
  const needed = Math.ceil(1 - Math.log10(width));
  return Math.min(kept, MOST_DIGITS, Math.max(0, needed));
}

/** How many digits a reading was written with after its point, as far as they are shown. */
export function fractionOf({ lo }) {
  return Math.min(MOST_DIGITS, (String(lo).split(".")[1] ?? "").length);
}

/**
 * The ends of an interval in the reader's locale, and whether they are one number. A stream's own `digits` are shown
 * also where they are zeros.
 */
export function ends(interval, least = 0) {
  const [lo, hi] = [String(interval.lo), String(interval.hi)];
  if ((interval.exact || lo === hi) && digitsOf(lo) <= MOST_DIGITS) {
    const text = local(lo, Math.max(least, digitsOf(lo)));
    return { lo: text, hi: text, exact: true };
  }
  const digits = digitsFor(lo, hi, least);
  return {
    lo: local(rounded(lo, digits, false), digits), hi: local(rounded(hi, digits, true), digits), exact: false,
  };
}

const withUnit = (text, unit) => (unit ? text + NBSP + unit : text);

/** An interval in words: what a pointer or a key reads. */
export function words(interval, unit = "", least = 0) {
  if (interval.none) return "no reading";
  const shown = ends(interval, least);
  const told = shown.exact
    ? `exactly ${withUnit(shown.lo, unit)}`
    : `between ${shown.lo} and ${withUnit(shown.hi, unit)}`;
  return interval.maybe_none ? `${told}, or no reading at all` : told;
}

/** An interval as short as it can be: one number, about a number, or two with a dash. */
export function brief(interval, unit = "", least = 0) {
  if (interval.none) return "–";
  const shown = ends(interval, least);
  if (shown.exact) return withUnit(shown.lo, unit);
  if (isKnown(interval)) return withUnit(`≈${NBSP}${local(interval.lo, least + 1)}`, unit);
  return withUnit(`${shown.lo} – ${shown.hi}`, unit);
}

/** A whole number of things, as `1,234 readings`. */
export function counted(number, one, many = `${one}s`) {
  return `${local(number, 0)}${NBSP}${Number(number) === 1 ? one : many}`;
}
