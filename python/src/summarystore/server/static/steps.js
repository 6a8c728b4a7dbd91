// How long the rows of a chart are: so many seconds, or days, weeks, months and years of the reader's zone. Rows snap to
// the step of the stream, whose multiples are known exactly.

import { DAY, HOUR, MONTH, WEEK, YEAR, rowStart, zoneName } from "./times.js";

const SECONDS = [1, 2, 5, 10, 15, 30, 60, 120, 300, 600, 900, 1800, HOUR, 2 * HOUR, 3 * HOUR, 6 * HOUR, 12 * HOUR];
const DAYS = [1, 2, 7, 14, 28, 91, 182, 364, 728, 1820, 3640].map((count) => count * DAY);
/** So much denser days may stand than other rows, for a year of them: the next length is a week. */
const DENSER = 1.25;
const CALENDAR = [[DAY, "1d"], [WEEK, "1w"], [MONTH, "1mon"], [YEAR, "1y"]];

/** Whether midnights of the reader's zone, in the year of a time, lie at multiples of so many seconds. */
function isOfZone(within, seconds) {
  const year = new Date(seconds * 1000).getFullYear();
  return [0, 3, 6, 9].every((month) => (new Date(year, month, 1).getTime() / 1000) % within === 0);
}

/** The length of rows. `word` is how a calendar's is asked for, and `isUtc` says that rows begin at multiples in UTC. */
export class Step {
  constructor(seconds, word = null, isUtc = false) {
    Object.assign(this, { seconds, word, isUtc });
  }

  /** What the service is asked for. */
  get asked() {
    return this.word ? { step: this.word, zone: zoneName() } : { step: this.seconds };
  }

  /** The times to ask for, in whole rows. Of a calendar the service makes them whole. */
  span(from, to) {
    if (this.word) return { from, to: Math.max(from, to) };
    const start = this.isUtc ? Math.floor(from / this.seconds) * this.seconds : rowStart(from, this.seconds);
    const last = start + Math.ceil((to - start) / this.seconds) * this.seconds - 1;
    return { from: start, to: Math.max(start, last) };
  }

  /** The same, of what was answered: a stream may have longer steps than were asked for. */
  answered(step) {
    return typeof step === "number" && step !== this.seconds ? new Step(step, null, this.isUtc) : this;
  }
}

/** Whether the service knows the reader's zone. Where it doesn't, days are 24 hours of the reader's clock. */
let isKnownZone = true;

export function forgetZone() {
  isKnownZone = false;
}

/** The steps there are for a stream whose step has so many seconds, in the order of their lengths. */
function stepsFor(within, seconds) {
  const isFitting = !within || isOfZone(within, seconds);
  const made = (each) => new Step(each, null, !isFitting && each >= within);
  const days = isFitting && isKnownZone ? CALENDAR.map(([each, word]) => new Step(each, word)) : DAYS.map(made);
  return [...SECONDS.map(made), ...days]
    .filter((step) => !within || step.word || (step.seconds < within ? within : step.seconds) % Math.min(within, step.seconds) === 0);
}

/** The shortest step of at least so many seconds, for what is seen until a time. */
export function stepOf(least, within, until) {
  const found = stepsFor(within, until).find((step) => step.seconds * (step.word ? DENSER : 1) >= least);
  if (found) return found;
  const unit = within ? within * Math.ceil(3650 * DAY / within) : 3650 * DAY;
  return new Step(Math.ceil(least / unit) * unit, null, Boolean(within) && !isOfZone(within, until));
}
