// The wall clock

const MOST_SECONDS = 1e11, MICRO = 1e6, ROUNDING = 1;

/** When events were, in seconds since 1970 by the clock of their process, as the rows of a journal tell. */
class WallTimes {
  constructor() {
    this.times = new Map();
    this.startedBy = new Map();
  }

  /** The first row of an event that tells a time counts. A process tells itself that it started, though it is the root's event. */
  note({ event, time, kind, label }) {
    if (!Number.isInteger(event)) return;
    if (typeof time === "number" && time > 0 && time < MOST_SECONDS && !this.times.has(event)) this.times.set(event, time);
    if (kind === "spawn" && typeof label === "string" && label.startsWith(STARTED)) this.startedBy.set(event, label.slice(STARTED.length));
  }
}

/** The clocks of a trace, one for each process. What is known of their skew is told by the edges between them: no event is before one
 * that it follows. Nothing is ordered by a clock. */
class Clocks {
  constructor(trace, wall, processes) {
    const count = trace.events + 1;
    this.trace = trace;
    this.times = new Float64Array(count);
    this.clockOf = new Int32Array(count).fill(-1);
    this.names = [];
    this.places = new Map();
    this.bounds = new Map();
    this.setBack = new Map();
    this.ahead = new Map();
    for (const [event, time] of wall.times) if (event >= 1 && event < count) this.times[event] = time;
    for (let event = 1; event < count; event++) {
      if (this.times[event] > 0) this.clockOf[event] = this.place(wall.startedBy.get(event) ?? processes[trace.taskOf[event]]);
      const before = trace.previous[event];
      for (const pred of trace.preds(event)) this.addEdge(pred, event);
      if (this.isSame(before, event) && this.times[event] < this.times[before]) this.addStep(event, this.times[before]);
    }
    this.listBounds();
  }

  place(name) {
    if (!this.places.has(name)) this.places.set(name, this.names.push(name) - 1);
    return this.places.get(name);
  }

  isSame(one, other) {
    return this.clockOf[one] >= 0 && this.clockOf[one] === this.clockOf[other];
  }

  /** The later event's clock is ahead of the earlier one's by no more than what the two show. Processes start one after the other by
   * their reports alone, so the starts tell nothing. */
  addEdge(pred, event) {
    const from = this.clockOf[pred], to = this.clockOf[event], most = this.times[event] - this.times[pred];
    if (from < 0 || to < 0 || from === to || this.trace.taskOf[pred] === this.trace.taskOf[event]) return;
    const bounds = this.bounds.get(from) ?? new Map(), known = bounds.get(to) ?? { most: Infinity, messages: 0 };
    this.bounds.set(from, bounds.set(to, { most: Math.min(most, known.most), messages: known.messages + 1 }));
  }

  /** A task's time went back: its clock was set. */
  addStep(event, before) {
    const clock = this.clockOf[event], known = this.setBack.get(clock) ?? 0;
    this.setBack.set(clock, Math.max(known, before - this.times[event]));
  }

  /** By how much each clock is ahead of this one at most, also by way of others. Null where the bounds contradict one another. */
  aheadOf(clock) {
    if (!this.ahead.has(clock)) this.ahead.set(clock, this.findAheadOf(clock));
    return this.ahead.get(clock);
  }

  /** Lists the bounds, since each clock that is told goes over all of them many times. */
  listBounds() {
    const list = [...this.bounds].flatMap(([from, bounds]) => [...bounds].map(([to, { most }]) => ({ from, to, most })));
    [this.from, this.to] = [Int32Array.from(list, ({ from }) => from), Int32Array.from(list, ({ to }) => to)];
    this.apart = Float64Array.from(list, ({ most }) => most);
    this.least = list.reduce((sum, { most }) => sum + Math.min(0, most), 0);
  }

  findAheadOf(clock) {
    const { from, to, apart } = this, most = new Float64Array(this.names.length).fill(Infinity);
    most[clock] = 0;
    for (let round = 0, goesOn = true; goesOn; round++) {
      goesOn = false;
      for (let bound = 0; bound < apart.length; bound++) {
        const reached = most[from[bound]] + apart[bound];
        if (reached >= most[to[bound]]) continue;
        if (reached < this.least - ROUNDING) return null; // No chain without a circle is as low.
        most[to[bound]] = reached;
        goesOn = true;
      }
      if (goesOn && round > this.names.length) return null;
    }
    return most;
  }

  /** By how much the one clock is ahead of the other at least and at most. Null where what is known contradicts itself. */
  skew(clock, other) {
    const [most, least] = [this.aheadOf(other)?.[clock], this.aheadOf(clock)?.[other]];
    return most === undefined || least === undefined || most < -least ? null : { least: -least, most };
  }

  messages(from, to) {
    return this.bounds.get(from)?.get(to)?.messages ?? 0;
  }

  /** The clock of the process that has most messages with others, against which the others are told. */
  mostTold() {
    const counts = this.names.map(() => 0);
    for (const [from, bounds] of this.bounds) {
      for (const [to, { messages }] of bounds) {
        counts[from] += messages;
        counts[to] += messages;
      }
    }
    return counts.indexOf(Math.max(...counts));
  }
}

/** So many seconds, in three digits. */
function duration(seconds) {
  const [value, unit] = seconds < 0.0009995 ? [seconds * MICRO, "µs"] : seconds < 0.9995 ? [seconds * 1000, "ms"] : [seconds, "s"];
  return `${value < 1000 ? Number(value.toPrecision(3)) : Math.round(value)} ${unit}`;
}

/** The date and the time of day, to a microsecond. */
function utc(seconds) {
  const micros = Math.round(seconds * MICRO), text = new Date(Math.floor(micros / 1000)).toISOString();
  return `${text.slice(0, 10)} ${text.slice(11, 23)}${String(micros % 1000).padStart(3, "0")} UTC`;
}

const timeOfDay = (seconds, isFine = false) => utc(seconds).slice(11, isFine ? 26 : 23);

/** How far a clock is ahead of another, in words, and how sure that is. */
function skewWords(skew) {
  if (skew === null) return "its messages contradict one another: a clock was set, or they run at different speeds";
  const { least, most } = skew, way = (value) => value < 0 ? "behind" : "ahead", size = (value) => duration(Math.abs(value));
  if (least === -Infinity && most === Infinity) return "not known: no message tells";
  if (least === -Infinity) return `at ${most < 0 ? "least" : "most"} ${size(most)} ${way(most)}`;
  if (most === Infinity) return `at ${least < 0 ? "most" : "least"} ${size(least)} ${way(least)}`;
  const middle = (least + most) / 2;
  return `${size(middle)} ${way(middle)}, ± ${duration((most - least) / 2)}`;
}

/** Between which times an event was before or after another one. */
function spanWords(least, most) {
  const words = (value) => `${duration(Math.abs(value))} ${value < 0 ? "before" : "after"}`;
  if (least === -Infinity && most === Infinity) return "what the skew is, no message tells";
  if (least === -Infinity) return `without the skew at most ${words(most)} it`;
  if (most === Infinity) return `without the skew at least ${words(least)} it`;
  const [one, other] = least < 0 && most < 0 ? [most, least] : [least, most];
  return `without the skew from ${words(one)} to ${words(other)} it`;
}
