// The rulers above the picture

const TICK = 70, CLOCK_TICK = 120;

/** The most of these ticks that do not run backwards. */
function onward(ticks) {
  const best = [];
  for (const tick of ticks) {
    const behind = best.filter(({ last }) => last.seconds <= tick.seconds).reduce((one, other) => other.length > one.length ? other : one, { length: 0, all: [] });
    best.push({ last: tick, length: behind.length + 1, all: [...behind.all, tick] });
  }
  return best.reduce((one, other) => other.length > one.length ? other : one, { length: 0, all: [] }).all;
}

/** Draws a ruler of logical time, and one of the wall clock if a journal tells it. */
const Measuring = (Base) => class extends Base {
  drawRulers() {
    const { context, layout } = this;
    context.fillStyle = palette.ruler;
    context.fillRect(0, 0, this.width, this.head);
    context.fillStyle = palette.pale;
    context.fillRect(0, this.head - 1, this.width, 1);
    if (layout.axis === CLOCK) this.drawClockRuler(14);
    else {
      this.drawSteps();
      if (this.times !== null) this.drawTimes(14 + RULER);
    }
  }

  tick(x, words, y) {
    const { context, letter } = this, width = words.length * letter;
    if (x < this.rulerTo + 8 || x + width + 3 > this.width) return;
    context.fillStyle = palette.edge;
    context.fillRect(x, y - 11, 1, RULER - 4);
    context.fillText(words, x + 3, y);
    this.rulerTo = x + width + 3;
  }

  name(words, y) {
    const { context } = this;
    context.fillStyle = palette.edge;
    context.fillText(words, 6, y);
    this.rulerTo = 6 + words.length * this.letter;
  }

  /** Numbers the steps: how long the longest chain of events is that leads there, or the number of the event. */
  drawSteps() {
    const { layout, context } = this;
    this.name(layout.axis === NUMBER ? "event" : "step", 14);
    context.fillStyle = palette.fold;
    for (const { from, to } of layout.narrow) {
      const begin = Math.max(0, this.x(from)), end = Math.min(this.width, this.x(to));
      for (let x = begin - begin % 6; x < end; x += 6) context.fillRect(x, RULER - 5, 3, 3);
    }
    let last = -Infinity;
    for (const { place, step } of this.shownSteps()) {
      const x = this.x(place);
      if (x < 0 || x > this.width || x - last < TICK) continue;
      this.tick(x, String(step), 14);
      last = x;
    }
  }

  /** The steps at which something stands, and where. */
  shownSteps() {
    const { layout } = this;
    if (layout.stepsShown !== undefined) return layout.stepsShown;
    const found = new Map(), { trace, steps, times } = layout;
    for (let event = 1; event <= trace.events; event++) if (layout.shows(event)) found.set(times[event], steps[event]);
    layout.stepsShown = [...found].map(([place, step]) => ({ place, step })).sort((one, other) => one.place - other.place);
    return layout.stepsShown;
  }

  /** Says when what is in view was, by the clocks: at each place the earliest that is told there. A chain of events may be short though it
   * was late, so a time that would run backwards is left out. Times that
   * would read alike have microseconds. */
  drawTimes(y) {
    const { layout, times, context } = this, ticks = [];
    context.fillStyle = palette.pale;
    context.fillRect(0, RULER - 1, this.width, 1);
    this.name("clock", y);
    for (let lane = this.fromLane; lane <= this.toLane; lane++) {
      const events = layout.eventsIn[lane];
      for (let place = layout.placeInLane(lane, this.left); place < events.length && layout.times[events[place]] <= this.toTime; place++) {
        const seconds = times[events[place]], at = Math.floor(this.x(layout.times[events[place]]) / CLOCK_TICK);
        if (seconds > 0 && at >= 0 && (ticks[at] === undefined || seconds < ticks[at].seconds)) ticks[at] = { seconds, x: this.x(layout.times[events[place]]) };
      }
    }
    const told = onward(ticks.filter((tick) => tick !== undefined));
    const isFine = told.some(({ seconds }, place) => place > 0 && seconds > told[place - 1].seconds && timeOfDay(seconds) === timeOfDay(told[place - 1].seconds));
    for (const tick of told) this.tick(tick.x, timeOfDay(tick.seconds, isFine), y);
  }

  drawClockRuler(y) {
    const { layout } = this, { times, places } = layout.clockAxis;
    this.name("clock", y);
    let last = -Infinity;
    for (let at = Math.max(0, placeBelow(places, this.left)); at < places.length; at++) {
      const x = this.x(places[at]);
      if (x > this.width) break;
      if (x < 0 || x - last < CLOCK_TICK) continue;
      this.tick(x, timeOfDay(times[at]), y);
      last = x;
    }
  }

  /** Where time is that of the clocks: from when to when each event was by the clock of the process that has most messages, as the
   * messages bound the skew. */
  drawSkews(count) {
    const { layout, clocks, marks, context } = this;
    if (layout.axis !== CLOCK || clocks === null || clocks.names.length < 2) return;
    const first = clocks.mostTold(), half = Math.min(6, this.high / 6);
    for (let place = 0; place < count; place++) {
      const event = marks[place], clock = clocks.clockOf[event], skew = clock < 0 || clock === first ? null : clocks.skew(clock, first);
      if (skew === null || !Number.isFinite(skew.most - skew.least)) continue;
      const ends = [skew.most, skew.least].map((ahead) => this.x(layout.clockAxis.placeOf(clocks.times[event] - ahead)));
      const from = Math.max(-10, ends[0]), to = Math.min(this.width + 10, ends[1]), y = Math.round(this.y(layout.lane(event)) + this.radius * 2.2 + 3);
      context.fillStyle = this.colourOfLane(layout.lane(event)) ?? palette.edge;
      context.fillRect(from, y, Math.max(1, to - from), 1.5);
      for (const x of [from, to]) context.fillRect(x, y - half, 1.5, 2 * half);
    }
  }
};
