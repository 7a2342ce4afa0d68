// Folds and headings

const BAR = 3;

/** Draws the bands of folded tasks, and the headings of processes. */
const Banding = (Base) => class extends Base {
  /** Draws behind everything in which lanes a process is, and writes its name above them. */
  drawHeadings() {
    const { context, layout } = this, { headings } = layout;
    headings.forEach(({ top, colour }, place) => {
      const end = headings[place + 1]?.top ?? layout.height, y = this.yOf(top), to = this.yOf(end);
      if (to < this.head || y > this.height) return;
      context.fillStyle = colourOfProcess(colour);
      context.globalAlpha = 0.07;
      context.fillRect(0, y, this.width, to - y - 1);
      context.globalAlpha = 1;
      context.fillRect(0, y, 5, to - y - 1);
    });
  }

  writeHeadings() {
    const { layout, letter } = this, { headings } = layout;
    headings.forEach(({ group, top, colour, count, lane }, place) => {
      const end = headings[place + 1]?.top ?? layout.height, to = this.yOf(end), y = Math.max(this.head + 13, this.yOf(top) + 13);
      if (to < this.head + 18 || y > this.height || to - y < 2) return;
      const isAlone = layout.folded.get(lane)?.key === `process ${group}`;
      const words = `${group}${isAlone ? "" : `: ${counted(count, "task")}`}${this.skewOf(group)}`;
      this.write(words, 10, y, words.length * letter, colourOfProcess(colour), "bold ");
    });
  }

  /** How far the clock of a process is off, where time is that of the clocks. */
  skewOf(group) {
    const { layout, clocks } = this;
    if (layout.axis !== CLOCK || clocks === null || clocks.names.length < 2) return "";
    const clock = clocks.names.indexOf(group), first = clocks.mostTold();
    return clock < 0 || clock === first ? "" : `; clock ${skewWords(clocks.skew(clock, first))}`;
  }

  /** Draws the tasks of each fold as a band, with bars for how many events there are, since they stand in no order. */
  drawFolds() {
    const { layout, context } = this;
    for (const [lane, { places }] of layout.folded) {
      if (lane < this.fromLane || lane > this.toLane) continue;
      const half = Math.max(1, Math.min(16, this.high * 0.3)), y = this.y(lane), [first] = places;
      const from = Math.max(-10, this.x(Math.min(...places.map((place) => layout.from[place])))), to = Math.min(this.width + 10, this.x(layout.last[first]));
      context.fillStyle = palette.fold;
      context.fillRect(from - 4, y - half, Math.max(6, to - from + 8), 2 * half);
      context.fillStyle = this.colourOfLane(lane) ?? palette.lane;
      context.fillRect(from - 4, y + half, Math.max(6, to - from + 8), 2);
      this.drawBars(lane, y + half, 2 * half);
    }
  }

  /** Bars by how many events stand there, in the colours of how they stand to the chosen event. */
  drawBars(lane, bottom, high) {
    const { layout, context, standings } = this, bars = new Map(), events = layout.eventsIn[lane];
    for (let place = layout.placeInLane(lane, this.fromTime); place < events.length; place++) {
      const time = layout.times[events[place]];
      if (time > this.toTime) break;
      const x = Math.floor(this.x(time) / BAR) * BAR, counts = bars.get(x) ?? [0, 0, 0, 0, 0];
      counts[standings === null ? 0 : standings[events[place]]]++;
      bars.set(x, counts);
    }
    const most = Math.max(1, ...[...bars.values()].map((counts) => counts.reduce((sum, count) => sum + count, 0)));
    for (let standing = 0; standing < COLOURS.length; standing++) {
      context.fillStyle = standing === 0 ? palette.bars : COLOURS[standing];
      for (const [x, counts] of bars) {
        if (counts[standing] === 0) continue;
        const unit = high * Math.sqrt(1 / most) / Math.sqrt(counts.reduce((sum, count) => sum + count, 0));
        const below = counts.slice(0, standing).reduce((sum, count) => sum + count, 0) * unit, size = Math.max(1, counts[standing] * unit);
        context.fillRect(x, bottom - below - size, BAR - 1, size);
      }
    }
  }

  writeFolds() {
    const { layout, letter } = this;
    if (this.high < 13) return;
    for (const [lane, { title, places: [first] }] of layout.folded) {
      if (lane < this.fromLane || lane > this.toLane) continue;
      const x = Math.max(10, this.x(layout.from[first])), half = Math.min(16, this.high * 0.3), words = `▸ ${title}`;
      const y = Math.round(this.y(lane) - half - 3), above = this.high >= 40 ? y : Math.round(this.y(lane) + 4);
      this.write(words, x, above, words.length * letter, palette.name);
    }
  }
};
