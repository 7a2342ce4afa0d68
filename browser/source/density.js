// The picture from far off

const CELL = 2, LEVELS = 5;

/** Draws how many events stand where, as lanes are too low to be told apart. */
const Crowding = (Base) => class extends Base {
  get isDense() {
    return this.high < DENSE_LANE;
  }

  drawDensity() {
    const { layout, standings } = this, cells = new Map();
    const wide = Math.ceil(this.width / CELL) + 2;
    for (let lane = this.fromLane; lane <= this.toLane; lane++) {
      const row = Math.floor(this.y(lane) / CELL), events = layout.eventsIn[lane];
      for (let place = layout.placeInLane(lane, this.fromTime); place < events.length; place++) {
        const time = layout.times[events[place]];
        if (time > this.toTime) break;
        const key = row * wide + Math.floor(this.x(time) / CELL), standing = standings === null ? 0 : standings[events[place]];
        const cell = cells.get(key) ?? { count: 0, standing };
        cell.count++;
        if (standing === ITSELF || (cell.standing === CONCURRENT && standing > 0)) cell.standing = standing;
        cells.set(key, cell);
      }
    }
    this.drawCells(cells, wide);
  }

  /** The more events stand in a cell, the stronger it is: each level has as many again. */
  drawCells(cells, wide) {
    const { context } = this, levels = new Map();
    for (const [key, { count, standing }] of cells) {
      const level = Math.min(LEVELS, 1 + Math.floor(Math.log2(count))), name = standing * (LEVELS + 1) + level;
      levels.set(name, levels.get(name) ?? []).get(name).push(key);
    }
    for (const [name, keys] of levels) {
      context.globalAlpha = 0.4 + 0.6 * (name % (LEVELS + 1)) / LEVELS;
      context.fillStyle = COLOURS[Math.floor(name / (LEVELS + 1))];
      for (const key of keys) context.fillRect(key % wide * CELL, Math.floor(key / wide) * CELL, CELL, CELL);
    }
    context.globalAlpha = 1;
  }
};
