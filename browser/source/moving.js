// Which part of the picture is in view

/** Moves and zooms the picture. `left` is a time, `scale` how wide one is; `top` counts lanes, and `high` is how high one is. */
const Moving = (Base) => class extends Base {
  /** How high the rulers above the lanes are. */
  get head() {
    return this.times === null || this.layout?.axis === CLOCK ? RULER : 2 * RULER;
  }

  /** How high what is between the rulers and the lower end is. */
  get room() {
    return Math.max(1, this.height - this.head - 2 * MARGIN);
  }

  /** How much of the lower end the map hides. Nothing while all is in view. */
  get foot() {
    return this.isWhole ? 0 : Math.min(this.mapHeight, this.room / 2);
  }

  get laneHeight() {
    return this.high;
  }

  x(time) {
    return (time - this.left) * this.scale;
  }

  y(lane) {
    return this.yOf(this.layout.tops[lane] + 0.5);
  }

  /** Where so many lanes from above stand. */
  yOf(lanes) {
    return (lanes - this.top) * this.high + this.head + MARGIN;
  }

  lanesAt(y) {
    return this.top + (y - this.head - MARGIN) / this.high;
  }

  resize() {
    const ratio = Math.min(2, window.devicePixelRatio || 1);
    const { clientWidth, clientHeight } = this.canvas;
    [this.width, this.height] = [Math.max(1, clientWidth), Math.max(1, clientHeight)];
    [this.canvas.width, this.canvas.height] = [Math.round(this.width * ratio), Math.round(this.height * ratio)];
    this.ratio = ratio;
    this.context.setTransform(ratio, 0, 0, ratio, 0, 0);
    this.ask();
  }

  ask() {
    if (this.isAsked) return;
    this.isAsked = true;
    requestAnimationFrame(() => {
      this.isAsked = false;
      this.draw();
    });
  }

  get leastScale() {
    return Math.min(GREATEST_SCALE, Math.max(1, this.width - 2 * ROOM) / Math.max(1, this.layout.columns - 1));
  }

  get leastHigh() {
    return Math.min(GREATEST_LANE, this.room / this.layout.height);
  }

  /** Whether all of it is in view. */
  get isWhole() {
    return this.scale <= this.leastScale * 1.001 && this.high <= this.leastHigh * 1.001;
  }

  keepInside() {
    const { layout } = this;
    this.scale = Math.min(GREATEST_SCALE, Math.max(this.leastScale, this.scale));
    this.high = Math.min(GREATEST_LANE, Math.max(this.leastHigh, this.high));
    const room = ROOM / this.scale, most = layout.columns + room - this.width / this.scale;
    this.left = Math.max(1 - room, Math.min(this.left, most));
    this.top = Math.max(0, Math.min(this.top, layout.height - (this.room - this.foot) / this.high));
  }

  pan(byX, byY) {
    if (this.layout === null) return;
    this.left += byX / this.scale;
    this.top += byY / this.high;
    this.keepInside();
    this.ask();
  }

  /** By which power of the zoom the lanes grow, so that times and lanes can be read at once. */
  get laneZoom() {
    const wide = NEAR_SCALE / this.leastScale, high = LANE / this.leastHigh;
    if (high <= 1) return 0;
    return wide <= 1.05 ? 1 : Math.min(1, Math.log(high) / Math.log(wide));
  }

  /** Makes everything so many times as wide, and keeps what stands at this place there. */
  zoom(factor, atX = this.width / 2, atY = this.height / 2) {
    if (this.layout === null) return;
    const time = this.left + atX / this.scale, lanes = this.lanesAt(atY), power = this.laneZoom;
    const isFar = this.scale <= this.leastScale * 1.001 && factor < 1;
    this.scale = Math.min(GREATEST_SCALE, Math.max(this.leastScale, this.scale * factor));
    const most = Math.max(this.leastHigh, Math.min(LANE, GREATEST_LANE));
    this.high = Math.min(Math.max(most, this.high), Math.max(this.leastHigh, this.high * factor ** (isFar ? 1 : power)));
    this.left = time - atX / this.scale;
    this.top = lanes - (atY - this.head - MARGIN) / this.high;
    this.keepInside();
    this.ask();
  }

  whole() {
    if (this.layout === null) return;
    this.scale = this.leastScale;
    this.high = this.leastHigh;
    this.left = this.top = 0;
    this.keepInside();
    this.ask();
  }

  /** Moves as little as brings the event into view; `closer` also makes it readable. */
  show(event, closer = true) {
    const { layout } = this;
    if (closer && this.scale < 30) this.scale = Math.max(this.leastScale, 48);
    if (closer && this.high < LEAST_LANE) this.high = LANE;
    const time = layout.times[event], lane = layout.tops[layout.lane(event)], aside = Math.min(90, this.width / 4) / this.scale;
    const wide = this.width / this.scale, high = this.room / this.high;
    if (time < this.left + aside || time > this.left + wide - aside) this.left = time - wide / 2;
    if (lane < this.top || lane + 1 > this.top + high) this.top = lane - high / 2;
    this.keepInside();
    this.ask();
  }

  /** Shows these events, as near as their distance lets. */
  showAll(events) {
    const { layout } = this, times = events.map((event) => layout.times[event]), lanes = events.map((event) => layout.tops[layout.lane(event)]);
    const [least, most] = [Math.min(...times), Math.max(...times)], [upper, lower] = [Math.min(...lanes), Math.max(...lanes) + 1];
    const aside = Math.min(120, this.width / 4);
    this.scale = Math.max(this.leastScale, Math.min(READ_SCALE, (this.width - 2 * aside) / Math.max(1, most - least)));
    const isAll = this.scale <= this.leastScale && Math.min(LANE, this.room / (lower - upper)) <= this.leastHigh;
    const free = this.room - (isAll ? 0 : Math.min(this.mapHeight, this.room / 2));
    this.high = Math.max(this.leastHigh, Math.min(LANE, free / (lower - upper)));
    this.left = (least + most) / 2 - this.width / this.scale / 2;
    this.top = (upper + lower) / 2 - free / this.high / 2;
    this.keepInside();
    this.ask();
  }

  /** Shows what is chosen: an event, or two of them with the latest that happened before both. */
  showChosen() {
    if (this.layout === null || this.chosen === 0) return;
    const pair = [this.chosen, this.other].filter((event) => event > 0), { trace } = this.layout;
    const before = pair.length === 2 ? trace.latestBeforeBoth(...pair) : 0;
    const events = [...pair, ...before > 0 && this.layout.shows(before) ? [before] : []];
    if (events.length > 1) this.showAll(events);
    else this.show(events[0]);
  }
};
