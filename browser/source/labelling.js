// Writing names and labels

const LEAST_LETTERS = 5, MOST_LETTERS = 44, LABEL_HALF = 8, FEW_NAMES = 3;
// What edges from or to a band are called, by their kind.
const EDGES_IN_WORDS = ["step", "start", "message", "join", "edge"];

/** The text, if it has no more than so many letters, else its beginning. */
const clipped = (text, most) => text.length <= most ? text : most < 2 ? "" : `${text.slice(0, most - 1).trimEnd()}…`;

/** Writes the names of tasks, and the labels of events and messages. */
const Labelling = (Base) => class extends Base {
  /** Writes the names of tasks above their lanes, at the left end of what is in view of them, as much as there is room for. */
  drawNames() {
    const { layout, high, letter } = this;
    if (high < 13) return;
    for (let lane = this.fromLane; lane <= this.toLane; lane++) {
      if (layout.folded.has(lane)) continue;
      const places = layout.tasksIn[lane], y = Math.round(this.y(lane) - Math.min(17, high * 0.3));
      if (this.nameCrowd(lane, y)) continue;
      let taken = 0;
      for (let at = layout.taskInLane(lane, this.fromTime); at < places.length && layout.from[places[at]] <= this.toTime; at++) {
        const next = at + 1 < places.length ? this.x(layout.from[places[at + 1]]) - 8 : this.width - 4;
        const x = Math.max(layout.headings.length > 0 ? 10 : 4, this.x(layout.from[places[at]]) + (layout.parents[places[at]] < 0 ? -this.radius : 3), taken);
        const end = Math.max(this.endOf(places[at]), x), room = Math.min(next, Math.max(end, x + 12 * letter)) - x;
        const name = clipped(layout.names[places[at]], Math.floor(room / letter)), width = name.length * letter;
        if (name === "" || (name.endsWith("…") && name.length < LEAST_LETTERS) || x > end || y < this.head + 8) continue;
        if (this.labels.count > MOST_LABELS / 2 || !this.labels.isFree(x, y - 9, width, 10)) continue;
        this.write(name, x, y, width, this.colourOfLane(lane) ?? palette.name);
        taken = x + width + 6;
      }
    }
  }

  /** Writes over a lane what its tasks are called and how many are in view, if they have no room for a name each. */
  nameCrowd(lane, y) {
    const { layout, letter } = this, places = layout.tasksIn[lane], first = layout.taskInLane(lane, this.fromTime);
    const last = layout.taskInLane(lane, this.toTime), count = last - first + 1;
    const x = Math.max(layout.headings.length > 0 ? 10 : 4, this.x(layout.from[places[first]]));
    if (count < FEW_NAMES || (this.x(layout.from[places[last]]) - x) / (count - 1) >= LEAST_LETTERS * letter) return false;
    const stems = new Set(places.slice(first, last + 1).map((place) => stemOf(layout.names[place])));
    const words = stems.size === 1 ? `${[...stems][0]} × ${count}` : counted(count, "task"), width = words.length * letter;
    if (y >= this.head + 8 && this.labels.isFree(x, y - 9, width, 10)) this.write(words, x, y, width, this.colourOfLane(lane) ?? palette.name);
    return true;
  }

  /** Says what is hidden, and how many edges are drawn, where not all in view are. */
  drawHidden() {
    const step = Math.ceil(this.nearEdges / MOST_EDGES), words = [...this.hiddenWords === "" ? [] : [this.hiddenWords],
      ...step > 1 && !this.isDense ? [`one edge of ${step} is drawn`] : []].join("; ");
    const text = clipped(words, Math.floor((this.width - 16) / this.letter));
    if (text !== "") this.write(text, 8, this.height - 8, text.length * this.letter, palette.edge);
  }

  /** Writes a text on the colour of the paper, so that no line runs through it, and takes its place. */
  write(text, x, y, width, colour, weight = "") {
    const { context, labels } = this;
    context.fillStyle = palette.veil;
    context.fillRect(x - 1, y - 9, width + 2, 11);
    context.fillStyle = colour;
    if (weight !== "") context.font = weight + FONT;
    context.fillText(text, x, y);
    if (weight !== "") context.font = FONT;
    labels.take(x - 2, y - 10, width + 4, 13);
  }

  /** Takes the places of the marks in view, so that no text stands on one. */
  takeMarks(count) {
    const { layout, marks, labels, radius } = this;
    for (let place = 0; place < count; place++) {
      if (this.isSmall(marks[place])) continue;
      const x = this.x(layout.times[marks[place]]), y = this.y(layout.lane(marks[place]));
      labels.take(x - radius, y - radius, 2 * radius, 2 * radius);
    }
  }

  /** Writes the numbers and labels of events below their marks, those of the chosen ones and of races first, and what messages carry
   * beside their arrows. */
  drawLabels(count) {
    const { layout, marks, racing } = this;
    const rank = (event) => event === this.chosen || event === this.other ? 2 : racing.has(event) ? 1 : 0;
    const events = [...marks.subarray(0, this.high >= 30 ? count : 0)].sort((one, other) => rank(other) - rank(one) || one - other);
    for (const event of events) {
      if (this.isSmall(event)) continue;
      const label = this.labelOf(event), most = rank(event) > 0 ? MOST_LETTERS : Math.floor(this.roomOf(event) / this.letter);
      const text = label === "" ? String(event) : clipped(`${event} ${label}`, most);
      if ((text.endsWith("…") && text.length < String(event).length + 7) || !this.writeBelow(text, event)) this.writeBelow(String(event), event);
    }
    for (let place = 0; place < this.nearEdges; place++) {
      if (layout.edgeKinds[this.edges[place]] === MESSAGE_EDGE || layout.edgeCounts[this.edges[place]] > 1) this.labelEdge(this.edges[place]);
    }
  }

  /** How wide the label of an event may be: to the middle between its mark and the next ones of the lane. */
  roomOf(event) {
    const { layout } = this, events = layout.eventsIn[layout.lane(event)], at = layout.placeInLane(layout.lane(event), layout.times[event]);
    const x = this.x(layout.times[event]), before = at > 0 ? x - this.x(layout.times[events[at - 1]]) : Infinity;
    const behind = at + 1 < events.length ? this.x(layout.times[events[at + 1]]) - x : Infinity;
    return Math.min(before, behind, MOST_LETTERS * this.letter) - 4;
  }

  /** Writes a text below the mark of an event, if there is room for it. It is moved aside where it would not be whole in view. */
  writeBelow(text, event) {
    const { layout, labels, radius, letter } = this, width = text.length * letter, middle = this.x(layout.times[event]);
    const below = event === this.chosen || event === this.other ? 2.3 * radius + 12 : 1.9 * radius + 10;
    const most = Math.max(2, this.width - width - 2), isInView = middle >= 0 && middle <= this.width;
    const x = isInView ? Math.max(2, Math.min(middle - width / 2, most)) : middle - width / 2, y = this.y(layout.lane(event)) + below;
    const isFree = y > this.head + 10 && labels.isFree(x - 1, y - 9, width + 2, 10);
    if (isFree) this.write(text, x, y, width, palette.edge);
    return isFree;
  }

  /** Writes beside an edge what its message carries, or how many edges it stands for. */
  labelEdge(edge) {
    const { layout, labels } = this, event = layout.edgeEvents[edge], count = layout.edgeCounts[edge];
    if (count === 1 && layout.filter.isOwn(event)) return;
    const name = layout.trace.nameOf[event], words = clipped(this.wordsOfMessages.get(name) ?? name, MOST_LETTERS);
    const text = count > 1 ? counted(count, EDGES_IN_WORDS[layout.edgeKinds[edge]]) : words, width = text.length * this.letter + 4;
    const fromX = this.x(layout.edgeFrom[edge]), fromY = this.y(layout.edgeFromLane[edge]);
    const byX = this.x(layout.edgeTo[edge]) - fromX, byY = this.y(layout.edgeToLane[edge]) - fromY;
    const places = [0.5, 0.4, 0.6, 0.3, 0.7].map((part) => [fromX + part * byX - width / 2, fromY + part * byY + 4]);
    const isFree = ([x, y]) => x >= 0 && x + width <= this.width && y >= this.head + 10 && labels.isFree(x, y - 10, width, 13);
    const free = places.filter(isFree), [x, y] = free.find((place) => !this.isOnLane(place[1] - 4)) ?? free[0] ?? [];
    if (x !== undefined) this.write(text, x + 2, y, width - 4, palette.message);
  }

  /** Whether a text at this height would read as one of a lane. */
  isOnLane(atY) {
    return this.laneNear(atY, LABEL_HALF) >= 0;
  }
};
