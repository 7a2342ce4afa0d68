// Drawing what is in view

const OPEN_END = 44, SMALL_MARK = 2.6, ROOM_OF_RING = 14;

/** Draws lanes, edges and marks. */
const Drawing = (Base) => class extends Base {
  /** Draws the line of each task from its beginning to its end, in the colour of its process. */
  drawLanes() {
    const { context, layout } = this, thick = this.isNear ? 2 : 1;
    for (let lane = this.fromLane; lane <= this.toLane; lane++) {
      if (layout.folded.has(lane)) continue;
      const places = layout.tasksIn[lane], y = Math.round(this.y(lane)) - thick / 2, colour = this.colourOfLane(lane);
      context.fillStyle = colour ?? (this.isNear ? palette.lane : palette.pale);
      context.globalAlpha = colour === null || this.isNear ? 1 : 0.5;
      let from = 0, to = -10;
      for (let at = layout.taskInLane(lane, this.fromTime); at < places.length && layout.from[places[at]] <= this.toTime; at++) {
        const begin = Math.max(-10, this.x(layout.from[places[at]])), end = this.endOf(places[at]);
        if (begin > to + 1 || this.isNear) {
          if (to > from) context.fillRect(from, y, to - from, thick);
          from = begin;
        }
        to = Math.max(this.isNear ? -10 : to, end);
      }
      if (to > from) context.fillRect(from, y, to - from, thick);
    }
    context.globalAlpha = 1;
    if (this.isNear) this.drawEnds();
  }

  /** Where the line of a task ends. That of one that did not end goes a little beyond its last event. */
  endOf(place) {
    const { layout } = this, last = this.x(Math.min(layout.last[place], this.toTime));
    return layout.to[place] === Infinity ? last + OPEN_END : last;
  }

  /** The colour of the process that a lane is of, or null where there is but one. */
  colourOfLane(lane) {
    const { headings } = this.layout;
    if (headings.length === 0) return null;
    let at = headings.length - 1;
    while (headings[at].lane > lane) at--;
    return colourOfProcess(headings[at].colour);
  }

  /** Cuts the line of a task that did not end into a few dashes behind its last event, and draws a break before a task that has the lane
   * of another one: two strokes across. */
  drawEnds() {
    const { context, layout } = this;
    for (let lane = this.fromLane; lane <= this.toLane; lane++) {
      if (layout.folded.has(lane)) continue;
      const places = layout.tasksIn[lane], y = Math.round(this.y(lane));
      for (let at = layout.taskInLane(lane, this.fromTime); at < places.length && layout.from[places[at]] <= this.toTime; at++) {
        context.fillStyle = palette.paper;
        const last = this.x(layout.last[places[at]]);
        if (layout.to[places[at]] === Infinity) for (let x = last + 14; x < last + OPEN_END; x += 9) context.fillRect(x, y - 2, 4, 4);
        if (at > 0) this.drawBreak(this.x(layout.from[places[at]]), y);
      }
    }
  }

  drawBreak(x, y) {
    const { context } = this, high = Math.min(7, this.high / 4);
    context.beginPath();
    for (const aside of [-7, -3]) {
      context.moveTo(x + aside - 2, y + high);
      context.lineTo(x + aside + 2, y - high);
    }
    context.lineWidth = 1.5;
    context.strokeStyle = palette.edge;
    context.stroke();
  }

  edgeStanding(edge) {
    const { standings, layout } = this;
    if (standings === null) return 0;
    const event = layout.edgeEvents[edge], from = standings[layout.edgePreds[edge]], to = event === 0 ? from : standings[event];
    if (from === PAST && (to === PAST || to === ITSELF)) return PAST;
    return (from === FUTURE || from === ITSELF) && to === FUTURE ? FUTURE : 0;
  }

  /** Draws the edges in view; where they are many, one of so many of them. */
  drawEdges() {
    this.context.globalAlpha = this.isNear ? 1 : 0.45;
    const { edges, nearEdges, farEdges } = this, far = edges.length - farEdges;
    const step = Math.ceil(nearEdges / MOST_EDGES), farStep = Math.ceil(far / MOST_PASSING);
    const lastFar = this.isNear ? edges.length : farEdges;
    for (const standing of [0, PAST, FUTURE]) {
      for (let kind = SPAWN_EDGE; kind <= OTHER_EDGE; kind++) {
        this.beginEdges(kind, standing);
        for (let place = 0; place < nearEdges; place += step) this.addEdge(edges[place], kind, standing);
        for (let place = farEdges; place < lastFar; place += farStep) this.addEdge(edges[place], kind, standing);
        this.context.stroke();
      }
      if (this.isNear) this.drawHeads(standing, step);
    }
    this.context.globalAlpha = 1;
  }

  beginEdges(kind, standing) {
    const { context } = this;
    context.beginPath();
    context.lineWidth = this.nearEdges > FEW_EDGES ? 1 / this.ratio : standing > 0 ? 2 : 1.3;
    const plain = this.standings !== null || !this.isNear ? palette.pale : kind === MESSAGE_EDGE ? palette.edge : palette.lane;
    context.strokeStyle = standing > 0 ? COLOURS[standing] : plain;
  }

  addEdge(edge, kind, standing) {
    const { layout, context } = this;
    if (layout.edgeKinds[edge] !== kind || this.edgeStanding(edge) !== standing) return;
    context.moveTo(this.x(layout.edgeFrom[edge]), this.y(layout.edgeFromLane[edge]));
    const bend = this.isNear ? this.bendOf(edge) : null;
    if (bend !== null) context.lineTo(...bend);
    context.lineTo(this.x(layout.edgeTo[edge]), this.y(layout.edgeToLane[edge]));
  }

  bendOf(edge) {
    const { layout } = this;
    return this.bendBetween([layout.edgeFrom[edge], layout.edgeFromLane[edge]], [layout.edgeTo[edge], layout.edgeToLane[edge]]);
  }

  /** Where a line from a time in a lane to another one goes around a chosen event between the lanes, or null: through its mark, it would
   * look like an edge of it. */
  bendBetween([fromTime, fromLane], [toTime, toLane]) {
    const { layout } = this, fromX = this.x(fromTime), toX = this.x(toTime), aside = this.radius + ROOM_OF_RING;
    for (const event of [this.chosen, this.other]) {
      const lane = event === 0 ? -1 : layout.lane(event);
      if (lane <= Math.min(fromLane, toLane) || lane >= Math.max(fromLane, toLane)) continue;
      const x = this.x(layout.times[event]), crossing = fromX + (toX - fromX) * (lane - fromLane) / (toLane - fromLane);
      if (Math.abs(crossing - x) < aside) return [crossing < x ? x - aside : x + aside, this.y(lane)];
    }
    return null;
  }

  drawHeads(standing, step) {
    const { context, layout, edges } = this;
    context.beginPath();
    for (let place = 0; place < this.nearEdges; place += step) {
      const edge = edges[place];
      if (layout.edgeKinds[edge] === MESSAGE_EDGE && this.edgeStanding(edge) === standing) this.addHead(edge);
    }
    context.fillStyle = standing > 0 ? COLOURS[standing] : this.standings === null ? palette.edge : palette.pale;
    context.fill();
  }

  addHead(edge) {
    const { layout, context } = this;
    const x = this.x(layout.edgeTo[edge]), y = this.y(layout.edgeToLane[edge]);
    const [fromX, fromY] = this.bendOf(edge) ?? [this.x(layout.edgeFrom[edge]), this.y(layout.edgeFromLane[edge])];
    const byX = x - fromX, byY = y - fromY;
    const length = Math.hypot(byX, byY), aside = this.radius + 2;
    if (length < aside + 8) return;
    const alongX = byX / length, alongY = byY / length, tipX = x - alongX * aside, tipY = y - alongY * aside;
    context.moveTo(tipX, tipY);
    context.lineTo(tipX - alongX * 9 - alongY * 4, tipY - alongY * 9 + alongX * 4);
    context.lineTo(tipX - alongX * 9 + alongY * 4, tipY - alongY * 9 - alongX * 4);
    context.closePath();
  }

  get radius() {
    return Math.max(2.5, Math.min(7, this.scale / 6, this.laneHeight / 5));
  }

  /** Whether an event has a small mark: it is of the tool, or only has to do with what is folded. */
  isSmall(event) {
    return this.layout.minor !== undefined && this.layout.minor[event] === 1 && event !== this.chosen && event !== this.other;
  }

  drawMarks(count) {
    const least = this.standings === null ? 0 : PAST, most = this.standings === null ? 0 : ITSELF;
    for (let standing = least; standing <= most; standing++) {
      if (standing > 0) this.drawStandings(count, standing);
      for (let kind = 0; kind < KINDS.length; kind++) this.drawMarksOf(count, kind, standing);
    }
  }

  drawStandings(count, standing) {
    const { context, marks, standings, layout, radius } = this;
    context.beginPath();
    for (let place = 0; place < count; place++) {
      const event = marks[place], x = this.x(layout.times[event]);
      const size = this.isSmall(event) ? Math.min(radius, SMALL_MARK) : radius;
      if (standings[event] === standing) addStanding(context, standing, x, this.y(layout.lane(event)), size * 1.9);
    }
    context.fillStyle = COLOURS[standing];
    context.fill();
  }

  drawMarksOf(count, kind, standing) {
    const { context, marks, standings, layout } = this, { kinds } = layout.trace;
    const radius = standing > 0 ? this.radius * 0.72 : this.radius;
    context.beginPath();
    for (let place = 0; place < count; place++) {
      const event = marks[place];
      if (kinds[event] !== kind || (standings !== null && standings[event] !== standing)) continue;
      const size = this.isSmall(event) ? Math.min(radius, SMALL_MARK) : radius;
      addMark(context, kind, this.x(layout.times[event]), this.y(layout.lane(event)), size);
    }
    context.fillStyle = standing === 0 ? COLOURS[0] : standing === CONCURRENT ? palette.onConcurrent : palette.paper;
    context.fill("evenodd");
  }

  /** Far off, events that stand side by side are one bar: in the lower half of the lane those of the past, in the upper half
   * those that could be influenced, and a thin one in the middle for the concurrent ones. */
  drawRuns() {
    const { layout, standings } = this;
    for (let standing = 0; standing <= ITSELF; standing++) {
      if (standings === null ? standing > 0 : standing === 0) continue;
      this.context.fillStyle = COLOURS[standing];
      for (let lane = this.fromLane; lane <= this.toLane; lane++) {
        if (!layout.folded.has(lane)) this.drawRunsOf(layout.eventsIn[lane], lane, standing);
      }
    }
  }

  drawRunsOf(events, lane, standing) {
    const { layout, context, standings, scale } = this, wide = Math.max(1.5, Math.min(4, scale * 0.6));
    const half = Math.max(1, Math.min(5, this.laneHeight / 3)), y = this.y(lane);
    const thin = Math.max(1, half * 0.6), top = standing === PAST ? y : standing === CONCURRENT ? y - thin / 2 : y - half;
    const high = standing === 0 || standing === ITSELF ? 2 * half : standing === CONCURRENT ? thin : half;
    let from = 0, to = -10;
    for (let place = layout.placeInLane(lane, this.fromTime); place < events.length; place++) {
      const event = events[place], time = layout.times[event];
      if (time > this.toTime) break;
      if (standings !== null && standings[event] !== standing) continue;
      const x = (time - this.left) * scale - wide / 2;
      if (x > to + 2) {
        if (to > from) context.fillRect(from, top, to - from, high);
        from = x;
      }
      to = x + wide;
    }
    if (to > from) context.fillRect(from, top, to - from, high);
  }

  /** Draws broad lines along the events of each chain, as their edges go. */
  drawChains() {
    const { context, layout } = this, { tasks, taskOf } = layout.trace;
    context.beginPath();
    for (const [first, ...rest] of this.chains) {
      let from = first;
      context.moveTo(this.x(layout.times[first]), this.y(layout.lane(first)));
      for (const event of rest) {
        const lane = layout.lane(event), isStart = tasks[taskOf[event]].started === from;
        const to = isStart ? layout.from[taskOf[event]] : layout.times[event];
        const bend = this.isNear ? this.bendBetween([layout.times[from], layout.lane(from)], [to, lane]) : null;
        if (bend !== null) context.lineTo(...bend);
        context.lineTo(this.x(to), this.y(lane));
        if (isStart) context.lineTo(this.x(layout.times[event]), this.y(lane));
        from = event;
      }
    }
    context.lineWidth = Math.max(5, Math.min(10, this.radius * 1.6));
    context.strokeStyle = palette.chain;
    context.globalAlpha = 0.5;
    context.stroke();
    context.globalAlpha = 1;
  }

  /** Puts a ring around each event that races; far off, a tick above it. */
  drawRacing(count) {
    const { context, layout, marks, racing } = this, high = Math.min(10, this.laneHeight / 3);
    if (racing.size === 0) return;
    context.beginPath();
    for (let place = 0; place < count; place++) {
      if (!racing.has(marks[place])) continue;
      const x = this.x(layout.times[marks[place]]), y = this.y(layout.lane(marks[place]));
      if (this.isNear) addDisc(context, x, y, Math.max(5, this.radius * 1.5));
      else context.rect(x - 1.5, y - high - 6, 3, 6);
    }
    context.fillStyle = palette.race;
    if (!this.isNear) {
      context.fill();
      return;
    }
    // Beneath it lies a broader ring of the paper: the colours of races and of some standings are near each other.
    for (const [width, colour] of [[5, palette.paper], [2, palette.race]]) {
      context.lineWidth = width;
      context.strokeStyle = colour;
      context.stroke();
    }
  }

  /** Joins the two events of a race by a line of dashes. */
  drawPair() {
    const { context, layout, chosen, other } = this;
    if (!this.isRace || chosen === 0 || other === 0) return;
    const [fromX, toX] = [chosen, other].map((event) => this.x(layout.times[event]));
    const [fromY, toY] = [chosen, other].map((event) => this.y(layout.lane(event)));
    const length = Math.hypot(toX - fromX, toY - fromY), aside = Math.max(6, this.radius * 2.3) / Math.max(1, length);
    if (aside > 0.5) return;
    context.beginPath();
    context.moveTo(fromX + (toX - fromX) * aside, fromY + (toY - fromY) * aside);
    context.lineTo(toX - (toX - fromX) * aside, toY - (toY - fromY) * aside);
    context.lineWidth = 2.5;
    context.strokeStyle = palette.race;
    context.setLineDash([7, 5]);
    context.stroke();
    context.setLineDash([]);
  }

  drawChosen() {
    const { context, layout } = this;
    for (const event of [this.chosen, this.other]) {
      if (event === 0) continue;
      context.beginPath();
      context.arc(this.x(layout.times[event]), this.y(layout.lane(event)), Math.max(6, this.radius * 2.3), 0, 7);
      context.lineWidth = 2.5;
      context.strokeStyle = this.isRace ? palette.race : COLOURS[ITSELF];
      context.setLineDash(event === this.chosen ? [] : [4, 3]);
      context.stroke();
    }
    context.setLineDash([]);
  }
};
