// What is in view

/** Finds what is in view, and what is at a place of it. */
const Looking = (Base) => class extends Base {
  /** The lanes in view, and the times a little beyond it. */
  findRange() {
    const { layout } = this, beyond = 14 / this.scale;
    this.fromLane = Math.max(0, layout.laneAt(this.lanesAt(this.head - 20)));
    this.toLane = Math.min(layout.lanes - 1, layout.laneAt(this.lanesAt(this.height)));
    this.fromTime = this.left - beyond;
    this.toTime = this.left + this.width / this.scale + beyond;
  }

  /** Leaves the events in view in `marks`, but those of folds, and gives how many there are. */
  findMarks() {
    const { layout, marks } = this;
    let count = 0;
    for (let lane = this.fromLane; lane <= this.toLane; lane++) {
      if (layout.folded.has(lane)) continue;
      const events = layout.eventsIn[lane];
      for (let place = layout.placeInLane(lane, this.fromTime); place < events.length; place++) {
        if (layout.times[events[place]] > this.toTime) break;
        marks[count++] = events[place];
      }
    }
    return count;
  }

  /** Leaves the edges in view in `edges`, those with an end in view first, and gives how many there are of them and in all. */
  findEdges() {
    const { layout, edges } = this, count = layout.edgeTo.length;
    let near = 0, far = edges.length;
    for (let block = 0; block < layout.blockTo.length; block++) {
      if (layout.blockFrom[block] > this.toTime || layout.blockTo[block] < this.fromTime) continue;
      for (let edge = block * BLOCK; edge < Math.min(count, (block + 1) * BLOCK); edge++) {
        const side = this.sideOf(edge);
        if (side === 2) edges[near++] = edge;
        if (side === 1) edges[--far] = edge;
      }
    }
    this.nearEdges = near;
    this.farEdges = far;
  }

  /** 2 where an end of the edge is in view, 1 where only its middle may be, else 0. */
  sideOf(edge) {
    const { layout } = this, from = layout.edgeFrom[edge], to = layout.edgeTo[edge];
    const fromLane = layout.edgeFromLane[edge], toLane = layout.edgeToLane[edge];
    if (Math.min(from, to) > this.toTime || Math.max(from, to) < this.fromTime) return 0;
    if (Math.max(fromLane, toLane) < this.fromLane || Math.min(fromLane, toLane) > this.toLane) return 0;
    const isIn = (time, lane) => time >= this.fromTime && time <= this.toTime && lane >= this.fromLane && lane <= this.toLane;
    return isIn(from, fromLane) || isIn(to, toLane) ? 2 : 1;
  }

  /** The message whose arrow is nearest to this place, as the event that receives it, or 0 where none is near. */
  receiptAt(atX, atY, within) {
    if (this.layout === null) return 0;
    const { layout, edges } = this;
    let nearest = 0, least = within;
    for (let place = 0; place < this.nearEdges; place++) {
      const edge = edges[place];
      if (layout.edgeKinds[edge] !== MESSAGE_EDGE) continue;
      const fromX = this.x(layout.edgeFrom[edge]), fromY = this.y(layout.edgeFromLane[edge]);
      const byX = this.x(layout.edgeTo[edge]) - fromX, byY = this.y(layout.edgeToLane[edge]) - fromY;
      const part = Math.max(0, Math.min(1, ((atX - fromX) * byX + (atY - fromY) * byY) / Math.max(1, byX * byX + byY * byY)));
      const distance = Math.hypot(fromX + part * byX - atX, fromY + part * byY - atY);
      if (distance < least) [nearest, least] = [layout.edgeEvents[edge], distance];
    }
    return nearest;
  }

  /** The lane at this height, or -1. */
  laneNear(atY, within = 20) {
    if (this.layout === null || atY < this.head) return -1;
    const { layout } = this, lane = Math.min(layout.lanes - 1, layout.laneAt(this.lanesAt(atY)));
    return lane < 0 || Math.abs(this.y(lane) - atY) > Math.max(within, 0) ? -1 : lane;
  }

  /** The task in whose lane this place is, or -1. */
  taskAt(atX, atY) {
    const lane = this.laneNear(atY), { layout } = this, time = this.left + atX / this.scale;
    if (lane < 0) return -1;
    const place = layout.tasksIn[lane][layout.taskInLane(lane, time)];
    const isThere = place !== undefined && layout.from[place] <= time && time <= Math.min(layout.to[place], layout.last[place] + 60 / this.scale);
    return isThere ? place : -1;
  }

  /** The fold at this place, or null. */
  foldAt(atX, atY) {
    const place = this.taskAt(atX, atY);
    return place < 0 ? null : this.layout.folded.get(this.layout.laneOf[place]) ?? null;
  }

  /** The event nearest to this place, or 0 where none is near. */
  eventAt(atX, atY, within) {
    if (this.layout === null || this.layout.lanes === 0) return 0;
    const { layout } = this, middle = layout.laneAt(this.lanesAt(atY)), lanes = Math.ceil(within / this.high);
    let nearest = 0, least = within;
    for (let lane = Math.max(0, middle - lanes); lane <= Math.min(layout.lanes - 1, middle + lanes); lane++) {
      if (layout.folded.has(lane)) continue;
      const events = layout.eventsIn[lane], place = layout.placeInLane(lane, this.left + atX / this.scale);
      for (const event of [events[place - 1], events[place]]) {
        if (event === undefined) continue;
        const distance = Math.hypot(this.x(layout.times[event]) - atX, this.y(lane) - atY);
        if (distance < least) [nearest, least] = [event, distance];
      }
    }
    return nearest;
  }
};
