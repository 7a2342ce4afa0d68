// Where everything stands

const LANE_EDGE = 0, SPAWN_EDGE = 1, MESSAGE_EDGE = 2, JOIN_EDGE = 3, OTHER_EDGE = 4;
const BLOCK = 64, HEADING = 0.4;
const CHAIN = "chain", NUMBER = "number", CLOCK = "clock";
const NARROW = 0.25, MOST_NARROW = 2.5, LEAST_GAP = 0.35, MOST_GAP = 4;

/** The kind of the edge from a predecessor to an event. */
function edgeKind(trace, pred, event) {
  if (trace.taskOf[pred] === trace.taskOf[event]) return LANE_EDGE;
  const kind = trace.kinds[event], predKind = trace.kinds[pred], name = trace.nameOf[event];
  if (trace.tasks[trace.taskOf[event]].started === pred) return SPAWN_EDGE;
  if (kind === RECV && predKind === SEND && trace.nameOf[pred] === name) return MESSAGE_EDGE;
  if (kind === JOIN && trace.taskName(pred) === name) return JOIN_EDGE;
  return OTHER_EDGE;
}

/** The last of these numbers, which increase, that is no greater: its place, or -1. */
function placeBelow(numbers, number) {
  let low = 0, high = numbers.length;
  while (low < high) {
    const middle = (low + high) >> 1;
    if (numbers[middle] <= number) low = middle + 1;
    else high = middle;
  }
  return low - 1;
}

/** An axis of wall-clock times: where each of them stands. A gap takes its share of the room, between a least and a most. */
class ClockAxis {
  constructor(times) {
    this.times = Float64Array.from(new Set(times)).sort();
    const gaps = this.times.slice(1).map((time, place) => time - this.times[place]).sort();
    this.unit = gaps[gaps.length >> 1] || 1;
    this.places = new Float64Array(this.times.length).fill(1);
    for (let at = 1; at < this.times.length; at++) {
      const gap = (this.times[at] - this.times[at - 1]) / this.unit;
      this.places[at] = this.places[at - 1] + Math.max(LEAST_GAP, Math.min(MOST_GAP, gap));
    }
  }

  /** Where a time stands, which may be between those of the events, or beyond them. */
  placeOf(time) {
    const { times, places, unit } = this, at = placeBelow(times, time), last = times.length - 1;
    if (at < 0) return places[0] - Math.min(MOST_GAP, (times[0] - time) / unit);
    if (at === last) return places[last] + Math.min(MOST_GAP, (time - times[last]) / unit);
    return places[at] + (places[at + 1] - places[at]) * (time - times[at]) / (times[at + 1] - times[at]);
  }
}

/** The place of each event in time, and of each task in a lane. Time is the length of the longest chain of predecessors, where
 * the event before it of the same task counts as one; or it is the event's number; or what the clock of its process told. */
class Layout {
  constructor(trace, { axis = CHAIN, filter = new Filter(), clocks = null } = {}) {
    this.trace = trace;
    this.filter = filter;
    this.axis = clocks === null && axis === CLOCK ? CHAIN : axis;
    this.clockAxis = null;
    this.listTasks();
    this.findSteps();
    if (this.axis === CLOCK) this.useClocks(clocks);
    this.findFolds();
    if (this.axis !== CLOCK) this.closeGaps();
    this.findSpans();
    this.giveLanes();
    this.listLanes();
    this.listEdges();
  }

  /** The tasks that are shown, in the order of their beginning. */
  listTasks() {
    const { trace } = this, begins = (place) => trace.tasks[place].started || trace.tasks[place].first;
    this.names = trace.tasks.map(({ name }) => name);
    this.ordered = trace.tasks.map((task, place) => place).filter((place) => begins(place) > 0 && this.showsTask(place));
    this.ordered.sort((one, other) => begins(one) - begins(other) || one - other);
  }

  showsTask(place) {
    return this.filter.showsTask(place) && !this.filter.isAside(place);
  }

  shows(event) {
    return this.filter.shows(event) && !this.filter.isAside(this.trace.taskOf[event]);
  }

  /** How many steps each event is from the beginning. */
  findSteps() {
    const { trace, axis } = this, { first, second, previous, events } = trace, steps = this.steps = new Int32Array(events + 2);
    for (let event = 1; event <= events; event++) {
      steps[event] = axis === NUMBER ? event : 1 + Math.max(steps[first[event]], steps[second[event]], steps[previous[event]]);
    }
    this.times = Float64Array.from(steps);
  }

  /** Places events by the clocks of their processes. One without a time stands where the last before it does. */
  useClocks(clocks) {
    const { trace, times } = this, seconds = new Float64Array(trace.events + 2);
    const least = clocks.times.reduce((one, time) => time > 0 ? Math.min(one, time) : one, Infinity);
    for (let event = 1; event <= trace.events; event++) {
      const before = Math.max(least, seconds[trace.previous[event]], ...trace.preds(event).map((pred) => seconds[pred]));
      seconds[event] = clocks.times[event] > 0 ? clocks.times[event] : before;
    }
    const shown = [];
    for (let event = 1; event <= trace.events; event++) if (this.shows(event)) shown.push(seconds[event]);
    this.clockAxis = new ClockAxis(shown.length > 0 ? shown : [least]);
    for (let event = 1; event <= trace.events; event++) times[event] = this.clockAxis.placeOf(seconds[event]);
    this.columns = this.clockAxis.places.at(-1);
  }

  /** Which tasks stand in the lane of a fold: those of a family, the largest families first, until the lanes fit. */
  findFolds() {
    const { filter, ordered } = this, { families, mostLanes } = filter, members = new Map();
    this.foldOf = new Array(this.trace.tasks.length).fill(null);
    if (filter.lanes !== null) return;
    for (const place of ordered) {
      const group = filter.groupOf(place);
      if (filter.folded.has(group)) this.foldOf[place] = `process ${group}`;
      else if (families !== null && families.keys[place] !== null && !filter.keepsOpen(place)) {
        const key = families.keys[place];
        members.set(key, members.get(key) ?? []).get(key).push(place);
      }
    }
    const sizes = new Map([...members].map(([key, { length }]) => [key, length]));
    const large = [...members].filter(([, places]) => places.length >= LEAST_FAMILY).sort((one, other) => other[1].length - one[1].length);
    let lanes = large.length === 0 ? 0 : this.countLanes();
    for (const [key, places] of large) {
      if (!filter.closed.has(key) && lanes <= mostLanes) continue;
      for (const place of places) this.foldOf[place] = key;
      lanes -= sizes.get(key) - 1;
    }
  }

  /** How many lanes all tasks need at most that are not folded. */
  countLanes() {
    this.findSpans();
    const { filter } = this, folded = new Set(this.foldOf.filter((key) => key !== null));
    const groups = new Map();
    this.ordered.forEach((place) => {
      const group = filter.groupOf(place);
      if (this.foldOf[place] === null) groups.set(group, groups.get(group) ?? []).get(group).push(place);
    });
    const lanes = new Int32Array(this.trace.tasks.length);
    return [...groups.values()].reduce((sum, places) => sum + this.giveLanesTo(places, lanes, 0), folded.size);
  }

  isFolded(place) {
    return this.foldOf[place] !== null;
  }

  /** Whether the event only has to do with what is folded, so that it may stand close to others. */
  isMinor(event) {
    const { trace } = this, kind = trace.kinds[event], name = trace.nameOf[event];
    if (this.filter.isOwn(event) || this.isFolded(trace.taskOf[event])) return true;
    if (kind === SPAWN || kind === JOIN) return this.isFolded(trace.taskPlaces.get(name));
    if (kind === RECV) return this.isFolded(trace.taskOf[trace.message(name).sent || event]);
    if (kind !== SEND) return false;
    const { receipts } = trace.message(name);
    return receipts.length > 0 && receipts.every((receipt) => this.isFolded(trace.taskOf[receipt]));
  }

  /** Leaves out the steps at which no event is shown, and narrows those that only have to do with what is folded. */
  closeGaps() {
    const { trace, steps } = this, weights = new Uint8Array(trace.events + 2), places = new Float64Array(trace.events + 2);
    this.minor = new Uint8Array(trace.events + 2);
    for (let event = 1; event <= trace.events; event++) {
      if (!this.shows(event)) continue;
      this.minor[event] = this.isMinor(event) ? 1 : 0;
      weights[steps[event]] = Math.max(weights[steps[event]], 2 - this.minor[event]);
    }
    const place = this.placeSteps(weights, places);
    for (let event = 1; event <= trace.events; event++) this.times[event] = Math.max(1, places[steps[event]]);
    this.columns = Math.max(1, place);
  }

  /** Places the steps one after the other. A run of narrow ones takes no more than a few whole ones together. Gives where the last one is. */
  placeSteps(weights, places) {
    let place = weights.find((weight) => weight > 0) === 1 ? 1 : 0, run = [];
    this.narrow = [];
    const placeRun = () => {
      const from = place, width = Math.min(NARROW, MOST_NARROW / run.length);
      for (const step of run) places[step] = place += width;
      if (run.length > 1 / NARROW) this.narrow.push({ from, to: place });
      run = [];
    };
    for (let step = 1; step < weights.length; step++) {
      if (weights[step] === 1) run.push(step);
      if (weights[step] < 2) continue;
      placeRun();
      places[step] = place += 1;
    }
    placeRun();
    for (let step = 1; step < weights.length; step++) if (weights[step] === 0) places[step] = places[step - 1];
    return place;
  }

  /** From when to when each task needs its lane. One that neither ended nor was joined needs it for ever, unless its process ended. */
  findSpans() {
    const { trace, times } = this, count = trace.tasks.length;
    this.from = new Float64Array(count);
    this.to = new Float64Array(count);
    this.last = new Float64Array(count);
    this.parents = new Int32Array(count).fill(-1);
    trace.tasks.forEach((task, place) => {
      const { started, first, last, ended, joined, isOver } = task, apart = first > 0 ? times[first] - times[started] : 1;
      this.from[place] = started > 0 ? times[started] + Math.max(0, Math.min(0.5, apart / 2)) : times[first];
      if (first > 0) this.from[place] = Math.min(this.from[place], times[first]);
      this.last[place] = Math.max(last > 0 ? times[last] : 0, this.from[place]);
      this.to[place] = ended > 0 || joined > 0 || isOver ? this.last[place] : Infinity;
      if (started > 0) this.parents[place] = trace.taskOf[started];
    });
  }

  /** The lanes of each process stand together, below its heading. */
  giveLanes() {
    const { trace, filter } = this, groups = [...new Set(this.ordered.map((place) => filter.groupOf(place)))];
    this.laneOf = new Int32Array(trace.tasks.length).fill(-1);
    this.lanes = 0;
    this.folded = new Map();
    this.headings = [];
    if (filter.lanes !== null) {
      for (const place of this.ordered) this.laneOf[place] = filter.lanes.get(trace.tasks[place].name);
      this.lanes = filter.lanes.size;
      this.tops = Float64Array.from({ length: this.lanes }, (_, lane) => lane);
      this.height = this.lanes;
      return;
    }
    const tops = [];
    let top = 0;
    groups.forEach((group, colour) => {
      const places = this.ordered.filter((place) => filter.groupOf(place) === group), from = this.lanes;
      if (groups.length > 1) this.headings.push({ group, colour, top, lane: from, count: places.length });
      if (groups.length > 1) top += HEADING;
      this.giveGroup(places);
      while (tops.length < this.lanes) tops.push(top++);
    });
    this.tops = Float64Array.from(tops);
    this.height = Math.max(1, top);
  }

  /** The lanes of a process: one for each fold, where its first task would stand. */
  giveGroup(places) {
    const folds = new Map();
    for (const place of places) {
      const key = this.foldOf[place];
      if (key !== null) folds.set(key, folds.get(key) ?? []).get(key).push(place);
    }
    const open = places.filter((place) => this.foldOf[place] === null), lanes = new Int32Array(this.laneOf.length);
    const count = this.giveLanesTo(open, lanes, 0);
    for (const place of open) this.laneOf[place] = this.lanes + lanes[place];
    this.lanes += count;
    for (const [key, members] of folds) this.fold(key, members);
  }

  /** Each task in turn gets a lane next to that of the task that started it. It gets the lane of another one only if it comes after
   * that one's end, by the order of the events: one behind the other in a lane means that. */
  giveLanesTo(places, lanes, beside) {
    const { trace, from, to, parents } = this, lastIn = [];
    const isFree = (place) => (lane) => {
      const before = lastIn[lane], { ended } = trace.tasks[before], { started, first } = trace.tasks[place];
      return ended > 0 && to[before] <= from[place] && trace.reaches(ended, started || first);
    };
    for (const place of places) {
      const near = parents[place] < 0 || this.foldOf[parents[place]] !== null ? beside : lanes[parents[place]];
      const lane = nearestFree(lastIn.length, near, isFree(place));
      lastIn[lane] = place;
      lanes[place] = lane;
    }
    return lastIn.length;
  }

  /** All tasks of a fold share a lane, which goes by the first of them. */
  fold(key, places) {
    const { families } = this.filter, [first] = places, isFamily = families !== null && families.keys[first] === key;
    const title = isFamily ? `${families.titles.get(key)} × ${places.length}` : `${key.slice("process ".length)}: ${counted(places.length, "task")}`;
    for (const place of places) this.laneOf[place] = this.lanes;
    this.to[first] = places.reduce((most, place) => Math.max(most, this.to[place]), 0);
    this.last[first] = places.reduce((most, place) => Math.max(most, this.last[place]), 0);
    this.names[first] = title;
    this.folded.set(this.lanes, { key, title, places });
    this.lanes++;
  }

  listLanes() {
    const { trace } = this;
    this.eventsIn = Array.from({ length: this.lanes }, () => []);
    this.tasksIn = Array.from({ length: this.lanes }, () => []);
    for (const place of this.ordered) {
      const lane = this.laneOf[place];
      if (!this.folded.has(lane) || this.tasksIn[lane].length === 0) this.tasksIn[lane].push(place);
    }
    for (const places of this.tasksIn) places.sort((one, other) => this.from[one] - this.from[other]);
    for (let event = 1; event <= trace.events; event++) if (this.shows(event)) this.eventsIn[this.lane(event)].push(event);
    const byTime = (one, other) => this.times[one] - this.times[other] || one - other;
    this.eventsIn = this.eventsIn.map((events) => Int32Array.from(events.sort(byTime)));
  }

  lane(event) {
    return this.laneOf[this.trace.taskOf[event]];
  }

  /** The lane at this height, in lanes from above; between two processes it is the one below. */
  laneAt(height) {
    const lane = placeBelow(this.tops, height);
    return lane >= 0 && height >= this.tops[lane] + 1 ? lane + 1 : Math.max(0, lane);
  }

  /** The edges between lanes, by where they begin; and of each block of them how far it goes. A task that was started and did
   * nothing has such an edge too, without an event at its end. Edges from or to a fold that are near one another are one, and counted. */
  listEdges() {
    const { trace, times, filter } = this, edges = [], bundles = new Map();
    let all = 0, shown = 0;
    const add = (kind, pred, event, place) => {
      if (filter.isAside(place) || filter.isAside(trace.taskOf[pred])) return;
      all++;
      const isShown = event === 0 || kind === SPAWN_EDGE || filter.shows(event);
      if (!isShown || !filter.shows(pred) || !filter.showsTask(place)) return;
      shown++;
      const edge = { kind, pred, event, place, count: 1 }, [fromFold, toFold] = [trace.taskOf[pred], place].map((one) => this.foldOf[one]);
      if (fromFold === null && toFold === null) {
        edges.push(edge);
        return;
      }
      const key = `${kind} ${this.lane(pred)} ${this.laneOf[place]} ${Math.floor(times[pred] / 2)} ${Math.floor(times[event || pred] / 2)}`;
      const bundle = bundles.get(key);
      if (bundle !== undefined) bundle.count++;
      else if (fromFold !== toFold) bundles.set(key, edges[edges.push(edge) - 1]);
    };
    trace.tasks.forEach((task, place) => {
      if (task.started > 0) add(SPAWN_EDGE, task.started, task.first, place);
    });
    for (let event = 1; event <= trace.events; event++) {
      for (const pred of trace.preds(event)) {
        const kind = edgeKind(trace, pred, event);
        if (kind !== LANE_EDGE && kind !== SPAWN_EDGE) add(kind, pred, event, trace.taskOf[event]);
      }
    }
    this.hiddenEdges = all - shown;
    this.keepEdges(edges);
  }

  keepEdges(edges) {
    const { times } = this, ends = (edge) => edge.kind === SPAWN_EDGE ? this.from[edge.place] : times[edge.event];
    const isBundle = ({ place }) => this.foldOf[place] !== null;
    const begins = ({ pred }) => times[pred], to = (edge) => isBundle(edge) ? Math.max(begins(edge), times[edge.event || edge.pred]) : ends(edge);
    edges.sort((one, other) => begins(one) - begins(other) || one.pred - other.pred || one.event - other.event);
    const list = (value) => Float64Array.from(edges, value);
    this.edgeKinds = list((edge) => edge.kind);
    this.edgePreds = Int32Array.from(edges, (edge) => edge.pred);
    this.edgeEvents = Int32Array.from(edges, (edge) => edge.event);
    this.edgeCounts = Int32Array.from(edges, (edge) => edge.count);
    this.edgeFrom = list(begins);
    this.edgeTo = list(to);
    this.edgeFromLane = list((edge) => this.lane(edge.pred));
    this.edgeToLane = list((edge) => this.laneOf[edge.place]);
    this.blockFrom = new Float64Array(Math.ceil(edges.length / BLOCK)).fill(Infinity);
    this.blockTo = new Float64Array(Math.ceil(edges.length / BLOCK));
    for (let edge = 0; edge < edges.length; edge++) {
      const block = Math.floor(edge / BLOCK), [least, most] = [this.edgeFrom[edge], this.edgeTo[edge]].sort((one, other) => one - other);
      this.blockFrom[block] = Math.min(this.blockFrom[block], least);
      this.blockTo[block] = Math.max(this.blockTo[block], most);
    }
  }

  /** The place in the lane of its first event that is not before this time. */
  placeInLane(lane, time) {
    const events = this.eventsIn[lane];
    let low = 0, high = events.length;
    while (low < high) {
      const middle = (low + high) >> 1;
      if (this.times[events[middle]] < time) low = middle + 1;
      else high = middle;
    }
    return low;
  }

  /** The place in the lane of its last task that begins no later than this time, or 0. */
  taskInLane(lane, time) {
    const places = this.tasksIn[lane];
    let low = 0, high = places.length;
    while (low < high) {
      const middle = (low + high) >> 1;
      if (this.from[places[middle]] <= time) low = middle + 1;
      else high = middle;
    }
    return Math.max(0, low - 1);
  }
}

/** The lane of so many that is free and nearest to this one, else a new one. */
function nearestFree(lanes, beside, isFree) {
  for (let apart = 0; apart < lanes; apart++) {
    if (beside + apart < lanes && isFree(beside + apart)) return beside + apart;
    if (apart > 0 && beside - apart >= 0 && beside - apart < lanes && isFree(beside - apart)) return beside - apart;
  }
  return lanes;
}
