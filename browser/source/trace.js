// The graph of the events

const PAST = 1, FUTURE = 2, CONCURRENT = 3, ITSELF = 4, MOST_AT_HAND = 2000;

/** The events of an export with their edges, tasks and messages. Events are known by number, from 1; 0 is none. */
class Trace {
  constructor(bytes, most) {
    const list = () => new Int32Array(most + 2);
    this.bytes = bytes;
    this.packed = null;
    this.header = null;
    this.fault = null;
    this.events = this.edges = 0;
    this.kinds = new Uint8Array(most + 2);
    this.taskOf = list();
    this.nameOf = new Array(most + 2).fill("-");
    this.first = list();
    this.second = list();
    this.stampFrom = list();
    this.stampTo = list();
    this.escapedStamps = new Map();
    this.previous = list();
    this.following = list();
    this.tasks = [];
    this.taskPlaces = new Map();
    this.messages = new Map();
    this.rowAt = list();
    this.rows = new Uint32Array(0);
  }

  task(name) {
    let place = this.taskPlaces.get(name);
    if (place === undefined) {
      place = this.tasks.length;
      this.taskPlaces.set(name, place);
      this.tasks.push({ name, started: 0, first: 0, last: 0, ended: 0, joined: 0, isOver: false });
    }
    return place;
  }

  message(name) {
    let message = this.messages.get(name);
    if (message === undefined) {
      message = { name, sent: 0, receipts: [] };
      this.messages.set(name, message);
    }
    return message;
  }

  /** How many lines come before those of events. */
  ahead() {
    return this.header === null ? 0 : 1;
  }

  /** Adds the next event. */
  add({ kind, name, task, preds, stamp }) {
    const event = this.events + 1;
    const spelled = stamp.said === null ? this.bytes : new TextEncoder().encode(stamp.said);
    const [from, to] = stamp.said === null ? [stamp.from, stamp.to] : [0, spelled.length];
    if (stamp.said !== null) this.escapedStamps.set(event, spelled);
    this.events = event;
    this.edges += preds.length;
    this.kinds[event] = kind;
    this.nameOf[event] = name;
    [this.first[event], this.second[event]] = [preds[0] ?? 0, preds[1] ?? 0];
    [this.stampFrom[event], this.stampTo[event]] = [from, to];
    this.noteTask(event, this.task(task));
    this.noteName(event, kind, name);
  }

  noteTask(event, place) {
    const task = this.tasks[place];
    this.taskOf[event] = place;
    this.previous[event] = task.last;
    this.following[task.last] = event;
    if (task.first === 0) task.first = event;
    task.last = event;
    if (this.kinds[event] === END && task.ended === 0) task.ended = event;
  }

  noteName(event, kind, name) {
    if (kind === SPAWN || kind === JOIN) {
      const other = this.tasks[this.task(name)];
      if (kind === SPAWN && other.started === 0 && other.first === 0) other.started = event;
      if (kind === JOIN && other.joined === 0) other.joined = event;
    }
    if (kind === SEND) this.message(name).sent ||= event;
    if (kind === RECV) this.message(name).receipts.push(event);
  }

  preds(event) {
    return [this.first[event], this.second[event]].filter((pred) => pred > 0);
  }

  /** The bytes in which the event's stamp stands, from where to where. */
  stampPlace(event) {
    const line = event + this.ahead();
    if (this.packed?.has(line)) {
      const text = this.packed.textOf(line);
      return [text, 0, text.length];
    }
    return [this.escapedStamps.get(event) ?? this.bytes, this.stampFrom[event], this.stampTo[event]];
  }

  /** Whether the event's stamp can be told at once. */
  isAtHand(event) {
    return this.packed === null || this.packed.waitingFor(event + this.ahead()).length <= MOST_AT_HAND;
  }

  stampReader(event) {
    return stampBetween(...this.stampPlace(event));
  }

  stamp(event) {
    const [bytes, from, to] = this.stampPlace(event);
    return utf8.decode(bytes.subarray(from, to));
  }

  taskName(event) {
    return this.tasks[this.taskOf[event]].name;
  }

  /** How many events the task has. */
  eventsOf(place) {
    let count = 0;
    for (let event = this.tasks[place].last; event > 0; event = this.previous[event]) count++;
    return count;
  }

  /** Puts together a set of bits for each event, those of the events that reach it, and who follows whom. */
  close() {
    const { events, rowAt, first, second } = this;
    for (let event = 1; event <= events; event++) rowAt[event + 1] = rowAt[event] + (event >> 5) + 1;
    const rows = this.rows = new Uint32Array(rowAt[events + 1]);
    for (let event = 1; event <= events; event++) {
      this.mergeRow(event, first[event]);
      this.mergeRow(event, second[event]);
      rows[rowAt[event] + (event >> 5)] |= 1 << (event & 31);
    }
    this.listFollowers();
  }

  mergeRow(event, pred) {
    if (pred === 0) return;
    const { rows, rowAt } = this, from = rowAt[pred], to = rowAt[event], words = (pred >> 5) + 1;
    for (let word = 0; word < words; word++) rows[to + word] |= rows[from + word];
  }

  listFollowers() {
    const { events, first, second } = this, at = this.followersAt = new Int32Array(events + 2);
    for (let event = 1; event <= events; event++) {
      at[first[event] + 1]++;
      at[second[event] + 1]++;
    }
    at[1] = 0;
    for (let event = 1; event <= events; event++) at[event + 1] += at[event];
    const filled = at.slice(), list = this.followers = new Int32Array(at[events + 1]);
    for (let event = 1; event <= events; event++) {
      for (const pred of this.preds(event)) list[filled[pred]++] = event;
    }
  }

  followersOf(event) {
    return [...this.followers.subarray(this.followersAt[event], this.followersAt[event + 1])];
  }

  /** Whether a way along the edges leads back from the later event to the earlier one, or they are one. */
  reaches(earlier, later) {
    return earlier <= later && (this.rows[this.rowAt[later] + (earlier >> 5)] >>> (earlier & 31) & 1) === 1;
  }

  /** How each event stands to this one: PAST, FUTURE, CONCURRENT or ITSELF. */
  standings(event) {
    const standings = new Uint8Array(this.events + 1);
    for (let other = 1; other < event; other++) standings[other] = this.reaches(other, event) ? PAST : CONCURRENT;
    standings[event] = ITSELF;
    for (let other = event + 1; other <= this.events; other++) {
      standings[other] = this.reaches(event, other) ? FUTURE : CONCURRENT;
    }
    return standings;
  }

  /** The last event of the task up to this one by which it has to do with other tasks, or the event that started it; 0 if there is
   * none. */
  synchronizationBefore(event) {
    for (let at = event; at > 0; at = this.previous[at]) if (this.kinds[at] !== LOCAL) return at;
    return this.tasks[this.taskOf[event]].started;
  }

  /** The first event of the task from this one on by which it has to do with other tasks, or 0. */
  synchronizationAfter(event) {
    let at = event;
    while (at > 0 && this.kinds[at] === LOCAL) at = this.following[at];
    return at;
  }

  /** The latest event that happened before both, or 0. */
  latestBeforeBoth(one, other) {
    let event = Math.min(one, other) - 1;
    while (event > 0 && !(this.reaches(event, one) && this.reaches(event, other))) event--;
    return event;
  }

  /** A shortest way along the edges from the earlier event to the later one, which it reaches. */
  shortestChain(earlier, later) {
    const following = new Map([[later, 0]]), chain = [];
    for (let wave = [later]; !following.has(earlier);) {
      const next = [];
      for (const event of wave) {
        for (const pred of this.preds(event)) {
          if (following.has(pred) || !this.reaches(earlier, pred)) continue;
          following.set(pred, event);
          next.push(pred);
        }
      }
      wave = next;
    }
    for (let event = earlier; event > 0; event = following.get(event)) chain.push(event);
    return chain;
  }

  order(one, other) {
    if (one === other) return "same";
    if (this.reaches(one, other)) return "before";
    return this.reaches(other, one) ? "after" : "concurrent";
  }
}
