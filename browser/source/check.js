// Comparing the stamps with the edges

const MOST_KEPT_NODES = 10000000, STEPS_BETWEEN_LOOKS = 20000, REST_BETWEEN_WORDS = 80;

/** A tree of its own, copied from where it was read: `low`, `high` and `end` as there. */
function keptTree(reader) {
  const { size, low, high } = reader;
  const List = reader === narrowStamps && high[0] < 2 ** 31 ? Int32Array : low.constructor;
  return { size, low: new List(low.subarray(0, size)), high: new List(high.subarray(0, size)), end: reader.end.slice(0, size) };
}

/** Whether the one tree is at no point the greater one, from these nodes on. */
function isBelow(one, node, other, otherNode) {
  if (one.high[node] <= other.low[otherNode]) return true;
  if (one.high[node] > other.high[otherNode] || one.low[node] > other.low[otherNode]) return false;
  if (isLeaf(one, node) && isLeaf(other, otherNode)) return false;
  return isBelow(one, halfOf(one, node, 0), other, halfOf(other, otherNode, 0))
    && isBelow(one, halfOf(one, node, 1), other, halfOf(other, otherNode, 1));
}

function isLeaf(tree, node) {
  return tree.end[node] === node + 1;
}

/** The node of the left half or of the right one; a leaf is both. */
function halfOf(tree, node, half) {
  return isLeaf(tree, node) ? node : half === 0 ? node + 1 : tree.end[node + 1];
}

/** Finds a point where the tree is greater than both others, as halves, 1 for right; a point goes on left for ever. */
function pointAbove(tree, node, one, oneNode, other, otherNode, point) {
  const most = tree.high[node];
  if (most <= one.low[oneNode] || most <= other.low[otherNode]) return false;
  if (isLeaf(tree, node) && isLeaf(one, oneNode) && isLeaf(other, otherNode)) return true;
  for (let half = 0; half < 2; half++) {
    const inner = halfOf(tree, node, half), oneInner = halfOf(one, oneNode, half), otherInner = halfOf(other, otherNode, half);
    point.push(half);
    if (pointAbove(tree, inner, one, oneInner, other, otherInner, point)) return true;
    point.pop();
  }
  return false;
}

function valueAt(tree, point) {
  let node = 0;
  for (let level = 0; !isLeaf(tree, node); level++) node = halfOf(tree, node, level < point.length ? point[level] : 0);
  return tree.low[node];
}

const BELOW_ALL = { size: 1, low: [-1], high: [-1], end: [1] };

/** Finds the first event whose stamp is none, or whose tree does not compare with that of some earlier one as the edges say. It
 * compares few pairs: what is below an event is below each that follows it. And a point that an event raised above all that it
 * follows mostly tells that it is not below another. */
class StampCheck {
  constructor(trace) {
    this.trace = trace;
    this.kept = new Map();
    this.nodes = 0;
    this.points = [null];
    this.values = [0];
    this.ends = [];
    this.steps = 0;
  }

  /** The tree of the event's stamp, kept for the next time; null where its stamp is none. */
  tree(event) {
    return this.kept.get(event) ?? this.keep(event, this.trace.stampReader(event));
  }

  keep(event, reader) {
    if (reader === null) return null;
    const tree = keptTree(reader);
    if (this.nodes + tree.size > MOST_KEPT_NODES) {
      this.kept.clear();
      this.nodes = 0;
    }
    this.kept.set(event, tree);
    this.nodes += tree.size;
    this.steps += tree.size;
    return tree;
  }

  forget(event) {
    this.nodes -= this.kept.get(event)?.size ?? 0;
    this.kept.delete(event);
  }

  /** Whether the one event's tree is below the other's. */
  below(one, other) {
    const otherTree = this.tree(other), point = this.points[one];
    this.steps += 20;
    if (point !== null) {
      this.steps += point.length;
      if (this.values[one] > valueAt(otherTree, point)) return false;
    }
    const tree = this.tree(one);
    this.steps += tree.size;
    return isBelow(tree, 0, otherTree, 0);
  }

  /** Yields the number of events that are right so far, now and then; and ends with the fault, or null. */
  *run() {
    const { trace } = this;
    for (let event = 1; event <= trace.events; event++) {
      if (this.tree(event) === null) return new Fault(event + this.trace.ahead(), 5);
      const isRight = yield* this.compares(event);
      if (!isRight) return new Fault(event + this.trace.ahead(), 6);
    }
    return trace.fault;
  }

  *compares(event) {
    const preds = this.trace.preds(event), point = [];
    const [one = BELOW_ALL, other = BELOW_ALL] = preds.map((pred) => this.tree(pred)), tree = this.tree(event);
    const isFound = pointAbove(tree, 0, one, 0, other, 0, point);
    this.points.push(isFound ? Uint8Array.from(point) : null);
    this.values.push(isFound ? valueAt(tree, point) : 0);
    if (!preds.every((pred) => this.below(pred, event))) return false;
    for (const end of this.ends) {
      if (this.below(event, end)) return false;
      if (this.isTime()) yield event - 1;
    }
    for (const other of this.firstOutside(event)) {
      if (this.below(other, event)) return false;
      if (this.isTime()) yield event - 1;
    }
    if (this.isTime()) yield event;
    this.ends = this.ends.filter((end) => !preds.includes(end));
    this.ends.push(event);
    preds.forEach((pred) => this.forget(pred));
    return true;
  }

  isTime() {
    if (this.steps < STEPS_BETWEEN_LOOKS) return false;
    this.steps = 0;
    return true;
  }

  /** The earlier events that do not reach this one but follow only such as do. */
  firstOutside(event) {
    const { rows, rowAt, first, second } = this.trace, found = [], at = rowAt[event], lastWord = (event - 1) >> 5;
    const isInside = (pred) => pred === 0 || (rows[at + (pred >> 5)] >>> (pred & 31) & 1) === 1;
    for (let word = 0; word <= lastWord; word++) {
      let outside = ~rows[at + word];
      if (word === 0) outside &= ~1;
      while (outside !== 0) {
        const other = (word << 5) + 31 - Math.clz32(outside & -outside);
        outside &= outside - 1;
        if (other < event && isInside(first[other]) && isInside(second[other])) found.push(other);
      }
    }
    this.steps += lastWord;
    return found;
  }
}

/** The check of a trace by a worker of the page's own script. It tells how many lines are compared, and at last the fault or null. */
class CheckingWorker {
  constructor(tell, fail) {
    const address = URL.createObjectURL(new Blob([SOURCE], { type: "text/javascript" }));
    this.worker = new Worker(CheckingWorker.trusted(address));
    this.worker.onmessage = ({ data }) => tell(data);
    this.worker.onerror = (event) => {
      event.preventDefault();
      fail();
    };
  }

  /** The address, as the page's policy wants it. Only that of a worker that this class makes is taken. */
  static trusted(address) {
    if (!self.trustedTypes) return address;
    this.address = address;
    this.policy ??= self.trustedTypes.createPolicy("worker", {
      createScriptURL: (asked) => {
        if (asked !== this.address) throw new TypeError("this is no worker of the page");
        return asked;
      },
    });
    return this.policy.createScriptURL(address);
  }

  check(trace) {
    this.worker.postMessage({ bytes: trace.bytes, stamps: trace.packed?.bytes ?? null });
  }

  end() {
    this.worker.terminate();
  }
}

/** What the worker does: it reads the export anew, and compares its stamps to the end. */
function checkInWorker({ bytes, stamps }) {
  const trace = readExport(bytes);
  if (stamps !== null) trace.packed = new PackedStamps(stamps);
  trace.close();
  const checking = new StampCheck(trace).run();
  let last = performance.now();
  for (;;) {
    const { done, value } = checking.next();
    if (done) {
      self.postMessage({ isDone: true, fault: value === null ? null : { line: value.line, reason: value.reason } });
      return;
    }
    if (performance.now() - last < REST_BETWEEN_WORDS) continue;
    last = performance.now();
    self.postMessage({ isDone: false, compared: value });
  }
}
