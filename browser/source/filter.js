// What is shown

/** Which events and tasks are shown, and how their lanes are grouped. Without anything set it shows all. */
class Filter {
  constructor() {
    this.events = null;
    this.tasks = null;
    this.groups = null;
    this.lanes = null;
    this.folded = new Set();
    this.families = null;
    this.mostLanes = Infinity;
    this.kept = new Set();
    this.opened = new Set();
    this.closed = new Set();
    this.own = null;
    this.aside = new Set();
  }

  shows(event) {
    return this.events === null || this.events[event] === 1;
  }

  showsTask(place) {
    return this.tasks === null || this.tasks[place] === 1;
  }

  /** Whether a task has no lane, since it is of the tool itself and nobody has chosen it. */
  isAside(place) {
    return this.aside.has(place) && !this.kept.has(place) && this.lanes === null;
  }

  groupOf(place) {
    return this.groups === null ? "" : this.groups[place];
  }

  /** Whether a task stands in a lane of its own whatever is folded: it races, it is chosen, or somebody opened its family. */
  keepsOpen(place) {
    return this.kept.has(place) || this.opened.has(this.families.keys[place]);
  }

  /** Whether the event is of the tool itself, and not of the program. */
  isOwn(event) {
    return this.own !== null && this.own[event] === 1;
  }
}

/** The filter of a trace, as it is asked for. The events to keep are shown whatever is asked. */
function filterOf(trace, { hidesLocal, hidesUnshared, within, around, keeps, shared, groups, folded, folds = {} }) {
  const filter = new Filter();
  Object.assign(filter, { groups, folded: groups === null ? new Set() : folded }, folds);
  if (!hidesLocal && !hidesUnshared && within === 0) return filter;
  const events = filter.events = new Uint8Array(trace.events + 1).fill(1), near = within > 0 ? eventsWithin(trace, around, within) : null;
  const tasks = filter.tasks = new Uint8Array(trace.tasks.length).fill(1), { taskOf } = trace, kept = new Set(keeps);
  const keptTasks = new Set(keeps.map((event) => taskOf[event]));
  if (hidesUnshared) trace.tasks.forEach((task, place) => tasks[place] = shared.has(place) || keptTasks.has(place) ? 1 : 0);
  for (let event = 1; event <= trace.events; event++) {
    const isHidden = tasks[taskOf[event]] === 0 || (hidesLocal && trace.kinds[event] === LOCAL) || (near !== null && !near.has(event));
    events[event] = isHidden && !kept.has(event) ? 0 : 1;
  }
  if (near === null) return filter;
  tasks.fill(0);
  for (let event = 1; event <= trace.events; event++) if (events[event] === 1) tasks[taskOf[event]] = 1;
  return filter;
}

/** The events from which or to which a way of at most so many edges leads. */
function eventsWithin(trace, around, within) {
  const found = new Set(around);
  for (const next of [(event) => trace.preds(event), (event) => trace.followersOf(event)]) {
    const seen = new Set(around);
    let wave = around;
    for (let edges = 0; edges < within && wave.length > 0; edges++) {
      wave = [...new Set(wave.flatMap(next))].filter((event) => !seen.has(event));
      for (const event of wave) seen.add(event);
    }
    for (const event of seen) found.add(event);
  }
  return found;
}

const LEAST_FAMILY = 4;

/** A name without the number behind it, by which a tool tells tasks of one function apart. */
const stemOf = (name) => name.replace(/_[0-9]+$/, "");

/** Which tasks are of one family: the same line of the program started them, and their names differ by a number alone. Of each family
 * the name that they have in common. Without a journal no line is known. */
function familiesOf(trace, labels, groups) {
  const titles = new Map();
  const keys = trace.tasks.map(({ name, started }, place) => {
    if (started === 0) return null;
    const [line] = labels.get(started)?.lines ?? [], parent = stemOf(trace.taskName(started)), stem = stemOf(name);
    const key = [groups?.[place] ?? "", line?.source || parent, stem].join(" ");
    titles.set(key, stem);
    return key;
  });
  return { keys, titles };
}
