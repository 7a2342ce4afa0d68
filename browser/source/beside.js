// Another run beside

/** Which event of a run is which of another: of a task of the same name the one with the same label, or the same deed, counted
 * from the first. */
class Counterparts {
  constructor(trace, labels) {
    this.keys = [""];
    this.events = new Map();
    const counts = new Map();
    for (let event = 1; event <= trace.events; event++) {
      const { lines = [] } = labels.get(event) ?? {}, [line] = lines;
      const words = line === undefined ? `${trace.kinds[event]} ${trace.nameOf[event]}` : `${line.label} ${line.source}`;
      const key = `${trace.taskName(event)} ${words}`, count = (counts.get(key) ?? 0) + 1;
      counts.set(key, count);
      this.keys.push(`${count} ${key}`);
      this.events.set(this.keys[event], event);
    }
  }

  /** The event of the other run that this one's event is, or 0. */
  of(event, others) {
    return others.events.get(this.keys[event]) ?? 0;
  }
}

/** Another run below the first one: its lanes stand as those of the same names do, and it moves with the first. */
class Beside {
  constructor(page) {
    this.page = page;
    this.view = new View(at("besideCanvas"));
    this.labels = this.view.labelsOfEvents;
    this.trace = this.worker = null;
  }

  openFile(file) {
    file.arrayBuffer().then((buffer) => this.openBytes(new Uint8Array(buffer), file.name), () => {
      tell(`${file.name} cannot be read.`);
    });
  }

  /** Opens an export beside the one that is shown, or the journal of the one beside. */
  openBytes(bytes, name) {
    if (this.trace !== null && isJournal(bytes)) {
      this.openLabels(new TextDecoder().decode(bytes));
      this.changed();
      return;
    }
    const trace = readExport(bytes);
    this.leave();
    this.name = name;
    if (trace.fault !== null) {
      at("aboutBeside").hidden = false;
      at("aboutBeside").replaceChildren(element("p", {}, `${name}: ${wordsOfFault(trace.fault)}`));
      return;
    }
    trace.close();
    this.trace = trace;
    this.show(true);
    this.changed();
    this.check(trace);
  }

  /** Takes the labels and the times of a journal. */
  openLabels(text) {
    const wall = new WallTimes(), { trace, labels } = this;
    for (const row of text.split("\n").map(objectIn)) {
      if (row === null) continue;
      wall.note(row);
      addLabel(labels, labelOf(row, trace.events));
    }
    const clocks = new Clocks(trace, wall, trace.tasks.map(() => "root"));
    this.view.times = clocks.names.length > 0 ? clocks.times : null;
  }

  check(trace) {
    this.verdict = "Not yet checked.";
    const tellIf = (words) => {
      if (this.trace !== trace) return;
      this.verdict = words;
      this.describe();
    };
    try {
      this.worker = new CheckingWorker(({ isDone, fault }) => {
        if (isDone) tellIf(fault === null ? checkedWords(trace) : wordsOfFault(fault));
      }, () => tellIf("Not checked: no worker can be made."));
      this.worker.check(trace);
    } catch {
      tellIf("Not checked: no worker can be made.");
    }
  }

  leave() {
    this.worker?.end();
    this.worker = this.trace = this.view.layout = this.view.times = null;
    this.verdict = "";
    this.labels.clear();
    this.show(false);
    at("aboutBeside").hidden = true;
  }

  show(isShown) {
    at("beside").hidden = !isShown;
    at("besideName").textContent = isShown ? this.name : "";
    at("stage").classList.toggle("double", isShown);
    this.page.view?.resize();
    this.view.resize();
  }

  /** Lays both runs out anew. */
  changed() {
    this.page.useLayout(true);
    this.page.describeChosen();
  }

  /** The lane of each name of a task in either run, or null without a run beside. */
  lanes() {
    if (this.trace === null) return null;
    const { page, trace } = this, lanes = new Map();
    for (const { tasks } of [page.trace, trace]) {
      for (const { name, started, first } of tasks) if ((started > 0 || first > 0) && !lanes.has(name)) lanes.set(name, lanes.size);
    }
    return lanes;
  }

  useLayout(time) {
    if (this.trace === null) return;
    const { view, page } = this, filter = new Filter(), first = page.view.layout;
    filter.lanes = this.lanes();
    view.layout = new Layout(this.trace, { axis: time === CLOCK ? CHAIN : time, filter });
    view.layout.columns = first.columns = Math.max(view.layout.columns, first.columns);
  }

  /** Shows the same part as the first run's picture. */
  follow() {
    if (this.trace === null || this.view.layout === null) return;
    const { left, top, scale, high } = this.page.view;
    Object.assign(this.view, { left, top, scale, high });
    this.view.draw();
  }

  /** Says which events of this run are those that are chosen in the first, and how they stand to each other. */
  describe() {
    const { page, view, trace } = this, section = at("aboutBeside");
    if (trace === null) return;
    const first = new Counterparts(page.trace, page.labels), own = new Counterparts(trace, this.labels);
    [view.chosen, view.other] = [page.view.chosen, page.view.other].map((event) => event > 0 ? first.of(event, own) : 0);
    view.standings = view.chosen > 0 ? trace.standings(view.chosen) : null;
    view.chains = page.chainsOf(view.chosen, view.other, trace);
    section.hidden = false;
    const told = `${counted(trace.events, "event")}. ${this.verdict}`;
    section.replaceChildren(element("h2", {}, `Beside: ${this.name}`), element("p", { id: "besideVerdict" }, told));
    for (const event of [page.view.chosen, page.view.other].filter((one) => one > 0)) {
      const same = first.of(event, own), time = view.times?.[same] ?? 0, when = time > 0 ? `, at ${utc(time)}` : "";
      const words = same > 0 ? `Event ${event} is event ${same} there${when}.` : `Event ${event} is not there.`;
      section.append(element("p", {}, words));
    }
    if (view.chosen > 0 && view.other > 0) {
      section.append(element("p", { id: "besideWords" }, page.orderWords(view.chosen, view.other, trace)));
    }
    view.ask();
  }
}
