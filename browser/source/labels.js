// Labels of events

/** Takes the labels and times of a journal. */
const WithLabels = (Base) => class extends Base {
  /** Takes the labels of a journal: a line of JSON for each event, or for each touch of one. A line that is none is passed over. */
  openLabels(text) {
    const { labels, trace } = this;
    labels.clear();
    this.processes = new Processes();
    const wall = new WallTimes();
    for (const row of text.split("\n").map(objectIn)) {
      if (row === null) continue;
      this.processes.note(row);
      wall.note(row);
      addLabel(this.labels, labelOf(row, trace.events));
    }
    for (const task of trace.tasks) task.isOver = this.processes.haveEnded(task.name);
    this.groupsOfTasks = this.familiesOfTasks = null;
    const processes = this.processes.begun.length > 0 ? this.groups() : trace.tasks.map(() => "root");
    this.useClocks(wall.times.size > 0 ? new Clocks(trace, wall, processes) : null);
    at("groups").checked = new Set(processes).size > 1;
    this.listFolds();
    this.findShared();
    this.findOwn();
    this.findMessages();
    this.layouts.clear();
    this.useLayout(true);
    this.describeTrace();
    this.describeChosen();
  }

  /** Finds the events of the tool itself, and those by which tasks of its own begin and end. */
  findOwn() {
    const { trace, labels } = this, own = this.own = new Uint8Array(trace.events + 1);
    const isTool = ({ name, started }) => isOwnName(name) && started > 0, isOwnTask = (name) => isTool(trace.tasks[trace.taskPlaces.get(name)]);
    const ends = this.deadEnds();
    this.ownTasks = new Set(trace.tasks.flatMap((task, place) => isTool(task) && ends.has(place) ? [place] : []));
    for (let event = 1; event <= trace.events; event++) {
      const kind = trace.kinds[event], { lines = [] } = labels.get(event) ?? {};
      const namesOwn = (kind === SPAWN || kind === JOIN) && isOwnTask(trace.nameOf[event]);
      if (namesOwn || isOwnTask(trace.taskName(event)) || (lines.length > 0 && lines.every(({ isOwn }) => isOwn))) own[event] = 1;
    }
  }

  /** The tasks that no way between two others leads through: nobody comes after what they do. */
  deadEnds() {
    const { trace } = this, found = new Set(trace.tasks.flatMap(({ joined }, place) => joined > 0 ? [] : [place]));
    for (let event = 1; event <= trace.events; event++) if (![LOCAL, END].includes(trace.kinds[event])) found.delete(trace.taskOf[event]);
    return found;
  }

  /** Whether the event only stands for what an earlier part of the run did. */
  goesOn(event) {
    return this.labels.get(event)?.lines.some(({ label }) => label === GOES_ON) === true;
  }

  /** Whether the event releases a lock. */
  isRelease(event) {
    return this.labels.get(event)?.lines.some(({ isLock }) => isLock) === true;
  }

  isOwn(event) {
    return this.own !== null && this.own[event] === 1;
  }

  /** What each message carries, as its sender says it. */
  findMessages() {
    const { trace, view, labels } = this;
    view.wordsOfMessages.clear();
    for (const { name, sent } of trace.messages.values()) {
      const [line] = labels.get(sent)?.lines ?? [], words = line === undefined ? "" : wordsOfMessage(line.label);
      if (words !== "") view.wordsOfMessages.set(name, words);
    }
  }

  /** The label of an event in one line: its touch that races, else what tells most. */
  labelInPicture(event) {
    if (this.isOwn(event)) return "";
    const race = this.chosenRace(), side = race?.sides.find((one) => one.event === event && one.part === this.part);
    if (side !== undefined) return labelOfSide(race, side);
    const touch = this.racingTouches.get(event), { lines = [] } = this.labels.get(event) ?? {};
    if (touch !== undefined || lines.length === 0) return touch ?? "";
    const others = new Set(lines.map(({ words }) => words)).size - 1;
    return bestLine(lines).words + (others > 0 ? ` +${others}` : "");
  }
};
