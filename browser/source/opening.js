// Opening an export

/** Opens exports, and tells what their check finds. */
const Opening = (Base) => class extends Base {
  /** Opens an export. What is judged without its stamps is judged before anything is shown. */
  open(bytes, name = "") {
    this.show(readExport(bytes), name);
    this.compare();
  }

  /** Shows what is not yet checked. */
  show(trace, name) {
    this.opened++;
    this.worker?.end();
    this.worker = null;
    trace.close();
    this.verdict = null;
    this.compared = 0;
    this.showTrace(trace, name);
    this.tellVerdict();
  }

  /** Compares the stamps of the trace: a few at once, the rest in a worker, and in slices where there is none. */
  compare() {
    const { trace, opened } = this;
    this.checking = new StampCheck(trace).run();
    this.judge(trace, performance.now() + FIRST_SLICE);
    this.tellVerdict();
    if (this.verdict !== null) return;
    const goOn = () => {
      if (opened !== this.opened || this.verdict !== null) return;
      this.checking = new StampCheck(trace).run();
      this.judgeLater(trace, opened);
    };
    try {
      this.worker = new CheckingWorker((told) => opened === this.opened && this.hear(told), goOn);
      this.worker.check(trace);
      this.checking = null;
    } catch {
      goOn();
    }
  }

  /** Takes what the worker tells. */
  hear({ isDone, fault, compared }) {
    if (isDone) this.decide(this.trace, fault);
    else this.compared = compared;
    this.tellVerdict();
  }

  decide(trace, fault) {
    this.verdict = fault === null ? `yes ${trace.events}` : `no ${fault.line} ${fault.reason}`;
    this.fault = fault;
    this.checking = null;
  }

  /** Compares stamps until this time, or to the end. */
  judge(trace, until) {
    do {
      const { done, value } = this.checking.next();
      if (done) {
        this.decide(trace, value);
        return;
      }
      this.compared = value;
    } while (performance.now() < until);
  }

  /** Compares the rest in short slices, and none while somebody moves the picture. */
  judgeLater(trace, opened) {
    const rests = performance.now() - this.lastInput < REST_AFTER_INPUT;
    setTimeout(() => {
      if (opened !== this.opened) return;
      if (performance.now() - this.lastInput >= REST_AFTER_INPUT) this.judge(trace, performance.now() + SLICE);
      this.tellVerdict();
      if (this.verdict === null) this.judgeLater(trace, opened);
    }, rests ? REST_AFTER_INPUT : 0);
  }

  tellVerdict() {
    const { trace, verdict, fault, name } = this, isFaulty = trace.fault !== null || trace.events === 0 || (verdict !== null && fault !== null);
    const isEmpty = trace.fault === null && trace.events === 0;
    const checked = verdict === null ? "" : ` ${checkedWords(trace)}`;
    const words = isEmpty ? "the export has no event, so nothing is drawn." : isFaulty ? this.faultWords() : this.countWords() + checked;
    const progress = verdict === null ? `Still being checked: ${this.compared} of ${trace.events} lines of the export.` : "";
    if (verdict !== null && fault !== null && this.isShown) at("title").classList.add("racy");
    tell(name === "" ? words[0].toUpperCase() + words.slice(1) : `${name}: ${words}`, progress, this.compared / Math.max(1, trace.events));
    at("notice").classList.toggle("faulty", isFaulty);
  }

  faultWords() {
    const { trace, verdict, fault } = this, { line, reason } = verdict === null ? trace.fault : fault;
    const later = trace.fault === null ? " The picture shows its edges." : "";
    const rest = verdict === null ? " An earlier line may be faulty too." : later;
    return wordsOfFault({ line, reason }) + rest;
  }

  countWords() {
    const { trace } = this, messages = [...trace.messages.values()].filter((message) => message.sent > 0).length;
    const counts = [[trace.events, "event"], [this.tasks().length, "task"], [messages, "message"], [trace.edges, "edge"]];
    return `${counts.map(([count, word]) => counted(count, word)).join(", ")}.`;
  }

  tasks() {
    return this.trace.tasks.filter((task) => task.started > 0 || task.first > 0);
  }

  /** Shows a trace, or nothing where some line is faulty by itself. */
  showTrace(trace, name) {
    Object.assign(this, { trace, name });
    this.layouts.clear();
    this.isShown = trace.fault === null && trace.events > 0;
    this.view.chosen = this.view.other = 0;
    this.view.standings = null;
    this.races = [];
    this.headOfRaces = null;
    this.racePlace = -1;
    this.racing();
    this.clearFilters();
    this.beside.leave();
    at("openBeside").hidden = !this.isShown;
    this.describeRaces();
    this.tellRefusal();
    at("search").value = "";
    at("found").hidden = true;
    this.useLayout(false);
    this.describeTrace();
    this.describeChosen();
    if (this.isShown && !this.waits) this.readAddress();
  }

  /** Says in the place of the picture why there is none. */
  tellRefusal() {
    const { trace } = this, place = at("invitation"), isEmpty = trace.fault === null && trace.events === 0;
    place.hidden = this.isShown;
    place.classList.toggle("faulty", !this.isShown);
    if (!this.isShown) place.replaceChildren(element("p", {}, isEmpty ? "Nothing is drawn: the export has no event." : `Nothing is drawn: ${wordsOfFault(trace.fault)}`));
  }

  /** Lays the picture out as the filters ask, unless more is about to be opened. */
  useLayout(keepsPlace) {
    const { view } = this, axis = at("time").value;
    if (this.waits) return;
    if (!this.isShown) {
      view.layout = null;
      view.ask();
      this.reach();
      return;
    }
    const filter = this.filter(), wasWhole = view.layout !== null && view.isWhole;
    filter.lanes = this.beside.lanes();
    view.layout = this.layoutFor(axis, filter);
    this.beside.useLayout(axis);
    this.tellHidden(filter);
    this.listFamilies();
    if (!keepsPlace || wasWhole) view.whole();
    else if (view.chosen > 0) view.show(view.chosen, false);
    view.keepInside();
    view.ask();
  }

  /** The layout for these filters. Those without a hidden event are kept, since somebody goes from one to the other. */
  layoutFor(axis, filter) {
    const make = () => new Layout(this.trace, { axis, filter, clocks: this.clocks });
    if (filter.events !== null || filter.lanes !== null) return make();
    const { opened, closed, kept, folded, groups, families, mostLanes } = filter;
    const key = JSON.stringify([axis, groups !== null, families !== null, mostLanes, [...opened], [...closed], [...kept], [...folded]]);
    if (!this.layouts.has(key)) this.layouts.set(key, make());
    return this.layouts.get(key);
  }

  /** Opens an export, or the journal of the one that is open. */
  openBytes(bytes, name) {
    if (this.isShown && isJournal(bytes)) {
      this.openLabels(new TextDecoder().decode(bytes));
      this.tellVerdict();
      return;
    }
    this.leaveParts();
    this.labels.clear();
    this.processes = new Processes();
    this.useClocks(null);
    this.open(bytes, name);
  }

  openFile(file) {
    const opening = ++this.opened;
    tell(`Reading ${file.name}.`, " ");
    file.arrayBuffer().then((buffer) => {
      if (opening === this.opened) this.openBytes(new Uint8Array(buffer), file.name);
    }, () => {
      tell(`${file.name} cannot be read.`);
    });
  }
};
