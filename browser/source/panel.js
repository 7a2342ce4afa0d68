// The panel beside the picture

/** Describes the trace and the chosen events. */
const Panel = (Base) => class extends Base {
  /** What an event was in the program, as its journal says it, or what it did. */
  wordsOf(event) {
    const { trace } = this, lines = this.labels.get(event)?.lines ?? [];
    if (this.goesOn(event)) return this.wordsOfBorder(event);
    if (lines.length === 0 || this.isOwn(event)) return deed(trace, event);
    const touches = this.chosenRace()?.sides.map((side) => this.touchOf(side, event)) ?? [];
    const line = touches.find((touch) => touch !== undefined) ?? bestLine(lines), more = lines.length > 1 ? ` and ${lines.length - 1} more` : "";
    if (line.words === "") return deed(trace, event) + (line.place === "" ? "" : `, ${line.place}`);
    return `${trace.taskName(event)}: ${labelAndPlace(line)}${more}`;
  }

  /** Whose event stands for what he did in the part before. A start stands for the task that it names. */
  wordsOfBorder(event) {
    const { trace } = this, name = trace.kinds[event] === SPAWN ? trace.nameOf[event] : trace.taskName(event);
    return `${name} goes on from ${this.partBefore()}`;
  }

  partBefore() {
    return this.part > 1 ? `part ${this.part - 1}` : "the part before";
  }

  /** The line of the journal that tells of this touch of a race. */
  touchOf(side, event) {
    if (side.event !== event) return undefined;
    const source = `${side.file}:${side.line}`, { lines = [] } = this.labels.get(event) ?? {};
    return lines.find((line) => line.isTouch && line.kind === side.kind && line.source === source);
  }

  eventButton(event, words = this.wordsOf(event)) {
    const button = element("button", { type: "button" }, `${event} `, words);
    button.dataset.event = event;
    return button;
  }

  numberButtons(events, none = "nothing", words = String) {
    if (events.length === 0) return none;
    const made = element("span", { className: "numbers" });
    for (const event of events.slice(0, 30)) {
      const button = element("button", { type: "button", title: this.wordsOf(event) }, words(event));
      button.dataset.event = event;
      made.append(button);
    }
    if (events.length > 30) made.append(`and ${events.length - 30} more`);
    return made;
  }

  describeChosen() {
    const { view, trace } = this, section = at("chosen"), event = view.chosen;
    section.replaceChildren();
    at("spoken").textContent = "";
    if (!this.isShown) return;
    const race = this.chosenRace(), place = race === undefined ? -1 : this.races.indexOf(race);
    view.isRace = race !== undefined;
    view.chains = this.chainsOf(event, view.other);
    for (const button of at("races").querySelectorAll("button")) {
      button.setAttribute("aria-pressed", String(Number(button.dataset.race) === place));
    }
    if (at("turned") !== null) at("turned").textContent = place < 0 ? `${this.races.length} in all` : `${place + 1} of ${this.races.length}`;
    if (event === 0) {
      this.describeLegend();
      this.beside.describe();
      section.append(element("p", { className: "quiet" },
        "Choose an event: click or tap it, or go to it with Tab and press Enter. ",
        "Arrow keys left and right walk along its task, up and down along edges from and to other tasks."));
      return;
    }
    this.describeLegend();
    if (race === undefined) section.append(element("h2", {}, `Event ${event}`), this.rowOf(event));
    else this.describeRace(section, race);
    this.describePair(section, race);
    if (race !== undefined) {
      const events = [event, view.other].filter((one) => one > 0);
      section.append(...events.map((one) => element("details", { className: "row" }, element("summary", {}, `Event ${one}`), this.rowOf(one))));
    }
    this.beside.describe();
    section.append(element("h2", {}, "How the others stand to it"));
    const lists = [PAST, FUTURE, CONCURRENT].map((standing) => this.standingList(standing));
    section.append(...lists);
    const counts = lists.map((list) => list.firstChild.textContent).join(", ");
    at("spoken").textContent = view.other > 0 ? this.orderWords(event, view.other) : counts;
  }

  rowOf(event) {
    const { trace } = this, list = element("dl");
    const add = (term, value) => list.append(element("dt", {}, term), element("dd", {}, value));
    const kind = trace.kinds[event], named = ["", "starts", "message", "message", "", "takes in"][kind];
    for (const { words: label, source } of (this.labels.get(event)?.lines ?? []).slice(0, MOST_LINES)) {
      if (label !== "") add("label", label);
      if (source !== "") add("source", source);
    }
    const more = (this.labels.get(event)?.lines.length ?? 0) - MOST_LINES;
    if (more > 0) add("labels", `${more} more in the journal`);
    add("kind", KINDS[kind]);
    add("task", trace.taskName(event));
    if (this.timeWords(event) !== "") add("wall clock", this.timeWords(event));
    if (named !== "") add(named, trace.nameOf[event]);
    if (kind === SEND || kind === RECV) add("received by", this.receipts(trace.nameOf[event]));
    add("follows", this.numberButtons(trace.preds(event)));
    add("followed by", this.numberButtons(trace.followersOf(event)));
    add("stamp", this.stampOf(event));
    return list;
  }

  /** The stamp. One for which many others have to be unpacked first waits until somebody wants it. */
  stampOf(event) {
    const { trace } = this, stamp = () => element("code", {}, trace.stamp(event));
    if (trace.isAtHand(event)) return stamp();
    const ask = element("button", { type: "button" }, "Show");
    ask.addEventListener("click", () => ask.replaceWith(stamp()));
    return ask;
  }

  /** Who received the message, each with his event. */
  receipts(name) {
    const { trace } = this;
    return this.numberButtons(trace.message(name).receipts, "nobody", (event) => `${trace.taskName(event)}, ${event}`);
  }

  describePair(section, race) {
    const { view, trace } = this, { chosen, other } = view;
    if (other === 0 && race !== undefined) {
      const words = "One touch is in another part of the run. No event of this part that stands for it comes before the other touch.";
      section.append(element("p", {}, words));
      this.describeSource(section, race);
      return;
    }
    if (other === 0) {
      const words = this.isPairing ? "Now choose the other event" : "Compare with another event";
      const pair = element("button", { type: "button", id: "pair" }, words);
      pair.setAttribute("aria-pressed", String(this.isPairing));
      section.append(element("p", {}, pair));
      return;
    }
    const order = trace.order(chosen, other), why = () => {
      if (order === "concurrent") this.describeFreedom(section, chosen, other);
      if (order === "before" || order === "after") this.describeChain(section, view.chains[0]);
    };
    if (race !== undefined) {
      why();
      this.describeSource(section, race);
    }
    section.append(element("p", { id: "words" }, this.orderWords(chosen, other)));
    if (race === undefined) section.append(element("ul", {}, element("li", {}, this.eventButton(chosen)), element("li", {}, this.eventButton(other))));
    this.describeTimes(section, chosen, other);
    section.append(element("p", {}, element("button", { type: "button", id: "unpair" }, "Leave the other event")));
    if (race === undefined) why();
  }

  /** What is drawn to show why two events are ordered or not: a shortest chain, or each event with the synchronizations around it. */
  chainsOf(one, other, trace = this.trace) {
    if (one === 0 || other === 0 || one === other) return [];
    if (trace.reaches(one, other)) return [trace.shortestChain(one, other)];
    if (trace.reaches(other, one)) return [trace.shortestChain(other, one)];
    return [one, other].map((event) => {
      const before = trace.synchronizationBefore(event), after = trace.synchronizationAfter(event);
      return [...before > 0 ? [before] : [], event, ...after > 0 ? [after] : []];
    });
  }

  /** Says why nothing orders two events: between which synchronizations each of them stands, and what happened before both. */
  describeFreedom(section, one, other) {
    const { trace } = this, list = element("dl", { id: "freedom" });
    const add = (term, event, none, words) => list.append(element("dt", {}, term),
      element("dd", {}, ...event > 0 ? [this.eventButton(event, words), ...this.otherEnd(event)] : [none]));
    const latest = trace.latestBeforeBoth(one, other);
    add("last before both", latest, "nothing happened before both", this.goesOn(latest) ? `in ${this.partBefore()}, or earlier` : undefined);
    for (const event of [one, other]) {
      const before = trace.synchronizationBefore(event), after = trace.synchronizationAfter(event), name = trace.taskName(event);
      add(`${name} came from`, before, "nothing");
      add(`${name} went on to`, after, "nothing more");
    }
    section.append(element("h2", {}, "Why nothing orders them"), list, element("p", { className: "quiet" },
      "Only what tasks do with one another orders their events: starts, messages, locks, ends and joins. None of it stands between the two."));
  }

  /** The other end of what the event does with another task: who sent or received a message, acquired a lock next, or waited for an end. */
  otherEnd(event) {
    const { trace } = this, kind = trace.kinds[event], name = trace.nameOf[event], quiet = (words) => element("span", { className: "quiet" }, words);
    const button = (end, more = 0) => this.eventButton(end, `${trace.taskName(end)}${more > 0 ? ` and ${more} more` : ""}`);
    if (this.goesOn(event)) return [];
    if (kind === SEND || kind === RECV) {
      const { sent, receipts } = trace.message(name), isLock = this.isRelease(sent);
      if (kind === RECV) return sent > 0 ? [quiet(isLock ? "released by" : "sent by"), button(sent)] : [];
      if (receipts.length === 0) return [quiet(isLock ? "acquired by nobody since" : "received by nobody")];
      return [quiet(isLock ? "next acquired by" : "received by"), button(receipts[0], receipts.length - 1)];
    }
    if (kind !== END && kind !== JOIN) return [];
    const { ended, joined } = trace.tasks[trace.taskPlaces.get(kind === END ? trace.taskName(event) : name)];
    if (kind === JOIN) return ended > 0 ? [quiet("waits for"), button(ended)] : [];
    return joined > 0 ? [quiet("waited for by"), button(joined)] : [quiet("waited for by nobody")];
  }

  /** Lists the edges of a chain. What follows in one task is one step. */
  describeChain(section, chain) {
    const { trace } = this, list = element("ol", { id: "chain" });
    for (let place = 0; place < chain.length; place++) {
      const event = chain[place], pred = chain[place - 1], kind = place === 0 ? OTHER_EDGE : edgeKind(trace, pred, event);
      const goesOn = kind === LANE_EDGE && place + 1 < chain.length && edgeKind(trace, event, chain[place + 1]) === LANE_EDGE;
      const words = place === 0 ? [] : [element("span", { className: "quiet" }, this.edgeWords(kind, event))];
      if (!goesOn) list.append(element("li", {}, this.eventButton(event), ...words));
    }
    section.append(element("h2", {}, `What orders them: ${counted(chain.length - 1, "edge")}`), list);
  }

  edgeWords(kind, event) {
    const { trace } = this, name = trace.nameOf[event], task = trace.taskName(event);
    const words = this.view.wordsOfMessages.get(name), message = words === undefined ? `receives message ${name}` : `comes after: ${words}`;
    return { [LANE_EDGE]: `later in ${task}`, [SPAWN_EDGE]: `in ${task}, which that started`, [MESSAGE_EDGE]: message,
      [JOIN_EDGE]: `takes in ${name}`, [OTHER_EDGE]: "follows it" }[kind];
  }

  orderWords(one, other, trace = this.trace) {
    return {
      same: `Both are event ${one}.`,
      before: `Event ${one} happened before event ${other}.`,
      after: `Event ${one} happened after event ${other}.`,
      concurrent: `Event ${one} and event ${other} are concurrent: nothing kept them in order.`,
    }[trace.order(one, other)];
  }

  eventsStanding(standing) {
    const found = [];
    this.view.standings.forEach((one, event) => {
      if (event > 0 && one === standing) found.push(event);
    });
    return found;
  }

  standingList(standing) {
    const events = this.eventsStanding(standing), list = element("div");
    const words = { [PAST]: "past", [FUTURE]: "could be influenced", [CONCURRENT]: "concurrent" }[standing];
    const summary = element("summary", {}, standingIcon(standing), `${words}: ${counted(events.length, "event")}`);
    const details = element("details", {}, summary, list);
    details.dataset.standing = words;
    details.addEventListener("toggle", () => {
      list.textContent = events.join(" ");
    }, { once: true });
    return details;
  }

  describeTrace() {
    const { trace } = this, section = at("about"), marks = at("marks");
    section.replaceChildren();
    marks.replaceChildren();
    this.describeLegend();
    if (trace.fault === null && trace.header !== null) section.append(...headerWords(trace.header));
    if (!this.isShown) return;
    KINDS.forEach((kind, place) => marks.append(element("li", {}, kindIcon(place), kind)));
    marks.append(element("li", {}, raceIcon(), "race"));
    for (const [standing, words] of STANDINGS) marks.append(element("li", {}, standingIcon(standing), words));
    const alone = [...trace.messages.values()].filter(({ sent, receipts }) => sent > 0 && receipts.length === 0 && !this.isOwn(sent));
    const isLock = ({ sent }) => this.isRelease(sent), unread = alone.filter((message) => !isLock(message)), free = alone.filter(isLock);
    const isOfTool = ({ name, started }) => this.own !== null && started > 0 && isOwnName(name);
    const open = this.tasks().filter((task) => task.ended === 0 && !this.processes.haveEnded(task.name) && !isOfTool(task));
    const sent = (message) => this.eventButton(message.sent);
    const last = (task) => this.eventButton(task.last || task.started, `${task.name}, last event`);
    section.append(this.list("unread", `Messages that nobody received: ${unread.length}`, unread, sent));
    if (free.length > 0) section.append(this.list("free", `Locks that nobody took again: ${free.length}`, free, sent, false));
    const where = this.part < this.partCount ? "Tasks that did not end in this part" : "Tasks that did not end";
    section.append(this.list("open", `${where}: ${open.length}`, open, last));
    this.describeClocks(section);
  }

  /** Says below the picture what its marks are: those of events, and those of how they stand to the chosen one. */
  describeLegend() {
    const { view } = this, items = !this.isShown ? [] : view.chosen === 0 ? KINDS.map((kind, place) => [kindIcon(place), kind])
      : STANDINGS.map(([standing, words]) => [standingIcon(standing), words]);
    if (this.isShown && this.races.length > 0) items.push([raceIcon(), wordOfRaces(this.races)]);
    if (view.chains?.length > 0) items.push([chainIcon(), view.other > 0 && view.chains.length > 1 ? "last and next with other tasks" : "what orders them"]);
    at("legend").replaceChildren(...items.map(([mark, words]) => element("li", {}, mark, words)));
  }

  /** A list that is filled once it is opened, with so many of the things as can be read. One of another trace stays as it is. */
  list(id, title, things, button, mayBeOpen = true) {
    const list = element("ul"), details = element("details", { id }, element("summary", {}, title), list);
    details.addEventListener("toggle", () => {
      if (!details.isConnected) return;
      list.append(...things.slice(0, MOST_LISTED).map((thing) => element("li", {}, button(thing))));
      if (things.length > MOST_LISTED) list.append(element("li", { className: "quiet" }, `and ${things.length - MOST_LISTED} more`));
    }, { once: true });
    details.open = mayBeOpen && things.length > 0 && things.length <= 12;
    return details;
  }

  useClocks(clocks) {
    this.clocks = clocks !== null && clocks.names.length > 0 ? clocks : null;
    this.view.times = this.clocks?.times ?? null;
    this.view.clocks = this.clocks;
    const option = at("time").querySelector('[value="clock"]');
    option.disabled = this.clocks === null;
    if (this.clocks === null && at("time").value === CLOCK) at("time").value = CHAIN;
  }

  /** When the event was, or nothing where its journal does not tell. */
  timeWords(event) {
    const { clocks } = this;
    if (clocks === null || clocks.clockOf[event] < 0) return "";
    return utc(clocks.times[event]) + (clocks.names.length > 1 ? `, clock of ${clocks.names[clocks.clockOf[event]]}` : "");
  }

  /** How the two events stand by their clocks, which order nothing. */
  describeTimes(section, one, other) {
    const { clocks } = this;
    if (clocks === null || one === other || clocks.clockOf[one] < 0 || clocks.clockOf[other] < 0) return;
    const apart = clocks.times[other] - clocks.times[one], isSame = clocks.isSame(one, other);
    const way = `${duration(Math.abs(apart))} ${apart < 0 ? "before" : "after"}`;
    const skew = clocks.skew(clocks.clockOf[other], clocks.clockOf[one]);
    const span = skew === null ? "their messages contradict one another" : spanWords(apart - skew.most, apart - skew.least);
    const rest = isSame ? "" : `; ${span}`;
    section.append(element("p", { id: "apart" },
      `By the ${isSame ? "clock" : "clocks"} event ${other} was ${way} event ${one}${rest}. Clocks order nothing.`));
  }

  /** Says between which times the trace was, and how the clocks of its processes differ. */
  describeClocks(section) {
    const { clocks } = this;
    if (clocks === null) return;
    const told = clocks.times.filter((time) => time > 0).sort(), list = element("dl", { id: "clocks" });
    const span = `${utc(told[0])} to ${utc(told.at(-1))}. Clocks order nothing.`;
    section.append(element("h2", {}, "Wall clock"), element("p", { id: "span" }, span), list);
    const first = clocks.mostTold(), others = clocks.names.map((name, clock) => clock).filter((clock) => clock !== first);
    for (const clock of [first, ...others.slice(0, MOST_CLOCKS)]) {
      const words = this.clockWords(clock, first);
      if (words !== "") list.append(element("dt", {}, clocks.names[clock]), element("dd", {}, words));
    }
    const more = others.length - MOST_CLOCKS;
    if (more > 0) section.append(element("p", { className: "quiet" }, `and ${more} more`));
  }

  /** What is known of a clock, also against another one. */
  clockWords(clock, first) {
    const { clocks } = this, { names } = clocks, back = clocks.setBack.get(clock), words = [];
    if (clock !== first) {
      const messages = counted(clocks.messages(first, clock), "message");
      words.push(skewWords(clocks.skew(clock, first)), `${messages} from ${names[first]}, ${clocks.messages(clock, first)} to it`);
    } else if (names.length > 1) words.push("the others are told against it");
    if (back !== undefined) words.push(`it was set back, by ${duration(back)}`);
    return words.join("; ");
  }
};
