// Choosing events

/** Chooses events, and keeps the address. */
const Choosing = (Base) => class extends Base {
  /** Chooses an event, or a second one beside it. Choosing that second one turns the two around. */
  choose(event, { asOther = false, closer = false, focus = false, stays = false } = {}) {
    const { view, trace } = this;
    if (!this.isShown || event < 1 || event > trace.events) return;
    if ((asOther || this.isPairing) && view.chosen > 0) {
      view.other = event;
    } else {
      if (view.other === event) view.other = view.chosen;
      view.chosen = event;
      view.standings = trace.standings(event);
    }
    this.isPairing = false;
    if (this.wantsLayout([event])) this.useLayout(true);
    if (stays) view.ask();
    else view.show(event, closer);
    this.describeChosen();
    this.writeAddress();
    if (focus) {
      view.draw();
      this.reach();
      this.buttons.get(event)?.focus({ preventScroll: true });
    }
  }

  /** Whether these events only show up in a new layout: by the filters, or since they stand in a fold. They keep lanes of their own. */
  wantsLayout(events) {
    const { layout } = this.view, places = events.filter((event) => event > 0).map((event) => this.trace.taskOf[event]);
    const isFolded = places.some((place) => layout !== null && (layout.isFolded(place) || layout.filter.isAside(place)));
    if (isFolded) for (const place of places) this.kept.add(place);
    return isFolded || this.isFiltered();
  }

  chooseNothing() {
    const { view } = this;
    if (view.other > 0) view.other = 0;
    else {
      view.chosen = 0;
      view.standings = null;
    }
    this.isPairing = false;
    if (this.isFiltered()) this.useLayout(true);
    view.ask();
    this.describeChosen();
    this.writeAddress();
  }

  /** The event to which an arrow key leads: along the task, or along an edge from or to another lane. */
  step(key, event) {
    const { trace } = this, isElsewhere = (one) => trace.taskOf[one] !== trace.taskOf[event];
    if (key === "ArrowLeft") return trace.previous[event];
    if (key === "ArrowRight") return trace.following[event];
    if (key === "ArrowUp") return trace.preds(event).find(isElsewhere) ?? 0;
    return trace.followersOf(event).find(isElsewhere) ?? 0;
  }

  writeAddress() {
    const { chosen, other } = this.view, words = [];
    if (chosen > 0) words.push(`event=${chosen}`);
    if (other > 0) words.push(`other=${other}`);
    if (at("time").value !== CHAIN) words.push(`time=${at("time").value}`);
    if (this.partCount > 1) words.push(`part=${this.part}`);
    const address = `#${words.join("&")}`;
    if (location.hash === address || (address === "#" && location.hash === "")) return;
    history.replaceState(null, "", address);
  }

  readAddress() {
    const { view } = this, words = new URLSearchParams(location.hash.slice(1));
    const asked = words.get("time"), time = asked === NUMBER || (asked === CLOCK && this.clocks !== null) ? asked : CHAIN;
    const chosen = wholeNumber(words.get("event") ?? ""), other = wholeNumber(words.get("other") ?? "");
    if (at("time").value !== time) {
      at("time").value = time;
      this.useLayout(false);
    }
    this.isPairing = false;
    Object.assign(view, { chosen: 0, other: 0, standings: null });
    this.choose(chosen);
    if (view.chosen > 0) this.choose(other, { asOther: true });
    else this.chooseNothing();
  }
};
