// Reaching events without a pointer

/** Puts buttons over events, for Tab and for screen readers. */
const Reaching = (Base) => class extends Base {
  reachLater() {
    clearTimeout(this.reaching);
    this.reaching = setTimeout(() => this.reach(), 160);
  }

  /** Puts a button over each event in view, or over the first of them, for Tab and for screen readers. */
  reach() {
    const { view, buttons } = this, shown = view.layout === null ? [] : this.eventsToReach();
    const wanted = new Set(shown), group = at("events");
    for (const [event, button] of buttons) {
      if (wanted.has(event)) continue;
      button.remove();
      buttons.delete(event);
    }
    let before = group.firstChild;
    for (const event of shown) {
      const button = buttons.get(event) ?? this.reachButton(event);
      if (button === before) before = before.nextSibling;
      else group.insertBefore(button, before);
      this.placeButton(button, event);
    }
    this.reachFolds(group);
    group.setAttribute("aria-label", `Events in view: ${shown.length} of ${view.layout === null ? 0 : view.count}`);
  }

  /** Puts a button over the band of each fold in view, behind those of events. */
  reachFolds(group) {
    const { view } = this;
    for (const button of group.querySelectorAll("button[data-fold]")) if (button !== document.activeElement) button.remove();
    if (view.layout === null) return;
    for (const [lane, { key, title, places: [first] }] of view.layout.folded) {
      if (lane < view.fromLane || lane > view.toLane || document.activeElement?.dataset?.fold === key) continue;
      const button = element("button", { type: "button" });
      button.dataset.fold = key;
      button.setAttribute("aria-label", `${title}, folded: opens them`);
      button.style.left = `${Math.max(16, view.x(view.layout.from[first]))}px`;
      button.style.top = `${view.y(lane)}px`;
      group.append(button);
    }
  }

  eventsToReach() {
    const { view } = this, events = [...view.marks.subarray(0, view.count)];
    const inside = events.filter((event) => {
      const x = view.x(view.layout.times[event]), y = view.y(view.layout.lane(event));
      return event === view.chosen || (x >= 0 && x <= view.width && y >= view.head && y <= view.height);
    });
    inside.sort((one, other) => one - other);
    const from = Math.max(0, Math.min(inside.indexOf(view.chosen) - MOST_REACHED / 2, inside.length - MOST_REACHED));
    return inside.slice(from, from + MOST_REACHED);
  }

  reachButton(event) {
    const button = element("button", { type: "button" });
    button.dataset.event = event;
    this.buttons.set(event, button);
    return button;
  }

  placeButton(button, event) {
    const { view, trace } = this, preds = trace.preds(event);
    const follows = preds.length === 0 ? "follows nothing" : `follows ${preds.join(" and ")}`;
    const standing = ["", `, in the past of event ${view.chosen}`, `, event ${view.chosen} could influence it`,
      `, concurrent with event ${view.chosen}`, ", chosen"][view.standings?.[event] ?? 0];
    const label = `Event ${event}, ${this.wordsOf(event)}, ${follows}${standing}`;
    if (button.getAttribute("aria-label") !== label) button.setAttribute("aria-label", label);
    button.style.left = `${view.x(view.layout.times[event])}px`;
    button.style.top = `${view.y(view.layout.lane(event))}px`;
  }
};
