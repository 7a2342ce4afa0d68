// What is told where the mouse is

/** Says what is at a place of the picture. */
const Tips = (Base) => class extends Base {
  /** Says what is at this place of the picture: an event, a message or a task. */
  tipAt(x, y) {
    const { view } = this, event = view.eventAt(x, y, 14), receipt = event > 0 || !view.isNear ? 0 : view.receiptAt(x, y, 6);
    const task = event > 0 || receipt > 0 ? -1 : view.taskAt(x, y);
    this.showTip(event > 0 ? this.eventTip(event) : receipt > 0 ? this.messageTip(receipt) : task >= 0 ? this.taskTip(task) : [], x, y);
  }

  showTip(lines, x, y) {
    const tip = at("tip"), { view } = this, key = lines.join("\n");
    tip.hidden = lines.length === 0;
    if (tip.hidden) return;
    if (tip.dataset.key !== key) {
      tip.dataset.key = key;
      tip.replaceChildren(...lines.map((line) => element("div", {}, line)));
    }
    const { offsetWidth, offsetHeight } = tip, isLow = y + 18 + offsetHeight > view.height;
    tip.style.left = `${Math.max(0, Math.min(x + 12, view.width - offsetWidth - 4))}px`;
    tip.style.top = `${Math.max(0, isLow ? y - offsetHeight - 14 : y + 18)}px`;
  }

  hideTip() {
    at("tip").hidden = true;
  }

  eventTip(event) {
    const { trace } = this, lines = this.labels.get(event)?.lines ?? [];
    const told = lines.filter(({ words }) => words !== "").slice(0, MOST_TIPS).map(labelAndPlace);
    const more = lines.length > MOST_TIPS ? [`and ${lines.length - MOST_TIPS} more`] : [];
    const time = this.timeWords(event);
    if (this.goesOn(event)) return [this.wordsOfBorder(event), `Event ${event}`];
    return [...told, ...more, `Event ${event}, ${deed(trace, event)}`, ...time === "" ? [] : [time]];
  }

  messageTip(receipt) {
    const { trace } = this, name = trace.nameOf[receipt], { sent } = trace.message(name);
    const said = [["sent", sent], ["received", receipt]].map(([word, event]) => {
      const line = this.labels.get(event)?.lines[0], label = line === undefined || labelAndPlace(line) === "" ? "" : `: ${labelAndPlace(line)}`;
      return `${word} by ${trace.taskName(event)}, event ${event}${label}`;
    });
    const words = this.view.wordsOfMessages.get(name);
    return [...words === undefined ? [] : [words], `Message ${name}`, ...said];
  }

  taskTip(place) {
    const { layout } = this.view, folded = layout.folded.get(layout.laneOf[place]);
    if (folded !== undefined) {
      const names = folded.places.slice(0, MOST_TIPS).map((one) => this.trace.tasks[one].name).join(", ");
      return [folded.title, `${names}${folded.places.length > MOST_TIPS ? ", .." : ""}`, "A click opens them."];
    }
    const { trace } = this, { name, started, first, last, ended, isOver } = trace.tasks[place];
    const count = trace.eventsOf(place), line = this.labels.get(started)?.lines[0];
    const label = line === undefined || line.place === "" ? "" : `, ${line.place}`;
    return [`Task ${name}`, ...started > 0 ? [`started by ${trace.taskName(started)}, event ${started}${label}`] : [],
      first > 0 ? `${counted(count, "event")}, ${first} to ${last}` : "no event",
      ended > 0 ? `ended by event ${ended}` : isOver ? "its process ended" : "did not end"];
  }
};
