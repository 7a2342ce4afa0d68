// Search

/** Finds events by numbers, names and labels. */
const Search = (Base) => class extends Base {
  search(text) {
    const section = at("found"), sought = text.trim();
    section.hidden = sought === "" || !this.isShown;
    section.replaceChildren();
    if (section.hidden) return;
    const found = this.find(sought), list = element("ul");
    for (const { event, words, race } of found.slice(0, MOST_FOUND)) {
      list.append(element("li", {}, race === undefined ? this.eventButton(event, words) : this.raceButton(this.races[race], race)));
    }
    const more = found.length > MOST_FOUND ? `, the first ${MOST_FOUND} here` : "";
    section.append(element("h2", {}, `Found: ${found.length}${more}`), list);
  }

  /** The event of that number, and the tasks, messages, things, places and races with the text in their names; whole names first. */
  find(sought) {
    const { trace } = this, found = [], number = wholeNumber(sought);
    const add = (event, words, name) => found.push({ event, words, rank: name === sought ? 0 : 1 });
    if (number > 0 && number <= trace.events) add(number, deed(trace, number), sought);
    for (const task of this.tasks()) {
      if (task.name.includes(sought)) add(task.first || task.started, `task ${task.name}`, task.name);
    }
    for (const message of trace.messages.values()) {
      const { name, sent, receipts } = message;
      if (!name.includes(sought)) continue;
      if (sent > 0) add(sent, `message ${name} is sent`, name);
      for (const receipt of receipts) add(receipt, `message ${name} is received by ${trace.taskName(receipt)}`, name);
    }
    for (const [event, { lines }] of this.labels) {
      const isIt = ({ label, words: said, name, place, source }) => [label, said, name ?? "", place, source].some((text) => text.includes(sought));
      const line = lines.find(({ label }) => label.includes(sought)) ?? lines.find(isIt);
      if (line !== undefined) add(event, `${trace.taskName(event)}: ${labelAndPlace(line)}`, line.label);
    }
    this.races.forEach(({ thing, made, sides }, race) => {
      const texts = [thing, made, ...sides.flatMap((side) => [placeIn(side), `${side.file}:${side.line}`, side.task])];
      if (texts.some((text) => text.includes(sought))) found.push({ race, event: sides[0].event, words: thing, rank: thing === sought ? 0 : 0.5 });
    });
    return found.sort((one, other) => one.rank - other.rank);
  }
};
