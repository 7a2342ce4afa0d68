// The panel of filters

/** Filters what is shown, and tells what is hidden. */
const Filtering = (Base) => class extends Base {
  isFiltered() {
    return at("hidesLocal").checked || at("hidesUnshared").checked || at("within").value !== "0";
  }

  filter() {
    const { trace, view } = this, chosen = [view.chosen, view.other].filter((event) => event > 0);
    const keeps = [...chosen, ...this.chainsOf(view.chosen, view.other).flat()];
    return filterOf(trace, { hidesLocal: at("hidesLocal").checked, hidesUnshared: at("hidesUnshared").checked,
      within: chosen.length > 0 ? Number(at("within").value) : 0, around: chosen, keeps, shared: this.shared,
      groups: at("groups").checked ? this.groups() : null, folded: this.folded, folds: this.folds() });
  }

  /** What is folded where lanes do not fit, and what is not. */
  folds() {
    const { view, trace, kept, openedFolds: opened, closedFolds: closed, own } = this;
    const mostLanes = Math.max(4, Math.floor(view.room / LEAST_LANE));
    for (const event of [...view.racing, view.chosen, view.other]) if (event > 0) kept.add(trace.taskOf[event]);
    return { families: at("alike").checked ? this.families() : null, mostLanes, kept, opened, closed, own, aside: this.ownTasks };
  }

  families() {
    return this.familiesOfTasks ??= familiesOf(this.trace, this.labels, this.processes.begun.length > 0 ? this.groups() : null);
  }

  /** Lists what is folded, and what somebody opened, as boxes. */
  listFamilies() {
    const { view, openedFolds: opened } = this, list = at("families"), keys = [], { families } = view.layout.filter;
    for (const { key, title } of view.layout.folded.values()) if (families !== null && families.titles.has(key)) keys.push([key, title, true]);
    for (const key of opened) keys.push([key, this.families().titles.get(key), false]);
    list.replaceChildren(...keys.slice(0, MOST_LISTED).map(([key, title, checked]) => {
      const box = element("input", { type: "checkbox", checked });
      box.dataset.family = key;
      return element("li", {}, element("label", {}, box, ` Fold ${title}`));
    }));
  }

  /** Gives each task of a fold a lane of its own. */
  openFold(key) {
    const { view } = this, { left, top, scale, high } = view;
    if (key.startsWith("process ")) this.folded.delete(key.slice("process ".length));
    else this.openedFolds.add(key);
    this.closedFolds.delete(key);
    this.listFolds();
    this.useLayout(true);
    Object.assign(view, { left, top, scale, high: Math.max(high, LEAST_LANE) });
    view.keepInside();
  }

  closeFold(key) {
    this.openedFolds.delete(key);
    this.closedFolds.add(key);
    this.useLayout(true);
  }

  groups() {
    return this.groupsOfTasks ??= processesOf(this.trace, this.processes.begun);
  }

  /** The tasks that touch what another one touches, too. */
  findShared() {
    const { trace } = this, users = new Map();
    for (const [event, { lines }] of this.labels) {
      for (const { thing } of lines) {
        if (thing === null) continue;
        users.set(thing, (users.get(thing) ?? new Set()).add(trace.taskOf[event]));
      }
    }
    this.shared = new Set([...users.values()].filter((tasks) => tasks.size > 1).flatMap((tasks) => [...tasks]));
    at("hidesUnshared").disabled = users.size === 0;
  }

  /** Counts what is not shown, in the panel of filters and in the picture. */
  tellHidden(filter) {
    const { trace, view } = this, shown = (list) => list === null ? 0 : list.reduce((sum, isShown) => sum + isShown, 0);
    const events = filter.events === null ? 0 : trace.events - (shown(filter.events) - filter.events[0]);
    const tasks = filter.tasks === null ? 0 : this.tasks().filter(({ name }) => !filter.showsTask(trace.taskPlaces.get(name))).length;
    const { hiddenEdges } = view.layout, counts = [[events, "event"], [tasks, "task"], [hiddenEdges, "edge"]];
    const words = counts.filter(([count]) => count > 0).map(([count, word]) => counted(count, word)).join(", ");
    view.hiddenWords = words === "" ? "" : `hidden: ${words}`;
    at("hidden").textContent = words === "" ? "Nothing is hidden." : `Hidden: ${words}.`;
    at("filter").classList.toggle("active", this.isFiltered());
  }

  listFolds() {
    const list = at("folds"), groups = at("groups").checked ? this.groups() : [];
    list.replaceChildren(...[...new Set(groups)].map((group) => {
      const box = element("input", { type: "checkbox", checked: this.folded.has(group) });
      box.dataset.group = group;
      const count = groups.filter((one) => one === group).length;
      return element("li", {}, element("label", {}, box, ` Fold ${group}: ${counted(count, "task")}`));
    }));
  }

  /** Takes over what was set in the panel of filters. */
  applyFilters(target) {
    const { group, family } = target.dataset;
    if (family !== undefined) {
      if (target.checked) this.closeFold(family);
      else this.openFold(family);
      return;
    }
    if (group !== undefined && target.checked) this.folded.add(group);
    if (group !== undefined && !target.checked) this.folded.delete(group);
    if (target.id === "groups") this.listFolds();
    if (this.isShown) this.useLayout(true);
  }

  clearFilters() {
    for (const id of ["hidesLocal", "hidesUnshared", "groups"]) at(id).checked = false;
    at("alike").checked = true;
    at("within").value = "0";
    at("hidesUnshared").disabled = true;
    this.folded = new Set();
    this.shared = new Set();
    this.kept = new Set();
    this.openedFolds = new Set();
    this.closedFolds = new Set();
    this.own = null;
    this.ownTasks = new Set();
    this.groupsOfTasks = this.familiesOfTasks = null;
    this.listFolds();
  }
};
