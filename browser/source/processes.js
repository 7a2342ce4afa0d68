// The processes of a trace

/** The process of each task: that of its name, or of the task that started it. The others are the root's. */
function processesOf(trace, begun) {
  const names = new Set(begun), groups = [];
  if (names.size === 0) {
    const isBegun = ({ name }) => trace.tasks.some((task) => task.name.startsWith(`${name}_`));
    const ofRoot = trace.tasks.filter(({ started }) => started > 0 && trace.taskName(started) === "root");
    for (const task of ofRoot.filter(isBegun)) names.add(task.name);
  }
  trace.tasks.forEach(({ name, started }) => {
    const starts = name.split("_").map((_, place, parts) => parts.slice(0, place + 1).join("_"));
    groups.push(starts.find((start) => names.has(start)) ?? groups[trace.taskOf[started]] ?? "root");
  });
  return groups;
}

/** Which processes began and which ended, as a journal tells row by row. A process is known by the name of its task. */
class Processes {
  constructor() {
    this.begun = [];
    this.ended = new Set();
  }

  note(row) {
    if (row.kind === "spawn" && typeof row.label === "string" && row.label.startsWith(STARTED)) {
      this.begun.push(row.label.slice(STARTED.length));
    }
    if (row.end !== true || row.task === null) return;
    this.ended.add(typeof row.task === "string" ? row.task : this.begun.at(-1) ?? "root");
  }

  /** Whether this is the task of a process that ended. The root of a system is one if each of its processes ended. */
  haveEnded(task) {
    if (this.ended.has(task)) return true;
    return task === "root" && this.begun.length > 0 && this.begun.every((process) => this.ended.has(process));
  }
}
