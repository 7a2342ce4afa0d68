// The traces of the test: the same at every run.

/** Numbers from 0 up to 1, the same for the same seed (mulberry32). */
export function seeded(seed) {
  return () => {
    seed = (seed + 0x6d2b79f5) | 0;
    let mixed = Math.imul(seed ^ (seed >>> 15), 1 | seed);
    mixed = (mixed + Math.imul(mixed ^ (mixed >>> 7), 61 | mixed)) ^ mixed;
    return ((mixed ^ (mixed >>> 14)) >>> 0) / 4294967296;
  };
}

export const WORKED = ["local root", "spawn root a", "local a", "local root", "send a m", "recv root m", "end a",
  "join root a"];
export const LOST_UPDATE = ["local root", "spawn root alice", "spawn root bob", "local alice", "local bob", "local alice",
  "local bob", "end alice", "end bob", "join root alice", "join root bob"];
export const WITH_LOCK = ["local root", "spawn root alice", "spawn root bob", "local alice", "local alice", "send alice stock_1",
  "recv bob stock_1", "local bob", "local bob"];
export const TOPIC = ["spawn root prices", "spawn root web", "spawn root till", "spawn root stock", "local prices",
  "send prices price_1", "recv web price_1", "recv till price_1", "local prices", "local web", "send web cart_1",
  "recv stock price_1", "local stock", "recv till cart_1", "local till", "send prices price_2"];
export const NAMES = ["spawn root __proto__", "spawn __proto__ constructor", "spawn root local", "spawn root 7",
  "send constructor toString", "recv local toString", "send 7 __proto__", "recv root __proto__", "send local hasOwnProperty",
  "local __proto__", "end constructor", "join __proto__ constructor", "send root 1", "end local", "join root local"];

function takenFrom(list, random) {
  return list.splice(Math.floor(random() * list.length), 1)[0];
}

/** Tasks that come and go and send and receive: so many events, and no more tasks alive at a time and in all. A message is
 * received by so many at most. */
export function busy(random, events, alive, tasks, receivers = 1) {
  const live = ["root"], ended = [], unread = [], reports = [], read = new Set();
  const some = () => live[Math.floor(random() * live.length)];
  for (let started = 1, sent = 0; reports.length < events;) {
    const kind = random();
    if (kind < 0.16 && live.length < alive && started < tasks) {
      const parent = some(), name = `task_${started++}`;
      live.push(name);
      reports.push(`spawn ${parent} ${name}`);
    } else if (kind < 0.30 && live.length > alive / 2 && live.length > 1) {
      const [name] = live.splice(1 + Math.floor(random() * (live.length - 1)), 1);
      ended.push(name);
      reports.push(`end ${name}`);
    } else if (kind < 0.44 && ended.length > 0) {
      reports.push(`join ${some()} ${takenFrom(ended, random)}`);
    } else if (kind < 0.64) {
      sent++;
      unread.push(...Array(receivers).fill(`message_${sent}`));
      reports.push(`send ${some()} message_${sent}`);
    } else if (kind < 0.84 && unread.length > 0) {
      const receipt = `${some()} ${unread.length > 20 * receivers ? unread.shift() : takenFrom(unread, random)}`;
      reports.push(read.has(receipt) ? `local ${receipt.split(" ")[0]}` : `recv ${receipt}`);
      read.add(receipt);
    } else {
      reports.push(`local ${some()}`);
    }
  }
  return reports;
}

/** So many tasks that root starts, a few at a time: each works a little, tells root, ends and is joined. */
export function shortTasks(random, tasks, alive) {
  const reports = ["local root"], live = [];
  for (let started = 0; started < tasks || live.length > 0;) {
    if (started < tasks && live.length < alive && random() < 0.5) {
      started++;
      live.push({ name: `job_${started}`, left: ["local", "send", "end"] });
      reports.push(`spawn root job_${started}`);
    } else if (live.length > 0) {
      const place = Math.floor(random() * live.length), { name, left } = live[place], next = left.shift();
      reports.push(next === "send" ? `send ${name} done_${name}` : `${next} ${name}`);
      if (next === "end") {
        reports.push(`recv root done_${name}`, `join root ${name}`);
        live.splice(place, 1);
      }
    }
  }
  return reports;
}

/** How many tasks there are at once at most. */
export function mostAlive(reports) {
  let alive = 1, most = 1;
  for (const report of reports) {
    if (report.startsWith("spawn ")) most = Math.max(most, ++alive);
    if (report.startsWith("end ")) alive--;
  }
  return most;
}

/** So many events of root and of so many tasks that nobody joins: root starts them one by one, or they all start one another. */
export function unjoined(events, tasks, { byAll = false } = {}) {
  const random = seeded(4), live = ["root"], unread = [], reports = [], some = () => live[Math.floor(random() * live.length)];
  for (let sent = 0; reports.length < events;) {
    const kind = random();
    if (live.length <= tasks && live.length <= reports.length / (events / tasks) + 1) {
      reports.push(`spawn ${byAll ? some() : "root"} task_${live.length}`);
      live.push(`task_${live.length}`);
    } else if (unread.length > 0 && kind < 0.25) {
      reports.push(`recv ${some()} ${takenFrom(unread, random)}`);
    } else if (kind < 0.5) {
      unread.push(`message_${++sent}`);
      reports.push(`send ${some()} ${unread.at(-1)}`);
    } else {
      reports.push(`local ${some()}`);
    }
  }
  return reports;
}

/** The trace of 500 events that most checks use. */
export const BUSY = busy(seeded(19), 500, 14, 60);

/** A trace of as many events, with messages that up to five receive. */
export const BROADCASTS = busy(seeded(23), 500, 14, 60, 5);

/** The greatest trace: 16384 events and 2047 tasks that root and others start, at most 64 at a time. */
export function greatest(random) {
  const live = ["root"], ended = [], unread = [], reports = [];
  const some = () => live[Math.floor(random() * live.length)];
  for (let started = 1, sent = 0; reports.length < 16384;) {
    const turn = reports.length / 8;
    if (started <= 2047 && started <= turn + 1 && live.length <= 64) {
      const parent = some();
      live.push(`task_${started}`);
      reports.push(`spawn ${parent} task_${started++}`);
    } else if (live.length > 56 && random() < 0.3) {
      const [name] = live.splice(1 + Math.floor(random() * (live.length - 1)), 1);
      ended.push(name);
      reports.push(`end ${name}`);
    } else if (ended.length > 0 && random() < 0.4) {
      reports.push(`join ${some()} ${takenFrom(ended, random)}`);
    } else if (unread.length > 40 || (unread.length > 0 && random() < 0.3)) {
      reports.push(`recv ${some()} ${takenFrom(unread, random)}`);
    } else if (random() < 0.5) {
      unread.push(`message_${++sent}`);
      reports.push(`send ${some()} ${unread.at(-1)}`);
    } else {
      reports.push(`local ${some()}`);
    }
  }
  return reports;
}
