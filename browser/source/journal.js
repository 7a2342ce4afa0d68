// Reading a journal

// Control characters, and those that show nothing or turn what stands behind them around, as text from right to left does by itself.
const UNSEEN = /[\u0000-\u0008\u000b\u000c\u000e-\u001f\u007f-\u009f\u061c\u200b\u200e\u200f\u2028-\u202e\u2060-\u2069\ufeff]/g;
const MAY_HAVE_UNSEEN = /\\[ubf]|[^ -~\t\r\n]/;
const inSight = (_, value) => typeof value === "string" ? value.replace(UNSEEN, "\ufffd") : value;

/** The object of JSON that the line is, or null. Each character of its texts is to be seen. */
function objectIn(line) {
  try {
    const value = JSON.parse(line, MAY_HAVE_UNSEEN.test(line) ? inSight : undefined);
    return typeof value === "object" && !Array.isArray(value) ? value : null;
  } catch {
    return null;
  }
}

// What the tool itself does, which is no part of the program: the runs of its loops, and what a part of a run takes over from the one before.
const GOES_ON = "goes on";
const OWN_LABELS = new Set(["run loop", "run in loop", "run until loop stops", "loop has stopped", GOES_ON, "border"]);
const OWN_TASKS = new Set(["ended_threads", "ended_tasks", "keeper", "itc_nursery", "itc_border"]);
// Behind the first letters of a process, which may leave no room for all of it.
const NURSERY_OF_PROCESS = /_itc_nurs(e(ry?)?)?$/;

/** Whether the tool itself calls a task so. */
const isOwnName = (name) => OWN_TASKS.has(stemOf(name)) || NURSERY_OF_PROCESS.test(stemOf(name));
// Labels that say nothing of the program, and those of touches that a person would say in other words.
const BARE_LABELS = new Set(["touch", "send to another process", "receive from another process"]);
const OTHER_WORDS = [["making ", "make "], ["lookup ", "look up in "], ["replacement ", "replace an entry of "]];
const RANKS = new Map([["write", 0], ["read", 1], ["replacement", 3], ["lookup", 4], ["making", 5]]);

const PLACE_IN_LABEL = /\(([^()]*:\d+)\)/g;

/** A label in the words of a program. A place in it, as `lock (/home/x/shop.py:6)`, has no folders. */
function programWords(label) {
  const [from, to] = OTHER_WORDS.find(([start]) => label.startsWith(start)) ?? ["", ""];
  const rest = label.slice(from.length).replace(PLACE_IN_LABEL, (_, place) => `(${fileName(place)})`);
  return BARE_LABELS.has(label) ? "" : to + rest;
}

const MOST_HELD = 8;

/** The locks that a row says were held, as `#2 lock (/home/x/shop.py:4)`, in few words. */
function heldIn(row) {
  const names = Array.isArray(row.held) ? row.held.slice(0, MOST_HELD).filter((name) => typeof name === "string") : [];
  return names.map((name) => programWords(readable(name.replace(/^#\d+ /, "")))).sort().join(", ");
}

/** What a message carries, by the label of who sends it, or nothing where that says only that it is sent. */
const wordsOfMessage = (label) => programWords(label).replace(/^(send|put|post) /, "");

const MOST_READABLE = 1000;

/** As much of a text as somebody reads. A page of more than that takes long to lay out. */
const readable = (text, most = MOST_READABLE) => clipped(text, most);

/** What a row of a journal says of its event, or null. It has to be one of so many events. */
function labelOf(row, events = Infinity) {
  if (row === null || !Number.isInteger(row.event) || typeof row.label !== "string") return null;
  if (row.event < 1 || row.event > events) return null;
  const isPlaced = typeof row.file === "string" && Number.isInteger(row.line);
  const isTouch = typeof row.thing === "string", isBare = !isTouch && (isPlaced ? false : row.label === "touch"), label = readable(row.label);
  return { event: row.event, label, words: programWords(label), kind: row.kind, isOwn: isBare || OWN_LABELS.has(label),
    name: typeof row.name === "string" ? row.name : row.thing, place: isPlaced ? `${readable(fileName(row.file))}:${row.line}` : "",
    source: isPlaced ? `${row.file}:${row.line}` : "", isTouch,
    thing: isTouch ? row.thing : null, held: heldIn(row), isLock: typeof row.lock === "string" };
}

/** The line that tells most of an event: a write before a read, and both before what looks a thing up or makes it. */
function bestLine(lines) {
  const rank = ({ isTouch, kind }) => isTouch ? RANKS.get(kind) ?? 2 : 6;
  return lines.reduce((best, line) => rank(line) < rank(best) ? line : best);
}

/** The last part of a path. */
const fileName = (path) => path.slice(Math.max(path.lastIndexOf("/"), path.lastIndexOf("\\")) + 1);

/** Adds one more line of a journal to what the others say of the same event: it may stand for many touches. */
function addLine(known, line, isBare) {
  const isWritten = known.lines.length < MOST_LINES && known.lines.every(({ label }) => label !== line.label);
  known.lines.push(line);
  known.isBare &&= isBare;
  if (isWritten) known.label += `, ${line.label}`;
}

/** Adds what a row of a journal says of its event. What is bare of touches is passed over where there are some. */
function addLabel(labels, label) {
  if (label === null) return;
  const known = labels.get(label.event), isBare = label.kind === "local" && !label.isTouch;
  if (known === undefined || (known.isBare && label.isTouch)) labels.set(label.event, { label: label.label, lines: [label], isBare });
  else addLine(known, label, isBare);
}

/** Whether these bytes begin as a journal does, and no export. */
function isJournal(bytes) {
  const end = bytes.indexOf(10);
  return labelOf(objectIn(new TextDecoder().decode(bytes.subarray(0, end < 0 ? bytes.length : end)))) !== null;
}
