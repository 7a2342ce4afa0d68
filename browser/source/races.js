// Reading races

const DEADLOCKS = ["deadlock", "possible deadlock"], MOST_SIDES = 32, MOST_NAMED = 200;
const KINDS_IN_WORDS = { read: "reads", write: "writes", lookup: "looks up in", replacement: "replaces an entry of", making: "makes" };

/** As much of a name as leaves room for the rest of a race. */
const named = (text) => readable(text, MOST_NAMED);

/** A touch of a race, or null. One of a run in parts says in which part. */
function sideOf(side) {
  if (typeof side !== "object" || side === null || !Array.isArray(side.text)) return null;
  const areTexts = [side.task, side.kind, side.file, side.function, ...side.text].every((text) => typeof text === "string");
  const { part = 1 } = side, areNumbers = [side.event, side.line, side.begin, part].every(Number.isInteger);
  if (!areTexts || !areNumbers || side.text.length > MOST_SOURCE) return null;
  const [task, kind, name] = [side.task, side.kind, side.function].map(named);
  return { ...side, part, task, kind, function: name, text: side.text.map((line) => readable(line)) };
}

/** Whether so many lines belong to it: two of a race, and two of each task of a deadlock, which holds one lock and wants another. */
function isCountOfSides(isDeadlock, count) {
  return isDeadlock ? count % 2 === 0 && count >= 2 && count <= MOST_SIDES : count === 2;
}

/** The race or the deadlock that a row tells of, or null. `pair` has the two sides that the picture joins. */
function raceOf(row) {
  if (row === null || !Array.isArray(row.sides)) return null;
  const isDeadlock = DEADLOCKS.includes(row.kind);
  if (!isCountOfSides(isDeadlock, row.sides.length)) return null;
  const sides = row.sides.map(sideOf), areTexts = [row.thing, row.made, row.why].every((text) => typeof text === "string");
  if (sides.includes(null) || !areTexts || !Number.isInteger(row.times)) return null;
  const [thing, made, why] = [row.thing, row.made, row.why].map(named), { times } = row, pair = [sides[0], sides.at(-1)];
  return { thing, made, why, times, isPossible: row.possible === true, isConfirmed: row.confirmed === true, isDeadlock, sides, pair };
}

/** How sure it is, in words: whether it was possible only, and whether a further run has met it then. */
const stateOfRace = ({ isPossible, isConfirmed }) => isPossible ? "possible" : isConfirmed ? "confirmed" : "";

/** What it is, in words. */
const nameOfRace = (race) => `${stateOfRace(race)} ${race.isDeadlock ? "deadlock" : "race"}`.trim();

/** What the marked events are of. */
const wordOfRaces = (races) => races.every(({ isDeadlock }) => !isDeadlock) ? "race" : races.every(({ isDeadlock }) => isDeadlock) ? "deadlock" : "race or deadlock";

const capital = (words) => `${words.slice(0, 1).toUpperCase()}${words.slice(1)}`;

/** What the first line of a list of races says of all of it, or null: how many are left out, as a baseline has them or as they
 * are meant, and why more may not have been seen. */
function headOfRaces(row) {
  if (row === null || !Number.isInteger(row.races) || !Number.isInteger(row.possible) || !Array.isArray(row.unseen)) return null;
  const countOf = (count) => Number.isInteger(count) && count > 0 ? count : 0;
  return { unseen: row.unseen.filter((why) => typeof why === "string").map(named), known: countOf(row.known), silenced: countOf(row.silenced) };
}

/** Whether the side tells of a lock: what it holds or wants stands in its kind. */
const isLockSide = ({ kind }) => /^(holds|wants) /.test(kind);

/** What the picture writes beside the event of a side. A task of a deadlock holds one lock there, and wants another. */
function labelOfSide(race, side) {
  if (!race.isDeadlock) return `${side.kind} ${race.thing}`;
  return race.sides.filter(({ task, event, part }) => task === side.task && event === side.event && part === side.part).map(({ kind }) => kind).join(", ");
}

const timesOf = ({ times }) => times === 1 ? "once" : `${times} times`;

/** The file, the line and the function of a touch, in few words. */
function placeIn(side) {
  const isNamed = side.function !== "" && side.function !== "<module>";
  return `${named(fileName(side.file))}:${side.line}${isNamed ? ` in ${side.function}` : ""}`;
}

const isOneLine = ([one, other]) => one.file === other.file && one.line === other.line && one.begin === other.begin;

/** The lines of source around a touch, the one that touches marked. Both touches of one line have them once. */
function sourceOf(sides) {
  const [side] = sides, width = String(side.begin + side.text.length).length, lines = element("pre", { tabIndex: 0 });
  side.text.forEach((text, place) => {
    const number = side.begin + place, isIt = number === side.line;
    lines.append(element(isIt ? "strong" : "span", {}, `${isIt ? ">" : " "} ${String(number).padStart(width)}  ${text}`), "\n");
  });
  const words = `${sides.map(({ task, kind }) => `${task}: ${kind}`).join(", ")} at ${readable(side.file)}:${side.line}`;
  lines.setAttribute("aria-label", words);
  return element("figure", { className: "source" }, element("figcaption", {}, words), ...side.text.length > 0 ? [lines] : []);
}
