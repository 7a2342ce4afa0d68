// The checks of the filters: what is hidden, what is not, and what is told of it.
import assert from "node:assert/strict";
import { answers, exportOf, file, inWork, pictureOf } from "./program.mjs";
import { opened, press, text } from "./tab.mjs";
import { BUSY, seeded } from "./traces.mjs";

const kindOf = (report) => report.split(" ")[0];

/** Sets what is to be filtered, as somebody does who presses it. */
const set = (tab, id, value) => tab.run((name, wanted) => {
  const box = document.getElementById(name);
  if (typeof wanted === "boolean") box.checked = wanted;
  else box.value = wanted;
  box.dispatchEvent(new Event("change", { bubbles: true }));
}, id, value);

/** The events that the layout shows, in order, and whether edges lead from or to others. */
const shown = (tab) => tab.run(() => {
  const { layout } = page.view, events = layout.eventsIn.flatMap((list) => [...list]).sort((one, other) => one - other);
  const there = new Set([0, ...events]);
  const ends = [...layout.edgePreds, ...[...layout.edgeEvents].filter((_, edge) => layout.edgeKinds[edge] !== SPAWN_EDGE)];
  const hidden = document.getElementById("hidden").textContent, inPicture = page.view.hiddenWords;
  return { events, areWhole: ends.every((event) => there.has(event)), hidden, inPicture };
});

/** Local events are hidden but for the chosen one, and the picture says how many; what is shown stands at times without a gap. */
async function localEvents(tab) {
  await opened(tab, inWork("busy.html"));
  assert.equal(await text(tab, "#hidden"), "Nothing is hidden.");
  await press(tab, "#filter");
  await press(tab, "#hidesLocal");
  const all = BUSY.map((_, place) => place + 1), isLocal = (event) => kindOf(BUSY[event - 1]) === "local";
  const { events, areWhole, hidden, inPicture } = await shown(tab), locals = all.filter(isLocal);
  assert.deepEqual(events, all.filter((event) => !isLocal(event)));
  assert.deepEqual([areWhole, hidden, inPicture], [true, `Hidden: ${locals.length} events.`, `hidden: ${locals.length} events`]);
  await tab.run((event) => page.choose(event), locals[20]);
  assert.deepEqual((await shown(tab)).events, all.filter((event) => !isLocal(event) || event === locals[20]));
  const gaps = await tab.run(() => {
    const times = new Set(page.view.layout.eventsIn.flatMap((list) => [...list].map((event) => page.view.layout.times[event])));
    return Array.from({ length: page.view.layout.columns }, (_, place) => place + 1).filter((time) => !times.has(time));
  });
  assert.deepEqual(gaps, []);
  await set(tab, "hidesLocal", false);
  assert.deepEqual((await shown(tab)).events, all);
}

/** Within so many edges of the chosen events is what a way of so many edges along the program's predecessors leads to. */
async function within(tab) {
  const told = answers(BUSY, BUSY.map((_, place) => `event ${place + 1}`)).map((reply) => reply.split(" ").slice(5).map(Number));
  const preds = (event) => told[event - 1], following = BUSY.map(() => []);
  told.forEach((list, place) => list.forEach((pred) => following[pred - 1].push(place + 1)));
  const reached = (event, next, edges) => edges === 0 ? [event] : [event, ...next(event).flatMap((one) => reached(one, next, edges - 1))];
  const random = seeded(5);
  for (const edges of [1, 2, 3, 5]) {
    const event = 1 + Math.floor(random() * BUSY.length);
    await tab.run((one) => {
      page.chooseNothing();
      page.chooseNothing();
      page.choose(one);
    }, event);
    await set(tab, "within", String(edges));
    const wanted = new Set([...reached(event, preds, edges), ...reached(event, (one) => following[one - 1], edges)]);
    const { events, areWhole, hidden } = await shown(tab);
    assert.deepEqual(events, [...wanted].sort((one, other) => one - other), `${edges} edges around ${event}`);
    assert.ok(areWhole && hidden.startsWith(`Hidden: ${BUSY.length - wanted.size} events, `), hidden);
  }
  await tab.run(() => page.chooseNothing());
  assert.equal((await shown(tab)).events.length, BUSY.length, "nothing is chosen");
}

const SYSTEM = ["spawn root till", "spawn root stock", "local till", "spawn till till_1", "spawn stock stock_1", "local till_1",
  "local stock_1", "local stock", "spawn till helper", "local helper", "local till_1"];
const row = (event, task, thing, kind = "local", label = `read ${thing}`) =>
  ({ event, task, thing, kind, file: "shop.py", line: event, label });
const JOURNAL = [row(1, "root", null, "spawn", "start process till"), row(2, "root", null, "spawn", "start process stock"),
  row(3, "till", "#1"), row(6, "till_1", "#2"), row(7, "stock_1", "#1"), row(8, "stock", "#3"), row(10, "helper", "#2")];

/** Tasks are hidden that touch nothing which another one touches; the lanes of a process stand together, and are folded into one. */
async function processes(tab) {
  const journal = file("system.journal", JOURNAL.map((one) => `${JSON.stringify(one)}\n`).join(""));
  await opened(tab, pictureOf("system.html", exportOf(SYSTEM), ["--labels", journal]));
  await tab.until(() => page.labels.size === 7);
  await set(tab, "hidesUnshared", true);
  const { events, hidden } = await shown(tab);
  assert.deepEqual(events, [3, 4, 6, 7, 9, 10, 11]);
  assert.match(hidden, /^Hidden: 4 events, 2 tasks, /);
  await set(tab, "hidesUnshared", false);
  await set(tab, "groups", true);
  const lanes = () => tab.run(() => page.trace.tasks.map(({ name }, place) => `${page.view.layout.laneOf[place]} ${name}`).sort());
  assert.deepEqual(await lanes(), ["0 root", "1 till", "2 till_1", "3 helper", "4 stock", "5 stock_1"]);
  const folds = await tab.run(() => [...document.querySelectorAll("#folds li")].map((item) => item.textContent.trim()));
  assert.deepEqual(folds, ["Fold root: 1 task", "Fold till: 3 tasks", "Fold stock: 2 tasks"]);
  await tab.run(() => document.querySelector('#folds input[data-group="till"]').click());
  assert.deepEqual(await lanes(), ["0 root", "1 helper", "1 till", "1 till_1", "2 stock", "3 stock_1"]);
  assert.deepEqual(await tab.run(() => [...page.view.layout.eventsIn[1]].sort((one, other) => one - other)), [3, 4, 6, 9, 10, 11]);
  assert.equal(await tab.run(() => page.view.layout.names[page.view.layout.tasksIn[1][0]]), "till: 3 tasks");
  assert.equal(await text(tab, "#hidden"), "Nothing is hidden.");
  await tab.run(() => page.openBytes(new TextEncoder().encode(""), "none"));
  assert.deepEqual(await tab.run(() => [page.isFiltered(), document.querySelectorAll("#folds li").length]), [false, 0]);
}

export async function filters(tab) {
  await localEvents(tab);
  await within(tab);
  await processes(tab);
}
