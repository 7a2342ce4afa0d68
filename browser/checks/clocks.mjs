// The checks of the wall clock: what the journal tells is shown beside logical time, and orders nothing.
import assert from "node:assert/strict";
import { exportOf, file, pageOf, pictureOf } from "./program.mjs";
import { rows } from "./racing.mjs";
import { opened, placeOf, text } from "./tab.mjs";
import { seeded, WORKED } from "./traces.mjs";

const SHIFT = 8, BEGIN = 1795798400;
const row = (event, task, time, more = {}) => ({ event, task, thing: null, kind: "local", file: null, line: 0, label: "touch", time, ...more });
const start = (event, process, time) => row(event, "root", time, { kind: "spawn", label: `start process ${process}` });

async function openedWith(tab, name, reports, journal, hash = "") {
  const path = pageOf(`${name}.html`, exportOf(reports), { labels: rows(journal) });
  await opened(tab, path, hash);
  await tab.until(() => page.labels.size > 0);
}

const told = (tab) => tab.run(() => Object.fromEntries([...document.querySelectorAll("#clocks dt")].map((term) =>
  [term.textContent, term.nextSibling.textContent])));

/** One process has one clock: it is shown with each event, in the picture and between two events, and changes no order. */
async function oneClock(tab) {
  const times = [0.25, 0.5, 0.500012, 0.499, 0.75, 0.7, 1, 2], journal = times.map((time, place) => row(place + 1, "root", BEGIN + time));
  const none = { ...row(3, "a", BEGIN + 9), label: "again" };
  await openedWith(tab, "one_clock", WORKED, [...journal, none], "#event=3&other=4");
  assert.equal(await text(tab, "#span"), "2026-11-27 16:53:20.250000 UTC to 2026-11-27 16:53:22.000000 UTC. Clocks order nothing.");
  assert.equal(await text(tab, "#apart"), "By the clock event 4 was 1.01 ms before event 3. Clocks order nothing.");
  assert.deepEqual(await told(tab), { root: "it was set back, by 1 ms" });
  const shown = await tab.run(() => [...document.querySelectorAll("#chosen dt")].map((term) => [term.textContent, term.nextSibling.textContent]));
  assert.ok(shown.some(([term, value]) => term === "wall clock" && value === "2026-11-27 16:53:20.500012 UTC"), shown.join());
  await tab.hover(...await placeOf(tab, 3));
  assert.match(await text(tab, "#tip"), /2026-11-27 16:53:20\.500012 UTC$/);
  await rulerIsRight(tab);
  await tab.click(...await placeOf(tab, 5));
  await tab.click(...await placeOf(tab, 6), SHIFT);
  assert.deepEqual([await text(tab, "#words"), await text(tab, "#apart")],
    ["Event 5 happened before event 6.", "By the clock event 6 was 50 ms before event 5. Clocks order nothing."]);
  assert.deepEqual(await tab.run(() => [3, 4, 5, 6].map((event) => page.view.layout.steps[event])), [3, 3, 4, 5]);
}

/** Above the lanes stand two rulers, and nothing else does: steps, and the times of the events that stand there. */
async function rulerIsRight(tab) {
  const { texts, places, head } = await tab.run(() => {
    const { view } = page, found = [];
    view.whole();
    view.context.fillText = (words, x, y) => found.push([words, Math.round(x), y]);
    view.draw();
    delete view.context.fillText;
    return { texts: found.filter(([, , y]) => y <= view.head), head: view.head,
      places: [1, 2, 3, 4, 5, 6, 7, 8].map((event) => Math.round(view.x(view.layout.times[event]))) };
  });
  const [steps, times] = [texts.filter(([, , y]) => y < head / 2), texts.filter(([, , y]) => y > head / 2)];
  assert.deepEqual([steps[0][0], times[0][0]], ["step", "clock"]);
const due = [1, 2, 3, 5, 6, 8].map((event, place) => `${place + 1} ${places[event - 1]}`), told = steps.slice(1).map(([words, x]) => `${words} ${x - 3}`);
  assert.ok(told.length > 2 && told.every((tick) => due.includes(tick)), `${told} of ${due}`);
  assert.ok(times.some(([words, x]) => words === "16:53:20.250" && x === places[0] + 3), times.join());
  assert.ok(texts.every(([, x], place) => texts.every(([words, other, y], at) => at <= place || y !== texts[place][2] || other >= x)), "in order");
}

// Two processes and their starts, and what they send to each other or not.
const START = ["spawn root till", "spawn root stock", "spawn root desk"];
const STARTED = [start(1, "till", BEGIN), start(2, "stock", BEGIN + 5), start(3, "desk", BEGIN)];
const SENT = ["send till m1", "recv stock m1"], BACK = ["send stock m2", "recv till m2"], TO_DESK = ["send stock m3", "recv desk m3"];
const pair = (event, one, first, other, second) => [row(event, one, BEGIN + first), row(event + 1, other, BEGIN + second)];

const CONTRADICTION = "its messages contradict one another: a clock was set, or they run at different speeds";
const NONE = "not known: no message tells; 0 messages from till, 0 to it";
const SKEWS = [
  [[...SENT, ...BACK], [...pair(4, "till", 1, "stock", 6.001), ...pair(6, "stock", 7, "till", 2.003)], "till",
    { stock: "5 s ahead, ± 2 ms; 1 message from till, 1 to it", desk: NONE }],
  [SENT, pair(4, "till", 1, "stock", 6.001), "till", { stock: "at most 5 s ahead; 1 message from till, 0 to it", desk: NONE }],
  [BACK, pair(4, "stock", 7, "till", 2.003), "till", { stock: "at least 5 s ahead; 0 messages from till, 1 to it", desk: NONE }],
  [[...SENT, ...TO_DESK], [...pair(4, "till", 1, "stock", 6.5), ...pair(6, "stock", 7, "desk", 0.25)], "stock",
    { till: "at most 5.5 s behind; 0 messages from stock, 1 to it", desk: "at least 6.75 s behind; 1 message from stock, 0 to it" }],
  [[...SENT, ...BACK], [...pair(4, "till", 1, "stock", 6.001), ...pair(6, "stock", 8, "till", 2.003)], "till",
    { stock: `${CONTRADICTION}; 1 message from till, 1 to it`, desk: `${CONTRADICTION}; 0 messages from till, 0 to it` }],
];

/** Messages bound the skew of two processes: both ways on two sides, one way on one side, and a contradiction is told. The skews are
 * told against who has most messages. A process tells its own start, which no message goes to. */
async function skews(tab) {
  for (const [reports, journal, against, others] of SKEWS) {
    await openedWith(tab, "skews", [...START, ...reports], [...STARTED, ...journal]);
    assert.deepEqual(await told(tab), { [against]: "the others are told against it", ...others });
  }
  const [reports, journal] = SKEWS[0], late = row(8, "stock", BEGIN + 8), early = row(9, "till", BEGIN + 2.99);
  await openedWith(tab, "skews", [...START, ...reports, "local stock", "local till"], [...STARTED, ...journal, late, early], "#event=8&other=9");
  assert.equal(await text(tab, "#apart"), "By the clocks event 9 was 5.01 s before event 8; "
    + "without the skew from 9 ms before to 13 ms before it. Clocks order nothing.");
  assert.ok((await text(tab, "#chosen dl")).includes("2026-11-27 16:53:28.000000 UTC, clock of stock"));
}

/** So many processes with clocks of their own, each with two tasks, that send to one another: reports, rows, and the clocks' skews. */
function system(random, processes, events) {
  const names = Array.from({ length: processes }, (_, place) => `p${place}`), ahead = names.map(() => random() * 20 - 10);
  const reports = [], journal = [], edges = [], unread = [];
  let now = 10;
  const note = (report, process, more = {}) => {
    now += random() * 0.01;
    reports.push(report);
    journal.push(row(reports.length, "root", BEGIN + Math.round((now + ahead[process]) * 1e6) / 1e6, more));
    return journal.at(-1).time;
  };
  names.forEach((name, process) => note(`spawn root ${name}`, process, { kind: "spawn", label: `start process ${name}` }));
  names.forEach((name, process) => note(`spawn ${name} ${name}_worker`, process));
  while (reports.length < events) {
    const process = Math.floor(random() * processes), task = `${names[process]}${random() < 0.5 ? "" : "_worker"}`;
    if (random() < 0.5 || unread.length === 0) {
      const message = `m${reports.length}`;
      unread.push({ message, process, sent: note(`send ${task} ${message}`, process) });
    } else {
      const [{ message, process: from, sent }] = unread.splice(Math.floor(random() * unread.length), 1);
      edges.push([from, process, note(`recv ${task} ${message}`, process) - sent]);
    }
  }
  return { reports, journal, edges, ahead, names };
}

/** The skews of the page are the bounds by all chains of messages, found here by Floyd and Warshall, and the true skew is within. */
async function bounds(tab) {
  const random = seeded(77);
  let finite = 0;
  for (const [processes, events] of [[2, 12], [3, 20], [4, 40], [6, 60], [8, 60], [12, 90]]) {
    const { reports, journal, edges, ahead, names } = system(random, processes, events), all = names.map((_, place) => place);
    const most = all.map((from) => all.map((to) => from === to ? 0 : Infinity));
    for (const [from, to, apart] of edges) if (from !== to) most[from][to] = Math.min(most[from][to], apart);
    for (const by of all) for (const from of all) for (const to of all) most[from][to] = Math.min(most[from][to], most[from][by] + most[by][to]);
    await openedWith(tab, "bounds", reports, journal);
    assert.deepEqual(await tab.run(() => page.clocks.names), names);
    const shown = await tab.run((places) => places.map((one) => places.map((other) => {
      const { least, most: greatest } = page.clocks.skew(one, other);
      return [String(least), String(greatest)];
    })), all);
    for (const one of all) {
      for (const other of all) {
        const [least, greatest] = shown[one][other].map(Number), skew = ahead[one] - ahead[other];
        assert.deepEqual([least, greatest], [0 - most[one][other], most[other][one]], `${names[one]} against ${names[other]}`);
        assert.ok(least <= skew + 2e-6 && skew <= greatest + 2e-6, `${least} ${skew} ${greatest}`);
        finite += one !== other && greatest < Infinity && least > -Infinity ? 1 : 0;
      }
    }
  }
  assert.ok(finite > 100, String(finite));
}

/** Of many processes the first are told, also where the messages of all contradict one another in a circle. */
async function manyClocks(tab) {
  const names = Array.from({ length: 600 }, (_, place) => `p${place}`), reports = names.map((name) => `spawn root ${name}`);
  const journal = names.map((name, place) => start(place + 1, name, BEGIN));
  names.forEach((name, place) => {
    reports.push(`send ${name} m${place}`, `recv ${names[(place + 1) % 600]} m${place}`);
    journal.push(row(reports.length - 1, name, BEGIN + 1), row(reports.length, names[(place + 1) % 600], BEGIN));
  });
  await tab.open(pictureOf("many_clocks.html", exportOf(reports), ["--labels", file("many_clocks.journal", rows(journal))]));
  await tab.until(() => typeof page !== "undefined" && page.clocks !== null);
  const { p0, p1, p24, p25 } = await told(tab);
  assert.match(`${p0}, ${p1}, ${p24}`, /^the others .*; it was set back, by 1 s, its messages contradict .*, its messages contradict /);
  assert.deepEqual([p25, await text(tab, "#clocks + p")], [undefined, "and 575 more"]);
}

const HOSTILE = "<img src=x onerror=alert(1)>";

/** A time that is none is passed over, and a journal without times has no clock. What names a process is text. */
async function hostileTimes(tab) {
  const wrong = ["1", -1, 0, 1e11, 1e308, null, [1], { a: 1 }, true].map((time) => row(1, "root", time));
  await openedWith(tab, "hostile_times", WORKED, [...wrong, row(9, "root", BEGIN), row(0, "root", BEGIN), row(1.5, "root", BEGIN)]);
  assert.deepEqual(await tab.run(() => [page.clocks, document.getElementById("span"), document.getElementById("clocks")]), [null, null, null]);
  await openedWith(tab, "hostile_times", WORKED, [start(2, HOSTILE, BEGIN), row(3, "a", 0.000001), row(6, "root", 99999999999)], "#event=3&other=6");
  assert.equal(await tab.run(() => document.querySelectorAll("img").length), 0);
  assert.ok(HOSTILE in await told(tab));
  assert.match(await text(tab, "#apart"), /^By the clocks? event 6 was 99999999999 s after event 3/);
  await manyClocks(tab);
  await tab.run(() => page.openBytes(new TextEncoder().encode(""), "none"));
  assert.equal(await tab.run(() => page.view.times), null);
}

/** The time is the same with all its digits, as Python, Java and Rust write it, and without the last ones, as Go does. */
async function eachClient(tab) {
  for (const time of ["1795798405.500000", "1795798405.5"]) {
    const line = `{"event":1,"time":${time},"task":"root","thing":null,"kind":"local","file":null,"line":0,"label":"touch"}\n`;
    await opened(tab, pictureOf("client.html", exportOf(WORKED), ["--labels", file("client.journal", line)]));
    await tab.until(() => page.labels.size > 0);
    assert.equal(await tab.run(() => page.timeWords(1)), "2026-11-27 16:53:25.500000 UTC");
  }
}

/** The ruler of the wall clock does not run backwards where a short chain was late, and has the digits that tell its times apart. */
async function rulerRunsOnward(tab) {
  const ticks = () => tab.run(() => {
    const { view } = page, found = [];
    view.whole();
    view.context.fillText = (words, x, y) => found.push([words, x, y]);
    view.draw();
    delete view.context.fillText;
    return found.filter(([words, , y]) => y <= view.head && words.includes(":")).sort((one, other) => one[1] - other[1]).map(([words]) => words);
  });
  const reports = ["spawn root late", "local late", ...Array(8).fill("local root")], told = { label: "count" };
  const late = row(2, "late", BEGIN + 0.966, told), early = [3, 4].map((event) => ({ ...row(event, "root", 0, told), time: undefined }));
  const journal = (step) => [late, ...early, ...[5, 6, 7, 8, 9, 10].map((event) => row(event, "root", BEGIN + 0.677 + event * step, told))];
  for (const [step, length] of [[0.01, 12], [0.00001, 15]]) {
    await openedWith(tab, "onward", reports, journal(step));
    const shown = await ticks();
    assert.ok(shown.length > 2 && shown.every((words) => words.length === length && words.startsWith("16:53:20.")), shown.join());
    assert.deepEqual(shown, [...new Set(shown)].sort());
    assert.ok(!shown.some((words) => words.includes(".966")), shown.join());
  }
}

export async function clocks(tab) {
  await eachClient(tab);
  await oneClock(tab);
  await rulerRunsOnward(tab);
  await skews(tab);
  await bounds(tab);
  await hostileTimes(tab);
}
