// The checks of what a page shows first: the race, its reason, both touches and what came before; or that there is none.
import assert from "node:assert/strict";
import { readFileSync } from "node:fs";
import { join } from "node:path";
import { exportOf, file, pictureOf, TOP } from "./program.mjs";
import { race, rows, side } from "./racing.mjs";
import { opened, placeOf, press, shown, text, written } from "./tab.mjs";
import { LOST_UPDATE } from "./traces.mjs";

const head = (races, unseen = []) => ({ races, possible: 0, unseen });

/** So many tasks that root starts one after the other, by one line, and that all read and write one thing: reports, journal and races. */
export function alike(tasks) {
  const reports = ["local root"], journal = [], name = (task) => `handle_${task}`;
  const note = (report, row) => {
    reports.push(report);
    journal.push({ event: reports.length, task: report.split(" ")[1], thing: null, file: "server.py", line: 0, time: 1795798400 + reports.length / 1000, ...row });
  };
  for (let task = 1; task <= tasks; task++) note(`spawn root ${name(task)}`, { kind: "spawn", line: 21, label: `start ${name(task)}` });
  const first = reports.length + 1;
  for (let task = 1; task <= tasks; task++) {
    note(`local ${name(task)}`, { kind: "read", thing: "#1", name: "shop.stock", line: 11, label: "read shop.stock" });
    journal.push({ ...journal.at(-1), kind: "write", line: 12, label: "write shop.stock" });
  }
  for (let task = 1; task <= tasks; task++) note(`end ${name(task)}`, { kind: "end", file: null, label: "end" });
  for (let task = 1; task <= tasks; task++) note(`join root ${name(task)}`, { kind: "join", line: 23, label: `join ${name(task)}` });
  const at = (event, kind, line) => ({ ...side(event, name(event - first + 1), kind, line), file: "server.py" });
  return { reports, journal, races: [race("shop.stock", [at(first, "read", 11), at(first + tasks - 1, "write", 12)], { times: tasks })] };
}

export const pictureOfAlike = (name, { reports, journal, races }, words = []) =>
  pictureOf(name, exportOf(reports), ["--labels", file(`${name}.journal`, rows(journal)), "--races", file(`${name}.races`, rows([head(races.length), ...races])), ...words]);

/** What is in view of the chosen race: whether both touches and the latest event before both are, whether each has a lane of its own, and
 * how many tasks are folded beside them. */
const inView = () => {
  const { view, trace } = page, before = trace.latestBeforeBoth(view.chosen, view.other);
  const isIn = (event) => {
    const x = view.x(view.layout.times[event]), y = view.y(view.layout.lane(event));
    return x >= 0 && x <= view.width && y >= view.head && y <= view.height;
  };
  view.draw();
  const folds = [...view.layout.folded.values()].map(({ title }) => title);
  return { all: [view.chosen, view.other, before].every(isIn), isNear: view.isNear, folds, race: view.isRace,
    own: [view.chosen, view.other].every((event) => !view.layout.isFolded(trace.taskOf[event])) };
};

/** Of 200 and 2000 tasks the race is there without a click: both touches and what came before both, readable, with the reason and the
 * source. The others are folded by the line that started them. */
export async function manyTasks(tab) {
  for (const tasks of [200, 2000]) {
    await shown(tab, pictureOfAlike(`alike_${tasks}.html`, alike(tasks), ["--program", "server.py"]));
    await tab.until(() => page.view.chosen > 0);
    assert.deepEqual(await tab.run(inView), { all: true, isNear: true, folds: [`handle × ${tasks - 2}`], race: true, own: true });
    assert.deepEqual([await text(tab, "#title"), await text(tab, "#reason")], ["1 race in server.py", "Nothing orders them."]);
    const bottom = await tab.run(() => document.querySelector("#freedom").getBoundingClientRect().top);
    assert.ok(bottom < 500, `why nothing orders them stands at ${bottom}`);
    const texts = (await written(tab)).map(([words]) => words);
    assert.ok(texts.some((words) => /^\d+ starts$/.test(words)) && texts.some((words) => /^\d+ joins$/.test(words)), texts.join());
    assert.ok(!texts.some((words) => /^× /.test(words)), texts.join());
  }
  const lanes = () => tab.run(() => page.view.layout.lanes);
  assert.equal(await lanes(), 4);
  const [x, y] = await tab.run(() => {
    const { view } = page, [[lane, { places: [first] }]] = view.layout.folded, box = view.canvas.getBoundingClientRect();
    return [box.left + view.x(view.layout.from[first]) + 20, box.top + view.y(lane)];
  });
  await tab.click(x, y);
  assert.equal(await lanes(), 2001, "a click opens the fold");
  await tab.run(() => document.querySelector("#families input").click());
  assert.equal(await lanes(), 4, "its box among the filters folds it again");
  await tab.until(() => document.querySelector("#events button[data-fold]") !== null);
  await tab.run(() => document.querySelector("#events button[data-fold]").focus());
  await tab.key("Enter");
  assert.equal(await lanes(), 2001, "Enter opens it");
  await tab.run(() => document.querySelector("#families input").click());
  await tab.run(() => page.choose(3000));
  assert.deepEqual(await tab.run(() => [page.view.layout.isFolded(page.trace.taskOf[3000]), page.view.layout.lanes]), [false, 5],
    "a task that is chosen leaves its fold");
}

const THREE = [race("stock", [side(4, "alice", "read", 11), side(7, "bob", "write", 12)]), race("price", [side(6, "alice", "write", 12), side(7, "bob", "write", 12)]),
  race("stock", [side(5, "bob", "read", 11), side(6, "alice", "write", 12)])];

/** The page says what was found. With races the first one is chosen, and `n` and `p` go to its neighbours; without, it shows the whole and
 * says so; and where not all was seen, it says that and no more. */
export async function firstRace(tab) {
  const path = (name, list, words = []) =>
    pictureOf(`${name}.html`, exportOf(LOST_UPDATE), ["--races", file(`${name}.races`, rows(list)), "--program", "shop.py", ...words]);
  await opened(tab, path("first", [head(3), ...THREE]));
  const turned = async () => [await text(tab, "#turned"), await text(tab, "#chosen h2")];
  assert.deepEqual([await tab.run(() => document.title), await text(tab, "#title"), ...await turned()],
    ["3 races in shop.py", "3 races in shop.py", "1 of 3", "Race on stock"]);
  const { all, race: isRace } = await tab.run(inView);
  assert.deepEqual([all, isRace, await tab.run(() => location.hash)], [true, true, ""]);
  for (const [key, place] of [["n", "2 of 3"], ["n", "3 of 3"], ["n", "1 of 3"], ["p", "3 of 3"], ["p", "2 of 3"]]) {
    await tab.key(key);
    assert.equal(await text(tab, "#turned"), place, key);
  }
  await press(tab, "#raceBehind");
  assert.equal(await text(tab, "#turned"), "3 of 3");
  await press(tab, "#raceBefore");
  assert.deepEqual(await turned(), ["2 of 3", "Race on price"]);
  const isWhole = () => page.view.isWhole && page.view.chosen === 0;
  await opened(tab, path("none", [head(0)]));
  assert.deepEqual([await text(tab, "#title"), await text(tab, "#races h2"), await tab.run(isWhole)], ["No race in this run of shop.py", "No race in this run", true]);
  await opened(tab, path("known", [{ ...head(0), known: 3, silenced: 1 }]));
  assert.deepEqual([await text(tab, "#title"), await text(tab, "#leftOut")], ["No new race in this run of shop.py", "3 in the baseline, 1 silenced"]);
  await opened(tab, path("unseen", [head(0, ["the program was killed"])]));
  assert.deepEqual([await text(tab, "#title"), await text(tab, "#races .unseen"), await tab.run(isWhole)],
    ["Incomplete, no race seen of shop.py", "Not all was seen: the program was killed", true]);
  await opened(tab, pictureOf("plain.html", exportOf(LOST_UPDATE)));
  assert.deepEqual([await text(tab, "#title"), await tab.run(() => document.getElementById("races").hidden), await tab.run(isWhole)], ["Trace of x", true, true]);
}

const SIZES = [[1280, 800], [900, 600]];

/** The lines of edges that go through the mark of a chosen event and end at another one, each as where it begins and ends; and those of
 * reasons from lane to lane that are no lines of edges. */
function linesOverTheRace() {
  const { view } = page, { layout, context } = view, lines = [], reasons = [];
  let last = null, into = lines;
  context.moveTo = (...place) => {
    last = place;
  };
  context.lineTo = (...place) => {
    into.push([last, place]);
    last = place;
  };
  view.findRange();
  view.drawEdges();
  into = reasons;
  view.drawChains();
  delete context.moveTo;
  delete context.lineTo;
  const distance = ([x, y], [[fromX, fromY], [toX, toY]]) => {
    const byX = toX - fromX, byY = toY - fromY, part = ((x - fromX) * byX + (y - fromY) * byY) / (byX * byX + byY * byY || 1);
    return Math.hypot(x - fromX - byX * Math.max(0, Math.min(1, part)), y - fromY - byY * Math.max(0, Math.min(1, part)));
  };
  const places = [view.chosen, view.other].map((event) => [view.x(layout.times[event]), view.y(layout.lane(event))]);
  const isEnd = ([x, y], line) => line.some(([endX, endY]) => Math.hypot(endX - x, endY - y) < view.radius + 3);
  const edges = new Set(lines.map((line) => JSON.stringify(line))), isBetweenLanes = ([[, fromY], [, toY]]) => fromY !== toY;
  return [...lines.filter((line) => places.some((place) => distance(place, line) < view.radius && !isEnd(place, line))),
    ...reasons.filter((line) => isBetweenLanes(line) && !edges.has(JSON.stringify(line)))];
}

/** Neither the map nor the line that tells how to move lies over an event of the race, whatever the size of the window. */
export async function uncovered(tab, phone) {
  const path = join(TOP, "browser/checks/stored/day"), words = ["--labels", `${path}.journal`, "--races", `${path}.races`];
  const drawn = pictureOf("uncovered.html", readFileSync(`${path}.export`), words);
  for (const [width, height] of SIZES) {
    await tab.send("Emulation.setDeviceMetricsOverride", { width, height, deviceScaleFactor: 1, mobile: false });
    await opened(tab, drawn);
    assert.deepEqual(await tab.run(inView), { all: true, isNear: true, folds: [], race: true, own: true });
    assert.deepEqual(await tab.run(() => ["map", "hint"].map((id) => document.getElementById(id).hidden)), [false, false]);
    assert.deepEqual(await tab.run(linesOverTheRace), [], `an edge goes through a mark of the race at ${width} by ${height}`);
    for (const event of await tab.run(() => [page.view.chosen, page.view.other])) {
      const over = await tab.run((x, y) => document.elementFromPoint(x, y)?.closest("#map, #hint, #legend")?.id ?? "", ...await placeOf(tab, event));
      assert.equal(over, "", `event ${event} at ${width} by ${height}`);
    }
  }
  await tab.send("Emulation.setDeviceMetricsOverride", { width: SIZES[0][0], height: SIZES[0][1], deviceScaleFactor: 1, mobile: false });
  const tally = join(TOP, "browser/checks/stored/tally");
  await opened(tab, pictureOf("uncovered_parts.html", "", ["--parts", tally, "--races", `${tally}.races`]));
  assert.deepEqual(await tab.run(linesOverTheRace), [], "a reason goes another way than its edges");
  await opened(phone, drawn);
  const [hint, cut] = await phone.run(() => {
    const { scrollHeight, clientHeight } = document.getElementById("legend");
    return [document.getElementById("hint").innerText, scrollHeight - clientHeight];
  });
  assert.match(hint, /two fingers/);
  assert.doesNotMatch(hint, /wheel|Ctrl/);
  assert.ok(cut <= 0, `${cut} pixels of the legend are cut off`);
}

const ROW = { thing: null, file: null, line: 0 };
const TOUCHES = [{ ...ROW, event: 4, task: "alice", thing: "#1", name: "stock", kind: "lookup", file: "shop.py", line: 6, label: "lookup stock" },
  { ...ROW, event: 4, task: "alice", thing: "#1", name: "stock", kind: "making", file: "shop.py", line: 6, label: "making stock" },
  { ...ROW, event: 4, task: "alice", thing: "#2", name: "stock['left']", kind: "read", file: "shop.py", line: 6, label: "read stock['left']" },
  { ...ROW, event: 5, task: "bob", kind: "local", label: "touch" }, { ...ROW, event: 2, task: "root", kind: "spawn", label: "run loop" },
  { ...ROW, event: 7, task: "bob", thing: "#2", name: "stock['left']", kind: "replacement", file: "shop.py", line: 6, label: "replacement stock" }];

/** The label of an event is its touch that races, and else what tells most of it, in words of a program. What is of the tool has a small
 * mark and no label, and is in no list. */
export async function words(tab) {
  const races = [race("stock['left']", [side(4, "alice", "read", 11), side(7, "bob", "write", 12)])];
  const journal = file("words.journal", rows(TOUCHES)), list = file("words.races", rows(races));
  await opened(tab, pictureOf("words.html", exportOf(LOST_UPDATE), ["--labels", journal, "--races", list]));
  const told = () => tab.run(() => [2, 4, 5, 7].map((event) => [page.labelInPicture(event), page.isOwn(event), page.view.isSmall(event)]));
  assert.deepEqual(await told(), [["", true, true], ["read stock['left']", false, false], ["", true, true], ["write stock['left']", false, false]]);
  await opened(tab, pictureOf("words.html", exportOf(LOST_UPDATE), ["--labels", journal]));
  assert.deepEqual(await told(), [["", true, true], ["read stock['left'] +2", false, false], ["", true, true], ["replace an entry of stock", false, false]]);
  assert.deepEqual(await tab.run(() => page.eventTip(4)), ["look up in stock, shop.py:6", "make stock, shop.py:6", "read stock['left'], shop.py:6", "Event 4, alice: local"]);
  const lock = { ...ROW, event: 4, task: "root", kind: "send", label: "run loop" };
  const path = { ...ROW, event: 4, task: "root", kind: "send", label: "release lock (/home/somebody/shop.py:13)" };
  await opened(tab, pictureOf("path.html", exportOf(["spawn root a", "local root", "local a", "send root m1"]), ["--labels", file("path.journal", rows([path]))]));
  assert.deepEqual(await tab.run(() => [page.view.wordsOfMessages.get("m1"), page.labelInPicture(4)]), ["release lock (shop.py:13)", "release lock (shop.py:13)"]);
  await opened(tab, pictureOf("loop.html", exportOf(["spawn root a", "spawn root ended_tasks_1", "local a", "send root m1", "send root m2", "local ended_tasks_1"]),
    ["--labels", file("loop.journal", rows([lock, { ...lock, event: 5, label: "send GET /stock" }]))]));
  const lists = await tab.run(() => ["unread", "open"].map((id) => document.querySelector(`#${id} summary`).textContent));
  assert.deepEqual(lists, ["Messages that nobody received: 1", "Tasks that did not end: 2"]);
  const lanes = () => tab.run(() => [page.view.layout.lanes, document.getElementById("hidden").textContent]);
  assert.deepEqual(await lanes(), [2, "Nothing is hidden."], "a task of the tool has no lane");
  await tab.run(() => page.choose(6));
  assert.deepEqual(await lanes(), [3, "Nothing is hidden."], "a task that is chosen has one");
  const reports = ["spawn root itc_nursery_1", "spawn itc_nursery_1 a", "spawn itc_nursery_1 b", "local a", "local b"];
  await opened(tab, pictureOf("nursery.html", exportOf(reports), ["--labels", file("nursery.journal", rows([{ ...lock, event: 4, task: "a", kind: "local" }]))]));
  await tab.run(() => {
    page.choose(4);
    page.choose(5, { asOther: true });
  });
  assert.deepEqual(await lanes(), [4, "Nothing is hidden."], "a task of the tool that starts others has a lane");
  for (const nursery of ["shop_itc_nursery", "shop_itc_nursery_12", "longshopc12_itc_nurser_2"]) {
    const started = [`spawn root ${nursery}`, `spawn ${nursery} a`, "local a", "local root"];
    await opened(tab, pictureOf("process.html", exportOf(started), ["--labels", file("process.journal", rows([{ ...lock, event: 3, task: "a", kind: "local" }]))]));
    assert.deepEqual(await tab.run(() => [page.isOwn(1), document.querySelector("#open summary").textContent]), [true, "Tasks that did not end: 2"], nursery);
  }
}
