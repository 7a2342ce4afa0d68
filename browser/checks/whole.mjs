// The checks of the picture as a whole: all of it in view, the map, the rulers, processes, the wall clock, keys and panes.
import assert from "node:assert/strict";
import { readFileSync } from "node:fs";
import { join } from "node:path";
import { exportOf, file, inWork, pictureOf, TOP } from "./program.mjs";
import { alike, pictureOfAlike } from "./first_glance.mjs";
import { race, rows, side } from "./racing.mjs";
import { opened, placeOf, press, shown, text, written } from "./tab.mjs";
import { LOST_UPDATE, WITH_LOCK } from "./traces.mjs";

/** Whole is whole, also where there are more lanes than pixels: each event is in view, and what is drawn has a mark where it stands. The
 * map shows which part is in view, and moves it. */
export async function whole(tab) {
  await shown(tab, pictureOfAlike("whole.html", alike(2000)));
  await tab.run(() => {
    document.getElementById("alike").click();
    page.chooseNothing();
    page.chooseNothing();
  });
  await press(tab, "#fit");
  const drawn = await tab.run(() => {
    const { view, trace } = page, { layout } = view, faults = [];
    view.draw();
    for (let event = 1; event <= trace.events; event += 37) {
      const x = view.x(layout.times[event]), y = view.y(layout.lane(event));
      const isIn = x >= 0 && x <= view.width && y >= view.head && y <= view.height;
      const near = view.context.getImageData(Math.round(x) - 3, Math.round(y) - 3, 7, 7).data;
      const isDrawn = Array.from({ length: 49 }, (_, place) => near[4 * place] < 200).includes(true);
      if (!isIn || !isDrawn) faults.push(event);
    }
    return { faults, lanes: layout.lanes, height: view.high, dense: view.isDense, map: document.getElementById("map").hidden };
  });
  assert.deepEqual([drawn.faults, drawn.lanes, drawn.dense, drawn.map], [[], 2001, true, true]);
  assert.ok(drawn.height < 1, `a lane is ${drawn.height} high`);
  await tab.run(() => page.view.zoom(20));
  await tab.frame();
  assert.equal(await tab.run(() => document.getElementById("map").hidden), false);
  const where = () => tab.run(() => [page.view.left, page.view.top]);
  const [left, top] = await where(), box = await tab.run(() => {
    const { left: x, top: y, width, height } = document.getElementById("map").getBoundingClientRect();
    return [x, y, width, height];
  });
  await tab.click(box[0] + box[2] * 0.9, box[1] + box[3] * 0.9);
  const [right, bottom] = await where();
  assert.ok(right > left && bottom > top, `${[left, top, right, bottom]}`);
  const middle = await tab.run(() => (page.view.left + page.view.width / page.view.scale / 2) / page.view.layout.columns);
  assert.ok(Math.abs(middle - 0.9) < 0.06, String(middle));
}

const PROCESSES = ["spawn root till", "spawn root store", "local till", "send till m1", "recv store m1", "local store", "send store m2", "recv till m2", "local till"];
const BEGIN = 1795798400, TIMES = [0, 5, 1, 1.1, 6.2, 6.3, 6.4, 1.5, 1.6];
const LABELS = ["start process till", "start process store", "touch", "send GET /stock", "receive from another process", "touch", "send 200",
  "receive from another process", "touch"];
const KINDS = ["spawn", "spawn", "local", "send", "recv", "local", "send", "recv", "local"];
const SYSTEM = PROCESSES.map((report, place) => ({ event: place + 1, task: report.split(" ")[1], thing: null, kind: KINDS[place], file: "day.py", line: place + 1,
  time: BEGIN + TIMES[place], label: LABELS[place] }));

/** Each process has a heading, a colour and lanes of its own, and its messages have the words of what they carry. By wall clock each event
 * stands where its clock says, with a bar for when it was by the other clock, as the messages bound it. */
export async function processes(tab) {
  await opened(tab, pictureOf("processes.html", exportOf(PROCESSES), ["--labels", file("processes.journal", rows(SYSTEM))]));
  const texts = (await written(tab)).map(([words]) => words);
  const found = await tab.run(() => {
    const { view } = page;
    const { headings, laneOf, tops } = view.layout, names = page.trace.tasks.map(({ name }) => name);
    return { headings: headings.map(({ group }) => group), tops: names.map((name, place) => [name, tops[laneOf[place]]]),
      colours: [...Array(view.layout.lanes).keys()].map((lane) => view.colourOfLane(lane)), checked: document.getElementById("groups").checked };
  });
  assert.deepEqual([found.headings, found.checked, new Set(found.colours).size], [["root", "till", "store"], true, 3]);
  for (const words of ["GET /stock", "200", "till: 1 task", "store: 1 task"]) assert.ok(texts.includes(words), `${words} of ${texts}`);
  assert.ok(!texts.some((words) => /another process/.test(words)), texts.join());
  await tab.run(() => {
    const time = document.getElementById("time");
    time.value = "clock";
    time.dispatchEvent(new Event("change"));
  });
  const byClock = await tab.run(() => {
    const { view, trace } = page, { times } = view.layout, told = page.clocks.times, faults = [], bars = [];
    for (let one = 1; one <= trace.events; one++) {
      for (let other = 1; other <= trace.events; other++) if (told[one] < told[other] && !(times[one] < times[other])) faults.push([one, other]);
    }
    const rect = view.context.fillRect;
    view.findRange();
    const count = view.findMarks();
    view.context.fillRect = (x, y, width) => bars.push(width);
    view.drawSkews(count);
    delete view.context.fillRect;
    return { faults, bars: bars.filter((width) => width > 1.5).length, isSame: rect === view.context.fillRect, hash: page.view.layout.axis };
  });
  assert.deepEqual([byClock.faults, byClock.isSame, byClock.hash], [[], true, "clock"]);
  assert.ok(byClock.bars > 0, "the skew is drawn");
  assert.match(await tab.run(() => location.hash), /time=clock/);
  const skew = await tab.run(() => page.view.skewOf("store") + page.view.skewOf("till"));
  assert.match(skew, /; clock .* (ahead|behind), ± /);
  const steps = await tab.run(() => {
    page.choose(4);
    page.choose(5, { asOther: true });
    return [...document.querySelectorAll("#chain li span")].map((step) => step.textContent);
  });
  assert.deepEqual(steps, ["comes after: GET /stock"]);
  await unboundedSkew(tab);
}

/** A skew that messages do not bound from both sides has no bar, which would look like a lane. */
async function unboundedSkew(tab) {
  const path = join(TOP, "browser/checks/stored/day");
  await opened(tab, pictureOf("day.html", readFileSync(`${path}.export`), ["--labels", `${path}.journal`]), "#time=clock");
  const [longest, count, width] = await tab.run(() => {
    const { view } = page, bars = [];
    view.findRange();
    const marks = view.findMarks();
    view.context.fillRect = (x, y, wide) => bars.push(wide);
    view.drawSkews(marks);
    delete view.context.fillRect;
    return [Math.max(...bars), bars.length, view.width];
  });
  assert.ok(count > 0 && longest < width, `a bar of ${longest} in a picture of ${width}`);
  assert.equal(await text(tab, "#title"), "Trace of store, seller, audit", "a system is no file of its first process");
  const carried = (await written(tab)).filter(([words]) => ["GET /sell", "200"].includes(words));
  const onLanes = await tab.run((places) => places.filter(([, , y]) => page.view.laneNear(y - 4, 6) >= 0), carried);
  assert.deepEqual([carried.length > 3, onLanes], [true, []], "what a message carries reads as if it stood in a lane");
}

/** A lane of many tasks says what they are called, and how many they are. */
export async function crowds(tab) {
  const one = (task) => [`spawn root job_${task}`, `local job_${task}`, `end job_${task}`, `join root job_${task}`];
  await opened(tab, pictureOf("crowd.html", exportOf(Array.from({ length: 300 }, (_, task) => one(task)).flat())));
  const names = (texts) => texts.map(([words]) => words).filter((words) => /^job/.test(words));
  assert.deepEqual(names(await written(tab)), ["job × 300"]);
  await tab.run(() => page.view.zoom(40));
  assert.match(names(await written(tab))[0], /^job_\d+$/);
  const two = (task) => [`spawn root ${"ab"[task % 2]}_${task}`, `end ${"ab"[task % 2]}_${task}`, `join root ${"ab"[task % 2]}_${task}`];
  await opened(tab, pictureOf("crowds.html", exportOf(Array.from({ length: 300 }, (_, task) => two(task)).flat())));
  assert.ok((await written(tab)).some(([words]) => words === "300 tasks"));
}

const RACES = [race("stock", [side(4, "alice", "read", 11), side(7, "bob", "write", 12)]), race("price", [side(6, "alice", "write", 12), side(7, "bob", "write", 12)])];

/** The list of keys opens at its beginning, also in a window that is too low for it. */
async function helpBegins(tab) {
  const low = (height) => tab.send("Emulation.setDeviceMetricsOverride", { width: 900, height, deviceScaleFactor: 1, mobile: false });
  await low(400);
  await tab.key("?");
  const [scrolled, isHigher] = await tab.run(() => {
    const { scrollTop, scrollHeight, clientHeight } = document.getElementById("help");
    return [scrollTop, scrollHeight > clientHeight];
  });
  assert.deepEqual([scrolled, isHigher], [0, true]);
  await tab.key("Escape");
  await tab.until(() => !document.getElementById("help").open);
  await tab.send("Emulation.setDeviceMetricsOverride", { width: 1280, height: 800, deviceScaleFactor: 1, mobile: false });
}

/** The keys do what the list of keys says; the panel becomes wider and narrower, and is hidden; the filters stand beside the picture. */
export async function keys(tab) {
  const path = pictureOf("keys.html", exportOf(LOST_UPDATE), ["--races", file("keys.races", rows(RACES))]);
  await opened(tab, path);
  assert.equal(await tab.run(() => document.getElementById("hint").hidden), false, "a line tells how to move");
  await helpBegins(tab);
  await tab.key("?");
  const help = await tab.run(() => [document.getElementById("help").open, document.getElementById("help").textContent]);
  assert.ok(help[0]);
  for (const word of ["n", "/", "0", "Tab", "drag", "concurrent", "race", "violet"]) assert.ok(help[1].includes(word), word);
  await tab.key("Escape");
  await tab.until(() => !document.getElementById("help").open);
  await tab.key("/");
  assert.equal(await tab.run(() => document.activeElement.id), "search");
  for (const [sought, count] of [["price", 1], ["shop.py:12", 2], ["alice", 3]]) {
    const found = await tab.run((text) => page.find(text).length, sought);
    assert.equal(found, count, sought);
  }
  await tab.type("price");
  await tab.key("Enter");
  assert.equal(await text(tab, "#chosen h2"), "Race on price");
  await tab.key("Escape");
  const scale = () => tab.run(() => page.view.scale);
  await tab.key("0");
  const begin = await scale();
  await tab.key("-");
  assert.equal(await scale(), begin, "whole is the least");
  await tab.key("z");
  const near = await scale();
  await tab.key("-");
  assert.ok(await scale() <= near);
  await tab.key("+");
  await tab.key("f");
  const boxes = await tab.run(() => ["filters", "stage", "races"].map((id) => {
    const { left, right, width } = document.getElementById(id).getBoundingClientRect();
    return { left, right, width };
  }));
  assert.ok(boxes[0].width > 100 && boxes[0].right <= boxes[1].left + 1 && boxes[1].right <= boxes[2].left, JSON.stringify(boxes));
  await tab.key("f");
  const width = () => tab.run(() => document.getElementById("panel").getBoundingClientRect().width);
  const wide = await width();
  await tab.run(() => document.getElementById("divider").focus());
  await tab.key("ArrowLeft");
  assert.equal(await width(), wide + 30);
  const edge = await tab.run(() => document.getElementById("divider").getBoundingClientRect().left + 3);
  await tab.drag(edge, 400, edge - 100, 400);
  assert.ok(await width() > wide + 100, `${wide} ${await width()}`);
  await tab.run(() => document.activeElement.blur());
  await tab.key("h");
  assert.equal(await width(), 0);
  await tab.key("h");
  assert.ok(await width() > 0);
  await tab.wheel(400, 300, 0, 40);
  assert.equal(await tab.run(() => document.getElementById("hint").hidden), true, "the line is gone once somebody moved");
}

/** One page has all parts of a run: it opens any, names those beside it, and says of each race in which part its touches are. */
export async function parts(tab) {
  const exports = [LOST_UPDATE, WITH_LOCK, [...LOST_UPDATE, "local root"]].map((reports, place) => {
    file(`run.part-${place + 1}`, exportOf(reports));
    file(`run.part-${place + 1}.journal`, rows([{ event: 1, task: "root", thing: null, kind: "local", file: "shop.py", line: 1, label: `begin part ${place + 1}` }]));
    return `run.part-${place + 1}\n`;
  });
  const across = race("stock", [side(4, "alice", "read", 11), { ...side(6, "alice", "write", 12), part: 3 }]);
  const list = [{ races: 2, possible: 0, unseen: [] }, RACES[0], across];
  const path = pictureOf("parts.html", "", ["--parts", file("run", exports.join("")), "--races", file("parts.races", rows(list)), "--program", "shop.py"]);
  await opened(tab, path);
  const told = () => tab.run(() => [page.part, page.trace.events, document.getElementById("part").value, document.getElementById("partBefore").disabled,
    document.getElementById("partBehind").textContent, page.labels.get(1).label]);
  assert.deepEqual(await told(), [1, 11, "1", true, "2 ›", "begin part 1"]);
  assert.deepEqual(await tab.run(() => [...document.getElementById("part").options].map((option) => option.textContent)),
    ["Part 1/3, 2 races", "Part 2/3", "Part 3/3, 1 race"]);
  assert.match(await text(tab, "#races li:nth-child(2)"), /part 1 and 3$/);
  await tab.key("]");
  await tab.until(() => page.part === 2 && page.verdict !== null);
  assert.deepEqual(await told(), [2, 9, "2", false, "3 ›", "begin part 2"]);
  assert.equal(await tab.run(() => page.verdict), "yes 9");
  await tab.key("n");
  await tab.until(() => page.part === 1 && page.view.chosen === 4 && page.verdict !== null);
  await press(tab, "#races li:nth-child(2) button");
  assert.deepEqual([await text(tab, "#chosen h2"), await tab.run(() => page.view.other)], ["Race on stock", 0]);
  await press(tab, "#sides li:nth-child(2) button");
  await tab.until(() => page.part === 3 && page.verdict !== null && page.view.chosen === 6);
  assert.deepEqual([await text(tab, "#chosen h2"), (await told())[1]], ["Race on stock", 12]);
  await opened(tab, path, "#part=3&event=6");
  assert.deepEqual([...await tab.run(() => [page.part, page.view.chosen]), await text(tab, "#title")], [3, 6, "2 races in shop.py"]);
  await opened(tab, path, "#part=9");
  assert.equal(await tab.run(() => page.part), 1);
  await firstRaceOfALaterPart(tab, exports);
  await goesOn(tab);
}

/** What stands for the part before is no start of a task, and no task of which nobody knows the end. */
async function goesOn(tab) {
  const label = (event, task, kind) => ({ event, task, thing: null, kind, file: null, line: 0, label: "goes on" });
  const border = [label(1, "root", "spawn"), label(2, "root", "spawn"), label(3, "root", "local")];
  [["spawn root alice", "spawn root bob"], ["spawn root alice", "spawn root bob", "local root", "local alice", "local bob", "end alice", "end bob"]].forEach((reports, place) => {
    file(`on.part-${place + 1}`, exportOf(reports));
    file(`on.part-${place + 1}.journal`, rows(place === 0 ? [{ ...label(1, "root", "spawn"), label: "start alice" }] : border));
  });
  const sides = [side(4, "alice", "write", 12), side(5, "bob", "write", 12)].map((one) => ({ ...one, part: 2 }));
  const list = file("on.races", rows([{ races: 1, possible: 0, unseen: [] }, race("stock", sides)]));
  await opened(tab, pictureOf("on.html", "", ["--parts", file("on", "on.part-1\non.part-2\n"), "--races", list]));
  const told = await tab.run(() => [...document.querySelectorAll("#freedom dd button:first-child")].map((button) => button.textContent));
  assert.deepEqual(told, ["1 in part 1, or earlier", "1 alice goes on from part 1", "6 alice ends", "2 bob goes on from part 1", "7 bob ends"]);
  assert.deepEqual(await tab.run(() => page.eventTip(2)), ["bob goes on from part 1", "Event 2"]);
  assert.equal(await text(tab, "#open summary"), "Tasks that did not end: 1");
  await tab.key("[");
  await tab.until(() => page.part === 1 && page.verdict !== null);
  assert.equal(await text(tab, "#open summary"), "Tasks that did not end in this part: 3");
}

/** The page of a run in parts opens on its first race, also if the first part has none. An event of the address is of the first part. */
async function firstRaceOfALaterPart(tab, exports) {
  const sides = [side(4, "alice", "read", 11), side(7, "bob", "write", 12)].map((one) => ({ ...one, part: 3 }));
  const list = file("later.races", rows([{ races: 1, possible: 0, unseen: [] }, race("stock", sides)]));
  const path = pictureOf("later.html", "", ["--parts", file("run", exports.join("")), "--races", list]);
  await opened(tab, path);
  assert.deepEqual(await tab.run(() => [page.part, page.view.chosen, page.view.other]), [3, 4, 7]);
  await opened(tab, path, "#event=2");
  assert.deepEqual(await tab.run(() => [page.part, page.view.chosen]), [1, 2]);
}

/** A break is drawn where a task gets the lane of another one, and the line of one that did not end goes only a little on. */
export async function ends(tab) {
  await opened(tab, pictureOf("breaks.html", exportOf(["spawn root a", "local a", "end a", "join root a", "spawn root b", "local b", "local root"])));
  const [breaks, widths, lanes] = await tab.run(() => {
    const { view } = page, found = [], spans = [], { drawBreak } = view;
    view.drawBreak = (x, y) => found.push([Math.round(x), Math.round(y)]);
    view.draw();
    delete view.drawBreak;
    const { layout } = view, b = page.trace.taskPlaces.get("b");
    return [[found, [Math.round(view.x(layout.from[b])), Math.round(view.y(layout.laneOf[b]))], typeof drawBreak], view.endOf(b) - view.x(layout.last[b]), layout.lanes];
  });
  assert.deepEqual([breaks[0], lanes], [[breaks[1]], 2]);
  assert.ok(widths > 0 && widths < 60, String(widths));
  await tab.click(...await placeOf(tab, 2));
  await opened(tab, inWork("worked.html"));
}
